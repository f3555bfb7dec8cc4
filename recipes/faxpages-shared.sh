# shellcheck shell=sh
# For the other scripts here: which program is missing that one of them calls, why a file cannot be read, whether it is
# still coming in, and folders for what they make.

# Debian's package of a program, or the one of ours.
package_of() {
    case $1 in
    faxpages | faxpages-*) echo faxpages ;;
    pam* | pgm* | pngtopnm | pnm* | ppm* | rgb3toppm) echo netpbm ;;
    tiff2pdf | tiffcp | tiffset) echo libtiff-tools ;;
    pdfimages | pdfinfo | pdftoppm) echo poppler-utils ;;
    python3) echo python3 ;;
    awk) echo mawk ;;
    cmp) echo diffutils ;;
    find) echo findutils ;;
    flock) echo util-linux ;;
    grep | sed) echo "$1" ;;
    iconv) echo libc-bin ;;
    *) echo coreutils ;; # and the rest that the scripts call
    esac
}

# Names the first of these programs that is not there, and the package that has it; fails where all are there.
#   missing PROGRAM..
missing() {
    for wanted; do
        if ! command -v "$wanted" >/dev/null; then
            printf '%s is not on the PATH: the package %s has it\n' "$wanted" "$(package_of "$wanted")"
            return
        fi
    done
    return 1
}

# Why a file cannot be read: it is no file, or of more bytes than are read, or what the system says.
reason() {
    case $1 in /*) ;; *) set -- "./$1" ;; esac # no option
    if [ -e "$1" ] && [ ! -f "$1" ]; then
        echo 'not a regular file'
    elif [ -f "$1" ] && [ "$(stat -L -c %s "$1")" -gt 268435456 ]; then
        echo 'larger than 256 MiB'
    else
        # By cat, since shells have other words.
        { cat "$1" >/dev/null; } 2>&1 | sed -n '$s/.*: //p'
    fi
}

# The title of a PDF of a fax: the file's name, in letters that each reader of PDFs shows.
title_of() {
    printf '%s' "${1##*/}" | LC_ALL=C tr -c ' -~' '?'
}

# What receivers say of bad rows, in a line, by the report of `faxpages check --received`: how many of which page they
# mended, or left, with pages numbered from 1.
mended() {
    awk '
        function rows(count) { return count == 0 ? "rows" : count == 1 ? "1 row" : count " rows" }
        function say(kind, done) {
            if (!pages[kind]) return
            said = said (said == "" ? "" : "; ") done " by the receiver: " \
                (pages[kind] > 2 ? rows(all[kind]) " of " pages[kind] " pages" : named[kind])
        }
        $1 == "note" && $4 == "N6" {
            kind = $8 == 2
            all[kind] += $6
            named[kind] = named[kind] (pages[kind]++ ? " and " : "") rows($6 + 0) " of page " ($3 + 1)
        }
        END {
            say(0, "mended")
            say(1, "left bad")
            if (said != "") print said
        }' "$@"
}

# Whether receivers say that more than so many percent of the rows of a report were bad: is_mended_beyond PERCENT REPORT.
is_mended_beyond() {
    awk -v most="$1" '
        $1 == "note" && $4 == "N6" && $6 != "-" { bad += $6 }
        $1 == "pages" { rows = $4 }
        END { exit !(100 * bad > most * rows) }' "$2"
}

# Makes a folder FOLDER/NAME.XXXXXX of this call's own, whose path the variable has then. The descriptor locks it until
# the call has ended, and all that it started. What killed calls left there is deleted.
#   make_own VARIABLE DESCRIPTOR FOLDER/NAME
make_own() {
    sweep_left "$3"
    eval "$1=\$(mktemp -d -- \"\$3.XXXXXX\")" || return
    eval "exec $2<\"\$$1\"" || return
    unlocked=$(flock -n "$2" 2>&1) || : # some network disks have no such lock
}

# Deletes the folders FOLDER/NAME.XXXXXX of one's own that no call has locked. One that is younger than a minute may be
# about to be locked; and where none can be, one that is younger than an hour may be at work.
#   sweep_left FOLDER/NAME
sweep_left() {
    for left in "$1".??????; do
        [ -d "$left" ] && [ ! -L "$left" ] || continue
        # shellcheck disable=SC2034 # What it says is not printed: the status is enough.
        unlocked=$(flock -n -E 77 "$left" true 2>&1)
        case $? in
        0) age=1 ;;
        77) continue ;;
        *) age=60 ;;
        esac
        find "$left" -maxdepth 0 -type d -user "$(id -u)" -mmin "+$age" -exec rm -rf {} +
    done
}

# Lets nobody read what this call makes who may not read these files, by their permissions for their group and for
# others. The mask of modes may forbid more.
#   as_private_as FILE..
as_private_as() {
    for private; do
        modes=$(stat -L -c '%a %g' -- "$private") || return
        group=${modes#* }
        modes=0${modes% *}
        hidden=0
        [ $((modes & 04)) != 0 ] || hidden=077
        # What is made is of the group of this call, which may be another one than the file's.
        if [ "$group" = "$(id -g)" ]; then
            hidden=$((hidden & 07 | (modes & 040 ? 0 : 070)))
        fi
        umask "$(printf '%o' $((0$(umask) | hidden)))" || return
    done
}

# The bounds of what reads strangers' files: the seconds of the processor that a call may take, and the memory of each
# program that it starts.
cpu_seconds=${FAXPAGES_CPU_SECONDS-600}
memory_mib=${FAXPAGES_MEMORY_MIB-2048}
seconds_left=$cpu_seconds

# Says which of these is no number; fails where both are.
wrong_bound() {
    for bound in "$cpu_seconds" "$memory_mib"; do
        case $bound in
        '' | 0* | *[!0-9]* | ????????*)
            echo "FAXPAGES_CPU_SECONDS and FAXPAGES_MEMORY_MIB are numbers from 1 to 9999999, and not '$bound'"
            return
            ;;
        esac
    done
    return 1
}

# Runs a program within the bounds. The shell would say by which signal it ended: met_bound does.
#   bounded PROGRAM WORD..
bounded() (
    lower -t "$seconds_left"
    lower -v $((memory_mib * 1024))
    exec 3>&2 2>/dev/null
    "$@" 2>&3 3>&- || exit
)

seconds_allowed() {
    echo "$cpu_seconds"
}

# Whether a call may take more seconds than these.
allows_more_than() {
    [ "$1" -lt "$cpu_seconds" ]
}

# Runs another of the scripts, with the seconds that this one has left: with_rest SCRIPT WORD..
with_rest() {
    FAXPAGES_CPU_SECONDS=$seconds_left "$@"
}

# Lowers a limit, where it is not as low: lower OPTION LIMIT.
# shellcheck disable=SC3045 # Shells of Debian have soft and hard limits.
lower() {
    for limit in "$(ulimit -S "$1")" "$(ulimit -H "$1")"; do
        [ "$limit" = unlimited ] || [ "$limit" -gt "$2" ] || return 0
    done
    ulimit -S "$1" "$2"
}

# Counts the seconds that the programs have taken so far which this shell started, and fails where none are left: it
# takes a folder for a file.
#   spend FOLDER
spend() {
    times >"$1/times" || return
    {
        read -r _
        read -r user system
    } <"$1/times"
    user=$((${user%%m*} * 60 + $(whole "$user")))
    system=$((${system%%m*} * 60 + $(whole "$system")))
    seconds_left=$((cpu_seconds - user - system))
    [ "$seconds_left" -gt 0 ]
}

# The whole seconds of 1m2.345s.
whole() {
    set -- "${1#*m}"
    echo "${1%%[.,]*}"
}

# What a program has said that failed, or which bound it has met.
#   told STATUS FILE
told() {
    if [ "$1" = 152 ]; then # SIGXCPU
        echo "it takes more than $cpu_seconds seconds of the processor; FAXPAGES_CPU_SECONDS can allow more"
    elif [ "$(tail -n 1 "$2")" = 'fault: Memory' ]; then
        echo "fault: Memory, where FAXPAGES_MEMORY_MIB allows $memory_mib"
    else
        cat "$2"
    fi
}

# Why a file may still be coming in: it changed within the last minute, by its time of change, unless --whole says that
# this does not count; or another program has it open to write, or has locked it. Fails where it is not coming in.
# faxpages-archive has the same rule.
#   incoming FILE [--whole]
incoming() {
    if [ "${2-}" != --whole ] &&
        [ -n "$(find -L "$1" -prune -newermt '1 minute ago' ! -newermt '1 minute')" ]; then
        echo 'it changed within the last minute'
    elif is_written "$1" 2>/dev/null; then
        echo 'another program has it open to write, or has locked it'
    else
        return 1
    fi
}

# Whether another program has a file open to write, or has locked it. The system grants no lease of such a file; where
# there is no perl to ask for one, or none is granted to this user, the open files of all processes are looked at that
# may be.
is_written() {
    flock -n -s -E 77 9 9<"$1"
    [ $? != 77 ] || return 0
    perl -e 'exit(fcntl(STDIN, 1024, 0) ? 0 : $! == 11 ? 77 : 1)' <"$1"
    case $? in
    0) return 1 ;;
    77) return 0 ;;
    esac
    case $(find -L /proc/[0-9]*/fd -maxdepth 1 -samefile "$1" | sed 's|/fd/|/fdinfo/|' |
        xargs -r sed -n 's/^flags:.*\(.\)$/\1/p') in
    *[1256]*) return 0 ;;
    esac
    return 1
}
