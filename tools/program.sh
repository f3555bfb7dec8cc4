# Finds the program, and the library for C, that were built from the sources as they stand. For the scripts at the top,
# which set root before.
#
# Two folders may have them: shipped/, which the repository brings, and built/, where ./build puts what it built.
# Beside a program stands faxpages.o.gz, its object file, which has all but the C library, and faxpages.txt: the version, the
# kit, the SHA-256 of the object file, the C library in the program, its compiler and one SHA-256 over what was taken of
# them, the SHA-256 of the program, one over what it was built from, and at last the SHA-256 of these lines. Where a machine has no C library to put in, ./build makes a program that takes
# the machine's when it is run; its text has no line `parts`. Beside a library stands libfaxpages.txt, which says the
# same of the shared library and of the archive, and has the version of objcopy.

# Where it is kept that a program was seen to be of these sources, so that the next call need not read them all.
readonly seen_here=$root/built/seen
readonly seen_elsewhere=${XDG_CACHE_HOME:-${HOME:-/nonexistent}/.cache}/faxpages/seen

# The crates that one stands on, lowest first, and itself; and the paths of what it is built from: those of the program
# by fax_tool, and of the library by fax_c.
read_crates() {
    local top=$1 name uses wanted=
    crates=()
    paths=(crates.txt)
    while IFS=: read -r name uses; do
        [ "${name% staticlib}" != "$top" ] || wanted="$uses $top "
    done <"$root/crates.txt"
    while IFS=: read -r name _; do
        name=${name% staticlib}
        [[ -n $name && $wanted = *" $name "* ]] || continue
        crates+=("$name")
        paths+=("crates/$name/"{src,specs,proofs})
    done <"$root/crates.txt"
    case $top in
    fax_tool) paths+=(VERSION tools/build-program tools/large_blocks.c) ;;
    fax_c) paths+=(VERSION include/faxpages.h tools/build-library) ;;
    esac
}

# Finds the files at these paths that count, with these last words of find. Tests do not.
find_sources() {
    (cd -- "$root" && find "${paths[@]}" \( -name tests -o -name tests.rt \) -prune -o -type f \
        \( -name '*.rt' -o -name '*.antt' -o -name crates.txt -o -name VERSION -o -name faxpages.h -o -name 'build-*' \
        -o -name large_blocks.c \) "$@")
}

digest_of() {
    sha256sum | cut -c -64
}

# One SHA-256 over the paths and the contents of the sources.
sources_digest() {
    find_sources -print0 | LC_ALL=C sort -z | (cd -- "$root" && xargs -0 sha256sum --) | digest_of
}

# The text that stands beside what was built: these lines, and their digest.
text_of() {
    printf '%s\ntext %s\n' "$1" "$(printf '%s\n' "$1" | digest_of)"
}

# The objcopy at hand, by which the archive is made: another version may give other bytes.
objcopy_version() {
    LC_ALL=C objcopy --version | head -n 1
}

# What a text says: `field NAME FILE`.
field() {
    sed -n "s/^$1 //p" "$2"
}

# Whether the program of a folder has the C library inside, by its text.
is_static() {
    [ -n "$(field parts "$1/faxpages.txt")" ]
}

# The oldest GNU C library that has what a program or a library calls, by the versions of its symbols.
c_library_of() {
    grep -aoE 'GLIBC_[0-9]+(\.[0-9]+)+' "$1" | sed 's/GLIBC_//' | sort -V | tail -n 1
}

# Whether the text of a program or of a library is as it was written, and of the sources with this digest; else why
# says what is not so: is_text_of WHAT TEXT SOURCES.
is_text_of() {
    local text=$root/$2
    why="$2 is not as it was written"
    text_of "$(head -n -1 -- "$text")" | cmp -s - "$text" || return
    why="the sources are not those of the $1 in ${2%/*}$(name_newer "$text")"
    [ "$(field sources "$text")" = "$3" ]
}

# Whether a file is the one that the text beside it names by this word: is_named WORD WHAT FILE TEXT.
is_named() {
    why="$3 is not the $2 that $4 beside it names"
    [ "$(field "$1" "$root/${3%/*}/$4")" = "$(digest_of <"$root/$3")" ]
}

# Whether the program in a folder is of the sources with this digest; else why says what is not so.
is_of_sources() {
    local program=$1/faxpages
    why="there is no program in $1"
    [ -x "$root/$program" ] && [ -r "$root/$program.txt" ] && is_text_of program "$program.txt" "$2" &&
        is_named program program "$program" faxpages.txt
}

# The same of the library in a folder.
is_library_of_sources() {
    local library=$1/libfaxpages
    why="there is no library in $1"
    [ -r "$root/$library.so.1" ] && [ -r "$root/$library.a" ] && [ -r "$root/$library.txt" ] &&
        is_text_of library "$library.txt" "$2" &&
        is_named shared library "$library.so.1" libfaxpages.txt &&
        is_named archive archive "$library.a" libfaxpages.txt
}

# Names the source that was changed last, where that was after a file.
name_newer() {
    local newer
    newer=$(find_sources -newer "$1" -printf '%T@ %p\n' | sort -n | tail -n 1)
    printf '%s' "${newer:+: ${newer#* } is newer}"
}

# Whether the program in a folder runs on this machine, by a run of it; else why says what the machine lacks.
fits() {
    local said
    said=$(LC_ALL=C "$root/$1/faxpages" list "$root/samples/one-mh-page.tif" 2>&1) && return
    case $said in
    fault:*) return 0 ;; # It runs; but it was refused memory, say.
    *x86-64-v2*) why="the program in $1 needs a processor with SSE4.2" ;;
    *'Exec format error'*) why="the program in $1 needs an x86-64 processor" ;;
    *GLIBC_* | *'required file not found'*)
        why="the program in $1 needs the GNU C library $(c_library_of "$root/$1/faxpages") or later"
        ;;
    *) why="the program in $1 does not run here: ${said##*: }" ;;
    esac
    return 1
}

# Keeps that the program of a folder was seen to be of the sources in this state, where there is a place for it. In a
# folder of somebody else's, nothing is put.
keep_seen() {
    local seen
    for seen in "$seen_here" "$seen_elsewhere"; do
        [ "$seen" != "$seen_here" ] || [ -O "$root" ] || continue
        { mkdir -p -- "${seen%/*}" && printf '%s\n' "$1" "$2" >"$seen.$$" && mv -f -- "$seen.$$" "$seen"; } \
            2>/dev/null && break
    done
}

# Sets program to one that is of these sources and fits this machine; else why says what is not so.
find_program() {
    local folder state seen sources reason=
    read_crates fax_tool
    # Another number or time of one of these comes with each change of it.
    state=$HOSTNAME$'\n'$(cd -- "$root" && find {shipped,built}/faxpages{,.txt} "${paths[@]}" \
        -printf '%i %C@ %m\n' 2>/dev/null)
    for seen in "$seen_here" "$seen_elsewhere"; do
        [ -r "$seen" ] || continue
        seen=$(<"$seen")
        program=$root/${seen%%$'\n'*}/faxpages
        [ "${seen#*$'\n'}" != "$state" ] || return 0
    done
    sources=$(sources_digest)
    for folder in shipped built; do
        program=$root/$folder/faxpages
        if is_of_sources "$folder" "$sources" && fits "$folder"; then
            keep_seen "$folder" "$state"
            return 0
        fi
        reason=${reason:-$why}
    done
    why=$reason
    return 1
}

# The same, where ./build makes one if there is none.
need_program() {
    find_program && return
    "$root/build" && find_program
}

# Sets library to the folder of one that is of these sources; else why says what is not so.
find_library() {
    local folder sources reason=
    read_crates fax_c
    sources=$(sources_digest)
    for folder in shipped built; do
        library=$root/$folder
        ! is_library_of_sources "$folder" "$sources" || return 0
        reason=${reason:-$why}
    done
    why=$reason
    return 1
}

# The same, where ./build makes one if there is none.
need_library() {
    find_library && return
    "$root/build" && find_library
}
