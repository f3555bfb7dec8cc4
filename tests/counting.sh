# One way to count for the tests that are scripts of bash: they make claims, and end with `ends NAME`.

room=$(mktemp -d) || exit 1
trap 'rm -rf -- "$room"' EXIT
passed=0
failed=0

# What a file says, or of a long one its beginning and its end, where the reason is: ten lines of each, with 400 letters
# a line.
shown() {
    local lines
    lines=$(wc -l <"$1")
    if [ "$lines" -le 20 ]; then
        cut -c -400 -- "$1"
    else
        { head -n 10 -- "$1" && printf '.. and %s lines more ..\n' $((lines - 20)) && tail -n 10 -- "$1"; } | cut -c -400
    fi
}

# The same of a file that may be one long line: 600 bytes of its beginning, and of its end.
shown_bytes() {
    local bytes
    bytes=$(wc -c <"$1")
    if [ "$bytes" -le 1200 ]; then
        cat -- "$1"
    else
        head -c 600 -- "$1" && printf '\n.. and %s bytes more ..\n' $((bytes - 1200)) && tail -c 600 -- "$1"
    fi
}

# A claim is true where its command ends with status 0; what it says is shown where it is not.
claim() {
    local name=$1
    shift
    if "$@" >"$room/said" 2>&1; then
        passed=$((passed + 1))
    else
        failed=$((failed + 1))
        printf 'FAILED: %s\n' "$name"
        shown "$room/said"
    fi
}

# A run is right where its status, its output and its error stream are these; the texts may have escapes of printf.
#   is NAME STATUS OUTPUT ERROR COMMAND..
is() {
    claim "$1" answers "${@:2}"
}

answers() {
    local status=$1 output=$2 error=$3 got
    shift 3
    "$@" >"$room/output" 2>"$room/error" </dev/null
    got=$?
    printf 'status %s, output and error stream:\n' "$got"
    shown_bytes "$room/output"
    shown_bytes "$room/error"
    [ "$got" = "$status" ] && printf -- "$output" | cmp -s - "$room/output" &&
        printf -- "$error" | cmp -s - "$room/error"
}

# Whether a machine has the command; else what it would have tried is said.
has() {
    command -v "$1" >/dev/null && return
    printf 'SKIPPED: %s is not installed, so: %s\n' "$1" "$2"
    return 1
}

# The first Python that has these modules, the one on the PATH or Debian's, which has what Debian's packages bring:
# python_with MODULE.. A folder of the sources, such as cups/, is no module.
python_with() {
    local python
    for python in python3 /usr/bin/python3; do
        if (cd / && "$python" -c "import $(IFS=,; printf '%s' "$*")" 2>/dev/null); then
            printf '%s\n' "$python"
            return
        fi
    done
    return 1
}

# Whether a command that is there runs: rustup's do not where they find no home.
works() {
    "$@" >/dev/null 2>&1 </dev/null && return
    printf 'SKIPPED: this does not run here, and what needs it is left out: %s\n' "$*"
    return 1
}

# Ends the test with its count.
ends() {
    printf '%s: %s passed, %s failed\n' "$1" "$passed" "$failed"
    exit $((failed != 0))
}
