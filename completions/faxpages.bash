# Completes the words of faxpages(1) in bash.

# The options of a command that have no value, and those that have one.
_faxpages_options() {
    case $1 in
    list) echo --cursor --max ;;
    rows) echo --cursor --max --long ;;
    convert | salvage) echo -o --order --k --strip --align ;;
    check) echo --received ;;
    esac
}

# The words that may stand after an option, or nothing where they are the user's own.
_faxpages_values() {
    case $1 in
    -o) echo pbm mh mr mmr ;;
    --order) echo 1 2 ;;
    esac
}

_faxpages() {
    local word=${COMP_WORDS[COMP_CWORD]} before=${COMP_WORDS[COMP_CWORD - 1]} words=
    COMPREPLY=()
    if [ "$COMP_CWORD" = 1 ]; then
        words='list rows convert check salvage'
    else
        case $before in
        -o | --order) words=$(_faxpages_values "$before") ;;
        --cursor | --max | --k | --strip) return ;;
        *) [[ $word != -* ]] || words=$(_faxpages_options "${COMP_WORDS[1]}") ;;
        esac
    fi
    if [ -n "$words" ]; then
        mapfile -t COMPREPLY < <(compgen -W "$words" -- "$word")
    else
        compopt -o filenames
        mapfile -t COMPREPLY < <(compgen -f -- "$word")
    fi
}

complete -F _faxpages faxpages
