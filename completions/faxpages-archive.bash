# Completes the words of faxpages-archive(1) and of the scripts of faxpages-recipes(1) in bash.

# The options of a command, and those of a command of faxpages-archive.
_faxpages_command_options() {
    case $1 in
    faxpages-archive-check) echo --table --dask --scheduler --processes --timeout --again --share --follow --renew --gone --names --faults-ok --lost ;;
    faxpages-archive-convert) echo --to --order --k --strip --align --fields --salvage --adopt --delete --all-or-nothing --give-up --table --dask --scheduler --processes --timeout --again --share --follow --renew --gone --names --faults-ok ;;
    faxpages-archive-table) echo --csv --json --summary --prometheus --faulty --mended ;;
    faxpages-archive-verify) echo --table --dask --scheduler --processes --timeout --gone --names ;;
    faxpages-compare) echo --replace ;;
    faxpages-from-pdf) echo --standard --as-is --coding --width --replace ;;
    faxpages-hylafax) echo --remove ;;
    faxpages-receive) echo --whole --mended ;;
    faxpages-sweep) echo --gone ;;
    esac
}

# The words that may stand after an option of these.
_faxpages_command_values() {
    case $1 in
    --to) echo pbm mh mr mmr ;;
    --coding) echo mh mr mmr ;;
    --order) echo 1 2 ;;
    --again) echo unread faulty copies all ;;
    --width) echo 1728 2048 2432 ;;
    esac
}

_faxpages_command() {
    local word=${COMP_WORDS[COMP_CWORD]} name=${COMP_WORDS[0]##*/} words=
    COMPREPLY=()
    if [ "$name" = faxpages-archive ] && [ "$COMP_CWORD" = 1 ]; then
        words='check convert table verify merge'
    else
        [ "$name" != faxpages-archive ] || name=$name-${COMP_WORDS[1]}
        words=$(_faxpages_command_values "${COMP_WORDS[COMP_CWORD - 1]}")
        [[ -n $words || $word != -* ]] || words=$(_faxpages_command_options "$name")
    fi
    if [ -n "$words" ]; then
        mapfile -t COMPREPLY < <(compgen -W "$words" -- "$word")
    else
        compopt -o filenames
        mapfile -t COMPREPLY < <(compgen -f -- "$word")
    fi
}

complete -F _faxpages_command faxpages-archive faxpages-compare faxpages-from-pdf faxpages-html faxpages-hylafax \
    faxpages-mail faxpages-picture faxpages-receive faxpages-salvage faxpages-sweep
