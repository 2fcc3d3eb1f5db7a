# bash completion for fit
_fit() {
    local word=${COMP_WORDS[COMP_CWORD]} kind='fit|FIT'
    COMPREPLY=()
    if [ "$COMP_CWORD" -eq 1 ]; then
        mapfile -t COMPREPLY < <(compgen -W 'check show to-csv from-csv table --help' -- "$word")
    elif [ "$COMP_CWORD" -eq 2 ] && [ "${COMP_WORDS[1]}" != --help ]; then
        if [ "${COMP_WORDS[1]}" = from-csv ]; then kind='csv|CSV'; fi
        compopt -o filenames 2>/dev/null
        mapfile -t COMPREPLY < <(shopt -s extglob; compgen -d -- "$word"; compgen -f -X "!*.@($kind)" -- "$word")
    fi
}
complete -F _fit fit
