# bash completion for gazhdor
_gazhdor() {
    local word=${COMP_WORDS[COMP_CWORD]} options='' kind='fit|FIT|fit.gz|zip'
    COMPREPLY=()
    if [ "$COMP_CWORD" -eq 1 ]; then
        mapfile -t COMPREPLY < <(compgen -W 'check show table to-csv from-csv json gpx mend edit join help --help --version' -- "$word")
        return
    fi
    case ${COMP_WORDS[1]} in
    check) options='--recursive --json' ;;
    show | table | to-csv | gpx) options='--recursive --output' ;;
    json) options='--recursive --output --extra --names --numbers --ready' ;;
    from-csv) options=--output kind='csv|CSV' ;;
    mend) options='--force --whole' ;;
    edit) options='--drop --shift --from --to' ;;
    join) options=--one ;;
    help) kind='' options='check show table to-csv from-csv json gpx mend edit join' ;;
    *) return ;;
    esac
    if [ -z "$kind" ] || [[ $word == -* ]]; then
        mapfile -t COMPREPLY < <(compgen -W "$options ${kind:+--help}" -- "$word")
    else
        compopt -o filenames 2>/dev/null
        mapfile -t COMPREPLY < <(shopt -s extglob; compgen -d -- "$word"; compgen -f -X "!*.@($kind)" -- "$word")
    fi
}
complete -F _gazhdor gazhdor
