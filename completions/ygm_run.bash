# Completion of ygm_run for bash.
_ygm_run() {
    local word=${COMP_WORDS[COMP_CWORD]} place
    COMPREPLY=()
    if [ "$COMP_CWORD" -eq 1 ]; then
        mapfile -t COMPREPLY < <(compgen -W 'tally --help -h --version' -- "$word")
        return
    fi
    # Options stand before the first file, each with its value.
    for ((place = 2; place < COMP_CWORD; place += 2)); do
        case ${COMP_WORDS[place]} in
            --) break ;;
            --*) ;;
            *) break ;;
        esac
    done
    if [ "$place" -eq $((COMP_CWORD + 1)) ]; then
        case ${COMP_WORDS[COMP_CWORD - 1]} in
            --ranks | --cores | --buffer) return ;;
            --scheme) mapfile -t COMPREPLY < <(compgen -W 'none nr nlnr' -- "$word") ;;
        esac
        return
    fi
    if [ "$place" -eq "$COMP_CWORD" ] && [[ $word == -* ]]; then
        mapfile -t COMPREPLY < <(compgen -W '--ranks --cores --scheme --buffer --' -- "$word")
        return
    fi
    compopt -o filenames 2>/dev/null
    mapfile -t COMPREPLY < <(compgen -f -- "$word")
}
complete -F _ygm_run ygm_run
