# Completions of bacgw for bash.
_bacgw() {
    local word=${COMP_WORDS[COMP_CWORD]} before=${COMP_WORDS[COMP_CWORD - 1]} equals='' options
    COMPREPLY=()
    # OPTION=VALUE comes as three words, unless COMP_WORDBREAKS lacks the "=".
    if [ "$word" = = ]; then
        equals=yes word=''
    elif [ "$before" = = ]; then
        equals=yes before=${COMP_WORDS[COMP_CWORD - 2]}
    elif [[ $word == --*=* ]]; then
        case $word in
            --config=* | --log=* | --state=* | --reload=* | --trial=* | --trial-log=* | --audit=* | --metrics=*) mapfile -t COMPREPLY < <(compgen -f -P "${word%%=*}=" -- "${word#*=}") ;;
        esac
        return
    fi
    if [ "$COMP_CWORD" = 1 ]; then
        options='check replay run help --help --version'
    else
        case $before in
            --config | --log | --state | --reload | --trial | --trial-log | --audit | --metrics) compopt -o default; return ;;
            --turns) return ;;
            --on-log-failure) mapfile -t COMPREPLY < <(compgen -W 'end hold' -- "$word"); return ;;
            --stats) if [ "${COMP_WORDS[1]}" = run ]; then return; fi ;;
        esac
        if [ "$equals" ]; then return; fi
        case ${COMP_WORDS[1]} in
            check) options='--config --help' ;;
            replay) options='--config --explain --stats --help' ;;
            run) options='--config --log --on-log-failure --turns --stats --stats-rules --verbose --state --reload --trial --trial-log --trial-all --audit --stamp --metrics --help' ;;
            help) options='check replay run' ;;
            *) return ;;
        esac
    fi
    mapfile -t COMPREPLY < <(compgen -W "$options" -- "$word")
}
complete -F _bacgw bacgw
