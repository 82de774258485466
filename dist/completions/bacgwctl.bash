# Completions of bacgwctl for bash.
_bacgwctl() {
    local word=${COMP_WORDS[COMP_CWORD]} before=${COMP_WORDS[COMP_CWORD - 1]} equals='' options
    COMPREPLY=()
    # OPTION=VALUE comes as three words, unless COMP_WORDBREAKS lacks the "=".
    if [ "$word" = = ]; then
        equals=yes word=''
    elif [ "$before" = = ]; then
        equals=yes before=${COMP_WORDS[COMP_CWORD - 2]}
    elif [[ $word == --*=* ]]; then
        case $word in
            --config=* | --with=* | --log=* | --state=* | --reload=* | --was=*) mapfile -t COMPREPLY < <(compgen -f -P "${word%%=*}=" -- "${word#*=}") ;;
        esac
        return
    fi
    if [ "$COMP_CWORD" = 1 ]; then
        options='check explain lint migrate rules why compare log state reload stop status suggest report objects ask init help --help --version'
    else
        case $before in
            --config | --with | --log | --state | --reload | --was) compopt -o default; return ;;
            --start | --most | --from | --to | --read | --write | --priority | --service) return ;;
            --port | --peer | --router | --operator | --bbmd) return ;;
        esac
        if [ "$equals" ]; then return; fi
        case ${COMP_WORDS[1]} in
            check) options='--config --json --help' ;;
            explain) options='--config --lint --help' ;;
            lint | migrate | rules) options='--config --help' ;;
            why) options='--config --count --json --strict --help' ;;
            state) options='--config --state --help' ;;
            reload) options='--config --reload --was --most --help' ;;
            stop | status) options='--reload --wait --help' ;;
            suggest) options='--config --fill --exact --help' ;;
            compare) options='--config --with --most --steps --json --help' ;;
            report) options='--config --log --help' ;;
            log)
                if [[ $word != -* ]]; then compopt -o default; return; fi
                options='--start --json --help'
                ;;
            objects) options='--config --csv --help' ;;
            ask) options='--config --from --to --read --write --priority --service --who-is --register --help' ;;
            init) options='--port --peer --router --operator --bbmd --help' ;;
            help) options='check explain lint migrate rules why compare log state reload stop status suggest report objects ask init' ;;
            *) return ;;
        esac
    fi
    mapfile -t COMPREPLY < <(compgen -W "$options" -- "$word")
}
complete -F _bacgwctl bacgwctl
