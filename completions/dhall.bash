# Completion of dhall for bash.

_dhall() {
    local word="${COMP_WORDS[COMP_CWORD]}" command="${COMP_WORDS[1]}"
    local commands="encode decode resolve type normalize hash to-json freeze batch steps gen explain help"
    COMPREPLY=()
    # (the input comes by < FILE, and bash completes that name itself)
    if [[ "$COMP_CWORD" -eq 1 ]]; then
        COMPREPLY=($(compgen -W "$commands --help -h --version" -- "$word"))
    elif [[ "$COMP_CWORD" -eq 2 ]]; then
        COMPREPLY=($(compgen -W "--workers" -- "$word"))
        if [[ "$command" == batch ]]; then
            COMPREPLY+=($(compgen -f -- "$word"))
        elif [[ "$command" == steps ]]; then
            COMPREPLY+=($(compgen -W "root" -- "$word"))
        elif [[ "$command" == gen ]]; then
            COMPREPLY+=($(compgen -W "0 10 100 1000 4000" -- "$word"))
        elif [[ "$command" == explain ]]; then
            COMPREPLY+=($(compgen -W "$(seq 1 56)" -- "$word"))
        fi
    elif [[ "$COMP_CWORD" -eq 3 && "${COMP_WORDS[2]}" == --workers ]]; then
        COMPREPLY=($(compgen -W "1 2 4 8 16 32 64" -- "$word"))
    elif [[ "$command" == steps ]]; then
        COMPREPLY=($(compgen -W "root" -- "$word"))
    elif [[ "$command" == batch ]]; then
        COMPREPLY=($(compgen -f -- "$word"))
    fi
}

complete -F _dhall dhall
