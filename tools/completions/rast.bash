# Completion for rast and its companions in bash.

_rast_files() {
    compopt -o filenames 2>/dev/null
    COMPREPLY=($(compgen -f -X '!*.rast' -- "$1") $(compgen -d -- "$1"))
}

_rast_types() {
    sed -n 's/^ *type *\([A-Za-z][A-Za-z0-9_]*\).*/\1/p' "$1" 2>/dev/null
}

_rast() {
    local word=${COMP_WORDS[COMP_CWORD]} before=${COMP_WORDS[COMP_CWORD-1]}
    local budgets="10 100 1000 10000 100000 1000000"
    if [ "$COMP_CWORD" -eq 1 ]; then
        COMPREPLY=($(compgen -W "run check show decide" -- "$word"))
    elif [ "${COMP_WORDS[1]}" = decide ]; then
        COMPREPLY=()
    elif [ "$before" = --budget ] || [ "${COMP_WORDS[COMP_CWORD-2]}$before" = --budget= ]; then
        COMPREPLY=($(compgen -W "$budgets" -- "$word"))
    elif [ "${COMP_WORDS[1]}" = run ] && [[ $word == -* ]]; then
        COMPREPLY=($(compgen -W "--budget --trace" -- "$word"))
    else
        _rast_files "$word"
    fi
}

_rast_chart() {
    local word=${COMP_WORDS[COMP_CWORD]} before=${COMP_WORDS[COMP_CWORD-1]}
    local options="--format -o --events --moments --process --fold --budget --rast --help"
    case $before in
        --format) COMPREPLY=($(compgen -W "svg html mermaid" -- "$word")) ;;
        --events | --moments | --process | --budget) COMPREPLY=() ;;
        -o | --rast) compopt -o filenames; COMPREPLY=($(compgen -f -- "$word")) ;;
        *) if [[ $word == -* ]]; then COMPREPLY=($(compgen -W "$options" -- "$word"))
           else _rast_files "$word"; fi ;;
    esac
}

_rast_states() {
    local word=${COMP_WORDS[COMP_CWORD]} before=${COMP_WORDS[COMP_CWORD-1]}
    case $before in
        --format) COMPREPLY=($(compgen -W "svg dot" -- "$word")) ;;
        -o) compopt -o filenames; COMPREPLY=($(compgen -f -- "$word")) ;;
        *.rast) COMPREPLY=($(compgen -W "$(_rast_types "$before")" -- "$word")) ;;
        *) if [[ $word == -* ]]; then COMPREPLY=($(compgen -W "--format -o --help" -- "$word"))
           else _rast_files "$word"; fi ;;
    esac
}

_rast_many() {
    local word=${COMP_WORDS[COMP_CWORD]}
    if [[ $word == -* ]]; then
        COMPREPLY=($(compgen -W "--jobs --quiet --rast --help" -- "$word"))
    else
        _rast_files "$word"
    fi
}

complete -F _rast rast
complete -F _rast_chart rast-chart
complete -F _rast_states rast-states
complete -F _rast_many rast-many
