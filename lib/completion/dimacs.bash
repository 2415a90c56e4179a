# Completes the words of dimacs, dimacs-batch and dimacs-draw in bash, by what these print as help.

_dimacs_words() {
    mapfile -t COMPREPLY < <(compgen -W "$1" -- "${COMP_WORDS[COMP_CWORD]}")
}

# Offers the files with one of these endings, and folders; all files where there is none.
_dimacs_files() {
    local word=${COMP_WORDS[COMP_CWORD]} ending
    mapfile -t COMPREPLY < <(for ending; do compgen -f -X "!*.$ending" -- "$word"; done && compgen -d -- "$word")
    ((${#COMPREPLY[@]})) || mapfile -t COMPREPLY < <(compgen -f -- "$word")
    compopt -o filenames 2>/dev/null
}

_dimacs() {
    local dimacs=${COMP_WORDS[0]/#\~/$HOME} at=1 but=' ' command usage
    COMPREPLY=()
    ((COMP_CWORD == 1)) || [[ ${COMP_WORDS[1]} != explain ]] || at=2 but='explain|help'
    command=${COMP_WORDS[at]}
    if ((COMP_CWORD == at)); then
        _dimacs_words "$("$dimacs" help | sed -n 's/^  \([a-z-]*\) [[A-Z].*/\1/p' | grep -Evx "$but")"
        return
    fi
    read -ra usage < <("$dimacs" help "$command" 2>/dev/null | sed -n 's/[][]//g; s/^Usage: dimacs //p')
    case ${usage[COMP_CWORD - at]} in
        COMMAND) _dimacs_words "$("$dimacs" help | sed -n 's/^  \([a-z-]*\) [[A-Z].*/\1/p')" ;;
        KIND) _dimacs_words "$("$dimacs" help convert | grep -oE '  [a-z]+  ')" ;;
        --limit) _dimacs_words --limit ;;
        FILE) _dimacs_files "${COMP_WORDS[at + 1]}" ;;
        INSTANCE) if [[ $command == *-max ]]; then _dimacs_files max; else _dimacs_files min; fi ;;
        GRAPH) _dimacs_files gr ;;
        QUERY) _dimacs_files query ss p2p ;;
        SOLUTION | OUT) _dimacs_files solution sol ;;
        DISTANCES) _dimacs_files distances ;;
        CUT | POTENTIALS | LABELS | CERTIFICATE) _dimacs_files cut pot dist ;;
    esac
}

_dimacs_tool() {
    case ${COMP_WORDS[COMP_CWORD]} in
        -*) _dimacs_words "$("${COMP_WORDS[0]/#\~/$HOME}" --help | grep -oE -- '--[a-z]+')" ;;
        *) COMPREPLY=() && compopt -o default 2>/dev/null ;;
    esac
}

complete -F _dimacs dimacs
complete -F _dimacs_tool dimacs-batch dimacs-draw
