# Completions of chord for bash: source this file. They are what the program's help says.

# The commands of the words so far, and the options of the last of them.
_chord_words() {
    chord "$@" --help 2> /dev/null |
        sed -n -e '/^Commands:/,/^$/s/^  \([a-z]\+\) .*/\1/p' -e 's/^ .*\(--[a-z-]\+\).*/\1/p'
}

_chord() {
    local word here=${COMP_WORDS[COMP_CWORD]} before=${COMP_WORDS[COMP_CWORD - 1]} commands=()
    case $before in
    --plan) COMPREPLY=($(compgen -f -- "$here")) && return ;;
    esac
    for word in "${COMP_WORDS[@]:1:COMP_CWORD-1}"; do
        case $word in -* | [0-9]*) ;; *) commands+=("$word") ;; esac
    done
    COMPREPLY=($(compgen -W "$(_chord_words "${commands[@]}")" -- "$here"))
}

complete -F _chord chord
