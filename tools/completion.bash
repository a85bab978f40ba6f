# Completion for bash of the words of sidc, the program and the script; of words alone, nothing is proved of it. To have it,
#
#     . tools/completion.bash
#
# The script has two words more than the program: `prove` and `help`. It is told by its first two bytes. After `<` and `>` files
# are completed.

_sidc() {
    local word=${COMP_WORDS[COMP_CWORD]} before=${COMP_WORDS[COMP_CWORD - 1]} words="replay trade generate audit ship store recover"
    COMPREPLY=()
    case $before in
        '<' | '>' | '>>' | '2>')
            compopt -o filenames 2>/dev/null
            mapfile -t COMPREPLY < <(compgen -f -- "$word")
            return
            ;;
    esac
    [ "$COMP_CWORD" -eq 1 ] || return 0
    [ "$(head -c 2 -- "$(type -P -- "$1")" 2>/dev/null | tr -d '\0')" != '#!' ] || words+=" prove help"
    mapfile -t COMPREPLY < <(compgen -W "$words" -- "$word")
}

complete -F _sidc sidc
