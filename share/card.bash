# Completion of `card` in bash. The options are those that `card --help` lists; only values that are known are named here.

# The options with what they take, a line each: '--dots N', '--follow'.
_card_options() {
    "${1/#\~/$HOME}" --help 2> /dev/null | sed -n -E 's/^ +(-.*)/\1/p' | sed -E 's/ {2,}.*//; s/, /\n/g' | tr = ' '
}

# _card_values OPTION WORD: what it may take.
_card_values() {
    case $1 in
    --dots) compgen -W '203 300' -- "$2" ;;
    --width) compgen -W '7200 28800' -- "$2" ;;
    --cpi) compgen -W '10 12 15 17 20' -- "$2" ;;
    --color) compgen -W 'always auto never' -- "$2" ;;
    --slots) ;;
    *) compgen -f -- "$2" ;;
    esac
}

# _card_words PROGRAM: what may follow.
_card_words() {
    local word=${COMP_WORDS[COMP_CWORD]} before=${COMP_WORDS[COMP_CWORD - 1]} at
    # In '--dots=20' the sign is a word of its own.
    if [ "$word" = = ]; then
        word=
    elif [ "$before" = = ]; then
        before=${COMP_WORDS[COMP_CWORD - 2]}
    fi
    for ((at = 1; at < COMP_CWORD; at++)); do
        if [ "${COMP_WORDS[at]}" = -- ]; then
            compgen -f -- "$word"
            return
        fi
    done
    if _card_options "$1" | grep -q -E -e "^$before [A-Z]"; then
        _card_values "$before" "$word"
    elif [[ $word == -* ]]; then
        compgen -W "$(_card_options "$1" | cut -d ' ' -f 1)" -- "$word"
    else
        compgen -f -- "$word"
    fi
}

_card() {
    mapfile -t COMPREPLY < <(_card_words "$1")
}

complete -o filenames -F _card card
