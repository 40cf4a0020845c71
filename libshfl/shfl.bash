# Completion of bin/shfl's words in bash: read by `.`, or installed where bash-completion looks. The commands and their options are those that
# `shfl --help` tells, the processes those whose sockets lie in the directory.

_shfl_processes() {
    local room="${SHFL_CONTROL:-}" it
    case "$room" in '' | 0 | 1) room="${XDG_RUNTIME_DIR:+$XDG_RUNTIME_DIR/shfl}" ;; esac
    # (a word that isn't a number isn't a process, and `compgen -W` would run what stands in it)
    for it in "${room:-/tmp/shfl-$EUID}"/shfl-*; do
        [ -S "$it" ] && [[ "${it##*/shfl-}" =~ ^[0-9]+$ ]] && printf '%s\n' "${it##*/shfl-}"
    done
}

# The options of a command, by its usage.
_shfl_options() { "$1" "$2" --help 2>/dev/null | sed '/^$/q' | grep -oE '\[(--?[a-z]+|skip)' | tr -d '['; }

# What may stand behind the option before the cursor. Status 1: there is none.
_shfl_value() {
    case "${COMP_WORDS[COMP_CWORD - 1]}" in
    --form) compgen -W "rw rw-park" -- "$1" ;;
    --profile) compgen -W "1 2" -- "$1" ;;
    --class | --policy) compgen -W "$(seq 0 63)" -- "$1" ;;
    -o | --svg | --html) compgen -f -- "$1" ;;
    --limit | --seconds | --rounds | --most) ;;
    *) return 1 ;;
    esac
    return 0
}

# What may stand behind the `=` of a class or a policy. (A selector of two words is to be quoted.)
_shfl_wish() {
    if [ "$1" = --class ]; then compgen -W "all heap libc.so.6" -- "$2"; else compgen -f -- "$2"; fi
}

_shfl_run() {
    local k=2 now="${COMP_WORDS[COMP_CWORD]}" option=
    # (bash parts words at `=`)
    while [ "$k" -lt "$COMP_CWORD" ] && [[ "${COMP_WORDS[k]}" == --* ]]; do
        option="${COMP_WORDS[k]}" k=$((k + 2))
        while [ "${COMP_WORDS[k]:-}" = = ]; do k=$((k + 2)); done
    done
    if [ "$COMP_CWORD" -lt "$k" ]; then
        [ "$now" = = ] && now=
        mapfile -t COMPREPLY < <(_shfl_value "$now" || _shfl_wish "$option" "$now")
    elif [ "$COMP_CWORD" -gt "$k" ]; then
        mapfile -t COMPREPLY < <(compgen -f -- "$now")
    elif [[ "$now" == -* ]]; then
        mapfile -t COMPREPLY < <(compgen -W "$(_shfl_options "$1" run)" -- "$now")
    else
        mapfile -t COMPREPLY < <(compgen -c -- "$now")
    fi
}

_shfl_words() {
    local command="$1" words="${COMP_WORDS[1]}"
    if [ "$COMP_CWORD" = 1 ]; then
        "$command" --help 2>/dev/null | sed -n 's/^    shfl \([a-z]*\).*/\1/p'
        echo --help
    elif [ "$COMP_CWORD" = 2 ]; then
        case "$words" in list | --help) ;; *) _shfl_processes ;; esac
    else
        case "$words:$COMP_CWORD" in
        class:3 | record:3) printf '%s\n' all heap libc.so.6 'by ' ;;
        class:4 | attach:3 | detach:3 | compare:3) seq 0 63 ;;
        stat:* | attach:* | record:[5-9] | record:1? | compare:*) _shfl_options "$command" "$words" ;;
        esac
    fi
}

_shfl() {
    local now="${COMP_WORDS[COMP_CWORD]}" it
    COMPREPLY=()
    if [ "$COMP_CWORD" -gt 1 ] && [ "${COMP_WORDS[1]}" = run ]; then
        _shfl_run "$1"
    elif [ "$COMP_CWORD" -gt 2 ] && _shfl_value "$now" >/dev/null; then
        mapfile -t COMPREPLY < <(_shfl_value "$now")
    elif [ "$COMP_CWORD" = 4 ] && [[ "${COMP_WORDS[1]}" == @(attach|compare) ]]; then
        mapfile -t COMPREPLY < <(compgen -d -- "$now"; for it in hex asm c; do compgen -f -X "!*.$it" -- "$now"; done)
    else
        mapfile -t COMPREPLY < <(IFS=$'\n'; compgen -W "$(_shfl_words "$1")" -- "$now")
        # (a function's name follows)
        [ "${COMPREPLY[*]}" != 'by ' ] || compopt -o nospace 2>/dev/null || true
    fi
}

complete -o filenames -F _shfl shfl
