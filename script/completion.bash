# Completes the words of tpool in bash: the commands, the options of each, files, folders and calls. It is sourced,
# where bash doesn't find it by itself: . script/completion.bash
# shellcheck shell=bash

_tpool_commands='trace show history libraries legacy windows check migrate calls-of run runs explore port gen big calls prove install help'

# The options of a command.
_tpool_options() {
    local plays='--workers --events'
    case $1 in
    trace | history | libraries | legacy | windows) echo "$plays" ;;
    show) echo "$plays --script" ;;
    run) echo "$plays --seed --threads --json --summary" ;;
    runs) echo "$plays --threads --json --keep --fail-on" ;;
    explore) echo '--workers --states --each' ;;
    big) echo "$plays --json" ;;
    '') echo "$plays --states --each --seed --threads --json --summary --keep --fail-on --script --version --help" ;;
    esac
}

# The first of the words in front of the cursor that is a command.
_tpool_command() {
    local word
    for word in "${COMP_WORDS[@]:1:COMP_CWORD-1}"; do
        [[ " $_tpool_commands " != *" $word "* ]] || { echo "$word"; return; }
    done
}

# The words of the calls and the Win32 functions, as `calls` lists them.
_tpool_calls() {
    "${COMP_WORDS[0]}" calls 2>/dev/null | awk '/^  / { print $1; for (at = 2; at <= NF; at++) if ($at ~ /^[A-Z][A-Za-z]+,?$/) { sub(/,/, "", $at); print $at } }'
}

_tpool() {
    local word=$2 command
    command=$(_tpool_command)
    COMPREPLY=()
    case $3 in
    --keep | install) mapfile -t COMPREPLY < <(compgen -d -- "$word") && return ;;
    --script) mapfile -t COMPREPLY < <(compgen -f -- "$word") && return ;;
    --fail-on) mapfile -t COMPREPLY < <(compgen -W 'fault refused stalled exhausted left cancelled none' -- "$word") && return ;;
    --workers | --events | --states | --seed | --threads) return ;;
    esac
    case $command:$word in
    *:-*) mapfile -t COMPREPLY < <(compgen -W "$(_tpool_options "$command")" -- "$word") ;;
    :*) mapfile -t COMPREPLY < <(compgen -W "$_tpool_commands" -- "$word") ;;
    calls:*) mapfile -t COMPREPLY < <(compgen -W "$(_tpool_calls)" -- "$word") ;;
    gen:* | big:* | prove:* | help:*) ;;
    *) mapfile -t COMPREPLY < <(compgen -f -- "$word") ;;
    esac
}

complete -o filenames -F _tpool tpool ./tpool
