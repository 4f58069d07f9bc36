# Memory, streams and threads that fail. A library stands before the C library of the built program (faults.c), and fails
# each call of a kind in turn: alone, and with all calls of the kind behind it.
# shellcheck shell=bash

faults=$room/faults.so
# By what it is told that a run ended as without a fault, and which part of the calls so far one that fails is behind the last.
same=is_same
sparse=1000000
# The most bytes of a read or a write, if it isn't 0.
PIECE=0

# run_with FAULT COMMAND..: sets `status`, `out` and `err`. The file `failed` has a byte for each call that failed.
run_with() {
    FAULT=$1 PIECE=$PIECE LD_PRELOAD=$faults "${@:2}" <"$room/input" >"$room/out" 2>"$room/err" 9>"$room/failed"
    status=$?
    IFS= read -r -d '' out <"$room/out"
    IFS= read -r -d '' err <"$room/err"
}

is_same() { [[ $status == "$whole_status" && $out == "$whole_out" && $err == "$whole_err" ]]; }

# Threads make another history each time.
is_legal_run() { [[ $status == 0 && $out == *$'\nrefused '* && -z $err ]] && "$program" check <"$room/out" >"$room/verdict"; }

# Whether a part of the output in front was written, all the pieces before the one that fails, and the end is a write fault.
# The line that says so is lost where all further writes fail, and so is that of any other end.
is_cut() {
    local line=$'tpool: write fault\n'
    [[ -z $on ]] || line=
    [[ $status == 4 && $out != "$whole_out" && $whole_out == "$out"* && $err == "$line" &&
        ($PIECE == 0 || ${#out} == $((PIECE * (number - 1)))) ]] ||
        [[ $status == "$whole_status" && $out == "$whole_out" && $err != "$whole_err" && $whole_err == "$err"* ]]
}

# Whether the end is as it may be where a call of the kind failed.
is_promised() {
    case $kind in
    memory) [[ $status == 5 && -z $out && $err == $'tpool: want of memory\n' ]] || $same ;;
    read) [[ $status == 3 && -z $out && $err == $'tpool: read fault\n' ]] ;;
    write) is_cut ;;
    short-read | short-write | thread) $same ;;
    esac
}

# fail_each NAME COMMAND..: the first call of the kind fails, then the second, until a run makes fewer.
fail_each() {
    local number=1 is_well=no
    while run_with "$kind $number$on" "${@:2}"; [[ -s $room/failed ]] && is_promised; do
        number=$((number + 1 + number / sparse))
    done
    [[ -s $room/failed ]] || ((number == 1)) || ! $same || is_well=yes
    count "$1, call $number" "$is_well" "status $status" "$out" "$err"
}

# fail_all NAME KINDS COMMAND..: what becomes of the command, on `input`, where calls of these kinds fail.
fail_all() {
    local kind on whole_status whole_out whole_err
    printf '%s' "$input" >"$room/input"
    run_with '' "${@:3}"
    whole_status=$status whole_out=$out whole_err=$err
    for kind in $2; do
        for on in '' +; do
            fail_each "$1: $kind$on" "${@:3}"
        done
    done
}

fail_commands() {
    local streams='read write short-read short-write'
    input=$(<"$here/examples/shutdown.trace")$'\n'
    fail_all 'a trace' "memory $streams" "$program" trace
    fail_all 'the history of a trace' "memory $streams" "$program" history
    PIECE=16 fail_all 'a trace in pieces' 'read write' "$program" trace
    input=$(<"$here/examples/plugin.libraries")$'\n'
    fail_all 'a trace with libraries' "memory $streams" "$program" libraries
    input=$(<"$here/examples/watchdog.legacy")$'\n'
    fail_all 'a trace with old calls' "memory $streams" "$program" legacy
    input=$(<"$here/examples/wake-ups.windows")$'\n'
    fail_all 'a trace with sleeps' "memory $streams" "$program" windows
    input=$'c1 submit 01\n'
    fail_all 'a bad line' "memory $streams" "$program" trace
    input=$(<"$here/examples/shutdown.history")$'\n'
    fail_all 'a legal history' "memory $streams" "$program" check
    input=${input/made 1/made 2}
    fail_all 'a history that is not legal' "memory $streams" "$program" check
    input=$(<"$here/examples/old.history")$'\n'
    fail_all 'a history that is migrated' "memory $streams" "$program" migrate
    input=$'work w r\nroutine r\ndone\nclient\nsubmit w\nwait w keep\ndone\n'
    fail_all 'a run' "memory $streams" "$program" run --events 64
    fail_all 'a run, told as JSON' 'memory write short-write' "$program" run --events 64 --json
    input=
    fail_all 'a generated script' 'memory write short-write' "$program" gen 7
    fail_all 'bad words' 'memory write short-write' "$program" gen 07
    input=$'device\nop 0 512\nop 5 0\n'
    fail_all 'a device' "memory $streams thread" "$program" port
    # It makes so many calls that of those behind the twentieth only some fail.
    sparse=20 fail_all 'a long run' 'memory write short-write' "$program" big 7
    input=$'work w r\nroutine r\ndone\nclient\ntimes 4 submit w\nwait w keep\ndone\n'
    same=is_legal_run fail_all 'threads' "memory $streams thread" "$program" run --threads 4 --workers 3 --events 256
    input=$(<"$here/examples/three.devices")$'\n'
    same=is_legal_run fail_all 'devices' "memory $streams thread" "$program" port
}

input=
if ! command -v gcc >/dev/null; then
    echo 'tests: gcc is not there, so no call of the program was made to fail'
else
    try 'faults.c' 0 '' '' gcc -std=c11 -O2 -Wall -Wextra -Werror -shared -fPIC -o "$faults" "$here/tests/faults.c"
    fail_commands
fi
