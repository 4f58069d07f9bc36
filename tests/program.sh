# The program as it is built: each status, each line on standard error, each way to lose a stream.
# shellcheck shell=bash

input=
for words in '' 'foo' 'trac' 'traced' 'tra ce' 'trace trace' 'Trace' ''$'\xff' 'runs' 'run run' 'run 7' '-h' '--help' '--version' \
    'gen' 'gen 07' 'gen +7' 'gen -- -7' 'gen 7 7' 'gen 18446744073709551616' 'big' 'big 07' 'big 7 7' 'trace 7' 'check 7' 'migrate 7' 'trace -' \
    'run --threads 0' 'run --threads 17' 'run --workers 65' 'run --events 15' 'run --threads' 'run --threads 1 --threads 1' 'big 7 --threads 0' \
    'trace --workers' 'trace --workers=' 'trace --workers 0' 'trace --workers 65' 'trace --workers 04' 'trace --workers -4' \
    'trace --workers -- 4' 'trace --worker 4' 'trace --workers 4 --workers=4' 'trace --threads 17' 'gen 7 --threads=0' \
    'run --seed' 'run --seed -1' 'run --seed 07' 'run --seed 18446744073709551616' 'run --seed 1 --seed=1' 'run --seed 1 --threads 2' \
    'trace --seed 1' 'check --seed 1' 'port --seed 1' 'port 7' 'gen 7 --seed 1' 'big 7 --seed=1' '--seed 1' \
    'trace --events 15' 'trace --events=131073' 'trace --json --json' 'trace --json=1' '-- --json trace' 'trace -- --'; do
    # shellcheck disable=SC2086
    try "bad words: '$words'" 1 '' $'tpool: bad words\n' "$program" $words
done
try 'an empty word is none' 1 '' $'tpool: bad words\n' "$program" ''
try 'an empty trace' 0 '' '' "$program" trace
for words in 'trace --json' '--json trace' 'trace --' '-- trace' '--workers 4 trace --events=16 --threads 1' 'trace --threads=16 --workers 64 --events 131072'; do
    # shellcheck disable=SC2086
    try "good words: '$words'" 0 '' '' "$program" $words
done
set_up_alone=$'history 2 clients 1 workers 1 events 16 objects 65535\n0 c1 finish -> ok\nend 1\nentries 1\ncallbacks 0\ntaken 0\ncancelled 0\nleft 0\nrefused 0\n'
for words in '--workers 1 run --events=16' 'run --threads=16 --workers 1 --events 16' '--workers=1 --events=16 -- run' \
    '--seed 0 run --workers 1 --events 16' 'run --seed=18446744073709551615 --threads 1 --workers 1 --events=16'; do
    # shellcheck disable=SC2086
    try "good words: '$words'" 0 "$set_up_alone" '' "$program" $words
done
first_line() { "$@" | head -n 1; }
for words in 'gen 7' 'gen -- 7' '--workers=1 gen 7 --json'; do
    # shellcheck disable=SC2086
    try "good words: '$words'" 0 $'pool p max 3 min 0\n' '' first_line "$program" $words
done
input=$'w5 attach\n'
try 'a worker too many' 0 $'refused no-such\n' '' "$program" trace
try 'a machine of five workers' 0 $'look no-need\n' '' "$program" trace --workers 5
input=$'c16 submit 1\n'
try 'a machine with room for 16 entries' 0 $'full 0 1\n' '' "$program" trace --events 16
try 'a machine with room for 17 entries' 0 $'refused no-such\n' '' "$program" trace --events=17

input=$'c1 submit 1\nw1 attach\n'
try 'a trace' 0 $'refused no-such\nlook no-need\n' '' "$program" trace
input=$'c1 submit 1\nw1 attach'
try 'no last line feed' 2 '' $'tpool: bad line 2 column 10\n' "$program" trace
input=$'c1 submit 01\n'
try 'a bad line' 2 '' $'tpool: bad line 1 column 12\n' "$program" trace

input=$'history 1 clients 1 workers 1 events 16\nc1 submit 1 -> refused no-such\nend 1\n'
try 'a legal history' 0 $'legal 1\n' '' "$program" check
input=$'history 1 clients 1 workers 1 events 16\nc1 submit 1 -> queued 1 1\nend 1\n'
try 'a history that is not legal' 7 $'not legal at 1: refused no-such\n' '' "$program" check
input=$'history 1 clients 1 workers 1 events 16\nend 1\n'
try 'a wrong number of entries' 2 '' $'tpool: bad line 2 column 5\n' "$program" check

on() { "${@:2}" <"$1"; }
to() { "${@:2}" >"$1"; }
errors_to() { "${@:2}" 2>"$1"; }
without_input() { "$@" <&-; }
# A command at the front of a pipe that nobody reads any more.
into_closed_pipe() {
    local pipe status
    exec {pipe}> >(:)
    wait $!
    "$@" >&"$pipe"
    status=$?
    exec {pipe}>&-
    return "$status"
}

try 'a directory is read' 3 '' $'tpool: read fault\n' on / "$program" trace
input=$'c1 submit 1\n'
try 'nothing can be written' 4 '' $'tpool: write fault\n' to /dev/full "$program" trace
try 'nothing can be written of a verdict' 2 '' $'tpool: bad line 1 column 1\n' to /dev/full "$program" check
# A file that has no room for more than 1,024 bytes takes a part of the output, and then fails.
in_little_room() { (trap '' XFSZ && ulimit -f 1 && "$@"); }
input=$(printf 'c1 create work r%d x0 p0 normal short g0 q0\n' {1..200})$'\n'
numbered=$(printf 'made %d\n' {1..200})$'\n'
try 'all can be written' 0 "$numbered" '' "$program" trace
try 'a part can be written' 4 "${numbered:0:1024}" $'tpool: write fault\n' in_little_room "$program" trace
input=$'c1 submit 1\n'
try 'nobody reads' 4 '' $'tpool: write fault\n' into_closed_pipe "$program" trace
try 'no line of a fault can be written' 1 '' '' errors_to /dev/full "$program"

without_output() { "$@" >&-; }
without_errors() { "$@" 2>&-; }
try 'standard input is closed' 3 '' $'tpool: read fault\n' without_input "$program" trace
script_is_whole() { without_input "$program" gen 18446744073709551615 | tail -n 1; }
try 'a script is written without an input' 0 $'done\n' '' script_is_whole
try 'nothing can be written of a script' 4 '' $'tpool: write fault\n' to /dev/full "$program" gen 0
try 'standard output is closed' 4 '' $'tpool: write fault\n' without_output "$program" trace
try 'standard error is closed' 1 '' '' without_errors "$program"

takes() { yes 'w1 take' | head -c "$1"; }
# The most bytes of an input, which the program and `tpool` have each where they read it.
longest=$(sed -n 's/^longest_input=//p' "$here/tpool")
too_long() { takes $((longest + 1)) | "$program" trace; }
# How often each line comes, where those of one text stand together.
counted() { uniq -c | awk '{ $1 = $1; print }'; }
# Each refused call is an entry, for 65,536 of which there is room.
longest() { takes "$longest" | "$program" trace | counted; }
# The client comes behind the bytes where the greatest is looked for first.
far_client() { { takes 72000 && echo 'c2 finish'; } | "$program" trace | counted; }
# An armed wait has a slot for its callback, of which there are 8,192, and is armed anew with the same one.
last_slot() {
    local wait='create wait r1 x0 p0 normal short g0 q0'
    {
        echo 'c1 create work r1 x0 p0 normal short g0 q0'
        yes 'c1 submit 1' | head -n 8191
        printf 'c1 %s\n' 'create-event auto clear' "$wait" "$wait" 'set-wait 2 1 none' 'set-wait 3 1 none' 'set-wait 2 1 none' 'set-event 1' 'set-wait 2 1 none'
    } | "$program" trace | tail -n 5
}
short_of_memory() { takes 16000000 | (ulimit -v 20000 && "$program" trace); }
try 'an input that is too long' 6 '' $'tpool: input too long\n' too_long
try 'the longest input' 0 $'65536 refused not-attached\n3080192 full 0 1\n' '' longest
try 'a client far behind' 0 $'9000 refused not-attached\n1 ok\n' '' far_client
try 'an armed wait in the last slot' 0 $'queued 0 0\nrefused callback-limit\nqueued 0 0\nqueued 8192 1\nrefused callback-limit\n' '' last_slot
try 'memory is refused' 5 '' $'tpool: want of memory\n' short_of_memory

# The program's machine has 65,535 objects at most.
last_objects() {
    {
        yes 'c1 create work r1 x0 p0 normal short g0 q0' | head -n 65536
        echo 'c1 submit 65535'
    } | "$program" trace --events 131072 | tail -n 3
}
try 'the last object' 0 $'made 65535\nrefused object-limit\nqueued 1 1\n' '' last_objects

# Each file is a trace, with what each call comes to behind ` -> `.
for file in "$here/tests/traces"/*; do
    input=$(sed 's/ -> .*//' "$file")$'\n'
    try "the trace ${file##*/}" 0 "$(sed 's/.* -> //' "$file")"$'\n' '' "$program" trace
done

# The default pool is never closed, so its persistent worker is never free for what is pending in another pool.
last_line() { "$@" | tail -n 1; }
input=$'c1 create-pool\nc1 create work r1 x0 p0 normal persistent g0 q0\nc1 create work r2 x0 p1 normal short g0 q0\n'
input+=$'c1 submit 1\nw1 attach\nw1 take\nw1 return\nc1 submit 2\nw1 detach\nc1 wait work 2 keep\nc1 end\n'
try 'the only worker serves one pool' 0 $'stalled\n' '' last_line "$program" trace --workers 1
try 'a second worker serves another' 0 $'look not-yet callback 2\n' '' last_line "$program" trace --workers 2

# verdict NAME VERDICT CLIENTS WORKERS ENTRY..: what `check` says of a history with room for 16 entries.
verdict() {
    local name=$1 wanted=$2 clients=$3 workers=$4
    shift 4
    input=$(printf '%s\n' "history 1 clients $clients workers $workers events 16" "$@" "end $#")$'\n'
    local status=7
    [[ $wanted != legal* ]] || status=0
    try "$name" "$status" "$wanted"$'\n' '' "$program" check
}
verdict 'the first wrong answer' 'not legal at 1: refused not-attached' 0 1 'w1 take -> ok' 'w1 attach -> ok'
verdict 'a look is no answer' 'not legal at 1: look no-need' 0 1 'w1 attach -> attached 0'
verdict 'a finish that is owed' 'not legal at 2: full 0 1' 16 1 'c1 finish -> ok' 'c2 submit 1 -> refused no-such'
create='create work r1 x0 p0 normal short g0 q0 -> made 1'
entries=("c1 $create" 'c1 submit 1 -> queued 1 1')
verdict 'accepted calls' 'legal 2' 1 4 "${entries[@]}"
verdict 'a wrong number of an accepted call' 'not legal at 2: queued 1 1' 1 4 "${entries[@]/queued 1/queued 2}"
# Each of the eight clients' finishes is owed, and what runs is owed its return.
begun=("c8 $create" 'c8 submit 1 -> queued 1 1' 'w1 attach -> attached 0' 'w1 take -> taken 1 o1 r1 x0 plain' 'c8 submit 1 -> queued 2 1')
verdict 'room for one entry and not for two' 'not legal at 6: full 1 2' 8 2 "${begun[@]}" 'w2 attach -> attached 0'
begun+=('c8 submit 1 -> queued 3 1')
verdict 'no room' 'not legal at 7: full 0 1' 8 2 "${begun[@]}" 'c8 submit 1 -> queued 4 1'
begun+=('w1 return -> returned - - - - 0 0')
verdict 'no room for what is owed for it' 'not legal at 8: full 0 2' 8 2 "${begun[@]}" 'w1 take -> taken 2 o1 r1 x0 plain'
verdict 'what is owed has room' 'legal 8' 8 2 "${begun[@]}" 'c1 finish -> ok'
# A pending callback takes two entries to be run, and two more where its pool has no worker.
not_yet='look not-yet callback 1'
pending=("c1 $create" 'c1 submit 1 -> queued 1 1')
with_worker=("${pending[@]}" 'w1 attach -> attached 0')
keep='c1 wait work 1 keep -> begun 1 0'
verdict 'a wait: room for an attach, a take and two returns' "not legal at 4: $not_yet" 8 2 "${pending[@]}" "$keep" 'c1 end -> exhausted'
verdict 'a wait: room for one less' 'legal 4' 9 2 "${pending[@]}" "$keep" 'c1 end -> exhausted'
verdict 'a wait: room for two less' 'legal 4' 10 2 "${pending[@]}" "$keep" 'c1 end -> exhausted'
verdict 'a wait with a worker: room for three' "not legal at 5: $not_yet" 7 2 "${with_worker[@]}" "$keep" 'c1 end -> exhausted'
verdict 'a wait with a worker: room for two' "not legal at 5: $not_yet" 8 2 "${with_worker[@]}" "$keep" 'c1 end -> exhausted'
verdict 'a wait with a worker: room for one' 'legal 5' 9 2 "${with_worker[@]}" "$keep" 'c1 end -> exhausted'
# A wait holds the callback that runs, and the pending one behind it if it cancels none. A later one it doesn't hold.
running=("${with_worker[@]}" 'w1 take -> taken 1 o1 r1 x0 plain' 'c1 submit 1 -> queued 2 1')
later='c2 submit 1 -> queued 3 1'
keep='c1 wait work 1 keep -> begun 2 0'
verdict 'a wait for two: room for three' "not legal at 8: $not_yet" 3 2 "${running[@]}" "$keep" "$later" 'c1 end -> exhausted'
verdict 'a wait for two: room for two' "not legal at 8: $not_yet" 4 2 "${running[@]}" "$keep" "$later" 'c1 end -> exhausted'
verdict 'a wait for two: room for one' 'legal 8' 5 2 "${running[@]}" "$keep" "$later" 'c1 end -> exhausted'
verdict 'a wait for one that runs: room for one' "not legal at 8: $not_yet" 5 2 "${running[@]}" 'c1 wait work 1 cancel -> begun 1 1' "$later" 'c1 end -> exhausted'
# A wait for an event that nobody but a pending callback could set stalls where there is no room to run that.
no_event='look not-yet kernel 1'
event='c1 create-event auto clear -> made 1'
mapfile -t misuses < <(yes 'c1 submit 9 -> refused no-such' | head -n 7)
stalls=('c1 acquire 1 -> ok' 'c1 end -> stalled')
verdict 'an acquire: room for an attach, a take and two returns' "not legal at 11: $no_event" 1 2 "$event" "${pending[@]}" "${misuses[@]:1}" "${stalls[@]}"
verdict 'an acquire: room for one less' 'legal 12' 1 2 "$event" "${pending[@]}" "${misuses[@]}" "${stalls[@]}"
verdict 'an acquire with a worker: room for two' "not legal at 12: $no_event" 1 2 "$event" "${with_worker[@]}" "${misuses[@]:1}" "${stalls[@]}"
verdict 'an acquire with a worker: room for one' 'legal 13' 1 2 "$event" "${with_worker[@]}" "${misuses[@]}" "${stalls[@]}"
# The places of the notices that a wait gave up as it stalled stay set aside.
closing=('c1 create-group -> made 1' "$event" "c1 ${create/g0 q0/g1 q2}" "${with_worker[@]:1}" 'w1 take -> taken 1 o1 r1 x0 plain' 'w1 acquire 1 -> ok')
closing+=('c1 close-members 1 cancel y9 -> closing 1 0 1' 'c1 end -> stalled' 'c1 submit 1 -> refused released' 'c1 submit 1 -> refused released')
verdict 'a close that stalls: room for two' 'legal 11' 1 1 "${closing[@]}"
verdict 'a close that stalls: room for no third' 'not legal at 12: full 0 1' 1 1 "${closing[@]}" 'c1 submit 1 -> refused released'

# timed NAME VERDICT OBJECTS LINE..: the same of lines with moments, on a machine of so many objects.
timed() {
    local name=$1 wanted=$2 objects=$3
    shift 3
    input=$(printf '%s\n' "history 2 clients 1 workers 4 events 65536 objects $objects" "$@" "end $#")$'\n'
    local status=7
    [[ $wanted != legal* ]] || status=0
    try "$name" "$status" "$wanted"$'\n' '' "$program" check
}
advanced='5 c1 advance 5 -> advanced 5 0 0'
timed 'moments' 'legal 4' 65535 '0 c1 create-pool -> made 1' "$advanced" '5 c1 advance 0 -> advanced 5 0 0' '5 c1 finish -> ok'
timed 'a moment before that of the line above' 'not legal at 2: moment 5' 65535 "$advanced" '0 c1 finish -> ok'
timed 'a moment of a later advance' 'not legal at 1: moment 0' 65535 '5 c1 create-pool -> made 1' "$advanced"
timed 'the moment before an advance' 'not legal at 1: moment 5' 65535 "0 ${advanced#5 }"
timed 'a wrong answer with a wrong moment' 'not legal at 2: made 1' 65535 "$advanced" '9 c1 create-pool -> made 2'
timed 'a wrong answer of an advance' 'not legal at 1: advanced 5 0 0' 65535 '6 c1 advance 5 -> advanced 6 0 0'
end=9223372036854775807
timed 'the last moment' 'legal 2' 65535 "$end c1 advance $end -> advanced $end 0 0" "$end c1 advance 1 -> refused clock-end"
mapfile -t five < <(for number in 1 2 3 4 5; do echo "0 c1 ${create/made 1/made $number}"; done)
timed 'five objects of five' 'legal 6' 5 "${five[@]}" "0 c1 ${create/made 1/refused object-limit}"
timed 'five objects of six' 'not legal at 6: made 6' 6 "${five[@]}" "0 c1 ${create/made 1/refused object-limit}"

# The history of a trace with the moments that its answers tell, or with another one at a place, written apart.
timed_history() {
    paste -d '|' "$1" <("$program" trace <"$1") | awk -F '|' -v changed="$2" '
        BEGIN { print "history 2 clients 1 workers 4 events 65536 objects 65535" }
        $2 !~ /^(look|full) / {
            split($1, call, " ")
            split($2, answer, " ")
            if (call[2] == "advance" && answer[1] == "advanced") now = answer[2]
            print now + (++place == changed) " " $1 " -> " $2
        }
        END { print "end " place }'
}
# What is said of each place with another moment, and what should be.
each_moment() {
    local place
    for ((place = 1; place <= $(timed_history "$1" 0 | tail -n 1 | cut -d ' ' -f 2); place++)); do
        timed_history "$1" "$place" | "$program" check
    done
}
right_moments() { timed_history "$1" 0 | sed '1d;$d' | awk '{ print "not legal at " NR ": moment " $1 }'; }
for name in kind-timer kind-wait; do
    input=$(timed_history "$here/examples/$name.trace" 0)$'\n'
    try "$name with moments" 0 '~legal *' '' "$program" check
    try "$name, its history" 0 "$input" '' on "$here/examples/$name.trace" "$program" history
    try "$name, a wrong moment at each place" 7 "$(right_moments "$here/examples/$name.trace")"$'\n' '' each_moment "$here/examples/$name.trace"
done

# --- Histories in format 2
input=$'history 1 clients 1 workers 4 events 65536\nc1 create work r1 x7 p0 normal short g0 q0 -> made 1\nc1 submit 1 -> queued 1 1\nend 2\n'
migrated=$'history 2 clients 1 workers 4 events 65536 objects 4095\n0 c1 create work r1 x7 p0 normal short g0 q0 -> made 1\n0 c1 submit 1 -> queued 1 1\nend 2\n'
try 'a history is migrated' 0 "$migrated" '' "$program" migrate
input=${input/queued 1/queued 2}
try 'one that is not legal is not' 7 $'not legal at 2: queued 1 1\n' '' "$program" migrate
input=${migrated/0 c1 submit/1 c1 submit}
try 'one with a wrong moment is not' 7 $'not legal at 2: moment 0\n' '' "$program" migrate
input=$'history 1 clients 2 workers 1 events 65536
c1 create work r1 x0 p0 normal short g0 q0 -> made 1
c1 finish -> ok
c2 submit 1 -> queued 1 1
w1 attach -> attached 0
c2 wait work 1 keep -> begun 1 0
w1 take -> taken 1 o1 r1 x0 plain
w1 return -> returned - - - - 0 0
c2 end -> ended
c2 finish -> ok
end 9
entries 9\n'
migrate_twice() {
    "$program" migrate >"$room/once" && "$program" migrate <"$room/once" >"$room/twice" && cmp "$room/once" "$room/twice" && "$program" check <"$room/twice"
}
try 'a history that is migrated twice' 0 $'legal 9\n' '' migrate_twice

input=$'history 1 clients 0 workers 1 events 16\nend 0\nand more'
try 'what stands behind the end line is ignored' 0 $'legal 0\n' '' "$program" check

# --- Devices that complete operations
input=$'device\nop 0 512\nop 5 0\n'
try 'port-of-one-device' 0 'history 2 clients 2 workers 4 events 65536 objects 65535
0 c1 create io r1 x0 p0 normal short g0 q0 -> made 1
0 c1 start-io 1 -> started 1
0 c1 issue-io 1 -> operation 1
0 c1 start-io 1 -> started 2
0 c1 issue-io 1 -> operation 2
0 c1 finish -> ok
0 c2 complete-io 1 0 512 -> queued 1 1
0 c2 complete-io 2 5 0 -> queued 2 1
0 c2 finish -> ok
end 9
entries 9
callbacks 2
taken 0
cancelled 0
left 2
left-callback 1 o1 pending
left-callback 2 o1 pending
refused 0
' '' "$program" port
try 'options change nothing of it' 0 "$("$program" port <"$room/input")"$'\n' '' "$program" --workers 1 port --json --events=16 --threads 2
for input in $'device\n' $'device\nop 4294967295 18446744073709551615\ndevice\n'; do
    try "devices: $(printf %q "$input")" 0 '~history 2 *' '' "$program" port
done
input=
try 'no device' 0 $'history 2 clients 1 workers 4 events 65536 objects 65535\n0 c1 finish -> ok\nend 1\nentries 1\ncallbacks 0\ntaken 0\ncancelled 0\nleft 0\nrefused 0\n' '' "$program" port
# most_devices LINE: fifteen devices with all the operations that there may be, and one more line; what is told of that.
most_devices() {
    { yes device | head -n 15 && yes 'op 7 9' | head -n 8192 && printf '%s' "$1"; } | "$program" port | grep -E '^(end|left) '
}
try 'as many devices and operations as there may be' 0 $'end 24607\nleft 8192\n' '' most_devices ''
for line in device 'op 7 9'; do
    try "one more: $line" 1 '' $'tpool: bad line 8208 column 1\n' most_devices "$line"$'\n'
done

# fault COMMAND LINE COLUMN INPUT: where an input is no more of the command's grammar.
fault() {
    input=$4
    try "$1 stops in $(printf %q "$4")" 2 '' "tpool: bad line $2 column $3"$'\n' "$program" "$1"
}
fault trace 1 3 $'c17 finish\n'
fault trace 1 10 'c1 finish'
fault trace 1 7 'c1 fin'
fault trace 1 1 $'\n'
fault trace 1 10 $'c1 finish\r\n'
fault trace 1 10 $'c1 finish \n'
fault trace 3 6 $'w1 take\nw1 take\nw1 tale\n'
fault trace 2 6 $'w1 take\nw1 tale\nw1 tale\n'
fault trace 2 1 $'w1 take\n\n'
fault trace 2 7 $'c1 create-pool\nc1 finsh\n'
fault check 1 1 ''
fault check 1 9 'history 3 clients 1'
fault check 1 20 $'history 1 clients 17 workers 1 events 16\n'
fault check 1 29 $'history 1 clients 1 workers 0 events 16\n'
fault check 1 40 $'history 1 clients 1 workers 4 events 15\n'
fault check 1 43 $'history 1 clients 1 workers 4 events 131073\n'
first_line='history 1 clients 1 workers 4 events 16'
fault check 1 40 "$first_line"
fault check 2 1 "$first_line"$'\n'
fault check 2 6 "$first_line"$'\nend 01\n'
fault check 2 6 "$first_line"$'\nend 0'
fault check 2 1 "$first_line"$'\n0 c1 finish -> ok\n'
fault check 1 40 "$first_line objects 5"$'\n'
timed_line=${first_line/1/2}
fault check 1 40 "$timed_line"$'\n'
fault check 1 49 "$timed_line objects 0"$'\n'
fault check 1 53 "$timed_line objects 65536"$'\n'
timed_line+=' objects 5'
fault check 2 1 "$timed_line"$'\nc1 finish -> ok\n'
fault check 2 2 "$timed_line"$'\n00 c1 finish -> ok\n'
fault check 2 19 "$timed_line"$'\n9223372036854775808 c1 finish -> ok\n'
fault check 2 3 "$timed_line"$'\n0 end 0\n'
fault check 3 1 "$timed_line"$'\n0 c1 finish -> ok\nc1 finish -> ok\n'
fault check 3 3 "$timed_line"$'\n0 c1 finish -> ok\n0  c1 finish -> ok\n'
fault check 2 16 "$first_line"$'\nc1 finish -> ok \n'
fault check 3 19 "$first_line"$'\nc1 '"$create"$'\nc1 submit 1 -> que'
fault port 1 1 $'op 0 1\n'
fault port 1 7 'device'
fault port 2 1 $'device\n\n'
fault port 2 2 $'device\no\n'
fault port 2 13 $'device\nop 4294967296 1\n'
fault port 2 25 $'device\nop 0 18446744073709551616\n'
fault port 2 7 $'device\nop 0 1 \n'
fault port 3 5 $'device\nop 0 1\nop 00 1\n'
fault port 3 1 $'device\ndevice\nend\n'
# A fault further down comes before an entry with a wrong answer.
fault check 3 5 "$first_line"$'\nc1 finish -> ended\nend 2\n'
