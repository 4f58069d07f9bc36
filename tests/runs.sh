# Scripts that are played: `run` and `big` of the program, and what the script makes of them.
# shellcheck shell=bash

server=$here/examples/server.script
# run_and COMMAND WORD..: what a command makes of what is written by `run` with these words.
run_and() { "$tpool" run "${@:2}" 2>/dev/null | "$tpool" "$1"; }
without_last_byte() { head -c -1 | "$@"; }

# --- One thread, whose history is told beforehand: the clients and the workers have turns one after another
alone=$'timer t tick\nroutine tick\n  may-run-long\ndone\nclient\n  set-timer t 0 0 0\n  wait t keep\n  close t\n  wait t keep\ndone\n'
alone_history='history 2 clients 2 workers 1 events 65536 objects 65535
0 c1 create timer r1 x0 p0 normal short g0 q0 -> made 1
0 c1 finish -> ok
0 c2 set-timer 1 0 0 0 -> queued 1 1
0 w1 attach -> attached 0
0 c2 wait timer 1 keep -> begun 1 0
0 w1 take -> taken 1 o1 r1 x0 plain
0 w1 may-run-long -> flag no
0 w1 return -> returned - - - - 0 0
0 c2 end -> ended
0 c2 close timer 1 -> freed
0 w1 detach -> ok
0 c2 wait timer 1 keep -> refused released
0 c2 finish -> ok
end 13
'
alone_summary=$'entries 13\ncallbacks 1\ntaken 1\ncancelled 0\nleft 0\nrefused 1\n'
alone_whole_json='{"callbacks":1,"cancelled":0,"entries":13,"exhausted":0,"left":0,"left_callbacks":[],"refused":1,"stalled":0,"status":0,"taken":1}'$'\n'
alone_json='{"callbacks":1,"cancelled":0,"entries":13,"left":0,"left_callbacks":[],"refused":1,"taken":1}'$'\n'
input=$alone
try 'a script on one thread' 0 "$alone_history$alone_summary" '' "$program" run --threads 1 --workers 1
try 'the same without saying how many threads' 0 "$alone_history$alone_summary" '' "$program" run --workers=1
try 'its summary as JSON' 0 "$alone_history$alone_json" '' "$program" run --json --workers 1
try 'its last line without a line feed' 0 "$alone_history$alone_summary" '' without_last_byte "$program" run --workers 1
printf '%s' "$alone" >"$room/alone.script"
try 'the script of a file' 0 "$alone_history$alone_summary" '' "$tpool" run --workers 1 "$room/alone.script"
try 'the script of a pipe' 0 "$alone_history$alone_json" '' by_pipe "$tpool" run --json --workers 1 -
try 'its summary alone' 0 "$alone_summary" '' "$tpool" run --summary --workers 1
try 'the same as JSON' 0 "$alone_whole_json" '' "$tpool" run --summary --json --workers 1
try 'nothing can be written of that' 4 '' $'tpool: write fault\n' to /dev/full "$tpool" run --summary
try 'its history is legal' 0 $'legal 13\n' '' run_and check --workers 1 "$room/alone.script"

# --- A history without room, and what a wait comes to there
input=$'work w r\nroutine r\ndone\nclient\n  times 40 submit w\n  wait w keep\ndone\n'
full_run() { "$program" run --events 16 "$@" | awk '/^end / || /^left / { print } / -> exhausted$/ { print "exhausted" }'; }
try 'a history without room for a script' 8 '~history 2 clients 2 workers 4 events 16 objects 65535'$'\n*' $'tpool: history exhausted\n' "$program" run --events 16
try 'the same from the script' 8 '~history 2 clients 2 workers 4 events 16 objects 65535'$'\n*' $'tpool: history exhausted\n' "$tpool" run --events=16
try 'it is legal all the same' 0 '~legal *' '~*' run_and check --events 16
try 'it is shown' 0 '~*refused *' '~*' run_and show --events 16
printf '%s' "$input" >"$room/full.script"

# --- A run in which nobody can go on
input=$'event e manual clear\nclient\nacquire e\ndone\n'
stalled_run='history 2 clients 2 workers 1 events 65536 objects 65535
0 c1 create-event manual clear -> made 1
0 c1 finish -> ok
0 c2 acquire 1 -> ok
0 c2 end -> stalled
0 c2 finish -> ok
end 5
entries 5
callbacks 0
taken 0
cancelled 0
left 0
refused 0
'
try 'a wait that stalls' 9 "$stalled_run" $'tpool: stalled\n' "$program" run --threads 1 --workers 1
try 'the same from the script' 9 "$stalled_run" $'tpool: stalled\n' "$tpool" run --workers 1
try 'it is legal' 0 $'legal 5\n' '' run_and check --workers 1
input=$'event e manual clear\nwork w r\nroutine r\nacquire e\ndone\nclient\nsubmit w\nwait w keep\ndone\n'
stalled_worker='history 2 clients 2 workers 1 events 65536 objects 65535
0 c1 create-event manual clear -> made 1
0 c1 create work r1 x0 p0 normal short g0 q0 -> made 1
0 c1 finish -> ok
0 c2 submit 1 -> queued 1 1
0 w1 attach -> attached 0
0 c2 wait work 1 keep -> begun 1 0
0 w1 take -> taken 1 o1 r1 x0 plain
0 w1 acquire 1 -> ok
0 c2 end -> stalled
0 c2 finish -> ok
0 w1 end -> stalled
0 w1 return -> returned - - - - 0 0
end 12
entries 12
callbacks 1
taken 1
cancelled 0
left 0
refused 0
'
try 'its summary alone, as JSON' 9 '~{*,"exhausted":0,*,"stalled":2,"status":9,"taken":1}'$'\n' $'tpool: stalled\n' "$tpool" run --summary --json --workers 1
try 'a callback that stalls' 9 "$stalled_worker" $'tpool: stalled\n' "$program" run --threads 1 --workers 1
try 'it is legal too' 0 $'legal 12\n' '' run_and check --workers 1
try 'it is shown what they waited for' 0 $'~*  c2   end * stalled (its wait for object 1)\n*  w1   end * stalled (its wait for kernel object 1)\n*\nentry 9 stalled: c2 -> w1 -> kernel object 1\nentry 11 stalled: w1 -> kernel object 1\n*' '' run_and show --workers 1
stalled_totals='{"callbacks":1,"cancelled":0,"entries":12,"left":0,"left_callbacks":[],"refused":0,"taken":1}'
try 'its summary as JSON' 9 "~*$stalled_totals"$'\n' $'tpool: stalled\n' "$program" run --json --workers 1
# Want of room is told before a wait that stalled.
input=$'event e manual clear\nwork w r\nroutine r\ndone\nclient\nacquire e\ntimes 40 submit w\ndone\n'
try 'a wait that stalls, and calls without room behind it' 8 $'~*c2 end -> stalled\n*' $'tpool: history exhausted\n' "$program" run --workers 1 --events 16

# --- A deadlock
deadlock=$here/examples/deadlock.script
try 'two threads and their callbacks wait for each other' 9 $'~*w2 acquire 1 -> ok\n0 c2 end -> stalled\n0 c2 release-lock mutex 1 -> ok\n0 w2 end -> ended\n*left 0\nrefused 0\n' $'tpool: stalled\n' "$tpool" run "$deadlock"
mended() { sed -E '/^  wait /{N;s/(.*)\n(.*)/\2\n\1/}' "$deadlock" | "$program" run "$@"; }
try 'each gives its lock back before it waits' 0 $'~*left 0\nrefused 0\n' '' mended
stalls_or_not() { timeout 60 "$program" run --threads 4 <"$deadlock" >"$room/deadlock" 2>/dev/null; echo $?; "$program" check <"$room/deadlock"; }
try 'the same on four threads' 0 $'~[09]\nlegal *' '' stalls_or_not

# --- More threads
counts_of_run() {
    "$program" run "$@" <"$server" | awk '/^end / { ended = $2 } /^entries / { entries = $2 } /^(left|refused) / { print $1, ($2 == 0 ? 0 : "some") }
        END { print (ended == entries && ended ? "as many entries" : "another number of entries") }'
}
input=
try 'the server on four threads' 0 $'~left 0\nrefused *\nas many entries\n' '' counts_of_run --threads 4
try 'the server on more threads than actors' 0 $'~left 0\nrefused *\nas many entries\n' '' counts_of_run --threads 16
for threads in 1 2 4 16; do
    try "the server's history on $threads threads is legal" 0 '~legal *' '' run_and check --threads "$threads" "$server"
done
# come_to VERDICT RUNS FILE WORD..: whether so many runs of the program on a file come to two histories at least, of which
# each has a verdict like this.
come_to() {
    local verdict=$1 runs=$2 file=$3 number
    shift 3
    mkdir -p "$room/runs"
    for ((number = 0; number < runs; number++)); do
        "$program" "$@" <"$file" >"$room/runs/$number" || return
    done
    (cd "$room/runs" && sha256sum -- * | sort | awk '!seen[$1]++ { print $2 }') >"$room/different"
    while read -r number; do
        "$program" check <"$room/runs/$number" || return
    done <"$room/different" 2>/dev/null | awk -v verdict="$verdict" '$0 ~ verdict { legal++; next } { print } END { print (legal < 2 ? legal + 0 " histories" : "at least two") }'
    rm -r "$room/runs"
}
try 'a thousand runs on four threads come to different histories, each of them legal' 0 $'at least two\n' '' come_to '^legal ' 1000 "$server" run --threads 4

# --- Devices on threads of their own
# Three devices with nearly all operations that there may be, each with an error and a number of bytes by which it is
# known. So many are needed for threads that come to different histories: with some hundred, one device is done before
# the next one has begun.
three_devices() { awk 'BEGIN { for (; device < 3; device++) { print "device"; for (each = 1; each <= 2730; each++) print "op " each % 3, device * 10000 + each } }'; }
three_devices >"$room/three.devices"
"$program" port <"$room/three.devices" >"$room/port"
try 'port-of-three-devices' 0 $'legal 24577\n' '' on "$room/port" "$program" check
completions_of() { sed -n "s/ -> .*//; s/^0 c$1 complete-io //p" "$room/port"; }
listed_for() { three_devices | awk -v device="$1" '/^device/ { at++; next } { number++ } at == device { print number, $2, $3 }'; }
for device in 1 2 3; do
    try "device $device of three completes its operations, in its order" 0 "$(listed_for "$device")"$'\n' '' completions_of $((device + 1))
done
callbacks_of_c3() { completions_of 3 | cut -d ' ' -f 1; }
try 'those of c3 are of the callbacks 2731 to 5460' 0 "$(seq 2731 5460)"$'\n' '' callbacks_of_c3
try 'a hundred runs of them come to different histories, each of them legal' 0 $'at least two\n' '' come_to '^legal 24577$' 100 "$room/three.devices" port
rm "$room/port"
devices=$here/examples/three.devices
port_and() { "$tpool" port "$devices" | "$tpool" "$@"; }
try 'devices by the script' 0 $'legal 22\n' '' port_and check
try 'they are shown' 0 $'~ 1  c1   create io r1 x0 p0 normal short g0 q0  made 1\n*\nentries 22\ncallbacks 5\n*' '' port_and show
try 'their calls are answered so again' 0 $'~made 1\n*\nqueued * 1\nok\nok\nok\n' '' again <("$tpool" port "$devices")

# --- Turns that are drawn
two_times_drawn() {
    "$program" run --seed 7 <"$server" >"$room/drawn" && "$program" run --threads 1 --seed=7 <"$server" | cmp - "$room/drawn" && "$program" run <"$server" | cmp -s - "$room/drawn"
    echo $?
}
try 'a seed gives the same bytes again, and others than turns in rounds' 0 $'1\n' '' two_times_drawn
# A hundred seeds, each history legal. How many of them are there?
hundred_seeds() {
    local seed
    mkdir -p "$room/seeds"
    for ((seed = 0; seed < 100; seed++)); do
        "$program" run --seed "$seed" <"$server" >"$room/seeds/$seed" || return
        "$program" check <"$room/seeds/$seed" || return
    done | awk '!/^legal /'
    (cd "$room/seeds" && sha256sum -- * | awk '!seen[$1]++ { count++ } END { print (count < 90 ? count : "at least ninety") }')
}
try 'a hundred seeds come to different histories, each of them legal' 0 $'at least ninety\n' '' hundred_seeds
rm -rf "$room/seeds"
# The scripts of some numbers, each played by a seed. A run is migrated to itself.
drawn_runs() {
    local number
    for number in {1..20}; do
        "$program" gen "$number" | "$program" run --seed "$number" >"$room/drawn" || return
        "$program" check <"$room/drawn" || return
        "$program" migrate <"$room/drawn" >"$room/migrated" || return
        cmp "$room/migrated" <(sed '/^end /q' "$room/drawn")
    done | awk '!/^legal /'
}
try 'runs of drawn scripts are legal, and in format 2' 0 '' '' drawn_runs
try 'the script of a file with a seed' 0 "$("$program" run --seed 7 <"$server")"$'\n' '' "$tpool" run --seed 7 "$server"

# --- The long script of a number
try 'big' 0 '~entries *callbacks *taken *cancelled *left 0'$'\n''refused *' '' "$program" big 7
try 'it is the same again, from the script' 0 "$("$program" big 7)"$'\n' '' "$tpool" big 7
try 'its summary as JSON' 0 '~{"callbacks":*,"cancelled":*,"entries":*,"left":0,"left_callbacks":\[],"refused":*,"taken":*}'$'\n' '' "$program" big --json 7
try 'big reads nothing' 0 '~entries *' '' without_input "$program" big 0
try 'big with little room' 8 '~entries *' $'tpool: history exhausted\n' "$tpool" big 7 --events 16
try 'nothing can be written of it' 4 '' $'tpool: write fault\n' to /dev/full "$tpool" big 7

# --- Words, streams
export TMPDIR=$room
for words in 'run --threads 0' 'run --threads 17' 'run --workers 65' 'run --events 15' 'run --json --json'; do
    # shellcheck disable=SC2086
    try "bad words: '$words'" 1 '' $'~tpool: bad words\ntpool: an option is there once, *\n' "$tpool" $words
done
try 'big without a number' 1 '' $'~tpool: bad words\ntpool: big wants a number, *\n' "$tpool" big
input=$alone
try "nothing can be written: run" 4 '' $'tpool: write fault\n' to /dev/full "$tpool" run "$room/alone.script"
try "nothing can be written: runs" 4 '' $'tpool: write fault\n' to /dev/full "$tpool" runs "$room/alone.script" 2
try "nothing can be written: port" 4 '' $'tpool: write fault\n' to /dev/full "$tpool" port "$devices"
for command in run runs port; do
    try "standard input is closed: $command" 3 '' $'tpool: read fault\n' without_input "$tpool" "$command"
    try "no such file: $command" 3 '' "tpool: read fault: there is no file $room/none"$'\n' "$tpool" "$command" "$room/none"
done
yes 'group g' | head -c $((longest + 1)) >"$room/too_long"
try 'a script that is too long' 6 '' $'tpool: input too long\n' on "$room/too_long" "$program" run
rm "$room/too_long"

# --- Bad scripts
# bad_script LINE COLUMN SCRIPT CAUSE: what is said of it, of a file and of a pipe; the text of the line is in between.
bad_script() {
    local mark line
    line=$(sed -n "$1p" <<<"$3" | tr '\t\r' '??')
    printf -v mark '%*s' "$2" '^'
    input=$3
    try "a bad script: $4" 2 '' "tpool: bad line $1 column $2"$'\n'"$room/input:$1:$2: $4"$'\n'"    $line"$'\n'"    $mark"$'\n' "$tpool" run "$room/input"
    try "a bad script by a pipe: $4" 2 '' "tpool: bad line $1 column $2"$'\n'"$1:$2: $4"$'\n'"    $line"$'\n'"    $mark"$'\n' by_pipe "$tpool" runs
}
routine=$'routine r\ndone\n'
long_name=abcdefghijklmnopqrstuvwxyz_123456
# shellcheck disable=SC2016
{
    bad_script 1 8 $'work w nothere\n' 'no routine is called `nothere`'
    bad_script 2 6 $'pool p\npool p\n' '`p` stands already, as the name of a pool in line 1'
    bad_script 4 8 "${routine}"$'client\nsubmit r\ndone\n' '`r` is a routine by line 1, and the name of a work object stands here'
    bad_script 2 15 $'group g\nwork w r long in p group g\n'"$routine" 'the options stand in this order, and each once: context in priority long persistent group cancel'
    bad_script 3 1 $'client\nadvance 1\n' 'the script ends, and the `done` of the client in line 1 is missing'
    bad_script 4 1 $'work w r\nroutine r\n\nclient\ndone\n' 'the `done` of the routine in line 2 is missing'
    bad_script 1 1 $'pool\tp\n' 'a tab: words are separated by spaces'
    bad_script 1 1 $'client\r\ndone\r\n' 'a carriage return: lines end in LF alone, and not in CR LF'
    bad_script 1 6 $'pool p\r\n' 'a carriage return: lines end in LF alone, and not in CR LF'
    bad_script 1 7 "group $long_name"$'\n' 'a name is a letter and up to 31 letters, digits and `_` behind it, and not `none`'
    bad_script 2 9 $'routine r\ntimes 2 let w work r\ndone\n' '`let` isn'\''t repeated by `times`'
    bad_script 1 13 $'work w r in p\npool p\n'"$routine" '`p` is declared in line 2, and a name is known from the line behind its own on'
    bad_script 1 1 $'c1 create-pool\n' 'this is a trace: ./tpool trace plays it'
    bad_script 1 1 $'history 1 clients 1 workers 1 events 16\nend 0\n' 'this is a history: ./tpool check reads it'
    bad_script 1 5 $'pool\n' 'the line ends here, and a word is missing'
    bad_script 31 1 "$(printf 'client\ndone\n%.0s' {1..16})"$'\n' 'there are 15 clients already, and no more are possible'
}
many_routines() { awk 'BEGIN { for (at = 1; at <= 65536; at++) print "routine r" at "\ndone" }' >"$room/many" && "$@" "$room/many"; }
try '65,536 routines' 2 '' '~tpool: bad line 131071 column 9'$'\n*:131071:9: there are as many of these as there may be\n    routine r65536\n            ^\n' many_routines "$tpool" run

# --- A script played many times, on threads
counted_runs=$'20 runs on 1 thread: 1 different history, of 13 entries
Each run is in one row. The shortest ones stand in @.

came of it        call           runs  histories    first  shortest
refused released  wait clock       20          1        1  13 entries, refused-released-wait-clock.history\n'
sed 's/\<t\>/clock/' "$room/alone.script" >"$room/clock.script"
clock=$room/clock.script
# with_folder COMMAND..: the folder that is told is written as @.
with_folder() { "$@" | sed "s,$room/tpool-runs-[A-Za-z0-9]*,@,"; }
by_pipe_with_folder() { cat | with_folder "$@"; }
try 'one script many times' 0 "$counted_runs" '' with_folder "$tpool" runs "$clock" 20 --threads 1 --workers 1
input=$(<"$clock")$'\n'
try 'the same by a pipe' 0 "$counted_runs" '' by_pipe_with_folder "$tpool" runs --threads=1 --workers=1 - 20
one_file() { set -- "$room"/tpool-runs-*/*; echo "$# ${1##*/}"; cat "$1"; rm -r "$room"/tpool-runs-*; }
two_times() { "$tpool" runs "$clock" 2 --threads 1 --workers 1 >/dev/null && one_file; }
rm -rf "$room"/tpool-runs-*
try 'the shortest is a file, with the names of the script' 0 "1 refused-released-wait-clock.history"$'\n'"$alone_history$alone_summary"$'name routine 1 tick\nname object 1 clock\n' '' two_times
stalled_rows=$'stalled        c2 wait one                         5          1        1  32 entries, stalled-c2-wait-one.history
               -> takes_right acquire right
               -> c3 wait two
               -> takes_left acquire left
               -> c2
               c2 -> w1 -> c3 -> w2 -> c2\n'
rows_of() { "$tpool" runs "$@" | sed 1,4d; return "${PIPESTATUS[0]}"; }
input=
try 'runs that stall, and who waits for whom' 9 "$stalled_rows" '' rows_of "$deadlock" 5 --threads 1
try 'a stall is no failure where none is asked for' 0 "$stalled_rows" '' rows_of "$deadlock" 5 --threads 1 --fail-on none
try 'runs without room' 8 $'~exhausted  * 5 * 1[0-6] entries, exhausted*.history\n*' '' rows_of "$room/full.script" 5 --threads 1 --events 16
try 'a refusal is a failure where that is asked for' 7 '~refused released *' '' rows_of "$clock" 3 --threads 1 --fail-on=refused
try 'a failure is one of those that are asked for' 0 '~refused released *' '' rows_of "$clock" 3 --threads 1 --fail-on=cancelled,left
printf 'io file r\nroutine r\ndone\nclient\n  start-io file\ndone\n' >"$room/left.script"
left_rows=$'left expected  file        3          1        1  4 entries, left-expected-file.history\n'
try 'callbacks that are left' 8 "$left_rows" '' rows_of "$room/left.script" 3 --threads 1
sums_up() {
    "$tpool" runs "$@" 2>/dev/null | awk -v wanted="$2 runs" 'NR == 1 { good = index($0, wanted) == 1 } /^Each run is in one row/ { sum = 0 } match($0, /  +[0-9]+  +[0-9]+  +[0-9]+  /) { split(substr($0, RSTART), figure, " "); sum += figure[1] } END { print good, sum }'
}
try 'the server many times: each run is in one row' 0 $'1 60\n' '' sums_up "$server" 60 --threads 4
legal_files() { for file in "$room"/tpool-runs-*/*.history; do "$tpool" check "$file"; done | awk '!/^legal /; END { print (NR ? "files" : "no file") }'; }
try 'the shortest are legal' 0 $'files\n' '' legal_files
rm -rf "$room"/tpool-runs-*
interrupted() { timeout --preserve-status -s INT 2 "$tpool" runs "$server" 1000000 --threads 4; }
try 'runs that are interrupted' 130 '~[1-9]* of 1000000 runs on 4 threads: *The shortest ones stand in*' '~tpool: 1000000 runs take about *' interrupted
rm -rf "$room"/tpool-runs-*
for words in '--threads 2' "--threads 2 --keep $room/tpool-runs-kept"; do
    # shellcheck disable=SC2086
    try "nothing is kept where nothing was played: $words" 2 '' '~tpool: bad line 3 column 1*' "$tpool" runs $words "$here/README.md" 5
done
no_folder() { ls -d "$room"/tpool-runs-* 2>/dev/null; }
try 'and no folder is left' '~[12]' '' '' no_folder
try 'a folder that can not be written' 4 '' $'tpool: write fault: nothing can be written into /proc/none\n' "$tpool" runs --keep /proc/none "$clock" 2
unset TMPDIR

# --- The same by seeds
export TMPDIR=$room
try 'by seeds nothing is kept' 0 $'~40 runs, of the seeds 1 to 40: *\n* ./tpool run --seed K FILE shows run K again.\n*' '' "$tpool" runs "$server" 40
try 'no folder is left of that' '~[12]' '' '' no_folder
unset TMPDIR
try 'each run by a seed is in one row' 0 $'1 150\n' '' sums_up "$server" 150
twice() { cmp <("$tpool" runs "$server" 60) <("$tpool" runs "$server" 60); }
try 'the same seeds, the same table' 0 '' '' twice
try 'one seed' 0 '~1 run, of the seed 1: 1 different history, of *' '' "$tpool" runs "$server" 1
# The shortest of the first row, as it is kept and as its seed shows it again.
shown_again() {
    local seed
    seed=$("$tpool" runs "$server" 30 | sed -n '5s/.*, seed //p')
    "$tpool" runs "$server" 30 --keep "$room/kept" >/dev/null &&
        file=$("$tpool" runs "$server" 30 --keep "$room/kept" | sed -n '5s/.*entries, //p') &&
        cmp <("$tpool" run --seed "$seed" "$server") <(sed '/^name /d' "$room/kept/$file")
}
try 'a run is shown again by its seed' 0 '' '' shown_again
as_json() {
    "$tpool" runs "$server" 30 --json | python3 -c 'import json, sys; table = json.load(sys.stdin); print(table["of"], sum(kind["runs"] for kind in table["kinds"]), sum(kind["runs"] for kind in table["kinds"] for thing in kind["things"]) == sum(thing["runs"] for thing in table["things"]), sorted(table))'
}
! command -v python3 >/dev/null ||
    try 'the table as JSON' 0 $'30 30 True [\'folder\', \'histories\', \'kinds\', \'longest\', \'of\', \'runs\', \'shortest\', \'things\', \'threads\']\n' '' as_json
try 'an empty script is told' 0 '~3 runs, of the seeds 1 to 3: *' $'tpool: the script is empty\n' "$tpool" runs - 3
# Whether a run of a script had a fault.
faults_of() { "$tpool" runs "$@" --json 2>/dev/null | sed 's/.*"things"://' | awk '{ print (/"came":"fault / ? "some" : "none") }'; }
try 'a timer that is left set is found' 0 $'some\n' '' faults_of "$here/examples/timer-left-set.script" 100
try 'one that is unset has nothing to be found' 0 $'none\n' '' faults_of "$here/examples/timer-unset.script" 1000
try 'who is told behind the wait for those who ask submits too late' 0 $'some\n' '' faults_of "$here/examples/guide-told-late.script" 100
try 'who is told before it does not' 0 $'none\n' '' faults_of "$here/examples/guide-told-first.script" 1000
# What came of the runs of a script.
things_of() { "$tpool" runs "$@" --json 2>/dev/null | sed 's/.*"things":\[//' | grep -o '"came":"[^"]*"'; }
try 'a read that comes under way behind the cancel is never over' 0 $'"came":"stalled"\n"came":"left issued"\n' '' things_of "$here/examples/pipe-told-late.script" 100
try 'a cancel behind all reads leaves none' 1 '' '' things_of "$here/examples/pipe-told-first.script" 1000
try 'one line of the table is read' 0 '~3 runs, *' '' first_line "$tpool" runs "$server" 3
in_a_while() { timeout --preserve-status -s INT 3 "$tpool" runs "$server" 1000000; }
try 'how long it takes is said, and what came until an interrupt' 130 '~[1-9]* of 1000000 runs, of the seeds up to 1000000: *' '~tpool: 1000000 runs take about [1-9]*' in_a_while

# --- The names of a script in a history, and the rings of stalls
named() { "$tpool" run "$1" 2>/dev/null | "$tpool" show --script "$1"; }
try 'a history with the names of its script' 0 '~*20  c2   end * stalled (its wait for one)
*
entry 20 stalled: c2 -> w1 -> c3 -> w2 -> c2

entries 32
*' '' named "$deadlock"
let_script=$'event gone manual clear\nio file heard\nroutine heard\nlet again work heard\nsubmit again\nwait again cancel\nclose again\ndone\nclient\nstart-io file\nissue-io file read\ncomplete-io read 0 5\nlet own timer heard\nis-timer-set own\nacquire gone\ndone\n'
printf '%s' "$let_script" >"$room/let.script"
try 'names that a section makes' 0 '~*complete-io read 0 5 *create timer heard x0 p0 normal short g0 q0  made own
*taken 1 file heard x0 io 0 5
*is-timer-set own *submit again *close work again *' '' named "$room/let.script"
named_again() { "$tpool" runs "$1" 1 --keep "$room/named" --threads 1 >/dev/null; "$tpool" show "$room/named"/*; }
try 'a history that runs kept has them too' 0 "$(named "$deadlock")"$'\n' '' named_again "$deadlock"
cp "$deadlock" "$room/a=b.script"
try 'a script whose name has a sign in it' 0 "$(named "$deadlock")"$'\n' '' inside "$room" named a=b.script
try 'no script' 3 '' "tpool: read fault: the script $room/none can't be read"$'\n' "$tpool" show --script "$room/none"
try 'a trace is shown by no script' 0 $'1  1  c1 submit 1  refused no-such (object 1)\n' '' "$tpool" show --script "$deadlock" <(echo 'c1 submit 1')

# --- A history laid out
input=$alone
try 'the example is played' 0 '~*c2 end -> ended*' '' "$program" run --workers 1
"$program" run --workers 1 <"$room/input" >"$room/alone.history"
listed=' 1  c1   create timer r1 x0 p0 normal short g0 q0  made 1
 2  c1   finish                                    ok
 3  c2   set-timer 1 0 0 0                         queued 1 1
 4  w1   attach                                    attached 0
 5  c2   wait timer 1 keep                         begun 1 0
 6  w1   take                                      taken 1 o1 r1 x0 plain
 7  w1   may-run-long                              flag no
 8  w1   return                                    returned - - - - 0 0
 9  c2   end                                       ended
10  c2   close timer 1                             freed
11  w1   detach                                    ok
12  c2   wait timer 1 keep                         refused released (object 1)
13  c2   finish                                    ok

'$alone_summary
in_lanes=' 1  c1   create timer r1 x0 p0 normal short g0 q0  made 1
 2  c1   finish                                    ok

    c2                                                w1
 3  set-timer 1 0 0 0 -> queued 1 1
 4                                                    attach -> attached 0
 5  wait timer 1 keep -> begun 1 0
 6                                                    take -> taken 1 o1 r1 x0 plain
 7                                                    may-run-long -> flag no
 8                                                    return -> returned - - - - 0 0
 9  end -> ended
10  close timer 1 -> freed
11                                                    detach -> ok
12  wait timer 1 keep -> refused released (object 1)
13  finish -> ok

'$alone_summary
in_narrow_lanes=' 1  c1   create timer r1 x0 p0 normal short g0 q0  made 1
 2  c1   finish                                    ok

    c2                  w1
 3  set-timer 1 0 0 0
      -> queued 1 1
 4                      attach
                          -> attached 0
 5  wait timer 1 keep
      -> begun 1 0
 6                      take
                          -> taken 1 o1 r1
                          x0 plain
 7                      may-run-long
                          -> flag no
 8                      return
                          -> returned - -
                          - - 0 0
 9  end -> ended
10  close timer 1
      -> freed
11                      detach -> ok
12  wait timer 1 keep
      -> refused
      released (object
      1)
13  finish -> ok

'$alone_summary
input=$(<"$room/alone.history")$'\n'
try 'a history is shown' 0 "$listed" '' "$tpool" show
try 'the same by a pipe' 0 "$listed" '' by_pipe "$tpool" show
in_columns() { COLUMNS=$1 "${@:2}"; }
try 'in lanes' 0 "$in_lanes" '' in_columns 120 "$tpool" show
try 'in lanes that are narrow' 0 "$in_narrow_lanes" '' in_columns 42 "$tpool" show "$room/alone.history"
try 'in too few columns for lanes' 0 "$listed" '' in_columns 41 "$tpool" show
try 'COLUMNS is no number' 0 "$listed" '' in_columns many "$tpool" show
on_terminal() { script -qec "stty cols 120; $tpool show $room/alone.history" /dev/null </dev/null | tr -d '\r'; }
! command -v script >/dev/null || try 'on a terminal' 0 "$in_lanes" '' on_terminal
try 'nothing can be written of lanes' 4 '' $'tpool: write fault\n' in_columns 120 to /dev/full "$tpool" show
input=$'history 1 clients 1 workers 1 events 16\nw1 attach -> attached 0\nend 1\n'
try 'a history that is not legal is shown' 7 $'1  w1   attach  attached 0  <- the machine says: look no-need\n' $'tpool: not legal at 1: look no-need\n2:14: w1 attach\n    the history says: attached 0\n    the machine says: look no-need\n' "$tpool" show
input=$'history 1 clients 1 workers 1 events 16\nend 0\n'
try 'a history of nothing is shown' 0 '' '' "$tpool" show
input=$'history 1 clients 1 workers 1 events 16\nend 1\n'
try 'no history is shown' 2 '' $'tpool: bad line 2 column 5\n2:5: the end line has the number of the entries\n    end 1\n        ^\n' "$tpool" show
