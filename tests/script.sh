# The script over the built program: its words, files, places, faults and layouts.
# shellcheck shell=bash

tpool=$here/tpool
trace=$here/examples/first.trace
history=$here/examples/first.history
answers=$'made 1\nqueued 1 1\nattached 0\ntaken 1 o1 r1 x7 plain\nreturned - - - - 0 0\n'

# A folder with the commands that the script uses, and without rt.
tools=$room/tools
mkdir "$tools"
for tool in bash env cat head tail tr cut sort uniq sha256sum sed awk od find mktemp rm readlink dirname date touch nproc tee git sleep cp mkdir mv; do
    ! path=$(type -P "$tool") || ln -s "$path" "$tools/$tool"
done
without_rt() { PATH=$tools "$@"; }
inside() { (cd "$1" && "${@:2}"); }

# --- Words
input=
for words in '' help -h --help 'trace --help'; do
    # shellcheck disable=SC2086
    try "help: '$words'" 0 '~tpool: the Win32 thread pool as a machine*127*MACHINE.md*' '' without_rt "$tpool" $words
done
try 'the version' 0 '~tpool, commit *, histories of format 2, for rattle-kit-*; the program is proved and built'$'\n' '' "$tpool" --version
# refuses WHAT WORD..: what is said of the first bad one among the words.
refuses() {
    try "bad words: '${*:2}'" 1 '' $'~tpool: bad words\ntpool: '"$1"$'\ntpool: usage: ./tpool *\n' "$tpool" "${@:2}"
}
refuses 'there is no command foo' foo
refuses 'there is no option -x' -x
refuses 'there is no option --jsn' --jsn trace
refuses 'a command is missing behind --json' --json
refuses 'a command is missing behind --workers' --workers
refuses 'there is no option -x' show -x
refuses 'there is no option --jsn' check --jsn a
refuses '--events wants a number' show --events
refuses 'one word too many: b' trace --workers 4 a b
refuses 'one word too many: b' trace a b
refuses 'one word too many: me' help me
refuses 'one word too many: all' prove all
refuses 'there is no call foo' calls foo
refuses 'one word too many: b' run a b
refuses 'a script is played 1 to 9999999 times, and not 0' runs a 0
refuses 'a script is played 1 to 9999999 times, and not often' runs a often
refuses 'one word too many: c' runs a 1 c
refuses '--keep is no option of run' run --keep a b
refuses '--summary is no option of runs' runs --summary b
refuses '--script wants a word behind it' show --script
refuses '--seed is no option of runs, which plays each seed' runs --seed 1 a
refuses '--fail-on wants fault, refused, stalled, exhausted, left or cancelled, with commas between, or none' runs --fail-on stall a
refuses 'install wants the folder to install below' install
refuses 'one word too many: b' install a b
too_wide() { "$tpool" help | awk 'length > 80'; }
try 'help fits 80 columns' 0 '' '' too_wide

# --- Calls
lists() { "$tpool" calls | awk '/^  / { lines++; words[$1] } END { for (word in words) calls++; print lines, calls }'; }
try 'the calls' 0 $'61 52\n' '' lists
try 'a call by its word' 0 $'~### `submit`: SubmitThreadpoolWork\n*' '' "$tpool" calls submit
for name in SubmitThreadpoolWork submitthreadpoolwork; do
    try "a call by its function, $name" 0 "$("$tpool" calls submit)"$'\n' '' "$tpool" calls "$name"
done
try 'a call of two words' 0 $'~### `create timer`: CreateThreadpoolTimer\n*' '' "$tpool" calls create timer
of_one_word() { "$tpool" calls create | sed -n 's/^### //p'; }
try 'calls of one first word' 0 $'~`create work`: *`create timer`: *`create wait`: *`create io`: *' '' of_one_word
# shellcheck disable=SC2016
calls_of() { "$tpool" calls "$1" | sed -n 's/^### `\([a-z -]*\)`: .*/\1/p'; }
try 'both calls of a function' 0 $'acquire\ntry-acquire\n' '' calls_of WaitForSingleObject
try 'both calls of another' 0 $'complete-io\ncomplete-next\n' '' calls_of CancelIoEx
try 'the second of two functions' 0 $'~### `create-lock`: *' '' "$tpool" calls InitializeCriticalSection
try 'a function by the name of its wide characters' 0 "$("$tpool" calls CreateEvent)"$'\n' '' "$tpool" calls CreateEventW
# What is no call: `first_words NAME` are those that are said of it.
first_words() { "$tpool" calls "$1" | head -n 1 | cut -c 1-31; }
try 'a function of the pool before Vista' 0 $'### `queue-item`: QueueUserWork\n' '' first_words QueueUserWorkItem
try 'what is left out of that' 0 $'Left out: **Of the pool before \n' '' first_words UnregisterWaitEx
try 'a function of libraries' 0 $'### `free-on-return`: FreeLibra\n' '' first_words FreeLibraryWhenCallbackReturns
try 'what is left out' 0 $'Left out: **Waits and locks tha\n' '' first_words AcquireSRWLockShared
try 'an operation of scripts' 0 $'In a script: `release LOCK`: ReleaseLock of the name\'s kind\n' '' "$tpool" calls release
try 'what begins a section of a script' 0 $'~In a script: A section begins with *' '' "$tpool" calls routine
try 'a function without a line' 0 $'~### SetThreadpoolCallbackPool\n*' '' "$tpool" calls SetThreadpoolCallbackPool

# --- Files and places
ln -s "$tpool" "$room/a link"
cp "$trace" "$room/a file"
printf '%s' '-h is no option' >"$room/-h"
try 'a file' 0 "$answers" '' "$tpool" trace "$trace"
try 'a file, without rt' 0 "$answers" '' without_rt "$tpool" trace "$trace"
mkdir "$room/find_alone"
ln -s "$tools"/{bash,find} "$room/find_alone"
with_find_alone() { PATH=$room/find_alone "$@"; }
try 'a call starts nothing but find and the program' 0 "$answers" '' with_find_alone "$tpool" trace "$trace"
try 'so does a check' 0 $'legal 5\n' '' with_find_alone "$tpool" check "$history"
try 'through a link, from another folder' 0 "$answers" '' inside "$room" './a link' trace 'a file'
try 'a file whose name begins with a hyphen' 2 '' $'~tpool: bad line 1 column 1\n-h:1:1: *' inside "$room" "$tpool" trace -- -h
try 'a history' 0 $'legal 5\n' '' "$tpool" check "$history"
try 'a file without a name' 3 '' $'tpool: read fault: there is no file \n' "$tpool" trace ''
try 'no such file' 3 '' "tpool: read fault: there is no file $room/none"$'\n' "$tpool" trace "$room/none"
try 'a folder' 3 '' "tpool: read fault: $room is a directory"$'\n' "$tpool" trace "$room"
try 'a folder is shown' 3 '' "tpool: read fault: $room is a directory"$'\n' "$tpool" show "$room"
try 'a folder as standard input' 3 '' $'tpool: read fault: standard input is a directory\n' on "$room" "$tpool" trace
if [[ $EUID != 0 ]]; then
    cp "$trace" "$room/closed" && chmod a-r "$room/closed"
    try 'a file that is not to be read' 3 '' "tpool: read fault: $room/closed can't be opened"$'\n' "$tpool" trace "$room/closed"
fi
input=$(<"$trace")$'\n'
try 'standard input' 0 "$answers" '' "$tpool" trace
try 'standard input by its sign' 0 "$answers" '' "$tpool" trace -
by_pipe() { cat | "$@"; }
try 'a pipe' 0 "$answers" '' by_pipe "$tpool" trace
try 'a pipe by its sign, behind the sign of no more options' 0 "$answers" '' by_pipe "$tpool" trace -- -
by_substitution() { "$@" <(cat "$trace"); }
try 'a pipe as a file' 0 "$answers" '' by_substitution "$tpool" trace
for said in $'none\nstates 3\nsteps 2\n' $'gave up at 100 states\ndeep 9\n'; do
    input=$said
    try 'what is said of all orders is shown as it is' 0 "$said" '' "$tpool" show
done
after_a_line() { { read -r _ && "$@"; } <"$room/input"; }
input=$'w1 attach\nw1 take\nw1 \ttake\n'
try 'a file from its second line on' 2 '' $'tpool: bad line 2 column 4\n2:4: a tab: one space stands between two words\n    w1 ?take\n       ^\n' after_a_line "$tpool" trace

# --- Faults
# shows COMMAND LINE COLUMN INPUT CAUSE: a bad line, with its place and cause.
shows() {
    input=$4
    try "cause: $5" 2 '' "~tpool: bad line $2 column $3"$'\n'"$2:$3: $5"$'\n    *^\n' "$tpool" "$1"
}
# forms COMMAND LINE COLUMN INPUT CAUSE FORM: the same, with the words of the call's line below it.
forms() {
    input=$4
    try "cause: $5, form: $6" 2 '' "~tpool: bad line $2 column $3"$'\n'"$2:$3: $5"$'\n    *^\n    the line is: '"$6"$'\n' "$tpool" "$1"
}
end=$'history 1 clients 1 workers 1 events 16\n'
shows trace 1 10 $'w1 attach\r\n' 'a carriage return: lines end in LF alone, and not in CR LF'
shows trace 1 10 'w1 attach' 'the input ends here: the line feed is missing, or more'
shows check 2 5 "$end"$'end 1\n' 'the end line has the number of the entries'
shows check 2 1 "$end" 'the input ends here, and one more line is missing'
shows trace 1 1 $'\xef\xbb\xbfw1 attach\n' 'a byte order mark, it seems: the lines are plain ASCII'
shows trace 1 3 $'w1\tattach\n' 'a tab: one space stands between two words'
shows trace 2 1 $'w1 attach\n\nw1 take\n' 'an empty line'
shows trace 1 1 $'# a comment\n' 'there are no comments, but in scripts, which ./tpool run plays'
shows trace 1 10 $'w1 attach # a comment\n' 'there are no comments, but in scripts, which ./tpool run plays'
shows trace 1 1 "$end" 'this is a history: ./tpool check reads it'
shows check 1 1 $'w1 attach\n' 'this is a trace: ./tpool trace reads it, and ./tpool history makes a history of it'
shows history 1 1 "$end" 'this is a history: ./tpool check reads it, and ./tpool migrate writes it in format 2'
shows check 2 1 "$end"$'0 c1 finish -> ok\nend 1\n' 'a moment stands here, and histories of format 1 have none'
shows migrate 2 1 $'history 2 clients 1 workers 1 events 16 objects 9\nc1 finish -> ok\nend 1\n' 'the moment is missing, which in format 2 stands before each entry'
shows check 18 1 "$end$(yes 'w1 take -> refused not-attached' | head -n 17)"$'\n' 'there are as many entries as the first line has room for: the end line stands here'
shows trace 1 1 $'pool p\n' 'this is a script, it seems: ./tpool run plays it'
shows check 1 1 $'client\n' 'this is a script, it seems: ./tpool run plays it'
shows trace 1 10 $'w1 attach -> attached 0\n' 'an answer stands here, as in a history: ./tpool check reads those'
shows trace 1 4 $'w1  attach\n' 'a space too many'
shows trace 1 10 $'w1 attach \n' 'a space too many'
shows trace 1 1 $' w1 attach\n' 'a space in front of the line'
shows trace 1 1 $'C1 take\n' 'words are in small letters'
shows trace 1 12 $'c1 submit 01\n' 'a number has no leading zeros'
forms trace 1 10 $'c1 submit\n' 'the line ends here, and OBJECT is missing' 'submit OBJECT'
forms trace 1 24 $'c1 create work r1 x0 p0\n' 'the line ends here, and PRIORITY is missing' 'create work ROUTINE CONTEXT ENVIRONMENT'
forms trace 1 20 $'c1 create-event man\n' 'the line ends here, and something is missing' 'create-event RESET SIGNAL'
forms check 2 11 "$end"$'c1 submit -> ok\nend 1\n' 'the call ends here, and OBJECT is missing' 'submit OBJECT'
forms check 2 15 $'history 2 clients 1 workers 1 events 16 objects 9\n100 c1 submit -> ok\nend 1\n' 'the call ends here, and OBJECT is missing' 'submit OBJECT'
shows check 2 21 "$end"$'c1 submit 1 -> queue\nend 1\n' 'the line ends here, and something is missing'
shows trace 1 4 $'w1 \xc3\xa4\n' 'a byte that is not ASCII'
shows trace 1 4 $'w1 \x01\n' 'a control character: the lines are plain ASCII'
forms trace 1 42 $'c1 create work r1 x7 p0 normal short g0 q3\n' 'no good line goes on like this' 'create work ROUTINE CONTEXT ENVIRONMENT'
meant() { shows trace 1 "$1" "$2"$'\n' "\`$3\` is meant, it seems${4:+: ./tpool calls $4}"; }
meant 6 'c1 sumbit 1' submit submit
meant 8 'w1 attahc' attach attach
meant 11 'c1 create-timer r1 x0 p0 normal short g0 q0' 'create timer' 'create timer'
meant 10 'c1 close group 1' close-group close-group
meant 9 'c1 start io 1' start-io start-io
meant 12 'c1 create wrok r1 x0 p0 normal short g0 q0' work 'create work'
meant 26 'c1 create work r1 x7 p0 nromal short g0 q0' normal ''
meant 20 'c1 wait work 1 cancle' cancel ''
# shellcheck disable=SC2016
shows trace 1 4 $'c1 SubmitThreadpoolWork(1)\n' 'SubmitThreadpoolWork is written `submit`: ./tpool calls SubmitThreadpoolWork'
# shellcheck disable=SC2016
shows check 2 10 "$end"$'c1 createEventA auto clear -> made 1\nend 1\n' 'CreateEvent is written `create-event`: ./tpool calls CreateEvent'
shows trace 1 4 $'c1 SetThreadpoolCallbackPool 1\n' 'SetThreadpoolCallbackPool has no line of its own: ./tpool calls SetThreadpoolCallbackPool'
shows trace 1 1 $'submit 1\n' 'a line begins with an actor, as c1 or w1'
forms trace 1 10 $'c1 finish now\n' 'no good line goes on like this' finish
shows port 1 1 $'op 0 1\n' 'an operation is of the device above it: `device` stands first'
shows port 16 1 "$(yes device | head -n 16)"$'\n' 'there are 15 devices above, as many as there may be'
shows port 8194 1 $'device\n'"$(yes 'op 0 1' | head -n 8193)"$'\n' 'there are 8192 operations above, as many as there may be'
forms port 2 5 $'device\nop 0\n' 'the line ends here, and something is missing' 'device, or op ERROR BYTES'
shows port 1 1 $'work w r\n' 'this is a script, it seems: ./tpool run plays it'
shows port 1 1 $'c1 start-io 1\n' 'this is a trace: ./tpool trace plays it'
shows port 1 1 "$end" 'this is a history: ./tpool check reads it'
for command in trace check run; do
    shows "$command" 1 1 $'device\nop 0 1\n' 'these are devices, it seems: ./tpool port reads them'
done
# A mark in front of all, and CR LF, are told before anything else.
shows trace 1 6 $'c1 sumbit 1\r\n' 'a carriage return: lines end in LF alone, and not in CR LF'
shows run 1 1 $'done\r\n' 'a carriage return: lines end in LF alone, and not in CR LF'
shows run 1 1 $'\xef\xbb\xbfpool p\n' 'a byte order mark, it seems: the lines are plain ASCII'
shows check 1 1 $'\xff\xfeh\n' 'a byte order mark, it seems: the lines are plain ASCII'
input="c1 submit $(printf '%0300d' 0)"$'\n'
try 'a long line' 2 '' $'~tpool: bad line 1 column 12\n1:12: a number has no leading zeros\n    c1 submit 000*0\n               ^\n' "$tpool" trace
input=$'w1 take\nc1 submit 01\n'
place=$'2:12: a number has no leading zeros\n    c1 submit 01\n               ^\n'
by_fifo() { mkfifo "$room/fifo" && { cat >"$room/fifo" & } && "$@" "$room/fifo"; }
for command in trace show history libraries legacy windows; do
    try "a bad line by a pipe: $command" 2 '' $'tpool: bad line 2 column 12\n'"$place" by_pipe "$tpool" "$command"
    try "a bad line of a file: $command" 2 '' $'tpool: bad line 2 column 12\n'"$room/input:$place" "$tpool" "$command" "$room/input"
done
try 'a bad line of a FIFO' 2 '' $'tpool: bad line 2 column 12\n'"$room/fifo:$place" by_fifo "$tpool" trace
input="${end}c1 submit 01"$'\n'
try 'a bad line of a history, by a pipe' 2 '' $'tpool: bad line 2 column 12\n'"$place" by_pipe "$tpool" check

# --- Wrong answers
input="${end}w1 take -> refused not-attached"$'\nw1 attach -> attached 0\nend 2\n'
wrong=$'3:14: w1 attach\n    the history says: attached 0\n    the machine says: look no-need\n'
try 'a wrong answer' 7 $'not legal at 2: look no-need\n' "$wrong" "$tpool" check
try 'a wrong answer, by a pipe' 7 $'not legal at 2: look no-need\n' "$wrong" by_pipe "$tpool" check
try 'a wrong answer of what is to be migrated' 7 $'not legal at 2: look no-need\n' "$wrong" by_pipe "$tpool" migrate
try 'a wrong answer in a file' 7 $'not legal at 2: look no-need\n' "$room/input:$wrong" "$tpool" check "$room/input"
input="${end}c1 create work r1 x0 p0 normal short g0 q0 -> made 1"$'\nc1 submit 1 -> queued 1 1\nw1 attach -> attached 0\nw1 take -> taken 1 o1 r1 x0 plain\nc1 wait work 1 keep -> begun 1 0\nc1 end -> ended\nend 6\n'
why=$'7:11: c1 end\n    the history says: ended\n    the machine says: look not-yet callback 1 (object 1, w1 runs it)\n'
try 'why an answer is wrong' 7 $'not legal at 6: look not-yet callback 1\n' "$why" "$tpool" check
try 'its row is marked' 7 $'~*\n6  c1   end * ended  <- the machine says: look not-yet callback 1 (object 1, w1 runs it)\n' "~*$why" "$tpool" show
input=$'history 2 clients 1 workers 4 events 65536 objects 65535\n5 c1 advance 5 -> advanced 5 0 0\n0 c1 finish -> ok\nend 2\n'
moment=$'3:1: 0 c1 finish -> ok\n    the history says: moment 0\n    it should be: moment 5\n'
try 'a wrong moment' 7 $'not legal at 2: moment 5\n' "$moment" "$tpool" check
try 'the calls of a history with moments' 0 $'c1 advance 5\nc1 finish\n' '' "$tpool" calls-of
try 'its row is marked too' 7 $'1  c1   advance 5  advanced 5 0 0\n2  c1   finish     ok  <- it should be: moment 5\n' $'tpool: not legal at 2: moment 5\n'"$moment" "$tpool" show
input=${input/$'\n0 '/$'\n5 '}
try 'a history with moments is shown' 0 $'1  c1   advance 5  advanced 5 0 0\n2  c1   finish     ok\n' '' "$tpool" show
input=${input/-> ok/-> refused no-such}
try 'a wrong answer behind a moment' 7 $'not legal at 2: ok\n' $'3:16: 5 c1 finish\n    the history says: refused no-such\n    the machine says: ok\n' "$tpool" check
try 'a verdict that can not be written' 4 '' $'tpool: write fault\n' to /dev/full "$tpool" check

# --- Layouts
input=$(<"$trace")$'\n'
shown=$'1  1  c1 create work r1 x7 p0 normal short g0 q0  made 1
2  2  c1 submit 1                                 queued 1 1
3  3  w1 attach                                   attached 0
4  4  w1 take                                     taken 1 o1 r1 x7 plain
5  5  w1 return                                   returned - - - - 0 0\n'
try 'calls and answers side by side' 0 "$shown" '' "$tpool" show
try 'the same of a file' 0 "$shown" '' "$tpool" show "$trace"
try 'the same by a pipe' 0 "$shown" '' by_pipe "$tpool" show
try 'the history of a trace' 0 "$(<"$history")"$'\n' '' "$tpool" history
input=
try 'nothing to show' 0 '' '' "$tpool" show
try 'the history of nothing' 0 $'history 2 clients 0 workers 4 events 65536 objects 65535\nend 0\n' '' "$tpool" history
try 'a history of format 1 is migrated' 0 "$(sed '1s/65535$/4095/' "$history")"$'\n' '' "$tpool" migrate "$here/examples/old.history"
again() { "$tpool" calls-of "$1" | "$tpool" trace; }
try 'the calls of a history' 0 "$(<"$trace")"$'\n' '' "$tpool" calls-of "$history"
try 'they are answered as they were' 0 "$answers" '' again "$history"
input=$'history 1 clients 2 workers 1 events 65536\nc1 finish -> ok\nend 1\n'
try 'the machine of a history is another one' 0 $'c1 finish\n' $'tpool: the same machine is that of ./tpool trace --workers 1\ntpool: the history has 2 clients, and a trace as many as its greatest number\n' "$tpool" calls-of
input=$'history 1 clients 2 workers 1 events 65536\nc1 finish\n'
try 'the calls of what is no history' 2 '' '~tpool: bad line 2 column 10'$'\n*' "$tpool" calls-of
input=$'c3 submit 1\nw1 attach\nc2 finish\n'
try 'looks are no entries' 0 $'history 2 clients 3 workers 4 events 65536 objects 65535\n0 c3 submit 1 -> refused no-such\n0 c2 finish -> ok\nend 2\n' '' "$tpool" history
try 'looks have no number of an entry' 0 $'1  1  c3 submit 1  refused no-such (object 1)\n2     w1 attach    look no-need\n3  2  c2 finish    ok\n' '' "$tpool" show
# Each line is a call, and behind ` -> ` what `show` says of it, what it is about among that.
of_what() { "$tpool" show <(sed 's/ -> .*//' "$here/tests/subjects") | sed 's/^.\{10\}//;s/   */ -> /'; }
try 'what refusals and looks are about' 0 "$(<"$here/tests/subjects")"$'\n' '' of_what

# --- Streams
input=$'c1 submit 1\n'
for command in trace show history libraries legacy windows calls help --version; do
    try "nothing can be written: $command" 4 '' $'tpool: write fault\n' to /dev/full "$tpool" "$command"
    try "standard output is closed: $command" 4 '' $'tpool: write fault\n' without_output "$tpool" "$command"
    try "nobody reads: $command" 4 '' '' into_closed_pipe "$tpool" "$command"
done
for command in trace show history libraries legacy windows check migrate; do
    try "standard input is closed: $command" 3 '' $'tpool: read fault\n' without_input "$tpool" "$command"
done
try 'standard error is closed' 0 "$answers" '' without_errors "$tpool" trace "$trace"
try 'standard error is closed, and there is no such file' 3 '' '' without_errors "$tpool" trace "$room/none"
first_line() { "$@" | head -n 1; }
yes 'c1 create-pool' | head -n 70000 >"$room/long"
full=$'tpool: 4465 of the calls are full: *\n'
try 'a long trace of which one line is read' 0 $'made 1\n' '' first_line "$tpool" trace "$room/long"
try 'the same side by side' 0 $'    1      1  c1 create-pool  made 1\n' '' first_line "$tpool" show "$room/long"
try 'a long trace that can not be written' 4 '' $'tpool: write fault\n' to /dev/full "$tpool" trace "$room/long"
last_line() { "$@" | tail -n 1; }
for command in trace show history libraries legacy windows; do
    try "how many are full: $command" 0 '~*' "~$full" last_line "$tpool" "$command" "$room/long"
done
full_history() { "$tpool" history "$room/long" 2>/dev/null | "$tpool" check; }
try 'the history of a trace that fills it is legal' 0 $'legal 65535\n' '' full_history
for words in help calls 'calls submit' "calls-of $history" "show $trace" "history $trace" "libraries $here/examples/plugin.libraries" "legacy $here/examples/watchdog.legacy" "windows $here/examples/wake-ups.windows" "check $here/examples/guide-mended.history" "run $here/examples/server.script" 'gen 7'; do
    # shellcheck disable=SC2086
    try "one line is read, and nothing is said: $words" 0 '~*' '' first_line "$tpool" $words
done
typed_in() { script -qec "$tpool trace" /dev/null </dev/null 2>&1 | tr -d '\r' | head -n 1; }
! command -v script >/dev/null ||
    try 'standard input is a terminal' 0 $'tpool: reading from the terminal, up to its end (Ctrl-D)\n' '' typed_in
without_temporary_folder() { TMPDIR=$room/none "$@"; }
try 'no folder for temporary files' 126 '' "tpool: there is no room for temporary files in $room/none"$'\n' without_temporary_folder "$tpool" show "$trace"
# The options of the machine's size, and the script of a number.
of_sixteen() { echo 'c16 submit 1' | "$tpool" trace --events 16; }
input=$'c2 submit 1\nw5 attach\n'
try 'a machine of another size' 0 $'refused no-such\nlook no-need\n' '' "$tpool" trace --workers 5
try 'options before the command' 0 $'refused no-such\nlook no-need\n' '' "$tpool" --workers 5 --events=100 trace -
try 'the history of one' 0 $'history 2 clients 2 workers 5 events 100 objects 65535\n0 c2 submit 1 -> refused no-such\nend 1\n' '' "$tpool" history --workers=5 --events 100
try 'one is shown' 0 $'1  1  c2 submit 1  refused no-such (object 1)\n2     w5 attach    look no-need\n' '' "$tpool" show --events 100 --workers 5
try 'a small one is full' 0 $'full 0 1\n' $'~tpool: 1 of the calls are full: *\n' of_sixteen
for words in 'many' '"a[0]"'; do
    try "bad words: runs on $words threads" 1 '' $'~tpool: bad words\ntpool: an option is there once, *\n' "$tpool" runs --threads "$words"
done
for words in '--workers 65' '--events=15' '--workers 4 --workers 4' '--json --json'; do
    # shellcheck disable=SC2086
    try "bad words: '$words'" 1 '' $'~tpool: bad words\ntpool: an option is there once, *\n' "$tpool" trace $words
done
try 'the script of a number' 0 $'pool p max 3 min 0\n' '' first_line "$tpool" gen 7
try 'the script of no number' 1 '' $'~tpool: bad words\ntpool: gen wants a number, *\n' "$tpool" gen seven
pools_history() { "$tpool" history "$here/examples/pools.trace" | "$tpool" check; }
try 'the history of the pools is legal' 0 $'legal 18\n' '' pools_history

# --- The page of man, completion, and what is installed
page_warnings() { { groff -ww -man -Tascii "$here/docs/tpool.1" >/dev/null; } 2>&1; }
! command -v groff >/dev/null || try 'the page of man' 0 '' '' page_warnings
# Each command and each option that help has.
words_of_help() { "$tpool" help | grep -oE '^  \./tpool [a-z-]+|^  --[a-z-]+' | sed 's/.* //' | sort -u; }
unknown_to() { words_of_help | while read -r word; do [[ $(sed 's/\\-/-/g' "$1") == *"$word"* ]] || echo "$word"; done; }
try 'the page of man has all words of help' 0 '' '' unknown_to "$here/docs/tpool.1"
try 'completion has all words of help' 0 '' '' unknown_to "$here/script/completion.bash"
# completes WORD..: what the last of the words is completed to.
completes() {
    bash -c '. "$1"; shift; COMP_WORDS=("$@"); COMP_CWORD=$(($# - 1)); _tpool "$1" "${*: -1}" "${@: -2:1}"; echo "${COMPREPLY[*]}"' _ "$here/script/completion.bash" "$tpool" "$@"
}
try 'a command is completed' 0 $'calls-of calls\n' '' completes ca
try 'an option of a command is completed' 0 $'--threads\n' '' completes runs --t
try 'a kind is completed' 0 $'stalled\n' '' completes runs --fail-on st
try 'a call is completed' 0 $'set-timer set-timer-ex\n' '' completes calls set-ti
try 'a function is completed' 0 $'SubmitThreadpoolWork\n' '' completes calls Sub
try 'a file is completed' 0 "$here/examples/server.script"$'\n' '' completes run "$here/examples/serv"
input=
try 'it is installed' 0 '' "~tpool: installed below $room/prefix, [1-9]* KiB: $room/prefix/bin/tpool"$'\n' "$tpool" install "$room/prefix"
try 'and again' 0 '' '~tpool: installed below *' "$tpool" install "$room/prefix"
mv "$room/prefix" "$room/a prefix"
installed="$room/a prefix/bin/tpool"
try 'an installed one, in another folder' 0 "$answers" '' inside "$room/a prefix/share/doc/tpool" without_rt "$installed" trace examples/first.trace
try 'its version' 0 "$("$tpool" --version)"$'\n' '' without_rt "$installed" --version
try 'its calls' 0 "$("$tpool" calls submit)"$'\n' '' without_rt "$installed" calls submit
try 'it is not installed from there' 126 '' $'tpool: this is installed already: the folder can be copied as it is\n' without_rt "$installed" install "$room/other"
try 'nothing can be installed there' 4 '' $'tpool: write fault: not all can be written below /proc/none\n' "$tpool" install /proc/none
