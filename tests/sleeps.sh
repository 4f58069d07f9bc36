# Traces with sleeps: the places of faults, what sleeps come to, which advances lie under one, drawn sleeps beside a plain
# reading in awk, and what a sleep takes.
# shellcheck shell=bash

# --- Places of faults
# Each is a column and a line, which stands behind a good one.
places=(
    '9:c1 sleep'
    '10:c1 sleep '
    '10:c1 sleep  5'
    '28:c1 sleep 9223372036854775808'
    '29:c1 sleep 92233720368547758070'
    '29:c1 sleep 1000000000000000000000'
    '11:c1 sleep 01'
    '10:c1 sleep -1'
    '10:c1 sleep +1'
    '10:c1 sleep none'
    '10:c1 sleep x1'
    '11:c1 sleep 5 '
    '11:c1 sleep 5 5'
    '11:c1 sleep 5ms'
    '11:c1 sleep 5.0'
    '9:c1 sleeps 5'
    '9:c1 sleep-ex 5'
    '9:c1 sleep5'
    '8:c1 slee 5'
    '6:c1 sl'
    '5:c1 sreep 5'
    '4:c1 Sleep 5'
    '4:c1  sleep 5'
    '1:sleep 5'
    '3:c17 sleep 5'
    '2:c0 sleep 5'
    '3:w65 sleep 5'
    '13:c1 sleep 100 -> slept 100 1'
    '4:c1 load l1'
    '4:c1 queue-item r1 x0 short'
    '43:c1 create work r1 x0 p0 normal short g0 q0 l1'
    '15:c1 submit 65536'
    '30:c1 advance 9223372036854775808'
)
for place in "${places[@]}"; do
    input=$'w64 sleep 9223372036854775807\n'"${place#*:}"$'\n'
    try "the place of a fault: '${place#*:}'" 2 '' "tpool: bad line 2 column ${place%%:*}"$'\n' "$program" windows
done
for line in 'c1 sleep 5:11' 'c1 sleep 9223372036854775807:29' 'c1 sleep :10' 'c1 sleep:9' 'c1 sle:7'; do
    input=${line%:*}
    try "no last line feed: '$input'" 2 '' "tpool: bad line 1 column ${line#*:}"$'\n' "$program" windows
done
input=$'c1 sleep 5\n'
for command in trace history libraries legacy; do
    try "no sleep among what $command reads" 2 '' $'tpool: bad line 1 column 5\n' "$program" "$command"
done
input=
try 'an empty trace with sleeps' 0 '' '' "$program" windows
for words in '--seed 1' '--threads' '--workers 0' '--workers 65' '--events 15' '--events 131073' '7' 'windows'; do
    # shellcheck disable=SC2086
    try "bad words: 'windows $words'" 1 '' $'tpool: bad words\n' "$program" windows $words
done

# --- What lines come to
options=()
: >"$room/drawn"
: >"$room/told"
# sleeps NAME 'LINE -> ANSWER; ANSWER..'..: what each line comes to. Where no number is too long for awk, the trace is kept,
# with what it comes to.
sleeps() {
    input=$(printf '%s\n' "${@:2}" | sed 's/ -> .*//')$'\n'
    try "$1" 0 "$(printf '%s\n' "${@:2}" | sed 's/.* -> //; s/; /\n/g')"$'\n' '' "$program" windows "${options[@]}"
    [[ ! $input =~ [0-9]{16} ]] || return 0
    printf '%s@' "${options[*]/--/}"$'\n'"$input" >>"$room/drawn"
    { cat "$room/out" && printf @; } >>"$room/told"
}
for file in "$here/tests/sleeps"/*; do
    mapfile -t lines <"$file"
    options=()
    [[ $file != *-without-room ]] || options=(--events 16)
    sleeps "the sleeps ${file##*/}" "${lines[@]}"
done
input=$'w3 sleep 5\nc1 sleep 5\nc4 sleep 0\n'
try 'sleeps on a machine of another size' 0 $'refused no-such\nstopped 0\nadvanced 5 0 0\nslept 5 1\nadvanced 5 0 0\nslept 5 1\n' '' "$program" --workers 2 windows --events=20

# A sleep ends where a timer has no place for its callback: the clock stays, and what was done before stands.
no_place() {
    {
        printf 'c1 create timer r%s x0 p0 normal short g0 q0\n' 1 2 3
        yes 'c1 submit-simple r1 x0 p0 normal short g0 q0' | head -n 8191
        printf 'c1 %s\n' 'set-timer 1 -10000 0 0' 'set-timer 2 -20000 0 1' 'set-timer 3 -30000 0 0' 'sleep 100000' 'sleep 5' 'sleep 100000' 'set-timer 2 none 0 0' 'advance 9994' 'sleep 100000' \
            'set-timer 3 none 0 0' 'sleep 100000'
    } | "$program" windows | tail -n +8195
}
try 'a sleep stopped by callback-limit' 0 $'queued 0 0\nqueued 0 0\nqueued 0 0\nadvanced 10000 8192 1\nrefused callback-limit\nstopped 1\nadvanced 10005 0 0\nslept 10005 1\nrefused callback-limit\nstopped 0\nqueued 0 0\nadvanced 19999 0 0\nrefused callback-limit\nstopped 0\nqueued 0 0\nadvanced 119999 0 0\nslept 119999 1\n' '' no_place

# --- The advances that lie under sleeps
# Plays the traces of `drawn` by the plain reading, into `plain`. It asks `trace` what the machine answers, until the calls
# are those that were asked.
sleeps_plainly() {
    local -a calls=() before=() came=()
    local at rounds=0 name events
    : >"$room/calls"
    : >"$room/came"
    while ((rounds++ < 99)); do
        cp "$room/calls" "$room/made"
        awk -v calls="$room/calls" -f "$here/tests/sleeps.awk" "$room/drawn" "$room/made" "$room/came" >"$room/plain" || return
        cmp -s "$room/calls" "$room/made" && return
        before=("${calls[@]}")
        mapfile -t -d @ calls <"$room/calls"
        for at in "${!calls[@]}"; do
            [[ ${calls[at]} != "${before[at]-none}" ]] || continue
            read -r name events <<<"${traces[at]}"
            [[ $name == events ]] || events=65536
            came[at]=$(printf %s "${calls[at]}" | "$program" trace --events "$events") || return
        done
        printf '%s\n@' "${came[@]}" >"$room/came"
    done
    return 1
}
# Whether traces with sleeps come to what the plain reading makes of them.
are_advances() {
    local -a traces
    mapfile -t -d @ traces <"$room/drawn"
    sleeps_plainly && diff "$room/told" "$room/plain"
}
input=
try 'sleeps are advances of the machine' 0 '' '' are_advances
example=$here/examples/wake-ups.windows
lies_under_sleeps() {
    head -n 19 "$example" >"$room/drawn"
    "$program" windows <"$room/drawn" >"$room/told" || return
    are_advances >"$room/differs"
    cmp -s "$room/told" <(tr -d @ <"$room/plain") && tr -d @ <"$room/calls" | grep -c ' advance '
}
try 'so are those of the example' 0 $'8\n' '' lies_under_sleeps

# --- Drawn sleeps
# Each trace is played by the program and by the plain reading. How often what came about in them is told.
drawn_sleeps() {
    local -a traces
    local text name events
    awk -v seed=12 -v count=100 -f "$here/tests/draw_sleeps.awk" >"$room/drawn"
    mapfile -t -d @ traces <"$room/drawn"
    for text in "${traces[@]}"; do
        read -r name events <<<"$text"
        if [[ $name == events ]]; then text=${text#*$'\n'}; else events=65536; fi
        "$program" windows --events "$events" <<<"${text%$'\n'}" || return
        printf @
    done >"$room/told"
    are_advances && tell_sleeps
}
tell_sleeps() {
    awk '{ sub(/^@/, "") }
        /^slept / { times["slept, wake-ups: " ($3 > 3 ? "more" : $3)]++ }
        /^stopped / { times[$2 ? "stopped behind a wake-up" : "stopped at once"]++ }
        /^advanced / && $4 > 1 { times["several at once"]++ }
        END { for (each in times) print times[each], each }' "$room/told" | LC_ALL=C sort -k 2
}
try 'drawn sleeps' 0 $'10762 several at once\n4009 slept, wake-ups: 1\n1167 slept, wake-ups: 2\n519 slept, wake-ups: 3\n1423 slept, wake-ups: more\n2908 stopped at once\n17 stopped behind a wake-up\n' '' drawn_sleeps

# --- Among many
# Timers that are due far behind the sleep; then some of which each is due at a moment of its own, with windows of any length,
# and one that is due each millisecond; and a sleep over them.
far_timers() {
    awk -v timers="$1" 'BEGIN { for (at = 1; at <= timers; at++) print "c1 create timer r1 x0 p0 normal short g0 q0\nc1 set-timer " at " " 900000000 + at " 0 " at % 1001 }'
}
near_timers() {
    awk -v before="$1" -v timers="$2" 'BEGIN {
        for (at = 1; at <= timers; at++) print "c1 create timer r1 x0 p0 normal short g0 q0\nc1 set-timer " before + at " " 10001 * at " 0 " (at % 4 ? 0 : at % 1001)
        print "c1 create timer r2 x0 p0 normal short g0 q0\nc1 set-timer " before + at " -10000 1 0\nc1 sleep 30000000" }'
}
play_sleep() { timeout 10 "$program" windows --events 131072 <"$room/$1"; }
far_timers 56000 >"$room/made"
{ cat "$room/made" && near_timers 56000 3000; } >"$room/among"
near_timers 0 3000 >"$room/alone"
last_of_sleep() { play_sleep "$1" | tail -n 1; }
for part in among alone; do
    try "a sleep with many wake-ups, $part" 0 $'slept 30000000 5250\n' '' last_of_sleep "$part"
done
try 'it takes no longer among many timers' 0 '' '' no_longer play_sleep
# A sleep over as many timers as can expire, and the advances that it comes to.
near_timers 0 4000 >"$room/among"
sed '$d' "$room/among" >"$room/made"
{
    cat "$room/made"
    play_sleep among | awk '/^advanced / { print "c1 advance " $2 - now; now = $2 }'
} >"$room/alone"
is_no_dearer() {
    local least_sleep=999999 least_made=999999 least_alone=999999 took pass
    for pass in {1..7}; do
        took=$(milliseconds play_sleep among) && ((took >= least_sleep)) || least_sleep=$took
        took=$(milliseconds play_sleep made) && ((took >= least_made)) || least_made=$took
        took=$(milliseconds play_sleep alone) && ((took >= least_alone)) || least_alone=$took
        ((pass < 3 || least_sleep - least_made > 3 * (least_alone - least_made))) || return 0
    done
    echo "$((least_sleep - least_made)) milliseconds for a sleep, $((least_alone - least_made)) for its advances"
}
try 'a sleep takes no longer than its advances' 0 '' '' is_no_dearer

# --- By the script
try 'the example of sleeps by the script' 0 "$("$program" windows <"$example")"$'\n' '' "$tpool" windows "$example"
try 'the same by a pipe, with a size' 0 "$("$program" windows <"$example")"$'\n' '' on "$example" by_pipe "$tpool" windows --events 40
full_sleep() { { printf 'c1 sleep 5\n'; printf 'c1 submit 9\n%.0s' {1..14}; printf 'c1 sleep 5\n'; } | "$tpool" windows --events 16 | uniq; }
try 'how many wake-ups are full' 0 $'advanced 5 0 0\nslept 5 1\nrefused no-such\nfull 0 1\nstopped 0\n' $'tpool: 1 of the calls are full: the history has no room for them (docs/MACHINE.md, Room and cost)\n' full_sleep
sed '10s/120000$/9223372036854775808/' "$example" >"$room/bad.windows"
try 'a fault in it' 2 '' $'tpool: bad line 10 column 28\n'"$room/bad.windows:10:28: no good line goes on like this"$'\n    c2 sleep 9223372036854775808\n                               ^\n    the line is: sleep TICKS\n' "$tpool" windows "$room/bad.windows"
slept='this is a sleep: ./tpool windows plays it'
shows trace 1 5 $'c1 sleep 5\n' "$slept"
shows show 2 5 $'w1 attach\nc1 sleep 5\n' "$slept"
shows history 1 5 $'c1 sleep 5\n' "$slept"
shows libraries 1 5 $'c1 sleep 5\n' "$slept"
shows legacy 1 5 $'c1 sleep 5\n' "$slept"
shows windows 1 4 $'c1 queue-item r1 x0 short\n' 'this is a call of the pool before Vista: ./tpool legacy plays it'
shows windows 1 4 $'c1 load l1\n' 'this has to do with a library: ./tpool libraries plays it'
shows windows 1 1 $'history 2 clients 1 workers 1 events 16 objects 9\n' 'this is a history: ./tpool check reads it'
shows windows 1 11 $'c1 sleep 5 -> slept 5 1\n' 'an answer stands here, as in a history: ./tpool check reads those'
forms windows 1 9 $'c1 sleep\n' 'the line ends here, and TICKS is missing' 'sleep TICKS'
# shellcheck disable=SC2016
shows windows 1 7 $'c1 slep 5\n' '`sleep` is meant, it seems: ./tpool calls sleep'
