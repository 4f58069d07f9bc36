# Traces with calls of the pool before Vista: the places of faults, what is refused, which calls of the machine lie under an
# old one, drawn traces beside a plain reading in awk, and what a call takes among many.
# shellcheck shell=bash

# --- Places of faults
# Each is a column and a line, which stands behind a good one.
places=(
    '14:c1 queue-item'
    '16:c1 queue-item r0 x0 short'
    '20:c1 queue-item r65536 x0 short'
    '15:c1 queue-item 1 x0 short'
    '18:c1 queue-item r1 0 short'
    '38:c1 queue-item r1 x18446744073709551616 short'
    '20:c1 queue-item r1 x0'
    '21:c1 queue-item r1 x0 '
    '26:c1 queue-item r1 x0 shorter'
    '21:c1 queue-item r1 x0 persistent'
    '25:c1 queue-item r1 x0 long 1'
    '14:c1 queue-items r1 x0 long'
    '9:c1 queueitem r1 x0 long'
    '17:c1 register 65536 r1 x0 none once'
    '14:c1 register 01 r1 x0 none once'
    '13:c1 register -1 r1 x0 none once'
    '13:c1 register none r1 x0 none once'
    '30:c1 register 1 r1 x0 4294967296 once'
    '21:c1 register 1 r1 x0 -1 once'
    '22:c1 register 1 r1 x0 00 once'
    '22:c1 register 1 r1 x0 nine once'
    '25:c1 register 1 r1 x0 none'
    '21:c1 register 1 r1 x0 once'
    '26:c1 register 1 r1 x0 none twice'
    '30:c1 register 1 r1 x0 none oncerepeat'
    '29:c1 register 1 r1 x0 5 repeat '
    '12:c1 registers 1 r1 x0 5 repeat'
    '10:c1 regist 1'
    '14:c1 unregister'
    '19:c1 unregister 65536'
    '16:c1 unregister 01'
    '15:c1 unregister r1'
    '16:c1 unregister 1 1'
    '14:c1 unregister-ex 1'
    '16:c1 create-queue 1'
    '16:c1 create-queues'
    '12:c1 create-q'
    '11:c1 create-'
    '11:c1 create queue'
    '21:c1 create-timer 65536 r1 x0 5 0'
    '34:c1 create-timer 1 r1 x0 4294967296 0'
    '36:c1 create-timer 1 r1 x0 5 4294967296'
    '25:c1 create-timer 1 r1 x0 none 0'
    '25:c1 create-timer 1 r1 x0 -5 0'
    '26:c1 create-timer 1 r1 x0 5'
    '17:c1 create-timer r1 x0 5 0'
    '25:c1 create-timer 1 r1 x0 p0 normal short g0 q0'
    '17:c1 create timer 1 r1 x0 5 0'
    '23:c1 change-timer 1 65536 5 0'
    '30:c1 change-timer 1 1 4294967296 0'
    '24:c1 change-timer 1 1 5 04'
    '20:c1 change-timer 1 5'
    '21:c1 change-timer 1 1 none 0'
    '10:c1 changetimer 1 1 5 0'
    '18:c1 delete-timer 1'
    '23:c1 delete-timer 1 65536'
    '20:c1 delete-timer 1 1 1'
    '16:c1 delete-queue'
    '21:c1 delete-queue 65536'
    '18:c1 delete-queue 1 2'
    '16:c1 delete-queue-ex 1'
    '3:c17 unregister 1'
    '3:w65 unregister 1'
    '1:unregister 1'
    '4:c1  unregister 1'
    '4:c1 Unregister 1'
    '16:c1 unregister 1 -> later'
    '4:c1 load l1'
    '43:c1 create work r1 x0 p0 normal short g0 q0 l1'
    '15:c1 submit 65536'
)
for place in "${places[@]}"; do
    input=$'c1 queue-item r65535 x18446744073709551615 long\n'"${place#*:}"$'\n'
    try "the place of a fault: '${place#*:}'" 2 '' "tpool: bad line 2 column ${place%%:*}"$'\n' "$program" legacy
done
for line in 'c1 unregister 1:16' 'c1 unregister 6553:19' 'c1 create-queue:16' 'c1 create-q:12' 'c1 register 1 r1 x0 429496729:30' 'c1 register 1 r1 x0 5 repeat:29'; do
    input=${line%:*}
    try "no last line feed: '$input'" 2 '' "tpool: bad line 1 column ${line#*:}"$'\n' "$program" legacy
done
input=$'c1 unregister 1\n'
for command in trace history libraries; do
    try "no old call among what $command reads" 2 '' $'tpool: bad line 1 column 4\n' "$program" "$command"
done
input=
try 'an empty trace with old calls' 0 '' '' "$program" legacy
for words in '--seed 1' '--threads' '--workers 0' '--workers 65' '--events 15' '--events 131073' '7' 'legacy'; do
    # shellcheck disable=SC2086
    try "bad words: 'legacy $words'" 1 '' $'tpool: bad words\n' "$program" legacy $words
done

# --- What lines come to
options=()
: >"$room/drawn"
: >"$room/told"
# legacy NAME 'LINE -> ANSWER'..: what each line comes to. The traces are kept, with what they come to.
legacy() {
    input=$(printf '%s\n' "${@:2}" | sed 's/ -> .*//')$'\n'
    try "$1" 0 "$(printf '%s\n' "${@:2}" | sed 's/.* -> //')"$'\n' '' "$program" legacy "${options[@]}"
    printf '%s@' "${options[*]/--/}"$'\n'"$input" >>"$room/drawn"
    { cat "$room/out" && printf @; } >>"$room/told"
}
returned='returned - - - - 0 0'

for file in "$here/tests/old_traces"/*; do
    mapfile -t lines <"$file"
    legacy "the old trace ${file##*/}" "${lines[@]}"
done

# What was never made, what is gone, and what is of another queue, before all that the machine would say.
event='c1 create-event auto clear -> made 1'
legacy 'what was never made' 'c1 unregister 0 -> refused no-such' 'c1 unregister 1 -> refused no-such' 'c1 unregister 65535 -> refused no-such' \
    'c1 create-timer 0 r1 x0 5 0 -> refused no-such' 'c1 create-timer 1 r1 x0 5 0 -> refused no-such' 'c1 delete-queue 1 -> refused no-such' \
    'c1 create-queue -> queue 1' 'c1 change-timer 1 1 5 0 -> refused no-such' 'c1 delete-timer 1 0 -> refused no-such' 'c1 create-timer 1 r1 x0 5 0 -> timer 1' \
    'c1 change-timer 2 1 5 0 -> refused no-such' 'c1 delete-timer 1 2 -> refused no-such' 'w5 delete-timer 1 2 -> refused no-such' 'w5 delete-timer 1 1 -> refused no-such' \
    'c1 finish -> ok' 'c1 unregister 1 -> refused no-such' 'c1 delete-timer 1 1 -> refused released'
legacy 'what is gone' "$event" 'c1 register 1 r1 x0 none once -> registered 1' 'c1 unregister 1 -> freed' 'c1 unregister 1 -> refused released' 'c1 create-queue -> queue 1' \
    'c1 create-timer 1 r1 x0 5 0 -> timer 1' 'c1 create-timer 1 r1 x0 5 0 -> timer 2' 'c1 delete-timer 1 1 -> freed' 'c1 delete-timer 1 1 -> refused released' \
    'c1 change-timer 1 1 5 0 -> refused released' 'c1 change-timer 1 2 5 0 -> changed yes' 'c1 delete-queue 1 -> closing 0 0 0' 'c1 change-timer 1 2 5 0 -> refused released' \
    'c1 delete-timer 1 2 -> refused released' 'c1 delete-queue 1 -> refused released' 'c1 create-timer 1 r1 x0 5 0 -> refused released' 'c1 end -> ended' \
    'c1 delete-queue 1 -> refused released'
legacy "another queue's timer, behind what is none and what is gone" 'c1 create-queue -> queue 1' 'c1 create-queue -> queue 2' 'c1 create-queue -> queue 3' \
    'c1 create-timer 1 r1 x0 5 0 -> timer 1' \
    'c1 create-timer 2 r1 x0 5 0 -> timer 2' 'c1 change-timer 2 1 5 0 -> refused other-queue' 'c1 delete-timer 1 2 -> refused other-queue' 'c1 change-timer 2 3 5 0 -> refused no-such' \
    'c1 change-timer 4 1 5 0 -> refused no-such' 'c1 delete-timer 1 1 -> freed' 'c1 change-timer 2 1 5 0 -> refused released' 'c1 delete-queue 2 -> closing 0 0 0' 'c1 end -> ended' \
    'c1 delete-timer 1 2 -> refused released' 'c1 delete-timer 2 1 -> refused released' 'c1 delete-timer 3 2 -> refused released' 'w5 change-timer 3 1 5 0 -> refused released'
legacy "the machine's refusals" "$event" 'w5 queue-item r1 x0 short -> refused no-such' 'w1 queue-item r1 x0 short -> refused not-running' \
    'w1 register 1 r1 x0 none once -> refused not-running' \
    'c1 register 2 r1 x0 none once -> refused no-such' 'c1 register 0 r1 x0 none once -> refused no-such' 'w1 create-queue -> refused not-running' 'c1 create-queue -> queue 1' \
    'w1 create-timer 1 r1 x0 5 0 -> refused not-running' 'c1 create-timer 1 r1 x0 5 0 -> timer 1' 'w1 change-timer 1 1 5 0 -> refused not-running' \
    'w1 delete-timer 1 1 -> refused not-running' \
    'w1 delete-queue 1 -> refused not-running' 'c2 acquire 1 -> ok' 'c2 create-queue -> refused in-wait' 'c2 delete-timer 1 1 -> refused in-wait' 'c2 set-event 1 -> refused in-wait' \
    'c1 set-event 1 -> queued 0 0' 'c2 end -> ended' 'c2 finish -> ok' 'c2 queue-item r1 x0 short -> refused released' 'c2 delete-timer 1 1 -> refused released' \
    'c1 delete-timer 1 1 -> freed'

# What else a user may stumble over.
legacy 'no milliseconds are at once' "$event" 'c1 create-queue -> queue 1' 'c1 create-timer 1 r1 x0 0 0 -> timer 1' 'c1 change-timer 1 1 5 0 -> changed no' 'w1 attach -> attached 0' \
    'w1 take -> taken 1 o1 r1 x0 plain' 'c1 register 1 r2 x0 0 once -> registered 1' "w1 return -> $returned" 'w1 take -> taken 2 o2 r2 x0 timeout' 'c1 create-timer 1 r3 x0 0 7 -> timer 2' \
    'c1 change-timer 1 2 0 0 -> changed yes' 'c1 change-timer 1 2 5 0 -> changed no' 'c1 advance 1000000 -> advanced 1000000 0 0'
legacy 'no timeout is none' "$event" 'c1 register 1 r2 x0 none once -> registered 1' 'c1 advance 9223372036854775807 -> advanced 9223372036854775807 0 0' 'c1 unregister 1 -> freed'
legacy 'the longest times' "$event" 'c1 create-queue -> queue 1' 'c1 create-timer 1 r1 x0 4294967295 4294967295 -> timer 1' 'c1 register 1 r2 x0 4294967295 once -> registered 1' \
    'c1 advance 42949672949999 -> advanced 42949672949999 0 0' 'c1 advance 1 -> advanced 42949672950000 1 2' 'c1 advance 42949672950000 -> advanced 85899345900000 3 1'
legacy 'a lock has no registration' 'c1 create-lock mutex free -> made 1' 'c1 create-event auto clear -> made 2' 'c1 register 1 r1 x0 none once -> refused not-waitable' \
    'c1 close wait 1 -> refused released' 'c1 unregister 1 -> refused no-such' 'c1 register 2 r1 x0 none once -> registered 1' 'c1 close wait 2 -> freed'
legacy "a registration's object that the program closes" "$event" 'c1 register 1 r1 x0 none repeat -> registered 1' 'c1 close wait 1 -> freed' 'c1 set-event 1 -> queued 0 0' \
    'c1 unregister 1 -> refused released' 'c1 unregister 1 -> refused released'
# Each refusal of these was an entry: of 16 places one is the client's, for its finish.
options=(--events 16)
legacy 'it is not gone, so the machine is asked' "$event" 'c1 register 1 r1 x0 none once -> registered 1' 'c1 close wait 1 -> freed' 'c1 unregister 1 -> refused released' \
    'c1 unregister 1 -> refused released' 'c1 unregister 2 -> refused no-such' 'c1 submit 9 -> refused no-such' 'c1 submit 9 -> refused no-such' 'c1 submit 9 -> refused no-such' \
    'c1 submit 9 -> refused no-such' 'c1 submit 9 -> refused no-such' 'c1 submit 9 -> refused no-such' 'c1 submit 9 -> refused no-such' 'c1 submit 9 -> refused no-such' \
    'c1 submit 9 -> refused no-such' 'c1 unregister 1 -> full 0 1' 'c1 unregister 2 -> refused no-such'
options=()
legacy 'a repeated registration on a manual event' 'c1 create-event manual clear -> made 1' 'c1 register 1 r1 x0 none repeat -> registered 1' 'c1 set-event 1 -> queued 1 1' \
    'w1 attach -> attached 0' \
    'w1 take -> taken 1 o1 r1 x0 object' "w1 return -> $returned" 'w1 take -> taken 2 o1 r1 x0 object' \
    'c1 reset-event 1 -> ok' "w1 return -> $returned" 'w1 take -> taken 3 o1 r1 x0 object' \
    "w1 return -> $returned" 'w1 take -> look empty' 'c1 set-event 1 -> queued 4 1' 'c1 unregister 1 -> later' 'w1 take -> taken 4 o1 r1 x0 object' "w1 return -> $returned" 'w1 take -> look empty'
legacy 'a registration for once' "$event" 'c1 register 1 r1 x0 none once -> registered 1' 'c1 set-event 1 -> queued 1 1' 'w1 attach -> attached 0' 'w1 take -> taken 1 o1 r1 x0 object' \
    'c1 set-event 1 -> queued 0 0' "w1 return -> $returned" 'w1 take -> look empty' 'c1 unregister 1 -> freed'
legacy 'a repeated registration whose timeout comes' "$event" 'c1 register 1 r1 x0 5 repeat -> registered 1' 'c1 advance 50000 -> advanced 50000 1 1' \
    'c1 advance 50000 -> advanced 100000 0 0' \
    'w1 attach -> attached 0' 'w1 take -> taken 1 o1 r1 x0 timeout' 'c1 advance 49999 -> advanced 149999 0 0' 'c1 advance 1 -> advanced 150000 2 1' "w1 return -> $returned" \
    'w1 take -> taken 2 o1 r1 x0 timeout' 'c1 set-event 1 -> queued 3 1' 'c1 unregister 1 -> later'
legacy 'a registration whose object is closed, with a callback that is taken later' "$event" 'c1 register 1 r1 x0 none repeat -> registered 1' 'c1 set-event 1 -> queued 1 1' \
    'c1 close wait 1 -> later' \
    'w1 attach -> attached 0' 'w1 take -> taken 1 o1 r1 x0 object' 'c1 set-event 1 -> queued 0 0' "w1 return -> $returned" 'c1 unregister 1 -> refused released'
legacy 'a registration that the program sets by its object' "$event" 'c1 create-event auto clear -> made 2' 'c1 register 1 r1 x0 none repeat -> registered 1' \
    'c1 set-wait 1 2 none -> queued 0 0' \
    'c1 set-event 2 -> queued 1 1' 'w1 attach -> attached 0' 'w1 take -> taken 1 o1 r1 x0 object' 'c1 set-event 2 -> queued 0 0' 'c1 set-event 1 -> queued 2 1'
legacy 'a timer that the program unsets or closes by its object' 'c1 create-queue -> queue 1' 'c1 create-timer 1 r1 x0 5 5 -> timer 1' 'c1 set-timer 1 none 0 0 -> queued 0 0' \
    'c1 change-timer 1 1 5 0 -> changed no' 'c1 close timer 1 -> freed' 'c1 change-timer 1 1 5 0 -> refused released' 'c1 delete-timer 1 1 -> refused released'
legacy 'a queue whose group the program closes' 'c1 create-queue -> queue 1' 'c1 close-group 1 -> ok' 'c1 create-timer 1 r1 x0 5 0 -> refused group-closed' \
    'c1 delete-queue 1 -> refused group-closed' \
    'c1 create-queue -> queue 2' 'c1 create-timer 2 r1 x0 5 0 -> timer 1'
legacy 'a timer that has expired for good' 'c1 create-queue -> queue 1' 'c1 create-timer 1 r1 x0 5 0 -> timer 1' 'c1 create-timer 1 r1 x0 5 5 -> timer 2' \
    'c1 advance 50000 -> advanced 50000 1 2' \
    'c1 change-timer 1 1 5 5 -> changed no' 'c1 change-timer 1 2 5 0 -> changed yes' 'c1 advance 50000 -> advanced 100000 3 1' 'c1 change-timer 1 2 5 0 -> changed no'
legacy 'a timer whose callback runs, and is deleted' 'c1 create-queue -> queue 1' 'c1 create-timer 1 r1 x0 0 5 -> timer 1' 'w1 attach -> attached 0' 'w1 take -> taken 1 o1 r1 x0 plain' \
    'w1 change-timer 1 1 7 0 -> changed yes' 'w1 delete-timer 1 1 -> later' 'c1 advance 100000 -> advanced 100000 0 0' "w1 return -> $returned"
legacy 'a queue that is deleted by a callback of its own, and by another' 'c1 create-queue -> queue 1' 'c1 create-timer 1 r1 x0 0 0 -> timer 1' 'w1 attach -> attached 0' \
    'w1 take -> taken 1 o1 r1 x0 plain' \
    'w1 delete-queue 1 -> refused own-callback' 'w1 create-timer 1 r1 x0 5 0 -> timer 2' 'c1 delete-queue 1 -> closing 1 0 0' 'w1 change-timer 1 2 5 0 -> refused released' \
    'c1 create-queue -> refused in-wait' 'c1 end -> look not-yet callback 1' "w1 return -> $returned" 'c1 end -> ended' 'c1 create-queue -> queue 2'
legacy 'a queue that is deleted keeps what is pending' 'c1 create-queue -> queue 1' 'c1 create-timer 1 r1 x0 0 5 -> timer 1' 'c1 delete-queue 1 -> closing 1 0 0' \
    'c2 advance 1000000 -> advanced 1000000 0 0' \
    'w1 attach -> attached 0' 'w1 take -> taken 1 o1 r1 x0 plain' 'c1 end -> look not-yet callback 1' "w1 return -> $returned" 'c1 end -> ended'
legacy 'items that run long' 'c1 set-minimum 0 1 -> refused default-pool' 'c1 queue-item r1 x0 long -> queued 1 1' 'c1 queue-item r2 x18446744073709551615 short -> queued 2 1' \
    'w1 attach -> attached 0' \
    'w1 take -> taken 1 o0 r1 x0 plain' 'w2 attach -> attached 0' 'w1 queue-item r3 x0 short -> queued 3 1' "w1 return -> $returned" 'w1 take -> taken 2 o0 r2 x18446744073709551615 plain'

# Each call wants room for all that it may come to. The client has one place of the sixteen, for its finish.
filled() { printf 'c1 submit 9 -> refused no-such\n%.0s' $(seq "$1"); }
for cost in 1 2 3; do
    mapfile -t front < <(filled $((16 - 1 - 7 - cost + 1)))
    options=(--events 16)
    made=("$event" 'c1 create-queue -> queue 1' 'c1 create-timer 1 r1 x0 5 0 -> timer 1' 'c1 register 1 r1 x0 none once -> registered 1' 'c1 queue-item r1 x0 short -> queued 1 1' "${front[@]}")
    less="full $((cost - 1)) $cost"
    case $cost in
    1) legacy 'no room for one entry' "${made[@]}" "c1 queue-item r1 x0 short -> $less" "c1 unregister 1 -> $less" "c1 create-queue -> $less" "c1 delete-timer 1 1 -> $less" \
        "c1 submit 9 -> full 0 1" 'c1 unregister 2 -> refused no-such' 'c1 change-timer 1 2 5 0 -> refused no-such' 'w1 take -> full 0 3' 'c1 finish -> ok' ;;
    2) legacy 'no room for two entries' "${made[@]}" "c1 change-timer 1 1 5 0 -> $less" "c1 delete-queue 1 -> $less" 'c1 register 1 r1 x0 none once -> full 1 3' 'w1 attach -> full 1 2' 'c1 delete-timer 1 1 -> freed' ;;
    3) legacy 'no room for three entries' "${made[@]}" "c1 register 1 r1 x0 none once -> $less" "c1 create-timer 1 r1 x0 5 0 -> $less" "w1 take -> $less" "c1 take -> $less" "w9 take -> $less" \
        'w1 attach -> attached 0' 'w1 take -> full 0 3' 'w1 detach -> look stay' ;;
    esac
done
options=(--events 18)
mapfile -t front < <(filled 9)
legacy 'a take has room for what arms its registration anew' "$event" 'c1 register 1 r1 x0 none repeat -> registered 1' \
    'c1 set-event 1 -> queued 1 1' "${front[@]}" 'w1 attach -> attached 0' \
    'w1 take -> full 2 3' "w1 return -> refused not-running" 'w1 take -> full 1 3'
options=()
input=$'w3 unregister 1\nw3 queue-item r1 x0 short\nc1 queue-item r1 x0 short\nw2 attach\n'
try 'a machine of another size' 0 $'refused no-such\nrefused no-such\nqueued 1 1\nattached 0\n' '' "$program" --workers 2 legacy --events=20

# Where the slots are taken: nothing is left of what could not be set, and a registration that can't be armed anew isn't.
no_slot() {
    {
        printf 'c1 %s\n' 'create-event auto clear' 'create-queue' 'register 1 r1 x0 none repeat' 'create-timer 1 r1 x0 5 0' 'set-event 1'
        yes 'c1 queue-item r1 x0 short' | head -n 8191
        printf '%s\n' 'w1 attach' 'c1 queue-item r1 x0 short' 'c1 register 1 r1 x0 none once' 'c1 create-timer 1 r1 x0 0 0' 'c1 change-timer 1 1 0 0' 'c1 change-timer 1 1 7 0' \
            'c1 close wait 3' 'c1 close timer 4' 'c1 unregister 2' 'c1 delete-timer 1 2' 'w1 take' 'w1 return' 'c1 set-event 1' 'c1 unregister 1'
    } | "$program" legacy | sed 6,8196d
}
try 'no callback can be under way' 0 $'made 1\nqueue 1\nregistered 1\ntimer 1\nqueued 1 1\nattached 0\nrefused callback-limit\nrefused callback-limit\nrefused callback-limit\nrefused callback-limit\nchanged yes\nrefused released\nrefused released\nrefused no-such\nrefused no-such\ntaken 1 o1 r1 x0 object\nreturned - - - - 0 0\nqueued 0 0\nfreed\n' '' no_slot

# --- The machine's calls that lie under old ones
# Plays the traces of `drawn` by the plain reading, into `plain`. It asks `trace` what the machine answers, until the calls
# are those that were asked.
read_plainly() {
    local -a calls=() before=() came=()
    local at rounds=0 name events
    : >"$room/calls"
    : >"$room/came"
    while ((rounds++ < 99)); do
        cp "$room/calls" "$room/made"
        awk -v calls="$room/calls" -f "$here/tests/legacy.awk" "$room/drawn" "$room/made" "$room/came" >"$room/plain" || return
        cmp -s "$room/calls" "$room/made" && return
        before=("${calls[@]}")
        mapfile -t -d @ calls <"$room/calls"
        for at in "${!calls[@]}"; do
            [[ ${calls[at]} != "${before[at]-none}" ]] || continue
            read -r name events <<<"${traces[at]}"
            [[ $name == events ]] || events=65536
            came[at]=$(printf %s "${calls[at]}" | "$program" trace --events "$events") || return
        done
        printf '%s\n@' "${came[@]}" >"$room/came"
    done
    return 1
}
# Whether old traces come to what the plain reading makes of them.
is_read_plainly() {
    local -a traces
    mapfile -t -d @ traces <"$room/drawn"
    read_plainly && diff "$room/told" "$room/plain"
}
input=
try 'old traces are calls of the machine' 0 '' '' is_read_plainly
example=$here/examples/watchdog.legacy
lies_under() {
    cp "$example" "$room/drawn"
    "$program" legacy <"$example" >"$room/told"
    is_read_plainly >"$room/differs"
    cmp -s "$room/told" <(tr -d @ <"$room/plain") && tr -d @ <"$room/calls" | grep -cE '^w1 set-wait 1 1 none$|^c1 set-timer 2 -10000000 1000 0$'
}
try 'the example is, and a registration is armed anew by each take' 0 $'3\n' '' lies_under

# --- Drawn traces
# Each is played by the program and by the plain reading. How often what came about in them is told.
drawn_legacy() {
    local -a traces
    local text name events
    awk -v seed=11 -v count=120 -f "$here/tests/draw_legacy.awk" >"$room/drawn"
    mapfile -t -d @ traces <"$room/drawn"
    for text in "${traces[@]}"; do
        read -r name events <<<"$text"
        if [[ $name == events ]]; then text=${text#*$'\n'}; else events=65536; fi
        "$program" legacy --events "$events" <<<"${text%$'\n'}" || return
        printf @
    done >"$room/told"
    is_read_plainly && tell_drawn
}
tell_drawn() {
    awk 'BEGIN { many = split("registered,queue,timer,changed yes,changed no,refused other-queue,refused not-waitable,refused own-callback,full", wanted, ",") }
        FNR == NR { times[$1]++; times[$1 " " $2]++; next }
        /^w. take$/ { taken = $1; next }
        { if ($1 == taken && $2 == "set-wait") times["armed anew"]++; taken = "" }
        END { for (at = 1; at <= many; at++) print times[wanted[at]], wanted[at]; print times["armed anew"], "armed anew" }' "$room/told" "$room/calls"
}
try 'drawn traces with old calls' 0 $'651 registered\n382 queue\n703 timer\n99 changed yes\n24 changed no\n226 refused other-queue\n95 refused not-waitable\n13 refused own-callback\n2360 full\n82 armed anew\n' '' drawn_legacy

# --- Among many
# make_many TIMERS REGISTRATIONS CALLS TAKES: a trace in which so many timers are made, and so many registrations, each of
# which is ended. Then so many calls follow that are refused, since they name another queue or what is gone; and so many
# items are queued, and their callbacks taken.
make_many() {
    awk -v timers="$1" -v registrations="$2" -v calls="$3" -v takes="$4" '
        BEGIN {
            print "c1 create-event auto clear\nc1 create-queue\nc1 create-queue"
            for (at = 1; at <= timers; at++) print "c1 create-timer 1 r1 x0 " 1 + at % 9 " 0"
            for (at = 1; at <= registrations; at++) print "c1 register 1 r1 x0 none repeat\nc1 unregister " at
            for (at = 1; at <= calls / 4; at++) {
                print "c1 change-timer 2 " timers " 5 0\nc1 delete-timer 2 " 1 + at % timers
                print "c1 unregister " 1 + at % registrations "\nc1 unregister " registrations
            }
            for (at = 1; at <= takes; at++) {
                print "c1 change-timer 1 " timers " 7 0\nc1 queue-item r1 x0 short"
                if (at == 1) print "w1 attach"
                print "w1 take\nw1 return"
            }
        }'
}
play_many() { timeout 10 "$program" legacy --events 131072 <"$room/$1"; }
came_of_many() { play_many among | awk '{ $0 = $1 " " $2 } /^(registered|timer|taken) / { $0 = $1 } { if (/^(registered|timer|taken|changed yes|refused.*)$/) times[$0]++ } END { for (each in times) print times[each], each }' | LC_ALL=C sort; }
for many in '1000 1000' '10000 10000' '1 40000' '60000 1'; do
    # shellcheck disable=SC2086
    make_many $many 0 0 >"$room/made"
    # shellcheck disable=SC2086
    make_many $many 200000 1000 >"$room/among"
    make_many 1 1 200000 1000 >"$room/alone"
    try "among so many timers and registrations: $many" 0 "$(printf '%s\n' '1000 changed yes' '1000 taken' '100000 refused other-queue' '100000 refused released' "${many#* } registered" "${many% *} timer" | LC_ALL=C sort)"$'\n' '' came_of_many
    try "it takes no longer: $many" 0 '' '' no_longer play_many
done
# The last queue that there may be, and the last timer.
last_ones() {
    awk 'BEGIN { for (at = 0; at < 256; at++) print "c1 create-queue"; for (at = 0; at < 60000; at++) print "c1 create-timer 255 r1 x0 1 0"
        print "c1 delete-timer 255 60000\nc1 delete-queue 255\nc1 end\nc1 delete-timer 255 1" }' | "$program" legacy --events 131072 |
        sed 's/^\(queue\|timer\) .*/\1/' | counted
}
try 'as many queues as there may be, and timers' 0 $'255 queue\n1 refused object-limit\n60000 timer\n1 freed\n1 closing 0 0 0\n1 ended\n1 refused released\n' '' last_ones

# --- By the script
try 'the example of old calls by the script' 0 "$("$program" legacy <"$example")"$'\n' '' "$tpool" legacy "$example"
try 'the same by a pipe, with a size' 0 "$("$program" legacy <"$example")"$'\n' '' on "$example" by_pipe "$tpool" legacy --events 40
sed '4s/1000$/4294967296/' "$example" >"$room/bad.legacy"
try 'a fault in it' 2 '' $'tpool: bad line 4 column 39\n'"$room/bad.legacy:4:39: no good line goes on like this"$'\n    c1 create-timer 1 r2 x0 1000 4294967296\n                                          ^\n    the line is: create-timer QUEUE ROUTINE CONTEXT AFTER PERIOD\n' "$tpool" legacy "$room/bad.legacy"
old='this is a call of the pool before Vista: ./tpool legacy plays it'
shows trace 1 4 $'c1 queue-item r1 x0 short\n' "$old"
shows show 2 6 $'w1 attach\nc1 register 1 r1 x0 none once\n' "$old"
shows history 1 11 $'c1 create-queue\n' "$old"
shows libraries 1 5 $'c1 change-timer 1 1 5 0\n' "$old"
shows legacy 1 4 $'c1 load l1\n' 'this has to do with a library: ./tpool libraries plays it'
shows legacy 1 1 $'history 2 clients 1 workers 1 events 16 objects 9\n' 'this is a history: ./tpool check reads it'
shows legacy 1 16 $'c1 unregister 1 -> later\n' 'an answer stands here, as in a history: ./tpool check reads those'
forms legacy 1 14 $'c1 unregister\n' 'the line ends here, and REGISTRATION is missing' 'unregister REGISTRATION'
forms legacy 1 25 $'c1 register 1 r1 x0 none\n' 'the line ends here, and TIMES is missing' 'register KERNEL ROUTINE CONTEXT MILLIS TIMES'
# shellcheck disable=SC2016
shows legacy 1 4 $'c1 UnregisterWait 1\n' 'UnregisterWait is written `unregister`: ./tpool calls UnregisterWait'
# shellcheck disable=SC2016
shows legacy 1 9 $'c1 queueitem r1 x0 short\n' '`queue-item` is meant, it seems: ./tpool calls queue-item'
# shellcheck disable=SC2016
shows legacy 1 22 $'c1 queue-item r1 x0 lnog\n' '`long` is meant, it seems'
