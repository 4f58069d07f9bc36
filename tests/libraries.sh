# Traces with libraries: the places of faults, what is refused, which call lets which library go, and drawn traces that a
# filter in awk plays along with.
# shellcheck shell=bash

# --- Places of faults
# Each is a column and a line, which stands behind a good one.
places=(
    '10:c1 load l0'
    '10:c1 load l'
    '10:c1 load l01'
    '12:c1 load l256'
    '13:c1 load l1000'
    '8:c1 load'
    '9:c1 load 1'
    '9:c1 load L1'
    '8:c1 loadx'
    '8:c1 loads l1'
    '7:c1 fre l1'
    '8:c1 free'
    '8:c1 freed l1'
    '11:c1 free-on l1'
    '18:c1 free-on-return1'
    '20:c1 free-on-return l-1'
    '21:c1 free-on-return l1 '
    '11:c1 load l1 l2'
    '11:c1 load l1 -> ok'
    '4:c1  load l1'
    '1:load l1'
    '3:c17 load l1'
    '3:w65 load l1'
    '12:c1 submit 1 l1'
    '15:c1 create-pool l1'
    '16:c1 close work 1 l1'
    '45:c1 create work r1 x0 p0 normal short g0 q0 l0'
    '44:c1 create work r1 x0 p0 normal short g0 q0  l1'
    '46:c1 create work r1 x0 p0 normal short g0 q0 l1 l2'
    '43:c1 create work r1 x0 p0 normal short g0 q0l1'
    '44:c1 create work r1 x0 p0 normal short g0 q0 '
    '44:c1 create work r1 x0 p0 normal short g0 q0 1'
    '42:c1 create work r1 x0 p0 normal short g0 q1 l1'
    '53:c1 create timer r1 x0 p0 high persistent g9 q65535 l01'
    '38:c1 create work r1 x0 p0 normal short l1'
    '49:c1 submit-simple r1 x0 p0 normal short g0 q0 l256'
    '47:c1 submit-simple r1 x0 p0 normal short g0 q0 l'
)
for place in "${places[@]}"; do
    input=$'c1 load l255\n'"${place#*:}"$'\n'
    try "the place of a fault: '${place#*:}'" 2 '' "tpool: bad line 2 column ${place%%:*}"$'\n' "$program" libraries
done
for line in 'c1 load l1:11' 'c1 load l25:12' 'c1 load:8' 'c1 free-on-return l255:23' 'c1 create work r1 x0 p0 normal short g0 q0:43' 'c1 create work r1 x0 p0 normal short g0 q0 :44'; do
    input=${line%:*}
    try "no last line feed: '$input'" 2 '' "tpool: bad line 1 column ${line#*:}"$'\n' "$program" libraries
done
input=$'c1 load l1\n'
try 'a trace has no libraries' 2 '' $'tpool: bad line 1 column 4\n' "$program" trace
input=
try 'an empty trace with libraries' 0 '' '' "$program" libraries

# --- What lines come to
options=()
# libraries NAME 'LINE -> ANSWER'..: what each line comes to. Where that is several lines, `; ` stands between them.
libraries() {
    input=$(printf '%s\n' "${@:2}" | sed 's/ -> .*//')$'\n'
    try "$1" 0 "$(printf '%s\n' "${@:2}" | sed 's/.* -> //; s/; /\n/g')"$'\n' '' "$program" libraries "${options[@]}"
}
plain='r1 x0 p0 normal short g0 q0'
in_group='r1 x0 p0 normal short g1 q0'
returned='returned - - - - 0 0'

libraries 'an actor that is not there' 'w5 load l1 -> refused no-such' 'w5 free l1 -> refused no-such' 'w5 free-on-return l1 -> refused no-such'
libraries 'a client that has finished' 'c1 load l1 -> ok' 'c1 finish -> ok' 'c1 load l1 -> refused released' \
    'c1 free l1 -> refused released' 'c1 free l2 -> refused released' 'c1 free-on-return l1 -> refused released' 'c2 free l1 -> ok; unloaded l1'
libraries 'no load is left' 'c1 free l1 -> refused no-load-left' 'c1 load l1 -> ok' 'c1 load l1 -> ok' 'w1 free l2 -> refused no-load-left' \
    'w1 free l1 -> ok' 'w4 free l1 -> ok; unloaded l1' 'c1 free l1 -> refused no-load-left'
libraries 'who runs no callback' 'c1 free-on-return l1 -> refused not-running' "c1 submit-simple $plain -> queued 1 1" \
    'w1 free-on-return l1 -> refused not-running' 'w1 attach -> attached 0' 'w1 free-on-return l1 -> refused not-running' \
    'w1 take -> taken 1 o0 r1 x0 plain' 'w1 free-on-return l1 -> refused no-load-left' 'w2 free-on-return l1 -> refused not-running' "w1 return -> $returned"
libraries 'a slot that is taken' 'c1 load l1 -> ok' "c1 submit-simple $plain -> queued 1 1" "c1 submit-simple $plain -> queued 2 1" 'w1 attach -> attached 0' \
    'w1 take -> taken 1 o0 r1 x0 plain' 'w1 free-on-return l1 -> ok' 'w1 free-on-return l1 -> refused slot-taken library' \
    'w1 free-on-return l2 -> refused slot-taken library' "w1 return -> $returned; unloaded l1" 'w1 take -> taken 2 o0 r1 x0 plain' \
    'w1 free-on-return l1 -> refused no-load-left' 'c1 load l1 -> ok' 'w1 free-on-return l1 -> ok' "w1 return -> $returned; unloaded l1"
libraries 'a library that is not loaded, before all that the machine says' "c1 create work $plain l1 -> refused library-not-loaded" \
    "c1 submit-simple $plain l255 -> refused library-not-loaded" "w1 create work $plain l1 -> refused library-not-loaded" \
    "w5 create work $plain l1 -> refused library-not-loaded" 'c1 load l1 -> ok' "w1 create work $plain l1 -> refused not-running" \
    "w5 create work $plain l1 -> refused no-such" "c1 create work ${plain/p0/p7} l1 -> refused no-such" 'c1 finish -> ok' \
    "c1 create work $plain l2 -> refused library-not-loaded" "c1 create work $plain l1 -> refused released"
libraries 'a call of libraries in a wait' "c1 create work $plain -> made 1" 'c1 wait work 1 keep -> begun 0 0' 'c1 load l1 -> ok' \
    "c1 create work $plain l1 -> refused in-wait" 'c1 free l1 -> ok; unloaded l1' 'c1 end -> ended'

# One place of the sixteen is the client's, for its finish. What is refused here takes none.
options=(--events 16)
mapfile -t misses < <(yes "c1 create work $plain l1 -> refused library-not-loaded" | head -n 20)
mapfile -t entries < <(yes 'c1 submit 9 -> refused no-such' | head -n 15)
libraries 'no entry, and no room wanted' "${misses[@]}" "${entries[@]}" 'c1 submit 9 -> full 0 1' "${misses[0]}" 'c1 free l1 -> refused no-load-left' \
    'w5 load l1 -> refused no-such' 'c1 load l1 -> ok' "c1 create work $plain l1 -> full 0 1" 'c1 free l1 -> ok; unloaded l1' \
    'c1 free-on-return l1 -> refused not-running' 'c1 finish -> ok' 'c1 load l1 -> refused released'
libraries 'a return that is owed frees a library' 'c1 load l1 -> ok' "c1 submit-simple $plain l1 -> queued 1 1" 'w1 attach -> attached 0' \
    'w1 take -> taken 1 o0 r1 x0 plain' 'w1 free-on-return l1 -> ok' "${entries[@]:5}" 'c1 submit 9 -> full 0 1' "w1 return -> $returned; unloaded l1"
options=()

most_loads() {
    { yes 'c1 load l1' | head -n 65536 && echo 'c1 load l2' && yes 'c1 free l1' | head -n 65536; } | "$program" libraries | counted
}
try 'the most loads' 0 $'65535 ok\n1 refused load-limit\n65536 ok\n1 unloaded l1\n1 refused no-load-left\n' '' most_loads

# --- What holds a library, and which call lets it go
made=("c1 load l1 -> ok" "c1 create work $plain l1 -> made 1" 'c1 free l1 -> ok')
running=('w1 attach -> attached 0' 'w1 take -> taken 1 o1 r1 x0 plain')
gone="w1 return -> $returned; unloaded l1"
libraries 'an object alone' "${made[@]}" "c2 create timer $plain l1 -> made 2" 'c2 close work 1 -> freed' 'c2 close timer 2 -> freed; unloaded l1' \
    "c2 create timer $plain l1 -> refused library-not-loaded" 'c1 free l1 -> refused no-load-left'
libraries 'an object that the machine refuses holds nothing' 'c1 load l1 -> ok' "c1 create work ${plain/g0/g1} l1 -> refused no-such" 'c1 free l1 -> ok; unloaded l1'
libraries 'a callback whose object is closed' "${made[@]}" 'c1 submit 1 -> queued 1 1' 'c1 close work 1 -> later' "${running[@]}" "$gone"
libraries 'a callback that is disassociated' "${made[@]}" 'c1 submit 1 -> queued 1 1' "${running[@]}" 'w1 disassociate -> ok' 'c1 close work 1 -> freed' "$gone"
libraries 'a callback that is cancelled' "${made[@]}" 'c1 submit 1 -> queued 1 1' 'c1 submit 1 -> queued 2 1' 'c1 wait work 1 cancel -> begun 0 2' \
    'c1 end -> ended' 'c1 close work 1 -> freed; unloaded l1'
libraries 'an operation' 'c1 load l1 -> ok' "c1 create io $plain l1 -> made 1" 'c1 free l1 -> ok' 'c1 start-io 1 -> started 1' 'c1 start-io 1 -> started 2' \
    'c1 issue-io 1 -> operation 1' 'c1 cancel-io 1 -> cancelled 2' 'c1 close io 1 -> refused operations-outstanding 1' 'c2 complete-io 1 0 5 -> queued 1 1' \
    'c1 close io 1 -> later' 'w1 attach -> attached 0' 'w1 take -> taken 1 o1 r1 x0 io 0 5' "$gone"
libraries "a member, by its group's close" 'c1 create-group -> made 1' 'c1 load l1 -> ok' "c1 create work $in_group l1 -> made 1" "c1 create wait $in_group l1 -> made 2" \
    'c1 free l1 -> ok' 'c1 close wait 2 -> freed' 'c2 close-members 1 keep y0 -> closing 0 0 0; unloaded l1' 'c2 end -> ended'
libraries "a callback of a member, behind its group's close" 'c1 create-group -> made 1' 'c1 load l1 -> ok' "c1 create work $in_group l1 -> made 1" 'c1 free l1 -> ok' \
    'c1 submit 1 -> queued 1 1' 'c1 close-members 1 keep y0 -> closing 1 0 0' "${running[@]}" "$gone" 'c1 end -> ended'
libraries 'a notice is no callback' 'c1 create-group -> made 1' 'c1 load l1 -> ok' "c1 create work ${in_group/q0/q3} l1 -> made 1" 'c1 free l1 -> ok' \
    'c1 close-members 1 cancel y7 -> closing 0 0 1; unloaded l1' 'c1 end -> notice o1 r3 x0 y7' 'c1 end -> ended'
libraries "a timer's callback, by another client's advance" 'c1 load l1 -> ok' "c1 create timer $plain l1 -> made 1" 'c1 free l1 -> ok' 'c1 set-timer 1 5 0 0 -> queued 0 0' \
    'c2 advance 5 -> advanced 5 1 1' 'c1 close timer 1 -> later' "${running[@]}" "$gone"
libraries 'a periodic timer' 'c1 load l1 -> ok' "c1 create timer $plain l1 -> made 1" 'c1 set-timer 1 0 1 0 -> queued 1 1' 'c1 free l1 -> ok' "${running[@]}" \
    "w1 return -> $returned" 'c1 advance 10000 -> advanced 10000 2 1' 'c1 advance 10000 -> advanced 20000 3 1' 'w1 take -> taken 2 o1 r1 x0 plain' \
    'c1 close timer 1 -> later' "w1 return -> $returned" 'c1 advance 10000 -> advanced 30000 0 0' 'w1 take -> taken 3 o1 r1 x0 plain' "$gone"
armed=('c1 create-event auto clear -> made 1' 'c1 load l1 -> ok' "c1 create wait $plain l1 -> made 1" 'c1 free l1 -> ok' 'c1 set-wait 1 1 none -> queued 0 0')
libraries "a wait object's callback, by an event that another sets" "${armed[@]}" 'c2 set-event 1 -> queued 1 1' 'c1 close wait 1 -> later' 'w1 attach -> attached 0' \
    'w1 take -> taken 1 o1 r1 x0 object' "$gone"
libraries 'an armed wait that is closed' "${armed[@]}" 'c1 close wait 1 -> freed; unloaded l1' 'c2 set-event 1 -> queued 0 0'
libraries 'a return that lets one library go and makes a callback of another' "${armed[@]}" 'c2 load l2 -> ok' "c2 submit-simple $plain l2 -> queued 1 1" 'c2 free l2 -> ok' \
    'w1 attach -> attached 0' 'w1 take -> taken 1 o0 r1 x0 plain' 'w1 on-return event 1 1 -> ok' 'w1 return -> returned - - - done 2 1; unloaded l2' \
    'c1 close wait 1 -> later' 'w1 take -> taken 2 o1 r1 x0 object' "$gone"
libraries 'libraries that go with one close, by rising number' 'c1 create-group -> made 1' 'c1 load l10 -> ok' 'c1 load l9 -> ok' 'c1 load l255 -> ok' \
    "c1 submit-simple $in_group l10 -> queued 1 1" "c1 create work $in_group l9 -> made 1" "c1 create work $plain l255 -> made 2" 'c1 submit 1 -> queued 2 1' \
    'c1 free l10 -> ok' 'c1 free l9 -> ok' 'c1 free l255 -> ok' 'c1 close-members 1 cancel y0 -> closing 0 2 0; unloaded l9; unloaded l10' \
    'c2 close work 2 -> freed; unloaded l255'
libraries 'libraries that go with one return' 'c1 load l3 -> ok' 'c1 load l2 -> ok' "c1 submit-simple $plain l2 -> queued 1 1" 'w1 attach -> attached 0' \
    'w1 take -> taken 1 o0 r1 x0 plain' 'c1 free l2 -> ok' 'w1 free-on-return l3 -> ok' "w1 return -> $returned; unloaded l2; unloaded l3"
libraries 'a slot whose load is gone' 'c1 load l1 -> ok' "c1 submit-simple $plain -> queued 1 1" 'w1 attach -> attached 0' 'w1 take -> taken 1 o0 r1 x0 plain' \
    'w1 free-on-return l1 -> ok' 'c1 free l1 -> ok; unloaded l1' "w1 return -> $returned"
libraries 'a library that is loaded again' "${made[@]}" 'c1 close work 1 -> freed; unloaded l1' "c1 submit-simple $plain l1 -> refused library-not-loaded" 'c1 load l1 -> ok' \
    "c1 submit-simple $plain l1 -> queued 1 1" 'c1 free l1 -> ok' 'w1 attach -> attached 0' 'w1 take -> taken 1 o0 r1 x0 plain' "$gone"
libraries 'what is of no library holds none' 'c1 load l1 -> ok' "c1 create work $plain -> made 1" "c1 create work $plain l1 -> made 2" 'c1 submit 1 -> queued 1 1' \
    'c1 close work 2 -> freed' 'c1 free l1 -> ok; unloaded l1'

# --- Drawn traces
# What the filter finds wrong in what the program tells of each, and whether libraries went in them.
drawn_libraries() {
    local drawn text
    awk -v seed=7 -v count=200 -f "$here/tests/draw_libraries.awk" >"$room/drawn"
    mapfile -t -d @ drawn <"$room/drawn"
    for text in "${drawn[@]}"; do
        "$program" libraries <<<"${text%$'\n'}" || return
        printf @
    done >"$room/told"
    awk -f "$here/tests/libraries.awk" "$room/drawn" "$room/told"
}
input=
try 'drawn traces with libraries' 0 $'200 of 200 traces, and libraries went 678 times\n' '' drawn_libraries

# --- By the script
plugin=$here/examples/plugin.libraries
try 'the example of libraries by the script' 0 "$("$program" libraries <"$plugin")"$'\n' '' "$tpool" libraries "$plugin"
try 'the same by a pipe, with a size' 0 "$("$program" libraries <"$plugin")"$'\n' '' on "$plugin" by_pipe "$tpool" libraries --events 30
sed '4s/l1/l256/' "$plugin" >"$room/bad.libraries"
try 'a fault in it' 2 '' $'tpool: bad line 4 column 12\n'"$room/bad.libraries:4:12: no good line goes on like this"$'\n    c1 free l256\n               ^\n    the line is: free lL\n' "$tpool" libraries "$room/bad.libraries"
shows trace 1 4 $'c1 load l1\n' 'this has to do with a library: ./tpool libraries plays it'
shows show 2 5 $'w1 attach\nc1 free l1\n' 'this has to do with a library: ./tpool libraries plays it'
shows history 1 43 "c1 create work $plain l1"$'\n' 'this has to do with a library: ./tpool libraries plays it'
shows libraries 1 1 $'history 2 clients 1 workers 1 events 16 objects 9\n' 'this is a history: ./tpool check reads it'
forms libraries 1 8 $'c1 load\n' 'the line ends here, and lL is missing' 'load lL'
