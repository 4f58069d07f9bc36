# What `explore` tells of scripts, and what `run` tells of the faults of its runs.
# shellcheck shell=bash disable=SC2016

# explored NAME WORDS..: explores a script of tests/orders, into the file `order` of the room.
explored() {
    "$program" explore "${@:2}" <"$here/tests/orders/$1.script" >"$room/order" 2>&1
}
# order NAME WORDS..: the last entry of the shortest bad order of a script, without its moment, and what stands behind it, but
# for the number of states.
order() {
    local status
    explored "$@"
    status=$?
    awk '/^end / { sub(/^[0-9]* /, "", last); print last; over = 1 } over && !/^states [0-9]+$/ { print } { last = $0 }' "$room/order"
    return "$status"
}
# What a bad order is, by the program itself: legal, and the calls as a trace have its answers. Nothing is told where so it is.
is_told_right() {
    local entries
    entries=$(sed -n 's/^end //p' "$room/order")
    [[ $("$program" check <"$room/order") == "legal $entries" ]] || echo 'not legal'
    sed -n '2,/^end /{ /^end /d; s/^[0-9]* //; s/ -> .*//; p }' "$room/order" >"$room/calls"
    sed -n '2,/^end /{ /^end /d; s/.* -> //; p }' "$room/order" | cmp - <("$program" trace --workers 2 <"$room/calls")
}
# bad TEXT NAME: the end of the shortest bad order of a script with two workers.
bad() {
    input=
    try "a shortest bad order: $2" 10 "$1" '' order "$2" --workers 2
    try "its calls and answers: $2" 0 '' '' is_told_right
}
none_of() { explored "$@" && sed 's/ [0-9]*$/ N/' "$room/order"; }
none() {
    input=
    try "no order is bad: $1" 0 $'none\nstates N\nsteps N\n' '' none_of "$1" --workers 2
}

bad $'w1 submit 1 -> refused released\nend 13\nbad refused released line 10 w1\nmark 9 c2 free text\n' guide
bad $'c2 end -> ended\nend 17\nbad freed-in-use text line 20 c2\nmark 14 w1 use text\nmark 17 c2 free text\n' guide-dis
bad $'w1 take -> taken 2 o1 r1 x1 plain\nend 14\nbad use-after-free text line 6 w1\nmark 9 c2 free text\nmark 14 w1 use text\n' guide-late-try
bad $'w1 submit 1 -> refused released\nend 11\nbad refused released line 10 w1\n' guide-half
none guide-mended
none guide-gone
bad $'c2 end -> ended\nend 9\nbad freed-in-use ctx line 11 c2\nmark 7 w1 use ctx\nmark 9 c2 free ctx\n' own-event
none own-event-on-return
bad $'c2 end -> stalled\nend 11\nbad stalled wait line 10 c2\nwaits c2 line 10\nwaits w1 line 4\n' own-lock
none own-lock-given-back
none again
bad $'w1 take -> taken 1 o1 r1 x0 plain\nend 7\nbad use-after-free ctx line 4 w1\nmark 5 c2 free ctx\nmark 7 w1 use ctx\n' own-close
none own-close-waited
bad $'c2 end -> stalled\nend 12\nbad stalled wait line 12 c2\nwaits c2 line 12\nwaits w1 line 6\n' cycle

# --- Each fault with a shortest order
each_of() {
    local status
    explored "$@" --workers 2 --each
    status=$?
    grep -a -e '^end ' -e '^bad ' -e '^none$' "$room/order"
    return "$status"
}
input=
try 'each fault, the shortest first' 10 $'end 13\nbad refused released line 10 w1\nend 14\nbad use-after-free text line 6 w1\nend 14\nbad freed-in-use text line 19 c2\n' '' each_of guide
try 'each fault where a refusal is none' 10 $'end 14\nbad use-after-free text line 6 w1\nend 14\nbad freed-in-use text line 18 c2\n' '' each_of guide-late-try
try 'each fault, of which there is none' 0 $'none\n' '' each_of guide-mended
shown_each() { "$program" explore --workers 2 --each <"$here/tests/orders/guide.script" | "$tpool" show | grep -c -e '^ 1  c1   create-group' -e '^    c2   \* free text' -e '^bad '; }
try 'each fault, shown' 0 $'9\n' '' shown_each

# --- Each kind of fault, and what is left
# faulty TEXT SCRIPT: what a script's shortest bad order is told to be.
faulty_line() { "$program" explore --workers 1 | grep -a '^bad '; }
faulty() {
    input=$2
    try "a fault: ${1%% line*}" 0 "bad $1"$'\n' '' faulty_line
}
faulty 'freed-twice m line 4 c1' $'memory m\nclient\nfree m\nfree m\ndone\n'
faulty 'freed-in-use m line 4 c1' $'memory m\nclient\nuse m\nfree m\ndone\n'
faulty 'left i expected line 1 c2' $'io i r\nroutine r\ndone\nclient\nstart-io i\ndone\n'
faulty 'left i issued line 1 c2' $'io i r\nroutine r\ndone\nclient\nstart-io i\nissue-io i one\ndone\n'
faulty 'not-quiet w line 6 w1' $'work w r\nroutine r\ndone\nclient\nsubmit w\nquiet w\ndone\n'
faulty 'not-quiet g line 8 w1' $'group g\nwork w r group g\nevent e manual clear\nroutine r\nset-event e\ndone\nclient\nquiet g\ndone\nclient\nsubmit w\nacquire e\nquiet g\ndone\n'
input=$'memory m\nwork w r\nroutine r\nuse m\ndisassociate\ndrop m\nmay-run-long\ndone\nclient\nsubmit w\nwait w keep\nfree m\ndone\n'
try 'a use that is dropped ends with the next call' 0 '~*bad freed-in-use m line 12 c2'$'\n*' '' bash -c '"$1" explore --workers 1; (($? == 10))' - "$program"
input=$'memory m\nclient\nfree m\ndone\nclient\nuse m\ndone\n'
try 'a use that may begin behind a free' 10 $'~*end 1\nbad use-after-free m line 6 c1\nmark 1 c2 free m\nmark 1 c3 use m\nstates 1\n' '' "$program" explore

# --- How far it is looked
input=$(<"$here/tests/orders/later.script")
try 'a script without an end is given up' 11 $'~gave up at 100 states\ndeep ??\n' '' "$program" explore --states 100
try 'one state may be met' 11 $'gave up at 1 states\ndeep 0\n' '' "$program" explore --states 1
input=$'client\ndone\n'
try 'an order has an end' 0 $'none\nstates 3\nsteps 2\n' '' "$program" explore --workers 1
input=
try 'a script of nothing' 0 $'none\nstates 2\nsteps 1\n' '' "$program" explore
for words in '--workers 0' '--workers 65' '--states 0' '--states 16777217' '--states' '--states 1 --states 1' 7; do
    # shellcheck disable=SC2086
    try "bad words: explore $words" 1 '' $'tpool: bad words\n' "$program" explore $words
done
input=$'memory m\nclient\nfree n\ndone\n'
try 'a bad line of a script that is explored' 2 '' $'tpool: bad line 3 column 6\n' "$program" explore

# --- What a run tells
input=$(<"$here/tests/orders/guide.script")
try 'a run with a fault' 10 '~*refused 1'$'\n''fault refused released line 10 w1 entry 13'$'\n' '' "$program" run --workers 2 --seed 1
try 'a run of the same script without one' 0 '~*refused 0'$'\n' '' "$program" run --workers 2 --seed 3
without_marks() { grep -v -e '^memory' -e '^  use' -e '^  free' <<<"$input" | "$program" run --workers 2 --seed 1; }
try 'without marks nothing is told' 0 '~*refused 1'$'\n' '' without_marks

# --- Drawn scripts: what comes of runs is among all orders
# run_drawn: plays the script of the room a hundred times with two workers: by seeds, and some times on threads.
run_drawn() {
    local number
    for number in {1..90}; do "$program" run --workers 2 --seed "$number" <"$room/drawn"; done 2>/dev/null
    for number in {1..10}; do "$program" run --workers 2 --threads 4 <"$room/drawn"; done 2>/dev/null
}
# Goes through each script of the input, and runs it. It tells what doesn't go together, and how many scripts were bad and how
# many runs had a fault, if those are few.
compare_drawn() {
    local text verdict entries scripts=0 bad=0 faults=0 some
    while IFS= read -r -d @ text; do
        scripts=$((scripts + 1))
        printf '%s' "$text" >"$room/drawn"
        verdict=$("$program" explore --workers 2 <"$room/drawn")
        "$program" explore --workers 2 --each <"$room/drawn" >"$room/each"
        entries=$(sed -n 's/^end //p' <<<"$verdict")
        [[ -z $entries ]] || bad=$((bad + 1))
        [[ -n $entries || $verdict == none$'\n'* ]] || echo "$scripts: $verdict"
        # The first fault of a run is told at its entry, which is no earlier than the end of a shortest bad order.
        run_drawn >"$room/runs"
        some=$(awk -v entries="${entries:-0}" '/^end / { is_first = 1 } /^fault / && is_first { is_first = 0; faults++; if (!entries || $NF < entries) early++ } END { print faults + 0, early + 0 }' "$room/runs")
        faults=$((faults + ${some% *}))
        ((${some#* } == 0)) || echo "$scripts: ${some#* } of 100 runs have a fault too early: ${entries:-none}"
        awk -v number="$scripts" '!/^(bad|fault) / { next } { kind = $0; sub(/^[a-z]+ /, "", kind); sub(/ [cw][0-9]+( entry [0-9]+)?$/, "", kind) } /^bad / { told[kind] = 1; next } !(kind in told) { print number ": not told: " kind }' "$room/each" "$room/runs"
    done
    echo "$scripts scripts"
    ((bad > scripts / 4 && bad < scripts && faults > scripts)) || echo "$bad bad, $faults faults"
}
awk -v seed=11 -v count=200 -f "$here/tests/draw_orders.awk" >"$room/drawn_orders"
input=$(<"$room/drawn_orders")
try 'the runs of drawn scripts are among their orders, and their faults among those of each' 0 $'200 scripts\n' '' compare_drawn
