# Scripts whose operations ask first: what the built program makes of drawn ones, beside two readings of scripts and histories
# in awk; and what it makes of some others.
# shellcheck shell=bash disable=SC2016

# --- Drawn scripts
# play_drawn NAME SEED COUNT WORDS..: draws so many scripts with the words of -v for the drawing, up to `--`, and plays each by
# each of the lists of words behind it. The histories stand in NAME-told, each behind the number of its script and its status,
# and what `check` says of them in NAME-verdicts.
play_drawn() {
    local name=$1 number=0 text words drawing=()
    drawing=(-v seed="$2" -v count="$3")
    shift 3
    while [[ $1 != -- ]]; do drawing+=(-v "$1") && shift; done
    shift
    awk "${drawing[@]}" -f "$here/tests/draw_conditions.awk" >"$room/$name"
    while IFS= read -r -d @ text; do
        number=$((number + 1))
        for words; do
            # shellcheck disable=SC2086
            "$program" run $words <<<"$text" >"$room/played" 2>/dev/null
            echo "$number $?" >>"$room/$name-told"
            { cat "$room/played" && printf @; } >>"$room/$name-told"
            "$program" check <"$room/played" >>"$room/$name-verdicts"
        done
    done <"$room/$name"
}
play_drawn asking 5 150 -- '--events 600 --seed 1' '--events 60 --seed 2' '--events 600 --workers 1' '--events 600 --threads 4'
play_drawn asking_little 7 60 few=1 -- '--seed 1' '--seed 2' '--seed 3' '--seed 4' '--seed 5' '--seed 6' '--seed 7' '--seed 8'
not_legal() { awk '!/^legal / { print } END { print NR " verdicts" }' "$room/$1-verdicts"; }
# read_by FILE NAME: what one of the two readings says of the histories of drawn scripts.
read_by() { awk -f "$here/tests/$1" "$room/$2" "$room/$2-told" | tail -n 9; }
input=
try 'histories of drawn scripts that ask first are legal' 0 $'600 verdicts\n' '' not_legal asking
try 'each actor makes the calls that its own answers lead to' 0 $'600 histories, some of them cut\nall ways to go on behind a question\n' '' read_by conditions.awk asking
try 'histories of small scripts are legal' 0 $'480 verdicts\n' '' not_legal asking_little
try 'so do they in small scripts' 0 $'480 histories, none of them cut\nall ways to go on behind a question\n' '' read_by conditions.awk asking_little
try 'each section of them goes one of the ways that can be listed' 0 $'60 scripts, and some section went several ways in most\n' '' read_by ways.awk asking_little

# --- Work that is submitted until the program stops
told=$'event stop manual clear\nwork job serve\nroutine serve\ndone\nclient\n  times 3 unless stop submit job\ndone\nclient\n  set-event stop\ndone\n'
# ways_of COMMAND..: the calls of c2 with their answers, in short.
ways_of() {
    "$@" | awk '/ c2 try-acquire 1 -> flag no$/ { way = way "no " } / c2 try-acquire 1 -> flag yes$/ { way = way "yes " } / c2 submit 1 -> queued [1-3] 1$/ { way = way "submit " }
        / c2 finish -> ok$/ { print way; way = "" }'
}
input=$told
try 'a script that submits until it is told' 0 $'no submit yes yes \n' '' ways_of "$program" run --workers 1
by_seeds() { for seed in {1..200}; do "$program" run --workers 1 --seed "$seed" <"$room/input"; done; }
all_ways() { ways_of by_seeds | sort -u; }
try 'it is told at any time, and asks each time' 0 $'no submit no submit no submit \nno submit no submit yes \nno submit yes yes \nyes yes yes \n' '' all_ways

# --- What a question takes stays taken, also where there is no room for the operation
input=$'semaphore left 1 1\nclient\n  times 12 advance 1\n  if left advance 5\n  if left advance 5\ndone\n'
try 'a question without room for its operation' 8 $'~*\n12 c2 try-acquire 1 -> flag yes\n12 c2 finish -> ok\nend 16\n*' $'tpool: history exhausted\n' "$program" run --workers 1 --events 16
try 'with room' 0 $'~*\n12 c2 try-acquire 1 -> flag yes\n17 c2 advance 5 -> advanced 17 0 0\n17 c2 try-acquire 1 -> flag no\n17 c2 finish -> ok\nend 18\n*' '' "$program" run --workers 1
# A wait may stand behind a question, and another actor may act between the two.
input=$'event go auto set\nmutex door\nwork job serve\nroutine serve\n  if door release door\ndone\nclient\n  submit job\n  if go wait job keep\n  unless go acquire door\n  times 2 if door release door\n  release door\ndone\n'
try 'waits behind questions' 0 $'~*c2 try-acquire 1 -> flag yes\n*c2 wait work 1 keep -> begun 1 0\n*c2 end -> ended\n*c2 try-acquire 1 -> flag no\n*c2 acquire 2 -> ok\n*c2 end -> ended\n*c2 try-acquire 2 -> flag yes\n*c2 release-lock mutex 2 -> ok\n*c2 try-acquire 2 -> flag yes\n*c2 release-lock mutex 2 -> ok\n*c2 release-lock mutex 2 -> ok\n*c2 finish -> ok\n*refused 0\n' '' "$program" run --workers 1

# --- Places of faults
asking=$'event e manual clear\nwork w r\nio f r\nroutine r\ndone\nclient\n'
# bad_asking COLUMN LINE: a bad line of a client.
bad_asking() {
    input=$asking$2$'\ndone\n'
    try "a bad line: $2" 2 '' "tpool: bad line 7 column $1"$'\n' "$program" run
}
bad_asking 3 'if'
bad_asking 4 'if w submit w'
bad_asking 4 'if none submit w'
bad_asking 4 'if r submit w'
bad_asking 5 'if e'
bad_asking 7 'unless'
bad_asking 8 'unless f submit w'
bad_asking 9 'unless e'
bad_asking 10 'unless e e submit w'
bad_asking 6 'if e done'
bad_asking 6 'if e let x work r'
bad_asking 6 'if e issue-io f x'
bad_asking 6 'if e times 2 submit w'
bad_asking 6 'if e unless e submit w'
bad_asking 10 'unless e if e submit w'
bad_asking 6 'if e may-run-long'
bad_asking 13 'if e submit e'
bad_asking 15 'if e submit w w'
bad_asking 11 'times 2 if'
bad_asking 12 'times 2 if w submit w'
bad_asking 14 'times 2 if e times 2 submit w'
bad_asking 17 'times 2 unless e'
bad_asking 7 'times 0 if e submit w'
bad_asking 13 'try-acquire w'
bad_asking 12 'try-acquire'
bad_asking 15 'try-acquire e 1'
bad_asking 15 'complete-next e 0 1'
bad_asking 16 'complete-next f'
bad_asking 17 'complete-next f 4294967296 0'
bad_asking 19 'complete-next f 0 18446744073709551616'
bad_asking 21 'complete-next f 0 1 2'
