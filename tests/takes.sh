# A take costs the same, however much there is: what it reads is counted by the one counter that its contract speaks of,
# and it takes no longer.
# shellcheck shell=bash

own_counters() {
    mapfile -t all < <(find crates -name out -prune -o -path '*/src/*.rt' -print)
    awk -f tests/counters.awk crates.txt "${all[@]}"
}
try 'what a take can reach makes no counter of its own' 0 '' '' inside "$here" own_counters

# make_takes PENDING POOLS GROUPS KERNELS OBJECTS TAKES LOOKS: a trace in which so much is made, and so many callbacks are
# pending in pool 1; those of each second object are persistent. Then one is taken, returns and is submitted anew, so many
# times. Last, with the pool at its maximum, two workers look in turn.
make_takes() {
    awk -v pending="$1" -v pools="$2" -v groups="$3" -v kernels="$4" -v objects="$5" -v takes="$6" -v looks="$7" '
        function submit() { print "c1 submit " 1 + made++ % objects }
        BEGIN {
            for (at = 1; at <= pools; at++) print "c1 create-pool"
            for (at = 1; at <= groups; at++) print "c1 create-group"
            for (at = 1; at <= kernels; at++) print "c1 create-event auto clear"
            for (at = 1; at <= objects; at++) print "c1 create work r1 x0 p1 normal " (at % 2 ? "short" : "persistent") " g" (groups ? 1 + at % groups : 0) " q0"
            while (made < pending) submit()
            print "c1 set-minimum 1 3\nw1 attach\nw2 attach\nw3 attach"
            for (at = 1; at <= takes; at++) { print "w1 take\nw1 return"; submit() }
            print "c1 set-maximum 1 1\nw1 take"
            for (at = 1; at <= looks; at++) print "w" 2 + at % 2 " take"
        }'
}
play_takes() { timeout 10 "$program" trace --events 131072 <"$room/$1"; }
# How many of the calls came to a take, and how many to a look.
came_of_takes() { play_takes among | awk '/^taken/ { taken++ } /^look at-maximum 1$/ { looks++ } END { print taken + 0, looks + 0 }'; }
make_takes 8192 63 255 1024 65535 0 0 >"$room/made"
for many in '18000 0' '0 200000'; do
    # shellcheck disable=SC2086
    make_takes 8192 63 255 1024 65535 $many >"$room/among"
    # shellcheck disable=SC2086
    make_takes 1 1 0 0 1 $many >"$room/alone"
    try "takes and looks among all that there may be: $many" 0 "$((${many% *} + 1)) ${many#* }"$'\n' '' came_of_takes
    try "they take no longer: $many" 0 '' '' no_longer play_takes
done
