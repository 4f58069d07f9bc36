# What SPIN says of the models in tests/spin, which are scripts of tests/orders written by hand, beside what `explore` says of
# the scripts: a shortest bad order has as many entries, ends with the same answer and is a legal history; and no order of a
# mended script is bad. Where spin or gcc is missing, this is left out.
# shellcheck shell=bash

# modelled NAME WORDS..: SPIN goes through all orders of a model, breadth first and leaving none out, into the file `found`.
modelled() { spin -a "${@:2}" "$here/tests/spin/$1.pml" && gcc -w -DBFS -DNOREDUCE -o pan pan.c && ./pan >found; }
# What SPIN prints of a trail or a walk, as a history.
as_history() {
    awk 'BEGIN { print "history 2 clients 2 workers 2 events 65536 objects 65535" }
        /^[0-9]+ [cw][0-9]+ / { print; entries++ }
        END { print "end " entries + 0 }'
}
# Of the history of a file: whether it is legal, how many entries it has, and the last answer.
ends_as() { "$program" check <"$1" && awk '/^end / { sub(/.* -> /, "", last); print last; exit } { last = $0 }' "$1"; }
bad_by_spin() {
    rm -f "$1.pml.trail"
    modelled "$1" && spin -T -k "$1.pml.trail" "$here/tests/spin/$1.pml" | as_history >shortest && ends_as shortest
}
bad_by_explore() { "$program" explore --workers 2 <"$here/tests/orders/$1.script" >"$room/order" || ends_as "$room/order"; }
none_by_spin() {
    modelled "$1" -DMENDED && awk '/ errors: 0$/ { print "none" }' found
}
none_by_explore() { "$program" explore --workers 2 <"$here/tests/orders/$1.script" | head -n 1; }
# walks NAME WORDS..: SPIN draws twenty walks through a model. It tells which are no legal histories, and whether only a few
# differ. SPIN stays with a process from one d_step to the next, so something else stands between them here.
walks() {
    local seed
    sed 's/^ *d_step/skip; &/' "$here/tests/spin/$1.pml" >walked.pml
    for seed in {1..20}; do
        spin -T "-n$seed" "${@:2}" walked.pml | as_history >"walk$seed"
        "$program" check <"walk$seed" >verdict || echo "seed $seed: $(<verdict)"
    done
    seed=$(cksum walk[0-9]* | cut -d ' ' -f 1 | sort -u | wc -l)
    ((seed > 5)) || echo "$seed different walks"
}
input=
if [[ $(spin -V 2>&1) == 'Spin Version '* ]] && command -v gcc >/dev/null; then
    mkdir "$room/spin"
    while read -r model mended; do
        try "SPIN: a shortest bad order of $model" 0 "$(bad_by_explore "$model")"$'\n' '' inside "$room/spin" bad_by_spin "$model"
        try "SPIN: no order of $mended is bad" 0 "$(none_by_explore "$mended")"$'\n' '' inside "$room/spin" none_by_spin "$model"
        try "SPIN: walks through $model" 0 '' '' inside "$room/spin" walks "$model"
        try "SPIN: walks through $mended" 0 '' '' inside "$room/spin" walks "$model" -DMENDED
    done <<<$'own-lock own-lock-given-back\nown-event own-event-on-return\nguide guide-mended'
else
    echo 'tests: spin or gcc is not there, so the models in tests/spin were not tried'
fi
