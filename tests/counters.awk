# Reads crates.txt and then the sources of all crates, and says which functions that a Take can reach make a counter of
# steps of their own: what they read by it would be counted by nobody.
#
# A function reaches those that it calls or names behind `::`, by their names alone: all that are called so in its own
# crate and in those that this one stands on; by `self.` only those of its own crate; and what a trait declares wherever
# it is written. So it reaches more than it calls.
# Where changes are told apart, only the arm of a Take is looked at.

FNR == NR {
    if (/^[a-z]/) for (at = 2; at <= NF; at++) stands[substr($1, 1, length($1) - 1), $at]
    next
}
FNR == 1 {
    split(FILENAME, folders, "/")
    crate = folders[2]
    now = 0
    arms = ""
}
{
    line = $0
    sub(/\/\/.*/, "", line)
}
line ~ /^ *(ghost|requires|ensures|#)/ { next }
match(line, /^ *(pub(\([a-z]+\))? )?(const )?fn [a-z_0-9]+|^macro_rules! [a-z_]+/) {
    count = split(substr(line, 1, RLENGTH), words, " ")
    line = substr(line, RLENGTH + 1)
    now = ++functions
    of[now] = crate
    file[now] = FILENAME
    name[now] = words[count] (words[count - 1] == "fn" ? "" : "!")
    named[name[now], ++same[name[now]]] = now
}
line ~ /match \*?change \{$/ {
    match(line, /^ */)
    arms = substr(line, 1, RLENGTH) "}"
    next
}
line == arms { arms = "" }
arms != "" && line !~ /Change::Take/ { next }
{ text[now] = text[now] " " line }
line ~ /Steps::new\(/ { makes[now] }

END {
    reach("pool_core", "take", 1, "")
    for (at = 1; at <= reached; at++) look(way[at])
    for (at = 1; at <= reached; at++) if (way[at] in makes) print file[way[at]] ": " name[way[at]] " makes a counter, and is reached by a take" from[way[at]]
    wants("live_callbacks", "next")
    wants("live_callbacks", "change")
    wants("linked_lists", "read")
}

function look(at,    line, called, is_own) {
    line = text[at]
    while (match(line, /(self\.)?[a-z_][a-z_0-9]*(::<[^()]*>)?!?\(|::[a-z_][a-z_0-9]*/)) {
        called = substr(line, RSTART, RLENGTH)
        line = substr(line, RSTART + RLENGTH)
        is_own = sub(/^self\./, "", called)
        gsub(/^::|(::<.*)?\($/, "", called)
        reach(of[at], called, is_own, " over " name[at] " of " of[at])
    }
}

function reach(crate, called, is_own, by,    each, to) {
    for (each = 1; each <= same[called]; each++) {
        to = named[called, each]
        if ((to in from) || (is_own && of[to] != crate) || !is_above(crate, of[to])) continue
        from[to] = by
        way[++reached] = to
        if (text[to] !~ /\{/) reach_written(of[to], called, by)
    }
}

# Reaches a method that a trait of this crate declares, wherever it is written: in the crates that stand on this one.
function reach_written(crate, called, by,    each, to) {
    for (each = 1; each <= same[called]; each++) {
        to = named[called, each]
        if ((to in from) || !is_above(of[to], crate) || !is_above("pool_core", of[to])) continue
        from[to] = by
        way[++reached] = to
    }
}

# Whether a crate is the other one or stands on it, perhaps over more.
function is_above(upper, lower,    pair, crates) {
    if (!((upper, lower) in above)) {
        above[upper, lower] = upper == lower
        for (pair in stands) {
            split(pair, crates, SUBSEP)
            if (crates[1] == upper && is_above(crates[2], lower)) above[upper, lower] = 1
        }
    }
    return above[upper, lower]
}

# What a take does reach; else something was not understood.
function wants(crate, called,    at) {
    for (at = 1; at <= reached; at++) if (of[way[at]] == crate && name[way[at]] == called) return
    print "a take doesn't reach " called " of " crate
}
