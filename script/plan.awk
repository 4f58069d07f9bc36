# Plans the proofs of crates: prints for each the second at which it is done, those that it takes alone, and its name.
# Reads lines 'CRATE source BYTES' and 'CRATE proof BYTES', one a file, and then 'CRATE below CRATE ..', each crate
# behind those that it stands on. `at_once` of them are proved side by side, those that stand on fewest first: each waits
# for those below it in the place that it took.

# The seconds that a crate takes which has nothing in it, and how many bytes of sources and of proofs are checked in one.
BEGIN {
    loading = 15
    source_rate = 400
    proof_rate = 10000
}
$2 == "source" { bytes[$1] += $3 }
$2 == "proof" { proof_bytes[$1] += $3 }
$2 == "below" {
    names[++count] = $1
    seconds[$1] = int(loading + bytes[$1] / source_rate + proof_bytes[$1] / proof_rate)
    below[$1] = " "
    for (i = 3; i <= NF; i++)
        if ($i in below) {
            add($1, $i)
            parts = split(below[$i], lower, " ")
            for (k = 1; k <= parts; k++) add($1, lower[k])
        }
}
END {
    for (depth = 0; depth < count; depth++)
        for (i = 1; i <= count; i++)
            if (number[names[i]] == depth) place(names[i])
}

# Counts a crate among those that another one stands on, once.
function add(name, other) {
    if (!index(below[name], " " other " ")) {
        below[name] = below[name] other " "
        number[name]++
    }
}

# Proves a crate in the place that is free first.
function place(name,    first, p, parts, lower, k) {
    first = 1
    for (p = 2; p <= at_once; p++) if (free[p] + 0 < free[first] + 0) first = p
    end[name] = free[first] + 0
    parts = split(below[name], lower, " ")
    for (k = 1; k <= parts; k++) if (end[lower[k]] > end[name]) end[name] = end[lower[k]]
    end[name] += seconds[name]
    free[first] = end[name]
    print end[name], seconds[name], name
}
