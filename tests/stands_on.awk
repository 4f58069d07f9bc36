# Says which crates stand on others in a document and not in crates.txt, which it reads first. It looks at clauses in
# which a crate in backticks, or a list of them, stands right before "stands on" or "stand on"; what they stand on are
# all names in backticks up to the next full stop or semicolon. In a picture it looks at `CRATE -- CRATE`, with more
# hyphens too.

FNR == NR {
    if (/^[a-z]/) {
        crate = $1
        sub(/:$/, "", crate)
        crates[crate]
        for (at = 2; at <= NF; at++) stands[crate, $at]
    }
    next
}
/^```/ { is_picture = !is_picture && /text$/ }
is_picture {
    line = $0
    while (match(line, /[a-z_]+ --+ [a-z_]+/)) {
        split(substr(line, RSTART, RLENGTH), words, " ")
        line = substr(line, RSTART + length(words[1]))
        check(words[1], words[3])
    }
    next
}
{
    line = $0
    while (match(line, /`[^.;]* stands? on [^.;]*/)) {
        clause = substr(line, RSTART, RLENGTH)
        line = substr(line, RSTART + RLENGTH)
        if (match(clause, /(`[a-z_]+`(, | and )?)+ stands? on /)) look(substr(clause, RSTART, RLENGTH), substr(clause, RSTART + RLENGTH))
    }
}

function names_in(text, names,    count) {
    count = 0
    while (match(text, /`[a-z_]+`/)) {
        names[++count] = substr(text, RSTART + 1, RLENGTH - 2)
        text = substr(text, RSTART + RLENGTH)
    }
    return count
}

function look(above, below,    uppers, lowers, count, each, other, all) {
    count = names_in(above, uppers)
    all = names_in(below, lowers)
    for (each = 1; each <= count; each++)
        for (other = 1; other <= all; other++) check(uppers[each], lowers[other])
}

function check(upper, lower) {
    if ((upper in crates) && !((upper, lower) in stands)) print FILENAME ":" FNR ": " upper " doesn't stand on " lower
}
