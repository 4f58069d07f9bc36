# The lines of calls and of answers, from the file entry_lines, which is read first: `call`; `library`, `legacy` or `sleep` for
# a call that only a trace with libraries, with old calls or with sleeps may have; or `answer`; and the words behind an actor
# or an arrow. A word is what may stand there, with `|` between each two, or a name for that (`choices`). What may stand there is a text, a
# number, or a text in front of a number. A number has a name in capitals, and is one from `least` to `most`.

BEGIN {
    choices["WHO"] = "cCLIENT|wWORKER"
    choices["KIND"] = "work|timer|wait|io"
    choices["HOW"] = "keep|cancel"
    choices["PRIORITY"] = "high|normal|low"
    choices["LENGTH"] = "short|long|persistent|persistent-long"
    choices["RESET"] = "manual|auto"
    choices["SIGNAL"] = "set|clear"
    choices["LOCK"] = "mutex|section"
    choices["OWNER"] = "free|owned"
    choices["DUE"] = "none|TICKS|-PAST"
    choices["ARMED"] = "none|KERNEL"
    choices["ACTION"] = "section|mutex|semaphore|event"
    choices["SLOT"] = "-|done|not-owner|over-maximum"
    choices["YES"] = "yes|no"
    choices["SPAN"] = "short|long"
    choices["TIMEOUT"] = "none|MILLIS"
    choices["TIMES"] = "once|repeat"
    most["CLIENT"] = "16"
    most["WORKER"] = "64"
    most["POOL"] = most["GROUP"] = most["OBJECT"] = most["KERNEL"] = most["ROUTINE"] = most["CANCEL"] = "65535"
    most["COUNT"] = most["NUMBER"] = most["REGISTRATION"] = most["QUEUE"] = most["TIMER"] = "65535"
    most["INITIAL"] = most["MAXIMUM"] = most["UNITS"] = most["PREVIOUS"] = "2147483647"
    most["VALUE"] = most["PERIOD"] = most["WINDOW"] = most["ERROR"] = most["MILLIS"] = "4294967295"
    most["TICKS"] = "9223372036854775807"
    most["PAST"] = "9223372036854775808"
    most["CONTEXT"] = most["CLEANUP"] = most["CALLBACK"] = most["FIRST"] = most["BYTES"] = "18446744073709551615"
    most["LIBRARY"] = "255"
    for (name in most) least[name] = 0
    least["CLIENT"] = least["WORKER"] = least["ROUTINE"] = least["NUMBER"] = least["UNITS"] = least["PAST"] = least["LIBRARY"] = 1
}

FILENAME == ARGV[1] {
    take_apart("WHO")
    kind[++lines] = $1
    size[lines] = NF - 1
    for (at = 1; at < NF; at++) take_apart(word[lines, at] = $(at + 1))
    next
}

# Finds how many ways there are to write a word, with which bytes they begin, and of each its text and the name of its
# number.
function take_apart(what,    each, at) {
    if (what in ways) return
    ways[what] = split(what in choices ? choices[what] : what, each, "|")
    for (at = 1; at <= ways[what]; at++) {
        match(each[at], /[A-Z]*$/)
        begins[what] = begins[what] substr(each[at], 1, 1)
        front[what, at] = substr(each[at], 1, RSTART - 1)
        number[what, at] = substr(each[at], RSTART)
    }
}

# Whether a number is above another, of as many digits as you like.
function is_above(one, other) {
    return length(one) != length(other) ? length(one) > length(other) : "n" one > "n" other
}
