# The lines of scripts, from the file script_lines, which is read first: where a line may stand, and its
# words. Brackets hold what may be left out. A word of capitals is a choice, a number, or a name:
# `choices`, `most` and `sorts` have what may stand for it. Operations may be repeated by `times`,
# and stand behind a condition and behind `try`.

BEGIN {
    options = "[ context LARGE ] [ in POOL ] [ priority PRIORITY ] [ long ] [ persistent ] [ group GROUP [ cancel ROUTINE ] ]"
    choices["KIND"] = "work timer wait io"
    choices["PRIORITY"] = "high normal low"
    choices["HOW"] = "keep cancel"
    choices["RESET"] = "manual auto"
    choices["SIGNAL"] = "set clear"
    most["SMALL"] = "4294967295"
    most["LARGE"] = "18446744073709551615"
    most["TICKS"] = "9223372036854775807"
    most["COUNT"] = "10000"
    most["LEVEL"] = most["LIMIT"] = most["UNITS"] = "2147483647"
    least["COUNT"] = least["LIMIT"] = least["UNITS"] = "1"
    sorts["POOL"] = "pool"
    sorts["GROUP"] = "group"
    sorts["EVENT"] = "event"
    sorts["SEMAPHORE"] = "semaphore"
    sorts["LOCK"] = "mutex section"
    sorts["KERNEL"] = sorts["ARMED"] = "event semaphore mutex section"
    sorts["WORK"] = "work"
    sorts["TIMER"] = "timer"
    sorts["WAIT"] = "wait"
    sorts["IO"] = "io"
    sorts["OBJECT"] = "work timer wait io"
    sorts["OPERATION"] = "operation"
    sorts["MEMORY"] = sorts["UNUSED"] = sorts["USED"] = "memory"
    sorts["SOURCE"] = "work timer wait io group"
}

FILENAME == ARGV[1] {
    sub(/OPTIONS/, options)
    words = substr($0, length($1) + 2)
    add_line($1, words)
    if ($1 == "operation" || $1 == "own") add_operation($1, words)
    if ($1 == "once" && words != "done") add_line("tried once", "try " words)
    next
}

# An operation may be repeated, may have a condition, and may be one that may be refused.
function add_operation(where, words) {
    add_line(where, "times COUNT " words)
    add_line(where, "if KERNEL " words)
    add_line(where, "unless KERNEL " words)
    add_line(where, "times COUNT if KERNEL " words)
    add_line(where, "times COUNT unless KERNEL " words)
    add_tried("tried " where, "", words)
    add_tried("tried " where, "times COUNT ", words)
}

# `try` stands in front of a condition or behind it.
function add_tried(where, front, words) {
    add_line(where, front "try " words)
    add_line(where, front "try if KERNEL " words)
    add_line(where, front "try unless KERNEL " words)
    add_line(where, front "if KERNEL try " words)
    add_line(where, front "unless KERNEL try " words)
}

function add_line(where, words,    fields, count, at) {
    place[++lines] = where
    count = split(words, fields, " ")
    for (at = 1; at <= count; at++) field[lines, at] = fields[at]
    size[lines] = count
}

# Whether one of the words of a list is this one.
function has(list, word) {
    return index(" " list " ", " " word " ") > 0
}
