# Lays out a history: the number of each entry, its actor, the call and the answer, and behind a refusal and a wait
# that stalled what it is about. In `columns` columns, where they suffice, each actor has a lane of its own, so that
# time goes down the page; what an actor did alone before all others stands above the lanes. What stands behind the
# history, as its summary, is below, and above that who waited for whom in a wait that stalled. The first file is the
# script that the history came of, if it is known, and the entry `wrong` has an answer that is not the machine's,
# which is `said`, or another moment than the one that is `said`. Marks of a script that took place at an entry stand
# below it, each behind a `*`.

FILENAME == ARGV[1] { read_script_line($0); next }
!begun++ { workers = $6; begin_names(); next }
over && $1 == "name" { take_name($0); next }
over && $1 == "mark" { take_mark($0); next }
over { below[++behind] = $0; next }
/^end / { over = 1; next }

{
    read_entry($0)
    calls[++count] = entry_call
    answers[count] = entry_answer
    learn_names(calls[count], answers[count])
}

END {
    if (!begun) exit
    for (at = 1; at <= count; at++) tell_entry(at)
    lay_out()
    if (stalls != "") printf "\n%s", stalls
    if (behind) print ""
    for (at = 1; at <= behind; at++) print below[at]
}

# Makes of an entry what is written of it.
function tell_entry(at,    call, answer, cut) {
    call = calls[at]
    answer = answers[at]
    cut = index(call, " ")
    by[at] = substr(call, 1, cut - 1)
    last[by[at]] = at
    if (answer == "stalled") stalls = stalls "entry " at " stalled: " find_ring(by[at]) "\n"
    calls[at] = substr(call_with_names(call), cut + 1)
    answers[at] = answer_with_names(call, answer)
    if (at == wrong && said !~ /^moment /) answers[at] = answers[at] "  <- the machine says: " answer_with_names(call, said) about(call, said)
    else {
        answers[at] = answers[at] about(call, answer) (at == wrong ? "  <- it should be: " said : "")
        follow()
    }
}

# A line `mark ENTRY ACTOR MARK` behind the end: a mark of the script took place at that entry.
function take_mark(line,    word) {
    split(line, word, " ")
    marker[word[2], ++marks[word[2]]] = word[3]
    mark[word[2], marks[word[2]]] = "* " word[4] " " word[5]
}

function lay_out(    alone) {
    digits = length(count "")
    while (by[alone + 1] == by[1] && alone < count) alone++
    if (last[by[1]] > alone || alone == count) alone = 0
    if (!make_lanes(alone + 1)) alone = count
    print_list(1, alone)
    if (alone == count) return
    if (alone) print ""
    print_lanes(alone + 1)
}

function print_list(from, to,    at, width, form, each) {
    for (at = from; at <= to; at++) if (length(calls[at]) > width) width = length(calls[at])
    form = "%" digits "d  %-3s  %-" width "s  %s\n"
    for (at = from; at <= to; at++) {
        printf form, at, by[at], calls[at], answers[at]
        for (each = 1; each <= marks[at]; each++) printf "%" digits "s  %-3s  %s\n", "", marker[at, each], mark[at, each]
    }
}

# --- Lanes

# Finds the lanes of the entries from one on: whether there are columns enough for all. The wider ones are made
# narrower, as far as that is needed.
function make_lanes(from,    at, each, size, widest, most) {
    lanes = 0
    split("", width)
    for (at = from; at <= count; at++) {
        size = length(calls[at]) + length(answers[at]) + 4
        if (size > width[by[at]]) width[by[at]] = size
        if (size > widest) widest = size
        for (each = 1; each <= marks[at]; each++) if (!(marker[at, each] in width)) width[marker[at, each]] = length(mark[at, each])
    }
    add_lanes("c", 16)
    add_lanes("w", 64)
    for (most = widest; taken(most) > columns; most--) if (most <= 18) return 0
    at = digits
    for (size = 1; size <= lanes; size++) {
        if (width[lane[size]] > most) width[lane[size]] = most
        left[lane[size]] = at + 2
        at += 2 + width[lane[size]]
    }
    return 1
}

function add_lanes(letter, many,    number) {
    for (number = 1; number <= many; number++) if ((letter number) in width) lane[++lanes] = letter number
}

# The columns that are taken where no lane is wider than this.
function taken(most,    at, sum) {
    sum = digits
    for (at = 1; at <= lanes; at++) sum += 2 + (width[lane[at]] < most ? width[lane[at]] : most)
    return sum
}

# The names of the actors stand above, and again where they may have gone off the screen.
function print_lanes(from,    at, each) {
    for (at = from; at <= count; at++) {
        if ((at - from) % 40 == 0) print_names()
        print_in_lane(sprintf("%" digits "d", at), calls[at], "-> " answers[at], left[by[at]], width[by[at]])
        for (each = 1; each <= marks[at]; each++) print_at(left[marker[at, each]], "", mark[at, each])
    }
}

function print_names(    at, line) {
    for (at = 1; at <= lanes; at++) line = sprintf("%-" left[lane[at]] "s", line) lane[at]
    print line
}

# Prints a call and its answer in a lane: on one line, or else each on lines of its own.
function print_in_lane(number, text, answer, from, most) {
    if (length(text) + 1 + length(answer) <= most) { print_at(from, number, text " " answer); return }
    print_words(number, text, from, most)
    print_words("", "  " answer, from, most)
}

function print_words(number, text, from, most,    each, words, at, line) {
    words = split(text, each, " ")
    line = text ~ /^ / ? "  " each[1] : each[1]
    for (at = 2; at <= words; at++) {
        if (length(line) + 1 + length(each[at]) > most) {
            print_at(from, number, line)
            number = ""
            line = "  " each[at]
        } else line = line " " each[at]
    }
    print_at(from, number, line)
}

function print_at(from, number, text) {
    printf "%-" from "s%s\n", number, text
}
