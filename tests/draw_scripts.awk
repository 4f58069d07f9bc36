# Draws scripts, with a line `--` between each two: `count` of them, from the number `seed`. Each follows the
# lines of the language, and most then get a fault or two.

END {
    state = seed % 2147483646 + 1
    split("0 1 2 01 -0 -1 007 10000 10001 2147483647 2147483648 4294967295 4294967296 9223372036854775807 9223372036854775808 " \
        "-9223372036854775808 -9223372036854775809 18446744073709551615 18446744073709551616 none", numbers, " ")
    for (at = 1; at <= count; at++) {
        if (at > 1) print "--"
        draw_script()
        for (faults = draw(4) - draw(2); faults > 0; faults--) draw_fault()
        for (number = 1; number <= length_of; number++) print text[number]
    }
}

function draw(below) {
    state = state * 16807 % 2147483647
    return int(state / 8) % below
}

function one_of(list,    each) {
    return each[1 + draw(split(list, each, " "))]
}

# The names of a sort are a list. Those of routines are known from the beginning.
function draw_script(    rest) {
    split("", names)
    split("", own)
    length_of = 0
    for (rest = 1 + draw(4); rest; rest--) names["routine"] = names["routine"] " " new_name("r")
    for (rest = draw(9); rest; rest--) draw_line("declaration")
    split(names["routine"], routines, " ")
    for (rest = 1; rest in routines; rest++) draw_section("routine", "routine " routines[rest])
    for (rest = draw(4); rest; rest--) draw_section("client", "client")
}

function draw_section(where, head,    rest) {
    split("", own)
    split("", used)
    add(head)
    for (rest = draw(6); rest; rest--) draw_line(draw(4) == 0 ? "mark" : (draw(4) ? "" : "tried ") (draw(4) == 0 ? "once" : where == "routine" && draw(3) == 0 ? "own" : "operation"))
    add("done")
}

function add(line) {
    text[++length_of] = line
}

# A line of such a place, of which there is one whose names are known, if not after some tries.
function draw_line(where,    tries, which, line) {
    for (tries = 0; tries < 20; tries++) {
        which = 1 + draw(lines)
        if (place[which] != where || field[which, 1] == "done") continue
        fresh = lacking = before = sort_made = ""
        line = draw_words(which)
        if (lacking && draw(50)) continue
        add(line)
        if (where ~ /once$/) own[sort_made] = own[sort_made] " " fresh
        else if (fresh) names[sort_made] = names[sort_made] " " fresh
        return
    }
}

function draw_words(which,    at, line, open, left_out, said) {
    sort_made = field[which, 1 + (field[which, 1] == "try")]
    if (sort_made == "issue-io") sort_made = "operation"
    for (at = 1; at <= size[which]; at++) {
        said = field[which, at]
        if (said == "[") { open++; if (!left_out && draw(2)) left_out = open }
        else if (said == "]") { if (left_out == open) left_out = 0; open-- }
        else if (!left_out) line = line (line == "" ? "" : " ") draw_word(said)
    }
    return line
}

function draw_word(what,    said) {
    said = what
    if (what in choices) said = one_of(choices[what])
    else if (what == "DUE") said = one_of("none 0 -" draw(1000) " " draw(1000) " 9223372036854775807 -9223372036854775808")
    else if (what == "LIMIT") said = one_of(before " 2147483647 1")
    else if (what in most) said = one_of(most[what] " " (what in least ? least[what] : "0") " " 1 + draw(9) " " 1 + draw(9))
    else if (what == "NEW" || what == "LOCAL") fresh = said = new_name(substr(sort_made, 1, 1))
    else if (what == "ARMED" && draw(3) == 0) said = "none"
    else if (what == "ROUTINE") said = one_of(names["routine"])
    else if (what == "UNUSED" || what == "USED") said = known_memory(what)
    else if (what in sorts) said = known_name(sorts[what])
    if (what == "KIND") sort_made = said
    before = said
    return said
}

function new_name(letter) {
    if (draw(40) == 0) return substr(letter "_234567890abcdefghijklmnopqrstuvwxyz", 1, 31 + draw(3))
    return letter (draw(8) ? ++made_names : draw(9))
}

# A name of one of these sorts. `lacking` is set where there is none.
function known_name(list,    each, all) {
    for (each = split(list, sorted, " "); each; each--) all = all names[sorted[each]] own[sorted[each]]
    if (all == "") { lacking = 1; return "x" draw(5) }
    return one_of(all)
}

# The name of a memory that the section uses, or doesn't use. From here on it is otherwise.
function known_memory(what,    each, at, all) {
    for (at = split(names["memory"], each, " "); at; at--) if ((each[at] in used) == (what == "USED")) all = all " " each[at]
    if (all == "") { lacking = 1; return "x" draw(5) }
    all = one_of(all)
    if (what == "USED") delete used[all]
    else used[all]
    return all
}

# --- Faults

function draw_fault(    at, other, said, kind) {
    if (!length_of) return
    at = 1 + draw(length_of)
    other = 1 + draw(length_of)
    kind = draw(16)
    if (kind < 8) text[at] = with_word(text[at], kind)
    else if (kind < 11) text[at] = with_byte(text[at], 1 + draw(length(text[at]) + 1), kind)
    else if (kind == 11) { said = text[at]; text[at] = text[other]; text[other] = said }
    else if (kind == 12) text[at] = text[other]
    else if (kind == 13) { while (at < length_of) { text[at] = text[at + 1]; at++ } length_of-- }
    else if (kind == 14) length_of = at
    else text[at] = draw(2) ? "# " text[at] : "  " text[at] "  "
}

# A line with a change at one of its words: one more word, none, the word twice, a number, or another word in
# its place, as a rule a name for a name.
function with_word(line, kind,    each, count, at, which, changed) {
    count = split(line, each, " ")
    for (at = 0; at == 0 || kind > 4 && at < 9 && each[which] !~ /^[a-z].*[0-9]$/; at++) which = 1 + draw(count + (kind == 0))
    for (at = 1; at <= count + 1; at++) {
        if (at == which) changed = changed " " changed_word(each[at], kind)
        else if (at <= count) changed = changed " " each[at]
    }
    return substr(changed, 2)
}

function changed_word(word, kind) {
    if (kind == 0) return (word == "" ? "" : word " ") any_word()
    if (kind == 1) return ""
    if (kind == 2) return word " " word
    if (kind == 3) return numbers[1 + draw(20)]
    return kind == 4 ? any_word() : any_name()
}

# A word of the script, or of the language.
function any_word(    which) {
    if (draw(2)) return one_of(text[1 + draw(length_of)] " x")
    which = 1 + draw(lines)
    return draw_word(field[which, 1 + draw(size[which])])
}

# A name of the script, or of its last section.
function any_name() {
    return known_name("pool group event semaphore mutex section memory work timer wait io operation routine")
}

function with_byte(line, at, kind,    byte) {
    byte = substr(" \t\r-_0199azAZ#~", 1 + draw(16), 1)
    return substr(line, 1, at - 1) (kind == 8 ? "" : byte) substr(line, at + (kind != 10))
}
