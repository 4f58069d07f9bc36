# Draws texts from the number `seed`, `count` for each line of the kind `of`, with `@` behind each: up to eight such lines,
# of answers each behind a drawn call, and with a moment in front where they are `timed`; one more with a change in it; and
# `.`, so that no text is without a fault.

END {
    state = seed % 2147483646 + 1
    for (which = 1; which <= lines; which++) if (kind[which] == "call") calls[++call_count] = which
    for (which = 1; which <= lines; which++)
        if (kind[which] == of) for (text = 0; text < count; text++) draw_text(which, text % 9)
}

function draw(below) {
    state = state * 16807 % 2147483647
    return int(state / 8) % below
}

function draw_text(which, whole) {
    for (; whole; whole--) print draw_line(which)
    printf "%s\n.@", changed(draw_line(which))
}

function draw_line(which,    drawn) {
    drawn = (timed ? draw_number("TICKS") " " : "") draw_word("WHO") " "
    if (of == "answer") drawn = drawn draw_words(calls[1 + draw(call_count)]) " -> "
    return drawn draw_words(which)
}

function draw_words(which,    at, drawn) {
    drawn = draw_word(word[which, 1])
    for (at = 2; at <= size[which]; at++) drawn = drawn " " draw_word(word[which, at])
    return drawn
}

function draw_word(what,    way) {
    way = 1 + draw(ways[what])
    return front[what, way] (number[what, way] == "" ? "" : draw_number(number[what, way]))
}

function draw_number(name,    way, rest, drawn) {
    way = draw(4)
    if (way == 0) return least[name]
    if (way == 1) return most[name]
    drawn = least[name] + draw(9)
    if (way == 2 || drawn == 0) return drawn
    for (rest = draw(length(most[name])); rest; rest--) drawn = drawn draw(10)
    return is_above(drawn, most[name]) ? substr(drawn, 1, length(drawn) - 1) : drawn
}

# The line with one byte replaced, added, doubled or left out, or cut off at a place; or with a number that ends in another
# digit, has one more, begins with 0 or is 0.
function changed(line,    way, place) {
    way = draw(10)
    place = 1 + draw(length(line) + 1)
    if (way < 5) return substr(line, 1, place - 1) instead(way, substr(line, place, 1)) (way == 4 ? "" : substr(line, place + 1))
    if (!match(substr(line, place), /[0-9]+/)) { place = 1; match(line, /[0-9]+/) }
    place += RSTART - 1
    return substr(line, 1, place - 1) other_number(way, substr(line, place, RLENGTH)) substr(line, place + RLENGTH)
}

function other_number(way, digits,    size) {
    size = length(digits)
    if (way == 5) return digits draw(10)
    if (way == 6) return 0 digits
    return way == 7 ? 0 : substr(digits, 1, size - 1) (substr(digits, size) + 1) % 10
}

# What stands in the place of a byte.
function instead(way, byte) {
    if (way == 0) return drawn_byte()
    if (way == 1) return drawn_byte() byte
    return way == 2 ? byte byte : ""
}

function drawn_byte() {
    return substr("0123456789 -|crwoxygqpetadnslmk>\n", 1 + draw(33), 1)
}
