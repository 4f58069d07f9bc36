# Finds the first fault of each text, behind which stands `@`: what the program tells of it. The lines of a text are of the
# kind `of`, with a moment in front of each where they are `timed`, and `before` lines stand in front of them. The fault is at the first byte up to which none of the lines that
# may stand there goes along.
#
# How far something goes is the place behind it, or with a minus the place of the first byte that doesn't go along.

{
    count = split($0, text, "\n")
    for (row = 1; row < count; row++) if (column_of(text[row])) break
    print "tpool: bad line " before + row " column " column_of(text[row])
}

# The column of the fault of the text's line in this row, or 0.
function column_of(said,    reach) {
    line = said
    reach = along_line()
    return reach == length(line) + 1 ? 0 : place_of(reach)
}

function along_line(    reach) {
    reach = timed ? then_text(along_number("TICKS", 1), " ") : 1
    if (reach > 0) reach = along_word("WHO", reach)
    reach = then_text(reach, " ")
    if (of ~ /^(library|legacy|sleep)$/) return further(then_kind(reach, "call"), then_kind(reach, of))
    reach = then_kind(reach, "call")
    if (of == "call") return reach
    reach = then_kind(then_text(reach, " -> "), "answer")
    return further(reach, along_text("end " row - 1, 1))
}

function then_text(reach, wanted) {
    return reach < 0 ? reach : along_text(wanted, reach)
}

# How far the line goes along with any line of a kind. One that begins with another byte isn't tried.
function then_kind(reach, wanted,    which, byte, furthest) {
    if (reach < 0) return reach
    furthest = -reach
    byte = substr(line, reach, 1)
    for (which = 1; which <= lines; which++)
        if (kind[which] == wanted && index(begins[word[which, 1]], byte)) furthest = further(furthest, along_words(which, reach))
    return furthest
}

function along_words(which, place,    at) {
    place = along_word(word[which, 1], place)
    for (at = 2; at <= size[which] && place > 0; at++) {
        place = along_text(" ", place)
        if (place > 0) place = along_word(word[which, at], place)
    }
    return place
}

function along_word(what, place,    way, reach, furthest) {
    furthest = -place
    for (way = 1; way <= ways[what]; way++) {
        reach = along_text(front[what, way], place)
        if (reach > 0 && number[what, way] != "") reach = along_number(number[what, way], reach)
        furthest = further(furthest, reach)
    }
    return furthest
}

function along_text(wanted, place,    at) {
    if (substr(line, place, length(wanted)) == wanted) return place + length(wanted)
    for (at = 1; substr(line, place, 1) == substr(wanted, at, 1); at++) place++
    return -place
}

function along_number(name, place,    digits) {
    if (match(substr(line, place), /^(0|[1-9][0-9]*)/)) digits = substr(line, place, RLENGTH)
    if (digits == "0" && least[name]) digits = ""
    while (is_above(digits, most[name])) digits = substr(digits, 1, length(digits) - 1)
    return digits == "" ? -place : place + length(digits)
}

# The one that goes further, and of two that go as far one that ends there.
function further(one, other) {
    return place_of(one) > place_of(other) || place_of(one) == place_of(other) && one > 0 ? one : other
}

function place_of(reach) {
    return reach < 0 ? -reach : reach
}
