# Draws small scripts with marks, with `@` behind each: `count` of them, from the number `seed`. No routine submits what may
# submit it again, so each has an end.

BEGIN {
    state = seed % 2147483646 + 1
    for (number = 1; number <= count; number++) draw_script()
}

function draw(below) {
    state = state * 16807 % 2147483647
    return int(state / 8) % below
}

function one_of(list,    each) {
    return each[1 + draw(split(list, each, "|"))]
}

function draw_script(    client) {
    print "memory m"
    print "group g"
    print "event e " one_of("auto|manual") " clear"
    print "work a ra" one_of("| group g| group g cancel gone")
    print "work b rb" one_of("| group g| priority high")
    print "timer t rt" one_of("| group g cancel gone")
    draw_section("routine ra", 2, "submit b|try submit b|disassociate|set-event e|on-return e|wait b keep|wait b cancel")
    draw_section("routine rb", 2, "set-event e|disassociate|may-run-long|acquire e")
    draw_section("routine rt", 2, "submit a|try submit b|disassociate|set-event e")
    draw_section("routine gone", 0, "")
    for (client = 1 + draw(2); client; client--)
        draw_section("client", 3, "submit a|try submit a|submit b|set-timer t -1 0 0|advance 1|acquire e|wait a keep|wait a cancel|wait t cancel|close b|try close a|close-members g keep 0|close-members g cancel 0")
    printf "@"
}

# A section of at most so many of these operations, with marks between them.
function draw_section(head, most, list,    rest, uses) {
    print head
    for (rest = most ? 1 + draw(most) : 0; rest; rest--) {
        if (!draw(4)) uses = draw_mark(uses)
        print "  " one_of(list)
    }
    if (!draw(4)) draw_mark(uses)
    print "done"
}

# Draws a mark where the section uses the memory or doesn't, and answers whether it does behind it.
function draw_mark(uses,    mark) {
    mark = one_of("free m|quiet a|quiet g|quiet t|use m|use m|use m")
    if (mark == "use m" && uses) mark = "drop m"
    print "  " mark
    return mark == "use m" ? 1 : mark == "drop m" ? 0 : uses
}
