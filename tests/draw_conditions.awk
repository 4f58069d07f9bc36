# Draws scripts in which operations ask first, `count` of them from the number `seed`, with `@` behind each. With `few` a
# script has at most three questions and no operation that makes a name.

BEGIN {
    state = seed % 2147483646 + 1
    for (; count; count--) draw_script()
}

function draw(below) {
    state = state * 16807 % 2147483647
    return int(state / 8) % below
}

function among(text,    each) {
    return each[1 + draw(split(text, each, " "))]
}

# A routine submits objects of later routines alone, but for what is asked first, where there are any number of questions: so
# most runs come to their end.
function draw_script(    at) {
    questions = 3
    print "pool p max " 1 + draw(3) "\ngroup g"
    print "event told " among("manual auto") " " among("set clear") "\nevent open " among("manual manual auto") " clear"
    print "semaphore left " draw(3) " 3\nmutex door\nsection desk"
    for (at = 1; at <= 3; at++) print "work w" at " r" at " context " at (draw(2) ? " in p" : "") (draw(2) ? " group g cancel gone" : "")
    print "timer clock r3\nwait bell r2 group g\nio file r2 in p priority high"
    for (at = 1; at <= 3; at++) draw_section("routine r" at, 4, at)
    print "routine gone\ndone"
    for (at = 2 + draw(2); at; at--) draw_section("client", 8, 0)
    printf "@"
}

# A section with up to so many lines, of the routine of that number or of a client.
function draw_section(head, most, routine,    rest) {
    print head
    operations = works = 0
    for (rest = draw(most + 1) + !routine; rest; rest--) print "  " line(routine)
    print "done"
}

function line(routine,    rounds, asked) {
    if (!few && draw(6) == 0) return once()
    asked = draw(3) && (!few || questions)
    rounds = draw(4) ? 1 : 2 + draw(few ? 2 : 4)
    if (few && asked && rounds > questions) rounds = 1
    if (asked) questions -= rounds
    return (rounds > 1 ? "times " rounds " " : "") (asked ? among("if unless") " " kernel() " " : "") operation(routine, asked)
}

function kernel() {
    return among("told told told open open left left door desk")
}

# What makes a name, or uses the last one that was made.
function once() {
    if (draw(2)) return "let x" ++works " work r" 1 + draw(3) (draw(2) ? " group g" : "")
    return (draw(6) ? "start-io file\n  " : "") "issue-io file y" ++operations
}

function operation(routine, asked,    way) {
    way = draw(few ? 12 : routine ? 30 : 26)
    if (way < 3 && (routine < 3 || asked && !few)) return "submit w" (asked && !few ? 1 + draw(3) : routine + 1 + draw(3 - routine))
    if (way < 4) return "set-event " among("told open")
    if (way == 4) return "release-semaphore left " 1 + draw(2)
    if (way == 5) return "try-acquire " kernel()
    if (way == 6) return "release " among("door desk")
    if (way == 7) return "wait w" 1 + draw(3) " " among("keep cancel")
    if (way == 8) return "complete-next file " among("0 995") " " draw(600)
    if (way == 9) return "reset-event " among("told open")
    if (way == 10) return "start-io file"
    if (way == 11) return draw(3) ? "advance " 1 + draw(30000) : "acquire " among("told left desk")
    if (way == 12) return among("set-timer set-timer-ex") " clock " among("none -10000 -20000 5") " " draw(3) " 0"
    if (way == 13) return "is-timer-set clock"
    if (way == 14) return "set-wait bell " among("told left none open") " " among("none -15000 0")
    if (way == 15) return "cancel-io file"
    if (way == 16) return "simple r" 1 + draw(3) (draw(2) ? " long" : "") (draw(2) ? " group g cancel gone" : "")
    if (way == 17) return "close-members g " among("keep cancel") " " draw(9)
    if (way == 18) return "set-maximum p " 1 + draw(3)
    if (way == 19) return draw(3) ? "wait " among("clock bell file") " " among("keep cancel") : "close " among("w1 clock bell file")
    if (way < 22) return !works ? "set-minimum p 1" : draw(2) ? "submit x" 1 + draw(works) : "wait x" 1 + draw(works) " keep"
    if (way < 24) return operations ? "complete-io y" 1 + draw(operations) " 0 5" : "complete-next file 0 5"
    if (way == 24) return draw(4) ? "set-event told" : "close-group g"
    if (way == 25) return draw(4) ? "advance 10000" : "close-pool p"
    if (way == 26) return "may-run-long"
    if (way == 27) return "disassociate"
    return "on-return " among("told left door desk")
}
