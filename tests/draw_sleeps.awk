# Draws traces with sleeps from the number `seed`, `count` of them, with `@` behind each. In front of each third one a line
# `events N` says for how few entries there is room.

BEGIN {
    state = seed % 2147483646 + 1
    for (; count; count--) draw_trace()
}

function draw(below) {
    state = state * 16807 % 2147483647
    return int(state / 8) % below
}

function among(text,    each) {
    return each[1 + draw(split(text, each, " "))]
}

# Six timers, three wait objects, two events; a client that sleeps and one that sets, and a worker that may run a callback.
function draw_trace(    at) {
    if (count % 3 == 0) print "events " 60 + draw(300)
    for (at = 1; at <= 6; at++) print "c1 create timer r" at " x0 p0 normal short g0 q0"
    for (at = 7; at <= 9; at++) print "c1 create wait r" at " x0 p0 normal short g0 q0"
    print "c1 create-event auto clear\nc1 create-event manual clear"
    for (at = 1; at <= 200; at++) if (draw(2)) draw_setting(among("c1 c1 c1 c1 c1 c1 c1 w1 c2"), draw(24)); else draw_sleep(among("c2 c2 c2 c2 c2 c2 c2 c2 w1 c1 c1 w5"))
    printf "@"
}

# From now on, as a moment, at once or never.
function moment(way) {
    way = draw(12)
    return way == 0 ? "none" : way == 1 ? 0 : way == 2 ? 1 + draw(4000000) : "-" 1 + draw(40) * among("1 2500 5000 10000")
}

function draw_setting(who, way) {
    if (way < 12) print who " " among("set-timer set-timer set-timer-ex") " " 1 + draw(6) " " moment() " " among("0 0 0 0 1 2 3 5 7") " " among("0 0 1 1 2 3 5 10 20 1000")
    else if (way < 17) print who " set-wait " 7 + draw(3) " " among("1 1 2 none") " " moment()
    else if (way < 19) print who " " among("set-event set-event reset-event") " " 1 + draw(2)
    else if (way < 20) print who " advance " draw(30) * 2500
    else if (way < 23) print "w1 " among("attach take take return detach")
    else if (draw(9) == 0) print who " close " (draw(2) ? "timer " 1 + draw(6) : "wait " 7 + draw(3))
    else if (draw(9) == 0) print "c1 acquire 1"
    else print "c1 end\nc1 is-timer-set " 1 + draw(6)
}

function draw_sleep(who) {
    print who " sleep " among("0 1 2500 9999 10000 10001 20000 30000 50000 100000 200000") * among("1 1 1 2 3")
}
