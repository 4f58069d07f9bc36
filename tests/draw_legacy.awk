# Draws traces with calls of the pool before Vista from the number `seed`, `count` of them, with `@` behind each. In front of
# each third one a line `events N` says for how few entries there is room.

BEGIN {
    state = seed % 2147483646 + 1
    for (; count; count--) draw_trace()
}

function draw(below) {
    state = state * 16807 % 2147483647
    return int(state / 8) % below
}

function among(text,    each) {
    return each[1 + draw(split(text, each, " "))]
}

# A number of what was made, mostly, or one beyond.
function number(most) {
    return draw(9) ? 1 + draw(most) : draw(2) ? 0 : most + 1 + draw(9)
}

# Two events, a semaphore and a lock. Two workers run, and at the end another client frees what there is, waits for nothing,
# and the workers run what is pending. The greatest client makes a call of the machine, so that each list of such calls has
# as many clients.
function draw_trace(    at) {
    registrations = queues = timers = 0
    if (count % 3 == 0) print "events " 40 + draw(120)
    print "c4 submit 1\nc2 create-event auto clear\nc2 create-event manual clear\nc2 create-semaphore 0 3\nc2 create-lock mutex free"
    for (at = 1; at <= 2; at++) print "c1 queue-item r1 x0 short\nw" at " attach\nw" at " take\nc1 create-queue"
    queues = 2
    for (at = 1; at <= 3; at++) { draw_old("c1", 2); draw_old("c1", 8) }
    for (at = 1; at <= 80; at++) if (draw(2)) draw_old(actor(), draw(20)); else draw_call(actor(), draw(20))
    for (at = 1; at <= registrations; at++) print "c3 unregister " at
    for (at = 1; at <= queues; at++) print "c3 delete-queue " at "\nc1 end\nc3 end"
    for (at = 1; at <= 12; at++) print "w" 1 + at % 2 (at % 4 < 2 ? " return" : " take")
    printf "@"
}

# A client, or a worker, which may run a callback; now and then one that isn't there, or a client that has finished.
function actor(    way) {
    way = draw(40)
    return way < 24 ? "c" 1 + draw(2) : way < 38 ? "w" 1 + draw(2) : way < 39 ? "w5" : draw(4) ? "c3" : "c3 finish\nc3"
}

function queue() {
    return draw(3) ? 1 + draw(2) : number(queues)
}

function routine() {
    return "r" 1 + draw(3) " x" draw(3)
}

function millis() {
    return among("0 0 1 2 5 5 10 1000 4294967295")
}

function draw_old(who, way) {
    if (way < 2) print who " queue-item " routine() " " among("short long")
    else if (way < 5) { print who " register " among("1 1 1 2 2 3 3 4 9") " " routine() " " (draw(2) ? "none" : millis()) " " among("repeat repeat once"); registrations++ }
    else if (way < 7) print who " unregister " number(registrations + 1)
    else if (way < 8) { print who " create-queue"; queues++ }
    else if (way < 12) { print who " create-timer " queue() " " routine() " " millis() " " among("0 0 1 5 4294967295"); timers++ }
    else if (way < 16) print who " change-timer " queue() " " number(timers) " " millis() " " among("0 0 1 5")
    else if (way < 19) print who " delete-timer " queue() " " number(timers)
    else print who " delete-queue " queue() "\n" who " end"
}

# Objects are registrations and timers, as they were made.
function draw_call(who, way,    object) {
    object = number(registrations + timers)
    if (draw(3) == 0) print "c1 end\nc2 end"
    if (way < 4) print "w" 1 + draw(2) " take"
    else if (way < 7) print "w" 1 + draw(2) " return"
    else if (way < 10) print who " " among("set-event set-event reset-event") " " 1 + draw(2)
    else if (way < 11) print who " release-semaphore 3 " 1 + draw(3)
    else if (way < 14) print who " advance " among("1 9999 10000 10000 50000 10000000")
    else if (way < 15) print who " close " among("wait timer") " " object
    else if (way < 16) print who " " (draw(2) ? "set-wait " object " none none" : "set-timer " object " " among("none 0") " 1 0")
    else if (way < 17) print who " wait " among("wait timer") " " object " " among("keep cancel") "\n" who " end"
    else if (way < 18) print who (draw(2) ? " close-group " number(queues) : " close-members " number(queues) " cancel y0\n" who " end")
    else if (way < 19) print "w" 1 + draw(2) " " among("disassociate may-run-long attach detach")
    else print "w" 1 + draw(2) " delete-queue " 1 + draw(2)
}
