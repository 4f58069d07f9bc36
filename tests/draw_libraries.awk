# Draws traces with libraries from the number `seed`, `count` of them, with `@` behind each. Their calls are those whose
# answers tell which object each callback is of.

BEGIN {
    state = seed % 2147483646 + 1
    libraries = split("l1 l2 l10 l255", name, " ")
    kinds = split("work timer io work timer io", kind, " ")
    for (; count; count--) draw_trace()
}

function draw(below) {
    state = state * 16807 % 2147483647
    return int(state / 8) % below
}

function library() {
    return name[1 + draw(libraries)]
}

function environment(group) {
    return "r1 x0 p0 normal short g" group " q0"
}

# Each library is loaded, and there are objects of all kinds, in a group and in none. Two workers are attached. Last, a
# client that never waits before closes and frees what there is, and what is pending runs.
function draw_trace(    at) {
    for (at = 1; at <= libraries; at++) print "c1 load " name[at]
    print "c2 create-group"
    for (at = 1; at <= kinds; at++) print "c1 create " kind[at] " " environment(int((at - 1) / 3)) " " library()
    for (at = 1; at <= 2; at++) print "c1 submit 1\nw" at " attach\nw" at " take"
    objects = kinds
    for (at = 1; at <= 60; at++) if (draw(3)) draw_call(actor(), draw(21)); else print "w" 1 + draw(2) " " call_of_worker(draw(5))
    for (at = 1; at <= objects; at++) print "c4 close " kind_of(at) " " at
    for (at = 1; at <= 2 * libraries; at++) print "c4 free " name[1 + at % libraries]
    print "c4 close-members 1 cancel y0"
    for (at = 1; at <= 14; at++) print "w" 1 + at % 2 (at % 4 < 2 ? " return" : " take")
    printf "@"
}

# A client, or a worker, which may run a callback; now and then one that isn't there, or a client that finishes.
function actor(    way) {
    way = draw(40)
    return way < 32 ? "c" 1 + draw(2) : way < 38 ? "w" 1 + draw(2) : way < 39 ? "w5" : draw(2) ? "c3" : "c3 finish\nc3"
}

function call_of_worker(way) {
    return way < 2 ? "take" : way < 4 ? "return" : "free-on-return " library()
}

function draw_call(who, way,    object) {
    object = 1 + draw(objects)
    if (way < 2) print who " load " library()
    else if (way < 6) print who " free " library()
    else if (way < 8) print who " create " kind[1 + objects++ % kinds] " " environment(draw(2)) suffix()
    else if (way < 10) print who " submit-simple " environment(draw(2)) suffix()
    else if (way < 14) print who " " submission(object)
    else if (way < 16) print who " complete-io " 1 + draw(20) " 0 0"
    else if (way < 18) print who " close " kind_of(object) " " object
    else if (way < 19) print who " close-members 1 " (draw(2) ? "keep" : "cancel") " y0\n" who " end"
    else if (way < 20) print who " wait " kind_of(object) " " object " cancel\n" who " end"
    else print "c1 end\nc2 end"
}

function suffix() {
    return draw(6) ? " " library() : ""
}

# The kinds come one after another, and again from the first on. An object that isn't made takes no number, so this is a
# guess.
function kind_of(object) {
    return kind[1 + (object - 1) % kinds]
}

function submission(object,    way) {
    way = draw(5)
    if (kind_of(object) == "work") return "submit " object
    if (kind_of(object) == "timer") return "set-timer " object " 0 0 0"
    return (way < 3 ? "start-io " : way < 4 ? "issue-io " : "cancel-io ") object
}
