# Says which names of the documents aren't defined where the documents say. It reads what the sources define, as
# tests/defined.awk writes it, then crates.txt, and then documents; what it looks for is at the head of
# tests/documents.sh. A line of a document is a thing by itself: a paragraph, a row or a bullet.

FNR == 1 { part++ }
part == 1 {
    defined[$3]
    by_crate[$1, $3]
    by_file[$1, $2, $3]
    path = $2
    files[$1, path]
    stems[path]
    sub(/.*\//, "", path)
    stems[path]
    while (sub(/\/[^\/]*$/, "", $2)) files[$1, $2]
    next
}
# What a crate stands on may be the kit's.
part == 2 {
    if (/^[a-z]/) {
        for (at = 2; at <= NF; at++) stems[$at]
        sub(/:.*/, "")
        crates[$0]
    }
    next
}
FNR == 1 {
    page = FILENAME
    sub(/^\.\//, "", page)
    own = page
    own = sub(/^(.*\/)?crates\//, "", own) && sub(/\/README.md$/, "", own) ? own : ""
    is_of_code = own != "" || page ~ /(ARCHITECTURE|PROVED|DECISIONS|COST)\.md$/
}
/^```/ { is_block = !is_block }
is_block { next }
{
    read_spans()
    check_line()
}

# The spans of the line that stand in backticks, what stands before each, and what behind the last.
function read_spans(    line, from, size) {
    spans = 0
    line = $0
    while (match(line, /`[^`]+`/)) {
        spans++
        before[spans] = substr(line, 1, RSTART - 1)
        span[spans] = substr(line, RSTART + 1, RLENGTH - 2)
        line = substr(line, RSTART + RLENGTH)
    }
    before[spans + 1] = line
}

function check_line(    at, crate, head) {
    crate = head = own == "" ? head_crate() : own
    for (at = 1; at <= spans; at++) {
        if (head == "") crate = last_crate(before[at], crate)
        if (!(span[at] in crates)) check_span(at, crate)
        else if (head == "" && span[at] ~ /_/) crate = span[at]
    }
}

# The crate that a row or a bullet begins with.
function head_crate(    text) {
    text = before[1]
    if (!sub(/^(\| | *- )/, "", text) || !match(text, /^[a-z_]+( \||[,:])/)) return ""
    text = substr(text, 1, RLENGTH)
    gsub(/[ |,:]/, "", text)
    return text in crates ? text : ""
}

# The last crate that some prose names, or else the one that was named before. A crate whose name is a word as others
# are has to stand at the head, or behind what is of it.
function last_crate(text, crate,    words, count, at) {
    count = split(text, words, /[^A-Za-z0-9_]+/)
    for (at = count; at; at--) if ((words[at] in crates) && words[at] ~ /_/) return words[at]
    return crate
}

function check_span(at, crate,    text, file, of) {
    text = span[at]
    of = crate_behind(at)
    if (of != "") crate = of
    if (is_path(text)) check_path(text, crate)
    else if (text ~ /^[A-Z][A-Za-z0-9]*(<[A-Z]>)?::[A-Za-z_][A-Za-z_0-9]*$/) check_member(text, of != "" ? of : is_head(at) ? crate : "")
    else if (is_name(text)) {
        file = file_of(at)
        if (file != "") check_in_file(text, file, crate_of_file(at, crate))
        else if (of != "") check_in_crate(text, of)
        else if (is_head(at)) check_in_crate(text, crate)
        else if (is_of_code && is_code_name(text) && !(text in defined) && !(text in stems)) fault(text " is defined nowhere")
    }
}

function is_name(text) { return text ~ /^[A-Za-z_][A-Za-z_0-9]*$/ }
# A name that is written as those of code are, and isn't a function of Windows.
function is_code_name(text) { return text ~ /[a-z]_[a-z]|^[A-Z][a-z0-9]+[A-Z]/ && text !~ /^[A-Z][a-z]+.*(Threadpool|Callback|Thread|CriticalSection|Mutex)/ }
function is_path(text) { return text ~ /^([a-z_]+\/)?(src|specs|proofs|must-fail)\/[A-Za-z0-9_\/.-]+$/ || text ~ /^[A-Z][A-Za-z]+\/[A-Za-z\/]+$/ }

# The crate that stands behind a span, or behind further ones of the same list, as in "`a` and `b` of c".
function crate_behind(at,    text) {
    while (at < spans && before[at + 1] ~ /^,? ?(and|with|or)? $/) at++
    text = before[at + 1]
    if (text == " of " || text == ") of ") return at < spans && (span[at + 1] in crates) ? span[at + 1] : ""
    if (!match(text, /^\)? of [a-z_0-9]+/)) return ""
    text = substr(text, 1, RLENGTH)
    sub(/^\)? of /, "", text)
    return text in crates ? text : ""
}

# The place of the file that stands behind a name, or behind further names of the same list, in brackets, behind "in" or
# in the next cell; 0 where there is none.
function place_of_file(at) {
    while (at < spans && before[at + 1] ~ /^,? ?(and|or)? ?$/ && is_name(span[at + 1])) at++
    return at < spans && before[at + 1] ~ /^ (in|\(|\|) ?$/ && is_path(span[at + 1]) ? at + 1 : 0
}
function file_of(at,    place) {
    place = place_of_file(at)
    return place ? span[place] : ""
}
function crate_of_file(at, crate,    of) {
    of = crate_behind(place_of_file(at))
    return of == "" ? crate : of
}

# Whether a span stands behind the crate in the first cell of a row, as in "| tp_edge, `read_all` |".
function is_head(at,    text, each) {
    for (each = 1; each <= at; each++) text = text before[each]
    return text ~ /^\| [a-z_]+(, (and )?)+$/ && head_crate() != ""
}

# The name of a file in a crate, without its ending.
function in_crate(path) {
    sub(/\.(rt|antt|edit)$/, "", path)
    sub(/\/$/, "", path)
    return path
}

function check_path(path, crate,    first) {
    first = path
    sub(/\/.*/, "", first)
    if (first in crates) {
        crate = first
        path = substr(path, length(first) + 2)
    }
    path = in_crate(path)
    if (path ~ /\/(X|NAME)$/) sub(/\/[A-Z]+$/, "", path)
    if (crate == "") fault(path " stands with no crate")
    else if (!is_there(crate, path)) fault("there is no file " path " in " crate)
}
function is_there(crate, path) { return (crate, path) in files || (crate, "specs/" path) in files || (crate, "proofs/" path) in files }

function check_in_file(name, path, crate) {
    path = in_crate(path)
    if (crate != "" && is_there(crate, path) && !((crate, path, name) in by_file || (crate, "specs/" path, name) in by_file || (crate, "proofs/" path, name) in by_file))
        fault(name " isn't defined in " path " of " crate)
}
function check_in_crate(name, crate) { if (!((crate, name) in by_crate)) fault(name " isn't defined in " crate) }
# A member is defined in a crate that defines its type: in the one that is named, if one is.
function check_member(text, crate,    parts, each) {
    split(text, parts, "::")
    sub(/<.*/, "", parts[1])
    for (each in crates)
        if ((crate == "" || each == crate) && ((each, parts[1]) in by_crate) && ((each, parts[2]) in by_crate)) return
    fault(text " is defined nowhere" (crate == "" ? "" : " in " crate))
}

function fault(what) { print page ":" FNR ": " what }
