# Lists the calls of docs/MACHINE.md, kind by kind: the words of each line and what it stands for in
# Windows. With `asked`, prints the entries of that name whole: of the words of a line, of their first one,
# or of a Win32 function. Where there is none, prints what is said of it among what is left out, and what
# docs/FORMATS.md, the second file, says of it as an operation or a declaration of scripts. It ends with 1 where there
# is nothing.

FILENAME == ARGV[2] { if (asked != "" && !found) take_line_of_scripts(); next }
/^##? / { kind = substr($0, 4); inside = 0 }
/^- / && kind == "Left out" { take_line_of_others() }

is_entry($0) {
    inside = asked != "" && (is_words(asked) || is_named(asked) || asked ~ /[a-z][AW]$/ && is_named(substr(asked, 1, length(asked) - 1)))
    found += inside
    if (asked == "" && words != "") list()
}

inside && /^$/ { space = "\n" }
inside && !/^$/ { printf "%s%s\n", space, $0; space = "" }

END {
    if (found || asked == "") exit
    printf "%s", others
    if (others == "") exit 1
}

function is_words(text) {
    text = tolower(text)
    return words != "" && (words == text || index(words, text " ") == 1)
}

function list() {
    if (kind != listed) print (listed == "" ? "" : "\n") kind
    listed = kind
    printf "  %-18s %s\n", words, names
}

# --- What is no call

# A line on what is left out. In a name `*` stands for any letters.
function take_line_of_others(    token, at, pattern) {
    for (at = split($0, token, "`") - 1; at > 0; at -= 2) {
        pattern = tolower(token[at])
        gsub(/\*/, "[a-z]*", pattern)
        if (tolower(asked) ~ "^" pattern "$") { add_other(kind, substr($0, 3)); return }
    }
}

# A line on what scripts are made of: a row of a table, or words on a section.
function take_line_of_scripts(    token, at) {
    if (/^##/) scripts = /^### (Declarations|Routines and clients)$/
    if (!scripts) return
    for (at = split(row_head($0), token, "`") - 1; at > 0; at -= 2) {
        sub(/ .*/, "", token[at])
        if (token[at] == tolower(asked)) { add_other("In a script", row_of($0)); return }
    }
}

# The first cell of a row, or else the line.
function row_head(line,    cells) {
    return split(line, cells, "|") < 4 ? line : cells[2]
}

# The cells of a row one behind the other, or else the line.
function row_of(line,    cells, many) {
    many = split(line, cells, / *\| */)
    return many < 4 ? line : cells[2] ": " cells[3]
}

function add_other(where, line) {
    others = others (others == "" ? "" : "\n") where ": " line "\n"
}
