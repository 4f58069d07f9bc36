# Reads docs/ARCHITECTURE.md, and writes each list of files that has a witness, a line each with tabs between: what the
# list is of, the crates that it is about or `all`, the witness as a pattern, and the files.
#
# Such a list begins with a bullet that has `as` and a word in backticks, or more of them, and in front of `as` perhaps
# `in` with crates. Under it stand bullets that begin with a crate; their paths are the list.

function flush() {
    if (witness != "" && files != "") print title "\t" scope "\t" witness "\t" files
    witness = files = ""
}

/^- / { flush(); begin() }
/^  - [a-z_]+: / && witness != "" { add_files() }
END { flush() }

# Begins a list, where the line has a witness.
function begin(    line, words) {
    if (!match($0, /(^|[ ,])as (`[^`]+`(, | and )?)+/)) return
    witness = substr($0, RSTART, RLENGTH)
    line = substr($0, 1, RSTART)
    sub(/^.*as `/, "", witness)
    sub(/`[^`]*$/, "", witness)
    gsub(/`(, | and )`/, "|", witness)
    title = $0
    sub(/^- (\*\*)?/, "", title)
    sub(/(\*\*|,|:).*/, "", title)
    scope = "all"
    if (match(line, /(^|[ ,])in [a-z_]+((, | and )[a-z_]+)* ?$/)) {
        scope = substr(line, RSTART, RLENGTH)
        sub(/^.*in /, "", scope)
        gsub(/,| and/, "", scope)
        sub(/ $/, "", scope)
    }
}

# Adds the paths of a bullet that begins with a crate, but for those that stand with another one.
function add_files(    line, crate, path) {
    line = $0
    sub(/^  - /, "", line)
    crate = line
    sub(/:.*/, "", crate)
    while (match(line, /`[^`]+`/)) {
        path = substr(line, RSTART + 1, RLENGTH - 2)
        line = substr(line, RSTART + RLENGTH)
        if (path !~ /^(src|specs|proofs)\// || line ~ /^ of [a-z]/) continue
        if (path !~ /\.rt$/) path = path ".antt"
        files = files (files == "" ? "" : " ") "crates/" crate "/" path
    }
}
