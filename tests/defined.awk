# Writes what the sources define, a line each: crate, file without its ending, name. Of a source in Rattle these are its
# functions, types, constants, macros, fields, variants and clauses; of one with definitions and proofs its
# definitions, types, constructors, fields and lemmas.

FNR == 1 {
    file = FILENAME
    sub(/^(.*\/)?crates\//, "", file)
    crate = file
    sub(/\/.*/, "", crate)
    sub(/^[^\/]*\//, "", file)
    is_code = sub(/\.rt$/, "", file)
    sub(/\.antt$/, "", file)
}

function tell(name) { print crate, file, name }

# A line without the words at its front that are none of the author's own.
function bare(line) {
    while (match(line, /^(pub|abbrev|unfoldable|opaque|record|data|mutual|private) +/)) line = substr(line, RLENGTH + 1)
    return line
}

is_code {
    line = $0
    sub(/^ */, "", line)
    if (line ~ /^(\/\/|use |ghost use |#)/) next
    while (match(line, /(ensures|requires|decreases) [a-z_0-9]+ \{/)) {
        split(substr(line, RSTART, RLENGTH), words, " ")
        tell(words[2])
        line = substr(line, RSTART + RLENGTH)
    }
    line = $0
    sub(/^ */, "", line)
    if (match(line, /^(pub(\([a-z]+\))? )?(const |ghost |unsafe )*(fn|struct|enum|trait|type|mod|const|static|macro_rules!) +[A-Za-z_0-9]+/)) {
        count = split(substr(line, 1, RLENGTH), words, " ")
        tell(words[count])
    } else if (match(line, /^(pub(\([a-z]+\))? |ghost )*[a-z_0-9]+: /)) {
        count = split(substr(line, 1, RLENGTH - 2), words, " ")
        tell(words[count])
    } else if (match(line, /^[A-Z][A-Za-z0-9]*( \{| =|\(|,|$)/)) {
        match(line, /^[A-Za-z0-9]+/)
        tell(substr(line, 1, RLENGTH))
    }
    next
}

{
    line = $0
    sub(/^ *(-> *)?/, "", line)
    if (line ~ /^(use|--)/) next
    line = bare(line)
    if (match(line, /^[A-Za-z_][A-Za-z_0-9]*( |$)/) && line ~ /:/) {
        name = substr(line, 1, RLENGTH)
        sub(/ /, "", name)
        tell(name)
    }
}
