# Writes each public function of a crate: its file where that is another one, its signature, the first sentence of its
# docstring, and its clauses as they stand. The root of the crate comes first, so that what it gives out is known.

FNR == 1 {
    file = FILENAME
    sub(/^.*\/src\//, "src/", file)
    is_root = file == "src/lib.rt" || file == "src/main.rt"
    module = file
    gsub(/^src\/|\.rt$|\/.*/, "", module)
    type = shown = doc = ""
    at = out
}

# --- what the root gives out: modules, its own types, and names out of modules

is_root && /^pub mod [a-z_0-9]+;/ { is_out[substr($3, 1, length($3) - 1)] }
is_root && /^pub use / { in_use = 1 }
is_root && match($0, /^pub (struct|enum|trait|type) +[A-Za-z_0-9]+/) {
    name = substr($0, 1, RLENGTH)
    sub(/^.* /, "", name)
    is_given[name]
}
in_use {
    line = $0
    while (match(line, /[A-Za-z_][A-Za-z_0-9]*/)) {
        is_given[substr(line, RSTART, RLENGTH)]
        line = substr(line, RSTART + RLENGTH)
    }
    if (/;/) in_use = 0
    next
}

# Whether who uses the crate can name a thing of this file.
function is_public(name) { return is_root || (module in is_out) || (name in is_given) }

# --- what the functions stand in

/^(pub )?(unsafe )?(trait|impl)[ <]/ {
    is_trait = /^pub (unsafe )?trait /
    is_own = !/ for [A-Z]/
    type = $0
    sub(/^(pub )?(unsafe )?(trait +|impl(<[^>]*>)? +)/, "", type)
    match(type, /^[A-Za-z_0-9]+/)
    type = substr(type, 1, RLENGTH)
    doc = ""
    next
}
/^}/ { type = "" }

# --- a function

/^ *\/\/\/( |$)/ {
    line = $0
    sub(/^ *\/\/\/ ?/, "", line)
    if (line == "") is_told = 1
    if (!is_told) doc = doc (doc == "" ? "" : " ") line
    next
}
/^ *#!?\[/ && !in_function { next }
/^ *(pub )?(const |unsafe )*fn [a-z_0-9]+/ && !in_function && is_wanted() {
    in_function = 1
    name = fn_name()
    indent = match($0, /[^ ]/) - 1
    head()
}
in_function {
    line = substr($0, indent + 1)
    in_function = line !~ /^\{/ && line !~ /^[^ ].* \{$/ && !(is_trait && line ~ /;$/)
    sub(/^\{.*$| \{$/, "", line)
    if (line != "") print "    " line
    next
}
{ doc = ""; is_told = 0 }

# A function of a trait, one of a type's own that is public, or one of no type that is public.
function is_wanted() {
    if (type == "") return /^pub / && is_public(fn_name())
    return is_public(type) && (is_trait || is_own && /^ *pub (const |unsafe )*fn/)
}
function fn_name(    name) {
    name = $0
    sub(/^.*fn +/, "", name)
    sub(/[^a-z_0-9].*/, "", name)
    return name
}

# What stands above a function's clauses.
function head() {
    if (file != shown_file) print (shown_file == "" ? "" : "\n") file
    shown_file = file
    print ""
    print "  " (type == "" ? "" : type "::") name ": " first_sentence(doc)
    doc = ""
    is_told = 0
}

function first_sentence(text) {
    if (match(text, /[.:]( |$)/)) text = substr(text, 1, RSTART)
    sub(/:$/, ".", text)
    return text
}
