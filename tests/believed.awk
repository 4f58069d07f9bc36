# Writes which files a contract is made of: those from which it has its names, those from which these have theirs, and
# so on; of a type the file that declares it. What is the kit's is a line `kit: CRATE`. It reads all definitions and
# sources. The contract is that of the function `of` in the file `contract`, and `traits` are the files of the traits of
# whose members it speaks.

FNR == 1 {
    file = FILENAME
    sub(/^\.\//, "", file)
    there[file]
    split(file, parts, "/")
    is_crate[parts[2]]
    is_code = file ~ /\.rt$/
    is_read = !is_code || file == contract || index(" " traits " ", " " file " ")
    in_contract = 0
}

file == contract && $0 ~ "^pub fn " of "[<(]" { in_contract = 1 }
in_contract && /^\{/ { in_contract = 0 }
in_contract { said = said " " $0 }

# An import, with what it names behind it.
is_read && /^ *(ghost )?use [A-Za-z]/ && (!is_code || /^ *ghost |crate::/) {
    line = $0
    sub(/^ *(ghost )?use /, "", line)
    sub(/;.*/, "", line)
    names = line
    sub(/^[^{]*\{|.*::/, "", names)
    sub(/(\.|::)\{.*| as .*/, "", line)
    imports[file] = imports[file] line "\t" names "\n"
}

END {
    gsub(/[^A-Za-z0-9_]+/, " ", said)
    said = said " "
    add(contract)
    count = split(traits, all, " ")
    for (each = 1; each <= count; each++) add(all[each])
    for (at = 1; at <= listed; at++) {
        count = split(imports[list[at]], all, "\n")
        for (each = 1; each < count; each++) {
            split(all[each], import, "\t")
            if (list[at] != contract || is_said(import[2])) follow(list[at], import[1])
        }
    }
    for (at = 1; at <= listed; at++) print list[at]
    for (kit in kits) print "kit: " kit
}

function add(name) {
    if (name in is_listed) return
    is_listed[name]
    list[++listed] = name
}

# Whether the contract has one of the names in braces.
function is_said(names,    each, count) {
    gsub(/[^A-Za-z0-9_]+/, " ", names)
    count = split(names, each, " ")
    while (count) if (index(said, " " each[count--] " ")) return 1
    return 0
}

# Adds the file that an import of another file names.
function follow(from, name,    parts, count, path, at) {
    if (name ~ /^crate::/) {
        sub(/\/src\/.*/, "/src/", from)
        sub(/^crate::/, "", name)
        gsub(/::/, "/", name)
        if (!((from name ".rt") in there)) sub(/\/[^\/]*$/, "", name)
        add(from name ".rt")
        return
    }
    if (name !~ /^Rattle\./) name = beside(from, name)
    count = split(name, parts, ".")
    if (!(parts[2] in is_crate)) kits[parts[2]]
    else if (parts[4] == "declared" || parts[4] == "contracts") add(declaring(parts[2], parts[5]))
    else {
        path = "crates/" parts[2] "/specs"
        for (at = 4; at <= count; at++) {
            path = path "/" parts[at]
            if ((path ".antt") in there && !((path "/" parts[at + 1] ".antt") in there)) { add(path ".antt"); return }
        }
        add("unknown: " name)
    }
}

# The whole name of a part of a module that the module's own file imports.
function beside(from, name) {
    sub(/^crates\//, "", from)
    sub(/\.antt$/, "", from)
    gsub(/\//, ".", from)
    return "Rattle." from "." name
}

# The file of a crate that declares what a module has.
function declaring(crate, module,    path) {
    path = "crates/" crate "/src/" module ".rt"
    return path in there ? path : "crates/" crate "/src/lib.rt"
}
