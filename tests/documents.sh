# The examples of the documents, run by the program. What an example looks like:
#
# - a table that begins with `| Call | Prints |`: its rows are one trace, with the answers;
# - a table that begins with `| Line | Comes to |`: its rows are one trace with libraries, and what each line comes to, the
#   lines of that with `; ` between them;
# - a table that begins with `| Old or new call | Prints |`: its rows are one trace with old calls, and the answers;
# - a table that begins with `| Call or sleep | Prints |`: its rows are one trace with sleeps, and what each line comes to, the
#   lines of that with `; ` between them;
# - a table that begins with `| Line | Column |`: each row is a bad line of a trace by itself;
# - a block marked `console`: commands behind `$ `, each with what a terminal shows of it, standard
#   output and standard error;
# - a block marked `history`: a legal history;
# - a block marked `text` or `c` is no example. No block stands without a mark.
#
# What they say of the sources, held against these. A paragraph, a row or a bullet is looked at by itself.
#
# - `NAME` (`FILE`), `NAME` in `FILE`, and cells with the one and the other, also with several names: the file defines the
#   name. A file is a path from `src`,
#   `specs`, `proofs` or `must-fail` on, without an ending or with one, and is there. It is of the crate that stands
#   behind it (`FILE` of CRATE), or else of that with which the row or the bullet begins; in the README of a crate of
#   that crate; and elsewhere of the crate that was named last. CRATE/FILE has its crate;
# - `NAME` of CRATE, and `NAME` behind the crate in the first cell of a row: the crate defines the name;
# - `TYPE::NAME`: a crate defines both;
# - any other name with an underscore, or of several words with capitals, in the README of a crate and in the documents
#   on the code: it stands in the sources, is a file, a crate or one of the kit's, or is a function of Windows;
# - `CRATE` stands on `CRATE`, also with several, and CRATE -- CRATE in a picture: so says crates.txt;
# - a list of files with a witness (docs/ARCHITECTURE.md, 'Where to change what'; its form is in tests/witnesses.awk):
#   its files are those of `src`, `specs` and `proofs` in which the witness stands;
# - the table of docs/PROVED.md under 'What you have to believe': its files, and the kit's crates before it, are those
#   of which the contract of `tp_main` is made;
# - the tables of docs/PROVED.md that begin with `Clause`, `Field`, `Of IsPorted` and `Law`: their rows are the clauses of
#   `tp_main`, and the fields of `IsPlayed` with `IsRunOf`, of `IsPorted` and of `KeepsLaws`;
# - the table of docs/LIBRARY.md that begins with `Kind`: its methods are those of `src/win32.rt` of shared_pool;
# - the table of docs/ARCHITECTURE.md under 'Where its meaning stands': a row for each library.
# shellcheck shell=bash disable=SC2016

# Compares the program's answers to calls with those that stand beside them, from lines CALL TAB ANSWER.
plays() {
    local rows=$2
    input=$(cut -f 1 <<<"$rows")$'\n'
    try "$1" 0 "$(cut -f 2 <<<"$rows")"$'\n' '' "$program" trace
}

# The same with libraries.
plays_libraries() {
    local rows=$2
    input=$(cut -f 1 <<<"$rows")$'\n'
    try "$1" 0 "$(cut -f 2 <<<"$rows" | sed 's/; /\n/g')"$'\n' '' "$program" libraries
}

# The same with old calls.
plays_legacy() {
    local rows=$2
    input=$(cut -f 1 <<<"$rows")$'\n'
    try "$1" 0 "$(cut -f 2 <<<"$rows")"$'\n' '' "$program" legacy
}

# The same with sleeps.
plays_sleeps() {
    local rows=$2
    input=$(cut -f 1 <<<"$rows")$'\n'
    try "$1" 0 "$(cut -f 2 <<<"$rows" | sed 's/; /\n/g')"$'\n' '' "$program" windows
}

# The rows of each table of a page whose header begins so, cells 1 and 2 without their quotes, with a
# line `--` behind each table.
tables_of() {
    awk -v header="$2" '
        index($0, header) == 1 { inside = 1; getline; next }
        inside && /^\|/ {
            split($0, cells, "|")
            for (at = 2; at <= 3; at++) { gsub(/^ *`?|`? *$/, "", cells[at]) }
            print cells[2] "\t" cells[3]
            next
        }
        inside { print "--"; inside = 0 }
        END { if (inside) print "--" }' "$1"
}

# The text of each block of a page that is marked so, with a line `--` behind each.
blocks_of() {
    awk -v mark="\`\`\`$2" '
        $0 == mark { inside = 1; next }
        inside && /^```/ { print "--"; inside = 0 }
        inside { print }' "$1"
}

# Calls a function with a name and each part of a text that ends with a line `--`.
each_part() {
    local line part='' number=0
    while IFS= read -r line; do
        if [[ $line == -- ]]; then
            number=$((number + 1))
            "$1" "$2 $number" "${part%$'\n'}"
            part=
        else
            part+=$line$'\n'
        fi
    done
}

# Runs each command of a console block, and compares what it prints.
session() {
    local line command='' printed=''
    while IFS= read -r line; do
        if [[ $line == '$ '* ]]; then
            [[ -z $command ]] || typed "$1" "$command" "$printed"
            command=${line#\$ }
            printed=
        else
            printed+=$line$'\n'
        fi
    done <<<"$2"
    typed "$1" "$command" "$printed"
}

typed() {
    input=
    try "$1: $2" '~@([0-9]|10)' "$3" '' inside "$here" with_errors bash -c "$2"
}
with_errors() { "$@" 2>&1; }

is_legal() {
    input=$2$'\n'
    try "$1" 0 '~legal *' '' "$program" check
}

# Each row of a table of bad lines: the line, its beginning and ` ..`, or words for it.
bad_lines() {
    local line column
    while IFS=$'\t' read -r line column; do
        case $line in
        *' ..') input=${line% ..}$'\n' ;;
        'an empty line') input=$'\n' ;;
        *'` and no LF') input=${line%%\`*} ;;
        *) input=$line$'\n' ;;
        esac
        try "$1: $line" 2 '' "tpool: bad line 1 column $column"$'\n' "$program" trace
    done <<<"$2"
}

# The headings of a page, as links name them.
headings_of() {
    sed -n 's/^#\{1,\} //p' "$1" | tr '[:upper:]' '[:lower:]' | tr -cd 'a-z0-9_ \n-' | tr ' ' '-'
}

# Whether a link of a page leads somewhere.
leads_somewhere() {
    local to=$1/${2%%#*}
    [[ $2 != '#'* ]] || to=$3
    [[ -e $to ]] && { [[ $2 != *'#'* ]] || headings_of "$to" | awk -v wanted="${2#*#}" '$0 == wanted { found = 1 } END { exit !found }'; }
}

# The tables of a page are the examples that it names.
tables_are() {
    local page=$1 header=$2
    shift 2
    diff <(tables_of "$here/$page" "$header" | sed -n '/^--$/d;s/\t.*//p') <(cd "$here/examples" && cat "$@")
}
try 'the tables of the README are its examples' 0 '' '' tables_are README.md '| Call | Prints |' shutdown.trace pools.trace
try 'the tables of docs/MACHINE.md are its examples' 0 '' '' tables_are docs/MACHINE.md '| Call | Prints |' kind-work.trace kind-timer.trace kind-wait.trace kind-io.trace kind-pool.trace kind-group.trace kind-callback.trace kind-kernel.trace kind-actors.trace kind-environment.trace
try 'the table of libraries is its example' 0 '' '' tables_are docs/MACHINE.md '| Line | Comes to |' plugin.libraries
try 'the table of old calls is its example' 0 '' '' tables_are docs/MACHINE.md '| Old or new call | Prints |' watchdog.legacy
try 'the table of sleeps is its example' 0 '' '' tables_are docs/MACHINE.md '| Call or sleep | Prints |' wake-ups.windows
try 'the tables of docs/GUIDE.md are its examples' 0 '' '' tables_are docs/GUIDE.md '| Call | Prints |' guide-quiet.trace guide-disassociated.trace guide-late-submit.trace guide-half-mended.trace guide-mended.trace

# The script of the README is that of its example, without the comments.
script_is() { diff <(tables_of "$here/README.md" '| Script | In a Windows program |' | sed '/^--$/d;s/\t.*//') <(sed '/^#/d' "$here/examples/shutdown.script"); }
try 'the script of the README is its example' 0 '' '' script_is

names_kit() { awk -v kit="$(sed -n "s/^kit='\(.*\)'/\1/p" "$tpool")" 'index($0, kit) { found = 1 } END { exit !found }' "$here/README.md"; }
try 'the README names the kit of the script' 0 '' '' names_kit

# Whether each file that a path with braces stands for is there. It has letters and the like alone.
stands_there() {
    local paths
    [[ $1 =~ ^[a-zA-Z0-9_./{},-]+$ ]] && eval "paths=($1)" && inside "$here" ls -d "${paths[@]}"
}

for file in "$here"/README.md "$here/docs"/*.md "$here/windows/README.md" "$here/crates"/*/README.md; do
    page=${file#"$here"/}
    each_part plays "$page, table" < <(tables_of "$file" '| Call | Prints |')
    each_part plays_libraries "$page, libraries" < <(tables_of "$file" '| Line | Comes to |')
    each_part plays_legacy "$page, old calls" < <(tables_of "$file" '| Old or new call | Prints |')
    each_part plays_sleeps "$page, sleeps" < <(tables_of "$file" '| Call or sleep | Prints |')
    each_part bad_lines "$page, bad lines" < <(tables_of "$file" '| Line | Column |')
    each_part session "$page, console" < <(blocks_of "$file" console)
    each_part is_legal "$page, history" < <(blocks_of "$file" history)
    unmarked=$(awk '/^```/ { inside = !inside; if (inside && $0 !~ /^```(console|history|text|sh|c)$/) print NR }' "$file")
    try "$page: each block is marked" 0 '' '' test -z "$unmarked"
    while IFS= read -r link; do
        try "$page: the link $link" 0 '' '' leads_somewhere "$(dirname "$file")" "$link" "$file"
    done < <(awk '{ while (match($0, /\]\([^)]*\)/)) { print substr($0, RSTART + 2, RLENGTH - 3); $0 = substr($0, RSTART + RLENGTH) } }' "$file" | awk '!/^https?:/ && !seen[$0]++')
    while IFS= read -r path; do
        try "$page: the path $path" 0 '~*' '' stands_there "$path"
    done < <(awk '{ while (match($0, /`(crates|docs|examples|script|tests|windows)\/[^` ]*`/)) { print substr($0, RSTART + 1, RLENGTH - 2); $0 = substr($0, RSTART + RLENGTH) } }' "$file" | awk '!seen[$0]++')
done

# --- what the documents say of the sources

# The sources and definitions of all crates, or of those with one of these endings; not what a build left.
sources() {
    find crates -name out -prune -o -name must-fail -prune -o \( -name '*.rt' -o -name '*.antt' \) -print
}

# What is defined, by crate, file and name; the edits that must be refused as files without a name; and every word.
list_defined() {
    mapfile -t all < <(sources)
    awk -f tests/defined.awk "${all[@]}"
    find crates -path '*/must-fail/*.edit' | sed 's/^crates.//; s/\// /; s/\.edit$/ -/'
    grep -ohwE '[A-Za-z_][A-Za-z_0-9]*' "${all[@]}" | LC_ALL=C sort -u | sed 's/^/- - /'
}
inside "$here" list_defined >"$room/defined"

names_stand() { awk -f tests/named.awk "$room/defined" crates.txt README.md docs/*.md crates/*/README.md; }
try 'names in the documents are defined where these say' 0 '' '' inside "$here" names_stand

crates_stand() { awk -f tests/stands_on.awk crates.txt README.md docs/*.md crates/*/README.md; }
try 'crates stand on those that the documents say' 0 '' '' inside "$here" crates_stand

# The crates that no program stands on.
unused_crates() {
    (cd "$here/crates" && printf '%s\n' */src/main.rt) | awk -F '[:/]' '
        FNR == NR { wanted[$1]; next }
        /^[a-z]/ { crates[++count] = $1; below[$1] = $2 }
        END {
            do {
                grown = 0
                for (at = 1; at <= count; at++) {
                    if (!(crates[at] in wanted)) continue
                    libraries = split(below[crates[at]], library, " ")
                    for (one = 1; one <= libraries; one++) if (!(library[one] in wanted)) { wanted[library[one]]; grown = 1 }
                }
            } while (grown)
            for (at = 1; at <= count; at++) if (!(crates[at] in wanted)) print crates[at]
        }' - "$here/crates.txt"
}
# Besides, those that are for programs of one's own: the search, the orders of a script, and keys of worlds.
try 'a program stands on each crate but those of tests and that on runs and orders' 0 $'run_orders\nmachine_tests\npart_tests\n' '' unused_crates
crate_names() { sed -n 's/^\([a-z][a-z_0-9]*\):.*/\1/p' crates.txt; }

# The files of some crates in which a word of a pattern stands, but for worked examples.
files_with() {
    local pattern=$1 crate folder folders=()
    shift
    for crate; do
        for folder in src specs proofs; do
            [[ $crate == *_tests || ! -d crates/$crate/$folder ]] || folders+=("crates/$crate/$folder")
        done
    done
    grep -rlwE "$pattern" "${folders[@]}" --exclude='*Examples.antt' | LC_ALL=C sort
}

# What a list of files lacks, behind `>`, and what it has besides, behind `<`.
list_is() {
    local pattern=$1 scope=$2 files=$3
    [[ $scope != all ]] || scope=$(crate_names)
    # shellcheck disable=SC2086
    diff <(tr ' ' '\n' <<<"$files" | LC_ALL=C sort -u) <(files_with "$pattern" $scope)
}
lists=0
while IFS=$'\t' read -r title scope pattern files; do
    lists=$((lists + 1))
    try "the files of: $title" 0 '' '' inside "$here" list_is "$pattern" "$scope" "$files"
done < <(awk -f "$here/tests/witnesses.awk" "$here/docs/ARCHITECTURE.md")
bullets=$(grep -c '^- .*as `[^`]*`.*:$' "$here/docs/ARCHITECTURE.md")
try 'each list with a witness is looked at' 0 '' '' test "$lists" -eq "$bullets"

# The files of which the contract of `tp_main` is made, and the kit's crates.
believed() {
    mapfile -t all < <(sources)
    awk -v contract=crates/tp_run/src/top.rt -v of=tp_main \
        -v traits='crates/tp_edge/src/source.rt crates/tp_edge/src/sink.rt' -f tests/believed.awk "${all[@]}"
}
# Those that docs/PROVED.md lists.
told_to_believe() {
    local path paths
    while IFS= read -r path; do
        [[ $path =~ ^[a-zA-Z0-9_./{},]+$ ]] && eval "paths=($path)" && printf '%s\n' "${paths[@]}"
    done < <(sed -n '/^# What you have to believe/,$ s/^| \(`[^|]*`\) |.*/\1/p' docs/PROVED.md | grep -o '`[^`]*`' | tr -d '`')
    sed -n "s/.*Of the kit's crates they import \([^.]*\)\..*/\1/p" docs/PROVED.md | sed 's/,* and /, /; s/, /\n/g' | sed 's/^/kit: /'
}
is_all_to_believe() { diff <(told_to_believe | LC_ALL=C sort) <(believed | LC_ALL=C sort); }
try 'docs/PROVED.md lists what the contract of tp_main is made of' 0 '' '' inside "$here" is_all_to_believe

# The names in the first cells of a table of docs/PROVED.md that begins so.
first_cells() {
    awk -v header="| $1 |" 'index($0, header) == 1 { inside = 1; getline; next } !/^\|/ { inside = 0 }
        inside { split($0, cells, "|"); count = split(cells[2], names, "`"); for (at = 2; at <= count; at += 2) print names[at] }' docs/PROVED.md | LC_ALL=C sort
}
# The fields of a record in a file.
fields_of() {
    awk -v record="record $2 " '/^(pub )?record / { inside = index($0, record) } /^$/ { inside = 0 }
        inside && match($0, /^  pub [a-z_]+ :/) { print $2 }' "$1"
}
clauses_of_main() {
    script/clauses tp_run | awk '/^  [A-Za-z]/ { inside = /^  tp_main:/ } inside && $1 == "ensures" { print $2 }' | LC_ALL=C sort
}
has_clauses() { diff <(first_cells Clause) <(clauses_of_main); }
# Whether the table that begins so has the fields of these records of a file.
has_fields() {
    local header=$1 file=$2 record
    shift 2
    diff <(first_cells "$header") <(for record; do fields_of "$file" "$record"; done | LC_ALL=C sort)
}
try 'docs/PROVED.md has each clause of tp_main' 0 '' '' inside "$here" has_clauses
try 'docs/PROVED.md has what holds of a run' 0 '' '' inside "$here" has_fields Field crates/tp_run/specs/Played.antt IsPlayed IsRunOf
try 'docs/PROVED.md has what holds of devices' 0 '' '' inside "$here" has_fields 'Of `IsPorted`' crates/tp_run/specs/Ported.antt IsPorted
try 'docs/PROVED.md has each law' 0 '' '' inside "$here" has_fields Law crates/tp_model/specs/Laws.antt KeepsLaws

# The methods that docs/LIBRARY.md lists by kind, and those that are there.
has_methods() {
    diff <(sed -n '/^| Kind | Methods |/,/^$/p' docs/LIBRARY.md | grep -o '`[a-z_]*`' | tr -d '`' | LC_ALL=C sort) \
        <(sed -n 's/^ *pub fn \([a-z_]*\).*/\1/p' crates/shared_pool/src/win32.rt | LC_ALL=C sort)
}
try 'docs/LIBRARY.md has each method of a Win32 function' 0 '' '' inside "$here" has_methods

# The crates with a row in the table of meanings, and those that should have one: all that others can stand on.
has_meaning() {
    diff <(sed -n '/^## Where its meaning stands/,/^## The contract/ s/^| \([a-z_]*\) |.*/\1/p' docs/ARCHITECTURE.md | LC_ALL=C sort) \
        <(crate_names | grep -v '_tests$' | while IFS= read -r crate; do [[ ! -e crates/$crate/src/lib.rt ]] || echo "$crate"; done | LC_ALL=C sort)
}
try 'each library has a row that says where its meaning stands' 0 '' '' inside "$here" has_meaning

# --- the clauses of a crate, as script/clauses prints them

try 'script/clauses prints each public function with its clauses' 0 "$(text_of "$here/tests/clauses")"$'\n' '' "$here/script/clauses" callback_env
try 'script/clauses lists the crates' 0 "$(inside "$here" crate_names)"$'\n' '' "$here/script/clauses"
try 'script/clauses knows no such crate' 1 '' $'clauses: no crate none; without a crate they are listed\n' "$here/script/clauses" none
