# The script where the program is not proved and built: a copy of the checkout, and a kit that compiles and builds
# nothing.
# shellcheck shell=bash

copy=$room/checkout
fake_kit=$room/kit
mkdir -p "$copy/crates" "$fake_kit"/{bin,toolchain/bin,toolchain/lib} "$room/more_tools" "$room/kept_tmp"
cp -rp "$here/tpool" "$here/crates.txt" "$here/script" "$copy"
for crate in "$here/crates"/*/; do
    name=$(basename "$crate")
    mkdir "$copy/crates/$name"
    for part in src specs proofs; do
        [[ ! -d $crate/$part ]] || cp -rp "$crate/$part" "$copy/crates/$name"
    done
done
for tool in chmod ln; do
    ln -s "$(type -P "$tool")" "$room/more_tools/$tool"
done

# It tells what it was asked, and answers as rt does. What it tries is linked by the linker of the kit in which it stands.
# $fake says what is to go wrong, and $real is the program.
cat >"$fake_kit/bin/rt" <<'END_OF_RT'
#!/usr/bin/env bash
[[ $1 == version || $1 == doc ]] || echo "$PWD: $*" >>"$log"
use_time() { SECONDS=0; while ((SECONDS < $1)); do :; done; }
change() { echo '// Meanwhile.' >>"$copy/crates/tp_base/src/lib.rt"; }
case "$1 ${2-}:$fake" in
version*) sed -n "s/^kit='\(.*\)'/\1/p" "$copy/tpool" ;;
doc*:no-kit) echo "$copy/README.md" ;;
doc*) echo "$fake_kit/START-HERE.md" ;;
*:no-proof) printf '== tp_base\n== summary\ntp_base: ok\ntp_model: failed (1)\n1 of 2 crates ok\n'; exit 1 ;;
'all check:stuck') echo "== tp_base"; exec sleep 60 ;;
'all check:slow') use_time 4; echo "== tp_base" ;;
'all check:changing') change; echo "== tp_base" ;;
'all check:'*) for name in tp_base tp_model; do echo "== $name"; done ;;
'run --:'*) mkdir -p out && cp "$real" out/tp_top ;;
'try :broken') echo 'src/lib.rt:1:1: error[syntax]: a word too many' >&2; exit 1 ;;
'try :interrupted') exit 130 ;;
'try :'*)
    [[ $fake != changing ]] || change
    folder=$(mktemp -d) && cd "$folder" && "${0%/*}/../toolchain/bin/ld.lld" -m elf_x86_64 -o program input-0 &&
        { ./program <&0; status=$?; }
    rm -rf "$folder"
    exit "${status-2}"
    ;;
esac
END_OF_RT
cat >"$fake_kit/toolchain/bin/ld.lld" <<'END_OF_LINKER'
#!/usr/bin/env bash
[[ $*:$PWD == *' -o program '*:"$TMPDIR"/* ]] && cp "$real" program
END_OF_LINKER
# A program that stops at a check.
cat >"$room/stops" <<'END_OF_PROGRAM'
#!/usr/bin/env bash
printf 'AddressSanitizer:DEADLYSIGNAL\n==7==ERROR: AddressSanitizer: ILL on unknown address 0x5c692 (pc 0x5c692)\nframe 0x1\n' >&2
kill -ABRT $$
END_OF_PROGRAM
: >"$fake_kit/bin/rtlib.py"
chmod +x "$fake_kit/bin/rt" "$fake_kit/toolchain/bin/ld.lld" "$room/stops"
export real=$program log=$room/log copy fake_kit fake=
with_rt() { TMPDIR=$room/kept_tmp PATH=$fake_kit/bin:$room/more_tools:$tools "$@"; }
has_asked() { [[ $(<"$log") == "$1" ]]; }
kept_programs() { find "$copy/crates/tp_top" -name '*unproved*' | wc -l; }
input=$'c1 submit 1\n'

# --- Not proved yet: the sources run as they are, and what they were compiled to is kept
first=$'~tpool: nothing is proved on this machine yet, so the sources run as they are once they are compiled,*; ./tpool prove proves and builds them\n'
next=$'tpool: nothing is proved on this machine yet, so the sources run as they are; ./tpool prove proves and builds them\n'
: >"$log"
try 'the version while nothing is built' 0 '~*; the program is not proved and built'$'\n' '' without_rt "$copy/tpool" --version
try 'help while nothing is built' 0 '~tpool: *' '' without_rt "$copy/tpool"
try 'not proved, and no rt' 127 '' '~tpool: the command rt is missing: nothing is proved on this machine yet*' without_rt "$copy/tpool" trace
one_line() { with_rt "$@" 2>&1 >/dev/null | sed '2,$s/^/another line: /'; }
try 'what is said of it is one line' 0 "$first" '' one_line "$copy/tpool" trace
try 'rt is asked for the program once' 0 '' '' has_asked "$copy/crates/tp_top: try"
try 'from then on its program is kept' 0 $'refused no-such\n' "$next" with_rt "$copy/tpool" trace
try 'it needs no rt' 0 $'refused no-such\n' "$next" without_rt "$copy/tpool" trace
try 'by a pipe' 0 $'refused no-such\n' "$next" by_pipe with_rt "$copy/tpool" trace
try 'shown' 0 $'1  1  c1 submit 1  refused no-such (object 1)\n' "$next" with_rt "$copy/tpool" show
two_runs() { TMPDIR=$room without_rt "$copy/tpool" runs --workers 1 --threads "$1" "$here/examples/shutdown.script" 2 | head -n 1; }
try 'played twice' 0 $'2 runs on 1 thread: 1 different history, of 14 entries\n' "$next" two_runs 1
try 'played twice on threads' 0 '~2 runs on 4 threads: *' "$next" two_runs 4
try 'to a full device' 4 '' "$next"$'tpool: write fault\n' to /dev/full with_rt "$copy/tpool" trace
input=$'c1 submit 01\n'
try 'a bad line' 2 '' "$next"$'tpool: bad line 1 column 12\n1:12: a number has no leading zeros\n    c1 submit 01\n               ^\n' with_rt "$copy/tpool" trace
input=$'history 1 clients 1 workers 1 events 16\nc1 submit 1 -> queued 1 1\nend 1\n'
try 'a wrong answer' 7 $'not legal at 1: refused no-such\n' "~$next"$'2:16: c1 submit 1\n*the machine says: refused no-such (object 1)\n' with_rt "$copy/tpool" check
input=$'c1 submit 1\n'
try 'rt was not asked again' 0 '' '' has_asked "$copy/crates/tp_top: try"
try 'the version then' 0 '~*; the program is not proved and built'$'\n' '' without_rt "$copy/tpool" --version
left_behind() { find "$room/kept_tmp" -mindepth 1; }
try 'nothing is left elsewhere' 0 '' '' left_behind

touch "$copy/crates/tp_base/src/lib.rt"
try 'a date is no change' 0 $'refused no-such\n' "$next" without_rt "$copy/tpool" trace
echo '// A change.' >>"$copy/crates/tp_base/src/lib.rt"
touch -d 2020-01-01 "$copy/crates/tp_base/src/lib.rt"
try 'a source changed, and its date is an old one' 0 $'refused no-such\n' "$first" with_rt "$copy/tpool" trace
try 'its program is kept in place of the other' 0 $'1\n' '' kept_programs
try 'and is run' 0 $'refused no-such\n' "$next" without_rt "$copy/tpool" trace

drop_kept() { rm -rf "$copy/crates/tp_top/out"; }
drop_kept
two_at_once() { with_rt "$copy/tpool" trace "$1" 2>/dev/null & with_rt "$copy/tpool" trace "$1" 2>/dev/null && wait $!; }
try 'two first calls at once' 0 "$answers$answers" '' two_at_once "$trace"
try 'leave one program' 0 $'1\n' '' kept_programs
try 'that is whole' 0 $'refused no-such\n' "$next" without_rt "$copy/tpool" trace
drop_kept
: >"$copy/crates/tp_top/out"
: >"$log"
try 'nothing can be kept' 0 $'refused no-such\n' "$first" with_rt "$copy/tpool" trace
many_runs() { with_rt "$copy/tpool" runs --workers 1 --threads 1 "$here/examples/shutdown.script" 3 | head -n 1; }
try 'nothing can be kept, and many runs' 0 $'3 runs on 1 thread: 1 different history, of 14 entries\n' "$first" many_runs
try 'rt is asked once for all of them' 0 '' '' has_asked "$copy/crates/tp_top: try"$'\n'"$copy/crates/tp_top: try"
drop_kept
fake=changing
try 'the sources change meanwhile' 0 $'refused no-such\n' "$first" with_rt "$copy/tpool" trace
try 'so nothing is kept' 0 $'0\n' '' kept_programs
fake=broken
try 'the sources are not compiled' 126 '' "$first"$'src/lib.rt:1:1: error*\ntpool: no answer: the sources were not compiled\n' with_rt "$copy/tpool" trace
fake=interrupted
try 'the compiler is interrupted' 130 '' "$first" with_rt "$copy/tpool" trace
fake=no-kit
try 'a kit of another form' 126 '' "$first*"$'tpool: no answer: the sources were not compiled\n' with_rt "$copy/tpool" trace
try 'nothing is kept of these' 0 $'0\n' '' kept_programs
fake=
real=$room/stops
for command in trace show check run runs; do
    try "a check fails: $command" 126 '' $'~tpool: nothing is proved *tpool: no answer: a check has failed in the sources (AddressSanitizer: ILL). On the same input, rt try -- *in crates/tp_top says where\n' with_rt "$copy/tpool" "$command"
done
real=$program
drop_kept

# --- Proved and built
with_rt "$copy/tpool" trace <<<'c1 submit 1' >/dev/null 2>&1
try 'no rt to prove with' 127 '' $'tpool: the command rt is missing: the program is proved and built by it\n' without_rt "$copy/tpool" prove
fake=no-proof
try 'a proof fails' 126 '' $'~*\ntp_model: failed (1)\n*tpool: the program was not built\n' with_rt "$copy/tpool" prove
try 'what is unproved stays' 0 $'1\n' '' kept_programs
sed -i 's/^patience=.*/patience=2/; s/^beat=.*/beat=1/' "$copy/script/prove.sh"
fake=stuck
try 'a build that stands still' 126 '' $'~*tpool: 1 of *tpool: nothing has moved for *tpool: the program was not built\n' with_rt "$copy/tpool" prove
fake=slow
try 'a build that is slow' 0 '' $'~*tpool: 0 of *tpool: 1 of *tpool: proved and built\n' with_rt "$copy/tpool" prove
drop_kept
fake=changing
try 'a build of sources that change meanwhile' 126 '' $'~*tpool: building tp_top\ntpool: proved and built, but of sources that have changed meanwhile\n' with_rt "$copy/tpool" prove
try 'the version then' 0 '~*; the program is older than its sources'$'\n' '' without_rt "$copy/tpool" --version
drop_kept
fake=
with_rt "$copy/tpool" trace <<<'c1 submit 1' >/dev/null 2>&1
: >"$log"
try 'the first build' 0 '' '~tpool: proving [1-9]* crates, up to [1-9]* at once, in about * minute*tpool: 1 of * crates done, about * to go: *tpool: 2 of *tpool: proved and built'$'\n' with_rt "$copy/tpool" prove
is_asked() { [[ $(<"$log") == "$copy/crates/tp_top: all check --jobs "[1-9]*$'\n'"$copy/crates/tp_top: run -- trace" ]]; }
try 'what rt is asked for' 0 '' '' is_asked
try 'what is unproved is gone' 0 $'0\n' '' kept_programs
try 'from then on a call starts at once' 0 $'refused no-such\n' '' without_rt "$copy/tpool" trace
try 'the version then' 0 '~*; the program is proved and built'$'\n' '' without_rt "$copy/tpool" --version
try 'nothing is left to prove' 0 '' $'tpool: it is proved and built already\n' without_rt "$copy/tpool" prove
chmod -R a-w "$copy"
try 'a checkout that can only be read' 0 $'refused no-such\n' '' without_rt "$copy/tpool" trace
chmod -R u+w "$copy"

# --- Out of date, which sums tell, and of a program that rt built by itself dates
older=$'~tpool: the sources or the proofs have changed since they were proved, * ./tpool prove proves and builds them\n'
is_current() { try "$1" 0 '~*; the program is proved and built'$'\n' '' without_rt "$2/tpool" --version; }
is_older() { try "$1" 0 '~*; the program is older than its sources'$'\n' '' without_rt "$2/tpool" --version; }
echo '// A change.' >>"$copy/crates/shutdown_by_threads/src/main.rt"
is_current 'a crate that the program lacks changed' "$copy"
find "$copy/crates" -exec touch {} +
is_current 'all dates are new' "$copy"
find "$copy/crates" -exec touch -d 2020-01-01 {} +
is_current 'all dates are old' "$copy"
echo 'of_no_program: tp_base' >>"$copy/crates.txt"
is_current 'a crate that the program lacks came' "$copy"
make_change() {
    case $1 in
    */crates.txt) sed -i 's/^steps:.*/& slab/' "$1" ;;
    *) echo '# A change.' >>"$1" ;;
    esac
}
for part in crates/tp_base/specs/Lib.antt crates/steps/proofs/New.antt crates.txt; do
    mkdir -p "$(dirname "$copy/$part")" && touch "$copy/$part" && cp -p "$copy/$part" "$room/part"
    touch -d 2020-01-01 "$room/part"
    with_rt "$copy/tpool" prove 2>/dev/null
    make_change "$copy/$part"
    touch -d 2020-01-01 "$copy/$part"
    try "$part changed" 0 $'refused no-such\n' "$older" with_rt "$copy/tpool" trace
    is_older 'the version then' "$copy"
    rm -rf "$room/another" && cp -r "$copy" "$room/another"
    is_older 'so in a copy' "$room/another"
    cp -p "$room/part" "$copy/$part"
    is_current 'as it was before' "$copy"
    make_change "$copy/$part"
    try 'it is built again' 0 '' '~*proved and built'$'\n' with_rt "$copy/tpool" prove
    try 'and starts at once' 0 $'refused no-such\n' '' without_rt "$copy/tpool" trace
    rm -rf "$room/another" && cp -r "$copy" "$room/another"
    is_current 'so in a copy' "$room/another"
done
rm -r "$copy/crates/tp_base/specs"
is_older 'a folder is gone' "$copy"
cp -rp "$here/crates/tp_base/specs" "$copy/crates/tp_base"
# Another program than before, newer than all sources.
built_by_rt() { sleep 0.1; (cd "$copy/crates/tp_top" && with_rt rt run -- trace && printf '%s' "$1" >>out/tp_top); }
built_by_rt 1
is_current 'rt built the program by itself' "$copy"
built_by_rt 2
sleep 0.1
touch "$copy/crates/tp_base/src/lib.rt"
is_older 'rt built the program by itself, and a source is newer' "$copy"
