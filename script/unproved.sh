# The sources where the program isn't built of them: how they are compiled without a proof, and run as they are.
# shellcheck shell=bash

# Gets ready to run the sources as they are. What they are compiled to is kept beside the program until they change
# or are proved. Says that nothing is proved, and by which command it would be.
prepare_sources() {
    local why='nothing is proved on this machine yet' first=
    if [[ $state == missing ]]; then
        read_crates
        sources=$(sum_sources)
    else
        why='the sources or the proofs have changed since they were proved'
    fi
    unproved=$binary.unproved-$sources
    if [[ ! -x $unproved ]]; then
        command -v rt >/dev/null || fail 127 "the command rt is missing: $why, and by it the sources are run, proved and built"
        first=' once they are compiled, in a minute or two'
    fi
    say "$why, so the sources run as they are$first; ./tpool prove proves and builds them"
    [[ -x $unproved ]] || compile_sources
}

# Compiles the sources, with checks and no proof, by what rt offers to run them for once.
compile_sources() {
    local page
    make_room
    page=$(rt doc)
    link_kit "${page%/*}" "$room/kit" "$room/unproved" 2>"$room/build.log" &&
        (cd "$home/crates/$program" && exec "$room/kit/bin/rt" try) </dev/null >"$room/build.log" 2>&1
    # rt ends so when it was interrupted.
    (($? != 130)) || exit 130
    if [[ ! -x $room/unproved ]]; then
        head -n 20 "$room/build.log" >&2
        fail 126 'no answer: the sources were not compiled'
    fi
    keep_unproved
}

# Makes a kit of links to another one, whose linker leaves a copy of what it links in a file. The command rt is copied,
# since its kit is where it stands itself.
link_kit() {
    local kit=$1 own=$2 it
    mkdir -p "$own"/{bin,toolchain/bin}
    cp "$kit"/bin/{rt,rtlib.py} "$own/bin" || return
    cat >"$own/toolchain/bin/ld.lld" <<END_OF_LINKER
#!$BASH
$(printf '%q' "$kit/toolchain/bin/ld.lld") "\$@" || exit
while ((\$# > 1)) && [[ \$1 != -o ]]; do shift; done
$(type -P cp) "\$2" $(printf '%q' "$3")
END_OF_LINKER
    chmod +x "$own/toolchain/bin/ld.lld"
    for it in "$kit"/* "$kit"/{bin,toolchain,toolchain/bin}/*; do
        [[ -e $own/${it#"$kit/"} ]] || ln -s "$it" "$own/${it#"$kit/"}"
    done
}

# Keeps what the sources were compiled to in place of what others were, where that can be written and they have not
# changed meanwhile. Else it serves this call alone.
keep_unproved() {
    local new=$unproved.$$
    if [[ $(sum_sources) == "$sources" ]] &&
        { mkdir -p "${binary%/*}" && cp "$room/unproved" "$new" && mv -f "$new" "$unproved"; } 2>/dev/null; then
        drop_unproved "$unproved"
    else
        rm -f "$new" 2>/dev/null
        unproved=$room/unproved
    fi
}

# Runs the sources with the program's words. They stop at a check that fails, which is no answer.
run_sources() {
    local said status why
    {
        said=$(ASAN_OPTIONS='' exec "$unproved" "$@" 2>&1 >&3 3>&-)
        status=$?
    } 3>&1
    if ((status == 134)); then
        why=$(sed -n '/^==[0-9]*==ERROR: /{ s///; s/ on [a-z ]*address .*//; p; q; }' <<<"$said")
        fail 126 "no answer: a check has failed in the sources (${why:-they were stopped}). On the same input, rt try -- $* in crates/$program says where"
    fi
    [[ -z $said ]] || printf '%s\n' "$said" >&2
    return "$status"
}
