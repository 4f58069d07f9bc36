# Puts the program and all that belongs to it below a folder, from where it wants neither the kit nor the sources.
# shellcheck shell=bash

# Installs below folder $1: bin/tpool, its parts in lib/tpool, and in share the documents, the examples, the page of man
# and the completion. What is there of that is replaced.
install_below() {
    [[ -z $installed ]] || fail 126 'this is installed already: the folder can be copied as it is'
    find_state
    [[ $state == current ]] || fail 126 'only what is proved and built can be installed: ./tpool prove'
    { mkdir -p -- "$1"/{bin,lib/tpool} && install_pages "$1/share" && install_parts "$1/lib/tpool" &&
        ln -sfn ../lib/tpool/tpool "$1/bin/tpool"; } 2>/dev/null || fail 4 "write fault: not all can be written below $1"
    say "installed below $1, $(du -sk -- "$1" | cut -f 1) KiB: $1/bin/tpool"
}

# What the script needs: itself, the program, its parts, the pages that it reads, and the commit.
install_parts() {
    local commit
    commit=$(git -C "$home" rev-parse --short HEAD 2>/dev/null) || commit=unknown
    mkdir -p -- "$1/script" && cp -f -- "$home/tpool" "$binary" "$1" && cp -f -- "$home/script"/* "$1/script" &&
        ln -sfn ../../share/doc/tpool/docs "$1/docs" && echo "$commit" >"$1/commit"
}

# What a user reads and tries.
install_pages() {
    mkdir -p -- "$1"/{doc/tpool,man/man1,bash-completion/completions} &&
        cp -rf -- "$home/README.md" "$home/docs" "$home/examples" "$home/windows" "$1/doc/tpool" &&
        mv -f -- "$1/doc/tpool/docs/tpool.1" "$1/man/man1" &&
        cp -f -- "$home/script/completion.bash" "$1/bash-completion/completions/tpool"
}
