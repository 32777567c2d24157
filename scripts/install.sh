#!/usr/bin/env bash
# install.sh install|install-lib|uninstall PREFIX DESTDIR: the header, both libraries, xm23.pc, the Python module and the
# manual of the calls, below DESTDIR/PREFIX; 'install' puts the programs there too: print_state, and xm23 with its
# completion, and their pages. What is installed reads nothing of this folder. Uninstalling removes the same files, of
# any version, and of the folders those that installing made, where nothing else is in them: share/xm23/folders has them.
set -eu -o pipefail
if [ $# -ne 3 ] || [[ $1 != install && $1 != install-lib && $1 != uninstall || $2 != /* ]]; then
    echo "install.sh: PREFIX '${2:-}' is not an absolute path" >&2
    exit 2
fi
verb=$1 prefix=${2%/} to=$3${2%/}
cd "$(dirname "$0")/.."
version=$(scripts/version.sh)
major=${version%%.*}
calls=$(sed -n 's/^\(static inline \)\{0,1\}[a-z].*[ *]\(xm23_[a-z_]*\)(.*/\2/p' include/xm23.h | sort -u)

put() { # MODE FILE PLACE
    install -D -m "$1" "$2" "$to/$3"
}

# The pages of the single calls lead to xm23.3.
pages() {
    local call
    for call in $calls; do
        echo "share/man/man3/$call.3"
    done
}

library="include/xm23.h lib/libxm23.a lib/libxm23.so.$version lib/libxm23.so.$major lib/libxm23.so
    lib/pkgconfig/xm23.pc lib/python3/dist-packages/xm23.py share/man/man3/xm23.3 $(pages)"
folders=share/xm23/folders
programs="bin/print_state bin/xm23 share/man/man1/print_state.1 share/man/man1/xm23.1 share/man/man5/xm23.5
    share/bash-completion/completions/xm23"

# missing FILE..: the folders of these files that are not there, the prefix being a dot.
missing() {
    local file
    for file in "$@"; do
        while [ "$file" != . ]; do
            file=$(dirname "$file")
            [ -d "$to/$file" ] || echo "$file"
        done
    done
}

# keep_folders FOLDER..: adds these to those that were made before.
keep_folders() {
    mkdir -p build
    { printf '%s\n' "$@"; cat "$to/$folders" 2> /dev/null || true; } | sed '/^$/d' | sort -u > build/folders
    put 644 build/folders "$folders"
}

# Deepest first, each where it is empty.
remove_folders() {
    local made folder
    made=$(LC_ALL=C sort -r "$to/$folders" 2> /dev/null) || return 0
    rm -f "$to/$folders"
    for folder in $made; do
        folder=$to/$folder
        rmdir "${folder%/.}" 2> /dev/null || true
    done
}

install_library() {
    local page pc
    put 644 include/xm23.h include/xm23.h
    put 644 target/staticlib/libxm23.a lib/libxm23.a
    put 755 "build/libxm23.so.$version" "lib/libxm23.so.$version"
    ln -sf "libxm23.so.$version" "$to/lib/libxm23.so.$major"
    ln -sf "libxm23.so.$major" "$to/lib/libxm23.so"
    pc=$(< xm23.pc.in)
    pc=${pc//@PREFIX@/"$prefix"}
    printf '%s\n' "${pc//@VERSION@/"$version"}" > build/xm23.pc
    put 644 build/xm23.pc lib/pkgconfig/xm23.pc
    put 644 python/xm23.py lib/python3/dist-packages/xm23.py
    put 644 man/xm23.3 share/man/man3/xm23.3
    echo '.so man3/xm23.3' > build/xm23_call.3
    for page in $(pages); do
        put 644 build/xm23_call.3 "$page"
    done
}

install_programs() {
    put 755 target/bin/print_state bin/print_state
    put 755 build/xm23 bin/xm23
    put 644 man/print_state.1 share/man/man1/print_state.1
    put 644 man/xm23.1 share/man/man1/xm23.1
    put 644 man/xm23.5 share/man/man5/xm23.5
    put 644 desk/completion.bash share/bash-completion/completions/xm23
}

tell() { # FILE..
    local file
    for file in "$@"; do
        echo "$to/$file"
    done
}

case $verb in
    install-lib)
        made=$(missing $library "$folders")
        install_library
        keep_folders $made
        tell $library "$folders"
        ;;
    install)
        made=$(missing $programs $library "$folders")
        install_library
        install_programs
        keep_folders $made
        tell $programs $library "$folders"
        ;;
    uninstall)
        for file in $library $programs; do
            rm -f "$to/$file"
        done
        rm -f "$to"/lib/libxm23.so.[0-9]*
        remove_folders
        ;;
esac
