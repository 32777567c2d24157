#!/usr/bin/env bash
# The two fast engines of 'make bench', libxm23.a and libxm23_fast.a, once more in two code layouts each, since a time
# depends on where the linker lays the code: layouts.sh. Layout a starts at a page of 4,096 bytes, layout b 2,096 bytes
# after the start of one, so every function lies elsewhere modulo 32, 64 and 4,096, whatever program it is linked into.
# xm23_run is xm23_run_a and xm23_run_b there, and so with every exported name; nothing is compiled again. The archives
# are in XM23_LIBS and XM23_FAST, or target/staticlib and build; layouts/libxm23_layouts.a of the latter is written.
set -eu -o pipefail
root=$(dirname "$0")/..
libs=${XM23_LIBS:-$root/target/staticlib}
fast=${XM23_FAST:-$root/build}
out=$fast/layouts
further=2096
mkdir -p "$out"
rm -f "$out"/*

# The bench does without, and says so.
for tool in ar ld nm objcopy; do
    if ! command -v "$tool" > /dev/null; then
        echo "a second code layout: left out, $tool is not here (Debian: binutils)"
        exit 0
    fi
done

# lay ARCHIVE LAYOUT BYTES: an object of all the archive's code, so many bytes after the start of a page.
lay() {
    local archive=$1 layout=$2 object
    object=$out/$(basename "$archive" .a)_$layout.o
    echo "SECTIONS { .text : ALIGN(4096) { . += $3; *(.text .text.*) } }" > "$out/script"
    ld -r -T "$out/script" -o "$object" --whole-archive "$archive"
    nm -g --defined-only "$object" | awk -v layout="$layout" '{ print $3, $3 "_" layout }' > "$out/names"
    objcopy --redefine-syms="$out/names" "$object"
}

# places OBJECT BYTES: where the object's functions are, so many bytes less.
places() {
    nm "$1" | while read -r at kind name; do
        case $kind in t | T) echo "$((16#$at - $2)) ${name%_[ab]}" ;; esac
    done | sort
}

for archive in "$libs/libxm23.a" "$fast/libxm23_fast.a"; do
    name=$out/$(basename "$archive" .a)
    lay "$archive" a 0
    lay "$archive" b "$further"
    # A function that must lie at more than a multiple of 16 would have moved by another number.
    if ! cmp -s <(places "${name}_a.o" 0) <(places "${name}_b.o" "$further"); then
        echo "layouts.sh: not every function of $archive moves by $further bytes" >&2
        exit 1
    fi
done
ar rcs "$out/libxm23_layouts.a" "$out"/*.o
