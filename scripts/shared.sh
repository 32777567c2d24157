#!/usr/bin/env bash
# Makes the shared library of the archive: shared.sh ARCHIVE LIBRARY.MAJOR.MINOR.PATCH. Its name for the loader ends in
# MAJOR. It takes in the whole archive and nothing else. It is refused where it exports anything but xm23_ calls,
# or needs anything but C's memset and memcpy, by which buffers of its own begin as zeros or as a copy.
set -eu -o pipefail
archive=$1 library=$2
mkdir -p "$(dirname "$library")"
name=$(basename "${library%.*.*}")
gcc -shared -nostdlib -o "$library.new" -Wl,-soname,"$name" -Wl,-z,defs -Wl,-z,text \
    -Wl,--whole-archive "$archive" -Wl,--no-whole-archive -lc
needs=$(nm -D --undefined-only "$library.new" | awk '$2 !~ /^mem(set|cpy)(@|$)/ { print $2 }')
exports=$(nm -D --defined-only "$library.new" | awk '{ print $3 }')
others=$(printf '%s\n' "$exports" | grep -v '^xm23_' || true)
if [ -n "$needs" ]; then
    rm -f "$library.new"
    echo "shared.sh: $library would need $needs" >&2
    exit 1
fi
if [ -z "$exports" ] || [ -n "$others" ]; then
    rm -f "$library.new"
    echo "shared.sh: $library would export ${others:-nothing}" >&2
    exit 1
fi
mv "$library.new" "$library"
