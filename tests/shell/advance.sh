#!/usr/bin/env bash
# The open machine's advance, which only Rattle code can call: tests/advance/main.txt as a program of a scratch
# repository over this one's crates, run by 'rt try' on the interpreter and compiled, held to stdout.txt.
set -u
cd "$(dirname "$0")/../.."
. tests/shell/expect.sh

git init -q "$room"
tar --exclude='crates/*/out' -cf - crates | tar -C "$room" -xf -
mkdir -p "$room/crates/advance/src"
cp tests/advance/main.txt "$room/crates/advance/src/main.rt"
cp tests/advance/stdout.txt "$room/crates/advance/stdout"
{
    cat crates.txt
    echo 'advance: open_machine machine text check io libc'
} > "$room/crates.txt"

lines=$(wc -l < tests/advance/stdout.txt)
if (cd "$room/crates/advance" && rt try) > "$room/tried" 2>&1 && grep -q '^run=ended status=0 runners=2 ' "$room/tried" &&
    head -n "$lines" "$room/tried" | diff tests/advance/stdout.txt -; then
    passed=$(grep -c . tests/advance/stdout.txt)
else
    failed=1
fi
cat "$room/tried"
count
