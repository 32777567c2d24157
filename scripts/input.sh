#!/usr/bin/env bash
# Makes print_state's input of a readable case, and prints where it is: input.sh CASE [INPUT]; build/CASE.in if no INPUT
# is named. Status 2, with one line, where the case cannot be read or has a mistake; there is then no INPUT.
set -eu -o pipefail
root=$(dirname "$0")/..
case=${1:-}
if [ -z "$case" ]; then
    echo 'input.sh: CASE is missing: a readable case, as examples/interrupts.txt (docs/FORMATS.md)' >&2
    exit 2
fi
input=${2:-build/$(basename "${case%.txt}").in}
rm -f "$input"
mkdir -p "$(dirname "$input")"
if ! "$root/scripts/oracle.sh" make_input "$case" > "$input"; then
    rm -f "$input"
    exit 2
fi
echo "$input"
