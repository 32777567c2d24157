#!/usr/bin/env bash
# Runs a program of the oracle: oracle.sh NAME WORD.., with its status. It is compiled first where it has changed.
set -eu -o pipefail
root=$(dirname "$0")/..
name=$1
shift
program=$root/oracle/target/release/examples/$name
[ -x "$program" ] || echo "compiling $name, half a minute the first time" >&2
cargo build --quiet --offline --locked --release --manifest-path "$root/oracle/Cargo.toml" \
    --target-dir "$root/oracle/target" --example "$name"
exec "$program" "$@"
