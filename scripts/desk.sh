#!/usr/bin/env bash
# desk.sh PROGRAM [FLAG..]: compiles desk/ over target/staticlib/libxm23.a, by gcc or by what CC names, with more flags
# where they are given; SHA-256 is libcrypto's. What pages carry, desk/*.css, desk/*.html and desk/*.js, becomes
# PROGRAM.assets.c.
set -eu -o pipefail
program=$1
shift
cd "$(dirname "$0")/.."
crypto=$(scripts/crypto.sh)
mkdir -p "$(dirname "$program")"

# Each file as an array of its name, a 0 behind it.
for file in desk/*.css desk/*.html desk/*.js; do
    echo "extern const char $(basename "$file" | tr . _)[];"
    echo "const char $(basename "$file" | tr . _)[] = {"
    od -An -v -tx1 "$file" | sed 's/ \(..\)/0x\1,/g'
    echo '0};'
done > "$program.assets.c"
# What strangers hand in goes through it: canaries on the stack, checked calls of the C library, an image that lies
# anywhere, tables that nothing writes to once they are bound.
hardened='-fstack-protector-strong -U_FORTIFY_SOURCE -D_FORTIFY_SOURCE=2 -fPIE -pie -Wl,-z,relro,-z,now'
# shellcheck disable=SC2086
${CC:-gcc} -std=c99 -pedantic -D_XOPEN_SOURCE=700 -O2 -Wall -Wextra -Werror -Iinclude $hardened "$@" -o "$program" \
    desk/*.c "$program.assets.c" target/staticlib/libxm23.a $crypto
