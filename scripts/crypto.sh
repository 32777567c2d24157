#!/usr/bin/env bash
# The compiler's words for libcrypto, of which the desk program takes SHA-256; where it is not here, the line to type.
set -eu -o pipefail
if ! pkg-config --cflags --libs libcrypto 2> /dev/null; then
    echo "libcrypto's headers are not here; on Debian: apt-get install libssl-dev pkg-config" >&2
    exit 2
fi
