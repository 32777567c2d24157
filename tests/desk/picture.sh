#!/usr/bin/env bash
# The picture of the whole run on pages: picture.sh [PROGRAM], build/xm23 if none is named.
exec python3 -B "$(dirname "$0")/picture.py" "${1:-build/xm23}"
