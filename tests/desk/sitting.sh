#!/usr/bin/env bash
# The commands of docs/SITTING.md: sitting.sh [PROGRAM], build/xm23 if none is named.
exec python3 -B "$(dirname "$0")/sitting.py" "${1:-build/xm23}"
