#!/bin/sh
# The version of include/xm23.h: major.minor.patch.
awk '/^#define XM23_VERSION_(MAJOR|MINOR|PATCH) / { v = v dot $3; dot = "." } END { print v }' \
    "$(dirname "$0")/../include/xm23.h"
