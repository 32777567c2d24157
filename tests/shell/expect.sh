# Read by the tests of this folder: commands as a person types them, held to their status, output and errors.
# Each script ends with 'count', which prints 'N passed, M failed'.

# Of a make that runs these tests nothing is handed on.
unset MAKEFLAGS MFLAGS MAKELEVEL
passed=0
failed=0
room=$(mktemp -d)
trap 'rm -rf "$room"' EXIT

# same WHAT GOT EXPECTED
same() {
    if [ "$2" = "$3" ]; then
        passed=$((passed + 1))
    else
        failed=$((failed + 1))
        printf '%s\n  got:      %s\n  expected: %s\n' "$1" "$2" "$3"
    fi
}

# like WHAT GOT PATTERN: the whole text, by an extended regular expression.
like() {
    if [[ $2 =~ ^($3)$ ]]; then
        same "$1" yes yes
    else
        same "$1" "$2" "like $3"
    fi
}

# expect WHAT STATUS OUT ERR COMMAND..: the status, and what is printed on both outputs, as patterns.
expect() {
    local what=$1 status=$2 out=$3 err=$4 got=0
    shift 4
    "$@" > "$room/out" 2> "$room/err" || got=$?
    same "$what: status" "$got" "$status"
    like "$what: output" "$(cat "$room/out")" "$out"
    like "$what: errors" "$(cat "$room/err")" "$err"
}

# usage SUBCOMMAND [WRONG]: the pattern of what xm23 tells of bad usage: what is wrong, and how it is used.
usage() {
    local line=$'[^\n]+'
    printf 'xm23: %s: %s\nusage: xm23 %s %s' "$1" "${2:-$line}" "$1" "$line"
}

# noise COUNT: random bytes, the same in every run.
noise() {
    python3 -c 'import random, sys; sys.stdout.buffer.write(random.Random(23).randbytes(int(sys.argv[1])))' "$1"
}

# cells FOLDER COLUMN..: of each row of a marking's results.csv, a bar between two.
cells() {
    python3 - "$@" << 'END'
import csv, sys
with open(sys.argv[1] + "/results.csv", newline="") as file:
    for row in csv.DictReader(file):
        print("|".join(row[name] for name in sys.argv[2:]))
END
}

count() {
    echo "$passed passed, $failed failed"
    [ "$failed" -eq 0 ]
}
