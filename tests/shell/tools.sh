#!/usr/bin/env bash
# Mistakes of the person who types: one line, 'file:line: text' where a file has the mistake, status 2. And 'make line'.
set -u
cd "$(dirname "$0")/../.."
. tests/shell/expect.sh

# make's own last line names the target and the status.
stopped='.*make: \*\*\* .* Error 2'
make="make -s --no-print-directory"

expect 'make fuzz INPUTS=abc' 2 '' "make fuzz: INPUTS=abc is no number$stopped" $make fuzz INPUTS=abc
expect 'make fuzz SEED=x' 2 '' "make fuzz: SEED=x is no number$stopped" $make fuzz SEED=x
expect 'fuzz with no number' 2 '' '(compiling fuzz[^.]*)?fuzz: INPUTS=abc is no number' scripts/oracle.sh fuzz abc
expect 'fuzz.sh' 2 '' 'fuzz.sh: FUZZ_SECONDS=1m or SEED= is no number' scripts/fuzz.sh 1m
expect 'make replay' 2 '' "make replay: FOUND=.* is missing: .*$stopped" $make replay
expect 'make replay of nothing' 2 '' "fuzz: no/such: No such file .*$stopped" $make replay FOUND=no/such
expect 'make input' 2 '' "input.sh: CASE is missing: .*$stopped" $make input
expect 'make input of nothing' 2 '' ".*no/such.txt: No such file .*$stopped" $make input CASE=no/such.txt

# wrong LINE TEXT SOURCE: a case with a mistake in that line, and an older input beside it.
wrong() {
    printf '%b' "$3" > "$room/case.txt"
    touch "$room/case.in"
    expect "a case: $2" 2 '' "$room/case.txt:$1: $2" scripts/input.sh "$room/case.txt" "$room/case.in"
    same 'leaves no input' "$(ls "$room"/case.in 2> /dev/null)" ''
}
wrong 1 'the key n is missing' 'source:\n            ORG $1000\n            END\n'
wrong 3 'refused with 17: a line fits no statement, .*' 'n: 5\nsource:\n            HALT R0\n            END\n'
wrong 4 'refused with 17: a line fits no statement, .*' 'n: 5\nsource:\n            ORG $1000\n            ADD R1\n'
wrong 4 'refused with 17: .*, or END is missing' 'n: 5\nsource:\n            ORG $1000\n'
wrong 3 'refused with 18: a name is unknown, .*' 'n: 5\nsource:\n            BRA NOWHERE\n            END\n'
wrong 3 'refused with 19: a value leaves 32 bits, .*' 'n: 5\nsource:\n            BYTE #256\n            END\n'
wrong 2 "'many' is no number of steps" 'source: END\nn: many\n'
wrong 1 'speed is no key; the keys are .*' 'speed: 5\n'
wrong 1 "'nothing' has no key" 'nothing\n'
wrong 2 'R9 is no part of the start' 'n: 5\nstart: R9=1\nsource: END\n'
wrong 2 'R1=12345 does not fit' 'n: 5\nstart: R1=12345\nsource: END\n'
wrong 4 "'7 0' is no event: .*" 'n: 5\nsource: END\nevents:\n    7 0\n'
wrong 3 "'many' is no length of a log" 'n: 5\nsource: END\nlog: many\n'
wrong 3 "'2 1' is no reply: .*" 'n: 5\nsource: END\nreply: 2 1\n'
wrong 4 "'7 0' is no record of the log: .*" 'n: 5\nsource: END\nshown:\n    7 0\n'
wrong 3 "'deep' is no depth" 'n: 5\nsource: END\ndeepest: deep\n'
printf 'n: 5\nsource:\n            ORG $1000\n    HERE    BRA HERE\n            END\n' > "$room/case.txt"
expect 'the least case' 0 "$room/case.in" '' scripts/input.sh "$room/case.txt" "$room/case.in"
same 'runs' "$(target/bin/print_state < "$room/case.in")" \
    '0 5 0000 0000 0000 0000 0000 0000 0800 1000 0000 00 00000000 0'

# The line of the example, and its legend.
line=$(target/bin/print_state < examples/interrupts.in)
expect 'make line' 0 "$line.*reason .*R7 +1000 +PC.*PSW .*CEX .*lines .*none.*depth +2 .*" '' $make line

expect 'no kit' 2 '' 'prove.py: rt is not here: .*' env PATH="$room" \
    "$(python3 -c 'import sys; print(sys.executable)')" scripts/prove.py program print_state
expect 'no such crate' 2 '' 'prove.py: .*' scripts/prove.py program nothing
expect 'what follows a crate' 0 'alu: about [0-9]+ s .*[0-9]+ crates follow, about .*machine .*xm23.*' '' scripts/prove.py above alu
expect 'what nothing follows' 0 'xm23: about .*no crate stands on it' '' scripts/prove.py above xm23
expect 'what follows no crate' 2 '' 'prove.py: no crate nothing' scripts/prove.py above nothing
count
