#!/usr/bin/env bash
# examples/back.c as an examiner uses it: from a byte to the step that wrote it; and mistakes.
set -u
cd "$(dirname "$0")/../.."
. tests/shell/expect.sh
mkdir -p build
gcc -std=c99 -pedantic -O2 -Wall -Wextra -Werror -Iinclude -o build/back \
    examples/back.c target/staticlib/libxm23.a || exit 1
back=build/back
copy=examples/copy_words.s19

# found WHAT PROGRAM STEPS ADDRESS BYTE STEP
found() {
    expect "$1" 0 "#$4 is #$5 after $3 steps"$'\n'"$6" '' "$back" "$2" "$3" "$4"
}
found 'a store of a byte' "$copy" 60 0133 80 'step 51, PC #102A: #FFE3 STR\.B, #00 became #80'
found 'a store of a word, of the value that was there' "$copy" 60 0120 00 'step 6, PC #100C: #5C8B ST, #00 became #00'
found 'its high byte' "$copy" 60 0121 00 'step 6, PC #100C: #5C8B ST, #00 became #00'
found 'the last of ten' "$copy" 60 0132 00 'step 42, PC #100C: #5C8B ST, #00 became #00'
found 'a push by ST' "$copy" 60 FFFE 14 'step 46, PC #1020: #5F2E ST, #00 became #14'
found 'a frame' "$copy" 60 FFF8 04 'step 53, PC #102E: #4D83 SETPRI, entry pushed a frame, #00 became #04'
expect 'no step wrote it' 1 '#0140 is #00 after 60 steps.none of the last 60 steps wrote it' '' "$back" "$copy" 60 0140
expect 'a byte of the program' 1 '#1000 is #02 after 60 steps.none of the last 60 steps wrote it' '' \
    "$back" "$copy" 60 1000
expect 'not yet' 1 '.*none of the last 6 steps wrote it' '' "$back" "$copy" 6 0120
expect 'no step at all' 1 '.*none of the last 0 steps wrote it' '' "$back" "$copy" 0 0120

# A loop that stores in every byte from #0200 on: the newest 1,024 steps are kept, however long the run is.
printf ' ORG $1000\nLOOP ST.B R1,R2+\n ADD #1,R1\n BRA LOOP\n END\n' | build/xm23 asm /dev/stdin > "$room/loop.s19"
found 'the newest write of many' "$room/loop.s19" 3000 03E7 E7 'step 2997, PC #1000: #5CCA ST\.B, #00 became #E7'
expect 'long ago' 1 '.*none of the last 1024 steps wrote it' '' "$back" "$room/loop.s19" 3000 0100
# A device byte: the store that changed it; a screen stops no run.
printf ' ORG $0002\n BYTE $10\n ORG $1000\n MOVLZ $48,R1\n STR.B R1,R0,#3\nHERE BRA HERE\n END\n' |
    build/xm23 asm -s '$1000' /dev/stdin > "$room/screen.s19"
found 'a device byte' "$room/screen.s19" 50 0003 48 'step 1, PC #1002: #C1C8 STR\.B, #00 became #48'

expect 'no word' 2 '' 'usage: back PROGRAM STEPS ADDRESS' "$back"
expect 'no number of steps' 2 '' 'usage: .*' "$back" "$copy" many 0120
expect 'too many steps' 2 '' 'usage: .*' "$back" "$copy" 1000001 0120
expect 'no address' 2 '' 'usage: .*' "$back" "$copy" 60 10000
expect 'no file' 2 '' 'no/program: No such file.*' "$back" no/program 60 0120
expect 'no S-records' 1 '' '/dev/null: R10: a line is no S0.*' "$back" /dev/null 60 0120
count
