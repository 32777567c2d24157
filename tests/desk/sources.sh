#!/usr/bin/env bash
# Sources that are long, or made to be slow: sources.sh [PROGRAM], build/xm23 if none is named. Each ends in time, within
# so much memory, with the bytes and places that the library tells.
set -u
cd "$(dirname "$0")/../.."
. tests/shell/expect.sh
xm23=$(realpath "${1:-build/xm23}")
paper=examples/sitting/sum.paper
# A program that is named has a compiler's checks in it, and takes its time.
checked=${1:-}
seconds=$([ "$checked" ] && echo 60 || echo 10)

# repeated COUNT LINE..: the lines, so many times.
repeated() {
    local many=$1
    shift
    yes "$(printf '%s\n' "$@")" | head -n $((many * $#))
}

# ---- places that no word holds: ten thousand ORGs of a name
{ echo 'A EQU $10000'; repeated 10000 'ORG A'; echo 'END'; } > "$room/orgs.asm"
expect 'a page of ten thousand ORGs' 1 '' '.*another line was expected.*' \
    timeout $seconds "$xm23" report -o "$room/orgs.html" "$paper" "$room/orgs.asm"
expect 'a marking of them' 1 '.*' '.*' timeout $seconds "$xm23" mark -j 1 -o "$room/marked" "$paper" "$room/orgs.asm"
expect 'their listing' 0 '.*' '' timeout $seconds "$xm23" asm -l "$room/orgs.asm"
same 'a row for each line, and the start' "$(wc -l < "$room/out")" 10003
same 'the last row' "$(tail -2 "$room/out" | head -1)" '           10002.  END'
expect 'their bytes, none' 0 'S9030000FC' '' timeout $seconds "$xm23" asm "$room/orgs.asm"
expect 'a value among them' 0 'S90300[0-9A-F]*' '' timeout $seconds "$xm23" asm -s '(A/#2/#256)' "$room/orgs.asm"

# ---- a line on the bytes of another, ever again
{ repeated 100000 ' ORG #0' 'N WORD #7' | awk '/N/ { sub(/N/, NR <= 1024 ? "N" NR : "") } { print }'; echo ' END'; } \
    > "$room/over.asm"
expect 'a hundred thousand lines on one word' 0 '.*' '' timeout $seconds "$xm23" asm -l "$room/over.asm"
same 'bytes of the last seventeen' "$(grep -c '^0000  0007' "$room/out")" 17
same 'dots for the others' "$(grep -c '^0000  \.\.  ' "$room/out")" 99983
expect 'a page of them' 1 '' '.*' timeout $seconds "$xm23" report -o "$room/over.html" "$paper" "$room/over.asm"

# ---- each of three layers with its own bytes, names below and above, END with a name
cat > "$room/layers.asm" << 'END'
        ORG $0100
A       WORD LAST
        WORD (B+#1)
        ORG $0101
B       BYTE $AA
        BYTE $BB
        ORG $0100
        BRA A
C       MOVL D,R0
D       EQU #-3
LAST    END
END
"$xm23" asm -l "$room/layers.asm" > "$room/layers.lst"
same 'three layers' "$(grep -o '^[0-9A-F]\{4\}  [0-9A-F]*' "$room/layers.lst" | tr -s ' \n' ' ')" \
    '0100 0104 0102 0102 0101 AA 0102 BB 0100 3FFF 0102 67E8 '
for value in LAST=0104 A=0100 B=0101 C=0102 D=FFFD '(LAST-D)=0107'; do
    same "value of $value" "$("$xm23" asm -s "${value%=*}" "$room/layers.asm" | tail -1 | cut -c5-8)" "${value#*=}"
done
same 'the first instruction' "$("$xm23" asm "$room/layers.asm" | tail -1 | cut -c5-8)" 0100

# ---- 16 MiB of lines: the records are 8 bytes for each of them, and nothing else grows
{ head -c $(((16 << 20) - 5)) /dev/zero | tr '\0' '\n'; echo ' END'; } > "$room/lines.asm"
# The checks take all of the address space.
limited() { ({ [ "$checked" ] || ulimit -v 400000; } && exec timeout 60 "$@"); }
expect 'a page of 16 MiB of lines' 1 '' '.*another line was expected.*' \
    limited "$xm23" report -o "$room/lines.html" "$paper" "$room/lines.asm"
expect 'a run of them' 1 '0 120 .*' '.*another line was expected.*' limited "$xm23" run "$paper" "$room/lines.asm"
count
