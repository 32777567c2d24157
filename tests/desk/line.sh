#!/usr/bin/env bash
# xm23 line, the legend of a printed line, on every kind of line: line.sh [PROGRAM], build/xm23 if none is named.
set -u
cd "$(dirname "$0")/../.."
. tests/shell/expect.sh
xm23=${1:-build/xm23}

tell() { # LINE: from standard input
    printf '%s\n' "$1" | "$xm23" line
}
says() { # WHAT LINE NAME FIELD TEXT: the row of a field
    same "$1: $3" "$(tell "$2" | sed -n "s/^  $3  *\([^ ]*\) */$3 \1 /p")" "$3 $4${5:+ $5}"
}

run='1 5 0001 0002 0003 0004 0005 FFFF 07F8 1000 E10C 4B F0000021 333334'
rest='0 0 0000 0000 0000 0000 0000 0000 0800 1000 0000 00 00000000 0'

# ---- every field of a line
for line in "$run" "$rest"; do
    expect 'a line, and its legend below an empty line' 0 "$line"$'\n\n  reason  .*' '' tell "$line"
    same 'a row for each field' "$(tell "$line" | tail -n +3 | awk '{print $1, $2}' | tr '\n' ' ')" \
        "$(paste -d ' ' <(printf '%s\n' reason steps R{0..7} PSW CEX lines depth) <(printf '%s\n' $line) | tr '\n' ' ')"
    same 'the words of a command are a line too' "$("$xm23" line $line)" "$(tell "$line")"
    same 'one word with blanks' "$("$xm23" line "$line")" "$(tell "$line")"
    same 'in small letters' "$(tell "${line,,}")" "$(tell "$line")"
    same 'ended by CR LF' "$(tell "$line"$'\r')" "$(tell "$line")"
    same 'without an end' "$(printf '%s' "$line" | "$xm23" line)" "$(tell "$line")"
    same 'the first of several' "$(tell "$line"$'\nhello')" "$(tell "$line")"
done
says halted "$run" reason 1 'halted'
says done "$rest" reason 0 'all steps are done'
says halted "$run" steps 5 'done'
says halted "$run" R5 FFFF 'LR'
says halted "$run" R6 07F8 'SP'
says halted "$run" R7 1000 'PC'
says halted "$run" PSW E10C 'priority 0, previous 7, flags: SLP N FLT'
says done "$rest" PSW 0000 'priority 0, previous 0, flags: none'
says 'every flag' "${rest/ 0000 00 / E1FF 00 }" PSW E1FF 'priority 7, previous 7, flags: V SLP N Z C FLT'
says halted "$run" CEX 4B 'true count 1, false count 3, condition held'
says 'not held' "${run/4B/0B}" CEX 0B 'true count 1, false count 3, condition not held'
says done "$rest" CEX 00 'clear'
says halted "$run" lines F0000021 'events waiting: 1 of device 0, 2 of device 1, 15 of device 7'
says done "$rest" lines 00000000 'events waiting: none'
says halted "$run" depth 333334 'frames open together at most'
for bit in 0:C 1:Z 2:N 3:SLP 4:V 8:FLT; do
    psw=$(printf '%04X' $((1 << ${bit%:*})))
    says 'one flag' "${rest/ 0000 00 / $psw 00 }" PSW "$psw" "priority 0, previous 0, flags: ${bit#*:}"
done

# ---- refusals
for n in $(sed -n 's/^#define XM23_REFUSED_[A-Z_]* \([0-9]*\)$/\1/p' include/xm23.h); do
    expect "R$n" 0 "R$n"$'\n\n'"  refusal +$n +.*" '' tell "R$n"
    same "R$n: its sentence" "$(tell "R$n" | sed -n 's/^  refusal *[0-9]* *//p')" \
        "$(python3 -B -c "import sys; sys.path.insert(0, 'scripts'); import refusals; print(refusals.sentence($n))")"
done

# ---- what is no line
wrong() { # WHAT LINE TEXT
    expect "$1" 1 '' "standard input:1: $3" tell "$2"
}
wrong 'nothing' '' 'the line ends before reason: it has 14 fields, or is R and a number'
wrong 'other words' 'hello world' "'hello' is no reason: 0 to 1"
wrong 'a reason that no line has' "2 ${rest#* }" "'2' is no reason: 0 to 1"
wrong 'a line that is cut' '0 120 00E7' 'the line ends before R1: it has 14 fields, or is R and a number'
wrong 'a word too many' "$rest 5" "'5' is one word too many"
wrong 'no digits' "${rest/0800/08G0}" "'08G0' is no R6: 4 digits of base sixteen"
wrong 'any value' "${rest/0800/\*}" "'\*' is no R6: 4 digits of base sixteen"
wrong 'a number with a zero before it' "${rest/0 0/0 00}" "'00' is no steps: 0 to 4294967295"
wrong 'a number that is too large' "${rest/0 0/0 4294967296}" "'4294967296' is no steps: 0 to 4294967295"
wrong 'no refusal' 'R99' "'R99' is no refusal: R and its number"
wrong 'R alone' 'R' "'R' is no refusal: R and its number"
wrong 'an escape' $'\e[31m0 0' "'\\\\x1B\[31m0' is no reason: 0 to 1"
wrong 'a long word' "$(printf '%0100d' 1)" "'0{40}\.\.' is no reason: 0 to 1"
expect 'no line in the command' 1 '' "xm23: 'x' is no reason: 0 to 1" "$xm23" line x
expect 'an option' 2 '' "$(usage line)" "$xm23" line -x
zero() { printf '0 0 \0 0000' | "$xm23" line; }
expect 'a zero byte' 1 '' "standard input:1: '\\\\x00' is no R0: .*" zero
behind() { printf 'R10\0 0000' | "$xm23" line; }
expect 'a zero byte behind a refusal' 1 '' "standard input:1: 'R10\\\\x00' is no refusal: R and its number" behind
folder() { "$xm23" line < /; }
expect 'a folder' 3 '' 'standard input: is a folder' folder
endless() { "$xm23" line < /dev/zero; }
expect 'an endless input' 3 '' 'standard input: is longer than 16777216 bytes' endless
full() { "$xm23" line $rest > /dev/full; }
expect 'a full disk' 3 '' 'standard output: cannot be written: No space left.*' full
count
