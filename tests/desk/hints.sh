#!/usr/bin/env bash
# Hints for refused sources, and programs run without a paper: hints.sh [PROGRAM], build/xm23 if none is named. Each
# kind of hint by a source of its own; then sources near lawful ones, whose hints are held to what they claim.
set -u
cd "$(dirname "$0")/../.."
. tests/shell/expect.sh
xm23=$(realpath "${1:-build/xm23}")
checked=${1:-}
paper=examples/sitting/sum.paper
form='R17: a line fits no statement, brackets go deeper than 16, or END is missing'
name='R18: a name is unknown, already given or the 1,025th'
value='R19: a value leaves 32 bits, divides by zero or does not fit, or an address is odd or past #FFFF'

# hint REFUSAL LINE TEXT SOURCE: what is told of a source, END behind it; no TEXT, no hint.
told() { printf '%b\n END\n' "$1" > "$room/a.asm" && "$xm23" asm -o "$room/a.s19" "$room/a.asm" 2>&1; }
hint() {
    same "$4" "$(told "$4")" "$room/a.asm:$2: $1${3:+$'\n'$room/a.asm:$2: $3}"
}
of_form() { hint "$form" 1 "$1" "$2"; } # HINT LINE
upper='letters are upper case outside comments'

# ---- words
of_form "column 2: 'add' is written ADD: $upper" ' add r0,r1'
of_form "column 10: 'r1' is written R1: $upper" ' ADD R0, r1'
of_form "column 8: '1f' is written 1F: $upper" ' MOVL $1f,R0'
of_form "column 1: 'START:' is written START, without a colon" 'START: ADD R0,R1'
of_form "column 1: 'START :' is written START, without a colon" 'START : ADD R0,R1'
of_form "column 1: 'a' is written A: $upper; column 1: 'a:' is written A, without a colon" 'a:'
of_form "column 1: 'MY_NAME' has an underscore: names are letters and digits" 'MY_NAME ADD R0,R1'
of_form "column 7: '5' has no mark: #5 is base ten, \$5 base sixteen" ' MOVL 5,R0'
of_form "column 7: '1F' has no mark: \$1F is base sixteen" ' MOVL 1F,R0'
of_form "column 7: '0x1f' has no mark: \$1F is base sixteen" ' MOVL 0x1f,R0'
of_form "column 7: '10H' is no name and no number: names begin with a letter, numbers with # or \$" ' MOVL 10H,R0'
of_form "column 7: '#1F' is no number of base ten: \$1F is base sixteen" ' MOVL #1F,R0'
of_form "column 7: '#0X1F' is no number of base ten: \$1F is base sixteen" ' MOVL #0X1F,R0'
of_form "column 7: '\$1G' is no number of base sixteen" ' MOVL $1G,R0'
of_form "column 7: 'A' is written by its number, \$41" " MOVL 'A',R0"
of_form "column 7: 'a' is written by its number, \$61" " BYTE 'a'"
of_form "column 5: '.L' is no suffix: .B is a byte, .W a word" ' ADD.L R0,R1'
of_form "column 2: '=' stands in no line but in a comment" ' = #5'
of_form "column 2: ':' stands in no line but in a comment" ' : ADD R0,R1'
of_form "column 7: a byte \$C3 stands in no line but in a comment" ' BYTE \303\244'
of_form "column 7: a byte \$1B stands in no line but in a comment" ' BYTE \033[31m'
of_form "column 11: a byte \$0D stands in no line but in a comment" ' ADD R0,R1\r '
of_form "column 1: 'SP' is a word of the language, and no name" 'SP EQU $0800'
of_form "column 1: 'DEC' is a word of the language, and no name" 'DEC EQU #5'
small="column 2: 'x' is written X: $upper"
bare() { echo "column $1: '$2' has no mark: #$2 is base ten, \$$2 base sixteen"; }
of_form "$small; $(bare 4 1); $(bare 6 2); $(bare 8 3)" ' x 1 2 3 4 5'

# ---- 003's other words, each with what it is written as, which assembles
written() { # WORDS STATEMENT: also in small letters
    of_form "column 2: $1 is written $2" " $1"
    same "$2 is a statement" "$(told " $2\nSUBR EQU #0")" ''
    same "$1 in small letters" "$(told " ${1,,}" | sed -n 's/.*comments; column/column/p')" "column 2: $1 is written $2"
    words=$((words + 1))
}
words=0
while IFS='|' read -r short long; do
    written "$short" "$long"
done << 'END'
ADC R1|ADDC #0,R1
ADC.B R1|ADDC.B #0,R1
CALL SUBR|BL SUBR
CLC|CLRCC C
CLN|CLRCC N
CLS|CLRCC S
CLV|CLRCC V
CLZ|CLRCC Z
CLR R4|MOVLZ #0,R4
DADC R2|DADD #0,R2
DEC.W R1|SUB.W #1,R1
DECD R1|SUB #2,R1
INC R1|ADD #1,R1
INCD.B R1|ADD.B #2,R1
JUMP R3|MOV R3,PC
NOP|MOV R0,R0
PULL R0|LD SP+,R0
PUSH LR|ST LR,-SP
RET|MOV LR,PC
RLC R0|ADDC R0,R0
SBC R0|SUBC #0,R0
SEC|SETCC C
SEN|SETCC N
SEV|SETCC V
SEZ|SETCC Z
SLA.B R0|ADD.B R0,R0
TST R0|CMP #0,R0
END
same 'as many as the table has, a suffix more' "$words" 27
same 'the words of the table' "$(grep -oE '\{"[A-Z]+", "(Rx|NAME)?", "' desk/hint_form.c | wc -l)" 26
of_form 'column 2: INC Rx is written ADD #1,Rx' ' INC #5'
of_form 'column 2: CALL NAME is written BL NAME' ' CALL'
of_form 'column 6: RET is written MOV LR,PC' 'LOOP RET'

# ---- the form of a line
of_form 'column 7: this bracket is not closed' ' WORD ((#1)'
of_form 'column 9: this bracket closes none' ' WORD #1)'
of_form 'column 23: brackets stand at most 16 deep' ' WORD ((((((((((((((((((#1))))))))))))))))))'
of_form 'column 2: EQU needs a name before it' ' EQU #5'
of_form 'column 9: a comma is missing here' ' ADD R0 R1'
of_form 'column 6: an expression stands in brackets: (A+#2)' ' ORG A+#2'
of_form "column 12: 'R2' is too much: a comment begins with ;" ' ADD R0,R1 R2'
of_form "column 12: 'R2' is too much: a comment begins with ;" ' ADD R0,R1,R2'
of_form "column 12: '//' is too much: a comment begins with ;" ' ADD R0,R1 // a comment'
hint "$form" 1 "column 6: 'START' is too much: a comment begins with ;" ' END START'
of_form 'column 9: here stands a register' ' ADD R1,R9'
of_form 'column 10: here stands a number, a name or an expression in brackets' ' CEX EQ, R0,#2'
of_form 'column 6: here stands a condition' ' CEX XX,#1,#2'
of_form 'column 8: here stands a list of flags' ' SETCC CC'
of_form "column 2: 'ADDD' begins no statement" ' ADDD R0,R1'
of_form "column 6: 'BAR' begins no statement" ' FOO BAR R0,R1'
of_form 'column 2: ADD is written as in ADD R0,R0' ' ADD'
of_form 'column 3: EQU is written as in A EQU #0' 'X EQU'
of_form "column 1: '5' has no mark: #5 is base ten, \$5 base sixteen" '5 ADD R0,R1'
of_form 'column 6: SWAP is written as in SWAP R0,R0' ' FOO SWAP.B R0,R1'
printf ' ADD R0,R1\n' > "$room/b.asm"
expect 'END is missing' 1 '' "$room/b.asm:2: $form.$room/b.asm:2: END is missing, which every source ends with" \
    "$xm23" asm "$room/b.asm"
expect 'nothing at all' 1 '' ".*:1: $form./dev/null:1: END is missing, .*" "$xm23" asm /dev/null

of_form 'column 2: MOV takes registers alone: MOVLZ loads a byte, MOVH then the high one' ' MOV #3,R0'
of_form 'column 4: MOV takes registers alone: MOVLZ loads a byte, MOVH then the high one' 'A  MOV LAST,R0'
of_form 'column 9: here stands a register' ' MOV R1,#3'

# ---- names
hint "$name" 1 "column 6: no line gives the name 'LOPP'" ' BRA LOPP\nLOOP'
hint "$name" 1 "column 8: no line gives the name 'A'" ' WORD (A+B)'
hint "$name" 2 "column 7: no line gives the name 'C'" ' SETCC C\n WORD C'
hint "$name" 1 "column 6: no line gives the name 'R9'" ' ADD R9,R1'
hint "$name" 3 "column 1: 'A' is given already, on line 1" 'A\nB\nA'
hint "$name" 1 "column 6: 'A' is given on line 2: ORG, EQU and BSS need it above" ' ORG A\nA'
hint "$name" 1 "column 8: 'A' is given on line 1: ORG, EQU and BSS need it above" 'A EQU (A+#1)'
hint "$name" 1 "column 7: 'A' is given on line 3: ORG, EQU and BSS need it above" ' ORG (A+B)\nB\nA'
hint "$name" 1 "column 8: 'B' is given on line 2: ORG, EQU and BSS need it above" 'A EQU (B+C)\nB\nC'
hint "$name" 1025 "column 1: 'N1025' is the 1,025th name: a source gives at most 1,024" \
    "$(seq -f 'N%g' -s '\n' 1 1026)"
hint "$name" 1025 "column 1: 'N1025' is the 1,025th name: a source gives at most 1,024" \
    "$(seq -f 'N%g' -s '\n' 1 1024)\nN1025 BRA N1026\nN1026"

# ---- values and addresses
hint "$value" 1 'column 7: BYTE takes -128 to 255' ' BYTE #256'
hint "$value" 1 'column 7: BYTE takes -128 to 255' ' BYTE (A-B)\nA EQU #1000\nB EQU #1'
hint "$value" 1 'column 7: WORD takes -32768 to 65535' ' WORD #65536'
hint "$value" 1 'column 9: SETPRI takes 0 to 7' ' SETPRI #8'
hint "$value" 1 'column 6: SVC takes 0 to 15' ' SVC #-1'
hint "$value" 1 'column 9: CEX takes 0 to 7' ' CEX EQ,#8,#1'
hint "$value" 1 'column 12: CEX takes 0 to 7' ' CEX EQ,#1,#8'
hint "$value" 1 'column 9: CEX takes 0 to 7' ' CEX EQ,#9,#8'
hint "$value" 1 'column 9: LDR takes -64 to 63' ' LDR R0,#64,R1'
hint "$value" 1 'column 12: STR takes -64 to 63' ' STR R0,R1,#-65'
hint "$value" 1 'column 6: ADD takes one of -1, 0, 1, 2, 4, 8, 16, 32' ' ADD #3,R0'
hint "$value" 1 'column 7: MOVL takes -128 to 255' ' MOVL #256,R0'
hint "$value" 2 'column 7: MOVL takes -32768 to 65535' 'A EQU #65536\n MOVL A,R0'
hint "$value" 2 "column 6: BEQ takes an even address from 1024 before to 1022 behind the next statement's" \
    ' ORG #1000\n BEQ #5000'
hint "$value" 4 "column 5: BL takes an even address from 8192 before to 8190 behind the next statement's" \
    ' ORG #4096\nL ADD #1,R0\n BSS #9000\n BL L'
hint "$value" 1 'column 6: ORG takes 0 and more' ' ORG #-1'
hint "$value" 1 'column 6: BSS takes 0 and more' ' BSS #-1'
hint "$value" 1 'column 6: this passes the last byte, $FFFF' ' BSS #65537'
hint "$value" 3 'column 2: this passes the last byte, $FFFF' ' ORG #65535\n BYTE #1\n BYTE #2'
hint "$value" 3 'column 4: this passes the last byte, $FFFF' ' ORG #65534\n WORD #1\nX  ADD R0,R1'
hint "$value" 2 'column 2: this stands on an odd address: BSS #1 above it makes it even' ' ORG #1\n WORD #0'
hint "$value" 2 'column 3: this stands on an odd address: BSS #1 above it makes it even' ' ORG #1\nA ADD R0,R1\n BRA A'
hint "$value" 1 'column 7: the value leaves 32 bits' ' WORD #99999999999'
hint "$value" 1 'column 7: the value leaves 32 bits' 'A EQU (#2147483647+#1)'
hint "$value" 1 'column 7: the value leaves 32 bits or is divided by zero' ' WORD (A/A)\nA EQU #0'
hint "$value" 1 'column 6: the value leaves 32 bits or is divided by zero' ' ORG (#1/#0)'

# ---- what has no hint, and hostile lines
hint "$value" 2 '' 'HINTVALUE\n BYTE #256'
long=$(printf 'A%.0s' $(seq 300))
hint "$form" 1 '' " ADD R0,R1,$long"
hint "$form" 1 '' ' ADD\0000 R0,R1'
hint "$name" 1 '' " WORD $long"
of_form "column 7: '%' stands in no line but in a comment" ' WORD %n%s%n'
a=${long:0:190}
of_form "column 1: '${a,,}' is written $a: $upper" "${a,,}"
{ yes ' ADD R0,R1' | head -n 90000; echo ' ret'; echo ' END'; } > "$room/long.asm"
expect 'a long source' 1 '' ".*:90001: $form.*:90001: column 2: .* column 2: RET is written MOV LR,PC" \
    timeout 20 "$xm23" asm "$room/long.asm"
{ yes ' ADD R0,R1' | head -n 20000; echo ' BYTE #256'; echo ' END'; } > "$room/long.asm"
expect 'a value far down' 1 '' ".*:20001: $value.*:20001: column 7: BYTE takes -128 to 255" \
    timeout 20 "$xm23" asm "$room/long.asm"
{ yes ' ADD R0,R1' | head -n 30000; echo ' BYTE #256'; echo ' END'; } > "$room/long.asm"
expect 'a source that is not assembled again' 1 '' ".*:30001: $value" timeout 20 "$xm23" asm "$room/long.asm"
names=$(seq -f 'L%g' 10 54)
{ yes ' BSS #0' | head -n 25000; echo " ORG (${names//$'\n'/+})"; echo "$names"; echo ' END'; } > "$room/long.asm"
expect 'many names that are late, far down' 1 '' ".*:25001: $name.*:25001: column 7: 'L10' is given on line 25002: .*" \
    timeout 20 "$xm23" asm "$room/long.asm"

# ---- wherever a source is refused
printf ' RET\n END\n' > "$room/ret.asm"
expect 'run' 1 R17 "$room/ret.asm:1: $form.$room/ret.asm:1: column 2: RET is written MOV LR,PC.*another line.*" \
    "$xm23" run "$paper" "$room/ret.asm"
for word in events sound back dis; do
    expect "$word" 1 '' ".*/ret.asm:1: $form.*column 2: RET is written MOV LR,PC" \
        "$xm23" $word $([ $word = dis ] || echo "$paper") "$room/ret.asm"
done
expect 'report' 1 '' "$room/ret.asm:1: $form.$room/ret.asm:1: column 2: RET is written MOV LR,PC" \
    "$xm23" report -o "$room/ret.html" "$paper" "$room/ret.asm"
same 'its page' "$(grep -c '<p id="hint">column 2: RET is written MOV LR,PC</p>' "$room/ret.html")" 1
printf 'steps 5\nsource ret.asm\n' > "$room/p.paper"
expect 'the source of a paper' 1 '' ".*ret.asm:1: $form.*ret.asm:1: column 2: RET is written MOV LR,PC" \
    "$xm23" run "$room/p.paper" examples/sitting/programs/sound.s19
expect 'mark' 1 '' '' "$xm23" mark -o "$room/marks" "$paper" "$room/ret.asm"
same 'the short form in a row' "$(grep -c 'RET is written' "$room/marks/results.csv")" 0
same 'the hint on the page' "$(cat "$room"/marks/pages/* | grep -c 'RET is written MOV LR,PC')" 1

# ---- without a paper
expect 'no paper' 0 '0 1000000 0000 0120 0000 0000 0000 0000 0800 1016 0003 00 00000000 0' '' \
    "$xm23" run examples/sitting/programs/sound.s19
expect 'told in the legend' 0 '.*  depth +0 .*  paper   none      memory zero, SP 0800, at most 1,000,000 steps' '' \
    "$xm23" run -l examples/sitting/programs/sound.s19
like 'told in the help' "$("$xm23" run --help)" '.*memory zero and SP \$0800, and takes at most 1,000,000 steps.*'
printf ' SETPRI #7\n END\n' > "$room/halt.asm"
expect 'a program that halts' 0 '1 2 .*' '' "$xm23" run "$room/halt.asm"
expect 'a source at fault' 1 R17 ".*column 2: RET is written MOV LR,PC" "$xm23" run "$room/ret.asm"
expect 'no such program' 3 '' 'no/such: No such file.*' "$xm23" run no/such
expect 'no word' 2 '' "$(usage run)" "$xm23" run

# ---- sources near lawful ones
rounds=$([ "$checked" ] && echo 150 || echo 600)
counts=$(python3 -B tests/desk/hints.py "$xm23" "$rounds" | tee /dev/stderr | tail -1)
same 'hints of random sources: none fails' "${counts#* passed, }" '0 failed'
passed=$((passed + ${counts%% *}))
count
