#!/usr/bin/env bash
# A paper looked over before its sitting: check.sh [PROGRAM], build/xm23 if none is named. Each thing that is found of a
# paper alone and of a model's run, and that nothing is found where nothing is; stack bytes; misuse.
set -u
cd "$(dirname "$0")/../.."
. tests/shell/expect.sh
xm23=$(realpath "${1:-build/xm23}")
top=$PWD
sitting=$top/examples/sitting
cd "$room" || exit 1

# found WHAT LINES PAPER [MODEL]: the findings, a bar between two; model is a source.
found() {
    local what=$1 lines=$2 status=1
    printf '%b' "$3" > p.paper
    set -- p.paper ${4+m.asm} "${4-}"
    printf '%b' "${*: -1}" > m.asm
    [ "$lines" ] || status=0
    "$xm23" check "${@:1:$# - 1}" > out 2> err
    same "$what: status" "$?" "$status"
    same "$what" "$(grep -E '^[^ ]*\.(paper|asm):' out | sed 's/^p.paper//' | tr '\n' '|')" "$lines"
    same "$what: errors" "$(cat err)" ''
    local many
    many=$(grep -cE '^[^ ]*\.(paper|asm):' out)
    case $many in
        0) same "$what: its sum" "$(tail -1 out)" 'nothing found' ;;
        1) same "$what: its sum" "$(tail -1 out)" '1 thing to look at' ;;
        *) same "$what: its sum" "$(tail -1 out)" "$many things to look at" ;;
    esac
}
loop=' ORG $1000\nA BRA A\nEND\n'
any='award 1 reason = 0\n'
base="steps 100\nstart SP=\$0800 LR=\$FFFF\n$any"

# ---- the paper alone
found 'nothing' '' "$base"
without='without a model not looked at: overruns and lost events, bytes laid over it, its line and points, its handlers '
without+='and the stack bytes that they hold'
same 'what is not looked at' "$(head -1 out)" "$without"
found 'no line and no award' ": has no line 'expect' and no line 'award': nothing says what is right|" 'steps 5\n'
found 'a line is enough' '' 'steps 5\nexpect * * * * * * * * * * * * * *\n'
found 'before the start' ':5: the event at step 9 comes before the start, and never is due|' \
    "${base}start COUNT=10\n9 1 0\n10 1 0\ndevice 1 \$10\n"
found 'behind the end' ':4: the event at step 100 comes behind the last step, and never is due|' "${base}100 1 0\n"
found 'the last step is within' '' "${base}99 1 0\ndevice 1 \$10\n"
found 'behind the end, with a count' ':6: the event at step 110 comes behind the last step, and never is due|' \
    "${base}start COUNT=10\n109 1 0\n110 1 0\ndevice 1 \$10\n"
found 'of many events' ':4: 2 of 4 events, the first at step 120: each comes behind the last step, and never is due|' \
    "${base}every 40 from 40 to 160 1 0\ndevice 1 \$10\n"
found 'ENA clear' ':4: the event at step 5 is on a device with ENA clear at the start: a program must set it|' "${base}5 1 0\n"
found 'ENA alone needs no vector' '' "${base}5 1 0\ndevice 1 \$10\n"
none='is on a device whose vector is not in the paper: a program must state it'
found 'no vector' ":4: the event at step 5 $none|" "${base}5 1 0\ndevice 1 \$11\n"
found 'a vector' '' "${base}5 1 0\ndevice 1 \$11\nvector 1 0 0\n"
found 'half a vector' ":4: the event at step 5 $none|" "${base}5 1 0\ndevice 1 \$11\nwords \$FFC4 0\n"
found 'asleep, halted, at a high priority' '' \
    "${base}start PSW=\$00E8 HALTED=1 COUNT=7 LINES=\$FFFFFFFF\n8 1 0\ndevice 1 \$11\nvector 1 0 0\n"
figure="'stack' has no figure: the vector of device 2, which has its priority, is not in the paper"
found 'no figure' ":4: $figure|" "${base}use 2 4\n"
found 'a use that is too large' ':4: R16: a use is above 1,024, the priority above 7, or the vectors are not 64 bytes or the uses not 16|' \
    "${base}use 2 1025\nvector 2 0 0\n"
found 'a priority that is too high' ':5: R16: a use is above 1,024, the priority above 7, or the vectors are not 64 bytes or the uses not 16|' \
    "${base}use 2 4\npriority 8\nvector 2 0 0\n"
found 'in the order of kinds' ":4: the event at step 100 comes behind the last step, and never is due|:5: $figure|" \
    "${base}100 2 0\nuse 2 4\n"

# ---- a model: events
found 'a model' '' "$base" "$loop"
same 'its line' "$(head -1 out)" "the model's line: 0 100 0000 0000 0000 0000 0000 FFFF 0800 1000 0000 00 00000000 0"
same 'its points' "$(sed -n 2p out)" 'the model gets 1 of 1 points'
hear=' ORG $1000\n MOVLZ $11,R0\n MOVLZ $02,R1\n ST.B R0,R1\nA BRA A\n'
found 'a model that sets ENA' '' "${base}5 1 0\nvector 1 \$60 \$2000\nwords \$2000 \$4C2F\n" "${hear}END\n"
found 'one that does not' ":4: the event at step 5 finds ENA clear in the model's run, and is not taken|" "${base}5 1 0\n" "$loop"
found 'a vector of the model' '' "${base}5 1 0\n" "$hear ORG \$2000\nT MOV LR,PC\n ORG \$FFC4\n WORD \$0060\n WORD T\nEND\n"
found 'a vector of nobody' \
    ':4: the event at step 5 asks for a handler whose vector neither the paper nor the model states|' \
    "${base}5 1 0\n" "${hear}END\n"
store=' ORG $1000\n MOVLZ $C4,R1\n MOVH $FF,R1\n MOVLZ $60,R0\n ST R0,R1\n MOVLZ $00,R0\n MOVH $20,R0\n STR R0,R1,#2\n'
store+=' MOVLZ $11,R0\n MOVLZ $02,R1\n ST.B R0,R1\nA BRA A\n ORG $2000\n MOV LR,PC\nEND\n'
found 'a vector that the model stores' '' "${base}50 1 0\n" "$store"
clock='device 1 $11\nvector 1 $60 $2000\nwords $2000 $4C2F\n'
found 'an overrun' ":7: the event at step 65 is an overrun in the model's run: DBA is set from one before it|" \
    "$base${clock}65 1 0\nevery 5 from 20 to 20 1 0\n" "$loop"
masked='start PSW=$00E0\ndevice 1 $11\nvector 1 $60 $2000\n'
lost=":7: 1 of 17 events, the first at step 36: each is lost in the model's run: 15 of its device wait already|"
found 'lost, and waiting' \
    ":7: 16 of 17 events, the first at step 21: each is an overrun in the model's run: DBA is set from one before it|${lost/1 of 17 events, the first at step 36/2 of 17 events, the first at step 35}:7: 15 of 17 events, the first at step 20: each still waits when the model's run ends|" \
    "$base${masked}every 1 from 20 to 36 1 0\n" "$loop"
halt="p.paper:1: the model halts after 2 of 100 steps"
found 'behind a halt' ":8: the event at step 50 comes behind the last step of the model, which halts|${halt#p.paper}|:3: the model does not get the 1 point of reason = 0: found 1|m.asm: a fault that halts at step 1, PC \$1002, in the application|" \
    "$base${clock}start PSW=\$0100\n50 1 0\n" ' ORG $1000\n ADD #1,R0\n WORD $4E00\nEND\n'

# ---- bytes
found 'bytes over the model' ':4: lays $1000 to $1003 over bytes of the model, 3 of them with another value|' \
    "${base}words \$0FFE 1 \$4088 \$3FFE\n" ' ORG $1000\nA ADD R1,R2\n WORD $0102\n BRA A\nEND\n'
found 'the same bytes' '' "${base}words \$1000 \$3FFF\n" "$loop"
found 'beside it' '' "${base}words \$1002 1 2 3\n" "$loop"
found 'of two lines' ':4: lays $1000 to $1001 over bytes of the model, 2 of them with another value|:5: lays $1002 to $1003 over bytes of the model, 1 of them with another value|' \
    "${base}words \$1000 \$4088\nwords \$1002 \$3FFE\n" ' ORG $1000\n WORD $FFFF\n WORD $3FFF\nEND\n'
printf ' ORG $1000\nA ADD #1,R0\n BRA A\nEND\n' > lie.asm
found 'by a source' ':4: lays $1000 to $1001 over bytes of the model, 2 of them with another value|' "${base}source lie.asm\n" "$loop"
found 'by S-records' ':4: lays $1000 to $1001 over bytes of the model, 2 of them with another value|' "${base}S1051000884022\n" "$loop"

# ---- line, points, handlers
found 'another line' ':2: the model closes with another line: 0 5 0000 0000 0000 0000 0000 0000 0000 1000 0000 00 00000000 0|' \
    'steps 5\nexpect 0 5 0001 * * * * * * * * * * *\n' "$loop"
found 'points' ':4: the model does not get the 3 points of R0 = $0005: found $0000|:5: the model does not get the 1 point of depth >= 1: found 0|' \
    "${base}award 3 R0 = 5\naward 1 depth >= 1\naward 2 byte \$1001 = \$3F\n" "$loop"
same 'and how many' "$(grep points out | tail -1)" 'the model gets 3 of 7 points'
printf 'steps 5\ndevice 2 $10\naward 1 screen 2 = "\\x1B[2J\\x00\\\\"\n' > p.paper
printf '%b' "$loop" > m.asm
expect 'bytes of strangers' 1 '.*\\x1B\[2J\\x00\\x5C.*' '' "$xm23" check p.paper m.asm
same 'are text' "$(tr -d '\n -~' < "$room/out" | wc -c)" 0
handler=' ORG $2000\n'
found 'a handler that is not sound' 'm.asm: handler of device 1, entered at step 20, returned at step 23: R3 was $0000, is $0007|' \
    "${base}device 1 \$11\nvector 1 \$60 \$2000\n20 1 0\n" "${loop%END*}${handler} MOVLZ \$07,R3\n MOV LR,PC\nEND\n"
found 'an application that reads what a handler wrote' '' \
    "${base}device 1 \$11\nvector 1 \$60 \$2000\n20 1 0\n" \
    ' ORG $1000\nA LD R1,R2\n BRA A\n ORG $2000\n ST R0,-SP\n MOVLZ $07,R0\n ST R0,R1\n LD SP+,R0\n MOV LR,PC\nEND\n'

# ---- stack bytes
held() { sed -n "s/^device $1: its handler held \([0-9]*\) stack.*/\1/p" out; }
two='device 1 $11\nvector 1 $60 $2000\n20 1 0\n'
saves="${loop%END*}${handler} ST R0,-SP\n ST R1,-SP\n LD SP+,R1\n LD SP+,R0\n MOV LR,PC\nEND\n"
found 'a use that is right' '' "$base${two}use 1 4\n" "$saves"
same 'what is said' "$(sed -n '3,4p' out)" $'device 1: its handler held 4 stack bytes beside its frame, use says 4
handlers went down to SP $07F4, 12 bytes below the application\'s; stack says 12'
found 'a use that is too small' \
    ":7: the model's handler of device 1 held 4 stack bytes, more than 2|: the model's handlers held 12 stack bytes together, more than the 10 of 'stack'|" \
    "$base${two}use 1 2\n" "$saves"
found 'no use' '' "$base$two" "$saves"
same 'it is said all the same' "$(sed -n '3,4p' out)" $'device 1: its handler held 4 stack bytes beside its frame
handlers went down to SP $07F4, 12 bytes below the application\'s'
found 'a use of another' ": has no line 'use' for device 1, whose handler runs: 'stack' leaves it out|: the model's handlers held 12 stack bytes together, more than the 8 of 'stack'|" \
    "$base${two}use 2 0\nvector 2 \$A0 0\n" "$saves"
found 'no figure with a model' ":7: $figure, nor in the model|" "$base${two}use 2 4\nuse 1 4\n" "$saves"
found 'no handler runs' '' "${base}use 2 4\nvector 2 0 0\n" "$loop"
same 'and none is said' "$(grep -c 'SP\|held' out)" 0
# Three handlers, one within another, each with its bytes; a fourth is chained onto the last.
nested="${base}device 1 \$11\ndevice 2 \$11\ndevice 3 \$11\ndevice 4 \$11\nvector 1 \$20 \$2000\nvector 2 \$40 \$2100\n"
nested+="vector 3 \$60 \$2200\nvector 4 \$60 \$2300\nuse 1 2\nuse 2 0\nuse 3 6\nuse 4 4\n20 1 0\n23 2 0\n25 3 0\n26 4 0\n"
model="${loop%END*} ORG \$2000\n ST R0,-SP\n ADD #0,R0\n ADD #0,R0\n ADD #0,R0\n LD SP+,R0\n MOV LR,PC\n"
model+=" ORG \$2100\n ADD #0,R0\n ADD #0,R0\n MOV LR,PC\n"
model+=" ORG \$2200\n ST R0,-SP\n ST R0,-SP\n ST R0,-SP\n ADD #4,SP\n ADD #2,SP\n MOV LR,PC\n"
model+=" ORG \$2300\n ST R0,-SP\n LD SP+,R0\n MOV LR,PC\nEND\n"
found 'handlers within handlers' '' "$nested" "$model"
same 'each by itself' "$(held 1) $(held 2) $(held 3) $(held 4)" '2 0 6 2'
same 'and together' "$(grep 'went down' out)" "handlers went down to SP \$07E0, 32 bytes below the application's; stack says 32"
chained="${base}device 1 \$11\ndevice 2 \$11\nvector 1 \$20 \$2000\nvector 2 \$20 \$2100\nuse 1 0\nuse 2 4\n20 1 0\n21 2 0\n"
found 'chained onto the outermost' '' "$chained" \
    "${loop%END*} ORG \$2000\n ADD #0,R0\n ADD #0,R0\n MOV LR,PC\n ORG \$2100\n ST R0,-SP\n ST R0,-SP\n ADD #4,SP\n MOV LR,PC\nEND\n"
like 'from the SP of the application' "$(grep 'went down' out)" '.*, 12 bytes below .*; stack says 12'
same 'as the events say' "$("$xm23" events -c p.paper m.asm | tail -1)" '11,21,2,0,taken,no,chained,24'
found 'SVC of the application is its own' '' "$base${two}vector 12 \$20 \$2100\nuse 1 4\n" \
    "$(sed 's/A BRA A/ SVC #12\\nA BRA A/; s/END/ ORG $2100\\n ST R0,-SP\\n ADD #2,SP\\n MOV LR,PC\\nEND/' <<< "$saves")"
like 'it is not counted' "$(grep 'went down' out)" '.*, 12 bytes below .*'

# ---- the sitting, and a long run
expect 'the sitting' 0 '.*nothing found' '' "$xm23" check "$sitting/sum.paper"
expect 'its model' 1 '.*:19: the event at step 65 is an overrun .*1 thing to look at' '' \
    "$xm23" check "$sitting/sum.paper" "$sitting/programs/sound.s19"
expect 'another model' 1 '.*:21: the model closes with another line: 0 120 0019 .*' '' \
    "$xm23" check "$sitting/sum.paper" "$sitting/programs/stops_early.s19"
expect 'a folder as model' 1 '.*overrun.*the model gets 20 of 20 points.*device 7: its .*1 thing to look at' '' \
    "$xm23" check "$sitting/handlers.paper" "$sitting/programs/with_handlers"
{ printf 'steps 1000000\nstart SP=$0800 LR=$FFFF\naward 1 reason = 0\ndevice 1 $11\ndevice 2 $11\n'
    printf 'every 200 from 100 to 819100 1 0\n'; } > long.paper
printf '%b' "${loop%END*} ORG \$2000\nT MOV LR,PC\n ORG \$FFC4\n WORD \$0060\n WORD T\nEND\n" > m.asm
expect 'a million steps' 1 '.*4095 of 4096 events, the first at step 300: each is an overrun.*' '' \
    timeout 60 "$xm23" check long.paper m.asm

# ---- misuse
expect 'check of nothing' 2 '' "$(usage check)" "$xm23" check
expect 'check of three' 2 '' "$(usage check)" "$xm23" check a b c
expect 'check -x' 2 '' "$(usage check)" "$xm23" check -x p.paper
expect 'check --help' 0 'usage: xm23 check .*' '' "$xm23" check --help
expect 'no such paper' 3 '' 'no/such: No such file.*' "$xm23" check no/such
expect 'no such model' 3 '' 'no/such: No such file.*' "$xm23" check p.paper no/such
expect 'a paper with a mistake' 1 '' ".*:1: 'step' begins no line of a paper.*" "$xm23" check <(echo 'step 5')
expect 'a refused model' 1 '' '.*refused.s19:2: R11: .*' "$xm23" check "$sitting/sum.paper" "$sitting/programs/refused.s19"
full() { "$@" > /dev/full; }
expect 'to a full disk' 3 '' 'standard output: cannot be written: .*' full "$xm23" check p.paper
echo 'steps 5' > $'odd\e[2J\n.paper'
like 'a name of any bytes' "$("$xm23" check $'odd\e[2J\n.paper' m.asm | head -1)" 'odd\\x1B\[2J\\x0A.paper: has no line .*'
complete_words() {
    bash -c '. "$0"/desk/completion.bash; COMP_WORDS=("$@"); COMP_CWORD=$(($# - 1)); _xm23; echo "${COMPREPLY[*]}"' "$top" "$@" 2> /dev/null
}
same 'completion' "$(complete_words xm23 check -)" '--help'
same 'in the manual' "$(grep -qx '\.B check' "$top/man/xm23.1" && echo yes)" yes
count
