#!/usr/bin/env bash
# Whether handlers were sound, in words: sound.sh [PROGRAM], build/xm23 if none is named. Programs under one paper with
# a clock, each told as it is; the subcommand used and misused; the columns and pages of a marking; the programs of
# docs/RESUMPTION.md.
set -u
cd "$(dirname "$0")/../.."
. tests/shell/expect.sh
top=$PWD
xm23=$(realpath "${1:-build/xm23}")
cd "$room" || exit 1

# Device 1 is a clock at priority 3; device 0, at priority 2, is heard where the program enables it; 12 is for SVC.
cat > clock.paper << 'END'
title    Add eight numbers while a clock ticks
steps    200
start    PC=$1000 SP=$0800 LR=$FFFF PSW=$0000
words    $0100 3 1 4 1 5 9 2 6
device   1 $11
vector   0 $0040 $3000
vector   1 $0060 $2000
vector   8 $00E0 $5000
vector   9 $00E0 $5000
vector   10 $00E0 $5000
vector   12 $0080 $4000
20  1 0
22  0 7
65  1 0
120 1 0
END

# The parts of a program: the application, the handlers of the clock, of device 0, of SVC 12 and of faults.
sum='MOVLZ $00,R1;MOVH $01,R1;MOVLZ $08,R2;MOVLZ $00,R0;NEXT LD R1+,R3;ADD R3,R0;SUB #1,R2;BNE NEXT'
store='MOVLZ $20,R1;MOVH $01,R1;ST R0,R1'
stay='HERE BRA HERE'
loop='STAY BRA STAY'
hear='MOVLZ $11,R0;MOVLZ $00,R1;ST.B R0,R1'
save='ST R0,-SP;ST R1,-SP'
tick='MOVLZ $30,R0;MOVH $01,R0;LD R0,R1;ADD #1,R1;ST R1,R0'
restore='LD SP+,R1;LD SP+,R0'
back='MOV LR,PC'
model="$save;$tick;$restore;$back"

# program NAME APPLICATION [CLOCK [DEVICE_0 [SVC_12 [FAULTS]]]]
program() {
    local at=1000 part
    for part in "$2" "${3:-$model}" "${4:-$back}" "${5:-$back}" "${6:-$back}"; do
        echo "        ORG \$$at"
        sed 's/;/\n/g' <<< "$part" | sed -E '/^(NEXT|HERE|STAY|SUB1|W1|W2) /!s/^/        /'
        at=$((at + 1000))
    done > "$1.asm"
    echo '        END' >> "$1.asm"
}

# told WHAT STATUS LINES APPLICATION ..: what is told of the program, a bar between two lines
told() {
    local what=$1 status=$2 lines=$3 name=${1//[^a-zA-Z0-9]/_}
    shift 3
    program "$name" "$@"
    expect "$what: program" 0 '.*' '' "$xm23" asm "$name.asm"
    "$xm23" sound clock.paper "$name.asm" > out 2> err
    same "$what: status" "$?" "$status"
    same "$what" "$(tr '\n' '|' < out)$(cat err)" "$lines|"
    names+=("$name.asm")
}
names=()
fine='sound: the program ended as it would have with no events'
either=' (by it, or by a handler before it in that frame)'
all="$sum;$store;$stay"
# ---- sound ones
told 'the model' 0 "$fine" "$all"
told 'a handler that only returns' 0 "$fine" "$all" "$back"
told 'a handler that changes R3 and puts it back' 0 "$fine" "$all" "ST R3,-SP;MOVLZ \$07,R3;LD SP+,R3;$back"
told 'a handler with a call in it, LR saved' 0 "$fine" "$all" "ST LR,-SP;BL SUB1;LD SP+,LR;$back;SUB1 MOV LR,PC"
told 'a handler that writes its frame as it is' 0 "$fine" "$all" "ST R0,-SP;LDR SP,#8,R0;STR R0,SP,#8;LD SP+,R0;$back"
told 'a handler that reads the clock' 0 "$fine" "$all" "$save;MOVLZ \$02,R0;LD R0,R1;$restore;$back"
told 'a handler that sets all flags' 0 "$fine" "$all" "SETCC VNZC;$back"
told 'SVC in the application' 0 "$fine" "SVC #12;$all"
told 'an SVC handler that gives a result in R4' 0 "$fine" "SVC #12;$all" "$model" "$back" "MOVLZ \$09,R4;$back"
told 'a device whose handler is chained' 0 "$fine" "$hear;$all"
told 'the application rewrites the byte of the handler' 0 "$fine" \
    "$sum;MOVLZ \$30,R1;MOVH \$01,R1;ST R0,R1;LD R1,R2;$stay"
told 'no tick is heard' 0 "$fine" "MOVLZ \$02,R1;MOVLZ \$00,R0;ST.B R0,R1;$all" "$loop"
# A lost tick breaks no premise: what became of each is what xm23 events tells.
told 'two ticks are lost' 0 "$fine" "$all" "$save;MOVLZ \$02,R0;MOVLZ \$00,R1;ST.B R1,R0;$restore;$back"
same 'as the events tell' "$("$xm23" events -c clock.paper two_ticks_are_lost.asm | cut -d , -f 2,3,5,7)" \
    $'step,device,event,interrupt\n20,1,taken,accepted\n22,0,ENA clear,\n65,1,ENA clear,\n120,1,ENA clear,'

# ---- handlers that are not
told 'R3 is left' 1 \
    "handler of device 1, entered at step 20, returned at step 23: R3 was \$0001, is \$0007" \
    "$all" "MOVLZ \$07,R3;$back"
told 'R0 is not put back' 1 \
    "handler of device 1, entered at step 20, returned at step 31: R0 was \$0009, is \$0130" \
    "$all" "$save;$tick;LD SP+,R1;ADD #2,SP;$back"
told 'R1 and R4 are left' 1 \
    "handler of device 1, entered at step 20, returned at step 24: R1 was \$0108, is \$0054; R4 was \$0000, is \$0066" \
    "$all" "MOVLZ \$54,R1;MOVLZ \$66,R4;$back"
told 'R0 and R1 are put back the wrong way round' 1 \
    "handler of device 1, entered at step 20, returned at step 31: R0 was \$0009, is \$0108; R1 was \$0108, is \$0009|\
fault 9 at step 32, PC \$1008, in the application: odd address" \
    "$all" "$save;$tick;LD SP+,R0;LD SP+,R1;$back"
told 'SP is left two lower' 1 \
    "handler of device 1, entered at step 20, returned at step 31: SP was \$07F8, is \$07F6|\
a return with no frame open at step 32, PC \$FFFF, in the application|\
the application read \$07FE, which a handler or its entry wrote last, at step 32, PC \$FFFF|\
the application read \$0002, a register of device 1, at step 34, PC \$0002" \
    "$all" "$save;$tick;LD SP+,R1;LDR SP,#0,R0;$back"
told 'SP is left two higher' 1 \
    "handler of device 1, entered at step 20, returned at step 23: SP was \$07F8, is \$07FA|\
the application read \$0000, a register of device 0, at step 24, PC \$0000" \
    "$all" "ADD #2,SP;$back"
told 'the PC of the frame' 1 \
    "handler of device 1, entered at step 20, returned at step 27: the frame's byte \$07FE (PC) was \$08, is \$0A" \
    "$all" "ST R0,-SP;LDR SP,#8,R0;ADD #2,R0;STR R0,SP,#8;LD SP+,R0;$back"
told 'the PSW of the frame' 1 \
    "handler of device 1, entered at step 20, returned at step 26: the frame's byte \$07FA (PSW) was \$01, is \$1F" \
    "$all" "ST R0,-SP;MOVLZ \$1F,R0;STR R0,SP,#4;LD SP+,R0;$back"
told 'a handler that never returns' 1 \
    "the handler of device 1 entered at step 20 never returned; the run ended after 200 steps" \
    "$all" "$loop"
told 'a call without LR saved' 1 \
    "the handler of device 1 entered at step 20 never returned; the run ended after 200 steps" \
    "$all" "BL SUB1;$back;SUB1 MOV LR,PC"
told 'an odd address in the handler' 1 \
    "fault 9 at step 24, PC \$2006, in the handler of device 1 entered at step 20: odd address" \
    "$all" "$save;MOVLZ \$31,R0;LD R0,R1;$restore;$back"
told 'a word that is no instruction in the handler' 1 \
    "fault 8 at step 21, PC \$2000, in the handler of device 1 entered at step 20: illegal word" \
    "$all" "WORD \$4D98;$back"
told 'a fault in the handler of a fault' 1 \
    "fault 8 at step 21, PC \$2000, in the handler of device 1 entered at step 20: illegal word|\
the handler of device 1 entered at step 20 never returned; the run ended after 23 steps" \
    "$all" "WORD \$4D98;$back" "$back" "$back" "WORD \$4D98"
told 'the handler of a fault stays' 1 \
    "fault 8 at step 0, PC \$1000, in the application: illegal word|\
the handler of fault 8 entered at step 0 never returned; the run ended after 200 steps" \
    "WORD \$4D98;$all" "$model" "$back" "$back" "$loop"
told 'SVC in the handler' 1 \
    "SVC 12 at step 21, PC \$2000, in the handler of device 1 entered at step 20" \
    "$all" "SVC #12;$back"
told 'SVC in the handler, which stays' 1 \
    "SVC 12 at step 21, PC \$2000, in the handler of device 1 entered at step 20|\
the handler of device 1 entered at step 20 never returned; the run ended after 200 steps" \
    "$all" "SVC #12;$back" "$back" "$loop"
told 'the chained handler leaves R2' 1 \
    "handler of device 0, chained onto the frame of device 1 entered at step 20, returned at step 34: R2 was \$0005, \
is \$0007$either" \
    "$hear;$sum;$store;$stay" "$model" "MOVLZ \$07,R2;$back"
wait='MOVLZ $10,R2;W1 SUB #1,R2;BNE W1'
told 'the clock chained onto SVC leaves R3' 1 \
    "handler of device 1, chained onto a frame of SVC at step 35, returned at step 38: R3 was \$0000, is \$0007" \
    "SVC #12;$all" "MOVLZ \$07,R3;$back" "$back" "$wait;$back"
told 'device 0 chained onto both leaves R3' 1 \
    "handler of device 0, chained after that of device 1 onto a frame of SVC at step 38, returned at step 52: \
R3 was \$0000, is \$0007$either" \
    "$hear;SVC #12;$all" "$model" "MOVLZ \$07,R3;$back" "$wait;$back"
told 'the clock chained onto SVC stays' 1 \
    "the handler of device 1, chained onto a frame of SVC at step 35, never returned; the run ended after 200 steps" \
    "SVC #12;$all" "$loop" "$back" "$wait;$back"

# ---- the application
told 'a fault in the application' 1 \
    "fault 8 at step 0, PC \$1000, in the application: illegal word" \
    "WORD \$4D98;$all"
told 'a priority that is not granted' 1 \
    "fault 10 at step 0, PC \$1000, in the application: priority" \
    "SETPRI #5;$all"
told 'a return with no frame' 1 \
    "a return with no frame open at step 1, PC \$FFFF, in the application|\
the application read \$0000, a register of device 0, at step 2, PC \$0000|\
the application read \$0130, which a handler or its entry wrote last, at step 165, PC \$0130" \
    "$back;$all"
told 'an SVC handler that stays' 1 \
    "the handler of SVC 12 entered at step 0 never returned; the run ended after 200 steps" \
    "SVC #12;$all" "$model" "$back" "$loop"
told 'the application sleeps' 1 \
    "the application set SLP, at step 51, PC \$1016" \
    "$sum;$store;HERE SETCC S;BRA HERE"
told 'the application reads the clock' 1 \
    "the application read \$0003, a register of device 1, at step 1, PC \$1002" \
    "MOVLZ \$03,R1;LD.B R1,R0;$all"
told 'the application reads what the handler counted' 1 \
    "the application read \$0130, which a handler or its entry wrote last, at step 50, PC \$1014" \
    "$sum;MOVLZ \$30,R1;MOVH \$01,R1;W1 LD R1,R2;BRA W1"
told 'the application reads below its stack' 1 \
    "the application read \$07F8, which a handler or its entry wrote last, at step 50, PC \$1014" \
    "$sum;MOVLZ \$F8,R1;MOVH \$07,R1;W1 LD R1,R2;BRA W1"
told 'R3 is left, and then an odd address' 1 \
    "handler of device 1, entered at step 20, returned at step 23: R3 was \$0001, is \$0007|\
the application read \$0006, a register of device 3, at step 43, PC \$1016|\
fault 9 at step 69, PC \$1016, in the application: odd address" \
    "$sum;$store;W1 LD R3,R4;BRA W1" "MOVLZ \$07,R3;$back"
same 'programs' "${#names[@]}" 42
# The values are those that going back finds, by the journal.
before() { "$xm23" back -n "$((200 - $2))" clock.paper "$1.asm" | sed -n "s/^before step $2: .*\($3 [0-9A-F]*\).*/\1/p"; }
same 'R3 at the entry and at the return' "$(before R3_is_left 21 R3) $(before R3_is_left 23 R3)" 'R3 0001 R3 0007'
same 'SP, of a frame' "$(before SP_is_left_two_lower 21 SP) $(before SP_is_left_two_lower 31 SP)" 'SP 07F8 SP 07F6'
same 'R2, of two handlers' \
    "$(before the_chained_handler_leaves_R2 21 R2) $(before the_chained_handler_leaves_R2 34 R2)" 'R2 0005 R2 0007'
same 'R3, chained onto SVC' "$(before the_clock_chained_onto_SVC_leaves_R3 36 R3) $(
    before the_clock_chained_onto_SVC_leaves_R3 38 R3)" 'R3 0000 R3 0007'

# ---- other starts, a fault that halts, more frames than are watched
under() { # WHAT STATUS LINES PROGRAM COMMAND: the paper changed by the command of sed
    sed "$5" clock.paper > other.paper
    "$xm23" sound other.paper "$4" > out 2> err
    same "$1: status" "$?" "$2"
    same "$1" "$(tr '\n' '|' < out)$(cat err)" "$3|"
}
under 'asleep' 1 "the run starts, at step 0, asleep|the application set SLP, at step 0, PC \$1000" the_model.asm \
    's/PSW=$0000/PSW=$0008/'
under 'asleep with a line waiting' 1 'the run starts, at step 0, asleep and with a line waiting' the_model.asm \
    's/PSW=$0000/PSW=$0008 LINES=$10/'
under 'halted' 1 'the run starts, at step 7, halted' the_model.asm 's/^start/& HALTED=1 COUNT=7/'
under 'with a line waiting' 1 'the run starts, at step 0, with a line waiting' the_model.asm 's/^start/& LINES=$10/'
under 'a later start' 1 "handler of device 1, entered at step 20, returned at step 23: R3 was \$0004, is \$0007" \
    R3_is_left.asm 's/^start/& COUNT=7/'
under 'a fault that halts' 1 "a fault that halts at step 0, PC \$1000, in the application" \
    a_fault_in_the_application.asm 's/PSW=$0000/PSW=$0100/'
under 'no events' 0 "$fine" a_handler_that_never_returns.asm '/^[0-9]/d'
under 'no steps' 0 "$fine" a_handler_that_never_returns.asm 's/^steps.*/steps 0/'
program deep "$all" "SETPRI #0;$loop"
{
    sed '/^[0-9]/d; s/^steps.*/steps 2000/; s/SP=$0800/SP=$8000/' clock.paper
    for i in $(seq 300); do echo "$((5 * i)) 1 0"; done
} > deep.paper
expect 'more frames than are watched' 1 \
    'the handler of device 1 entered at step 5 never returned; the run ended after 1285 steps.256 frames of devices '\
'are open together: the run was judged no further than its first 1285 steps' '' "$xm23" sound deep.paper deep.asm
same 'a run that xm23_run takes on' "$("$xm23" run deep.paper deep.asm | cut -d ' ' -f 1,2,14)" '0 2000 300'

# ---- use and misuse
usage=$(usage sound)
expect 'help' 0 'usage: xm23 sound PAPER PROGRAM.*Status 0: sound.*' '' "$xm23" sound --help
expect 'one word' 2 '' "$usage" "$xm23" sound clock.paper
expect 'three words' 2 '' "$usage" "$xm23" sound clock.paper the_model.asm the_model.asm
expect 'an option' 2 '' "$usage" "$xm23" sound -c clock.paper the_model.asm
expect 'no program' 3 '' 'no/such: No such .*' "$xm23" sound clock.paper no/such
expect 'no paper' 3 '' 'no/such: No such .*' "$xm23" sound no/such the_model.asm
expect 'a paper with a mistake' 1 '' '.*:1: .*' "$xm23" sound <(echo 'step 5') the_model.asm
printf 'S1040101AA50\n' > refused.s19
expect 'a refused program' 1 '' 'refused.s19:1: R11: .*' "$xm23" sound clock.paper refused.s19
{ cat clock.paper; echo '120 1 1'; } > twins.paper
expect 'twins' 1 '' 'twins.paper:16: R13: .*' "$xm23" sound twins.paper the_model.asm
cp refused.s19 $'a\nb\x1b.s19'
expect 'a name of any bytes' 1 '' 'a\\x0Ab\\x1B.s19:1: R11: .*' "$xm23" sound clock.paper $'a\nb\x1b.s19'
noise 5000 > noise
expect 'noise for a program' 1 '' 'noise:1: R10: .*' "$xm23" sound clock.paper noise
expect 'noise for a paper' 1 '' 'noise:1: .*' "$xm23" sound noise the_model.asm
expect 'a folder' 3 '' '/: .*' "$xm23" sound clock.paper /
expect 'an end that is full' 3 '' 'standard output: cannot be written: .*' \
    bash -c '"$0" sound clock.paper the_model.asm > /dev/full' "$xm23"

# ---- a marking: two columns, and a section of each page
cp R3_is_left.asm $'=R3,"is\nleft.asm'
cp R3_is_left.asm '<b>&R3.asm'
"$xm23" mark -o marks clock.paper "${names[@]}" $'=R3,"is\nleft.asm' '<b>&R3.asm' refused.s19 no/such 2> err
same 'mark' "$? $(cat err)" '1 no/such: No such file or directory'
cells marks name handlers application > cells
row() { same "the row of $1" "$(grep -F "$1|" cells)" "$1|$2"; }
row the_model.asm 'sound|undisturbed'
row R3_is_left.asm 'R3 changed, device 1, step 23|undisturbed'
row R1_and_R4_are_left.asm 'R1 R4 changed, device 1, step 24|undisturbed'
row SP_is_left_two_lower.asm "SP changed, device 1, step 31|handler's byte read \$07FE, step 32"
row the_PC_of_the_frame.asm 'frame changed, device 1, step 27|undisturbed'
row a_handler_that_never_returns.asm 'never returned, device 1, step 20|undisturbed'
row an_SVC_handler_that_stays.asm 'never returned, SVC 12, step 0|undisturbed'
row a_fault_in_the_handler_of_a_fault.asm 'fault 8, device 1, step 21|undisturbed'
row the_handler_of_a_fault_stays.asm 'fault 8, step 0|undisturbed'
row SVC_in_the_handler.asm 'SVC in a handler, device 1, step 21|undisturbed'
row the_chained_handler_leaves_R2.asm 'R2 changed, device 0, step 34|undisturbed'
row a_return_with_no_frame.asm "return with no frame, step 1|device register read \$0000, step 2"
row the_application_sleeps.asm 'sound|SLP set, step 51'
row the_application_reads_the_clock.asm "sound|device register read \$0003, step 1"
row the_application_reads_what_the_handler_counted.asm "sound|handler's byte read \$0130, step 50"
row R3_is_left__and_then_an_odd_address.asm "R3 changed, device 1, step 23|device register read \$0006, step 43"
row "'=R3,\"is\\x0Aleft.asm" 'R3 changed, device 1, step 23|undisturbed'
row '<b>&R3.asm' 'R3 changed, device 1, step 23|undisturbed'
row refused.s19 '|'
row no/such '|'
same 'a row for each' "$(wc -l < cells)" 46
same 'sound in a row is sound by itself' "$(for i in "${!names[@]}"; do
    "$xm23" sound clock.paper "${names[i]}" > out
    cell=$(sed -n "$((i + 1))p" cells | cut -d '|' -f 2,3)
    [ "$(grep -cx "$fine" out)" = "$(grep -c '^sound|undisturbed$' <<< "$cell")" ] || echo "${names[i]}: $cell"
done)" ''
section() { sed -n '/<h2>Were the handlers sound/,/^<\/div>/p' "$1"; }
same 'the table has them' \
    "$(grep -c '<td[^>]*>R3 changed, device 1, step 23</td><td[^>]*>undisturbed</td>' marks/index.html)" 3
same 'a section of each page' "$(cat marks/pages/* | grep -c '<h2>Were the handlers sound</h2>')" 44
page=$(ls marks/pages/*-R3_is_left__and_then_an_odd_address.asm.html)
same 'each finding, with a link to its step' "$(section "$page")" "<h2>Were the handlers sound</h2>
<div id=\"sound\">
<ul>
<li>handler of device 1, entered at step 20, returned at step 23: R3 was \$0001, is \$0007 \
<a class=\"to_step\" href=\"#walk\" data-step=\"23\" hidden>(walk to step 23)</a></li>
<li>the application read \$0006, a register of device 3, at step 43, PC \$1016 \
<a class=\"to_step\" href=\"#walk\" data-step=\"43\" hidden>(walk to step 43)</a></li>
<li>fault 9 at step 69, PC \$1016, in the application: odd address \
<a class=\"to_step\" href=\"#walk\" data-step=\"69\" hidden>(walk to step 69)</a></li>
</ul>
<p>Bytes that handlers or their entries wrote last: none.</p>
</div>"
same 'and in short above' "$(grep -h '^<p><a href="#sound">' "$page")" \
    "<p><a href=\"#sound\">Handlers</a>: R3 changed, device 1, step 23. Application: device register read \$0006, step 43.</p>"
same 'what the model wrote' "$(section marks/pages/*-the_model.asm.html | grep '^<p>')" \
    "<p>Bytes that handlers or their entries wrote last: \$0130 to \$0131, \$07F4 to \$07FF.</p>"
same 'pages are well-formed' "$(python3 -B "$top/tests/desk/pages.py" marks/index.html marks/pages/*)" 'all well-formed'
for name in R3_is_left the_model; do
    "$xm23" report -o page.html clock.paper "$name.asm"
    same "the page of $name is that of report" "$(cksum < page.html)" "$(cksum < marks/pages/*"-$name.asm.html")"
done
# A handler that writes every fourth byte of 256: more stretches than are told.
program many "$all" "ST R0,-SP;ST R1,-SP;ST R2,-SP;MOVLZ \$40,R2;MOVLZ \$00,R1;MOVH \$60,R1;\
W2 ST.B R2,R1+;ADD #2,R1;ADD #1,R1;SUB #1,R2;BNE W2;LD SP+,R2;LD SP+,R1;LD SP+,R0;$back"
sed 's/^steps.*/steps 3000/; /^22\|^65\|^120/d' clock.paper > long.paper
"$xm23" report -o page.html long.paper many.asm
same 'of many bytes some are told' "$(section page.html | grep '^<p>' | sed 's/.*, \(\$6[0-9A-F]*, and\)/\1/')" \
    "\$6058, and 41 more.</p>"
"$xm23" sound long.paper R3_is_left.asm > out
{ sed 's/^steps.*/steps 1100/' long.paper && echo '1090 0 7'; } > far.paper
"$xm23" report -o page.html far.paper R3_is_left.asm
same 'a step before the walk has no link' "$(section page.html | grep '^<li>')" "<li>$(cat out)</li>"

# ---- who is judged: where the paper has events and is short, or by -s
sed '/^[0-9]/d' clock.paper > none.paper
sed 's/^steps.*/steps 100001/' clock.paper > 100001.paper
sed 's/^steps.*/steps 100000/' clock.paper > 100000.paper
for name in none 100001; do
    "$xm23" mark -o "marks$name" "$name.paper" the_application_sleeps.asm
    same "$name: not judged" "$(cells "marks$name" handlers application)" 'not judged|not judged'
    same "$name: its page says so" "$(section marks"$name"/pages/* | grep -c '^<p>Not judged: ')" 1
    "$xm23" mark -s -o "marks$name" "$name.paper" the_application_sleeps.asm
    same "$name: judged by -s" "$(cells "marks$name" handlers application)" 'sound|SLP set, step '"$(
        "$xm23" sound "$name.paper" the_application_sleeps.asm | sed 's/.*at step \([0-9]*\),.*/\1/')"
    "$xm23" report -s -o page.html "$name.paper" the_application_sleeps.asm
    same "$name: and by report -s" "$(cksum < page.html)" "$(cksum < "marks$name"/pages/*)"
done
"$xm23" mark -o marks100000 100000.paper the_application_sleeps.asm
same '100000: judged' "$(cells marks100000 handlers application)" 'sound|SLP set, step 51'

# ---- the worked programs of docs/RESUMPTION.md: paper, program and what is told of it, as they stand there
block() { awk -v head="$1" 'index($0, head) { on = 1; next } on && /^    / { print substr($0, 5); seen = 1; next }
    on && seen && !/^$/ { exit }' "$top/docs/RESUMPTION.md" | sed '/^\$/,$d'; }
block '`loop.paper`' > loop.paper
block '`loop.asm`' > loop.asm
same 'three are worked' "$(grep -c '^    \$ xm23 sound loop.paper ' "$top/docs/RESUMPTION.md")" 3
while read -r name; do
    first=$(sed -n "s/^| \`$name.asm\` | \`\([^\`]*\)\` |.*/\1/p" "$top/docs/RESUMPTION.md")
    sed "s/MOV R0,R0/$first/" loop.asm > "$name.asm"
    wanted=$(awk -v command="    \$ xm23 sound loop.paper $name.asm" '$0 == command { on = 1; next }
        on && /^    [^$]/ { print substr($0, 5); next } on { exit }' "$top/docs/RESUMPTION.md")
    same "worked: $name" "$("$xm23" sound loop.paper "$name.asm")" "$wanted"
done <<< $'sound\nlost\nshared'
count
