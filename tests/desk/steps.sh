#!/usr/bin/env bash
# Any step of a run: steps.sh [PROGRAM], build/xm23 if none is named. run -n, report -a and back -a beside runs that end
# there; who wrote a byte in a million steps; closing steps that change nothing; labels of sources; steps that there are
# not.
set -u
cd "$(dirname "$0")/../.."
. tests/shell/expect.sh
xm23=$(realpath "${1:-build/xm23}")
top=$PWD
cd "$room" || exit 1

# A clock that ticks 4,000 times, its handler a source of the paper; two million steps would not fit, one does.
cat > clock.asm << 'END'
        ORG $2000
TICK    ST R0,-SP
        ST R1,-SP
        MOVLZ $30,R0
        MOVH $01,R0
        LD R0,R1
        ADD #1,R1
        ST R1,R0
        LD SP+,R1
        LD SP+,R0
        MOV LR,PC
TICKS   EQU $0130
LIMIT   EQU #70000
        END
END
cat > long.paper << 'END'
steps    1000000
start    SP=$0800 LR=$FFFF COUNT=1000
device   1 $11
device   2 $10
source   clock.asm
vector   1 $0060 TICK
every    200 from 1500 to 801300 1 0
END
cat > mine.asm << 'END'
        ORG $1000
START   MOVLZ $00,R1
        MOVH $03,R1
        MOVLZ $41,R0
        ST R0,R1
        MOVLZ $05,R1
        ST.B R0,R1
NEXT    ADD #1,R2
        ADD R2,R3
        BRA NEXT
        ORG $0300
DATA    BSS #2
        END
END
cat > end.asm << 'END'
        ORG $1000
START   MOVLZ $00,R1
        MOVH $10,R1
LOOP    SUB #1,R1
        BNE LOOP
HERE    BRA HERE
        END
END
printf 'steps 1000000\nstart SP=$0800 LR=$FFFF\n' > plain.paper
"$xm23" asm -o mine.s19 mine.asm

# ---- run -n: the line of a paper that ends there
for count in 1000 1001 1006 1500 1501 1512 150000 1000999 1001000; do
    sed "s/^steps.*/steps $((count - 1000))/" long.paper > cut.paper
    same "run -n $count" "$("$xm23" run -n "$count" long.paper mine.asm)" "$("$xm23" run cut.paper mine.asm)"
done
same 'run -n, whole' "$("$xm23" run -n 1001000 long.paper mine.asm)" "$("$xm23" run long.paper mine.asm)"
like 'run -n -l' "$("$xm23" run -l -n 1006 long.paper mine.asm | tail -1)" '  screen  A'
like 'run -n -l, before it' "$("$xm23" run -l -n 1005 long.paper mine.asm | tail -1)" '  depth .*'
has='the run has the steps 1000 to 1000999'
expect 'run -n beyond the end' 1 '' "mine.asm: step 1001001 is beyond the end: $has" "$xm23" run -n 1001001 long.paper mine.asm
expect 'run -n before the start' 1 '' "mine.asm: step 999 is before the start: $has" "$xm23" run -n 999 long.paper mine.asm
expect 'run -n of no step' 1 '' 'mine.asm: step 1: no step was taken' "$xm23" run -n 1 <(echo 'steps 0') mine.asm
expect 'run -n 0 of no step' 0 '0 0 .*' '' "$xm23" run -n 0 <(echo 'steps 0') mine.asm
sitting=$top/examples/sitting
expect 'no line is expected there' 0 '0 46 0019 .*' '' "$xm23" run -n 46 "$sitting/sum.paper" "$sitting/programs/stops_early.s19"
expect 'nor behind the end' 1 '' '.*step 6 is beyond the end: the run has the steps 0 to 4' \
    "$xm23" run -n 6 "$sitting/sum.paper" "$sitting/programs/halting.s19"
expect 'a halt, by its count' 0 '1 5 .*' '' "$xm23" run -n 5 "$sitting/sum.paper" "$sitting/programs/halting.s19"
expect 'run -n of a refused program' 1 'R11' '.*:2: R11: .*' \
    "$xm23" run -n 5 "$sitting/sum.paper" "$sitting/programs/refused.s19"
for word in -1 x '' 4294967296 10000000000 1e3 ' 5' 0x5; do
    expect "run -n '$word'" 2 '' "$(usage run)" "$xm23" run -n "$word" long.paper mine.asm
    expect "report -a '$word'" 2 '' "$(usage report)" "$xm23" report -a "$word" long.paper mine.asm
    expect "back -a '$word'" 2 '' "$(usage back)" "$xm23" back -a "$word" long.paper mine.asm
done
expect 'run -n of the largest count' 1 '' 'mine.asm: step 4294967295 is beyond the end: .*' \
    "$xm23" run -n 4294967295 long.paper mine.asm
for command in 'run -n' 'report -a' 'back -a'; do
    # shellcheck disable=SC2086
    expect "$command without a word" 2 '' "$(usage "${command% *}")" "$xm23" $command
done

# ---- back -a: what a run that ends behind the step tells
for count in 1000 1005 1512 1513 500000 1000999; do
    sed "s/^steps.*/steps $((count - 999))/" long.paper > cut.paper
    same "back -a $count" "$("$xm23" back -a "$count" -n 40 long.paper mine.asm)" "$("$xm23" back -n 40 cut.paper mine.asm)"
done
same 'back -a, one step' "$("$xm23" back -a 1003 -n 1 long.paper mine.asm | sed 1d)" \
    '1003        1006  5C01  ST R0,R1                  0300: 41 00  ; START+6
before step 1003: R0 0041 R1 0300 R2 0000 R3 0000 R4 0000 LR FFFF SP 0800 PC 1006 PSW 0000 CEX 00 lines 00000000'
same 'back -a, sixteen' "$("$xm23" back -a 500000 long.paper mine.asm | wc -l)" 18
same 'back -a, 1,024' "$("$xm23" back -n 1024 -a 500000 long.paper mine.asm | wc -l)" 1026
expect 'back -a beyond the end' 1 '' "mine.asm: step 1001000 is beyond the end: $has" \
    "$xm23" back -a 1001000 long.paper mine.asm
expect 'back -a before the start' 1 '' "mine.asm: step 0 is before the start: $has" "$xm23" back -a 0 long.paper mine.asm

# ---- back -w over the whole run
left='\.\.          99[0-9]* steps left out'
expect 'back -w, a million steps back' 0 "step .*$left.*1003 .*ST R0,R1 .*before step 1003: .*" '' \
    timeout 20 "$xm23" back -w 301 long.paper mine.asm
same 'the writer and what follows' "$(sed -n '3,$p' "$room/out" | wc -l)" 17
expect 'nobody in a million steps' 1 '' 'mine.asm: none of the last 1000000 steps wrote \$4321' \
    timeout 20 "$xm23" back -w 4321 long.paper mine.asm
like 'back -w, of the last tick' "$("$xm23" back -w TICKS long.paper mine.asm | tail -2 | head -1)" '801307 .*; TICK\+12'
same 'by its address too' "$("$xm23" back -w '$0130' long.paper mine.asm)" "$("$xm23" back -w TICKS long.paper mine.asm)"
like 'back -w, of the last frame' "$("$xm23" back -w 7FE long.paper mine.asm | tail -2 | head -1)" '801300 .*accepted.*'
like 'back -w, of a device' "$("$xm23" back -w 5 long.paper mine.asm | tail -2 | head -1)" '1005 .*device 2 data 41.*'
like 'back -w -a, the tick before' "$("$xm23" back -a 801306 -w TICKS long.paper mine.asm | tail -2 | head -1)" '801107 .*'
expect 'back -w -a, none up to there' 1 '' 'mine.asm: none of the 3 steps up to step 1002 wrote \$0300' \
    "$xm23" back -a 1002 -w DATA long.paper mine.asm
expect 'back -w -n, none so near' 1 '' 'mine.asm: none of the last 1024 steps wrote \$0300' \
    "$xm23" back -n 1024 -w DATA long.paper mine.asm
# A byte at each place of a part of 1,024 steps: the writer is found wherever a part begins or ends.
for at in 0 1 1022 1023 1024 1025 2047 2048 2049; do
    printf 'steps 5000\nstart PC=$1000 R0=7 R1=$4000\nbytes $0 0\n' > part.paper
    awk -v at="$at" 'BEGIN { print " ORG $1000"; for (i = 0; i < at; i++) print " ADD #1,R2"; print " ST.B R0,R1"
        for (i = 0; i < 3000; i++) print " ADD #1,R3"; print "HERE BRA HERE"; print "END" }' > part.asm
    same "a writer at $at" "$("$xm23" back -w 4000 part.paper part.asm | tail -2 | head -1 | cut -d' ' -f1)" "$at"
done

# ---- names
expect 'a name that nobody gives' 1 '' 'mine.asm: NOBODY is no name that a source of the program or of the paper gives' \
    "$xm23" back -w NOBODY long.paper mine.asm
expect 'a name that is no address' 1 '' 'mine.asm: LIMIT comes to 70000, which is no address' \
    "$xm23" back -w LIMIT long.paper mine.asm
printf 'TICKS EQU $0200\nBEEF EQU $0300\nAGAIN EQU $0130\n' | cat - mine.asm > two.asm
expect 'two values' 1 '' 'two.asm: TICKS is a name of two sources, with two values: give the address' \
    "$xm23" back -w TICKS long.paper two.asm
like 'a name before digits' "$("$xm23" back -w BEEF long.paper two.asm | tail -2 | head -1)" '1003 .*'
expect 'with its mark it is an address' 1 '' '.* wrote \$BEEF' "$xm23" back -w '$BEEF' long.paper two.asm
expect 'an S-record program has none' 1 '' 'mine.s19: DATA is no name .*' "$xm23" back -w DATA long.paper mine.s19
like 'but the paper has' "$("$xm23" back -w TICKS long.paper mine.s19 | tail -2 | head -1)" '801307 .*; TICK\+12'
for word in x TICKs 'A B' '' 10000 '$' 'TICK+2' '$TICKS'; do
    expect "back -w '$word'" 2 '' "$(usage back)" "$xm23" back -w "$word" long.paper mine.asm
done
same 'labels end with a gap' "$("$xm23" back -n 3 <(printf 'steps 3\nstart PC=$0FFE\nwords $0FFE $4088\n') mine.asm |
    sed -n 's/^[0-9].*  //p' | tr '\n' '|')" '; START+2|; START|R0 0001|'
same 'the paper lies over labels' "$("$xm23" back -n 2 <(printf 'steps 2\nwords $1000 $4088\n') mine.asm |
    sed -n 's/^[0-9].*  //p' | tr '\n' '|')" '; START+2|R0 0001|'
long=$(printf 'A%.0s' {1..60})
printf '%s ORG $1000\n ADD #1,R0\n%sB BRA %sB\nEND\n' "$long" "$long" "$long" > letters.asm
same 'of a long name the first letters' "$("$xm23" back -n 1 plain.paper letters.asm | sed -n '2s/.*; //p')" "${long:0:24}.."
same 'a listing has all of them' "$("$xm23" dis letters.asm | grep -c "^${long}B\$")" 1
awk 'BEGIN { print " ORG $1000"; for (i = 0; i < 1024; i++) printf "N%04d ADD #1,R0\n", i; print "END" }' > names.asm
expect 'a page of 1,024 labels' 0 '' '' "$xm23" report -o names.html plain.paper names.asm
python3 -c 'print("A" * 500000 + " ORG $1000\nB" + "A" * 400000 + " ADD #1,R0\nEND")' > huge.asm
expect 'a page of huge names' 0 '' '' "$xm23" report -o huge.html plain.paper huge.asm

# A folder: the names of all its sources; where two of them give one twice, a listing leaves it out.
mkdir both
printf ' ORG $1000\nSTART SVC #12\nLOOP BRA LOOP\nEND\n' > both/program.asm
printf ' ORG $3000\nTRAP ADD #1,R0\nLOOP MOV LR,PC\n ORG $FFF0\n WORD $0040\n WORD TRAP\nEND\n' > both/trap.asm
same 'labels of a folder' "$("$xm23" back -n 4 <(printf 'steps 4\nstart SP=$800\n') both | sed -n 's/.*; //p' | tr '\n' ' ')" \
    'LOOP TRAP START '
expect 'a name that two files give' 1 '' 'both: LOOP is a name of two sources, .*' "$xm23" back -w LOOP plain.paper both
expect 'a name of one file' 1 '' 'both: none of the last 1000000 steps wrote \$3000' "$xm23" back -w TRAP plain.paper both
same 'its listing assembles' "$("$xm23" dis both > both.asm; "$xm23" asm both.asm | grep -v ^S9)" \
    "$("$xm23" asm both/program.asm | grep ^S1; "$xm23" asm both/trap.asm | grep ^S1)"

# ---- report -a
expect 'report -a' 0 '' '' "$xm23" report -a 500000 -o at.html long.paper mine.asm
steps() { # PAGE: the steps of its walk, and how many
    python3 -c 'import base64, json, sys
page = open(sys.argv[1]).read()
data = json.loads(page[page.index("id=\"data\">") + 10:page.index("</script>")])
journal = base64.b64decode(data["journal"])
counts = [int.from_bytes(journal[i + 22:i + 26], "little") for i in range(0, len(journal), 64)]
assert counts == list(range(counts[0], counts[0] + len(counts))) and len(counts) == len(data["steps"])
print(counts[0], counts[-1], data["at"], data["behind"])' "$1"
}
same 'its walk' "$(steps at.html)" '499488 500511 513 500488'
same 'it says so' "$(grep -c '<p>The walk shows steps 499488 to 500511 of 1000000, around step 500000.</p>' at.html)" 1
heads() { sed -n 's/.*<h2[^>]*>\(.*\)<\/h2>.*/\1/p' "$1" | tr '\n' '|'; }
like 'its tables' "$(heads at.html)" \
    '.*Machine before step 500000.*Steps 499984 to 500015.*of steps 499488 to 500511.Stack before.*Devices before step 500000.*'
fields() { sed -n '/<h2>Machine before/,/<\/table>/s/.*<td class="n">\([^<]*\)<.*/\1/p' "$1" | tr '\n' ' '; }
same 'the machine there' "$(fields at.html)" "$("$xm23" run -n 500000 long.paper mine.asm | cut -d' ' -f2-) "
table() { # PAGE HEADING: its rows as back prints them
    sed -n "/<h2>$2/,/<\/table>/p" "$1" | grep '^<tr' | sed 's/<\/td>/ /g; s/<[^>]*>//g; s/&#36;/$/g; s/ *$//'
}
same 'the steps around it' "$(table at.html 'Steps 499984' | tr -s ' ')" \
    "$("$xm23" back -a 500015 -n 32 long.paper mine.asm | sed '1d; $d; s/  *; / /' | tac | tr -s ' ')"
same 'its own row is marked' "$(grep -c '^<tr class="changed"><td class="n">500000<' at.html)" 1
same 'screens before it' "$("$xm23" report -a 1003 long.paper mine.asm | grep -o '"shown":.*')" \
    '"shown":0,"screen":"","log":[[5,2,65]]}'
same 'screens behind it' "$(grep -o '"shown":.*' at.html)" '"shown":0,"screen":"QQ==","log":[]}'
for count in 1000 1001 1511 1512 1000488 1000999; do
    "$xm23" report -a "$count" -o at.html long.paper mine.asm
    read -r first last at behind <<< "$(steps at.html)"
    same "report -a $count" "$((last - first)) $((first + at - 1)) $((last + behind))" "1023 $count 1000999"
done
same 'a short run is whole' "$("$xm23" report -a 46 "$sitting/sum.paper" "$sitting/programs/sound.s19" > at.html; steps at.html)" \
    '0 119 47 0'
expect 'report -a beyond the end' 1 '' "mine.asm: step 1001000 is beyond the end: $has" \
    "$xm23" report -a 1001000 -o none.html long.paper mine.asm
expect 'report -a before the start' 1 '' "mine.asm: step 5 is before the start: $has" \
    "$xm23" report -a 5 -o none.html long.paper mine.asm
same 'writes no page' "$(ls none.html 2> /dev/null)" ''
expect 'report -a of a refused program' 1 '' '.*refused.s19:2: R11: .*' \
    "$xm23" report -a 5 -o refused.html "$sitting/sum.paper" "$sitting/programs/refused.s19"
same 'writes its page' "$(grep -c '>Refused: ' refused.html)" 1

# ---- closing steps that change nothing
"$xm23" report -o end.html plain.paper end.asm
same 'a closing loop is skipped' "$(steps end.html)" '7171 8194 1024 991805'
said='<p>From step 8194 on nothing changes but the step count: BRA $1008 at $1008, in the last 991806 steps. '
said+='The walk shows the steps before them, and of them the first.</p>'
same 'and told' "$(grep '^<p>From step' end.html)" "$said"
same 'the table ends before it' "$(table end.html 'The last 32 steps before the closing ones' | tail -1)" \
    '8193 1006 27FE BNE $1004  LOOP+2'
same 'the closing state is the run'\''s' "$(sed -n 's/.*<pre class="line">\(.*\)<.*/\1/p' end.html)" \
    "$("$xm23" run plain.paper end.asm)"
closing() { # WHAT FIRST-AND-LAST PAPER SOURCE
    printf '%b' "$3" > c.paper
    printf '%b' "$4" > c.asm
    "$xm23" report -o c.html c.paper c.asm
    same "$1" "$(steps c.html | cut -d' ' -f1,2) $(sed -n 's/^<p>From step \([0-9]*\) .*count: \(.*\), in the.*/\1 \2/p' c.html)" "$2"
}
closing 'asleep' '0 1023 1 asleep at $0002' 'steps 5000\n' ' SETCC S\nEND\n'
closing 'a loop of two is none' '3976 4999 ' 'steps 5000\n' 'A BRA B\nB BRA A\nEND\n'
closing 'a loop that counts is none' '3976 4999 ' 'steps 5000\n' 'A ADD #1,R0\n BRA A\nEND\n'
closing 'from the first step on' '0 1023 0 BRA $0000 at $0000' 'steps 5000\n' 'A BRA A\nEND\n'
closing 'an event ends it' '3477 4500 4500 BRA $0100 at $0100' 'steps 5000\n4499 3 0\n' ' ORG $100\nA BRA A\nEND\n'
closing 'an event behind the end does not' '0 1023 0 BRA $0100 at $0100' 'steps 5000\n5000 3 0\n' ' ORG $100\nA BRA A\nEND\n'
closing 'a short run has all' '0 99 0 BRA $0000 at $0000' 'steps 100\n' 'A BRA A\nEND\n'
closing 'no step' ' ' 'steps 0\nstart HALTED=1\n' 'A BRA A\nEND\n' 2> /dev/null
closing 'a halt' '0 0 ' 'steps 5000\nstart PSW=$0100\n' ' WORD $4E00\nEND\n'
closing 'the last count' '4294967294 4294967294 ' 'steps 1\nstart COUNT=4294967294\n' 'A BRA A\nEND\n'
same 'pages are well-formed' "$(python3 -B "$top/tests/desk/pages.py" ./*.html)" 'all well-formed'
count
