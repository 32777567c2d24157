#!/usr/bin/env bash
# Papers that people write: papers.sh [PROGRAM], build/xm23 if none is named. every, type, source and its names, used
# and misused; xm23 paper, whose paper read again is the same: every paper of the repository, and random ones.
set -u
cd "$(dirname "$0")/../.."
. tests/shell/expect.sh
top=$PWD
xm23=$(realpath "${1:-build/xm23}")
sitting=$top/examples/sitting
sound=$sitting/programs/sound.s19

# ---- printed and read again it is the same
while IFS= read -r paper; do
    expect "$paper: printed" 0 '' '' "$xm23" paper -o "$room/a.paper" "$paper"
    expect "$paper: printed again" 0 '' '' "$xm23" paper -o "$room/b.paper" "$room/a.paper"
    same "$paper: is the same" "$(cat "$room/b.paper")" "$(cat "$room/a.paper")"
    same "$paper: runs as it did" "$("$xm23" run "$room/a.paper" "$sound" 2>&1 | sed 's/^[^:]*:[0-9]*://')" \
        "$("$xm23" run "$paper" "$sound" 2>&1 | sed 's/^[^:]*:[0-9]*://')"
    same "$paper: events as they were" "$("$xm23" events -c "$room/a.paper" "$sound" | cut -d, -f2-)" \
        "$("$xm23" events -c "$paper" "$sound" | cut -d, -f2-)"
done < <(find . -name '*.paper' -not -path './build/*' | sort)
like 'random papers' "$(python3 -B tests/desk/random_papers.py "$xm23" 150 | tail -20)" '[0-9]+ passed, 0 failed'

cd "$room" || exit 1
printed() { # WHAT PAPER PRINTED: of a paper with 'steps 9' the other lines
    printf 'steps 9\n%b' "$2" > p.paper
    expect "$1" 0 "steps    9${3:+$'\n'$3}" '' "$xm23" paper p.paper
    same "$1: again" "$("$xm23" paper <("$xm23" paper p.paper))" "$("$xm23" paper p.paper)"
}
wrong() { # LINE TEXT LINES [STATUS]
    printf 'steps 9\n%b\n' "$3" > p.paper
    expect "a paper: $2" "${4:-1}" '' "$1 $2" "$xm23" paper p.paper
}

# ---- events by a period and by a text
printed 'every' 'every 50 from 50 to 200 1 0\n' $'50       1 \$00\n100      1 \$00\n150      1 \$00\n200      1 \$00'
printed 'its last step is not met' 'every 7 from 0 to 13 #2 $FF\n' $'0        2 \$FF\n7        2 \$FF'
printed 'one step' "every 1 from 5 to 5 7 'H' ; once\n" '5        7 \$48'
printed 'a period beyond' 'every 4294967295 from 1 to 4294967295 1 0\n' '1        1 \$00'
printed 'the last step of all' 'every 1 from 4294967294 to 4294967295 1 0\n' \
    $'4294967294 1 \$00\n4294967295 1 \$00'
printed 'type' 'type 1000 every 200 0 "Hi;"\n' $'1000     0 \$48\n1200     0 \$69\n1400     0 \$3B'
printed 'each escape' 'type 0 every 1 3 "\\"\\\\\\n\\r\\t\\x00\\xfF" ; "\n' \
    '0        3 \$22.1        3 \$5C.2        3 \$0A.3        3 \$0D.4        3 \$09.5        3 \$00.6        3 \$FF'
printed 'bytes as they are' 'type 0 every 1 3 "\351\001"\n' $'0        3 \$E9\n1        3 \$01'
printed 'of one step by lines' 'type 10 every 10 0 "ab"\n10 1 5\nevery 10 from 0 to 20 2 6\n20 3 7\n' \
    '0        2 \$06.10       0 \$61.10       1 \$05.10       2 \$06.20       0 \$62.20       2 \$06.20       3 \$07'
wrong p.paper:2: "'0' is no period, 1 to 4294967295" 'every 0 from 1 to 2 1 0'
wrong p.paper:2: "'#-5' is no period, .*" 'every #-5 from 1 to 2 1 0'
wrong p.paper:2: 'period is missing' 'every'
wrong p.paper:2: "'to' stands where 'from' should" 'every 5 to 9 from 1 1 0'
wrong p.paper:2: 'from is missing' 'every 5 ; from'
wrong p.paper:2: "'1' stands where 'to' should" 'every 5 from 1 1 0'
wrong p.paper:2: 'step 9 is before step 10' 'every 5 from 10 to 9 1 0'
wrong p.paper:2: "'4294967296' is no step, 0 to 4294967295" 'every 5 from 10 to 4294967296 1 0'
wrong p.paper:2: 'byte is missing' 'every 5 from 10 to 20 1'
wrong p.paper:2: "'256' is no byte, 0 to 255" 'every 5 from 10 to 20 1 256'
wrong p.paper:2: "'3' is one word too many" 'every 5 from 10 to 20 1 2 3'
wrong p.paper:2: "R6: an event's device is above 7.*" 'every 5 from 10 to 20 8 0'
wrong p.paper:2: 'the text is empty: it types nothing' 'type 5 every 1 0 ""'
wrong p.paper:2: 'a text in double quotes is missing' "type 5 every 1 0 'a'"
wrong p.paper:2: 'a text in double quotes is missing' 'type 5 every 1 0'
wrong p.paper:2: 'the double quote that ends a text is missing' 'type 5 every 1 0 "abc'
wrong p.paper:2: "'\\\\x5Cq\"' begins with no byte of a text: .*" 'type 5 every 1 0 "a\\q"'
wrong p.paper:2: "'\\\\x5Cx1\"' begins with no byte of a text: .*" 'type 5 every 1 0 "\\x1"'
wrong p.paper:2: "'\\\\x5C' begins with no byte of a text: .*" 'type 5 every 1 0 "\\'
wrong p.paper:2: "'x' stands behind the double quote that ends a text" 'type 5 every 1 0 "a"x'
wrong p.paper:2: "'\"b\"' is one word too many" 'type 5 every 1 0 "a" "b"'
wrong p.paper:2: "'from' stands where 'every' should" 'type 5 from 1 0 "a"'
wrong p.paper:2: "'0' is no period, .*" 'type 5 every 0 0 "a"'
wrong p.paper:2: 'the text passes step 4294967295' 'type 4294967295 every 1 0 "ab"'
wrong p.paper:3: 'R13: two events share step and device: lines 2 and 3' 'every 5 from 0 to 20 1 0\n10 1 7'
wrong p.paper:3: 'R13: two events share step and device: lines 2 and 3' '10 1 7\nevery 5 from 0 to 20 1 0'
wrong p.paper:3: 'R13: .*: lines 2 and 3' 'every 5 from 0 to 20 1 0\ntype 3 every 2 1 "ab"'
wrong p.paper:4: "R7: an event's step is below.*" '10 1 7\nevery 1 from 0 to 5 2 0\n9 1 7'

# 4,096 events and no more, by whichever line.
printf 'steps 9\nevery 1 from 1 to 4095 1 0\n' > full.paper
{ cat full.paper; echo '5000 1 0'; } > p.paper
same 'as many as there may be' "$("$xm23" paper p.paper | wc -l)" 4097
{ cat p.paper; echo '5001 1 0'; } > q.paper
expect 'one too many' 1 '' "q.paper:4: R5: .* above 4,096 records" "$xm23" paper q.paper
{ cat p.paper; echo 'type 6000 every 1 1 "a"'; } > q.paper
expect 'one too many, typed' 1 '' "q.paper:4: R5: .*" "$xm23" paper q.paper
wrong p.paper:3: 'R5: .*' '5 0 0\nevery 1 from 0 to 4294967295 1 0\n6 0 0'

# ---- sources
mkdir -p in/deep 'with blanks'
cat > in/clock.asm << 'END'
COUNT   EQU $0130
LOW     EQU #-5
HIGH    EQU #70000
        ORG $2000
TICK    ADD #1,R0
DATA    WORD TICK
        BYTE #7
FREE    BSS #10
        END
END
cp in/clock.asm 'with blanks/clock.asm'
ln -s ../clock.asm in/deep/linked.asm
mkfifo in/pipe.asm
source='S10820008840002007E8'
paper() { # LINES: in/p.paper
    printf 'steps 9\n%b\n' "$1" > in/p.paper
}
brings() { # WHAT LINES PRINTED
    paper "$2"
    expect "$1" 0 "steps    9${3:+$'\n'$3}" '' "$xm23" paper in/p.paper
}
fails() { # TEXT LINES [STATUS]
    paper "$2"
    expect "$1" "${3:-1}" '' "$1" "$xm23" paper in/p.paper
}
brings 'a source' 'source clock.asm ; the handler' "$source"
brings 'by its whole name' "source $room/in/clock.asm" "$source"
brings 'above the folder' 'source deep/../clock.asm' "$source"
brings 'in quotes' 'source "../with blanks/clock.asm" ; x' "$source"
brings 'by a link' 'source deep/linked.asm' "$source"
brings 'a name in a vector' 'vector 1 $60 TICK\nsource clock.asm' $'vector   1 \$0060 \$2000\n'"$source"
brings 'names anywhere' 'source clock.asm\nwords COUNT TICK LOW\nstart SP=FREE R0=LOW PC=TICK\nuse 1 COUNT' \
    $'start    R0=\$FFFB SP=\$2005 PC=\$2000\nbytes    \$0130 \$00 \$20 \$FB \$FF\n'"$source"$'\nuse      1 304'
brings 'names of steps' 'source clock.asm\nevery COUNT from COUNT to TICK 1 0\n9000 1 0' \
    "$source"$'\n304 .*9000     1 \$00'
brings 'beside other bytes' 'source clock.asm\nbytes $1FFF 1\nbytes FREE 2' \
    $'bytes    \$1FFF \$01\nbytes    \$2005 \$02\n'"$source"
fails "in/p.paper:3: 'TOCK' is no name that a source of the paper gives" 'source clock.asm\nvector 1 0 TOCK'
fails "in/p.paper:2: 'TICK' is no PC, 0 to 65535" 'vector 1 0 TICK'
fails "in/p.paper:3: 'tick' is no PC, 0 to 65535" 'source clock.asm\nvector 1 0 tick'
fails "in/p.paper:3: 'R0' is no name .*" 'source clock.asm\nvector 1 0 R0'
fails "in/p.paper:3: 'HIGH' comes to 70000, which does not fit" 'source clock.asm\nvector 1 0 HIGH'
fails "in/p.paper:3: 'LOW' comes to -5, which does not fit" 'source clock.asm\nvector 1 0 LOW'
fails "in/p.paper:3: 'HIGH' comes to 70000, which does not fit" 'source clock.asm\nstart R0=HIGH'
fails "in/p.paper:3: 'TICK' comes to 8192, which does not fit" 'source clock.asm\nbytes 0 TICK'
fails "in/p.paper:3: 'TICK' begins no line of a paper: .*" 'source clock.asm\nTICK 1 0'
fails 'in/p.paper:2: in/none.asm: No such file or directory' 'source none.asm' 3
fails 'in/p.paper:2: in/deep: is a folder' 'source deep' 3
fails 'in/p.paper:2: in/pipe.asm: is no regular file' 'source pipe.asm' 3
fails 'in/p.paper:2: /dev/zero: is no regular file' 'source /dev/zero' 3
fails 'in/p.paper:2: the name of a source is missing' 'source ; clock.asm'
fails "in/p.paper:2: '\"\"' is no name of a file" 'source ""'
fails "in/p.paper:2: '\"a\\\\x5Cx00\"' is no name of a file" 'source "a\\x00"'
fails "in/p.paper:2: 'asm' is one word too many" 'source clock.asm asm'
fails 'in/p.paper:2: the double quote that ends a text is missing' 'source "clock.asm'
head -c 1048577 /dev/zero > in/long.asm
fails 'in/p.paper:2: in/long.asm: is longer than 1048576 bytes' 'source long.asm' 3
printf ' ORG $1000\n ADD R0,R1\n BRA X\n END\n' > in/bad.asm
fails 'in/bad.asm:3: R18: a name is unknown.*' 'source bad.asm\nsource none.asm'
printf ' ADD R0,R1\n' > in/bad.asm
fails 'in/bad.asm:2: R17: .*' 'vector nothing\nsource bad.asm'

# What two of them state, or one and another line.
printf 'OTHER EQU #1\nTICK EQU #2\n END\n' > in/names.asm
fails 'in/names.asm:2: TICK is a name of in/clock.asm:5 too' 'source clock.asm\nsource names.asm'
fails 'in/clock.asm:1: COUNT is a name of in/clock.asm:1 too' 'source clock.asm\nsource clock.asm'
printf ' ORG $1FFF\n BYTE #1\n BYTE #2\n END\n' > in/bytes.asm
fails 'in/bytes.asm:3: \$2000 is stated in in/clock.asm:5 too' 'source clock.asm\nsource bytes.asm'
fails 'in/p.paper:3: \$2004 is stated in in/clock.asm:7 too' 'source clock.asm\nwords $2004 1'
fails 'in/p.paper:2: \$2000 is stated in in/clock.asm:5 too' 'bytes $1FFE 1 2 3\nsource clock.asm'
fails 'in/p.paper:3: \$2002 is stated in in/clock.asm:6 too' \
    'S1041000AA41\nS1042002AA2F\nsource clock.asm\nS1043000AA21'
printf ' ORG $FFC4\n WORD $60\n ORG $0002\n BYTE $11\n END\n' > in/machine.asm
fails 'in/p.paper:3: \$FFC4 is stated in in/machine.asm:2 too' 'source machine.asm\nvector 1 1 1'
fails 'in/p.paper:3: \$0002 is stated in in/machine.asm:4 too' 'source machine.asm\ndevice 1 1'
printf 'OTHER EQU #1\n END\n' > in/other.asm
brings 'three of them' 'source clock.asm\nsource machine.asm\ndevice 2 OTHER\nsource other.asm' \
    $'device   2 \$01 \$00\nS104000211E8\nS10820008840002007E8\nS105FFC46000D7'
for i in {1..17}; do printf ' END\n' > "in/e$i.asm"; done
paper "$(printf 'source e%d.asm\\n' {1..16})"
expect 'sixteen of them' 0 'steps    9' '' "$xm23" paper in/p.paper
fails 'in/p.paper:18: a paper brings 16 sources at most' "$(printf 'source e%d.asm\\n' {1..17})"

# The PC is the program's, but where start names it.
paper 'source clock.asm'
same 'the PC is that of the program' "$("$xm23" run in/p.paper "$sound" | cut -d' ' -f2)" 9
paper 'source clock.asm\nstart PC=TICK'
same 'the PC that start names' "$("$xm23" back -n 9 in/p.paper "$sound" | tail -2 | head -1 | cut -c1-30)" \
    '0           2000  4088  ADD #1'

# ---- digests: the paper's, and behind it those of its sources
paper 'source machine.asm\nsource clock.asm'
"$xm23" mark -o marks in/p.paper "$sound"
both=$(sha256sum in/p.paper in/machine.asm in/clock.asm | cut -c-64 | tr '\n' ' ')
same 'in the results' "$(cut -d, -f9 marks/results.csv | tail -1)" "${both% }"
same 'on a page' "$(grep -c "${both% }" marks/pages/*)" 1
same 'in the table' "$(grep -c "${both% }" marks/index.html)" 1

# ---- the command
expect 'no paper' 2 '' "$(usage paper)" "$xm23" paper
expect 'two papers' 2 '' "$(usage paper)" "$xm23" paper in/p.paper in/p.paper
expect 'an option that it has not' 2 '' "$(usage paper)" "$xm23" paper -x in/p.paper
expect 'no such paper' 3 '' 'none: No such file.*' "$xm23" paper none
expect 'help' 0 'usage: xm23 paper .*' '' "$xm23" paper --help
kept=$(cat in/clock.asm in/p.paper)
expect 'over its paper' 3 '' 'in/p.paper: cannot be written: .*' "$xm23" paper -o in/p.paper in/p.paper
expect 'over a source' 3 '' 'in/clock.asm: cannot be written: .*' "$xm23" paper -o in/clock.asm in/p.paper
expect 'a page over a source' 3 '' 'in/deep/linked.asm: cannot be written: .*' \
    "$xm23" report -o in/deep/linked.asm in/p.paper "$sound"
same 'both stay' "$(cat in/clock.asm in/p.paper)" "$kept"
printf 'steps 9\ntitle \e[2J\\ \r\r\n' > p.paper
same 'a title of any bytes' "$("$xm23" paper p.paper | od -An -c | head -2 | tr -d ' \n')" \
    "$(printf 'title    \e[2J\\ \r\r\nsteps    9\n' | od -An -c | head -2 | tr -d ' \n')"
same 'and again' "$("$xm23" paper p.paper | cksum)" "$("$xm23" paper <("$xm23" paper p.paper) | cksum)"
like 'on a terminal' "$(python3 -B "$top/tests/desk/terminal.py" "$xm23" paper p.paper | tr -d '\r')" \
    $'title    \\\\x1B\\[2J\\\\x5C \\\\x0D\\\\x0D\nsteps    9'

# ---- docs/SITTING.md
cd "$sitting" || exit 1
same 'the source is the handler of the paper' "$("$xm23" paper ticks.paper | grep ^S)" "$(grep ^S1 sum.paper)"
sed -n '/^    \$ xm23 paper ticks.paper$/,/^$/p' "$top/docs/SITTING.md" | sed '1d; $d; s/^    //; /^\.\.$/d' > "$room/doc"
same 'what the guide prints' "$("$xm23" paper ticks.paper | grep -Fx -f "$room/doc")" "$(cat "$room/doc")"
same 'a thousand ticks' "$("$xm23" events ticks.paper sources/sound.asm | grep -c ' accepted at step ')" 1000
count
