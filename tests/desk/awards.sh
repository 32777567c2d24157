#!/usr/bin/env bash
# Points for what a run closed with: awards.sh [PROGRAM], build/xm23 if none is named. Lines of a paper, used and
# misused; what run, report and mark tell of them; cells read back by Python's csv; pages; a paper of the example.
set -u
cd "$(dirname "$0")/../.."
. tests/shell/expect.sh
top=$PWD
xm23=$(realpath "${1:-build/xm23}")
sitting=$top/examples/sitting
programs=$sitting/programs
sound=$programs/sound.s19

# ---- the comparison, by a table
gcc -std=c99 -pedantic -O2 -Wall -Wextra -Werror -Iinclude -fsanitize=undefined -fno-sanitize-recover=all \
    -o "$room/awards" tests/desk/awards.c desk/award.c || exit 1
like 'one comparison' "$("$room/awards")" '[1-9][0-9]+ passed, 0 failed'

cd "$room" || exit 1
heads() { # FOLDER: the columns behind those that every sitting has
    python3 - "$1" << 'END'
import csv, sys
with open(sys.argv[1] + "/results.csv", newline="") as file:
    rows = list(csv.reader(file))
print("\n".join(rows[0][rows[0].index("application") + 1:-1]))
assert all(len(row) == len(rows[0]) for row in rows), "a row has more cells than there are columns"
END
}

# ---- lines of a paper
printed() { # WHAT LINE PRINTED: an award as it is understood
    printf 'steps 9\n%b\n' "award 5 $2" > p.paper
    expect "$1" 0 "steps    9"$'\n'"award    5 $3" '' "$xm23" paper p.paper
    same "$1: again" "$("$xm23" paper <("$xm23" paper p.paper))" "$("$xm23" paper p.paper)"
}
wrong() { # TEXT LINE [NUMBER]: a mistake on that line, the second if none is named
    printf 'steps 9\n%b\n' "$2" > p.paper
    expect "a paper: $1" 1 '' "p.paper:${3:-2}: $1" "$xm23" paper p.paper
}
for i in 0 1 2 3 4; do printed "R$i" "R$i = \$1F" "R$i = \\\$001F"; done
printed 'LR' 'R5 != 0' 'LR != \$0000'
printed 'SP' 'R6 <= #65535' 'SP <= \$FFFF'
printed 'PC' 'R7 >= $1000 ; a comment' 'PC >= \$1000'
printed 'LR by name' "LR = 'H'" 'LR = \$0048'
printed 'SP by name' 'SP\t=   $0800' 'SP = \$0800'
printed 'PC by name' 'PC = #-2' 'PC = \$FFFE'
printed 'a number below 0' 'R0 != #-32768' 'R0 != \$8000'
printed 'PSW' 'PSW = $E1FF' 'PSW = \$E1FF'
printed 'CEX' 'CEX != $7F' 'CEX != \$7F'
printed 'a byte' 'byte $FFFF = #-1' 'byte \$FFFF = \$FF'
printed 'a byte in order' 'byte 0 >= 7' 'byte \$0000 >= \$07'
printed 'a word' 'word $FFFE = 31' 'word \$FFFE = \$001F'
printed 'bytes' "bytes 256 = 1 #-1 'a' \$7f ; x" 'bytes \$0100 = \$01 \$FF \$61 \$7F'
printed 'one byte' 'bytes $FFFF != 0' 'bytes \$FFFF != \$00'
printed 'a screen' 'screen 2 = "SUM"' 'screen 2 = "SUM"'
printed 'a silent screen' 'screen 7 = ""' 'screen 7 = ""'
printed 'another screen' 'screen 0 != "a;b" ; c' 'screen 0 != "a;b"'
printed 'a part of it' 'screen 2 has "a\\"\\\\\\n\\x00\\xFF\351"' 'screen 2 has "a\\x22\\x5C\\x0A\\x00\\xFF\\xE9"'
printed 'characters' 'screen 2 has "\303\251"' $'screen 2 has "\xc3\xa9"'
printed 'reason' 'reason = 1' 'reason = 1'
printed 'depth' 'depth <= 4294967295' 'depth <= 4294967295'
printed 'sound' 'sound ; x' 'sound'
printed 'undisturbed' 'undisturbed' 'undisturbed'
printf 'steps 9\naward 1000 sound\npass 1000\n' > p.paper
expect 'as many points as there are' 0 'steps    9.award    1000 sound.pass     1000' '' "$xm23" paper p.paper
printf 'A EQU $0120\nMANY EQU #3\nMINUS EQU #-5\n END\n' > names.asm
printf 'steps 9\naward MANY word A = MINUS\naward 1 bytes A = MANY 4 MINUS\npass MANY\nsource names.asm\n' > p.paper
names=$'steps    9\naward    3 word \\$0120 = \\$FFFB\naward    1 bytes \\$0120 = \\$03 \\$04 \\$FB\npass     3'
expect 'names of a source' 0 "$names" '' "$xm23" paper p.paper

wrong 'number of points is missing' award
wrong "'0' is no number of points, 1 to 1000" 'award 0 sound'
wrong "'1001' is no number of points, 1 to 1000" 'award 1001 sound'
wrong "'#-1' is no number of points, .*" 'award #-1 sound'
wrong "'sound' is no number of points, .*" 'award sound'
wrong 'what the points are given for is missing' 'award 1 ; sound'
wrong "'R8' is nothing that points are given for: R0 to R7, .*" 'award 1 R8 = 1'
wrong "'r0' is nothing that points are given for: .*" 'award 1 r0 = 1'
wrong "'=' is nothing that points are given for: .*" 'award 1 = 1'
wrong "'\\\\x1B\\[2J' is nothing that points are given for: .*" 'award 1 \033[2J = 1'
wrong "'R0=31' has no blanks around its relation: R0 = \\\$001F" 'award 1 R0=31'
wrong "'R0>=31' has no blanks around its relation: .*" 'award 1 R0>=31'
wrong 'the relation is missing' 'award 1 R0'
wrong 'the relation is missing' 'award 1 word 2 ; ='
wrong "'==' is no relation of R0: =, !=, <=, >=" 'award 1 R0 == 1'
wrong "'<' is no relation of R0: .*" 'award 1 R0 < 1'
wrong "'has' is no relation of word: =, !=, <=, >=" 'award 1 word 2 has 1'
wrong "'<=' is no relation of PSW: =, !=" 'award 1 PSW <= 1'
wrong "'>=' is no relation of CEX: =, !=" 'award 1 CEX >= 1'
wrong "'<=' is no relation of bytes: =, !=" 'award 1 bytes 2 <= 1'
wrong "'>=' is no relation of screen: =, !=, has" 'award 1 screen 2 >= "a"'
wrong "'<=' is no relation of reason: =, !=" 'award 1 reason <= 1'
wrong "'=' is one word too many" 'award 1 sound = 1'
wrong "'yes' is one word too many" 'award 1 undisturbed yes'
wrong 'value of R0 is missing' 'award 1 R0 ='
wrong "'65536' is no value of R0, -32768 to 65535" 'award 1 R0 = 65536'
wrong "'#-32769' is no value of R0, .*" 'award 1 R0 != #-32769'
wrong "'#-1' is no value of R0, 0 to 65535" 'award 1 R0 <= #-1'
wrong "'#001F' is no number: # is base ten, \\\$ base sixteen" 'award 1 R0 = #001F'
wrong "'#-1' is no value of PSW, 0 to 65535" 'award 1 PSW = #-1'
wrong "'\\\$80' is no value of CEX, 0 to 127" 'award 1 CEX = $80'
wrong "'256' is no value of byte, -128 to 255" 'award 1 byte 0 = 256'
wrong "'2' is no value of reason, 0 to 1" 'award 1 reason = 2'
wrong "'4294967296' is no value of depth, .*" 'award 1 depth <= 4294967296'
wrong "'1' is one word too many" 'award 1 R0 = 1 1'
wrong "'\\\$10000' is no address, 0 to 65535" 'award 1 byte $10000 = 1'
wrong 'address is missing' 'award 1 word'
wrong "\\\$0121 is no address of a word: it is odd" 'award 1 word $0121 = 1'
wrong 'byte is missing' 'award 1 bytes 0 ='
wrong "'x' is no byte, -128 to 255" 'award 1 bytes 0 = 1 x'
wrong 'passes \$FFFF' 'award 1 bytes $FFFE = 1 2 3'
wrong "'8' is no device, 0 to 7" 'award 1 screen 8 = "a"'
wrong 'a text in double quotes is missing' "award 1 screen 2 = 'a'"
wrong 'the double quote that ends a text is missing' 'award 1 screen 2 = "a'
wrong 'the text is empty: every screen has it' 'award 1 screen 2 has ""'
wrong "'b' is one word too many" 'award 1 screen 2 has "a" b'
wrong 'this award is on line 2 already' 'award 1 R5 = #-1\naward 2 LR = $FFFF' 3
wrong 'this award is on line 3 already' 'award 1 screen 2 = "a"\naward 1 sound\naward 1 sound' 4
wrong 'pass is on line 2 already' 'pass 1\npass 1\naward 5 sound' 3
wrong 'number of points is missing' 'pass'
wrong "'0' is no number of points, 1 to 64000" 'pass 0'
wrong "'64001' is no number of points, .*" 'pass 64001'
wrong "'2' is one word too many" 'pass 1 2'
wrong 'nobody can pass: all awards together give 0 points' 'pass 1'
wrong 'nobody can pass: all awards together give 1 point' 'award 1 sound\npass 2' 3
wrong "'awards' begins no line of a paper: .* award, pass, .*" 'awards 1 sound'
{ echo 'steps 9'; for i in {1..64}; do echo "award 1000 byte $i = 0"; done; echo 'pass 64000'; } > p.paper
same 'as many awards as there may be' "$("$xm23" paper p.paper | grep -c ^award)" 64
echo 'award 1 sound' >> p.paper
expect 'one too many' 1 '' 'p.paper:67: a paper has 64 awards at most' "$xm23" paper p.paper
many=$(printf ' %d' {0..255})
printf 'steps 9\naward 1 bytes $0100 =%s\n' "$many" > p.paper
same 'as many bytes as there may be' "$("$xm23" paper p.paper | grep -o ' \$' | wc -l)" 257
printf 'steps 9\naward 1 bytes $0100 =%s 0\n' "$many" > p.paper
expect 'one byte too many' 1 '' 'p.paper:2: an award has at most 256 bytes' "$xm23" paper p.paper
printf 'steps 9\naward 1 screen 2 = "%0257d"\n' 0 > p.paper
expect 'a text of one too many' 1 '' 'p.paper:2: a text has at most 256 bytes' "$xm23" paper p.paper
printf 'steps 9\naward 1 screen 2 = "%0256d"\n' 0 > p.paper
expect 'a text of as many' 0 '.*' '' "$xm23" paper p.paper

# ---- run: the points, on a terminal or with -l; the status where they are not enough
sed '/^expect/d' "$sitting/sum.paper" > plain.paper
{ cat plain.paper; printf '%s\n' 'award 4 word $0120 = 31' 'award 2 R0 = 31' 'award 1 screen 2 = "SUM"' \
    'award 3 word $0130 >= 2' 'award 1 reason != 1' 'award 2 sound' 'pass 12'; } > a.paper
at=$(grep -n '^pass' a.paper | cut -d: -f1)
line='0 120 001F 0120 0000 0006 0000 FFFF 0800 1016 0003 00 00000000 1'
expect 'run' 0 "$line" '' "$xm23" run a.paper "$sound"
points='     4 of 4     word $0120 = $001F
     2 of 2     R0 = $001F
     0 of 1     screen 2 = "SUM": ""
     3 of 3     word $0130 >= $0002
     1 of 1     reason != 1
     2 of 2     sound
  12 of 13 points, 12 to pass: passed'
same 'run -l' "$("$xm23" run -l a.paper "$sound" | tail -7)" "$points"
same 'on a terminal' "$(python3 -B "$top/tests/desk/terminal.py" "$xm23" run a.paper "$sound" | tr -d '\r' | tail -7)" \
    "$points"
expect 'not enough' 1 '0 120 0019 .*' "a.paper:$at: 6 of 13 points, 12 to pass: not passed" \
    "$xm23" run a.paper "$programs/stops_early.s19"
same 'what was found' "$("$xm23" run -l a.paper "$programs/screen.asm" 2> /dev/null | tail -7)" \
    '     0 of 4     word $0120 = $001F: $0000
     0 of 2     R0 = $001F: $004D
     1 of 1     screen 2 = "SUM"
     3 of 3     word $0130 >= $0002
     1 of 1     reason != 1
     2 of 2     sound
  7 of 13 points, 12 to pass: not passed'
same 'of a fault' "$("$xm23" run -l a.paper "$programs/halting.s19" 2> /dev/null | tail -3)" \
    '     0 of 1     reason != 1: 1
     0 of 2     sound: fault 8, step 3
  0 of 13 points, 12 to pass: not passed'
expect 'a refused program' 1 'R11' ".*refused.s19:2: R11: .*a.paper:$at: 0 of 13 points, 12 to pass: not passed" \
    "$xm23" run a.paper "$programs/refused.s19"
same 'gets none' "$("$xm23" run -l a.paper "$programs/refused.s19" 2> /dev/null | tail -1)" \
    '  0 of 13 points, 12 to pass: not passed'
grep -v '^pass' a.paper > b.paper
expect 'who passes is not said' 0 '0 120 0019 .*' '' "$xm23" run b.paper "$programs/stops_early.s19"
same 'the points are' "$("$xm23" run -l b.paper "$programs/stops_early.s19" | tail -1)" '  6 of 13 points'
{ cat a.paper; echo "expect 0 120 0019 * * * * * * * * * * *"; } > both.paper
expect 'both, of which one is not so' 1 "$line" "both.paper:$((at + 1)): another line was expected: .*" \
    "$xm23" run both.paper "$sound"
expect 'and the other' 1 '0 120 0019 .*' "both.paper:$at: 6 of 13 points, 12 to pass: not passed" \
    "$xm23" run both.paper "$programs/stops_early.s19"
expect 'report' 0 '' '' "$xm23" report -o page.html a.paper "$sound"
expect 'report of one with too few' 1 '' "a.paper:$at: 6 of 13 points, 12 to pass: not passed" \
    "$xm23" report -o page.html a.paper "$programs/stops_early.s19"
same 'has a page' "$(grep -c '<p id="points">6 of 13 points, 12 to pass: not passed</p>' page.html)" 1

# What each device shows is its own; memory, registers and relations at their ends.
printf '%s\n' ' ORG $1000' ' MOVLZ $41,R0' ' MOVLZ $05,R1' ' MOVLZ $07,R2' ' ST.B R0,R1' ' ST.B R0,R2' ' ADD #1,R0' \
    ' ST.B R0,R1' ' MOVLZ #-1,R3' ' MOVH #-1,R3' 'HERE BRA HERE' ' END' > two.asm
{ printf 'steps 50\ndevice 2 $10\ndevice 3 $10\nbytes $FFFE 1 2\nstart SP=$8000\n'
    printf 'award 1 %s\n' 'screen 2 = "AB"' 'screen 3 = "A"' 'screen 2 != "ABA"' 'screen 2 has "B"' 'screen 4 = ""' \
        'R3 = #-1' 'R3 >= $FFFF' 'SP <= $8000' 'SP >= $8000' 'word $FFFE = $0201' 'byte $FFFF = 2' 'bytes $FFFE = 1 2' \
        'bytes $FFFD != 1 2 3' 'depth = 0' 'reason = 0' 'PC >= $1000' 'undisturbed' 'CEX = 0' 'PSW != 1'
    printf 'award 10 %s\n' 'screen 2 = "A"' 'screen 3 = "AB"' 'screen 3 has "B"' 'screen 4 != ""' 'R3 <= $FFFE' \
        'SP >= $8001' 'SP <= $7FFF' 'byte $FFFE >= 2' 'bytes $FFFE = 1 3' 'depth >= 1' 'depth != 0' 'reason = 1' \
        'CEX = 1' 'R3 != #-1'; } > ends.paper
same 'each of them' "$("$xm23" run -l ends.paper two.asm | tail -1)" '  19 of 159 points'

# Points for soundness are given whatever the steps and events; a run that is judged no further gets none.
sed 's/^steps.*/steps 1000000/' a.paper > long.paper
same 'a long run is judged' "$("$xm23" run -l long.paper "$sound" | tail -2 | head -1)" '     2 of 2     sound'
"$xm23" mark -o long long.paper "$sound"
same 'in mark too' "$(cells long handlers sound)" 'sound|2'
printf 'steps 9\naward 1 undisturbed\n' > none.paper
"$xm23" mark -o none none.paper "$sound"
same 'without events too' "$(cells none application undisturbed total passed)" 'undisturbed|1|1|'
printf '%s\n' 'steps 3000' 'start PC=$1000 SP=$8000' 'words $1000 $3FFF' 'words $2000 $4D80 $3FFF' 'device 1 $11' \
    'vector 1 $0020 $2000' 'every 4 from 0 to 1600 1 0' 'award 1 sound' 'award 1 undisturbed' > deep.paper
printf 'S9030000FC\n' > empty.s19
like 'judged no further' "$("$xm23" run -l deep.paper empty.s19 2> /dev/null | tail -2)" \
    '     0 of 1     undisturbed: judged for its first [0-9]+ steps alone.  0 of 2 points'

# ---- mark: cells, the table, pages, the status
expect 'mark' 1 '' 'no/such: No such file or directory' "$xm23" mark -o marks a.paper "$sound" "$programs/stops_early.s19" "$programs/refused.s19" no/such
same 'its columns' "$(heads marks)" $'word $0120 = $001F\nR0 = $001F\nscreen 2 = "SUM"\nword $0130 >= $0002
reason != 1\nsound\ntotal\npassed'
same 'its cells' "$(cells marks 'word $0120 = $001F' 'R0 = $001F' 'screen 2 = "SUM"' sound total passed agrees)" \
    $'4|2|0|2|12|yes|\n0|0|0|2|6|no|\n0|0|0|0|0|no|\n0|0|0|0|0|no|'
expect 'all have passed' 0 '' '' "$xm23" mark -o some a.paper "$sound" "$sound"
expect 'nobody need' 0 '' '' "$xm23" mark -o some b.paper "$sound" "$programs/stops_early.s19"
same 'and nothing is said of it' "$(cells some total passed)" $'12|\n6|'
expect 'passed, and not as expected' 1 '' '' "$xm23" mark -o some both.paper "$sound"
same 'has a cell each' "$(cells some agrees passed)" 'no|yes'
"$xm23" mark -o some plain.paper "$sound"
same 'a paper without awards has no such column' "$(heads some)" ''
counts() { sed -n 's/^<p id="verdict">\(.*\)<\/p>$/\1/p' "$1/index.html"; }
same 'the table counts them' "$(counts marks)" '4 programs: 1 passed, 3 not; 2 without a closing state'
same 'and says what is enough' "$(grep -c '^<p>12 of 13 points are enough to pass.</p>$' marks/index.html)" 1
same 'a column for each' "$(grep -o '<th class="award">[^/]*' marks/index.html | sed 's/<[^>]*>/|/g' | tr -d '\n')" \
    "|word \$0120 = \$001F|of 4<|R0 = \$001F|of 2<|screen 2 = &#34;SUM&#34;|of 1<|word \$0130 &#62;= \$0002|of 3<\
|reason != 1|of 1<|sound|of 2<"
same 'those that have not can be shown' "$(grep -c 'only those that have not passed' marks/index.html)" 1
"$xm23" mark -o some both.paper "$sound" "$programs/stops_early.s19"
same 'of both' "$(counts some)" '2 programs: 1 as expected, 1 not; 1 passed, 1 not; 0 without a closing state'
same 'who is neither' "$(grep -o 'data-agrees="[a-z]*"' some/index.html | tr '\n' ' ')" \
    'data-agrees="no" data-agrees="no" '
awards_of() { # PAGE: the table of awards, a bar between two cells
    sed -n '/<div id="awards">/,/^<\/div>$/p' "$1" |
        sed -n 's/<\/td><td[^>]*>/|/g; s/<tr[^>]*><td[^>]*>//; s/<\/td><\/tr>$//p'
}
same 'what is found beside what is wanted' "$(awards_of marks/pages/000002-*)" \
    '0 of 4|word $0120|= $001F|$0019
0 of 2|R0|= $001F|$0019
0 of 1|screen 2|= &#34;SUM&#34;|&#34;&#34;
3 of 3|word $0130|&#62;= $0002|$0002
1 of 1|reason|!= 1|0
2 of 2|sound||sound'
same 'of one that did not run nothing is found' "$(awards_of marks/pages/000003-*)" ''
same 'but its points are told' "$(grep -c '0 of 13 points, 12 to pass: not passed' marks/pages/00000[34]-*)" \
    $'marks/pages/000003-refused.s19.html:1\nmarks/pages/000004-such.html:1'
same 'report writes the same page' "$("$xm23" report a.paper "$programs/stops_early.s19" 2> /dev/null | cksum)" \
    "$(cksum < marks/pages/000002-stops_early.s19.html)"

# What could not be marked has no points, and nobody says that it has not passed.
if [ $# -eq 0 ]; then
    gcc -shared -fPIC -O1 -Wall -Wextra -Werror -o shim.so "$top/tests/desk/shim.c" -ldl || exit 1
    cp "$sound" trouble.s19
    cp "$sound" mine.s19
    SHIM_FAILS=read:5 SHIM_NOTES=$room/calls LD_PRELOAD=$room/shim.so \
        "$xm23" mark -o trouble a.paper trouble.s19 mine.s19 2> err
    same 'the machine failed' "$? $(cells trouble sound total passed)" $'3 ||\n2|12|yes'
    same 'it is not counted' "$(counts trouble)" \
        '2 programs: 1 passed, 0 not; 1 without a closing state; 1 could not be marked'
    same 'its page has no points' "$(grep -c 'id="points"' trouble/pages/*)" \
        $'trouble/pages/000001-trouble.s19.html:0\ntrouble/pages/000002-mine.s19.html:1'
fi

# ---- texts of any bytes: the paper's and what a program shows
printf 'steps 9\ndevice 2 $10\n%b\n%b\n' 'award 1 screen 2 = "=1+1,\\"<b>\\n\\x1B;&|\351\303\251"' \
    'award 2 screen 2 has "<script>"' > odd.paper
expect 'a paper of odd texts' 0 '' '' "$xm23" mark -o odd odd.paper "$sound"
same 'columns of any bytes' "$(heads odd | sed -n 1,2p)" \
    $'screen 2 = "=1+1,"<b>\\x0A\\x1B\\x3B&|\\xE9\xc3\xa9"\nscreen 2 has "<script>"'
same 'each is one cell' "$(cells odd 'screen 2 has "<script>"' total passed)" '0|0|'
same 'where a semicolon splits too' "$(head -1 odd/results.csv | grep -c ';')" 0
same 'no tag of theirs' "$(cat odd/index.html odd/pages/* | grep -c '<b>\|"<script>')" 0
same 'well-formed' "$(python3 -B "$top/tests/desk/pages.py" {odd,marks}/index.html {odd,marks}/pages/*)" \
    'all well-formed'
{
    printf '        ORG $1000\n        MOVLZ $05,R1\n'
    for byte in 3D 3C 62 3E 1B 22 26 00; do printf '        MOVLZ $%s,R0\n        ST.B R0,R1\n' "$byte"; done
    printf 'HERE    BRA HERE\n        END\n'
} > odd.asm
printf 'steps 90\ndevice 2 $10\naward 1 screen 2 = "x"\n' > shows.paper
same 'what a program shows' "$("$xm23" run -l shows.paper odd.asm | tail -2 | head -1)" \
    '     0 of 1     screen 2 = "x": "=<b>\x1B"&\x00"'
"$xm23" report -o page.html shows.paper odd.asm
same 'on its page' "$(awards_of page.html)" \
    '0 of 1|screen 2|= &#34;x&#34;|&#34;=&#60;b&#62;\x1B&#34;&#38;\x00&#34;'
printf ' ORG $1000\n MOVLZ $05,R1\n MOVLZ $3C,R0\nHERE ST.B R0,R1\n BRA HERE\n END\n' > loud.asm
{
    printf 'steps 1000000\ndevice 2 $10\n'
    for i in {1..64}; do printf 'award 1 screen 2 has "%0256d"\n' "$i" | tr 0 '<'; done
} > most.paper
expect 'a long screen, many times' 0 '' '' timeout 60 "$xm23" mark -o most most.paper loud.asm
same 'has a page that is not too long' "$(python3 -B "$top/tests/desk/pages.py" most/index.html most/pages/*)" \
    'all well-formed'
same 'and says how long it was' "$(grep -c ' .. (499999 bytes)' most/pages/*)" 64

# ---- the example: a program and eight handlers under a paper with awards
cd "$sitting" || exit 1
expect 'the example' 1 '' '' "$xm23" mark -o "$room/example" handlers.paper programs/*
# docs/SITTING.md: the lines of the paper, and what two commands print.
awk '/^    award/,/^$/' "$top/docs/SITTING.md" | sed 's/^    //; /^$/d' > "$room/doc"
same 'the awards of the guide' "$(cat "$room/doc")" "$(grep -E '^(award|pass)' handlers.paper)"
for program in with_handlers stops_early.s19; do
    sed -n "/^    \$ xm23 run -l handlers.paper programs\/$program$/,/^$/p" "$top/docs/SITTING.md" |
        sed '1d; $d; s/^    //; /^\.\.$/d' > "$room/doc"
    same "what it prints of $program" "$("$xm23" run -l handlers.paper "programs/$program" 2> "$room/err" |
        grep -Fx -f "$room/doc")" "$(cat "$room/doc")"
done
cd "$room" || exit 1
same 'its digest, as the guide has it' "$(cells example program_sha256 | tail -1)" \
    "$(cd "$programs/with_handlers" && LC_ALL=C sha256sum -z *.asm | sha256sum | cut -c -64)"
same 'its points' "$(cells example total passed | paste -s -d ' ')" '2|no 0|no 6|no 12|no 6|no 20|yes'
count
