#!/usr/bin/env bash
# What xm23 shows of papers and programs: texts.sh [PROGRAM], build/xm23 if none is named. Bytes of strangers as text in
# messages, cells, pages and listings; pages that are of their own program alone.
set -u
cd "$(dirname "$0")/../.."
. tests/shell/expect.sh
xm23=$(realpath "${1:-build/xm23}")
paper=$PWD/examples/sitting/sum.paper
sound=$PWD/examples/sitting/programs/sound.s19

# ---- bytes of strangers
like 'every character, in a listing' "$(python3 -B tests/desk/printable.py "$xm23" | tail -40)" \
    '[0-9]+ passed, 0 failed'
escape=$'no/\e]0;such\a\u202Egolden\u2066\xC0\x80\\'
shown='no/\\x1B]0;such\\x07\\xE2\\x80\\xAEgolden\\xE2\\x81\\xA6\\xC0\\x80\\x5C'
expect 'a name in a message' 3 '' "$shown: No such file.*" "$xm23" run "$paper" "$escape"
expect 'a paper in a message' 3 '' "$shown: No such file.*" "$xm23" run "$escape" "$sound"
expect 'a subcommand in a message' 2 '' "xm23: '$shown' is no subcommand.*" "$xm23" "$escape"
printf 'steps 5\n\xE2\x80\xAE\\\0\x9B\n' > "$room/p.paper"
expect 'a word of a paper' 1 '' "$room/p.paper:2: '\\\\xE2\\\\x80\\\\xAE\\\\x5C\\\\x00\\\\x9B' begins no line .*" \
    "$xm23" run "$room/p.paper" "$sound"
printf 'steps 5\ntitle a \0 b\n' > "$room/p.paper"
expect 'a title with a zero byte' 1 '' "$room/p.paper:2: the title has a zero byte" "$xm23" run "$room/p.paper" "$sound"
printf '; \e[2J\e]52;c;AAAA\a \xE2\x80\xAE\n END ; \x9B31m\n' > "$room/escape.asm"
same 'comments in a listing' "$("$xm23" asm -l "$room/escape.asm" | cut -c20-)" \
    $'; \\x1B[2J\\x1B]52;c;AAAA\\x07 \\xE2\\x80\\xAE\n END ; \\x9B31m'
printf 'steps 0\ntitle \e[2J <i>\xE2\x80\xAE & "\\" \x80\n' > "$room/title.paper"
"$xm23" report -o "$room/title.html" "$room/title.paper" "$room/escape.asm"
same 'a title on a page' "$(sed -n 's/^<p>\(\\x1B.*\)<\/p>$/\1/p' "$room/title.html")" \
    '\x1B[2J &#60;i&#62;\xE2\x80\xAE &#38; &#34;\x5C&#34; \x80'
same 'no raw byte on a page' "$(LC_ALL=C grep -c $'[\x01-\x08\x0B-\x1F\x7F-\xFF]' "$room/title.html")" 0

# ---- cells, read back by Python: what could be a formula has an apostrophe before it
python3 - "$xm23" "$paper" "$room" << 'END' > "$room/cells"
import csv, os, re, subprocess, sys
xm23, paper, room = sys.argv[1:]
names = [b"=1+1", b"+1", b"-1,\"2\"", b"@SUM(A1)", b"\t=1", b"\r=1", b"'=1", b" =1", b"a\nb\r\n", b"\x1B[2J", b"a,b",
         b'"', b"a\\b", b"\xC0\x80", *(name.encode() for name in ("\u202Ecsv.s19", "\uFF1D1", "\uFF20x", "Grüße"))]
subprocess.run([xm23.encode(), b"mark", b"-o", room.encode() + b"/cells.d", paper.encode(), *names], cwd=room)
data = open(room + "/cells.d/results.csv", "rb").read()
rows = list(csv.DictReader(data.decode().splitlines()))
plain = lambda text: re.sub(rb"\\x([0-9A-F]{2})", lambda m: bytes([int(m[1], 16)]), text.encode())
print("rows", len(rows))
print("controls", [byte for byte in data if byte < 32 and byte != 10 or byte == 127])
print("formulas", [r["name"] for r in rows if r["name"][0] in "=+-@\t\r\uFF1D\uFF0B\uFF0D\uFF20"])
print("back", [plain(r["name"].removeprefix("'")) for r in rows] == names)
print("columns", {len(r) for r in csv.reader(data.decode().splitlines())})
print("quoted", sum(r["name"].startswith("'") for r in rows))
END
same 'names in cells' "$(cat "$room/cells")" $'rows 18\ncontrols []\nformulas []\nback True\ncolumns {12}\nquoted 9'

# ---- lines end in LF or CR LF; of the last one the LF may be missing, or both
for end in '\n' '\r\n' '\r' ''; do
    printf 'steps 5\r\ntitle a title\r\nexpect 0 5 * * * * * * * * * * * *%b' "$end" > "$room/ends.paper"
    expect "a last line that ends in '$end'" 0 '0 5 .*' '' "$xm23" run "$room/ends.paper" "$sound"
    printf 'steps 5\ntitle a title%b' "$end" > "$room/ends.paper"
    "$xm23" report -o "$room/ends.html" "$room/ends.paper" "$sound"
    same 'has no byte of its ending' "$(grep -c '^<p>a title</p>$' "$room/ends.html")" 1
done
printf 'steps 5\rtitle\n' > "$room/ends.paper"
expect 'a CR in the middle of a line' 1 '' "$room/ends.paper:1: '5\\\\x0Dtitle' is no number .*" \
    "$xm23" run "$room/ends.paper" "$sound"

# ---- the expected line, judged when the paper is read
line='0 120 001F 0120 0000 0006 0000 FFFF 0800 1016 0003 00 00000000 1'
unlined=$(grep -v ^expect "$paper")
here="$room/e.paper:$(($(echo "$unlined" | wc -l) + 1)):"
expecting() { # TEXT STATUS OUTPUT ERRORS: a paper that expects the text, and the program that closes with the line
    printf '%s\nexpect%b\n' "$unlined" "$1" > "$room/e.paper"
    expect "expect$1" "$2" "$3" "$4" "$xm23" run "$room/e.paper" "$sound"
}
for text in " $line" "   $line   " " ${line,,}" $'\t'"${line// /$'\t  '}" " $line ; as the model" " $line ;" \
    ' * * * * * * * * * * * * * *' ' 0 120 001f * * * * * 0800 * * * * 1' " *${line#0}" " ${line% 1} *"; do
    expecting "$text" 0 "$line" ''
done
for text in ' 1 120 * * * * * * * * * * * *' ' * * * * * * * * * * * * * 2' ' 0 120 001E * * * * * * * * * * *' ' R11' \
    ' r 11 ; none'; do
    expecting "$text" 1 "$line" "$here another line was expected: .*"
done
mistaken() { # TEXT ERRORS
    expecting "$1" 1 '' "$here $2"
}
ends='the expected line ends before'
mistaken '' "$ends reason: it has 14 fields, or is R and a number"
mistaken '  ; later' "$ends reason: .*"
mistaken ' see model' "'see' is no reason: 0 to 1, or \*"
mistaken ' 2 1' "'2' is no reason: .*"
mistaken ' 0 120' "$ends R0: .*"
mistaken " ${line% *}" "$ends depth: .*"
mistaken " $line 1" "'1' is one word too many"
mistaken " $line *" "'\*' is one word too many"
mistaken " ${line/ 1*}" "$ends steps: .*"
mistaken " ${line/120/0120}" "'0120' is no steps: 0 to 4294967295, or \*"
mistaken " ${line/120/4294967296}" "'4294967296' is no steps: .*"
mistaken " ${line/001F/1F}" "'1F' is no R0: 4 digits of base sixteen, or \*"
mistaken " ${line/001F/0001F}" "'0001F' is no R0: .*"
mistaken " ${line/001F/\$01F}" "'\\\$01F' is no R0: .*"
mistaken " ${line/001F/00?F}" "'00\?F' is no R0: .*"
mistaken " ${line/001F/**}" "'\*\*' is no R0: .*"
mistaken ' 0 120 00\00001F' "'00\\\\x001F' is no R0: .*"
mistaken " ${line/ 00 / 0 }" "'0' is no CEX: 2 digits of base sixteen, or \*"
mistaken " ${line/00000000/0000000}" "'0000000' is no lines: 8 digits .*"
mistaken " $line; as the model" "'1;' is no depth: .*"
for text in R R0 R20x 'R 99' R256 R011 'R*' R-1 'r ;'; do
    mistaken " $text" "'${text//\*/\\*}' is no refusal: R and its number"
done
mistaken ' R11 R12' "'R12' is one word too many"
printf 'expect %s\nexpect %s\n' "$line" "$line" > "$room/e.paper"
expect 'two of them' 1 '' "$room/e.paper:2: the expected line is on line 1 already" "$xm23" run "$room/e.paper" "$sound"

# Marked by it: the model agrees, what cannot be read never does, a refusal does where it is expected.
printf '%s\nexpect * * 001f * * * * * * * * * * * ; R0\n' "$unlined" > "$room/e.paper"
expect 'marked by one field' 1 '' 'no/such: No such file or directory' \
    "$xm23" mark -o "$room/field" "$room/e.paper" "$sound" "${sound%/*}/stops_early.s19" no/such
agreeing() { # FOLDER
    python3 -c 'import csv, sys
print(*(row["agrees"] for row in csv.DictReader(open(sys.argv[1], newline=""))))' "$1/results.csv"
}
same 'one agrees' "$(agreeing "$room/field")" 'yes no no'
same 'thirteen fields may be anything' "$(grep -c '<td class="n">any</td>' "$room"/field/pages/*-sound*)" 13
same 'one may not' "$(grep -c 'not 001F' "$room"/field/pages/*-stops_early*)" 1
printf '%s\nexpect r11\n' "$unlined" > "$room/e.paper"
expect 'marked by a refusal' 1 '' 'no/such: No such file or directory' \
    "$xm23" mark -o "$room/refusal" "$room/e.paper" "${sound%/*}/refused.s19" "$sound" no/such
same 'the refused one agrees' "$(agreeing "$room/refusal")" 'yes no no'
same 'pages are well-formed' "$(python3 -B tests/desk/pages.py "$room"/{refusal,field}/pages/*.html)" 'all well-formed'

# ---- stack bytes: no figure without the vectors
printf 'steps 5\nuse 2 6\nuse 5 2\nvector 5 $00A0 $2000\n' > "$room/s.paper"
printf '        ORG $FFC8\n        WORD $0060\n        WORD $2000\n        END\n' > "$room/s.asm"
printf '        END\n' > "$room/none.asm"
printf '        ORG $FFC8\n        BYTE $60\n        END\n' > "$room/half.asm"
expect 'stack without a vector' 1 '' \
    "$room/s.paper:2: the vector of device 2, .*, is not in the paper; 'xm23 stack PAPER PROGRAM' takes it .*" \
    "$xm23" stack "$room/s.paper"
expect 'stack with that of a program' 0 '.*2       3         6.*5       5         2.*above priority 0: 24 bytes' '' \
    "$xm23" stack "$room/s.paper" "$room/s.asm"
for name in none half; do
    expect "stack with a program that has it not: $name" 1 '' \
        "$room/s.paper:2: the vector of device 2 is neither in the paper nor in $room/$name.asm" \
        "$xm23" stack "$room/s.paper" "$room/$name.asm"
done
printf 'S107FFC860000020B1\n' >> "$room/s.paper"
expect 'stack with that of an S-record of the paper' 0 '.*above priority 0: 24 bytes' '' "$xm23" stack "$room/s.paper"

# ---- nothing is written over what is read
{
    printf '        ORG $1000\n        ADD #1,R0\n        END\n' > "$room/own.asm"
    ln -s own.asm "$room/symbolic.asm"
    ln "$room/own.asm" "$room/hard.asm"
    mkdir "$room/other"
    own=$(cat "$room/own.asm")
    stays='.*: cannot be written: it is the file that is read'
}
for to in own.asm other/../own.asm symbolic.asm hard.asm; do
    expect "asm -o $to" 3 '' "$stays" "$xm23" asm -o "$room/$to" "$room/own.asm"
    expect "dis -o $to" 3 '' "$stays" "$xm23" dis -o "$room/$to" "$room/own.asm"
    expect "report -o $to" 3 '' "$stays" "$xm23" report -o "$room/$to" "$paper" "$room/own.asm"
done
expect 'asm -l -o itself, by a link' 3 '' "$stays" "$xm23" asm -l -o "$room/own.asm" "$room/symbolic.asm"
cp "$paper" "$room/own.paper"
expect 'report over the paper' 3 '' "$stays" "$xm23" report -o "$room/own.paper" "$room/own.paper" "$room/own.asm"
same 'the paper stays' "$(cat "$room/own.paper")" "$(cat "$paper")"
same 'the source stays' "$(cat "$room/own.asm")" "$own"
same 'its links stay' "$(readlink "$room/symbolic.asm") $(stat -c %h "$room/own.asm")" 'own.asm 2'
expect 'to another file' 0 '' '' "$xm23" asm -o "$room/own.s19" "$room/own.asm"
expect 'to a device that is read' 1 '' '.*: R10: .*' "$xm23" dis -o /dev/null /dev/null

# ---- how the program is compiled
if [ $# -eq 0 ]; then
    same 'an image that lies anywhere' "$(readelf -hW "$xm23" | grep -c 'Type: *DYN')" 1
    same 'bound before it starts' "$(readelf -dW "$xm23" | grep -c 'BIND_NOW')" 1
    same 'tables that are closed then' "$(readelf -lW "$xm23" | grep -c 'GNU_RELRO')" 1
    same 'no code on the stack' "$(readelf -lW "$xm23" | grep -c 'GNU_STACK .* RW ')" 1
    same 'canaries' "$(readelf -W --dyn-syms "$xm23" | grep -c ' __stack_chk_fail@')" 1
    same 'checked calls' "$(readelf -W --dyn-syms "$xm23" | grep -c ' __vsnprintf_chk@')" 1
fi

# ---- a page is of its own program alone, whichever were marked before it
python3 - "$room" << 'END'
import random, sys
dice, room = random.Random(7), sys.argv[1]
lines = ["ADD #1,R0", "SUB #1,R1", "ST R0,R4", "ST.B R1,R4+", "SVC #12", "CMP R0,R1", "SWPB R3", "WORD $4E00",
         "SVC #13", "CEX EQ,#2,#1", "LD R4,R2", "MOVLZ $05,R4", "MOVLZ $40,R4", "SETCC S"]
for i in range(40):
    some = lambda many: "".join(f" {dice.choice(lines)}\n" for _ in range(many))
    with open(f"{room}/walk{i}.asm", "w") as file:
        file.write(f" ORG $1000\nLOOP ADD #1,R0\n{some(dice.randrange(2, 20))} BRA LOOP\n")
        file.write("".join(f" ORG ${at}\n{some(dice.randrange(3))} MOV LR,PC\n" for at in (2000, 2100)) + " END\n")
with open(f"{room}/clock.paper", "w") as file:
    file.write("steps 900\nstart SP=$0800\ndevice 1 $11\ndevice 2 $10\n")
    file.write("".join(f"vector {v} ${dice.randrange(4) << 5:X} ${dice.choice([2000, 2100])}\n" for v in range(16)))
    file.write("".join(f"{9 * i + dice.randrange(9)} 1 0\n" for i in range(100)))
END
pages() { # WORKERS
    (cd "$room" && "$xm23" mark -j "$1" -o "walks$1" clock.paper walk{0..39}.asm)
    (cd "$room/walks$1" && find pages -type f -exec cksum {} + | sort -k 3)
}
one=$(pages 1)
same 'forty pages' "$(echo "$one" | wc -l)" 40
same 'by one worker and by eight' "$(pages 8)" "$one"
other=
for i in {0..39}; do
    (cd "$room" && "$xm23" report -o page.html clock.paper "walk$i.asm" 2> "$room/err")
    cmp -s "$room/page.html" "$room"/walks1/pages/*"-walk$i.asm.html" || other+=" $i"
done
same 'each is that of report' "$other" ''
same 'with lines that were accepted' \
    "$(cat "$room"/walks1/pages/* | grep -c 'class="n pre">.*line of device 1 accepted')" \
    "$(cat "$room"/walks1/pages/* | grep -c '<td class="n"></td><td class="n pre">line of device 1 accepted')"

# ---- the manual: a macro that changes letters word by word joins the words, and has few of them
same 'no words are run together' "$(awk '/^\.(BR|RB|IR|RI|BI|IB) / {
    gsub(/"[^"]*"/, "quoted")
    if (NF > 7)
        print FILENAME ":" FNR
}' man/*.[15])" ''
count
