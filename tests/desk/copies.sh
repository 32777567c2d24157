#!/usr/bin/env bash
# Programs that are alike: copies.sh [PROGRAM], build/xm23 if none is named. Groups, pairs, ignored bits, what counts
# for nothing, hostile names and files, the column of a marking, and the page.
set -u
cd "$(dirname "$0")/../.."
. tests/shell/expect.sh
xm23=$(realpath "${1:-build/xm23}")
checked=${1:-}
cd "$room"
printf 'title A sitting\nsteps 50\nstart SP=$0800\n' > p.paper

# code SEED LINES: so many lines of instructions, the same for the same seed; made once.
code() {
    [ -e "code $1 $2" ] || make_code "$@" > "code $1 $2"
    cat "code $1 $2"
}
make_code() {
    python3 -S -E - "$@" << 'END'
import random, sys
dice = random.Random(sys.argv[1])
R = lambda: "R%d" % dice.randrange(5)
KINDS = [lambda: f"ADD {R()},{R()}", lambda: f"SUB.B {R()},{R()}", lambda: f"MOVL ${dice.randrange(256):02X},{R()}",
         lambda: f"LD {R()},{R()}", lambda: f"ST {R()},{R()}+", lambda: f"XOR {R()},{R()}", lambda: f"CMP #1,{R()}",
         lambda: f"LDR {R()},#{dice.randrange(64)},{R()}", lambda: f"MOVH ${dice.randrange(256):02X},{R()}"]
for _ in range(int(sys.argv[2])):
    print(" " + dice.choice(KINDS)())
END
}
source_of() { # NAME ORIGIN, the lines from standard input
    { echo " ORG \$$2"; cat; echo " WORD \$$2"; echo ' END'; } > "$1"
}
code one 40 | source_of alice.asm 1000
code one 40 | source_of gina.asm 2000 # its last word is its origin: not the same words
{ echo '; my own work'; echo 'START'; cat alice.asm; } > bob.asm
sed 's/R1/RX/g; s/R2/R1/g; s/RX/R2/g' alice.asm > carol.asm
{ code two 30; code one 40 | sed -n '5,30p'; code three 20; } | source_of dave.asm 1800
{ code four 50; echo ' ADD R1,R2'; echo ' WORD $4CD3'; } | source_of erin.asm 1000
{ echo ' ADD R1,R2'; echo ' WORD $4CD3'; code five 50; } | source_of frank.asm 1000
code six 60 | source_of henry.asm 1000
code seven 8 | source_of short1.asm 1000
cp short1.asm short2.asm
tell() { "$xm23" copies p.paper "$@"; }
person='What is alike may have an honest reason: a person decides\.'

# ---- groups and pairs
expect 'nothing alike' 0 '2 programs compared, nothing is alike' '' tell alice.asm henry.asm
expect 'the same words, with other names and comments' 1 \
    "same words, 41: alice.asm, bob.asm.3 programs compared.$person" '' tell alice.asm henry.asm bob.asm
expect 'the same words but for registers' 1 \
    "same words but for registers, 41: alice.asm, carol.asm.2 programs compared.$person" '' tell alice.asm carol.asm
expect 'both' 1 'same words, 41: alice.asm, bob.asm.same words but for registers, 41: alice.asm, bob.asm, carol.asm.*' \
    '' tell alice.asm bob.asm carol.asm
expect 'a run within another program' 1 \
    '26 words shared: alice.asm at \$1008, dave.asm at \$183C, 26 in one run.2 programs compared.*' '' \
    tell alice.asm dave.asm
expect 'at other addresses' 1 '40 words shared: alice.asm at \$1000, gina.asm at \$2000, 40 in one run.*' '' \
    tell alice.asm gina.asm
expect 'S-records and a source' 1 'same words, 41: alice.asm, alice.s19.*' '' \
    sh -c "'$xm23' asm -o alice.s19 alice.asm && '$xm23' copies p.paper alice.asm alice.s19"
expect 'programs with less words than a run' 0 '2 programs compared, nothing is alike' '' tell short1.asm short2.asm
expect 'the same program twice' 1 'same words, 41: alice.asm, alice.asm.*' '' tell alice.asm alice.asm
expect 'three in one line' 1 'same words, 41: alice.asm, bob.asm, alice.s19.*' '' \
    tell alice.asm henry.asm bob.asm alice.s19

# ---- ignored bits, which are told first
expect 'one word with its ignored bit set' 1 \
    '0 words shared, 1 ignored bit set alike: erin.asm at \$1066, frank.asm at \$1002.2 programs compared.*' '' \
    tell erin.asm frank.asm
sed 's/4CD3/4CD4/' frank.asm > other.asm
expect 'another such word' 0 '2 programs compared, nothing is alike' '' tell erin.asm other.asm
sed 's/ADD R1,R2/ADD R1,R3/' frank.asm > other.asm
expect 'among other words' 0 '2 programs compared, nothing is alike' '' tell erin.asm other.asm
cp erin.asm ernie.asm
expect 'told first' 1 "same words, 53, 1 ignored bit set: erin.asm, ernie.asm.0 words shared, 1 ignored bit set alike: \
erin.asm .*, frank.asm .*.same words, 41: alice.asm, bob.asm.*" '' tell alice.asm bob.asm erin.asm ernie.asm frank.asm
for word in 4CC1 4D59 4D61; do
    printf ' WORD $1234\n WORD $%s\n END\n' "$word" > one.asm
    printf ' WORD $%s\n WORD $1234\n WORD $%s\n END\n' "$word" "$word" > two.asm
    expect "$word has an ignored bit" 1 "0 words shared, 1 ignored bit set alike: one.asm .*" '' tell one.asm two.asm
done
for word in 4C81 4D11 4D21 4E00 4DE0 FFFF 0040; do
    printf ' WORD $1234\n WORD $%s\n END\n' "$word" > one.asm
    expect "$word has none set" 0 '2 programs compared, nothing is alike' '' tell one.asm one.asm
done

# ---- what counts for nothing
code handler 40 | source_of handler.asm 2000
printf 'steps 50\nsource handler.asm\n' > given.paper
{ code handler 40; code eight 30; } | source_of ivan.asm 1000
{ code handler 40; code nine 30; } | source_of judy.asm 1000
expect 'what the paper has' 0 '2 programs compared, nothing is alike' '' "$xm23" copies given.paper ivan.asm judy.asm
expect 'what it does not have' 1 '40 words shared: ivan.asm .*' '' tell ivan.asm judy.asm
code handler 40 | source_of kim.asm 2000
expect 'what it lays' 0 '2 programs compared, nothing is alike' '' "$xm23" copies given.paper kim.asm kim.asm
yes ' WORD $4088' | head -50 | source_of fill1.asm 1000
yes ' WORD $4088' | head -60 | source_of fill2.asm 1000
expect 'one word over and over' 0 '2 programs compared, nothing is alike' '' tell fill1.asm fill2.asm
for i in 1 2; do
    { yes $' WORD #1\n WORD #2\n WORD #3' | head -$((60 + i)); code "$i" 5; } | source_of "table$i.asm" 1000
done
expect 'few words over and over' 0 '2 programs compared, nothing is alike' '' tell table1.asm table2.asm
for i in 1 2 3 4 5 6 7 8 9; do { code common 30; code "own $i" 30; } | source_of "c$i.asm" 1000; done
expect 'what many have' 0 '9 programs compared, nothing is alike.runs that more than 8 programs have.*: 19' '' \
    tell c?.asm
expect 'what eight have' 1 '(30 words shared: c[1-8].asm [^:]*: *)?.*8 programs compared.*' '' tell c[1-8].asm
same 'each pair of them' "$(tell c[1-8].asm | grep -c '^30 words shared: ')" 28
{ code common 30; code 'own 9' 12; code 'own 1' 30; } | source_of c9.asm 1000
like 'words of what many have are not counted' "$(tell c?.asm)" '.*[34][0-9] words shared: c1.asm .*, c9.asm .*'
for i in $(seq 12); do
    { code common 30; code "own $i" 11; code "$((i / 2))" 1; code common 30; } | source_of "n$i.asm" 1000
done
like 'what many have goes on by a word' "$(tell n*.asm)" '12 programs compared, nothing is alike.*'

# ---- folders, what is not compared, misuse
mkdir folder && cp alice.asm folder/program.asm
printf ' ORG $4000\n BYTE #1\n END\n' > folder/handler.asm
expect 'a folder' 1 'same words, 41: alice.asm, folder.*' '' tell alice.asm folder
printf ' RET\n END\n' > broken.asm
expect 'a refused program' 3 "same words, 41: alice.asm, bob.asm.2 programs compared.*" \
    'broken.asm:1: R17: .*broken.asm:1: column 2: RET is written MOV LR,PC' tell alice.asm broken.asm bob.asm
expect 'no such program' 3 '1 program compared.*' 'no/such: is not compared: No such file.*' tell alice.asm no/such
ln -s alice.asm link.asm
expect 'a link' 3 '1 program compared.*' 'link.asm: is not compared: is a link' tell alice.asm link.asm
expect 'a link that is followed' 1 'same words, 41: alice.asm, link.asm.*' '' \
    "$xm23" copies -L p.paper alice.asm link.asm
expect 'an endless file' 3 '1 program compared.*' '/dev/zero: is not compared: is no regular file' \
    tell alice.asm /dev/zero
printf 'steps\n' > wrong.paper
expect 'a mistake in the paper' 1 '' 'wrong.paper:1: .*' "$xm23" copies wrong.paper alice.asm bob.asm
expect 'no paper' 3 '' 'no/paper: .*' "$xm23" copies no/paper alice.asm bob.asm
expect 'one word' 2 '' "$(usage copies)" "$xm23" copies p.paper
expect 'an option' 2 '' "$(usage copies)" "$xm23" copies -x p.paper alice.asm
expect 'a name that is hostile' 1 "same words, 41: alice.asm, a\\\\x1B\[31m\\\\x0A<b>.asm.*" '' \
    sh -c "cp alice.asm \"\$1\" && '$xm23' copies -o hostile.html p.paper alice.asm \"\$1\"" - $'a\e[31m\n<b>.asm'
same 'on the page' "$(grep -c '&#60;b&#62;.asm' hostile.html)" 1
same 'nothing of it is markup' "$(grep -c '<b>\.asm' hostile.html)" 0
full() { "$@" > /dev/full; }
expect 'a full disk' 3 '' 'standard output: cannot be written: .*' full tell alice.asm bob.asm

# ---- the page
expect 'a page' 1 '.*' '' "$xm23" copies -o page.html p.paper alice.asm bob.asm carol.asm dave.asm erin.asm frank.asm
same 'groups' "$(grep -c '<tr><td>the same' page.html)" 2
same 'pairs, with both listings' "$(grep -c '<div class="two">' page.html)" "$(grep -c '<a href="#pair' page.html)"
same 'words that both have' "$(grep -c '^<b>| 1008 ' page.html)" "$(grep -c '^<b>| 183C ' page.html)"
same 'a word with its ignored bit' "$(grep -c '4CD3  WORD \$4CD3 ; as SWAP R2,R3' page.html)" 2
same 'a person decides' "$(grep -c 'a person decides' page.html)" 1
expect 'a page over a program' 3 '' '.*alice.asm.*' "$xm23" copies -o alice.asm p.paper alice.asm bob.asm
expect 'a page over a file of a folder' 3 '' 'folder/program.asm: cannot be written: it is the file that is read' \
    "$xm23" copies -o folder/program.asm p.paper bob.asm folder
same 'which is as it was' "$(cksum < folder/program.asm)" "$(cksum < alice.asm)"
expect 'a page over the paper' 3 '' '.*p.paper.*' "$xm23" copies -o p.paper p.paper alice.asm bob.asm
expect 'a page that cannot be written' 3 '' '.*no/page.html.*' "$xm23" copies -o no/page.html p.paper alice.asm bob.asm
same 'the same files give the same bytes' "$("$xm23" copies -o again.html p.paper alice.asm bob.asm carol.asm dave.asm \
    erin.asm frank.asm > /dev/null; cmp page.html again.html && echo yes)" yes

# ---- the column of a marking
all='alice.asm bob.asm carol.asm dave.asm erin.asm frank.asm henry.asm broken.asm'
"$xm23" mark -o marks p.paper $all
same 'the column' "$(cells marks name copies)" 'alice.asm|same as bob.asm
bob.asm|same as alice.asm
carol.asm|same but for registers as alice.asm and 1 more
dave.asm|shares 26 words with alice.asm
erin.asm|1 ignored bit set alike: as frank.asm
frank.asm|1 ignored bit set alike: as erin.asm
henry.asm|
broken.asm|'
same 'the head' "$(head -1 marks/results.csv | grep -c ',copies$')" 1
same 'in the table' "$(grep -c 'shares 26 words with alice.asm' marks/index.html)" 1
"$xm23" mark -j 1 -o again p.paper $all
same 'the same with one worker' "$(cmp marks/results.csv again/results.csv && echo yes)" yes
"$xm23" mark -o one p.paper alice.asm
same 'one program alone' "$(tail -1 one/results.csv | grep -c ',$')" 1

# ---- many, and long ones: in time, within bounds
if [ -z "$checked" ]; then
    python3 - << 'END'
import os, random
dice = random.Random(1)
os.mkdir("many")
def record(at, data):
    body = bytes([len(data) + 3, at >> 8, at & 255]) + data
    return f"S1{body.hex().upper()}{255 - sum(body) & 255:02X}\n"
def write(name, data):
    with open(f"many/{name}.s19", "w") as file:
        file.writelines(record(0x100 + i, data[i:i + 32]) for i in range(0, len(data), 32))
        file.write("S9030000FC\n")
common = dice.randbytes(60)
for i in range(638):
    write(f"c{i:03}", common + dice.randbytes(400))
long = dice.randbytes(0xF000)
write("long1", long)
write("long2", dice.randbytes(0x800) + long[:0xE000])
END
    used() { /usr/bin/time -o time -f '%U %M' "$@" > out 2> err; }
    if [ -x /usr/bin/time ]; then
        used "$xm23" copies p.paper many/*.s19
        like 'long ones that share half' "$(grep long out)" '[0-9]{5} words shared, .*: many/long1.s19 .*long2.s19 .*'
        like '640 programs: so many lines' "$(wc -l < out)" '[1-6]'
        same '640 programs: under 5 seconds and 64 MB' "$(tail -1 time | awk '{ print ($1 < 5 && $2 < 65536) }')" 1
    fi
fi
count
