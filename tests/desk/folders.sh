#!/usr/bin/env bash
# Programs that are folders: folders.sh [PROGRAM], build/xm23 if none is named. Every subcommand that takes a program,
# the order of files and the PC, what two of them state, refusals with file and line, the digest; and folders as
# somebody may plant them: links, pipes, folders in them, too many and too long files, names of any bytes.
set -u
cd "$(dirname "$0")/../.."
. tests/shell/expect.sh
top=$PWD
xm23=$(realpath "${1:-build/xm23}")
sitting=$top/examples/sitting
paper=$sitting/sum.paper
sound=$sitting/programs/sound.s19
source=$sitting/sources/sound.asm
line='0 120 001F 0120 0000 0006 0000 FFFF 0800 1016 0003 00 00000000 1'
cd "$room" || exit 1

digest() { (cd "$1" && shift && sha256sum -z -- "$@" | sha256sum | cut -c -64); } # FOLDER FILE..
folder() { rm -rf "$1" && mkdir -p "$1"; }
part() { # FILE ADDRESS WORD..: a source of words
    { echo " ORG $2"; printf ' WORD %s\n' "${@:3}"; echo ' END'; } > "$1"
}
handler='$4088 $4C2F' # ADD #1,R0 and a return

# ---- one program in a file, and the same in a folder
folder alice
cp "$source" alice/program.asm
# shellcheck disable=SC2086
part alice/handler1.asm '$3000' $handler
expect 'run' 0 "$line" '' "$xm23" run "$paper" alice
expect 'a slash behind it' 0 "$line" '' "$xm23" run "$paper" alice///
expect 'in another folder' 0 "$line" '' "$xm23" run "$paper" ./alice/../alice
same 'run -l' "$("$xm23" run -l "$paper" alice)" "$("$xm23" run -l "$paper" "$sound")"
for word in 'back -n 40' 'back -w 120' events 'events -c' sound stack; do
    # shellcheck disable=SC2086
    same "$word" "$("$xm23" $word "$paper" alice 2>&1)" "$("$xm23" $word "$paper" "$source" 2>&1)"
done
same 'dis has all of it' "$("$xm23" dis alice)" "$("$xm23" dis "$source" | sed '/^    END/d'
    printf '%s\n' '' '    ORG $3000' '    ADD #1,R0           ; 3000 4088' '    MOV LR,PC           ; 3002 4C2F' \
        '    END                 ; start 1000')"
expect 'asm takes a file' 3 '' 'alice: is a folder' "$xm23" asm alice
expect 'a paper is a file' 3 '' 'alice: is a folder' "$xm23" run alice "$sound"
expect 'mark' 0 '' '' "$xm23" mark -o marks "$paper" alice alice/
same 'its rows' "$(cells marks name line agrees)" $"alice|$line|yes"$'\n'"alice/|$line|yes"
same 'its digest' "$(cells marks program_sha256 | sort -u)" "$(digest alice handler1.asm program.asm)"
same 'its pages' "$(ls marks/pages | tr '\n' ' ')" '000001-alice.html 000002-alice.html '
expect 'report' 0 '' '' "$xm23" report -o page.html "$paper" alice
same 'is the page of mark' "$(cksum < page.html)" "$(cksum < marks/pages/000001-alice.html)"
same 'with each source' \
    "$(sed -n '/<h2>Sources/,/^<h2>Memory/p' page.html | grep -o '<h3>[^<]*\|START .*,R1$\|WORD \$4088$')" \
    $'<h3>handler1.asm\nWORD $4088\n<h3>program.asm\nSTART   MOVLZ $00,R1'
files() { sed -n '/<div id="files">/,/^<\/div>$/p' "$1" | sed -n 's/<[^>]*>/ /gp' | grep asm | tr -s ' '; }
same 'and each file' "$(files page.html)" \
    " handler1.asm $(wc -c < alice/handler1.asm) $(sha256sum < alice/handler1.asm | cut -c -64) 
 program.asm $(wc -c < alice/program.asm) from it $(sha256sum < alice/program.asm | cut -c -64) "
same 'well-formed' "$(python3 -B "$top/tests/desk/pages.py" page.html marks/index.html)" 'all well-formed'
same 'a page of a file has no such table' "$("$xm23" report "$paper" "$sound" | grep -c 'id="files"')" 0
# Whatever the folder is called.
cp -r alice alice.asm
cp -r alice alice.s19
expect 'a folder that is called like a source' 0 "$line" '' "$xm23" run "$paper" alice.asm
expect 'or like S-records' 0 "$line" '' "$xm23" run "$paper" alice.s19
(cd alice && exec "$xm23" run "$paper" .) > out
same 'from in it' "$(cat out)" "$line"

# ---- the order of the files, and the PC
starts() { # WHAT PC FILE..: files at $1000, $1100 and so on, each of which starts where it stands
    local what=$1 pc=$2 at=$((0x1000)) name
    shift 2
    folder order
    for name in "$@"; do
        printf ' ORG #%d\n ADD R0,R1\n END\n' "$at" > order/new
        case $name in
            *.[sS]19) mv order/new order/new.asm && "$xm23" asm -o "order/$name" order/new.asm && rm order/new.asm ;;
            *) mv order/new "order/$name" ;;
        esac
        at=$((at + 256))
    done
    same "$what" "$("$xm23" dis order | tail -1)" "    END                 ; start $pc"
}
starts 'one file' 1000 x.asm
starts 'program.asm' 1100 a.asm program.asm z.asm
starts 'program.s19' 1200 a.asm b.s19 program.s19
starts 'in capitals' 1100 A.ASM PROGRAM.ASM
starts 'the first, where there is none' 1000 a.s19 b.asm
starts 'by the bytes of its name' 1100 a.asm B.asm
starts 'by its whole name' 1100 a10.asm a1.asm
starts 'only that name' 1000 a.asm program1.asm program.x.asm xprogram.asm
starts 'the first of two' 1200 a.asm program.s19 program.asm
starts 'bytes above ASCII come last' 1100 $'\xc3\xa4.asm' z.asm
starts 'nine of them' 1800 1.asm 2.s19 3.asm 4.s19 5.asm 6.asm 7.asm 8.asm program.asm
printf 'steps 0\nstart PC=$4444\n' > pc.paper
like 'but the paper may name it' "$("$xm23" run pc.paper order)" '0 0 .* 4444 0000 00 00000000 0'
same 'and the page says so' "$("$xm23" report pc.paper order | grep -c 'from it')" 0

# ---- a byte that two files state is told, as a row too
folder twice
printf ' ORG $1FFE\n WORD #1\n WORD #2\n WORD #3\n END\n' > x.asm
"$xm23" asm -o twice/handler1.s19 x.asm
cp alice/program.asm twice
printf ' ORG $2003\n BYTE #1\n ORG $2000\n BYTE #2\n END\n' > x.asm
"$xm23" asm -o twice/program.s19 x.asm
both='handler1.s19 and program.s19 both have \$2000'
for word in run back events sound; do
    expect "$word of two that meet" 1 '' "twice: $both(.$paper:21: another line .*)?" "$xm23" "$word" "$paper" twice
done
expect 'dis' 1 '' "twice: $both" "$xm23" dis twice
expect 'stack' 1 '' "twice: $both" "$xm23" stack "$paper" twice
expect 'report' 1 '' "twice: $both" "$xm23" report -o page.html "$paper" twice
same 'which has a page' "$(grep -c '<p>handler1.s19 and program.s19 both have $2000</p>' page.html)" 1
same 'of what was handed in' "$(grep -c 'id="files"' page.html)" 1
expect 'mark' 1 '' '' "$xm23" mark -o marks "$paper" twice alice
same 'a row' "$(cells marks line says agrees program_sha256 | sed -n 1p)" \
    "|handler1.s19 and program.s19 both have \$2000|no|$(digest twice handler1.s19 program.asm program.s19)"
same 'that says so' "$(grep -c '<td class="nowrap">not run</td>' marks/index.html)" 1
cp twice/handler1.s19 twice/handler2.s19
rm twice/program.s19
expect 'the same byte is stated twice all the same' 1 '' \
    'twice: handler1.s19 and handler2.s19 both have \$1FFE.*' "$xm23" run "$paper" twice
printf ' ORG $2000\n BSS #9\n END\n' > twice/handler2.asm
rm twice/handler2.s19
expect 'what is passed over states nothing' 0 "$line" '' "$xm23" run "$paper" twice

# ---- a refusal has its file and its line
printf ' ORG $2100\n\n ADD R0,R1\n BRA X\n END\n' > alice/handler2.asm
expect 'run' 1 'R18' 'alice/handler2.asm:4: R18: a name is unknown.*' "$xm23" run "$paper" alice
expect 'with a slash' 1 'R18' 'alice/handler2.asm:4: R18: .*' "$xm23" run "$paper" alice/
expect 'dis' 1 '' 'alice/handler2.asm:4: R18: .*' "$xm23" dis alice
expect 'stack' 1 '' 'alice/handler2.asm:4: R18: .*' "$xm23" stack "$paper" alice
expect 'report' 1 '' 'alice/handler2.asm:4: R18: a name is unknown.*' "$xm23" report -o page.html "$paper" alice
expect 'mark' 1 '' '' "$xm23" mark -o marks "$paper" alice
like 'as a row' "$(cells marks line says)" 'R18\|handler2.asm, line 4: a name is unknown.*'
sed '2s/..$/00/' "$sound" > alice/handler2.s19
rm alice/handler2.asm
expect 'of S-records' 1 'R11' "alice/handler2.s19:2: R11: .*" "$xm23" run "$paper" alice
rm alice/handler2.s19

# ---- files of other names say nothing
folder alice/notes
echo 'my notes' | tee alice/README alice/program.asm~ alice/program.asm.bak alice/asm alice/notes/x.asm alice/a.s190 \
    alice/.asm alice/.s19 alice/._program.asm alice/.hidden.s19 > /dev/null
mkfifo alice/fifo
ln -s ../alice/program.asm alice/link.txt
expect 'other names' 0 "$line" '' "$xm23" run "$paper" alice
"$xm23" mark -o marks "$paper" alice
same 'are none of its digest' "$(cells marks program_sha256)" "$(digest alice handler1.asm program.asm)"
folder others
echo x | tee others/README others/.a.asm others/program > /dev/null
none='is a folder, and no file in it ends in .s19 or .asm'
expect 'none but these' 3 '' "others: $none" "$xm23" run "$paper" others
folder empty
expect 'mark of an empty one' 1 '' '' "$xm23" mark -o marks "$paper" empty others alice
same 'rows' "$(cells marks line says agrees program_sha256 | sed -n 1,2p | sort -u)" "|$none|no|"
expect 'report of it' 3 '' "empty: $none" "$xm23" report -o page2.html "$paper" empty
same 'writes nothing' "$(ls page2.html 2> /dev/null)" ''

# ---- nine, and ten
folder nine
for i in 1 2 3 4 5 6 7 8; do part "nine/handler$i.asm" "\$4${i}00" "\$400$i"; done
cp "$source" nine/program.asm
expect 'nine' 0 "$line" '' "$xm23" run "$paper" nine
part nine/handler9.asm '$4900' '$1'
expect 'ten' 3 '' 'nine: has more than 9 files that end in .s19 or .asm' "$xm23" run "$paper" nine
for i in $(seq 300); do : > "nine/x$i.s19"; done
"$xm23" mark -o marks "$paper" nine
same 'as a row' "$(cells marks line says)" '|has more than 9 files that end in .s19 or .asm'

# ---- what is no regular file in it: a row, never opened
mkdir setter && cp "$sound" setter/model.s19 && cp "$source" setter/model.asm
planted() { # WHAT SAYS: the folder `bob`, under run and under mark
    expect "$1: run" 3 '' "bob: $2" timeout 20 "$xm23" run "$paper" bob
    expect "$1: mark" 1 '' '' timeout 20 "$xm23" mark -o marks "$paper" bob alice
    same "$1: a row" "$(cells marks line says agrees program_sha256 | sed -n 1p)" "|$2|no|"
    same "$1: of which nothing is shown" "$(grep -c 'MOVLZ' marks/pages/000001-*)" 0
}
bob() { folder bob && printf ' ORG $5000\n WORD #1\n END\n' > bob/handler1.asm; }
bob && ln -s ../setter/model.asm bob/program.asm
planted "a link to the setter's source" 'program.asm: is a link'
expect 'with -L it is followed' 0 '' '' "$xm23" mark -L -o marks "$paper" bob
same 'and marked' "$(cells marks agrees program_sha256)" "yes|$(digest bob handler1.asm program.asm)"
bob && ln -s "$room/setter/model.s19" bob/program.s19
planted "a link to the setter's S-records" 'program.s19: is a link'
bob && ln -s nowhere bob/x.asm
planted 'a link to nothing' 'x.asm: is a link'
expect 'which -L does not find' 1 '' '' "$xm23" mark -L -o marks "$paper" bob
same 'as its row says' "$(cells marks says)" 'x.asm: No such file or directory'
bob && ln -s /dev/zero bob/x.asm
planted 'a link to a device' 'x.asm: is a link'
expect 'nor does it open it' 1 '' '' timeout 20 "$xm23" mark -L -o marks "$paper" bob
same 'as its row says' "$(cells marks says)" 'x.asm: is no regular file'
bob && mkfifo bob/x.s19
(exec 3> bob/x.s19; echo > opened) &
writer=$!
planted 'a pipe' 'x.s19: is no regular file'
same 'nobody opened it' "$(test -e opened && echo opened)" ''
kill "$writer" 2> /dev/null
wait "$writer" 2> /dev/null
bob && mkdir bob/program.asm && cp "$source" bob/program.asm/program.asm
planted 'a folder in it' 'program.asm: is a folder'
bob && python3 -c 'import socket; socket.socket(socket.AF_UNIX).bind("bob/x.asm")'
planted 'a socket' 'x.asm: is no regular file'
# The folder itself.
folder cand/carl && cp "$source" cand/carl/program.asm
folder cand/dora && cp "$source" cand/dora/program.asm
ln -s ../setter cand/eve
ln -s cand office
expect 'a link in place of a folder' 1 '' '' "$xm23" mark -o marks "$paper" cand/*
same 'is a row' "$(cells marks name says agrees)" $'cand/carl||yes\ncand/dora||yes\ncand/eve|is a link|no'
"$xm23" mark -o marks "$paper" cand/*/
same 'with slashes too' "$(cells marks says)" $'\n\nis reached by a link: cand/eve'
"$xm23" mark -o marks "$paper" office/carl office/dora
same 'what all names share may be a link' "$(cells marks agrees)" $'yes\nyes'
"$xm23" mark -o marks "$paper" office/carl
same 'one name alone shares nothing' "$(cells marks says)" 'is reached by a link: office'
expect 'run follows what was typed' 0 "$line" '' "$xm23" run "$paper" office/carl
mkdir cand/fred && cp setter/model.asm cand/fred/program.asm && ln -s fred cand/gil
expect 'a folder that was typed' 0 "$line" '' "$xm23" run "$paper" cand/gil
expect '-L' 0 '' '' "$xm23" mark -L -o marks "$paper" cand/gil cand/carl
# While a file becomes a link to the setter's and a file again, what is read is never the setter's.
folder turn && printf ' ORG $1000\nHERE BRA HERE\n END\n' > turn/program.asm
(cd turn && exec python3 -c '
import os
while True:
    os.symlink("../setter/model.asm", ".x"); os.rename("program.asm", ".y"); os.rename(".x", "program.asm")
    os.unlink("program.asm"); os.rename(".y", "program.asm")') &
turning=$!
for _ in 1 2 3 4 5; do
    "$xm23" mark -o turned "$paper" turn{,,,,,,,,,,,,,,,,,,,}
    cells turned agrees
done > out 2> err
kill "$turning"
{ wait "$turning"; } 2> /dev/null
same 'at no moment' "$(sort -u out) $(wc -l < out)" 'no 100'

# ---- how long they may be: all of them together as one file
head -c 1048000 < <(yes '') > blank
sum() { # BYTES: a folder whose two sources have so many together
    folder sums
    { cat blank; printf ' END\n'; } > sums/a.asm
    { head -c $(($1 - 1048005 - 5)) blank; printf ' END\n'; } > sums/b.asm
}
sum 1048576
"$xm23" mark -o marks "$paper" sums
same '1 MiB' "$(cells marks says line | cut -c 1-6)" '|0 120'
sum 1048577
"$xm23" mark -o marks "$paper" sums
same 'and a byte' "$(cells marks line says)" '|has files of more than 1048576 bytes together'
expect 'which run takes' 0 '.*' '.*' "$xm23" run <(echo 'steps 1') sums
head -c 1048577 /dev/zero > sums/a.asm
"$xm23" mark -o marks "$paper" sums
same 'one that is too long' "$(cells marks line says)" '|a.asm: is longer than 1048576 bytes'
folder sums
for i in 1 2 3 4 5 6 7 8 9; do { head -c 2000000 < <(yes ''); echo ' END'; } > "sums/$i.asm"; done
expect '16 MiB' 3 '' 'sums: has files of more than 16777216 bytes together' "$xm23" run "$paper" sums
folder sums
remark=$(printf '<%.0s' $(seq 110))
for i in 1 2 3 4 5 6 7 8 9; do
    { echo " ORG \$${i}000"; for _ in $(seq 300); do echo " WORD \$1234 ;$remark"; done; echo ' END'; } > "sums/$i.asm"
done
expect 'nine long sources' 0 '' '' "$xm23" report -o page.html <(echo 'steps 1') sums
same 'have a page that is not too long' "$(python3 -B "$top/tests/desk/pages.py" page.html)" 'all well-formed'
same 'with each of them' "$(grep -c '<h3>.*asm</h3>' page.html)" 9

# ---- names of any bytes
mkdir names
odd=$'=1+1 \e[2J\n<b>&"\x80;,'
folder "names/$odd" && cp "$source" "names/$odd/$odd.asm"
printf ' ORG $5000\n FLY R0\n END\n' > "names/$odd/--help.asm"
expect 'a refusal' 1 'R17' 'names/=1\+1 \\x1B\[2J\\x0A<b>&"\\x80;,/--help.asm:2: R17: .*' \
    "$xm23" run "$paper" "names/$odd"
expect 'mark' 1 '' '' "$xm23" mark -o marks "$paper" "names/$odd"
like 'as a row' "$(cells marks name says)" 'names/=1\+1 \\x1B\[2J\\x0A<b>&"\\x80\\x3B,\|.--help.asm, line 2: .*'
rm "names/$odd/--help.asm"
expect 'and without it' 0 '' '' "$xm23" mark -o marks "$paper" "names/$odd"
same 'its digest' "$(cells marks program_sha256)" "$(digest "names/$odd" "$odd.asm")"
ln -s x "names/$odd/=cmd.asm"
"$xm23" mark -o odd "$paper" "names/$odd"
same 'no formula' "$(cells odd says)" "'=cmd.asm: is a link"
same 'no tag, no control' "$(cat marks/index.html marks/pages/* odd/pages/* | grep -c $'<b>\|\e')" 0
same 'well-formed' "$(python3 -B "$top/tests/desk/pages.py" marks/*.html marks/pages/* odd/*.html odd/pages/*)" \
    'all well-formed'
long=$(printf 'x%.0s' $(seq 251)).asm
folder "names/long" && cp "$source" "names/long/$long"
expect 'a long name' 0 "$line" '' "$xm23" run "$paper" names/long

# ---- nothing that is read is written to
folder kept && cp alice/*.asm kept && before=$(cat kept/*)
expect 'a page over a file of it' 3 '' 'kept/program.asm: cannot be written: it is the file that is read' \
    "$xm23" report -o kept/program.asm "$paper" kept
ln -s kept/handler1.asm over.html
expect 'by a link' 3 '' 'over.html: cannot be written: .*' "$xm23" report -o over.html "$paper" kept
expect 'a listing' 3 '' 'kept/handler1.asm: cannot be written: .*' "$xm23" dis -o kept/handler1.asm kept
same 'all stays' "$(cat kept/*)" "$before"
expect 'a page beside them' 0 '' '' "$xm23" report -o kept/page.html "$paper" kept

# ---- rights, and what the machine cannot do
if [ "$(id -u)" -ne 0 ]; then
    chmod 111 kept
    expect 'a folder that may not be read' 3 '' 'kept: Permission denied' "$xm23" run "$paper" kept
    chmod 755 kept && chmod 0 kept/handler1.asm
    expect 'a file that may not be read' 3 '' 'kept: handler1.asm: Permission denied' "$xm23" run "$paper" kept
fi
if [ $# -eq 0 ]; then
    gcc -shared -fPIC -O1 -Wall -Wextra -Werror -o shim.so "$top/tests/desk/shim.c" -ldl || exit 1
    shim() { SHIM_FAILS=$1 SHIM_NOTES=$room/calls LD_PRELOAD=$room/shim.so "${@:2}"; } # FAILS COMMAND..
    folder trouble && cp "$source" trouble/program.asm
    folder inside && cp "$source" inside/program.asm && "$xm23" asm -o inside/trouble.s19 alice/handler1.asm
    for call in openat readdir; do
        expect "$call fails" 3 '' 'troubled: 1 program could not be marked; the rows say why' \
            shim "$call:5" "$xm23" mark -o troubled "$paper" trouble alice
        same 'is no row of the candidate' "$(cells troubled says agrees)" \
            $'could not be marked: Input/output error|no\n|yes'
    done
    for call in openat read; do
        expect "$call of a file fails" 3 '' 'troubled: 1 program .*' \
            shim "$call:24" "$xm23" mark -o troubled "$paper" inside alice
        same 'too' "$(cells troubled says agrees)" $'could not be marked: trouble.s19: Too many open files|no\n|yes'
    done
    expect 'one that may not be opened' 1 '' '' shim openat:13 "$xm23" mark -o troubled "$paper" inside alice
    same 'is the candidate'"'"'s' "$(cells troubled says)" 'trouble.s19: Permission denied'
fi

# ---- many names: nine files each, by -j1 and -j8 the same bytes
for i in $(seq 40); do
    folder "many/$i" && cp "$sitting/programs/with_handlers/"* "many/$i"
    printf ' ORG $6000\n WORD #%d\n END\n' "$i" > "many/$i/handler3.asm"
done
sums() { (cd "$1" && find . -type f -exec cksum {} + | sort -k 3 | cksum); }
"$xm23" mark -j 1 -o one "$sitting/handlers.paper" many/*
"$xm23" mark -j 8 -o eight "$sitting/handlers.paper" many/*
same 'the same bytes' "$(sums one)" "$(sums eight)"
for i in 1 2 40; do
    same 'as report writes them' "$("$xm23" report "$sitting/handlers.paper" "many/$i" 2> /dev/null | cksum)" \
        "$(cksum < one/pages/*-"$i".html)"
done
count
