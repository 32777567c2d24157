#!/usr/bin/env bash
# xm23 mark beside what goes wrong and what is planted: marking.sh [PROGRAM], build/xm23 if none is named. Nothing of an
# earlier marking counts, nothing of anybody else is touched, one program stops no other, and each status means what the
# manual says.
set -u
cd "$(dirname "$0")/../.."
. tests/shell/expect.sh
xm23=$(realpath "${1:-build/xm23}")
tests=$(pwd -P)/tests/desk
sitting=$(pwd -P)/examples/sitting
paper=$sitting/sum.paper
sound=$sitting/programs/sound.s19
stops_early=$sitting/programs/stops_early.s19
cd "$room" || exit 1

sum() { (cd "$1" && find . -type f -exec cksum {} + | sort -k 3 | cksum); }
whole() { # FOLDER: every file is in SHA256SUMS, and as it says
    (cd "$1" && sha256sum --quiet --strict -c SHA256SUMS &&
        diff <(cut -c 67- SHA256SUMS) <(find . -type f ! -name SHA256SUMS -printf '%P\n' | LC_ALL=C sort) && echo whole)
}
beside() { ls -d -- "$1".* 2> /dev/null; } # what is left beside a folder
digest() { sha256sum < "$1" | cut -c -64; }

# ---- a marking, and the same again
cp "$sound" a.s19
expect 'mark' 0 '' '' "$xm23" mark -o one "$paper" a.s19
same 'is whole' "$(whole one)" whole
same 'nothing beside it' "$(beside one)" ''
same 'four entries' "$(ls -A one | tr '\n' ' ')" 'SHA256SUMS index.html pages results.csv '
first=$(sum one)
inode=$(stat -c %i one)
expect 'mark again' 0 '' '' "$xm23" mark -o one/ "$paper" a.s19
same 'the same bytes' "$(sum one)" "$first"
same 'in a new folder' "$([ "$(stat -c %i one)" != "$inode" ] && echo yes)" yes
cp "$stops_early" a.s19
expect 'a program that is another' 1 '' '' "$xm23" mark -o one "$paper" a.s19
same 'is another row' "$(cells one agrees program_sha256)" "no|$(digest a.s19)"
cp "$sound" b.s19
expect 'one that had more' 1 '' '' "$xm23" mark -o two "$paper" a.s19 b.s19
expect 'and fewer' 0 '' '' "$xm23" mark -o two "$paper" b.s19
same 'has no page of before' "$(ls two/pages) $(whole two)" '000001-b.s19.html whole'
chmod 700 two
expect 'a folder of its owner' 0 '' '' "$xm23" mark -o two "$paper" b.s19
same 'stays so' "$(stat -c %a two)" 700
mkdir empty
expect 'an empty folder' 0 '' '' "$xm23" mark -o empty "$paper" b.s19
same 'is taken' "$(whole empty)" whole
mkdir deep
expect 'a path' 0 '' '' "$xm23" mark -o deep/er//// "$paper" b.s19
same 'is a folder in another' "$(whole deep/er) $(beside deep/er)" 'whole '
expect 'no own name' 3 '' '\.: cannot be replaced .*' "$xm23" mark -o . "$paper" b.s19
expect 'no own name at all' 3 '' '/: cannot be replaced .*' "$xm23" mark -o / "$paper" b.s19
expect 'the one above' 3 '' 'deep/\.\.: cannot be replaced .*' "$xm23" mark -o deep/.. "$paper" b.s19
ln -s two linked
expect 'a link' 3 '' 'linked: is there and is no folder; it is left as it is' "$xm23" mark -o linked "$paper" a.s19
same 'stays' "$(readlink linked) $(cells two agrees)" 'two yes'

# ---- no page, and no mark, of an earlier program: a failing write, somebody else's child, a worker that is ended
cp "$sound" a.s19
"$xm23" mark -o stale "$paper" a.s19
cp "$stops_early" a.s19
ln -s /dev/full stale/pages/000001-a.s19.html.part
listed() { bash -c 'exec "$0" mark -j 1 -o "$1" -0 "$2" < <(sleep 0.3; printf "a.s19\0")' "$xm23" "$1" "$paper"; }
expect 'a stale page' 3 '' "stale: is there and is no marking: 'pages/000001-a.s19.html.part' is not in .*" listed stale
rm stale/pages/000001-a.s19.html.part
expect 'no stale row' 1 '' '' listed stale
same 'but the new one' "$(cells stale agrees program_sha256)" "no|$(digest a.s19)"
"$xm23" mark -o fresh "$paper" a.s19
same 'as without names from standard input' "$(sum stale)" "$(sum fresh)"
unheard() { python3 -c 'import os, signal, sys
signal.signal(signal.SIGCHLD, signal.SIG_IGN)
os.execv(sys.argv[1], sys.argv[1:])' "$@"; }
expect 'where no child is heard of' 1 '' '' unheard "$xm23" mark -o unheard "$paper" a.s19
same 'the same' "$(sum unheard)" "$(sum fresh)"

sed 's/^steps.*/steps 1000000/; /^expect/d' "$paper" > long.paper
mkdir many
for i in $(seq -w 400); do cp "$sound" "many/$i.s19"; done
# under WORD..: a marking of them that is at work, its pid in $pid. It hears every signal, whatever began this script.
under() {
    (exec env --default-signal "$@" 2> err) &
    pid=$!
    while kill -0 "$pid" 2> /dev/null && [ "$(find . -path '*.new-*/pages/*' 2> /dev/null | wc -l)" -lt 5 ]; do
        sleep 0.01
    done
}
worker() { awk -v parent="$pid" '$4 == parent { print $1; exit }' /proc/[0-9]*/stat 2> /dev/null; } # one of its own
ended() { status=0; { wait "$pid" || status=$?; } 2> /dev/null; }
for signal in KILL SEGV PROF; do
    # A worker that is between two programs costs none of them: then another one is ended.
    for _ in 1 2 3 4 5 6 7 8 9 10; do
        under "$xm23" mark -j 2 -o "killed$signal" long.paper many/*
        kill "-$signal" "$(worker)" 2> /dev/null
        ended
        [ "$status" -eq 0 ] || break
    done
    same "a worker that is ended by $signal: status" "$status" 3
    case $signal in
        KILL) why='its worker was ended by signal 9' ;;
        SEGV) why='its worker was ended by signal 11|its worker ended with status 1' ;;
        PROF) why='it takes more than 10 seconds of processor time' ;;
    esac
    like 'costs one program' "$(cells "killed$signal" says | grep -v '^$')" "could not be marked: ($why)"
    same 'and no other' "$(cells "killed$signal" line | grep -c '^0 1000000 001F ')" 399
    same 'it is told' "$(grep -c "^killed$signal: 1 program could not be marked; the rows say why$" err)" 1
    same 'it is whole' "$(whole "killed$signal") $(ls "killed$signal/pages" | wc -l)" 'whole 400'
    same 'its page says so' "$(grep -l '<p>could not be marked: ' "killed$signal"/pages/* | wc -l)" 1
done

# ---- a sitting that is stopped, or ended: what was there is as it was, and the same command does it all
# stop SIGNAL: a marking over an earlier one gets a signal in its middle; one that was done before it came is begun again.
stop() {
    for _ in 1 2 3 4 5 6 7 8 9 10; do
        "$xm23" mark -o stopped "$paper" a.s19
        first=$(sum stopped)
        under "$xm23" mark -j 2 -o stopped long.paper many/*
        kill "-$1" "$pid" 2> /dev/null
        ended
        [ "$status" -eq 0 ] || break
    done
}
for signal in TERM HUP; do
    stop "$signal"
    same "stopped by $signal" "$status" "$((128 + $(kill -l "$signal")))"
    same 'says so' "$(cat err)" 'stopped: the marking was stopped; what was there is as it was'
    same 'is as it was' "$(sum stopped)" "$first"
    same 'with nothing beside it' "$(beside stopped)" ''
done
stop KILL
same 'ended in the middle' "$status $(sum stopped)" "137 $first"
same 'leaves what was begun' "$(beside stopped | wc -l)" 1
expect 'which hinders nobody' 0 '' '' "$xm23" mark -j 2 -o stopped long.paper many/*
same 'all are marked' "$(whole stopped) $(cells stopped line | grep -c '^0 1000000 001F ')" 'whole 400'
rm -rf stopped.new-*

# ---- a disk that is full: a limit on what a file may hold stands for it
cp "$sound" a.s19
"$xm23" mark -o small "$paper" a.s19
first=$(sum small)
inode=$(stat -c %i small)
limited() { (ulimit -f "$1" && shift && exec "$@"); }
full='small: cannot be written: .*: File too large.small: the marking is not whole; what was there is as it was'
expect 'a page that has no room' 3 '' "$full" limited 8 "$xm23" mark -o small "$paper" a.s19
same 'leaves what was there' "$(sum small) $(stat -c %i small) $(beside small)" "$first $inode "
long=$(printf 'x%.0s' $(seq 900))
expect 'results that have no room' 3 '' "$full" limited 16 "$xm23" mark -o small "$paper" "$long"{1..30}
same 'leave it too' "$(sum small) $(stat -c %i small) $(beside small)" "$first $inode "

# ---- a folder of somebody else, or one that somebody changed, is left alone
foreign() { # WHAT FOLDER ENTRY WHY
    local before
    before=$(cd "$2" && find . -printf '%p %y %i %m %l\n' | sort; sum "$2" 2> /dev/null)
    expect "$1" 3 '' "$2: is there and is no marking: '$3' $4; it is left as it is" \
        timeout 20 "$xm23" mark -o "$2" "$paper" b.s19
    same 'stays as it was' "$(cd "$2" && find . -printf '%p %y %i %m %l\n' | sort; sum "$2" 2> /dev/null)" "$before"
    same 'nothing is left' "$(beside "$2")" ''
}
mkdir site
echo mine | tee site/index.html site/results.csv > /dev/null
foreign 'a page of somebody else' site index.html 'is not in its SHA256SUMS'
(cd site && sha256sum index.html results.csv > SHA256SUMS && echo more > notes)
foreign 'a note' site notes 'is not in its SHA256SUMS'
mkdir disks && echo disk > disks/a.iso && (cd disks && sha256sum a.iso > SHA256SUMS)
foreign 'images with digests' disks SHA256SUMS "is not a marking's"
rm disks/a.iso
foreign 'and without' disks SHA256SUMS "is not a marking's"
mkdir lines && echo 'Roses are red' > lines/SHA256SUMS
foreign 'a text' lines SHA256SUMS "is not a marking's"
mkdir shelf && mkdir shelf/pages && echo x > shelf/pages/000001-x.html
foreign 'pages' shelf pages/000001-x.html 'is not in its SHA256SUMS'
"$xm23" mark -o theirs "$paper" a.s19
sed -i 's/,yes,/,no,/' theirs/results.csv
foreign 'a changed result' theirs results.csv 'is not as its SHA256SUMS says'
"$xm23" mark -o edited "$paper" a.s19
sed -i '1s/.*/<!DOCTYPE html><!-- yes --><script>alert(1)<\/script>/' edited/pages/*
foreign 'a changed page' edited pages/000001-a.s19.html 'is not as its SHA256SUMS says'
"$xm23" mark -o piped "$paper" a.s19
rm piped/pages/* && mkfifo piped/pages/000001-a.s19.html
foreign 'a pipe in place of a page' piped pages/000001-a.s19.html 'is no file of a marking'
"$xm23" mark -o tied "$paper" a.s19
mv tied/pages/000001-a.s19.html page && ln -s ../../page tied/pages/000001-a.s19.html
foreign 'a link in place of a page' tied pages/000001-a.s19.html 'is no file of a marking'
rm -r tied/pages && mkdir other && ln -s ../other tied/pages
foreign 'a link in place of the pages' tied pages 'is not in its SHA256SUMS'
"$xm23" mark -o robbed "$paper" a.s19 b.s19
rm robbed/pages/000001-a.s19.html
foreign 'a page that is gone' robbed pages/000001-a.s19.html 'is in its SHA256SUMS and is gone'
"$xm23" mark -o emptied "$paper" a.s19
rm -r emptied/pages emptied/index.html
foreign 'all pages' emptied index.html 'is in its SHA256SUMS and is gone'
mkdir nested && mkdir -p nested/results.csv
foreign 'a folder in place of a file' nested results.csv 'is not in its SHA256SUMS'
# Planted with digests that are right, it goes, and nothing of it stays.
(cd edited && sha256sum index.html pages/* results.csv > SHA256SUMS)
expect 'a planted marking' 0 '' '' "$xm23" mark -o edited "$paper" b.s19
same 'is no row' "$(cells edited name agrees) $(grep -c 'alert' edited/pages/*)" 'b.s19|yes 0'
# A mount point is told before any program is run.
mounted='is a mount point, whose place no folder can take: name a folder in it; it is left as it is'
expect 'a mount point' 3 '' "/proc: $mounted" "$xm23" mark -o /proc "$paper" b.s19
expect 'by another name' 3 '' "/proc/: $mounted" "$xm23" mark -o /proc/ "$paper" b.s19
mkdir held
bound() { unshare -rm bash -c 'mount --bind held held && exec "$@"' bound "$@"; }
if bound true 2> /dev/null; then
    expect 'a folder mounted on itself' 3 '' "held: $mounted" bound "$xm23" mark -o held "$paper" b.s19
    same 'has nothing beside it' "$(beside held)" ''
else
    echo 'left out: a folder mounted on itself, for which there is no right here'
fi
# Where a file is written beside its place, no link that waits there is followed.
echo mine > victim
for i in 0 1 2 3; do ln -s victim "page.html.part$i" 2> /dev/null; done
ln -s victim page.html.part
expect 'a link that waits' 0 '' '' "$xm23" report -o page.html "$paper" a.s19
same 'is not written through' "$(cat victim)" mine
# A name that leaves no room for another beside it; a file that not everybody may read.
for long in "$(printf 'x%.0s' $(seq 250))" "$(printf '\xC3\xA4%.0s' $(seq 125))" "$(printf 'x%.0s' $(seq 255))"; do
    expect 'a page of a long name' 0 '' '' "$xm23" report -o "$long" "$paper" a.s19
    same 'is there' "$(cmp "$long" page.html && find . -name '*.part-*')" ''
    rm -f "$long"
    expect 'a marking of a long name' 0 '' '' "$xm23" mark -o "$long" "$paper" b.s19
    expect 'and again' 0 '' '' "$xm23" mark -o "./$long/" "$paper" b.s19
    same 'is there, and nothing beside it' "$(whole "$long") $(find . -name '*.new-*')" 'whole '
done
for mode in 600 640 664 444; do
    rm -f mine.html && touch mine.html && chmod "$mode" mine.html
    expect "a page of mode $mode" 0 '' '' "$xm23" report -o mine.html "$paper" a.s19
    same 'keeps it' "$(stat -c '%a' mine.html) $(cmp mine.html page.html)" "$mode "
done

# ---- what is no regular file is a row, and is not opened
ln -s "$sound" link.s19
mkdir sources && ln -s "$sitting/programs/screen.asm" sources/link.asm
expect 'links' 1 '' '' "$xm23" mark -o links "$paper" link.s19 sources/link.asm "$sound"
same 'are rows' "$(cells links line says agrees)" \
    $'|is a link|no\n|is a link|no\n0 120 001F 0120 0000 0006 0000 FFFF 0800 1016 0003 00 00000000 1||yes'
same 'of which no byte is shown' "$(grep -c 'MOVLZ' links/pages/*link.asm*)" 0
expect 'links with -L' 0 '' '' "$xm23" mark -L -o followed "$paper" link.s19
same 'are programs' "$(cells followed agrees program_sha256)" "yes|$(digest "$sound")"
ln -s nowhere lost.s19
ln -s lost.s19 round.s19 && ln -sf round.s19 lost.s19
ln -s nowhere nothing.s19
expect 'links to nothing' 1 '' 'nothing.s19: No such file or directory' "$xm23" mark -L -o followed "$paper" link.s19 nothing.s19 round.s19 <(:)
same 'are rows still' "$(cells followed says)" \
    $'\nNo such file or directory\nToo many levels of symbolic links\nis no regular file'
mkfifo pipe
(exec 3> pipe; echo > opened) &
writer=$!
for option in '' -L; do
    # shellcheck disable=SC2086
    expect "a pipe $option" 1 '' '' timeout 20 "$xm23" mark $option -o pipes "$paper" pipe /dev/zero / "$sound"
    same 'is a row' "$(cells pipes says)" \
        $'is no regular file\nis no regular file\nis a folder, and no file in it ends in .s19 or .asm'
done
same 'and nobody opened it' "$(test -e opened && echo opened)" ''
kill "$writer" 2> /dev/null
wait "$writer" 2> /dev/null

# ---- and by a link in its folders nothing is reached, but for the folders that all names share
mkdir -p sittings/setter sittings/cand/bob sittings/cand/carol/src
cp "$sound" sittings/setter/prog.s19
cp "$stops_early" sittings/cand/bob/prog.s19
cp "$stops_early" sittings/cand/carol/src/prog.s19
ln -s ../setter sittings/cand/alice
ln -s sittings office
here=$(pwd -P)
reached() { # WHAT SAYS NAME..: the cells of says, one behind the other
    local what=$1 says=$2
    shift 2
    "$xm23" mark -o ways "$paper" "$@" 2> err
    same "$what" "$(cells ways says | paste -s -d '|')" "$says"
}
alice='is reached by a link: sittings/cand/alice'
reached 'a folder that is a link' "$alice|" sittings/cand/*/prog.s19
same 'is not marked' "$(cells ways line agrees program_sha256 | sed 's/^0 120 0019 .*/no/')" $'|no|\nno'
same 'and shows nothing' "$(grep -c MOV ways/pages/000001-*)" 0
expect 'with -L' 1 '' '' "$xm23" mark -L -o ways "$paper" sittings/cand/*/prog.s19
same 'it is followed' "$(cells ways agrees)" $'yes\nno'
reached 'the folders that all share' '|' office/cand/{bob/prog.s19,carol/src/prog.s19}
reached 'and no further' 'is reached by a link: office/cand/alice|' office/cand/{alice,bob}/prog.s19
reached 'with dots and doubled slashes' 'is reached by a link: .//office/./cand/alice|' \
    .//office/./cand/alice/prog.s19 office//cand/bob/prog.s19
reached 'and back' 'is reached by a link: sittings/cand/bob/../alice||' \
    sittings/cand/bob/../{alice,carol/../bob}/prog.s19 sittings/./cand/bob/../bob/prog.s19
reached 'through a link and back' "$alice|" sittings/cand/alice/../cand/bob/prog.s19 sittings/cand/bob/prog.s19
reached 'one name alone shares nothing' 'is reached by a link: office' office/cand/bob/prog.s19
reached 'nor does one that is given twice' "$alice|$alice" sittings/cand/alice/prog.s19 sittings/cand/alice/prog.s19
reached 'but by no link it is reached' '' "$here/sittings/cand/bob/prog.s19"
reached 'a whole name' "is reached by a link: $here/sittings/cand/alice|" "$here"/sittings/cand/{alice,bob}/prog.s19
reached 'whole ones and others' "is reached by a link: $here/office|" "$here/office/cand/bob/prog.s19" \
    sittings/cand/bob/prog.s19
reached 'of which the root is shared' 'is reached by a link: /proc/self|' /proc/self/status "$sound"
reached 'a slash behind it' "$alice|Not a directory|" \
    sittings/cand/alice/ sittings/cand/bob/prog.s19/ sittings/cand/bob/
reached 'no name at all' 'No such file or directory|' '' a.s19
reached 'a name that is too long' 'File name too long|' "$(printf './%.0s' $(seq 2100))a.s19" a.s19
reached 'a file as a folder' 'Not a directory|No such file or directory' a.s19/b.s19 nowhere/b.s19
(cd sittings/cand && "$xm23" mark -o ../../ways "$paper" */prog.s19) 2> err
same 'from the folder of the candidates' "$(cells ways says)" 'is reached by a link: alice'
chmod 111 sittings/cand
reached 'a folder that may be passed through' '|' sittings/cand/{bob/prog.s19,carol/src/prog.s19}
chmod 755 sittings/cand
# While a folder becomes a link and a folder again, what is read is never the setter's.
cp -r sittings/cand/bob sittings/cand/dave
(cd sittings/cand && exec python3 -c '
import os
while True:
    os.rename("dave", ".dave"); os.symlink("../setter", "dave"); os.unlink("dave"); os.rename(".dave", "dave")') &
turning=$!
for _ in 1 2 3 4 5; do
    "$xm23" mark -o ways "$paper" sittings/cand/{bob,dave}/prog.s19{,,,,,,,,,,,,,,,}
    cells ways agrees
done > out 2> err
kill "$turning"
{ wait "$turning"; } 2> /dev/null
same 'at no moment' "$(sort -u out) $(wc -l < out)" 'no 160'
expect 'run follows what was typed' 0 '0 120 001F .*' '' "$xm23" run "$paper" sittings/cand/alice/prog.s19
expect 'so does report' 0 '' '' "$xm23" report -o page.html "$paper" sittings/cand/alice/prog.s19

# ---- everything after the paper is a name
mkdir names
for name in --help -j -x; do cp "$sound" "names/$name"; done
expect 'names that look like words of the command' 0 '' '' \
    bash -c 'cd names && exec "$0" mark -o ../named "$1" *' "$xm23" "$paper"
same 'are names' "$(cells named agrees | sort | uniq -c | tr -d ' ')" 3yes
same "each of them, text in a cell" "$(cells named name | sort | tr '\n' ' ')" "'--help '-j '-x "
cp "$sound" names/--
expect 'behind --' 0 '' '' bash -c 'cd names && exec "$0" mark -o ../named -- "$1" *' "$xm23" "$paper"
same 'is a name like any other' "$(cells named agrees | sort | uniq -c | tr -d ' ')" 4yes
expect 'run of --help' 0 '0 120 001F .*' '' bash -c 'cd names && exec "$0" run "$1" --help' "$xm23" "$paper"
expect '--help elsewhere' 2 '' "$(usage mark)" "$xm23" mark -o x --help "$paper" a.s19
expect '--help behind the subcommand' 0 'usage: xm23 mark .*' '' "$xm23" mark --help nonsense
expect 'no name' 2 '' 'xm23: standard input names no program' "$xm23" mark -o none -0 "$paper" < /dev/null
same 'is no marking' "$(ls -d none* 2> /dev/null)" ''
for j in 4294967297 18446744073709551617 65 0 00 +4 ' 4' 4x 0x4 -1; do
    expect "mark -j '$j'" 2 '' "$(usage mark)" "$xm23" mark -j "$j" "$paper" a.s19
done

# ---- limits: what one program may take of a sitting
{ printf 'A EQU $10000\n'; yes 'ORG A' | head -10000; echo END; } > slow.asm
head -c 16777216 < <(yes '') > newlines.asm
head -c 1048576 < <(yes '') > lines.asm
{ yes 'S1040000FFFC' | head -80659; printf 'S9030000FC'; } > most.s19 # 1,048,577 bytes
{ for at in $(seq 0 65535); do printf 'S104%04X00%02X\r\n' "$at" $((255 - (4 + at / 256 + at % 256) % 256)); done
    printf 'S9031000EC\r\n'; } > every.s19
expect 'one that takes long' 1 '' '' timeout 60 "$xm23" mark -j 1 -o slow "$paper" newlines.asm most.s19 lines.asm a.s19
same 'each is a row' "$(cells slow line says agrees | sed 's/^0 120 .*yes$/yes/; s/: a line fits .*|/: ..|/')" \
    $'|is longer than 1048576 bytes|no\n|is longer than 1048576 bytes|no\nR17|line 1048577: ..|no\nyes'
timeout 100 "$xm23" mark -j 1 -o slow "$paper" slow.asm a.s19 2> err
same 'one that takes longer' "$(cells slow agrees)" $'no\nyes'
expect 'every byte of memory has room' 1 '' '' "$xm23" mark -o every "$paper" every.s19
same 'and is run' "$(cells every says steps)" '|120'

# Memory: as little as one program takes, and another that takes more.
if [ $# -eq 0 ]; then
    printf ' ORG $1000\n MOVLZ $05,R1\n MOVLZ $41,R0\nHERE ST.B R0,R1\n BRA HERE\n END\n' > shows.asm
    printf 'steps 1000000\ndevice 2 $10\n' > shows.paper
    little() { (ulimit -v "$1" && exec "$xm23" mark -j 1 -o little shows.paper "${@:2}") > out 2> err; }
    low=1000 high=400000
    while [ $((high - low)) -gt 64 ]; do
        middle=$(((low + high) / 2))
        if little "$middle" a.s19; then high=$middle; else low=$middle; fi
    done
    little $((high + 64)) shows.asm a.s19
    same 'memory is at an end' "$? $(cells little says)" \
        $'3 could not be marked: no memory is left for it, which may take 512 MiB'
    same 'and the next is marked' "$(cells little line | sed -n '2s/^0 1000000 .*/yes/p')" yes
fi

# ---- two at once: each is whole, and the later stays
for i in 1 2 3 4 5 6; do
    cp "$sound" "mine$i.s19"
    "$xm23" mark -j 2 -o shared "$paper" "mine$i.s19" many/0*.s19 2> "err$i" &
    pids[i]=$!
done
all=
for i in 1 2 3 4 5 6; do wait "${pids[i]}"; all+="$?$(cat "err$i")"; done
same 'six at once' "$all" 000000
same 'one of them is there, whole' "$(whole shared) $(cells shared agrees | sort -u)" 'whole yes'
same 'and nothing else' "$(beside shared)" ''

# ---- standard input, output and errors that are closed
(exec "$xm23" mark -o numbers "$paper" a.s19 no/such <&- >&- 2>&-)
same 'without any of the three' "$? $(whole numbers)" '1 whole'
first=$(sum numbers)
(ulimit -f 8 && exec "$xm23" mark -o numbers "$paper" a.s19 <&- >&- 2>&-)
same 'and nowhere to tell a mistake' "$? $(sum numbers) $(beside numbers)" "3 $first "

# ---- what the system does, and what it fails to do: a library put before that of C tells the one and has the other.
# Sanitizers are put there themselves, so this is of the program that is used.
if [ $# -eq 0 ]; then
    gcc -shared -fPIC -O1 -Wall -Wextra -Werror -o shim.so "$tests/shim.c" -ldl || exit 1
    shim() { SHIM_FAILS=$1 SHIM_NOTES=$room/calls LD_PRELOAD=$room/shim.so "${@:2}"; } # FAILS COMMAND..
    seen() { grep -E "^($1) " calls | tr '\n' ' '; rm -f calls; }
    # On the disk before it is in its place.
    "$xm23" mark -o shared "$paper" b.s19
    shim '' "$xm23" mark -o shared "$paper" a.s19
    same 'synced and then renamed' "$(seen 'syncfs|fsync|renameat2?')" 'syncfs 0 renameat2 0 fsync 0 '
    # Each program has its time, and each worker its memory.
    shim '' "$xm23" mark -j 2 -o shared "$paper" a.s19 b.s19 pipe
    sort -o calls calls
    same 'ten seconds for each program, 512 MiB for each worker' "$(seen 'setitimer|setrlimit|another.*')" \
        'setitimer 10 setitimer 10 setitimer 10 setrlimit 512 setrlimit 512 '
    # A system that cannot exchange two names does it by turns.
    shim renameat:5:9 "$xm23" mark -o shared "$paper" b.s19
    same 'by turns' "$(whole shared) $(cells shared name) $(beside shared)" 'whole b.s19 '
    # The new one has its place by then: the earlier one goes by the name that it has.
    shim renameat:5:3 "$xm23" mark -o shared "$paper" a.s19
    same 'by turns, the last of which fails' "$(whole shared) $(cells shared name) $(beside shared)" 'whole a.s19 '
    # A disk that takes no name: both markings stay.
    lost='may be lost with the power: its folder cannot be written: Input/output error'
    kept="; what was there is 'shared.new-[0-9]+-0' beside it"
    expect 'a name that is not on the disk' 3 '' "shared: is the new marking, but $lost$kept" \
        shim fsync:5 "$xm23" mark -o shared "$paper" b.s19
    same 'both are there' "$(whole shared) $(cells shared name) $(whole shared.new-*) $(cells shared.new-* name)" \
        'whole b.s19 whole a.s19'
    rm -r shared.new-*
    expect 'of one alone' 3 '' "alone: is the new marking, but $lost" shim fsync:5 "$xm23" mark -o alone "$paper" b.s19
    same 'it is there' "$(whole alone) $(beside alone)" 'whole '
    expect 'where no folder is brought to the disk' 0 '' '' shim fsync:22 "$xm23" mark -o shared "$paper" b.s19
    expect 'no disk' 3 '' 'shared: cannot be written: Input/output error' \
        shim syncfs:5 "$xm23" mark -o shared "$paper" a.s19
    same 'nothing new is there' "$(whole shared) $(cells shared name) $(beside shared)" 'whole b.s19 '
    # What the machine cannot do is no word about a program; what a candidate handed in is.
    cp "$sound" trouble.s19
    for problem in '5 Input/output error' '12 Cannot allocate memory' '23 Too many open files in system' \
        '24 Too many open files' '116 Stale file handle'; do
        for call in openat read; do
            expect "$call: ${problem#* }" 3 '' 'troubled: 1 program could not be marked; the rows say why' \
                shim "$call:${problem%% *}" "$xm23" mark -o troubled "$paper" trouble.s19 b.s19
            same 'is no row of the candidate' "$(cells troubled line says agrees | sed 's/^0 120 .*yes$/yes/')" \
                "|could not be marked: ${problem#* }|no"$'\nyes'
            same 'its page says so' "$(grep -c '<p>could not be marked: ' troubled/pages/*trouble*) $(whole troubled)" \
                '1 whole'
        done
    done
    for problem in '2 No such file or directory' '13 Permission denied' '40 Too many levels of symbolic links'; do
        expect "openat: ${problem#* }" 1 '' "$([ "${problem%% *}" != 2 ] || echo "trouble.s19: ${problem#* }")" \
            shim "openat:${problem%% *}" "$xm23" mark -o troubled "$paper" trouble.s19 b.s19
        same 'is a row' "$(cells troubled says)" "${problem#* }"
    done
    mkdir -p deep/trouble && cp "$sound" deep/trouble/b.s19
    expect 'on the way to it' 3 '' 'troubled: 1 program .*' \
        shim openat:24 "$xm23" mark -o troubled "$paper" deep/trouble/b.s19 a.s19
    same 'too' "$(cells troubled says)" 'could not be marked: Too many open files'
    expect 'of a report' 3 '' 'trouble.s19: .*Input/output error' \
        shim read:5 "$xm23" report -o page.html "$paper" trouble.s19
fi

# ---- a folder of somebody else's, as who marks may take it over
if [ "$(id -u)" -eq 0 ] && id nobody > /dev/null 2>&1; then
    expect 'a marking' 0 '' '' "$xm23" mark -o handed_on "$paper" b.s19
    chown -R nobody handed_on
    chmod 777 handed_on
    expect 'is taken over' 0 '' '' "$xm23" mark -o handed_on "$paper" b.s19
    same 'and not what others may write' "$(stat -c '%U %a' handed_on)" 'root 755'
    touch theirs.html && chown nobody theirs.html && chmod 622 theirs.html
    expect "a page of somebody else's" 0 '' '' "$xm23" report -o theirs.html "$paper" b.s19
    same 'is no more open than usual' "$(stat -c '%U %a' theirs.html)" 'root 600'
fi

# ---- a row stays one where a spreadsheet splits it by semicolons
cp b.s19 'bob.s19;=1+1;yes.s19'
expect 'a name with semicolons' 0 '' '' "$xm23" mark -o semicolons "$paper" 'bob.s19;=1+1;yes.s19'
same 'is one cell either way' "$(python3 - << 'END'
import csv
with open("semicolons/results.csv", newline="") as file:
    print(max(len(row) for row in csv.reader(file, delimiter=";")))
END
) $(cells semicolons name)" '1 bob.s19\x3B=1+1\x3Byes.s19'
count
