#!/usr/bin/env bash
# What xm23 says on standard error: messages.sh [PROGRAM], build/xm23 if none is named. A refusal has one form whichever
# subcommand tells it, file:line: Rn: text; every message names the program or a file, and says what is wrong.
set -u
cd "$(dirname "$0")/../.."
. tests/shell/expect.sh
xm23=$(realpath "${1:-build/xm23}")
sitting=$PWD/examples/sitting
cd "$room" || exit 1
cp "$sitting/sum.paper" sum.paper
cp "$sitting/programs/sound.s19" sound.s19

# ---- a program that is refused: source, S-records, a folder of them
sed '2s/..$/00/' sound.s19 > sum.s19
printf ' ORG $1000\n ADD R0,R1\n BRA X\nEND\n' > name.asm
mkdir folder
cp sound.s19 folder/program.s19
printf ' ORG $5000\n\n WORD #1\n RET\nEND\n' > folder/handler.asm
checksum="sum.s19:2: R11: a line's checksum differs"
name="name.asm:3: R18: a name is unknown, already given or the 1,025th"$'\n'"name.asm:3: column 6: no line gives the name 'X'"
form='folder/handler.asm:4: R17: a line fits no statement, brackets go deeper than 16, or END is missing'
form+=$'\nfolder/handler.asm:4: column 2: RET is written MOV LR,PC'
# told PROGRAM ERRORS SUBCOMMAND..: all of standard error but for what is expected of the line.
told() {
    local program=$1 errors=$2 status=0
    shift 2
    "$xm23" "$@" "$program" > out 2> err || status=$?
    same "$* $program: status" "$status" 1
    same "$* $program" "$(grep -v 'another line was expected' err)" "$errors"
}
for subcommand in 'run sum.paper' run 'report -o page.html sum.paper' 'check sum.paper' 'events sum.paper' \
    'sound sum.paper' 'back sum.paper' 'stack sum.paper' dis; do
    told sum.s19 "$checksum" $subcommand
    told name.asm "$name" $subcommand
    told folder "$form" $subcommand
done
told name.asm "$name" asm
expect 'asm of S-records' 1 '' 'sound.s19:4: R17: .*.sound.s19: by its name it is a file of S-records, and no source' \
    "$xm23" asm sound.s19
expect 'copies' 3 '.*compared.*' "$checksum.$name.$form" "$xm23" copies sum.paper sum.s19 name.asm folder sound.s19
: > empty.s19
told empty.s19 "$("$xm23" run empty.s19 2>&1 > /dev/null)" report -o page.html sum.paper
told sum.paper "$("$xm23" run sum.paper 2>&1 > /dev/null)" report -o page.html sum.paper
like 'a paper in place of a program' "$(cat err)" 'sum.paper:1: R10: .*sum.paper: by its name it is a paper: .*'
same 'two files with a byte' "$(cp sound.s19 folder/handler.s19; rm folder/handler.asm
    "$xm23" report -o page.html sum.paper folder 2>&1)" 'folder: handler.s19 and program.s19 both have $1000'

# ---- the same in the rows of a marking, which have a cell for the refusal: nothing is told
expect 'mark' 1 '' '' "$xm23" mark -o marks sum.paper sum.s19 name.asm
same 'its rows' "$(cells marks name line says)" "sum.s19|R11|line 2: a line's checksum differs
name.asm|R18|line 3: a name is unknown, already given or the 1,025th"
same 'its table' "$(grep -c "R11<br>line 2: a line's checksum differs" marks/index.html)" 1
same 'a page' "$(grep -c "<p>line 2: a line's checksum differs</p>" marks/pages/*-sum.s19.html)" 1

# ---- a paper that is refused, or the source that it brings
{ cat sum.paper && echo S1; } > srec.paper
{ cat sum.paper && echo 'source name.asm'; } > source.paper
srec="srec.paper:$(wc -l < srec.paper): R10: a line is no S0, S1 or S9, has a wrong count, or S9 is not last or missing"
for subcommand in run mark report check events sound back stack copies; do
    told sound.s19 "$srec" $subcommand srec.paper
    told sound.s19 "$name" $subcommand source.paper
done

# ---- bad usage: what is wrong, and how it is used; misused SUBCOMMAND WRONG [WORD..]
misused() { expect "$1 ${*:3}" 2 '' "$(usage "$1" "$2")" "$xm23" "$1" "${@:3}"; }
subcommands=$("$xm23" --help | sed -n 's/^  \([a-z]*\) .*/\1/p')
for subcommand in $subcommands; do
    misused $subcommand '-x is no option' -x
    misused $subcommand '-\\x1B is no option' $'-\e'
    misused $subcommand "no option begins with -- but --help, which stands directly behind '$subcommand'" --no
done
for subcommand in run mark report back events sound copies asm dis paper check stack; do
    misused $subcommand 'no file is named'
    misused $subcommand 'no file is named' --
done
for subcommand in mark report copies asm dis paper card; do
    misused $subcommand '-o has no value behind it' -o
done
for subcommand in mark report back events sound copies; do
    misused $subcommand "a name is missing behind 'sum.paper'" sum.paper
done
for subcommand in run report back events sound check stack; do
    misused $subcommand "'c' is one word too many" a b c
    misused $subcommand "'-l' is one word too many: options stand before all other words" sum.paper sound.s19 -l
done
for subcommand in asm dis paper; do
    misused $subcommand "'n\\\\x0Al' is one word too many" a $'n\nl'
done
misused card "'a' is one word too many" a
misused mark "'sound.s19' is one word too many" -0 sum.paper sound.s19
step='is no step, 0 to 4294967295'
misused run "-n 'x' $step" -n x sum.paper sound.s19
misused run "-n '' $step" -n '' sum.paper sound.s19
misused report "-a '-1' $step" -a -1 sum.paper sound.s19
misused back "-a '4294967296' $step" -a 4294967296 sum.paper sound.s19
misused back "-n '1025' is no number of steps, 1 to 1024" -n 1025 sum.paper sound.s19
misused back "-w 'tick' is no address, base sixteen, 0 to FFFF, and no name" -w tick sum.paper sound.s19
misused back '-w has no value behind it' -a 5 -w
misused asm '-s has no value behind it' -s
misused mark "-j '65' is no number of workers, 1 to 64" -j 65 sum.paper sound.s19
misused mark "-j '\\\\x1B\\[2J' is no number of workers, 1 to 64" -j $'\e[2J' sum.paper sound.s19
# Behind a paper everything is a name.
expect 'options behind the names' 1 '' \
    $'-o: No such file or directory: options stand before all other words\nother: No such file or directory' \
    "$xm23" mark sum.paper sound.s19 -o other
expect 'the same of copies' 3 '.*' '-o: is not compared: No such file or directory: options stand before all other words.other: .*' \
    "$xm23" copies sum.paper sound.s19 -o other
lines() { printf "$@" | "$xm23" mark -0 sum.paper; }
expect 'lines in place of zero bytes' 1 '' \
    "xm23: standard input has lines, where a zero byte ends a name: 'find .. -print0' writes it so"$'\nsound.s19.*: No such file.*' \
    lines 'sound.s19\nsum.s19\n'
cp sound.s19 $'a\nline.s19'
expect 'a name with a line in it' 0 '' '' lines 'sound.s19\0a\nline.s19\0'

# ---- names: empty, and in folders that are not there
echo END > good.asm
for words in 'run' 'run sum.paper' 'check' 'asm' 'dis' 'paper' 'report sum.paper' 'mark sum.paper'; do
    expect "$words ''" "$([ "$words" = 'mark sum.paper' ] && echo 1 || echo 3)" '' "'': No such file or directory" "$xm23" $words ''
done
for words in 'report -o @ sum.paper sound.s19' 'asm -o @ good.asm' 'dis -o @ sound.s19' 'paper -o @ sum.paper' 'card -o @'; do
    words=${words/@/no/such}
    expect "$words" 3 '' 'no/such: cannot be written: the folder that it would be in is not there' "$xm23" $words
done
expect 'asm -o ""' 3 '' "'': cannot be written: No such file or directory" "$xm23" asm -o '' good.asm
expect 'mark -o ""' 3 '' "'': cannot be replaced by a marking: give the folder a name of its own" "$xm23" mark -o '' sum.paper sound.s19
expect 'mark into no folder' 3 '' 'no/such: cannot be made: the folder that it would be in is not there' \
    "$xm23" mark -o no/such sum.paper sound.s19

# ---- files: empty ones, and a run that is asked for a step
rule='a line is no S0, S1 or S9, has a wrong count, or S9 is not last or missing'
told empty.s19 "empty.s19:1: R10: $rule (the file is empty)" run
: > empty
told empty "empty:1: R10: $rule (the file is empty)" dis
echo > blank.s19
told blank.s19 "blank.s19:1: R10: $rule (a source's name ends in .asm)" run
{ printf '\xEF\xBB\xBF' && cat sound.s19; } > mark.s19
told mark.s19 "mark.s19:1: R10: $rule (it begins with a byte order mark)" run
save='begins with a byte order mark: save the paper as UTF-8 without one'
printf '\xEF\xBB\xBFsteps 5\n' > mark.paper
told sound.s19 "mark.paper:1: '\\xEF\\xBB\\xBFsteps' $save" run mark.paper
printf '\xFF\xFEs\0t\0' > mark.paper
told sound.s19 "mark.paper:1: '\\xFF\\xFEs\\x00t\\x00' $save" check mark.paper
printf 'steps 5\n\xEF\xBB\xBFsteps 5\n' > mark.paper
like 'on another line it is none' "$("$xm23" run mark.paper sound.s19 2>&1)" "mark.paper:2: .* begins no line of a paper: .*"
expect 'a step of a refused program' 1 R11 "$checksum" "$xm23" run -n 5 sum.paper sum.s19
{ cat sum.paper && printf 'award 1 R0 = 0\npass 1\n'; } > points.paper
expect 'a step, where points are given' 1 R11 "$checksum" "$xm23" run -n 5 points.paper sum.s19
expect 'with the legend' 1 $'R11\n\n  refusal 11        a line\'s checksum differs' "$checksum" "$xm23" run -l -n 5 points.paper sum.s19
expect 'and without a step' 1 R11 "$checksum.points.paper:[0-9]+: another line .*points.paper:[0-9]+: .*" "$xm23" run points.paper sum.s19
count
