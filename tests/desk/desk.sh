#!/usr/bin/env bash
# xm23 as people use it and misuse it: desk.sh [PROGRAM], build/xm23 if none is named. Every subcommand, each status,
# bad papers, programs, names, folders and disks. Pages and results to the byte.
set -u
cd "$(dirname "$0")/../.."
. tests/shell/expect.sh
xm23=$(realpath "${1:-build/xm23}")
top=$PWD
paper=$top/examples/sitting/sum.paper
sound=$top/examples/sitting/programs/sound.s19
line='0 120 001F 0120 0000 0006 0000 FFFF 0800 1016 0003 00 00000000 1'

# ---- the program itself
expect 'no word' 2 '' 'usage: xm23 .*' "$xm23"
expect 'no subcommand' 2 '' "xm23: 'fly' is no subcommand.*" "$xm23" fly
expect '--help' 0 'usage: .*run .*mark .*report .*back .*events .*asm .*dis .*stack .*card .*Status.*' '' "$xm23" --help
expect '--version' 0 'xm23 [0-9]+\.[0-9]+\.[0-9]+' '' "$xm23" --version
for word in run mark report back events sound line copies asm dis check stack card; do
    expect "$word --help" 0 "usage: xm23 $word .*" '' "$xm23" "$word" --help
    expect "$word -x" 2 '' "$(usage "$word")" "$xm23" "$word" -x
    same "$word is in the manual" "$(grep -qx "\.B $word" man/xm23.1 && echo yes)" yes
done
full() { "$@" > /dev/full; }
expect 'help to a full disk' 3 '' 'standard output: cannot be written: No space left.*' full "$xm23" --help

# ---- completion
complete_words() { # WORD..
    bash -c '. desk/completion.bash; COMP_WORDS=("$@"); COMP_CWORD=$(($# - 1)); _xm23; echo "${COMPREPLY[*]}"' - "$@" \
        2> /dev/null
}
subcommands=$("$xm23" --help | sed -n 's/^  \([a-z]*\) .*/\1/p' | tr '\n' ' ')
like 'subcommands' "$subcommands" 'run mark report back events .*card '
same 'every subcommand is completed' "$(complete_words xm23 '')" "$subcommands--help --version"
same 'options' "$(complete_words xm23 mark -)" '-j -o -0 -L -s --help'
same 'files' "$(complete_words xm23 run examples/sitting/sum)" 'examples/sitting/sum.paper'
same 'folders' "$(complete_words xm23 mark -o examples/sit)" 'examples/sitting'

# ---- run
expect 'run' 0 "$line" '' "$xm23" run "$paper" "$sound"
expect 'run -l' 0 "$line.*reason +0 +all steps are done.*PSW +0003 +priority 0, previous 0, flags: Z C.*" '' \
    "$xm23" run -l "$paper" "$sound"
same 'the legend is that of the line' "$("$xm23" run -l "$paper" "$sound")" "$("$xm23" line "$line")"
same 'a legend on a terminal' "$(python3 -B tests/desk/terminal.py "$xm23" run "$paper" "$sound" | tr -d '\r')" \
    "$("$xm23" line "$line")"
same 'the screen' "$("$xm23" run -l "$paper" "${sound%/*}/screen.asm" 2> /dev/null | tail -1)" '  screen  SUM'
expect 'no screen without -l' 1 '0 120 004D 0005 .*0 1' '.*another line.*' "$xm23" run "$paper" "${sound%/*}/screen.asm"
expect 'another line' 1 '0 120 0019 .*' "$paper:21: another line was expected: $line" \
    "$xm23" run "$paper" "${sound%/*}/stops_early.s19"
expect 'a refused program' 1 'R11' ".*refused.s19:2: R11: a line's checksum differs.*" \
    "$xm23" run "$paper" "${sound%/*}/refused.s19"
expect 'a paper alone, taken for a program' 1 R10 "$paper:1: R10: .*$paper: by its name it is a paper: the program .*" \
    "$xm23" run "$paper"
expect 'paper and program in the other order' 1 '' ".*has no line 'steps N'.$sound: by its name it is a program: the paper .*" \
    "$xm23" run "$sound" "$paper"
expect 'the same with a source' 1 '' ".*begins no line.*: by its name it is a program: the paper .*" \
    "$xm23" mark -o "$room/swapped" examples/sitting/sources/sound.asm "$paper"
expect 'run with three words' 2 '' "$(usage run)" "$xm23" run "$paper" "$sound" "$sound"
expect 'no such paper' 3 '' 'no/paper: No such file.*' "$xm23" run no/paper "$sound"
expect 'a folder as paper' 3 '' '/: is a folder' "$xm23" run / "$sound"
expect 'no such program' 3 '' 'no/program: No such file.*' "$xm23" run "$paper" no/program
expect 'a folder without a program' 3 '' '/: is a folder, and no file in it ends in .s19 or .asm' \
    "$xm23" run "$paper" /
expect 'an endless program' 3 '' '/dev/zero: is longer than 16777216 bytes' "$xm23" run "$paper" /dev/zero
expect 'an endless paper' 3 '' '/dev/zero: is longer than 16777216 bytes' "$xm23" run /dev/zero "$sound"
expect 'an empty program' 1 'R10' '/dev/null:1: R10: .*' "$xm23" run "$paper" /dev/null
expect 'a line to a full disk' 3 '' 'standard output: cannot be written: .*' full "$xm23" run "$paper" "$sound"
closed() { "$@" >&-; }
expect 'a closed output' 3 '' 'standard output: cannot be written: .*' closed "$xm23" run "$paper" "$sound"
piped() { "$xm23" run <(cat "$paper") <(cat "$sound"); }
expect 'paper and program from pipes' 0 "$line" '' piped
expect 'a name with a newline' 3 '' 'no\\x0Asuch: No such file.*' "$xm23" run "$paper" $'no\nsuch'

# ---- papers: wrong LINE TEXT PAPER
wrong() {
    printf '%b' "$3" > "$room/p.paper"
    expect "a paper: $2" 1 '' "$room/p.paper:$1 $2" "$xm23" run "$room/p.paper" "$sound"
}
right() { # WHAT LINE PAPER
    printf '%b' "$3" > "$room/p.paper"
    expect "$1" 0 "$2" '' "$xm23" run "$room/p.paper" "$sound"
}
wrong '' "has no line 'steps N'" ''
wrong '2:' "'0x800' is no number: base sixteen is \\$ and the digits" 'steps 1\nstart SP=0x800\n'
wrong '2:' "'0X1F' is no number: base sixteen is \\$ and the digits" 'steps 1\nbytes 0X1F 1\n'
wrong '2:' "'0xG' is no address, .*" 'steps 1\nbytes 0xG 1\n'
wrong '1:' "'#' is no number: a comment begins with ;" '# a paper\n'
wrong '1:' "'#comment' is no number: a comment begins with ;" '#comment\n'
wrong '1:' "'#1x' is no number: a comment begins with ;" '#1x\n'
wrong '1:' "'#1F' is no number: # is base ten, .*" '#1F 1 0\n'
wrong '1:' "'hello' begins no line of a paper: .*" 'hello\n'
wrong '1:' "'\\\\x01\\\\x02' begins no line of a paper: .*" '\001\002\n'
wrong '1:' "'\\\\x00' begins no line of a paper: .*" '\0000\n'
wrong '1:' 'number of steps is missing' 'steps\n'
wrong '1:' "'many' is no number of steps, 0 to 4294967295" 'steps many\n'
wrong '1:' "'4294967296' is no number of steps, .*" 'steps 4294967296\n'
wrong '1:' "'#' is no number of steps, .*" 'steps #\n'
wrong '1:' "'\\\$' is no number of steps, .*" 'steps $\n'
wrong '1:' "'#-5' is no number of steps, .*" 'steps #-5\n'
wrong '1:' "'#1F' is no number: # is base ten, \\\$ base sixteen" 'steps #1F\n'
wrong '1:' "'#0800' is no number: # is base ten, \\\$ base sixteen" 'start SP=#0800\n'
wrong '1:' "'#0100' is no number: # is base ten, .*" 'words #0100 1\n'
wrong '1:' "'#FFFF' is no number: # is base ten, .*" 'start LR=#FFFF\n'
wrong '1:' "'#11' is no device, 0 to 7" 'device #11 1\n'
wrong '1:' "'#011' is no number: # is base ten, .*" 'device 1 #011\n'
wrong '2:' "'#0A' is no number: # is base ten, .*" 'steps 5\n#0A 1 0\n'
wrong '1:' "'\\\$1G' is no number of steps, .*" 'steps $1G\n'
wrong '1:' "'\\\$-1' is no word, -32768 to 65535" 'words 0 $-1\n'
wrong '1:' "'#-32769' is no word, -32768 to 65535" 'words 0 #-32769\n'
wrong '1:' "'#-129' is no byte, -128 to 255" 'bytes 0 #-129\n'
wrong '1:' "'PSW=#-1' has no number that fits" 'start PSW=#-1\n'
wrong '1:' "'6' is one word too many" 'steps 5 6\n'
wrong '2:' 'steps is on line 1 already' 'steps 5\nsteps 6\n'
wrong '2:' 'the title is on line 1 already' 'title a\ntitle b\n'
wrong '2:' 'the expected line is on line 1 already' 'expect R11\nexpect R12\n'
wrong '2:' 'the priority is on line 1 already' 'priority 1\npriority 1\n'
wrong '1:' 'R2: n is above 1,000,000.*' 'steps 1000001\n'
wrong '2:' 'R2: n is above 1,000,000.*' 'start COUNT=4294967295\nsteps 1\n'
wrong '1:' 'start names no register' 'start\nsteps 5\n'
wrong '1:' "'R9=1' is no part of the start: .*" 'start R9=1\n'
wrong '1:' "'R1' is no part of the start: .*" 'start R1\n'
wrong '1:' "'R1=' has no number that fits" 'start R1=\n'
wrong '1:' "'R1=65536' has no number that fits" 'start R1=65536\n'
wrong '1:' "'HALTED=256' has no number that fits" 'start HALTED=256\n'
wrong '2:' 'SP is on line 1 already' 'start R6=1\nstart SP=1\n'
wrong '1:' 'SP is on line 1 already' 'start SP=1 SP=2\n'
wrong '2:' 'R4: .*' 'steps 5\nstart PSW=$1E00\n'
wrong '2:' 'R4: .*' 'steps 5\nstart CEX=$0080\n'
wrong '2:' 'R4: .*' 'steps 5\nstart HALTED=2\n'
wrong '1:' "'8' is no device, 0 to 7" 'device 8 1\n'
wrong '1:' 'status byte is missing' 'device 1\n'
wrong '1:' "'256' is no data byte, 0 to 255" 'device 1 1 256\n'
wrong '2:' 'this device is on line 1 already' 'device 1 1\ndevice 1 2\n'
wrong '1:' "'16' is no vector, 0 to 15" 'vector 16 1 1\n'
wrong '1:' 'PC is missing' 'vector 1 1\n'
wrong '2:' 'this vector is on line 1 already' 'vector 1 1 1\nvector 1 1 1\n'
wrong '1:' 'byte is missing' 'bytes $1000\n'
wrong '1:' "'256' is no byte, -128 to 255" 'bytes $1000 256\n'
wrong '1:' "'\\\$10000' is no address, 0 to 65535" 'words $10000 1\n'
wrong '1:' 'passes \$FFFF' 'words $FFFE 1 2\n'
wrong '1:' "'-1' is no word, -32768 to 65535" 'words 0 -1\n'
wrong '2:' 'the use of this device is on line 1 already' 'use 1 1\nuse 1 1\n'
wrong '2:' "R10: .*" 'steps 1\nS1\n'
wrong '2:' "R11: .*" 'steps 1\nS9030000FB\n'
wrong '2:' "R10: .*" 'steps 1\nS9030000FC\nS9030000FC\n'
wrong '2:' 'byte is missing' 'steps 5\n1 2\n'
wrong '2:' "'256' is no device, 0 to 255" 'steps 5\n1 256 3\n'
wrong '2:' "R6: an event's device is above 7.*" 'steps 5\n1 8 3\n'
wrong '3:' "R7: an event's step is below.*" 'steps 5\n2 1 3\n1 1 3\n'
wrong '4:' 'R13: two events share step and device: lines 2 and 4' 'steps 5\n1 1 3\n1 2 3\n1 1 4\n'
{ echo 'steps 5'; for i in $(seq 4097); do echo "$i 0 0"; done; } > "$room/p.paper"
expect 'too many events' 1 '' "$room/p.paper:4098: R5: .*" "$xm23" run "$room/p.paper" "$sound"
noise 300000 > "$room/p.paper"
expect 'random bytes' 1 '' "$room/p.paper:[0-9]+: .*" "$xm23" run "$room/p.paper" "$sound"
right 'the least paper' '0 0 0000 0000 0000 0000 0000 0000 0000 1000 0000 00 00000000 0' 'steps 0'
right 'CR LF, blanks, comments' '0 0 0005 0000 0000 0000 0000 0000 0000 1000 0000 00 00000000 0' \
    '; a paper\r\n\r\n\tsteps 0 ; none\r\nstart\tR0=5 ;\r\n'
right 'every part of the start' '1 0 0001 0002 0003 0004 0005 0006 0007 0008 E1FF 7F 12345678 0' \
    'steps 3\nstart R0=1 R1=2 R2=3 R3=4 R4=5 LR=6 SP=7 PC=8 PSW=$E1FF CEX=$7F HALTED=1 COUNT=#9 LINES=$12345678\n'
right 'a later line wins' '0 1 0001 0000 0000 0000 0000 0000 0000 1002 0000 00 00000000 0' \
    'steps #1\nwords $1000 $4080\nwords $1000 $4088\n'
right 'numbers below 0' '0 0 FFFF 8000 0000 0000 0000 0000 0000 1000 0000 00 00000000 0' \
    'steps 0\nstart R0=#-1 R1=#-32768\nwords $20 #-1\nbytes $30 #-128\n'
right 'bytes, and a letter' '0 1 0000 0000 0000 0000 0000 0000 0000 1002 0000 00 00000000 0' \
    "steps 1\nbytes \$1000 \$00 'L'\n"
printf 'steps 0\nS9032000DC\n' > "$room/p.paper"
expect 'the PC of its S9' 0 '0 0 .* 2000 0000 00 00000000 0' '' "$xm23" run "$room/p.paper" "$sound"

# ---- sources as programs
source=${sound%/*/*}/sources/sound.asm
expect 'run of a source' 0 "$line" '' "$xm23" run "$paper" "$source"
cp "$source" "$room/CAPITAL.ASM"
expect 'run of a source in capitals' 0 "$line" '' "$xm23" run "$paper" "$room/CAPITAL.ASM"
cp "$source" "$room/source.txt"
expect 'a source that has not its name' 1 'R10' ".*source.txt:1: R10: .* \(a source's name ends in .asm\).*" \
    "$xm23" run "$paper" "$room/source.txt"
cp "$sound" "$room/records.asm"
expect 'S-records that have its name' 1 'R17' '.*records.asm:4: R17: .*' "$xm23" run "$paper" "$room/records.asm"
printf ' ORG $1000\n ADD R0,R1\n BRA X\nEND\n' > "$room/name.asm"
expect 'a source at fault' 1 'R18' '.*name.asm:3: R18: a name is unknown.*' "$xm23" run "$paper" "$room/name.asm"
same 'dis of a source' "$("$xm23" dis "$source" | grep -v '^[A-Z]')" "$("$xm23" dis "$sound")"
same 'with its labels' "$("$xm23" dis "$source" | grep '^[A-Z]' | tr '\n' ' ')" 'START NEXT HERE '
printf 'steps 1\nuse 0 0\n' > "$room/s.paper"
printf ' ORG $FFC0\n WORD $00A0\n WORD $2000\nEND\n' > "$room/vectors.asm"
expect 'vectors of a source' 0 '.*0       5         0.*8 bytes' '' "$xm23" stack "$room/s.paper" "$room/vectors.asm"
# A start: the place of the first instruction, wherever data, names and later lines are.
started() { # PC SOURCE
    printf '%b' "$2" > "$room/a.asm"
    same "starts at $1" "$("$xm23" dis "$room/a.asm" | tail -1) $("$xm23" asm "$room/a.asm" | tail -1 | cut -c 5-8)" \
        "    END                 ; start $1 $1"
}
started 0000 'END'
started 0000 ' BYTE #1\nEND'
started 2000 ' ORG $3000\n WORD (LATER+#1)\nA EQU $2000\n ORG A\nLATER ADD R0,R1\n ORG $1000\n BL LATER\nEND'
started 0006 'X WORD Y\n BSS #2\nY WORD X\n BL Y\nEND'
started FFFE ' ORG $FFFE\n ADD R0,R1\nEND'
started 1000 ' ORG $1000\n ADD R0,R1\n ORG $1000\n WORD #0\nEND'
started 0002 'ORGAN BSS #2\n SVC #1\nEND'

# ---- asm
for name in halting sound stops_early; do
    same "asm $name" "$("$xm23" asm "${sound%/*/*}/sources/$name.asm")" "$(cat "${sound%/*}/$name.s19")"
done
same 'asm of copy_words' "$("$xm23" asm examples/copy_words.asm)" "$(cat examples/copy_words.s19)"
"$xm23" asm -l examples/copy_words.asm > "$room/copy.lst"
same 'listing beside the decoder' "$(sed -n 's/^\([0-9A-F]\{4\}  [0-9A-F]\{4\}\) .*/\1/p' "$room/copy.lst")" \
    "$(sed -n 's/.*; \([0-9A-F]\{4\}\) \([0-9A-F]\{4\}\).*/\1  \2/p' examples/copy_words.lst)"
same 'a line of it' "$(sed -n 11p "$room/copy.lst")" '100A  5891    11.  LOOP    LD R2+,R1'
same 'a line without bytes' "$(sed -n 2p "$room/copy.lst")" '               2.          ORG $0100'
same 'every line' "$(sed '$d' "$room/copy.lst" | cut -c20-)" "$(cat examples/copy_words.asm)"
same 'where it starts' "$(tail -1 "$room/copy.lst")" 'start 1000'
expect 'asm -o' 0 '' '' "$xm23" asm -o "$room/asm.s19" "$source"
same 'wrote the program' "$(cat "$room/asm.s19")" "$(cat "$sound")"
expect 'run of what it wrote' 0 "$line" '' "$xm23" run "$paper" "$room/asm.s19"
assembled() { # STATUS OUTPUT MISTAKE SOURCE WORD..
    local status=$1 output=$2 mistake=$3
    printf '%b' "$4" > "$room/a.asm"
    shift 4
    expect "asm: $output$mistake" "$status" "$output" "$mistake" "$xm23" asm "$@" "$room/a.asm"
}
assembled 0 'S9030000FC' '' 'END'
assembled 0 'S9031236B4' '' 'END' -s '$1236'
assembled 0 'S9031236B4' '' 'A EQU $1234\nEND' -s '(A+#2)'
assembled 1 '' 'xm23: -s B: R18: a name is unknown.*' 'A EQU $1234\nEND' -s B
assembled 1 '' 'xm23: -s : R17: .*' 'END' -s ''
assembled 1 '' 'xm23: -s 1236: R17: .*' 'END' -s 1236
assembled 1 '' 'xm23: -s #1\\x0AEND: R17: .*' 'END' -s $'#1\nEND'
assembled 1 '' 'xm23: -s #70000: R19: .*' 'END' -s '#70000'
assembled 0 $'S1050000AB024D\nS10500100140A9\nS9030010EC' '' \
    ' WORD $1234\n ORG #0\n BYTE $AB\n BYTE #2\n BSS #4\n ORG $10\n ADD R0,R1\nEND\n'
assembled 0 $'S104FFFFEE0F\nS9030000FC' '' ' ORG $FFFF\n BYTE $EE\nEND\n'
assembled 0 $'               1\\.   ORG #1\n0001  EE       2\\.   BYTE \\$EE\n               3\\.  END\nstart 0000' '' \
    ' ORG #1\r\n BYTE $EE\r\nEND\r\n' -l
listing=$'0000  1234     1\\.   WORD \\$1234\n               2\\.   ORG #1\n'
listing+=$'0001  AB       3\\.   BYTE \\$AB\n               4\\.  END\nstart 0000'
assembled 0 "$listing" '' ' WORD $1234\r\n ORG #1\n BYTE $AB\nEND\nnot read' -l
assembled 0 $'.*0000  70  .*' '' ' ORG #70000\nA BSS #0\n ORG #0\n BYTE (A-$11100)\nEND' -l
{ for i in $(seq 32768); do echo 'WORD #7'; done; echo END; } > "$room/all.asm"
expect 'all of memory' 0 'S113[^Z]*S113FFF0[0-9A-F]*'$'\n''S9030000FC' '' "$xm23" asm "$room/all.asm"
assembled 1 '' "$room/a.asm:2: R17: a line fits no statement.*" ' BYTE #1\n HALT R0\nEND'
assembled 1 '' "$room/a.asm:3: R17: .*END is missing.*:3: END is missing, .*" ' BYTE #1\nA\n'
assembled 1 '' "$room/a.asm:1: R17: .*" ''
assembled 1 '' "$room/a.asm:1: R18: a name is unknown.*" ' BRA X\nEND' -l
assembled 1 '' "$room/a.asm:2: R19: a value leaves 32 bits.*" 'A\n BYTE #256\nEND' -o "$room/none.s19"
same 'writes nothing then' "$(test -e "$room/none.s19" && echo there)" ''
expect 'asm -s without a word' 2 '' "$(usage asm)" "$xm23" asm -s
expect 'asm of nothing' 2 '' "$(usage asm)" "$xm23" asm
expect 'asm of two' 2 '' "$(usage asm)" "$xm23" asm a b
expect 'asm of no file' 3 '' 'no/such: No such .*' "$xm23" asm no/such
expect 'asm of a folder' 3 '' '/: is a folder' "$xm23" asm /
expect 'asm of an endless file' 3 '' '/dev/zero: is longer than 16777216 bytes' "$xm23" asm /dev/zero
expect 'asm to a full disk' 3 '' '/dev/full: cannot be written: .*' "$xm23" asm -o /dev/full "$source"
noise 100000 > "$room/noise.asm"
expect 'asm of random bytes' 1 '' "$room/noise.asm:[0-9]+: R17: .*" "$xm23" asm "$room/noise.asm"

# ---- report and back
cd examples/sitting || exit 1
"$xm23" mark -o "$room/two" sum.paper programs/sound.s19 programs/stops_early.s19
expect 'report' 0 '' '' "$xm23" report -o "$room/report.html" sum.paper programs/sound.s19
same 'the page of mark' "$(cat "$room/report.html")" "$(cat "$room"/two/pages/*-sound*)"
expect 'report of another line' 1 '' "sum.paper:21: another line was expected: $line" \
    "$xm23" report -o "$room/report.html" sum.paper programs/stops_early.s19
same 'to standard output' "$("$xm23" report sum.paper programs/stops_early.s19 2> /dev/null)" "$(cat "$room/report.html")"
same 'with its steps, as far as the closing ones' \
    "$(sed -n '/<h2>The last 32 steps before the closing ones</,/<\/table>/p' "$room/report.html" | grep '^<tr><td' |
        sed -n 's/<tr><td class="n">\([0-9]*\)<.*/\1/p' | tr '\n' ' ')" "$(seq -s ' ' 45 76) "
expect 'report of a refused program' 1 '' "programs/refused.s19:2: R11: a line's checksum differs" \
    "$xm23" report -o "$room/report.html" sum.paper programs/refused.s19
same 'says so' "$(grep -c '>Refused: not the expected line<' "$room/report.html")" 1
same 'and has no walk' "$(grep -c 'id="walk"' "$room/report.html")" 0
rm "$room/report.html"
expect 'report of no program' 3 '' 'no/such: No such .*' "$xm23" report -o "$room/report.html" sum.paper no/such
expect 'report of a folder without a program' 3 '' '/: is a folder, and .*' \
    "$xm23" report -o "$room/report.html" sum.paper /
expect 'report of no paper' 3 '' 'no/such: No such .*' "$xm23" report -o "$room/report.html" no/such programs/sound.s19
same 'then there is no page' "$(ls "$room" | grep report)" ''
expect 'report to a full disk' 3 '' '/dev/full: cannot be written: .*' \
    "$xm23" report -o /dev/full sum.paper programs/sound.s19
expect 'report into no folder' 3 '' 'no/such/x: cannot be written: .*' \
    "$xm23" report -o no/such/x sum.paper programs/sound.s19
expect 'report of one word' 2 '' "$(usage report)" "$xm23" report sum.paper
expect 'report of three words' 2 '' "$(usage report)" "$xm23" report sum.paper a b
reported() { # WHAT PAPER LINE
    printf '%b' "$2" > "$room/p.paper"
    same "$1" "$("$xm23" report "$room/p.paper" programs/sound.s19 |
        sed -n 's/.*<pre class="line">\(.*\)<\/pre>.*/\1/p')" "$3"
}
reported 'a run of no step' 'steps 0' '0 0 0000 0000 0000 0000 0000 0000 0000 1000 0000 00 00000000 0'
reported 'a halted machine' 'steps 9\nstart HALTED=1' '1 0 0000 0000 0000 0000 0000 0000 0000 1000 0000 00 00000000 0'
same 'has no walk' "$("$xm23" report "$room/p.paper" programs/sound.s19 | grep -c 'id="walk"')" 0
back='step        PC    word  instruction               what it left'
before='before step 104: R0 001F R1 0120 .* SP 0800 PC 1016 PSW 0003 CEX 00 lines 00000000'
expect 'back' 0 "$back"$'\n''119 .*BRA \$1016.*'$'\n'"104 .*$before" '' \
    "$xm23" back sum.paper programs/sound.s19
same 'sixteen steps' "$("$xm23" back sum.paper programs/sound.s19 | wc -l)" 18
expect 'back -n' 0 "$back"$'\n''119 .*'$'\n''118 .*'$'\n''before step 118: .*' '' \
    "$xm23" back -n 2 sum.paper programs/sound.s19
same 'to the start' "$("$xm23" back -n 1024 sum.paper programs/sound.s19 | tail -1)" \
    'before step 0: R0 0000 R1 0000 R2 0000 R3 0000 R4 0000 LR FFFF SP 0800 PC 1000 PSW 0000 CEX 00 lines 00000000'
same 'back -w' "$("$xm23" back -w 120 sum.paper programs/sound.s19 | tail -2 | head -1)" \
    '50          1014  5C01  ST R0,R1                  0120: 1F 00'
entry='65          1016        line of device 1 accepted  '
entry+='SP 07F8, PSW 0060, 07F8: 00 00 03 00 FF FF 16 10, device 1 status 1D'
same 'back -w, of a frame' "$("$xm23" back -w '$07FE' sum.paper programs/sound.s19 | tail -2 | head -1)" "$entry"
same 'back -w, of a device' "$("$xm23" back -w 5 sum.paper programs/screen.asm | tail -2 | head -1)" \
    '6           100C  5C41  ST.B R0,R1                device 2 data 4D  ; START+12'
expect 'back to nobody' 1 '' '.*sound.s19: none of the last 120 steps wrote \$4321' \
    "$xm23" back -w 4321 sum.paper programs/sound.s19
expect 'back to nobody so near' 1 '' '.*sound.s19: none of the last 5 steps wrote \$0120' \
    "$xm23" back -n 5 -w 120 sum.paper programs/sound.s19
expect 'back of a refused program' 1 '' '.*refused.s19:2: R11: .*' "$xm23" back sum.paper programs/refused.s19
halt='4 .*illegal; halt: fault 8, illegal word, with FLT set'
expect 'back of a halt' 0 "$back"$'\n'"$halt"$'\n''3 .*illegal; fault 8, illegal word .*' '' \
    "$xm23" back -n 2 sum.paper programs/halting.s19
printf 'S9030000FC\n' > "$room/empty.s19"
printf '%s\n' 'steps 4' 'start PC=$1000 R0=$11 R4=2' 'device 1 $11' 'words $1000 $5C44 $3FFF' > "$room/p.paper"
same 'back -w, of a device byte that stays as it was' \
    "$("$xm23" back -w 2 "$room/p.paper" "$room/empty.s19" | tail -2 | head -1)" \
    '0           1000  5C44  ST.B R0,R4                device 1 status 11'
printf '%s\n' 'steps 1' 'start PC=2 R2=5' 'device 1 $10 $40' '0 1 $40' > "$room/p.paper"
same 'a word among the device bytes is fetched after the events' \
    "$("$xm23" back "$room/p.paper" "$room/empty.s19" | tail -2 | head -1)" \
    '0           0002  4014  ADD R2,R4                 R4 0005, device 1 status 14'
printf 'steps 0' > "$room/p.paper"
expect 'back from nowhere' 1 '' '.*: no step was taken' "$xm23" back "$room/p.paper" programs/sound.s19
for word in '-n 0' '-n 1025' '-n x' '-n -1' '-n' '-w' '-w 10000' '-w x' '-w -1' '-w $' '-w $$1'; do
    # shellcheck disable=SC2086
    expect "back $word" 2 '' "$(usage back)" "$xm23" back $word sum.paper programs/sound.s19
done
expect 'back of one word' 2 '' "$(usage back)" "$xm23" back sum.paper
expect 'back of no program' 3 '' 'no/such: No such .*' "$xm23" back sum.paper no/such
expect 'back to a full disk' 3 '' 'standard output: cannot be written: .*' \
    full "$xm23" back sum.paper programs/sound.s19

# ---- events: each word that one can have; two entries of device 5 wait from before the first step
{
    printf '%s\n' 'steps 60' 'start PC=$1000 COUNT=10 SP=$0800 LR=$FFFF LINES=$00200000' 'words $1000 $3FFF' \
        'words $2000 $4088 $4C2F' 'device 1 $11' 'device 2 $10' 'device 4 $11' 'device 5 $11' \
        'vector 1 $0060 $2000' 'vector 5 $00A0 $2000' '5 1 1' '11 5 2' '20 1 3' '22 1 4' '30 2 5' '31 2 6' '32 3 7'
    for step in {40..55}; do echo "$step 4 0"; done
    printf '%s\n' '68 1 8' '69 1 9' '70 1 10'
} > "$room/e.paper"
{
    printf '%s\n' 'line,step,device,byte,event,overrun,interrupt,at' '11,5,1,1,before the start,,,' \
        '12,11,5,2,taken,no,chained,16' '13,20,1,3,taken,no,accepted,20' '14,22,1,4,taken,yes,chained,23' \
        '15,30,2,5,taken,no,IE clear,' '16,31,2,6,taken,yes,IE clear,' '17,32,3,7,ENA clear,,,' \
        '18,40,4,0,taken,no,waits,'
    for step in {41..54}; do echo "$((step - 22)),$step,4,0,taken,yes,waits,"; done
    printf '%s\n' '33,55,4,0,taken,yes,count full,' '34,68,1,8,taken,yes,accepted,68' '35,69,1,9,taken,yes,waits,' \
        '36,70,1,10,after the end,,,'
} > "$room/e.csv"
expect 'events -c' 0 '.*' '' "$xm23" events -c "$room/e.paper" "$room/empty.s19"
same 'its rows' "$(cat "$room/out")" "$(cat "$room/e.csv")"
totals='events 26: taken 23, ENA clear 1, before the start 1, after the end 1
taken 23: accepted 2, chained 2, waits 16, count full 1, IE clear 2; overruns 19
waiting before the first step 2: entered 2'
row='14      22          1       04    taken             yes      chained at step 23'
expect 'events' 0 'line +step +.*'$'\n'"$row.*" '' "$xm23" events "$room/e.paper" "$room/empty.s19"
same 'a row for each, and totals' "$(sed -n 28,40p "$room/out")" "$totals"
"$xm23" report "$room/e.paper" "$room/empty.s19" > "$room/e.html"
same 'the same on the page' \
    "$(sed '1,/<h2>Events/d; s/<\/t[dh]><t[dh][^>]*>/|/g; s/<[^>]*>//g; s/ at step /|/' "$room/e.html" |
        grep -E '^[0-9]+\|' | cut -d'|' -f1-3,5- | sed 's/|*$//')" \
    "$(tail -n +2 "$room/e.csv" | tr , '|' | cut -d'|' -f1-3,5- | sed 's/|*$//')"
same 'with its totals' "$(sed -n 's/<[^>]*>//g; /^events 26/,/entered 2/p' "$room/e.html")" "$totals"
expect 'events of a paper without' 0 'line .*'$'\n''events 0: .*'$'\n''taken 0: .*' '' \
    "$xm23" events <(echo 'steps 5') "$room/empty.s19"
same 'which the page leaves out' "$("$xm23" report <(echo 'steps 5') "$room/empty.s19" | grep -c '<h2>Events')" 0
printf 'steps 9\nstart HALTED=1\n0 1 0\n' > "$room/p.paper"
same 'a halted machine takes none' "$("$xm23" events -c "$room/p.paper" "$room/empty.s19" | tail -1)" \
    '3,0,1,0,after the end,,,'
{
    printf '%s\n' 'steps 1000000' 'start PC=$1000 SP=$0800 LR=$FFFF' 'words $1000 $3FFF' 'words $2000 $4C2F' \
        'device 1 $11' 'vector 1 $0060 $2000'
    for i in {0..4095}; do echo "$((i * 244)) 1 0"; done
} > "$room/p.paper"
same 'every one of 4,096 in a million steps' "$("$xm23" events "$room/p.paper" "$room/empty.s19" | tail -2)" \
    'events 4096: taken 4096, ENA clear 0, before the start 0, after the end 0
taken 4096: accepted 4096, chained 0, waits 0, count full 0, IE clear 0; overruns 4095'
"$xm23" report -o "$room/report.html" "$room/p.paper" "$room/empty.s19"
same 'of which the page has some' "$(grep -c '<p>The first 512 of 4096; ' "$room/report.html")" 1
same 'and is well-formed' "$(python3 -B "$top/tests/desk/pages.py" "$room/report.html" "$room/e.html")" \
    'all well-formed'
rm "$room/report.html"
expect 'events of a refused program' 1 '' '.*refused.s19:2: R11: .*' "$xm23" events sum.paper programs/refused.s19
expect 'events of a paper with a mistake' 1 '' '.*:1: .*' "$xm23" events <(echo 'step 5') programs/sound.s19
expect 'events of one word' 2 '' "$(usage events)" "$xm23" events sum.paper
expect 'events of three words' 2 '' "$(usage events)" "$xm23" events sum.paper a b
expect 'events of no program' 3 '' 'no/such: No such .*' "$xm23" events sum.paper no/such
expect 'events of no paper' 3 '' 'no/such: No such .*' "$xm23" events no/such programs/sound.s19
expect 'events to a full disk' 3 '' 'standard output: cannot be written: .*' \
    full "$xm23" events sum.paper programs/sound.s19
same 'completion of events' "$(cd "$top" && complete_words xm23 events -)" '-c --help'
same 'completion of sound' "$(cd "$top" && complete_words xm23 sound -)" '--help'
same 'completion of report' "$(cd "$top" && complete_words xm23 report -)" '-s -a -o --help'
cd "$top" || exit 1

# ---- dis, card, stack
same 'dis' "$("$xm23" dis examples/copy_words.s19)" "$(cat examples/copy_words.lst)"
printf 'S1040101AA4F\nS9030000FC\n' > "$room/byte.s19"
expect 'a lone byte' 0 ' *ORG \$0101. *BYTE \$AA *; 0101 AA. *END *; start 0000' '' "$xm23" dis "$room/byte.s19"
expect 'dis -o' 0 '' '' "$xm23" dis -o "$room/list" examples/copy_words.s19
same 'wrote it' "$(cat "$room/list")" "$(cat examples/copy_words.lst)"
# A listing is a source of the same bytes: S-records of it are those of the program, with its start.
listed_again() { # NAME PROGRAM S-RECORDS
    "$xm23" dis "$2" > "$room/trip.asm"
    # its labels stand alone, and nothing uses them: of that there are notes
    same "$1, listed and assembled" \
        "$("$xm23" asm -s "\$$(tail -1 "$room/trip.asm" | sed 's/.*start //')" "$room/trip.asm" 2> /dev/null)" \
        "$(cat "$3")"
}
for program in examples/copy_words.s19 "${sound%/*}"/*.s19; do
    "$xm23" dis "$program" > /dev/null 2>&1 && listed_again "${program##*/}" "$program" "$program"
done
for program in examples/copy_words.asm "${sound%/*}"/*.asm "${sound%/*/*}"/sources/*.asm; do
    "$xm23" asm "$program" > "$room/trip.s19" && listed_again "${program##*/}" "$program" "$room/trip.s19"
done
printf 'S10501015A6B33\nS1040105AA4B\nS10501FEFFFFFD\nS9030102F9\n' > "$room/odd.s19"
listed_again 'bytes at odd places' "$room/odd.s19" "$room/odd.s19"
for half in 0 32768; do
    awk -v from="$half" 'BEGIN { for (i = 0; i < 32768; i++) printf "WORD #%d\n", from + i; print "END" }' > "$room/all.asm"
    "$xm23" asm "$room/all.asm" > "$room/all.s19"
    listed_again "words from $half on" "$room/all.s19" "$room/all.s19"
done
expect 'dis of nothing' 2 '' "$(usage dis)" "$xm23" dis
expect 'dis of two' 2 '' "$(usage dis)" "$xm23" dis a b
expect 'dis of no file' 3 '' 'no/such: No such .*' "$xm23" dis no/such
expect 'dis of a refused file' 1 '' '.*refused.s19:2: R11: .*' "$xm23" dis "${sound%/*}/refused.s19"
expect 'dis to a full disk' 3 '' '/dev/full: cannot be written: .*' "$xm23" dis -o /dev/full "$sound"
expect 'dis into no folder' 3 '' 'no/such/x: cannot be written: .*' "$xm23" dis -o no/such/x "$sound"
expect 'card' 0 '' '' "$xm23" card -o "$room/card.html"
same 'card to standard output' "$("$xm23" card | cksum)" "$(cksum < "$room/card.html")"
expect 'card with a word' 2 '' "$(usage card)" "$xm23" card x
expect 'card to a folder' 3 '' '/: cannot be written: .*' "$xm23" card -o /
expect 'stack' 0 'device  priority  use.1       3         4.above priority 0: 12 bytes' '' "$xm23" stack "$paper"
printf 'steps 1\nuse 1 2\nuse 2 0\nuse 3 2\nvector 1 $40 0\nvector 2 $A0 0\nvector 3 $A0 0\n' > "$room/s.paper"
expect "FORMATS' example" 0 '.*above priority 0: 20 bytes' '' "$xm23" stack "$room/s.paper"
echo 'priority 2' >> "$room/s.paper"
expect 'above priority 2' 0 '.*above priority 2: 10 bytes' '' "$xm23" stack "$room/s.paper"
sed -i 's/priority 2/priority 8/' "$room/s.paper"
expect 'priority 8' 1 '' "$room/s.paper:8: R16: .*" "$xm23" stack "$room/s.paper"
printf 'steps 1\nuse 1 1025\n' > "$room/s.paper"
expect 'a use of 1025' 1 '' "$room/s.paper:2: R16: .*" "$xm23" stack "$room/s.paper"
printf 'steps 1\nuse 8 1\n' > "$room/s.paper"
expect 'a use of device 8' 1 '' "$room/s.paper:2: '8' is no device, 0 to 7" "$xm23" stack "$room/s.paper"
printf 'steps 1\n' > "$room/s.paper"
expect 'no use' 1 '' "$room/s.paper: has no line 'use DEVICE BYTES'" "$xm23" stack "$room/s.paper"
printf 'steps 1\nuse 0 0\n' > "$room/s.paper"
printf 'S107FFC0A000002079\nS9030000FC\n' > "$room/vectors.s19"
expect 'vectors of a program' 0 '.*0       5         0.*8 bytes' '' "$xm23" stack "$room/s.paper" "$room/vectors.s19"
expect 'stack of a refused program' 1 '' '.*refused.s19:2: R11: .*' "$xm23" stack "$paper" "${sound%/*}/refused.s19"
expect 'stack of no program' 3 '' 'no/such: No such .*' "$xm23" stack "$paper" no/such
expect 'stack of nothing' 2 '' "$(usage stack)" "$xm23" stack
expect 'stack of three' 2 '' "$(usage stack)" "$xm23" stack a b c

# ---- mark: the example sitting, to the byte
cd examples/sitting || exit 1
expect 'mark' 1 '' '' "$xm23" mark -o "$room/marks" sum.paper programs/*
same 'its results' "$(cat "$room/marks/results.csv")" "$(cat expected.csv)"
same 'a page for each' "$(ls "$room/marks/pages" | wc -l)" 6
same 'links to pages that are there' "$(sed -n 's/.*href="\([^"]*\)".*/\1/p' "$room/marks/index.html" |
    while read -r page; do test -f "$room/marks/$page" && echo yes; done | sort | uniq -c | tr -d ' ')" 6yes
sum() { (cd "$1" && find . -type f -exec cksum {} + | sort -k 3); }
first=$(sum "$room/marks")
expect 'mark again' 1 '' '' "$xm23" mark -j 1 -o "$room/marks" sum.paper programs/*
same 'the same bytes, by one worker too' "$(sum "$room/marks")" "$first"
expect 'all as expected' 0 '' '' "$xm23" mark -o "$room/one" sum.paper programs/sound.s19
same 'the source on its page' "$(grep -c '^1000  6829     3.  START   MOVLZ' "$room"/marks/pages/*screen*)" 1
same 'the screen on its page' "$(sed -n '/<h2>Screen/,/<.pre>/p' "$room"/marks/pages/*screen*)" \
    $'<h2>Screen</h2>\n<pre class="screen">SUM</pre>'
if [ $# -eq 0 ]; then
    expect 'make run' 0 'build/sitting/index.html .*build/sitting/results.csv .*' '' \
        make -s --no-print-directory -C "$top" run
    same 'marks the sitting' "$(cat "$top/build/sitting/results.csv")" "$(cat expected.csv)"
fi
marked() { printf 'programs/%s.s19\0' sound stops_early | "$xm23" mark -o "$room/listed" -0 sum.paper; }
expect 'names from standard input' 1 '' '' marked
same 'two rows' "$(wc -l < "$room/listed/results.csv")" 3
cd "$top" || exit 1

# ---- mark: what the screen showed, whatever it was
{
    printf '        ORG $1000\n        MOVLZ $05,R1\n'
    for byte in 3C 2C 22 0A 00 80 C3 A9 26; do printf '        MOVLZ $%s,R0\n        ST.B R0,R1\n' "$byte"; done
    printf 'HERE    BRA HERE\n        END\n'
} > "$room/odd.asm"
printf '        %s\n' 'ORG $1000' 'MOVLZ $05,R1' 'MOVLZ $41,R0' > "$room/long.asm"
printf 'HERE    ST.B R0,R1\n        BRA HERE\n        END\n' >> "$room/long.asm"
for name in odd long; do "$xm23" asm -o "$room/$name.s19" "$room/$name.asm"; done
printf 'steps 20002\ndevice 2 $10\n' > "$room/screen.paper"
expect 'mark of screens' 0 '' '' "$xm23" mark -o "$room/screens" "$room/screen.paper" "$room/odd.s19" "$room/long.s19"
same 'odd bytes in a field' "$(sed -n 2p "$room/screens/results.csv" | cut -d , -f 6-7)" '"<,""\x0A\x00\x80é&"'
same 'on a page' "$(sed -n '/<h2>Screen/,/<.pre>/p' "$room"/screens/pages/*odd*)" \
    $'<h2>Screen</h2>\n<pre class="screen">&#60;,&#34;\n\\x00\\x80é&#38;</pre>'
same 'a long one is cut' "$(sed -n 3p "$room/screens/results.csv" | cut -d , -f 6 | sed 's/A\{8192\}/8192/')" \
    '8192 .. (10000 bytes)'
same 'and on its page' \
    "$(sed -n '/<h2>Screen/,/<.pre>/p' "$room"/screens/pages/*long* | sed 's/A\{2048\}/2048/' | tr '\n' ' ')" \
    '<h2>Screen</h2> <p>The first 2048 bytes of 10000.</p> <pre class="screen">2048</pre> '
same 'these are well-formed too' "$(python3 -B tests/desk/pages.py "$room"/screens/pages/*.html)" 'all well-formed'

# ---- mark: misuse, and files that are none
expect 'mark of nothing' 2 '' "$(usage mark)" "$xm23" mark "$paper"
expect 'mark -0 with a name' 2 '' "$(usage mark)" "$xm23" mark -0 "$paper" "$sound"
for j in 0 65 x '' -1; do
    expect "mark -j '$j'" 2 '' "$(usage mark)" "$xm23" mark -j "$j" "$paper" "$sound"
done
expect 'mark -o without a word' 2 '' "$(usage mark)" "$xm23" mark -o
expect 'mark of no paper' 3 '' 'no/such: No such .*' "$xm23" mark -o "$room/x" no/such "$sound"
echo x >> "$room/s.paper"
expect 'mark of a bad paper' 1 '' ".*s.paper:3: 'x' begins .*" "$xm23" mark -o "$room/x" "$room/s.paper" "$sound"
same 'makes no folder' "$(test -e "$room/x" && echo there)" ''
expect 'mark into a file' 3 '' "$room/byte.s19.*: .*" "$xm23" mark -o "$room/byte.s19" "$paper" "$sound"
expect 'mark into nowhere' 3 '' 'no/such: cannot be made: .*' "$xm23" mark -o no/such "$paper" "$sound"
mkfifo "$room/fifo"
: > "$room/empty"
cp "$sound" "$room/a b.s19"
cp "$sound" "$room/a
b.s19"
cp "$sound" "$room/\"quoted\", <b>&.s19"
noise 100000 > "$room/noise"
long=$(printf 'x%.0s' $(seq 100000))
expect 'a long name is a row' 1 '' '' "$xm23" mark -o "$room/long" "$paper" "$long"
same 'with its name' "$(sed -n 's/^\(x*\),,File name too long.*/\1/p' "$room/long/results.csv" | wc -c)" 100001
expect 'bad files are rows' 1 '' 'no/such: No such file or directory.no\\x0Asuch: No such file or directory' timeout 60 "$xm23" mark -o "$room/bad" "$paper" no/such / "$room/fifo" /dev/zero \
    "$room/noise" "$room/empty" "$room/a b.s19" $'no\nsuch' "$room/a
b.s19" "$room/\"quoted\", <b>&.s19" "$sound" "$sound"
same 'twelve rows' "$(python3 -c 'import csv, sys
print(len(list(csv.DictReader(open(sys.argv[1], newline="")))))' "$room/bad/results.csv")" 12
same 'five are as expected' "$(python3 -c 'import csv, sys
print([r["agrees"] for r in csv.DictReader(open(sys.argv[1], newline=""))].count("yes"))' "$room/bad/results.csv")" 5
same 'what is said' "$(python3 -c 'import csv, sys
for r in list(csv.DictReader(open(sys.argv[1], newline="")))[:6]:
    print(r["line"] + ":" + r["says"].split(":")[0])' "$room/bad/results.csv")" \
    ':No such file or directory
:is a folder, and no file in it ends in .s19 or .asm
:is no regular file
:is no regular file
R10:line 1
R10:line 1'
same 'pages are well-formed' "$(python3 -B tests/desk/pages.py "$room"/bad/index.html "$room"/bad/pages/*.html)" \
    'all well-formed'
# Without rights, as somebody who is not root.
anybody=
[ "$(id -u)" -ne 0 ] || anybody='setpriv --reuid=65534 --regid=65534 --clear-groups'
if [ -z "$anybody" ] || $anybody "$xm23" --version > /dev/null 2>&1; then
    chmod 755 "$room"
    chmod 0 "$room/a b.s19"
    mkdir -m 777 "$room/rights"
    mkdir -m 555 "$room/closed"
    expect 'a program without rights is a row' 1 '' '' \
        $anybody "$xm23" mark -o "$room/rights/marks" "$paper" "$room/a b.s19" "$sound"
    same 'that says so' "$(sed -n 2p "$room/rights/marks/results.csv" | cut -d , -f 3)" 'Permission denied'
    expect 'a folder without rights' 3 '' "$room/closed/marks: cannot be made: Permission denied" \
        $anybody "$xm23" mark -o "$room/closed/marks" "$paper" "$sound"
    expect 'a page without rights' 3 '' "$room/closed/page.html: cannot be written: Permission denied" \
        $anybody "$xm23" report -o "$room/closed/page.html" "$paper" "$sound"
    expect 'a paper without rights' 3 '' "$room/a b.s19: Permission denied" \
        $anybody "$xm23" run "$room/a b.s19" "$sound"
    chmod 755 "$room/closed"
fi
# ---- mark: pages that are as long as a page can be
python3 - "$room" << 'END'
import random, sys
dice, room = random.Random(1), sys.argv[1]
touch = ["ST.B R3,R4", "ST R0,R1+", "ADD R1,R0", "SWPB R0", "SVC #12", "LD R1,R2"]
lines = ["ORG $1000", "MOVLZ $05,R4", "MOVLZ $3C,R3", "MOVH $30,R1", "TOP ADD #1,R0"]
lines += [dice.choice(touch + [f"STR R0,R1,#{dice.randrange(-32, 32) * 2}", f"MOVLZ ${dice.randrange(256):02X},R2"])
          for _ in range(900)]
lines += ["BL TOP", "ORG $0F00", "ADD R0,R2", "MOV LR,PC"]
with open(room + "/worst.asm", "w") as file:
    file.write("".join(line + " ;" + "<" * 40 + "\n" for line in lines) + " END ;" + "<" * 9000 + "\n")
with open(room + "/worst.paper", "w") as file:
    file.write(f"title {'&' * 70000}\nsteps 1000000\ndevice 2 $10\nstart SP=$0F00 R1=$3000\nvector 12 $60 $0F00\n")
    file.write("expect" + " *" * 14 + "\n")
    for at in range(0x2000, 0xFF00, 256):
        file.write(f"bytes {at} {' '.join(str(dice.randrange(1, 256)) for _ in range(256))}\n")
END
{ cat "$room/worst.paper"; for i in {10..73}; do printf 'award 1 screen 2 != "%0250d%d"\n' 0 "$i" | tr 0 '<'; done; } \
    > "$room/worst_awards.paper"
expect 'and with awards' 0 '' '' "$xm23" mark -o "$room/worst_points" "$room/worst_awards.paper" "$room/worst.asm"
same 'not too long either' "$(python3 -B tests/desk/pages.py "$room"/worst_points/pages/*.html)" 'all well-formed'
expect 'the longest pages' 1 '' '' "$xm23" mark -o "$room/worst" "$room/worst.paper" "$room/worst.asm" "$long"
same 'they are as long as they may be' "$(python3 -B tests/desk/pages.py "$room"/worst/pages/*.html)" 'all well-formed'

same 'a bar on a terminal' "$(python3 -B tests/desk/terminal.py "$xm23" mark -o "$room/bar" "$paper" "$sound" |
    tr '\r' '\n' | grep -c '\[########################################\] 1 of 1')" 1
same 'what there was, and where the table is' \
    "$(python3 -B tests/desk/terminal.py "$xm23" mark -o "$room/bar" "$paper" "$sound" no/such | tr -d '\r' | tail -2)" \
    "no/such: No such file or directory
$room/bar: 2 programs: 1 as expected, 1 not; 1 without a closing state; the table is $room/bar/index.html"
expect 'not where there is no terminal' 0 '' '' "$xm23" mark -o "$room/bar" "$paper" "$sound"
count
