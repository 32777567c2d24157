#!/usr/bin/env bash
# Names that stand alone on a line and that nothing uses: notes.sh [PROGRAM], build/xm23 if none is named. They are told
# by asm, by check and on the page; nothing is refused for them, and no name is told of that is used.
set -u
cd "$(dirname "$0")/../.."
. tests/shell/expect.sh
xm23=$(realpath "${1:-build/xm23}")
paper=examples/sitting/sum.paper
says='is no instruction: alone on its line it is a name, and nothing uses it'

# told SOURCE [WORD..]: what asm tells of a source, END behind it.
told() {
    printf '%b\n END\n' "$1" > "$room/a.asm"
    shift
    "$xm23" asm "$@" -o "$room/a.s19" "$room/a.asm" 2>&1
    [ -s "$room/a.s19" ] || echo 'no S-records'
}
noted() { same "$1" "$(told "$1")" "$room/a.asm:$2: '$3' $says"; } # SOURCE LINE NAME
silent() { same "$1" "$(told "$@")" ''; }

noted ' HALT' 1 HALT
noted ' ORG $1000\nSTART MOVLZ #3,R0\n\tINCR\r\n BRA START' 3 INCR
noted 'HALT ; HALT' 1 HALT
noted 'HALT;HALT' 1 HALT
noted ' BRA A\nA\nHALT\nHALT2 EQU #1\n WORD $ABC' 3 HALT
noted ' ORG #0\nONE' 2 ONE
same 'two of them, in the order of the lines' "$(told 'ZZ\nAA')" \
    "$room/a.asm:1: 'ZZ' $says"$'\n'"$room/a.asm:2: 'AA' $says"
same 'a long name, its first letters' "$(told "$(printf 'A%.0s' {1..40})")" "$room/a.asm:1: '$(printf 'A%.0s' {1..24})..' $says"
silent 'LOOP\n BRA LOOP'
silent ' BRA LOOP\nLOOP'
silent 'A\nB EQU (A+#2)\n WORD B'
silent 'A WORD #1'
silent 'UNUSED EQU #1'
silent '; HALT\n\n'
silent 'HALT' -s HALT
silent 'HALT' -s '(HALT+#2)'
same 'a listing has them too' "$(told HALT -l)" "$room/a.asm:1: 'HALT' $says"
printf 'HALT\n ADD R0\n END\n' > "$room/b.asm"
expect 'not of a source that is refused' 1 '' '.*b.asm:2: R17.*' "$xm23" asm "$room/b.asm"
same 'no word of HALT' "$(grep -c HALT "$room/err")" 0
printf ' END\nHALT\n' > "$room/b.asm"
expect 'nothing behind END' 0 'S9030000FC' '' "$xm23" asm "$room/b.asm"

# ---- the model of a setter, and the page
printf ' ORG $1000\nSTOP BRA STOP\n HALT\n END\n' > "$room/m.asm"
expect 'a model' 1 ".*m.asm:3: 'HALT' $says"$'\n''.*' '' "$xm23" check "$paper" "$room/m.asm"
"$xm23" report -o "$room/m.html" "$paper" "$room/m.asm" 2> /dev/null
same 'its page' "$(grep 'class="note"' "$room/m.html")" "<p class=\"note\">line 3: 'HALT' $says</p>"
mkdir "$room/folder" && cp "$room/m.asm" "$room/folder/program.asm" && printf 'PUT\n END\n' > "$room/folder/handler1.asm"
"$xm23" report -o "$room/m.html" "$paper" "$room/folder" 2> /dev/null
same 'the page of a folder' "$(grep -c 'class="note">handler1.asm, line 1: .*PUT.*' "$room/m.html")" 1
same 'each file of it' "$(grep -c 'class="note"' "$room/m.html")" 2
expect 'a model in a folder' 1 ".*folder/handler1.asm:1: 'PUT' $says"$'\n''.*' '' "$xm23" check "$paper" "$room/folder"
{ printf 'N%d\n' {1..20}; echo ' END'; } > "$room/many.asm"
"$xm23" report -o "$room/m.html" "$paper" "$room/many.asm" 2> /dev/null
same 'of many the first, and how many more' "$(grep 'class="note"' "$room/m.html" | tail -1)" '<p class="note">and 12 names more</p>'
same 'none on a page of the example' "$("$xm23" report -o - examples/sitting/handlers.paper \
    examples/sitting/programs/with_handlers 2> /dev/null | grep -c 'class="note"')" 0

# ---- a long source with as many names as there may be; a program with a compiler's checks in it takes its time
{ printf 'N%d\n' {1..1024}; yes ' BRA N512' | head -n 20000; echo ' END'; } | sed 's/ BRA/ ORG #0\n&/' > "$room/long.asm"
expect 'a long source in time' 0 '.*' '.*' timeout $([ "${1:-}" ] && echo 60 || echo 10) "$xm23" asm -o "$room/long.s19" "$room/long.asm"
same 'a note for each name but one' "$(wc -l < "$room/err")" 1023
count
