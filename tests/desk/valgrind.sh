#!/usr/bin/env bash
# Every subcommand of build/xm23 under valgrind, on what it takes and on what it refuses: no error and no byte lost.
set -u
cd "$(dirname "$0")/../.."
. tests/shell/expect.sh
paper=examples/sitting/sum.paper
programs=examples/sitting/programs
noise 5000 > "$room/noise"
printf 'steps 5\n1 1 3\n1 1 4\n' > "$room/twins.paper"

# clean WHAT STATUS WORD..: under valgrind, whose own status is 99 and whose own words go to a file.
clean() {
    local what=$1 status=$2
    shift 2
    expect "$what" "$status" '.*' '.*' \
        valgrind -q --log-file="$room/found" --error-exitcode=99 --leak-check=full build/xm23 "$@"
    same "$what: valgrind" "$(cat "$room/found")" ''
}
clean 'help' 0 --help
clean 'run' 0 run -l "$paper" "$programs/sound.s19"
clean 'run with a screen' 1 run -l "$paper" "$programs/screen.asm"
clean 'run of a refused program' 1 run "$paper" "$programs/refused.s19"
clean 'run of noise' 1 run "$paper" "$room/noise"
clean 'a paper of noise' 1 run "$room/noise" "$programs/sound.s19"
clean 'twins' 1 run "$room/twins.paper" "$programs/sound.s19"
clean 'asm' 0 asm -o "$room/asm.s19" "$programs/screen.asm"
clean 'asm -l' 0 asm -l examples/copy_words.asm
clean 'asm of noise' 1 asm "$room/noise"
clean 'report' 1 report -o "$room/report.html" "$paper" "$programs/screen.asm"
clean 'report of a refused program' 1 report -o "$room/report.html" "$paper" "$programs/refused.s19"
printf ' ORG $1000\nHERE BRA HERE\n HALT\n END\n' > "$room/lone.asm"
clean 'a name that stands alone' 0 asm -o "$room/lone.s19" "$room/lone.asm"
clean 'the same in a model' 1 check "$paper" "$room/lone.asm"
clean 'the same on a page' 1 report -o "$room/lone.html" "$paper" "$room/lone.asm"
clean 'report of no program' 3 report -o "$room/report.html" "$paper" no/such
clean 'run to a step' 0 run -n 46 "$paper" "$programs/sound.s19"
clean 'run to a step of a refused program' 1 run -n 46 "$paper" "$programs/refused.s19"
clean 'a value that is none' 2 run -n x "$paper" "$programs/sound.s19"
clean 'run to no step' 1 run -n 461 "$paper" "$programs/sound.s19"
clean 'report of a step' 1 report -a 60 -o "$room/report.html" "$paper" "$programs/screen.asm"
clean 'report of no step' 1 report -a 600 -o "$room/report.html" "$paper" "$programs/screen.asm"
clean 'report of a long run' 0 report -o "$room/report.html" examples/sitting/ticks.paper examples/sitting/sources/sound.asm
clean 'back from a step' 0 back -a 60 "$paper" "$programs/screen.asm"
clean 'back to the writer of a name' 0 back -w TICKS examples/sitting/ticks.paper examples/sitting/sources/sound.asm
clean 'back to no name' 1 back -w NOBODY "$paper" "$programs/screen.asm"
clean 'back' 0 back "$paper" "$programs/halting.s19"
clean 'back to a writer' 0 back -w 120 "$paper" "$programs/sound.s19"
clean 'back to nobody' 1 back -w 4321 "$paper" "$programs/sound.s19"
clean 'events' 0 events "$paper" "$programs/sound.s19"
clean 'events as rows' 0 events -c "$paper" "$programs/halting.s19"
clean 'events of a refused program' 1 events "$paper" "$programs/refused.s19"
clean 'sound' 0 sound "$paper" "$programs/sound.s19"
clean 'sound of a fault' 1 sound "$paper" "$programs/halting.s19"
clean 'sound of a refused program' 1 sound "$paper" "$programs/refused.s19"
clean 'run of a source' 1 run "$paper" "$programs/screen.asm"
clean 'dis of a source' 0 dis "$programs/screen.asm"
clean 'dis' 0 dis -o "$room/list" examples/copy_words.s19
clean 'check' 0 check "$paper"
clean 'check with a model' 1 check "$paper" "$programs/sound.s19"
clean 'check with a folder' 1 check examples/sitting/handlers.paper examples/sitting/programs/with_handlers
clean 'check with a refused model' 1 check "$paper" "$programs/refused.s19"
clean 'stack' 0 stack "$paper"
clean 'card' 0 card -o "$room/card.html"
points=examples/sitting/handlers.paper
mkdir "$room/folder" "$room/twice" "$room/none"
cp "$programs/with_handlers/"* "$room/folder"
cp "$programs/with_handlers/program.asm" "$room/twice/a.asm"
cp "$programs/with_handlers/program.asm" "$room/twice/b.asm"
ln -s program.asm "$room/none/x.asm"
clean 'run of a folder' 0 run -l "$points" "$room/folder"
clean 'run with too few points' 1 run -l "$points" "$programs/stops_early.s19"
clean 'report of a folder' 0 report -o "$room/report.html" "$points" "$room/folder"
clean 'a byte that two files state' 1 report -o "$room/report.html" "$points" "$room/twice"
clean 'a link in a folder' 3 run "$points" "$room/none"
clean 'dis of a folder' 0 dis -o "$room/list" "$room/folder"
clean 'paper with awards' 0 paper "$points"
clean 'mark with awards' 1 mark -j 2 -o "$room/points" "$points" "$programs"/* "$room/twice" "$room/none"
clean 'copies' 3 copies -o "$room/copies.html" "$paper" "$programs"/* "$programs/sound.s19" "$room/noise" no/such
clean 'mark' 1 mark -j 2 -o "$room/marks" "$paper" "$programs"/* "$room/noise" no/such /
clean 'mark again' 1 mark -L -j 2 -o "$room/marks" "$paper" "$programs"/* "$room/noise" no/such /
count
