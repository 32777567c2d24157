#!/usr/bin/env bash
# Coverage-guided fuzzing of the calls of libxm23.a by libFuzzer, for so many seconds: fuzz.sh [SECONDS [SEED]]. What is
# new is told by a C judge compiled with the fuzzer's counters (tests/fuzz). The corpus starts from the example and the
# readable cases, that of S-records from tests/srec, that of sources from tests/sources; all are kept in build/fuzz. Then
# what the desk reads and writes: papers, programs and pages, under clang's sanitizers. A difference is saved in
# build/fuzz too, and the exit status is then 1.
set -eu -o pipefail
cd "$(dirname "$0")/.."

seconds=${1:-60}
if [[ ! $seconds =~ ^[0-9]+$ || ! ${2:-0} =~ ^[0-9]+$ ]]; then
    echo "fuzz.sh: FUZZ_SECONDS=$seconds or SEED=${2:-} is no number" >&2
    exit 2
fi
seed=$((${2:-0} % 4294967296))
clang=${CLANG:-clang}
out=build/fuzz
oracle='--release --offline --locked --manifest-path oracle/Cargo.toml --target-dir oracle/target'
warn='-std=gnu11 -g -O2 -Wall -Wextra -Werror -Iinclude'
mkdir -p "$out/seeds" "$out/corpus" "$out/corpus_journal" "$out/corpus_words" "$out/corpus_srec" "$out/corpus_stack" \
    "$out/corpus_sources" "$out/sources"

# The compiler and its runtime may not be here: the rest of 'make fuzz' does without.
if ! command -v "$clang" > /dev/null; then
    echo "coverage-guided fuzzing: left out, $clang is not here (Debian: clang and libclang-rt-14-dev)"
    exit 0
fi
echo 'int LLVMFuzzerTestOneInput(const char *data, unsigned long size) { return !data && size; }' > "$out/empty.c"
if ! "$clang" -fsanitize=fuzzer -o "$out/empty" "$out/empty.c" 2> "$out/empty.log"; then
    echo "coverage-guided fuzzing: left out, the fuzzer's runtime is not here" \
        "(Debian: libclang-rt-$("$clang" -dumpversion | cut -d. -f1)-dev)"
    exit 0
fi

# target NAME SOURCE FLAG..: a target over the C interpreter. Only what is to guide the search has counters.
target() {
    local name=$1 source=$2
    shift 2
    for file in tests/fuzz/setup.c bench/xm23_fast.c; do
        "$clang" $warn -fsanitize=fuzzer-no-link -c -o "$out/$(basename "$file" .c).o" "$file"
    done
    "$clang" $warn "$@" -c -o "$out/$name.o" "tests/fuzz/$source.c"
    "$clang" -fsanitize=fuzzer -o "$out/$name" "$out/$name.o" "$out/setup.o" "$out/xm23_fast.o" \
        target/staticlib/libxm23.a
}

# An input of print_state as a seed, where it can be one.
seed_from() {
    "$out/pack" < "$1" > "$out/seeds/$2" 2> "$out/pack.log" || rm "$out/seeds/$2"
}

seeds() {
    rm -f "$out"/seeds/*
    "$clang" $warn -o "$out/pack" tests/fuzz/pack.c tests/fuzz/setup.c
    cargo build $oracle --quiet --example make_input
    seed_from examples/interrupts.in interrupts
    for case in tests/cases/*.txt; do
        oracle/target/release/examples/make_input "$case" > "$out/case.in"
        seed_from "$out/case.in" "$(basename "$case" .txt)"
    done
    echo "coverage-guided fuzzing: $(ls "$out/seeds" | wc -l) seeds"
}

# search NAME SECONDS FOLDER..: runs a target, tells how far it is, and fails where it found something.
search() {
    local name=$1 log=$out/$1.log status=0
    echo "== $name, $2 s"
    XM23_FOUND=$out "$out/$name" -max_total_time="$2" -seed="$seed" -timeout=20 -artifact_prefix="$out/$name-" \
        "${options[@]}" "${@:3}" 2>&1 | tee "$log" | grep --line-buffered -E 'Seed|counters|INITED|pulse|DONE' ||
        status=$?
    if [ "$status" -ne 0 ]; then
        grep -E '^[a-z ]+: reply|^.*: a difference$|^(en|de)coding|^saved in|ERROR|Test unit written' "$log" || true
        echo "== $name: a difference; see $log"
    fi
    [ "$status" -eq 0 ]
}

# A target that changes a byte now and then must be caught, and the call saved: otherwise nothing that follows counts.
check_itself() {
    local found=$out/wrong_found status=0
    rm -rf "$found"
    mkdir -p "$found/corpus"
    target wrong run -DWRONG
    XM23_FOUND=$found timeout 120 "$out/wrong" -max_total_time=100 -artifact_prefix="$found/" "${options[@]}" \
        "$found/corpus" "$out/seeds" > "$out/wrong.log" 2>&1 || status=$?
    if [ "$status" -eq 0 ] || ! ls "$found"/run-*/memory.bin > /dev/null; then
        echo "== the target does not find or save a difference that is there; see $out/wrong.log"
        return 1
    fi
    echo "== a wrong byte is found after $(grep -c -E 'NEW|REDUCE' "$out/wrong.log") new strings, and saved"
}

options=(-max_len=600)
seeds
check_itself
target run run
search run "$seconds" "$out/corpus" "$out/seeds"
target journal journal
search journal $((seconds / 6 + 1)) "$out/corpus_journal" "$out/seeds"
options=(-max_len=8)
"$clang" $warn -fsanitize=fuzzer -o "$out/words" tests/fuzz/words.c target/staticlib/libxm23.a
search words $((seconds / 6 + 1)) "$out/corpus_words"
options=(-max_len=400)
"$clang" $warn -fsanitize=fuzzer -o "$out/srec" tests/fuzz/srec.c target/staticlib/libxm23.a
search srec $((seconds / 6 + 1)) "$out/corpus_srec" tests/srec
options=(-max_len=83)
"$clang" $warn -fsanitize=fuzzer -o "$out/stack" tests/fuzz/stack.c target/staticlib/libxm23.a
search stack $((seconds / 6 + 1)) "$out/corpus_stack"
options=(-max_len=400)
for case in tests/sources/*.txt; do
    sed '1,/^source:$/d; s/^    //' "$case" > "$out/sources/$(basename "$case")"
done
"$clang" $warn -fsanitize=fuzzer -o "$out/source" tests/fuzz/assemble.c target/staticlib/libxm23.a
search source $((seconds / 6 + 1)) "$out/corpus_sources" "$out/sources"
# desk_search NAME: a target over the whole desk program, of whose seeds the function NAME_seeds makes a folder.
desk_search() {
    local seeds=$out/seeds_$1
    rm -rf "$seeds"
    mkdir -p "$seeds" "$out/corpus_$1"
    "$1_seeds" "$seeds"
    CC=$clang scripts/desk.sh "$out/$1" -g -U_FORTIFY_SOURCE -fsanitize=fuzzer,address,undefined \
        -fno-sanitize-recover=all -Dmain=desk_main "tests/fuzz/$1.c" tests/fuzz/desk_judge.c
    search "$1" $((seconds / 6 + 1)) "$out/corpus_$1" "$seeds"
}

desk_paper_seeds() {
    cp examples/sitting/sum.paper "$1"
    printf 'steps 9\npriority 2\nbytes 7 $1 #-2 %s\nstart CEX=1 LINES=$12\nexpect R11 ; x\n' "'a'" > "$1/more.paper"
    printf 'steps 9\nsource examples/sitting/sources/clock.asm\nvector 1 $60 TICK\nwords TICKS 0\n' > "$1/source.paper"
    printf 'steps 9\naward 3 R0 = $1F\naward 2 screen 2 has "a\\x41"\naward 1 sound\naward 1 bytes 7 != 1 2\npass 4\n' \
        > "$1/awards.paper"
    printf 'steps 9\n5 2 7\nevery 3 from 1 to 9 1 0\ntype 4 every 2 0 "a\\n\\x41\\""\ntitle x\n' > "$1/events.paper"
}

# The first byte says what the rest is.
desk_program_seeds() {
    for file in tests/srec/*; do
        { printf 0; cat "$file"; } > "$1/$(basename "$file")"
    done
    for file in "$out"/sources/*; do
        { printf 1; cat "$file"; } > "$1/$(basename "$file").asm"
    done
    { printf 2; cat examples/sitting/programs/with_handlers/handler1.asm; printf '\377'; cat tests/srec/objcopy.s19
        printf '\377'; cat examples/sitting/programs/with_handlers/handler2.asm; } > "$1/folder"
}

# What the page shows of the run, then a name and a title, each after its length.
desk_page_seeds() {
    for file in "$out"/sources/*; do
        { printf '5\4<a>&\5"\xE2\x80\xAE\\'; cat "$file"; } > "$1/$(basename "$file")"
    done
    { printf 'w\40\1=\1a'; printf 'A ADD #1,R0\nB BRA A\nC EQU #7\nEND\n'; } > "$1/step"
    { printf '2\1=\1a'; head -c 700 target/staticlib/libxm23.a; } > "$1/words"
}

options=(-max_len=2000)
if scripts/crypto.sh > /dev/null 2>&1; then
    desk_search desk_paper
    desk_search desk_program
    desk_search desk_page
else
    echo "coverage-guided fuzzing: papers, programs and pages are left out, libcrypto's headers are not here"
fi
echo "coverage-guided fuzzing: no difference"
