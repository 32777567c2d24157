#!/usr/bin/env bash
# Every test of the repository, part by part, ending at the first part that fails. Each part tells its number, its own
# count and the time; build/log has all that it printed, which is shown where it failed. The very last line is
# 'N passed, M failed' over all parts; the exit status is 0 only where M is 0. No network.
set -eu -o pipefail
parts=$(grep -c "^ *part '" "$0")
cd "$(dirname "$0")/.."

passed=0
failed=0
at=0
build=build
log=$build/log
xm23=target/staticlib/libxm23.a
warn='-O2 -Wall -Wextra -Werror -Iinclude'
mkdir -p "$log"

finish() {
    status=$?
    trap - EXIT
    if [ "$status" -ne 0 ] && [ "$failed" -eq 0 ]; then
        failed=1
    fi
    echo "$passed passed, $failed failed"
    [ "$failed" -eq 0 ] || exit 1
}
trap finish EXIT

# 'N passed, M failed', as the last such line of a part has it: rt ci, the trace and the C tests.
count_line() {
    sed -n 's/^\([0-9][0-9]*\) passed, \([0-9][0-9]*\) failed$/\1 \2/p' "$1" | tail -n 1
}

# cargo's 'test result: ok. N passed; M failed; ..', one for each test program, added up.
count_cargo() {
    sed -n 's/^test result: [a-zA-Z]*\. \([0-9][0-9]*\) passed; \([0-9][0-9]*\) failed;.*/\1 \2/p' "$1" |
        awk '{ p += $1; f += $2 } END { if (NR) print p, f }'
}

# One for a command that only succeeds or fails.
count_status() {
    echo '1 0'
}

# What is shown of a part while it runs: of what counts itself everything, of cargo a line for each test program.
show() {
    case $1 in
        count_line) cat ;;
        count_cargo) grep --line-buffered -E '^ +Running |^test result' || true ;;
        *) cat > /dev/null ;;
    esac
}

# part NAME COUNTER COMMAND..: runs the command, adds up what it counted, and stops the script if anything failed.
part() {
    local name=$1 counter=$2 out=$log/${1// /_}.out status=0 counts p f began=$SECONDS
    shift 2
    at=$((at + 1))
    echo "== part $at of $parts: $name"
    "$@" 2>&1 | tee "$out" | show "$counter" || status=$?
    counts=$($counter "$out")
    if [ -z "$counts" ] || [ "$counts" = '0 0' ]; then
        echo "$name: counted nothing"
        counts='0 1'
    fi
    p=${counts% *} f=${counts#* }
    if [ "$status" -ne 0 ] && [ "$f" -eq 0 ]; then
        p=0 f=1
    fi
    if [ "$f" -ne 0 ] && [ "$counter" != count_line ]; then
        cat "$out"
    fi
    echo "-- $name: $p passed, $f failed ($((SECONDS - began)) s; $((SECONDS / 60)) min $((SECONDS % 60)) s in all)"
    passed=$((passed + p))
    failed=$((failed + f))
    [ "$f" -eq 0 ]
}

# Joined by && since bash forgets 'set -e' in a command whose status is looked at.
host_c() {
    gcc $warn -std=c99 -pedantic -o "$build/host_c" tests/c/host/*.c "$xm23" && "$build/host_c"
}

host_cpp() {
    g++ $warn -std=c++11 -o "$build/host_cpp" -x c++ tests/c/host/*.c -x none "$xm23" && "$build/host_cpp"
}

hostile() {
    gcc $warn -std=c99 -pedantic -o "$build/hostile" tests/c/hostile.c "$xm23" && "$build/hostile"
}

desk() {
    scripts/desk.sh "$build/xm23"
}

# desk_checked COMPILER: the desk program with the compiler's checks of each access and operation in it.
desk_checked() {
    CC=$1 scripts/desk.sh "$build/xm23_$1" \
        -g -U_FORTIFY_SOURCE -fsanitize=address,undefined -fno-sanitize-recover=all
}

# desk_tests [PROGRAM]: every script of tests/desk but valgrind's, whose counts are added up. Where no program is named
# it is the one that is used, and tests that a program with a compiler's checks cannot take are among them.
desk_tests() {
    local script counts p=0 f=0
    for script in tests/desk/*.sh; do
        [ "$script" != tests/desk/valgrind.sh ] || continue
        echo "-- $script"
        counts=$("$script" "$@" 2>&1 | tee /dev/stderr | count_line /dev/stdin) ||
            [ "${counts#* }" != 0 ] || counts="${counts% *} 1"
        counts=${counts:-0 1}
        p=$((p + ${counts% *})) f=$((f + ${counts#* }))
    done
    echo "$p passed, $f failed"
}

listing() {
    "$build/xm23" dis examples/copy_words.s19 | diff examples/copy_words.lst -
}

# random_papers PROGRAM RUNS. The oracle's rows are asked for by its program, which is compiled first.
random_papers() {
    scripts/oracle.sh walk < examples/interrupts.in > /dev/null &&
        python3 -B tests/desk/random_runs.py "$1" target/bin/print_state oracle/target/release/examples/walk "$2"
}

# The machines of the example host print what the program prints; by slices, all but the depth, which is a slice's own.
example_host() {
    gcc $warn -std=c99 -pedantic -o "$build/host" examples/host.c "$xm23" &&
        target/bin/print_state < examples/interrupts.in > "$build/interrupts.line" &&
        cat "$build/interrupts.line" "$build/interrupts.line" > "$build/interrupts.lines" &&
        "$build/host" 120 examples/interrupts.in examples/interrupts.in | diff "$build/interrupts.lines" - &&
        "$build/host" 7 examples/interrupts.in examples/interrupts.in | diff "$build/interrupts.lines" -
}

# docs/TRUST.md names the logic of the kit by which all is proved, whatever else its name says.
kit_named() {
    local kit
    kit=$(rt version) && grep -qF "${kit#* }" docs/TRUST.md || { echo "docs/TRUST.md does not name this kit: $kit"; return 1; }
}

# The module over a shared library of the archive.
python_module() {
    scripts/shared.sh "$xm23" "$build/python/libxm23.so.$(scripts/version.sh)" &&
        XM23_LIBRARY=$build/python/libxm23.so.$(scripts/version.sh) python3 -B tests/python/test_xm23.py
}

card() {
    "$build/xm23" card > "$build/card.html" && python3 -B scripts/card_test.py "$build/card.html"
}

part 'what the trace refuses' count_line python3 -B scripts/trace_test.py
part 'trace to 01' count_line python3 -B scripts/trace.py
part 'what the documents refuse' count_line python3 -B scripts/documents_test.py
part 'width of the documents' count_line python3 -B scripts/width.py
part 'files that the documents name' count_line python3 -B scripts/references.py
part 'lines of the desk' count_line python3 -B scripts/desk_lines.py --check
part 'the kit that is named' count_status kit_named
part 'decisions and their index' count_line python3 -B scripts/decisions.py --check
part 'sentences of the refusals' count_line python3 -B scripts/refusals.py
part 'floors of the crates' count_line python3 -B scripts/floors.py --check
part 'texts of the must-fail edits' count_line scripts/edits.py --texts
part 'the gate itself' count_line tests/shell/gate.sh
part 'what is proved again' count_line tests/shell/prove.sh
# Every crate, its layout too, every must-fail edit, every program: the verdict is rt's, and so is the count.
part 'proofs, must-fail edits and programs' count_line scripts/progress.py rt ci
# The library is made anew, whatever an older run has kept of it.
rm -f target/staticlib/*.made
part 'program print_state' count_status scripts/prove.py program print_state
part 'static library xm23' count_status scripts/prove.py archive xm23
part 'what the tables show' count_line python3 -B scripts/tables_test.py
part 'tables of the decoder' count_line python3 -B scripts/tables.py
part 'static library alu_probe' count_status scripts/prove.py archive alu_probe
part 'oracle' count_cargo \
    cargo test --offline --locked --release --manifest-path oracle/Cargo.toml --target-dir oracle/target
part 'host in C' count_line host_c
part 'host in C++' count_line host_cpp
part 'hostile host' count_line hostile
if command -v valgrind > /dev/null; then
    part 'hostile host under valgrind' count_line valgrind -q --error-exitcode=9 "$build/hostile" short
else
    echo '== left out: hostile host under valgrind, which is not here'
    parts=$((parts - 1))
fi
part 'desk program' count_status desk
part 'example listing' count_status listing
part 'example host' count_status example_host
part 'reference card' count_line card
part 'the card as a text' count_line python3 -B scripts/card.py --check "$build/card.html"
part 'the program' count_line tests/shell/program.sh
part 'desk' count_line desk_tests
part 'desk program with sanitizers of gcc' count_status desk_checked gcc
part 'desk, sanitizers of gcc' count_line desk_tests "$build/xm23_gcc"
part 'desk: random runs, sanitizers of gcc' count_line random_papers "$build/xm23_gcc" 160
if clang -x c -fsanitize=address,undefined -o /dev/null - <<< 'int main(void) { return 0; }' 2> /dev/null; then
    part 'desk program with sanitizers of clang' count_status desk_checked clang
    part 'desk, sanitizers of clang' count_line desk_tests "$build/xm23_clang"
    part 'desk: random runs, sanitizers of clang' count_line random_papers "$build/xm23_clang" 160
else
    echo '== left out: desk with sanitizers of clang, which are not here (Debian: clang and libclang-rt-14-dev)'
    parts=$((parts - 3))
fi
if command -v valgrind > /dev/null; then
    part 'desk under valgrind' count_line tests/desk/valgrind.sh
else
    echo '== left out: desk under valgrind, which is not here'
    parts=$((parts - 1))
fi
part 'desk beside the program and the oracle on random runs' count_line random_papers "$build/xm23" 1200
if [ -n "$(command -v chromium chromium-browser google-chrome google-chrome-stable)" ]; then
    part 'desk in a browser' count_line python3 -B tests/desk/browser.py "$build/xm23"
else
    echo '== left out: desk in a browser, of which none is here (Debian: chromium)'
    parts=$((parts - 1))
fi
part 'Python' count_line python_module
part 'installing' count_line tests/shell/install.sh
part 'packages' count_line tests/shell/deb.sh
part 'going back' count_line tests/shell/back.sh
part 'the open machine' count_line tests/shell/advance.sh
part 'mistakes' count_line tests/shell/tools.sh
part 'S-records beside srec_cat and objcopy' count_line scripts/peers.sh
