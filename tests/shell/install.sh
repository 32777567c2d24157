#!/usr/bin/env bash
# 'make install' into a scratch prefix, as a packager and as a user of the library meet it; then 'make uninstall'.
set -u
cd "$(dirname "$0")/../.."
. tests/shell/expect.sh

make="make -s --no-print-directory"
version=$(scripts/version.sh)
prefix=$room/usr
files="bin/print_state bin/xm23 include/xm23.h
    lib/libxm23.a lib/libxm23.so lib/libxm23.so.${version%%.*} lib/libxm23.so.$version
    lib/pkgconfig/xm23.pc lib/python3/dist-packages/xm23.py share/man/man1/print_state.1 share/man/man1/xm23.1
    share/man/man3/xm23.3 share/man/man3/xm23_decode.3 share/man/man5/xm23.5 share/bash-completion/completions/xm23
    share/xm23/folders"

# there FOLDER: what lies below it that is no folder.
there() {
    (cd "$1" && find . ! -type d | sed 's|^\./||' | sort)
}

# block FILE FIRST: the lines of a file after the first that begins so, up to the end of that block.
block() {
    awk -v first="$2" '$0 ~ "^(```|\\.fi)$" { on = 0 } on { print } index($0, first) == 1 { on = 1 }' "$1"
}

# built COMPILER..: compiles what was installed, by pkg-config alone, and runs it.
built() {
    PKG_CONFIG_PATH=$prefix/lib/pkgconfig
    export PKG_CONFIG_PATH
    "$@" -Wall -Wextra -Werror -o "$room/example" $(pkg-config --cflags --libs xm23) &&
        LD_LIBRARY_PATH=$prefix/lib "$room/example"
}

expect 'make install' 0 "$prefix/bin/print_state.*" '' $make install PREFIX="$prefix"
for file in $files; do
    same "$file is there" "$(test -e "$prefix/$file" && echo yes)" yes
done
expect 'with DESTDIR' 0 '.*' '' $make install PREFIX=/xm23 DESTDIR="$room/stage"
same 'the same files' "$(there "$room/stage/xm23")" "$(there "$prefix")"
same 'the prefix' "$(sed -n 's/^prefix=//p' "$room/stage/xm23/lib/pkgconfig/xm23.pc")" /xm23
expect 'a prefix that is no path' 2 '' ".*PREFIX 'usr' is not an absolute path.*" $make install PREFIX=usr
expect 'the version' 0 "$version" '' env PKG_CONFIG_PATH="$prefix/lib/pkgconfig" pkg-config --modversion xm23

same 'exports of the shared library' "$(nm -D --defined-only "$prefix/lib/libxm23.so" | grep -vc ' T xm23_')" 0
same 'its name' "$(readelf -d "$prefix/lib/libxm23.so" | sed -n 's/.*SONAME.*\[\(.*\)\]/\1/p')" \
    "libxm23.so.${version%%.*}"
same 'what it needs' "$(readelf -d "$prefix/lib/libxm23.so" | sed -n 's/.*NEEDED.*\[\(.*\)\]/\1/p')" libc.so.6
same 'and of it' "$(nm -D --undefined-only "$prefix/lib/libxm23.so" | awk '{ print $2 }' | sed 's/@.*//' | sort | xargs)" \
    'memcpy memset'
printf 'int other(void) { return 0; }\n' > "$room/other.c"
gcc -c -fPIC -o "$room/other.o" "$room/other.c" && cp target/staticlib/libxm23.a "$room/libother.a" &&
    ar rs "$room/libother.a" "$room/other.o"
expect 'another export' 1 '' 'shared.sh: .*libother.so.1.2.3 would export other' \
    scripts/shared.sh "$room/libother.a" "$room/libother.so.1.2.3"
same 'is not built' "$(ls "$room" | grep -c libother.so)" 0

block README.md '```c' | sed 's/"xm23.h"/<xm23.h>/' > "$room/readme.c"
sed -n '/^\.SH EXAMPLE/,$p' man/xm23.3 | block /dev/stdin .nf | sed 's/\\e/\\/g' > "$room/manual.c"
block README.md '```python' > "$room/readme.py"
said='accepted, steps 1, depth 0, R0 1'
expect "README's example in C" 0 "$said" '' built gcc -std=c99 -pedantic "$room/readme.c"
expect "README's example in C++" 0 "$said" '' built g++ -std=c++11 -x c++ "$room/readme.c" -x none
expect "the manual's example in C" 0 'accepted, reason 0, 1000 steps' '' built gcc -std=c99 -pedantic "$room/manual.c"
expect "the manual's example in C++" 0 'accepted, reason 0, 1000 steps' '' \
    built g++ -std=c++11 -x c++ "$room/manual.c" -x none
said='accepted, steps 1 depth 0 R0 1'
python() { # FILE..: with the module and the library that were installed
    PYTHONPATH=$prefix/lib/python3/dist-packages LD_LIBRARY_PATH=$prefix/lib python3 -B "$@"
}
expect "README's example in Python" 0 "$said" '' python examples/run.py
expect 'by a path' 0 "$said" '' env XM23_LIBRARY="$prefix/lib/libxm23.so" PYTHONPATH=python python3 -B examples/run.py
expect 'a folder marked from Python' 0 '.*sound.s19: sum 31, ticks 2, sound.*' '' python examples/ticks.py
same 'is that of README' "$(cat "$room/readme.py")" "$(cat examples/run.py)"
same 'and so is the one in C' "$(block README.md '```c')" "$(cat examples/run.c)"
same 'xm23' "$("$prefix/bin/xm23" dis examples/copy_words.s19)" "$(cat examples/copy_words.lst)"
same 'print_state' "$("$prefix/bin/print_state" < /dev/null)" R3
same 'a page of each call' "$(cat "$prefix/share/man/man3/xm23_run.3")" '.so man3/xm23.3'

expect 'make uninstall' 0 '' '' $make uninstall PREFIX="$prefix"
same 'nothing is left, no folder either' "$(ls -d "$prefix" 2> /dev/null)" ''
expect 'and of DESTDIR' 0 '' '' $make uninstall PREFIX=/xm23 DESTDIR="$room/stage"
same 'what lies before the prefix stays' "$(find "$room/stage")" "$room/stage"
mkdir -p "$prefix/bin" "$prefix/lib/pkgconfig"
: > "$prefix/lib/other"
expect 'into folders that are there' 0 '.*' '' $make install-lib PREFIX="$prefix"
: > "$prefix/include/other.h"
expect 'a second time' 0 '.*' '' $make install PREFIX="$prefix"
expect 'removed again' 0 '' '' $make uninstall PREFIX="$prefix"
same 'those folders stay, and what others have put into new ones' "$(cd "$prefix" && find . | sort | xargs)" \
    '. ./bin ./include ./include/other.h ./lib ./lib/other ./lib/pkgconfig'
count
