#!/usr/bin/env bash
# What scripts/prove.py asks of rt, in a scratch repository of three crates with an rt that only writes down what it was
# asked: an archive is made anew where the contents of a file below it are others, and only there.
set -u
cd "$(dirname "$0")/../.."
. tests/shell/expect.sh
tiny=$room/tiny
mkdir -p "$tiny/scripts" "$tiny/docs" "$tiny"/crates/{low,high,aside}/src "$room/bin"
cp scripts/progress.py scripts/prove.py "$tiny/scripts"
printf 'low:\naside:\nhigh staticlib: low\n' > "$tiny/crates.txt"
printf 'low 1\nhigh 2\n' > "$tiny/docs/seconds.txt"
for crate in low high aside; do echo "$crate" > "$tiny/crates/$crate/src/lib.rt"; done
cat > "$room/bin/rt" << 'END'
#!/bin/sh
case $1 in
    --version) cat "$KIT"; exit ;;
esac
name=$(basename "$PWD")
echo "$1 $name" >> "$ASKED"
mkdir -p out
[ ! -e "$BROKEN" ] || { echo 'rt: low: not proved'; exit 1; }
case $1 in
    lib) [ ! -e "$MEANWHILE" ] || echo other > ../low/src/lib.rt
        cat ../*/src/lib.rt > "out/lib$name.a" ;;
esac
END
chmod +x "$room/bin/rt"
export PATH="$room/bin:$PATH" KIT=$room/kit ASKED=$room/asked BROKEN=$room/broken MEANWHILE=$room/meanwhile
echo 'kit 1' > "$KIT"

# asked WHAT WORDS: what rt was asked for the archive of high, each line with a semicolon.
asked() {
    : > "$ASKED"
    "$tiny/scripts/prove.py" archive high > "$room/out" 2>&1
    same "$1" "$(tr '\n' ';' < "$ASKED")" "$2"
}
again='lib high;'
archive=$tiny/target/staticlib/libhigh.a

asked 'the first time' "$again"
asked 'the second time' ''
same 'nothing is printed' "$(cat "$room/out")" ''
touch -d '+1 hour' "$tiny/crates/low/src/lib.rt"
asked 'a file that is touched' ''
touch "$tiny/crates/low/src/lib.rt"
touch -d '1 hour ago' "$archive"
asked 'an archive that is older' ''
same 'make asks no more' "$(find "$archive" -newer "$tiny/crates/low/src/lib.rt" -o -mmin -1)" "$archive"
echo 'low, changed' > "$tiny/crates/low/src/lib.rt"
asked 'a file below that is changed' "$again"
echo 'low' > "$tiny/crates/low/src/lib.rt"
asked 'and put back' "$again"
echo 'aside, changed' > "$tiny/crates/aside/src/lib.rt"
asked 'a crate that it does not stand on' ''
: > "$tiny/crates/high/src/.new"
asked 'a file that has come' "$again"
rm "$tiny/crates/high/src/.new"
asked 'a file that has gone' "$again"
mv "$tiny/crates/low/src/lib.rt" "$tiny/crates/low/src/other.rt"
asked 'a file with another name' "$again"
mv "$tiny/crates/low/src/other.rt" "$tiny/crates/low/src/lib.rt"
asked 'its old name' "$again"
printf 'low:\naside:\nhigh staticlib: low\n# more\n' > "$tiny/crates.txt"
asked 'crates.txt' "$again"
echo 'kit 2' > "$KIT"
asked 'another kit' "$again"
echo 'not it' > "$archive"
asked 'another archive in its place' "$again"
rm "$archive"
asked 'no archive' "$again"
asked 'then nothing' ''
echo 'low, wrong' > "$tiny/crates/low/src/lib.rt"
: > "$BROKEN"
asked 'what is not proved' "$again"
asked 'is asked for each time' "$again"
rm "$BROKEN"
asked 'until it is' "$again"
asked 'and no more' ''
echo 'low, again' > "$tiny/crates/low/src/lib.rt"
: > "$MEANWHILE"
asked 'a file that is changed while it is proved' "$again"
rm "$MEANWHILE"
asked 'is proved then' "$again"

# ---- what is said
rm -r "$tiny/target"
expect 'a crate' 0 'proved low .*' '' "$tiny/scripts/prove.py" crates low
expect 'one that follows' 0 'low: about 1 s .*1 crate follows, about 3 s in all .* high' '' "$tiny/scripts/prove.py" above low
expect 'one without a time' 0 'aside: about 0 s .*no crate stands on it.without aside, of which docs/seconds.txt has no time yet' '' \
    "$tiny/scripts/prove.py" above aside
count
