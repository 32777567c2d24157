#!/usr/bin/env bash
# What the gate itself rests on, in scratch repositories: rt ci told as it goes, its count and its status; a run that is
# stopped, which leaves nothing; what .ci/run installs; and 'make run' where libcrypto's headers are missing.
set -u
cd "$(dirname "$0")/../.."
. tests/shell/expect.sh

# One crate of the kit, with an edit that is refused and one that is not.
tiny=$room/tiny
mkdir -p "$tiny/crates" "$tiny/scripts" "$room/tmp"
git init -q "$tiny"
mkdir -p "$tiny/crates/first/src" "$tiny/crates/first/must-fail"
cat > "$tiny/crates/first/src/lib.rt" << 'END'
// One function.
#![tactic(auto)]

ghost use Rattle.std.specs.Prelude.{◌≡◌};

// Seven.
pub fn seven() -> u8
    ensures { result ≡ 7 }
{
    7
}
END
cp scripts/progress.py scripts/edits.py "$tiny/scripts"
echo 'first:' > "$tiny/crates.txt"
printf 'file: src/lib.rt\nold:     7\nnew:     8\n' > "$tiny/crates/first/must-fail/eight.edit"
printf 'file: src/lib.rt\nold:     7\nnew:     7 + 0\n' > "$tiny/crates/first/must-fail/same.edit"
nl=$'\n'
told='.*refused first/eight \(edit 1 of 2\).*first/same.edit: NOT REFUSED.*'
expect 'an edit that is not refused' 1 "$told${nl}2 passed, 1 failed" '' "$tiny/scripts/progress.py" rt ci
printf 'file: src/lib.rt\nold: no such text\nnew:     8\n' > "$tiny/crates/first/must-fail/same.edit"
expect 'an edit that is bad, which rt lets pass' 1 ".*rt: ok; .*, 1 bad;.*${nl}2 passed, 1 failed" '' \
    "$tiny/scripts/progress.py" rt ci
gone="first/same: BAD EDIT: an 'old:' text stands 0 times in src/lib.rt"
expect 'an edit whose text has gone' 1 "$gone${nl}1 passed, 1 failed" '' "$tiny/scripts/edits.py" --texts
rm "$tiny/crates/first/must-fail/same.edit"
expect 'one edit alone' 0 ".*refused first/eight \(edit 1 of 1\).*${nl}1 passed, 0 failed" '' "$tiny/scripts/edits.py" first/eight

# The checks of crate first that are at work.
at_work() {
    for line in /proc/[0-9]*/cmdline; do
        { tr '\0' ' ' < "$line" | grep -q "crate-name first" && echo "$line"; } 2> /dev/null
    done | wc -l
}

# stopped SCRIPT WORD..: stopped while a check is at work; that has ended then, and no file of Rattle is left.
stopped() {
    echo "// $1" >> "$tiny/crates/first/src/lib.rt"
    TMPDIR=$room/tmp "$tiny/scripts/$@" > "$room/out" 2>&1 &
    local begun=$!
    for _ in {1..200}; do
        [ "$(at_work)" -eq 0 ] || break
        sleep 0.1
    done
    kill "$begun"
    wait "$begun" 2> /dev/null
    same "$1 stopped" "$?" 130
    sleep 0.2
    same "$1 stopped: what it started" "$(at_work)" 0
    same "$1 stopped: copies outside" "$(find "$room/tmp" -name '*.rt')" ''
    same "$1 stopped: copies inside" "$(find "$tiny/crates" -name '*.rt' ! -path '*/out/*')" "$tiny/crates/first/src/lib.rt"
}
stopped edits.py
stopped progress.py rt ci

# A machine without browser and headers, and apts that can, cannot, and can once the lists are there.
mkdir -p "$room/bare/.ci" "$room/bare/scripts" "$room/bin"
cp .ci/run "$room/bare/.ci"
printf '#!/bin/sh\necho tested\n' > "$room/bare/scripts/test.sh"
cat > "$room/bin/apt-get" << EOF
#!/bin/sh
for last; do :; done
echo "\$last" >> $room/asked
case \$APT in
    can) ;;
    later) if [ "\$last" = update ]; then : > $room/lists; fi; [ -e $room/lists ] ;;
    *) exit 1 ;;
esac
EOF
for tool in bash id timeout dirname mkdir cut; do
    ln -s "$(command -v "$tool")" "$room/bin/$tool"
done
chmod +x "$room/bin/apt-get" "$room/bare/scripts/test.sh"
said() {
    rm -f "$room/asked" "$room/lists"
    env PATH="$room/bin" APT="$1" "$room/bare/.ci/run" | tr '\n' ';'
}
if [ "$(id -u)" -eq 0 ]; then
    some='installing pkg-config;installing libssl-dev;installing chromium;installing valgrind;installing lintian;'
    some+='installing clang;tested;'
    had='cannot be had \(build/log/apt.out\)'
    same 'apt can' "$(said can)" "$some"
    same 'apt can, once it has the lists' "$(said later)" "$some"
    same 'what apt was asked for' "$(head -n 4 "$room/asked" | tr '\n' ' ')" 'pkg-config update pkg-config libssl-dev '
    like 'apt cannot' "$(said not)" "installing pkg-config;pkg-config $had;.*;installing clang;clang $had;tested;"
fi
rm "$room/bin/apt-get"
same 'no apt' "$(said not)" 'tested;'

# A clone where nothing is proved yet: told before anything is.
mkdir "$room/clone"
ln -s "$PWD/Makefile" "$PWD/scripts" "$PWD/include" "$PWD/desk" "$PWD/crates" "$PWD/crates.txt" "$room/clone"
printf '#!/bin/sh\ntouch %s/asked_rt\nexit 1\n' "$room" > "$room/bin/rt"
chmod +x "$room/bin/rt"
type="libcrypto's headers are not here; on Debian: apt-get install libssl-dev pkg-config"
expect 'make run without headers' 2 '' "$type${nl}make: .*" \
    env PATH="$room/bin:$PATH" PKG_CONFIG_LIBDIR="$room" make -s --no-print-directory -C "$room/clone" run
same 'nothing was proved' "$(ls "$room/asked_rt" 2> /dev/null)" ''
count
