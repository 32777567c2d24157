#!/usr/bin/env bash
# S-records beside the tools that people use: what srec_cat and objcopy make of one image loads (examples/srec.c), and
# they read what we write; where srec_cat writes 16-byte S1 lines too the files are the same. A tool that is not
# installed is left out, and said so. The last line is 'N passed, M failed'.
set -eu -o pipefail
cd "$(dirname "$0")/.."

out=build/peers
srec=build/srec
passed=0
failed=0
rm -rf "$out"
mkdir -p "$out"
gcc -std=c99 -pedantic -O2 -Wall -Wextra -Werror -Iinclude -o "$srec" examples/srec.c target/staticlib/libxm23.a

# check NAME COMMAND..: counts a command that should succeed.
check() {
    local name=$1
    shift
    if "$@" > "$out/said" 2>&1; then
        passed=$((passed + 1))
    else
        failed=$((failed + 1))
        echo "fails: $name"
        cat "$out/said"
    fi
}

# loads TEXT MEMORY: the text loads into an empty memory as the bytes of MEMORY.
loads() {
    "$srec" load < "$1" > "$out/loaded" && cmp "$out/loaded" "$2"
}

# refused LINE TEXT: the text is refused at that line, and nothing comes out.
refused() {
    local status=0
    "$srec" load < "$2" > "$out/loaded" 2> "$out/why" || status=$?
    [ "$status" -eq 1 ] && [ ! -s "$out/loaded" ] && grep -q "^line $1: " "$out/why"
}

# An image of all 256 bytes, 65,536 of them, and a memory that is zero but for 1,000 of them at #1230.
python3 - "$out" << 'END'
import pathlib, sys
out = pathlib.Path(sys.argv[1])
image = bytes((i * 167 + (i >> 8) * 13) % 256 for i in range(65536))
(out / "image").write_bytes(image)
(out / "part").write_bytes(image[:1000])
(out / "part_memory").write_bytes(bytes(0x1230) + image[:1000] + bytes(65536 - 1000 - 0x1230))
END

for text in tests/srec/*.s19; do
    case $text in
    *_s5.s19) check "$text is refused" refused 4 "$text" ;;
    *) check "$text loads" "$srec" load < "$text" ;;
    esac
done
"$srec" write 0 10000 1234 < "$out/image" > "$out/ours.s19"
"$srec" write 1230 3E8 1230 < "$out/part_memory" > "$out/ours_part.s19"
check 'ours loads' loads "$out/ours.s19" "$out/image"
check 'our part loads' loads "$out/ours_part.s19" "$out/part_memory"

if command -v srec_cat > /dev/null; then
    words='-motorola -address-length=2 -disable=data-count'
    for size in 1 7 16 32 200; do
        srec_cat "$out/image" -binary -o "$out/cat.s19" $words -output-block-size=$size -execution-start-address=0
        check "srec_cat, $size bytes a line" loads "$out/cat.s19" "$out/image"
    done
    srec_cat "$out/part" -binary -offset 0x1230 -o "$out/cat.s19" $words -execution-start-address=0x1230
    check 'srec_cat, a part' loads "$out/cat.s19" "$out/part_memory"
    srec_cat "$out/part" -binary -offset 0x1230 -o "$out/cat.s19" $words -execution-start-address=0x1230 \
        -output-block-size=16 -disable=header
    check 'the same file as srec_cat writes' cmp "$out/cat.s19" "$out/ours_part.s19"
    srec_cat "$out/image" -binary -o "$out/cat.s19" $words -execution-start-address=0x1234 -output-block-size=16 \
        -disable=header
    check 'the same file as srec_cat writes, all of memory' cmp "$out/cat.s19" "$out/ours.s19"
    srec_cat "$out/ours.s19" -motorola -o "$out/read" -binary 2> "$out/warned"
    check 'srec_cat reads ours' cmp "$out/read" "$out/image"
    srec_cat "$out/ours_part.s19" -motorola -offset -0x1230 -o "$out/read" -binary 2> "$out/warned"
    check 'srec_cat reads our part' cmp "$out/read" "$out/part"
    srec_cat "$out/part" -binary -offset 0x1230 -o "$out/cat.s19" -motorola -address-length=2 -output-block-size=8
    check 'a count record S5 is refused' refused 127 "$out/cat.s19"
else
    echo 'S-records beside srec_cat: left out, srec_cat is not here (Debian: srecord)'
fi

if command -v objcopy > /dev/null; then
    for size in 1 16 40 250; do
        objcopy -I binary -O srec --srec-len=$size "$out/image" "$out/objcopy.s19"
        check "objcopy, $size bytes a line" loads "$out/objcopy.s19" "$out/image"
    done
    objcopy -I binary -O srec --change-addresses 0x1230 --set-start 0 "$out/part" "$out/objcopy.s19"
    check 'objcopy, a part' loads "$out/objcopy.s19" "$out/part_memory"
    objcopy -I srec -O binary "$out/ours.s19" "$out/read"
    check 'objcopy reads ours' cmp "$out/read" "$out/image"
else
    echo 'S-records beside objcopy: left out, objcopy is not here (Debian: binutils)'
fi

echo "$passed passed, $failed failed"
[ "$failed" -eq 0 ]
