#!/usr/bin/env bash
# 'make deb': the same packages of the same tree; what judges them finds no error; installed into an empty root they mark
# the example sitting there, with nothing of this folder and no kit.
set -u
cd "$(dirname "$0")/../.."
. tests/shell/expect.sh

if ! command -v dpkg-deb > /dev/null; then
    same 'no dpkg-deb here: no package is made' yes yes
    count
    exit
fi
version=$(scripts/version.sh)
architecture=$(dpkg --print-architecture)
root=$room/root
packages="libxm23_${version}_$architecture libxm23-dev_${version}_$architecture python3-xm23_${version}_all
    xm23_${version}_$architecture"

expect 'make deb' 0 ".*/build/deb/libxm23_$version.*" '' make -s --no-print-directory deb
expect 'again' 0 ".*/again/xm23_$version.*" '' scripts/deb.sh "$room/again"
for package in $packages; do
    same "$package is the same" "$(cmp "build/deb/$package.deb" "$room/again/$package.deb" && echo yes)" yes
done
same 'no other' "$(ls "$room/again" | wc -l)" 4
expect 'no folder' 2 '' 'deb.sh: deb.sh FOLDER' scripts/deb.sh
if command -v lintian > /dev/null; then
    same 'no error in them' "$(lintian --fail-on none build/deb/*.deb 2> /dev/null | grep '^E:')" ''
fi

# An empty root: dpkg's own folders, and the C library and libcrypto, which other packages bring.
mkdir -p "$root"/var/lib/dpkg/{info,updates}
touch "$root/var/lib/dpkg/status"
expect 'installing into an empty root' 0 '.*' '.*' dpkg --root="$root" --force-not-root --force-depends \
    --force-script-chrootless --log="$room/dpkg.log" -i build/deb/*.deb
same 'all of them' "$(dpkg-query --admindir="$root/var/lib/dpkg" -W -f '${Package} ' | xargs)" \
    'libxm23 libxm23-dev python3-xm23 xm23'
libraries=$(ldd "$root/usr/bin/xm23" | grep -o '/[^ ]*')
for library in $libraries; do
    install -D "$library" "$root$library"
done
same 'programs need no more than these' "$(ldd "$root/usr/bin/xm23" | grep -c 'not found')" 0

# inside COMMAND..: in that folder, which is the root too where that may be done.
inside() {
    if [ "$(id -u)" -eq 0 ]; then
        chroot "$root" /usr/bin/env -i "$@"
    else
        (cd "$root" && env -i "$@")
    fi
}

if [ "$(id -u)" -eq 0 ]; then
    install -D "$(command -v env)" "$root/usr/bin/env"
fi
expect 'the example sitting, marked there' 1 '.*' '.*' inside usr/bin/xm23 mark -o marks \
    usr/share/doc/xm23/examples/sitting/sum.paper usr/share/doc/xm23/examples/sitting/programs/sound.s19 \
    usr/share/doc/xm23/examples/sitting/programs/halting.s19
same 'its rows' "$(cut -d, -f1 "$root/marks/results.csv" 2> /dev/null | wc -l)" 3
same 'its pages' "$(ls "$root/marks/pages" 2> /dev/null | wc -l)" 2
same 'the module' "$(XM23_LIBRARY=$(ls "$root"/usr/lib/*/libxm23.so) PYTHONPATH=$root/usr/lib/python3/dist-packages \
    python3 -B examples/run.py)" 'accepted, steps 1 depth 0 R0 1'
printf '#include <xm23.h>\nint main(void) { return xm23_version() != XM23_VERSION; }\n' > "$room/version.c"
expect 'a program in C' 0 '' '' gcc -Wall -Werror -I"$root/usr/include" -o "$room/version" "$room/version.c" \
    "$(ls "$root"/usr/lib/*/libxm23.a)"
expect 'runs' 0 '' '' "$room/version"
count
