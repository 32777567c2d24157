#!/usr/bin/env bash
# deb.sh FOLDER: packages for Debian of what is built: libxm23, libxm23-dev, python3-xm23 and xm23. The same tree gives
# the same bytes: times are those of the last commit, or SOURCE_DATE_EPOCH. Prints the path of each package.
set -eu -o pipefail
if [ $# -ne 1 ]; then
    echo 'deb.sh: deb.sh FOLDER' >&2
    exit 2
fi
cd "$(dirname "$0")/.."
mkdir -p "$1"
to=$(cd "$1" && pwd)
version=$(scripts/version.sh)
architecture=$(dpkg --print-architecture)
triplet=$(gcc -print-multiarch)
export SOURCE_DATE_EPOCH=${SOURCE_DATE_EPOCH:-$(git log -1 --format=%ct 2> /dev/null || echo 1767225600)}
room=$(mktemp -d)
trap 'rm -rf "$room"' EXIT
stage=$room/stage
umask 022

# move PACKAGE PATH..: takes paths below usr from what was installed into a package.
move() {
    local package=$1 path
    shift
    for path in "$@"; do
        mkdir -p "$room/$package/usr/$(dirname "$path")"
        mv "$stage/usr/$path" "$room/$package/usr/$path"
    done
}

# needs FILE: the packages of the shared libraries that it is bound to, as this system has them.
needs() {
    local name
    objdump -p "$1" | awk '/NEEDED/ { print $2 }' | while read -r name; do
        dpkg-query -S "*/$name" | head -n 1 | cut -d: -f1
    done | LC_ALL=C sort -u | paste -s -d, | sed 's/,/, /g'
}

# control PACKAGE ARCHITECTURE SECTION DEPENDS TITLE, the description on standard input: what dpkg is told of it.
control() {
    mkdir -p "$room/$1/DEBIAN"
    {
        echo "Package: $1"
        echo "Version: $version"
        echo "Architecture: $2"
        echo 'Maintainer: The developers of Hembrasti <developers@hembrasti.example>'
        echo "Installed-Size: $(du -k -s --apparent-size "$room/$1/usr" | cut -f1)"
        echo "Section: $3"
        echo 'Priority: optional'
        [ "$1" != libxm23 ] || echo 'Multi-Arch: same'
        [ -z "$4" ] || echo "Depends: $4"
        echo "Description: $5"
        sed 's/^/ /'
    } > "$room/$1/DEBIAN/control"
}

# papers PACKAGE: what every package has of documents.
papers() {
    local folder=$room/$1/usr/share/doc/$1
    mkdir -p "$folder"
    printf 'XM-23 examination machine, https://hembrasti.example\n\nCopyright 2026 the developers of Hembrasti. %s\n' \
        'All rights reserved.' > "$folder/copyright"
    printf '%s (%s) unstable; urgency=medium\n\n  * CHANGELOG.md says what changed.\n\n -- %s  %s\n' "$1" "$version" \
        'The developers of Hembrasti <developers@hembrasti.example>' "$(date -uR -d "@$SOURCE_DATE_EPOCH")" |
        gzip -9n > "$folder/changelog.gz"
}

# pack PACKAGE: pages packed, symbols that nobody links to gone, digests, and the package itself.
pack() {
    local root=$room/$1
    find "$root" -path '*/man/*' -type f -exec gzip -9n {} +
    find "$root" -type f -path '*/bin/*' -exec strip --strip-unneeded --remove-section=.comment {} +
    find "$root" -type f -name '*.so.*' -exec strip --strip-unneeded --remove-section=.comment {} +
    find "$root" -type f -name '*.a' -exec strip --enable-deterministic-archives --strip-debug {} +
    find "$root/usr" -type f -exec chmod 644 {} +
    find "$root/usr" -type f -path '*/bin/*' -exec chmod 755 {} +
    (cd "$root" && find usr -type f -print0 | LC_ALL=C sort -z | xargs -0 md5sum > DEBIAN/md5sums)
    find "$root" -exec touch -h -d "@$SOURCE_DATE_EPOCH" {} +
    dpkg-deb --root-owner-group -Zxz --build "$root" "$to" > /dev/null
    echo "$to/$1_${version}_$2.deb"
}

scripts/install.sh install /usr "$stage" > /dev/null
mkdir -p "$stage/usr/lib/$triplet"
mv "$stage"/usr/lib/libxm23* "$stage/usr/lib/pkgconfig" "$stage/usr/lib/$triplet/"
sed -i "s|^libdir=.*|libdir=\${prefix}/lib/$triplet|" "$stage/usr/lib/$triplet/pkgconfig/xm23.pc"

move libxm23 "lib/$triplet/libxm23.so.$version" "lib/$triplet/libxm23.so.${version%%.*}"
move libxm23-dev include/xm23.h "lib/$triplet/libxm23.a" "lib/$triplet/libxm23.so" "lib/$triplet/pkgconfig/xm23.pc" \
    share/man/man3
move python3-xm23 lib/python3/dist-packages/xm23.py
move xm23 bin/xm23 bin/print_state share/man/man1 share/man/man5 share/bash-completion
mkdir -p "$room/xm23/usr/share/doc/xm23/examples"
cp -r examples/sitting "$room/xm23/usr/share/doc/xm23/examples/"
for package in libxm23 libxm23-dev python3-xm23 xm23; do
    papers "$package"
done
mkdir -p "$room/libxm23/DEBIAN"
echo "libxm23 ${version%%.*} libxm23 (= $version)" > "$room/libxm23/DEBIAN/shlibs"
echo 'activate-noawait ldconfig' > "$room/libxm23/DEBIAN/triggers"

control libxm23 "$architecture" libs "$(needs "build/libxm23.so.$version")" 'XM-23 examination machine, shared library' << 'END'
A machine of an examination, proved equal to its definitions: runs, steps
back, traces, verdicts on handlers, S-records, an assembler.
END
control libxm23-dev "$architecture" libdevel "libxm23 (= $version)" 'XM-23 examination machine, for programs in C' << 'END'
The header, the archive to link with, and the manual of the calls.
END
control python3-xm23 all python "libxm23 (= $version), python3" 'XM-23 examination machine, module for Python' << 'END'
A module over the shared library: machines with registers by name, runs,
steps back, traces and verdicts, the assembler.
END
control xm23 "$architecture" education "$(needs build/xm23)" 'XM-23 examination machine, marking of programs' << 'END'
The desk: runs and marks candidates' programs under a paper, with a page
for each, and shows what every step did. An example sitting is in
/usr/share/doc/xm23/examples.
END
pack libxm23 "$architecture"
pack libxm23-dev "$architecture"
pack python3-xm23 all
pack xm23 "$architecture"
