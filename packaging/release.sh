#!/bin/sh
# Packs what ./check proved; `usage` below says how.
set -eu
umask 022
export LC_ALL=C TZ=UTC
top=$(cd "$(dirname "$0")/.." && pwd)

usage() {
    cat <<'END'
usage: packaging/release.sh [FOLDER]

Packs the commit that is checked out, of which ./check has passed, into FOLDER (out/release, where none is given): an archive
to be unpacked, the packages xkc, libxkc0 and libxkc-dev for Debian, and SHA256SUMS. Two runs of one commit give the same bytes.
END
}

refuse() {
    printf 'release.sh: %s\n' "$1" >&2
    exit 1
}

case $#:${1-} in
    0: | 1:[!-]*) ;;
    1:--help | 1:-h) usage; exit 0 ;;
    *) usage >&2; exit 2 ;;
esac
mkdir -p "${1:-$top/out/release}"
folder=$(cd "${1:-$top/out/release}" && pwd)
work=$(mktemp -d)
trap 'rm -rf "$work"' EXIT
cd "$top"

for command in dpkg-deb objdump xz; do
    command -v "$command" > /dev/null || refuse "there is no command $command"
done

# What is packed is what was proved.
record=out/checked
[ -z "$(git status --porcelain --untracked-files=normal)" ] || refuse 'a file has changed since the commit, or was added'
[ -f "$record" ] || refuse 'no run of ./check has passed here'
[ "$(sed -n 's/^tree //p' "$record")" = "$(git rev-parse 'HEAD^{tree}')" ] || refuse 'the last run of ./check that passed was of another tree'
epoch=$(git log -1 --format=%ct)
export SOURCE_DATE_EPOCH="$epoch"

# The version is the first heading of CHANGELOG.md, and each other place says it too.
version=$(sed -n 's/^## //p' CHANGELOG.md | head -n 1)
echo "$version" | grep -Eq '^[0-9]+\.[0-9]+\.[0-9]+$' || refuse "the first heading of CHANGELOG.md is no version: $version"
says() {
    grep -qF -- "$2" "$1" || refuse "CHANGELOG.md says version $version, and $1 doesn't say '$2'"
}
crates/xkc/out/xkc --version > "$work/version"
[ "$(cat "$work/version")" = "xkc $version" ] || refuse "CHANGELOG.md says version $version, and the program $(cat "$work/version")"
says packaging/xkc.1 "\"xkc $version\""
says packaging/xkc.pc.in "Version: $version"
# shellcheck disable=SC2046,SC2183
says include/xkc.h "XKC_VERSION $(printf '0x%02x%02x%02xu' $(echo "$version" | tr . ' '))"

rm -f out/libxkc.a out/libxkc.so.0 out/libxkc-xkbcommon.so
c/build.sh out . > "$work/said" 2>&1 || { cat "$work/said" >&2; refuse 'the library for C is not built'; }
[ -f out/libxkc-xkbcommon.so ] || refuse "libxkbcommon's header is not installed, so libxkc-xkbcommon.so is not built"
grep '^[0-9a-f]\{64\}  ' "$record" > "$work/sums" || refuse "$record has no sums"
sha256sum -c --quiet "$work/sums" > "$work/said" 2>&1 || { cat "$work/said" >&2; refuse 'what is built is not what ./check proved'; }

# They need the C library alone, tables of addresses are bound at the start and read-only from then on, and the stack holds no
# code.
built='crates/xkc/out/xkc out/libxkc.so.0 out/libxkc-xkbcommon.so'
for file in $built; do
    objdump -p "$file" > "$work/said"
    others=$(sed -n 's/^ *NEEDED *//p' "$work/said" | grep -vE '^(libc\.so\.6|ld-linux-x86-64\.so\.2)$' | tr '\n' ' ')
    [ -z "$others" ] || refuse "$file needs $others"
    grep -q '^ *RELRO ' "$work/said" || refuse "$file has no tables to be read alone"
    grep -q '^ *FLAGS_1 .*[13579bdf]$' "$work/said" || refuse "$file binds calls late"
    grep -A 1 '^ *STACK ' "$work/said" | grep -q 'flags rw-$' || refuse "$file can have code on its stack"
done

# libc FILE..: the C library that files need, by the greatest version that their symbols name.
libc() {
    found=$(objdump -T "$@" | sed -n 's/.*GLIBC_\([0-9.]*\).*/\1/p' | sort -V | tail -n 1)
    [ "$found" ] || refuse "$* name no version of the C library"
    echo "libc6 (>= $found)"
}
needed=$(libc crates/xkc/out/xkc out/libxkc-xkbcommon.so)
needed_by_library=$(libc out/libxkc.so.0)

# documents FOLDER: what is there to be read, with the record of the proofs and the examples of c/; a page's links to others hold.
documents() {
    mkdir -p "$1/docs" "$1/c"
    cp README.md CHANGELOG.md LICENSE "$record" "$1/"
    cp docs/*.md docs/*.svg "$1/docs/"
    cp c/*.c "$1/c/"
}

# settled FOLDER: permissions and times are those of the commit's files, whoever packs and when.
settled() {
    chmod -R u=rwX,go=rX "$1"
    find "$1" -exec touch -h -d "@$epoch" {} +
}

# The archive: it may be unpacked anywhere, since xkc.pc finds what stands beside it.
name=xkc-$version-linux-x86_64
DESTDIR=$work ./install.sh "/$name" > /dev/null
# shellcheck disable=SC2016
sed 's|^prefix=.*|prefix=${pcfiledir}/../..|' "$work/$name/lib/pkgconfig/xkc.pc" > "$work/xkc.pc"
cat "$work/xkc.pc" > "$work/$name/lib/pkgconfig/xkc.pc"
documents "$work/$name/share/doc/xkc"
settled "$work/$name"
mkdir "$work/packed"
tar --create --sort=name --format=gnu --owner=0 --group=0 --numeric-owner -C "$work" -f "$work/packed/$name.tar" "$name"
xz -T1 "$work/packed/$name.tar"

# Debian's packages: the files as install.sh puts them, in Debian's places.
library=usr/lib/x86_64-linux-gnu
DESTDIR=$work/debian ./install.sh /usr > /dev/null
cd "$work/debian"
mkdir "$library"
mv usr/lib/libxkc* usr/lib/pkgconfig "$library/"
chmod 644 "$library/libxkc.so.0" "$library/libxkc-xkbcommon.so"
# shellcheck disable=SC2016
sed 's|^libdir=.*|libdir=${prefix}/lib/x86_64-linux-gnu|' "$library/pkgconfig/xkc.pc" > "$work/xkc.pc"
cat "$work/xkc.pc" > "$library/pkgconfig/xkc.pc"
mkdir -p usr/share/zsh/vendor-completions
mv usr/share/zsh/site-functions/_xkc usr/share/zsh/vendor-completions/
gzip -9n usr/share/man/man1/xkc.1

maintainer=$(git -C "$top" log -1 --format='%an <%ae>')

# takes PACKAGE FILE..: these files go into that package.
takes() {
    package=$1
    shift
    for file; do
        mkdir -p "$work/$package/${file%/*}"
        mv "$file" "$work/$package/${file%/*}/"
    done
    mkdir -p "$work/$package/usr/share/doc/$package" "$work/$package/DEBIAN"
    cp "$top/LICENSE" "$work/$package/usr/share/doc/$package/copyright"
    printf 'xkc (%s) unstable; urgency=medium\n\n  * CHANGELOG.md says what is new.\n\n -- %s  %s\n' "$version" "$maintainer" \
        "$(date -R -d "@$epoch")" | gzip -9n > "$work/$package/usr/share/doc/$package/changelog.gz"
}

# packs PACKAGE SECTION SHORT LONG FIELD..: its control file has these fields beside those that all have.
packs() {
    package=$1 section=$2 short=$3 long=$4
    shift 4
    root=$work/$package
    (cd "$root" && find usr -type f | sort | xargs md5sum > DEBIAN/md5sums)
    size=$(find "$root/usr" -type f -printf '%s\n' | awk '{ all += int(($1 + 1023) / 1024) } END { print all }')
    {
        echo "Package: $package"
        [ "$package" = xkc ] || echo 'Source: xkc'
        echo "Version: $version"
        echo 'Architecture: amd64'
        echo "Maintainer: $maintainer"
        echo "Installed-Size: $size"
        echo "Section: $section"
        echo 'Priority: optional'
        printf '%s\n' "$@"
        echo "Description: $short"
        echo "$long" | fold -s -w 78 | sed 's/^/ /; s/ *$//'
    } > "$root/DEBIAN/control"
    settled "$root"
    DPKG_DEB_THREADS_MAX=1 dpkg-deb --root-owner-group -Zxz --build "$root" "$work/packed/${package}_${version}_amd64.deb" > /dev/null
}

takes libxkc0 "$library/libxkc.so.0"
echo "libxkc 0 libxkc0 (>= $version)" > "$work/libxkc0/DEBIAN/shlibs"
takes libxkc-dev usr/include/xkc.h "$library/libxkc.a" "$library/libxkc.so" "$library/pkgconfig/xkc.pc"
takes xkc usr/bin/xkc "$library/libxkc-xkbcommon.so" usr/share/man/man1/xkc.1.gz usr/share/bash-completion/completions/xkc \
    usr/share/zsh/vendor-completions/_xkc usr/share/fish/vendor_completions.d/xkc.fish
for package in libxkc0 xkc; do echo 'activate-noawait ldconfig' > "$work/$package/DEBIAN/triggers"; done
rm usr/share/licenses/xkc/LICENSE
left=$(find . ! -type d)
[ -z "$left" ] || refuse "in no package: $left"
(cd "$top" && documents "$work/xkc/usr/share/doc/xkc")
rm "$work/xkc/usr/share/doc/xkc/LICENSE"

packs libxkc0 libs 'XKB keymaps compiled, and keyboards run (library)' \
    'A library that compiles keymap text to an image and runs keyboards over it. What a keyboard answers is proved to be what the text means.' \
    "Depends: $needed_by_library" 'Multi-Arch: same'
packs libxkc-dev libdevel 'XKB keymaps compiled, and keyboards run (development files)' \
    'The header of libxkc, the library to be linked into a program, and its file for pkg-config. The package xkc has the documents.' \
    "Depends: libxkc0 (= $version)" 'Multi-Arch: same'
packs xkc x11 'compiles keyboard layouts, and answers keys' \
    'A program that compiles keyboard layouts, shows them, finds keys and runs keyboards; what a keyboard answers is proved to be what the layout means. With it comes libxkc-xkbcommon.so, which gives programs of libxkbcommon its calls, to be preloaded.' \
    "Depends: $needed" 'Recommends: xkb-data' 'Suggests: libxkbcommon0'

cd "$work/packed"
sha256sum -- * > "$work/SHA256SUMS"
mv "$work/SHA256SUMS" .
# What an earlier run left there goes.
[ ! -f "$folder/SHA256SUMS" ] || (cd "$folder" && cut -c 67- SHA256SUMS | xargs rm -f --)
cp -- * "$folder/"
echo "release.sh: xkc $version is packed in $folder"
