#!/bin/sh
# Tries what release.sh packed in a root of Debian that has xkb-data and a C compiler, and neither the toolchain nor libxkbcommon.
#   packaging/try.sh [FOLDER [ROOT]]      FOLDER is release.sh's; without ROOT debootstrap makes a root of Debian 12
# The archive is unpacked and the packages are installed. Either way a layout is compiled by its names, shown and replayed, and the
# compositor and the terminal of c/ are compiled and run; then all is removed, and nothing may be left. It takes the rights of
# root. Each failure is a line, and the last line counts.
set -u
top=$(cd "$(dirname "$0")/.." && pwd) || exit 2
folder=$(cd "${1:-$top/out/release}" && pwd) || exit 2
work=$(mktemp -d) || exit 2
trap 'rm -rf "$work"' EXIT
root=${2:-$work/root}
passed=0
failed=0

# holds TEXT COMMAND..: that a command succeeds.
holds() {
    text=$1
    shift
    if "$@" > "$work/said" 2>&1; then
        passed=$((passed + 1))
    else
        failed=$((failed + 1))
        echo "FAILED: $text"
        cat "$work/said"
    fi
}

if [ $# -lt 2 ]; then
    debootstrap --variant=minbase --include=xkb-data,xz-utils,gcc,libc6-dev,pkg-config bookworm "$root" > "$work/said" 2>&1 || { cat "$work/said"; exit 2; }
fi
within() { chroot "$root" /usr/bin/env -i PATH="$path" PKG_CONFIG_PATH="$config" LD_LIBRARY_PATH="$libraries" /bin/sh -c "cd /tmp/xkc && $1"; }

# What is there, but for what dpkg and ldconfig write of themselves.
list() {
    (cd "$root" && find . -xdev \( -path ./proc -o -path ./sys -o -path ./dev -o -path ./tmp -o -path ./var/log/dpkg.log \
        -o -path ./var/lib/dpkg/status-old -o -path ./var/cache/ldconfig/aux-cache \) -prune -o -printf '%p %M %l\n' | LC_ALL=C sort
    cd "$root" && find etc usr opt var -xdev -type f ! -path var/log/dpkg.log ! -path var/lib/dpkg/status-old \
        ! -path var/cache/ldconfig/aux-cache -exec sha256sum {} + | LC_ALL=C sort)
}

# used HOW DOCUMENTS: xkc, its library and its examples work.
# shellcheck disable=SC2016
used() {
    holds "$1: the program needs another library" within 'ldd "$(command -v xkc)" | grep -vE "linux-vdso|libc\.so\.6|ld-linux" | { ! grep .; }'
    holds "$1: a layout is compiled by its names" within 'xkc compile --quiet --layout us,de --options grp:alt_shift_toggle desk.image'
    holds "$1: it is shown" within 'xkc show --group 2 desk.image | grep -q ß'
    holds "$1: it is replayed" within 'printf "down 64\ndown 50\nup 50\nup 64\ndown 34\n" | xkc replay desk.image | tail -n 1 | grep -q "^34 down udiaeresis .* group=2"'
    holds "$1: its text is printed" within 'xkc print desk.image > text'
    holds "$1: the compositor is compiled" within "cc -o compositor $2/c/compositor.c \$(pkg-config --cflags --libs xkc)"
    holds "$1: the compositor runs" within 'printf "down 50\ndown 38\n" | ./compositor text client.image | tail -n 1 | grep -qx "A : 1 0 0 0 0 0"'
    holds "$1: its image is the program's" within 'cmp client.image desk.image'
    holds "$1: the terminal is compiled" within "cc -o terminal $2/c/terminal.c \$(pkg-config --cflags --libs xkc)"
    holds "$1: the terminal runs" within 'printf "down 50\ndown 38\nup 38\nup 50\ndown 34\n" | ./terminal de | grep -qx Aü'
    holds "$1: the archive is linked" within "cc -static -o alone $2/c/compositor.c \$(pkg-config --cflags --libs xkc) && ! ./alone"
}

rm -rf "$root/tmp/xkc"
mkdir -p "$root/tmp/xkc"
cp "$folder"/* "$root/tmp/xkc/"
path=/usr/sbin:/usr/bin:/sbin:/bin config='' libraries=''
list > "$work/before"
holds 'the sums' within 'sha256sum -c SHA256SUMS'
holds 'libxkbcommon or the toolchain is there' within '! ldconfig -p | grep libxkbcommon && ! command -v rt'

name=$(basename "$folder"/xkc-*.tar.xz .tar.xz)
holds 'the archive is unpacked' within "tar -C /opt -xf $name.tar.xz"
path=/opt/$name/bin:$path config=/opt/$name/lib/pkgconfig libraries=/opt/$name/lib
used unpacked "/opt/$name/share/doc/xkc"
rm -rf "${root:?}/opt/$name"
path=/usr/sbin:/usr/bin:/sbin:/bin config='' libraries=''
list > "$work/after"
holds 'the archive leaves something' diff "$work/before" "$work/after"

holds 'the packages are installed' within 'dpkg -i ./*.deb'
holds 'their files are as they were packed' within 'dpkg -V xkc libxkc0 libxkc-dev'
used installed /usr/share/doc/xkc
holds 'the packages are removed' within 'dpkg -P xkc libxkc-dev libxkc0'
list > "$work/after"
holds 'the packages leave something' diff "$work/before" "$work/after"
rm -rf "$root/tmp/xkc"
echo "$passed passed, $failed failed"
[ "$failed" -eq 0 ]
