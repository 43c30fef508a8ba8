#!/bin/sh
# Installs what is built, or removes it again; `usage` below says how.
set -eu
top=$(cd "$(dirname "$0")" && pwd)

usage() {
    cat <<'END'
usage: ./install.sh [PREFIX]
       ./install.sh --uninstall [PREFIX]
       ./install.sh --help

Installs the built program with its man page, completions and licence below PREFIX (/usr/local, where none is given), and the
library for C, where it is built, with its header and xkc.pc. --uninstall removes these files from there, and no other.

With DESTDIR in the environment all is written below that folder, as for a package: what is installed still says PREFIX.
END
}

# What the words are, if they aren't these.
refuse() {
    printf 'install.sh: %s\n' "$1" >&2
    usage >&2
    exit 2
}

# Each file: its permissions, where it stands here, and where it goes below PREFIX.
program_files() {
    cat <<'END'
755 crates/xkc/out/xkc bin/xkc
644 packaging/xkc.1 share/man/man1/xkc.1
644 packaging/completions/xkc.bash share/bash-completion/completions/xkc
644 packaging/completions/_xkc share/zsh/site-functions/_xkc
644 packaging/completions/xkc.fish share/fish/vendor_completions.d/xkc.fish
644 LICENSE share/licenses/xkc/LICENSE
END
}

library_files() {
    cat <<'END'
644 include/xkc.h include/xkc.h
644 out/libxkc.a lib/libxkc.a
755 out/libxkc.so.0 lib/libxkc.so.0
END
}

shim=lib/libxkc-xkbcommon.so
link=lib/libxkc.so
config=lib/pkgconfig/xkc.pc

install_files() {
    while read -r mode source target; do
        install -D -m "$mode" "$top/$source" "$root/$target"
    done
}

install_all() {
    if [ ! -x "$top/crates/xkc/out/xkc" ]; then
        echo "install.sh: the program isn't built: ./xkc --build" >&2
        exit 1
    fi
    program_files | install_files
    if [ ! -f "$top/out/libxkc.so.0" ]; then
        echo "install.sh: the library for C isn't built (c/build.sh out builds it), so it isn't installed" >&2
    else
        library_files | install_files
        [ ! -f "$top/out/${shim##*/}" ] || echo "755 out/${shim##*/} $shim" | install_files
        ln -sf libxkc.so.0 "$root/$link"
        mkdir -p "$root/${config%/*}"
        PREFIX=$prefix awk '
            { at = index($0, "@PREFIX@"); print at ? substr($0, 1, at - 1) ENVIRON["PREFIX"] substr($0, at + 8) : $0 }' \
            "$top/packaging/xkc.pc.in" > "$root/$config"
        chmod 644 "$root/$config"
    fi
    echo "installed in $root"
}

# The folders that others have files in, too, are left.
uninstall_all() {
    { program_files; library_files; echo "- - $shim"; echo "- - $link"; echo "- - $config"; } |
        while read -r _ _ target; do
            rm -f "$root/$target"
        done
    [ ! -d "$root/share/licenses/xkc" ] || rmdir "$root/share/licenses/xkc" 2> /dev/null || :
    echo "removed from $root"
}

task=install_all
prefix=
for word in "$@"; do
    case $word in
        --help | -h) usage; exit 0 ;;
        --uninstall) task=uninstall_all ;;
        -*) refuse "$word is no option" ;;
        '') refuse 'PREFIX is empty' ;;
        *) [ -z "$prefix" ] || refuse "there is a second PREFIX, $word"; prefix=$word ;;
    esac
done
prefix=${prefix:-/usr/local}
case $prefix in
    /*) ;;
    *) prefix=$PWD/$prefix ;;
esac
[ "$prefix" = / ] || prefix=${prefix%/}
root=${DESTDIR-}$prefix
$task
