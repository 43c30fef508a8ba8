#!/bin/sh
# Proves and builds the library for C: c/build.sh FOLDER leaves there libxkc.a, libxkc.so.0 and, where libxkbcommon's header
# is installed, libxkc-xkbcommon.so. It makes no link libxkc.so, since `rt ci` takes none in a checkout; install.sh does. A
# second word names a repository in which `rt ci` has passed: then its libraries are taken as they stand there, and else
# `rt lib` proves and builds what isn't. CC names the compiler, cc where it isn't set.
set -eu
# The same order of an archive's objects everywhere.
export LC_ALL=C
top=$(cd "$(dirname "$0")/.." && pwd)
mkdir -p "$1"
out=$(cd "$1" && pwd)
repository=$(cd "${2:-$top}" && pwd)
crates=$repository/crates
archive=$crates/xkc_c/out/libxkc_c.a
compiler=${CC:-cc}
kit=$(dirname "$(rt doc)")
work=$(mktemp -d)
trap 'rm -rf "$work"' EXIT

# The libraries that xkc_c stands on: `own NAME` and `kit NAME` for those that it names, `below NAME` for those below.
libraries() {
    awk '
        function reach(name,    count, i, names) {
            if (name in reached) return
            reached[name] = 1
            print "below", name
            count = split(below[name], names, " ")
            for (i = 1; i <= count; i++) if (names[i] in below) reach(names[i])
        }
        /^[a-z]/ { name = $1; sub(/:.*/, "", name); sub(/^[^:]*:/, ""); below[name] = $0 }
        END {
            count = split("std " below["xkc_c"], names, " ")
            for (i = 1; i <= count; i++) {
                print (names[i] in below ? "own" : "kit"), names[i]
                if (names[i] in below) reach(names[i])
            }
        }' "$repository/crates.txt"
}

mkdir -p "$crates/xkc_c/out"
if [ -f "$archive" ] && [ -z "$(find "$repository/crates.txt" "$crates" -name out -prune -o \( -name '*.rt' -o -name '*.antt' -o -name crates.txt \) -newer "$archive" -print)" ]; then
    echo "c/build.sh: $archive is there"
elif [ $# -gt 1 ]; then
    # The crate alone is proved and compiled, in the words of `rt lib`.
    libraries > "$work/libraries"
    set --
    while read -r kind name; do
        case $kind in
            own) set -- "$@" --extern "$name=$crates/$name/out/rlib/$name.rlib" ;;
            kit) set -- "$@" --extern "$name=$kit/rlibs/$name.rlib" ;;
            below) set -- "$@" -L "dependency=$crates/$name/out/rlib" ;;
        esac
    done < "$work/libraries"
    (cd "$crates/xkc_c" && "$kit/bin/rattle" build --crate-name xkc_c --crate-type staticlib src/lib.rt "$@" -L "dependency=$kit/rlibs" \
        --antt-project "$kit/rattle/logic/antt-project.json" --logic-built "$kit/logic_built" --toolchain "$kit/toolchain" \
        --jobs 2 --backend llvm -o "$work/libxkc_c.a")
    mv "$work/libxkc_c.a" "$archive"
else
    (cd "$crates/xkc_c" && rt lib)
fi

# The toolchain's archive has the calls of malloc that the library makes, and c/folders.c reads files for it.
cd "$work"
mkdir objects
cd objects
ar x "$archive"
ar x "$kit/c/liblibc_c.a"
"$compiler" -std=c11 -O2 -Wall -Wextra -Werror -fPIC -fstack-protector-strong -U_FORTIFY_SOURCE -D_FORTIFY_SOURCE=2 \
    -ffile-prefix-map="$top=." -I"$top/include" -c -o folders.o "$top/c/folders.c"
rm -f "$out/libxkc.a"
ar rcsD "$out/libxkc.a" ./*.o
# The steps of a source are the library's own: whole names, which come before patterns.
steps='xkc_gathering_text; xkc_gathering_names; xkc_gathering_step; xkc_gathering_tell; xkc_gathering_end'
echo "{ global: xkc_*; local: $steps; *; };" > exports
hardened=-Wl,-s,-z,relro,-z,noexecstack
"$compiler" -shared "$hardened,-z,now" -Wl,-soname,libxkc.so.0 -Wl,--version-script=exports -Wl,--no-undefined -o "$out/libxkc.so.0" ./*.o

if ! flags=$(pkg-config --cflags xkbcommon 2> /dev/null); then
    echo 'c/build.sh: xkbcommon.h is not installed, so libxkc-xkbcommon.so is not built'
    exit 0
fi
# The real library is opened where it is needed, and not linked with. The versions of the calls are libxkbcommon's, so that the
# library may also stand in its place, as libxkbcommon.so.0.
"$top/c/xkbcommon/names.sh" > folded_names.h
# shellcheck disable=SC2086
"$compiler" -std=c11 -O2 -Wall -Wextra -Werror -fPIC -fstack-protector-strong -U_FORTIFY_SOURCE -D_FORTIFY_SOURCE=2 \
    -ffile-prefix-map="$top=." -shared "$hardened,-z,now,-soname,libxkc-xkbcommon.so,-Bsymbolic-functions,--no-undefined" \
    -Wl,--version-script="$top/c/xkbcommon/exports.map" -I"$top/include" -I. $flags -o "$out/libxkc-xkbcommon.so" \
    "$top"/c/xkbcommon/*.c "$out/libxkc.a" -Wl,--exclude-libs,ALL -ldl -pthread
