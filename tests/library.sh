#!/bin/sh
# Tests of the library for C: builds it, and the programs of c/ and c/tests over it, and runs them.
#   tests/library.sh [REPOSITORY]      where `rt ci` has passed, so that its libraries are taken as they stand
# Each test that fails is a line, and the last line counts them. Where there is no C compiler, a line says so, and nothing is
# counted.
set -u
top=$(cd "$(dirname "$0")/.." && pwd)
compiler=${CC:-cc}
if ! command -v "$compiler" > /dev/null; then
    echo "library: there is no C compiler '$compiler', so its tests are left out"
    exit 0
fi
[ $# -eq 0 ] || set -- "$(cd "$1" && pwd)"
work=$(mktemp -d) || exit 2
trap 'rm -rf "$work"' EXIT
cd "$work" || exit 2
passed=0
failed=0

# fails WHAT [FILE]: a test that fails, with what was said of it.
fails() {
    failed=$((failed + 1))
    printf 'FAILED: %s\n' "$1"
    [ $# -lt 2 ] || cat "$2"
}

# holds WHAT COMMAND..: the command succeeds.
holds() {
    what=$1
    shift
    if "$@" > said 2>&1; then passed=$((passed + 1)); else fails "$what" said; fi
}

# counts WHAT COMMAND..: adds the counts of the command's last line.
counts() {
    what=$1
    shift
    status=0
    "$@" > said 2>&1 || status=$?
    line=$(tail -n 1 said)
    case $line in
        [0-9]*' passed, '[0-9]*' failed')
            read -r well _ wrong _ <<END
$line
END
            passed=$((passed + well))
            failed=$((failed + wrong))
            [ "$wrong" -eq 0 ] || sed '$d' said
            [ "$status" -eq 0 ] || [ "$wrong" -ne 0 ] || fails "$what ends with status $status"
            ;;
        *) fails "$what ends with status $status" said ;;
    esac
}

# compiles PROGRAM SOURCE FLAGS..: over the archive, with warnings as errors.
compiles() {
    program=$1
    source=$2
    shift 2
    holds "$source is compiled" "$compiler" -std=c99 -O2 -g -Wall -Wextra -Werror -I"$top/include" "$@" -o "$program" "$top/$source" lib/libxkc.a
}

holds 'the library is built' "$top/c/build.sh" lib "$@"
if [ "$failed" -ne 0 ]; then
    echo "$passed passed, $failed failed"
    exit 1
fi
compiles calls c/tests/calls.c
compiles characters c/tests/characters.c
compiles growths c/tests/growths.c -Wl,--wrap=malloc -Wl,--wrap=realloc
compiles sources c/tests/sources.c
compiles compositor c/compositor.c
compiles client c/client.c
compiles terminal c/terminal.c
counts calls ./calls
counts characters ./characters

# A folder of rules and files, which the environment names too.
mkdir -p kit/rules kit/keycodes kit/types kit/compat kit/symbols home
cat > kit/rules/evdev <<'END'
! model = keycodes types compat
  * = evdev complete complete
! layout = symbols
  * = base+%l%(v)
! option = symbols
  grp:shifts = +group(shifts)
END
cat > kit/rules/evdev.lst <<'END'
! layout
  us              English (US)
  de              German
! variant
  neo             de: German (Neo 2)
END
echo 'no rule' > kit/rules/broken
echo 'xkb_keycodes { <A>=38; <B>=56; <N>=77; alias <C>=<A>; indicator 1="Caps"; };' > kit/keycodes/evdev
echo 'xkb_types { };' > kit/types/complete
echo 'xkb_compat { };' > kit/compat/complete
echo 'xkb_symbols { key <B> {[z]}; };' > kit/symbols/base
echo 'xkb_symbols { key <A> {[a]}; };' > kit/symbols/us
echo 'default xkb_symbols { key <A> {[d]}; }; xkb_symbols "neo" { key <A> {[n]}; };' > kit/symbols/de
echo 'xkb_symbols "shifts" { key <B> {[ISO_Next_Group]}; };' > kit/symbols/group
echo 'xkb_symbols { virtual_modifiers NumLock; key <A> {[a]}; replace key <B> {[z], repeat=no}; key <N> {[Num_Lock], virtualmods=NumLock}; modifier_map Mod2 { <N> }; };' > kit/symbols/full
echo 'xkb_symbols { key <A> {[a] };' > kit/symbols/broken
unset XDG_CONFIG_HOME XKB_DEFAULT_RULES XKB_DEFAULT_MODEL XKB_DEFAULT_OPTIONS
# named COMMAND..: where the environment has names and the folder.
named() {
    env HOME="$work/home" XKB_CONFIG_ROOT="$work/kit" XKB_CONFIG_EXTRA_PATH="$work/none" XKB_DEFAULT_LAYOUT=de \
        XKB_DEFAULT_VARIANT=neo XKB_DEFAULT_OPTIONS=grp:shifts "$@"
}
counts sources named ./sources "$work/kit"
counts growths named ./growths "$work/kit"

# The header by itself, also in C++.
holds 'the header is C' "$compiler" -std=c99 -pedantic -Wall -Wextra -Werror -fsyntax-only -x c "$top/include/xkc.h"
if command -v c++ > /dev/null; then
    holds 'the header is C++' c++ -std=c++11 -pedantic -Wall -Wextra -Werror -fsyntax-only -x c++ "$top/include/xkc.h"
fi

# A program finds the shared library by its soname.
holds 'calls are found in the shared library' "$compiler" -std=c99 -I"$top/include" -o shared "$top/c/tests/calls.c" -Llib -lxkc
counts 'the shared library' env LD_LIBRARY_PATH=lib ./shared

# A compositor's keymap, image and states, and a client over them.
cat > keymap <<'END'
xkb_keymap {
xkb_keycodes { <A>=38; <L>=50; };
xkb_types { type "ALPHABETIC" { modifiers=Shift+Lock; map[Shift]=Level2; map[Lock]=Level2; }; };
xkb_symbols { key <A> {[a, A]}; key <L> {[Shift_L], actions[1]=[SetMods(modifiers=Shift)]}; };
};
END
printf 'down 38\nup 38\ndown 50\ndown 38\n' > events
printf '%s\n' 'a : 0 0 0 0 0 0' 'a : 0 0 0 0 0 0' 'Shift_L : 1 0 0 0 0 0' 'A : 1 0 0 0 0 0' > wanted
./compositor keymap image < events > answers
holds 'the compositor answers events' cmp answers wanted
sed 's/.*: /38 /' answers > states
printf '%s\n' 'a : 0' 'a : 0' 'A : 0' 'A : 0' > wanted
./client image < states > looks
holds 'the client looks keys up in the states' cmp looks wanted
echo 'xkb_keymap { xkb_keycodes { <A>=4096; }; };' > refused
./compositor refused image < events > answers 2> why
holds 'the compositor says where a fault is' grep -qx 'refused:1:33: F18' why

# A terminal over the keymap's text: what each press sends, and each repeat of a key that repeats.
printf '%s\n' 'down 38' 'repeat 38' 'up 38' 'down 50' 'repeat 50' 'down 38' > events
sed 's/modifiers=Shift)\]/&, repeat=no/' keymap > typed
holds 'the terminal answers events' sh -c './terminal -f typed < events > answers && printf aaA | cmp - answers'
if [ -d /usr/share/X11/xkb ]; then
    holds 'the terminal takes the names of a layout' sh -c 'printf "down 24\n" | ./terminal fr > answers && printf a | cmp - answers'
fi

# exported FILE: the names that a library gives, with their versions.
exported() {
    nm -D --defined-only --with-symbol-versions "lib/$1" | awk -v file="$1" '$2 != "A" { print file, $3 }' | LC_ALL=C sort
}
exported libxkc.so.0 > exports
grep '^libxkc.so.0 ' "$top/c/exports.txt" > listed
if [ -f lib/libxkc-xkbcommon.so ]; then
    exported libxkc-xkbcommon.so >> exports
    cp "$top/c/exports.txt" listed
fi
holds 'the libraries give the names that c/exports.txt lists' diff listed exports
sed -n 's/^[a-z_0-9]* \**\(xkc_[a-z0-9_]*\)(.*/libxkc.so.0 \1/p' "$top/include/xkc.h" | LC_ALL=C sort > declared
holds 'the header declares the same' sh -c "sed -n '/^libxkc.so.0 /p' listed | diff declared -"

# links PROGRAM SOURCE FLAGS..: over libxkbcommon's calls.
links() {
    program=$1
    source=$2
    shift 2
    # shellcheck disable=SC2046
    holds "$source is compiled" "$compiler" -std=c99 -O2 -g -Wall -Wextra -Werror -I"$top/include" $(pkg-config --cflags xkbcommon) -o "$program" "$top/$source" "$@" -ldl
}

# libxkbcommon's calls, by the library alone; preloaded, and in its place, where the real one is installed.
if [ -f lib/libxkc-xkbcommon.so ]; then
    links xkbcommon c/tests/xkbcommon.c lib/libxkc-xkbcommon.so
    links handed_on c/tests/handed_on.c lib/libxkc-xkbcommon.so
    counts "libxkbcommon's calls" env LD_LIBRARY_PATH=lib ./xkbcommon
    counts 'without the real library' env LD_LIBRARY_PATH=lib XKC_LIBXKBCOMMON=/nowhere ./handed_on
    real=$(ldconfig -p 2> /dev/null | sed -n 's/.*libxkbcommon\.so\.0 .*=> //p' | head -n 1)
    if [ "$real" ]; then
        links linked c/tests/xkbcommon.c -lxkbcommon
        links handed_on_linked c/tests/handed_on.c -lxkbcommon
        mkdir -p place
        ln -s ../lib/libxkc-xkbcommon.so place/libxkbcommon.so.0
        counts 'the preloaded library' env LD_PRELOAD="$work/lib/libxkc-xkbcommon.so" ./linked
        counts 'handles of the real library' env LD_LIBRARY_PATH=lib ./handed_on "$real"
        counts 'and preloaded' env LD_PRELOAD="$work/lib/libxkc-xkbcommon.so" ./handed_on_linked "$real"
        counts "in libxkbcommon's place" env LD_LIBRARY_PATH=place ./linked
        counts 'where there is none else' env LD_LIBRARY_PATH=place ./handed_on_linked
        counts 'and with the real one by its path' env LD_LIBRARY_PATH=place XKC_LIBXKBCOMMON="$real" ./handed_on_linked "$real"
    fi
else
    echo "library: libxkbcommon's header is not installed, so its calls are left out"
fi

# Ten seconds of calls by chance, where clang has libFuzzer: from the inputs of c/tests/corpus on.
echo 'int LLVMFuzzerTestOneInput(const char *data, unsigned long size) { return data && size > 1 ? 0 : 0; }' > probe.c
if [ -f lib/libxkc-xkbcommon.so ] && clang -fsanitize=fuzzer,address,undefined -o probe probe.c 2> /dev/null; then
    "$top/c/xkbcommon/names.sh" > folded_names.h
    # shellcheck disable=SC2046
    holds 'the fuzzer is compiled' clang -std=c11 -g -O1 -Wall -Wextra -Werror -fsanitize=fuzzer,address,undefined -fno-sanitize-recover=all -I"$top/include" -I. \
        $(pkg-config --cflags xkbcommon) -o fuzz "$top/c/tests/fuzz.c" "$top"/c/xkbcommon/*.c lib/libxkc.a -ldl -pthread
    cp -R "$top/c/tests/corpus" corpus
    holds 'the fuzzer finds nothing' ./fuzz -max_total_time=10 -timeout=20 -rss_limit_mb=1024 corpus
else
    echo 'library: clang has no libFuzzer, so the fuzzer is left out'
fi

if command -v valgrind > /dev/null; then
    if [ -f xkbcommon ]; then
        holds "libxkbcommon's calls leak nothing" env LD_LIBRARY_PATH=lib valgrind -q --leak-check=full --error-exitcode=9 ./xkbcommon
    fi
    holds 'no call reads or writes elsewhere, or leaks' valgrind -q --leak-check=full --error-exitcode=9 ./calls
    holds 'nor one of sources' named valgrind -q --leak-check=full --track-fds=yes --error-exitcode=9 ./sources "$work/kit"
    holds 'nor where growths are refused' named valgrind -q --leak-check=full --error-exitcode=9 ./growths "$work/kit"
fi
echo "$passed passed, $failed failed"
[ "$failed" -eq 0 ]
