#!/bin/bash
# Tests of install.sh and release.sh, over stand-ins for what is built, that the man page and the completions say all words of PROGRAM, and that
# the drawing of the house is that of crates.txt: packaging/check.sh PROGRAM. Each failure is a line, and the last line counts.
set -u
top=$(cd "$(dirname "$0")/.." && pwd)
program=$(cd "$(dirname "${1-}")" && pwd)/$(basename "${1-}")
work=$(mktemp -d) || exit 2
trap 'rm -rf "$work"' EXIT
passed=0
failed=0

# holds TEXT COMMAND..: that a command succeeds.
holds() {
    local text=$1
    shift
    if "$@"; then
        passed=$((passed + 1))
    else
        failed=$((failed + 1))
        echo "FAILED: $text"
    fi
}

# ends STATUS WORD..: that install.sh ends so with these words, and says it on the right stream.
ends() {
    local wanted=$1 status=0
    shift
    ./install.sh "$@" > "$work/out" 2> "$work/err" || status=$?
    holds "install.sh $*: status $status, not $wanted" [ "$status" -eq "$wanted" ]
    [ "$wanted" -ne 2 ] || holds "install.sh $*: nothing is said on standard error" [ -s "$work/err" -a ! -s "$work/out" ]
}

files_below() { (cd "$1" && find . ! -type d | sort | tr '\n' ' '); }
holds_files() { holds "files in $1: $(files_below "$1"), not $2" [ "$(files_below "$1")" = "$2" ]; }

# A tree in which the program alone is built, and then the library too.
mkdir -p "$work/tree/crates/xkc/out" "$work/tree/out"
cp -R "$top/install.sh" "$top/LICENSE" "$top/packaging" "$top/include" "$work/tree"
cd "$work/tree" || exit 2
whole='./bin/xkc ./share/bash-completion/completions/xkc ./share/fish/vendor_completions.d/xkc.fish ./share/licenses/xkc/LICENSE '
whole="$whole./share/man/man1/xkc.1 ./share/zsh/site-functions/_xkc "
with_library='./bin/xkc ./include/xkc.h ./lib/libxkc-xkbcommon.so ./lib/libxkc.a ./lib/libxkc.so ./lib/libxkc.so.0 '
with_library="$with_library./lib/pkgconfig/xkc.pc ${whole#./bin/xkc }"

ends 1 "$work/none"
printf '#!/bin/sh\n' > crates/xkc/out/xkc
chmod +x crates/xkc/out/xkc
for word in --bogus -x --prefix=/usr ''; do ends 2 "$work/none" "$word"; done
ends 2 "$work/none" "$work/second"
holds 'something is written where words are refused' [ ! -e "$work/none" ]
ends 0 --help
holds 'install.sh --help says nothing' grep -q DESTDIR "$work/out"
ends 0 "$work/one"
holds_files "$work/one" "$whole"
for name in libxkc.a libxkc.so.0 libxkc-xkbcommon.so; do echo > "out/$name"; done
ends 0 "$work/all"
holds_files "$work/all" "$with_library"
holds 'xkc.pc has another prefix' grep -qx "prefix=$work/all" "$work/all/lib/pkgconfig/xkc.pc"
echo > "$work/all/bin/other"
ends 0 --uninstall "$work/all"
holds_files "$work/all" './bin/other '
DESTDIR=$work/stage ends 0 /usr
holds_files "$work/stage/usr" "$with_library"
holds 'xkc.pc has the prefix with DESTDIR' grep -qx 'prefix=/usr' "$work/stage/usr/lib/pkgconfig/xkc.pc"
DESTDIR=$work/stage ends 0 --uninstall /usr
holds_files "$work/stage" ''

# What release.sh packs, of the commit of a tree of stand-ins, and what it refuses. A stand-in says what objdump says of them.
packs() {
    local wanted=$1 status=0
    shift
    PATH=$work/path:$PATH packaging/release.sh "$@" > "$work/out" 2> "$work/err" || status=$?
    holds "release.sh $*: status $status, not $wanted: $(cat "$work/err")" [ "$status" -eq "$wanted" ]
    [ "$wanted" -eq 0 ] || holds "release.sh $*: nothing is said on standard error" [ -s "$work/err" ]
}
refuses() {
    packs 1 "$work/refused"
    holds "release.sh says nothing of '$1': $(cat "$work/err")" grep -q -- "$1" "$work/err"
}
checked() {
    mkdir -p out
    { echo "tree $1"; echo 'rt ci: 1 passed, 0 failed'; sha256sum crates/xkc/out/xkc; } > out/checked
}
commits() { git add -A && git -c user.name=name -c user.email=name@example.org commit -q -m 'stand-ins'; }
files_of() { dpkg-deb --fsys-tarfile "$work/packed/$1" | tar -t | grep -v '/$' | sort | tr '\n' ' '; }

tries_release() {
    mkdir -p "$work/path" "$work/release"
    cp -R "$top/README.md" "$top/CHANGELOG.md" "$top/LICENSE" "$top/.gitignore" "$top/install.sh" "$top/packaging" "$top/include" "$work/release"
    cd "$work/release" || exit 2
    mkdir -p crates/xkc/out docs c
    cp "$top/docs/c.md" "$top/docs/keyboard.svg" docs
    cp "$top/c/compositor.c" "$top/c/client.c" c
    printf '#!/bin/sh\nfor name in libxkc.a libxkc.so.0 libxkc-xkbcommon.so; do echo "$name" > "$1/$name"; done\n' > c/build.sh
    printf '%s\n' '#!/bin/sh' 'case $1 in' '-T) echo "(GLIBC_2.9) a"; echo "(GLIBC_2.34) b" ;;' \
        '-p) printf "%s\n" " RELRO off 0" " STACK off 0" " flags rw-" "  NEEDED  libc.so.6" "  FLAGS_1  0x8000001" ;;' esac > "$work/path/objdump"
    printf '#!/bin/sh\necho xkc %s\n' "$(sed -n 's/^## //p' CHANGELOG.md | head -n 1)" > crates/xkc/out/xkc
    chmod +x c/build.sh "$work/path/objdump" crates/xkc/out/xkc
    # The record of ./check, whose parts are stand-ins too, and then records by hand.
    mkdir -p tests crates/xkc_c/out crates/cases/out
    cp "$top/check" .
    printf '#!/bin/sh\n[ "$1" = version ] && echo kit logic || echo "2 passed, 0 failed"\n' > "$work/path/rt"
    for part in tests/program.sh tests/chance.sh tests/refused.sh tests/library.sh packaging/check.sh; do
        printf '#!/bin/sh\necho "1 passed, 0 failed"\n' > "$part"
        chmod +x "$part"
    done
    chmod +x "$work/path/rt"
    echo > crates/xkc_c/out/libxkc_c.a
    git init -q . && commits
    PATH=$work/path:$PATH ./check > "$work/out" 2>&1
    holds "./check with stand-ins: $(cat "$work/out")" [ "$(tail -n 1 "$work/out")" = '7 passed, 0 failed' ]
    holds "it says what it took: $(cat "$work/out")" grep -Eqx 'took [0-9]+\.[0-9] minutes, [0-9]+\.[0-9] CPU-minutes, on [0-9]+ processors' "$work/out"
    holds "its record: $(cat out/checked)" [ "$(head -n 3 out/checked | tr '\n' ' ')" = "tree $(git rev-parse 'HEAD^{tree}') kit logic rt ci: 2 passed, 0 failed " ]
    holds 'the record has other sums' sha256sum -c --quiet <(grep '  crates/' out/checked)
    echo > added
    PATH=$work/path:$PATH ./check > /dev/null 2>&1
    holds 'a tree with a new file has a record' [ ! -e out/checked ]
    rm added
    sed -i 's/1 passed, 0 failed/1 passed, 1 failed/' tests/refused.sh
    commits
    PATH=$work/path:$PATH ./check > /dev/null 2>&1
    holds 'a failure leaves a record' [ ! -e out/checked ]
    local version tree
    version=$(crates/xkc/out/xkc | cut -d ' ' -f 2)
    tree=$(git rev-parse 'HEAD^{tree}')
    packs 2 --bogus
    packs 2 one two
    refuses 'no run of ./check has passed'
    checked 0123456789abcdef0123456789abcdef01234567
    refuses 'of another tree'
    checked "$tree"
    echo >> README.md
    refuses 'has changed'
    git checkout -q README.md
    echo > docs/added.md
    refuses 'was added'
    rm docs/added.md
    echo >> crates/xkc/out/xkc
    refuses 'is not what ./check proved'
    checked "$tree"
    holds 'something is packed where release.sh refuses' [ ! -e "$work/refused" -o -z "$(ls "$work/refused")" ]
    packs 0 "$work/packed"
    packs 0 "$work/packed"
    holds_files "$work/packed" "./SHA256SUMS ./libxkc-dev_${version}_amd64.deb ./libxkc0_${version}_amd64.deb ./xkc-$version-linux-x86_64.tar.xz ./xkc_${version}_amd64.deb "
    holds 'the sums are others' eval '(cd "$work/packed" && sha256sum -c --quiet SHA256SUMS)'
    tar -C "$work" -xf "$work/packed/xkc-$version-linux-x86_64.tar.xz"
    local own='./share/doc/xkc/CHANGELOG.md ./share/doc/xkc/LICENSE ./share/doc/xkc/README.md ./share/doc/xkc/c/client.c ./share/doc/xkc/c/compositor.c '
    own="$own./share/doc/xkc/checked ./share/doc/xkc/docs/c.md ./share/doc/xkc/docs/keyboard.svg "
    holds_files "$work/xkc-$version-linux-x86_64" "${with_library%./share/fish*}$own./share/fish${with_library#*./share/fish}"
    local files="$(files_of "xkc_${version}_amd64.deb")" word
    own=${own/LICENSE/copyright}
    for word in ./usr/bin/xkc ./usr/lib/x86_64-linux-gnu/libxkc-xkbcommon.so ./usr/share/man/man1/xkc.1.gz ${own//.\/share/.\/usr\/share}; do
        holds "the package xkc lacks $word: $files" eval '[[ " $files" == *" $word "* ]]'
    done
    files=$(files_of "libxkc0_${version}_amd64.deb")
    holds "files of libxkc0: $files" \
        [ "$files" = './usr/lib/x86_64-linux-gnu/libxkc.so.0 ./usr/share/doc/libxkc0/changelog.gz ./usr/share/doc/libxkc0/copyright ' ]
    holds 'libxkc0 depends on another C library' [ "$(dpkg-deb -f "$work/packed/libxkc0_${version}_amd64.deb" Depends)" = 'libc6 (>= 2.34)' ]
    # Another folder, at another time, by one whose files others can't read.
    (umask 077 && cp -R "$work/release" "$work/again")
    find "$work/again" -exec touch -h -d 2001-02-03 {} +
    cd "$work/again" || exit 2
    PATH=$work/path:$PATH bash -c 'umask 077; packaging/release.sh' > "$work/out" 2>&1
    holds "two runs give other bytes: $(cat "$work/out")" cmp "$work/packed/SHA256SUMS" out/release/SHA256SUMS
    sed -i "0,/^## /s/^## .*/## 9.1.0/" CHANGELOG.md
    commits
    checked "$(git rev-parse 'HEAD^{tree}')"
    refuses "says version 9.1.0"
    sed -i "s/xkc $version/xkc 9.1.0/" crates/xkc/out/xkc packaging/xkc.1
    sed -i "s/^Version: .*/Version: 9.1.0/" packaging/xkc.pc.in
    sed -i 's/XKC_VERSION 0x.*/XKC_VERSION 0x090100u/' include/xkc.h
    commits
    checked "$(git rev-parse 'HEAD^{tree}')"
    packs 0
    holds 'an earlier version is left' [ "$(ls out/release | wc -l)" -eq 5 -a -f "out/release/xkc_9.1.0_amd64.deb" ]
}
if command -v git > /dev/null && command -v dpkg-deb > /dev/null && command -v xz > /dev/null; then
    tries_release
else
    echo 'packaging: there is no git, dpkg-deb or xz, so the tests of release.sh are left out'
fi

# Each command, and each option of it, as the program's help has them.
compopt() { :; }
. "$top/packaging/completions/xkc.bash"
options_of() { "$program" "$1" --help | sed -n 's/^ *\(-[a-zA-Z], \)\{0,1\}\(--[a-z]*\).*/\2/p'; }
offered() {
    COMP_LINE="xkc $1 --" COMP_POINT=$((${#1} + 7)) COMP_WORDS=(xkc "$1" --) COMP_CWORD=2 COMPREPLY=()
    _xkc
    printf '%s\n' "${COMPREPLY[@]}"
}
for command in $("$program" --help | sed -n '/^Commands:/,/^$/s/^  \([a-z]*\) .*/\1/p'); do
    holds "xkc.1 lacks $command" grep -q "^.B xkc $command\$" "$top/packaging/xkc.1"
    holds "_xkc lacks $command" grep -q "'$command:" "$top/packaging/completions/_xkc"
    holds "xkc.fish lacks $command" grep -q -- "-a $command -d" "$top/packaging/completions/xkc.fish"
    [ "$command" = help ] && continue
    for option in $(options_of "$command"); do
        holds "xkc.1 lacks $option" grep -q -- "${option//-/\\\\-}" "$top/packaging/xkc.1"
        holds "_xkc lacks $option" grep -q -- "$option" "$top/packaging/completions/_xkc"
        holds "xkc.fish lacks $option" grep -q -- "-l ${option#--}" "$top/packaging/completions/xkc.fish"
    done
    holds "xkc.bash offers of $command $(offered "$command" | sort | xargs)" \
        [ "$(offered "$command" | sort)" = "$(options_of "$command" | sort)" ]
done
holds 'the house in docs/CONTRIBUTING.md is another' "$top/docs/house.sh" --check

echo "$passed passed, $failed failed"
[ "$failed" -eq 0 ]
