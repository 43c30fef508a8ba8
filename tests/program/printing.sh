# shellcheck shell=sh disable=SC2154
# Standard output that can't be written.

# unwritten WORD..: the program ends with status 3, where standard output is closed, and where it is full.
unwritten() {
    status=0
    "$program" "$@" < "$input" >&- 2> ../err || status=$?
    holds "xkc $*: status 3 at a closed output" [ "$status" -eq 3 ]
    [ "$full" ] || return
    status=0
    "$program" "$@" < "$input" > /dev/full 2> ../err || status=$?
    holds "xkc $*: status 3 at a full output" [ "$status" -eq 3 ]
}

full=
if [ -c /dev/full ]; then
    full=yes
    gives 3 'cannot use /dev/full' compile source /dev/full
    gives 3 'cannot use /dev/full' upgrade one /dev/full
else
    echo 'left out: a full output, since there is no /dev/full'
fi
input=session
unwritten
unwritten try
unwritten print two
unwritten dump two
unwritten show two
unwritten find two a
unwritten compile source out
holds 'OUT is whole where standard output is not' cmp -s out two
unwritten --help
unwritten --version
input=events
unwritten replay two
