#!/bin/sh
# Refuses each growth of memory in turn: of five calls on a desktop's keymap, each of which CASES makes twice, and of the
# tasks of PROGRAM over that keymap. A growth that is refused gives want of memory, no byte of an answer, and no file, or the
# call or task does without it (as for room asked for ahead) and ends whole; and the same call with memory answers as ever. A
# file that is read is never OUT.
#   tests/refused.sh CASES PROGRAM
# Each growth at which it is otherwise is a line, and the last line counts the growths.
set -u
tests=$(cd "$(dirname "$0")" && pwd)
. "$tests/two_programs.sh"
work=$(mktemp -d) || exit 2
trap 'rm -rf "$work"' EXIT
mkdir "$work/files" && cd "$work/files" || exit 2
# (undefined symbols are refused, so that it is made only over a C library that it can stand before)
if ! cc -O2 -fPIC -shared -Wl,-z,defs -o ../refuse.so "$tests/refuse.c" 2> ../err; then
    echo 'left out: growths that are refused, since no cc makes the library that refuses them'
    echo '0 passed, 0 failed'
    exit 0
fi

# refuse COMMAND..: runs a command with its growth of this number refused, which a line `refused` on standard error tells.
refuse() {
    status=0
    REFUSED=$number LD_PRELOAD=$work/refuse.so "$@" < "$input" || status=$?
}

# The answers of a call that say that memory was refused; no byte was written by then.
wants_memory() {
    case $1:$2 in
        'compile:F1 Memory' | 'with_lines:N1 Memory' | start:OutOfMemory) ;;
        'replay:P1 Memory, 0 bytes' | 'session:F1 Memory, 0 bytes' | 'session:P1 Memory, 0 bytes') ;;
        *) return 1 ;;
    esac
}

# judge NAME: what a call printed with a growth refused. Its name comes once all that it is made on is there, and then its two
# answers; the line `refused` stands among these where the growth was.
judge() {
    front=$(sed '/^refused$/,$d' ../out)
    back=$(sed '1,/^refused$/d' ../out)
    if [ -z "$front" ] && [ "$status" -le 1 ]; then
        : # a growth before the call
    elif [ "$status" -ne 0 ]; then
        fails "$1, growth $number: the program ended with status $status"
    elif [ "$front" = "$1" ] && [ "$back" = "$(printf '%s\n' "$whole" "$whole")" ]; then
        passed=$((passed + 1))
        without=$((without + 1))
    elif [ "$front" = "$1" ] && wants_memory "$1" "$(echo "$back" | head -n 1)" &&
        [ "$(echo "$back" | tail -n +2)" = "$whole" ]; then
        passed=$((passed + 1))
    elif [ "$front" = "$(printf '%s\n' "$1" "$whole")" ] && { wants_memory "$1" "$back" || [ "$back" = "$whole" ]; }; then
        : # one of the second time, which shows no more than the same one of the first
    else
        fails "$1, growth $number: printed '$(tr '\n' ' ' < ../out)'; with memory it answers '$whole'"
    fi
}

# call NAME: refuses each growth of a call.
call() {
    "$cases" "$1" < "$input" > ../out 2>&1
    whole=$(sed -n 2p ../out)
    if [ -z "$whole" ] || wants_memory "$1" "$whole" ||
        [ "$(cat ../out)" != "$(printf '%s\n' "$1" "$whole" "$whole")" ]; then
        fails "$1 with memory: printed '$(tr '\n' ' ' < ../out)'"
    fi
    number=0
    before=$passed
    without=0
    while
        number=$((number + 1))
        refuse "$cases" "$1" > ../out 2>&1
        grep -qx refused ../out
    do
        judge "$1"
    done
    [ "$((passed - without))" -gt "$before" ] || fails "$1: no growth of it gave want of memory"
    echo "$1: $((passed - before)) growths, $without of them done without"
}

# How a task ended with a growth refused: the fault alone, `whole` where it did without that growth, and else `wrong`. OUT is
# left alone or whole.
ended() {
    for fault in F1 N1 P1; do
        if [ "$status" -eq 1 ] && echo "$fault Memory" | cmp -s - ../out && [ "$(cat out)" = old ]; then
            echo "$fault"
            return
        fi
    done
    if [ "$status" -eq 0 ] && cmp -s ../out ../whole && cmp -s out ../whole_out; then echo whole; else echo wrong; fi
}

# task FAULTS WORD..: refuses each growth of a task of these words, which then gives one of these faults, and each of them
# somewhere.
task() {
    faults=$1
    shift
    echo old > out
    "$program" "$@" < "$input" > ../whole 2> ../err || fails "xkc $* with memory: status $?"
    cp out ../whole_out
    number=0
    : > ../ends
    while
        number=$((number + 1))
        echo old > out
        refuse "$program" "$@" > ../out 2> ../err
        grep -qx refused ../err
    do
        end=$(ended)
        echo "$end" >> ../ends
        case " $faults whole " in
            *" $end "*) passed=$((passed + 1)) ;;
            *) fails "xkc $*, growth $number: ended with status $status and '$(tail -n 1 ../out)'" ;;
        esac
        [ "$(echo out*)" = out ] || fails "xkc $*, growth $number: more than OUT is left"
    done
    # the first growth that isn't there, so that nothing was refused
    [ "$(ended)" = whole ] || fails "xkc $* behind what was refused: ended with status $status"
    for fault in $faults; do
        grep -qx "$fault" ../ends || fails "xkc $*: no growth gave $fault"
    done
    echo "xkc $*: $(sort ../ends | uniq -c | awk '{ printf "%s%s %s", mark, $1, $2; mark = ", " }')"
}

# keeps FILE WORD..: refuses each growth of a task whose OUT is a file that its source includes, which stays as it is. With
# memory the words are wrong.
keeps() {
    file=$1
    shift
    cp "$file" ../kept
    number=0
    while
        number=$((number + 1))
        refuse "$program" "$@" > ../out 2> ../err
        grep -qx refused ../err
    do
        if [ "$status" -ne 0 ] && cmp -s "$file" ../kept; then
            passed=$((passed + 1))
        else
            fails "xkc $*, growth $number: ended with status $status, and $file isn't as it was"
            cp ../kept "$file"
        fi
    done
    { [ "$status" -eq 2 ] && cmp -s "$file" ../kept; } || fails "xkc $* with memory: status $status"
    echo "xkc $*: $((number - 1)) growths, and $file stays"
}

keymap=$tests/../crates/cases/stdin
input=$keymap
for name in compile with_lines start replay session; do call "$name"; done

printf 'one 0x1001\ntwo 0x1002\n' > names
"$program" compile "$keymap" image > ../out || fails "the desktop's keymap: '$(cat ../out)'"
printf 'down 50\ndown 38\nup 38\nup 50\n' > events
{ cat "$keymap"; echo %%; cat events; } > session
cp "$keymap" keymap
task 'F1 N1' compile --names names keymap out
mkdir -p kit/rules kit/keycodes kit/types kit/compat kit/symbols
printf '! include %%S/more\n! model = keycodes types compat\n * = one one one\n! layout = symbols\n * = %%l\n' > kit/rules/evdev
printf '! option = symbols\n one = +one\n' > kit/rules/more
printf '! layout\n  one  The first\n' > kit/rules/evdev.lst
echo 'xkb_keycodes { <A>=38; };' > kit/keycodes/one
echo 'xkb_types { };' > kit/types/one
echo 'xkb_compat { };' > kit/compat/one
echo 'xkb_symbols { key <A> {[a]}; };' > kit/symbols/one
XKB_CONFIG_ROOT=$PWD/kit
export XKB_CONFIG_ROOT
task F1 compile -I kit --layout one --options one,none out
keeps kit/symbols/one compile -I kit --layout one kit/symbols/one
task F1 list -I kit
task F1 upgrade image out
task F1 print image
task F1 print -I kit --layout one --options one,none
input=events
task 'F1 P1' replay image
input=session
task 'F1 P1' try
echo "$passed passed, $failed failed"
[ "$failed" -eq 0 ]
