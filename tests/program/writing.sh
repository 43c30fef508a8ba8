# shellcheck shell=sh disable=SC2086,SC2154,SC2012
# How OUT is written: a part beside it first, which then takes its place, so that OUT is never cut.

# writes TASK TEXT: a task of these words and OUT writes the image, and prints this.
writes() {
    # Parts of other runs stand beside OUT, and OUT has permissions of its own.
    echo old > out
    chmod 640 out
    echo old > out.part
    echo old > out.part1
    gives 0 "$2" $1 out
    holds "$1: OUT beside other parts" cmp -s out two
    holds "$1: the permissions of OUT" [ "$(ls -l out | cut -c 1-10)" = -rw-r----- ]
    keeps "$1" out.part
    keeps "$1" out.part1
    holds "$1: nothing more is left beside OUT" [ "$(echo out*)" = 'out out.part out.part1' ]

    # No part can be made.
    for number in '' 1 2 3 4 5 6 7 8 9; do echo old > "out.part$number"; done
    echo old > out
    gives 3 'cannot use out' $1 out
    keeps "$1" out
    rm out.part*
    gives 3 'cannot use no/out' $1 no/out

    # What is no plain file is written into.
    ln -s out link
    gives 0 "$2" $1 link
    holds "$1: a link is written into" cmp -s out two
    holds "$1: a link stays one" [ -L link ]
    rm link
    gives 0 "$2" $1 /dev/null
}

# is_whole TASK: OUT stays as it was where it can't be written, and where the run is killed as it writes. (Of a file that
# may have no bytes the system refuses each write, or ends the program, where the signal for that isn't ignored.)
is_whole() {
    echo old > out
    line=$(trap '' XFSZ; ulimit -f 0; exec "$program" $1 out 2> /dev/null)
    holds "$1: status 3 where no file can be written" [ $? -eq 3 ]
    holds "$1: what is said where no file can be written" [ "$line" = 'cannot use out' ]
    keeps "$1: no file can be written" out
    holds "$1: a part that can't be written is removed" [ "$(echo out*)" = out ]
    { line=$(ulimit -f 0; exec "$program" $1 out 2> /dev/null); } 2> /dev/null
    keeps "$1: the run was killed" out
    "$program" $1 out > ../out 2> ../err
    holds "$1: OUT behind a run that was killed" cmp -s out two
    rm -f out out.part
}

for task in 'compile source' 'upgrade one'; do
    case $task in
        compile*) writes "$task" "$notes" ;;
        *) writes "$task" '' ;;
    esac
    is_whole "$task"
done
