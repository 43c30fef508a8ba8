# shellcheck shell=sh disable=SC2154
# Files and standard input that can't be read.
for task in print dump replay; do
    gives 3 'cannot use nothing' "$task" nothing < events
    gives 3 'cannot use .' "$task" . < events
done
gives 3 'cannot use nothing' upgrade nothing kept
gives 3 'cannot use nothing' compile nothing kept
gives 3 'cannot use nothing' compile source kept map=nothing
gives 3 'cannot use nothing' compile --names nothing source kept
keeps 'files that can not be read' kept
for task in print dump; do
    gives 3 'cannot use /dev/stdin' "$task" /dev/stdin < .
    gives 3 'cannot use /dev/stdin' "$task" /dev/stdin <&-
done
gives 3 'P4 Read' < .
gives 3 'P4 Read' try < .
gives 3 'P4 Read' replay two < .
gives 3 'P4 Read' <&-
gives 3 'P4 Read' try <&-
gives 3 'P4 Read' replay two <&-
head -c 67108865 /dev/zero | tr '\0' '\n' > long
gives 3 'P4 Read' replay two < long
rm long

# In which order files are read: names, then the source or the image, then what it may include; the first that fails is told.
gives 3 'cannot use no/n' compile --names no/n no/s no/o a=no/a
gives 3 'cannot use no/s' compile --names /dev/null no/s no/o a=no/a
gives 3 'cannot use no/a' compile /dev/null no/o a=no/a b=no/b
gives 1 'N2 LineShape 1' compile --names /proc/version no/s no/o
gives 1 'F6 Syntax at 0:0-0' compile /dev/null no/o
gives 3 'cannot use no/n' replay --names no/n no/i
gives 3 'cannot use no/n' try --names no/n a=no/a
for task in replay print dump; do
    gives 1 'I1 Truncated' "$task" /dev/null
    gives 3 'cannot use no/i' "$task" no/i
done
gives 1 'I1 Truncated' upgrade /dev/null no/o
