# shellcheck shell=sh disable=SC2154
# Words that are wrong.

# wrong SHOWN WORD..: the words are wrong, which standard error says, with that text of it and the usage.
wrong() {
    shown=$1
    shift
    gives 2 '' "$@" < session
    holds "xkc $*: standard error shows $shown" grep -qF -e "$shown" ../err
    holds "xkc $*: standard error shows the usage" grep -q '^Usage: xkc' ../err
}

wrong nonsense nonsense
wrong SOURCE compile
wrong OUT compile source
wrong "'kept'" compile kept kept
wrong "'x'" compile source kept x
wrong "'kept'" compile source kept a=kept
wrong "'kept'" compile --names kept source kept
wrong "'kept'" upgrade kept kept
wrong "'a'" try a
wrong "'a=c'" try a=b a=c
wrong KEYMAP print
wrong "'33'" show --group 33 two
wrong "'x'" show --group x two
wrong KEYSYM find two
wrong HEADER names
wrong --quiet print --quiet two
wrong "'some'" try --warn some
wrong "'some'" compile --warn some --quiet source kept
wrong kept dump two kept
wrong 'standard input has the events' replay -
wrong "'a\\377'" compile source "$(printf 'a\377')"
wrong "'0'" show --group 0 two
wrong "'o'" print two o
wrong IMAGE dump
keeps 'words that are wrong' kept

# Words that are well: the first file that they name isn't there.
gives 3 'cannot use nothing' try --names nothing a=b
gives 3 'cannot use nothing' try -I nothing
gives 3 'cannot use nothing' compile nothing out a==b
gives 3 'cannot use nothing' compile -I . --include=. --quiet nothing out
gives 3 'cannot use nothing' compile --warn=all nothing out
gives 3 'cannot use nothing' try --quiet --warn all -I nothing
gives 3 'cannot use nothing' show --group 32 --svg nothing
gives 3 'cannot use nothing' find nothing a
gives 3 'cannot use nothing' names nothing nothing
gives 3 'cannot use nothing' print nothing
gives 3 'cannot use nothing' upgrade nothing out
"$program" --help > ../out 2> ../err
holds 'xkc --help: status 0' [ $? -eq 0 ]
for word in try compile replay print show find list rules names dump upgrade; do
    holds "xkc --help names $word" grep -q "^  $word " ../out
    "$program" "$word" --help > ../help 2> ../err
    holds "xkc $word --help: status 0" [ $? -eq 0 ]
    holds "xkc $word --help shows its usage" grep -q "^Usage: xkc $word" ../help
done
