# shellcheck shell=sh disable=SC2154
# What standard error says of a source: the lines of messages.cases, whose head says how they are read, and of mistakes.cases.

# Each line that wants something becomes a folder messages/N, with the source a.xkb, the files that are handed in, their names in
# a list, and what is wanted. Numbers, words and lines stand in messages/list.
mkdir messages
LC_ALL=C awk -v folder=messages '
    # The byte of two hexadecimal digits.
    function byte(digits) {
        return sprintf("%c", 16 * (index("0123456789abcdef", substr(digits, 1, 1)) - 1) + index("0123456789abcdef", substr(digits, 2, 1)) - 1)
    }
    # `\n` and `\r` are the ends of lines, `\x` and two digits a byte.
    function unescaped(text,    all, at, sign) {
        while ((at = index(text, "\\")) > 0) {
            sign = substr(text, at + 1, 1)
            all = all substr(text, 1, at - 1)
            if (sign == "n") all = all "\n"
            else if (sign == "r") all = all "\r"
            else if (sign == "x") all = all byte(substr(text, at + 2, 2))
            text = substr(text, at + (sign == "x" ? 4 : 2))
        }
        return all text
    }
    # A piece so often as the number before it says, in which each # is the number of the repeat, from 0.
    function pieces(text,    all, at, count, number, parts, part, found) {
        at = index(text, " ")
        count = substr(text, 1, at - 1) + 0
        parts = split(substr(text, at + 1), found, "#")
        for (number = 0; number < count; number++) {
            all = all found[1]
            for (part = 2; part <= parts; part++) all = all number found[part]
        }
        return all
    }
    # The same of each part between `{*` and `*}`; what stands round them stands once. Without such a part all is one.
    function repeated(text,    all, at) {
        if (!index(text, "{*")) return pieces(text)
        while ((at = index(text, "{*")) > 0) {
            all = all substr(text, 1, at - 1)
            text = substr(text, at + 2)
            at = index(text, "*}")
            all = all pieces(substr(text, 1, at - 1))
            text = substr(text, at + 2)
        }
        return all text
    }
    function framed(text) {
        return substr(frame, 1, index(frame, "@") - 1) text substr(frame, index(frame, "@") + 1)
    }
    function write(path, text) {
        printf "%s", text > path
        close(path)
    }
    function want(    room, place, names) {
        room = folder "/" ++wanted
        for (place = 1; place <= files; place++) {
            names = names file_name[place] "\n"
            system("mkdir -p $(dirname " room "/" file_name[place] ")")
            write(room "/" file_name[place], file_text[place])
        }
        system("mkdir -p " room)
        write(room "/names", names)
        write(room "/a.xkb", source)
        write(room "/wanted", text == "" ? "" : text "\n")
        print wanted, word, line > (folder "/list")
    }
    # Does what a line says, once all that goes on with it is there.
    function end() {
        if (text ~ /^`.*`$/) text = substr(text, 2, length(text) - 2)
        if (word == "frame") frame = text
        else if (word == "source") source = framed(text)
        else if (word == "escaped") source = framed(unescaped(text))
        else if (word == "repeat") source = framed(repeated(text))
        else if (word == "no-files") files = 0
        else if (word == "file") {
            file_name[++files] = substr(text, 1, index(text, ": ") - 1)
            file_text[files] = substr(text, index(text, ": ") + 2)
        } else if (word != "") want()
        word = ""
    }
    /^\|/ { text = text "\n" substr($0, 3); next }
    /^#/ || /^$/ { next }
    { end(); line = FILENAME ":" FNR; sub(/.*\//, "", line); word = $1; text = substr($0, length($1) + 2) }
    END { end() }' "$tests/program/messages.cases" "$tests/program/mistakes.cases"

while read -r number word line; do
    cd "messages/$number" || exit 2
    set --
    while read -r name; do set -- "$@" "$name=$name"; done < names
    "$program" compile a.xkb out "$@" > told 2> said || :
    case $word in
        says) if [ -s said ]; then head -n 1 said | sed 's/^.*: error: //'; else echo taken; fi > found ;;
        shows | warns) cp said found ;;
        *) echo "no word of these cases: $word" > found ;;
    esac
    holds "$line: $word: wanted '$(cat wanted)', found '$(cat found)'" cmp -s found wanted
    cd ../..
done < messages/list
holds 'each line of messages.cases and mistakes.cases was read' [ "$(wc -l < messages/list)" -eq "$(cat "$tests/program/messages.cases" "$tests/program/mistakes.cases" | grep -cE '^(says|shows|warns) ')" ]
