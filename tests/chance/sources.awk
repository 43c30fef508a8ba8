# Writes sources by chance, to the rules of a file: the source N to the file DIRECTORY/N, for each N from 1 to COUNT.
#   awk -v count=COUNT -v directory=DIRECTORY -f sources.awk sources.rules

# The next number by chance, below a limit (the generator of Lehmer, whose products a number of awk holds exactly).
function below(limit) {
    state = (state * 16807) % 2147483647
    return int(state / 2147483647 * limit)
}

function write_text(text, file,    place, letter, chosen) {
    while ((place = index(text, "$")) > 0) {
        letter = substr(text, place + 1, 1)
        if (!(letter in counts)) {
            print "no rule tells what $" letter " stands for" > "/dev/stderr"
            exit 1
        }
        chosen = choices[letter, below(counts[letter])]
        printf "%s", substr(text, 1, place - 1) > file
        text = chosen substr(text, place + 2)
    }
    print text > file
}

/^#/ { next }
{
    letter = substr($0, 1, 1)
    choices[letter, counts[letter]++] = substr($0, 3)
}

END {
    state = 1
    for (number = 1; number <= count; number++) {
        file = directory "/" number
        write_text("$K", file)
        close(file)
    }
}
