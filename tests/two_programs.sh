# For tests over two programs, which their words CASES and PROGRAM name; a script reads it with `.`, before it goes anywhere. Ends
# where one isn't there. Sets `cases` and `program` to their whole paths, and counts tests in `passed` and `failed`.
cases=$(cd "$(dirname "${1-}")" && pwd)/$(basename "${1-}")
program=$(cd "$(dirname "${2-}")" && pwd)/$(basename "${2-}")
for found in "$cases" "$program"; do
    if [ ! -f "$found" ] || [ ! -x "$found" ]; then
        echo "FAILED: there is no program '$found'"
        echo '0 passed, 1 failed'
        exit 1
    fi
done
passed=0
failed=0

# fails WHAT: something is otherwise, on one line.
fails() {
    failed=$((failed + 1))
    printf 'FAILED: %s\n' "$1"
}
