# Sets `top`, an empty folder `work` that goes at the end, and `program`: the proved xkc, or the one that PROGRAM of the environment
# names. For the scripts beside it, which name it as: . "$(dirname "$0")/program.sh"
top=$(cd "$(dirname "$0")/.." && pwd)
program=$(realpath -m "${PROGRAM:-$top/crates/xkc/out/xkc}")
if [ ! -x "$program" ]; then
    echo "$0: there is no program $program: ./xkc --build makes the proved one, and PROGRAM=FILE names another" >&2
    exit 2
fi
work=$(mktemp -d)
trap 'rm -rf "$work"' EXIT
