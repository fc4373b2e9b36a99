# What the scripts of this folder share, which read it from their first lines on: the program, a folder of their own to work in,
# and the clock. PROGRAM may name another program than the one that is built here. Needs GNU date.
blocks=131072
size=4096
script=$0
top=$(cd "$(dirname "$0")" && while ! [ -f crates.txt ]; do cd ..; done && pwd)

if [ -z "${PROGRAM:-}" ]; then
    (cd "$top/crates/gfs2run" && rt run >/dev/null 2>&1) || true
    PROGRAM=$top/crates/gfs2run/out/gfs2run
fi
if ! [ -x "$PROGRAM" ]; then
    echo "The program could not be built: see 'rt run' in crates/gfs2run." >&2
    exit 1
fi

work=$(mktemp -d)
trap 'rm -rf "$work"' EXIT
cd "$work"

# timed COMMAND..: its seconds, in `seconds`; where it fails, the script ends with what it said
timed() {
    sync
    begin=$(date +%s.%N)
    "$@" >log 2>&1 || {
        cat log >&2
        echo "$script: '$*' ended with a fault" >&2
        exit 1
    }
    seconds=$(echo "$begin $(date +%s.%N)" | awk '{ printf "%.3f", $2 - $1 }')
}

# least ONE OTHER: the lesser of two times, of which the first may be missing
least() {
    awk -v a="$1" -v b="$2" 'BEGIN { print (a == "" || b + 0 < a + 0) ? b : a }'
}
