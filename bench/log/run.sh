#!/bin/sh
# Times `gfs2run IMAGE TRACE run` with 9,800 calls (the first of calls/calls.py) on an image of 16,384 blocks of 4096 bytes (64 MiB), with a sync behind
# each hundredth call, with none, and, of 4,900 calls, with one behind each; and, where BEFORE names a program whose run wrote each change to its place at once, without a journal
# (this project's own before it had a log), that with the first script. Prints microseconds a call and blocks written a call, on a file and on a file in memory,
# where /dev/shm is one. The least of five rounds counts. Needs Python 3, 128 MiB in TMPDIR (else /tmp) and GNU date; PROGRAM may name another program than the one
# that is built here.
set -eu
rounds=${ROUNDS:-5}
here=$(cd "$(dirname "$0")" && pwd)
. "$here/../timing.sh" # it goes to a folder of its own
blocks=16384
python3 "$here/../calls/calls.py" all commands source
head -n 9802 all >none
awk '{ print } /^c: / && ++n % 100 == 0 { print "c: sync" }' none >hundred
head -n 4902 all | awk '{ print } /^c: / { print "c: sync" }' >each

memory=''
if [ -d /dev/shm ] && [ -w /dev/shm ]; then
    memory=$(mktemp -d /dev/shm/log.XXXXXX)
    trap 'rm -rf "$work" "$memory"' EXIT
fi

run_script() {
    "$1" "$2" trace run <"$3"
}

# measure NAME PROGRAM SCRIPT CALLS: prints its line; the image is new in each round, and made before the clock runs
measure() {
    file='' kept='' round=0
    while [ $round -lt "$rounds" ]; do
        for image in "$work/image" ${memory:+"$memory/image"}; do
            rm -f "$image"
            truncate -s $((blocks * size)) "$image"
            "$2" "$image" trace mkfs --journals 1 </dev/null >log
            timed run_script "$2" "$image" "$3"
            if [ "$image" = "$work/image" ]; then file=$(least "$file" "$seconds"); else kept=$(least "$kept" "$seconds"); fi
        done
        round=$((round + 1))
    done
    rm -f image
    truncate -s $((blocks * size)) image
    "$2" image trace mkfs --journals 1 </dev/null >log
    written=$(python3 "$here/written.py" "$3" "$2" image trace run)
    awk -v name="$1" -v calls="$4" -v file="$file" -v kept="$kept" -v written="$written" -v size="$size" 'BEGIN {
        printf "%-36s %8.1f %8s %8.2f\n", name, 1e6 * file / calls, kept == "" ? "-" : sprintf("%.1f", 1e6 * kept / calls), written / size / calls
    }'
}

echo "                                     us a call        blocks written"
echo "                                       file   memory   a call"
measure "a sync behind each hundredth call" "$PROGRAM" hundred 9800
measure "a sync behind each call" "$PROGRAM" each 4900
measure "no sync" "$PROGRAM" none 9800
if [ -n "${BEFORE:-}" ]; then
    measure "without a journal, hundred" "$BEFORE" hundred 9800
fi
