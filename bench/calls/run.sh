#!/bin/sh
# Times `gfs2run IMAGE TRACE run` with 9,930 calls (calls.py says which) on an image of 16,384 blocks of 4096 bytes (64 MiB), beside
# `debugfs -w` (package e2fsprogs) doing the same on an ext4 image of that size, and prints microseconds a call; the aim is less than
# debugfs's. Both keep changes in memory, gfs2run until its log has no room or it unmounts, debugfs until it ends. gfs2run is timed on a file
# in memory too, where /dev/shm is one. log/run.sh has the same calls with syncs. The least of five rounds counts. Needs Python 3, 256 MiB
# in TMPDIR (else /tmp) and GNU date; PROGRAM may name another program than the one that is built here.
set -eu
rounds=5
here=$(cd "$(dirname "$0")" && pwd)
. "$here/../timing.sh" # it goes to a folder of its own
blocks=16384
python3 "$here/calls.py" script commands source
calls=$(($(wc -l <script) - 2))

# The image is new in each round, and made before the clock runs.
new_image() {
    rm -f "$1"
    truncate -s $((blocks * size)) "$1"
    "$PROGRAM" "$1" trace mkfs --journals 1 </dev/null >log || {
        cat log >&2
        exit 1
    }
}

run_script() {
    "$PROGRAM" "$1" trace run <script
}

new_other() {
    rm -f other
    truncate -s $((blocks * size)) other
    mke2fs -q -t ext4 -b $size -N 4096 other
}

run_other() {
    debugfs -w -f commands other
}

memory=''
if [ -d /dev/shm ] && [ -w /dev/shm ]; then
    memory=$(mktemp -d /dev/shm/calls.XXXXXX)
    trap 'rm -rf "$work" "$memory"' EXIT
fi
other=$(PATH=$PATH:/sbin:/usr/sbin command -v debugfs || true)
PATH=$PATH:/sbin:/usr/sbin

file='' kept='' beside='' round=0
while [ $round -lt $rounds ]; do
    new_image image
    timed run_script image
    file=$(least "$file" "$seconds")
    if [ -n "$memory" ]; then
        new_image "$memory/image"
        timed run_script "$memory/image"
        kept=$(least "$kept" "$seconds")
    fi
    if [ -n "$other" ]; then
        new_other
        timed run_other
        beside=$(least "$beside" "$seconds")
    fi
    round=$((round + 1))
done
[ "$("$PROGRAM" image trace show </dev/null | tail -n 1)" = "done" ] || {
    echo "$script: the image doesn't stand" >&2
    exit 1
}

awk -v calls="$calls" -v file="$file" -v kept="$kept" -v beside="$beside" 'BEGIN {
    printf "%d calls, microseconds a call\n", calls
    printf "gfs2run on a file           %8.1f\n", 1e6 * file / calls
    if (kept != "") printf "gfs2run on a file in memory %8.1f\n", 1e6 * kept / calls
    if (beside != "") printf "debugfs on a file           %8.1f\n", 1e6 * beside / calls
    else print "debugfs: not measured, e2fsprogs is not installed"
}'
