#!/bin/sh
# Times `gfs2run IMAGE TRACE replay` on an image of 131,072 blocks of 4096 bytes (512 MiB) with 8 journals of 1,024 blocks that are full of live
# blocks (replay.py lays them), less the time of one that finds the journals clean, which is that of mounting; beside `dd` writing as many blocks, with one sync at the end, and in pieces of 512
# that are synced, as a replay writes. Reading the journals is told too: a replay reads each place twice, in mounting and for its plan. On a file in TMPDIR (else
# /tmp), and in memory (/dev/shm). The least of five rounds counts. Needs 2 GiB in each, Python 3 and GNU date; PROGRAM may name another program than
# the one that is built here.
set -eu
rounds=5
here=$(cd "$(dirname "$0")" && pwd)
. "$here/timing.sh" # it goes to a folder of its own
memory=$(mktemp -d -p /dev/shm)
trap 'rm -rf "$work" "$memory"' EXIT

best() {
    best=''
    round=0
    while [ $round -lt $rounds ]; do
        if [ -n "$before" ]; then
            cp --sparse=always "$before" "$folder/image"
        fi
        timed "$@"
        best=$(least "$best" "$seconds")
        round=$((round + 1))
    done
}

replay_image() {
    "$PROGRAM" "$folder/image" trace replay </dev/null
}

write_blocks() {
    dd if="$folder/blocks" of="$folder/image" bs=$size conv=notrunc,fdatasync
}

write_pieces() {
    dd if="$folder/blocks" of="$folder/image" bs=$((512 * size)) conv=notrunc oflag=dsync
}

read_journals() {
    dd if="$folder/dirty" of=/dev/null bs=$size count=$((8 * 1024))
}

for folder in "$work" "$memory"; do
    truncate -s $((blocks * size)) "$folder/dirty"
    "$PROGRAM" "$folder/dirty" trace mkfs --bsize $size --journals 8 --journal-blocks 1024 </dev/null >log || {
        cat log >&2
        exit 1
    }
    live=$(python3 "$here/replay.py" "$folder/dirty")
    head -c $((live * size)) /dev/urandom >"$folder/blocks"
    before=$folder/dirty
    best replay_image
    whole=$best
    before=''
    best replay_image
    bare=$best
    best write_blocks
    wrote=$best
    best write_pieces
    pieces=$best
    best read_journals
    awk -v folder="$folder" -v live="$live" -v whole="$whole" -v bare="$bare" -v wrote="$wrote" -v pieces="$pieces" -v journals="$best" 'BEGIN {
        printf "%s, %d live blocks:\n", folder ~ /shm/ ? "in memory" : "on a file", live
        printf "replay %.3f, of clean journals %.3f, so %.3f for what is live\n", whole, bare, whole - bare
        printf "dd writes as many blocks: %.3f with one sync, %.1f times that; %.3f in pieces of 512, %.1f times that\n", wrote, (whole - bare) / wrote, pieces, (whole - bare) / pieces
        printf "dd reads as many blocks as the journals have: %.3f\n", journals
    }'
done
