#!/bin/sh
# Times `gfs2run IMAGE TRACE show` on an image of 131,072 blocks of 4096 bytes (512 MiB) with 8 journals, of 1,024 blocks
# each, of 2,048 and of 16,000, beside `dd` reading as many blocks as the journals have, which is nearly all that showing
# reads, and says what share of the time that reading is. Where mkfs.gfs2 and fsck.gfs2 (package gfs2-utils) are there, it
# times `fsck.gfs2 -n` on an image of their own of that size, with as many journals of 2,048 blocks, and says how often show
# goes into that; the aim is four times. The least of five rounds counts. Needs 2 GiB in TMPDIR (else /tmp) and GNU date;
# PROGRAM may name another program than the one that is built here.
set -eu
rounds=5
. "$(dirname "$0")/timing.sh"

# best COMMAND..: the least of its seconds over all rounds, in `best`
best() {
    best=''
    round=0
    while [ $round -lt $rounds ]; do
        timed "$@"
        best=$(least "$best" "$seconds")
        round=$((round + 1))
    done
}

show_image() {
    "$PROGRAM" image trace show </dev/null
}

read_blocks() {
    dd if=image of=/dev/null bs=$size count="$1"
}

echo "seconds for an image of 512 MiB with 8 journals"
for journal in 1024 2048 16000; do
    rm -f image
    truncate -s $((blocks * size)) image
    "$PROGRAM" image trace mkfs --bsize $size --journals 8 --journal-blocks $journal </dev/null >log || {
        cat log >&2
        exit 1
    }
    best show_image
    show=$best
    if [ $journal = 2048 ]; then
        beside=$show
    fi
    best read_blocks $((8 * journal))
    awk -v journal=$journal -v show="$show" -v read="$best" 'BEGIN {
        printf "journals of %5d blocks: show %8.3f, dd of as many blocks %8.3f: %3.0f%% of the time\n", journal, show, read, 100 * read / show
    }'
done

fsck=$(PATH=$PATH:/sbin:/usr/sbin command -v fsck.gfs2 || true)
mkfs=$(PATH=$PATH:/sbin:/usr/sbin command -v mkfs.gfs2 || true)
if [ -z "$fsck" ] || [ -z "$mkfs" ]; then
    echo "fsck.gfs2 -n: not measured, gfs2-utils is not installed"
    exit 0
fi
rm -f image
truncate -s $((blocks * size)) image
"$mkfs" -O -j 8 -J 8 -p lock_nolock image >log 2>&1 || {
    cat log >&2
    exit 1
}
check_image() {
    "$fsck" -n image
}
best check_image
awk -v show="$beside" -v check="$best" 'BEGIN {
    printf "fsck.gfs2 -n with journals of 2048 blocks: %8.3f, %.1f times as long as show\n", check, check / show
}'
