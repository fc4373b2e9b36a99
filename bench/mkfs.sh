#!/bin/sh
# Times `gfs2run IMAGE TRACE mkfs --journals 8` on a device of 131,072 blocks of 4096 bytes (512 MiB), on a fresh sparse
# file and on one that is full of ones, beside `dd` writing as many bytes to a file and bringing them to the device, and
# prints the ratios. The least of three rounds counts. Needs 2 GiB in TMPDIR (else /tmp) and GNU date; PROGRAM may name
# another program than the one that is built here.
set -eu
rounds=3
. "$(dirname "$0")/timing.sh"

make_image() {
    "$PROGRAM" "$1" trace mkfs --bsize $size --journals 8 </dev/null
}

write_file() {
    dd if=/dev/zero of=copy bs="$1" count="$2" conv=fdatasync
}

sparse='' full='' small='' large=''
round=0
while [ $round -lt $rounds ]; do
    rm -f fresh ones copy
    truncate -s $((blocks * size)) fresh
    timed make_image fresh
    sparse=$(least "$sparse" "$seconds")

    tr '\0' '\377' </dev/zero | dd of=ones bs=1M count=$((blocks * size / 1048576)) iflag=fullblock 2>/dev/null
    timed make_image ones
    full=$(least "$full" "$seconds")
    # Both are one image.
    cmp fresh ones

    rm -f ones
    timed write_file $size $blocks
    small=$(least "$small" "$seconds")
    rm -f copy
    timed write_file 1M $((blocks * size / 1048576))
    large=$(least "$large" "$seconds")
    round=$((round + 1))
done

awk -v sparse="$sparse" -v full="$full" -v small="$small" -v large="$large" 'BEGIN {
    print "seconds for 512 MiB, and how many times those of dd with bs=4096 and with bs=1M"
    printf "mkfs, sparse file  %8.3f  %6.2f  %6.2f\n", sparse, sparse / small, sparse / large
    printf "mkfs, file of ones %8.3f  %6.2f  %6.2f\n", full, full / small, full / large
    printf "dd bs=4096         %8.3f\n", small
    printf "dd bs=1M           %8.3f\n", large
}'
