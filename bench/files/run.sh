#!/bin/sh
# Times `gfs2run IMAGE TRACE run` with 64 MiB that are written to one new file and read back, in calls of 16 KiB, on images of blocks
# of 4096 and of 512 bytes, beside `dd` doing the same on a file of its own, and prints MB/s and by how much dd is faster. In blocks
# of 512 bytes it is 60 MiB, since a device has room for no more. gfs2run has each change on the device before it answers the next
# call, so dd is timed with one sync for each 16 KiB, and with one at the end; and gfs2run on a file in memory too, where /dev/shm is
# one. Contents stand in trace and output, two digits for a byte, and go to /dev/null here. Where debugfs and mke2fs are there
# (package e2fsprogs), debugfs copies a file of that size into an ext4 image and out of it. The least of three rounds counts.
# Needs Python 3, 512 MiB in TMPDIR (else /tmp), 192 MiB in /dev/shm and GNU date. PROGRAM may name another program than the one
# that is built here, and a number as the only word means so many MiB and one round.
set -eu
whole=${1:-64}
rounds=3
[ $# = 0 ] || rounds=1
here=$(cd "$(dirname "$0")" && pwd)
. "$here/../timing.sh" # it goes to a folder of its own
PATH=$PATH:/sbin:/usr/sbin

memory=''
if [ -d /dev/shm ] && [ -w /dev/shm ]; then
    memory=$(mktemp -d /dev/shm/files.XXXXXX)
    trap 'rm -rf "$work" "$memory"' EXIT
fi

# The image is new in each round, and made before the clock runs: room for the file, its blocks of pointers and the journal.
new_image() {
    rm -f "$1"
    truncate -s $((mib * 1048576 + 4194304)) "$1"
    [ $size != 512 ] || truncate -s 67108864 "$1"
    "$PROGRAM" "$1" /dev/null mkfs --bsize $size --journal-blocks 512 </dev/null >log || {
        cat log >&2
        exit 1
    }
}

# run IMAGE SCRIPT: every line has to be answered
run() {
    "$PROGRAM" "$1" /dev/null run <"$2" | tail -n 1 >end
    [ "$(cat end)" = "done" ]
}

write_synced() { dd if=/dev/zero of=plain bs=16384 count=$calls oflag=dsync; }
write_plain() { dd if=/dev/zero of=plain bs=16384 count=$calls conv=fdatasync; }
read_plain() { dd if=plain of=/dev/null bs=16384; }

new_other() {
    rm -f other
    truncate -s 128M other
    mke2fs -q -t ext4 -b 4096 other
}
write_other() { debugfs -w -R "write plain a" other; }
read_other() { debugfs -R "dump a /dev/null" other; }

# tell WORDS SECONDS OF-DD
tell() {
    awk -v words="$1" -v seconds="$2" -v dd="$3" -v mib="$mib" 'BEGIN {
        printf "%-44s %8.1f MB/s", words, mib * 1.048576 / seconds
        if (dd != "") printf "   %7.2f times as long as dd", seconds / dd
        printf "\n"
    }'
}

for size in 4096 512; do
    mib=$whole
    [ $size = 4096 ] || [ "$whole" -le 60 ] || mib=60
    calls=$((mib * 64))
    python3 "$here/calls.py" writes reads $mib
    file_w='' file_r='' kept_w='' kept_r='' synced='' plain='' back='' other_w='' other_r='' round=0
    while [ $round -lt $rounds ]; do
        new_image image
        timed run image writes
        file_w=$(least "$file_w" "$seconds")
        timed run image reads
        file_r=$(least "$file_r" "$seconds")
        if [ -n "$memory" ]; then
            new_image "$memory/image"
            timed run "$memory/image" writes
            kept_w=$(least "$kept_w" "$seconds")
            timed run "$memory/image" reads
            kept_r=$(least "$kept_r" "$seconds")
            rm -f "$memory/image"
        fi
        timed write_synced
        synced=$(least "$synced" "$seconds")
        timed write_plain
        plain=$(least "$plain" "$seconds")
        timed read_plain
        back=$(least "$back" "$seconds")
        if command -v debugfs >/dev/null && command -v mke2fs >/dev/null; then
            new_other
            timed write_other
            other_w=$(least "$other_w" "$seconds")
            timed read_other
            other_r=$(least "$other_r" "$seconds")
        fi
        round=$((round + 1))
    done
    [ "$("$PROGRAM" image /dev/null show </dev/null | tail -n 1)" = "done" ] || {
        echo "$script: the image doesn't stand" >&2
        exit 1
    }
    echo "$mib MiB in calls of 16 KiB, blocks of $size bytes"
    tell "gfs2run writes, on a file" "$file_w" "$synced"
    [ -z "$kept_w" ] || tell "gfs2run writes, on a file in memory" "$kept_w" "$plain"
    tell "gfs2run reads, on a file" "$file_r" "$back"
    [ -z "$kept_r" ] || tell "gfs2run reads, on a file in memory" "$kept_r" "$back"
    tell "dd writes, a sync for each call" "$synced" ""
    tell "dd writes, a sync at the end" "$plain" ""
    tell "dd reads" "$back" ""
    if [ -n "$other_w" ]; then
        tell "debugfs writes" "$other_w" "$plain"
        tell "debugfs reads" "$other_r" "$back"
    else
        echo "debugfs: not measured, e2fsprogs is not installed"
    fi
done
