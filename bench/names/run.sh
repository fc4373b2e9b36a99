#!/bin/sh
# Times a thousand names that are made in one directory, by `gfs2run IMAGE TRACE run`: the first thousand after its table was first
# doubled, and the last of 9,900, on images of 16,384 blocks of 512 bytes, and the same of 4096 bytes, where the table stays as it was made.
# The time of a run that only asks for the directory is taken off. Beside it `debugfs -w` (package e2fsprogs) makes as many empty files in an
# ext4 directory that e2fsck has given an htree; blocks there have 1024 bytes at least. Prints microseconds a name, the least of five
# rounds; the aim is that the last take at most 1.5 times as long as the first. Needs 256 MiB in TMPDIR (else /tmp) and GNU date; PROGRAM
# may name another program than the one that is built here.
set -eu
rounds=5
here=$(cd "$(dirname "$0")" && pwd)
. "$here/../timing.sh" # it goes to a folder of its own
blocks=16384
PATH=$PATH:/sbin:/usr/sbin

# names FROM TO: a script that makes these
names() {
    echo 'nodes 1'
    echo 'client c on 1'
    seq -f 'c: create /n%05g' "$1" "$2"
}

# others FROM TO: the same for debugfs
others() {
    seq -f 'write empty n%05g' "$1" "$2"
}

run_script() {
    "$PROGRAM" "$1" trace run <"$2"
}

quietly() {
    "$@" >log 2>&1 || {
        cat log >&2
        exit 1
    }
}

names 1 300 >some
names 301 1300 >first
names 301 8900 >more
names 8901 9900 >last
printf 'nodes 1\nclient c on 1\nc: stat /\n' >ask
others 1 300 >other_some
others 301 1300 >other_first
others 301 8900 >other_more
others 8901 9900 >other_last
: >empty

# of IMAGE SCRIPT: the least time of it on a copy, less that of asking
of() {
    whole='' bare=''
    round=0
    while [ $round -lt $rounds ]; do
        cp "$1" copy
        timed run_script copy ask
        bare=$(least "$bare" "$seconds")
        cp "$1" copy
        timed run_script copy "$2"
        whole=$(least "$whole" "$seconds")
        round=$((round + 1))
    done
    echo "$whole $bare" | awk '{ print ($1 - $2) * 1000 }'
}

of_other() {
    whole=''
    round=0
    while [ $round -lt $rounds ]; do
        cp "$1" copy
        timed debugfs -w -f "$2" copy
        whole=$(least "$whole" "$seconds")
        round=$((round + 1))
    done
    echo "$whole" | awk '{ print $1 * 1000 }'
}

printf '%-32s %8s %8s %6s\n' 'microseconds a name' first last times
for size in 512 4096; do
    truncate -s $((blocks * size)) early
    quietly "$PROGRAM" early trace mkfs --bsize $size --journals 1 --journal-blocks 512 </dev/null
    quietly run_script early some
    cp early late
    quietly run_script late more
    a=$(of early first)
    b=$(of late last)
    echo "$a $b" | awk -v size=$size '{ printf "%-32s %8.0f %8.0f %6.2f\n", "gfs2run, blocks of " size, $1, $2, $2 / $1 }'
    rm -f early late
done
if command -v debugfs >/dev/null; then
    for size in 1024 4096; do
        truncate -s $((blocks * size)) early
        mke2fs -q -t ext4 -O dir_index -b $size -N 12000 early
        quietly debugfs -w -f other_some early
        e2fsck -fyD early >/dev/null 2>&1 || true
        cp early late
        quietly debugfs -w -f other_more late
        e2fsck -fyD late >/dev/null 2>&1 || true
        a=$(of_other early other_first)
        b=$(of_other late other_last)
        echo "$a $b" | awk -v size=$size '{ printf "%-32s %8.0f %8.0f %6.2f\n", "debugfs, blocks of " size, $1, $2, $2 / $1 }'
        rm -f early late
    done
else
    echo 'debugfs: not measured, e2fsprogs is not installed'
fi
