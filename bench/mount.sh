#!/bin/sh
# Times `gfs2run IMAGE TRACE run` with a script of one call, which is nearly all mounting, and says how much memory it takes at
# most, on an image of 131,072 blocks of 4096 bytes (512 MiB): a new one, and with a hashed master directory of 1,024 leaves, of
# 32,768 and of as many as there are blocks for, beside `dd` reading as many blocks, one by one. The least of five rounds counts.
# Needs 1 GiB in TMPDIR (else /tmp), python3, GNU date and GNU time; PROGRAM may name another program than the one that is built
# here.
set -eu
rounds=5
here=$(cd "$(dirname "$0")" && pwd)
. "$(dirname "$0")/timing.sh"

cat >script <<'END'
nodes 1
client c on 1
c: list /
END

mount_image() {
    /usr/bin/time -f %M -o memory "$PROGRAM" image trace run <script
}

read_blocks() {
    dd if=image of=/dev/null bs=$size count="$1"
}

# best COMMAND..: the least of its seconds over all rounds, in `best`
best() {
    best=''
    round=0
    while [ $round -lt $rounds ]; do
        timed "$@"
        best=$(least "$best" "$seconds")
        round=$((round + 1))
    done
}

echo "seconds and memory for an image of 512 MiB"
for wanted in none 1024 32768 all; do
    rm -f image
    truncate -s $((blocks * size)) image
    "$PROGRAM" image trace mkfs --bsize $size --journals 1 --journal-blocks 512 </dev/null >log || {
        cat log >&2
        exit 1
    }
    case $wanted in
    none) leaves=0 ;;
    all) leaves=$(python3 "$here/mount.py" image $blocks) ;;
    *) leaves=$(python3 "$here/mount.py" image $blocks "$wanted") ;;
    esac
    best mount_image
    mount=$best
    best read_blocks $((512 + leaves))
    awk -v leaves="$leaves" -v mount="$mount" -v read="$best" -v memory="$(tail -n 1 memory)" 'BEGIN {
        printf "%6d leaves: %7.3f, %5.1f MB at most; dd of as many blocks %7.3f\n", leaves, mount, memory / 1024, read
    }'
done
