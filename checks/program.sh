#!/bin/sh
# Runs the built program on real files in the cases that no proof reaches: what the system refuses, cuts off or closes.
# Ends with status 0 where each case ends as it should. Needs Python 3 for the image; says so and skips without it. Tries
# images of mkfs.gfs2 too, where it is installed.
set -eu
cd "$(dirname "$0")/.."
here=$PWD

if ! command -v python3 >/dev/null; then
    echo "checks/program.sh: skipped, no python3"
    exit 0
fi
program=$PWD/crates/gfs2run/out/gfs2run
# The gate has just built it; where a source is newer it is built again, with proof.
if ! [ -x "$program" ] || [ -n "$(find crates/*/src -name '*.rt' -newer "$program" | head -n 1)" ]; then
    (cd crates/gfs2run && rt run >/dev/null 2>&1) || true
fi
if ! [ -x "$program" ]; then
    echo "checks/program.sh: skipped, the program is not built here"
    exit 0
fi

folder=$(mktemp -d)
trap 'rm -rf "$folder"' EXIT
python3 checks/image.py "$folder/image"
cd "$folder"
cp image before
printf 'nodes 1\nclient c on 1\nc: read /a 0 5\n' >script
failed=0

# check NAME STATUS LAST-LINE: the case that was run left its status in `status` and its output in `out`
check() {
    last=$(tail -n 1 out)
    if [ "$status" != "$2" ] || [ "$last" != "$3" ]; then
        echo "checks/program.sh: $1: status $status, last line '$last'; wanted $2, '$3'" >&2
        failed=1
    fi
}

run() {
    status=0
    "$program" "$@" >out 2>/dev/null || status=$?
}

# new SIZE BLOCKS JOURNALS JOURNAL-BLOCKS GROUPS TIME UUID: mkfs makes what checks/new_image.py makes
new() {
    truncate -s $(($1 * $2)) made
    if wanted=$(python3 "$here/checks/new_image.py" wanted "$@"); then
        line="done" number=0
    else
        line="too small: needed $wanted blocks, found $2" number=11
        truncate -s $(($1 * $2)) wanted
    fi
    run made trace mkfs --bsize "$1" --journals "$3" --journal-blocks "$4" --groups "$5" --time "$6" --uuid "$7"
    check "mkfs $*" "$number" "$line"
    cmp -s made wanted || {
        echo "checks/program.sh: mkfs $*: the image is another" >&2
        failed=1
    }
    rm -f made wanted
}

none=00000000000000000000000000000000
new 4096 538 1 512 1 0 $none
new 4096 537 1 512 1 0 $none
new 512 20000 3 3000 7 9 0123456789abcdef0123456789abcdef
new 1024 30000 8 2500 64 1700000000 $none
new 2048 5000 2 1024 40 0 $none
new 4096 3001 2 1024 41 0 $none

run image trace run <script
check "a run" 0 "done"
[ "$(cat trace)" = "$(printf 'join 1\ncall 1 c 1 read /a 0 5 = data 68656c6c6f\nunmount 1')" ] || {
    echo "checks/program.sh: the trace of a run" >&2
    failed=1
}
run --help
check "help" 0 "  --version    prints the version"
run --version
check "version" 0 "gfs2run 0.1.0"
run
check "no words" 1 "usage: word 1"
run image
check "no trace" 1 "usage: word 1"
run image trace
check "no command" 1 "usage: word 1"
run image trace walk <script
check "no such command" 1 "usage: word 1"
run absent trace run <script
check "no image" 12 "cannot open absent"
mkdir dir
run dir trace run <script
check "an image that is a folder" 12 "cannot open dir"
run image none/trace run <script
check "a trace that cannot be made" 12 "cannot open none/trace"
run absent none/trace run <script
check "the image is tried first" 12 "cannot open absent"
: >empty
run empty trace run <script
check "an empty image" 4 "damaged: block 16 rule 1"
head -c 100000 image >short
run short trace run <script
check "an image cut off within its journal" 4 "damaged: block 20 rule 18"
head -c 70000 image >part
run part trace run <script
check "an image that ends within a block" 4 "damaged: block 16 rule 2"
run part trace show
check "a show of it" 4 "damaged: block 16 rule 2"
[ "$(wc -l <out)" = 1 ] || {
    echo "checks/program.sh: a show that is not done has more than one line" >&2
    failed=1
}
run image trace show --bsize 512
check "an option of show" 1 "usage: word 2"
run image trace show </dev/null
check "a show" 0 "done"
printf 'journal 0 clean\ndir /\nfile /a 5 3610a686\ndone\n' >wanted
cmp -s out wanted || {
    echo "checks/program.sh: what is shown of an image with a file" >&2
    failed=1
}
[ ! -s trace ] || {
    echo "checks/program.sh: a show left a trace" >&2
    failed=1
}
run image trace show <&-
check "a show with a closed standard input" 0 "done"
truncate -s 2203648 fresh
run fresh trace mkfs --journal-blocks 512
run fresh trace show
check "a show of a new image" 0 "done"
printf 'journal 0 clean\ndir /\ndone\n' | cmp -s - out || {
    echo "checks/program.sh: what is shown of a new image" >&2
    failed=1
}
run image trace run --bsize 512 <script
check "an option of another command" 1 "usage: word 2"
run image trace run <&-
check "a closed standard input" 2 "script: line 1 column 1"
"$program" image trace run <script >&- 2>/dev/null && status=0 || status=$?
echo >out
check "a closed standard output" 7 ""
{ cat script; sleep 1; printf 'c: list /\n'; } | "$program" image trace run >out && status=0 || status=$?
check "a script that comes in pieces" 0 "done"
{ "$program" image trace run <script || echo $? >code; } | sh -c 'exec <&-; sleep 1'
echo >out
status=$(cat code 2>/dev/null || echo 0)
check "a closed pipe as standard output" 7 ""
"$program" image trace run <script >/dev/full 2>/dev/null && status=0 || status=$?
echo >out
check "an output that is full" 7 ""
run image /dev/full run <script
check "a trace that is full" 7 "trace fault: count 0 to 1"

# Words and names that are no text. A word of the command that is none is a wrong one; std opens no file by such a name.
bad=$(printf 'a\377b')
run image trace "$bad" <script
check "a command that is no text" 1 "usage: word 1"
run image trace run --time "$bad" <script
check "a value that is no text" 1 "usage: word 3"
run image trace run "$bad" 5 <script
check "an option that is no text" 1 "usage: word 2"
run "$bad"
check "a single word that is no text" 1 "usage: word 1"
cp image "$bad"
run "$bad" trace show
check "an image whose name is no text" 12 "cannot open $bad"
run image "$bad" show
check "a trace whose name is no text" 12 "cannot open $bad"
cmp -s image "$bad" || {
    echo "checks/program.sh: a file whose name is no text was changed" >&2
    failed=1
}
rm -f "$bad"
mkdir ünder
cp image ünder/bild
run ünder/bild ünder/spur show
check "names that are text, and not ASCII" 0 "done"

# A trace that is the image, by its name, by a link, and by a second name. Nothing is emptied.
cp image same
ln -s same link
ln same second
for name in same ./same link second; do
    run same "$name" run <script
    check "a trace that is the image, as $name" 12 "cannot open $name"
done
run link second mkfs --journal-blocks 512
check "an image and a trace that are one file" 12 "cannot open second"
cmp -s same before || {
    echo "checks/program.sh: an image that was given as the trace too was changed" >&2
    failed=1
}
printf 'what stood here before is longer than the trace of a run that follows, which is to replace the whole of it\n\n\n' >trace
run image trace run <script
check "a run over an older trace" 0 "done"
[ "$(head -n 1 trace)" = "join 1" ] && [ "$(wc -l <trace)" = 3 ] || {
    echo "checks/program.sh: an older trace was not emptied" >&2
    failed=1
}

# An image that may only be read is shown, and nothing else. Root may write everything, so root tries as another.
as=''
if [ "$(id -u)" = 0 ]; then
    if command -v setpriv >/dev/null; then
        as='setpriv --reuid=65534 --regid=65534 --clear-groups'
    else
        as=none
        echo "checks/program.sh: no image tried that may only be read: root may write all, and setpriv is not here"
    fi
fi
if [ "$as" != none ]; then
    chmod 755 "$folder"
    mkdir open
    chmod 777 open
    cp "$program" open/program
    cp image script open
    chmod 444 open/image
    for words in "show" "run" "mkfs --journal-blocks 512"; do
        status=0
        # shellcheck disable=SC2086
        (cd open && $as ./program image trace $words <script >../out 2>/dev/null) || status=$?
        case $words in
        show) check "a show of an image that may only be read" 0 "done" ;;
        *) check "$words on an image that may only be read" 12 "cannot open image" ;;
        esac
    done
    cmp -s image open/image || {
        echo "checks/program.sh: an image that may only be read was changed" >&2
        failed=1
    }
fi

# What blocks stand on is a file or a block device. A pipe with nobody at its other end is not waited for.
mkfifo pipe
for name in pipe /dev/null /dev/zero; do
    for words in "show" "run" "mkfs --bsize 512"; do
        status=0
        # shellcheck disable=SC2086
        timeout 20 "$program" "$name" trace $words <script >out 2>/dev/null || status=$?
        check "$words on $name" 12 "cannot open $name"
    done
done
truncate -s 4M whole
if loop=$(losetup --find --show whole 2>/dev/null); then
    run "$loop" trace mkfs --journal-blocks 512
    check "mkfs on a block device" 0 "done"
    run "$loop" trace show
    check "a show of a block device" 0 "done"
    run "$loop" "$loop" show
    check "a trace that is the image's block device" 12 "cannot open $loop"
    losetup --detach "$loop"
    truncate -s 4M file
    run file trace mkfs --journal-blocks 512
    cmp -s whole file || {
        echo "checks/program.sh: a block device got another image than a file of its length" >&2
        failed=1
    }
else
    echo "checks/program.sh: no block device tried, none can be made here"
fi

# What the program says itself, onto an output that is full or closed: it ends with 7, and says nothing elsewhere.
quiet() {
    if [ "$status" != 7 ] || [ -s faults ]; then
        echo "checks/program.sh: $1: status $status, faults '$(cat faults)'; wanted 7 and none" >&2
        failed=1
    fi
}
for words in "--help" "--version" "absent trace run" "image none/trace run" "image"; do
    status=0
    # shellcheck disable=SC2086
    "$program" $words >/dev/full 2>faults <script || status=$?
    quiet "$words onto an output that is full"
    status=0
    # shellcheck disable=SC2086
    "$program" $words >&- 2>faults <script || status=$?
    quiet "$words onto a closed output"
done

# Input that does not wait, with nothing there yet, is a fault.
python3 - "$program" <<'PYTHON' >out && status=0 || status=$?
import os, subprocess, sys
reading, _writing = os.pipe()
os.set_blocking(reading, False)
sys.exit(subprocess.run([sys.argv[1], "image", "trace", "run"], stdin=reading).returncode)
PYTHON
check "input that does not wait" 6 "script fault: count 0 to 1"

# The bits of a mode above the low 16 say nothing of the type of a file, here of all that the root leads to.
python3 - <<'PYTHON'
import struct
image = bytearray(open("image", "rb").read())
for at in range(0, len(image), 4096):
    if struct.unpack(">II", image[at : at + 8]) == (0x01161970, 4):
        image[at + 40 : at + 42] = b"\xff\xff"
open("marked", "wb").write(image)
PYTHON
run image trace show
mv out plain
run marked trace show
check "a show of an image with bits above the modes" 0 "done"
cmp -s out plain || {
    echo "checks/program.sh: bits above the modes change what is shown" >&2
    failed=1
}
run marked trace run <script
check "a run on it" 0 "done"

# Images of the distribution's mkfs.gfs2, where it is there: of another format than is handled, and with system files that are
# left out here. They are refused, and stay as they were.
if mkfs=$(PATH=$PATH:/sbin:/usr/sbin command -v mkfs.gfs2); then
    truncate -s 32M real
    "$mkfs" -O -p lock_nolock -j 1 -J 8 real >/dev/null 2>&1
    cp real kept
    run real trace show
    check "a show of an image of mkfs.gfs2" 3 "not profile: fs_format 1802"
    run real trace run <script
    check "a run on an image of mkfs.gfs2" 3 "not profile: fs_format 1802"
    cmp -s real kept || {
        echo "checks/program.sh: an image of mkfs.gfs2 was changed" >&2
        failed=1
    }
    "$mkfs" -O -p lock_nolock -j 1 -J 8 -o format=1801 real >/dev/null 2>&1
    other=$(python3 "$here/checks/first_other.py" real)
    run real trace show
    check "a show of one of the older format" 3 "not profile: master $other"
else
    echo "checks/program.sh: no image of mkfs.gfs2 tried, gfs2-utils is not installed"
fi

# Calls that change the tree, one run after another on one file.
truncate -s $((4096 * 600)) tree
run tree trace mkfs --journal-blocks 512
check "mkfs of an image with free blocks" 0 "done"
printf 'nodes 1\nclient c on 1\nc: mkdir /d\nc: create /d/a\nc: write /d/a 0 68656c6c6f\nc: stat /d/a\n' >changes
run tree trace run --time 7 <changes
check "a run that makes and writes" 0 "done"
[ "$(sed -n 4p out)" = "c: stat /d/a = stat file 5" ] || {
    echo "checks/program.sh: what is answered about a file that was written" >&2
    failed=1
}
run tree trace show
check "a show of what was made" 0 "done"
printf 'journal 0 clean\ndir /\ndir /d\nfile /d/a 5 3610a686\ndone\n' | cmp -s - out || {
    echo "checks/program.sh: what is shown of what was made" >&2
    failed=1
}
printf 'nodes 1\nclient c on 1\nc: unlink /d/a\nc: rmdir /d\nc: list /\n' >changes
run tree trace run <changes
check "a run that removes" 0 "done"
[ "$(sed -n 3p out)" = "c: list / = names 0" ] || {
    echo "checks/program.sh: what is listed where all was removed" >&2
    failed=1
}
run tree trace run <script
check "a run that finds nothing" 0 "done"
PROGRAM=$program python3 "$here/checks/fsck.py" --scripts 25 || failed=1
PROGRAM=$program python3 "$here/checks/fsck.py" --replays 10 || failed=1
PROGRAM=$program python3 "$here/checks/sweep.py" 2 40 || failed=1

cmp -s image before || {
    echo "checks/program.sh: the image was changed" >&2
    failed=1
}

if [ "$failed" = 0 ]; then
    echo "checks/program.sh: all cases ended as they should"
fi
exit "$failed"
