#!/usr/bin/env python3
"""Has a node crash at each of its writes: `sweep.py [JOBS [EVERY]]`.

A script of thirty calls runs on a new image of blocks of 512 bytes with the least journal, whose ring it goes round. Of each write of the run, and of each of what
then becomes of the writes in flight (old, new, and torn at several bytes), it runs the built program on a file and wants:

- status, output, trace and every byte of the image as plain_log.py works them out;
- of the trace by itself: the replies are those of one tree that takes the calls one by one, and what is lost are the last calls, none of them synced;
- `show` prints the tree of the calls that are left, `replay` ends well, and `show` prints the same tree again;
- the distribution's fsck.gfs2 has nothing against the image then, where that is there (checks/fsck.py).

JOBS processes share the writes (2 where it isn't given), and of all writes each EVERYth is tried. PROGRAM may name another program than crates/gfs2run/out/gfs2run.
With all writes it takes some ten minutes. It ends with status 1 where anything differs.
"""
import copy
import os
import subprocess
import sys
import tempfile

sys.dont_write_bytecode = True
import fsck
import new_image
from plain_calls import Disk
from plain_log import Node, Run, tree_of

FATES = ["old", "new", *("torn %d" % it for it in (1, 24, 40, 48, 52, 300))]
SIZE, BLOCKS = 512, 840
CALLS = """mkdir /k
create /a
write /a 0 fill:61:16384
sync
mkdir /d
create /d/b
write /d/b 0 fill:62:16384
write /a 0 fill:63:16384
sync
write /d/b 0 01161970
write /d/b 12000 fill:6d:16384
write /a 16000 fill:64:16384
sync
unlink /d/b
create /c
write /c 0 fill:65:16384
write /a 0 fill:66:16384
sync
write /c 30000 fill:6e:16384
write /c 8192 fill:67:16384
write /a 5000 fill:68:16384
sync
write /a 0 fill:69:16384
write /c 1 fill:6a:16384
truncate /a 20000
sync
rename /c /d/e
rmdir /k
write /a 100 fill:6b:16384
write /d/e 16384 fill:6c:16384""".split("\n")


class Watched(Node):
    """A node that hands a copy of itself out behind each of its writes."""

    seen = None

    def write(self, block, data, item):
        super().write(block, data, item)
        self.seen(self)


def crashed(node, fate):
    """The node as it is once it crashed, was fenced and its loss was told; and how many calls it lost."""
    node = copy.copy(node)
    node.stored, node.flight, node.items, node.journal = bytearray(node.stored), node.flight[:], node.items[:], copy.copy(node.journal)
    return node, node.stop(fate)


def script_of(calls, *armed):
    return "".join(it + "\n" for it in ["nodes 1", "client c on 1", *armed, *("c: " + call for call in calls)])


class Files:
    """The program on files in a folder."""

    def __init__(self, folder):
        self.image, self.trace = os.path.join(folder, "image"), os.path.join(folder, "trace")

    def carry(self, word, image=None, script=""):
        if image is not None:
            with open(self.image, "wb") as file:
                file.write(image)
        ended = subprocess.run([fsck.PROGRAM, self.image, self.trace, word], input=script.encode(), stdout=subprocess.PIPE)
        with open(self.trace) as file:
            return ended.returncode, ended.stdout.decode(), file.read()

    def left(self):
        with open(self.image, "rb") as file:
            return file.read()


def history_wrong(image, trace):
    """What is wrong with the history that a trace tells: a reply that isn't the tree's, or a loss of what was synced."""
    disk, calls, synced, kept = Disk(bytearray(image), 0), [], 0, None
    for line in trace.splitlines():
        words = line.split(" ", 4)
        if words[0] == "call":
            call, _, reply = words[4].rpartition(" = ")
            if call.split(" ")[0] in ("read", "stat", "list"):
                call, reply = words[4].split(" = ")
            if disk.answer(call)[0] != reply:
                return ["call %s: the tree answers %s" % (words[3], disk.answer(call)[0])], []
            calls.append(call)
            synced = len(calls) if call == "sync" else synced
        elif words[0] == "lost":
            kept = int(words[2])
    left = calls if kept is None else calls[:kept]
    return ["what was synced is lost"] if len(left) < synced else [], left


def tried(files, image, run, armed):
    """In what a run with a crash differs from what is wanted of it."""
    found = files.carry("run", image, script_of(CALLS, armed))
    told = ["%s: %s" % (what, fsck.first_other(it, other)) for what, it, other in zip(("status", "output", "trace"), (run.status, run.out, run.trace), found) if it != other]
    if files.left() != run.image:
        told.append("the image is another, at the blocks %s" % fsck.differing(files.left(), Disk(run.image)))
    wrong, left = history_wrong(image, found[2])
    told += wrong
    tree = fsck.shown(tree_of(image, left), [])
    for what in ("show", "replay"):
        if what == "replay" and files.carry("replay")[0]:
            told.append("replay doesn't end well")
        shown = files.carry("show")[1]
        if "".join(it + "\n" for it in shown.splitlines()[1:]) != tree:
            told.append("%s: another tree than that of what remains" % what)
    if fsck.FSCK:
        told += ["fsck.gfs2: " + it for it in fsck.judged(files.left())]
    return told


def new():
    return bytes(new_image.make(SIZE, BLOCKS, dict(groups=1, journals=1, journal_blocks=512, time=0, uuid=bytes(16)))[0])


def sweep(part, jobs, every):
    """Tries the writes of one part; prints what differs, and how many cases there were."""
    image, bad, cases = new(), 0, 0
    lines = script_of(CALLS).splitlines()
    with tempfile.TemporaryDirectory() as folder:
        files = Files(folder)

        def seen(node):
            nonlocal bad, cases
            if node.writes % every or node.writes // every % jobs != part:
                return
            for fate in FATES:
                run = Run.__new__(Run)
                run.tell(*(lambda it, lost: (it, lines, lost))(*crashed(node, fate)))
                cases += 1
                for line in tried(files, image, run, "crash 1 at %d %s" % (node.writes, fate)):
                    bad += 1
                    print("crash 1 at %d %s: %s" % (node.writes, fate, line), flush=True)

        node = Watched(image)
        node.seen = seen
        node.begin()
        for call in CALLS:
            node.carry("c", call)
        node.unmount()
    return bad, cases, node


def wraps(node):
    """How often the node's log went round its ring, and how many headers alone there were."""
    heads = [int(it.split(" ")[3]) for it in node.items if it.startswith("write 1 head ")]
    alone = sum(it.startswith("write 1 head ") and before == "barrier 1" and other.startswith("write 1 home ") for other, before, it in zip(node.items, node.items[1:], node.items[2:]))
    return sum(it > other for it, other in zip(heads, heads[1:])), alone


def main(jobs="2", every="1"):
    jobs, every, children = int(jobs), int(every), []
    for part in range(jobs):
        child = os.fork()
        if not child:
            bad, cases, node = sweep(part, jobs, every)
            if part == 0:
                print("%d calls, %d writes, %d times round the ring, %d headers alone" % (node.answered, node.writes, *wraps(node)), flush=True)
            print("%d crashes tried%s" % (cases, ", %d lines differ" % bad if bad else ", all as they should be"), flush=True)
            os._exit(1 if bad else 0)
        children.append(child)
    bad = any([os.waitpid(it, 0)[1] for it in children])
    print("judged by fsck.gfs2 too" if fsck.FSCK else "no image is judged: fsck.gfs2 is not here (package gfs2-utils)")
    return 1 if bad else 0


if __name__ == "__main__":
    sys.exit(main(*sys.argv[1:]))
