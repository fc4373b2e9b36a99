"""Runs a script of one node that writes with a log, plainly and slowly: a model of its own of the trace, the output and every byte of the image.

What a call answers and leaves of the tree is worked out by plain_calls.py. This adds the log: what a call changed waits in memory until a flush brings it into
the node's journal, and goes home when the node unmounts or where there is no room; and crashes, what they leave of the writes in flight, and replays. It is written from
docs/FORMAT.md and docs/TRACE.md, without any of the project's code. checks/fsck.py and checks/sweep.py compare the program with it, and
`plain_log.py IMAGE [TIME] <SCRIPT` carries a script out on a file and prints the trace, the output and the image's CRC-32.
"""
import re
import sys
from struct import pack, unpack_from
from zlib import crc32

sys.dont_write_bytecode = True
from plain_calls import MAGIC, Disk, written

MOST_UNFLUSHED, MOST_IN_FLIGHT, FRAMES = 400, 512, 1024
HOME, AWAY, FLYING = range(3)
TABLE = []
for number in range(256):
    for _ in range(8):
        number = number >> 1 ^ (0x82F63B78 if number & 1 else 0)
    TABLE.append(number)


class Crashed(Exception):
    """The node stopped: at a line of the script, or at the write at which it was to."""


def crc32c_raw(data):
    state = 0xFFFFFFFF
    for byte in data:
        state = state >> 8 ^ TABLE[(state ^ byte) & 255]
    return state


# ---- what stands in a journal

def head_bytes(size, jid, sequence, is_clean, tail, place, block, jinode, time):
    front = pack(">IIQIIQIII", MAGIC, 8, 0, 800, jid, sequence, is_clean, tail, place)
    front += pack(">I", crc32(front + bytes(4)))
    later = pack(">IQQQ", 0, time, block, jinode).ljust(size - 52, b"\0")
    return front + pack(">I", crc32c_raw(later)) + later


def read_head(data, place):
    """(sequence, whether it is clean, tail) of a log header that counts at this place, or None."""
    magic, kind, _, form, _, sequence, flags, tail, at, found = unpack_from(">IIQIIQIIII", data)
    if (magic, kind, form) != (MAGIC, 8, 800) or at != place or crc32(data[:44] + bytes(4)) != found:
        return None
    kept = int.from_bytes(data[48:52], "big")
    if kept and crc32c_raw(data[52:]) != kept:
        return None
    return sequence, flags & 1, tail


def descriptor(size, jid, kind, length, count, entries):
    return pack(">IIQIIIIII", MAGIC, 9, 0, 900, jid, kind, length, count, 0).ljust(72, b"\0") + entries.ljust(size - 72, b"\0")


def parted(some, room):
    return [some[at:at + room] for at in range(0, len(some), room)]


def chunks(size, jid, blocks, revokes):
    """The blocks of a transaction but for its header: content, then metadata, then revokes. `blocks` has (number, whether it is content, bytes), rising."""
    found, begins = [], pack(">I", MAGIC)
    for part in parted([it for it in blocks if it[1]], (size - 72) // 16):
        entries = b"".join(pack(">QQ", block, data[:4] == begins) for block, _, data in part)
        found.append(descriptor(size, jid, 302, 1 + len(part), len(part), entries))
        found += [bytes(4) + data[4:] if data[:4] == begins else data for _, _, data in part]
    for part in parted([it for it in blocks if not it[1]], (size - 72) // 8):
        found.append(descriptor(size, jid, 300, 1 + len(part), len(part), b"".join(pack(">Q", block) for block, _, _ in part)))
        found += [data for _, _, data in part]
    if revokes:
        room = (size - 72) // 8
        more = parted(revokes[room:], (size - 24) // 8)
        found.append(descriptor(size, jid, 301, 1 + len(more), len(revokes), b"".join(pack(">Q", it) for it in revokes[:room])))
        found += [(pack(">IIQII", MAGIC, 12, 0, 1000, jid) + b"".join(pack(">Q", it) for it in part)).ljust(size, b"\0") for part in more]
    return found


def count_of(size, contents, metadata, revokes):
    """How many blocks a transaction takes, its header among them."""
    rest = revokes - (size - 72) // 8
    taken = contents + -(-contents // ((size - 72) // 16))
    taken += metadata + -(-metadata // ((size - 72) // 8))
    if revokes:
        taken += 1 + (-(-rest // ((size - 24) // 8)) if rest > 0 else 0)
    return taken + 1


class Journal:
    """A journal of an image: its places, its dinode's block, and its head."""

    def __init__(self, image, size, jid):
        disk = Disk(image)
        jindex = next(it for it in disk.records(disk.word(65536 + 56, 8)) if it[0] == b"jindex")[2]
        self.size, self.jid = size, jid
        self.dinode = disk.look(jindex, b"journal%d" % jid)[2]
        height = disk.field(self.dinode, 138, 2)
        self.places = [block for block, is_content in disk.blocks_under(self.dinode, 232, height) if is_content]
        self.find(image)

    def at(self, image, place):
        start = self.places[place] * self.size
        return bytes(image[start:start + self.size])

    def find(self, image):
        """The head: of all headers that count that of the highest sequence, and of several the one in the least place."""
        found = [(head[0], -place, head) for place in range(len(self.places)) for head in [read_head(self.at(image, place), place)] if head]
        sequence, place, head = max(found)
        self.head, self.sequence, self.is_clean, self.tail = -place, sequence, head[1], head[2]

    def next(self, place):
        return (place + 1) % len(self.places)

    def live(self, image):
        """{block: bytes} of what a replay puts home."""
        entries, revokes, place, waiting = [], [], self.tail, []
        while True:
            data = self.at(image, place)
            head = read_head(data, place)
            if head:
                entries += [(head[0], *it) for it in waiting if len(it) == 2]
                revokes += [(head[0], it[0]) for it in waiting if len(it) == 1]
                waiting = []
                if place == self.head:
                    break
                place = self.next(place)
                continue
            kind, length, count = unpack_from(">III", data, 24)
            width = 16 if kind == 302 else 8
            numbers = [data[72 + width * it:72 + width * it + width] for it in range(min(count, (self.size - 72) // width))]
            for number in numbers if kind != 301 else []:
                place = self.next(place)
                block = self.at(image, place)
                if kind == 302 and number[15]:
                    block = pack(">I", MAGIC) + block[4:]
                waiting.append((int.from_bytes(number[:8], "big"), block))
            if kind == 301:
                for _ in range(length - 1):
                    place = self.next(place)
                    block = self.at(image, place)
                    numbers += [block[24 + 8 * it:32 + 8 * it] for it in range((self.size - 24) // 8)]
                waiting += [(int.from_bytes(it, "big"),) for it in numbers[:count]]
            place = self.next(place)
        cancelled = {}
        for sequence, block in revokes:
            cancelled[block] = max(sequence, cancelled.get(block, 0))
        return {block: data for sequence, block, data in entries if cancelled.get(block, 0) <= sequence}


def journals_of(image):
    size = int.from_bytes(image[65536 + 36:65536 + 40], "big")
    disk = Disk(image)
    jindex = next(it for it in disk.records(disk.word(65536 + 56, 8)) if it[0] == b"jindex")[2]
    return [Journal(image, size, jid) for jid in range(len(disk.names(jindex)))]


def replayed(image):
    """An image whose journals' live blocks are home. The journals stay as they are."""
    image = bytearray(image)
    for journal in journals_of(image):
        if not journal.is_clean:
            for block, data in journal.live(bytes(image)).items():
                image[block * journal.size:(block + 1) * journal.size] = data
    return image


# ---- the node

class Noted(bytearray):
    """Bytes of an image that note which blocks are put."""

    size, put = 4096, None

    def __setitem__(self, key, value):
        if self.put is not None:
            first, last = (key.start, key.stop) if isinstance(key, slice) else (key, key + 1)
            self.put.update(range(first // self.size, -(-last // self.size)) if first < last else ())
        bytearray.__setitem__(self, key, value)


class Node:
    """Node 1 on an image: its tree, its log, what is in flight, and the items so far."""

    def __init__(self, image, time=0, armed=None, frames=FRAMES):
        self.stored, self.time, self.armed, self.frames = bytearray(image), time, armed, frames
        self.size = int.from_bytes(image[65536 + 36:65536 + 40], "big")
        self.items, self.operations, self.flight, self.writes = ["join 1"], [], [], 0
        self.answered, self.low, self.changing, self.replies, self.calls = 0, 0, [], [], []
        self.fresh, self.gone, self.live = {}, set(), {}

    # -- the disk

    def write(self, block, data, item):
        if len(self.flight) == MOST_IN_FLIGHT:
            self.barrier()
        self.flight.append((block, data))
        self.writes += 1
        self.items.append("write 1 " + item)
        self.operations.append(block)
        if self.armed and self.armed[0] == self.writes:
            raise Crashed

    def barrier(self):
        """A barrier, where anything is in flight."""
        if self.flight:
            self.settle("new")
            self.items.append("barrier 1")
            self.operations.append(None)
            for entry in self.live.values():
                if entry[2] == FLYING:
                    entry[2] = HOME

    def settle(self, fate):
        for block, data in self.flight:
            count = {"old": 0, "new": self.size}.get(fate)
            count = min(self.size, int(fate.split(" ")[1])) if count is None else count
            self.stored[block * self.size:block * self.size + count] = data[:count]
        self.flight = []

    # -- the log

    def begin(self):
        """Replays the journals, and takes the first one for its own."""
        journals = journals_of(self.stored)
        self.journal = journals[0]
        for journal in journals:
            if journal.is_clean:
                continue
            for block, data in sorted(journal.live(bytes(self.stored)).items()):
                self.write(block, data, "replay %d" % block)
            self.barrier()
            place = journal.next(journal.head)
            head = head_bytes(self.size, journal.jid, journal.sequence + 1, 1, place, place, journal.places[place], journal.dinode, self.time)
            self.write(journal.places[place], head, "replay %d" % journal.places[place])
            self.barrier()
            journal.head, journal.tail, journal.sequence, journal.is_clean = place, place, journal.sequence + 1, 1
            self.items.append("recovered %d 1" % (journal.jid + 1))
        self.journal.tail = self.journal.head
        self.disk = Disk(self.stored, self.time)
        self.disk.data = Noted(self.disk.data)
        self.disk.data.size = self.size
        self.known = {}

    def free(self):
        places = len(self.journal.places)
        return places - 1 - (self.journal.head - self.journal.tail) % places

    def due(self):
        return [(block, *self.fresh[block][1:]) for block in sorted(self.fresh)], sorted(self.gone)

    def count(self, fresh, gone):
        contents = sum(it[1] for it in fresh.values())
        return count_of(self.size, contents, len(fresh) - contents, len(gone))

    def add(self, put, freed):
        """Takes a change into the log, where there is room: {block: (lock, whether it is content, bytes)} and what is freed."""
        fresh, gone = dict(self.fresh), set(self.gone)
        for block in freed:
            fresh.pop(block, None)
            if block in self.live:
                gone.add(block)
        fresh.update(put)
        gone -= set(put)
        away = sum(it[2] != HOME for it in self.live.values())
        if len(fresh) + away > self.frames or self.count(fresh, gone) > MOST_UNFLUSHED:
            return False
        self.fresh, self.gone = fresh, gone
        return True

    def head(self, blocks, revokes, upto):
        """Writes a transaction behind the head, a header alone where there is nothing in it."""
        journal = self.journal
        first = place = journal.next(journal.head)
        for data in chunks(self.size, journal.jid, blocks, revokes):
            self.write(journal.places[place], data, "log %d" % journal.places[place])
            place = journal.next(place)
        self.barrier()
        logged = {it[0] for it in blocks}
        needed = [it[1] for block, it in self.live.items() if it[2] != HOME and block not in logged and block not in revokes]
        behind = lambda it: (it - journal.tail) % len(journal.places)
        tail = min(needed, key=behind) if needed else first if blocks else place
        sequence, block = journal.sequence + 1, journal.places[place]
        self.write(block, head_bytes(self.size, journal.jid, sequence, 0, tail, place, block, journal.dinode, self.time), "head %d %d %d" % (block, sequence, upto))
        self.barrier()
        self.items.append("commit 1 %d %d" % (sequence, upto))
        cut = behind(tail)
        self.live = {it: entry for it, entry in self.live.items() if it not in logged and it not in revokes and behind(entry[1]) >= cut}
        for block, _, data in blocks:
            self.live[block] = [self.flushed[block][0], first, AWAY, data]
        # What has no entry any more needs no revoke.
        self.gone = {it for it in self.gone if it in self.live}
        journal.head, journal.tail, journal.sequence, journal.is_clean = place, tail, sequence, 0
        self.low = upto

    def bring_in(self):
        """Flushes what is due; where there is no room for it, all goes home and a header alone comes first."""
        if not self.fresh and not self.gone:
            return
        if self.count(self.fresh, self.gone) + 1 > self.free():
            self.make_room()
        blocks, revokes = self.due()
        self.flushed, self.fresh, self.gone = self.fresh, {}, set()
        self.head(blocks, revokes, self.answered)

    def make_room(self):
        self.go_home()
        self.head([], [], self.low)

    def go_home(self):
        """All live blocks go home, by lock and then by number."""
        for block in sorted((it for it in self.live if self.live[it][2] == AWAY), key=lambda it: (self.live[it][0], it)):
            self.live[block][2] = FLYING
            self.write(block, self.live[block][3], "home %d" % block)
        self.barrier()

    def unmount(self):
        self.items.append("unmount 1")
        self.bring_in()
        self.go_home()
        journal = self.journal
        if not journal.is_clean:
            place = journal.next(journal.head)
            block, sequence = journal.places[place], journal.sequence + 1
            head = head_bytes(self.size, journal.jid, sequence, 1, place, place, block, journal.dinode, self.time)
            self.write(block, head, "clean %d %d %d" % (block, sequence, self.answered))
            self.barrier()

    # -- calls

    def owner(self, block):
        """The inode of a block of no group, and whether a file's content stands there."""
        at, shift = self.disk.bits(block)
        if self.disk.data[at] >> shift & 3 == 3:
            return block, False
        if block in self.disk.owners:
            return self.disk.owners[block]
        if block not in self.known:
            self.look_over()
        return self.known[block]

    def look_over(self):
        """Notes whose each block of the tree is that was not taken since."""
        disk, waiting, seen = self.disk, [self.disk.root], set()
        while waiting:
            inode = waiting.pop()
            if inode in seen:
                continue
            seen.add(inode)
            is_directory, height = disk.is_directory(inode), disk.field(inode, 138, 2)
            under = list(disk.blocks_under(inode, 232, height)) if height else []
            self.known.update((it, (inode, is_content and not is_directory)) for it, is_content in under)
            if is_directory:
                if disk.is_hashed(inode):
                    self.known.update((it, (inode, False)) for it in disk.leaves(inode))
                waiting += [it[2] for it in disk.records(inode) if it[0] not in (b".", b"..")]

    def version(self, block):
        """(lock, whether it is content, bytes) of a block as it is now."""
        data = bytes(self.disk.data[block * self.size:(block + 1) * self.size])
        for address, length, *_ in self.disk.groups:
            if address <= block < address + length:
                return (3, address), False, data
        inode, is_content = self.owner(block)
        return (2, inode), is_content, data

    def bitmaps(self):
        return [bytes(self.disk.data[address * self.size:(address + length) * self.size]) for address, length, *_ in self.disk.groups]

    def freed_since(self, before):
        """The blocks that the bitmaps don't call free before, and do now."""
        found = []
        for (address, length, first, count), old, new in zip(self.disk.groups, before, self.bitmaps()):
            if old == new:
                continue
            for part in range(length):
                start = part * self.size + (24 if part else 128)
                room = (self.size - (24 if part else 128)) * 4
                base = 0 if part == 0 else (self.size - 128) * 4 + (part - 1) * (self.size - 24) * 4
                for at in range(start, (part + 1) * self.size):
                    if old[at] != new[at]:
                        for shift in (0, 2, 4, 6):
                            if old[at] >> shift & 3 and not new[at] >> shift & 3:
                                found.append(first + base + (at - start) * 4 + shift // 2)
        return found

    def carry(self, client, call):
        before, data = self.bitmaps(), self.disk.data
        if call == "sync":
            self.bring_in()
        data.put = set()
        reply, full = self.disk.answer(call)
        put, data.put = data.put, None
        if self.disk.data is not data:
            # A move for which there is no space was undone.
            self.disk.data = Noted(self.disk.data)
            self.disk.data.size, put = self.size, set()
        if reply != "ok" and put:
            raise ValueError("%s: %s puts blocks" % (call, reply))
        if put:
            freed = self.freed_since(before)
            change = {it: self.version(it) for it in put if it not in freed}
            if not self.add(change, freed):
                self.bring_in()
                if not self.add(change, freed):
                    self.make_room()
                    if not self.add(change, freed):
                        raise ValueError("the log is too small for " + call)
            self.changing.append(self.answered + 1)
        if full:
            self.bring_in()
            self.items.append("full 1 %d %d" % full)
        self.answered += 1
        self.calls.append(call)
        self.replies.append((client, "%s: %s = %s" % (client, written(call), reply)))
        self.items.append("call 1 %s %d %s = %s" % (client, self.answered, written(call), reply))

    # -- crashes

    def kept(self):
        """Up to which call the journal has all."""
        self.journal.find(bytes(self.stored))
        upto = 0
        for item in self.items:
            words = item.split(" ")
            if words[0] == "write" and words[2] in ("head", "clean") and int(words[4]) == self.journal.sequence:
                upto = int(words[5])
        return next((it - 1 for it in self.changing if it > upto), self.answered)

    def stop(self, fate):
        """The node stops, is fenced, and what it lost is told. How many calls it lost."""
        self.items.append("crash 1")
        self.settle(fate)
        self.items.append("fence 1")
        kept = self.kept()
        self.items.append("lost 1 %d" % kept)
        return self.answered - kept


class Run:
    """A run of a script: its status, out and trace, the image that it leaves, and the calls that are left of those that were answered."""

    def __init__(self, image, script, time=0):
        lines = script.splitlines()
        armed = next((it.split(" ", 4)[3:] for it in lines if re.match("crash [0-9]+ at ", it)), None)
        node, fate, lost = Node(image, time, armed and (int(armed[0]), armed[1])), armed[1] if armed else "old", None
        try:
            node.begin()
            for line in lines:
                client, _, call = line.partition(": ")
                if re.fullmatch("crash ([0-9]+|all)", line):
                    fate = "old"
                    raise Crashed
                if call:
                    node.carry(client, call)
            node.unmount()
        except Crashed:
            lost = node.stop(fate)
        self.tell(node, lines, lost)

    def tell(self, node, lines, lost):
        """What comes of a node that unmounted, or lost so many calls as it crashed."""
        clients = [it.split(" ")[1] for it in lines if it.startswith("client ")]
        down = [it.partition(": ") for it in lines if ": " in it][node.answered:]
        told = node.replies + [(client, "%s: %s = down" % (client, written(call))) for client, _, call in down]
        out = [line for name in clients for client, line in told if client == name]
        self.clean = [it.is_clean for it in journals_of(node.stored)]
        counts = node.answered, lost or 0, sum(it.startswith("commit ") for it in node.items), lost is not None, self.clean.count(0)
        out += ["calls %d lost %d commits %d crashes %d dirty %d" % counts, "done"]
        self.status, self.items, self.lost = 0, node.items, lost
        self.out, self.trace = ("".join(it + "\n" for it in some) for some in (out, node.items))
        self.image, self.left = bytes(node.stored), node.calls[:node.answered - (lost or 0)]


def tree_of(image, calls=(), time=0):
    """The tree of an image whose journals are replayed, with these calls taken."""
    disk = Disk(replayed(image), time)
    for call in calls:
        disk.answer(call)
    return disk


def main(name, time="0"):
    with open(name, "r+b") as file:
        run = Run(file.read(), sys.stdin.read(), int(time))
        file.seek(0)
        file.write(run.image)
    print(run.trace, run.out, "crc %08x" % crc32(run.image), sep="--\n")
    return run.status


if __name__ == "__main__":
    sys.exit(main(*sys.argv[1:]))
