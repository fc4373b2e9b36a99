"""Images whose journals are dirty, for `fsck.py --replays`: random ones by number, and those of crates/rows/data/replayed_images.rows.

A random image is worked out from new_image.py and the plain calls of plain_calls.py: the states of one tree, call by call, of which each step is a transaction
of one journal or of several, laid out from the format of the log alone (journal_rows.py). The journals begin at any place and go round their end, have headers
of both versions, entries that begin with the magic in both kinds of chunks, transactions that are all home, revokes of what isn't live any more and of what was
never there, and behind the head what a write that was cut off left: blocks without a header, or a torn one. Some are clean behind all that. What is live stands
home in any older form, or is no block of the tree at all.
"""
import os
import sys
from random import Random

sys.dont_write_bytecode = True
import fsck
import new_image
import rows
from journal_rows import Journal, header, meta
from plain_calls import Disk

ROWS = os.path.join(rows.DATA, "replayed_images.rows")
MAGIC = bytes.fromhex("01161970")
PLACES, ROOM = 512, 490
OPTIONS = dict(journal_blocks=PLACES, time=0, uuid=bytes(16))


class Dirty:
    """An image, what it is once its journals are replayed, and what `show` and `replay` are to print of it."""

    def __init__(self, kind, image, replayed=None, clean=None, told=None):
        self.kind, self.image, self.replayed, self.clean, self.told = kind, image, replayed, clean, told


def blocks_of(data, size):
    return [bytes(data[at : at + size]) for at in range(0, len(data), size)]


# ---- the tree, call by call


def states(random, data, size):
    """The blocks of an image as it is made and behind some calls, and behind further ones, some at a time."""
    disk, paths, found = Disk(bytearray(data), 0), ["/"], []
    for count in [random.choice((0, 10, 40)), *(random.randint(3, 30) for _ in range(random.randint(1, 12)))]:
        for _ in range(count):
            call = magic_call(random, paths) if random.randrange(8) == 0 else fsck.some_call(random, paths, size)
            reply = disk.answer(call)[0]
            word, path, other = (call.split(" ") + ["", ""])[:3]
            if reply == "ok" and word in ("create", "mkdir"):
                paths += [path] * (4 if word == "mkdir" else 1)
            elif reply == "ok" and word in ("unlink", "rmdir"):
                paths = [it for it in paths if it != path]
            elif reply == "ok" and word == "rename" and path != other:
                paths = [other + it[len(path) :] if (it + "/").startswith(path + "/") else it for it in paths if it != other]
        found.append(blocks_of(disk.data, size))
    return found, disk


def magic_call(random, paths):
    """Content that begins with the magic, at the first byte of a block."""
    return "write %s %d %s" % (random.choice(paths), 4096 * random.randrange(2), MAGIC.hex() * random.choice((1, 400)))


# ---- transactions


class Log:
    """A journal's transactions in the order in which they are written, before they have places."""

    def __init__(self, size, jid):
        self.size, self.jid, self.steps, self.used, self.loose = size, jid, [], 0, {}

    def fits(self, blocks):
        """Whether so many blocks more surely have room, with their descriptors and a header."""
        return self.used + 3 * len(blocks) // 2 + 20 < ROOM

    def add(self, random, blocks, revokes):
        # A group's header and bitmaps are metadata: fsck.gfs2 looks only there for groups that it has read before.
        content = [it for it in blocks if it[1][:4] != MAGIC or not is_of_group(it[1]) and random.randrange(4) == 0]
        metadata = [it for it in blocks if it not in content]
        self.steps.append((content, metadata, revokes))
        self.used += len(Journal(self.size, PLACES).chunks(content, metadata, revokes)) + 1

    def spoil(self, random, free, own):
        """Entries that no replay may put home: the last transaction revokes them, or a later one has the block too."""
        chosen = random.sample(free, min(len(free), random.randrange(4)))
        found = [(b, junk(random, self.size)) for b in chosen if b not in own and b not in self.loose]
        self.loose.update(dict.fromkeys(b for b, _ in found))
        return found

    def revokes(self, random, own, last):
        """Numbers that this transaction revokes: of entries above it that count no more, of entries that a later one outlives, and of nothing."""
        above = {b for content, metadata, _ in self.steps for b, _ in content + metadata}
        some = {b for b in above if b not in own and (b in self.loose and (last or random.randrange(3) == 0) or b not in self.loose and random.randrange(30) == 0)}
        return sorted(some | {random.randrange(1 << 40, 1 << 41) for _ in range(random.choice((0, 0, 1, 80)))})

    def laid(self, random, kind):
        """The journal with all its blocks; `kind` is "clean" or "dirty"."""
        journal = Journal(self.size, PLACES, self.jid)
        place = random.choice((1, random.randrange(PLACES), (PLACES - random.randint(1, max(1, self.used))) % PLACES))
        sequence, stale, firsts = random.randint(2, random.choice((9, 1 << 40))), random.choice((0, 0, 0, random.randrange(len(self.steps)))), []
        for index, (content, metadata, revokes) in enumerate(self.steps):
            firsts.append(place)
            tail = firsts[min(stale, index)]
            version = random.choice((1, 2, 2))
            head = journal.write(place, sequence + index, tail, content, metadata, revokes, version=version)
            place = journal.next(head)
        journal.done = journal.done[stale:] if kind == "dirty" else []
        if kind == "clean":
            journal.blocks[place] = header(self.size, self.jid, sequence + len(self.steps), place, place, clean=True)
            return journal, None
        self.cut_off(random, journal, place, sequence + len(self.steps))
        return journal, (place, sequence + len(self.steps))

    def cut_off(self, random, journal, place, sequence):
        """What a write that never ended left behind the head."""
        if random.randrange(2):
            place = journal.lay(place, journal.chunks([(77, junk(random, self.size))] * random.randint(1, 4), [], [78]))
        if random.randrange(2):
            whole = header(self.size, self.jid, sequence, place, place)
            cut = random.randrange(20, 47)
            journal.blocks[place] = whole[:cut] + bytes([0xEE]) * (self.size - cut)


def is_of_group(block):
    return block[:8] in (meta(2, 200, 0)[:8], meta(3, 300, 0)[:8])


def junk(random, size):
    """A block that no replay may leave home."""
    form = random.randrange(3)
    if form == 0:
        return bytes(size)
    return (meta(random.choice((4, 5, 6)), 500, 0) if form == 1 else b"") + random.randbytes(size)[: size - (24 if form == 1 else 0)]


# ---- images


def new(random):
    size, groups, journals = random.choice((512, 512, 1024, 2048, 4096)), random.choice((1, 1, 2, 3)), random.choice((1, 1, 2, 3))
    options = dict(OPTIONS, groups=groups, journals=journals)
    blocks = new_image.needed(size, 65536 // size + 512, options) + random.choice((60, 300))
    return size, journals, new_image.make(size, blocks, options)[0]


def free_blocks(data, size):
    """Blocks that were free in a new image: none of them is a system file's."""
    disk = Disk(bytearray(data), 0)
    found = [b for _, _, first, count in disk.groups for b in range(first, first + count)]
    return [b for b in found if not disk.data[disk.bits(b)[0]] >> disk.bits(b)[1] & 3]


def transactions(random, size, journals, steps, free):
    """The logs of these journals, of the steps from one state to the next; and the state that they come to."""
    logs, whose, upto = [Log(size, j) for j in range(journals)], {}, 0
    for index, (before, now) in enumerate(zip(steps, steps[1:])):
        changed = [b for b in range(len(now)) if before[b] != now[b]]
        if not all(log.fits(changed) for log in logs):
            break
        upto = index + 1
        for log in logs:
            own = [b for b in changed if whose.setdefault(b, random.randrange(journals)) == log.jid]
            loose = log.spoil(random, [b for b in free if whose.get(b, log.jid) == log.jid], own)
            whose.update((b, log.jid) for b, _ in loose)
            for b in own:
                log.loose.pop(b, None)
            if own or loose or random.randrange(4) == 0:
                blocks = [(b, now[b]) for b in own] + loose
                log.add(random, sorted(blocks), log.revokes(random, {b for b, _ in blocks}, False))
    for log in logs:
        if log.loose:
            log.add(random, [], log.revokes(random, set(), True))
    return logs, upto


def random_image(number):
    random = Random(number)
    size, journals, data = new(random)
    steps, _ = states(random, data, size)
    free = free_blocks(data, size)
    logs, upto = transactions(random, size, journals, steps, free)
    final = list(steps[upto])
    image, out, trace, clean = list(final), [], ["join 1"], []
    reader = fsck.Copy(b"".join(final))
    for log in logs:
        dinode = reader.journals[log.jid]
        places = [at // size for at, _ in reader.places(dinode)]
        kind = "clean" if not log.steps or random.randrange(5) == 0 else "dirty"
        clean.append(kind == "clean")
        if not log.steps:
            continue
        journal, behind = log.laid(random, kind)
        for place, block in journal.blocks.items():
            image[places[place]] = final[places[place]] = block
        if behind is None:
            continue
        live = journal.live()
        for b, (_, block) in live.items():
            assert final[b] == block, (number, b)
            image[b] = random.choice((steps[0][b], random.choice(steps)[b], block, block if is_of_group(block) else junk(random, size)))
        place, sequence = behind
        final[places[place]] = clean_block(size, log.jid, sequence, place, places[place], dinode)
        out.append("replayed %d blocks %d" % (log.jid, len(live)))
        if live:
            trace += ["write 1 replay %d" % b for b in sorted(live)] + ["barrier 1"]
        trace += ["write 1 replay %d" % places[place], "barrier 1", "recovered %d 1" % (log.jid + 1)]
    told = ["".join(it + "\n" for it in lines) for lines in (out + ["calls 0 lost 0 commits 0 crashes 0 dirty 0", "done"], trace + ["unmount 1"])]
    kind = "%d blocks of %d bytes, %d journals, %s" % (len(image), size, journals, ", ".join("%d transactions%s" % (len(it.steps), " clean" if c else "") for it, c in zip(logs, clean)))
    return Dirty(kind, b"".join(image), b"".join(final), clean, told)


def clean_block(size, jid, sequence, place, block, dinode):
    """A clean header as a replay leaves it, of time 0."""
    head = header(size, jid, sequence, place, place, clean=True)[:48]
    later = (bytes(12) + block.to_bytes(8, "big") + dinode.to_bytes(8, "big")).ljust(size - 52, b"\0")
    return head + new_image.crc32c_raw(later).to_bytes(4, "big") + later


# ---- the images of the rows


def row_images(folder):
    """Those of which a row says what `show` prints once they are replayed, by the rows' names."""
    book = rows.Book(rows.Runner(folder))
    with open(ROWS, encoding="utf-8") as file:
        entries = rows.entries_of(file.read())
    for kind, name, items in entries:
        if kind == "image":
            book.take_image(name, items)
        elif any(words == "shows" for words, _ in items):
            base = book.images[items[0][0][6:]][0]
            image = base.copy()
            for words, _ in items[1:]:
                if words.startswith("do"):
                    break
                rows.change(base, image, words)
            yield Dirty("row " + name, bytes(image.data))
