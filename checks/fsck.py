"""Has the distribution's `fsck.gfs2` judge images that this project leaves: `fsck.py IMAGE..`, `fsck.py --scripts COUNT`, or
`fsck.py --replays COUNT`.

Nobody here wrote that judge. It wants files that this project's images leave out (docs/FORMAT.md), so it is given a copy with
more in it: a resource group behind the device's end, which holds `inum`, `statfs`, `quota` and `per_node` with three files for
each journal, one more entry in `rindex`, and four more names in the master directory. A journal that has one log header alone
gets a second one, of the sequence before, in the place before its tail, since fsck.gfs2 3.5.0 calls it corrupt else; and the
master directory and `jindex` get the flag of system files. No other block of the copy differs from the image, which is tried of
each copy.

`--scripts COUNT` makes random scripts by number, from 1 on, and runs each on a new image, at four sizes of a block, with one
group and with several, with few free blocks and with many: status, output, trace, what `show` prints and every byte of the image
are to be those of the plain calls of checks/plain_calls.py, and each image is judged.

`--replays COUNT` makes images with dirty journals by number, from 1 on, and takes those of crates/rows/data/replayed_images.rows too
(checks/dirty_images.py). Of each, what `show` and `replay` print and every byte that `replay` leaves are to be those that the format
of the log gives, and `fsck.gfs2 -y`, which replays the journals of a copy, is to leave there every block but the journals' places as
`replay` does, and nothing that it has anything against. Rows whose image is broken once it is replayed are left out: fsck.gfs2 goes on
to mend these.

PROGRAM may name another program than crates/gfs2run/out/gfs2run.

`fsck.gfs2` is in Debian's package gfs2-utils (`apt-get install gfs2-utils`). Where it is missing this says so, judges no image, and
ends with status 0; the replies and images of random scripts are compared all the same. It ends with status 1 where an image is
refused or a script differs.
"""
import os
import shutil
import subprocess
import sys
import tempfile
from functools import lru_cache
from random import Random
from struct import pack, unpack_from
from zlib import crc32

sys.dont_write_bytecode = True
from plain_calls import Disk, spelled
from plain_log import Run, crc32c_raw, tree_of

HERE = os.path.dirname(os.path.abspath(__file__))
PROGRAM = os.environ.get("PROGRAM") or os.path.join(HERE, "..", "crates", "gfs2run", "out", "gfs2run")
FSCK = shutil.which("fsck.gfs2", path=os.environ.get("PATH", "") + ":/usr/sbin:/sbin")

# fsck.gfs2 takes no device of less than a mebibyte.
SPARE = 1 << 20
PROGRESS = ("Initializing fsck", "Validating resource group index.", "Level 1 resource group check", "(level 1 passed)", "Starting ",
            "Reconciling bitmaps.", "fsck.gfs2 complete")

MISSING = "no image is judged: fsck.gfs2 is not here (package gfs2-utils)"

MAGIC = 0x01161970
DINODE, DATA = 3, 1
DIRECTORY, FILE = 4, 8
JDATA, EXHASH, SYSTEM = 1, 2, 0x200
# Bytes of the files that are left out: two quotas of 88 bytes, and of each node a range of numbers, a change of the counts, and
# changes of quotas, which are one hole here.
QUOTAS, RANGE, COUNTS, CHANGES = 176, 16, 24, 1 << 20


def header(kind, form, journal=0):
    return pack(">IIQII", MAGIC, kind, 0, form, journal)


def record_length(name):
    return (len(name) + 47) // 8 * 8


class Unknown(Exception):
    """The image isn't one that this can be added to."""


class Copy:
    """An image with one more group, into which more is put."""

    def __init__(self, image):
        self.size = int.from_bytes(image[65536 + 36:65536 + 40], "big")
        if image[65536:65540] != pack(">I", MAGIC) or self.size not in (512, 1024, 2048, 4096) or len(image) % self.size:
            raise Unknown("no image of this project")
        self.data, self.first = bytearray(image), len(image) // self.size
        self.taken = []
        self.master, self.root = self.word(65536 + 56, 8), self.word(65536 + 88, 8)
        names = dict((name, (number, at)) for name, number, at, _ in self.records(self.master))
        self.rindex, self.jindex = names[b"rindex"][1], names[b"jindex"][1]
        self.journals = [at for name, _, at, _ in sorted(self.records(self.jindex)) if name.startswith(b"journal")]
        # No formal number is above these. The files that are put in take the next ones.
        self.numbers = max(self.field(it[0], 40, 8) for it in self.groups())
        # The blocks of the image that may change.
        self.open = {self.master, self.rindex, self.jindex, *(at // self.size for at, _ in self.places(self.rindex)[-1:])}

    # ---- reading

    def start(self, block):
        return block * self.size

    def word(self, at, width):
        return int.from_bytes(self.data[at:at + width], "big")

    def field(self, block, place, width):
        return self.word(self.start(block) + place, width)

    def places(self, block):
        """Where in the image the content of this inode lies, in pieces: (first byte, count)."""
        at, size, height = self.start(block), self.field(block, 56, 8), self.field(block, 138, 2)
        if height == 0:
            return [(at + 232, size)]
        blocks = self.under(block, 232, height)
        carried = self.size - 24 if self.field(block, 128, 4) & EXHASH else self.size
        skipped = self.size - carried
        return [(self.start(it) + skipped, min(carried, size - i * carried)) for i, it in enumerate(blocks) if i * carried < size]

    def under(self, block, place, height):
        found = []
        for at in range(self.start(block) + place, self.start(block) + self.size - 7, 8):
            pointer = self.word(at, 8)
            if pointer:
                found += [pointer] if height == 1 else self.under(pointer, 24, height - 1)
        return found

    def content(self, block):
        return b"".join(bytes(self.data[at:at + count]) for at, count in self.places(block))

    def groups(self):
        """(address, blocks of header and bitmap, first data block, data blocks) of each group."""
        text = self.content(self.rindex)
        return [unpack_from(">QIIQI", text, at)[:2] + unpack_from(">QI", text, at + 16) for at in range(0, len(text), 96)]

    def areas(self, block):
        """The areas of a directory's records: (block, first byte)."""
        if not self.field(block, 128, 4) & EXHASH:
            return [(block, 232)]
        table, found = self.content(block), []
        for index in range(0, len(table), 8):
            leaf = int.from_bytes(table[index:index + 8], "big")
            while leaf and leaf not in found:
                found.append(leaf)
                leaf = self.field(leaf, 32, 8)
        return [(leaf, 104) for leaf in found]

    def records(self, block):
        """(name, number, address, kind) of each name of a directory."""
        for area, place in self.areas(block):
            at, end = self.start(area) + place, self.start(area) + self.size
            while at < end:
                number, address, _, length, count, kind = unpack_from(">QQIHHH", self.data, at)
                if number and address:
                    yield bytes(self.data[at + 40:at + 40 + count]), number, address, kind
                if not length:
                    raise Unknown("a record without a length")
                at += length

    # ---- writing

    def put(self, block, place, data):
        at = self.start(block) + place
        self.data[at:at + len(data)] = data

    def take(self, state):
        """A block of the group behind the end. Its header and bitmap are put when all is known."""
        self.taken.append(state)
        self.data += bytes(self.size)
        return len(self.data) // self.size - 1

    def inode(self, kind, content, flags, links=1, entries=0, size=None):
        """An inode with this content, or with none and this size: the block of its dinode, and its formal number."""
        block, blocks, height, body = self.take(DINODE), [], 0, content
        if size is not None:
            room = (self.size - 232) // 8 * self.size
            while room < size:
                height, room = height + 1, room * ((self.size - 24) // 8)
            height += 1
        if len(content) > self.size - 232:
            height, body = 1, b""
            for at in range(0, len(content), self.size):
                blocks.append(self.take(DATA))
                self.put(blocks[-1], 0, content[at:at + self.size])
                body += pack(">Q", blocks[-1])
        self.numbers += 1
        mode = 0o40755 if kind == DIRECTORY else 0o100600
        size = len(content) if size is None else size
        head = header(4, 400) + pack(">QQIIIIQQ", self.numbers, block, mode, 0, 0, links, size, 1 + len(blocks))
        head += bytes(24) + pack(">IIQQQII", 0, 0, block, block, self.numbers, flags, 1200 if kind == DIRECTORY else 0)
        head += pack(">HHIHHI", 0, height, 0, 0, 0, entries)
        self.put(block, 0, head + bytes(232 - len(head)) + body)
        return block, self.numbers

    def area(self, records, length):
        """The bytes of an area of so many bytes with these records, or None where they have no room."""
        out = b""
        for index, (name, number, address, kind) in enumerate(records):
            own = record_length(name)
            if len(out) + own > length:
                return None
            rest = length - len(out) if index + 1 == len(records) else own
            head = pack(">QQIHHH", number, address, crc32(name), rest, len(name), kind)
            out += (head + bytes(40 - len(head)) + name).ljust(own, b"\0")
        return (out or pack(">QQIHH", 0, 0, 0, length, 0)).ljust(length, b"\0")

    def leaves(self, records):
        """The table and the leaves of a hashed directory with these records: each leaf has the same depth. (table, depth, blocks)"""
        depth = (self.size // 16).bit_length() - 1
        for bits in range(depth + 1):
            parts = [[it for it in records if bits == 0 or crc32(it[0]) >> 32 - bits == part] for part in range(1 << bits)]
            areas = [self.area(part, self.size - 104) for part in parts]
            if None not in areas:
                break
        else:
            raise Unknown("too many names in a leaf")
        table = b""
        for part, area in zip(parts, areas):
            leaf = self.take(DATA)
            self.put(leaf, 0, header(6, 600) + pack(">HHIQ", bits, len(part), 1200, 0) + bytes(64) + area)
            table += pack(">Q", leaf) * (1 << depth - bits)
        return table, depth, len(areas)

    def directory(self, parent, names):
        """A directory in another with these names: (name, number, address, kind)."""
        own = len(self.data) // self.size
        records = [(b".", self.numbers + 1, own, DIRECTORY), (b"..", self.field(parent, 24, 8), parent, DIRECTORY)] + names
        links = 2 + sum(1 for it in names if it[3] == DIRECTORY)
        content = self.area(records, self.size - 232)
        if content:
            return self.inode(DIRECTORY, content, JDATA | SYSTEM, links, len(records))
        block, number = self.inode(DIRECTORY, bytes(self.size // 2), JDATA | EXHASH | SYSTEM, links, len(records))
        table, depth, count = self.leaves(records)
        self.put(block, 232, table)
        self.put(block, 64, pack(">Q", 1 + count))
        self.put(block, 146, pack(">H", depth))
        return block, number

    def add_names(self, block, names):
        """Puts names into a directory that there is."""
        records = list(self.records(block)) + names
        links = 2 + sum(1 for it in records if it[3] == DIRECTORY and it[0] not in (b".", b".."))
        if self.field(block, 128, 4) & EXHASH:
            raise Unknown("a hashed master directory")
        content = self.area(records, self.size - 232)
        if content:
            self.put(block, 232, content)
        else:
            table, depth, count = self.leaves(records)
            self.put(block, 232, table.ljust(self.size - 232, b"\0"))
            self.put(block, 56, pack(">QQ", len(table), 1 + count))
            self.put(block, 128, pack(">I", self.field(block, 128, 4) | EXHASH))
            self.put(block, 146, pack(">H", depth))
        self.put(block, 52, pack(">I", links))
        self.put(block, 148, pack(">I", len(records)))

    def add_entry(self):
        """Makes room for one more entry in `rindex`."""
        block, size, height = self.rindex, self.field(self.rindex, 56, 8), self.field(self.rindex, 138, 2)
        content = self.content(block) + bytes(96)
        if height or len(content) > self.size - 232:
            pointers = self.under(block, 232, 1) if height else []
            old = len(pointers)
            for at in range(old * self.size, len(content), self.size):
                pointers.append(self.take(DATA))
                self.put(pointers[-1], 0, content[at:at + self.size])
            self.put(block, 232, b"".join(pack(">Q", it) for it in pointers).ljust(self.size - 232, b"\0"))
            self.put(block, 64, pack(">Q", 1 + len(pointers)))
            self.put(block, 138, pack(">H", 1))
        self.put(block, 56, pack(">Q", len(content)))

    def put_entry(self, entry):
        """Puts the last entry of `rindex`, which may lie astride two blocks."""
        at = self.field(self.rindex, 56, 8) - 96
        for begin, count in self.places(self.rindex):
            part = entry[:max(0, count - at)] if at >= 0 else entry
            if part:
                self.put(begin // self.size, begin % self.size + at, part)
                entry, at = entry[len(part):], 0
            else:
                at -= count

    def is_log_header(self, at, place):
        """Whether a log header that isn't torn stands here, of this place of its journal."""
        head = bytes(self.data[at:at + 48])
        if head[:8] != pack(">II", MAGIC, 8) or head[40:] != pack(">II", place, crc32(head[:44] + bytes(4))):
            return False
        # A header that was torn behind its checksum doesn't count.
        return self.word(at + 48, 4) in (0, crc32c_raw(self.data[at + 52:at + self.size]))

    def add_headers(self):
        """Puts a second log header into each journal that has one alone: of the sequence before, in the place before its tail."""
        for journal in self.journals:
            places = [at for at, _ in self.places(journal)]
            found = [place for place, at in enumerate(places) if self.is_log_header(at, place)]
            if len(found) != 1:
                continue
            only = places[found[0]]
            place = ((found[0] if self.word(only + 32, 4) else self.word(only + 36, 4)) - 1) % len(places)
            sequence, at = self.word(only + 24, 8), places[place]
            head = bytes(self.data[only:only + 24]) + pack(">QIII", (sequence - 1) % (1 << 64), 1, place, place)
            head += pack(">I", crc32(head + bytes(4)))
            later = pack(">IQQQ", 0, self.word(only + 56, 8), at // self.size, journal).ljust(self.size - 52, b"\0")
            self.put(at // self.size, 0, head + pack(">I", crc32c_raw(later)) + later)
            self.open.add(at // self.size)

    def add_files(self):
        """Puts in the files that are left out here, and the names that lead to them."""
        names = []
        for journal in range(len(self.journals)):
            for word, count, size in ((b"inum_range", RANGE, None), (b"statfs_change", COUNTS, None), (b"quota_change", 0, CHANGES)):
                block, number = self.inode(FILE, bytes(count), JDATA | SYSTEM, size=size)
                names.append((word + b"%d" % journal, number, block, FILE))
        block, number = self.directory(self.master, names)
        names = [(b"per_node", number, block, DIRECTORY)]
        for word, count in ((b"quota", QUOTAS), (b"statfs", COUNTS), (b"inum", 8)):
            block, number = self.inode(FILE, bytes(count), JDATA | SYSTEM)
            names.append((word, number, block, FILE))
        self.put(block, 232, pack(">Q", self.numbers + 1))
        self.add_names(self.master, names)
        return names[2][2]

    def add_group(self, length, statfs, before):
        """Puts the header and the bitmap of the group behind the end, of so many blocks, its entry, and the counts of all groups.
        False where these blocks don't suffice."""
        count = (len(self.taken) + 3) // 4 * 4
        if count > (self.size - 128) * 4 + (length - 1) * (self.size - 24) * 4:
            return False
        free, dinodes, first = count - len(self.taken), self.taken.count(DINODE), self.first + length
        self.data += bytes(self.start(free))
        self.put_entry(pack(">QIIQII", self.first, length, 0, first, count, count // 4))
        self.put(statfs, 232, pack(">QQQ", before[0] + count, before[1] + free, before[2] + dinodes))
        bits = bytearray(count // 4)
        for i, state in enumerate(self.taken):
            bits[i // 4] |= state << 2 * (i % 4)
        head = (header(2, 200) + pack(">IIIIQQII", 0, free, dinodes, 0, self.numbers, first, count, count // 4)).ljust(128, b"\0")
        self.put(self.first, 0, head[:64] + pack(">I", crc32(head)) + head[68:] + bits[:self.size - 128])
        for block in range(self.first + 1, first):
            at = self.size - 128 + (block - self.first - 1) * (self.size - 24)
            self.put(block, 0, header(3, 300) + bits[at:at + self.size - 24])
        return True

    def counts(self):
        """Data blocks, free blocks and dinodes of all groups, as their headers say."""
        groups = self.groups()
        return (sum(it[3] for it in groups), sum(self.field(it[0], 28, 4) for it in groups),
                sum(self.field(it[0], 32, 4) for it in groups))


def changed_copy(image):
    """A copy of the image with all that fsck.gfs2 wants. Which blocks are added shows how many the bitmap of their group takes."""
    for length in range(1, 65):
        copy = Copy(image)
        before = copy.counts()
        copy.data += bytes(copy.start(length))
        statfs = copy.add_files()
        copy.add_entry()
        if copy.add_group(length, statfs, before):
            break
    for block in (copy.master, copy.jindex):
        copy.put(block, 128, pack(">I", copy.field(block, 128, 4) | SYSTEM))
    copy.add_headers()
    return copy


def differing(image, copy):
    """The blocks of the image that the copy has otherwise."""
    size = copy.size
    return [at // size for at in range(0, len(image), size) if image[at:at + size] != copy.data[at:at + size]]


def judged(image):
    """What is wrong with an image: nothing where fsck.gfs2 has nothing against it."""
    image = bytes(image)
    copy = changed_copy(image)
    others = set(differing(image, copy)) - copy.open
    if others:
        return ["the copy differs from the image at the blocks %s" % sorted(others)]
    with tempfile.NamedTemporaryFile() as file:
        file.write(copy.data + bytes(SPARE))
        file.flush()
        status, said = asked(file.name, "-n")
    return said + ["fsck.gfs2 ends with status %d" % status] * (status != 0)


def asked(name, how):
    """How fsck.gfs2 ends on this file, and what it says but for its progress."""
    ended = subprocess.run([FSCK, how, name], stdin=subprocess.DEVNULL, stdout=subprocess.PIPE, stderr=subprocess.STDOUT)
    return ended.returncode, [line for line in ended.stdout.decode(errors="replace").splitlines() if not is_progress(line)]


def replays_judged(image, replayed):
    """What fsck.gfs2 leaves of a copy of a dirty image otherwise than it is replayed here. What it wants is added to the replayed image, and then
    each block that the replay changed is put back."""
    copy = changed_copy(replayed)
    wanted, size = bytes(copy.data) + bytes(SPARE), copy.size
    places = {at // size for journal in copy.journals for at, _ in copy.places(journal)}
    for block in range(len(image) // size):
        old = image[block * size:(block + 1) * size]
        if old != replayed[block * size:(block + 1) * size]:
            if block in copy.open:
                raise Unknown("block %d is one that the copy changes" % block)
            copy.put(block, 0, old)
    copy.add_headers()
    with tempfile.NamedTemporaryFile() as file:
        file.write(copy.data + bytes(SPARE))
        file.flush()
        status, said = asked(file.name, "-y")
        told = ["fsck.gfs2 -y ends with status %d: %s" % (status, " / ".join(said))] if status != 1 else []
        with open(file.name, "rb") as left:
            now = left.read()
        others = [at // size for at in range(0, len(wanted), size) if now[at:at + size] != wanted[at:at + size] and at // size not in places]
        if others:
            told.append("fsck.gfs2 -y leaves other blocks: %s; it says: %s" % (others, " / ".join(said)))
        status, said = asked(file.name, "-n")
        told += ["fsck.gfs2 afterwards: " + line for line in said] + ["fsck.gfs2 afterwards: status %d" % status] * (status != 0)
    return told


def is_progress(line):
    return line.startswith(PROGRESS) or " completed in " in line or line.endswith(" percent complete.") or not line.strip()


# ---- random scripts

WORDS = ["create"] * 5 + ["mkdir"] * 3 + ["unlink"] * 2 + ["rmdir"] * 2 + ["write"] * 7 + ["truncate"] * 2 + ["rename"] * 4 + ["read"] * 3 + ["stat"] * 3 + ["list"] * 2 + ["sync"]


def new_image(random, folder):
    """A new image, with few free blocks or many, in one group or in several."""
    size, name = random.choice((512, 1024, 2048, 4096)), os.path.join(folder, "image")
    journals, groups = random.choice((1, 1, 2, 3, 5, 8)), random.choice((1, 1, 2, 5))
    words = ["mkfs", "--bsize", str(size), "--journals", str(journals), "--journal-blocks", "512", "--groups", str(groups)]
    blocks, more = 65536 // size + 512, random.choice((0, 1, 4, 30, 300))
    while True:
        with open(name, "wb") as file:
            file.truncate(size * blocks)
        ended = subprocess.run([PROGRAM, name, os.path.join(folder, "trace"), *words], stdin=subprocess.DEVNULL, stdout=subprocess.PIPE)
        if ended.returncode == 0 and more == 0:
            break
        # A device that is too small is told how many blocks are needed.
        needed = blocks if ended.returncode == 0 else int(ended.stdout.split()[3])
        blocks, more = (needed + more, 0) if ended.returncode == 0 else (needed, more)
    with open(name, "rb") as file:
        return file.read(), "%d blocks of %d bytes, %d groups" % (blocks, size, groups)


def some_name(random):
    form = random.randrange(12)
    if form == 0:
        return random.choice("xyz") * random.choice((100, 254, 255))
    if form == 1:
        return "".join("%%%02x" % random.randrange(1, 0x20) for _ in range(random.randint(1, 20)))
    return random.choice("abcdefg") * random.randint(1, 2)


def some_path(random, paths):
    """A path that there is, or one below it, which may be there or not."""
    path = random.choice(paths)
    if random.randrange(3):
        path = path.rstrip("/") + "/" + some_name(random)
    return path if len(path) < 900 else "/"


def some_place(random, size):
    """A place in a file: mostly near the start or near the end of what a height has room for, and seldom far out."""
    room, most = size - 232, random.randrange(60)
    for _ in range(0 if most > 20 else 3 if most == 0 else 2 if most < 3 else 1):
        room = (size - 232) // 8 * size if room < size else room * ((size - 24) // 8)
    return min(random.choice((0, random.randrange(room), max(0, room + random.randint(-2, 2)))), (1 << 26) + 1)


def some_call(random, paths, size):
    word, path = random.choice(WORDS), some_path(random, paths)
    if word == "sync":
        return word
    if word == "rename":
        return "rename %s %s" % (path, some_path(random, paths))
    if word == "read":
        return "read %s %d %d" % (path, some_place(random, size), random.choice((0, 1, 7, 16384)))
    if word == "truncate":
        return "truncate %s %d" % (path, some_place(random, size))
    if word == "write":
        count = random.randint(1, random.choice((3, 40, size, 3 * size, 16384)))
        fill = count > 2000 or random.randrange(2)
        content = "fill:%02x:%d" % (random.randrange(256), min(count, 16384)) if fill else random.randbytes(count).hex()
        return "write %s %d %s" % (path, some_place(random, size), content)
    return "%s %s" % (word, path)


def crowded_call(random, place, crowd):
    """A call on one of many names in one directory, some of which are long, and some of which have hashes that begin alike; or one
    that makes the directory, or would take it away."""
    if place != "/" and random.randrange(100) == 0:
        return random.choice(("mkdir ", "rmdir ")) + place
    number = random.randrange(crowd)
    if number % 4 == 0:
        name = alike(40)[number // 4 % 40]
    else:
        name = "%d%s" % (number, "n" * (number * 37 % 250 if number % 3 else 0))
    word, path = random.choice(["create"] * 12 + ["mkdir"] * 4 + ["unlink"] * 5 + ["rename"] * 5 + ["rmdir", "stat", "stat"]), place.rstrip("/") + "/" + name
    if word == "rename":
        other = random.choice((place.rstrip("/"), "", "/a")) + "/" + random.choice((name, "%d" % random.randrange(crowd), name[:-1] + "z"))
        return "rename %s %s" % random.choice(((path, other), (other, path)))
    return "%s %s" % (word, path)


@lru_cache
def alike(count):
    """So many names of which the hashes begin with the same 15 bits."""
    found = {}
    for number in range(1 << 24):
        names = found.setdefault(crc32(b"%d-alike" % number) >> 17, [])
        names.append("%d-alike" % number)
        if len(names) == count:
            return names


def some_script(random, disk):
    """A script. In one of three scripts one directory gets many names; one of two has a crash, at a line or at a write."""
    paths, lines = ["/"], ["nodes 1", "client p on 1", "client q on 1"]
    crash = random.choice(("line", "write", "", ""))
    if crash == "write":
        lines.append("crash 1 at %d %s" % (random.choice((random.randint(1, 60), random.randint(1, 1500))), random.choice(("old", "new", "torn %d" % random.choice((1, 24, 40, 48, 52, 300, random.randint(1, 4095)))))))
    crowd, place = random.choice((0, 0, random.choice((40, 150, 600)))), random.choice(("/", "/e"))
    for _ in range(random.choice((20, 100, 400)) + 3 * crowd):
        if crowd and random.randrange(4):
            call = crowded_call(random, place, crowd)
        else:
            call = some_call(random, paths, disk.size)
        reply = disk.answer(call)[0]
        word, path, other = (call.split(" ") + ["", ""])[:3]
        if reply == "ok" and word in ("create", "mkdir"):
            paths += [path] * (4 if word == "mkdir" else 1)
        elif reply == "ok" and word in ("unlink", "rmdir"):
            paths = [it for it in paths if it != path]
        elif reply == "ok" and word == "rename" and path != other:
            paths = [other + it[len(path):] if (it + "/").startswith(path + "/") else it for it in paths if it != other]
        lines.append("%s: %s" % (random.choice("pq"), call))
        if random.randrange(20) == 0:
            lines.append(random.choice(("wait", "p: sync", "q: sync")))
        if crash == "line" and random.randrange(400) == 0:
            lines.append(random.choice(("crash 1", "crash all")))
    return "".join(it + "\n" for it in lines)


def shown(disk, clean):
    """What `show` is to print of a tree; `clean` says of each journal whether it was left so."""
    lines = ["journal %d %s" % (i, "clean" if it else "dirty") for i, it in enumerate(clean)]

    def below(path, inode):
        lines.append("dir " + (path or "/"))
        for name in disk.names(inode):
            child, here = disk.look(inode, name)[2], path + "/" + spelled(name)
            if disk.is_directory(child):
                below(here, child)
            else:
                content = disk.content(child)
                lines.append("file %s %d %08x" % (here, len(content), crc32(content)))
    below("", disk.root)
    return "".join(it + "\n" for it in lines + ["done"])


def compared(folder, image, time, script):
    """In what the run of a script differs from what is wanted of it: status, output and trace, the disk's bytes, and the tree that is shown, which is that
    of the calls that are left."""
    names = [os.path.join(folder, it) for it in ("image", "trace")]
    with open(names[0], "wb") as file:
        file.write(image)
    run = Run(image, script, time)
    ended = subprocess.run([PROGRAM, *names, "run", "--time", str(time)], input=script.encode(), stdout=subprocess.PIPE)
    with open(names[1]) as file:
        found = (ended.returncode, ended.stdout.decode(), file.read())
    told = ["%s: %s" % (what, first_other(it, other)) for what, it, other in zip(("status", "output", "trace"), (run.status, run.out, run.trace), found) if it != other]
    with open(names[0], "rb") as file:
        left = file.read()
    if left != run.image:
        told.append("the image is another, at the blocks %s" % differing(left, Disk(run.image)))
    wanted = shown(tree_of(image, run.left, time), run.clean)
    if shown(tree_of(run.image), run.clean) != wanted:
        told.append("the image stands for another tree than that of what remains")
    ended = subprocess.run([PROGRAM, *names, "show"], stdin=subprocess.DEVNULL, stdout=subprocess.PIPE)
    if ended.stdout.decode() != wanted:
        told.append("what is shown is another: %.300r" % ended.stdout)
    if FSCK:
        if not all(run.clean):
            subprocess.run([PROGRAM, *names, "replay"], stdin=subprocess.DEVNULL, stdout=subprocess.DEVNULL)
            with open(names[0], "rb") as file:
                left = file.read()
        told += ["fsck.gfs2: " + it for it in judged(left)]
    return told, run


def first_other(wanted, found):
    """The first lines of two texts that differ."""
    if not isinstance(wanted, str):
        return "wanted %r, found %r" % (wanted, found)
    lines = wanted.splitlines() + ["(the end)"], found.splitlines() + ["(the end)"]
    return "line %d: wanted %.100r, found %.100r" % next((at, *it) for at, it in enumerate(zip(*lines), 1) if it[0] != it[1])


def tried(number, folder):
    """In what the run of a random script differs, and what kind of a run it was."""
    random = Random(number)
    image, kind = new_image(random, folder)
    time = random.randrange(1 << 40)
    script = some_script(random, Disk(image, time))
    told, run = compared(folder, image, time, script)
    return told, "%s, %d lines, %d flushes, %d crashes" % (kind, script.count("\n"), run.trace.count("\ncommit "), run.trace.count("\ncrash "))


def deepest(folder):
    """The same of the deepest tree that paths of 1,024 bytes can make."""
    name = os.path.join(folder, "image")
    with open(name, "wb") as file:
        file.truncate(512 * 1300)
    words = ["mkfs", "--bsize", "512", "--journal-blocks", "512"]
    subprocess.run([PROGRAM, name, os.path.join(folder, "trace"), *words], stdin=subprocess.DEVNULL, stdout=subprocess.DEVNULL, check=True)
    with open(name, "rb") as file:
        image = file.read()
    calls = ["mkdir " + "/d" * level for level in range(1, 513)]
    calls += [it % ("/d" * 512) for it in ("stat %s", "rmdir %s", "create %s", "write %s 0 61", "read %s 0 9")] + ["list " + "/d" * 511]
    script = "nodes 1\nclient c on 1\n" + "".join("c: %s\n" % it for it in calls)
    return compared(folder, image, 0, script)[0], "the deepest tree"


def try_scripts(count):
    bad = 0
    with tempfile.TemporaryDirectory() as folder:
        for number in range(count + 1):
            told, kind = tried(number, folder) if number else deepest(folder)
            bad += bool(told)
            for line in told:
                print("script %d (%s): %s" % (number, kind, line))
    print("checks/fsck.py: the deepest tree and %d random scripts: %d differ; %s" % (count, bad, "their images are judged by fsck.gfs2" if FSCK else MISSING))
    return 1 if bad else 0


# ---- images whose journals are dirty

def commanded(folder, image, *words):
    """The status, the output and the trace of a command on an image, and the image afterwards."""
    names = [os.path.join(folder, it) for it in ("image", "trace")]
    with open(names[0], "wb") as file:
        file.write(image)
    ended = subprocess.run([PROGRAM, *names, *words], stdin=subprocess.DEVNULL, stdout=subprocess.PIPE)
    with open(names[1]) as file:
        trace = file.read()
    with open(names[0], "rb") as file:
        return (ended.returncode, ended.stdout.decode(), trace), file.read()


def replayed_wrong(folder, dirty):
    """In what an image is shown or replayed otherwise than it should be."""
    found, left = commanded(folder, dirty.image, "replay")
    told = []
    if dirty.told:
        told += ["replay: wanted %.300r, found %.300r" % it for it in zip((0, *dirty.told), found) if it[0] != it[1]]
        if left != dirty.replayed:
            told.append("replay leaves other blocks: %s" % [at for at in range(len(left) // Copy(left).size) if block_of(left, at) != block_of(dirty.replayed, at)])
        lines = shown(Disk(dirty.replayed), dirty.clean)
        seen, same = commanded(folder, dirty.image, "show")
        told += ["show: wanted %.300r, found %.300r" % it for it in zip((0, lines, ""), seen) if it[0] != it[1]]
        if same != dirty.image:
            told.append("show changes the image")
    elif found[0]:
        told.append("replay ends with status %d" % found[0])
    if FSCK and left != dirty.image:
        told += replays_judged(dirty.image, left)
    return told


def block_of(image, block):
    size = int.from_bytes(image[65536 + 36:65536 + 40], "big")
    return image[block * size:(block + 1) * size]


def try_replays(count):
    import dirty_images
    bad = rows = 0
    with tempfile.TemporaryDirectory() as folder:
        for dirty in dirty_images.row_images(folder):
            rows += 1
            bad += tell("%s" % dirty.kind, replayed_wrong(folder, dirty))
        for number in range(1, count + 1):
            dirty = dirty_images.random_image(number)
            bad += tell("journals %d (%s)" % (number, dirty.kind), replayed_wrong(folder, dirty))
    print("checks/fsck.py: the dirty images of %d rows and %d random ones: %d differ; %s" % (rows, count, bad, "fsck.gfs2 -y replays them too" if FSCK else MISSING))
    return 1 if bad else 0


def tell(what, told):
    for line in told:
        print("%s: %s" % (what, line))
    return bool(told)


def main(words):
    if words[:1] == ["--scripts"]:
        return try_scripts(int(words[1]))
    if words[:1] == ["--replays"]:
        return try_replays(int(words[1]))
    if not FSCK:
        print("checks/fsck.py: skipped, " + MISSING)
        return 0
    bad = 0
    for name in words:
        with open(name, "rb") as file:
            told = judged(file.read())
        bad += bool(told)
        for line in told or ["stands"]:
            print("%s: %s" % (name, line))
    return 1 if bad else 0


if __name__ == "__main__":
    sys.exit(main(sys.argv[1:]))
