"""Tries the rows of crates/rows/data on the built program, with real files: `rows.py [FILE..]`.

It makes each image with the program's own `mkfs`, and lays files and patches over it from its own reading of the formats
(docs/FORMAT.md), without any of the project's code. Rows in which calls fail or writes in flight are settled are left out and
counted. PROGRAM may name another program than crates/gfs2run/out/gfs2run. Ends with status 1 where a row differs.

Each image of which a row says what `show` prints afterwards, or on which a thousand calls ran, is judged by the distribution's
fsck.gfs2 too, where that is there (checks/fsck.py), but for those that the row itself has patched.
"""
import os
import re
import subprocess
import sys
import tempfile
from struct import pack, unpack_from
from zlib import crc32

sys.dont_write_bytecode = True
import fsck

HERE = os.path.dirname(os.path.abspath(__file__))
DATA = os.path.join(HERE, "..", "crates", "rows", "data")
PROGRAM = os.environ.get("PROGRAM") or os.path.join(HERE, "..", "crates", "gfs2run", "out", "gfs2run")

MAGIC = 0x01161970
HEADER = {"magic": (0, 4), "kind": (4, 4), "pad": (8, 8), "format": (16, 4), "jid": (20, 4)}
FIELDS = {
    1: {"fs_format": (24, 4), "multihost_format": (28, 4), "bsize": (36, 4), "bsize_shift": (40, 4),
        "master_number": (48, 8), "master": (56, 8), "root_number": (80, 8), "root": (88, 8),
        "lockproto": (96, 64), "locktable": (160, 64), "uuid": (256, 16)},
    2: {"flags": (24, 4), "free": (28, 4), "dinodes": (32, 4), "skip": (36, 4), "igeneration": (40, 8),
        "data0": (48, 8), "data": (56, 4), "bitbytes": (60, 4), "crc": (64, 4)},
    4: {"number": (24, 8), "address": (32, 8), "mode": (40, 4), "uid": (44, 4), "gid": (48, 4), "nlink": (52, 4),
        "size": (56, 8), "blocks": (64, 8), "atime": (72, 8), "mtime": (80, 8), "ctime": (88, 8), "major": (96, 4),
        "minor": (100, 4), "goal_meta": (104, 8), "goal_data": (112, 8), "generation": (120, 8), "flags": (128, 4),
        "payload_format": (132, 4), "height": (138, 2), "depth": (146, 2), "entries": (148, 4), "eattr": (168, 8),
        "content": (232, 0)},
    6: {"depth": (24, 2), "entries": (26, 2), "dirent_format": (28, 4), "next": (32, 8)},
    8: {"sequence": (24, 8), "flags": (32, 4), "tail": (36, 4), "blkno": (40, 4), "hash": (44, 4), "crc": (48, 4), "nsec": (52, 4),
        "sec": (56, 8), "addr": (64, 8), "jinode": (72, 8), "statfs_addr": (80, 8), "quota_addr": (88, 8), "local_total": (96, 8),
        "local_free": (104, 8), "local_dinodes": (112, 8)},
}
RECORD = {"number": (0, 8), "address": (8, 8), "hash": (16, 4), "rec_len": (20, 2), "name_len": (22, 2),
          "kind": (24, 2), "rahead": (26, 2), "name": (40, 0)}
ENTRY = {"addr": (0, 8), "length": (8, 4), "data0": (16, 8), "data": (24, 4), "bitbytes": (28, 4)}
CHANGES = ("file", "link", "leaf", "patch", "points", "flip", "cut", "grow", "name")
SKIPS = ("fails", "outcomes")
# What only the rows in memory look at.
ELSEWHERE = ("calls", "sweep")


class Wrong(Exception):
    """What is written in a row has no meaning."""


class Elsewhere(Exception):
    """The program would take the image to have blocks of another size."""


# ---- the text of rows

def entries_of(text):
    """(kind, name, [(words, [line])]) of each entry"""
    entries = []
    for line in text.split("\n"):
        if not line or line.startswith("#"):
            continue
        if not line.startswith("  "):
            kind, _, name = line.partition(" ")
            entries.append((kind, name, []))
            continue
        kind, _, items = entries[-1]
        line = line[2:]
        if kind != "text":
            if line.startswith("#"):
                continue
            if line.startswith("  "):
                items[-1][1].append(line[2:])
                continue
        items.append((line, []))
    return entries


def escaped(text):
    out = b""
    while True:
        before, slash, rest = text.partition("\\")
        out += before.encode()
        if not slash:
            return out
        if rest.startswith("\\"):
            out, text = out + b"\\", rest[1:]
        elif re.match("x[0-9a-f]{2}", rest):
            out, text = out + bytes.fromhex(rest[1:3]), rest[3:]
        else:
            raise Wrong("no escape: " + rest)


def content_of(image, words):
    """The bytes that these words are, or None."""
    if words.startswith('"'):
        return escaped(words[1:-1])
    form, _, rest = words.partition(":")
    if form == "hex":
        return bytes.fromhex(rest)
    if form == "fill":
        byte, count = rest.split(":")
        return bytes([int(byte, 16)]) * image.number(count)
    if form == "step":
        byte, step, count = rest.split(":")
        first, step = int(byte, 16), int(step, 16)
        return bytes((first + step * k) % 256 for k in range(image.number(count)))
    return None


def expanded(image, lines):
    out = []
    for line in lines:
        times = 1
        if line.startswith("\\at "):
            _, sizes, line = line.split(" ", 2)
            if str(image.size) not in sizes.split(","):
                continue
        if re.match(r"\\(log|home|head|clean) ", line):
            out += logged(image, *line[1:].split(" "))
            continue
        if line.startswith("\\times "):
            _, times, line = line.split(" ", 2)
            times = image.number(times)
        end = b"\n"
        if line.endswith("\\"):
            line, end = line[:-1], b""
        pieces = re.split(r"\{(.*?)\}", line)
        for k in range(times):
            for i, piece in enumerate(pieces):
                out.append(braced(image, piece, k + 1, times - k) if i % 2 else escaped(piece))
            out.append(end)
    return b"".join(out)


def logged(image, word, *words):
    """What node 1 writes with its log, in the first journal and at home, as lines of a trace."""
    at = lambda place: image.number("journal0.place%d" % place)
    if word in ("head", "clean"):
        found = ["write 1 %s %d %s" % (word, at(image.number(words[0])), " ".join(words[1:])), "barrier 1"]
        found += ["commit 1 " + " ".join(words[1:])] if word == "head" else []
    else:
        numbers = [it for part in words for it in image.range(part)]
        found = ["write 1 %s %d" % (word, at(it) if word == "log" else it) for it in numbers] + ["barrier 1"]
    return [b"%s\n" % it.encode() for it in found]


def is_judged(command):
    lines = [line for _, block in command for line in block]
    return any(item[0] == "shows" for item in command) or any(re.match(r"\\times [0-9]{4} c:", line) for line in lines)


def braced(image, words, up, down):
    if words == "":
        return b""
    counted = re.fullmatch(r"([id])(?:\+([0-9]+))?", words)
    if counted:
        return b"%d" % ((up if counted[1] == "i" else down) + int(counted[2] or 0))
    count, of, text = words.partition(" of ")
    if of:
        return escaped(text) * image.number(count)
    content = content_of(image, words)
    if content is not None:
        return content.hex().encode()
    return b"%d" % image.number(words)


def name_of(spelled):
    if spelled == '""':
        return b""
    return re.sub(rb"%(..)", lambda m: bytes([int(m[1], 16)]), spelled.encode())


# ---- images

class Image:
    def __init__(self, size, data):
        self.size, self.data, self.names = size, bytearray(data), {}
        self.names["super"] = 65536 // size
        self.names["past"] = len(data) // size
        at = 65536
        if len(data) >= at + 272 and self.word(at, 4) == MAGIC:
            self.name_structures(at)

    def name_structures(self, at):
        names = self.names
        names.update(group=names["super"] + 1, master=self.word(at + 56, 8), root=self.word(at + 88, 8))
        for word, directory in (("rindex", "master"), ("jindex", "master"), *(("journal%d" % j, "jindex") for j in range(8))):
            place = directory in names and self.record(names[directory], word.encode())
            if place:
                names[word] = self.word(self.start(names[directory]) + place + 8, 8)

    def copy(self):
        other = Image(self.size, b"")
        other.data, other.names = bytearray(self.data), dict(self.names)
        return other

    def start(self, block):
        return block * self.size

    def word(self, at, width):
        return int.from_bytes(self.data[at:at + width], "big")

    def put(self, at, data):
        if at + len(data) > len(self.data):
            raise Wrong("outside the device")
        self.data[at:at + len(data)] = data

    def kind(self, block):
        at = self.start(block)
        return self.word(at + 4, 4) if self.word(at, 4) == MAGIC else None

    def records(self, block):
        """The places in a directory's block at which records stand."""
        at = 104 if self.kind(block) == 6 else 232
        start = self.start(block)
        while at + 40 <= self.size:
            yield at
            length = self.word(start + at + 20, 2)
            if not length:
                return
            at += length

    def record(self, block, name):
        start = self.start(block)
        for at in self.records(block):
            count = self.word(start + at + 22, 2)
            if self.data[start + at + 40:start + at + 40 + count] == name:
                return at
        return None

    def free(self):
        group = self.start(self.names["group"])
        for index in range(self.word(group + 56, 4)):
            if not self.data[group + 128 + index // 4] >> 2 * (index % 4) & 3:
                return self.word(group + 48, 8) + index
        raise Wrong("no free block")

    def term(self, word):
        if re.fullmatch("[0-9]+", word):
            return int(word)
        if re.fullmatch("0x[0-9a-f]+|0o[0-7]+", word):
            return int(word, 0)
        if word in self.names:
            return self.names[word]
        if word == "size":
            return self.size
        if word == "area":
            return self.size - 232
        if word == "free":
            return self.free()
        found = re.fullmatch(r"(journal[0-7])\.(place|pointers)([0-9]+)", word)
        if found and found[1] in self.names:
            dinode, index = self.start(self.names[found[1]]), int(found[3])
            if found[2] == "pointers":
                return self.word(dinode + 232 + 8 * index, 8)
            each = (self.size - 24) // 8
            return self.word(self.start(self.word(dinode + 232 + index // each * 8, 8)) + 24 + index % each * 8, 8)
        return None

    def number(self, words):
        found = self.term(words)
        if found is not None:
            return found
        form = re.fullmatch(r"(?:([0-9]+)\*)?(.+?)(?:/([0-9]+))?(?:([+-])([0-9]+))?", words)
        if form:
            found = self.term(form[2])
        if not form or found is None:
            raise Wrong("no number: " + words)
        more = int(form[5] or 0)
        return int(form[1] or 1) * found // int(form[3] or 1) + (more if form[4] == "+" else -more)

    def range(self, words):
        first, _, last = words.partition("..")
        first = self.number(first)
        return range(first, (self.number(last) if last else first) + 1)


def place_of(base, now, words):
    """Where a patch stands, how many bytes its number has, and what is put."""
    words = words.split(" ")
    if words[0] == "block":
        words.pop(0)
    block = base.number(words.pop(0))
    kind = base.kind(block) or now.kind(block)
    word = words.pop(0)
    if word == "record":
        at, field = base.record(block, name_of(words.pop(0))), words.pop(0)
        place = (int(words.pop(0)), 0) if field == "byte" else RECORD[field]
    elif word == "entry":
        at, field = 232 + 96 * int(words.pop(0)), words.pop(0)
        place = ENTRY[field]
    elif word == "pointer":
        at, place = (232 if kind == 4 else 24) + 8 * int(words.pop(0)), (0, 8)
    elif word in ("byte", "word"):
        at, place = 0, (int(words.pop(0)), 4 if word == "word" else 0)
    else:
        at, place = 0, HEADER.get(word) or FIELDS[kind][word]
    return base.start(block) + at + place[0], place[1], " ".join(words)


def patched(base, image, words):
    """Where a patch stands, and the bytes that it puts."""
    at, width, value = place_of(base, image, words)
    content = content_of(base, value)
    if content is None:
        if value[0] in "+-":
            number = image.word(at, width) + int(value, 0)
        else:
            number = base.number(value)
        content = (number % (1 << 8 * width)).to_bytes(width, "big")
    return at, content


def put_record(image, block, name, number, address, kind):
    """Puts a record behind the others of a directory in one block or of a leaf, in the place of one that is not in use,
    and counts it."""
    start, at = image.start(block), list(image.records(block))[-1]
    length = image.word(start + at + 20, 2)
    if image.word(start + at, 8) and image.word(start + at + 8, 8):
        own = (image.word(start + at + 22, 2) + 47) // 8 * 8
        image.put(start + at + 20, pack(">H", own))
        at, length = at + own, length - own
    if length < (len(name) + 47) // 8 * 8:
        raise Wrong("no room for a record")
    image.put(start + at, pack(">QQIHHH", number, address, crc32(name), length, len(name), kind))
    image.put(start + at + 40, name)
    place, width = (26, 2) if image.kind(block) == 6 else (148, 4)
    image.put(start + place, (image.word(start + place, width) + 1).to_bytes(width, "big"))


def put_leaf(image, block, depth, following):
    start = image.start(block)
    image.put(start, pack(">IIQIIHHIQ", MAGIC, 6, 0, 600, 0, depth, 0, 1200, following) + bytes(64))
    image.put(start + 104, bytes(20) + pack(">HH", image.size - 104, 0))


def lay(image, spelled, content):
    block, group, root = image.free(), image.start(image.names["group"]), image.start(image.names["root"])
    index = block - image.word(group + 48, 8)
    image.data[group + 128 + index // 4] |= 3 << 2 * (index % 4)
    free, dinodes, skip, number = unpack_from(">IIIQ", image.data, group + 28)
    image.put(group + 28, pack(">IIIQ", free - 1, dinodes + 1, skip, number + 1))
    image.put(group + 64, bytes(4))
    image.put(group + 64, pack(">I", crc32(image.data[group:group + 128])))
    if len(content) > image.size - 232:
        raise Wrong("a file of more than one block")
    dinode = pack(">IIQII", MAGIC, 4, 0, 400, 0) + pack(">QQIIIIQQ", number + 1, block, 0o100644, 0, 0, 1, len(content), 1)
    dinode += image.data[root + 72:root + 96] + pack(">IIQQQI", 0, 0, block, block, number + 1, 1)
    image.put(image.start(block), dinode + bytes(232 - len(dinode)) + content)
    put_record(image, image.names["root"], name_of(spelled), number + 1, block, 8)
    image.names["/" + spelled] = block


def change(base, image, words):
    word, _, rest = words.partition(" ")
    base = base or image
    if word == "file":
        name, _, content = rest.partition(" ")
        lay(image, name, content_of(image, content))
    elif word == "link":
        directory, name, file = rest.split(" ")
        file = image.number(file)
        at = image.start(file)
        kind = 4 if image.word(at + 40, 4) >> 12 == 4 else 8
        put_record(image, image.number(directory), name_of(name), image.word(at + 24, 8), file, kind)
    elif word == "leaf":
        block, depth, *following = (image.number(part) for part in rest.split(" "))
        put_leaf(image, block, depth, following[0] if following else 0)
    elif word == "patch":
        image.put(*patched(base, image, rest))
    elif word == "points":
        block, first, count, to = (base.number(part) for part in rest.split(" "))
        at = base.start(block) + (232 if (base.kind(block) or image.kind(block)) == 4 else 24) + 8 * first
        image.put(at, pack(">Q", to) * count)
    elif word == "flip":
        for part in rest.split(" "):
            for block in base.range(part):
                image.data[image.start(block) + block % image.size] ^= 0x10
    elif word == "cut":
        del image.data[image.start(base.number(rest)):]
    elif word == "grow":
        image.data += bytes(image.start(base.number(rest)))
    elif word == "name":
        name, number, *size = rest.split(" ")
        if not size or int(size[1]) == image.size:
            image.names[name] = image.number(number)
    else:
        raise Wrong("no item of an image: " + words)


# ---- the program

class Runner:
    def __init__(self, folder):
        self.image, self.trace = os.path.join(folder, "image"), os.path.join(folder, "trace")

    def carry(self, image, words, script=b""):
        """The status, the output and the trace of a command, and what is on the image then."""
        with open(self.image, "wb") as file:
            file.write(image.data)
        ended = subprocess.run([PROGRAM, self.image, self.trace, *words], input=script, stdout=subprocess.PIPE)
        with open(self.image, "rb") as file:
            image.data = bytearray(file.read())
        with open(self.trace, "rb") as file:
            return ended.returncode, ended.stdout, file.read()


class Book:
    def __init__(self, runner):
        self.runner, self.texts, self.images, self.judged = runner, {}, {}, 0

    def made(self, words):
        """The image that an item makes anew, or None."""
        word, _, rest = words.partition(" ")
        if word not in ("zeros", "ones", "mkfs"):
            return None
        size, blocks, *others = rest.split(" ")
        size, blocks = int(size), int(blocks)
        image = Image(size, (b"\xff" if word == "ones" else b"\0") * (size * blocks))
        if word == "mkfs":
            status, out, _ = self.runner.carry(image, ["mkfs", "--bsize", str(size), *others])
            if status:
                raise Wrong("mkfs: " + out.decode())
            image = Image(size, image.data)
        return image

    def take_image(self, name, items):
        if name in self.images:
            raise Wrong("a second image of the name " + name)
        images = []
        for words, _ in items:
            if words.startswith("from "):
                images += [image.copy() for image in self.images[words[5:]]]
                continue
            image = self.made(words)
            if image:
                images.append(image)
                continue
            for image in images:
                change(None, image, words)
        self.images[name] = images

    def text(self, image, name, block):
        return expanded(image, (self.texts[name] if name else []) + block)

    def sizes(self, items):
        for words, _ in items:
            if words.startswith("sizes "):
                return [int(word) for word in words.split(" ")[1:]]
        word, rest = items[0][0].split(" ", 1)
        if word == "image":
            return [image.size for image in self.images[rest]]
        return [int(rest.split(" ")[0])]

    def try_row(self, items):
        """In what a row differs, or None where the program can be asked in none of its sizes."""
        told, tried = [], False
        for size in self.sizes(items):
            try:
                told += ["at %d: %s" % (size, line) for line in self.try_at(items, size)]
                tried = True
            except Elsewhere:
                pass
        return told if tried else None

    def try_at(self, items, size):
        base, words = None, items[0][0]
        if words.startswith("image "):
            base = next(image for image in self.images[words[6:]] if image.size == size)
            image = base.copy()
        else:
            image = self.made(words)
        told, command, is_patched = [], [], False
        for item in items[1:] + [("do", [])]:
            word = item[0].split(" ")[0]
            if word == "sizes":
                continue
            if word == "do" or word in CHANGES:
                if command:
                    told += self.command(base, image, command)
                    if not is_patched and is_judged(command):
                        told += self.judge(image)
                command = []
            if word in CHANGES:
                change(base, image, item[0])
                is_patched = True
            else:
                command.append(item)
        return told

    def judge(self, image):
        """What fsck.gfs2 has against an image, once its journals are replayed."""
        if not fsck.FSCK:
            return []
        self.judged += 1
        copy = image.copy()
        self.runner.carry(copy, ["replay"])
        return ["fsck.gfs2: " + line for line in fsck.judged(copy.data)]

    def command(self, base, image, items):
        """In what a command differs."""
        words = items[0][0].split(" ")[1:]
        if not items[0][0].startswith("do"):
            raise Wrong("no command before " + items[0][0])
        if taken_size(words, image) != image.size:
            raise Elsewhere
        names = (base or image).copy()
        script, status, out, trace, later, is_history = b"", 0, b"", b"", [], False
        for item, block in items[1:]:
            word, _, rest = item.partition(" ")
            if word == "script":
                script = self.text(names, rest, block)
            elif word == "status":
                status = int(rest)
            elif word == "out":
                out = self.text(names, rest, block)
            elif word in ("trace", "history"):
                trace, is_history = self.text(names, rest, block), word == "history"
            elif word == "told":
                number, line = rest.split(" ", 1)
                status, out = int(number), expanded(names, [line])
            elif word in ("shows", "crc", "same", "holds"):
                later.append((word, rest, block))
            elif word not in ELSEWHERE:
                raise Wrong("no item of a row: " + item)
        before = bytes(image.data)
        found = self.runner.carry(image, words, script)
        if is_history:
            found = (*found[:2], re.sub(rb"(?m)^(write|barrier|commit) .*\n", b"", found[2]))
        told = [differ(*part) for part in zip(("status", "out", "trace"), (status, out, trace), found)]
        for word, rest, block in later:
            if word == "shows":
                shown = self.runner.carry(image, ["show"])
                told.append(differ("the show afterwards", (0, self.text(names, "", block), b""), shown))
            elif word == "holds":
                at, content = patched(image if base is None else base, image, rest)
                if image.data[at:at + len(content)] != content:
                    told.append("not so: holds " + rest)
            elif word == "crc":
                told.append(differ("crc", rest, "%08x" % crc32(image.data)))
            elif bytes(image.data) != before:
                told.append("the image is not as it was")
        return [line for line in told if line]


def taken_size(words, image):
    """The size of a block that the program takes: that behind the first --bsize, else that of the superblock, else 4096."""
    given = words[words.index("--bsize") + 1:] if "--bsize" in words else []
    for size in (int(given[0]) if given and given[0].isdigit() else 0, image.word(65536 + 36, 4)):
        if size in (512, 1024, 2048, 4096):
            return size
    return 4096


def differ(what, wanted, found):
    if wanted == found:
        return None
    return "%s: wanted %.300r, found %.300r" % (what, wanted, found)


def main(files):
    files = files or [os.path.join(DATA, name) for name in open(os.path.join(DATA, "..", "args")).read().split()]
    good = skipped = bad = 0
    with tempfile.TemporaryDirectory() as folder:
        book = Book(Runner(folder))
        for name in files:
            with open(name, encoding="utf-8") as file:
                text = file.read()
            for kind, name, items in entries_of(text):
                if kind == "text":
                    book.texts[name] = [words for words, _ in items]
                elif kind == "image":
                    book.take_image(name, items)
                elif kind != "row":
                    raise Wrong("no entry: " + kind)
                elif any(words.split(" ")[0] in SKIPS for words, _ in items):
                    skipped += 1
                else:
                    told = book.try_row(items)
                    if told is None:
                        skipped += 1
                        continue
                    good, bad = good + (not told), bad + bool(told)
                    for line in told:
                        print("row %s: %s" % (name, line))
    print("%d rows ok, %d skipped%s" % (good, skipped, ", %d differ" % bad if bad else ""))
    print("%d images judged by fsck.gfs2" % book.judged if fsck.FSCK else "no image judged: fsck.gfs2 is not here (package gfs2-utils)")
    return 1 if bad else 0


if __name__ == "__main__":
    sys.exit(main(sys.argv[1:]))
