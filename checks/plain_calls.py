"""Takes the calls of scripts on an image, plainly and slowly: a model of its own of what one node alone answers, and of the blocks that each call changes.

It is written from docs/CALLS.md and docs/FORMAT.md, without any of the project's code. Here each call changes the image at once; plain_log.py puts a node's log
over it, and works out what a run tells and leaves.
"""
import re
from struct import pack, unpack_from
from zlib import crc32

MAGIC = 0x01161970
LARGEST = 67108864


class Refused(Exception):
    """The answer of a call that is refused, and how many blocks it would need where it is `nospace`."""


def spelled(name):
    return "".join(chr(it) if 0x21 <= it <= 0x7e and it != 0x25 else "%%%02x" % it for it in name)


def names_of(path):
    return [re.sub(rb"%(..)", lambda it: bytes([int(it[1], 16)]), it.encode()) for it in path.split("/") if it]


def content_of(word):
    fill = re.fullmatch("fill:(..):([0-9]+)", word)
    return bytes([int(fill[1], 16)]) * int(fill[2]) if fill else bytes.fromhex(word)


def least_length(name_length):
    return (name_length + 47) // 8 * 8


def record(name, number, address, length, kind):
    return pack(">QQIHHHH", number, address, crc32(name), length, len(name), kind, 0) + bytes(12) + name


def packed(names, room):
    """(name, length) of records one behind another in so much room, of which the last takes the rest."""
    lengths = [least_length(len(it)) for it in names]
    return [(it, room - sum(lengths[:index]) if index == len(names) - 1 else lengths[index]) for index, it in enumerate(names)] or [(None, room)]


def without(slots, names):
    """(name or None, length) of what is left where these names' records are cut."""
    left = []
    for name, length in slots:
        if name is None or name not in names:
            left.append((name, length))
        elif left:
            left[-1] = (left[-1][0], left[-1][1] + length)
        else:
            left.append((None, length))
    return left


class Disk:
    """An image's blocks, and its groups as `rindex` has them."""

    def __init__(self, data, time=0):
        self.data, self.time = bytearray(data), time
        # Of blocks that were taken since: the inode, and whether a file's content goes there.
        self.owners = {}
        self.size = self.word(65536 + 36, 4)
        self.root = self.word(65536 + 88, 8)
        master = self.word(65536 + 56, 8)
        rindex = next(it for it in self.records(master) if it[0] == b"rindex")[2]
        text = self.content(rindex)
        self.groups = [unpack_from(">QII", text, at)[:2] + unpack_from(">QI", text, at + 16) for at in range(0, len(text), 96)]

    def word(self, at, width):
        return int.from_bytes(self.data[at:at + width], "big")

    def field(self, block, place, width):
        return self.word(block * self.size + place, width)

    def put(self, block, place, value, width=None):
        data = value if width is None else value.to_bytes(width, "big")
        at = block * self.size + place
        self.data[at:at + len(data)] = data

    # ---- content

    def blocks_under(self, block, place, height):
        """(block, whether it is content) of all that hangs below this block."""
        for at in range(block * self.size + place, block * self.size + self.size - 7, 8):
            pointer = self.word(at, 8)
            if pointer:
                yield pointer, height == 1
                if height > 1:
                    yield from self.blocks_under(pointer, 24, height - 1)

    def content(self, dinode, at=0, count=None):
        """The bytes of content from a place on, at most so many."""
        size, height = self.field(dinode, 56, 8), self.field(dinode, 138, 2)
        end = size if count is None else min(size, at + count)
        if height == 0:
            start = dinode * self.size + 232
            return bytes(self.data[start + at:start + end])
        found, first = [], at // self.size
        for index in range(first, -(-end // self.size)):
            pointer = self.pointer_to(dinode, height, 0, index)
            block = self.word(pointer, 8) if pointer else 0
            found.append(bytes(self.data[block * self.size:(block + 1) * self.size]) if block else bytes(self.size))
        return b"".join(found)[at - first * self.size:max(0, end - first * self.size)]

    # ---- groups

    def bits(self, block):
        """The group of a block, and where its bits stand: a byte of the image and a shift."""
        for address, length, first, count in self.groups:
            if first <= block < first + count:
                index, at, room = block - first, address * self.size + 128, (self.size - 128) * 4
                while index >= room:
                    index -= room
                    address += 1
                    at, room = address * self.size + 24, (self.size - 24) * 4
                return at + index // 4, 2 * (index % 4)
        raise ValueError("block %d is in no group" % block)

    def group_of(self, block):
        return next(it[0] for it in self.groups if it[2] <= block < it[2] + it[3])

    def count(self, block, free, dinodes, made=0):
        group = self.group_of(block)
        self.put(group, 28, self.field(group, 28, 4) + free, 4)
        self.put(group, 32, self.field(group, 32, 4) + dinodes, 4)
        self.put(group, 40, self.field(group, 40, 8) + made, 8)
        self.put(group, 20, 0, 4)
        self.put(group, 64, 0, 4)
        at = group * self.size
        self.put(group, 64, crc32(self.data[at:at + 128]), 4)
        return self.field(group, 40, 8)

    def set_state(self, block, state):
        at, shift = self.bits(block)
        self.data[at] = self.data[at] & ~(3 << shift) | state << shift

    def free_count(self):
        return sum(self.field(it[0], 28, 4) for it in self.groups)

    def least_free(self):
        for _, _, first, count in self.groups:
            for block in range(first, first + count):
                at, shift = self.bits(block)
                if not self.data[at] >> shift & 3:
                    return block
        return None

    # ---- directories

    def records(self, directory):
        """(name, formal number, address) of each record that is in use."""
        for area in self.areas(directory):
            yield from self.records_in(*area)

    def areas(self, directory):
        """(block, place) of each area of records."""
        return [(leaf, 104) for leaf in self.leaves(directory)] if self.is_hashed(directory) else [(directory, 232)]

    def records_in(self, block, place):
        for at, used, _ in self.slots(block, place):
            if used:
                number, address, _, _, count = unpack_from(">QQIHH", self.data, block * self.size + at)
                name = block * self.size + at + 40
                yield bytes(self.data[name:name + count]), number, address

    def slots(self, block, place):
        """(place in the block, whether it is in use, length) of each record of an area."""
        while place < self.size:
            at = block * self.size + place
            length = self.word(at + 20, 2)
            if length < 40:
                raise ValueError("a record of %d bytes" % length)
            yield place, self.word(at, 8) != 0 and self.word(at + 8, 8) != 0, length
            place += length

    def look(self, directory, name):
        """(name, formal number, address) of the record of a name."""
        for area in self.areas_for(directory, name):
            for found in self.records_in(*area):
                if found[0] == name:
                    return found
        return None

    def areas_for(self, directory, name):
        """The areas in which a name's record may stand."""
        return [(leaf, 104) for leaf in self.chain(directory, self.index(directory, name))] if self.is_hashed(directory) else [(directory, 232)]

    def has_room(self, block, place, name):
        """Where in an area a name's record goes: (place, whether a record in use is cut there, its length)."""
        for at, used, length in self.slots(block, place):
            own = least_length(self.field(block, at + 22, 2)) if used else 0
            if length - own >= least_length(len(name)):
                return at, own, length
        return None

    def insert_in(self, block, place, name, number, address, kind):
        at, own, length = self.has_room(block, place, name)
        if own:
            self.put(block, at + 20, own, 2)
        self.put(block, at + own, record(name, number, address, length - own, kind))

    def cut_from(self, block, place, name):
        before = None
        for at, used, length in self.slots(block, place):
            start = block * self.size + at + 40
            if used and bytes(self.data[start:start + self.field(block, at + 22, 2)]) == name:
                if before is None:
                    self.put(block, at, bytes(16))
                else:
                    self.put(block, before + 20, self.field(block, before + 20, 2) + length, 2)
                return
            before = at

    def insert(self, directory, name, number, address, kind):
        """Puts a name where it belongs; a block that is needed is the least that is free then."""
        if not self.is_hashed(directory) and not self.has_room(directory, 232, name):
            self.make_hashed(directory)
        if not self.is_hashed(directory):
            return self.insert_in(directory, 232, name, number, address, kind)
        while True:
            index = self.index(directory, name)
            chain = self.chain(directory, index)
            roomy = [leaf for leaf in chain if self.has_room(leaf, 104, name)]
            if roomy:
                self.insert_in(roomy[0], 104, name, number, address, kind)
                return self.put(roomy[0], 26, self.field(roomy[0], 26, 2) + 1, 2)
            if len(chain) == 1 and self.field(chain[0], 24, 2) < self.depth(directory):
                self.split(directory, index)
            elif len(chain) == 1 and self.depth(directory) < self.greatest_depth():
                self.double(directory)
            else:
                leaf = self.take(directory)
                self.put_leaf(leaf, self.field(chain[0], 24, 2), [])
                self.put(chain[-1], 32, leaf, 8)

    def remove(self, directory, name):
        for block, place in self.areas_for(directory, name):
            if any(it[0] == name for it in self.records_in(block, place)):
                self.cut_from(block, place, name)
                if place == 104:
                    self.put(block, 26, self.field(block, 26, 2) - 1, 2)
                return

    # ---- hashed directories

    def is_hashed(self, directory):
        return self.field(directory, 128, 4) & 2 != 0

    def depth(self, directory):
        return self.field(directory, 146, 2)

    def greatest_depth(self):
        return (8 * self.size).bit_length() - 1

    def index(self, directory, name):
        return crc32(name) >> 32 - self.depth(directory)

    def pointer(self, directory, index):
        """Where in the image a pointer of the table stands."""
        height = self.field(directory, 138, 2)
        if height == 0:
            return directory * self.size + 232 + 8 * index
        each = (self.size - 24) // 8
        return self.word(self.pointer_to(directory, height, 0, index // each), 8) * self.size + 24 + index % each * 8

    def chain(self, directory, index):
        leaf, found = self.word(self.pointer(directory, index), 8), []
        while leaf and leaf not in found:
            found.append(leaf)
            leaf = self.field(leaf, 32, 8)
        return found

    def leaves(self, directory):
        found, index = [], 0
        while index < 1 << self.depth(directory):
            chain = self.chain(directory, index)
            found += chain
            index += 1 << self.depth(directory) - self.field(chain[0], 24, 2)
        return found

    def put_leaf(self, block, depth, records):
        """A leaf with these records (name, number, address, kind) one behind another, the last of which takes the rest."""
        self.put(block, 0, (pack(">IIQII", MAGIC, 6, 0, 600, 0) + pack(">HHIQ", depth, len(records), 1200, 0)).ljust(self.size, b"\0"))
        place = 104
        for index, (name, number, address, kind) in enumerate(records):
            length = self.size - place if index == len(records) - 1 else least_length(len(name))
            self.put(block, place, record(name, number, address, length, kind))
            place += length
        if not records:
            self.put(block, place + 20, self.size - place, 2)

    def kept(self, block, place):
        """(name, number, address, kind) of each record of an area."""
        for at, used, _ in self.slots(block, place):
            if used:
                start = block * self.size + at
                number, address, _, _, count, kind = unpack_from(">QQIHHH", self.data, start)
                yield bytes(self.data[start + 40:start + 40 + count]), number, address, kind

    def make_hashed(self, directory):
        """A table of pointers to one leaf takes the place of the records."""
        records, leaf = list(self.kept(directory, 232)), self.take(directory)
        self.put_leaf(leaf, 0, records)
        count = self.size // 16
        self.put(directory, 232, (pack(">Q", leaf) * count).ljust(self.size - 232, b"\0"))
        self.put(directory, 56, 8 * count, 8)
        self.put(directory, 128, self.field(directory, 128, 4) | 2, 4)
        self.put(directory, 146, count.bit_length() - 1, 2)

    def split(self, directory, index):
        """A new leaf takes the lower half of a leaf's pointers, and of its records."""
        old = self.word(self.pointer(directory, index), 8)
        depth, new = self.field(old, 24, 2), self.take(directory)
        run = 1 << self.depth(directory) - depth
        lower = [it for it in self.kept(old, 104) if not crc32(it[0]) >> 31 - depth & 1]
        self.put_leaf(new, depth + 1, lower)
        for name, *_ in lower:
            self.cut_from(old, 104, name)
        self.put(old, 24, depth + 1, 2)
        self.put(old, 26, self.field(old, 26, 2) - len(lower), 2)
        for at in range(index // run * run, index // run * run + run // 2):
            place = self.pointer(directory, at)
            self.data[place:place + 8] = pack(">Q", new)

    def table_height(self, pointers):
        """How high a directory is whose table has so many pointers."""
        each, height = (self.size - 24) // 8, 0
        while (self.size - 232) // 8 * each ** height < pointers:
            height += 1
        return height

    def double(self, directory):
        """Each pointer comes twice: the table grows as a file does, of which each block has a header."""
        count = 1 << self.depth(directory)
        leaves = [self.word(self.pointer(directory, index), 8) for index in range(count)]
        self.rise(directory, self.table_height(2 * count))
        for index in range(-(-2 * count // ((self.size - 24) // 8))):
            self.block_for(directory, index)
        self.put(directory, 56, 16 * count, 8)
        self.put(directory, 146, self.depth(directory) + 1, 2)
        for index in range(2 * count):
            place = self.pointer(directory, index)
            self.data[place:place + 8] = pack(">Q", leaves[index // 2])

    def head_of_content(self, inode):
        """With what each block of an inode's content begins."""
        return pack(">IIQII", MAGIC, 7, 0, 700, 0) if self.is_directory(inode) else b""

    def need(self, directory, name):
        """How many blocks a directory takes for a name."""
        if not self.is_hashed(directory):
            if self.has_room(directory, 232, name):
                return 0
            depth, level, need = (self.size // 16).bit_length() - 1, 0, 1
            used, room = [it[0] for it in self.records(directory)], self.size - 104
            slots = packed(used, room)
        else:
            chain = self.chain(directory, self.index(directory, name))
            if any(self.has_room(leaf, 104, name) for leaf in chain):
                return 0
            if len(chain) > 1:
                return 1
            depth, level, need, room = self.depth(directory), self.field(chain[0], 24, 2), 0, self.size - 104
            slots, names = [], self.records_in(chain[0], 104)
            for _, used, length in self.slots(chain[0], 104):
                slots.append((next(names)[0] if used else None, length))
        wanted = least_length(len(name))
        while not any(length - (least_length(len(it)) if it is not None else 0) >= wanted for it, length in slots):
            if level < depth:
                upper = crc32(name) >> 31 - level & 1
                if upper:
                    slots = without(slots, [it for it, _ in slots if it is not None and not crc32(it) >> 31 - level & 1])
                else:
                    slots = packed([it for it, _ in slots if it is not None and not crc32(it) >> 31 - level & 1], room)
                level, need = level + 1, need + 1
            elif depth < self.greatest_depth():
                need += self.table_blocks(depth + 1) - self.table_blocks(depth)
                depth += 1
            else:
                return need + 1
        return need

    def table_blocks(self, depth):
        """How many blocks a table so deep takes beside the dinode's."""
        height, each = self.table_height(1 << depth), (self.size - 24) // 8
        return sum(-(-(1 << depth) // each ** (level + 1)) for level in range(height))

    def names(self, directory):
        return sorted(it[0] for it in self.records(directory) if it[0] not in (b".", b".."))

    def is_directory(self, inode):
        return self.field(inode, 40, 4) >> 12 & 15 == 4

    def stamp(self, inode):
        self.put(inode, 20, 0, 4)
        self.put(inode, 80, self.time, 8)
        self.put(inode, 88, self.time, 8)

    # ---- files that grow and are cut

    def room(self, height):
        """How many bytes of content a file of this height has room for."""
        if height == 0:
            return self.size - 232
        return (self.size - 232) // 8 * ((self.size - 24) // 8) ** (height - 1) * self.size

    def span(self, level):
        """How many blocks of content hang below a block so many levels above content."""
        return ((self.size - 24) // 8) ** level

    def pointer_to(self, inode, height, level, place):
        """Where in the image the pointer to the block at a place of a level stands; None where a block above it is a hole, or the tree,
        taken to be so high, is too low for it."""
        block, at, left = inode, 232, place
        for above in range(height - 1, level - 1, -1):
            step = self.span(above - level)
            at, left = at + left // step * 8, left % step
            if at >= self.size:
                return None
            if above == level:
                return block * self.size + at
            block, at = self.field(block, at, 8), 24
            if not block:
                return None
        return None

    def carries(self, inode):
        """Whether something goes along where the file gets higher: its content, or blocks."""
        if self.field(inode, 138, 2) == 0:
            return self.field(inode, 56, 8) != 0
        return any(self.data[inode * self.size + 232:(inode + 1) * self.size])

    def height_for(self, inode, size):
        height = self.field(inode, 138, 2)
        while self.room(height) < size:
            height += 1
        return height

    def needed(self, inode, at, end):
        """How many blocks a write needs: on each level of the file as high as it is then, those of the places above its bytes, and of
        the first place of each new level where something goes along, which have none."""
        old, new = self.field(inode, 138, 2), self.height_for(inode, max(self.field(inode, 56, 8), end))
        count = 0
        for level in range(new):
            step = self.span(level) * self.size
            places = set(range(at // step, -(-end // step)) if at < end else ())
            if level >= old and self.carries(inode):
                places.add(0)
            for place in places:
                pointer = self.pointer_to(inode, old, level, place)
                count += pointer is None or self.word(pointer, 8) == 0
        return count

    def take(self, inode, is_content=False):
        block = self.least_free()
        self.owners[block] = inode, is_content and not self.is_directory(inode)
        self.set_state(block, 1)
        self.count(block, -1, 0)
        self.put(inode, 64, self.field(inode, 64, 8) + 1, 8)
        return block

    def give_back(self, inode, block):
        self.set_state(block, 0)
        self.count(block, 1, 0)
        self.put(inode, 64, self.field(inode, 64, 8) - 1, 8)

    def rise(self, inode, height):
        """Makes a file so high: what goes along moves into a block of its own for each new level."""
        area = inode * self.size + 232
        for old in range(self.field(inode, 138, 2), height):
            content = bytes(self.data[area:area + self.field(inode, 56, 8)] if old == 0 else self.data[area:area + (self.size - 232) // 8 * 8])
            block = self.take(inode, old == 0) if self.carries(inode) else 0
            if block:
                head = self.head_of_content(inode) if old == 0 else pack(">IIQII", MAGIC, 5, 0, 500, 0)
                self.put(block, 0, (head + content).ljust(self.size, b"\0"))
            self.put(inode, 232, pack(">Q", block).ljust(self.size - 232, b"\0"))
            self.put(inode, 138, old + 1, 2)

    def block_for(self, inode, index):
        """The block of content with this index: holes on the way are filled from the top."""
        height = self.field(inode, 138, 2)
        for level in range(height - 1, -1, -1):
            at = self.pointer_to(inode, height, level, index // self.span(level))
            if not self.word(at, 8):
                block = self.take(inode, level == 0)
                head = pack(">IIQII", MAGIC, 5, 0, 500, 0) if level else self.head_of_content(inode)
                self.put(block, 0, head.ljust(self.size, b"\0"))
                self.data[at:at + 8] = pack(">Q", block)
        return self.word(at, 8)

    def clear_end(self, inode):
        """Zeros behind the end of a file in blocks, where something else stands there."""
        size = self.field(inode, 56, 8)
        if size % self.size:
            at = self.pointer_to(inode, self.field(inode, 138, 2), 0, size // self.size)
            block = self.word(at, 8) if at is not None else 0
            if block and any(self.data[block * self.size + size % self.size:(block + 1) * self.size]):
                self.put(block, size % self.size, bytes(self.size - size % self.size))

    def put_bytes(self, inode, at, content):
        """Writes bytes over a file's content, which has zeros between its end and their place."""
        size, end = self.field(inode, 56, 8), at + len(content)
        total = max(size, end)
        if self.field(inode, 138, 2) == 0 and total <= self.room(0):
            if at > size:
                self.put(inode, 232 + size, bytes(at - size))
            self.put(inode, 232 + at, content)
        else:
            need = self.needed(inode, at, end)
            if need > self.free_count():
                raise Refused("nospace", need)
            if self.field(inode, 138, 2) and end > size:
                self.clear_end(inode)
            self.rise(inode, self.height_for(inode, total))
            done = 0
            while done < len(content):
                place = at + done
                piece = content[done:done + self.size - place % self.size]
                self.put(self.block_for(inode, place // self.size), place % self.size, piece)
                done += len(piece)
        self.put(inode, 56, total, 8)
        self.stamp(inode)

    def prune(self, inode, block, place, level, first, end):
        """Frees what hangs below a block past an end: content, and what leads nowhere then. Its pointers lead to this level, the first
        of them to the place `first`. Whether a pointer leads somewhere still."""
        gone, stays = [], False
        for index, at in enumerate(range(block * self.size + place, (block + 1) * self.size - 7, 8)):
            below, number = self.word(at, 8), first + index
            if not below:
                continue
            past = (number + 1) * self.span(level) > end
            if past and not (level and self.prune(inode, below, 24, level - 1, number * ((self.size - 24) // 8), end)):
                gone.append(at)
                self.give_back(inode, below)
            else:
                stays = True
        if stays or block == inode:
            for at in gone:
                self.data[at:at + 8] = bytes(8)
        return stays

    def cut(self, inode, size):
        """Leaves a file its first bytes. A block that is freed keeps its bytes."""
        height, before = self.field(inode, 138, 2), self.field(inode, 56, 8)
        self.put(inode, 56, size, 8)
        if height == 0:
            self.put(inode, 232 + size, bytes(before - size))
        else:
            self.prune(inode, inode, 232, height - 1, 0, -(-size // self.size))
            if size == 0:
                self.put(inode, 138, 0, 2)
            self.clear_end(inode)
        self.stamp(inode)

    # ---- calls

    def walk(self, names):
        """The inodes on the way, the root first."""
        way = [self.root]
        for name in names:
            if not self.is_directory(way[-1]):
                raise Refused("notdir")
            record = self.look(way[-1], name)
            if record is None:
                raise Refused("notfound")
            way.append(record[2])
        return way

    def make(self, names, is_directory):
        if not names:
            raise Refused("exists")
        parent = self.walk(names[:-1])[-1]
        if not self.is_directory(parent):
            raise Refused("notdir")
        if self.look(parent, names[-1]):
            raise Refused("exists")
        need = self.need(parent, names[-1]) + 1
        if need > self.free_count():
            raise Refused("nospace", need)
        left = self.free_count() - need
        block = self.least_free()
        self.set_state(block, 3)
        number = self.count(block, -1, 1, 1)
        self.put(block, 0, self.dinode(block, number, is_directory).ljust(self.size, b"\0"))
        if is_directory:
            first = pack(">QQIHHH", number, block, crc32(b"."), 48, 1, 4)
            second = pack(">QQIHHH", self.field(parent, 24, 8), parent, crc32(b".."), self.size - 280, 2, 4)
            self.put(block, 232, first + bytes(14) + b".")
            self.put(block, 280, second + bytes(14) + b"..")
        self.insert(parent, names[-1], number, block, 4 if is_directory else 8)
        if self.free_count() != left:
            raise ValueError("%d blocks were needed, not %d" % (need + left - self.free_count(), need))
        self.put(parent, 148, self.field(parent, 148, 4) + 1, 4)
        if is_directory:
            self.put(parent, 52, self.field(parent, 52, 4) + 1, 4)
        self.stamp(parent)
        return "ok"

    def dinode(self, block, number, is_directory):
        head = pack(">IIQIIQQ", MAGIC, 4, 0, 400, 0, number, block)
        head += pack(">IIIIQQ", 0o40755 if is_directory else 0o100644, 0, 0, 2 if is_directory else 1,
                     self.size - 232 if is_directory else 0, 1)
        head += pack(">QQQIIQQQII", self.time, self.time, self.time, 0, 0, block, block, number, 1, 1200 if is_directory else 0)
        return head + pack(">HHIHHI", 0, 0, 0, 0, 0, 2 if is_directory else 0)

    def drop(self, names, is_directory):
        if not names:
            raise Refused("inside" if is_directory else "isdir")
        way = self.walk(names)
        parent, inode = way[-2], way[-1]
        if self.is_directory(inode) != is_directory:
            raise Refused("notdir" if is_directory else "isdir")
        if is_directory and self.names(inode):
            raise Refused("notempty")
        self.free(inode)
        self.remove(parent, names[-1])
        self.put(parent, 148, self.field(parent, 148, 4) - 1, 4)
        if is_directory:
            self.put(parent, 52, self.field(parent, 52, 4) - 1, 4)
        self.stamp(parent)
        return "ok"

    def free(self, inode):
        """Frees an inode with all its blocks, which keep their bytes."""
        height = self.field(inode, 138, 2)
        below = [block for block, _ in self.blocks_under(inode, 232, height)] if height else []
        for block in below + (self.leaves(inode) if self.is_directory(inode) and self.is_hashed(inode) else []):
            self.set_state(block, 0)
            self.count(block, 1, 0)
        self.set_state(inode, 0)
        self.count(inode, 1, -1)

    def rename(self, old, new):
        if not old:
            raise Refused("inside")
        if not new:
            raise Refused("exists")
        above, inode = self.walk(old)[-2:]
        if new == old:
            return "ok"
        if new[:len(old)] == old:
            raise Refused("inside")
        parent = self.walk(new[:-1])[-1]
        if not self.is_directory(parent):
            raise Refused("notdir")
        found, is_directory = self.look(parent, new[-1]), self.is_directory(inode)
        if found and self.is_directory(found[2]) != is_directory:
            raise Refused("notdir" if is_directory else "isdir")
        if found and is_directory and self.names(found[2]):
            raise Refused("notempty")
        self.move(above, old[-1], inode, parent, new[-1], found and found[2])
        return "ok"

    def move(self, above, name, inode, parent, new_name, replaced):
        """What stands at the new name goes first, then the old name, and then the new one comes. Blocks that go aren't taken."""
        before, free, is_directory = self.data[:], self.free_count(), self.is_directory(inode)
        if replaced:
            self.remove(parent, new_name)
        self.remove(above, name)
        need = self.need(parent, new_name)
        if need > free:
            self.data = before
            raise Refused("nospace", need)
        self.insert(parent, new_name, self.field(inode, 24, 8), inode, 4 if is_directory else 8)
        if self.free_count() != free - need:
            raise ValueError("%d blocks were needed, not %d" % (free - self.free_count(), need))
        if replaced:
            self.free(replaced)
        gone = 1 if replaced else 0
        self.put(above, 148, self.field(above, 148, 4) - 1, 4)
        self.put(parent, 148, self.field(parent, 148, 4) + 1 - gone, 4)
        if is_directory:
            self.put(above, 52, self.field(above, 52, 4) - 1, 4)
            self.put(parent, 52, self.field(parent, 52, 4) + 1 - gone, 4)
        if is_directory and parent != above:
            self.lead_up(inode, parent)
            self.stamp(inode)
        for directory in {above, parent}:
            self.stamp(directory)

    def lead_up(self, directory, parent):
        """Has the directory's `..` lead to another one."""
        for block, place in self.areas_for(directory, b".."):
            for at, used, _ in self.slots(block, place):
                start = block * self.size + at
                if used and bytes(self.data[start + 40:start + 40 + self.word(start + 22, 2)]) == b"..":
                    self.put(block, at, pack(">QQ", self.field(parent, 24, 8), parent))

    def write(self, names, at, content):
        inode = self.file_at(names, at + len(content))
        self.put_bytes(inode, at, content)
        return "ok"

    def truncate(self, names, size):
        inode = self.file_at(names, size)
        if size > self.field(inode, 56, 8):
            self.put_bytes(inode, size, b"")
        else:
            self.cut(inode, size)
        return "ok"

    def file_at(self, names, end):
        inode = self.walk(names)[-1]
        if self.is_directory(inode):
            raise Refused("isdir")
        if end > LARGEST:
            raise Refused("toobig")
        return inode

    def read(self, names, at, count):
        inode = self.walk(names)[-1]
        if self.is_directory(inode):
            raise Refused("isdir")
        return "data " + (self.content(inode, at, count).hex() or "-")

    def stat(self, names):
        inode = self.walk(names)[-1]
        if self.is_directory(inode):
            return "stat dir %d" % len(self.names(inode))
        return "stat file %d" % self.field(inode, 56, 8)

    def list(self, names):
        inode = self.walk(names)[-1]
        if not self.is_directory(inode):
            raise Refused("notdir")
        found = self.names(inode)
        return " ".join(["names %d" % len(found)] + [spelled(it) for it in found])

    def answer(self, call):
        """The reply to a call, and, where too few blocks were free, how many it needs and how many those were."""
        word, *others = call.split(" ")
        names = names_of(others[0]) if others else []
        try:
            if word in ("create", "mkdir"):
                return self.make(names, word == "mkdir"), None
            if word in ("unlink", "rmdir"):
                return self.drop(names, word == "rmdir"), None
            if word == "rename":
                return self.rename(names, names_of(others[1])), None
            if word == "write":
                return self.write(names, int(others[1]), content_of(others[2])), None
            if word == "truncate":
                return self.truncate(names, int(others[1])), None
            if word == "read":
                return self.read(names, int(others[1]), int(others[2])), None
            if word in ("stat", "list"):
                return getattr(self, word)(names), None
            if word == "sync":
                return "ok", None
        except Refused as refused:
            return refused.args[0], (refused.args[1], self.free_count()) if refused.args[0] == "nospace" else None
        raise ValueError("no call of one node alone: " + call)


def written(call):
    """A call as traces and outputs have it: contents as digits."""
    word, *others = call.split(" ")
    if word == "write":
        others[2] = content_of(others[2]).hex()
    return " ".join([word, *others])
