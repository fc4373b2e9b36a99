#!/usr/bin/env python3
"""Rows of images whose journals are dirty: journals laid out by hand from the format of the log alone (checks/journal_rows.py), over images that
new_image.py and the plain calls of plain_calls.py work out, with what `show` prints of them, and what `replay` and `run` do to them.

usage: checks/replay_rows.py            writes crates/rows/data/replayed_images.rows
       checks/replay_rows.py --check    are the stored ones these?
"""
import os
import sys
from zlib import crc32

sys.dont_write_bytecode = True
import new_image
from journal_rows import Journal, header, plain
from plain_calls import Disk, spelled
from plain_log import Run, tree_of
from rows import Image

ROWS = os.path.join(os.path.dirname(os.path.abspath(__file__)), "..", "crates", "rows", "data", "replayed_images.rows")
SIZE = 512
MAGIC = bytes.fromhex("01161970")

HEAD = """# What `show` tells of images whose journals are dirty, and what `replay` and `run` make of them. checks/replay_rows.py lays the journals out, block by block, from the format
# of the log alone, and works out what is to be seen from new_image.py and the plain calls of plain_calls.py; it writes this file.

image one_journal
  mkfs 512 720 --journals 1 --journal-blocks 512

image two_journals
  mkfs 512 1260 --journals 2 --journal-blocks 512
"""

MADE = {"one_journal": (720, 1), "two_journals": (1260, 2)}


def made(image):
    blocks, journals = MADE[image]
    return Image(SIZE, new_image.make(SIZE, blocks, dict(groups=1, journals=journals, journal_blocks=512, time=0, uuid=bytes(16)))[0])


def after(data, *calls):
    """The image after these calls, as it is where each changes it at once."""
    disk = Disk(bytearray(data), 0)
    for call in calls:
        if disk.answer(call)[0] != "ok":
            raise ValueError(call)
    return bytes(disk.data)


def block_of(data, number):
    return bytes(data[number * SIZE : (number + 1) * SIZE])


def changed(before, now):
    """The blocks that are others now, those that begin with the magic as metadata."""
    numbers = [b for b in range(len(now) // SIZE) if block_of(before, b) != block_of(now, b)]
    blocks = [(b, block_of(now, b)) for b in numbers]
    return {"metadata": [it for it in blocks if it[1][:4] == MAGIC], "content": [it for it in blocks if it[1][:4] != MAGIC]}


def shown(data, clean):
    """What `show` is to print of the tree of this image, and of its journals, whether each is clean."""
    disk = Disk(bytearray(data), 0)
    lines = [f"journal {j} {'clean' if it else 'dirty'}" for j, it in enumerate(clean)]

    def below(path, inode):
        lines.append("dir " + (path or "/"))
        for name in disk.names(inode):
            child, here = disk.look(inode, name)[2], path + "/" + spelled(name)
            if disk.is_directory(child):
                below(here, child)
            else:
                content = disk.content(child)
                lines.append(f"file {here} {len(content)} {crc32(content):08x}")

    below("", disk.root)
    return lines + ["done"]


def patches(place, block):
    """The patches by which a block of zeros becomes this one."""
    lines, at, end = [], 0, len(block.rstrip(b"\0"))
    while at < end:
        if not block[at]:
            at += 1
            continue
        stop = at
        while stop < end and any(block[stop : stop + 8]):
            stop += 1
        part = block[at:stop]
        most = f"fill:{part[0]:02x}:{len(part)}" if len(part) > 4 and part == part[:1] * len(part) else f"hex:{part.hex()}"
        lines.append(f"  patch {place} byte {at} {most}")
        at = stop
    return lines


def content_blocks(data, name):
    """The blocks of content of a file of height 1 in the root."""
    disk = Disk(bytearray(data), 0)
    inode = disk.look(disk.root, name)[2]
    pointers = [disk.word(inode * SIZE + 232 + 8 * k, 8) for k in range((SIZE - 232) // 8)]
    return [it for it in pointers if it]


class Row:
    """An image, what is put on it as it lies, and its journals."""

    def __init__(self, name, image="one_journal"):
        self.name, self.image, self.base, self.lines = name, image, made(image), []
        self.journals = []
        for j in range(MADE[image][1]):
            journal = Journal(SIZE, 512, j)
            journal.blocks[0] = b""
            self.journals.append(journal)

    def data(self):
        return bytes(self.base.data)

    def block(self, word):
        return self.base.number(word)

    def lie(self, data):
        """The image lies so."""
        for number in range(len(data) // SIZE):
            now = block_of(data, number)
            if now != block_of(self.base.data, number):
                self.lines.append(f"  patch block {number} byte 0 fill:00:{SIZE}")
                self.lines += patches(f"block {number}", now)
        self.base.data = bytearray(data)

    def laid(self):
        lines = list(self.lines)
        for j, journal in enumerate(self.journals):
            for place, block in sorted(journal.blocks.items()):
                if not block:
                    continue
                if place == 0:
                    lines.append(f"  patch journal{j}.place0 byte 0 fill:00:{SIZE}")
                lines += patches(f"journal{j}.place{place}", block)
        return lines

    def text(self, *wanted):
        return "\n".join([f"row {self.name}", f"  image {self.image}", *self.laid(), *wanted]) + "\n"

    def items(self, homes):
        """The items of the replay of these journals: of each the blocks that go home, by rising number, and the place of its clean header; or None where it
        is clean."""
        items = []
        for j, it in enumerate(homes):
            if it is None:
                continue
            home, place = it
            if home:
                items += [*(f"write 1 replay {b}" for b in sorted(home)), "barrier 1"]
            items += [f"write 1 replay {self.block(f'journal{j}.place{place}')}", "barrier 1", f"recovered {j + 1} 1"]
        return items

    def replayed(self, data, homes):
        """What `replay` is to print, its items, and what `show` prints behind it."""
        out = [f"replayed {j} blocks {len(it[0])}" for j, it in enumerate(homes) if it is not None]
        out += ["calls 0 lost 0 commits 0 crashes 0 dirty 0", "done"]
        return ["  do replay", "  out", *("    " + it for it in out), "  trace", *("    " + it for it in ["join 1", *self.items(homes), "unmount 1"]),
                "  shows", *("    " + it for it in shown(data, [True] * len(homes)))]  # fmt: skip

    def runs(self, data, calls, *homes):
        """A run replays these journals, and then answers these calls by this image; then so a second run, which has nothing to replay."""
        image, text, script = self.whole(), [], ["nodes 1", "client c on 1", *(f"c: {it}" for it in calls)]
        for first in (True, False):
            run, wanted = Run(image, "".join(it + "\n" for it in script)), self.items(homes) if first else []
            if run.items[1 : 1 + len(wanted)] != wanted or tree_of(image).data[: self.block("journal0.place0") * SIZE] != data[: self.block("journal0.place0") * SIZE] and first:
                raise ValueError(f"{self.name}: the replay is another")
            image = run.image
            text += ["  do run", "  script", *("    " + it for it in script), "  out", *("    " + it for it in run.out.splitlines()),
                     "  trace", *("    " + it for it in run.items), "  shows", *("    " + it for it in shown(image, [True] * len(homes)))]  # fmt: skip
        return self.text(*text)

    def whole(self):
        """The image with its journals."""
        image = bytearray(self.base.data)
        for j, journal in enumerate(self.journals):
            for place, block in journal.blocks.items():
                at = self.block(f"journal{j}.place{place}") * SIZE
                image[at : at + SIZE] = block or image[at : at + SIZE]
        return bytes(image)

    def shows(self, data, *homes):
        """The tree is that of this image, where of each journal these blocks go home, behind which its clean header has this place."""
        lines = shown(data, [it is None for it in homes])
        return self.text("  do show", "  out", *("    " + it for it in lines), "  same", *self.replayed(data, homes))

    def failing(self, data, call, told, homes, before):
        """The disk fails at this call of a replay: of so many journals, those that were replayed before are told, and the items of that; a further replay
        goes on from there."""
        whole = self.replayed(data, homes)
        out, trace = whole.index("  out"), whole.index("  trace")
        lines = whole[out + 1 : trace]
        journals, items = before
        front = ["  do replay", f"  fails disk {call}", "  status 5", "  out", *lines[:journals], lines[-2], f"    device fault: node 1 block {told} count 0 to 1",
                 "  trace", *whole[trace + 1 : trace + 1 + items]]  # fmt: skip
        return self.text(*front, *self.replayed(data, [None if j < journals else it for j, it in enumerate(homes)]))

    def unread(self, data, call, told, homes):
        """The disk fails at this call of a run, as its journals are read: only that is told, and nothing is written; a replay goes on from there."""
        run = ["  do run", "  script", "    nodes 1", "    client c on 1", "    c: list /"]
        return self.text(*run, f"  fails disk {call}", f"  told 5 device fault: node 0 block {told} count 0 to 1", "  same", *self.replayed(data, homes))

    def damaged(self, block, rule):
        told = f"  told 4 damaged: block {block} rule {rule}"
        run = ["  do run", "  script", "    nodes 1", "    client c on 1", "    c: list /"]
        return self.text("  do show", told, "  same", "  do replay", told, "  same", *run, told, "  same")

    def broken(self, block, rule, *homes):
        """What goes home breaks a rule. That is met by who reads the tree, and not by the replay."""
        text = self.replayed(self.data(), homes)
        told = f"  told 4 damaged: block {block} rule {rule}"
        return self.text("  do show", told, "  same", *text[: text.index("  shows")], "  do show", told, "  same")

    def all_of(self, j, at):
        """All that this journal's transactions put home, with the place behind the last header."""
        return sorted(self.journals[j].live()), (at + 1) % 512


def whole():
    row = Row("what a journal says is shown")
    final = after(row.data(), "create /f", "write /f 0 68656c6c6f", "mkdir /d")
    at = row.journals[0].write(1, 2, 1, **changed(row.data(), final))
    yield row.shows(final, row.all_of(0, at))

    row = Row("of two transactions the later one counts")
    mid = after(row.data(), "create /f", "write /f 0 61")
    final = after(mid, "write /f 1 62", "create /g")
    at = row.journals[0].write(1, 2, 1, **changed(row.data(), mid))
    at = row.journals[0].write(at + 1, 3, 1, **changed(mid, final))
    yield row.shows(final, row.all_of(0, at))

    row = Row("a journal that goes round its end")
    final = after(row.data(), "create /f", "mkdir /d", "mkdir /d/e")
    at = row.journals[0].write(508, 7, 508, **changed(row.data(), final))
    yield row.shows(final, row.all_of(0, at))

    row = Row("headers of both versions in one journal")
    mid = after(row.data(), "create /f")
    final = after(mid, "create /g")
    at = row.journals[0].write(1, 2, 1, **changed(row.data(), mid), version=1)
    at = row.journals[0].write(at + 1, 3, 1, **changed(mid, final))
    yield row.shows(final, row.all_of(0, at))

    row = Row("a clean head leaves nothing to be replayed")
    final = after(row.data(), "create /f")
    at = row.journals[0].write(1, 2, 1, **changed(row.data(), final))
    row.journals[0].blocks[at + 1] = header(SIZE, 0, 3, at + 1, at + 1, clean=True)
    yield row.shows(row.data(), None)

    row = Row("a torn header is no head")
    mid = after(row.data(), "create /f")
    final = after(mid, "create /g")
    at = row.journals[0].write(1, 2, 1, **changed(row.data(), mid))
    first = row.all_of(0, at)
    last = row.journals[0].write(at + 1, 3, 1, **changed(mid, final))
    row.journals[0].blocks[last] = row.journals[0].blocks[last][:48] + bytes(464)
    row.journals[0].blocks[last] = row.journals[0].blocks[last][:44] + bytes(4) + row.journals[0].blocks[last][48:]
    yield row.shows(mid, first)

    row = Row("each of two journals", "two_journals")
    mid = after(row.data(), "create /f")
    one = changed(row.data(), mid)
    row.lie(after(row.data(), "create /f", "write /f 0 fill:61:600"))
    lies = row.data()
    first, second = content_blocks(lies, b"f")
    one = row.journals[0].write(1, 2, 1, content=[(first, plain(SIZE, 0x62))])
    two = row.journals[1].write(1, 2, 1, content=[(second, plain(SIZE, 0x63))])
    final = bytearray(lies)
    final[first * SIZE : (first + 1) * SIZE] = plain(SIZE, 0x62)
    final[second * SIZE : (second + 1) * SIZE] = plain(SIZE, 0x63)
    yield row.shows(final, row.all_of(0, one), row.all_of(1, two))

    row = Row("a header that a replay writes has its journal's number", "two_journals")
    row.journals[1].jid = 7
    final = after(row.data(), "create /f", "write /f 0 68656c6c6f")
    at = row.journals[1].write(1, 2, 1, **changed(row.data(), final))
    lines = (f"  holds journal1.place{at} jid 7", f"  holds journal1.place{at + 1} jid 1", f"  holds journal1.place{at + 1} flags 1")
    yield row.shows(final, None, row.all_of(1, at)) + "".join(it + "\n" for it in lines)


def runs():
    row = Row("a run answers by what the journal says")
    final = after(row.data(), "create /f", "write /f 0 68656c6c6f", "mkdir /d")
    at = row.journals[0].write(1, 2, 1, **changed(row.data(), final))
    yield row.runs(final, ["list /", "read /f 0 9", "create /d/g", "write /d/g 0 6f6e65", "rename /d/g /g", "rmdir /d", "list /"], row.all_of(0, at))

    row = Row("a run takes back what the journal made")
    row.lie(after(row.data(), "create /f", "write /f 0 6f6c64"))
    final = after(row.data(), "write /f 0 6e6577", "create /g")
    at = row.journals[0].write(500, 9, 500, **changed(row.data(), final))
    yield row.runs(final, ["read /f 0 3", "unlink /g", "create /g", "truncate /f 1", "stat /f", "sync"], row.all_of(0, at))

    row = Row("a run of one node replays both journals", "two_journals")
    row.lie(after(row.data(), "create /f", "write /f 0 fill:61:600"))
    final = bytearray(row.data())
    homes = []
    for j, block in enumerate(content_blocks(row.data(), b"f")):
        final[block * SIZE : (block + 1) * SIZE] = plain(SIZE, 0x62 + j)
        homes.append(row.all_of(j, row.journals[j].write(1, 2, 1, content=[(block, plain(SIZE, 0x62 + j))])))
    yield row.runs(final, ["read /f 510 4", "write /f 510 78797a", "read /f 509 5"], *homes)

    row = Row("a script that is refused leaves the journal as it is")
    row.journals[0].write(1, 2, 1, **changed(row.data(), after(row.data(), "create /f")))
    head = ["  do run", "  script", "    nodes 1", "    client c on 1"]
    yield row.text(*head, "    c: lost /", "  told 2 script: line 3 column 4", "  same", *head, "    c: dread /f 0 1", "  told 20 not built: line 3", "  same",
                   "  do run --steps 5", "  told 20 not built: words", "  same")  # fmt: skip


def of_content(name):
    """An image with a file of two blocks, and these."""
    row = Row(name)
    row.lie(after(row.data(), "create /f", "write /f 0 fill:61:1024"))
    return row, content_blocks(row.data(), b"f")


def content():
    row, (first, second) = of_content("a revoked block isn't put home")
    at = row.journals[0].write(1, 2, 1, content=[(first, plain(SIZE, 0x62)), (second, plain(SIZE, 0x63))])
    at = row.journals[0].write(at + 1, 3, 1, revokes=[first])
    final = bytearray(row.data())
    final[second * SIZE : (second + 1) * SIZE] = plain(SIZE, 0x63)
    yield row.shows(final, row.all_of(0, at))

    row, (first, second) = of_content("a later entry outlives a revoke")
    at = row.journals[0].write(1, 2, 1, content=[(first, plain(SIZE, 0x62))])
    at = row.journals[0].write(at + 1, 3, 1, revokes=[first])
    at = row.journals[0].write(at + 1, 4, 1, content=[(first, plain(SIZE, 0x64))])
    final = bytearray(row.data())
    final[first * SIZE : (first + 1) * SIZE] = plain(SIZE, 0x64)
    yield row.shows(final, row.all_of(0, at))

    row, (first, second) = of_content("content that begins with the magic is put back")
    block = MAGIC + plain(SIZE - 4, 0x65)
    at = row.journals[0].write(1, 2, 1, content=[(first, block)])
    final = bytearray(row.data())
    final[first * SIZE : (first + 1) * SIZE] = block
    yield row.shows(final, row.all_of(0, at))


def broken():
    row = Row("an image in pieces as it lies is whole once replayed")
    root, group = row.block("root"), row.block("group")
    whole_image = row.data()
    at = row.journals[0].write(1, 2, 1, metadata=[(group, block_of(whole_image, group)), (root, block_of(whole_image, root))])
    lies = bytearray(whole_image)
    lies[root * SIZE : (root + 1) * SIZE] = bytes(SIZE)
    lies[group * SIZE : (group + 1) * SIZE] = bytes(SIZE)
    row.lie(lies)
    yield row.shows(whole_image, row.all_of(0, at))

    row = Row("an image that is whole as it lies is broken once replayed")
    at = row.journals[0].write(1, 2, 1, content=[(row.block("root"), plain(SIZE, 0x66))])
    yield row.broken("{root}", 1, row.all_of(0, at))

    row = Row("a bad chunk")
    final = after(row.data(), "create /f")
    row.journals[0].write(1, 2, 1, **changed(row.data(), final))
    row.journals[0].blocks[1] = row.journals[0].blocks[1][:24] + bytes(4) + row.journals[0].blocks[1][28:]
    yield row.damaged("{journal0.place1}", 17)

    for name, word in (
        ("beyond the device", "past"),
        ("the superblock's", "super"),
        ("the master directory's", "master"),
        ("the list of groups'", "rindex"),
        ("the directory of journals'", "jindex"),
        ("a journal's dinode's", "journal0"),
        ("a journal's pointers'", "journal0.pointers0"),
        ("a journal's place's", "journal0.place7"),
    ):
        row = Row(f"a number in a journal that is {name}")
        at = row.journals[0].write(1, 2, 1, content=[(row.block("free"), plain(SIZE, 0x67))])
        row.journals[0].write(at + 1, 3, 1, content=[(row.block(word), plain(SIZE, 0x68))])
        yield row.damaged("{journal0.place%d}" % (at + 1), 2)

    row = Row("such a number that is revoked stops nothing")
    at = row.journals[0].write(1, 2, 1, content=[(row.block("jindex"), plain(SIZE, 0x69))])
    at = row.journals[0].write(at + 1, 3, 1, revokes=[row.block("jindex")])
    yield row.shows(row.data(), row.all_of(0, at))

    row = Row("a block that is live in two journals", "two_journals")
    for journal in row.journals:
        journal.write(1, 2, 1, content=[(row.block("free"), plain(SIZE, 0x6A))])
    yield row.damaged("{free}", 20)


def failing():
    # Mounting reads four blocks, and of each journal all that lie from its dinode to its last place; then the places of both are read once more.
    for name, behind, told in (
        ("the first block of the second journal", 1, "{past-9}"),
        ("the barrier behind that block", 2, "-"),
        ("the second journal's header", 3, "{journal1.place4}"),
        ("the last barrier", 4, "-"),
    ):
        row = Row(f"a disk fails in a replay of two journals at {name}", "two_journals")
        numbers = (row.block("past") - 10, row.block("past") - 9)
        final = bytearray(row.data())
        homes = []
        for journal, number in zip(row.journals, numbers):
            block = plain(SIZE, 0x70 + journal.jid)
            at = journal.write(1, 2, 1, content=[(number, block)])
            homes.append(row.all_of(journal.jid, at))
            final[number * SIZE : (number + 1) * SIZE] = block
        reads = 4 + sum(row.block(f"journal{j}.place511") - row.block(f"journal{j}") + 1 for j in (0, 1)) + 2 * 512
        yield row.failing(final, reads + 4 + behind, told, homes, (1, 6 + behind - 1))
    row = Row("a disk fails at a place of a journal that is read for a run")
    number, block = row.block("free"), plain(SIZE, 0x72)
    final = bytearray(row.data())
    final[number * SIZE : (number + 1) * SIZE] = block
    at = row.journals[0].write(1, 2, 1, content=[(number, block)])
    mounting = 4 + row.block("journal0.place511") - row.block("journal0") + 1
    yield row.unread(final, mounting + 201, "{journal0.place200}", [row.all_of(0, at)])


def main():
    text = HEAD + "".join("\n" + it for part in (whole(), runs(), content(), broken(), failing()) for it in part)
    if sys.argv[1:] == ["--check"]:
        with open(ROWS, encoding="utf-8") as it:
            if it.read() != text:
                sys.exit("crates/rows/data/replayed_images.rows isn't what checks/replay_rows.py lays out")
        print(f"{text.count(chr(10) + 'row ')} rows are as they are laid out")
        return
    with open(ROWS, "w", encoding="utf-8") as it:
        it.write(text)


if __name__ == "__main__":
    main()
