#!/usr/bin/env python3
"""Journals laid out by hand, from the format of the log alone, with what is in each: the head, what a replay puts home and the clean header
behind it, or the place that is bad. The program `journal_rows` reads the journals and has to tell the same.

usage: checks/journal_rows.py            writes crates/journal_rows/stdin and stdout
       checks/journal_rows.py --check    are the stored ones these?
"""
import os
import sys
import zlib

sys.dont_write_bytecode = True
from new_image import crc32c_raw

TOP = os.path.join(os.path.dirname(os.path.abspath(__file__)), "..", "crates", "journal_rows")
MAGIC = bytes.fromhex("01161970")


def u32(n):
    return n.to_bytes(4, "big")


def u64(n):
    return n.to_bytes(8, "big")


def meta(kind, fmt, jid):
    return MAGIC + u32(kind) + bytes(8) + u32(fmt) + u32(jid)


def header(size, jid, sequence, place, tail, clean=False, version=2):
    front = meta(8, 800, jid) + u64(sequence) + u32(int(clean)) + u32(tail) + u32(place)
    front += u32(zlib.crc32(front + bytes(4)))
    if version == 1:
        return front.ljust(size, b"\0")
    later = u32(0) + u64(77) + u64(1000 + place) + u64(555) + bytes(40)
    later = later.ljust(size - 52, b"\0")
    return front + u32(crc32c_raw(later)) + later


def descriptor(size, jid, kind, length, count, behind):
    return (meta(9, 900, jid) + u32(kind) + u32(length) + u32(count) + u32(0) + bytes(32) + behind).ljust(size, b"\0")


class Journal:
    """Blocks by place, and what was written, transaction by transaction."""

    def __init__(self, size, places, jid=0):
        self.size, self.places, self.jid, self.blocks, self.done = size, places, jid, {}, []

    def next(self, place):
        return (place + 1) % self.places

    def lay(self, place, blocks):
        """Lays blocks from a place on, round the ring; gives the place behind them."""
        for block in blocks:
            self.blocks[place] = block
            place = self.next(place)
        return place

    def chunks(self, content, metadata, revokes):
        blocks, size = [], self.size
        room = (size - 72) // 16
        for at in range(0, len(content), room):
            part = content[at : at + room]
            numbers = b"".join(u64(b) + u64(int(data[:4] == MAGIC)) for b, data in part)
            blocks.append(descriptor(size, self.jid, 302, 1 + len(part), len(part), numbers))
            blocks += [bytes(4) + data[4:] if data[:4] == MAGIC else data for _, data in part]
        room = (size - 72) // 8
        for at in range(0, len(metadata), room):
            part = metadata[at : at + room]
            blocks.append(descriptor(size, self.jid, 300, 1 + len(part), len(part), b"".join(u64(b) for b, _ in part)))
            blocks += [data for _, data in part]
        if revokes:
            further = (size - 24) // 8
            rest = revokes[room:]
            more = [rest[at : at + further] for at in range(0, len(rest), further)]
            blocks.append(descriptor(size, self.jid, 301, 1 + len(more), len(revokes), b"".join(map(u64, revokes[:room]))))
            blocks += [(meta(12, 1000, self.jid) + b"".join(map(u64, part))).ljust(size, b"\0") for part in more]
        return blocks

    def write(self, first, sequence, tail, content=(), metadata=(), revokes=(), version=2):
        """A transaction from a place on; gives the place of its header."""
        place = self.lay(first, self.chunks(list(content), list(metadata), list(revokes)))
        self.blocks[place] = header(self.size, self.jid, sequence, place, tail, version=version)
        self.done.append((sequence, [("content", *it) for it in content] + [("metadata", *it) for it in metadata], list(revokes)))
        return place

    def live(self):
        """Of each block the last entry that no later transaction revokes."""
        found = {}
        for sequence, entries, _ in self.done:
            for kind, block, data in entries:
                if not any(later > sequence and block in revoked for later, _, revoked in self.done):
                    found[block] = (kind, data)
        return found

    def tells(self, place, sequence, tail, version=2):
        """The line of a journal whose head this is."""
        line = f"head {place} sequence {sequence} tail {tail} version {version}"
        for block, (kind, data) in sorted(self.live().items()):
            line += f", {kind} {block} {zlib.crc32(data):08x}"
        return line + f", then clean {self.next(place)} sequence {(sequence + 1) % 2**64}"


ROWS = []


def row(name, journal, wanted):
    lines = [f"journal {journal.size} {journal.places}"]
    for place, block in sorted(journal.blocks.items()):
        most = max(set(block), key=block.count)
        if most:
            lines.append(f"fill {place} {most}")
        at = 0
        while at < len(block):
            if block[at] == most:
                at += 1
                continue
            end = at
            while end < len(block) and any(byte != most for byte in block[end : end + 8]):
                end += 1
            lines.append(f"put {place} {at} {block[at:end].hex()}")
            at = end
    ROWS.append((name, lines + ["scan"], wanted))


def meta_block(size, number, salt=0, kind=4):
    return (meta(kind, 100 * kind, 0) + u64(number) + bytes([salt]) * 9).ljust(size, b"\0")


def plain(size, byte):
    return bytes([byte]) * size


def new(size=512, places=64, jid=0):
    """A journal as it is made: a clean header of sequence 1 at place 0."""
    journal = Journal(size, places, jid)
    journal.blocks[0] = header(size, jid, 1, 0, 0, clean=True)
    return journal


def whole_journals():
    row("nothing at all", Journal(512, 8), "no header")
    journal = new()
    row("as it is made", journal, "head 0 sequence 1 tail 0 version 2, clean")
    journal = Journal(512, 8)
    journal.blocks[0] = header(512, 0, 1, 0, 0, clean=True, version=1)
    row("as it was made with version 1", journal, "head 0 sequence 1 tail 0 version 1, clean")
    for size in (512, 1024, 2048, 4096):
        journal = new(size, 32, 3)
        at = journal.write(1, 2, 1, [(70, plain(size, 7))], [(40, meta_block(size, 40)), (41, meta_block(size, 41))])
        row(f"one transaction in blocks of {size}", journal, journal.tells(at, 2, 1))
    journal = new()
    at = journal.write(1, 2, 1, [(70, MAGIC + plain(508, 9)), (71, plain(512, 1)), (72, MAGIC * 128)])
    row("content that begins with the magic", journal, journal.tells(at, 2, 1))
    journal = Journal(512, 16)
    journal.blocks[9] = header(512, 0, 8, 9, 9, clean=True)
    at = journal.write(10, 9, 10, [(90, plain(512, 1)), (91, plain(512, 2))], [(50, meta_block(512, 50)), (51, meta_block(512, 51)), (52, meta_block(512, 52))])
    row("wrapped", journal, journal.tells(at, 9, 10))
    journal = Journal(512, 16)
    journal.blocks[3] = header(512, 0, 8, 3, 3, clean=True)
    at = journal.write(12, 9, 12, [(90, plain(512, 1)), (91, plain(512, 2))])
    row("a head in the last place", journal, journal.tells(at, 9, 12))
    assert at == 15
    journal = Journal(512, 16)
    journal.blocks[2] = header(512, 0, 8, 2, 2, clean=True)
    at = journal.write(13, 9, 13, [(90, plain(512, 1)), (91, plain(512, 2))])
    assert at == 0
    row("a head in the first place", journal, journal.tells(at, 9, 13))
    journal = new(places=512)
    at = journal.write(1, 2, 1, [(1000 + n, plain(512, n % 250 + 1)) for n in range(200)], [(5000 + n, meta_block(512, n)) for n in range(184)], [9000 + n for n in range(140)])
    # 400 blocks, its header among them, from place 1 on
    assert at == 400
    row("the greatest transaction, with further revokes", journal, journal.tells(at, 2, 1))
    journal = Journal(512, 8)
    journal.blocks[5] = header(512, 0, 2**64 - 1, 5, 5, clean=True)
    row("the greatest sequence", journal, f"head 5 sequence {2**64 - 1} tail 5 version 2, clean")
    journal = Journal(512, 8)
    journal.blocks[1] = header(512, 0, 6, 1, 1, clean=True)
    journal.blocks[4] = header(512, 0, 6, 4, 4, clean=True)
    row("two headers of one sequence", journal, "head 1 sequence 6 tail 1 version 2, clean")


def several():
    def three(second, third=None, places=64):
        journal = new(places=places)
        at = journal.write(1, 2, 1, [(70, plain(512, 1))], [(40, meta_block(512, 40, 1))])
        at = journal.write(at + 1, 3, 1, **second)
        if third:
            at = journal.write(at + 1, 4, 1, **third)
        return journal, at

    journal, at = three({"metadata": [(40, meta_block(512, 40, 2))]})
    row("two transactions of one block", journal, journal.tells(at, 3, 1))
    journal, at = three({"revokes": [40, 70]})
    row("revokes of what is before them", journal, journal.tells(at, 3, 1))
    journal, at = three({"revokes": [40]}, {"metadata": [(40, meta_block(512, 40, 3))]})
    row("a revoke that a later entry outlives", journal, journal.tells(at, 4, 1))
    journal, at = three({"metadata": [(40, meta_block(512, 40, 3))]}, {"revokes": [40]})
    row("a revoke that outlives two entries", journal, journal.tells(at, 4, 1))
    journal, at = three({"content": [(40, plain(512, 3))]})
    row("metadata and then content in one block", journal, journal.tells(at, 3, 1))
    journal, at = three({})
    row("a header alone", journal, journal.tells(at, 3, 1))
    journal = new()
    at = journal.write(1, 2, 1, [(70, plain(512, 1))], version=1)
    at = journal.write(at + 1, 3, 1, [(71, plain(512, 2))])
    row("version 1 and then version 2", journal, journal.tells(at, 3, 1))
    journal = new()
    at = journal.write(1, 2, 1, [(70, plain(512, 1))])
    at = journal.write(at + 1, 3, 1, [(71, plain(512, 2))], version=1)
    row("version 2 and then version 1", journal, journal.tells(at, 3, 1, version=1))
    journal = new()
    at = journal.write(1, 2, 1, [(70, plain(512, 1))])
    first = at + 1
    at = journal.write(first, 3, first, [(71, plain(512, 2))])
    journal.done = journal.done[1:]
    row("a tail that has moved on", journal, journal.tells(at, 3, first))
    journal = new()
    at = journal.lay(1, [descriptor(512, 0, 302, 1, 0, b""), descriptor(512, 0, 300, 1, 0, b"")])
    journal.blocks[at] = header(512, 0, 2, at, 1)
    row("chunks without an entry", journal, journal.tells(at, 2, 1))


def torn():
    """A header that is torn at each of its fields: what of the old block is left decides."""
    fields = {"magic": 2, "kind": 7, "pad": 12, "format": 18, "jid": 22, "sequence": 30, "flags": 34, "tail": 38, "blkno": 42, "hash": 46}
    for name, cut in fields.items():
        journal = new()
        at = journal.write(1, 2, 1, [(70, plain(512, 1))])
        end = journal.write(at + 1, 3, 1, [(71, plain(512, 2))])
        journal.blocks[end] = journal.blocks[end][:cut] + plain(512, 0xEE)[cut:]
        journal.done.pop()
        row(f"a header torn in its {name}", journal, journal.tells(at, 2, 1))
    for cut, seen in ((48, 1), (50, 0), (52, 0), (60, 0), (79, 0), (80, 2), (300, 2)):
        journal = new()
        at = journal.write(1, 2, 1, [(70, plain(512, 1))])
        end = journal.write(at + 1, 3, 1, [(71, plain(512, 2))])
        journal.blocks[end] = journal.blocks[end][:cut].ljust(512, b"\0")
        whole = journal.blocks[end] == header(512, 0, 3, end, 1)
        assert whole == (seen == 2), cut
        if seen:
            row(f"a header of which {cut} bytes came over zeros", journal, journal.tells(end, 3, 1, version=seen))
        else:
            journal.done.pop()
            row(f"a header of which {cut} bytes came over zeros", journal, journal.tells(at, 2, 1))
    journal = new()
    at = journal.write(1, 2, 1, [(70, plain(512, 1))])
    journal.blocks[at] = journal.blocks[at][:200] + b"\1" + journal.blocks[at][201:]
    row("a header with a byte changed behind all its fields", journal, "head 0 sequence 1 tail 0 version 2, clean")
    journal = new()
    journal.blocks[5] = header(512, 0, 9, 6, 6, clean=True)
    row("a header of another place", journal, "head 0 sequence 1 tail 0 version 2, clean")


def bad():
    def spoiled(name, place, change, **given):
        journal = new()
        end = journal.write(1, 2, 1, **given)
        change(journal, end)
        row(name, journal, f"bad chunk at {place}")

    def patch(place, at, data):
        def change(journal, end):
            block = journal.blocks[place]
            journal.blocks[place] = block[:at] + data + block[at + len(data) :]

        return change

    two = {"content": [(70, plain(512, 1)), (71, plain(512, 2))]}
    blocks = {"metadata": [(40, meta_block(512, 40)), (41, meta_block(512, 41))]}
    spoiled("neither a header nor a descriptor", 1, patch(1, 0, b"\0\0\0\0"), **two)
    spoiled("a descriptor of another format", 1, patch(1, 16, u32(901)), **two)
    spoiled("a descriptor of an unknown kind", 1, patch(1, 24, u32(303)), **two)
    spoiled("a length above its count", 1, patch(1, 28, u32(4)), **two)
    spoiled("a length below its count", 1, patch(1, 28, u32(2)), **two)
    spoiled("a count above its length", 1, patch(1, 32, u32(3)), **blocks)
    spoiled("a chunk that runs past the head", 1, lambda j, end: patch(1, 28, u32(40) + u32(39))(j, end), **blocks)
    spoiled("more entries than have room", 1, patch(1, 28, u32(57) + u32(56)), **blocks)
    spoiled("metadata without the magic", 3, patch(3, 0, b"\0"), **blocks)
    spoiled("an escape of 2", 1, patch(1, 80, u64(2)), **two)
    spoiled("an escape above 32 bits", 1, patch(1, 96, u64(2**32)), **two)
    many = {"revokes": list(range(100, 200))}
    spoiled("further revokes without a header", 2, patch(2, 4, u32(11)), **many)
    spoiled("further revokes of another format", 2, patch(2, 16, u32(300)), **many)
    spoiled("revokes with a block too few", 1, patch(1, 28, u32(1)), **many)
    journal = new()
    at = journal.write(1, 2, 1, [(70, plain(512, 1))])
    end = journal.write(at + 1, 4, 1, [(71, plain(512, 2))])
    row("sequences that don't rise by one", journal, f"bad chunk at {end}")
    journal = new()
    at = journal.write(1, 2, 1, [(70, plain(512, 1))])
    journal.blocks[at] = header(512, 0, 2, at, 64)
    row("a tail that is no place", journal, f"bad chunk at {at}")
    journal = new()
    at = journal.write(1, 2, 1, [(70, plain(512, 1))])
    journal.blocks[at] = header(512, 0, 2, at, at + 1)
    row("a tail behind the head", journal, f"bad chunk at {at}")
    journal = new()
    at = journal.write(1, 2, 1, [(70, plain(512, 1))])
    journal.blocks[at] = header(512, 0, 2, at, at + 2)
    row("a tail in blocks of zeros", journal, f"bad chunk at {at + 2}")


def main():
    whole_journals()
    several()
    torn()
    bad()
    given = "".join("\n".join(lines) + "\n" for _, lines, _ in ROWS)
    wanted = "".join(line + "\n" for _, _, line in ROWS)
    if sys.argv[1:] == ["--check"]:
        for name, text in (("stdin", given), ("stdout", wanted)):
            with open(f"{TOP}/{name}", encoding="utf-8") as it:
                if it.read() != text:
                    sys.exit(f"crates/journal_rows/{name} isn't what checks/journal_rows.py lays out")
        print(f"{len(ROWS)} journals are as they are laid out")
        return
    for name, text in (("stdin", given), ("stdout", wanted)):
        with open(f"{TOP}/{name}", "w", encoding="utf-8") as it:
            it.write(text)


if __name__ == "__main__":
    main()
