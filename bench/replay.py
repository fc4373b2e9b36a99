#!/usr/bin/env python3
"""replay.py IMAGE: makes each journal of a new image dirty, with one transaction that has as many blocks of content as a journal has room for.

The image is one that `gfs2run IMAGE TRACE mkfs` has just made. Each block goes home to a free one of its own. Prints how many blocks go home.
"""
import os
import sys

sys.path.insert(0, os.path.join(os.path.dirname(os.path.abspath(__file__)), "..", "checks"))
sys.dont_write_bytecode = True
from fsck import Copy
from journal_rows import Journal


def main(name):
    with open(name, "r+b") as file:
        image = Copy(file.read())
        size, home = image.size, image.first - 8
        for number, dinode in enumerate(image.journals):
            places = [at for at, _ in image.places(dinode)]
            # One place has the header of mkfs, one gets that of the transaction, and one the clean header of the replay.
            room, each = len(places) - 3, (size - 72) // 16
            count = room - -(-room // (each + 1))
            journal = Journal(size, len(places), number)
            journal.write(1, 2, 1, content=[(home - k, (number * count + k).to_bytes(8, "little") * (size // 8)) for k in range(count)][::-1])
            home -= count
            for place, block in journal.blocks.items():
                file.seek(places[place])
                file.write(block)
    print(count * len(image.journals))


if __name__ == "__main__":
    main(sys.argv[1])
