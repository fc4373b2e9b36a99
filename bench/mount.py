"""Makes the master directory of a new image a hashed one, and prints how many leaves it has: `mount.py FILE BLOCKS [LEAVES]`.

The image is one that `mkfs --bsize 4096 --journals 1 --journal-blocks 512` made of so many blocks of 4096 bytes. The table has
32,768 pointers, the most that there are; its blocks are the first free ones, and the leaves stand in those behind: in all of
them, where it isn't said how many. As many leaves as are a power of two, up to 32,768, have pointers of their own; the others
stand behind them, along their chains. All are empty but for the four names of a master directory. The image stands: the group says
which blocks are taken, and the dinode how many.
"""
import os
import sys
from struct import pack, unpack
from zlib import crc32

sys.dont_write_bytecode = True
sys.path.insert(0, os.path.join(os.path.dirname(os.path.abspath(__file__)), "..", "checks"))
import new_image

SIZE = 4096
TABLE_DEPTH = 15
IN_DINODE = 232
IN_LEAF = 104

path, blocks = sys.argv[1], int(sys.argv[2])
superblock, groups = new_image.split(SIZE, blocks, 1)
data = [block for group in groups for block in range(group[3], group[3] + group[4])]
free = data[new_image.total_taken(SIZE, dict(groups=1, journals=1, journal_blocks=512)):]

in_table = SIZE - 24
table_count = -(-8 * 2**TABLE_DEPTH // in_table)
table, room = free[:table_count], free[table_count:]
leaves = room[:int(sys.argv[3])] if len(sys.argv) > 3 else room
depth = min(TABLE_DEPTH, len(leaves).bit_length() - 1)
heads = 2**depth

with open(path, "r+b") as file:

    def read(block):
        file.seek(block * SIZE)
        return bytearray(file.read(SIZE))

    def write(block, content):
        file.seek(block * SIZE)
        file.write(new_image.pad(bytes(content), SIZE))

    master = unpack(">Q", read(superblock)[56:64])[0]
    dinode = read(master)

    # The records that it has, by the leaf to which the hashes of their names lead.
    records = {}
    at = IN_DINODE
    while at < SIZE:
        number, address, name_hash, length, name_length, kind = unpack(">QQIHHH", dinode[at:at + 26])
        name = bytes(dinode[at + 40:at + 40 + name_length])
        records.setdefault(name_hash >> (32 - depth), []).append((name, number, address, kind))
        at += length

    # Size, blocks, flags, height and depth are those of a table in blocks of its own.
    dinode[56:72] = pack(">QQ", 8 * 2**TABLE_DEPTH, 1 + table_count + len(leaves))
    dinode[128:132] = pack(">I", 3)
    dinode[138:140] = pack(">H", 1)
    dinode[146:148] = pack(">H", TABLE_DEPTH)
    write(master, dinode[:IN_DINODE] + b"".join(pack(">Q", block) for block in table))

    pointers = b"".join(pack(">Q", leaves[i >> (TABLE_DEPTH - depth)]) for i in range(2**TABLE_DEPTH))
    for i, block in enumerate(table):
        write(block, new_image.header(7, 700) + pointers[i * in_table:(i + 1) * in_table])

    for i, block in enumerate(leaves):
        names = records.get(i, []) if i < heads else []
        behind = leaves[i + heads] if i + heads < len(leaves) else 0
        area = new_image.Area(SIZE - IN_LEAF)
        for name in names:
            area.put(name)
        head = new_image.header(6, 600) + pack(">HHIQ", depth, len(names), 1200, behind)
        write(block, new_image.pad(head, IN_LEAF) + area.bytes)

    # Two bits a block, those of the first in the lowest of the first byte: behind 128 bytes of the group's header, and 24 of each
    # block of bitmaps.
    (place, _, length, first, count), = groups
    starts = [(place + i, 128 if i == 0 else 24) for i in range(length)]
    states = bytearray(b"".join(read(block)[start:] for block, start in starts))
    for block in table + leaves:
        states[(block - first) // 4] |= 1 << 2 * ((block - first) % 4)
    free = sum(not states[i // 4] >> 2 * (i % 4) & 3 for i in range(count))
    for block, start in starts:
        head = read(block)[:start]
        if block == place:
            head[28:32] = pack(">I", free)
            head[64:68] = bytes(4)
            head[64:68] = pack(">I", crc32(head))
        write(block, head + states[:SIZE - start])
        states = states[SIZE - start:]

print(len(leaves))
