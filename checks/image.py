"""Makes a small image with a file: `image.py FILE`.

It is a new image of 538 blocks of 4096 bytes with one journal of 512 blocks (checks/new_image.py), in which the last block,
537, holds the dinode of a file: `a`, which is `hello`, in the root. Block 17 is the group's header and block 19 the root.
"""
import sys
from struct import pack
from zlib import crc32

sys.dont_write_bytecode = True
import new_image

BLOCK = 4096
FILE = 537
NUMBER = 6  # behind the five dinodes of a new image

options = dict(groups=1, journals=1, journal_blocks=512, time=0, uuid=bytes(16))
image = bytearray(new_image.make(BLOCK, 538, options)[0])


def put(block, place, form, *values):
    data = pack(">" + form, *values)
    at = block * BLOCK + place
    image[at:at + len(data)] = data


content = b"hello"
dinode = new_image.dinode(NUMBER, FILE, 0o100644, 1, len(content), 1, 0, 1, 0, 0, 0, 0)
put(FILE, 0, "%ds" % (len(dinode) + len(content)), dinode + content)

# The root has one more entry: the record of `a` behind that of `..`, of which it takes the rest.
put(19, 148, "I", 3)
put(19, 280 + 20, "H", 48)
put(19, 328, "QQIHHHH", NUMBER, FILE, crc32(b"a"), BLOCK - 328, 1, 8, 0)
put(19, 328 + 40, "s", b"a")

# The group has no free block any more, six dinodes, and the state 3 for its last block.
put(17, 28, "II", 0, 6)
put(17, 40, "Q", NUMBER)
image[17 * BLOCK + 128 + (FILE - 18) // 4] |= 3 << 2 * ((FILE - 18) % 4)
put(17, 64, "I", 0)
put(17, 64, "I", crc32(bytes(image[17 * BLOCK:17 * BLOCK + 128])))

with open(sys.argv[1], "wb") as file:
    file.write(image)
