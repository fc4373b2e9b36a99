"""Tells of an image with blocks of 4096 bytes to which block the first name of its master directory leads that is neither
`jindex` nor `rindex`: `first_other.py FILE`."""
import sys
from struct import unpack_from

BLOCK = 4096

with open(sys.argv[1], "rb") as file:
    image = file.read()
(master,) = unpack_from(">Q", image, 65536 + 56)
at, end = master * BLOCK + 232, (master + 1) * BLOCK
while at < end:
    number, block, _, length, name_length = unpack_from(">QQIHH", image, at)
    name = image[at + 40:at + 40 + name_length]
    if number and block and name not in (b".", b"..", b"jindex", b"rindex"):
        print(block)
        break
    at += length
