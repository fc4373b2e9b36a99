"""Writes the calls of bench/calls/run.sh: `calls.py SCRIPT COMMANDS SOURCE`, a script for gfs2run and the same for debugfs.

There are 1,650 rounds over 30 directories. A round creates a file, writes 64 bytes, asks for its size, reads it, lists its directory,
and removes the file of 400 rounds before, or in the first rounds asks for the size of the directory: 9,900 calls. debugfs makes and
writes a file by one command, which copies the file SOURCE.
"""
import sys

ROUNDS, DIRECTORIES, KEPT = 1650, 30, 400


def path(number):
    return "/d%d/f%d" % (number % DIRECTORIES, number)


def main(script, commands, source):
    lines, others = ["nodes 1", "client c on 1"], []
    for directory in range(DIRECTORIES):
        lines.append("c: mkdir /d%d" % directory)
        others.append("mkdir /d%d" % directory)
    for number in range(ROUNDS):
        file, directory = path(number), "/d%d" % (number % DIRECTORIES)
        lines += ["c: create " + file, "c: write %s 0 fill:61:64" % file, "c: stat " + file, "c: read %s 0 64" % file, "c: list " + directory]
        others += ["write %s %s" % (source, file), "stat " + file, "cat " + file, "ls -l " + directory]
        if number < KEPT:
            lines.append("c: stat " + directory)
            others.append("stat " + directory)
        else:
            lines.append("c: unlink " + path(number - KEPT))
            others.append("rm " + path(number - KEPT))
    for name, text in ((script, lines), (commands, others)):
        with open(name, "w") as file:
            file.write("".join(line + "\n" for line in text))
    with open(source, "w") as file:
        file.write("a" * 64)


main(*sys.argv[1:])
