"""Writes two scripts for bench/files/run.sh: `calls.py WRITES READS MIB`. The first makes a file and writes so many MiB, in calls of
16 KiB, and the second reads them back."""
import sys

CALL = 16384


def main(writes, reads, mib):
    count = int(mib) * (1 << 20) // CALL
    head = ["nodes 1", "client c on 1"]
    for name, lines in ((writes, ["c: create /a"] + ["c: write /a %d fill:61:%d" % (CALL * k, CALL) for k in range(count)]),
                        (reads, ["c: read /a %d %d" % (CALL * k, CALL) for k in range(count)])):
        with open(name, "w") as file:
            file.write("".join(line + "\n" for line in head + lines))


main(*sys.argv[1:])
