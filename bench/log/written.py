"""How many bytes a program writes into its image: `written.py SCRIPT PROGRAM IMAGE TRACE WORD..`, as the system counts them, without those of trace and output."""
import os
import subprocess
import sys

script, program, image, trace, *words = sys.argv[1:]
with open(script) as given, open("output", "wb") as output:
    child = subprocess.Popen([program, image, trace, *words], stdin=given, stdout=output)
    os.waitid(os.P_PID, child.pid, os.WEXITED | os.WNOWAIT)
    with open("/proc/%d/io" % child.pid) as told:
        counts = dict(line.split(": ") for line in told.read().splitlines())
    if child.wait():
        sys.exit("%s ended with a fault" % program)
print(int(counts["wchar"]) - os.path.getsize("output") - os.path.getsize(trace))
