#!/usr/bin/env python3
"""Measures what the gate costs: runs `rt ci` in this checkout and prints, crate by crate, the processor minutes of its proof,
of the proof of its tests, and of its must-fail edits, and beside them those of all else (tests and programs that run).

usage: bench/gate.py [CRATE..]      (rt ci CRATE.. in place of rt ci)
       bench/gate.py --functions CRATE    the twenty functions of a crate whose checks take longest, in processor seconds (rt check, from nothing)

What rt prints goes to standard error. Only what the run proves is measured: what an earlier run on this machine passed is kept and costs nothing. From nothing:
move the kit's store of kept runs aside (/opt/rattle-kept) before, and back after. It watches the processes that rt starts
twice a second, so times are good to about a second each.
"""
import os
import re
import subprocess
import sys
import threading
import time

TICK = os.sysconf("SC_CLK_TCK")

TOP = os.path.join(os.path.dirname(os.path.abspath(__file__)), "..")

with open(f"{TOP}/crates.txt", encoding="utf-8") as lines:
    CRATES = {line.split(":")[0].split()[0] for line in lines if line.strip() and line[0] != "#"}


def stat_of(pid):
    """The parent, and the seconds of the process and of its children that have ended."""
    with open(f"/proc/{pid}/stat") as it:
        fields = it.read().rpartition(")")[2].split()
    return int(fields[1]), sum(int(fields[at]) for at in (11, 12, 13, 14)) / TICK


def words_of(pid):
    with open(f"/proc/{pid}/cmdline", "rb") as it:
        return it.read().decode(errors="replace").split("\0")


def kind_of(words):
    """The crate that such a process works for, and at what."""
    if not words or os.path.basename(words[0]) not in ("rattle", "rattle-link", "rattle-test"):
        return None
    text = " ".join(words)
    name = re.search(r"--crate-name (\w+)", text)
    if not name:
        return None
    crate = name.group(1)
    if crate.endswith("_tests") and crate not in CRATES:
        return crate[: -len("_tests")], "tests"
    if " --test" in text or os.path.basename(words[0]) == "rattle-test":
        return crate, "tests"
    return crate, "edits" if len(words) > 1 and words[1] == "check" else "proof"


class Watch(threading.Thread):
    """Samples the processes below one, and keeps the most seconds that each was seen with."""

    def __init__(self, root):
        super().__init__(daemon=True)
        self.root, self.most, self.kinds, self.done = root, {}, {}, threading.Event()

    def run(self):
        while not self.done.is_set():
            self.sample()
            self.done.wait(0.5)

    def sample(self):
        above, seconds = {}, {}
        for pid in (int(it) for it in os.listdir("/proc") if it.isdigit()):
            try:
                above[pid], seconds[pid] = stat_of(pid)
                if pid not in self.kinds:
                    self.kinds[pid] = kind_of(words_of(pid))
            except (OSError, IndexError, ValueError):
                continue
        total = {}
        for pid in seconds:
            top, at = None, pid
            while at in above and at != self.root:
                if self.kinds.get(at):
                    top = at
                at = above[at]
            if at == self.root and top:
                total[top] = total.get(top, 0.0) + seconds[pid]
        for pid, found in total.items():
            self.most[pid] = max(self.most.get(pid, 0.0), found)

    def table(self):
        rows = {}
        for pid, found in self.most.items():
            crate, kind = self.kinds[pid]
            rows.setdefault(crate, {}).setdefault(kind, 0.0)
            rows[crate][kind] += found
        return rows


def measure(names):
    began, before = time.time(), os.times()
    run = subprocess.Popen(["rt", "ci", *names], stdout=subprocess.PIPE, stderr=subprocess.STDOUT, text=True)
    watch = Watch(run.pid)
    watch.start()
    last = ""
    for line in run.stdout:
        print(line, end="", file=sys.stderr, flush=True)
        last = line.rstrip() or last
    run.wait()
    watch.done.set()
    after = os.times()
    spent = after.children_user + after.children_system - before.children_user - before.children_system
    rows = watch.table()
    kinds = ("proof", "tests", "edits")
    print("| Crate | proof | tests | edits | all |\n|---|---|---|---|---|")
    for crate in sorted(rows, key=lambda it: -sum(rows[it].values())):
        parts = [rows[crate].get(it, 0.0) / 60 for it in kinds]
        print(f"| {crate} | " + " | ".join(f"{it:.1f}" for it in [*parts, sum(parts)]) + " |")
    sums = [sum(it.get(kind, 0.0) for it in rows.values()) / 60 for kind in kinds]
    print("| **all** | " + " | ".join(f"{it:.1f}" for it in [*sums, sum(sums)]) + " |")
    print(f"\nProcessor minutes. The whole run took {spent / 60:.1f} of them, {(time.time() - began) / 60:.1f} minutes of time, on {os.cpu_count()} processors.")
    if sums[0]:
        print(f"The whole is {spent / 60 / sums[0]:.2f} times the proofs alone. rt ci ended with: {last}")
    return run.returncode


def seconds_below(root):
    """The processor seconds of a process, of those that it started, and of those of them that have ended."""
    above, seconds = {}, {}
    for pid in (int(it) for it in os.listdir("/proc") if it.isdigit()):
        try:
            above[pid], seconds[pid] = stat_of(pid)
        except (OSError, IndexError, ValueError):
            continue
    total = 0.0
    for pid, found in seconds.items():
        at = pid
        while at in above and at != root:
            at = above[at]
        if at == root:
            total += found
    return total


def functions(crate):
    """A first check prints a line as each function ends; what is between two lines is about what the later one took, in processor seconds."""
    folder = f"crates/{crate}"
    kept = f"{folder}/out.aside"
    if os.path.isdir(f"{folder}/out"):
        os.rename(f"{folder}/out", kept)
    try:
        run = subprocess.Popen(["rt", "check", "--jobs", "1"], cwd=folder, stdout=subprocess.PIPE, stderr=subprocess.STDOUT, text=True)
        rows, at = [], 0.0
        for line in run.stdout:
            found = re.match(r"checked (\S+), \d+ of \d+", line)
            if found:
                now = seconds_below(run.pid)
                rows.append((now - at, found.group(1)))
                at = now
        run.wait()
    finally:
        if os.path.isdir(kept):
            subprocess.call(["rm", "-rf", f"{folder}/out"])
            os.rename(kept, f"{folder}/out")
    for seconds, name in sorted(rows, reverse=True)[:20]:
        print(f"{seconds:6.1f} s  {name}")
    return run.returncode


if __name__ == "__main__":
    os.chdir(TOP)
    if sys.argv[1:2] == ["--functions"]:
        sys.exit(functions(sys.argv[2]))
    sys.exit(measure(sys.argv[1:]))
