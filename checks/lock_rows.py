#!/usr/bin/env python3
"""What `lock_rows` has to print, worked out from the rules of the lock manager alone.

Run it from the top of the repository:
    checks/lock_rows.py > crates/lock_rows/stdout
    checks/lock_rows.py --check     compares that file with it; the status is 1 where they differ
"""
import sys
import zlib

MODES = ["nl", "cr", "cw", "pr", "pw", "ex"]
TOGETHER = {"nl": MODES, "cr": MODES[:5], "cw": MODES[:3], "pr": ["nl", "cr", "pr"], "pw": MODES[:2], "ex": MODES[:1]}
BELOW = {"nl": MODES[:1], "cr": MODES[:2], "cw": MODES[:3], "pr": ["nl", "cr", "pr"], "pw": MODES[:5], "ex": MODES}


class Lock:
    def __init__(self):
        self.held, self.conversions, self.requests = [], [], []
        # the value's first byte and its last
        self.value, self.last, self.valid = 0, 0, False
        self.rebuild, self.slots = False, []

    def mode(self, node):
        return next((m for n, m in self.held if n == node), None)

    def waits(self, node):
        return any(n == node for n, _ in self.conversions + self.requests)

    def hold(self, node, mode):
        if mode == "nl":
            self.held = [(n, m) for n, m in self.held if n != node]
        elif self.mode(node) is None:
            self.held.append((node, mode))
        else:
            self.held = [(n, mode if n == node else m) for n, m in self.held]

    def cause(self, node, mode, earlier):
        if self.rebuild:
            return "waits rebuild"
        if self.slots:
            return f"waits slot {min(self.slots)}"
        for n, m in self.held:
            if n != node and mode not in TOGETHER[m]:
                return f"waits held {n}"
        for n, m in earlier:
            if mode not in TOGETHER[m]:
                return f"waits behind {n}"
        return None

    def ask(self, node, mode, queue, earlier):
        cause = self.cause(node, mode, earlier)
        if cause:
            queue.append((node, mode))
            return cause
        self.hold(node, mode)
        return f"granted {self.tell()}"

    def tell(self):
        return f"{self.value} {self.last} {'valid' if self.valid else 'not'}"

    def request(self, node, mode):
        if self.mode(node) is not None or self.waits(node):
            return "-"
        return self.ask(node, mode, self.requests, self.conversions + self.requests)

    def convert(self, node, mode):
        if self.mode(node) not in BELOW[mode] or self.waits(node):
            return "-"
        return self.ask(node, mode, self.conversions, self.conversions)

    def down(self, node, mode, value):
        had = self.mode(node)
        if had is None or had == mode or mode not in BELOW[had] or self.waits(node):
            return "-"
        if value is not None and had in ("pw", "ex"):
            self.value, self.last, self.valid = value, 255 - value, True
        self.hold(node, mode)
        return "down"

    def report(self, node, mode):
        self.rebuild, self.slots = True, []
        self.hold(node, mode)
        return "reported"

    def next_grants(self):
        told = []
        if not self.rebuild and not self.slots:
            for name in ("conversions", "requests"):
                staying = []
                for node, mode in getattr(self, name):
                    earlier = staying if name == "conversions" else self.conversions + staying
                    if self.cause(node, mode, earlier):
                        staying.append((node, mode))
                    else:
                        self.hold(node, mode)
                        told.append(f" {node} {mode} {self.tell()}")
                setattr(self, name, staying)
        return "grants" + "".join(told)

    def callbacks(self):
        told = []
        for node, mode in self.held:
            others = [m for n, m in self.conversions + self.requests if n != node]
            if all(mode in TOGETHER[m] for m in others):
                continue
            may = [k for k in BELOW[mode] if all(k in TOGETHER[m] for m in others)]
            most = [k for k in may if all(j in BELOW[k] for j in may)]
            assert len(most) == 1
            told.append(f" {node} {most[0]}")
        return "callbacks" + "".join(told)


def row():
    """The row of calls on one master for lock 2/9."""
    lock = Lock()
    yield lock.request(1, "ex")
    yield lock.request(2, "pr")
    yield lock.callbacks()
    yield lock.down(1, "pr", 7)
    yield lock.next_grants()
    yield lock.convert(1, "ex")
    yield lock.request(3, "cr")
    yield lock.down(2, "nl", None)
    yield lock.next_grants()


def drawing(seed):
    """Numbers below a count that follow from a seed."""
    x = seed

    def draw(count):
        nonlocal x
        x = (x * 6364136223846793005 + 1442695040888963407) % 2**64
        return (x >> 33) % count

    return draw


def random_conversions(seed):
    """Three nodes report to a rebuild that they hold the lock, in Cr or Pr; then 24 calls, most of them on conversions, by seed."""
    draw, lock = drawing(seed), Lock()
    for node in (1, 2, 3):
        yield lock.report(node, MODES[1 + 2 * draw(2)])
    for _ in range(24):
        kind, node, mode, byte = draw(8), 1 + draw(3), MODES[draw(6)], draw(256)
        if kind < 3:
            yield lock.request(node, mode) if lock.mode(node) is None else lock.convert(node, mode)
        elif kind < 5:
            yield lock.down(node, mode, byte if byte % 2 == 1 else None)
        elif kind < 7:
            yield lock.next_grants()
        else:
            lock.rebuild, lock.slots = byte % 4 == 0, [node] if byte % 4 == 1 else []
            yield "blocked"
    yield lock.callbacks()


def random_calls(seed):
    """24 calls of the nodes 1 to 4 on two locks of one master, by seed."""
    draw = drawing(seed)
    locks = Lock(), Lock()
    for _ in range(24):
        kind, node, mode, byte, lock = draw(8), 1 + draw(4), MODES[draw(6)], draw(256), locks[draw(4) // 3]
        if kind < 3:
            yield lock.request(node, mode)
        elif kind == 3:
            yield lock.convert(node, mode)
        elif kind < 6:
            yield lock.down(node, mode, byte if byte % 2 == 1 else None)
        elif kind == 6:
            yield lock.next_grants()
        elif mode == "ex":
            for each in locks:
                each.rebuild = byte % 4 == 0
                each.slots = [node] if byte % 4 == 1 else []
            yield "blocked"
        else:
            yield lock.callbacks()


def lines():
    yield from row()
    for hundred in range(100):
        text = "".join(line + "\n" for seed in range(100 * hundred, 100 * hundred + 100) for line in (random_conversions if seed % 5 < 2 else random_calls)(seed))
        yield f"{zlib.crc32(text.encode()):08x}"


printed = "".join(line + "\n" for line in lines())
if sys.argv[1:] == ["--check"]:
    path = "crates/lock_rows/stdout"
    with open(path) as stored:
        if stored.read() != printed:
            sys.exit(f"{path} isn't what checks/lock_rows.py works out")
else:
    print(printed, end="")
