#!/usr/bin/env python3
"""Random lists of calls of what a node keeps in memory, with the answers of a plain model, which is written here
from the rules alone. Each row is a line of numbers.

    python3 checks/kept_rows.py             prints the rows
    python3 checks/kept_rows.py --check     compares them with crates/kept_rows/stdin

10 block sequence            a revoke is added          11 block sequence 0|1        is an entry cancelled?
20 kind number block plain byte length   a block is put  21 block byte length        what is there (length 0: nothing)
22 kind number keep_meta     a lock's blocks go          23 block                    a block goes
30 kind number state         a lock is wanted            41 kind number state        no call wants it so any more
31 / 32 kind number          it is pinned / unpinned     36 kind number call         a call touched it
33 kind number state         it is granted               34 kind number state        a callback
35 kind number state         it went down                42 kind number state 0|1    may it be asked for?
37 kind number state pinned touched wants called         what is kept of it (wants: 1 sh, 2 df, 4 ex; called: 0 none)
38 kind number state         which goes down next (kind 0: none)
43 kind number kind number state      which does behind this lock
39                           the node unmounts
40 state touched flushed live away in_flight stage      the stage of a demotion (0 flush .. 4 release)
50 slot taken                a frame is taken            51 slot byte                a frame is filled
52 slot byte                 all its bytes are so        53 slot                     it is given back
States: 0 un, 1 sh, 2 df, 3 ex; of what is called one more.
"""
import pathlib
import random
import sys

out = []


def row(*numbers):
    out.append(" ".join(str(int(n)) for n in numbers))


def revokes(draw):
    added = []  # every revoke that was added, in order
    for _ in range(10_000):
        block, sequence = draw.randrange(40), draw.randrange(60)
        if draw.random() < 0.5:
            row(10, block, sequence)
            added.append((block, sequence))
        else:
            row(11, block, sequence, any(b == block and s > sequence for b, s in added))


def cache(draw):
    cells = {}  # block: (lock, plain, byte, length)
    locks = [(kind, number) for kind in (2, 3) for number in range(6)]
    for _ in range(10_000):
        what = draw.random()
        block = draw.randrange(200)
        lock = draw.choice(locks)
        if what < 0.5:
            cell = (lock, draw.randrange(2), draw.randrange(256), draw.randrange(1, 20))
            row(20, *lock, block, *cell[1:])
            cells[block] = cell
        elif what < 0.9:
            row(21, block, *(cells[block][2:] if block in cells else (0, 0)))
        elif what < 0.95:
            keep_meta = draw.randrange(2)
            row(22, *lock, keep_meta)
            cells = {b: c for b, c in cells.items() if c[0] != lock or (keep_meta and not c[1])}
        else:
            row(23, block)
            cells.pop(block, None)


UN, SH, DF, EX = range(4)
BELOW = {UN: {UN}, SH: {UN, SH}, DF: {UN, DF}, EX: {UN, SH, DF, EX}}  # what each state is enough for


def meet(a, b):
    both = BELOW[a] & BELOW[b]
    return next(s for s in BELOW if BELOW[s] == both)


class Lock:
    """What has happened to one lock, in order, and nothing that is computed from it."""

    def __init__(self):
        self.items = []  # ("grant", state), ("callback", state), ("down", state before, state after), ("touch", call)
        self.pins = 0

    def state(self):
        states = [item[-1] for item in self.items if item[0] in ("grant", "down")]
        return states[-1] if states else UN

    def since_grant(self, items):
        grants = [place for place, item in enumerate(items) if item[0] == "grant"]
        return items[grants[-1]:] if grants else items

    def touched(self):
        return max([item[1] for item in self.since_grant(self.items) if item[0] == "touch"], default=0)

    def called(self):
        """What the callbacks let the node keep that ask for less than it has held since."""
        standing = []
        for item in self.items:
            if item[0] == "callback":
                standing.append(item[1])
            elif item[0] == "down":
                standing = [keep for keep in standing if item[2] not in BELOW[keep]]
        if not standing:
            return None
        keep = self.state()
        for one in standing:
            keep = meet(keep, one)
        return keep

    def may_ask(self, state):
        if self.state() != UN or state == UN:
            return False
        downs = [place for place, item in enumerate(self.items) if item[0] == "down"]
        if not downs:
            return True
        before = self.since_grant(self.items[:downs[-1]])
        if any(item[0] == "callback" for item in before):
            return True
        return state not in BELOW[self.items[downs[-1]][1]]


def glocks(draw):
    locks = {}  # those that were wanted, by name
    clients = [None] * 6  # the lock and the state that each client of the node wants and hasn't got
    unmounting = False

    def wants(name):
        return {want[1] for want in clients if want is not None and want[0] == name}

    def goes(name):
        lock = locks[name]
        if lock.pins or lock.state() == UN:
            return None
        if unmounting or any(state not in BELOW[lock.state()] for state in wants(name)):
            return UN
        return lock.called()

    def give_up(client):
        name, state = clients[client]
        clients[client] = None
        if state not in wants(name):
            row(41, *name, state)

    def touch_lock(draw, name, what):
        nonlocal clients
        lock = locks[name]
        held = lock.state()
        state = draw.randrange(4)
        if what == 3:
            row(31, *name)
            lock.pins += 1
        elif what in (4, 5):
            row(32, *name)
            lock.pins = max(0, lock.pins - 1)
        elif what in (6, 7) and held == UN:
            state = draw.choice((SH, DF, EX))
            row(33, *name, state)
            lock.items.append(("grant", state))
            clients = [None if want is not None and want[0] == name and want[1] in BELOW[state] else want for want in clients]
        elif what == 8:
            row(34, *name, state)
            if held not in BELOW[state]:
                lock.items.append(("callback", state))
        elif what == 9 and lock.pins == 0 and held != UN:
            to = draw.choice(sorted(BELOW[held] - {held}))
            row(35, *name, to)
            lock.items.append(("down", held, to))
        elif what == 10:
            call = draw.randrange(1, 1_000)
            row(36, *name, call)
            lock.items.append(("touch", call))
        elif what in (11, 15):
            called = lock.called()
            row(37, *name, held, lock.pins > 0, lock.touched(), sum(2 ** (s - 1) for s in wants(name)), 0 if called is None else 1 + called)

    names = [(kind, number) for kind in (1, 2, 3) for number in (3, 70, 2 ** 63)]
    begun = len(out)
    while len(out) < begun + 10_000:
        name = draw.choice(names)
        state = draw.randrange(4)
        what = draw.randrange(16)
        client = draw.randrange(len(clients))
        if not unmounting and len(out) > begun + 9_500:
            row(39)
            unmounting = True
        elif name not in locks or what in (0, 1):
            if clients[client] is not None:
                give_up(client)
            row(30, *name, state)
            lock = locks.setdefault(name, Lock())
            if state not in BELOW[lock.state()]:
                clients[client] = (name, state)
        elif what == 2 and clients[client] is not None:
            give_up(client)
        elif what == 12:
            free = [other for other in sorted(locks) if locks[other].state() == UN]
            name = draw.choice(free) if free else name
            row(42, *name, state, locks[name].may_ask(state))
        elif what in (13, 14):
            down = sorted(name for name in locks if goes(name) is not None)
            if what == 14:
                down = [other for other in down if other > name]
            first = down[0] + (goes(down[0]),) if down else (0, 0, 0)
            row(*((38,) if what == 13 else (43, *name)), *first)
        elif what >= 3:
            touch_lock(draw, name, what)


FLUSH, HOME, BARRIER, REVOKE, RELEASE = range(5)


class Demotion:
    """The blocks under one exclusive lock, and what the node's log and disk have of them."""

    def __init__(self):
        self.changed = {}  # blocks that were changed and not flushed since, with the call
        self.live = set()  # blocks that the journal has
        self.home = set()  # those of them that are home
        self.flying = set()  # and those whose write home is in flight
        self.calls = 0
        self.flushed = 0
        self.last = 0  # the last call that touched the lock

    def left(self):
        """What there is to do before the lock may go, in the order of the stages."""
        return [bool(self.changed), bool(self.live - self.home - self.flying), bool(self.flying), bool(self.live)]

    def look(self):
        left = self.left()
        stage = left.index(True) if any(left) else RELEASE
        row(40, EX, self.last, self.flushed, bool(self.live), left[HOME], left[BARRIER], stage)
        return stage

    def try_one(self, draw):
        """A call of the node; where it changes a block under the lock, it touches the lock."""
        self.calls += 1
        if draw.random() < 0.7:
            self.changed[draw.randrange(8)] = self.calls
            self.last = self.calls

    def work(self, stage):
        if stage == FLUSH:
            self.flushed = self.calls
            self.live |= set(self.changed)
            self.home -= set(self.changed)
            self.changed = {}
        elif stage == HOME:  # one block a step, so the stage may be cut
            self.flying.add(min(self.live - self.home - self.flying))
        elif stage == BARRIER:
            self.home |= self.flying
            self.flying = set()
        elif stage == REVOKE:
            self.flushed = self.calls
            self.live = set()
            self.home = set()


def demotions(draw):
    looks = 0
    while looks < 7_000:  # locks that go down step by step, cut and set back on the way
        lock = Demotion()
        for _ in range(draw.randrange(6)):
            lock.try_one(draw)
        stage = None
        while stage != RELEASE and looks < 7_000:
            stage = lock.look()
            looks += 1
            if draw.random() < 0.15:
                lock.try_one(draw)
            elif draw.random() < 0.8:
                lock.work(stage)
    for _ in range(3_000):  # and anything that may be said of a lock
        state = draw.choice((EX, EX, EX, SH, DF, UN))
        touched, flushed = draw.randrange(8), draw.randrange(8)
        live, away, flying = (draw.randrange(2) for _ in range(3))
        left = [touched > flushed, live and away, flying, live]
        row(40, state, touched, flushed, live, away, flying, left.index(True) if state == EX and any(left) else RELEASE)


def frames(draw):
    slots = {}  # slot: the byte that fills it, None where it isn't known
    order = list(range(4_096))
    draw.shuffle(order)
    for slot in order:  # all frames out, and not one more
        row(50, slot, 1)
        slots[slot] = None
    row(50, 4_096, 0)
    for _ in range(6_000):
        slot = draw.randrange(4_096)
        if slot not in slots:
            row(50, slot, 1)
            slots[slot] = None
        elif draw.random() < 0.4:
            byte = draw.randrange(256)
            row(51, slot, byte)
            slots[slot] = byte
        elif slots[slot] is not None and draw.random() < 0.5:
            row(52, slot, slots[slot])
        else:
            row(53, slot)
            del slots[slot]


def check():
    """The rows that are stored are those that are printed here, and so is their number."""
    place = pathlib.Path(__file__).resolve().parent.parent / "crates" / "kept_rows"
    stored = (place / "stdin").read_text().split("\n")
    for number, (line, old) in enumerate(zip(out + [""], stored), start=1):
        if line != old:
            sys.exit(f"kept_rows.py: row {number} of crates/kept_rows/stdin is {old!r}, and the model says {line!r}")
    if len(stored) != len(out) + 1:
        sys.exit(f"kept_rows.py: crates/kept_rows/stdin has {len(stored) - 1} rows, and the model {len(out)}")
    if (place / "stdout").read_text() != f"{len(out)} rows go as the model says\n":
        sys.exit(f"kept_rows.py: crates/kept_rows/stdout doesn't say {len(out)} rows")
    print(f"kept_rows.py: the {len(out)} rows of crates/kept_rows/stdin are the model's")


for number, part in enumerate((revokes, cache, glocks, demotions, frames)):
    part(random.Random(number))
if sys.argv[1:] == ["--check"]:
    check()
else:
    print("\n".join(out))
