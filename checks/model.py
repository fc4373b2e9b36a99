#!/usr/bin/env python3
"""A tiny cluster, run at random against its invariant: what docs/CLUSTER.md calls the book, the mirror and the notes.

Image: block 0 is the directory (names to inodes), block 1 the group's bitmap; of blocks 2.. some are inodes ('ino', content block or
None), some contents. Locks: 'D' covers block 0, 'G' covers block 1 and the free blocks, d covers inode d and its content block.
Each node has two clients, so two open calls. What a try finds missing is the client's note; it has the locks that its tries went through pinned.

    model.py            fifty runs, the rows made by hand, and each wrong variant, which some part must refuse: half a minute
    model.py --long     the same with 2,000 runs of 1,000 steps, and at random six of the wrong variants, all but after_only and stale_note: a quarter of an hour or more
    model.py VARIANT    one of the wrong variants at random, and what refuses it

It ends with 0 exactly where nothing is broken and every wrong variant is refused.
"""
import random, sys, itertools

NODES, FILES, DATA = [1, 2, 3], ['x', 'y'], [2, 3, 4, 5]
BLOCKS = [0, 1] + DATA
MUTANTS = {
    'after_only': "down looks only at the locks that unflushed blocks have after their call",
    'no_revoke': "a flush doesn't revoke a freed block that is live, and down doesn't look at live blocks that were freed",
    'late_home': "a header is written while writes home are in flight",
    'grant_waits': "a lock is granted while a slot waits",
    'down_unpublished': "a lock goes down before its node's calls are published",
    'own_live': "down doesn't look at live blocks",
    'stale_note': "a note of a block stands though another client's answered call wrote or freed the block, and the read is laid over the cache",
    'early_low': "the header counts as the journal's before its barrier",
}
MUT = None
END = False

# ---- images
def layout(im):
    """block -> (lock, is free), or None where the contents stand for nothing"""
    if not isinstance(im[0], tuple) or not isinstance(im[1], tuple): return None
    at, used = {0: ('D', False), 1: ('G', False)}, []
    for n, d in im[0]:
        if d not in DATA or not isinstance(im[d], tuple): return None
        used.append(d); at[d] = (d, False)
        if im[d][1] is not None: used.append(im[d][1]); at[im[d][1]] = (d, False)
    if len(set(used)) != len(used) or any(b not in DATA for b in used): return None
    if any((b in used) != (im[1][b - 2] == 1) for b in DATA): return None
    for b in DATA: at.setdefault(b, ('G', True))
    return at
def tree_of(im):
    """the tree that the contents stand for, or None"""
    if layout(im) is None: return None
    return {n: None if im[d][1] is None else im[im[d][1]] for n, d in im[0]}
def stands(cells):
    im = {b: cells[b][0] for b in BLOCKS}
    t = tree_of(im)
    if t is None or any(layout(im)[b] != cells[b][1] for b in BLOCKS): return None
    return t

# ---- calls: on a tree, and from a view
def apply(call, t):
    k = call[0]
    if k == 'create': return ('exists', t) if call[1] in t else ('ok', {**t, call[1]: None})
    if k == 'sync': return ('ok', t)
    if call[1] not in t: return ('notfound', t)
    if k == 'read': return (('data', t[call[1]]), t)
    if k == 'write': return ('ok', {**t, call[1]: call[2]})
    if k == 'truncate': return ('ok', {**t, call[1]: None})
    if k == 'unlink': return ('ok', {n: v for n, v in t.items() if n != call[1]})
def answers(call, reply, t):
    if reply == 'nospace': return t if apply(call, t)[0] == 'ok' else None
    r, u = apply(call, t)
    return u if r == reply else None
class Need(Exception): pass
def attempt(n, call, used):
    """(reply, change: block -> cell, view) from what the node holds, or Need(lock, state) / Need(block, its lock); used gets the locks gone through"""
    view = {}
    def lock(l, s):
        if not (n.state.get(l) == s or n.state.get(l) == 'ex'): raise Need(('lock', l, s))
        used.add(l)
    def read(b, l):
        if b not in n.cache: raise Need(('block', b, l))
        view[b] = n.cache[b]; return n.cache[b][0]
    def bitmap(bits, b, v): return {1: (tuple(v if c == b else bits[c - 2] for c in DATA), ('G', False))}
    def take():
        lock('G', 'ex'); bits = read(1, 'G')
        free = [b for b in DATA if not bits[b - 2]]
        return (None, bits) if not free else (random.choice(free), bits)
    k = call[0]
    if k == 'sync': return 'ok', {}, {}
    lock('D', 'ex' if k in ('create', 'unlink') else 'sh')
    d = dict(read(0, 'D'))
    if k == 'create':
        if call[1] in d: return 'exists', {}, view
        b, bits = take()
        if b is None: return 'nospace', {}, view
        lock(b, 'ex')
        d[call[1]] = b
        return 'ok', {0: (tuple(sorted(d.items())), ('D', False)), **bitmap(bits, b, 1), b: (('ino', None), (b, False))}, view
    if call[1] not in d: return 'notfound', {}, view
    i = d[call[1]]
    lock(i, 'sh' if k == 'read' else 'ex'); c = read(i, i)[1]
    if k == 'read': return ('data', None if c is None else read(c, i)), {}, view
    if k == 'write':
        if c is not None: return 'ok', {c: (call[2], (i, False))}, view
        c, bits = take()
        if c is None: return 'nospace', {}, view
        return 'ok', {**bitmap(bits, c, 1), i: (('ino', c), (i, False)), c: (call[2], (i, False))}, view
    if k == 'truncate':
        if c is None: return 'ok', {i: (('ino', None), (i, False))}, view
        lock('G', 'ex'); bits = read(1, 'G')
        return 'ok', {**bitmap(bits, c, 0), i: (('ino', None), (i, False)), c: ('junk', ('G', True))}, view
    lock('G', 'ex'); bits = read(1, 'G'); del d[call[1]]
    gone = [i] if c is None else [i, c]
    return 'ok', {0: (tuple(sorted(d.items())), ('D', False)), 1: (tuple(0 if b in gone else bits[b - 2] for b in DATA), ('G', False)),
                  **{b: ('junk', ('G', True)) for b in gone}}, view

class Node:
    def __init__(n):
        n.runs, n.fenced, n.waits = True, False, False
        n.low = n.pub = n.ans = 0
        n.state, n.cache = {}, {}
        n.said = {}             # number -> (call, reply, change, view)
        n.before = {}           # number -> {block: place before}
        n.heads = [(0, {})]     # (cut, live: block -> (content, place))
        n.flights = {}          # block -> content
        n.open, n.want, n.pins = {}, {}, {}     # client -> its open call, its note, the locks that it has pinned
        n.synced = 0
        n.clean_begun = False

class Bad(Exception): pass

class World:
    def __init__(w):
        w.nodes = {i: Node() for i in NODES}
        w.disk = {0: (), 1: tuple(0 for b in DATA), **{b: 'zero' for b in DATA}}
        w.owner = {b: None for b in BLOCKS}
        w.unowned = {b: (w.disk[b], layout(w.disk)[b]) for b in BLOCKS}
        w.says = {i: {0: {}} for i in NODES}   # cut -> block -> cell
        w.kept = []                            # (node, number, call, reply)
        w.log = []
    # -- the book
    def W(w, cut):
        return {b: w.unowned[b] if w.owner[b] is None else w.says[w.owner[b]][cut[w.owner[b]]][b] for b in BLOCKS}
    def mine(w, j, k, b):
        return w.unowned[b] if w.owner[b] is None else w.says[j][k][b]
    def seen(w, j, k, b, x):
        return w.owner[b] in (None, j) and w.mine(j, k, b) == x and w.nodes[j].state.get(x[1][0], 'un') != 'un'
    def box(w):
        for ks in itertools.product(*[range(w.nodes[i].low, w.nodes[i].ans + 1) for i in NODES]): yield dict(zip(NODES, ks))
    def run_kept(w, cut):
        t = {}
        for (i, n, call, reply) in w.kept:
            if n <= cut[i]:
                t = answers(call, reply, t)
                if t is None: return None
        return t
    def check(w):
        for i, n in w.nodes.items():
            if not n.low <= n.pub <= n.ans: raise Bad('order', i)
        for cut in w.box():
            t = stands(w.W(cut))
            if t is None: raise Bad('stands', cut)
            if all(cut[i] <= w.nodes[i].pub for i in NODES) and w.run_kept(cut) != t: raise Bad('right', cut)
        for b in BLOCKS:
            i = w.owner[b]
            if i is not None:
                for k in range(w.nodes[i].low, w.nodes[i].ans + 1):
                    if w.nodes[i].state.get(w.says[i][k][b][1][0]) != 'ex': raise Bad('owned', i, k, b)
        for i, j in itertools.permutations(NODES, 2):
            for l, s in w.nodes[i].state.items():
                if s == 'ex' and w.nodes[j].state.get(l, 'un') != 'un': raise Bad('apart', i, j, l)
        for j, n in w.nodes.items():
            if n.runs:
                for b, x in n.cache.items():
                    if not w.seen(j, n.ans, b, x): raise Bad('cached', j, b)
                full = w.W({k: m.ans for k, m in w.nodes.items()})
                for c, note in n.want.items():
                    if note[0] == 'block' and (full[note[1]][1] != (note[2], False) or n.state.get(note[2], 'un') == 'un' or note[2] not in n.pins[c] or note[1] in n.cache):
                        raise Bad('note', j, c, note)
                for b in BLOCKS:
                    if w.owner[b] == j and not full[b][1][1] and not n.waits and b not in n.cache and not w.is_home(j, b): raise Bad('cache', j, b)
            for k in range(n.pub, n.ans):
                call, reply, change, view = n.said[k + 1]
                for b, x in view.items():
                    if not w.seen(j, k, b, x): raise Bad('past', j, k, b)
        near = lambda d, x: x[1][1] or x[0] == d
        for b in BLOCKS:
            for i, n in w.nodes.items():
                for cut, live in n.heads:
                    if b in live and w.owner[b] != i: raise Bad('lives', i, b)
                    if w.owner[b] == i and not near(live[b][0] if b in live else w.disk[b], w.says[i][cut][b]): raise Bad('home', i, b)
                for c in NODES:
                    if b in n.flights and w.owner[b] == c and any(b not in live or live[b][0] != n.flights[b] for _, live in w.nodes[c].heads): raise Bad('flights', i, b)
            if w.owner[b] is None:
                if not near(w.disk[b], w.unowned[b]): raise Bad('nobody', b)
                if any(b in n.flights for n in w.nodes.values()): raise Bad('flights', b)
    def is_home(w, j, b):
        """no call of j above low touches the block, it is home where it is live, and nothing is in flight to it"""
        n = w.nodes[j]
        return (all(b not in n.said[k][2] for k in range(n.low + 1, n.ans + 1)) and not any(b in m.flights for m in w.nodes.values())
                and all(b not in live or live[b][0] == w.disk[b] for _, live in n.heads))
    def check_disk(w):
        """the prefix clause itself, for one outcome and one choice of heads, without the book"""
        x = dict(w.disk)
        for n in w.nodes.values():
            for b, v in n.flights.items(): x[b] = random.choice([x[b], v, 'torn'])
        cut = {}
        for i, n in w.nodes.items():
            cut[i], live = random.choice(n.heads)
            for b, (v, p) in live.items(): x[b] = v
        t = tree_of(x)
        if t is None or t != w.run_kept(cut): raise Bad('prefix', cut, x, w.run_kept(cut))
    # -- events
    def publish(w, i, one=False):
        n = w.nodes[i]
        while n.pub < n.ans:
            n.pub += 1
            w.kept.append((i, n.pub) + n.said[n.pub][:2])
            t = w.run_kept({k: m.pub for k, m in w.nodes.items()})
            if t is None: raise Bad('legal', i, n.pub)
            if one: break
    def try_(w, i, c):
        n = w.nodes[i]; call = n.open[c]; used = set()
        try: reply, change, view = attempt(n, call, used)
        except Need as e:
            n.want[c] = e.args[0]; n.pins[c] = used; return False
        if call[0] == 'sync':
            if any(n.said[k][2] for k in range(max(c for c, _ in n.heads) + 1 if MUT == 'early_low' else n.low + 1, n.ans + 1)): return False
            n.synced = n.ans + 1
        new = dict(w.says[i][n.ans])
        n.before[n.ans + 1] = {b: w.mine(i, n.ans, b)[1] for b in change if w.owner[b] in (None, i)}
        for b, x in change.items():
            if not END and w.owner[b] not in (None, i): raise Bad('ours', i, b)
            if w.owner[b] is None:
                for k in range(0, n.ans + 1): w.says[i].setdefault(k, {})[b] = w.unowned[b]
                w.owner[b] = i
            new[b] = x
            if x[1][1]: n.cache.pop(b, None)
            else: n.cache[b] = x
        for d in (n.open, n.want, n.pins): d.pop(c, None)
        if MUT != 'stale_note':
            for d in [d for d, note in n.want.items() if note[0] == 'block' and note[1] in change]: del n.want[d]
        n.ans += 1
        w.says[i][n.ans] = new
        n.said[n.ans] = (call, reply, change, view)
        return True
    def grant(w, i):
        n = w.nodes[i]
        cs = [c for c, note in n.want.items() if note[0] == 'lock']
        if not cs: return
        c = random.choice(cs)
        _, l, s = n.want[c]
        if n.state.get(l, 'un') in (s, 'ex'): del n.want[c]; return
        if n.state.get(l, 'un') != 'un': return
        if MUT != 'grant_waits' and any(m.waits for m in w.nodes.values()): return
        w.publish(i)
        for k, m in w.nodes.items():
            o = m.state.get(l, 'un')
            if k != i and o != 'un' and (s == 'ex' or o == 'ex') and not (MUT == 'grant_waits' and not m.runs): return
        n.state[l] = s; del n.want[c]; n.pins[c].add(l)
    def read(w, i, c=None):
        n = w.nodes[i]
        cs = [d for d, note in n.want.items() if note[0] == 'block' and c in (None, d)]
        if not cs: return
        w.publish(i)
        _, b, l = n.want[random.choice(cs)]
        n.cache[b] = (n.flights.get(b, w.disk[b]), (l, False))
        for d in [d for d, note in n.want.items() if note[:2] == ('block', b)]: del n.want[d]
    def forget(w, i):
        """a block that is home leaves the cache"""
        n = w.nodes[i]
        bs = [b for b in n.cache if w.is_home(i, b)]
        if bs: n.cache.pop(random.choice(bs))
    def give_up(w, i):
        """a client gives up its note and its pins"""
        n = w.nodes[i]
        if n.want: c = random.choice(list(n.want)); del n.want[c]; n.pins.pop(c, None)
    def settle(w, i, l):
        """the book's part of a down: blocks of i whose cell has the lock in some cut"""
        n = w.nodes[i]
        for b in BLOCKS:
            if w.owner[b] == i and any(w.says[i][k][b][1][0] == l for k in range(n.low, n.ans + 1)):
                cells = {w.says[i][k][b] for k in range(n.low, n.ans + 1)}
                if len(cells) > 1 or any(b in live for _, live in n.heads) or b in n.flights: continue   # then 'owned' breaks
                w.owner[b] = None; w.unowned[b] = cells.pop()
    def down(w, i, l):
        n = w.nodes[i]
        s = n.state.get(l, 'un')
        if s == 'un' or any(l in p for p in n.pins.values()): return
        to = random.choice(['un', 'sh']) if s == 'ex' else 'un'
        if s == 'ex':
            if len(n.heads) > 1: return
            cut, live = n.heads[0]
            for k in range(n.low + 1, n.ans + 1):
                _, _, change, _ = n.said[k]
                for b, x in change.items():
                    if MUT == 'after_only':
                        if not x[1][1] and x[1][0] == l: return
                    elif x[1][0] == l or n.before[k].get(b, x[1])[0] == l: return
            if MUT != 'own_live':
                for b, (v, p) in live.items():
                    if p[0] == l: return
                    x = w.says[i][n.ans][b]
                    if MUT not in ('no_revoke', 'after_only') and x[1][0] == l: return
            for b in n.flights:
                if w.owner[b] == i and w.says[i][n.ans][b][1][0] == l: return
        if MUT != 'down_unpublished': w.publish(i)
        if s == 'ex': w.settle(i, l)
        n.state[l] = to
        if to == 'un': n.cache = {b: x for b, x in n.cache.items() if x[1][0] != l}
    def flush(w, i):
        n = w.nodes[i]
        if len(n.heads) > 1: return
        w.publish(i)
        if n.flights and MUT != 'late_home':
            w.barrier(i); return
        cut, live = n.heads[0]
        u = n.pub
        new = dict(live)
        for k in range(cut + 1, u + 1):
            for b, x in n.said[k][2].items():
                if x[1][1]:
                    if MUT != 'no_revoke': new.pop(b, None)
                else: new[b] = x
        n.heads = [(cut, live), (u, new)]
    def commit(w, i, which=1):
        n = w.nodes[i]
        if len(n.heads) < 2: return
        n.heads = [n.heads[which]]; n.low = n.heads[0][0]
    def trim(w, i):
        """a header alone, or a flush of revokes: blocks that are home leave the journal"""
        n = w.nodes[i]
        if len(n.heads) > 1 or (n.flights and MUT != 'late_home'): return
        w.publish(i)
        cut, live = n.heads[0]
        home = [b for b in live if w.disk[b] == live[b][0]]
        n.heads = [(cut, live), (cut, {b: v for b, v in live.items() if b not in home or random.random() < .3})]
    def home(w, i):
        n = w.nodes[i]
        if len(n.heads) > 1 or not n.heads[0][1]: return
        w.publish(i)
        todo = [b for b, (v, p) in n.heads[0][1].items() if w.disk[b] != v]
        if not todo: return
        b = random.choice(todo)
        if b not in n.flights: n.flights[b] = n.heads[0][1][b][0]
    def barrier(w, r):
        n = w.nodes[r]
        w.disk.update(n.flights); n.flights = {}
    def crash(w, i):
        n = w.nodes[i]
        w.publish(i)
        n.runs, n.waits, n.fenced, n.cache = False, True, False, {}
        n.open, n.want, n.pins = {}, {}, {}
        for m in w.nodes.values(): m.clean_begun = False if m is n else m.clean_begun
    def fence(w, i):
        n = w.nodes[i]
        for b, v in n.flights.items(): w.disk[b] = random.choice([w.disk[b], v, 'torn'])
        n.flights = {}; n.fenced = True
        w.commit(i, random.choice([0, 1]))
        # a clean header of a replay by this node is settled too
        for m in w.nodes.values():
            if m.waits and m.clean_begun == i: w.commit_clean(m, random.choice([0, 1]))
    def commit_clean(w, m, which):
        m.heads = [m.heads[which]]; m.clean_begun = False
    def replay(w):
        if any(not m.runs and m.waits and not m.fenced for m in w.nodes.values()): return
        running = [i for i, m in w.nodes.items() if m.runs]
        slots = [i for i, m in w.nodes.items() if m.waits]
        if not running or not slots: return
        r = w.nodes[min(running)]; i = min(slots); n = w.nodes[i]
        if n.clean_begun: w.barrier(min(running)); w.commit_clean(n, 1); return
        cut, live = n.heads[0]
        todo = [b for b in live if w.disk[b] != live[b][0] and b not in r.flights]
        if todo and random.random() < .8:
            b = random.choice(todo); r.flights[b] = live[b][0]; return
        if live:
            if any(b in live for b in r.flights): w.barrier(min(running)); return
            if todo: return
            n.heads = [(cut, live), (cut, {})]; n.clean_begun = min(running); return
        w.recovered(i)
    def recovered(w, i):
        n = w.nodes[i]
        k = n.heads[0][0]
        last = n.ans
        while k < last and not n.said[k + 1][2]: k += 1
        if k < n.synced: raise Bad('synced', i, k, n.synced)
        w.kept = [c for c in w.kept if not (c[0] == i and c[1] > k)]
        for b in BLOCKS:
            if w.owner[b] == i: w.owner[b] = None; w.unowned[b] = w.says[i][k][b]
        n.low = n.pub = n.ans = last
        w.says[i] = {c: {} for c in range(last + 1)}
        n.heads = [(last, {})]
        n.state, n.waits = {}, False
        t = w.run_kept({a: m.pub for a, m in w.nodes.items()})
        if t is None: raise Bad('legal lost', i, k)
    def join(w, i):
        n = w.nodes[i]
        if n.runs or not n.fenced: return
        if any(m.waits for m in w.nodes.values()) and any(m.runs for m in w.nodes.values()): return
        n.runs, n.fenced = True, False
    def push(w, i):
        """drive an open call of node i: read, take locks, and let the others' locks in the way go, with chances to stop anywhere"""
        n = w.nodes[i]
        if not n.open: return
        c = random.choice(list(n.open))
        for _ in range(6):
            if not n.runs or n.waits or c not in n.open or random.random() < .1: return
            if c not in n.want: w.attempt(i, c)
            note = n.want.get(c)
            if not note: return
            if note[0] == 'block':
                if random.random() < .6: w.read(i, c)
                else: return
                continue
            l = note[1]
            for k, m in w.nodes.items():
                if m.runs and not m.waits and m.state.get(l, 'un') != 'un' and (k != i or m.state[l] != 'ex'):
                    for e in (['down'] if random.random() < .5 else ['flush', 'commit', 'home', 'home', 'barrier', 'flush', 'commit', 'trim', 'commit', 'down']):
                        if random.random() < .9: (w.down(k, l) if e == 'down' else getattr(w, e)(k)); w.log.append((e, k, l))
            w.grant(i)
    def drive(w, i, c, call):
        """the call of one client, to its answer"""
        n = w.nodes[i]; n.open[c] = call
        for _ in range(60):
            if c not in n.want: w.attempt(i, c)
            if c not in n.open: return n.said[n.ans][1]
            note = n.want.get(c)
            if note and note[0] == 'block': w.read(i, c)
            elif note:
                for k, m in w.nodes.items():
                    if m.runs and m.state.get(note[1], 'un') != 'un' and (k != i or m.state[note[1]] != 'ex'):
                        for e in ['commit', 'flush', 'flush', 'commit', 'home', 'home', 'home', 'barrier', 'trim', 'commit']: getattr(w, e)(k)
                        w.down(k, note[1])
                w.grant(i)
    def attempt(w, i, c):
        n = w.nodes[i]; call = n.open[c]
        w.log.append(('try', i, c, call, w.try_(i, c)))
    def step(w):
        i = random.choice(NODES); n = w.nodes[i]
        if n.runs and len(n.heads) > 1 and random.random() < .02: w.crash(i); return   # stops while a header is in flight
        if random.random() < .5: w.push(i); return
        e = random.choices(['try', 'grant', 'read', 'down', 'flush', 'commit', 'trim', 'home', 'barrier', 'publish', 'crash', 'fence', 'replay', 'join', 'forget', 'give_up'],
                           [30, 20, 15, 25, 10, 8, 5, 8, 5, 3, .5, 6, 10, 8, 15, 12])[0]
        if e == 'try':
            if not n.runs or n.waits or n.ans - n.low > 4: return
            k = random.choice(['create', 'create', 'write', 'write', 'write', 'truncate', 'unlink', 'read', 'sync'])
            call = {'sync': ('sync',), 'read': ('read', random.choice(FILES)), 'unlink': ('unlink', random.choice(FILES)), 'truncate': ('truncate', random.choice(FILES))}.get(k) or (k, random.choice(FILES), random.randrange(100))
            if len(n.heads) > 1 and random.random() < .5: call = ('sync',)
            c = random.choice('ab')
            n.open.setdefault(c, call)
            if c not in n.want: w.attempt(i, c)
        elif e == 'replay': w.replay(); w.log.append((e,))
        elif e == 'fence':
            if not n.runs and not n.fenced: w.fence(i); w.log.append((e, i))
        elif e == 'join': w.join(i)
        elif not n.runs or (n.waits and e != 'crash' and e != 'barrier'): return
        else:
            if e == 'down':
                wanted = [x[1] for m in w.nodes.values() if m is not n for x in m.want.values() if x[0] == 'lock' and n.state.get(x[1], 'un') != 'un']
                if not wanted: wanted = [x[1] for x in n.want.values() if x[0] == 'lock' and n.state.get(x[1], 'un') != 'un']
                l = random.choice(wanted) if wanted and random.random() < .9 else random.choice(['D', 'G'] + DATA)
                if not wanted and random.random() < .9: return
                w.down(i, l); w.log.append((e, i, l, n.state.get(l)))
            elif e == 'publish': w.publish(i, one=True)
            else: getattr(w, e)(i); w.log.append((e, i))

def four_steps(mutant):
    """node 1 frees a block, its group goes to node 2, which takes the block; node 1 dies and is replayed"""
    global MUT
    MUT = mutant
    for seed in range(400):
        random.seed(seed); w = World()
        do = lambda i, call: w.drive(i, 'a', call)
        try:
            for c in [('create', 'x'), ('create', 'y'), ('write', 'x', 11)]: do(1, c)
            w.flush(1); w.flush(1); w.commit(1)
            do(1, ('truncate', 'x')); w.flush(1); w.flush(1); w.commit(1)
            do(2, ('write', 'y', 22)); do(2, ('sync',))
            for e in ['flush', 'flush', 'commit', 'home', 'home', 'home', 'home', 'barrier', 'trim', 'commit', 'trim', 'commit']: getattr(w, e)(2); w.check_disk()
            w.crash(1); w.fence(1)
            for _ in range(40): w.replay(); w.check_disk()
            if not END: w.check()
        except Bad as e:
            print('four steps, seed', seed, 'breaks', *e.args); return False
    print('four steps: nothing broken'); return True

def freed(mutant):
    """node 1 frees blocks that are home and not live, and lets their old lock go before the flush"""
    global MUT
    MUT = mutant
    for seed in range(20):
        random.seed(seed); w = World(); n = w.nodes[1]
        try:
            for c in [('create', 'x'), ('create', 'y'), ('write', 'x', 11)]: w.drive(1, 'a', c)
            w.flush(1); w.flush(1); w.commit(1)
            for _ in range(12): w.home(1)
            w.barrier(1)
            for _ in range(9): w.trim(1); w.commit(1)
            d = dict(n.cache[0][0])['x']
            w.drive(1, 'a', ('unlink', 'x')); w.down(1, d); w.check(); w.check_disk()
        except Bad as e:
            print('freed, seed', seed, 'breaks', *e.args); return False
    print('freed: nothing broken'); return True

def notes(mutant):
    """client b of node 1 notes a block of /x; client a's call writes or frees it (and takes it for /y) before the read: the reply must be that of the node's order"""
    global MUT
    MUT = mutant
    for case in ('overwritten', 'freed and taken again'):
        for seed in range(60):
            random.seed(seed); w = World(); n = w.nodes[1]
            try:
                for c in [('create', 'x'), ('create', 'y'), ('write', 'x', 11)]: w.drive(1, 'a', c)
                w.flush(1); w.flush(1); w.commit(1)
                for _ in range(12): w.home(1)
                w.barrier(1); w.trim(1); w.commit(1)
                d = dict(n.cache[0][0])['x']; b = n.cache[d][0][1]
                if not w.is_home(1, b): continue
                n.cache.pop(b); n.open['b'] = ('read', 'x'); w.attempt(1, 'b')
                if n.want.get('b') != ('block', b, d): raise Bad('no note', n.want)
                if case == 'overwritten': w.drive(1, 'a', ('write', 'x', 22))
                else: w.drive(1, 'a', ('truncate', 'x')); w.drive(1, 'a', ('write', 'y', 33))
                w.read(1, 'b')
                w.drive(1, 'b', n.open.get('b', ('read', 'x'))); w.drive(1, 'a', ('read', 'x')); w.drive(1, 'a', ('read', 'y'))
                w.publish(1); w.check_disk()
                if not END: w.check()
            except Bad as e:
                print('notes,', case, 'seed', seed, 'breaks', *e.args); return False
    print('notes: nothing broken'); return True

def runs_at_random(seeds, steps, mutant, quiet=False):
    """whether nothing is broken in these runs"""
    global MUT, END
    MUT, END = mutant, False
    done = {}
    for seed in seeds:
        random.seed(seed); w = World()
        for s in range(steps):
            try:
                w.step(); w.check(); w.check_disk()
            except Bad as e:
                print('seed', seed, 'step', s, 'breaks', *e.args)
                if not quiet:
                    for l in w.log[-12:]: print('   ', *l)
                return False
        for c in w.kept: done[c[2][0]] = done.get(c[2][0], 0) + 1
    print('nothing broken in', len(seeds), 'runs of', steps, 'steps; calls', done)
    return True

# where a wrong variant is soon refused: a row made by hand, or the first run at random that does
REFUSED = {'after_only': freed, 'no_revoke': four_steps, 'stale_note': notes, 'late_home': 74, 'grant_waits': 0, 'down_unpublished': 0, 'own_live': 0, 'early_low': 4}

def is_refused(mutant):
    where = REFUSED[mutant]
    print(mutant + ':', MUTANTS[mutant])
    if callable(where): return not with_end(where, mutant)
    return not runs_at_random([where], 600, mutant, quiet=True)

def with_end(row, mutant):
    """the rows of notes and of the four steps look only at what the cluster promises, and not at the invariant"""
    global END
    END = row is not freed
    return row(mutant)

def main(words):
    if words and words[0] in MUTANTS: return not runs_at_random(range(2000), 600, words[0])
    long = words == ['--long']
    if words and not long: print(__doc__); return False
    good = runs_at_random(range(2000 if long else 50), 1000 if long else 600, None)
    for row in (four_steps, freed, notes): good = with_end(row, None) and good
    for mutant in MUTANTS:
        refused = is_refused(mutant)
        if long and mutant not in ('after_only', 'stale_note'): refused = not runs_at_random(range(2000), 600, mutant, quiet=True) and refused
        if not refused: print(mutant, 'is NOT refused')
        good = refused and good
    print('every wrong variant is refused, and nothing else is broken' if good else 'something is wrong')
    return good

if __name__ == '__main__': sys.exit(not main(sys.argv[1:]))
