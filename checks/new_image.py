# Writes a new image, as docs/FORMAT.md lays it out, without any of the project's code: what `gfs2run IMAGE TRACE mkfs`
# makes is compared with it, and the values in the tests of the crate mkgfs2_tool come from it.
#
#     python3 checks/new_image.py FILE BLOCK-SIZE BLOCKS JOURNALS JOURNAL-BLOCKS GROUPS TIME UUID
#
# The identifier is 32 hexadecimal digits. Where the image doesn't fit, it prints how many blocks are needed, writes
# nothing, and ends with status 1.
import struct
import sys
import zlib

MAGIC = 0x01161970

def header(kind, fmt, jid=0):
    return struct.pack('>IIQII', MAGIC, kind, 0, fmt, jid)

def crc32c_raw(data):
    """CRC-32C bit by bit (polynomial 0x1EDC6F41, the lowest bit first), from all ones, and not inverted at the end."""
    state = 0xFFFFFFFF
    for byte in data:
        state ^= byte
        for _ in range(8):
            state = state >> 1 ^ (0x82F63B78 if state & 1 else 0)
    return state

def pad(b, size):
    assert len(b) <= size, (len(b), size)
    return b + bytes(size - len(b))

class NoFit(Exception):
    pass

def split(size, blocks, groups):
    """list of (addr, n, L, data0, ndata)"""
    S = 65536 // size
    if blocks < S + 1:
        raise NoFit
    rest = blocks - S - 1
    each = rest // groups
    out = []
    at = S + 1
    for g in range(groups):
        n = each if g + 1 < groups else blocks - at
        rg = (size - 128) * 4
        rb = (size - 24) * 4
        L = 1
        while not (n - L <= rg + (L - 1) * rb):
            L += 1
        nd = n - L
        if nd < 4:
            raise NoFit
        nd -= nd % 4
        out.append((at, n, L, at + L, nd))
        at += n
    assert at == blocks
    return S, out

def file_levels(size, nbytes):
    """how many blocks at each level under the dinode, top first; [] where stuffed"""
    if nbytes <= size - 232:
        return []
    content = -(-nbytes // size)
    dp = (size - 232) // 8
    ip = (size - 24) // 8
    levels = [content]
    while levels[0] > dp:
        levels.insert(0, -(-levels[0] // ip))
    return levels

def total_taken(size, o):
    lv = file_levels(size, 96 * o['groups'])
    lj = file_levels(size, o['journal_blocks'] * size)
    return 3 + sum(lv) + 1 + journals_leaves(size, o['journals']) + o['journals'] * (1 + sum(lj))

def does_fit(size, blocks, o, taken=None):
    try:
        S, gs = split(size, blocks, o['groups'])
    except NoFit:
        return False
    if taken is None:
        taken = total_taken(size, o)
    return taken <= sum(g[4] for g in gs)

def needed(size, blocks, o):
    t = total_taken(size, o)
    while not does_fit(size, blocks, o, t):
        blocks += 1
    return blocks

def dinode(num, addr, mode, nlink, fsize, blocks, time, flags, payload, height, depth, entries):
    b = header(4, 400)
    b += struct.pack('>QQ', num, addr)
    b += struct.pack('>IIII', mode, 0, 0, nlink)
    b += struct.pack('>QQ', fsize, blocks)
    b += struct.pack('>QQQ', time, time, time)
    b += struct.pack('>II', 0, 0)
    b += struct.pack('>QQQ', addr, addr, num)
    b += struct.pack('>II', flags, payload)
    b += struct.pack('>HHI', 0, height, 0)
    b += struct.pack('>HHI', 0, depth, entries)
    b += struct.pack('>QQ', 0, 0)
    b += struct.pack('>Q', 0)
    b += struct.pack('>III', 0, 0, 0)
    b += bytes(44)
    assert len(b) == 232
    return b

def least(name):
    return (40 + len(name) + 7) & ~7

class Area:
    """The records of a directory or of a leaf, over their bytes."""
    def __init__(self, length):
        self.bytes = bytearray(length)
        self.bytes[20:22] = struct.pack('>H', length)

    def records(self):
        """(place, length, name, or None where it isn't in use)"""
        at = 0
        while at < len(self.bytes):
            number, address, _, length, count = struct.unpack_from('>QQIHH', self.bytes, at)
            yield at, length, bytes(self.bytes[at + 40:at + 40 + count]) if number and address else None
            at += length
        assert at == len(self.bytes)

    def put(self, entry):
        """Into the first record with room; whether there is one."""
        name, number, address, kind = entry
        for at, length, there in self.records():
            own = least(there) if there is not None else 0
            if length - own < least(name):
                continue
            if there is not None:
                self.bytes[at + 20:at + 22] = struct.pack('>H', own)
            at += own
            self.bytes[at:at + 40] = struct.pack('>QQIHHHH', number, address, zlib.crc32(name), length - own, len(name), kind, 0) + bytes(12)
            self.bytes[at + 40:at + 40 + len(name)] = name
            return True
        return False

    def cut(self, name):
        """Joined to the record before it, or no longer in use where it is the first."""
        before = None
        for at, length, there in self.records():
            if there == name:
                if before is None:
                    self.bytes[at:at + 16] = bytes(16)
                else:
                    self.bytes[before[0] + 20:before[0] + 22] = struct.pack('>H', before[1] + length)
                return
            before = at, length
        raise KeyError(name)

class Directory:
    """A directory into which names are put one by one. Its leaves are numbered as they are taken."""
    def __init__(self, size):
        self.size, self.linear, self.entries = size, Area(size - 232), []
        self.leaves, self.depths, self.table, self.depth = [], [], [], None

    def put(self, entry):
        self.entries.append(entry)
        if self.linear is not None:
            if self.linear.put(entry):
                return
            self.convert()
        hash_ = zlib.crc32(entry[0])
        while True:
            leaf = self.table[hash_ >> 32 - self.depth]
            if self.leaves[leaf].put(entry):
                return
            assert self.depths[leaf] < self.depth, 'no new image has so many names'
            self.split(leaf)

    def convert(self):
        self.linear, self.depth = None, {512: 5, 1024: 6, 2048: 7, 4096: 8}[self.size]
        self.table = [self.new_leaf(0)] * (1 << self.depth)
        for entry in self.entries[:-1]:
            assert self.leaves[0].put(entry)

    def new_leaf(self, depth):
        self.leaves.append(Area(self.size - 104))
        self.depths.append(depth)
        return len(self.leaves) - 1

    def split(self, leaf):
        self.depths[leaf] += 1
        new = self.new_leaf(self.depths[leaf])
        span = [i for i, n in enumerate(self.table) if n == leaf]
        for i in span[:len(span) // 2]:
            self.table[i] = new
        for _, _, name in list(self.leaves[leaf].records()):
            if name is not None and self.table[zlib.crc32(name) >> 32 - self.depth] == new:
                self.leaves[leaf].cut(name)
                assert self.leaves[new].put(next(e for e in self.entries if e[0] == name))

    def leaf_block(self, n):
        count = sum(name is not None for _, _, name in self.leaves[n].records())
        return header(6, 600) + struct.pack('>HHIQ', self.depths[n], count, 1200, 0) + bytes(64) + bytes(self.leaves[n].bytes)

def directory_of(size, entries):
    d = Directory(size)
    for entry in entries:
        d.put(entry)
    return d

def journal_name(j):
    return b'journal%d' % j

def journals_leaves(size, journals):
    """how many leaves the directory of journals has, which is told by the names alone"""
    return len(directory_of(size, [(name, 1, 1, 8) for name in [b'.', b'..'] + [journal_name(j) for j in range(journals)]]).leaves)

def make(size, blocks, o):
    G, J, JB, T, U = o['groups'], o['journals'], o['journal_blocks'], o['time'], o['uuid']
    if not does_fit(size, blocks, o):
        raise NoFit
    S, gs = split(size, blocks, G)
    img = {}
    order = [a for g in gs for a in range(g[3], g[3] + g[4])]
    state = {}
    it = iter(order)
    made = [0]
    def take(st):
        a = next(it)
        state[a] = st
        return a
    def number():
        made[0] += 1
        return made[0]
    master, master_n = take(3), number()
    root, root_n = take(3), number()
    rind = b''.join(struct.pack('>QIIQIII', a, L, 0, d0, nd, nd // 4, 0)[:36].ljust(96, b'\0') for a, n, L, d0, nd in gs)
    assert len(rind) == 96 * G

    def put_file(nbytes, content):
        """content: function of a block's place and address, and the dinode's -> bytes; returns number, address"""
        a, n = take(3), number()
        levels = file_levels(size, nbytes)
        h = len(levels)
        addrs = [[take(1) for _ in range(c)] for c in levels]
        d = dinode(n, a, 33152, 1, nbytes, 1 + sum(levels), T, 0x1 | 0x200, 0, h, 0, 0)
        if h == 0:
            img[a] = pad(d + content(None, a, a), size)
            return n, a
        def ptrs(xs):
            return b''.join(struct.pack('>Q', x) for x in xs)
        img[a] = pad(d + ptrs(addrs[0]), size)
        ip = (size - 24) // 8
        for lv in range(h - 1):
            for i, x in enumerate(addrs[lv]):
                img[x] = pad(header(5, 500) + ptrs(addrs[lv + 1][i * ip:(i + 1) * ip]), size)
        for i, x in enumerate(addrs[-1]):
            img[x] = pad(content(i, x, a), size)
        return n, a

    rindex_n, rindex = put_file(len(rind), lambda i, x, a: rind if i is None else rind[i * size:(i + 1) * size])
    jindex, jindex_n = take(3), number()
    leaves = [take(1) for _ in range(journals_leaves(size, J))]
    names = []
    def journal_content(j):
        def f(i, block, dinode):
            if i:
                return b''
            h = header(8, 800, j) + struct.pack('>QIIII', 1, 1, 0, 0, 0)
            assert len(h) == 48
            h = h[:44] + struct.pack('>I', zlib.crc32(h))
            later = pad(struct.pack('>IQQQ', 0, T, block, dinode), size - 52)
            return h + struct.pack('>I', crc32c_raw(later)) + later
        return f
    for j in range(J):
        n, a = put_file(JB * size, journal_content(j))
        names.append((journal_name(j), n, a, 8))
    def put_dir(a, n, nlink, entries, leaves=()):
        d = directory_of(size, entries)
        assert len(leaves) == len(d.leaves)
        if d.linear is not None:
            img[a] = pad(dinode(n, a, 16877, nlink, size - 232, 1, T, 1, 1200, 0, 0, len(entries)) + bytes(d.linear.bytes), size)
            return
        table = b''.join(struct.pack('>Q', leaves[i]) for i in d.table)
        img[a] = pad(dinode(n, a, 16877, nlink, len(table), 1 + len(leaves), T, 3, 1200, 0, d.depth, len(entries)) + table, size)
        for i, x in enumerate(leaves):
            img[x] = pad(d.leaf_block(i), size)
    put_dir(master, master_n, 3, [(b'.', master_n, master, 4), (b'..', master_n, master, 4), (b'jindex', jindex_n, jindex, 4), (b'rindex', rindex_n, rindex, 8)])
    put_dir(root, root_n, 2, [(b'.', root_n, root, 4), (b'..', root_n, root, 4)])
    put_dir(jindex, jindex_n, 2, [(b'.', jindex_n, jindex, 4), (b'..', master_n, master, 4)] + names, leaves)
    sb = header(1, 100) + struct.pack('>IIIIII', 1801, 1900, 0, size, size.bit_length() - 1, 0)
    sb += struct.pack('>QQQQQQ', master_n, master, 0, 0, root_n, root)
    sb += b'lock_dlm'.ljust(64, b'\0') + b'gfs2run:image'.ljust(64, b'\0') + bytes(32) + U
    assert len(sb) == 272
    img[S] = pad(sb, size)
    for a, n, L, d0, nd in gs:
        states = [state.get(x, 0) for x in range(d0, d0 + nd)]
        bm = bytes(sum(states[i * 4 + k] << (2 * k) for k in range(4)) for i in range(nd // 4))
        h = header(2, 200) + struct.pack('>IIII', 0, states.count(0), states.count(3), 0) + struct.pack('>QQII', made[0], d0, nd, nd // 4)
        assert len(h) == 64
        h = pad(h, 128)
        h = h[:64] + struct.pack('>I', zlib.crc32(h)) + h[68:]
        img[a] = pad(h + bm[:size - 128], size)
        bm = bm[size - 128:]
        for i in range(1, L):
            img[a + i] = pad(header(3, 300) + bm[:size - 24], size)
            bm = bm[size - 24:]
        assert not bm
    zero = bytes(size)
    return b''.join(img.get(b, zero) for b in range(blocks)), len(img)

def main(words):
    path, size, blocks, journals, journal_blocks, groups, time, uuid = words
    options = dict(journals=int(journals), journal_blocks=int(journal_blocks), groups=int(groups), time=int(time), uuid=bytes.fromhex(uuid))
    try:
        image, _ = make(int(size), int(blocks), options)
    except NoFit:
        print(needed(int(size), int(blocks), options))
        return 1
    with open(path, 'wb') as file:
        file.write(image)
    return 0


if __name__ == '__main__':
    sys.exit(main(sys.argv[1:]))
