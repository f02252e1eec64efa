"""The rules (docs/RULES.md) written out as a model over plain lists, from the customer's papers. Independent of the Rattle code: only the papers'
text was used."""
LIMIT = 2 ** 48


class Granule:
    """What the papers say of a granule. Lists are by the height of an entry, 0 at the last level: the lowest address bit of its index, and the size
    of frames as far as there are any. The space is by the levels, and there are no others."""
    def __init__(g, entries, lowest, sizes, space): g.entries, g.lowest, g.sizes, g.space = entries, lowest, sizes, space
    def index(g, address, h): return (address >> g.lowest[h]) % g.entries
    def region(g, h): return 2 ** g.lowest[h]


# rule 7; and request 11: indices in bits 46:36, 35:25 and 24:14
GRANULES = {
    4096: Granule(512, [12, 21, 30, 39], [4096, 2 ** 21, 2 ** 30], {3: 2 ** 39, 4: 2 ** 48}),
    16384: Granule(2048, [14, 25, 36], [2 ** 14, 2 ** 25], {3: 2 ** 47}),
}


def attribute_word(a):
    read, write, execute, device = a & 1, a >> 1 & 1, a >> 2 & 1, a >> 3 & 1
    w = 1 << 10
    if read: w |= 1 << 6
    if write: w |= 1 << 7
    if not execute: w |= 1 << 54
    if device: w |= 0b0000 << 2 | 0b00 << 8          # request 4: Device-nGnRnE
    else: w |= 0b1111 << 2 | 0b11 << 8
    return w


ATTRS = [attribute_word(a) for a in range(16)]


class Lent:
    """The lent memory: the two runs of words and the free list."""
    def __init__(m, first, second, list): m.first, m.second, m.list = first, second, list
    def copy(m): return Lent(m.first[:], m.second[:], m.list[:])
    def key(m): return (m.first, m.second, m.list)

    def part(m, s, t):
        """The run that holds table t, and where the table starts in it."""
        e = s.g().entries
        return (m.first, e * t) if t < s.tables else (m.second, e * (t - s.tables))

    def table(m, s, t):
        run, at = m.part(s, t)
        return run[at:at + s.g().entries]

    def word(m, s, t, i): return m.table(s, t)[i]

    def put(m, s, t, i, w):
        run, at = m.part(s, t)
        run[at + i] = w

    def clear(m, s, t):
        run, at = m.part(s, t)
        run[at:at + s.g().entries] = [0] * s.g().entries


def share(a, x, b, y):
    """Whether the x bytes from a on and the y bytes from b on share one."""
    return len(range(max(a, b), min(a + x, b + y))) > 0


def bad_region(size, P, n): return P % size != 0 or P + size * n > LIMIT


def bad_numbers(levels, P, n, Q, m, size, lent):
    """Refusal 1. The granule's number is also the size of its tables."""
    if size not in GRANULES: return True
    g = GRANULES[size]
    return (levels not in g.space or n < 1 or n + m > 512 or bad_region(size, P, n) or bad_region(size, Q, m) or (m == 0 and Q != 0)
            or share(P, size * n, Q, size * m)
            or len(lent.first) != g.entries * n or len(lent.second) != g.entries * m or len(lent.list) != n + m)


class Setup:
    def __init__(s, levels, base, tables, free, base2=0, tables2=0, granule=4096):
        s.levels, s.base, s.tables, s.free, s.base2, s.tables2, s.granule = levels, base, tables, free, base2, tables2, granule
    def g(s): return GRANULES[s.granule]
    def space(s): return s.g().space[s.levels]
    def total(s): return s.tables + s.tables2
    def bad(s, lent): return bad_numbers(s.levels, s.base, s.tables, s.base2, s.tables2, s.granule, lent) or s.free > s.total() - 1
    def key(s): return (s.levels, s.base, s.tables, s.free, s.base2, s.tables2, s.granule)
    def with_free(s, free): return Setup(s.levels, s.base, s.tables, free, s.base2, s.tables2, s.granule)

    def address(s, t):
        """Where table t stands: numbers below n are in the first region, the others in the second."""
        return s.base + s.granule * t if t < s.tables else s.base2 + s.granule * (t - s.tables)


def in_pool(s, frame, size):
    """Refusal 11: the frame shares a byte with the n tables from P on, or with the m tables from Q on."""
    return share(frame, size, s.base, s.granule * s.tables) or share(frame, size, s.base2, s.granule * s.tables2)


def read(s, w, h):
    """What a word says at height h."""
    if w == 0: return ('empty',)
    if h > 0:
        for c in range(1, s.total()):
            if w == s.address(c) + 3: return ('table', c)
    if h < len(s.g().sizes):
        size, kind = s.g().sizes[h], 3 if h == 0 else 1
        for a in range(16):
            base = w - kind - ATTRS[a]
            if base >= 0 and base % size == 0 and base + size <= LIMIT: return ('frame', base, a)
    return ('damaged',)


def walk(s, lent, address, target):
    """Descend until an entry is no table or the target height is reached. The tables met, the height and the entry; or 'twice'."""
    met, t, h = [0], 0, s.levels - 1
    while True:
        e = read(s, lent.word(s, t, s.g().index(address, h)), h)
        if e[0] != 'table' or h == target: return met, h, e
        if e[1] in met: return met, h, ('damaged',)
        t, h = e[1], h - 1
        met.append(t)


def hole(s, address, h):
    """Refusal 9, with the base and the size of the region of the entry where the walk ended."""
    size = s.g().region(h)
    return ('refused', 9, address // size * size, size)


def format_(levels, P, n, Q, m, granule, lent):
    if bad_numbers(levels, P, n, Q, m, granule, lent): return ('refused', 1), Setup(0, 0, 0, 0, 0, 0, 0)
    s = Setup(levels, P, n, n + m - 1, Q, m, granule)
    for t in range(n + m): lent.clear(s, t)
    lent.list[:] = [n + m - 1 - i for i in range(n + m)]
    return ('done',), s


def map_(s, lent, address, frame, size, attributes):
    if s.bad(lent): return ('refused', 1), s
    if size not in s.g().sizes: return ('refused', 2), s
    if attributes > 15: return ('refused', 3), s
    if address >= s.space() or address + size > s.space() or frame + size > LIMIT: return ('refused', 4), s
    if address % size or frame % size: return ('refused', 5), s
    if in_pool(s, frame, size): return ('refused', 11), s
    target = s.g().sizes.index(size)
    met, h, e = walk(s, lent, address, target)
    if e[0] == 'damaged': return ('refused', 8), s
    if e[0] != 'empty': return ('refused', 6), s
    need = h - target
    if need > s.free: return ('refused', 7), s
    taken = [lent.list[s.free - 1 - i] for i in range(need)]
    if any(not 1 <= t <= s.total() - 1 or t in met for t in taken) or len(set(taken)) != need: return ('refused', 8), s
    t = met[-1]
    for c in taken:                                     # top first: filled with zeros, then linked
        lent.clear(s, c)
        lent.put(s, t, s.g().index(address, h), s.address(c) + 3)
        t, h = c, h - 1
    assert h == target
    lent.put(s, t, s.g().index(address, h), frame + (3 if h == 0 else 1) + ATTRS[attributes])
    return ('takes', need), s.with_free(s.free - need)


def unmap_(s, lent, address):
    if s.bad(lent): return ('refused', 1), s
    if address >= s.space(): return ('refused', 4), s
    if address % s.granule: return ('refused', 5), s
    met, h, e = walk(s, lent, address, 0)
    if e[0] in ('damaged', 'table'): return ('refused', 8), s
    if e[0] == 'empty': return hole(s, address, h), s
    size = s.g().sizes[h]
    if address % size: return ('refused', 10), s
    trial, given, hh = lent.copy(), [], h
    trial.put(s, met[-1], s.g().index(address, h), 0)
    for k in range(len(met) - 1, 0, -1):
        t = met[k]
        if any(trial.table(s, t)): break
        hh += 1
        trial.put(s, met[k - 1], s.g().index(address, hh), 0)
        given.append(t)
    if s.free + len(given) > s.total() - 1: return ('refused', 8), s
    lent.first[:], lent.second[:] = trial.first, trial.second
    for i, t in enumerate(given): lent.list[s.free + i] = t
    return ('gives', e[1], size, e[2], len(given)), s.with_free(s.free + len(given))


def query_(s, lent, address):
    if s.bad(lent): return ('refused', 1)
    if address >= s.space(): return ('refused', 4)
    met, h, e = walk(s, lent, address, 0)
    if e[0] in ('damaged', 'table'): return ('refused', 8)
    if e[0] == 'empty': return hole(s, address, h)
    size = s.g().sizes[h]
    return ('found', address - address % size, e[1], size, e[2])


class Unsound(Exception): pass


def reach(s, lent, full):
    """The tables reached, and the frames with their sizes. A damaged word or a table reached twice is unsound, and where `full` asks for it an empty table
    too, but for the root."""
    reached, frames = set(), []

    def table(t, h):
        if t in reached: raise Unsound
        reached.add(t)
        part = lent.table(s, t)
        if full and t != 0 and not any(part): raise Unsound
        for w in part:
            e = read(s, w, h)
            if e[0] == 'damaged': raise Unsound
            if e[0] == 'frame': frames.append((e[1], s.g().sizes[h]))
            if e[0] == 'table': table(e[1], h - 1)
    table(0, s.levels - 1)
    return reached, frames


def audit_(s, lent):
    if s.bad(lent): return ('refused', 1)
    try:
        reached, frames = reach(s, lent, True)
    except Unsound:
        return ('refused', 8)
    if any(in_pool(s, b, size) for b, size in frames): return ('refused', 8)
    free = lent.list[:s.free]
    if len(set(free)) != len(free) or any(not 1 <= t <= s.total() - 1 or t in reached for t in free): return ('refused', 8)
    if any(any(lent.table(s, t)) for t in free): return ('refused', 8)
    if len(free) + len(reached) != s.total(): return ('refused', 8)
    return ('sound', len(reached), len(frames))


def add_(s, lent, Q, m):
    """The adding call. The free count is tested against the old limit, and the words are read under the old setup."""
    if (s.base2, s.tables2) != (0, 0) or m == 0 or s.free > s.tables - 1: return ('refused', 1), s
    if bad_numbers(s.levels, s.base, s.tables, Q, m, s.granule, lent): return ('refused', 1), s
    try:
        reached, frames = reach(s, lent, False)
    except Unsound:
        return ('refused', 8), s
    if any(share(b, size, Q, s.granule * m) for b, size in frames): return ('refused', 11), s
    n = s.tables
    lent.list[s.free:s.free + m] = list(range(n + m - 1, n - 1, -1))
    lent.second[:] = [0] * len(lent.second)
    return ('done',), Setup(s.levels, s.base, n, s.free + m, Q, m, s.granule)


POWERS = {2 ** power: power for power in (12, 21, 30, 14, 25)}


def live(s, lent, t, h, base):
    """The mappings of a sound tree in table t, whose entries have height h and whose first one stands for the addresses from base on."""
    for i, w in enumerate(lent.table(s, t)):
        at, e = base + i * s.g().region(h), read(s, w, h)
        if e[0] == 'frame': yield at, s.g().sizes[h], w
        if e[0] == 'table': yield from live(s, lent, e[1], h - 1, at)


def list_(s, lent, start, places, entries):
    """Request 8: into the one run addresses plus the power of two of the size, into the other the entry words. Answers how many, and the base of the first
    mapping left out, or None."""
    if s.bad(lent) or len(places) != len(entries): return ('refused', 1)
    if start >= s.space(): return ('refused', 4)
    try:
        reach(s, lent, False)
    except Unsound:
        return ('refused', 8)
    seen = sorted(m for m in live(s, lent, 0, s.levels - 1, 0) if m[0] >= start)
    written, left = seen[:len(places)], seen[len(places):]
    for i, (base, size, w) in enumerate(written): places[i], entries[i] = base + POWERS[size], w
    return ('lists', len(written), left[0][0] if left else None)


LONGEST = 2 ** 32


def bad_length(s, length):
    """Refusal 2 of a range: a nonzero multiple of the page, at most 4 GiB."""
    return length == 0 or length % s.granule != 0 or length > LONGEST


def pieces(s, address, frame, length):
    """At each point the largest size that fits what is left and divides both addresses: addresses, frames and sizes, in rising order."""
    while length:
        size = max(z for z in s.g().sizes if z <= length and address % z == 0 and frame % z == 0)
        yield address, frame, size
        address, frame, length = address + size, frame + size, length - size


def spoiled(s, walks):
    """Refusal 8 of several walks, each an address with the tables met, the height and the entry: one finds damage, or together they come to one table for
    two regions. A table is met at a height, and its region is what an entry one higher stands for."""
    stands = {}
    for address, (met, h, e) in walks:
        if e[0] == 'damaged': return True
        for depth, t in enumerate(met):
            region = (depth, address // s.g().region(s.levels - depth) if depth else 0)
            if stands.setdefault(t, region) != region: return True
    return False


def map_range_(s, lent, address, frame, length, attributes):
    """Request 7. All walks are of the memory at entry. An accepted range is its pieces, mapped one by one."""
    if s.bad(lent): return ('refused', 1), s
    if bad_length(s, length): return ('refused', 2), s
    if attributes > 15: return ('refused', 3), s
    if address >= s.space() or address + length > s.space() or frame + length > LIMIT: return ('refused', 4), s
    if address % s.granule or frame % s.granule: return ('refused', 5), s
    if in_pool(s, frame, length): return ('refused', 11), s
    parts = list(pieces(s, address, frame, length))
    walks = [(a, walk(s, lent, a, s.g().sizes.index(size))) for a, _, size in parts]
    if spoiled(s, walks): return ('refused', 8), s
    if any(e[0] != 'empty' for _, (_, _, e) in walks): return ('refused', 6), s
    missing = {(k, a // s.g().region(k + 1)) for (a, _, size), (_, (_, h, _)) in zip(parts, walks) for k in range(s.g().sizes.index(size), h)}
    need = len(missing)
    if need > s.free: return ('refused', 7), s
    met = {t for _, (tables, _, _) in walks for t in tables}
    taken = [lent.list[s.free - 1 - i] for i in range(need)]
    if any(not 1 <= t <= s.total() - 1 or t in met for t in taken) or len(set(taken)) != need: return ('refused', 8), s
    free = s.free
    for a, f, size in parts:
        answer, s = map_(s, lent, a, f, size, attributes)
        assert answer[0] == 'takes'
    assert free - s.free == need
    return ('takes', need), s


def unmap_range_(s, lent, address, length):
    """Request 7. The walks are those of the pages; all pages of one entry have the same one."""
    if s.bad(lent): return ('refused', 1), s
    if bad_length(s, length): return ('refused', 2), s
    if address >= s.space() or address + length > s.space(): return ('refused', 4), s
    if address % s.granule: return ('refused', 5), s
    walks, at, end = [], address, address + length
    while at < end:
        walks.append((at, walk(s, lent, at, 0)))
        size = s.g().region(walks[-1][1][1])
        at = (at // size + 1) * size
    if spoiled(s, walks): return ('refused', 8), s
    inside = []
    for at, (_, h, e) in walks:
        size = s.g().region(h)
        if e[0] == 'frame': inside.append((at // size * size, size))
    if any(base < address or base + size > end for base, size in inside): return ('refused', 10), s
    trial, after = lent.copy(), s
    for base, _ in inside:
        answer, after = unmap_(after, trial, base)
        if answer[0] == 'refused':
            assert answer[1] == 8
            return ('refused', 8), s
    lent.first[:], lent.second[:], lent.list[:] = trial.key()
    return ('clears', len(inside), after.free - s.free), after
