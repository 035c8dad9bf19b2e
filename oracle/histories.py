"""Random histories inside document 01's port domain, as testbench scripts. docs/COMPARISON.md says what they hold.

No history has the empty name: the crate takes it, and the port refuses it since document 02's Seven. What stands here keeps an account of room (pages, used bytes, table length), so that no call is refused for want of it and page ends can be
met exactly. It judges no answer: that is for the crate and the testbench."""
import functools
import random
import re

PAGE = 1048576
SEED = 3242157231
MOST_BUCKETS = 65536
MASK = 0xFFFFFFFF

# ---- MurmurHash2, forwards and backwards

M = 0x5BD1E995
M_BACK = pow(M, -1, 1 << 32)


def times(a, b):
    return a * b & MASK


def mixed(k):
    k = times(k, M)
    return times(k ^ k >> 24, M)


def unmixed(k):
    k = times(k, M_BACK)
    return times(k ^ k >> 24, M_BACK)


def le(data):
    return int.from_bytes(data, "little")


def after_fours(name, end):
    """h before the last bytes, over the whole fours in name[:end]"""
    h = (SEED ^ len(name)) & MASK
    for i in range(0, end, 4):
        h = times(h, M) ^ mixed(le(name[i:i + 4]))
    return h


def murmur(name):
    end = len(name) // 4 * 4
    h = after_fours(name, end)
    if end < len(name):
        h = times(h ^ le(name[end:]), M)
    h = times(h ^ h >> 13, M)
    return h ^ h >> 15


def with_hash(name, wanted):
    """name with its last whole four bytes changed so that it has the wanted hash"""
    end = len(name) // 4 * 4
    h = wanted ^ wanted >> 15 ^ wanted >> 30
    h = times(h, M_BACK)
    h ^= h >> 13 ^ h >> 26
    if end < len(name):
        h = times(h, M_BACK) ^ le(name[end:])
    four = unmixed(h ^ times(after_fours(name, end - 4), M))
    name = name[:end - 4] + four.to_bytes(4, "little") + name[end:]
    assert murmur(name) == wanted
    return name


def twin(rng, name, at):
    """another name of the same hash, that differs only in the eight bytes from place at, a multiple of four"""
    other = name[:at] + rng.randbytes(4) + name[at + 4:]
    wanted = after_fours(name, at + 8)
    four = unmixed(wanted ^ times(after_fours(other, at + 4), M))
    other = other[:at + 4] + four.to_bytes(4, "little") + other[at + 8:]
    assert murmur(other) == murmur(name)
    return other


# ---- words of a script

RUN = re.compile(rb"(.)\1{7,}", re.S)
QUOTABLE = re.compile(rb"[A-Za-z0-9_.-]{1,60}")


@functools.lru_cache(10000)
def word(data):
    """a bytes word, with runs of a byte cut short"""
    if QUOTABLE.fullmatch(data):
        return "'" + data.decode()
    pieces, at = [], 0
    for run in RUN.finditer(data):
        pieces += [data[at:run.start()].hex(), "%d*%s" % (len(run[0]), run[1].hex())]
        at = run.end()
    pieces.append(data[at:].hex())
    return "+".join(p for p in pieces if p) or "-"


def some_pieces(rng, n):
    """n bytes as (count, bytes): random where they are few, else runs with random bytes between them"""
    if n <= 48:
        return [(1, rng.randbytes(n))] if rng.random() < 0.8 else [(n, rng.randbytes(1))]
    pieces, left = [], n
    while left > 0:
        k = min(left, rng.randint(1, 12))
        pieces.append((1, rng.randbytes(k)))
        left -= k
        k = min(left, rng.randint(1, max(1, n // rng.randint(1, 6))))
        pieces.append((k, rng.randbytes(1)))
        left -= k
    return pieces


def some_bytes(rng, n):
    return b"".join(count * data for count, data in some_pieces(rng, n))


def some_word(rng, n):
    pieces = [(count, data.hex()) for count, data in some_pieces(rng, n) if count and data]
    return "+".join("%d*%s" % (count, pair) if count > 1 else pair for count, pair in pieces) or "-"


# ---- the account of room

class Arena:
    def __init__(self, pages):
        self.pages, self.page, self.used = pages, 0, 0

    def left(self):
        """bytes left on the current page"""
        return PAGE - self.used

    def fits(self, sizes):
        page, used = self.page, self.used
        for n in sizes:
            page, used = (page, used + n) if used + n <= PAGE else (page + 1, n)
        return page < self.pages

    def take(self, n):
        if self.left() < n:
            self.page, self.used = self.page + 1, 0
        at = self.page * PAGE + self.used
        self.used += n
        assert self.page < self.pages and self.used <= PAGE
        return at


class Lane:
    def __init__(self, name, record):
        self.name, self.record = name, record
        self.blocks = []
        self.rem = self.length = 0

    def next_size(self):
        return size_of(len(self.blocks))


def size_of(i):
    """bytes that block i holds, from 0"""
    return 2 ** min(i + 3, 15)


def sizes_for(lane, n):
    """what the blocks take that n more bytes need, links and all"""
    count = len(lane.blocks) if lane else 0
    n -= min(n, lane.rem if lane else 0)
    sizes = []
    while n > 0:
        sizes.append(size_of(count) + 4)
        n -= min(n, size_of(count))
        count += 1
    return sizes


# ---- a history

class History:
    def __init__(self, kind, rng, whole):
        self.kind, self.rng, self.whole = kind, rng, whole
        self.lines = []
        self.lanes = {}
        self.most_read = 1500 if not whole else PAGE if rng.random() < 0.25 else 5000
        self.lend(1, 1)

    def lend(self, key_pages, list_pages):
        self.keys, self.lists = Arena(key_pages), Arena(list_pages)

    def create(self, capacity):
        self.buckets = 1 << capacity.bit_length() - 1
        self.back = False
        self.need = self.buckets
        self.say("create %d %d", capacity, SEED)
        if self.rng.random() < 0.3:
            self.say("next 0")
            self.say("state")
            self.ask_any(self.fresh_name())
            self.say("sum")

    def say(self, text, *values):
        self.lines.append(text % values)

    def script(self):
        """the lines, with a table that is just large enough or somewhat larger"""
        room = self.need + self.rng.choice([0, 0, 0, 1, 2, 7, self.need])
        words = 2 * min(room, MOST_BUCKETS)
        lend = "lend %d %d %d 00" % (words, self.keys.pages * PAGE, self.lists.pages * PAGE)
        return [lend] + [line if isinstance(line, str) else line(words) for line in self.lines]

    # appends

    def saturated(self):
        return self.buckets <= 2 * len(self.lanes)

    def fits(self, name, n):
        lane = self.lanes.get(name)
        if self.saturated() and self.buckets + max(2 * self.buckets, 8) > MOST_BUCKETS:
            return False
        record = [] if lane else [len(name) + 18]
        return self.keys.fits(record) and self.lists.fits(sizes_for(lane, n))

    def append(self, name, n):
        """appends n bytes, if they fit"""
        if not self.fits(name, n):
            return False
        full = self.saturated()
        if full:
            self.grow()
        if name not in self.lanes:
            self.lanes[name] = Lane(name, self.keys.take(len(name) + 18))
        self.pour(self.lanes[name], n)
        self.say("append %s %s", word(name), some_word(self.rng, n))
        if full:
            self.say("state")
            self.ask_table()
        return True

    def grow(self):
        new = max(2 * self.buckets, 8)
        self.need = max(self.need, self.buckets + new)
        self.buckets, self.back = new, not self.back

    def pour(self, lane, n):
        sizes = sizes_for(lane, n)
        lane.blocks += [self.lists.take(size) for size in sizes]
        lane.rem += sum(sizes) - 4 * len(sizes) - n
        lane.length += n

    # questions

    def may_ask(self, name):
        """the crate never ends where the only bucket has another name"""
        return name in self.lanes or self.buckets > len(self.lanes)

    def ask_table(self):
        """the words of the standing table, up to 512 of them"""
        count, back = 2 * self.buckets, self.back
        skip = 2 * self.rng.randrange(max(1, self.buckets - 255))
        self.lines.append(lambda words: "dump table %d %d" % ((words - count if back else 0) + skip, min(count, 512)))

    def ask_header(self, lane):
        self.say("dump keys %d 16", lane.record + 2 + len(lane.name))

    def ask_read(self, lane):
        room = lane.length + self.rng.choice([0, 0, 1, 9])
        if room <= self.most_read:
            self.say("read %s %d", word(lane.name), room)

    def ask_block(self, lane, i):
        self.say("block %s %d", word(lane.name), i)

    def ask_show(self, lane, i):
        last = i + 1 == len(lane.blocks)
        n = size_of(i) - lane.rem if last else size_of(i)
        self.say("show %d %d", lane.blocks[i], min(n, 300 if self.whole else 100))

    def ask_lane(self, lane):
        """everything about one lane"""
        self.say("lookup %s", word(lane.name))
        self.say("length %s", word(lane.name))
        self.ask_header(lane)
        self.ask_read(lane)
        count = len(lane.blocks)
        for i in sorted({0, count // 2, count - 1, count, count + 1} - {-1}):
            self.ask_block(lane, i)
            if i < count:
                self.ask_show(lane, i)

    def ask_any(self, name):
        """one question about a name that may stand or not"""
        if not self.may_ask(name):
            return
        room = self.rng.randrange(60) + (self.lanes[name].length if name in self.lanes else 0)
        asks = ["lookup %s", "length %s", "block %s " + str(self.rng.randrange(12))]
        if room <= self.most_read:
            asks.append("read %s " + str(room))
        self.say(self.rng.choice(asks), word(name))

    def ask_something(self, lane):
        """a few questions in the middle of a history"""
        draw = self.rng.randrange(12)
        if draw < 4:
            self.ask_header(lane)
        elif draw == 4:
            self.ask_lane(lane)
        elif draw == 5:
            self.ask_read(lane)
        elif draw == 6:
            self.say("next %d", self.rng.randrange(self.buckets + 2))
        elif draw == 7:
            self.ask_any(self.fresh_name())
        elif draw == 8:
            self.ask_table()
        elif draw == 9:
            self.say("state")

    # names

    def fresh_name(self):
        while True:
            name = some_name(self.rng, list(self.lanes))
            if name not in self.lanes:
                return name

    # the end

    def finish(self):
        rng = self.rng
        self.say("state")
        self.say("count")
        self.ask_table()
        if self.need <= 400:
            self.lines.append(lambda words: "dump table 0 %d" % words)
        few = self.buckets <= (130 if self.whole else 20)
        for i in range(self.buckets) if few else sorted(rng.sample(range(self.buckets), 20)):
            self.say("next %d", i)
        for i in (self.buckets, self.buckets + 1, 18446744073709551615):
            self.say("next %d", i)
        lanes = list(self.lanes.values())
        most = 40 if self.whole else 5
        for lane in lanes if len(lanes) <= most else rng.sample(lanes, most):
            self.ask_lane(lane)
        for _ in range(3):
            self.ask_any(self.fresh_name())
        self.ask_area("keys", self.keys)
        self.ask_area("lists", self.lists)
        self.say("sum")

    def ask_area(self, name, arena):
        """the bytes of an area: the used ones and some behind them, or windows, or all of them"""
        rng = self.rng
        end = arena.page * PAGE + arena.used
        lent = arena.pages * PAGE
        wide = 150 if self.whole else 60
        if end <= (20000 if self.whole else 4000):
            self.say("dump %s 0 %d", name, end + rng.randint(1, 64))
        elif self.whole and rng.random() < 0.25:
            self.say("dump %s 0 %d", name, lent)
        else:
            ends = [p * PAGE for p in range(arena.pages + 1)] + [end] + [rng.randrange(lent) for _ in range(6)]
            for at in ends:
                first = max(0, at - wide)
                self.say("dump %s %d %d", name, first, min(lent, at + wide) - first)


# ---- names

BRANCHES = [1, 2, 3, 4, 5, 7, 8, 9, 12, 15, 16, 17, 18, 20, 24, 31, 32, 33, 34, 40, 48, 63, 64, 65]
LONGER = [100, 255, 256, 257, 1000, 4095, 4096, 4097, 65534, 65535]


def long_name(rng, n):
    """n bytes in a few runs, random at both ends"""
    cuts = sorted(rng.randint(0, n) for _ in range(rng.randint(0, 3)))
    name = b"".join(rng.randbytes(1) * (b - a) for a, b in zip([0] + cuts, cuts + [n]))
    k = min(8, n // 2)
    return rng.randbytes(k) + name[k:n - k] + rng.randbytes(k)


def some_name(rng, standing):
    draw = rng.random()
    if draw < 0.25:
        return b"lane-%d" % rng.randrange(1000)
    if draw < 0.55 or not standing:
        return some_bytes(rng, rng.choice(BRANCHES))
    if draw < 0.6:
        return long_name(rng, rng.choice(LONGER))
    return near(rng, rng.choice(standing))


def near(rng, name):
    """a name that differs in one byte, or by one; not the empty one"""
    draw = rng.random()
    if not name or draw < 0.15:
        return (name + rng.randbytes(1))[:65535]
    if draw < 0.3 and len(name) > 1:
        return name[:-1]
    at = rng.choice([0, len(name) - 1, rng.randrange(len(name))])
    return name[:at] + bytes([name[at] ^ 1 << rng.randrange(8)]) + name[at + 1:]


def some_length(rng, lane):
    """a length to append: often one at which a copy branches, or around the end of a block"""
    rem = lane.rem if lane else 0
    after = lane.next_size() if lane else 8
    draw = rng.random()
    if draw < 0.1:
        return 0
    if draw < 0.35:
        return rng.choice([1, 2, 3, 4, 5, 7, 8, 9, 15, 16, 17, 31, 32, 33, 63, 64, 65])
    if draw < 0.7:
        return max(0, rem + rng.choice([-1, 0, 1, after - 1, after, after + 1]))
    return rng.randrange(120)


# ---- kinds of histories

def plain(h):
    """a few lanes, all sizes of names and appends"""
    rng = h.rng
    h.create(rng.choice([1, 1, 2, 3, 4, 5, 7, 8, 9, 15, 16, 17, 40, 100, 1000, rng.randint(1, MOST_BUCKETS)]))
    few = rng.randint(1, 12)
    for _ in range(rng.randint(5, 60)):
        standing = list(h.lanes)
        name = rng.choice(standing) if standing and rng.random() < 0.6 or len(standing) >= few else h.fresh_name()
        if h.append(name, some_length(rng, h.lanes.get(name))):
            h.ask_something(h.lanes[name])
    h.finish()


# A few long names, and names near them, can fill the key page before all lanes stand; then no name is entered any more.
# While one still fits, at least one try in 250 enters one, so that after so many in vain there is none.
MOST_IDLE = 10000


def growing(h):
    """many lanes, the table grows several times"""
    rng = h.rng
    h.create(rng.choice([1, 1, 1, 2, 3, 4, 6, 8, 20]))
    many = rng.randint(300, 1500) if h.whole and rng.random() < 0.1 else rng.randint(9, 100 if h.whole else 40)
    idle = 0
    while len(h.lanes) < many and idle < MOST_IDLE:
        standing = list(h.lanes)
        name = b"n%d" % rng.randrange(10 ** 6) if rng.random() < 0.6 else some_name(rng, standing)
        if standing and h.saturated() and rng.random() < 0.5:
            name = rng.choice(standing)
        if h.append(name, rng.choice([0, 1, 3, 8, 9, 20])) and rng.random() < 0.3:
            h.ask_something(h.lanes[name])
        idle = 0 if len(h.lanes) > len(standing) else idle + 1
    h.finish()


def equal_names(rng, count):
    """names of one hash: of any length from 4, some of them equal but for eight bytes at one place"""
    wanted = rng.choice([rng.getrandbits(32), 0, MASK, MASK - 1])
    names = {with_hash(some_bytes(rng, rng.choice([4, 7, 8, 9, 16, 17, 33, 40, 48, 65, 80])), wanted)}
    while len(names) < count:
        base = rng.choice(sorted(names))
        places = len(base) // 4 - 1
        if places > 0 and rng.random() < 0.7:
            names.add(twin(rng, base, 4 * rng.choice([0, places // 2, places - 1, rng.randrange(places)])))
        else:
            names.add(with_hash(some_bytes(rng, rng.choice([4, 8, 12, 16, 19, 24, 40, 50, len(base)])), wanted))
    return sorted(names)


def crowded_names(rng, count):
    """names whose hashes differ but start at one bucket, or at the last ones, in every table up to 65,536"""
    low = rng.choice([0xFFFF, 0xFFFE, 0xFFFD, rng.getrandbits(16)])
    return [with_hash(some_bytes(rng, rng.randint(4, 30)), rng.getrandbits(16) << 16 | low) for _ in range(count)]


def equal(h):
    """names of equal hash, and names that crowd around one bucket"""
    rng = h.rng
    h.create(rng.choice([1, 2, 4, 8, 16, 64]))
    names = equal_names(rng, rng.randint(2, 9))
    if rng.random() < 0.5:
        names += crowded_names(rng, rng.randint(1, 12))
    rng.shuffle(names)
    for _ in range(rng.randint(len(names), 40)):
        name = rng.choice(names)
        h.ask_any(rng.choice(names))
        if h.append(name, some_length(rng, h.lanes.get(name))):
            h.ask_something(h.lanes[name])
    for name in names:
        h.ask_any(name)
    h.finish()


def chain(j):
    """what a lane of j blocks takes"""
    return sum(size_of(i) + 4 for i in range(j))


def to_page_end(h):
    """fills the current list page: exactly, or up to a rest that holds no block; the last block is a standing lane's where one suits"""
    rng = h.rng
    rest = rng.choice([0, 0, 0, 4, 8])
    lanes = [x for x in h.lanes.values() if x.next_size() + 4 + rest + 60 < h.lists.left()]
    last = rng.choice(lanes) if lanes and rng.random() < 0.7 else None
    left = h.lists.left() - rest - (last.next_size() + 4 if last else 0)
    while left >= chain(3) + 56:
        j = max(k for k in range(1, 13) if chain(k) + 56 <= left)
        new_lane(h, j)
        left -= chain(j)
    for ones in range(left // 12 + 1):
        if (left - 12 * ones) % 32 == 0:
            break
    else:
        return
    for j in [1] * ones + [2] * ((left - 12 * ones) // 32):
        new_lane(h, j)
    if last:
        h.append(last.name, last.rem + rng.randint(1, last.next_size()))
    assert h.lists.left() == rest, (h.lists.left(), rest)


def new_lane(h, j):
    """enters a lane of j blocks"""
    full = sum(size_of(i) for i in range(j))
    h.append(h.fresh_name(), full - h.rng.choice([0, 0, h.rng.randrange(size_of(j - 1))]))


def over_pages(h):
    """lanes over several list pages, blocks that end exactly at page ends"""
    rng = h.rng
    h.lend(1, rng.choice([2, 2, 3]))
    h.create(rng.choice([1, 4, 32]))
    names = [h.fresh_name() for _ in range(rng.randint(2, 5))]
    for page in range(h.lists.pages):
        while h.lists.page == page and h.lists.left() > 100000:
            name = rng.choice(names)
            n = rng.choice([1, 900, 8000, 32768, 50000, 131072, 262144, some_length(rng, h.lanes.get(name))])
            if h.append(name, min(n, h.lists.left() - 50000)) and rng.random() < 0.3:
                h.ask_header(h.lanes[name])
        if h.lists.page == page and (page + 1 < h.lists.pages or rng.random() < 0.5):
            to_page_end(h)
            h.say("state")
            name = rng.choice(names)
            h.append(name, h.lanes[name].rem if name in h.lanes else 0)
            h.append(name, rng.choice([1, 30, 5000]))
    h.finish()


def long_names(h):
    """records over both key pages, records that end exactly at page ends"""
    rng = h.rng
    h.lend(2, 1)
    h.create(rng.choice([1, 4, 32]))
    for page in range(2):
        while h.keys.page == page and h.keys.left() > 65553:
            length = rng.choice([65535, 65535, 65534, rng.randint(20000, 65535)])
            h.append(long_name(rng, length), rng.choice([0, 1, 9, 40]))
        over = rng.choice([0, 0, 0, -1, -2, -18, 1, 2])
        for length in (h.keys.left() - 18 + over, rng.choice([1, 2, 10])):
            if 1 <= length <= 65535:
                h.append(long_name(rng, length), 8)
                h.say("state")
    for lane in list(h.lanes.values()):
        h.append(lane.name, some_length(rng, lane))
        if rng.random() < 0.2:
            h.ask_any(near(rng, lane.name))
    h.finish()


def bare(h):
    """the arena by itself: allocations, writes and reads"""
    rng = h.rng
    h.lend(1, rng.randint(1, 3))
    h.need = 1
    length = h.lists.pages * PAGE
    spans = []
    for _ in range(rng.randint(10, 60)):
        left = h.lists.left()
        n = rng.choice([1, 2, 3, 4, 8, 12, 16, 20, 100, rng.randint(1, 5000)])
        if rng.random() < 0.12:
            n = min(max(1, rng.choice([65536, 262144, left, left, left - 1, left + 1, PAGE])), PAGE)
        if not h.lists.fits([n]):
            continue
        h.say("allocate %d %d %d %d", h.lists.page, h.lists.used, length, n)
        spans.append((h.lists.take(n), n))
        ask_span(h, length, *rng.choice(spans))
    end = h.lists.page * PAGE + h.lists.used
    h.say("dump lists %d %d", max(0, end - 500), min(500, end))
    h.say("dump lists 0 %d", length if h.whole and rng.random() < 0.25 else 1000)
    h.say("sum")


def ask_span(h, length, at, n):
    """writes to a part of a span, and reads a part of it"""
    rng = h.rng
    state = (h.lists.page, h.lists.used, length)
    for _ in range(2):
        k = min(n, rng.choice([1, 2, 3, 4, 8, 16, 17, 33, 500, 0]))
        place = at + rng.choice([0, n - k, rng.randint(0, n - k)])
        if place % PAGE == 0 and k == 0:
            continue
        h.say("put %d %d %d %d %s", *state, place, some_word(rng, k))
        h.say("get %d %d %d %d %d", *state, place, k)
    h.say("get %d %d %d %d %d", *state, at, min(n, 200))


NUMBERS = [0, 1, 127, 128, 300, 16383, 16384, 2097151, 2097152, 268435455, 268435456, MASK - 1, MASK]


def leaves(h):
    """hash, vint, compare and copy by themselves"""
    rng = h.rng
    h.need = 1
    for n in NUMBERS:
        h.say("vint %d", n)
    for _ in range(60 if h.whole else 25):
        h.say("vint %d", rng.getrandbits(rng.randint(1, 32)))
        data = some_bytes(rng, rng.choice(BRANCHES + list(range(41)) + LONGER))
        h.say("hash %d %s", rng.choice([0, 1, SEED, MASK, rng.getrandbits(32)]), word(data))
        other = near(rng, data) if rng.random() < 0.7 else data
        h.say("equal %s %s", word(data), word(other))
        h.say("copy %s %s", word(data), some_word(rng, len(data)))


# The kinds go round, so that a short comparison has all of them.
KINDS = [plain, growing, equal, over_pages, plain, growing, equal, bare, plain, long_names,
         plain, growing, equal, over_pages, plain, growing, equal, leaves, plain, long_names]


def history(seed, i, whole=True):
    """history i of a seed: its kind and its lines"""
    kind = KINDS[i % len(KINDS)]
    h = History(kind.__name__, random.Random("%s/%d" % (seed, i)), whole)
    kind(h)
    return h.kind, h.script()
