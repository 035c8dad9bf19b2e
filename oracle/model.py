#!/usr/bin/env python3
"""A model of the testbench and of the store, written from documents 01 and 02 alone: plays a script on standard input,
prints the answers. It shares no code with the crates; it is slow, and it is there to be held against them."""
import os
import re
import sys

sys.dont_write_bytecode = True
sys.path.insert(0, os.path.dirname(os.path.abspath(__file__)))
import report  # noqa: E402

PAGE = 1048576
SIZES = (65536, 131072, 262144, 524288, 1048576)
OUTPUT = 1048576
WORDS = 2 * 4194304
NULL = 0xFFFFFFFF
M = 0x5BD1E995


# ---- hash and vint

def murmur(seed, data):
    h = (seed ^ len(data)) & 0xFFFFFFFF
    n = len(data) // 4 * 4
    for i in range(0, n, 4):
        k = int.from_bytes(data[i:i + 4], "little")
        k = k * M & 0xFFFFFFFF
        k ^= k >> 24
        k = k * M & 0xFFFFFFFF
        h = (h * M & 0xFFFFFFFF) ^ k
    if n < len(data):
        h ^= int.from_bytes(data[n:], "little")
        h = h * M & 0xFFFFFFFF
    h ^= h >> 13
    h = h * M & 0xFFFFFFFF
    return h ^ (h >> 15)


def vint(n):
    groups = []
    while True:
        groups.append(n % 128)
        n //= 128
        if n == 0:
            break
    groups[-1] += 128
    return bytes(groups)


def unvint(data):
    """the number and the bytes taken; or 11 without an end, 12 for a fifth group above 15 or an empty last one"""
    total = 0
    for i, b in enumerate(data[:5]):
        group = b & 127
        total += group << (7 * i)
        if b & 128:
            if (i == 4 and group > 15) or (i > 0 and group == 0):
                raise Refused(12)
            return total, i + 1
    raise Refused(11)


# ---- readings

def signed(n):
    """modulo 2^32, and taken as signed"""
    n %= 2 ** 32
    return n - 2 ** 32 if n >= 2 ** 31 else n


def stored(d):
    return -2 * d - 1 if d < 0 else 2 * d


def unstored(u):
    return u // 2 if u % 2 == 0 else -(u + 1) // 2

def feed(count, array, fed, piece, room, end):
    """numbers out of the held bytes and a piece: the numbers, and the bytes left over or a refusal with its place"""
    held = array[:count]
    if count > 4 or any(b & 128 for b in held) or fed + len(piece) > 0xFFFFFFFF:
        return [], Refused(2)
    if room < len(piece):
        return [], Refused(8, len(piece))
    rest, numbers = held + piece, []
    while True:
        place = fed + len(piece) - len(rest)
        ends = [i for i, b in enumerate(rest[:5]) if b & 128]
        if ends == [] and len(rest) >= 5:
            return numbers, Refused(11, place + 4)
        if ends == []:
            return numbers, Refused(11, fed + len(piece)) if rest and end else rest
        try:
            number, taken = unvint(rest)
        except Refused as e:
            return numbers, Refused(e.number, place + ends[0])
        numbers.append(number)
        rest = rest[taken:]


# ---- arenas

def capacity(size, length, page):
    return max(0, min(size, length - page * size))


def lendable(size, length):
    return 1 <= length <= (2 ** 32 // size - 1) * size


def arena_ok(size, length, page, used):
    return (size in SIZES and lendable(size, length) and page < -(-length // size)
            and used <= capacity(size, length, page))


def good(size, page, used, at, n):
    p, place = at // size, at % size
    if p > page:
        return False
    return place + n <= (used if p == page else size)


def allocate(size, length, page, used, n):
    """address, page, used; None for no room"""
    if used + n <= capacity(size, length, page):
        return page * size + used, page, used + n
    if n <= capacity(size, length, page + 1):
        return (page + 1) * size, page + 1, n
    return None


# ---- the store

FIELDS = "seed words key_bytes list_bytes buckets end keys key_page key_used list_page list_used page_size".split()


class Refused(Exception):
    def __init__(self, number, told=None):
        self.number, self.told = number, told


class Absent(Exception):
    pass


def block_size(b):
    return 2 ** min(b, 15)


def le(n, width):
    return n.to_bytes(width, "little")


def number(data):
    return int.from_bytes(data, "little")


class Store:
    walk = 0  # how many buckets the last call by name looked at: one number for all stores

    def __init__(self):
        self.table, self.keys, self.lists = [], bytearray(), bytearray()
        self.s = dict.fromkeys(FIELDS, 0)

    def create(self, cap, seed, size):
        words, k, l = len(self.table), len(self.keys), len(self.lists)
        if size not in SIZES:
            raise Refused(1)
        if cap == 0 or not lendable(size, k) or not lendable(size, l) or words % 2 or words > WORDS:
            raise Refused(1)
        rounded = 1 << (cap.bit_length() - 1)
        if words < 2 * rounded:
            raise Refused(1)
        for i in range(rounded):
            self.table[2 * i], self.table[2 * i + 1] = NULL, 0
        self.s = dict(zip(FIELDS, [seed, words, k, l, rounded, 0, 0, 0, 0, 0, 0, size]))

    def check(self):
        s = self.s
        L, size = s["buckets"], s["page_size"]
        ok = (
            (s["words"], s["key_bytes"], s["list_bytes"]) == (len(self.table), len(self.keys), len(self.lists))
            and s["words"] % 2 == 0 and s["words"] <= WORDS
            and L >= 1 and L & (L - 1) == 0 and L <= s["words"] // 2 and s["keys"] <= L
            and arena_ok(size, s["key_bytes"], s["key_page"], s["key_used"])
            and arena_ok(size, s["list_bytes"], s["list_page"], s["list_used"])
        )
        if not ok:
            raise Refused(2)

    def first(self):
        return len(self.table) - 2 * self.s["buckets"] if self.s["end"] else 0

    def key_good(self, at, n):
        return good(self.s["page_size"], self.s["key_page"], self.s["key_used"], at, n)

    def list_good(self, at, n):
        return good(self.s["page_size"], self.s["list_page"], self.s["list_used"], at, n)

    def record_good(self, at):
        return self.key_good(at, 2) and self.key_good(at, 18 + number(self.keys[at:at + 2]))

    def probe(self, name, nameless):
        """place of the record, 'empty' or 'lap'; for the empty name, which isn't looked up, what is given as nameless"""
        Store.walk = 0
        self.check()
        if len(name) > 65535 or len(name) + 18 > self.s["page_size"]:
            raise Refused(3)
        if len(name) == 0:
            raise nameless
        L, first = self.s["buckets"], self.first()
        h = murmur(self.s["seed"], name)
        for i in range(L):
            Store.walk = i + 1
            b = first + 2 * ((h + 1 + i) % L)
            if self.table[b] == NULL:
                return "empty"
            if self.table[b + 1] == h:
                at = self.table[b]
                if not self.record_good(at):
                    raise Refused(4)
                n = number(self.keys[at:at + 2])
                if self.keys[at + 2:at + 2 + n] == name:
                    return at
        return "lap"

    def lookup(self, name):
        got = self.probe(name, Absent())
        if isinstance(got, str):
            raise Absent()
        return got

    def header(self, at):
        """place, block number, head, tail, remaining"""
        v = at + 2 + number(self.keys[at:at + 2])
        raw = self.keys[v:v + 16]
        b, head, tail, rem = number(raw[0:4]), number(raw[4:8]), number(raw[8:12]), number(raw[12:14])
        if b < 2 or b > 140000:
            raise Refused(4)
        if b == 2 and (head, tail, rem) != (NULL, NULL, 0):
            raise Refused(4)
        if b != 2 and head == NULL:
            raise Refused(4)
        if b >= 3 and rem > block_size(b):
            raise Refused(4)
        if raw[14] or raw[15]:
            raise Refused(4)
        return v, b, head, tail, rem

    def lane_length(self, b, rem):
        return sum(block_size(i) for i in range(3, b)) + (block_size(b) - rem if b >= 3 else 0)

    def length(self, name):
        v, b, head, tail, rem = self.header(self.lookup(name))
        return self.lane_length(b, rem)

    def blocks(self, b, head, count):
        """places of the first blocks"""
        at, out = head, []
        for i in range(count):
            size = block_size(3 + i)
            if not self.list_good(at, size + 4):
                raise Refused(4)
            out.append(at)
            at = number(self.lists[at + size:at + size + 4])
        return out

    def lane(self, at):
        """the bytes of the lane whose record is at a place"""
        v, b, head, tail, rem = self.header(at)
        places = self.blocks(b, head, b - 2)
        whole = b"".join(bytes(self.lists[p:p + block_size(3 + i)]) for i, p in enumerate(places))
        return whole[:self.lane_length(b, rem)]

    def read(self, name, room):
        lane = self.lane(self.lookup(name))
        if len(lane) > room:
            raise Refused(8, len(lane))
        return lane

    def readings(self, name, room):
        lane = self.lane(self.lookup(name))
        given, last, at, bad = [], 0, 0, None
        while at < len(lane) and bad is None:
            try:
                number, taken = unvint(lane[at:])
            except Refused as e:
                bad = e.number
            else:
                last = signed(last + unstored(number))
                given.append(last)
                at += taken
        if len(given) > room:
            raise Refused(8, len(given))
        if bad is not None:
            raise Refused(bad, len(given))
        return given

    def drift(self, name, last, new):
        self.append(name, vint(stored(signed(new - last))))

    def piece(self, name, given, room):
        """the bytes behind those given so far, as many as there are places or as are left"""
        v, b, head, tail, rem = self.header(self.lookup(name))
        n = self.lane_length(b, rem)
        if given > n:
            raise Refused(2)
        if room == 0:
            raise Refused(8, n)
        end = min(given + room, n)
        met = 0
        while end > given and sum(block_size(3 + i) for i in range(met)) < end:
            met += 1
        whole = b"".join(
            bytes(self.lists[p:p + block_size(3 + i)]) for i, p in enumerate(self.blocks(b, head, met)))
        return whole[given:end]

    def block(self, name, index):
        v, b, head, tail, rem = self.header(self.lookup(name))
        if index >= b - 2:
            return None
        places = self.blocks(b, head, index + 1)
        size = block_size(3 + index)
        return places[index], size - rem if index == b - 3 else size

    def show(self, at, n):
        try:
            self.check()
        except Refused:
            return b""
        return bytes(self.lists[at:at + n]) if self.list_good(at, n) else b""

    def next(self, i):
        self.check()
        first = self.first()
        while i < self.s["buckets"]:
            at = self.table[first + 2 * i]
            if at != NULL:
                if not self.record_good(at):
                    raise Refused(4)
                return i, at
            i += 1
        return None

    def lanes(self):
        """each listed lane, read through its own record"""
        i = 0
        while True:
            met = self.next(i)
            if met is None:
                return
            i, at = met[0] + 1, met[1]
            lane = self.lane(at)
            yield bytes(self.keys[at + 2:at + 2 + number(self.keys[at:at + 2])]), lane

    def join(self, second, scratch):
        """each lane of a second store read into the scratch and appended: how many went across, and a refusal's number"""
        across = 0
        try:
            self.check()
            second.check()
            for name, lane in second.lanes():
                if len(lane) > len(scratch):
                    raise Refused(8)
                scratch[:len(lane)] = lane
                self.append(name, lane)
                across += 1
        except Refused as e:
            return across, e.number
        return across, 0

    def found_in(self, name):
        """the bucket in which probing finds a name; None where it doesn't, damage on the way included"""
        if len(name) == 0:
            return None
        L, first = self.s["buckets"], self.first()
        h = murmur(self.s["seed"], name)
        for k in range(1, L + 1):
            i = (h + k) % L
            at, word = self.table[first + 2 * i:first + 2 * i + 2]
            if at == NULL:
                return None
            if word == h:
                if not self.record_good(at):
                    return None
                if self.keys[at + 2:at + 2 + number(self.keys[at:at + 2])] == name:
                    return i
        return None

    def fault_in(self, i, names, keys_met, lists_met):
        """the first fault of bucket i, 0 for none; notes its name and every byte it takes"""
        at = self.table[self.first() + 2 * i]
        if at == NULL:
            return 0
        if not self.record_good(at):
            return 1
        n = number(self.keys[at:at + 2])
        name = bytes(self.keys[at + 2:at + 2 + n])
        if name in names:
            return 2
        if self.found_in(name) != i:
            return 3
        try:
            v, b, head, tail, rem = self.header(at)
        except Refused:
            return 4
        try:
            places = self.blocks(b, head, b - 2)
        except Refused:
            return 5
        if places and tail != places[-1] + block_size(b) - rem:
            return 6
        spans = [(keys_met, at, n + 18)] + [(lists_met, p, block_size(3 + k) + 4) for k, p in enumerate(places)]
        for met, p, size in spans:
            if any(met[p:p + size]):
                return 7
            met[p:p + size] = b"\1" * size
        names.add(name)
        return 0

    def brownout(self, marks):
        """what the check says, with so many bytes of marks"""
        self.check()
        needed = (len(self.keys) + len(self.lists) + 7) // 8
        if marks < needed:
            raise Refused(8, needed)
        names, keys_met, lists_met = set(), bytearray(len(self.keys)), bytearray(len(self.lists))
        for i in range(self.s["buckets"]):
            fault = self.fault_in(i, names, keys_met, lists_met)
            if fault:
                return "bucket %d fault %d" % (i, fault)
        return "sound" if len(names) == self.s["keys"] else "key count"

    def plan(self, b, rem, n):
        """addresses of the blocks that n bytes take, and the arena state after them"""
        page, used = self.s["list_page"], self.s["list_used"]
        n -= min(n, rem)
        places = []
        while n > 0:
            b += 1
            got = allocate(self.s["page_size"], len(self.lists), page, used, block_size(b) + 4)
            if got is None:
                raise Refused(7)
            at, page, used = got
            places.append(at)
            n -= min(n, block_size(b))
        return places, page, used

    def pour(self, head_of, data, plan):
        """writes data to a list; answers its header"""
        b, head, tail, rem = head_of
        places, page, used = plan
        self.s["list_page"], self.s["list_used"] = page, used
        at = 0
        for place in places + [None]:
            k = min(rem, len(data) - at)
            self.lists[tail:tail + k] = data[at:at + k]
            at, rem = at + k, rem - k
            if k:
                tail += k
            if place is None:
                break
            if b == 2:
                head = place
            else:
                self.lists[tail:tail + 4] = le(place, 4)
            b += 1
            tail, rem = place, block_size(b)
        assert at == len(data)
        return le(b, 4) + le(head, 4) + le(tail, 4) + le(rem, 2) + b"\0\0"

    def enter(self, first, L, at, h):
        for i in range(L):
            b = first + 2 * ((h + 1 + i) % L)
            if self.table[b] == NULL:
                self.table[b], self.table[b + 1] = at, h
                return
        raise AssertionError("no empty bucket")

    def grow(self):
        L, old = self.s["buckets"], self.first()
        self.s["buckets"], self.s["end"] = max(2 * L, 8), 1 - self.s["end"]
        first = self.first()
        buckets = [(self.table[old + 2 * i], self.table[old + 2 * i + 1]) for i in range(L)]
        for i in range(self.s["buckets"]):
            self.table[first + 2 * i], self.table[first + 2 * i + 1] = NULL, 0
        for at, h in buckets:
            if at != NULL:
                self.enter(first, self.s["buckets"], at, h)

    def append(self, name, data):
        got = self.probe(name, Refused(13))
        s, L = self.s, self.s["buckets"]
        saturated = L <= 2 * s["keys"]
        room = L + max(2 * L, 8) <= len(self.table) // 2
        if not isinstance(got, str):
            v, b, head, tail, rem = self.header(got)
            if b >= 3 and not self.list_good(tail, rem + 4):
                raise Refused(4)
            plan = self.plan(b, rem, len(data))
            self.keys[v:v + 16] = self.pour((b, head, tail, rem), data, plan)
            if saturated and room:
                self.grow()
            return
        if got == "lap" and not saturated:
            raise Refused(4)
        if saturated and not room:
            raise Refused(5)
        record = allocate(s["page_size"], len(self.keys), s["key_page"], s["key_used"], len(name) + 18)
        if record is None:
            raise Refused(6)
        plan = self.plan(2, 0, len(data))
        at, s["key_page"], s["key_used"] = record
        header = self.pour((2, NULL, NULL, 0), data, plan)
        self.keys[at:at + len(name) + 18] = le(len(name), 2) + name + header
        if saturated:
            self.grow()
        s["keys"] += 1
        self.enter(self.first(), s["buckets"], at, murmur(s["seed"], name))


# ---- the flat store

class Flat:
    """a flat run in one lent buffer: name length (2), name, byte length (4), bytes, in order of arrival"""

    def __init__(self, buffer):
        self.buffer, self.used = buffer, 0

    def check(self, name):
        if self.used > len(self.buffer):
            raise Refused(2)
        if len(name) > 65535:
            raise Refused(3)

    def append(self, name, data):
        self.check(name)
        if name == b"":
            raise Refused(13)
        if len(data) > 4294967295:
            raise Refused(14)
        entry = le(len(name), 2) + name + le(len(data), 4) + data
        if self.used + len(entry) > len(self.buffer):
            raise Refused(14)
        self.buffer[self.used:self.used + len(entry)] = entry
        self.used += len(entry)

    def entries(self):
        found, at = [], 0

        def take(n):
            nonlocal at
            if at + n > self.used:
                raise Refused(4)
            at += n
            return bytes(self.buffer[at - n:at])

        while at < self.used:
            name = take(number(take(2)))
            found.append((name, take(number(take(4)))))
        return found

    def read(self, name):
        self.check(name)
        if name == b"":
            raise Absent()
        mine = [bs for n, bs in self.entries() if n == name]
        if not mine:
            raise Absent()
        return b"".join(mine)


# ---- the bench's language

class Fault(Exception):
    pass


USAGE = """lend WORDS KEYBYTES LISTBYTES HH
create CAPACITY SEED [SIZE]
append NAME BYTES
lookup NAME
length NAME
read NAME ROOM
block NAME INDEX
show PLACE LENGTH
next INDEX
count
state
set FIELD NUMBER
poke AREA PLACE BYTES-or-WORD
dump AREA PLACE COUNT
sum
hash SEED BYTES
vint N
unvint BYTES
equal A B
copy A B
allocate PAGE USED LENGTH N [SIZE]
get PAGE USED LENGTH PLACE N [SIZE]
put PAGE USED LENGTH PLACE BYTES [SIZE]
help
report ROOM
unreport BYTES
report-lane BYTES INDEX
drift NAME LAST READING
readings NAME ROOM
piece NAME GIVEN ROOM
feed COUNT HELD FED PIECE ROOM END
check MARKBYTES HH
walk
flat-lend BYTES HH
flat-used N
flat-append NAME BYTES
flat-lookup NAME
flat-length NAME
flat-read NAME ROOM
flat-poke PLACE BYTES
flat-dump PLACE COUNT
flat-sum
on STORE
join ROOM""".split("\n")
COMMANDS = {u.split()[0]: u for u in USAGE}
HELP = """# a command to a line, words one space apart; an empty line and one that begins with # are passed over
# NUMBERS are decimal
# BYTES and NAMES are hex pairs, - for none, N*HH for N times a byte, joined by +, or 'letters-and-digits
# AREA is table (of words), keys or lists; FIELD is a name that state tells; end is 0 at the front, 1 at the back
# allocate, get and put: the bare arena over the first LENGTH bytes of the lent list area"""


def num(w, top=2 ** 64 - 1):
    if not re.fullmatch("[0-9]+", w):
        raise Fault("not a number")
    if int(w) > top:
        raise Fault("number too large")
    return int(w)


def signed_num(w):
    if not re.fullmatch("-?[0-9]+", w):
        raise Fault("not a number")
    if not -2 ** 31 <= int(w) < 2 ** 31:
        raise Fault("number too large")
    return int(w)


def data(w):
    bad = Fault("not bytes: hex pairs, - or N*HH joined by +, or ' and a name")
    if w.startswith("'"):
        if not re.fullmatch("'[A-Za-z0-9_.-]+", w):
            raise bad
        out = w[1:].encode()
    else:
        out = b""
        for piece in w.split("+"):
            run = re.fullmatch("([^*]*)[*](.*)", piece, re.S)
            if piece == "-":
                continue
            if run:
                n = num(run[1])
                if not re.fullmatch("[0-9a-f]{2}", run[2]):
                    raise bad
                if len(out) + n > 262144:
                    raise Fault("bytes too long: at most 262144")
                out += bytes([int(run[2], 16)]) * n
            elif re.fullmatch("([0-9a-f]{2})+", piece):
                out += bytes.fromhex(piece)
            else:
                raise bad
    if len(out) > 262144:
        raise Fault("bytes too long: at most 262144")
    return out


def shown(b):
    return bytes(b).hex() or "-"


# what each store lends at most: words, bytes of the key pages and of the list pages
LENT = [(131072, 2 * PAGE, 3 * PAGE), (4096, 196608, 327680)]


class Bench:
    def __init__(self):
        self.stores, self.now, self.flat = [Store(), Store()], 0, Flat(bytearray())

    @property
    def st(self):
        return self.stores[self.now]

    def area(self, w):
        if w not in ("table", "keys", "lists"):
            raise Fault("no such area: table, keys or lists")
        return getattr(self.st, w)

    def span(self, area, place, n):
        if place + n > len(area):
            raise Fault("past the end")
        return area[place:place + n]

    def lists(self, n):
        return self.span(self.st.lists, 0, n)

    # commands

    def lend(self, w, k, l, hh):
        w, k, l = num(w), num(k), num(l)
        if not re.fullmatch("[0-9a-f]{2}", hh):
            raise Fault("not bytes: hex pairs, - or N*HH joined by +, or ' and a name")
        most = LENT[self.now]
        if w > most[0] or k > most[1] or l > most[2]:
            raise Fault("no such memory: at most %d words, %d and %d bytes" % most)
        st = self.stores[self.now] = Store()
        Store.walk = 0
        st.table = [int(hh, 16) * 0x01010101] * w
        st.keys = bytearray([int(hh, 16)]) * k
        st.lists = bytearray([int(hh, 16)]) * l
        return "lent"

    def create(self, cap, seed, size=str(PAGE)):
        self.st.create(num(cap), num(seed, NULL), num(size))
        return "created"

    def append(self, name, b):
        self.st.append(data(name), data(b))
        return "accepted"

    def lookup(self, name):
        return "at %d" % self.st.lookup(data(name))

    def length(self, name):
        return "length %d" % self.st.length(data(name))

    def read(self, name, room):
        name, room = data(name), num(room)
        if room > OUTPUT:
            raise Fault("output too long: at most 1048576")
        try:
            got = self.st.read(name, room)
            return "reading %d %s kept" % (len(got), shown(got))
        except Absent:
            return "absent kept"
        except Refused as e:
            return "refused %d%s kept" % (e.number, "" if e.told is None else " %d" % e.told)

    def block(self, name, index):
        got = self.st.block(data(name), num(index))
        return "no such block" if got is None else "block %d %d" % got

    def show(self, at, n):
        return shown(self.st.show(num(at, NULL), num(n)))

    def next(self, i):
        got = self.st.next(num(i))
        return "none" if got is None else "bucket %d %d" % got

    def count(self):
        self.st.check()
        return "keys %d" % self.st.s["keys"]

    def state(self):
        return "state " + " ".join("%s=%d" % (f, self.st.s[f]) for f in FIELDS)

    def set(self, field, n):
        if field not in FIELDS:
            raise Fault("no such field")
        self.st.s[field] = num(n, {"seed": NULL, "end": 1}.get(field, 2 ** 64 - 1))
        return "set"

    def poke(self, area, place, what):
        a = self.area(area)
        place, new = num(place), [num(what, NULL)] if area == "table" else data(what)
        self.span(a, place, len(new))
        a[place:place + len(new)] = new
        return "poked"

    def dump(self, area, place, n):
        a = self.area(area)
        part = self.span(a, num(place), num(n))
        return (" ".join("%d" % x for x in part) or "-") if area == "table" else shown(part)

    def sum(self):
        st = self.st
        table = b"".join(le(x, 4) for x in st.table)
        state = b"".join(le(st.s[f], 8) for f in FIELDS)
        return "sum " + " ".join("%d" % murmur(0, x) for x in (table, st.keys, st.lists, state))

    def hash(self, seed, b):
        return "hash %d" % murmur(num(seed, NULL), data(b))

    def vint(self, n):
        return "vint " + shown(vint(num(n, NULL)))

    def unvint(self, b):
        return "number %d taken %d" % unvint(data(b))

    def equal(self, a, b):
        return "equal" if data(a) == data(b) else "different"

    def copy(self, a, b):
        if len(data(a)) != len(data(b)):
            raise Refused(9)
        return "copied"

    def allocate(self, page, used, length, n, size=str(PAGE)):
        page, used, length, n, size = num(page), num(used), num(length), num(n), num(size)
        self.lists(length)
        if size not in SIZES:
            raise Refused(10)
        if n == 0 or n > size:
            raise Refused(9)
        if not arena_ok(size, length, page, used):
            raise Refused(10)
        got = allocate(size, length, page, used, n)
        return "no room" if got is None else "at %d %d %d" % got

    def get(self, page, used, length, place, n, size=str(PAGE)):
        page, used, length, place, n, size = num(page), num(used), num(length), num(place, NULL), num(n), num(size)
        area = self.lists(length)
        if n > OUTPUT:
            raise Fault("output too long: at most 1048576")
        if not arena_ok(size, length, page, used) or not good(size, page, used, place, n):
            raise Refused(10)
        return shown(area[place:place + n])

    def put(self, page, used, length, place, b, size=str(PAGE)):
        page, used, length, place, b, size = num(page), num(used), num(length), num(place, NULL), data(b), num(size)
        self.lists(length)
        if not arena_ok(size, length, page, used) or not good(size, page, used, place, len(b)):
            raise Refused(10)
        self.st.lists[place:place + len(b)] = b
        return "put"

    def report(self, room):
        room = num(room)
        if room > OUTPUT:
            raise Fault("output too long: at most 1048576")
        try:
            text = report.text_of(list(self.st.lanes()))
            if len(text) > room:
                raise Refused(8, len(text))
            return "report %d %s kept" % (len(text), shown(text))
        except Refused as e:
            return "refused %d%s kept" % (e.number, "" if e.told is None else " %d" % e.told)

    def unreport(self, b):
        lanes, line = report.lanes_of(bytes(data(b)))
        if lanes is None:
            return "refused 15 %d" % line
        return "lanes %d %d" % (len(lanes), sum(len(bs) for _, bs in lanes))

    def report_lane(self, b, index):
        b, index = bytes(data(b)), num(index)
        lanes, line = report.lanes_of(b)
        if lanes is None:
            return "refused 15 %d" % line
        return "lane %s %s" % tuple(map(shown, lanes[index])) if index < len(lanes) else "no such lane"

    def drift(self, name, last, new):
        self.st.drift(data(name), signed_num(last), signed_num(new))
        return "accepted"

    def readings(self, name, room):
        name, room = data(name), num(room)
        if room > 16384:
            raise Fault("too many places: at most 16384")
        try:
            got = self.st.readings(name, room)
            return " ".join(["readings %d" % len(got)] + ["%d" % r for r in got] + ["kept"])
        except Absent:
            return "absent kept"
        except Refused as e:
            return "refused %d%s kept" % (e.number, "" if e.told is None else " %d" % e.told)

    def piece(self, name, given, room):
        name, given, room = data(name), num(given), num(room)
        if room > OUTPUT:
            raise Fault("output too long: at most 1048576")
        try:
            got = self.st.piece(name, given, room)
            return "piece %d %s kept" % (len(got), shown(got))
        except Absent:
            return "absent kept"
        except Refused as e:
            return "refused %d%s kept" % (e.number, "" if e.told is None else " %d" % e.told)

    def feed(self, count, held, fed, piece, room, end):
        count, held = num(count, NULL), data(held)
        if len(held) != 4:
            raise Fault("not four bytes")
        fed, piece, room = num(fed, NULL), data(piece), num(room)
        if room > 16384:
            raise Fault("too many places: at most 16384")
        numbers, left = feed(count, held, fed, piece, room, num(end, 1))
        said = " ".join(["numbers %d" % len(numbers)] + ["%d" % n for n in numbers])
        if isinstance(left, Refused):
            before = "refused %d%s" % (left.number, "" if left.told is None else " %d" % left.told)
            said = before + (" " + said if left.number > 8 else "")
        elif piece:
            count, held, fed = len(left), left + bytes(4 - len(left)), fed + len(piece)
        return "%s state %d %s %d kept" % (said, count, held.hex(), fed)

    def check(self, marks, hh):
        marks = num(marks)
        if marks > OUTPUT:
            raise Fault("output too long: at most 1048576")
        if not re.fullmatch("[0-9a-f]{2}", hh):
            raise Fault("not bytes: hex pairs, - or N*HH joined by +, or ' and a name")
        try:
            return self.st.brownout(marks) + " zero"
        except Refused as e:
            said = "refused %d%s" % (e.number, "" if e.told is None else " %d" % e.told)
            return said + (" zero" if marks == 0 or hh == "00" else " kept")

    def walk(self):
        return "walk %d" % Store.walk

    def flat_lend(self, n, hh):
        n = num(n)
        if not re.fullmatch("[0-9a-f]{2}", hh):
            raise Fault("not bytes: hex pairs, - or N*HH joined by +, or ' and a name")
        if n > 196608:
            raise Fault("no such memory: at most 196608 bytes")
        self.flat = Flat(bytearray([int(hh, 16)]) * n)
        return "lent"

    def flat_used(self, n):
        self.flat.used = num(n)
        return "set"

    def flat_append(self, name, b):
        self.flat.append(data(name), data(b))
        return "accepted"

    def flat_lookup(self, name):
        self.flat.read(data(name))
        return "standing"

    def flat_length(self, name):
        return "length %d" % len(self.flat.read(data(name)))

    def flat_read(self, name, room):
        name, room = data(name), num(room)
        if room > PAGE:
            raise Fault("output too long: at most 1048576")
        try:
            got = self.flat.read(name)
            if len(got) > room:
                return "refused 8 %d kept" % len(got)
            return "reading %d %s kept" % (len(got), shown(got))
        except Absent:
            return "absent kept"
        except Refused as e:
            return "refused %d kept" % e.number

    def flat_poke(self, place, what):
        place, new = num(place), data(what)
        self.span(self.flat.buffer, place, len(new))
        self.flat.buffer[place:place + len(new)] = new
        return "poked"

    def flat_dump(self, place, n):
        return shown(self.span(self.flat.buffer, num(place), num(n)))

    def flat_sum(self):
        return "sum %d %d" % (murmur(0, self.flat.buffer), self.flat.used)

    def on(self, store):
        if num(store) not in (1, 2):
            raise Fault("no such store: 1 or 2")
        self.now = num(store) - 1
        return "on %d" % num(store)

    def join(self, room):
        room = num(room)
        if room > PAGE:
            raise Fault("output too long: at most 1048576")
        scratch = bytearray([0xee]) * room
        walk = Store.walk
        across, refused = self.stores[0].join(self.stores[1], scratch)
        Store.walk = walk
        said = "refused %d after %d" % (refused, across) if refused else "joined %d" % across
        return "%s scratch %d" % (said, murmur(0, scratch))

    def help(self):
        return HELP + "\n" + "\n".join("# " + u for u in USAGE)

    def play(self, line):
        if line == "" or line.startswith("#"):
            return None
        if len(line) > 65536:
            return "? line too long"
        words = line.split(" ")
        if words[0] not in COMMANDS:
            return "? unknown command"
        usage = COMMANDS[words[0]]
        if not usage.count(" ") - usage.count("[") <= line.count(" ") <= usage.count(" "):
            return "? usage: " + usage
        try:
            return getattr(self, words[0].replace("-", "_"))(*words[1:])
        except Refused as e:
            return "refused %d" % e.number
        except Absent:
            return "absent"
        except Fault as e:
            return "? " + str(e)


def main():
    text = sys.stdin.buffer.read().decode("latin-1")
    bench = Bench()
    lines = text.split("\n")
    if lines[-1] == "":
        lines.pop()
    for line in lines:
        said = bench.play(line)
        if said is not None:
            print(said)


if __name__ == "__main__":
    main()
