#!/usr/bin/env python3
"""oracle/sizes.py [SCRIPTS] [SEED]: plays random scripts with pages of every size on the testbench and on
oracle/model.py, and compares all answers.

A script lends areas of whole and of short pages and creates a store of one of the five sizes. Then come calls of every
kind: appends that end near a page's end, names near the longest, readings, pieces, blocks, listings, checks, reports,
bare arenas with sizes of their own; now and then a size that isn't taken, another size or page in the state, damaged
bytes, a creation anew. Half of the stores have names whose probes start at one bucket, and behind every other call its
walk is asked for. It prints how often each answer came, by size; the exit status is 1 where the answers differ.
The testbench is played by ./run, which builds it; TESTBENCH names another program to play on."""
import collections
import os
import random
import re
import subprocess
import sys

HERE = os.path.dirname(os.path.abspath(__file__))
sys.dont_write_bytecode = True
sys.path.insert(0, HERE)
from model import SIZES, Bench, murmur  # noqa: E402

RUN = os.environ.get("TESTBENCH", os.path.join(HERE, "..", "run"))
BATCH = 40  # scripts that one run of the testbench plays
LINES = 120  # lines of a script
MOST = (2097152, 3145728)  # bytes that the testbench lends
ODD = (0, 1, 5, 32768, 65535, 65537, 98304, 196608, 1048575, 1048577, 2097152, 2 ** 32, 2 ** 64 - 1)


def near(rng, n, by=3):
    return max(0, n + rng.randint(-by, by))


class Script:
    def __init__(self, rng, size):
        self.rng, self.size, self.lines, self.said, self.bench = rng, size, [], [], Bench()
        self.names = [bytes(rng.choice(b"abcdef") for _ in range(rng.randint(1, 3))) for _ in range(rng.randint(2, 6))]
        self.last = {}

    def add(self, line):
        self.lines.append(line)
        self.said.append(self.bench.play(line))
        return self.said[-1]

    def state(self, field):
        return self.bench.st.s[field]

    def lend(self):
        rng = self.rng
        pages = rng.choice((1, 1, 2, 3, 5))
        ends = [min(m, near(rng, rng.choice((self.size * pages, self.size + 100, 4096, 70000)), 40)) for m in MOST]
        words = rng.choice((2, 16, 64, 64, 512))
        self.add("lend %d %d %d %s" % (words, max(1, ends[0]), max(1, ends[1]), rng.choice(("00", "a5"))))

    def create(self):
        rng = self.rng
        size = self.size if rng.random() < 0.9 else rng.choice(ODD + SIZES)
        said = "" if size == 1048576 and rng.random() < 0.5 else " %d" % size
        capacity, seed = rng.choice((1, 4, 4, 4, 4, 8, 0)), rng.choice((0, 7, rng.getrandbits(32)))
        if self.add("create %d %d%s" % (capacity, seed, said)) != "created":
            self.add("create 1 %d %d" % (seed, self.size))
        self.last = {}
        if rng.random() < 0.5:
            self.names = self.colliding(seed)

    def colliding(self, seed):
        """names whose probes all start at one bucket of 16, and so of 8, 4, 2 and 1"""
        start, found = self.rng.randrange(16), []
        while len(found) < 9:
            name = b"c" + self.rng.randbytes(self.rng.randint(1, 3))
            if (murmur(seed, name) + 1) % 16 == start and name not in found:
                found.append(name)
        return found

    def name(self):
        rng = self.rng
        if rng.random() < 0.12:
            n = rng.choice((65535, 65536, self.size - 18, self.size - 17, self.size - 18 - self.state("key_used")))
            return "%d*61" % min(70000, max(1, near(rng, n, 2)))
        return rng.choice(self.names).hex() if rng.random() < 0.93 else "-"

    def bytes(self):
        rng, left = self.rng, self.size - self.state("list_used")
        n = rng.choice((0, 1, 3, 8, 9, 24, 25, 120, 504, 505, 4000, 32760, 32768, 33000))
        if rng.random() < 0.3:
            n = rng.choice((left - 4, left - 12, left, self.size, 65536, 100000))
        n = max(0, min(100000, near(rng, n, 2) if rng.random() < 0.4 else n))
        return "-" if n == 0 else "%d*%02x" % (n, rng.choice((0x80, 0x01, 0x7F, rng.getrandbits(8))))

    def call(self):
        rng, name = self.rng, self.name()
        kind = rng.randrange(22)
        if kind < 6:
            self.add("append %s %s" % (name, self.bytes()))
        elif kind < 8:
            new = rng.choice((-2 ** 31, 2 ** 31 - 1, 0, rng.randint(-2 ** 31, 2 ** 31 - 1), rng.randint(-70, 70)))
            if self.add("drift %s %d %d" % (name, self.last.get(name, 0), new)) == "accepted":
                self.last[name] = new
        elif kind == 8:
            self.add("readings %s %d" % (name, rng.choice((0, 1, 3, 60, 16384))))
        elif kind < 11:
            given = rng.choice((0, 1, 8, 32752, 32760, 65528, rng.randint(0, 200000)))
            self.add("piece %s %d %d" % (name, given, rng.choice((0, 1, 16, 512))))
        elif kind == 11:
            self.add("read %s %d" % (name, rng.choice((0, 16, 600, 600))))
        elif kind == 12:
            self.add("length " + name)
        elif kind == 13:
            self.add("lookup " + name)
        elif kind == 14:
            self.add("block %s %d" % (name, rng.choice((0, 1, 2, 11, 12, 13, 20))))
        elif kind == 15:
            end = self.state("list_page") * self.size + self.state("list_used")
            at = near(rng, rng.choice((0, end, self.size * rng.randint(0, 4))), 12)
            self.add("show %d %d" % (at % 2 ** 32, rng.choice((0, 1, 8, 12, 20))))
        elif kind == 16:
            self.add("next %d" % rng.randint(0, 20))
        elif kind == 17:
            need = (len(self.bench.st.keys) + len(self.bench.st.lists) + 7) // 8
            self.add("check %d %s" % (min(1048576, need + rng.choice((0, 0, 0, -1, 1))), rng.choice(("ff", "00"))))
        elif kind == 18:
            self.add("report %d" % rng.choice((0, 300, 2000)))
        elif kind == 19:
            self.bare()
        else:
            self.add(rng.choice(("state", "count", "sum" if rng.random() < 0.2 else "state")))
        if rng.random() < 0.5:
            self.add("walk")

    def bare(self):
        rng = self.rng
        size = rng.choice(SIZES + SIZES + ODD)
        length = rng.choice((len(self.bench.st.lists), near(rng, size, 20), 70000))
        page = rng.choice((0, 0, 1, 2, length // max(1, size), rng.choice((0, 2 ** 64 - 1))))
        used = rng.choice((0, near(rng, size), near(rng, size - 12, 14), rng.randint(0, max(1, size))))
        n = rng.choice((0, 1, 12, near(rng, size), 65536, 2 ** 64 - 1))
        place = rng.choice((page * size + used, near(rng, size, 14), 0, 2 ** 32 - 1)) % 2 ** 32
        tail = "" if size == 1048576 and rng.random() < 0.5 else " %d" % size
        what = rng.randrange(3)
        if what == 0:
            self.add("allocate %d %d %d %d%s" % (page, used % 2 ** 64, length, n % 2 ** 64, tail))
        elif what == 1:
            self.add("get %d %d %d %d %d%s" % (page, used % 2 ** 64, length, place, rng.choice((0, 1, 4, 12)), tail))
        else:
            data = rng.choice(("-", "aa", "aabbccdd"))
            self.add("put %d %d %d %d %s%s" % (page, used % 2 ** 64, length, place, data, tail))

    def disturb(self):
        """another size or page in the state, or bytes that the store didn't write; and back again"""
        rng, st = self.rng, self.bench.st
        if rng.random() < 0.6:
            fields = "page_size page_size key_page list_page key_used list_used keys buckets".split()
            field = rng.choice(fields)
            before = st.s[field]
            values = SIZES + ODD if field == "page_size" else (0, before + 1, max(0, before - 1), self.size)
            self.add("set %s %d" % (field, rng.choice(values)))
            for _ in range(rng.randint(1, 4)):
                self.call()
            if rng.random() < 0.9:
                self.add("set %s %d" % (field, before))
        else:
            area, mine = rng.choice((("keys", st.keys), ("lists", st.lists)))
            end = max(0, min(len(mine) - 4, near(rng, self.size - 4, 8)))
            at = rng.choice((rng.randrange(min(200, len(mine))), end))
            held = bytes(mine[at:at + 4])
            if len(held) == 4:
                bad = rng.choice((rng.randbytes(4).hex(), "faff0000", "00000100", "ffffffff"))
                self.add("poke %s %d %s" % (area, at, bad))
                for _ in range(rng.randint(1, 4)):
                    self.call()
                if rng.random() < 0.8:
                    self.add("poke %s %d %s" % (area, at, held.hex()))

    def written(self):
        self.lend()
        self.create()
        while len(self.lines) < LINES:
            what = self.rng.random()
            if what < 0.02:
                self.create()
            elif what < 0.12:
                self.disturb()
            else:
                self.call()
        self.add("sum")


def play(script):
    said = subprocess.run([RUN, "-"], input="\n".join(script) + "\n", capture_output=True, text=True, check=True).stdout
    return said.split("\n")[:-1]


def kind_of(said):
    if said.startswith(("refused", "walk")):
        return " ".join(said.split(" ")[:2])
    first = said.split(" ")[0]
    return "bytes" if first == "-" or re.fullmatch("([0-9a-f]{2})+", first) else first


def main():
    scripts = int(sys.argv[1]) if len(sys.argv) > 1 else 400
    seed = int(sys.argv[2]) if len(sys.argv) > 2 else 1
    counts, lines, faults = collections.defaultdict(collections.Counter), 0, 0
    for start in range(0, scripts, BATCH):
        whole, ours, sizes = [], [], []
        for i in range(start, min(scripts, start + BATCH)):
            more = Script(random.Random("sizes %d %d" % (seed, i)), SIZES[i % 5])
            more.written()
            whole, ours, sizes = whole + more.lines, ours + more.said, sizes + [more.size] * len(more.lines)
        theirs = play(whole)
        if len(theirs) != len(ours):
            faults += 1
            print("%d answers of the testbench, %d of the model" % (len(theirs), len(ours)))
        for line, size, a, b in zip(whole, sizes, theirs, ours):
            lines += 1
            counts[size][kind_of(a)] += 1
            if a != b:
                faults += 1
                print("differs: %s: testbench %s, model %s" % (line[:200], a[:200], b[:200]))
    for size in SIZES:
        print("%7d: %s" % (size, ", ".join("%s %d" % said for said in sorted(counts[size].items()))))
    ends = "%d differences" % faults if faults else "no difference"
    print("sizes: %d scripts, %d lines, %s" % (scripts, lines, ends))
    sys.exit(1 if faults else 0)


if __name__ == "__main__":
    main()
