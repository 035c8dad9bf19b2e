#!/usr/bin/env python3
"""oracle/brownout.py [MEMORIES] [SEED]: plays brownouts on the testbench and on oracle/model.py, and compares all answers.

A memory is a small store: one with a history, or one that no history leaves, written by hand (blocks and records in any
order, gaps between them, tables of any fill), with pages of each size. Into most of them one or two faults are planted,
each kind that document 02 names, or bytes are overwritten at random. Then the check, with a mark area of the exact
size, a byte less or a byte more. Where the testbench calls a memory sound, every call by every name is made on it,
listings and appends too: none may answer 4, and after the appends the check must still call it sound. It prints how
often each answer came; the exit status is 1 where the answers differ or a sound memory answered 4. The testbench is
played by ./run, which builds it."""
import collections
import os
import random
import subprocess
import sys

HERE = os.path.dirname(os.path.abspath(__file__))
sys.dont_write_bytecode = True
sys.path.insert(0, HERE)
from model import FIELDS, NULL, SIZES, Bench, Refused, Store, block_size, le, murmur, number  # noqa: E402

RUN = os.path.join(HERE, "..", "run")
BATCH = 200  # memories that one run of the testbench plays
LEFT = 4096  # bytes before a page's end, where an arena of more than a page begins


def name_of(rng):
    return bytes(rng.choice(b"abc") for _ in range(rng.randint(1, 5)))


# ---- memories

def fresh(rng, words, paged):
    st = Store()
    st.table = [rng.choice((0, NULL, rng.getrandbits(32))) for _ in range(words)]
    st.s["page_size"] = rng.choice((65536, 65536, 65536, 131072) if paged else SIZES)
    extra = st.s["page_size"] if paged else 0
    st.keys = bytearray(extra) + bytearray(rng.randbytes(rng.randint(40, 300)))
    st.lists = bytearray(extra) + bytearray(rng.randbytes(rng.randint(24, 700)))
    return st


def lived(rng, paged):
    """a store with a history"""
    st = fresh(rng, 2 * rng.choice((1, 2, 3, 12, 24, 48, 64)), paged)
    size = st.s["page_size"]
    try:
        st.create(rng.randint(1, 16), rng.getrandbits(32) if rng.random() < 0.5 else 7, size)
    except Refused:
        st.create(1, 7, size)
    if paged:
        st.s["key_used"], st.s["list_used"] = size - rng.randint(0, 90), size - rng.randint(0, 200)
    for _ in range(rng.randint(0, 14)):
        name = name_of(rng)
        try:
            st.append(name, rng.randbytes(rng.choice((0, 1, 3, 8, 9, 24, 25, 60, rng.randint(0, 130)))))
        except Refused:
            pass
    return st


def places(rng, sizes, room, start):
    """where spans of these sizes lie, apart from each other, in any order, with gaps; and the end"""
    order = list(range(len(sizes)))
    rng.shuffle(order)
    at, out = start, [0] * len(sizes)
    for i in order:
        at += rng.choice((0, 0, 0, 1, 5))
        out[i] = at
        at += sizes[i]
    return (out, at) if at <= room else (None, None)


def written(rng):
    """a store that is sound and that no history need have left"""
    st = fresh(rng, 2 * 32, False)
    L = rng.choice((1, 2, 4, 8, 16))
    names = list({name_of(rng) for _ in range(rng.randint(0, L))})[:L]
    shapes = []
    for _ in names:
        b = rng.choice((2, 2, 3, 3, 4, 5))
        shapes.append((b, rng.randint(0, block_size(b)) if b > 2 else 0))
    spans = [(i, k) for i, (b, rem) in enumerate(shapes) for k in range(3, b + 1)]
    records, key_used = places(rng, [len(n) + 18 for n in names], len(st.keys), rng.choice((0, 3)))
    blocks, list_used = places(rng, [block_size(k) + 4 for i, k in spans], len(st.lists), rng.choice((0, 2)))
    if records is None or blocks is None:
        return lived(rng, False)
    where = {span: at for span, at in zip(spans, blocks)}
    back, seed = rng.randint(0, 1), rng.getrandbits(32)
    told = [seed, 64, len(st.keys), len(st.lists), L, back, len(names), 0, key_used, 0, list_used, st.s["page_size"]]
    st.s = dict(zip(FIELDS, told))
    st.s["key_used"] += rng.randint(0, len(st.keys) - key_used)
    st.s["list_used"] += rng.randint(0, len(st.lists) - list_used)
    for i in range(L):
        st.table[st.first() + 2 * i] = NULL
    for i, (name, (b, rem)) in enumerate(zip(names, shapes)):
        head, tail = NULL, NULL
        for k in range(3, b + 1):
            at = where[i, k]
            head = at if k == 3 else head
            if k > 3:
                before = where[i, k - 1] + block_size(k - 1)
                st.lists[before:before + 4] = le(at, 4)
            tail = at + block_size(k) - rem
        header = le(b, 4) + le(head, 4) + le(tail, 4) + le(rem, 2) + b"\0\0"
        st.keys[records[i]:records[i] + len(name) + 18] = le(len(name), 2) + name + header
        st.enter(st.first(), L, records[i], murmur(seed, name))
    return st


# ---- faults

def occupied(st):
    return [i for i in range(st.s["buckets"]) if st.table[st.first() + 2 * i] != NULL]


def header_place(st, i):
    at = st.table[st.first() + 2 * i]
    return at + 2 + number(st.keys[at:at + 2])


def field(st, i, which):
    p = header_place(st, i) + {"number": 0, "head": 4, "tail": 8, "rem": 12}[which]
    return number(st.keys[p:p + (2 if which == "rem" else 4)])


def put(st, i, which, value):
    p, n = header_place(st, i) + {"number": 0, "head": 4, "tail": 8, "rem": 12}[which], 2 if which == "rem" else 4
    if p + n <= len(st.keys):
        st.keys[p:p + n] = le(value % (1 << 8 * n), n)


def chain(st, i):
    b, at, out = min(field(st, i, "number"), 40), field(st, i, "head"), []
    for k in range(3, b + 1):
        if at + block_size(k) + 4 > len(st.lists):
            break
        out.append((at, block_size(k)))
        at = number(st.lists[at + block_size(k):at + block_size(k) + 4])
    return out


def plant(rng, st, kind):
    full = occupied(st)
    if kind == 8 or not full:
        st.s["keys"] = max(0, min(st.s["buckets"], st.s["keys"] + rng.choice((-1, 1))))
        return
    i, first = rng.choice(full), st.first()
    at = st.table[first + 2 * i]
    if at + 2 > len(st.keys):
        return
    if kind == 1:
        if rng.random() < 0.5:
            st.table[first + 2 * i] = rng.choice((st.s["key_used"] - 1, len(st.keys), NULL - 1, st.s["page_size"] * 7, at + 1))
        else:
            st.keys[at:at + 2] = rng.choice((b"\xff\xff", le((number(st.keys[at:at + 2]) + 200) % 65536, 2)))
    elif kind == 2:
        j = rng.randrange(st.s["buckets"])
        st.table[first + 2 * j], st.table[first + 2 * j + 1] = st.table[first + 2 * i:first + 2 * i + 2]
    elif kind == 3:
        how = rng.randrange(4)
        if how == 0:
            st.table[first + 2 * i + 1] ^= 1 << rng.randrange(32)
        elif how == 1:
            st.table[first + 2 * ((i - 1) % st.s["buckets"])] = NULL
        elif how == 2 and at + 2 < len(st.keys):
            st.keys[at + 2] ^= 1 << rng.randrange(8)
        else:
            j = rng.randrange(st.s["buckets"])
            st.table[first + 2 * j:first + 2 * j + 2] = st.table[first + 2 * i:first + 2 * i + 2]
            if j != i:
                st.table[first + 2 * i] = NULL
    elif kind == 4:
        which = rng.choice(("number", "head", "tail", "rem", "ends"))
        if which == "ends":
            p = header_place(st, i) + 14 + rng.randint(0, 1)
            if p < len(st.keys):
                st.keys[p] = rng.randint(1, 255)
        else:
            put(st, i, which, rng.choice((0, 1, 2, 3, 140000, 140001, NULL, 32769, 9)))
    elif kind == 5:
        blocks = chain(st, i)
        bad = rng.choice((NULL, len(st.lists), max(0, st.s["list_used"] - 1), 2 * st.s["page_size"]))
        if blocks and rng.random() < 0.6:
            p, size = rng.choice(blocks)
            st.lists[p + size:p + size + 4] = le(bad, 4)
        else:
            put(st, i, "head", bad)
    elif kind == 6:
        put(st, i, rng.choice(("tail", "tail", "rem")), field(st, i, "tail") + rng.choice((-1, 1, 4, st.s["page_size"])))
    else:
        overlap(rng, st, i, rng.choice(full))


def overlap(rng, st, i, j):
    """lane i into a block of lane j, with a tail that fits; or its record into another's"""
    mine, theirs = chain(st, i), chain(st, j)
    if not mine or not theirs or rng.random() < 0.1:
        st.table[st.first() + 2 * i] += rng.choice((-1, 1, 2))
        return
    k = rng.randrange(len(mine))
    target = max(0, rng.choice(theirs)[0] + rng.choice((0, 0, 0, 1, -3, 8, 11)))
    if k == 0:
        put(st, i, "head", target)
    else:
        p, size = mine[k - 1]
        st.lists[p + size:p + size + 4] = le(target, 4)
    again = chain(st, i)
    if again and len(again) == field(st, i, "number") - 2:
        put(st, i, "tail", again[-1][0] + again[-1][1] - field(st, i, "rem"))


def noise(rng, st):
    for _ in range(rng.choice((1, 1, 2, 5))):
        which = rng.random()
        if which < 0.3:
            st.table[rng.randrange(len(st.table))] = rng.choice((0, NULL, rng.getrandbits(32), rng.randrange(400)))
        elif which < 0.6:
            p = max(0, len(st.keys) - 400) + rng.randrange(min(400, len(st.keys)))
            st.keys[p] = rng.getrandbits(8)
        elif which < 0.9:
            p = max(0, len(st.lists) - 800) + rng.randrange(min(800, len(st.lists)))
            st.lists[p] = rng.getrandbits(8)
        else:
            field = rng.choice(FIELDS[4:])
            st.s[field] = rng.choice((0, 1, st.s[field] ^ 1, st.s[field] + 1)) if field != "end" else 1 - st.s["end"]


def lane_noise(rng, st):
    """what is no fault: bytes that lanes hold, the last link, a last block filled to another place"""
    for i in occupied(st):
        blocks = chain(st, i)
        if blocks:
            p, size = blocks[-1]
            st.lists[p + size:p + size + 4] = rng.randbytes(4)
            rem = rng.randint(0, size)
            put(st, i, "rem", rem)
            put(st, i, "tail", p + size - rem)
            for p, size in blocks:
                st.lists[p:p + size] = rng.randbytes(size)


# ---- scripts

def poked(area, data):
    """the lines that make an area of zeros this one, zeros at its front left out"""
    start = max(0, len(data) - LEFT) if len(data) > LEFT else 0
    return ["poke %s %d %s" % (area, start, bytes(data[start:]).hex())] if data else []


def memory_lines(st):
    lines = ["lend %d %d %d 00" % (len(st.table), len(st.keys), len(st.lists))]
    lines += ["poke table %d %d" % (i, w) for i, w in enumerate(st.table) if w]
    lines += poked("keys", st.keys) + poked("lists", st.lists)
    return lines + ["set %s %d" % (f, st.s[f]) for f in FIELDS]


def check_lines(rng, st):
    needed = (len(st.keys) + len(st.lists) + 7) // 8
    return ["check %d %s" % (needed + k, rng.choice(("ff", "00", "01", "a5"))) for k in (0, -1, 1)]


def call_lines(rng, st):
    names = set()
    for i in occupied(st):
        at = st.table[st.first() + 2 * i]
        names.add(bytes(st.keys[at + 2:at + 2 + number(st.keys[at:at + 2])]))
    names |= {name_of(rng) for _ in range(6)}
    lines = ["next %d" % i for i in range(st.s["buckets"] + 1)] + ["report 1048576"]
    for n in sorted(names):
        h = n.hex() or "-"
        lines += ["lookup " + h, "length " + h, "read %s 1000" % h, "read %s 0" % h]
        lines += ["block %s %d" % (h, k) for k in range(4)]
    for _ in range(12):
        n = rng.choice(sorted(names)).hex() or "61"
        lines += ["append %s %s" % (n, rng.randbytes(rng.choice((0, 1, 7, 20, 60))).hex() or "-")]
    return lines + ["check 1048576 ff", "sum"]


def play(script):
    said = subprocess.run([RUN, "-"], input="\n".join(script) + "\n", capture_output=True, text=True, check=True).stdout
    return said.split("\n")[:-1]


def model(script):
    bench, out = Bench(), []
    for line in script:
        out += [bench.play(line)]
    return out


def looks(st):
    return list(st.table), bytes(st.keys), bytes(st.lists), dict(st.s)


def memory(rng):
    """a memory, and what was done to it: nothing, damage, or it was written by hand"""
    kind = rng.random()
    st = written(rng) if kind < 0.4 else lived(rng, kind > 0.95)
    before = looks(st)
    damage(rng, st)
    return st, "written" if kind < 0.4 else "lived" if looks(st) == before else "damaged"


def damage(rng, st):
    what = rng.random()
    if what < 0.15:
        lane_noise(rng, st)
    elif what < 0.8:
        for _ in range(1 if what < 0.5 else 2):
            plant(rng, st, rng.choice((1, 2, 2, 3, 4, 5, 6, 7, 7, 7, 8)))
    elif what < 0.92:
        noise(rng, st)


def main():
    memories = int(sys.argv[1]) if len(sys.argv) > 1 else 1000
    rng = random.Random(int(sys.argv[2]) if len(sys.argv) > 2 else 1)
    counts, sound, faults, calls = collections.Counter(), collections.Counter(), 0, 0
    for start in range(0, memories, BATCH):
        stores, script, at = [], [], []
        for _ in range(min(BATCH, memories - start)):
            st, how = memory(rng)
            lines = memory_lines(st) + check_lines(rng, st)
            stores.append((st, how))
            script += lines
            at.append(len(script) - 3)
        theirs, ours = play(script), model(script)
        for k, (a, b) in enumerate(zip(theirs, ours)):
            if a != b:
                faults += 1
                print("differs: %s: testbench %s, model %s" % (script[k], a, b))
        follow = []
        for (st, how), k in zip(stores, at):
            said = theirs[k]
            words = said.split(" ")
            counts["fault " + words[3] if words[0] == "bucket" else " ".join(words[:2])] += 1
            if said == "sound zero":
                sound[how] += 1
                follow.append(memory_lines(st) + call_lines(rng, st))
        script = [line for lines in follow for line in lines]
        theirs, ours = (play(script), model(script)) if script else ([], [])
        calls += len(theirs)
        for line, a, b in zip(script, theirs, ours):
            if a != b or a.startswith("refused 4") or line == "check 1048576 ff" and a != "sound zero":
                faults += 1
                print("%s: testbench %s, model %s" % (line, a, b))
    for said, n in sorted(counts.items()):
        print("%7d %s" % (n, said))
    print("brownout: %d memories checked with three mark areas each" % sum(counts.values()))
    print("brownout: called sound: %d with a history, %d with one and damaged since, %d written by hand; %d lines on them" % (
        sound["lived"], sound["damaged"], sound["written"], calls))
    print("brownout: " + ("%d faults" % faults if faults else "no difference, no 4"))
    sys.exit(1 if faults else 0)


if __name__ == "__main__":
    main()
