#!/usr/bin/env python3
"""oracle/flat.py [SCRIPTS] [SEED]: plays the flat store on the testbench and on oracle/model.py, and compares.

Half of the scripts are flat commands alone: appends, then bytes overwritten in lengths, names and elsewhere, and used
counts of any size; every answer is held against the model's. The others are one history on both stores: appends to
both, names of no bytes and over the limit too, an append that one of them has no room for to that one alone, so that
both have accepted the same, on pages above 65,536 bytes; and lookups, lengths and readings to both, where each answer
of the one is held against the other's, the record's place left out. It prints how often each answer came; the exit
status is 1 where answers differ. The testbench is played by ./run, which builds it."""
import collections
import os
import random
import subprocess
import sys

HERE = os.path.dirname(os.path.abspath(__file__))
sys.dont_write_bytecode = True
sys.path.insert(0, HERE)
from model import Bench  # noqa: E402

RUN = os.path.join(HERE, "..", "run")
BATCH = 100  # scripts that one run of the testbench plays


class Script:
    """lines with the model's answers, and which two lines must answer alike"""

    def __init__(self):
        self.bench, self.lines, self.answers, self.pairs = Bench(), [], [], []

    def play(self, line):
        self.lines.append(line)
        self.answers.append(self.bench.play(line))
        return self.answers[-1]

    def both(self, line):
        self.play(line)
        self.play("flat-" + line)
        self.pairs.append(len(self.lines) - 2)


def name_of(rng):
    kind = rng.random()
    if kind < 0.05:
        return "-"
    if kind < 0.07:
        return rng.choice(("65536*41", "65535*41", "65536*42+41", "65534*41", "70000*41"))
    return bytes(rng.choice(b"abc") for _ in range(rng.choice((1, 1, 1, 1, 2, 3)))).hex()


def bytes_of(rng):
    n = rng.choice((0, 0, 1, 1, 2, 3, 5, 8, 9, 17, 24, 25, 40, 56, 57, 120, 300))
    return rng.randbytes(n).hex() or "-" if n < 300 or rng.random() < 0.7 else "%d*5a" % rng.choice((4000, 33000))


# ---- flat commands alone

def damage(rng, s):
    """a byte overwritten, in an entry's lengths or anywhere, or another used count; some calls; mostly it is undone"""
    flat = s.bench.flat
    size = len(flat.buffer)
    if rng.random() < 0.4 or size == 0:
        near = max(0, flat.used + rng.choice((-9, -6, -5, -2, -1, 1, 2, 6, 7)))
        undo = "flat-used %d" % flat.used
        s.play("flat-used %d" % rng.choice((near, near, near, size, size + 1, 0, rng.getrandbits(64))))
    else:
        undo = poked(rng, s, flat, size)
    for _ in range(rng.randint(1, 6)):
        s.play("flat-" + asked(rng, s, 1000))
    if rng.random() < 0.8:
        s.play(undo)


def poked(rng, s, flat, size):
    """the line that undoes it"""
    at, places = 0, [rng.randrange(size)]
    while at + 6 <= min(flat.used, size):
        n = flat.buffer[at] + 256 * flat.buffer[at + 1]
        places += [at, at + 1, at + 2, at + 2 + n, at + 3 + n, at + 5 + n]
        m = int.from_bytes(flat.buffer[at + 2 + n:at + 6 + n], "little")
        at += n + m + 6
    place = min(rng.choice(places), size - 1)
    old = flat.buffer[place]
    s.play("flat-poke %d %02x" % (place, rng.choice((old + 1, old - 1, 0, 255, rng.getrandbits(8))) % 256))
    return "flat-poke %d %02x" % (place, old)


def asked(rng, s, most):
    name = name_of(rng)
    room = rng.choice((0, 1, 2, 7, 9, 40, 400, most))
    length = s.bench.play("flat-length " + name).split(" ")
    if length[0] == "length" and rng.random() < 0.5:
        room = max(0, int(length[1]) + rng.choice((-1, 0, 0, 1)))
    return rng.choice(("lookup %s" % name, "length %s" % name, "read %s %d" % (name, room)))


def flat_script(rng, s):
    if s.lines or rng.random() < 0.5:
        s.play("flat-lend %d %02x" % (rng.choice((0, 7, 20, 60, 200, 1000, 1000, 5000)), rng.getrandbits(8)))
    for _ in range(rng.randint(10, 120)):
        kind = rng.random()
        if kind < 0.4:
            s.play("flat-append %s %s" % (name_of(rng), bytes_of(rng)))
        elif kind < 0.47:
            damage(rng, s)
        elif kind < 0.52:
            s.play(rng.choice(("flat-sum", "flat-dump 0 %d" % min(64, len(s.bench.flat.buffer)))))
        else:
            s.play("flat-" + asked(rng, s, 1000))
    s.play("flat-sum")


# ---- one history on both stores

def has_room(flat, name, data):
    return flat.used + len(name) + len(data) + 6 <= len(flat.buffer)


def words(line):
    """the bytes that a word of the lines above stands for"""
    if line == "-":
        return b""
    return b"".join(int(p.split("*")[0]) * bytes.fromhex(p.split("*")[1]) if "*" in p else bytes.fromhex(p)
                    for p in line.split("+"))


def append(rng, s):
    name, data = name_of(rng), bytes_of(rng)
    n = words(name)
    line = "append %s %s" % (name, data)
    if 0 < len(n) <= 65535 and not has_room(s.bench.flat, n, words(data)):
        return s.play("flat-" + line)
    if s.play(line) in ("accepted", "refused 3", "refused 13"):
        s.play("flat-" + line)
        s.pairs.append(len(s.lines) - 2)


def both_script(rng, s):
    table = rng.choice((2, 18, 64, 512, 512))
    s.play("lend %d %d %d %02x" % (table, rng.choice((60, 4096, 200000)), rng.choice((40, 4096, 300000)),
                                   rng.getrandbits(8)))
    s.play("create %d %d %d" % (rng.choice((1, 2, 4)) if table > 18 else 1, rng.getrandbits(32),
                                131072 << rng.randrange(4)))
    s.play("flat-lend %d %02x" % (rng.choice((200, 2000, 20000, 196608, 196608)), rng.getrandbits(8)))
    for _ in range(rng.randint(10, 120)):
        if rng.random() < 0.4:
            append(rng, s)
        else:
            s.both(asked(rng, s, 70000))
    if len(s.bench.flat.buffer) <= 20000:
        s.play("flat-sum")


def played(script):
    said = subprocess.run([RUN, "-"], input="\n".join(script) + "\n", capture_output=True, text=True, check=True).stdout
    return said.split("\n")[:-1]


def alike(store, flat):
    return ("standing" if store.startswith("at ") else store) == flat


def word_of(answer):
    words = answer.split(" ")
    if words[0] == "refused":
        return " ".join(words[:2])
    return "bytes" if len(words) == 1 and len(answer) > 12 else words[0]


def main():
    scripts = int(sys.argv[1]) if len(sys.argv) > 1 else 400
    rng = random.Random(int(sys.argv[2]) if len(sys.argv) > 2 else 1)
    counts, held, lines, pairs, faults = collections.Counter(), collections.Counter(), [0, 0], 0, 0
    for start in range(0, scripts, BATCH):
        for kind, make in enumerate((flat_script, both_script)):
            s = Script()
            for _ in range((min(BATCH, scripts - start) + kind) // 2):
                make(rng, s)
            said = played(s.lines)
            lines[kind] += len(s.lines)
            faults += abs(len(said) - len(s.lines))
            for line, a, b in zip(s.lines, said, s.answers):
                if line.startswith("flat-"):
                    counts[word_of(a)] += 1
                if a != b:
                    faults += 1
                    print("differs: %s: testbench %s, model %s" % (line[:80], a[:80], b[:80]))
            for k in s.pairs:
                pairs += 1
                held[word_of(said[k + 1])] += 1
                if not alike(said[k], said[k + 1]):
                    faults += 1
                    print("not alike: %s: store %s, flat store %s" % (s.lines[k][:80], said[k][:80], said[k + 1][:80]))
    for word, n in sorted(counts.items()):
        print("%7d %s, of them %d held against the store's" % (n, word, held[word]))
    print("flat: %d lines of flat commands alone, %d of histories on both stores" % tuple(lines))
    print("flat: %d answers of the one store held against the other's" % pairs)
    print("flat: " + ("%d faults" % faults if faults else "no difference"))
    sys.exit(1 if faults else 0)


if __name__ == "__main__":
    main()
