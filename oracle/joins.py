#!/usr/bin/env python3
"""oracle/joins.py COUNT SEED: a script of so many random joins for the testbench, to be compared with oracle/model.py.

Each case makes two stores of random sizes, most of them small, appends to both, here and there damages one of them,
joins them with a random scratch and looks at all that can be seen: what is answered, the memory of both, every lane. The
sizes are such that joins are whole, and are stopped by every number that can come, first or after lanes that went
across."""
import random
import sys

NAMES = ["'lane-%d" % i for i in range(9)] + ["'tare", "'A", "61*62", "300*63", "2000*64"]
LONG = ["65518*65", "65519*66", "65535*67", "'lane-1", "'lane-2"]
SIZES = [65536, 131072, 262144, 524288, 1048576]


def data(dice, large):
    n = dice.choice([0, 1, 3, 7, 8, 9, 24, 25, dice.randint(0, 60), dice.randint(0, 400)])
    if large:
        n = dice.choice([n, n, 16376, 32760, 32761, dice.randint(0, 70000)])
    return "%d*%02x" % (n, dice.randrange(256)) if n else "-"


def store(dice, tight, large, sizes):
    """a store: its size, and appends; a large one has more than a page"""
    capacity = dice.choice([1, 2, 4, 8, 16, 32])
    words = 2 * dice.choice([capacity, capacity + 8, 3 * capacity + 8, 128] if tight else [64, 128])
    keys = dice.choice([30, 60, 120, 400, 4000] if tight else [6000])
    lists = dice.choice([12, 30, 60, 200, 900, 6000] if tight else [9000])
    if large:
        keys = dice.choice([keys, 65536, 131072, 196608])
        lists = dice.choice([lists, 65536, 100000, 196608, 327680])
    yield "lend %d %d %d %02x" % (max(words, 2 * capacity), keys, lists, dice.choice([0, 0, 255, dice.randrange(256)]))
    yield "create %d %d %d" % (capacity, dice.choice([0, 7, dice.randrange(2 ** 32)]), dice.choice(sizes))
    names = dice.sample(NAMES, dice.randint(1, 8))
    if large:
        names += dice.sample(LONG, 2)
    for _ in range(dice.choice([0, 1, 2, 4, 8, 14])):
        yield "append %s %s" % (dice.choice(names), data(dice, large))


def damage(dice):
    kind = dice.randrange(7)
    if kind == 0:
        yield "poke keys %d %s" % (dice.randrange(120), dice.choice(["ffff", "0100", "00", "ff", "03"]))
    elif kind == 1:
        yield "poke lists %d %s" % (dice.randrange(60), dice.choice(["ffffffff", "00000000", "0c000000", "ff"]))
    elif kind == 2:
        yield "poke table %d %d" % (dice.randrange(16), dice.choice([0, 19, 2 ** 32 - 1, dice.randrange(2 ** 32)]))
    elif kind == 3:
        field = dice.choice(["keys", "buckets", "list_used", "key_used", "list_page", "words", "end", "page_size"])
        yield "set %s %d" % (field, dice.choice([0, 1, 8, 9999, 65536]))
    elif kind == 4:
        yield "set key_used %d" % dice.randrange(60)
    elif kind == 5:
        # a record without a name, as an older store may have one: of no bytes, or of seven
        yield "poke keys %d %s" % (dice.choice([0, 0, 19, 26]), dice.choice([
            "000002000000ffffffffffffffff00000000", "000003000000000000000700000001000000"]))
    else:
        yield "set list_used %d" % dice.randrange(60)


def case(dice):
    large = dice.random() < .1
    yield "on 2"
    yield from store(dice, dice.random() < .3, large, SIZES)
    if dice.random() < .35:
        yield from damage(dice)
    yield "sum"
    yield "on 1"
    yield from store(dice, dice.random() < .7, large, SIZES[:1] if large and dice.random() < .6 else SIZES)
    if dice.random() < .2:
        yield from damage(dice)
    yield "sum"
    for _ in range(dice.choice([1, 1, 2])):
        yield "on %d" % dice.choice([1, 2])
        yield "join %d" % dice.choice([32760, 70000, 300000] if large else [0, 8, 30, 60, 400, 3000, 3000])
    yield "on 2"
    yield "sum"
    yield "on 1"
    yield "sum"
    yield "state"
    yield "report 20000"
    for name in NAMES + (LONG if large else []):
        yield "length %s" % name


def main(words):
    if len(words) != 2:
        sys.exit(__doc__)
    dice = random.Random(int(words[1]))
    for _ in range(int(words[0])):
        for line in case(dice):
            print(line)


if __name__ == "__main__":
    main(sys.argv[1:])
