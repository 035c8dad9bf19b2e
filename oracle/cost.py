#!/usr/bin/env python3
"""What to lend for a shift, worked out from docs/RULES.md (AJ5 to AJ9), and shifts to try it on.

    oracle/cost.py cases ROWS ANSWERS     writes the rows that the program `cost` is run on, and what it must print
    oracle/cost.py shifts COUNT SEED      plays shifts on the model, each on areas of just the bytes that are told for
                                          it: no append may be refused, and the used bytes stay within the formula
"""
import os
import random
import sys

sys.dont_write_bytecode = True
sys.path.insert(0, os.path.dirname(os.path.abspath(__file__)))
import model  # noqa: E402

BUCKETS = 4194304


def tails(page, tail, total):
    return total if total <= page else total + tail * (total // (page - tail) + 1)


def lend(lanes, data, page, longest):
    """capacity, words, bytes of the key pages and of the list pages; or a word"""
    if page not in [2 ** k for k in range(16, 21)]:
        return "no such page"
    most = 2 ** 32 - page
    if lanes > BUCKETS or data > most or longest > min(65535, page - 18):
        return "too much"
    capacity = 1
    while capacity < 2 * lanes - 1:
        capacity *= 2
    behind, rest = divmod(max(lanes, 1) - 1, page // (longest + 18))
    keys = behind * page + (rest + 1) * (longest + 18)
    taken = min((5 * data + 20 * lanes) // 2, data + data // 8192 + 32816 * lanes)
    lists = max(1, tails(page, 32771, taken))
    if capacity > BUCKETS or max(keys, lists) > most:
        return "too much"
    return capacity, 2 * capacity, keys, lists


def rows():
    yield from [(192, 19200000, 1048576, 40), (24, 60000, 65536, 20), (1, 1, 1048576, 1), (0, 0, 1048576, 0)]
    yield from [(lanes, 0, 1048576, 1) for lanes in (1, 2, 3, 4, 5, 8, 9, BUCKETS // 2 - 1, BUCKETS // 2,
                                                     BUCKETS // 2 + 1, BUCKETS, BUCKETS + 1)]
    yield from [(10, 10, page, longest) for longest in (65517, 65518, 65519, 65535, 65536) for page in (65536, 131072)]
    yield from [(10, 10, page, 10) for page in (0, 1, 32768, 65535, 65537, 262144, 524288, 1000000, 1048577, 2097152,
                                                2 ** 63)]
    yield from [(1, data, 1048576, 1) for data in (8, 9, 13106, 13107, 13108, 2 ** 32 - 1048576, 2 ** 32 - 1048575)]
    most = 2 ** 64 - 1
    yield from [(most, most, 1048576, most), (1, 1, 65536, most), (1, most, 65536, 1)]
    dice = random.Random(14)
    for _ in range(200):
        page = 2 ** dice.randint(16, 20)
        yield dice.randint(0, 2 ** dice.randint(0, 23)), dice.randint(0, 2 ** dice.randint(0, 33)), page, \
            dice.randint(0, 2 ** dice.randint(0, 16))


def said(row):
    told = lend(*row)
    return told if isinstance(told, str) else "capacity %d words %d key-bytes %d list-bytes %d" % told


def played(dice):
    """a shift within what is lent for it: how many appends, and how many bytes of the list pages it used"""
    lanes, data = dice.randint(1, 40), dice.randint(0, 2 ** dice.randint(0, 21))
    page = 2 ** dice.randint(16, 20)
    longest = dice.choice([1, 4, 20, 40, 300, min(65535, page - 18)])
    capacity, words, keys, lists = lend(lanes, data, page, longest)
    st = model.Store()
    st.table, st.keys, st.lists = [7] * words, bytearray(b"\7") * keys, bytearray(b"\7") * lists
    st.create(capacity, dice.randint(0, 2 ** 32 - 1), page)
    names = list({bytes(dice.randrange(256) for _ in range(longest if dice.random() < .5 else dice.randint(1, longest)))
                  for _ in range(lanes)})
    record, left, count = {}, data, 0
    while left or len(record) < len(names):
        name = dice.choice(names) if left else [n for n in names if n not in record][0]
        n = min(left, dice.choice([0, 1, 2, 7, 8, 9, dice.randint(1, 300), dice.randint(1, 70000)]))
        st.append(name, b"\1" * n)
        record[name] = record.get(name, 0) + n
        left, count = left - n, count + 1
    blocks = 0
    for n in record.values():
        b = 2
        while n > 0:
            b, n, blocks = b + 1, n - model.block_size(b + 1), blocks + 1
    used = st.s["list_page"] * page + st.s["list_used"]
    assert used <= 2 * data + 6 * sum(n > 0 for n in record.values()) + 4 * blocks + 32771 * st.s["list_page"]
    return count, used


def main(words):
    if words[:1] == ["cases"] and len(words) == 3:
        with open(words[1], "w") as f, open(words[2], "w") as g:
            for row in rows():
                print(*row, file=f)
                print(said(row), file=g)
    elif words[:1] == ["shifts"] and len(words) == 3:
        dice = random.Random(int(words[2]))
        runs = [played(dice) for _ in range(int(words[1]))]
        print("%d shifts, %d appends, none refused, %d bytes of list pages used" % (
            len(runs), sum(n for n, _ in runs), sum(used for _, used in runs)))
    else:
        sys.exit(__doc__)


if __name__ == "__main__":
    main(sys.argv[1:])
