#!/usr/bin/env python3
"""oracle/report.py: the shift report of document 02, One, read by its words. It shares no code with the crates.

  report.py check FILE      ok, bad N or long, as the program report_check says it
  report.py cases OUT_STDIN OUT_STDOUT
                            the cases that the gate feeds the program report_cases, and this reader's answers
  report.py sample OUT_STDOUT
                            what the program report_sample prints: document 02's two reports, read back
  report.py full OUT        a good report of exactly 65,536 bytes, which the gate feeds the program report_check
  report.py random N SEED   N random texts to standard output in the form of the cases, and their answers to standard error

A case is its length in decimal, a newline, and that many bytes.
"""
import random
import re
import sys

LIMIT = 65536
NUMBER = re.compile(rb"(0|[1-9][0-9]{0,17})\Z")
HEX = re.compile(rb"([0-9a-f]{2})*\Z")


class Bad(Exception):
    """a line is bad"""


def number(line, word):
    """a decimal of 1 to 18 digits, no leading zero but 0 itself"""
    if not line.startswith(word) or not NUMBER.match(line[len(word):]):
        raise Bad
    return int(line[len(word):])


def hexed(line, word):
    """lower-case hex"""
    if not line.startswith(word) or not HEX.match(line[len(word):]):
        raise Bad
    return bytes.fromhex(line[len(word):].decode())


class Lines:
    """the lines of a text, each ended by one newline; a missing line is bad"""

    def __init__(self, text):
        self.text, self.at, self.line = text, 0, 0

    def next(self):
        self.line += 1
        end = self.text.find(b"\n", self.at)
        if end < 0:
            raise Bad
        line = self.text[self.at:end]
        self.at = end + 1
        return line


def lanes_of(text):
    """the lanes, in order; or raises Bad, the line's number in the lines"""
    lines = Lines(text)
    try:
        if lines.next() != b"store=1":
            raise Bad
        terms = number(lines.next(), b"terms=")
        total = number(lines.next(), b"total=")
        lanes = {}
        while True:
            line = lines.next()
            if line == b"end=1":
                if len(lanes) != terms or sum(map(len, lanes.values())) != total:
                    raise Bad
                break
            name = hexed(line, b"term=")
            if len(name) > 65535 or name in lanes:
                raise Bad
            length = number(lines.next(), b"len=")
            data = hexed(lines.next(), b"bytes=")
            if len(data) != length:
                raise Bad
            lanes[name] = data
        lines.line += 1
        if lines.at != len(text):
            raise Bad
        return list(lanes.items()), 0
    except Bad:
        return None, lines.line


def said(text):
    if len(text) > LIMIT:
        return "long"
    lanes, line = lanes_of(text)
    return "ok" if lanes is not None else "bad %d" % line


def text_of(lanes, terms=None, total=None):
    """the report of lanes, with terms= and total= as told or as they are"""
    out = [b"store=1", b"terms=%d" % (len(lanes) if terms is None else terms)]
    out.append(b"total=%d" % (sum(len(b) for _, b in lanes) if total is None else total))
    for name, data in lanes:
        out += [b"term=" + name.hex().encode(), b"len=%d" % len(data), b"bytes=" + data.hex().encode()]
    return b"\n".join(out + [b"end=1", b""])


def with_line(text, n, line):
    """line n of the text replaced"""
    lines = text.split(b"\n")
    lines[n - 1] = line
    return b"\n".join(lines)


def padded(size):
    """a good report of exactly so many bytes: lanes of 100 bytes, and one that fills the rest"""
    for count in range(200, 280):
        lanes = [(b"lane %d" % k, bytes((7 * k + i) % 256 for i in range(100))) for k in range(count)]
        room = (size - len(text_of(lanes))) // 2
        for rest in range(max(room - 20, 0), max(room, 0)):
            text = text_of(lanes + [(b"x", b"r" * rest)])
            if len(text) == size:
                return text
    raise SystemExit("no report of %d bytes" % size)


def cases():
    one = text_of([(b"A", b"\x01\x02\x03")])
    two = text_of([(b"A", b"\x01\x02\x03"), (b"B", b"")])
    yield text_of([])
    yield one
    yield two
    # lanes in any order, an empty name, a lane of 0 bytes, all byte values
    yield text_of([(b"B", b""), (b"A", b"\x01\x02\x03")])
    yield text_of([(b"", b"")])
    yield text_of([(bytes(range(256)), bytes(range(255, -1, -1)))])
    yield text_of([(b"A", b""), (b"a", b""), (b"AA", b"")])
    # nothing, and each missing or unended line
    yield b""
    for text in (text_of([]), one, two):
        for cut in range(1, len(text)):
            if text[cut - 1:cut] == b"\n" or text[cut:cut + 1] == b"\n":
                yield text[:cut]
    # bytes after the end
    for tail in (b"x", b"\n", b"end=1\n", b"store=1\n", b"\x00"):
        yield one + tail
    # each line of a wrong form
    for n, word in enumerate([b"store=", b"terms=", b"total=", b"term=", b"len=", b"bytes=", b"end="], 1):
        good = one.split(b"\n")[n - 1]
        for line in (b"", b" " + good, good + b" ", good + b"\r", good[:-1], good.upper(), word, good + b"x", b"x" + good,
                     good.replace(b"=", b" ="), good.replace(b"=", b"= "), good.replace(b"=", b""), b"\xff" + good[1:],
                     word[:-2] + b"=" + good[len(word):], b"term=41", b"end=1", b"len=3", b"bytes=010203", b"total=3"):
            yield with_line(one, n, line)
    # decimals: 18 and 19 digits, leading zeros, signs
    for n, word in ((2, b"terms="), (3, b"total="), (5, b"len=")):
        for value in (b"0", b"00", b"01", b"003", b"+3", b"-3", b"3.0", b"0x3", b"999999999999999999", b"1000000000000000000",
                      b"18446744073709551616", b"18446744073709551619", b"000000000000000003", b"3e0", b"\xd9\xa3"):
            yield with_line(one, n, word + value)
    # hex: odd, upper case, the bytes beside the digits
    for n, word in ((4, b"term="), (6, b"bytes=")):
        for value in (b"0", b"012", b"4G", b"AB", b"aB", b"0102/3", b"0102:3", b"0102`3", b"0102g3", b"01 02 03", b"ffffff"):
            yield with_line(one, n, word + value)
    # a name seen before: next to it, and further on; a name that only begins alike
    yield text_of([(b"A", b"\x01"), (b"A", b"\x02")])
    yield text_of([(b"A", b"\x01"), (b"B", b"\x02"), (b"C", b""), (b"B", b"")])
    yield text_of([(b"", b"\x01"), (b"B", b"\x02"), (b"", b"")])
    yield text_of([(b"B", b"\x02"), (b"BB", b"\x02"), (b"bytes", b""), (b"B", b"")])
    # the first bad line counts: the lane before the second one of its name is broken
    yield with_line(text_of([(b"A", b"\x01"), (b"B", b"\x02"), (b"A", b"")]), 9, b"bytes=0")
    # bytes= not of len
    for data in (b"", b"01", b"0102", b"01020304"):
        yield with_line(one, 6, b"bytes=" + data)
    yield with_line(one, 5, b"len=999999999999999999")
    yield with_line(two, 9, b"bytes=00")
    # end=1 where terms= or total= isn't met, a lane too many, a lane too few
    for terms, total in ((0, 3), (2, 3), (1, 2), (1, 4), (1, 0), (1, 999999999999999999), (999999999999999999, 3)):
        yield text_of([(b"A", b"\x01\x02\x03")], terms, total)
    yield text_of([(b"A", b"\x01\x02\x03")], 0, 0)
    yield text_of([], 1, 0)
    yield text_of([], 0, 1)
    # long names: the limit can't be passed in 65,536 bytes, as hex it has twice as many
    yield text_of([(b"n" * 32000, b"")])
    # exactly 65,536 bytes, good and bad; one more
    full = padded(LIMIT)
    yield full
    yield full[:-1] + b"x"
    yield full + b"\n"


def sample():
    """two stores: an empty one; one with lane A and the bytes 1, 2, 3, asked for also with an output of 10 bytes"""
    for lanes in ([], [(b"A", b"\x01\x02\x03")]):
        text = text_of(lanes)
        read, line = lanes_of(text)
        yield text.decode()
        yield "lanes %d %d\n" % (len(read), sum(len(b) for _, b in read)) if read is not None else "refused 15 %d\n" % line
        if not read:
            yield "no such lane\n"
        else:
            name, data = read[0]
            yield "lane %s %s\nbytes %d %d\n" % (name.hex(), data.hex(), len(data), data[0])
            yield "refused 8 %d\n" % len(text)


def random_text(rng):
    lanes = []
    for _ in range(rng.choice((0, 1, 2, 3, 5))):
        lanes.append((bytes(rng.choice(b"ABab\x00\n") for _ in range(rng.randrange(3))), rng.randbytes(rng.randrange(4))))
    text = bytearray(text_of(lanes))
    for _ in range(rng.choice((0, 0, 1, 1, 2))):
        at = rng.randrange(len(text))
        what = rng.randrange(4)
        if what == 0:
            text[at] = rng.choice(b"0123456789abcdef=\n\rsotrembyn \x00AF")
        elif what == 1:
            del text[at]
        elif what == 2:
            text.insert(at, rng.choice(b"0123456789abcdef=\n t"))
        else:
            lines = bytes(text).split(b"\n")
            k = rng.randrange(len(lines))
            lines[k] = rng.choice(lines)
            text = bytearray(b"\n".join(lines))
    return bytes(text)


def write(texts, stdin, stdout):
    for text in texts:
        stdin.write(b"%d\n" % len(text) + text)
        stdout.write((said(text) + "\n").encode())


def main(words):
    if len(words) == 2 and words[0] == "check":
        with open(words[1], "rb") as f:
            print(said(f.read()))
    elif len(words) == 3 and words[0] == "cases":
        with open(words[1], "wb") as stdin, open(words[2], "wb") as stdout:
            write(cases(), stdin, stdout)
    elif len(words) == 2 and words[0] == "sample":
        with open(words[1], "w") as stdout:
            stdout.writelines(sample())
    elif len(words) == 2 and words[0] == "full":
        with open(words[1], "wb") as stdin:
            stdin.write(padded(LIMIT))
    elif len(words) == 3 and words[0] == "random":
        rng = random.Random(int(words[2]))
        write((random_text(rng) for _ in range(int(words[1]))), sys.stdout.buffer, sys.stderr.buffer)
    else:
        sys.exit(__doc__)


if __name__ == "__main__":
    main(sys.argv[1:])
