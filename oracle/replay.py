#!/usr/bin/env python3
"""oracle/replay.py <crates/replay_shift/stdin: what crate replay_shift has to answer.

It takes the scripts apart by itself and plays their appends, one by one, on oracle/model.py, which shares no code with
the crates. With --appends it prints each append's answer too, as a line that begins with #."""
import os
import sys

HERE = os.path.dirname(os.path.abspath(__file__))
sys.dont_write_bytecode = True
sys.path.insert(0, HERE)
from model import Bench, data, shown  # noqa: E402


def entries(script):
    """The appends of a script: name length (2 bytes), name, byte length (4), bytes; it ends where no whole one follows."""
    while len(script) >= 6:
        n = int.from_bytes(script[:2], "little")
        if len(script) < 6 + n:
            return
        name, rest = script[2:2 + n], script[2 + n:]
        m = int.from_bytes(rest[:4], "little")
        if len(rest) < 4 + m:
            return
        yield name, rest[4:4 + m]
        script = rest[4 + m:]


def main():
    bench, script = Bench(), b""
    bench.play("lend 64 4096 4096 a5")
    for line in sys.stdin.read().split("\n"):
        if line == "" or line[0] == "#":
            continue
        word, *words = line.split(" ")
        if word == "script":
            script += bytes(data(words[0]))
            print("script %d" % len(script))
        elif word == "replay":
            said = bench.play("create " + " ".join(words))
            print("replayed" if said == "created" else said)
            for name, appended in entries(script) if said == "created" else ():
                said = bench.play("append %s %s" % (shown(name), shown(appended)))
                if "--appends" in sys.argv:
                    print("# %s %d: %s" % (shown(name), len(appended), said))
            script = b""
        else:
            print(bench.play(line))


if __name__ == "__main__":
    main()
