#!/usr/bin/env python3
"""Holds the Python model to recorded answers of the Rust: answer, freed tokens, and every word that a line lists.

    ./check.py [FILE]     recorded/answers.txt, or what `oracle stream` printed
"""
import pathlib
import sys
import model

SLOT, NODE, STRIDE = 16, 4112, 128


def cell(t, c):
    """The word of the lists that a cell of the recorded answers is."""
    if c < SLOT:
        return t.g[c]
    if c < NODE:
        i, k = divmod(c - SLOT, STRIDE)
        return 1 - t.slot_free(i) if k == 0 else t.p[21 * i + k - 1] if k < 8 else t.h[64 * i + k - 8] if k - 8 < t.p[21 * i + 5] else 0
    i, k = divmod(c - NODE, STRIDE)
    free = i in t.nodes_free()
    return 1 - free if k == 0 else t.d[3 * i + k - 1] if k < 8 else t.q[64 * i + k - 8] if k - 8 < t.d[3 * i + 2] else 0


def main():
    here = pathlib.Path(__file__).resolve().parent
    t, schedules, records, words = None, 0, 0, 0
    for number, line in enumerate(open(sys.argv[1] if len(sys.argv) > 1 else here / "recorded/answers.txt"), 1):
        if line.startswith("#"):
            continue
        if line.startswith("="):
            n, m = [int(x) for x in line.split()[1:]] or (32, 128)
            t = model.Port(n, m, [[0] * k for k in model.lengths(n, m)])
            t.start()
            schedules += 1
            continue
        r = [int(x) for x in line.split()]
        if r[3:5] == [2, 13]:
            continue
        kind, value, freed = t.act(r[0], r[1], r[2])
        pairs = r[12 + r[5]:]
        same = [kind, value, len(freed)] + freed == r[3:6 + r[5]] and all(cell(t, c) == v for c, v in zip(pairs[0::2], pairs[1::2]))
        if not same:
            sys.exit(f"line {number}: {line[:200]}the model: {kind} {value} {freed}")
        records, words = records + 1, words + len(pairs) // 2
    print(f"{schedules} schedules, {records} records, {words} changed words: the model gives them all")


if __name__ == "__main__":
    main()
