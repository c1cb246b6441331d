#!/usr/bin/env python3
"""What the program `report` (crates/report) has to write for records on standard input, by the Python model.

    ./report.py < ../crates/report/stdin > ../crates/report/stdout
"""
import sys
import model

N, M = 32, 128


def main():
    data = sys.stdin.buffer.read()
    port = model.Port(N, M, [[0] * k for k in model.lengths(N, M)])
    port.start()
    for at in range(0, len(data), 8):
        r = data[at:at + 8]
        if model.whole(r):
            port.act(r[0], r[1], int.from_bytes(r[4:], "little"))
    kind, number, reports = port.survey(N)
    if kind == model.REFUSED:
        print(f"refused {number}")
    for i, r in enumerate(reports):
        if r[0]:
            print(i, *r)


if __name__ == "__main__":
    main()
