#!/usr/bin/env python3
"""What the program `limits` (crates/limits) has to write, by the Python model.

    ./limits.py > ../crates/limits/stdout
"""
import model

SAID = {model.MORE: "more", model.DONE: "done {}", model.REFUSED: "refused {}"}


def main():
    for n in (0, 1, 32, 33):
        for m in (1, 2, 128, 129):
            for case in range(13):
                lengths = model.lengths(n, m)
                if case < 10:
                    lengths[case // 2] = max(0, lengths[case // 2] + (1 if case % 2 else -1))
                port = model.Port(n, m, [[0] * k for k in lengths])
                places = {10: 63, 12: 65}.get(case, 64)
                answers = [port.start(), port.register(), port.call(0, model.PIN), port.step(0, places)]
                print(f"N {n}, M {m}, case {case}, " + ", ".join(SAID[kind].format(value) for kind, value, _ in answers))


if __name__ == "__main__":
    main()
