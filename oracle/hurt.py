#!/usr/bin/env python3
"""What the program `hurt` (crates/hurt) has to write, by the Python model: every word of the lists changed in turn, at some moments of runs; then made-up bags.

    ./hurt.py ../crates/hurt/stdin > ../crates/hurt/stdout     (some minutes)
    ./hurt.py --bags ../crates/hurt/stdin                      how many of the made-up bags are refused with 16, and why
"""
import sys
from collections import Counter

import model

N, M, EVERY, PRIME = 3, 4, 6, 2147483647
LENGTHS = model.lengths(N, M)
WORDS = sum(LENGTHS)
BAGS = sum(LENGTHS[:3])


def split(words):
    out, at = [], 0
    for k in LENGTHS:
        out.append(words[at:at + k])
        at += k
    return out


def mixed(total, words):
    for w in words:
        total = (total * 257 + w % PRIME) % PRIME
    return total


def tried(turn):
    """Action and participant: mostly steps, every other one marked; one of a participant that there is not."""
    p, k = turn // 19 % 3, turn % 19
    if k == 18:
        return model.MARKED, 3
    return (model.MARKED if k % 2 else model.STEP, p) if k < 10 else (k - 9, p)


def value(w, turn):
    return [(w + 1) % model.WORD, (w - 1) % model.WORD, (w + 2) % model.WORD, turn % 70][turn % 4]


def changed(kept, first):
    """Every word, four ways: the word, what it is changed to, and what is tried, with its token."""
    for i in range(4 * WORDS):
        turn = first + i
        yield i // 4, value(kept[i // 4], turn), *tried(turn), 5


def made_up():
    """The same for bags: in every place the token 2, the node 2 and the slot 2, and the participant whose bag it is retires the token 2."""
    for i in range(3 * LENGTHS[3]):
        yield BAGS + i // 3, 9 + i % 3, model.DEFER, i // 192, 2


def case(kept, at, word, action, p, token):
    port = model.Port(N, M, split(kept[:at] + [word] + kept[at + 1:]))
    return port, *port.act(action, p, token)


def moment(kept, first):
    damaged = refused = done = more = total = 0
    for port, kind, number, freed in (case(kept, *c) for cases in (changed(kept, first), made_up()) for c in cases):
        if kind == model.REFUSED:
            damaged, refused = damaged + (number == 1), refused + (number != 1)
            total = mixed(total, [number])
            continue
        for l in port.lists() + [freed + [0] * (64 - len(freed))]:
            total = mixed(total, l)
        done, more = done + (kind == model.DONE), more + (kind == model.MORE)
        total = mixed(total, [number, len(freed)] if kind == model.DONE else [len(freed)])
    print(f"{damaged} damaged, {refused} refused, {done} done, {more} more, sum {total}, changed by a refusal 0")


def why(kept, at, word, p):
    """Why the retirement of the token 2 is refused with 16 where that word of the bag is changed, by what was put where."""
    first, length = BAGS + 64 * p, kept[LENGTHS[0] + 21 * p + model.HELD]
    if 9 in [w for k, w in enumerate(kept[first:first + length], first) if k != at]:
        return "held before"
    return "made up" if at < first + length and word == 9 else "neither"


def moments(data):
    """The words after every sixth record, with its number; a broken record starts afresh."""
    kept = [0] * WORDS
    for k in range(len(data) // 8):
        r = data[8 * k:8 * k + 8]
        port = model.Port(N, M, split(kept))
        if not model.whole(r):
            port.start()
        else:
            port.act(r[0], r[1], int.from_bytes(r[4:8], "little"))
        kept = [w for l in port.lists() for w in l]
        if k % EVERY == 0:
            yield kept, k


def main():
    bags, data = sys.argv[1] == "--bags", open(sys.argv[-1], "rb").read()
    if not bags:
        for kept, k in moments(data):
            moment(kept, k)
        return
    all_moments = list(moments(data))
    refused = Counter(why(kept, c[0], c[1], c[3]) for kept, _ in all_moments for c in made_up() if case(kept, *c)[1:3] == (model.REFUSED, 16))
    print(f"{len(all_moments) * 3 * LENGTHS[3]} made-up bags, {refused.total()} refused with 16: {refused['made up']} since a token 2 was put below the length,"
          f" {refused['held before']} since the bag held another one, {refused['neither']} otherwise")


if __name__ == "__main__":
    main()
