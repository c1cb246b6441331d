#!/usr/bin/env python3
"""Finds the shortest schedules that free a token too early when a bag expires at distance 1 (docs/PROOF.md): breadth first, over all schedules.

    ./harm.py [--n N] [--m M] [--distance D] [--bound K] [--reader]   schedules of at most K records; --reader: the harmed one is not the retirer
    oracle stream --n 2 --m 6 | ./harm.py --check --n 2 --m 6 --distance 2   the model below beside answers of the Rust

The model is the definition (crates/definition) for few participants and short runs: bags never fill. Early means: a participant that was pinned just
before the retirement has had the same word ever since. Left out: what makes no schedule shorter, that is refused records, marked steps (`--check` knows
them), a second retirement of the token, and another token where the bag holds something already; and a fourth guard or handle of a participant.
"""
import argparse
import sys

REGISTER, ACQUIRE, RELEASE, PIN, UNPIN, REPIN, DEFER, FLUSH, MARKED, STEP = 1, 2, 3, 4, 5, 6, 7, 8, 9, 0
NAMES = "step register acquire release pin unpin repin defer flush".split()
MINE, OTHER = 7, 8
REST = ("rest",)
TABLES = "glob free word next guards handles pins bag share place node_free node_next seal node_bag".split()


def link(i):
    return 2 * (i + 1)


def index(w):
    return w // 2 - 1


def bare(w):
    return w & ~1 if w // 2 else 0


class World:
    """glob: epoch, list head, queue head, queue tail, set aside, fate of MINE (0 not retired, 1 waits, 2 freed, 3 freed early), words that stand still"""

    def __init__(self, n, m, distance, reader):
        self.n, self.m, self.distance, self.reader = n, m, distance, reader
        self.glob = [0, 0, link(0), link(0), 0, 0, 0]
        self.free, self.word, self.next = [True] * n, [0] * n, [0] * n
        self.guards, self.handles, self.pins, self.bag = [0] * n, [0] * n, [0] * n, [()] * n
        self.share, self.place = [0] * n, [REST] * n
        self.node_free, self.node_next, self.seal, self.node_bag = [False] + [True] * (m - 1), [0] * m, [0] * m, [()] * m

    def copy(self):
        w = object.__new__(World)
        w.n, w.m, w.distance, w.reader = self.n, self.m, self.distance, self.reader
        for t in TABLES:
            setattr(w, t, list(getattr(self, t)))
        return w

    def key(self):
        return tuple(tuple(getattr(self, t)) for t in TABLES)

    def room(self):
        return sum(self.node_free) - self.glob[4]

    # ---- what follows an access: specs/Flow. `value` is set where the operation ends

    def on(self, p, *place):
        self.place[p] = place

    def done(self, p, value):
        self.glob[4] -= self.share[p]
        self.share[p], self.place[p], self.value = 0, REST, value

    def collected(self, p, owner):
        self.on(p, "push-epoch", "finalize") if owner == "finalize" else self.done(p, 0)

    def pops(self, p, owner, e, left):
        self.on(p, "pop-head", owner, e, left) if left else self.collected(p, owner)

    def walk(self, p, owner, e, pred, q):
        self.on(p, "walk-next", owner, e, pred, index(q)) if q else self.on(p, "advance-store", owner, e)

    def finalize(self, p):
        self.guards[p] = self.handles[p] = 1
        self.on(p, "pin-epoch", "finalize")

    def store(self, p, w):
        if self.word[p] != w:
            self.word[p] = w
            self.glob[6] &= ~(1 << p)

    def free_bag(self, n):
        for kind, v in self.node_bag[n]:
            if kind == 1:
                self.freed.append(v)
                if v == MINE and self.glob[5] == 1:
                    self.glob[5] = 3 if self.glob[6] else 2
            elif kind == 2:
                self.node_free[v] = True
            else:
                self.free[v] = True
        self.node_bag[n] = ()

    def retire_node(self, p, owner, e, left, head, popped):
        self.bag[p] += ((2, head),)
        self.free_bag(popped)
        self.pops(p, owner, e, left - 1)

    # ---- the access of each place: specs/List, Queue, Internal

    def step(self, p, marked=False):
        at, *a = self.place[p]
        if marked and at == "register-link":
            self.on(p, "register-next", bare(self.glob[1]))
            return
        rules = {"register": self.insert, "walk": self.iterate, "pop": self.pop, "push": self.push}
        rules.get(at.split("-")[0], self.local)(p, at, a)

    def insert(self, p, at, a):
        g = self.glob
        if at == "register-head":
            self.on(p, "register-next", bare(g[1]))
        elif at == "register-next":
            self.next[p] = a[0]
            self.on(p, "register-link", a[0])
        elif at == "register-link":
            if g[1] == a[0]:
                g[1] = link(p)
                self.done(p, p)
            else:
                self.on(p, "register-next", bare(g[1]))

    def iterate(self, p, at, a):
        g = self.glob
        if at == "walk-head":
            self.walk(p, *a, 0, bare(g[1]))
        elif at == "walk-next":
            w = self.next[a[3]]
            self.on(p, "walk-unlink" if w & 1 else "advance-word", *a, bare(w))
        elif at == "walk-unlink":
            owner, e, pred, curr, succ = a
            w = self.next[index(pred)] if pred else g[1]
            if w == link(curr):
                if pred:
                    self.next[index(pred)] = succ
                else:
                    g[1] = succ
                self.bag[p] += ((3, curr),)
                self.walk(p, owner, e, pred, succ)
            elif w & 1:
                self.on(p, "walk-stalled", owner, e)
            else:
                self.walk(p, owner, e, pred, bare(w))
        elif at == "walk-stalled":
            self.pops(p, a[0], a[1], 8)

    def pop(self, p, at, a):
        g = self.glob
        if at == "pop-head":
            self.on(p, "pop-next", *a, index(g[2]))
        elif at == "pop-next":
            n = index(self.node_next[a[3]])
            expired = n >= 0 and (a[1] - self.seal[n]) // 2 >= self.distance
            self.on(p, "pop-exchange", *a, n) if expired else self.collected(p, a[0])
        elif at == "pop-exchange":
            if g[2] == link(a[3]):
                g[2] = link(a[4])
                self.on(p, "pop-tail", *a)
            else:
                self.on(p, "pop-head", *a[:3])
        elif at == "pop-tail":
            self.on(p, "pop-tail-move", *a) if g[3] == link(a[3]) else self.retire_node(p, *a)
        elif at == "pop-tail-move":
            if g[3] == link(a[3]):
                g[3] = link(a[4])
            self.retire_node(p, *a)

    def push(self, p, at, a):
        g = self.glob
        if at == "push-epoch":
            n = self.node_free.index(True)
            self.node_free[n], self.node_next[n], self.seal[n] = False, 0, g[0]
            self.node_bag[n], self.bag[p] = self.bag[p], ()
            self.share[p] -= 1
            g[4] -= 1
            self.on(p, "push-tail", a[0], n)
        elif at == "push-tail":
            self.on(p, "push-next", *a, index(g[3]))
        elif at == "push-next":
            w = self.node_next[a[2]]
            self.on(p, "push-help", *a, index(w)) if w else self.on(p, "push-link", *a)
        elif at == "push-help":
            if g[3] == link(a[2]):
                g[3] = link(a[3])
            self.on(p, "push-tail", *a[:2])
        elif at == "push-link":
            if self.node_next[a[2]]:
                self.on(p, "push-tail", *a[:2])
            else:
                self.node_next[a[2]] = link(a[1])
                self.on(p, "push-move", *a)
        elif at == "push-move":
            if g[3] == link(a[2]):
                g[3] = link(a[1])
            if a[0] == "flush":
                self.on(p, "advance-epoch", "flush")
            else:
                self.guards[p] = 0
                self.on(p, "final-word")

    def local(self, p, at, a):
        g = self.glob
        if at == "pin-epoch":
            self.on(p, "pin-word", a[0], g[0])
        elif at == "pin-word":
            self.store(p, a[1] | 1)
            collects = self.pins[p] % 128 == 0
            self.pins[p] += 1
            self.on(p, "advance-epoch", a[0]) if collects else self.collected(p, a[0])
        elif at == "repin-word":
            self.on(p, "repin-epoch", self.word[p])
        elif at == "repin-epoch":
            self.done(p, 0) if a[0] == g[0] | 1 else self.on(p, "repin-store", g[0] | 1)
        elif at == "repin-store":
            self.store(p, a[0])
            self.done(p, 0)
        elif at == "unpin-word":
            self.store(p, 0)
            self.done(p, 0) if self.handles[p] else self.finalize(p)
        elif at == "advance-epoch":
            self.on(p, "walk-head", a[0], g[0])
        elif at == "advance-word":
            w = self.word[a[3]]
            self.pops(p, a[0], a[1], 8) if w & 1 and w & ~1 != a[1] else self.walk(p, a[0], a[1], link(a[3]), a[4])
        elif at == "advance-store":
            g[0] = a[1] + 2
            self.pops(p, a[0], g[0], 8)
        elif at == "final-word":
            self.store(p, 0)
            self.handles[p] = 0
            self.on(p, "final-tag")
        elif at == "final-tag":
            self.next[p] |= 1
            self.done(p, 0)

    # ---- the public calls: specs/Public, Calls. The number of the refusal, or 0

    def act(self, action, p, token=0):
        self.value, self.freed = None, []
        if action == REGISTER:
            if True not in self.free:
                return 10
            p = self.free.index(True)
            self.free[p], self.word[p], self.next[p] = False, 0, 0
            self.guards[p], self.handles[p], self.pins[p], self.bag[p] = 0, 1, 0, ()
            self.on(p, "register-head")
            return 0
        if p >= self.n or self.free[p] or (self.next[p] & 1 and self.place[p] == REST):
            return 3
        if action in (STEP, MARKED):
            if self.place[p] == REST:
                return 5
            self.step(p, action == MARKED)
            return 0
        return 4 if self.place[p] != REST else self.call(action, p, token)

    def call(self, action, p, token):
        guards, handles = self.guards[p], self.handles[p]
        if action in (ACQUIRE, RELEASE, PIN) and not handles:
            return 7
        if action in (UNPIN, REPIN, DEFER, FLUSH) and not guards:
            return 6
        if action == DEFER and (1, token) in self.bag[p]:
            return 16
        last = action == RELEASE and handles == 1 and not guards or action == UNPIN and guards == 1 and not handles
        need = 1 if last else int(action == FLUSH and self.bag[p] != ())
        if self.room() < need:
            return 11
        self.share[p] = need
        self.glob[4] += need
        self.begin(action, p, token, last)
        return 0

    def begin(self, action, p, token, last):
        self.guards[p] += (action == PIN) - (action == UNPIN)
        self.handles[p] += (action == ACQUIRE) - (action == RELEASE)
        if action == RELEASE and last:
            self.finalize(p)
        elif action == PIN and self.guards[p] == 1:
            self.on(p, "pin-epoch", "pin")
        elif action == UNPIN and self.guards[p] == 0:
            self.on(p, "unpin-word")
        elif action == REPIN and self.guards[p] == 1:
            self.on(p, "repin-word")
        elif action == FLUSH:
            self.on(p, "push-epoch", "flush") if self.bag[p] else self.on(p, "advance-epoch", "flush")
        else:
            if action == DEFER:
                self.bag[p] += ((1, token),)
                if token == MINE and self.glob[5] == 0:
                    pinned = (q for q in range(self.n) if not self.free[q] and self.word[q] & 1 and not (self.reader and q == p))
                    self.glob[5], self.glob[6] = 1, sum(1 << q for q in pinned)
            self.done(p, 64 - len(self.bag[p]) if action == DEFER else 0)


def records_from(w):
    """the records worth trying: (action, participant, token)"""
    if True in w.free:
        yield REGISTER, 0, 0
    for p in range(w.n):
        if w.free[p]:
            continue
        if w.place[p] != REST:
            yield STEP, p, 0
            continue
        for action in (ACQUIRE, RELEASE, PIN, UNPIN, REPIN, FLUSH):
            if not (action == ACQUIRE and w.handles[p] == 3 or action == PIN and w.guards[p] == 3):
                yield action, p, 0
        if w.glob[5] == 0:
            yield DEFER, p, MINE
        if w.bag[p] == ():
            yield DEFER, p, OTHER


def least(w):
    """at least so many records to the free: the retirement; the call that pushes, and its seal, tail, next and link; a pop's next, exchange and tail"""
    if w.glob[5] == 0:
        return 9
    for p in range(w.n):
        if (1, MINE) in w.bag[p]:
            return 7 if w.place[p][0] == "push-epoch" else 8
    node = next(n for n in range(w.m) if (1, MINE) in w.node_bag[n])
    pushing = {"push-tail": 6, "push-next": 5, "push-help": 7, "push-link": 4}
    return next((pushing[q[0]] for q in w.place if q[0] in pushing and q[2] == node), 1)


def search(n, m, distance, bound, reader):
    front, seen, logs = [World(n, m, distance, reader)], set(), []
    for depth in range(1, bound + 1):
        after, log, early = [], [], []
        for i, w in enumerate(front):
            for r in records_from(w):
                v = w.copy()
                if v.act(*r):
                    continue
                if v.glob[5] == 3:
                    early.append((i, r))
                elif v.glob[5] == 2 or v.glob[5] == 1 and not v.glob[6] or depth + least(v) > bound:
                    continue
                elif (k := hash(v.key())) not in seen:
                    seen.add(k)
                    after.append(v)
                    log.append((i, r))
        if early:
            return depth, len(seen), [path(logs, i) + [r] for i, r in early]
        front, logs = after, logs + [log]
    return None, len(seen), []


def path(logs, i):
    records = []
    for log in reversed(logs):
        i, r = log[i]
        records.append(r)
    return records[::-1]


def text(records):
    lines = []
    for action, p, token in records:
        line = NAMES[action] + ("" if action == REGISTER else f" {p}") + (f" {token}" if action == DEFER else "")
        if lines and lines[-1][0] == line and action == STEP:
            lines[-1][1] += 1
        else:
            lines.append([line, 1])
    return "; ".join(line if k == 1 else f"{line} x{k}" for line, k in lines)


def differs(w, x, cells):
    """what the Rust answered and left (oracle/README.md) against the model"""
    refused = w.act(x[0], x[1], x[2])
    answer = [2, refused] if refused else [0, 0] if w.value is None else [1, w.value]
    shown = dict(enumerate(w.glob[:4]))
    for p in range(w.n):
        row = [w.word[p], w.next[p], w.guards[p], w.handles[p], w.pins[p], len(w.bag[p]), 0] + [4 * v + k for k, v in w.bag[p]]
        shown |= {16 + 128 * p: int(not w.free[p])} | ({} if w.free[p] else {17 + 128 * p + j: v for j, v in enumerate(row)})
    for n in range(w.m):
        row = [w.node_next[n], w.seal[n], len(w.node_bag[n]), 0, 0, 0, 0] + [4 * v + k for k, v in w.node_bag[n]]
        shown |= {4112 + 128 * n: int(not w.node_free[n])} | ({} if w.node_free[n] else {4113 + 128 * n + j: v for j, v in enumerate(row)})
    return answer != x[3:5] or w.freed != x[6:6 + x[5]] or {k: v for k, v in shown.items() if v} != {k: v for k, v in cells.items() if v}


def check(n, m, distance):
    schedules = records = 0
    w = None
    for line in sys.stdin:
        if line[0] == "=":
            w, cells = World(n, m, distance, False), {2: 2, 3: 2, 4112: 1}
            schedules += 1
        elif line[0] != "#" and w:
            x = [int(k) for k in line.split()]
            changes = x[6 + x[5] + 6:]
            for k, v in zip(changes[::2], changes[1::2]):
                cells[k] = v
                if v == 0 and k >= 16 and (k - 16) % 128 == 0:
                    cells = {c: u for c, u in cells.items() if not k < c < k + 128}
            if x[3:5] in ([2, 9], [2, 13]):
                continue
            if max(map(len, w.bag)) > 60:
                w = None
                continue
            if differs(w, x, cells):
                sys.exit(f"schedule {schedules} differs at: {line}")
            records += 1
    print(f"{schedules} schedules, {records} records: the same answers, freed tokens and words")


def main():
    parser = argparse.ArgumentParser(description=__doc__, formatter_class=argparse.RawDescriptionHelpFormatter)
    for name, value in (("--n", 2), ("--m", 6), ("--distance", 1), ("--bound", 34)):
        parser.add_argument(name, type=int, default=value)
    parser.add_argument("--reader", action="store_true")
    parser.add_argument("--check", action="store_true")
    o = parser.parse_args()
    if o.check:
        return check(o.n, o.m, o.distance)
    depth, states, found = search(o.n, o.m, o.distance, o.bound, o.reader)
    print(f"{states} states: " + (f"none shorter than {depth} records, and {len(found)} ways to end such a one" if found else f"none of at most {o.bound} records"))
    for records in found:
        print(text(records))


main()
