#!/usr/bin/env python3
"""Which clauses of the theorem a wrong definition breaks: runs of the model (model.py), changed as changes.py says, looked at record by record.

    oracle/clauses.py [NAME..] [--seed S] [--records K]     K records of each change, and twenty times as many of the model without a change

Each run is from a fresh start, with few participants and nodes: first some that are made, then random ones, in which participants fall asleep, mostly in
the middle of an operation; and then half as many records again, of runs in which some steps are marked. After every record each clause of
crates/theorems/specs/Statement is looked at, in its own words; and that of crates/alone, `alone`, by steps in a copy: after every record of the made runs,
and one in three of the others. A line says which clauses were seen broken, and after how many records in the shortest run that broke them; for the model
without a change, also from how many states somebody was stepped alone, and the most steps that it took. All of it takes about four minutes.

Exit status: 0 the model without a change breaks no clause, and each change those that changes.py says, and none where it says none; 1 not so.
"""
import argparse
import random
import sys
from collections import Counter, deque
from itertools import islice

import model
from changes import CHANGES, CLAUSES
from model import ACQUIRE, DEFER, FLUSH, MARKED, PIN, REGISTER, RELEASE, REPIN, STEP, UNPIN, DONE, MORE, REFUSED
from model import CURR, EPOCH, GUARDS, HANDLES, HELD, LEFT, NEW, NEXT, NXT, OLD, ONTO, OWNER, PLACE, POPPED, PRED, SHARE, SUCC, THEN, TOKEN, WD


# ---- the clauses

def tokens(words):
    return [w // 4 for w in words if w % 4 == 1]


class Watched:
    """The model, played record by record, with what the clauses speak of: `play` says which of them do not hold after a record."""

    def __init__(self, t):
        self.t, self.retired, self.freed, self.due = t, Counter(), Counter(), Counter()
        # for each token, those who have had one pinned word since just before it was retired; the bags that were linked and have not left
        self.since, self.queue = {}, deque()

    def words(self):
        return [self.t.p[21 * i + WD] for i in range(self.t.n)]

    def bag(self, node):
        t = self.t
        return node, t.d[3 * node + 1], t.q[64 * node:64 * node + t.d[3 * node + 2]]

    def hanging(self):
        """the nodes behind the head, up to a null; nothing where there is no end"""
        nodes, w = [], self.t.d[3 * (self.t.g[2] // 2 - 1)]
        while w and len(nodes) <= self.t.m:
            nodes.append(w // 2 - 1)
            w = self.t.d[3 * nodes[-1]]
        return nodes if w == 0 else None

    def waiting(self):
        t, found = self.t, []
        nodes = self.hanging() or []
        for i in range(t.n):
            o = t.p[21 * i:21 * i + 21]
            found += tokens(t.h[64 * i:64 * i + o[HELD]])
            pushes = 22 <= o[PLACE] <= 27
            if pushes and o[THEN] == 0:
                found.append(o[TOKEN])
            if 23 <= o[PLACE] <= 26:
                nodes = nodes + [o[NEW]]
            if o[PLACE] in (20, 21) or (pushes and o[THEN] == 2):
                nodes = nodes + [o[POPPED]]
        for k in nodes:
            found += tokens(self.bag(k)[2])
        return Counter(found)

    def play(self, action, i, token):
        t, words, nexts, head, broken = self.t, self.words(), self.t.d[0::3], self.t.g[2], set()
        kind, value, freed = t.act(action, i, token)
        if (kind, value) == (REFUSED, 1):
            broken.add("never_damaged")
        # a free, and who was pinned before the retirement with a word that has not changed till now
        if any(self.since.get(x) for x in freed):
            broken.add("not_early")
        moved = {j for j, (a, b) in enumerate(zip(words, self.words())) if a != b}
        if moved:
            self.since = {x: left for x, who in self.since.items() if (left := who - moved)}
        if action == DEFER and kind != REFUSED:
            if self.retired[token] == self.freed[token]:
                self.since[token] = {j for j, w in enumerate(words) if w % 2}
            self.retired[token] += 1
            self.due[token] += 1
        for x in freed:
            self.freed[x] += 1
            self.due[x] -= 1
            if self.due[x] == 0:
                del self.due[x]
        if any(self.retired[x] == 1 and self.freed[x] > 1 for x in freed + [token]):
            broken.add("once")
        if self.waiting() != self.due:
            broken.add("balance")
        if not self.in_order(nexts, head):
            broken.add("order")
        for j in range(t.n):
            o = t.p[21 * j:21 * j + 21]
            if not t.slot_free(j) and o[NEXT] % 2 == 0 and o[PLACE] == 0 and (o[WD] % 2 == 1) != (o[GUARDS] >= 1):
                broken.add("guarded")
        return broken

    def in_order(self, nexts, head):
        t = self.t
        self.queue += [self.bag(t.d[3 * k] // 2 - 1) for k in range(t.m) if nexts[k] == 0 and t.d[3 * k] != 0]
        if t.g[2] != head and (not self.queue or self.queue.popleft() != self.bag(t.g[2] // 2 - 1)):
            return False
        nodes = self.hanging()
        return nodes is not None and [self.bag(k) for k in nodes] == list(self.queue)


class Alone:
    """The clause `alone`: whoever runs an operation, stepped by itself from here on, answers more until it is done, within 4N + 384 steps. From how many
    states somebody was stepped so, and the most steps that one took."""

    def __init__(self):
        self.states, self.longest = 0, 0

    def ends(self, t, i):
        copy = type(t)(t.n, t.m, [list(words) for words in t.lists()])
        kind, steps = MORE, 0
        while kind == MORE and steps < 4 * t.n + 384:
            kind, steps = copy.act(STEP, i, 0)[0], steps + 1
        self.longest = max(self.longest, steps)
        return kind == DONE

    def holds(self, t, rng):
        """of everybody who runs; with rng now and then, of one of them. rng is not that of the run, so the run is the same whether anybody looks or not"""
        running = [i for i in range(t.n) if t.p[21 * i + PLACE]]
        if rng and running:
            running = [rng.choice(running)] if rng.randrange(3) == 0 else []
        self.states += bool(running)
        return all(self.ends(t, i) for i in running)


# ---- runs

class Chooser:
    """Records for the model t, by chance, hardly ever one that is refused. Each run has its own habits."""

    def __init__(self, t, rng):
        self.t, self.rng, self.clock, self.until, self.burst, self.fresh = t, rng, 0, [0] * t.n, [], 100
        # who falls asleep: anybody, now and then; and at some places, often
        self.nap, self.long = rng.choice((0, 0.02, 0.1)), rng.choice((10, 40, 150))
        self.stops = rng.choice(((), (5,), (14,), (16,), (17, 18), (19,), (20, 27), (26,), (14, 16, 19, 26)))
        self.joins, self.leaves = rng.choice((0.02, 0.2)), rng.choice((0, 0.3, 1.5))
        self.few, self.fills = rng.random() < 0.3, rng.choice((0, 0, 0.02, 0.2))
        self.weights = {DEFER: rng.choice((1, 4)), FLUSH: rng.choice((1, 3)), REPIN: rng.choice((0.3, 2)), UNPIN: rng.choice((0.5, 2)), PIN: 0.2, ACQUIRE: 0.1}

    def token(self):
        self.fresh += 1
        return self.rng.randrange(3) if self.few else self.fresh

    def call(self, action, i, token):
        """the call; a defer takes the first token, from that one on, that its own bag does not hold: 16 would refuse one that it does"""
        if action == DEFER:
            held = tokens(self.t.h[64 * i:64 * i + self.t.p[21 * i + HELD]])
            while token in held:
                token += 1
        return action, i, token

    def __iter__(self):
        return self

    def __next__(self):
        t, rng = self.t, self.rng
        self.clock += 1
        if self.burst:
            return self.call(*self.burst.pop())
        if rng.random() < 0.005:
            return rng.randrange(9), rng.randrange(t.n + 1), self.token()
        here = [i for i in range(t.n) if not t.absent(i)]
        if (not here or rng.random() < self.joins) and any(t.slot_free(i) for i in range(t.n)):
            return REGISTER, 0, 0
        if not here:
            raise StopIteration
        i = rng.choice([i for i in here if self.until[i] <= self.clock] or here)
        o = t.p[21 * i:21 * i + 21]
        if self.until[i] == 0 and rng.random() < (0.5 if o[PLACE] in self.stops else self.nap):
            self.until[i] = self.clock + 1 + rng.randrange(self.long)
            return next(self)
        self.until[i] = 0
        if o[PLACE]:
            return STEP, i, 0
        if o[GUARDS] and rng.random() < self.fills:
            self.burst = [(DEFER, i, self.token()) for _ in range(max(1, 66 - o[HELD] - rng.randrange(4)))]
            return self.call(*self.burst.pop())
        calls = self.weights if o[GUARDS] else {PIN: 5, ACQUIRE: 0.1}
        calls = calls | {RELEASE: self.leaves / (3 if o[GUARDS] else 1)} if o[HANDLES] else calls
        return self.call(rng.choices(list(calls), list(calls.values()))[0], i, self.token())


def marking(records, rng):
    """the same records, but some of the steps are marked: few of them, or half, or most"""
    share = rng.choice((0.1, 0.5, 0.8))
    return ((MARKED, i, token) if action == STEP and rng.random() < share else (action, i, token) for action, i, token in records)


def defers(first, count):
    """0 retires so many tokens, each another"""
    return "".join(f" defer 0 {token};" for token in range(first, first + count))


# Runs that chance hardly finds, of so many participants and nodes. `finish I`: steps of I to the end of its operation; `to I PLACE`: until it stands
# there (docs/RANGES.md has the numbers); else a record
ONE, TWO = "register; finish 0;", "register; finish 0; register; finish 1;"
MADE = [
    # one participant retires and flushes in the epoch that it stored (docs/PROOF.md)
    (1, 6, f"{ONE} pin 0; finish 0; repin 0; finish 0; defer 0 7; flush 0; finish 0"),
    # a retirement, and flushes an epoch apart
    (1, 6, f"{ONE} pin 0; finish 0; defer 0 7;{4 * ' repin 0; finish 0; flush 0; finish 0;'}"),
    # 0 retires 7 an epoch behind 1, follows it, and advances
    (2, 6, f"{TWO} pin 0; finish 0; pin 1; finish 1; defer 0 7; flush 0; finish 0; repin 0; finish 0; flush 0; finish 0"),
    # 1 is about to pop by an old epoch when 0 seals 7 with a newer one
    (2, 6, f"{TWO} pin 0; finish 0; pin 1; to 1 17; repin 0; finish 0; flush 0; finish 0; defer 0 7; flush 0; finish 0; finish 1"),
    # 1 is about to store the next epoch when 0 pins; 0 retires 7 in the epoch before that store, and 1 follows it
    (2, 6, f"{TWO} pin 1; finish 1; repin 1; finish 1; flush 1; to 1 16; pin 0; finish 0; defer 0 7; flush 0; finish 0; finish 1; repin 1; finish 1; flush 0; finish 0"),
    # 0 is pinned an epoch back when 3 walks; 1 is deleted, and 2, before it in the list, is deleted while 3 unlinks 1
    (4, 8, f"{TWO} register; finish 2; register; finish 3; pin 2; finish 2; unpin 2; finish 2; pin 3; finish 3; repin 3; finish 3; pin 0; to 0 10; defer 3 7;"
           " flush 3; finish 3; finish 0; repin 3; finish 3; release 1; finish 1; flush 3; to 3 14; release 2; finish 2; finish 3"),
    # 0 is about to unlink 1, the first of the list, when 2 comes before it
    (3, 6, f"{TWO} pin 0; finish 0; release 1; finish 1; flush 0; to 0 14; register; finish 2; finish 0; repin 0; finish 0; flush 0; finish 0"),
    # two push at once onto one node
    (2, 6, f"{TWO} pin 0; finish 0; pin 1; finish 1; defer 0 7; defer 1 8; flush 0; to 0 26; flush 1; to 1 26; finish 0; finish 1"),
    # two pop one bag at once; then each flushes what it retired by that, and the one pops while the other pushes
    (2, 6, f"{TWO} pin 0; finish 0; repin 0; finish 0; defer 0 7; flush 0; finish 0; repin 0; finish 0; flush 0; to 0 19; pin 1; to 1 19; step 0; step 1; finish 0; finish 1;"
           " flush 0; finish 0; repin 0; finish 0; flush 1; finish 1; repin 0; finish 0; repin 1; finish 1; flush 0; to 0 20; step 0; defer 1 9; flush 1; to 1 10;"
           " finish 0; finish 1; defer 1 10; flush 1; finish 1"),
    # a 65th item
    (1, 6, f"{ONE} pin 0; finish 0;{defers(7, 65)} finish 0"),
    # the 129th pin collects, with a full bag, and pops another
    (1, 6, f"{ONE} pin 0; finish 0; repin 0; finish 0; defer 0 7; flush 0; finish 0;{defers(8, 64)}{128 * ' unpin 0; finish 0; pin 0; finish 0;'}"),
]
# the same, with marked steps: `marked I`
MADE_MARKED = [
    # 1 registers, and its first link is marked; it is pinned when 0 retires 7 and advances
    (2, 6, f"{ONE} register; step 1; step 1; marked 1; finish 1; pin 1; finish 1; pin 0; finish 0; defer 0 7;{4 * ' repin 0; finish 0; flush 0; finish 0;'}"),
    # the same registering while 0 is about to store the next epoch; 1 meets its own word pinned in the epoch before, goes, and 0 walks
    (2, 6, f"{ONE} pin 0; finish 0; repin 0; finish 0; flush 0; to 0 16; register; step 1; step 1; marked 1; finish 1; pin 1; step 1; step 1; finish 0; finish 1;"
           f" unpin 1; finish 1; release 1; finish 1; repin 0; finish 0; flush 0;{4 * ' finish 0;'}"),
]
# runs that were thought of later and are played last, so that the others stay what they were
MADE_LAST = [
    # 0 has linked its node and not moved the tail when 1 pushes
    (2, 6, f"{TWO} pin 0; finish 0; pin 1; finish 1; defer 0 7; defer 1 8; flush 0; to 0 27; flush 1; finish 1; finish 0"),
    # nine bags have expired, three of six are deleted, and 1 has not moved the tail, when 0 flushes
    (6, 16, f"{TWO}{''.join(f' register; finish {i};' for i in (2, 3, 4, 5))} pin 0; finish 0;{9 * ' defer 0 7; flush 0; finish 0;'} repin 0; finish 0; flush 0; finish 0;"
            " repin 0; finish 0; release 2; finish 2; release 3; finish 3; release 4; finish 4; pin 1; finish 1; defer 1 8; flush 1; to 1 27;"
            " defer 0 9; flush 0; finish 0; finish 1"),
]
ACTIONS = {"step": STEP, "marked": MARKED, "register": REGISTER, "release": RELEASE, "pin": PIN, "unpin": UNPIN, "repin": REPIN, "defer": DEFER, "flush": FLUSH}


def records_of(text, t):
    for line in text.strip(";").split(";"):
        verb, *numbers = line.split()
        i, k = ([int(x) for x in numbers] + [0, 0])[:2]
        if verb in ACTIONS:
            yield ACTIONS[verb], i, k
        else:
            steps = 0
            while t.p[21 * i + PLACE] != k and steps < 100:
                yield STEP, i, 0
                steps += 1


def watch(t, records, first, alone, rng=None):
    """a run from a fresh start; `first` gets the number of the record after which a clause is broken, if that is the fewest. How many there were"""
    t.start()
    watched, seen, number = Watched(t), set(), 0
    for number, record in enumerate(records, 1):
        broken = watched.play(*record)
        if "alone" not in seen and not alone.holds(t, rng):
            broken.add("alone")
        for clause in broken - seen:
            first[clause] = min(number, first.get(clause, number))
        seen |= broken
        if "never_damaged" in broken and not t.in_range():
            break
    return number


# ---- the changes: what of the model is otherwise. A step at one place; a step, and then some words; or another of the model's functions

Run = model.Run
NAMES = {OWNER: "OWNER", EPOCH: "EPOCH", LEFT: "LEFT", PRED: "PRED", CURR: "CURR", SUCC: "SUCC", OLD: "OLD", POPPED: "POPPED", NEW: "NEW", ONTO: "ONTO",
         THEN: "THEN", TOKEN: "TOKEN"}
POP = (OWNER, EPOCH, LEFT, OLD, POPPED)


def carried(o, *columns):
    return {NAMES[c]: o[c] for c in columns}


def at(place, f):
    def step(run, spare, marked):
        def as_ever():
            return Run.step(run, spare, marked)
        return f(run, run.port, run.o, as_ever) if run.o[PLACE] == place else as_ever()
    return {"step": step}


def after(place, f):
    def step(run, spare, marked):
        was = list(run.o)
        answer = Run.step(run, spare, marked)
        if was[PLACE] == place:
            f(run, run.port, was, spare)
        return answer
    return {"step": step}


def signed(gap):
    return (gap - model.WORD if gap >= model.WORD // 2 else gap) // 2


def expired(test):
    """pop next, with another test on the epoch of the pop and the seal"""
    def f(run, t, o, as_ever):
        w = t.d[3 * o[OLD]]
        if w == 0 or not test(o[EPOCH], t.d[3 * (w // 2 - 1) + 1]):
            return run.collected(o[OWNER])
        return run.on(19, POPPED=w // 2 - 1, **carried(o, OWNER, EPOCH, LEFT, OLD))
    return at(18, f)


def word(value):
    """the participant's word, after a step"""
    def f(run, t, was, spare):
        t.p[21 * run.i + WD] = value(was)
    return f


def seal(value):
    """the seal, after the step that seals"""
    def f(run, t, was, spare):
        t.d[3 * spare + 1] = value(run, t)
    return f


def found(t, o):
    """what stands in the word by which a walk came to its entry, and whether the walk wins its unlink"""
    w = t.g[1] if o[PRED] == 0 else t.p[21 * (o[PRED] // 2 - 1) + NEXT]
    return w, w == 2 * o[CURR] + 2


def lost_unlink(goes_on):
    """a walk that lost its unlink, and is not stalled, goes on with another entry"""
    def f(run, t, o, as_ever):
        w, won = found(t, o)
        return as_ever() if won or w % 2 else run.walk(o[OWNER], o[EPOCH], o[PRED], goes_on(o))
    return at(14, f)


def slot_not_retired(run, t, o, as_ever):
    if not found(t, o)[1]:
        return as_ever()
    if o[PRED] == 0:
        t.g[1] = o[SUCC]
    else:
        t.p[21 * (o[PRED] // 2 - 1) + NEXT] = o[SUCC]
    return run.walk(o[OWNER], o[EPOCH], o[PRED], o[SUCC])


def bag_kept(run, t, was, spare):
    t.p[21 * run.i + HELD] = was[HELD]


def length_kept(run, node):
    k = run.port.d[3 * node + 2]
    Run.free(run, node)
    run.port.d[3 * node + 2] = k


def head_bag_freed(run, then, w):
    if then != 2 or run.o[HELD] >= 64:
        return Run.defer(run, then, w)
    run.put(4 * w["OLD"] + 2)
    run.free(w["OLD"])
    return run.pops(w["OWNER"], w["EPOCH"], w["LEFT"] - 1)


def lost_link(run, t, o, as_ever):
    return as_ever() if t.d[3 * o[ONTO]] == 0 else run.pushed(o[THEN], carried(o, *model.GOES_ON[o[THEN]]))


def link_by_store(run, t, o, as_ever):
    t.d[3 * o[ONTO]] = 2 * o[NEW] + 2
    return run.on(27, **carried(o, THEN, NEW, ONTO, *model.GOES_ON[o[THEN]]))


def help_same_node(run, t, o, as_ever):
    if t.g[3] == 2 * o[ONTO] + 2:
        t.g[3] = 2 * o[NXT] + 2
    return run.on(24, **carried(o, THEN, NEW, ONTO, *model.GOES_ON[o[THEN]]))


def lost_exchange(place):
    """a pop that lost its exchange goes on at another place"""
    return at(19, lambda run, t, o, as_ever: as_ever() if t.g[2] == 2 * o[OLD] + 2 else run.on(place, **carried(o, *POP)))


def head_at_exchange(run, t, o, as_ever):
    if t.g[2] != 2 * o[OLD] + 2:
        return as_ever()
    t.g[2] = 2 * o[POPPED] + 2
    return run.defer(2, carried(o, *POP))


def failing(f):
    """a marked step at the link of a registering, where the value agrees"""
    def step(run, spare, marked):
        fails = marked and run.o[PLACE] == 3 and run.port.g[1] == run.o[SUCC]
        return f(run, run.port, run.o[SUCC]) if fails else Run.step(run, spare, marked)
    return {"step": step}


def marked_stores(run, t, succ):
    t.g[1] = 2 * run.i + 2
    return run.on(2, SUCC=succ)


def aside_kept(run, kind, value=0):
    total = run.port.g[4]
    answer = Run.answer(run, kind, value)
    run.port.g[4] = total + run.o[SHARE]
    return answer


class FinalizeNoNode(model.Port):
    def needs(self, o, action):
        return super().needs(o, action) - (action == RELEASE and o[HANDLES] == 1 and o[GUARDS] == 0)


class PinTooFew(model.Port):
    def needs(self, o, action):
        return super().needs(o[:HELD] + [0] + o[HELD + 1:] if action in (PIN, RELEASE, UNPIN) else o, action)


CHANGED = {
    "distance-one": expired(lambda e, s: signed((e - s) % model.WORD) >= 1),
    "unsigned-distance": expired(lambda e, s: (e - s) % model.WORD // 2 >= 2),
    "pops-ahead": expired(lambda e, s: signed((e + 2 - s) % model.WORD) >= 2),
    "own-seal": after(22, seal(lambda run, t: t.p[21 * run.i + WD] & ~1)),
    "older-seal": after(22, seal(lambda run, t: max(0, t.g[0] - 2))),
    "pinned-passed": at(13, lambda run, t, o, as_ever: run.walk(o[OWNER], o[EPOCH], 2 * o[CURR] + 2, o[SUCC])),
    "stalled-advances": at(15, lambda run, t, o, as_ever: run.on(16, **carried(o, OWNER, EPOCH))),
    "lost-unlink-skips": lost_unlink(lambda o: o[SUCC]),
    "pin-newer": after(5, word(lambda was: was[EPOCH] + 3)),
    "pin-no-word": after(5, word(lambda was: 0)),
    "unpin-keeps": after(9, word(lambda was: 1)),
    "repin-unpins": at(7, lambda run, t, o, as_ever: run.done() if o[EPOCH] == t.g[0] + 1 else run.on(8, EPOCH=t.g[0])),
    "token-dropped": {"begin": lambda run, action, token: run.done() if action == DEFER and run.o[HELD] == 64 else Run.begin(run, action, token)},
    "item-forgotten": {"pushed": lambda run, then, w: run.done() if then <= 2 else Run.pushed(run, then, w)},
    "bag-kept": after(22, bag_kept),
    "length-kept": {"free": length_kept},
    "head-bag-freed": {"defer": head_bag_freed},
    "slot-not-retired": at(14, slot_not_retired),
    "lost-link": at(26, lost_link),
    "link-by-store": at(26, link_by_store),
    "lost-exchange": lost_exchange(20),
    "head-at-exchange": at(19, head_at_exchange),
    "lost-unlink-same": lost_unlink(lambda o: 2 * o[CURR] + 2),
    "help-same-node": at(25, help_same_node),
    "lost-pop-stays": lost_exchange(19),
    "marked-stores": failing(marked_stores),
    "marked-links": failing(lambda run, t, succ: run.done(run.i)),
    "finalize-no-node": FinalizeNoNode,
    "pin-too-few": PinTooFew,
    "aside-kept": {"answer": aside_kept},
}


def tried(how, seed, records):
    """runs of so many records in all; how many there were, the clauses seen broken, each with the fewest records that broke it, and the looks at `alone`"""
    make = how if isinstance(how, type) else model.Port
    model.Run = type("Changed", (Run,), how) if isinstance(how, dict) else Run
    first, played, runs, alone = {}, 0, 0, Alone()

    def fresh(n, m):
        return make(n, m, [[0] * k for k in model.lengths(n, m)])

    for marked, made, until in ((False, MADE, records), (True, MADE_MARKED, records + records // 2), (False, MADE_LAST, 0)):
        for n, m, text in made:
            t = fresh(n, m)
            played, runs = played + watch(t, records_of(text, t), first, alone), runs + 1
        while played < until:
            rng = random.Random(f"{seed} {runs}")
            t = fresh(rng.choice((1, 2, 2, 2, 3, 3, 4)), rng.choice((3, 4, 6, 8)))
            most = min(until - played, rng.choice((150, 400, 1500)))
            chosen = islice(marking(Chooser(t, rng), rng) if marked else Chooser(t, rng), most)
            played, runs = played + watch(t, chosen, first, alone, random.Random(f"{seed} {runs} alone")), runs + 1
    model.Run = Run
    return runs, played, first, alone


def main():
    parser = argparse.ArgumentParser(description=__doc__, formatter_class=argparse.RawDescriptionHelpFormatter)
    parser.add_argument("names", nargs="*")
    parser.add_argument("--seed", type=int, default=1)
    parser.add_argument("--records", type=int, default=20000)
    options = parser.parse_args()
    known = {c.name: c for c in CHANGES}
    if unknown := [name for name in options.names if name not in known]:
        parser.error(f"no change is called {' or '.join(unknown)}; there are: {' '.join(known)}")
    as_said = True
    if not options.names:
        runs, played, first, alone = tried(None, options.seed, 20 * options.records)
        print(f"{'no change':18} {played} records, {runs} runs: {shown(first)}; alone from {alone.states} states, {alone.longest} steps at most", flush=True)
        as_said = not first
    for name in options.names or known:
        _, _, first, _ = tried(CHANGED[name], options.seed, options.records)
        said = set(known[name].breaks)
        same = said <= set(first) and bool(said) == bool(first)
        print(f"{name:18} {shown(first)}" + ("" if same else f"   NOT AS SAID: {', '.join(known[name].breaks) or 'no clause'}"), flush=True)
        as_said = as_said and same
    return 0 if as_said else 1


def shown(first):
    return ", ".join(f"{clause} ({first[clause]})" for clause in sorted(first, key=lambda c: (first[c], CLAUSES.index(c)))) or "no clause broken"


if __name__ == "__main__":
    sys.exit(main())
