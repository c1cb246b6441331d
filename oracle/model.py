"""A second implementation of the port, in Python, on the same five lists of words: the public calls with every refusal, from documents 01 and 02 and
docs/RANGES.md. It shares nothing with the proved code and nothing with the Rust, and can be asked what the code must do with damaged lists,
which the Rust cannot. `check.py` holds it to the recorded answers; `hurt.py`, `limits.py` and `report.py` write with it what programs must write."""

WORD = 1 << 64
MORE, DONE, REFUSED = 0, 1, 2
STEP, REGISTER, ACQUIRE, RELEASE, PIN, UNPIN, REPIN, DEFER, FLUSH, MARKED = range(10)
# columns of a participant's row
WD, NEXT, GUARDS, HANDLES, PINS, HELD, SHARE, PLACE, THEN, OWNER, EPOCH, LEFT, PRED, CURR, SUCC, OLD, POPPED, NEW, ONTO, NXT, TOKEN = range(21)
# what each place carries, beside what a push goes on with
CARRIES = {2: (SUCC,), 3: (SUCC,), 4: (OWNER,), 5: (OWNER, EPOCH), 7: (EPOCH,), 8: (EPOCH,), 10: (OWNER,), 11: (OWNER, EPOCH),
           12: (OWNER, EPOCH, PRED, CURR), 13: (OWNER, EPOCH, CURR, SUCC), 14: (OWNER, EPOCH, PRED, CURR, SUCC), 15: (OWNER, EPOCH),
           16: (OWNER, EPOCH), 17: (OWNER, EPOCH, LEFT), 18: (OWNER, EPOCH, LEFT, OLD), 19: (OWNER, EPOCH, LEFT, OLD, POPPED),
           20: (OWNER, EPOCH, LEFT, OLD, POPPED), 21: (OWNER, EPOCH, LEFT, OLD, POPPED), 22: (THEN,), 23: (THEN, NEW), 24: (THEN, NEW, ONTO),
           25: (THEN, NEW, ONTO, NXT), 26: (THEN, NEW, ONTO), 27: (THEN, NEW, ONTO)}
GOES_ON = {0: (TOKEN,), 1: (OWNER, EPOCH, PRED, CURR, SUCC), 2: (OWNER, EPOCH, LEFT, OLD, POPPED), 3: (), 4: ()}


def words(n):
    return (n + 63) // 64


def whole(r):
    """Whether a record of the schedule program is one: document 01's actions 0 to 8, and 9, a marked step (document 02, No. 2). 13 where it is not."""
    return len(r) == 8 and r[0] <= MARKED and r[2] == r[3] == 0 and (r[0] == DEFER or not any(r[4:])) and (r[0] != REGISTER or r[1] == 0)


def lengths(n, m):
    return [5 + words(n) + words(m), 21 * n, 3 * m, 64 * n, 64 * m]


class Port:
    """The lists `g` (globals), `p` (participants), `d` (nodes), `h` (held), `q` (queued), for n participants and m nodes."""

    def __init__(self, n, m, lists):
        self.n, self.m = n, m
        self.g, self.p, self.d, self.h, self.q = lists

    def lists(self):
        return [self.g, self.p, self.d, self.h, self.q]

    # ---- refusals

    def sized(self):
        return 1 <= self.n <= 32 and 2 <= self.m <= 128 and [len(x) for x in self.lists()] == lengths(self.n, self.m)

    def item_in(self, w):
        v, kind = divmod(w, 4)
        return (kind == 1 and v <= 2147483647) or (kind == 2 and v < self.m) or (kind == 3 and v < self.n)

    def column_in(self, c, v):
        if c == EPOCH:
            return True
        if c in (PRED, SUCC):
            return v % 2 == 0 and v <= 2 * self.n
        if c == LEFT:
            return 1 <= v <= 8
        if c == TOKEN:
            return v <= 2147483647
        return v < {THEN: 5, OWNER: 3, CURR: self.n}.get(c, self.m)

    def row_in(self, i):
        row = self.p[21 * i:21 * i + 21]
        if row[NEXT] > 2 * self.n + 1 or row[GUARDS] > 65535 or row[HANDLES] > 65535 or row[HELD] > 64 or row[SHARE] > self.g[4]:
            return False
        if row[PLACE] > 29 or (row[PLACE] == 0 and row[SHARE] != 0):
            return False
        carried = CARRIES.get(row[PLACE], ())
        if THEN in carried:
            carried = carried + GOES_ON.get(row[THEN], ())
        for c in range(THEN, 21):
            if not self.column_in(c, row[c]) if c in carried else row[c] != 0:
                return False
        return all(self.item_in(w) for w in self.h[64 * i:64 * i + row[HELD]])

    def node_in(self, i):
        nxt, _, k = self.d[3 * i:3 * i + 3]
        return nxt % 2 == 0 and nxt <= 2 * self.m and k <= 64 and all(self.item_in(w) for w in self.q[64 * i:64 * i + k])

    def in_range(self):
        g = self.g
        if g[1] % 2 or g[1] > 2 * self.n or g[4] > self.m:
            return False
        if any(w % 2 or w < 2 or w > 2 * self.m for w in g[2:4]):
            return False
        if self.bits(5, words(self.n)) >> self.n or self.bits(5 + words(self.n), words(self.m)) >> self.m:
            return False
        return all(self.row_in(i) for i in range(self.n)) and all(self.node_in(i) for i in range(self.m))

    def bits(self, at, k):
        return sum(w << (64 * j) for j, w in enumerate(self.g[at:at + k]))

    def slot_free(self, i):
        return self.g[5 + i // 64] >> (i % 64) & 1

    def nodes_free(self):
        b = self.bits(5 + words(self.n), words(self.m))
        return [i for i in range(self.m) if b >> i & 1]

    def mark(self, at, i, free):
        w = self.g[at + i // 64]
        self.g[at + i // 64] = w | 1 << i % 64 if free else w & ~(1 << i % 64)

    def mark_slot(self, i, free):
        self.mark(5, i, free)

    def mark_node(self, i, free):
        self.mark(5 + words(self.n), i, free)

    def absent(self, i):
        return i >= self.n or self.slot_free(i) or (self.p[21 * i + NEXT] % 2 == 1 and self.p[21 * i + PLACE] == 0)

    # ---- public calls: kind of answer, value, freed tokens

    def start(self):
        if not self.sized():
            return REFUSED, 2, []
        for l in self.lists():
            l[:] = [0] * len(l)
        self.g[2] = self.g[3] = 2
        for i in range(self.n):
            self.mark_slot(i, True)
        for i in range(1, self.m):
            self.mark_node(i, True)
        return DONE, 0, []

    def register(self):
        if not self.sized():
            return REFUSED, 2, []
        if not self.in_range():
            return REFUSED, 1, []
        free = [i for i in range(self.n) if self.slot_free(i)]
        if not free:
            return REFUSED, 10, []
        i = free[0]
        self.mark_slot(i, False)
        self.p[21 * i:21 * i + 21] = [0] * 21
        self.p[21 * i + HANDLES], self.p[21 * i + PLACE] = 1, 1
        return MORE, 0, []

    def overflow(self, k):
        return (k + self.n + 7) // 64

    def needs(self, o, action):
        pin = self.overflow(o[HELD]) if o[PINS] % 128 == 0 else 0
        if action == PIN:
            return pin if o[GUARDS] == 0 else 0
        if action == RELEASE:
            return 1 + pin if o[HANDLES] == 1 and o[GUARDS] == 0 else 0
        if action == UNPIN:
            return 1 + pin if o[GUARDS] == 1 and o[HANDLES] == 0 else 0
        if action == DEFER:
            return int(o[HELD] == 64)
        if action == FLUSH:
            return int(o[HELD] >= 1) + self.overflow(0)
        return 0

    def call(self, i, action, token=0):
        if not self.sized():
            return REFUSED, 2, []
        if not self.in_range():
            return REFUSED, 1, []
        if self.absent(i):
            return REFUSED, 3, []
        o = self.p[21 * i:21 * i + 21]
        if o[PLACE] != 0:
            return REFUSED, 4, []
        if action in (ACQUIRE, RELEASE, PIN):
            if o[HANDLES] == 0:
                return REFUSED, 7, []
        elif o[GUARDS] == 0:
            return REFUSED, 6, []
        if (action == ACQUIRE and o[HANDLES] >= 65535) or (action == PIN and o[GUARDS] >= 65535):
            return REFUSED, 8, []
        if action == DEFER and token > 2147483647:
            return REFUSED, 9, []
        if action == DEFER and 4 * token + 1 in self.h[64 * i:64 * i + o[HELD]]:
            return REFUSED, 16, []
        need = self.needs(o, action)
        if len(self.nodes_free()) - self.g[4] < need:
            return REFUSED, 11, []
        run = Run(self, i, o)
        run.o[SHARE] = need
        return run.begin(action, token)

    def step(self, i, places, marked=False):
        if not self.sized():
            return REFUSED, 2, []
        if not self.in_range():
            return REFUSED, 1, []
        if places < 64:
            return REFUSED, 12, []
        if self.absent(i):
            return REFUSED, 3, []
        o = self.p[21 * i:21 * i + 21]
        if o[PLACE] == 0:
            return REFUSED, 5, []
        free = self.nodes_free()
        if o[PLACE] == 22 and (not free or o[SHARE] == 0):
            return REFUSED, 1, []
        return Run(self, i, o).step(free[0] if free else self.m, marked)

    def report(self, i):
        """State, guards, handles, items held, distance of the global epoch from the word (epoch.rs, `wrapping_sub`)."""
        o = self.p[21 * i:21 * i + 21]
        if self.slot_free(i):
            return 0, 0, 0, 0, 0
        if o[NEXT] % 2 == 1:
            return 3, 0, 0, 0, 0
        gap = (self.g[0] - (o[WD] - o[WD] % 2)) % WORD
        return 1 if o[PLACE] in (1, 2, 3) else 2, o[GUARDS], o[HANDLES], o[HELD], (gap - WORD if 2 * gap >= WORD else gap) // 2

    def survey(self, places):
        if not self.sized() or places != self.n:
            return REFUSED, 2, []
        if not self.in_range():
            return REFUSED, 1, []
        return DONE, 0, [self.report(i) for i in range(self.n)]

    def act(self, action, i, token, places=64):
        if action in (STEP, MARKED):
            return self.step(i, places, action == MARKED)
        if action == REGISTER:
            return self.register()
        return self.call(i, action, token)


class Run:
    """A call or a step that nothing refuses: participant i, whose row `o` is put back at the end."""

    def __init__(self, port, i, o):
        self.port, self.i, self.o, self.was, self.freed = port, i, list(o), o[SHARE], []

    def answer(self, kind, value=0):
        t, o = self.port, self.o
        o[WD], o[NEXT] = t.p[21 * self.i:21 * self.i + 2]
        t.p[21 * self.i:21 * self.i + 21] = o
        t.g[4] = t.g[4] - self.was + o[SHARE]
        return kind, value, self.freed

    def on(self, place, **carried):
        self.o[THEN:21] = [0] * 13
        self.o[PLACE] = place
        for name, value in carried.items():
            self.o[globals()[name]] = value
        return self.answer(MORE)

    def done(self, value=0):
        self.o[PLACE:21] = [0] * 14
        self.o[SHARE] = 0
        return self.answer(DONE, value)

    def finalize(self):
        self.o[GUARDS] = self.o[HANDLES] = 1
        return self.on(4, OWNER=2)

    def collected(self, owner):
        return self.on(22, THEN=4) if owner == 2 else self.done()

    def pops(self, owner, epoch, left):
        return self.collected(owner) if left == 0 else self.on(17, OWNER=owner, EPOCH=epoch, LEFT=left)

    def walk(self, owner, epoch, pred, curr):
        if curr == 0:
            return self.on(16, OWNER=owner, EPOCH=epoch)
        return self.on(12, OWNER=owner, EPOCH=epoch, PRED=pred, CURR=curr // 2 - 1)

    def put(self, item):
        """Puts an item into the own bag; gives the places left (document 02, No. 9)."""
        self.port.h[64 * self.i + self.o[HELD]] = item
        self.o[HELD] += 1
        return 64 - self.o[HELD]

    def free(self, node):
        t = self.port
        for w in t.q[64 * node:64 * node + t.d[3 * node + 2]]:
            v, kind = divmod(w, 4)
            if kind == 1:
                self.freed.append(v)
            elif kind == 2:
                t.mark_node(v, True)
            else:
                t.mark_slot(v, True)
        t.d[3 * node + 2] = 0

    # `Local::defer` of a token, of an unlinked slot, of an old head; w: the carried columns
    def defer(self, then, w):
        if self.o[HELD] >= 64:
            return self.on(22, THEN=then, **w)
        if then == 0:
            return self.done(self.put(4 * w["TOKEN"] + 1))
        if then == 1:
            self.put(4 * w["CURR"] + 3)
            return self.walk(w["OWNER"], w["EPOCH"], w["PRED"], w["SUCC"])
        self.put(4 * w["OLD"] + 2)
        self.free(w["POPPED"])
        return self.pops(w["OWNER"], w["EPOCH"], w["LEFT"] - 1)

    def pushed(self, then, w):
        if then <= 2:
            return self.defer(then, w)
        if then == 3:
            return self.on(10, OWNER=1)
        self.o[GUARDS] = 0
        return self.on(28)

    def begin(self, action, token):
        o = self.o
        if action == ACQUIRE:
            o[HANDLES] += 1
            return self.done()
        if action == RELEASE:
            if o[HANDLES] == 1 and o[GUARDS] == 0:
                return self.finalize()
            o[HANDLES] -= 1
            return self.done()
        if action == PIN:
            o[GUARDS] += 1
            return self.on(4, OWNER=0) if o[GUARDS] == 1 else self.done()
        if action == UNPIN:
            o[GUARDS] -= 1
            return self.on(9) if o[GUARDS] == 0 else self.done()
        if action == REPIN:
            return self.on(6) if o[GUARDS] == 1 else self.done()
        if action == DEFER:
            return self.defer(0, {"TOKEN": token})
        return self.on(22, THEN=3) if o[HELD] >= 1 else self.on(10, OWNER=1)

    def step(self, spare, marked=False):
        t, o, me = self.port, self.o, 21 * self.i
        g, p, d, place = t.g, t.p, t.d, o[PLACE]
        owner, epoch, left, pred, curr, succ = o[OWNER], o[EPOCH], o[LEFT], o[PRED], o[CURR], o[SUCC]
        old, popped, new, onto = o[OLD], o[POPPED], o[NEW], o[ONTO]
        if place == 1:
            return self.on(2, SUCC=g[1])
        if place == 2:
            p[me + NEXT] = succ
            return self.on(3, SUCC=succ)
        if place == 3:
            # `compare_exchange_weak`, the only one: in a marked step it fails although the value agrees
            if g[1] == succ and not marked:
                g[1] = 2 * self.i + 2
                return self.done(self.i)
            return self.on(2, SUCC=g[1])
        if place == 4:
            return self.on(5, OWNER=owner, EPOCH=g[0])
        if place == 5:
            p[me + WD] = epoch - epoch % 2 + 1
            pins = o[PINS]
            o[PINS] = (pins + 1) % WORD
            return self.on(10, OWNER=owner) if pins % 128 == 0 else self.collected(owner)
        if place == 6:
            return self.on(7, EPOCH=p[me + WD])
        if place == 7:
            pinned = g[0] - g[0] % 2 + 1
            return self.done() if epoch == pinned else self.on(8, EPOCH=pinned)
        if place == 8:
            p[me + WD] = epoch
            return self.done()
        if place == 9:
            p[me + WD] = 0
            return self.finalize() if o[HANDLES] == 0 else self.done()
        if place == 10:
            return self.on(11, OWNER=owner, EPOCH=g[0])
        if place == 11:
            return self.walk(owner, epoch, 0, g[1])
        if place == 12:
            w = p[21 * curr + NEXT]
            if w % 2:
                return self.on(14, OWNER=owner, EPOCH=epoch, PRED=pred, CURR=curr, SUCC=w - 1)
            return self.on(13, OWNER=owner, EPOCH=epoch, CURR=curr, SUCC=w)
        if place == 13:
            w = p[21 * curr + WD]
            if w % 2 and w - 1 != epoch:
                return self.pops(owner, epoch, 8)
            return self.walk(owner, epoch, 2 * curr + 2, succ)
        if place == 14:
            at = (g, 1) if pred == 0 else (p, 21 * (pred // 2 - 1) + NEXT)
            w = at[0][at[1]]
            if w == 2 * curr + 2:
                at[0][at[1]] = succ
                return self.defer(1, {"OWNER": owner, "EPOCH": epoch, "PRED": pred, "CURR": curr, "SUCC": succ})
            return self.on(15, OWNER=owner, EPOCH=epoch) if w % 2 else self.walk(owner, epoch, pred, w)
        if place == 15:
            return self.pops(owner, epoch, 8)
        if place == 16:
            g[0] = (epoch + 2) % WORD
            return self.pops(owner, g[0], 8)
        if place == 17:
            return self.on(18, OWNER=owner, EPOCH=epoch, LEFT=left, OLD=g[2] // 2 - 1)
        if place == 18:
            w = d[3 * old]
            if w == 0:
                return self.collected(owner)
            gap = (epoch - (d[3 * (w // 2 - 1) + 1] & ~1)) % WORD
            gap = gap - WORD if gap >= WORD // 2 else gap
            if gap // 2 < 2:
                return self.collected(owner)
            return self.on(19, OWNER=owner, EPOCH=epoch, LEFT=left, OLD=old, POPPED=w // 2 - 1)
        if place == 19:
            if g[2] == 2 * old + 2:
                g[2] = 2 * popped + 2
                return self.on(20, OWNER=owner, EPOCH=epoch, LEFT=left, OLD=old, POPPED=popped)
            return self.on(17, OWNER=owner, EPOCH=epoch, LEFT=left)
        if place in (20, 21):
            w = {"OWNER": owner, "EPOCH": epoch, "LEFT": left, "OLD": old, "POPPED": popped}
            if g[3] == 2 * old + 2:
                if place == 20:
                    return self.on(21, **w)
                g[3] = 2 * popped + 2
            return self.defer(2, w)
        if place == 28:
            p[me + WD] = 0
            o[HANDLES] = 0
            return self.on(29)
        if place == 29:
            p[me + NEXT] |= 1
            return self.done()
        return self.push(spare)

    def push(self, spare):
        t, o, place = self.port, self.o, self.o[PLACE]
        g, d, then, new, onto = t.g, t.d, o[THEN], o[NEW], o[ONTO]
        names = {TOKEN: "TOKEN", OWNER: "OWNER", EPOCH: "EPOCH", PRED: "PRED", CURR: "CURR", SUCC: "SUCC", LEFT: "LEFT", OLD: "OLD", POPPED: "POPPED"}
        w = {names[c]: o[c] for c in GOES_ON[then]}
        if place == 22:
            k = o[HELD]
            d[3 * spare:3 * spare + 3] = [0, g[0], k]
            t.q[64 * spare:64 * spare + k] = t.h[64 * self.i:64 * self.i + k]
            t.mark_node(spare, False)
            o[HELD] = 0
            o[SHARE] -= 1
            return self.on(23, THEN=then, NEW=spare, **w)
        if place == 23:
            return self.on(24, THEN=then, NEW=new, ONTO=g[3] // 2 - 1, **w)
        if place == 24:
            nxt = d[3 * onto]
            if nxt == 0:
                return self.on(26, THEN=then, NEW=new, ONTO=onto, **w)
            return self.on(25, THEN=then, NEW=new, ONTO=onto, NXT=nxt // 2 - 1, **w)
        if place == 25:
            if g[3] == 2 * onto + 2:
                g[3] = 2 * o[NXT] + 2
            return self.on(23, THEN=then, NEW=new, **w)
        if place == 26:
            if d[3 * onto] == 0:
                d[3 * onto] = 2 * new + 2
                return self.on(27, THEN=then, NEW=new, ONTO=onto, **w)
            return self.on(23, THEN=then, NEW=new, **w)
        if g[3] == 2 * onto + 2:
            g[3] = 2 * new + 2
        return self.pushed(then, w)
