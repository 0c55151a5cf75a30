"""Step streams for the program, from a kind and a seed.

    python3 streams.py make KIND SEED > steps     one stream
    python3 streams.py kinds                      the kinds
    python3 streams.py count SEEDS                SEEDS seeds of every kind:
                                                  results by call, as printed

The maker follows the model, so that most steps are accepted and the rarer
results are sought: of a few possible steps it takes the one whose result it
has had least often.
"""

import random
import sys
from collections import Counter

import reelwalk
import store

SIZES = [(1, 1), (1, 2), (2, 1), (2, 2), (3, 2), (5, 1), (6, 3), (8, 4),
         (16, 16), (40, 7), (255, 15), (256, 1), (1, 16), (256, 16)]
LAY, BEGIN, READ, WRITE, FINISH, PUBLISH, SETTLE, RECLAIM, ABANDON, CUT = range(10)

# How much a result is sought; refusals are to stay the smaller part.
WORTH = {"no": 0.12, "write no 7": 0.4, "write no 8": 0.6, "write no 9": 0.6, "wait": 0.5,
         "none": 0.3, "empty": 0.5, "abandon ok": 0.4}


class Maker:
    """Collects the bytes of a stream and follows them with the program."""

    def __init__(self, rng, n, m, hot=0.5, cut=0.01, stray=0.05):
        self.rng, self.n, self.m = rng, n, m
        self.hot, self.cut, self.stray = hot, cut, stray
        self.bytes, self.walk, self.had = bytearray(), reelwalk.Walk(), Counter()
        self.busy = [rng.randrange(n) for _ in range(1 + n // 8)]
        self.do(LAY, n % 256, m)

    def do(self, kind, *body):
        """Adds one step and runs it."""
        self.bytes += bytes([kind, *body])
        return self.walk.step(kind, bytes(body))

    def phase(self, session):
        return self.walk.desk["sessions"][session]["phase"]

    # steps of every kind, with words or a cut count chosen

    def words(self):
        """Four words as bytes: small ones, full ones, equal ones."""
        way = self.rng.randrange(4)
        if way == 0:
            return bytes([self.rng.randrange(1, 9)] + [0] * 31)
        if way == 1:
            return bytes([255] * 32)
        if way == 2:
            return bytes(32)
        return self.rng.randbytes(32)

    def some_record(self, session, kind):
        """A busy record, any record, or one that a session copies."""
        held = [r for r, mark in enumerate(self.walk.desk["marks"]) if mark is not None]
        if kind == READ and held and self.rng.random() < 0.5:
            return self.rng.choice(held)
        mine = [r for r in held if self.walk.desk["marks"][r] == session]
        if kind == WRITE and mine and self.rng.random() < 0.15:
            return self.rng.choice(mine)
        if self.rng.random() < self.hot:
            return self.rng.choice(self.busy)
        return self.rng.randrange(self.n)

    def some_step(self):
        """A random step that mostly suits the session's phase."""
        rng = self.rng
        session = rng.randrange(self.m)
        suits = {"idle": [BEGIN] * 5 + [RECLAIM], "sealed": [PUBLISH] * 7 + [RECLAIM],
                 "active": [READ] * 6 + [WRITE] * 9 + [FINISH] * 3 + [RECLAIM, ABANDON],
                 "published": [SETTLE] * 7 + [RECLAIM]}
        kind = rng.choice(suits[self.phase(session)])
        if rng.random() < self.stray:
            kind = rng.choice([BEGIN, READ, WRITE, FINISH, PUBLISH, SETTLE, RECLAIM, ABANDON])
        record = self.some_record(session, kind)
        if rng.random() < self.stray / 4:
            session = rng.choice([self.m, 16, 17, 255, rng.randrange(256)])
        if rng.random() < self.stray / 4:
            record = rng.choice([self.n % 256, 255, rng.randrange(256)])
        return self.body(kind, session, record)

    def body(self, kind, session, record):
        if kind == READ:
            return [kind, session, record]
        if kind == WRITE:
            return [kind, session, record, *self.words()]
        return [kind, session]

    def foreseen(self, step):
        """The call with the result that the step would have."""
        walk = reelwalk.Walk()
        walk.image, walk.desk, walk.steps = self.walk.image, self.walk.desk, 1
        return label(walk.step(step[0], bytes(step[1:]))[0])

    def sought(self, tries=4):
        """Of a few steps the one with the rarest result so far, by worth."""
        best = None
        for _ in range(tries):
            step = self.some_step()
            name = self.foreseen(step)
            worth = WORTH.get(name, WORTH.get(name.split()[1], 1))
            score = self.had[name] / worth
            if best is None or score < best[0]:
                best = (score, step, name)
        self.had[best[2]] += 1
        self.do(*best[1])

    def go(self, steps):
        """A run of sought steps with a cut here and there."""
        for _ in range(steps):
            if self.rng.random() < self.cut:
                self.do(CUT, self.rng.choice([0, 1, 2, 3, 255, self.rng.randrange(27)]))
            elif self.rng.random() < 0.3:
                self.do(*self.some_step())
            else:
                self.sought()

    # set pieces

    def look(self, session, records):
        """Reads records in a transaction of their own."""
        self.do(BEGIN, session)
        for record in records:
            self.do(READ, session, record)
        self.do(FINISH, session)

    def wrote(self, session, records):
        """An active transaction with these records written."""
        self.do(BEGIN, session)
        for record in records:
            self.do(*self.body(WRITE, session, record))

    def to_phase(self, session, records, goal):
        """Brings an idle session's transaction up to a goal."""
        self.wrote(session, records)
        for name, kind in [("sealed", FINISH), ("published", PUBLISH), ("settled", SETTLE)]:
            if goal == "active":
                return
            self.do(kind, session)
            if goal == name:
                return


def label(line):
    """Call and result of a printed line without its numbers: "write no 7"."""
    fields = line.split(" ")[1:]
    kept = [f for i, f in enumerate(fields) if not f.isdigit() or fields[i - 1] == "no"]
    return " ".join(kept)


# ---- kinds ---------------------------------------------------------------

def run_of(rng, steps, n, m, **options):
    """A store of this size, and a run of so many steps on it."""
    maker = Maker(rng, n, m, **options)
    maker.go(steps)
    return maker.bytes


def mix(rng):
    """Any size, everything in proportion."""
    return run_of(rng, 400, *rng.choice(SIZES), hot=rng.choice([0, 0.3, 0.8]))


def hot(rng):
    """Few records, many sessions: conflicts and waits."""
    return run_of(rng, 400, rng.choice([1, 2, 3, 6]), rng.choice([2, 3, 8, 16]), hot=0.9)


def cold(rng):
    """Many records, few conflicts; no stray steps."""
    return run_of(rng, 400, 256, rng.choice([1, 4, 16]), hot=0.05, stray=0.0)


def small(rng):
    """One record and one session, and the sizes next to it."""
    return run_of(rng, 300, *rng.choice([(1, 1), (1, 2), (2, 1), (5, 1), (1, 16)]))


def large(rng):
    """N 256, M 16."""
    return run_of(rng, 600, 256, 16, hot=0.4)


def long(rng):
    """Thousands of steps, few cuts."""
    return run_of(rng, 4000, *rng.choice([(4, 2), (9, 3), (32, 8), (256, 16)]), cut=0.0005)


def stray(rng):
    """Many refusals: sessions and records out of range, wrong phases."""
    return run_of(rng, 300, *rng.choice(SIZES), stray=0.5)


def restless(rng):
    """A cut every few steps, in any call, also two before one cut."""
    return run_of(rng, 400, *rng.choice([(1, 1), (6, 3), (12, 4), (256, 16)]), cut=0.12)


def with_others(maker, rng, taken):
    """Leaves logs of the sessions from 1 up in several states."""
    free = [r for r in range(maker.n) if r not in taken]
    rng.shuffle(free)
    for session in range(1, maker.m):
        mine = [free.pop() for _ in range(min(len(free), rng.randrange(1, 4)))]
        if mine and rng.random() < 0.7:
            maker.to_phase(session, mine, rng.choice(["active", "sealed", "published", "settled"]))


def cuts_finish(rng):
    """Finish of 1 to 4 copies, cut at every count of entries."""
    maker = Maker(rng, rng.choice([4, 20, 256]), rng.choice([1, 4, 16]))
    for copies in (1, 2, 3, 4):
        for k in range(5 * copies + 6):
            records = rng.sample(range(maker.n), copies)
            with_others(maker, rng, records)
            maker.wrote(0, records)
            maker.do(CUT, k)
            maker.do(FINISH, 0)
            maker.look(0, records)
    return maker.bytes


def cuts_settle(rng):
    """Settle of 1 to 4 copies, cut at every count of entries."""
    maker = Maker(rng, rng.choice([4, 20, 256]), rng.choice([1, 4, 16]))
    for copies in (1, 2, 3, 4):
        for k in range(4 * copies + 3):
            records = rng.sample(range(maker.n), copies)
            maker.to_phase(0, records, "published")
            with_others(maker, rng, records)
            maker.do(CUT, k)
            maker.do(SETTLE, 0)
            maker.look(0, records)
    return maker.bytes


def cuts_reclaim(rng):
    """Reclaim cut at every count of entries, with an older or newer log too."""
    maker = Maker(rng, rng.choice([8, 20, 256]), rng.choice([2, 4, 16]))
    for k in list(range(5)) * 6:
        records = rng.sample(range(maker.n), 2)
        maker.to_phase(0, records, "settled")
        if rng.random() < 0.5:
            maker.to_phase(0, records, rng.choice(["active", "sealed", "settled"]))
        with_others(maker, rng, records)
        maker.do(CUT, k)
        maker.do(RECLAIM, 0)
        maker.look(0, records)
    return maker.bytes


def cuts_publish(rng):
    """Publish of 1 to 4 copies under a cut of any count, with no entries, or refused: the desk is lost."""
    maker = Maker(rng, rng.choice([8, 20, 256]), rng.choice([2, 4, 16]))
    for k in [0, 1, 2, 3, 255] * 6:
        records = rng.sample(range(maker.n), rng.randrange(1, 5))
        goal = rng.choice(["sealed", "sealed", "sealed", "active", "published"])  # the last two are refused
        maker.to_phase(0, records, goal)
        with_others(maker, rng, records)
        maker.do(CUT, k)
        if rng.random() < 0.5:
            maker.do(READ, 0, records[0])  # the cut waits
        maker.do(PUBLISH, 0 if rng.random() < 0.9 else maker.m)
        maker.look(0, records)
    return maker.bytes


def cuts_idle(rng):
    """Cuts that meet a refusal, an answer without entries, or another cut."""
    maker = Maker(rng, 6, 3)
    for _ in range(40):
        maker.go(rng.randrange(8))
        maker.do(CUT, rng.randrange(30))
        if rng.random() < 0.3:
            maker.do(CUT, rng.randrange(30))
        session = rng.choice([0, 1, 2, 3, 255])
        maker.do(rng.choice([BEGIN, ABANDON]), session)
        maker.do(rng.choice([FINISH, PUBLISH, SETTLE, RECLAIM]), session)
    if rng.random() < 0.5:
        maker.do(CUT, 1)  # input may end with a cut pending
    return maker.bytes


def every_answer(rng):
    """A set piece through each result and refusal that a stream reaches."""
    maker = Maker(rng, 8, 4)
    for _ in range(6):
        a, b, c, d = rng.sample(range(4), 4)
        r = rng.sample(range(8), 8)
        maker.do(ABANDON, a)                         # no 6
        maker.do(READ, 4, 8)                         # no 4
        maker.do(READ, a, 8)                         # no 5
        maker.do(BEGIN, b)                           # an old reader
        maker.wrote(a, r[:4])
        maker.do(*maker.body(WRITE, a, r[4]))        # no 8
        maker.do(*maker.body(WRITE, a, r[0]))        # overwritten
        maker.do(READ, a, r[0])                      # own
        maker.do(FINISH, a)
        maker.do(READ, b, r[0])                      # home, holder sealed
        maker.do(PUBLISH, a)
        maker.do(READ, b, r[0])                      # home, end above start
        maker.do(BEGIN, c)
        maker.do(READ, c, r[0])                      # copy
        maker.do(*maker.body(WRITE, c, r[0]))        # no 7
        maker.do(SETTLE, a)                          # wait
        maker.do(FINISH, b)                          # empty
        maker.do(SETTLE, a)
        maker.to_phase(d, [r[5]], "settled")
        maker.do(RECLAIM, d)                         # held
        maker.to_phase(a, [r[6]], "settled")
        maker.wrote(a, [r[7]])                       # no 9
        maker.do(ABANDON, a)
        maker.do(RECLAIM, a)                         # cleared
        maker.do(RECLAIM, d)                         # cleared
        maker.do(RECLAIM, a)                         # cleared
        maker.do(RECLAIM, a)                         # none
    return maker.bytes


def readers(rng):
    """Readers begin before each of several writers, the highest first or in any order; settle names them
    one by one, and each one named goes."""
    maker = Maker(rng, rng.choice([32, 256]), rng.choice([8, 16]))
    while maker.walk.steps < 400:
        idle = [s for s in range(maker.m) if maker.phase(s) == "idle"]
        free = [r for r in range(maker.n) if maker.walk.desk["marks"][r] is None]
        rng.shuffle(idle)
        rng.shuffle(free)
        several = rng.randrange(3, max(4, 1 + len(idle) // 2))
        writers, others, order = idle[:several], idle[several:], []
        if rng.random() < 0.5:
            others.sort()
        for writer in writers:
            order += [others.pop() for _ in range(min(len(others), rng.randrange(1, 3)))] + [writer]
        for session in order + others:
            if session in writers:
                maker.to_phase(session, [free.pop() for _ in range(rng.randrange(1, 3))], "published")
            else:
                maker.wrote(session, [free.pop()] if rng.random() < 0.2 else [])
                maker.do(READ, session, maker.some_record(session, READ))
        for session in settled(maker, rng, writers):
            maker.do(RECLAIM, session)
    return maker.bytes


def settled(maker, rng, writers):
    """Settles these published sessions, again and again. In between the reader that was named finishes or
    abandons; where it is sealed then, it is settled too. Returns all of them in sealing order."""
    order, left = list(writers), list(writers)
    while left:
        named = None
        for session in rng.sample(left, len(left)):
            line = maker.do(PUBLISH if maker.phase(session) == "sealed" else SETTLE, session)[0].split(" ")
            if line[-1] == "ok":
                left.remove(session)
            elif line[-2] == "wait":
                named = int(line[-1])
        if named is not None:
            maker.do(READ, named, maker.some_record(named, READ))
            maker.do(rng.choice([FINISH, ABANDON]), named)
            if maker.phase(named) == "sealed":
                left.append(named)
                order.append(named)
    return order


def openings(rng):
    """Many openings with a few transactions each: a finish, publish, settle or reclaim cut at any count."""
    maker = Maker(rng, *rng.choice([(1, 1), (4, 2), (12, 3), (40, 16)]), cut=0.0)
    ready = {FINISH: "active", PUBLISH: "sealed", SETTLE: "published", RECLAIM: "settled"}
    while maker.walk.steps < 500:
        session, kind = rng.randrange(maker.m), rng.choice(list(ready))
        records = rng.sample(range(maker.n), min(maker.n, rng.randrange(1, 5)))
        if rng.random() < 0.8:  # it has entries, or is a publish
            maker.to_phase(session, records, ready[kind])
        maker.go(rng.choice([0, 2, 8]))
        maker.do(CUT, rng.choice([0, 1, 2, 3, 255, rng.randrange(26)]))
        if rng.random() < 0.2:
            maker.do(BEGIN, rng.randrange(maker.m))  # its start is used up
        maker.do(kind, session if rng.random() < 0.9 else maker.m)
        maker.look(rng.randrange(maker.m), records)
    return maker.bytes


def passed(maker, rng, transactions):
    """So many transactions from begin to reclaim, one after the other, by sessions 0 and 1."""
    for _ in range(transactions):
        session = rng.randrange(2)
        maker.to_phase(session, [rng.randrange(maker.n)], "settled")
        maker.do(RECLAIM, session)


CEILING_WAYS = 4


def ceiling(rng, way=None):
    """The 1,025th publish of an opening raises word 3: cut with 0, 1 or 2 entries arrived, or not cut."""
    way = rng.randrange(CEILING_WAYS) if way is None else way
    maker = Maker(rng, rng.choice([2, 3, 5]), 4, cut=0.03)
    one, other = rng.sample(range(maker.n), 2)
    passed(maker, rng, 1023)
    maker.do(BEGIN, 2)
    maker.to_phase(0, [one], "published")  # its end is word 3
    maker.do(BEGIN, 3)
    maker.to_phase(1, [other], "sealed")
    if way < 3:
        maker.do(CUT, way)
    maker.do(PUBLISH, 1)                   # its end is above word 3
    if way == 3:
        over_the_raise(maker, one, other)
        maker.go(40)
        maker.do(CUT, rng.randrange(3))
        maker.do(RECLAIM, 0)
    maker.look(0, [one, other])
    maker.go(80)
    return maker.bytes


def over_the_raise(maker, one, other):
    """Readers that began before the raise, and one that begins after it; sessions 0 and 1 wait for them."""
    for reader in (2, 3, 2):
        for record in (one, other):
            maker.do(READ, reader, record)
        for writer in (0, 1):
            maker.do(SETTLE, writer)
        maker.do(FINISH, reader)
        maker.do(BEGIN, reader)
    for writer in (0, 1):
        maker.do(RECLAIM, writer)


def sizes_refused(rng):
    """Step 0 with M out of range, with bytes behind it that are not read."""
    n, m = rng.choice([0, 1, 2, 255]), rng.choice([0, 17, 18, 128, 255])
    return bytes([0, n, m]) + rng.choice([b"", bytes([1, 0]), bytes([200])])


ENDINGS = 12


def damaged(rng, way=None):
    """Endings: unknown kind, short body, first step not 0, later step 0, empty."""
    way = rng.randrange(ENDINGS) if way is None else way
    kind = rng.randrange(10)
    if way == 0:
        return b""
    if way == 1:
        return bytes([rng.randrange(1, 256)]) + rng.randbytes(rng.randrange(3))
    if way == 2:
        return bytes([0, 2])[:rng.randrange(1, 3)]
    if way == 3:
        return bytes([rng.randrange(1, 10), 0, 0]) + bytes([0, 2, 2])
    maker = Maker(rng, *rng.choice(SIZES))
    maker.go(rng.randrange(30))
    if way == 4:
        return maker.bytes + bytes([rng.choice([10, 11, 128, 255, rng.randrange(10, 256)])])
    if way == 5:
        return maker.bytes + bytes([10]) + bytes([1, 0])
    if way == 6:
        return maker.bytes + bytes([0, 2, 2, 1, 0])
    if way == 7:
        return maker.bytes + bytes([0, 2])[:rng.randrange(1, 3)]
    if way == 8:
        return maker.bytes + bytes([kind]) + bytes(rng.randrange(reelwalk.BODIES[kind]))
    if way == 9:
        return maker.bytes + bytes([WRITE, 0, 0]) + bytes(rng.choice([0, 1, 30, 31]))
    if way == 10:
        return maker.bytes + bytes([CUT, 3, kind])
    return maker.bytes + bytes([CUT, 3])


def noise(rng):
    """Bytes that follow no plan: a lay mostly, then kinds that are mostly known, low numbers mostly."""
    out = bytearray([LAY, rng.choice([0, 1, 2, 8, 255]), rng.choice([1, 2, 4, 16])])
    if rng.random() < 0.2:
        out = bytearray(rng.randbytes(rng.randrange(60)))
    for _ in range(rng.randrange(400)):
        kind = rng.randrange(1, 10) if rng.random() < 0.998 else rng.randrange(256)
        size = reelwalk.BODIES[kind] if kind < 10 else 1
        out += bytes([kind] + [rng.choice([0, 1, 2, 3, rng.randrange(256)]) for _ in range(size)])
    return out


# ---- small edits (document 02, Req 08) -----------------------------------

class Editor(Maker):
    """Its writes change so many words of a record, mostly one or two, and keep the others."""

    def __init__(self, rng, n, m, changed=(0, 1, 1, 1, 1, 2, 2, 3, 4), **options):
        self.changed = changed
        super().__init__(rng, n, m, **options)

    def body(self, kind, session, record):
        if kind != WRITE or record >= self.n:
            return super().body(kind, session, record)
        spots = self.rng.sample(range(4), self.rng.choice(self.changed))
        held = self.walk.desk["marks"][record] == session and self.rng.random() < 0.5
        own = {r: words for r, words in store.copies_of(self.walk.desk["sessions"][session])} if held else {}
        return self.edit(session, record, spots, own.get(record))

    def edit(self, session, record, spots, words=None):
        """A write of the home words, or of these, with those at these spots changed."""
        words = list(words or store.home(self.walk.image, record))
        for spot in spots:
            words[spot] = self.rng.choice([words[spot] ^ 2 ** self.rng.randrange(64), (words[spot] + 1) % 2 ** 64,
                                           self.rng.getrandbits(64)])
        return [WRITE, session, record, *b"".join(word.to_bytes(8, "little") for word in words)]

    def edited(self, session, records, k):
        """An active transaction with these records written, in which k words differ from home; at times a record is
        written twice, all of its words other at first."""
        self.do(BEGIN, session)
        spots = self.rng.sample(range(4 * len(records)), k)
        for place, record in enumerate(records):
            if self.rng.random() < 0.3:
                self.do(*self.edit(session, record, range(4)))
        for place, record in self.rng.sample(list(enumerate(records)), len(records)):
            self.do(*self.edit(session, record, [spot % 4 for spot in spots if spot // 4 == place]))


def edits(rng):
    """Records edited by a word or two, everything in proportion."""
    maker = Editor(rng, *rng.choice([(1, 1), (2, 2), (6, 3), (8, 4), (40, 7), (256, 16)]), hot=rng.choice([0, 0.3, 0.8]),
                   cut=rng.choice([0.01, 0.08]))
    maker.go(400)
    return maker.bytes


# Copies and words that differ: each that gives a short log, the first full one, and all words.
EDITS = [(1, k) for k in (0, 1, 2, 3, 4)] + [(2, k) for k in (0, 1, 2, 3, 4, 5, 8)] + [
    (3, k) for k in (0, 1, 2, 3, 4, 5, 6, 7, 8, 12)] + [(4, k) for k in (0, 1, 2, 3, 4, 5, 6, 7, 8, 9, 10, 16)]
EDIT_WAYS = 14


def cuts_edits(rng, way=None):
    """Finish of small edits and of large ones, cut at every count of entries and one past the last."""
    way = rng.randrange(EDIT_WAYS) if way is None else way
    maker = Editor(rng, rng.choice([4, 20, 256]), rng.choice([1, 4, 16]))
    for copies, k in EDITS[way::EDIT_WAYS]:
        entries = 2 * k + 4 if 2 * k < 5 * copies else 5 * copies + 4
        for cut in range(entries + 2):
            records = rng.sample(range(maker.n), copies)
            with_others(maker, rng, records)
            maker.edited(0, records, k)
            maker.do(CUT, cut)
            maker.do(FINISH, 0)
            maker.look(0, records)
    return maker.bytes


def equal_words(rng):
    """Writes of the words that are there, mostly: logs without a pair, cut in finish, settle and reclaim."""
    maker = Editor(rng, rng.choice([1, 4, 20, 256]), rng.choice([1, 3, 16]), changed=(0, 0, 0, 0, 1, 4))
    for kind, ready in ((FINISH, "active"), (SETTLE, "published"), (RECLAIM, "settled")):
        for cut in [*range(6), rng.randrange(26), 255]:
            records = rng.sample(range(maker.n), rng.randrange(1, 1 + min(4, maker.n)))
            maker.to_phase(0, records, ready)
            with_others(maker, rng, records)
            maker.do(CUT, cut)
            maker.do(kind, 0)
            maker.look(0, records)
    maker.go(150)
    return maker.bytes


# ---- the order in which sessions began (document 02, Req 09) --------------

ORDER_M = [16, 1, 2, 3, 4, 5, 6, 8, 10, 12, 13, 14, 15, 16]  # the number of sessions, by way


def order(rng, way=None):
    """Up to all sessions active at once, with equal starts and with different ones; they end in every order and in
    every way, with settles in between. At times the desk is lost."""
    way = rng.randrange(len(ORDER_M)) if way is None else way
    maker = Maker(rng, rng.choice([8, 20, 256]), ORDER_M[way])
    while maker.walk.steps < 450:
        arrive(maker, rng)
        maker.go(rng.choice([0, 0, 0, 8]))
        leave(maker, rng)
        for place in sorted(store.occupied(maker.walk.image), key=lambda p: store.persist(maker.walk.image, p)):
            maker.do(RECLAIM, place // 2)
    return maker.bytes


def those(maker, phase):
    """The sessions in this phase; active ones in the order in which they began."""
    desk = maker.walk.desk
    if phase == "active":
        return desk["order"][:store.in_use(desk)]
    return [session for session in range(maker.m) if maker.phase(session) == phase]


def arrive(maker, rng):
    """All idle sessions begin, or some: the lowest first, the highest first or in any order. With each publish in
    between the next starts are higher."""
    idle, share = those(maker, "idle"), rng.choice([0, 0.1, 0.4])
    idle = rng.choice([idle, idle[::-1], rng.sample(idle, len(idle))])
    for session in idle[:rng.choice([len(idle), len(idle), rng.randrange(1, len(idle) + 1)])] if idle else []:
        maker.do(BEGIN, session)
        if rng.random() < share:
            sealed(maker, rng, rng.choice(those(maker, "active")))


def sealed(maker, rng, session):
    """An active session writes what nobody holds and ends; at times it is published later."""
    free = [record for record in range(maker.n) if maker.walk.desk["marks"][record] is None]
    if free:
        maker.do(*maker.body(WRITE, session, rng.choice(free)))
    maker.do(FINISH, session)
    if maker.phase(session) == "sealed" and rng.random() < 0.8:
        maker.do(PUBLISH, session)


def turned_away(maker, rng, session):
    """An active session writes what another holds; where nobody holds a record it is abandoned."""
    held = [record for record, mark in enumerate(maker.walk.desk["marks"]) if mark not in (None, session)]
    maker.do(*(maker.body(WRITE, session, rng.choice(held)) if held else [ABANDON, session]))


WHO = {"first": lambda rng, active: active[0], "last": lambda rng, active: active[-1],
       "lowest": lambda rng, active: min(active), "highest": lambda rng, active: max(active),
       "any": lambda rng, active: rng.choice(active)}


def leave(maker, rng):
    """The active sessions end one by one, each in some way; in between settles, and one that begins at times."""
    who = rng.choice(list(WHO.values()))
    while those(maker, "active"):
        session = (who if rng.random() < 0.8 else WHO["any"])(rng, those(maker, "active"))
        way = rng.randrange(5)
        if way < 2:
            maker.do([FINISH, ABANDON][way], session)
        else:
            (sealed if way == 2 else turned_away)(maker, rng, session)
        settle_some(maker, rng)
        if those(maker, "idle") and rng.random() < 0.25:
            maker.do(BEGIN, rng.choice(those(maker, "idle")))
        if rng.random() < 0.04:
            lose(maker, rng)
    settle_some(maker, rng, 16)


def lose(maker, rng):
    """A session that is not idle ends, is published or settled, and the desk is lost at it."""
    session = rng.choice([session for session in range(maker.m) if maker.phase(session) != "idle"] or [0])
    maker.do(CUT, rng.choice([0, 1, 2, 255, rng.randrange(12)]))
    maker.do({"active": FINISH, "sealed": PUBLISH, "published": SETTLE}.get(maker.phase(session), RECLAIM), session)


def settle_some(maker, rng, most=2):
    """So many sealed sessions are published, and so many published ones settled: they wait or not."""
    for phase, kind in (("sealed", PUBLISH), ("published", SETTLE)):
        found = those(maker, phase)
        for session in rng.sample(found, min(most, len(found))):
            if most > 2 or rng.random() < 0.5:
                maker.do(kind, session)


KINDS = {f.__name__: f for f in (
    mix, hot, cold, small, large, long, stray, restless, cuts_finish, cuts_settle,
    cuts_reclaim, cuts_publish, cuts_idle, every_answer, readers, openings, ceiling, sizes_refused,
    damaged, noise, edits, cuts_edits, equal_words, order)}


def stream(kind, seed):
    """The bytes of one stream; the endings and the ways of ceiling, cuts_edits and order go round by seed."""
    rng = random.Random("%s/%d" % (kind, seed))
    if kind == "damaged":
        return bytes(damaged(rng, seed % ENDINGS))
    if kind == "ceiling":
        return bytes(ceiling(rng, seed % CEILING_WAYS))
    if kind == "cuts_edits":
        return bytes(cuts_edits(rng, seed % EDIT_WAYS))
    if kind == "order":
        return bytes(order(rng, seed % len(ORDER_M)))
    return bytes(KINDS[kind](rng))


def count(seeds):
    """Printed lines by call and result, over all kinds."""
    seen, steps = Counter(), Counter()
    for kind in KINDS:
        for seed in range(seeds):
            for line in reelwalk.run(stream(kind, seed)):
                seen[label(line)] += 1
                steps[kind] += 1
    return seen, steps


def main(words):
    if words[0] == "make":
        sys.stdout.buffer.write(stream(words[1], int(words[2])))
    elif words[0] == "kinds":
        print("\n".join(KINDS))
    elif words[0] == "count":
        for table in count(int(words[1])):
            for name, number in sorted(table.items()):
                print("%8d %s" % (number, name))
    else:
        sys.exit(__doc__)


if __name__ == "__main__":
    main(sys.argv[1:] or ["help"])
