"""Long step streams for measuring, from fixed seeds.

    python3 bench/load.py N M read|write|edit STEPS > steps

Sessions follow plans: begin, some reads and writes, finish, publish, settle, with reclaims of the oldest log. The
maker follows phases, holders and logs, so that most steps are accepted; a few are not. There are no cuts. A shorter
stream of the same kind is the start of a longer one. In "edit" each write changes one word: of the session's own copy
where it has one, else of the home record, so the maker follows their words too.
"""

import random
import sys

LAY, BEGIN, READ, WRITE, FINISH, PUBLISH, SETTLE, RECLAIM, ABANDON = range(9)
IDLE, ACTIVE, SEALED, PUBLISHED = range(4)

# Of the transactions, the part that writes; reads and writes (from, to) in a plan; words that a write chooses.
LOADS = {"read": {"writers": 0.3, "reads": (8, 24), "writes": (1, 4), "words": 4},
         "write": {"writers": 0.9, "reads": (0, 3), "writes": (2, 6), "words": 4},
         "edit": {"writers": 0.9, "reads": (0, 3), "writes": (2, 6), "words": 1}}
STRAY, GIVEN_UP = 0.01, 0.03


class Session:
    def __init__(self):
        self.phase, self.number, self.slot = IDLE, 0, 0
        self.copies, self.words, self.plan = [], {}, []
        self.logs = [0, 0]

    def empty_slot(self):
        """The lowest empty slot, 2 where both are occupied."""
        return (self.logs + [0]).index(0)


class Load:
    """Chooses steps that suit what they follow."""

    def __init__(self, n, m, name):
        self.rng = random.Random("%d/%d/%s" % (n, m, name))
        self.n, self.load, self.clock = n, LOADS[name], 1
        self.sessions = [Session() for _ in range(m)]
        self.holders, self.homes = [None] * n, [bytes(32)] * n

    def step(self):
        """The bytes of the next step."""
        while True:
            s = self.rng.randrange(len(self.sessions))
            own = self.sessions[s]
            chosen = (self.idle, self.active, self.sealed, self.published)[own.phase](s, own)
            if chosen:
                return bytes(chosen)

    def idle(self, s, own):
        if own.empty_slot() == 2 or self.rng.random() < 0.2:
            return self.reclaim()
        rng, load = self.rng, self.load
        own.phase, own.number = ACTIVE, self.clock
        writes = rng.randint(*load["writes"]) if rng.random() < load["writers"] else 0
        own.plan = [READ] * rng.randint(*load["reads"]) + [WRITE] * writes
        rng.shuffle(own.plan)
        return BEGIN, s

    def active(self, s, own):
        if not own.plan:
            return self.end(s, own)
        record = self.some_record(own)
        if own.plan.pop() == READ:
            return READ, s, record
        if self.holders[record] not in (None, s) and self.rng.random() > STRAY:
            return READ, s, record
        words = self.words() if self.load["words"] == 4 else self.edited(own, record)
        self.wrote(s, own, record, words)
        return (WRITE, s, record, *words)

    def some_record(self, own):
        """An own copy, one that any session holds, or any."""
        way = self.rng.random()
        others = self.rng.choice(self.sessions)
        if way < 0.2 and own.copies:
            return self.rng.choice(own.copies)
        if way < 0.4 and others.copies:
            return self.rng.choice(others.copies)
        return self.rng.randrange(self.n)

    def words(self):
        """Four words of any length, as bytes."""
        lengths = [self.rng.randint(1, 64) for _ in range(4)]
        return b"".join(self.rng.getrandbits(k).to_bytes(8, "little") for k in lengths)

    def edited(self, own, record):
        """What the own copy or the home record holds, with one word changed, as bytes."""
        old = own.words.get(record, self.homes[record])
        at, new = 8 * self.rng.randrange(4), old
        while new == old:
            word = self.rng.getrandbits(self.rng.randint(1, 64))
            new = old[:at] + word.to_bytes(8, "little") + old[at + 8:]
        return new

    def wrote(self, s, own, record, words):
        if self.holders[record] not in (None, s):
            return self.drop(own)
        if record not in own.copies:
            if len(own.copies) == 4:
                return
            if not own.copies:
                own.slot = own.empty_slot()
            own.copies.append(record)
            self.holders[record] = s
        own.words[record] = words

    def drop(self, own):
        for record in own.copies:
            self.holders[record] = None
        own.phase, own.copies, own.words, own.plan = IDLE, [], {}, []

    def end(self, s, own):
        if self.rng.random() < GIVEN_UP:
            self.drop(own)
            return ABANDON, s
        own.phase = IDLE
        if own.copies:
            own.phase, own.logs[own.slot] = SEALED, self.clock
        return FINISH, s

    def sealed(self, s, own):
        self.clock += 1
        own.phase, own.number = PUBLISHED, self.clock
        return PUBLISH, s

    def published(self, s, own):
        """Settles once it need not wait, and seldom before."""
        waits = any(e.phase == ACTIVE and e.number < own.number for e in self.sessions)
        if not waits:
            for record, words in own.words.items():
                self.homes[record] = words
            self.drop(own)
        elif self.rng.random() > STRAY:
            return None
        return SETTLE, s

    def reclaim(self):
        """Clears the oldest log, where it is settled."""
        logs = [(number, s, slot) for s, e in enumerate(self.sessions)
                for slot, number in enumerate(e.logs) if number]
        if not logs:
            return None
        _, s, slot = min(logs)
        own = self.sessions[s]
        if own.phase in (SEALED, PUBLISHED) and own.slot == slot:
            return None
        own.logs[slot] = 0
        return RECLAIM, s


def stream(n, m, name, steps):
    """The bytes of a stream, step 0 counted."""
    load = Load(n, m, name)
    return b"".join([bytes([LAY, n % 256, m])] + [load.step() for _ in range(steps - 1)])


if __name__ == "__main__":
    if len(sys.argv) != 5 or sys.argv[3] not in LOADS:
        sys.exit(__doc__)
    n, m, name, steps = sys.argv[1:]
    sys.stdout.buffer.write(stream(int(n), int(m), name, int(steps)))
