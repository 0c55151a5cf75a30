"""Self-tests of the model.

    python3 test_model.py                  all tests
    python3 test_model.py faults           faulty copies of the model, and
                                           which tests catch each of them
"""

import fractions
import functools
import itertools
import os
import random
import sys
import types
from collections import Counter

import listening
import raw
import rawalone
import rawgroup
import rawlistening
import raworder
import rawreels
import rawreport
import rawshort
import rawspeeds
import reels
import reelwalk
import report
import store
import stored
import streams

HERE = os.path.dirname(os.path.abspath(__file__))
TOP = 2 ** 64 - 1
L = 2 ** 62
FENCE = (TOP, 0)
ZEROS = [0] * 4
SHARE = 1.0  # share of the full number of random runs


def same(got, wanted, what=""):
    if got != wanted:
        raise AssertionError("%s: got %r, wanted %r" % (what, got, wanted))


def answer_of(done):
    """Name or refusal number, and value."""
    answer = done["answer"]
    return (answer["number"] or answer["name"], answer["value"])


def sessions_in(members):
    """The sessions of a set; the last digit of its sixteen is session 0."""
    return [session for session, bit in enumerate(reversed(format(members, "016b"))) if bit == "1"]


# ---- the book ------------------------------------------------------------

GROUP = raw.GROUP_CALL
PUBLISHES = ["publish", GROUP]  # of a group the set stands for the session


class Book:
    """Fed each call with its answer; it never sees an image or a desk."""

    def __init__(self, opening):
        self.opening = [list(words) for words in opening]
        self.list = []  # entries in sealing order
        self.drafts = [{} for _ in range(16)]
        self.starts = [0] * 16

    def feed(self, call, session, record, words, answer):
        name = answer["name"]
        if call == "begin" and name == "start":
            self.starts[session], self.drafts[session] = answer["value"], {}
        elif call == "write" and name == "ok":
            self.drafts[session][record] = list(words)
        elif call == "finish" and name == "sealed":
            self.seal(session)
        elif call in PUBLISHES and name == "end":
            for member in [session] if call == "publish" else sessions_in(session):
                last = [e for e in self.list if e["session"] == member][-1]
                last["end"] = answer["value"]
        elif (call == "abandon" and name == "ok") or answer["number"] == 7:
            self.drafts[session] = {}

    def seal(self, session):
        self.list.append({"session": session, "draft": dict(self.drafts[session]), "end": None})

    def records(self):
        """The opening records with the list applied in order."""
        now = [list(words) for words in self.opening]
        for e in self.list:
            for record, words in e["draft"].items():
                now[record] = words
        return now

    def shared(self, session, record):
        """The words of the last entry that has the record and an end up to
        the reader's start; if there is none, the opening words."""
        found = [e["draft"][record] for e in self.list if record in e["draft"]
                 and e["end"] is not None and e["end"] <= self.starts[session]]
        return found[-1] if found else self.opening[record]

    def view(self, session):
        """The opening records with all transactions with end at most the start
        applied, in sealing order, and own writes on top."""
        now = [list(words) for words in self.opening]
        for e in self.list:
            if e["end"] is not None and e["end"] <= self.starts[session]:
                now = [e["draft"].get(record, words) for record, words in enumerate(now)]
        return [self.drafts[session].get(record, words) for record, words in enumerate(now)]

    def together(self):
        """The drafts of each end, in sealing order."""
        found = {}
        for e in self.list:
            if e["end"] is not None:
                found.setdefault(e["end"], []).append(e["draft"])
        return found


# ---- answers foreseen without image or desk ------------------------------

LAST_SHORT = {1: 2, 2: 4, 3: 7, 4: 9}  # by hand, for each number of copies: the most words that differ in a short log


def entries_of_finish(copies, differ):
    """By hand: the number of entries of a finish with copies."""
    return 4 + 2 * differ if differ <= LAST_SHORT[copies] else {1: 9, 2: 14, 3: 19, 4: 24}[copies]


class Foresight:
    """Phases, copies, home records, occupied slots, clock, ceiling and who began when, kept from the calls alone."""

    NEED = {"begin": "idle", "read": "active", "write": "active", "abandon": "active",
            "finish": "active", "publish": "sealed", "settle": "published"}

    def __init__(self, n, m, word_3, homes):
        self.n, self.m, self.clock = n, m, word_3 + 1  # of an image opened with this in header word 3
        self.homes = [list(words) for words in homes]
        self.ceiling = self.clock + 1024
        self.phase, self.at = ["idle"] * m, [0] * m  # at: start, persist or end
        self.order = []                              # active sessions as they began
        self.mine = [{} for _ in range(m)]           # records copied, with their words
        self.slot = [None] * m
        self.logs = {}                               # place: persist number

    def refusal(self, call, session, record):
        """The first of 19, 4, 5 and 6 that refuses a call, or 0."""
        if call == GROUP:
            phases = [(self.phase + [None] * 16)[member] for member in sessions_in(session)]
            return 19 if not phases else 4 if None in phases else 0 if set(phases) == {"sealed"} else 6
        if session >= self.m:
            return 4
        if call in ("read", "write") and record >= self.n:
            return 5
        return 6 if call in self.NEED and self.phase[session] != self.NEED[call] else 0

    def step(self, call, session, record, words=None):
        """(name or refusal number, value, number of entries) of a call."""
        number, self.words = self.refusal(call, session, record), words
        return (number, 0, 0) if number else getattr(self, call.replace(" ", "_"))(session, record)

    def holder(self, record):
        return [s for s in range(self.m) if record in self.mine[s]]

    def drop(self, session):
        self.phase[session], self.mine[session], self.slot[session] = "idle", {}, None

    def listed(self):
        """The sixteen places of the order."""
        return (self.order + [0] * 16)[:16]

    def begin(self, session, record):
        self.phase[session], self.at[session] = "active", self.clock
        self.order.append(session)
        return ("start", self.clock, 0)

    def read(self, session, record):
        if record in self.mine[session]:
            return ("own", 0, 0)
        for other in self.holder(record):
            if self.phase[other] == "published" and self.at[other] <= self.at[session]:
                return ("copy", 0, 0)
        return ("home", 0, 0)

    def write(self, session, record):
        if record in self.mine[session]:
            self.mine[session][record] = self.words
            return ("ok", 0, 0)
        if self.holder(record):
            self.drop(session)
            self.order.remove(session)
            return (7, self.holder(record)[0], 0)
        if len(self.mine[session]) == 4:
            return (8, 0, 0)
        if not self.mine[session]:
            free = [slot for slot in (0, 1) if 2 * session + slot not in self.logs]
            if not free:
                return (9, 0, 0)
            self.slot[session] = free[0]
        self.mine[session][record] = self.words
        return ("ok", 0, 0)

    def abandon(self, session, record):
        self.drop(session)
        self.order.remove(session)
        return ("ok", 0, 0)

    def finish(self, session, record):
        copies = len(self.mine[session])
        if copies == 0:
            self.drop(session)
            self.order.remove(session)
            return ("empty", 0, 0)
        if self.clock >= L:
            return (10, 0, 0)
        self.order.remove(session)
        self.phase[session], self.at[session] = "sealed", self.clock
        self.logs[2 * session + self.slot[session]] = self.clock
        return ("sealed", self.clock, entries_of_finish(copies, self.differ(session)))

    def differ(self, session):
        """How many words of the session's copies are not those of the home records."""
        return sum(one != other for record, words in self.mine[session].items()
                   for one, other in zip(words, self.homes[record]))

    def publish(self, session, record):
        return self.publish_group(2 ** session, record)

    def publish_group(self, members, record):
        self.clock += 1
        for session in sessions_in(members):
            self.phase[session], self.at[session] = "published", self.clock
        if self.clock <= self.ceiling:
            return ("end", self.clock, 0)
        self.ceiling = self.clock + 1024
        return ("end", self.clock, 2)

    def settle(self, session, record):
        starts = {self.at[other] for other in range(self.m) if self.phase[other] == "active"}
        for start in sorted(starts):  # those below this end, smallest first
            for other in range(self.m):
                if (self.phase[other], self.at[other]) == ("active", start) and start < self.at[session]:
                    return ("wait", other, 0)
        copies = len(self.mine[session])
        for record, words in self.mine[session].items():
            self.homes[record] = words
        self.drop(session)
        return ("ok", 0, 4 * copies + 1)

    def reclaim(self, session, record):
        kept = self.slot[session] if self.phase[session] in ("sealed", "published") else None
        found = [(number, place) for place, number in self.logs.items()
                 if place // 2 == session and place != 2 * session + (2 if kept is None else kept)]
        if not found:
            return ("none", 0, 0)
        number, place = min(found)
        if min(self.logs.values()) < number:
            return ("held", min(self.logs.values()), 0)
        del self.logs[place]
        return ("cleared", number, 2)


# ---- random schedules ----------------------------------------------------

class Trial:
    """A store with a random schedule run on it, and the book kept of it."""

    def __init__(self, st, rng, n=None, m=None, word_3=None):
        self.st, self.rng = st, rng
        self.n, self.m = n or rng.randrange(1, 7), m or rng.randrange(1, 5)
        done = st.lay(self.n, self.m, [7] * (4 + 4 * self.n + 44 * self.m))
        same(answer_of(done), ("ok", 0), "lay")
        self.image = self.scribbled(done["image"])
        self.image[3] = rng.choice([0, 0, 1025, rng.randrange(10 ** 6)]) if word_3 is None else word_3
        self.lazy = rng.random()  # how seldom logs are reclaimed
        self.groups, self.waits = rng.choice([0, 0.5, 0.9]), 0.8  # how often a publish is not single, and waits
        self.forms = Counter()  # logs by form: sealed, cut, replayed
        self.opened()

    def scribbled(self, image):
        """Opening records, and anything in the empty slots past word 0."""
        image = list(image)
        for index in range(4, len(image)):
            if index < 4 + 4 * self.n or (index - 4 - 4 * self.n) % 22:
                image[index] = self.rng.randrange(1000)
        return image

    def opened(self):
        """Opens the image. The memory is fed the stores from here on."""
        done, word_3 = self.st.open_image(self.image, 48), self.image[3]
        same(answer_of(done), ("ok", 0), "open")
        self.memory = Memory(self.image)
        self.memory.take(done["entries"])
        self.image, self.desk = done["image"], done["desk"]
        self.book = Book(self.homes())
        self.foresight = Foresight(self.n, self.m, word_3, self.homes())
        self.pass_by()

    def pass_by(self):
        """Lets transactions pass by that are settled and reclaimed: the clock goes up to word 3 or near it."""
        times = self.rng.choice([0, 0, 1024, 1023, self.rng.randrange(1015, 1025), self.rng.randrange(1025)])
        clock = self.desk["clock"]
        times = min(times, L - clock)  # at L nothing is sealed
        self.passed = range(clock, clock + times + 1) if times else ()  # the numbers that they were given
        self.desk = dict(self.desk, clock=clock + times)
        self.foresight.clock += times

    def homes(self, image=None):
        image = self.image if image is None else image
        return [image[4 + 4 * r:8 + 4 * r] for r in range(self.n)]

    def choose(self):
        """A call of one session, or of a group: then the set stands for the session."""
        call, session, record, words = self.choose_one()
        if call != "publish" or self.rng.random() >= self.groups:
            return call, session, record, words
        if self.rng.random() < self.waits:  # until others are sealed
            return self.choose()
        return GROUP, self.van_load(), record, words

    def van_load(self):
        """A set of sealed sessions; at times with any one put in or taken out, at times any set."""
        rng = self.rng
        members = {s for s in range(self.m) if self.foresight.phase[s] == "sealed" and rng.random() < 0.8}
        if rng.random() < 0.1:
            members ^= {rng.randrange(rng.choice([self.m, 16]))}
        return rng.getrandbits(16) if rng.random() < 0.02 else sum(2 ** s for s in members)

    def choose_one(self):
        """A call that mostly suits the phase: (call, session, record, words)."""
        rng = self.rng
        session = rng.randrange(self.m)
        suits = {"idle": ["begin"], "active": ["read", "read", "write", "write", "finish"],
                 "sealed": ["publish"], "published": ["settle"]}
        call = rng.choice(suits[self.foresight.phase[session]])
        if rng.random() < 0.3 * (1 - self.lazy):
            call = "reclaim"
        if rng.random() < 0.06:
            call = rng.choice(["begin", "read", "write", "abandon", "finish", "publish",
                               "settle", "reclaim"])
        record = rng.randrange(self.n)
        if rng.random() < 0.02:
            session = rng.choice([self.m, 16, TOP])
        if rng.random() < 0.02:
            record = rng.choice([self.n, 256, TOP])
        return call, session, record, self.edited(session, record)

    def edited(self, session, record):
        """Four new words, or some, the others as they are at home or in the own copy."""
        rng, new = self.rng, [self.rng.randrange(1, 10 ** 6) for _ in range(4)]
        if session >= self.m or record >= self.n or rng.random() < 0.3:
            return new
        home = self.foresight.homes[record]
        kept, share = rng.choice([home, self.foresight.mine[session].get(record, home)]), rng.choice([0, 0.25, 0.25, 0.6])
        return [one if rng.random() < share else other for one, other in zip(new, kept)]

    def made(self, call, session, record, words):
        """The call's result, with nothing taken over."""
        st = self.st
        if call in ("begin", "abandon"):
            return dict(getattr(st, call)(self.desk, session), image=self.image)
        if call == "read":
            return st.read(self.image, self.desk, session, record)
        if call == "write":
            return st.write(self.image, self.desk, session, record, words)
        return getattr(st, call.replace(" ", "_"))(self.image, self.desk, 48, session)

    def take(self, step, done):
        """Takes over desk and image and feeds the book and the memory."""
        if step[0] == "finish" and done["answer"]["name"] == "sealed":
            self.forms["sealed " + form_of(done["entries"][0][1])] += 1
        self.image, self.desk = done["image"], done["desk"]
        self.book.feed(*step, done["answer"])
        self.memory.take(done["entries"])


def form_of(count):
    """The form of a log by its word 1."""
    return "short" if count >= 16 else "full"


def groups(entries):
    """The indexes of each fence group."""
    found = [[]]
    for entry in entries:
        if entry == FENCE:
            found.append([])
        else:
            found[-1].append(entry[0])
    return found


# ---- tests ---------------------------------------------------------------

def whole_case(st):
    same(reelwalk.output(reelwalk.WHOLE_CASE, st), reelwalk.WHOLE_CASE_LINES, "whole case")


def laid(st, n=2, m=2, word_3=2 ** 63):
    """A laid image, with header word 3 high enough for any desk."""
    image = st.lay(n, m, [0] * st.length(n, m))["image"]
    return image[:3] + [word_3] + image[4:]


def held_desk(st, reader_start, end):
    """Session 0 active, session 1 published with a copy of record 0."""
    desk = st.new_desk(max(reader_start, end), 2, 2)
    desk["sessions"][0] = st.entry("active", reader_start)
    desk["sessions"][1] = st.entry("published", end, [[0, [1, 2, 3, 4]]])
    desk["marks"][0] = 1
    return queued(desk)


def queued(desk, highest_first=False):
    """The desk with its active sessions listed by start, among equal starts by session."""
    active = [session for session in range(16) if desk["sessions"][session]["phase"] == "active"]
    active.sort(key=lambda session: (desk["sessions"][session]["number"], -session if highest_first else session))
    desk["order"] = active + [0] * (16 - len(active))
    return desk


def slot_put(st, image, place, number, records):
    """The image with a log in a slot."""
    image = list(image)
    at = 4 + 4 * image[1] + 22 * place
    words = [number, len(records)] + [w for r in records for w in [r, 9, 9, 9, r]]
    image[at:at + len(words)] = words
    return image


def edges(st):
    """The lettered cases and the two behind them."""
    # A: N 256, M 16: 1,732 words pass, 1,731 give 1.
    same(answer_of(st.lay(256, 16, [0] * 1732)), ("ok", 0), "A")
    same(answer_of(st.lay(256, 16, [0] * 1731)), (1, 0), "A")
    same(answer_of(st.open_image(laid(st, 256, 16, 0), 48)), ("ok", 0), "A")
    same(answer_of(st.open_image(laid(st, 256, 16, 0)[:-1], 48)), (1, 0), "A")
    # B: N 257 gives 14.
    same(answer_of(st.lay(257, 16, [0] * 1736)), (14, 0), "B")
    # C: start 6, holder's end 6: copy. D: start 5, end 6: home.
    done = st.read(laid(st), held_desk(st, 6, 6), 0, 0)
    same((answer_of(done), done["answer"]["words"]), (("copy", 0), [1, 2, 3, 4]), "C")
    done = st.read(laid(st), held_desk(st, 5, 6), 0, 0)
    same((answer_of(done), done["answer"]["words"]), (("home", 0), [0] * 4), "D")
    # E: four copies, write to a fifth record: 8. F: again to one of the four.
    image, desk = laid(st, 5, 1), st.begin(st.new_desk(1, 5, 1), 0)["desk"]
    for record in (3, 0, 4, 1):
        desk = st.write(image, desk, 0, record, [record] * 4)["desk"]
    same(answer_of(st.write(image, desk, 0, 2, [1] * 4)), (8, 0), "E")
    done = st.write(image, desk, 0, 0, [8] * 4)
    same(answer_of(done), ("ok", 0), "F")
    same([r for r, _ in done["desk"]["sessions"][0]["places"]], [3, 0, 4, 1], "F order")
    # G: clock L - 1 seals; at L, 10.
    for clock, wanted in ((L - 1, ("sealed", L - 1)), (L, (10, 0))):
        desk = st.begin(st.new_desk(clock, 2, 2), 0)["desk"]
        desk = st.write(laid(st), desk, 0, 1, [5] * 4)["desk"]
        same(answer_of(st.finish(laid(st), desk, 48, 0)), wanted, "G")
    same(answer_of(st.finish(laid(st), st.begin(st.new_desk(L, 2, 2), 0)["desk"], 48, 0)),
         ("empty", 0), "G empty")
    # H: one copy that differs in all four words, 7 entries arrive: no log to replay. I: 8 arrive: replayed.
    desk = st.write(laid(st), st.begin(st.new_desk(1, 2, 2), 0)["desk"], 0, 1, [5, 6, 7, 8])["desk"]
    entries = st.finish(laid(st), desk, 48, 0)["entries"]
    same(entries, [(13, 1), (14, 1), (15, 5), (16, 6), (17, 7), (18, 8), FENCE, (12, 1), FENCE],
         "entries of finish")
    same(answer_of(st.recover(st.made(laid(st), entries[:7]), 48)), ("clean", 0), "H")
    done = st.recover(st.made(laid(st), entries[:8]), 48)
    same(answer_of(done), ("replayed", 1), "I")
    same(done["entries"], [(8, 5), (9, 6), (10, 7), (11, 8), FENCE, (12, 0), FENCE], "I entries")
    # J: persist 5 settled, another slot at 4: held. K: at 5: cleared.
    for other, wanted in ((4, ("held", 4)), (5, ("cleared", 5))):
        image = slot_put(st, slot_put(st, laid(st), 0, 5, [0]), 3, other, [1])
        same(answer_of(st.reclaim(image, st.new_desk(6, 2, 2), 48, 0)), wanted, "J, K")
    # M: count 5 with persist number 0 is ignored. N: with 3 it gives 12.
    for number, wanted in ((0, ("clean", 0)), (3, (12, 2))):
        image = slot_put(st, laid(st), 2, number, [0])
        image[4 + 8 + 44 + 1] = 5
        same(answer_of(st.recover(image, 48)), wanted, "M, N")
    # Trace of 47 words: 3. Session and record both too large: 4.
    for call in (st.finish, st.publish, st.publish_group, st.settle, st.reclaim):
        same(answer_of(call(laid(st), st.new_desk(1, 2, 2), 47, 9)), (3, 0), "trace")
    same(answer_of(st.recover(laid(st), 47)), (3, 0), "trace")
    same(answer_of(st.open_image(laid(st), 47)), (3, 0), "trace")
    same(answer_of(st.read(laid(st), st.new_desk(1, 2, 2), 2, 2)), (4, 0), "both too large")
    more_edges(st)


def settle_edge(st, caller, active, wanted, sealed=(), published=()):
    """Settle by a session with end 6, N and M 16. The others by session and
    number; session s copies record s, an active one only if s is odd."""
    desk, image = st.new_desk(9, 16, 16), laid(st, 16, 16)
    entries = [("active", s, start) for s, start in active] + [("sealed", s, at) for s, at in sealed]
    entries += [("published", s, end) for s, end in [(caller, 6), *published]]
    for phase, session, number in entries:
        copies = [] if phase == "active" and session % 2 == 0 else [[session, [1, 2, 3, session]]]
        desk["sessions"][session] = st.entry(phase, number, copies)
        for record, _ in copies:
            desk["marks"][record] = session
    done = st.settle(image, queued(desk, caller % 2), 48, caller)
    same(answer_of(done), wanted, "settle by %d, active %s" % (caller, active))
    if wanted[0] == "wait":
        same((done["desk"], done["image"], done["entries"]), (desk, image, []), "wait leaves all")
    else:
        home = [(4 + 4 * caller + i, word) for i, word in enumerate([1, 2, 3, caller])]
        same(done["entries"], home + [FENCE], "entries of settle")
        same(done["desk"]["sessions"][caller], st.entry("idle"), "settled")


def settle_edges(st):
    """Whom settle names (document 02, Req 01); starts below 6 are in the way."""
    settle_edge(st, 0, [(1, 4), (5, 2)], ("wait", 5))               # the higher session sat longer
    settle_edge(st, 3, [(1, 5), (2, 4), (5, 3), (15, 1)], ("wait", 15))
    settle_edge(st, 7, [(1, 4), (5, 2), (9, 3)], ("wait", 5))       # neither the lowest nor the last
    settle_edge(st, 15, [(0, 1), (1, 2), (2, 3)], ("wait", 0))      # the lowest has the smallest start
    settle_edge(st, 0, [(4, 2), (9, 2)], ("wait", 4))               # equal starts: the lowest of them
    settle_edge(st, 0, [(2, 3), (5, 3), (7, 5)], ("wait", 2))
    settle_edge(st, 0, [(1, 5), (4, 2), (9, 2), (12, 3)], ("wait", 4))  # a lower one with a larger start
    settle_edge(st, 10, [(0, 4), (1, 3), (6, 1), (7, 1), (15, 1)], ("wait", 6))
    settle_edge(st, 1, [(0, 6)], ("ok", 0))                         # a start at the end is not in the way
    settle_edge(st, 1, [(0, 6), (2, 7), (15, 9)], ("ok", 0))
    settle_edge(st, 1, [(0, 6), (7, 5)], ("wait", 7))               # nor is it named
    settle_edge(st, 1, [(0, 6), (2, 6), (4, 5), (5, 5), (6, 7)], ("wait", 4))
    settle_edge(st, 0, [], ("ok", 0))                               # the caller is not in its own way
    settle_edge(st, 0, [(15, 5)], ("wait", 15))
    settle_edge(st, 5, [], ("ok", 0), [(0, 1), (6, 2)], [(1, 2), (7, 3)])  # nor sealed and published ones
    settle_edge(st, 5, [(8, 6)], ("ok", 0), [(0, 1), (6, 2)], [(1, 2), (7, 3)])
    settle_edge(st, 5, [(8, 4)], ("wait", 8), [(0, 1), (6, 2)], [(1, 2), (7, 3)])
    settle_edge(st, 5, [(2, 5), (8, 4), (9, 4)], ("wait", 8), [(0, 4), (6, 1)], [(1, 4), (7, 2)])


def more_edges(st):
    """Further cases that the rules fix."""
    settle_edges(st)
    image = slot_put(st, slot_put(st, laid(st, 4, 2), 1, 7, [2]), 2, 7, [3])
    done = st.recover(image, 48)  # equal numbers: lowest place first
    same((answer_of(done), done["entries"][-2]), (("replayed", 7), (4 + 16 + 22, 0)), "equal numbers")
    image = slot_put(st, slot_put(st, laid(st, 4, 2), 1, 7, [0, 2]), 0, 7, [2, 3])
    same(answer_of(st.recover(image, 48)), (13, 0), "13 within a session")
    image = slot_put(st, slot_put(st, laid(st, 4, 2), 3, 7, [2, 2]), 1, 7, [4])
    same(answer_of(st.recover(image, 48)), (12, 1), "12 before 13, lowest place")
    same(answer_of(st.open_image(slot_put(st, laid(st), 3, TOP, [0]), 48)), (11, 0), "11")
    same(st.open_image([1, 1], 48)["desk"], st.new_desk(0, 0, 0), "desk of a refused open")
    desk = st.begin(st.new_desk(1, 2, 2), 0)["desk"]
    full = slot_put(st, slot_put(st, laid(st), 0, 1, [0]), 1, 1, [1])
    same(answer_of(st.write(full, desk, 0, 0, [1] * 4)), (9, 0), "9")
    image = slot_put(st, laid(st), 0, 1, [0])
    same(st.write(image, desk, 0, 0, [1] * 4)["desk"]["sessions"][0]["slot"], 1, "lowest empty slot")
    done = st.write(laid(st), held_desk(st, 6, 5), 0, 0, [1] * 4)
    same((answer_of(done), done["desk"]["sessions"][0]), ((7, 1), st.entry("idle")), "7")
    same(st.trace_after([5] * 50, [(9, 1), FENCE]), [9, 1, TOP, 0] + [5] * 46, "trace")
    clock = st.new_desk(TOP, 2, 2)
    clock["sessions"][0] = st.entry("sealed", 1, [[0, [0] * 4]])
    clock["marks"][0] = 0
    same(answer_of(st.publish(laid(st, word_3=TOP), clock, 48, 0)), (2, 0), "clock past L + 16")


def program_lines(st):
    """Cuts, refusals and endings of the program."""
    def lines(text):
        return reelwalk.run(bytes.fromhex(text), st)
    five = "05" + "00" * 31
    same(lines(""), [], "empty input")
    same(lines("00"), ["1 bad"], "short body")
    same(lines("0100"), ["1 bad"], "first step other than 0")
    same(lines("0a"), ["1 bad"], "unknown first kind")
    same(lines("000011 0100"), ["1 lay 256 17 no 14"], "refused step 0")
    same(lines("000202 0900 0a 0100"), ["1 lay 2 2 ok", "2 cut 0", "3 bad"], "unknown kind")
    same(lines("000202 00"), ["1 lay 2 2 ok", "2 bad"], "later step 0")
    same(lines("000202 030001"), ["1 lay 2 2 ok", "2 bad"], "short write")
    head = "000202 0100 030001" + five
    for k, log in ((0, 0), (4, 0), (5, 1), (6, 1), (255, 1)):  # one word differs
        same(lines(head + "0963 09%02x 0400 0100 020001" % k)[3:],
             ["4 cut 99", "5 cut %d" % k, "6 finish 0 cut"] + ["6 replayed 1"] * log
             + ["6 open", "7 begin 0 start 1026", "8 read 0 1 %d 0 0 0 home" % (5 * log)], "cut")
    for k, log in ((0, 0), (7, 0), (8, 1), (9, 1), (255, 1)):  # all four differ
        same(lines("000202 0100 030001" + ("05" + "00" * 7) * 4 + "09%02x 0400 0100 020001" % k)[3:],
             ["4 cut %d" % k, "5 finish 0 cut"] + ["5 replayed 1"] * log
             + ["5 open", "6 begin 0 start 1026", "7 read 0 1%s home" % (" %d" % (5 * log) * 4)], "cut of a full log")
    same(lines("000202 0100 030001" + "00" * 32 + "0902 0400 0100 030001" + "00" * 32 + "0903 0400 0100 030001"
               + "00" * 32 + "0400 0500")[3:],
         ["4 cut 2", "5 finish 0 cut", "5 open", "6 begin 0 start 1026", "7 write 0 1 ok", "8 cut 3", "9 finish 0 cut",
          "9 replayed 1026", "9 open", "10 begin 0 start 2051", "11 write 0 1 ok", "12 finish 0 sealed 2051",
          "13 publish 0 end 2052"], "no word differs")
    same(lines("000202 0903 0100 0405 0200ff")[1:],
         ["2 cut 3", "3 begin 0 start 1", "4 finish 5 no 4", "4 open", "5 read 0 255 no 5"],
         "cut of a refused step")
    same(lines("000202 0903 0100 0400 0400")[3:], ["4 finish 0 empty", "4 open", "5 finish 0 no 6"],
         "cut of an empty finish")
    same(lines("000202 0903 0700")[2:], ["3 reclaim 0 none", "3 open"], "cut of none")
    same(lines("000204 0102 0100 030000" + five + "0400 0500 0101 0103 030301" + five
               + "0403 0503 0603 0600 0402 0603 0600 0801 0603")[11:],
         ["12 settle 3 wait 2", "13 settle 0 wait 2", "14 finish 2 empty", "15 settle 3 wait 1",
          "16 settle 0 ok", "17 abandon 1 ok", "18 settle 3 ok"], "settle waits for the smallest start")


def answers(st):
    """Every answer of random schedules foreseen; shape of the entries."""
    waits = above = raises = past = loads = 0  # above: a session below the one named is in the way too
    for run in range(int(350 * SHARE)):
        rng = random.Random("answers/%d" % run)
        big = run % 10 == 9  # with few sessions or few steps settle seldom has a choice
        word_3 = L - 1 - rng.randrange(1050) if run % 7 == 3 else None  # the clock comes to L
        trial = Trial(st, rng, *((40, 16) if big else (None, None)), word_3)
        for _ in range(360 if big else 120):
            step = trial.choose()
            done = trial.made(*step)
            wanted = trial.foresight.step(*step)
            same((*answer_of(done), len(done["entries"])), wanted, "%s in run %d" % (step[0], run))
            same(done["image"][3], trial.foresight.ceiling, "word 3 after %s in run %d" % (step[0], run))
            check_shape(st, trial, step, done)
            trial.take(step, done)
            raises += step[0] in PUBLISHES and wanted[2] == 2
            loads += step[0] == GROUP and wanted[0] == "end" and len(sessions_in(step[1])) > 1
            past += wanted[0] == 10 or (wanted[0] == "end" and wanted[1] >= L)
            if wanted[0] == "wait":
                waits += 1
                phase, at = trial.foresight.phase, trial.foresight.at
                above += any(phase[s] == "active" and at[s] < at[step[1]] for s in range(wanted[1]))
    if above < 100 * SHARE:
        raise AssertionError("too few waits for another than the lowest: %d of %d" % (above, waits))
    if min(raises, past, loads) < 50 * SHARE:
        raise AssertionError("too few raises, answers at L or groups: %d, %d, %d" % (raises, past, loads))
    return "wait %d, for another than the lowest in the way %d, raises of word 3 %d, groups of two or more %d" % (
        waits, above, raises, loads)


def check_shape(st, trial, step, done):
    """Rules for any call: stores, fences, refusals, desk."""
    entries = done["entries"]
    expected = list(trial.image)
    for index, word in entries:
        if index != TOP:
            expected[index] = word
    same(done["image"], expected, "image after %s" % step[0])
    for group in groups(entries):
        same(len(set(group)), len(group), "an index twice in a fence group")
    if entries:
        same(entries[-1], FENCE, "last entry")
    if done["answer"]["number"] not in (0, 7):
        same(done["desk"], trial.desk, "desk after a refusal")
    same(done["desk"]["order"], trial.foresight.listed(), "order after %s" % step[0])
    same(st.broken_rules(done["desk"], done["image"]), [], "rules broken after %s" % step[0])


def reads(st):
    """Demand 2: reads give what the book says, in both wordings."""
    seen, loads = {"own": 0, "copy": 0, "home": 0}, 0
    for run in range(int(350 * SHARE)):
        trial = Trial(st, random.Random("reads/%d" % run))
        for _ in range(120):
            step = trial.choose()
            done = trial.made(*step)
            name, words = done["answer"]["name"], done["answer"]["words"]
            if name in seen:
                seen[name] += 1
                session, record, book = step[1], step[2], trial.book
                same(record in book.drafts[session], name == "own", "own in run %d" % run)
                if name != "own":
                    same(words, book.shared(session, record), "%s words in run %d" % (name, run))
                same(words, book.view(session)[record], "view in run %d" % run)
            loads += step[0] == GROUP and name == "end"
            trial.foresight.step(*step)
            trial.take(step, done)
    if min(*seen.values(), loads) < 100 * SHARE:
        raise AssertionError("too few reads of a kind or groups: %s, %d" % (seen, loads))
    return "own %(own)d, copy %(copy)d, home %(home)d" % seen + ", groups %d" % loads


class Memory:
    """Words that have surely arrived, and the stores since the last fence."""

    def __init__(self, image):
        self.solid, self.loose = list(image), []

    def take(self, entries):
        for entry in entries:
            self.loose.append(entry)
            if entry == FENCE:
                self.solid, self.loose = self.after(self.loose), []

    def after(self, stores):
        image = list(self.solid)
        for index, word in stores:
            if index != TOP:
                image[index] = word
        return image

    def cut(self, rng):
        """The image after a cut: any selection of the loose stores."""
        share = rng.choice([0, 0.5, 0.5, 1])
        return self.after([store_ for store_ in self.loose if rng.random() < share])


def slots_occupied(image):
    first = 4 + 4 * image[1]
    return sum(word != 0 for word in image[first::22])


def crashes(st):
    """Demand 3: cut in a random call, recovered with cuts, compared with the book; logs of both forms."""
    cuts, replays, forms = 0, 0, Counter()
    for run in range(int(700 * SHARE)):
        rng = random.Random("crashes/%d" % run)
        trial = Trial(st, rng)
        for _ in range(3):  # generations on one image
            for _ in range(rng.randrange(5, 70)):
                step = trial.choose()
                done = trial.made(*step)
                trial.foresight.step(*step)
                trial.take(step, done)
            cut_call(trial, rng)
            times = recovered(st, trial, rng, run)
            cuts, replays = cuts + 1, replays + times
            same(trial.homes(), trial.book.records(), "records in run %d" % run)
            same(slots_occupied(trial.image), 0, "slots in run %d" % run)
            trial.opened()
        forms += trial.forms
    wanted = {"sealed": 900, "cut": 70, "replayed": 400, "replayed and cut": 100}
    few = [name for name in wanted for form in ("short", "full") if forms["%s %s" % (name, form)] < wanted[name] * SHARE]
    same(few, [], "too few logs of a form")
    return "%d cuts, %d recover calls that replayed; logs: %s" % (
        cuts, replays, ", ".join("%s %d" % part for part in sorted(forms.items())))


def cut_at(rng, entries):
    """None to all of the entries, often just short of the last fence."""
    return rng.choice([rng.randrange(len(entries) + 1), len(entries) - 1])


def cut_call(trial, rng):
    """Cuts one more call; a finish whose persist number arrived is sealed."""
    memory = trial.memory
    for _ in range(rng.choice([0, 8, 8])):  # mostly one that has entries
        step = trial.choose()
        done = trial.made(*step)
        if done["entries"]:
            memory.take(done["entries"][:cut_at(rng, done["entries"])])
            image = memory.cut(rng)
            if step[0] == "finish":
                trial.forms["cut " + form_of(done["entries"][0][1])] += 1
            if step[0] == "finish" and slots_occupied(image) > slots_occupied(trial.image):
                trial.book.seal(step[1])
            trial.image = image
            return
    trial.image = memory.cut(rng)


def recovered(st, trial, rng, run):
    """Recovers until clean, cutting some of the calls. Returns the replays. Word 3 is left alone."""
    share, word_3 = rng.choice([0, 0.3, 0.6]), trial.image[3]
    for times in range(400):
        done = st.recover(trial.image, 48)
        same((trial.image[3], done["image"][3]), (word_3, word_3), "word 3 in recovery in run %d" % run)
        if answer_of(done) == ("clean", 0):
            return times
        same(done["answer"]["name"], "replayed", "recover in run %d" % run)
        same(done["entries"][-1:], [FENCE], "last entry")
        memory, entries = Memory(trial.image), done["entries"]
        cut = rng.random() < share
        trial.forms[("replayed and cut " if cut else "replayed ") + form_of(trial.image[entries[-2][0] + 1])] += 1
        memory.take(entries[:cut_at(rng, entries)] if cut else entries)
        trial.image = memory.cut(rng) if cut else memory.after(memory.loose)
    raise AssertionError("recovery without end in run %d" % run)


# ---- the ceiling (document 02, Req 05) ------------------------------------

def sealed_scene(st, clock, word_3, sealed=1, n=16, m=16):
    """Image with this word 3, and desk with so many sessions sealed, from 0 up; each copies the record of its number."""
    desk = st.new_desk(clock, n, m)
    for session in range(sealed):
        desk["sessions"][session] = st.entry("sealed", clock, [[session, [session, 2, 3, 4]]], session % 2)
        desk["marks"][session] = session
    return laid(st, n, m, word_3), desk


def stored_alone(done, image, index, word, what):
    """One store and its fence: the entries, and the image with that word alone changed."""
    same(done["entries"], [(index, word), FENCE], "entries of " + what)
    same(done["image"], image[:index] + [word] + image[index + 1:], "image after " + what)
    same(store.trace_after(list(range(50)), done["entries"]), [index, word, TOP, 0, *range(4, 50)], "trace")


def ceiling_opens(st):
    """Open: the clock is word 3 plus 1, word 3 is then the new clock plus 1,024; 10 with word 3 at L or more."""
    same(st.lay(2, 2, [7] * 100)["image"], [1, 2, 2, 0] + [0] * 96, "lay writes 0 into word 3")
    for word_3 in (0, 1, 2, 5, 1024, 1025, 2050, 2 ** 32, L - 1026, L - 1025, L - 1024, L - 2, L - 1):
        for trace in (48, 49, 64):
            image = laid(st, 3, 2, word_3)
            done = st.open_image(image, trace)
            same(told(done), ("ok", 0, ZEROS), "open with word 3 at %d" % word_3)
            same(done["desk"], st.new_desk(word_3 + 1, 3, 2), "desk of open with word 3 at %d" % word_3)
            stored_alone(done, image, 3, word_3 + 1025, "open")
    for word_3 in (L, L + 1, L + 1024, 2 ** 63, TOP - 1024, TOP):
        image = laid(st, 3, 2, word_3)
        done = st.open_image(image, 48)
        same(told(done), (10, 0, ZEROS), "open with word 3 at %d" % word_3)
        left(done, image, st.new_desk(0, 0, 0), "open refused with 10")
    image = laid(st, 1, 1, 0)
    for clock in (1, 1026, 2051, 3076):  # each opening uses up 1,025 numbers
        done = st.open_image(image, 48)
        same(done["desk"]["clock"], clock, "clock of an opening")
        image = done["image"]
    image = laid(st, 2, 2, L - 1)  # opens once more, and nothing can be sealed
    done = st.open_image(image, 48)
    image, desk = done["image"], st.begin(done["desk"], 0)["desk"]
    desk = st.write(image, desk, 0, 1, [5] * 4)["desk"]
    same(answer_of(st.finish(image, desk, 48, 0)), (10, 0), "finish after the last opening")
    same(answer_of(st.open_image(image, 48)), (10, 0), "open after the last opening")
    done = st.open_image(st.lay(2, 2, image)["image"], 48)
    same((answer_of(done), done["desk"]["clock"]), (("ok", 0), 1), "open, laid anew")


def ceiling_orders(st):
    """Open makes the checks 1, 3, 11, 10 and publish 1, 2, 3, 4, 6, in this order, and no other."""
    for wrong in subsets([1, 3, 11, 10]):
        image = laid(st, 3, 2, L if 10 in wrong else L - 1)
        image = slot_put(st, image, 3, 9, [0]) if 11 in wrong else image
        image = image[:-1] if 1 in wrong else image
        done = st.open_image(image, 47 if 3 in wrong else 48)
        same(told(done), ((wrong + ["ok"])[0], 0, ZEROS), "open with %s" % wrong)
        if wrong:
            left(done, image, st.new_desk(0, 0, 0), "open refused with %d" % wrong[0])
    for wrong, how in itertools.product(subsets([1, 2, 3, 4, 6]), ("ceiling", "clock")):
        image, desk = sealed_scene(st, 9, 8 if 2 in wrong and how == "ceiling" else 9)
        desk = dict(desk, clock=0) if 2 in wrong and how == "clock" else desk
        session = (16 if 4 in wrong else 0) + (3 if 6 in wrong else 0)
        image = image[:-1] if 1 in wrong else image
        done = st.publish(image, desk, 47 if 3 in wrong else 48, session)
        same(told(done), (wrong[0], 0, ZEROS) if wrong else ("end", 10, ZEROS), "publish with %s" % wrong)
        if wrong:
            left(done, image, desk, "publish refused with %d" % wrong[0])
    for trace in range(65):
        wanted = 3 if trace < 48 else None
        same(answer_of(st.open_image(laid(st, word_3=0), trace))[0], wanted or "ok", "open, trace of %d" % trace)
        for word_3 in (9, 10):  # also where there are no entries
            image, desk = sealed_scene(st, 9, word_3)
            got = answer_of(st.publish(image, desk, trace, 0))[0]
            same(got, wanted or "end", "publish, trace of %d" % trace)


def subsets(items):
    """All selections, in the order given."""
    return [list(some) for size in range(len(items) + 1) for some in itertools.combinations(items, size)]


def ceiling_publishes(st):
    """Publish: two entries when its new clock passes word 3, else none; past L the raise is stored as it is."""
    rows = [(clock, clock + more, 1) for clock in (1, 2, 1025, 10 ** 6, L - 1026, L - 1025, L - 2, L - 1, L, L + 1)
            for more in (0, 1, 2, 1023, 1024, 1025)]
    rows += [(clock, word_3, 1) for clock in (1, 9, L) for word_3 in (L, L + 1, 2 ** 63, TOP)]
    rows += [(L + 16 - sealed, L + 16 - sealed + more, sealed) for sealed in (1, 2, 16) for more in (0, 1)]
    for clock, word_3, sealed in rows:
        what = "publish with clock %d, word 3 at %d" % (clock, word_3)
        image, desk = sealed_scene(st, clock, word_3, sealed)
        done = st.publish(image, desk, 48, 0)
        same(told(done), ("end", clock + 1, ZEROS), what)
        after = dict(st.with_phase(desk, 0, "published", clock + 1), clock=clock + 1)
        if clock + 1 > word_3:
            stored_alone(done, image, 3, clock + 1025, what)
            same(done["desk"], after, "desk after " + what)
        else:
            left(done, image, after, what)
        same(st.broken_rules(done["desk"], done["image"]), [], "rules broken after " + what)


def ceiling_calls(st, clock):
    """Calls that take image and desk, with nothing wrong: image, call, the rest of its arguments, and answer."""
    desk = st.new_desk(clock, 4, 4)
    numbers = [("active", 1), ("active", clock), ("sealed", clock), ("published", clock)]
    for session, (phase, number) in enumerate(numbers):
        desk["sessions"][session] = st.entry(phase, number, [[session, [1, 2, 3, 4]]][:session])
        desk["marks"][session] = session if session else None
    image, desk = laid(st, 4, 4), queued(desk)
    yield image, st.read, (desk, 0, 0), "home"
    yield image, st.write, (desk, 0, 0, [5] * 4), "ok"
    yield image, st.finish, (desk, 48, 0), "empty"
    yield image, st.finish, (desk, 48, 1), "sealed" if clock < L else 10
    yield image, st.publish, (desk, 48, 2), "end"
    yield image, st.publish_group, (desk, 48, 2 ** 2), "end"
    yield image, st.settle, (desk, 48, 3), "wait"
    yield image, st.reclaim, (desk, 48, 1), "none"


def ceiling_coherence(st):
    """Each call that takes an image finds a desk with a clock above word 3 not coherent; begin and abandon
    take none. Of the others only open and the two publishes store into word 3."""
    for clock in (2, 9, 1026, L - 1, L, L + 15):
        for image, call, rest, wanted in ceiling_calls(st, clock):
            desk, what = rest[0], "%s with clock %d, word 3 at " % (call.__name__, clock)
            for word_3 in (0, 1, clock - 1, clock, clock + 1, L - 1, L, L + 15, L + 16, 2 ** 63, TOP):
                given = image[:3] + [word_3] + image[4:]
                done = call(given, *rest)
                same(answer_of(done)[0], 2 if word_3 < clock else wanted, what + "%d" % word_3)
                if word_3 < clock:
                    same((done["desk"], done["image"], done["entries"]), (desk, given, []), "refused with 2")
                elif not call.__name__.startswith("publish"):
                    same(done["image"][3], word_3, "word 3 left by " + what + "%d" % word_3)
    desk = st.begin(st.new_desk(9, 2, 2), 0)
    same((answer_of(desk), answer_of(st.abandon(desk["desk"], 0))), (("start", 9), ("ok", 0)), "begin and abandon")
    same(st.coherent(st.new_desk(9, 2, 2)), True, "a desk without an image")
    for word_3 in (0, 1, 1025, L - 1, L, L + 1, TOP):
        done = st.recover(slot_put(st, laid(st, word_3=word_3), 1, 5, [1]), 48)
        same((answer_of(done), done["image"][3]), (("replayed", 5), word_3), "recover leaves word 3")
        same(answer_of(st.recover(laid(st, word_3=word_3), 48)), ("clean", 0), "recover, whatever word 3")


def lives(st):
    """Any number of lives of one image, cut anywhere: no start or end number of one opening is given in a
    later one; the records are the book's; recovery leaves word 3 alone."""
    seen = Counter()
    for run in range(int(240 * SHARE)):
        rng = random.Random("lives/%d" % run)
        word_3 = L - 1 - rng.randrange(9000) if run % 8 == 5 else None  # few openings are left
        trial, earlier = Trial(st, rng, rng.randrange(1, 5), rng.randrange(1, 4), word_3), set()
        for _ in range(rng.randrange(2, 10)):
            given = set(trial.passed)
            seen["cut in " + life(trial, rng, given)] += 1
            same(sorted(given & earlier), [], "numbers given again in run %d" % run)
            earlier |= given
            seen["replayed"] += recovered(st, trial, rng, run)
            same(trial.homes(), trial.book.records(), "records in run %d" % run)
            while rng.random() < 0.4:
                open_cut(st, trial, rng)
                seen["cut in open"] += 1
                recovered(st, trial, rng, run)
                same(trial.homes(), trial.book.records(), "records, open cut in run %d" % run)
            if trial.image[3] >= L:
                same(answer_of(st.open_image(trial.image, 48)), (10, 0), "open in run %d" % run)
                seen["used up"] += 1
                break
            trial.opened()
    wanted = {"cut in a raise": 60, "cut in a group's raise": 20, "cut in another call": 60, "cut in open": 60,
              "used up": 6}
    few = [name for name, least in wanted.items() if seen[name] < least * SHARE]
    same(few, [], "too few of")
    return ", ".join("%s %d" % part for part in sorted(seen.items()))


def life(trial, rng, given):
    """The calls of one opening up to the cut; where a publish raises word 3, it is mostly the call that is cut."""
    at_raise = rng.random() < 0.7
    for _ in range(rng.randrange(5, 60)):
        step = trial.choose()
        done = trial.made(*step)
        if at_raise and step[0] in PUBLISHES and done["entries"]:
            trial.memory.take(done["entries"][:rng.randrange(3)])
            trial.image = trial.memory.cut(rng)
            return "a raise" if step[0] == "publish" else "a group's raise"
        trial.foresight.step(*step)
        trial.take(step, done)
        if done["answer"]["name"] in ("start", "end"):
            given.add(done["answer"]["value"])
    cut_call(trial, rng)
    return "another call"


def open_cut(st, trial, rng):
    """An opening that is cut: nothing to all of its entries are made, and the desk is lost."""
    memory = Memory(trial.image)
    memory.take(st.open_image(trial.image, 48)["entries"][:rng.randrange(3)])
    trial.image = memory.cut(rng)


def numbers_follow(lines, what):
    """The numbers that the program prints are those of a clock and a ceiling kept from its lines alone; none
    of an earlier opening comes back. Returns the largest start."""
    clock = ceiling = pending = largest = 0
    given, earlier = set(), set()
    for line in lines:
        fields = line.split(" ")
        call, name, last = fields[1], fields[-2], fields[-1]
        if call == "cut":
            pending = int(last)
        elif call == "open" or (call, last) == ("lay", "ok"):
            clock, ceiling = ceiling + 1, ceiling + 1025
            given, earlier = set(), earlier | given
        elif (call, last) == ("publish", "cut"):
            same(clock, ceiling, "%s, a publish with entries: %s" % (what, line))
            ceiling = clock + 1025 if pending else ceiling
        elif name in ("start", "sealed", "end"):
            clock += name == "end"
            same(int(last), clock, "%s: %s" % (what, line))
            ceiling = clock + 1024 if clock > ceiling else ceiling
            if name != "sealed":
                given.add(clock)
                same(clock in earlier, False, "%s, given again: %s" % (what, line))
                largest = clock
    return largest


def stream_numbers(st):
    """The numbers in whole streams with many openings, or with an opening in which word 3 is raised."""
    kinds = [("openings", 3), ("cuts_publish", 2), ("restless", 2), ("cuts_finish", 1), ("cuts_idle", 2)]
    for kind, seed in [(kind, seed) for kind, seeds in kinds for seed in range(seeds)]:
        numbers_follow(reelwalk.run(streams.stream(kind, seed), st), "%s %d" % (kind, seed))
    largest = []
    for way, start in ((0, 1026), (1, 2051), (2, 2051), (3, None)):
        lines = reelwalk.run(streams.stream("ceiling", way), st)
        largest.append(numbers_follow(lines, "ceiling %d" % way))
        at = lines.index("6150 publish 1 cut" if start else "6149 publish 1 end 1026")
        if start:
            same(next(int(line.split(" ")[-1]) for line in lines[at:] if " start " in line), start, "start")
        else:
            same([line.split(" ", 1)[1] for line in lines[at:] if " wait " in line][:3],
                 ["settle 0 wait 2", "settle 1 wait 2", "settle 1 wait 3"], "readers over the raise")
    if largest[3] <= 2050:
        raise AssertionError("no number above the raise: %d" % largest[3])
    return "largest starts %s" % largest


def walked(rw, text, clock=None):
    """The lines of these steps behind a laid store of two records and sessions; with a clock, so many
    publishes have passed by before. Steps count from 2."""
    walk, data, at, lines = rw.Walk(), bytes.fromhex(text), 0, []
    same(walk.step(0, bytes([2, 2])), ["1 lay 2 2 ok"], "lay")
    walk.desk = dict(walk.desk, clock=clock or walk.desk["clock"])
    while at < len(data):
        size = rw.BODIES[data[at]]
        lines += walk.step(data[at], data[at + 1:at + 1 + size])
        at += 1 + size
    return lines


WRITTEN = "0100 030001" + "07" * 32  # session 0 begins and writes record 1
SEVENS = " ".join(["506381209866536711"] * 4)


def walk_cuts(rw):
    """A cut covers publish: with entries "cut", without or refused its usual result; the desk is then lost."""
    for k, start in ((0, 1026), (1, 2051), (2, 2051), (3, 2051), (255, 2051)):
        same(walked(rw, WRITTEN + "0400 09%02x 0500 0101 020101 0500" % k, 1025)[2:],
             ["4 finish 0 sealed 1025", "5 cut %d" % k, "6 publish 0 cut", "6 replayed 1025", "6 open",
              "7 begin 1 start %d" % start, "8 read 1 1 %s home" % SEVENS, "9 publish 0 no 6"], "a raise cut")
        same(walked(rw, WRITTEN + "0400 09%02x 0101 0500 0101 020101 0500" % k, 1024)[3:],
             ["5 cut %d" % k, "6 begin 1 start 1024", "7 publish 0 end 1025", "7 replayed 1024", "7 open",
              "8 begin 1 start 1026", "9 read 1 1 %s home" % SEVENS, "10 publish 0 no 6"], "no entries, cut")
        same(walked(rw, WRITTEN + "09%02x 0500 0100 020001 0400 0500" % k)[2:],
             ["4 cut %d" % k, "5 publish 0 no 6", "5 open", "6 begin 0 start 1026", "7 read 0 1 0 0 0 0 home",
              "8 finish 0 empty", "9 publish 0 no 6"], "a refused publish cut")
        same(walked(rw, WRITTEN + "0400 09%02x 0502 0100" % k)[3:],
             ["5 cut %d" % k, "6 publish 2 no 4", "6 replayed 1", "6 open", "7 begin 0 start 1026"],
             "a publish out of range cut")
    same(walked(rw, "0903 0500 " + WRITTEN + "0400 0500 0600 0700 0903 0501 0100 0501")[1:],
         ["3 publish 0 no 6", "3 open", "4 begin 0 start 1026", "5 write 0 1 ok", "6 finish 0 sealed 1026",
          "7 publish 0 end 1027", "8 settle 0 ok", "9 reclaim 0 cleared 1026", "10 cut 3", "11 publish 1 no 6",
          "11 open", "12 begin 0 start 2051", "13 publish 1 no 6"], "one cut for one step")
    same(walked(rw, WRITTEN + "0400 0500 0101 020101 0600 0401 0901 0600 0100", 1025)[2:],
         ["4 finish 0 sealed 1025", "5 publish 0 end 1026", "6 begin 1 start 1026",
          "7 read 1 1 %s copy" % SEVENS, "8 settle 0 ok", "9 finish 1 empty", "10 cut 1", "11 settle 0 no 6",
          "11 replayed 1025", "11 open", "12 begin 0 start 2051"], "a raise that is not cut")
    same(walked(rw, "0900 0700" * 3 + "0100")[-3:],
         ["7 reclaim 0 none", "7 open", "8 begin 0 start 3076"], "each opening uses up 1,025 numbers")
    for kind, seed in (("openings", 1), ("openings", 2), ("cuts_publish", 1), ("cuts_idle", 1)):
        numbers_follow(rw.run(streams.stream(kind, seed)), "%s %d" % (kind, seed))
        same(rw.run(streams.stream(kind, seed)), reelwalk.run(streams.stream(kind, seed)), "lines")


# ---- a van load (document 02, Req 06) --------------------------------------

def published(desk, sessions, end):
    """The desk with these sessions published with this end and the clock at it; all else is as it was."""
    entries = [dict(e, phase="published", number=end) if session in sessions else e
               for session, e in enumerate(desk["sessions"])]
    return dict(desk, sessions=entries, clock=end)


def mixed(st, phases, clock=9, word_3=2 ** 63):
    """Image and desk with sessions in these phases, from 0 up; session s copies records s and 31 - s, a reader
    is active without copies. Persist numbers fall."""
    desk = st.new_desk(clock, 32, len(phases))
    for session, phase in enumerate(phases):
        copies = [[session, [session, 2, 3, 4]], [31 - session, [5] * 4]] if phase not in ("idle", "reader") else []
        if phase != "idle":
            name, number = ("active", 1) if phase in ("reader", "writer") else (phase, max(2, clock - session))
            desk["sessions"][session] = st.entry(name, number, copies, session % 2 if copies else 0)
        for record, _ in copies:
            desk["marks"][record] = session
    return laid(st, 32, len(phases), word_3), queued(desk)


PHASES = ["sealed", "idle", "reader", "writer", "published", "sealed"]


def group_sets(st):
    """Bit s stands for session s: its members have one end, the clock is that, all others are left. Of a set that
    is refused, by 19, 4 or 6, nobody is published."""
    image, desk = sealed_scene(st, 9, 10, 16)
    sets = [2 ** s for s in range(16)] + [65535 - 2 ** s for s in range(16)] + [65535]
    sets += [2 ** a + 2 ** b for a, b in itertools.combinations(range(16), 2)]
    sets += random.Random("sets").sample(range(1, 65536), int(400 * SHARE))
    for members in sets:
        done = st.publish_group(image, desk, 48, members)
        same(told(done), ("end", 10, ZEROS), "set %d" % members)
        left(done, image, published(desk, sessions_in(members), 10), "set %d" % members)
    image, desk = mixed(st, PHASES)
    for sessions in subsets([0, 1, 2, 3, 4, 5, 6, 7, 15]):
        past, other = any(s > 5 for s in sessions), any(s not in (0, 5) for s in sessions)
        wanted = 19 if not sessions else 4 if past else 6 if other else "end"
        done = st.publish_group(image, desk, 48, sum(2 ** s for s in sessions))
        same(told(done), (wanted, 10 if wanted == "end" else 0, ZEROS), "set of %s" % sessions)
        left(done, image, published(desk, sessions, 10) if wanted == "end" else desk, "set of %s" % sessions)
    for m in range(1, 17):
        image, desk = sealed_scene(st, 9, 10, m, 16, m)
        for members, wanted in ((2 ** m - 1, "end"), (65535, 4 if m < 16 else "end"), (2 ** (m - 1), "end")):
            same(answer_of(st.publish_group(image, desk, 48, members))[0], wanted, "%d of %d" % (members, m))


def group_orders(st):
    """The checks are 1, 2, 3, 19, 4, 6, in this order, and no other; all is left."""
    for wrong, how in itertools.product(subsets([1, 2, 3, 19, 4, 6]), ("ceiling", "clock", "rest")):
        if 19 in wrong and {4, 6} & set(wrong):
            continue  # an empty set has no members
        image, desk = mixed(st, PHASES, 9, 8 if 2 in wrong and how == "ceiling" else 9)
        desk = dict(desk, clock=0) if 2 in wrong and how == "clock" else desk
        if 2 in wrong and how == "rest":  # a session past M is sealed, and at 4 it is in the set
            desk = st.with_entry(desk, 7, st.entry("sealed", 1, [[12, [0] * 4]]))
            desk["marks"][12] = 7
        members = 0 if 19 in wrong else 33 + (128 if 4 in wrong else 0) + (8 if 6 in wrong else 0)
        image = image[:-1] if 1 in wrong else image
        done = st.publish_group(image, desk, 47 if 3 in wrong else 48, members)
        same(told(done), (wrong[0], 0, ZEROS) if wrong else ("end", 10, ZEROS), "group with %s" % wrong)
        if wrong:
            left(done, image, desk, "group refused with %d" % wrong[0])
    for trace, (members, wanted) in itertools.product(range(65), ((0, 19), (1, "end"), (33, "end"), (3, 6), (65, 4))):
        for word_3 in (9, 10):  # also where there are no entries
            got = answer_of(st.publish_group(*mixed(st, PHASES, 9, word_3), trace, members))[0]
            same(got, 3 if trace < 48 else wanted, "set %d, trace of %d" % (members, trace))


def group_raises(st):
    """Publish's raise, once for all members: two entries when the new clock passes word 3, else none."""
    rows = [(clock, clock + more, 16) for clock in (1, 2, 1025, L - 1026, L - 1025, L - 1, L)
            for more in (0, 1, 2, 1023, 1024, 1025)]
    rows += [(clock, word_3, 16) for clock in (1, 9, L) for word_3 in (L, L + 1, 2 ** 63, TOP)]
    rows += [(L + 16 - sealed, L + 16 - sealed + more, sealed) for sealed in range(1, 17) for more in (0, 1)]
    for (clock, word_3, sealed), size in itertools.product(rows, (1, 2, 15, 16)):
        members = range(sealed)[-size:]
        what = "group of %d with clock %d, word 3 at %d" % (len(members), clock, word_3)
        image, desk = sealed_scene(st, clock, word_3, sealed)
        done = st.publish_group(image, desk, 48, sum(2 ** s for s in members))
        same(told(done), ("end", clock + 1, ZEROS), what)
        if clock + 1 > word_3:
            stored_alone(done, image, 3, clock + 1025, what)
            same(done["desk"], published(desk, members, clock + 1), "desk after " + what)
        else:
            left(done, image, published(desk, members, clock + 1), what)
        same(st.broken_rules(done["desk"], done["image"]), [], "rules broken after " + what)


def group_singles(st):
    """A group of one does what publish does: answer, desk, image and entries, accepted or refused."""
    seen = Counter()
    for run in range(int(700 * SHARE)):
        rng = random.Random("singles/%d" % run)
        case = raw.session_scene(rng, "publish")
        sealed = [s for s, e in enumerate(case["desk"]["sessions"]) if e["phase"] == "sealed"]
        if sealed and rng.random() < 0.6:
            case["session"] = rng.choice(sealed)
        if rng.random() < 0.3:
            case = raw.with_ceiling(case, case["desk"]["clock"])
        for number in [k for k in (4, 3, 2, 1) if rng.random() < 0.15]:
            if number != 4:
                raw.spoil(rng, case, number)
            elif case["desk"]["M"] < 16:
                case["session"] = rng.randrange(case["desk"]["M"], 16)
        given = (case["image"], case["desk"], case["trace"])
        done = st.publish(*given, case["session"])
        same(st.publish_group(*given, 2 ** case["session"]), done, "group of one in run %d" % run)
        seen[answer_of(done)[0], len(done["entries"])] += 1
    wanted = [("end", 0), ("end", 2), (1, 0), (2, 0), (3, 0), (4, 0), (6, 0)]
    same([key for key in wanted if seen[key] < 20 * SHARE], [], "too few of")
    return ", ".join("%s with %d entries %d" % (*key, seen[key]) for key in wanted)


def loaded(st, m, writers, word_3=0):
    """An opened image with M sessions and 16 records: these have sealed a copy of the record of their number."""
    done = st.open_image(laid(st, 16, m, word_3), 48)
    image, desk = done["image"], done["desk"]
    for session in writers:
        desk = st.begin(desk, session)["desk"]
        desk = st.write(image, desk, session, session, [session + 50] * 4)["desk"]
        done = st.finish(image, desk, 48, session)
        image, desk = done["image"], done["desk"]
    return image, desk


def seen_by(st, image, desk, session):
    """By record, where a session is shown it from, and whether its words are the new ones."""
    answers = [st.read(image, desk, session, record)["answer"] for record in range(16)]
    return [(a["name"], a["words"] == [record + 50] * 4) for record, a in enumerate(answers)]


def group_moment(st):
    """A group is seen whole by those who begin after it, and not at all by those before it."""
    new, old = ("copy", True), ("home", False)
    image, desk = loaded(st, 16, range(15))
    desk = st.begin(desk, 15)["desk"]
    done = st.publish_group(image, desk, 48, 2 ** 14 - 1)  # session 14 is sealed and stays so
    same(told(done), ("end", 2, ZEROS), "fourteen sessions")
    same(seen_by(st, done["image"], done["desk"], 15), [old] * 16, "begun before it")
    for session in range(14):  # each settles by itself, and waits for a reader that began before
        same(answer_of(st.settle(done["image"], done["desk"], 48, session)), ("wait", 15), "settle")
    image, desk = done["image"], st.begin(st.abandon(done["desk"], 15)["desk"], 15)["desk"]
    same(seen_by(st, image, desk, 15), [new] * 14 + [old] * 2, "begun after it")
    for session in (13, 0, 7):
        done = st.settle(image, desk, 48, session)
        same(answer_of(done), ("ok", 0), "settle with a reader that began after")
        image, desk = done["image"], done["desk"]
    wanted = [("home", True) if record in (13, 0, 7) else new for record in range(14)]
    same(seen_by(st, image, desk, 15), wanted + [old] * 2, "some settled")
    done = st.publish_group(image, desk, 48, 2 ** 14)
    same(told(done), ("end", 3, ZEROS), "the next")
    same(answer_of(st.publish_group(image, desk, 48, 2 ** 14 + 2)), (6, 0), "one that is published already")
    image, desk = loaded(st, 16, reversed(range(16)))  # up to sixteen sessions
    done = st.publish_group(image, desk, 48, 65535)
    same(told(done), ("end", 2, ZEROS), "sixteen sessions")
    done = st.settle(done["image"], done["desk"], 48, 9)
    image, desk = done["image"], st.begin(done["desk"], 9)["desk"]
    same(seen_by(st, image, desk, 9), [("home", True) if r == 9 else new for r in range(16)], "all sixteen")


def group_cuts(st):
    """A cut in a group's raise, with nothing to all of its entries made and word 3 arrived or not: every member
    is replayed, and the next opening starts above 1,025, or above the raise if it has arrived."""
    for members, made, torn in itertools.product((65535, 7, 32768), range(3), (False, True)):
        image, desk = loaded(st, 16, range(16))
        desk = dict(desk, clock=1025)
        done = st.publish_group(image, desk, 48, members)
        same((told(done), len(done["entries"])), (("end", 1026, ZEROS), 2), "a raise")
        image = st.made(image, st.arrived(done["entries"], made, lambda entry: torn))
        for _ in range(16):
            again = st.recover(image, 48)
            same(answer_of(again), ("replayed", 1), "recover")
            image = again["image"]
        same(answer_of(st.recover(image, 48)), ("clean", 0), "recover")
        same([image[4 + 4 * r] for r in range(16)], [50 + r for r in range(16)], "records")
        start = 2051 if made == 2 or (made == 1 and torn) else 1026
        same(st.open_image(image, 48)["desk"]["clock"], start, "clock of the opening after %d entries" % made)


class GroupTrial(Trial):
    """A trial with many sessions, most of them published in groups, and soon sealed but not soon settled."""

    def __init__(self, st, rng):
        m = rng.choice([2, 4, 7, 12, 15, 16])
        super().__init__(st, rng, rng.randrange(m, 4 * m), m)
        self.groups, self.waits, self.lazy = 0.95, rng.choice([0.5, 0.8, 0.9]), 0.7

    def choose_one(self):
        call, session, record, words = super().choose_one()
        if call == "settle" and self.rng.random() < 0.5:
            return self.choose_one()
        if call in ("write", "finish") and session < self.m and self.rng.random() < 0.8:
            call = "finish" if self.foresight.mine[session] else "write"
        copied = [record for s in range(self.m) if self.foresight.phase[s] == "published"
                  for record in self.foresight.mine[s]]
        if call == "read" and copied and self.rng.random() < 0.7:
            record = self.rng.choice(copied)
        return call, session, record, words


def overlaps(book):
    """The records that two transactions with one end have both."""
    return [record for drafts in book.together().values() for record, times in Counter(
        record for draft in drafts for record in draft).items() if times > 1]


def group_ends(st):
    """The members of a group share an end; no record is in two drafts of one end."""
    shared = 0
    for run in range(int(40 * SHARE)):
        trial = GroupTrial(st, random.Random("ends/%d" % run))
        for _ in range(150):
            step = trial.choose()
            done = trial.made(*step)
            trial.foresight.step(*step)
            trial.take(step, done)
        same(overlaps(trial.book), [], "records of one end in run %d" % run)
        shared += sum(len(drafts) > 1 for drafts in trial.book.together().values())
    if shared < 40 * SHARE:
        raise AssertionError("too few shared ends: %d" % shared)
    return "%d ends shared" % shared


def group_step(st, trial, seen, what):
    """One call: its answer as foreseen, its words as the book says, in both wordings."""
    step = trial.choose()
    done = trial.made(*step)
    call, session, record, _ = step
    answer, words = answer_of(done), done["answer"]["words"]
    same((*answer, len(done["entries"])), trial.foresight.step(*step), "%s %s" % (call, what))
    check_shape(st, trial, step, done)
    if answer[0] in ("copy", "home"):
        same(words, trial.book.shared(session, record), "words of %s %s" % (answer[0], what))
        same(words, trial.book.view(session)[record], "view %s" % what)
        ends = [e["end"] for e in trial.book.list if record in e["draft"]]
        seen["copy of a shared end"] += answer[0] == "copy" and len(trial.book.together()[ends[-1]]) > 1
    if call == GROUP:
        size = len(sessions_in(session))
        seen["group %s" % answer[0]] += 1
        seen["members"] += size if answer[0] == "end" else 0
        seen["group of four or more"] += answer[0] == "end" and size > 3
    return step, done


def group_life(st, trial, rng, given, seen, what):
    """The calls of one opening up to the cut, mostly in a group's raise where there is one."""
    for _ in range(rng.randrange(20, 130)):
        word_3 = trial.image[3]
        step, done = group_step(st, trial, seen, what)
        if step[0] == GROUP and done["entries"] and rng.random() < 0.7:
            trial.memory.take(done["entries"][:rng.randrange(3)])
            trial.image = trial.memory.cut(rng)
            seen["cut in a group's raise"] += 1
            seen["word 3 kept"] += trial.image[3] == word_3
            return
        trial.take(step, done)
        if done["answer"]["name"] in ("start", "end"):
            given.add(done["answer"]["value"])
    cut_call(trial, rng)


def group_runs(st):
    """Demands 2 and 3 with many groups: answers, words, the records after a cut; no number comes back in later
    lives."""
    seen = Counter()
    for run in range(int(50 * SHARE)):
        rng, what = random.Random("groups/%d" % run), "in run %d" % run
        trial, earlier = GroupTrial(st, rng), set()
        for _ in range(4):
            given = set(trial.passed)
            group_life(st, trial, rng, given, seen, what)
            same(sorted(given & earlier), [], "numbers given again " + what)
            earlier |= given
            recovered(st, trial, rng, run)
            same(trial.homes(), trial.book.records(), "records " + what)
            trial.opened()
    wanted = {"group end": 200, "group 19": 20, "group 4": 5, "group 6": 8, "group of four or more": 30,
              "copy of a shared end": 50, "cut in a group's raise": 15, "word 3 kept": 6}
    few = [name for name, least in wanted.items() if seen[name] < least * SHARE]
    same(few, [], "too few of")
    return ", ".join("%s %d" % part for part in sorted(seen.items()))


# ---- short logs (document 02, Req 08) --------------------------------------

def edited_copies(image, records, spots):
    """Copies of these records; at these spots, 4 times the place plus the word, a word is 1 above home."""
    return [[record, [image[4 + 4 * record + i] + (4 * place + i in spots) for i in range(4)]]
            for place, record in enumerate(records)]


def writer(st, n, copies, clock=5, m=2):
    """A desk on which session 1 is active with these copies, for its slot 1."""
    desk = st.new_desk(clock, n, m)
    desk["sessions"][1] = st.entry("active", 1, copies, 1)
    for record, _ in copies:
        desk["marks"][record] = 1
    return queued(desk)


def numbered(st, n, m=2):
    """A laid image whose home words are their indexes plus 500."""
    image = laid(st, n, m)
    return image[:4] + [500 + index for index in range(4 * n)] + image[4 + 4 * n:]


def finish_wanted(image, copies, at, number):
    """What a finish stores, by a comparison of all home words before and after a settle."""
    after, n = list(image), image[1]
    for record, words in copies:
        after[4 + 4 * record:8 + 4 * record] = words
    pairs = [[index, after[4 + index]] for index in range(4 * n) if after[4 + index] != image[4 + index]]
    body = [16 + len(pairs)] + sum(pairs, [])
    if len(pairs) > LAST_SHORT[len(copies)]:
        body = [len(copies)] + sum(([record] + words for record, words in copies), [])
    return list(zip(range(at + 1, at + 22), body)) + [FENCE, (at, number), FENCE]


def replay_wanted(image):
    """What a recover of sound logs stores: the slot with the smallest number, its words read by hand."""
    first = 4 + 4 * image[1]
    at = min((at for at in range(first, len(image), 22) if image[at]), key=lambda at: (image[at], at))
    count, body = image[at + 1], image[at + 2:at + 22]
    if count >= 16:
        stores = [(4 + index, word) for index, word in list(zip(body[::2], body[1::2]))[:count - 16]]
    else:
        stores = [(4 + 4 * body[5 * c] + i, body[5 * c + 1 + i]) for c in range(count) for i in range(4)]
    return stores + [FENCE, (at, 0), FENCE]


def short_finishes(st):
    """The entries of finish: in numbers with no, one, two and nine words that differ, and on both sides of each step."""
    image, at = numbered(st, 8), 4 + 32 + 66  # home words 500 to 531; slot 1 of session 1
    def stored(records, spots):
        done = st.finish(image, writer(st, 8, edited_copies(image, records, spots)), 48, 1)
        same((answer_of(done), done["desk"]["sessions"][1]["phase"]), (("sealed", 5), "sealed"), "finish")
        return done["entries"]
    end = [FENCE, (102, 5), FENCE]
    same(stored([3], []), [(103, 16)] + end, "one copy, no word")
    same(stored([3, 0, 7, 1], []), [(103, 16)] + end, "four copies, no word")
    same(stored([3], [2]), [(103, 17), (104, 14), (105, 515)] + end, "one copy, one word")
    same(stored([0], [0]), [(103, 17), (104, 0), (105, 501)] + end, "the first home word")
    same(stored([7], [3]), [(103, 17), (104, 31), (105, 532)] + end, "the last home word")
    same(stored([6, 2], [1, 7]), [(103, 18), (104, 11), (105, 512), (106, 25), (107, 526)] + end, "two copies, two words")
    same(stored([3], [1, 2, 3]), [(103, 1), (104, 3), (105, 512), (106, 514), (107, 515), (108, 516)] + end, "three words")
    same(stored([7, 1, 4, 0], [0, 1, 2, 3, 4, 10, 12, 13, 15]),
         [(103, 25), (104, 0), (105, 501), (106, 1), (107, 502), (108, 3), (109, 504), (110, 4), (111, 505), (112, 18), (113, 519),
          (114, 28), (115, 529), (116, 29), (117, 530), (118, 30), (119, 531), (120, 31), (121, 532)] + end, "four copies, nine words")
    forms = Counter()
    for records in ([5], [6, 2], [4, 7, 0], [1, 6, 3, 2]):
        for k in range(4 * len(records) + 1):
            for spots in (range(k), range(4 * len(records) - k, 4 * len(records)), [i * 4 * len(records) // k for i in range(k)]):
                entries = stored(records, spots)
                same(entries, finish_wanted(image, edited_copies(image, records, spots), at, 5), "%s, %s" % (records, list(spots)))
                same(len(entries), entries_of_finish(len(records), k), "entries")
                forms[len(records), form_of(entries[0][1])] += 1
    same(dict(forms), {(1, "short"): 9, (1, "full"): 6, (2, "short"): 15, (2, "full"): 12, (3, "short"): 24, (3, "full"): 15,
                       (4, "short"): 30, (4, "full"): 21}, "forms")
    for one, other in ((0, TOP), (5, 2 ** 63 + 5), (2 ** 32 + 5, 5), (TOP, TOP - 1), (1, 0), (2 ** 40, 2 ** 41)):
        home = image[:17] + [one] + image[18:]
        copy = [[3, [512, other, 514, 515]]]
        done = st.finish(home, writer(st, 8, copy), 48, 1)
        same(done["entries"], [(103, 17), (104, 13), (105, other)] + end, "%d over %d" % (other, one))
    for clock, copies, wanted in ((L - 1, [[3, [512, 513, 514, 515]]], ("sealed", L - 1)), (L, [[3, [512, 513, 514, 515]]], (10, 0)),
                                  (L, [], ("empty", 0))):
        desk = writer(st, 8, copies, clock)
        desk["sessions"][1]["slot"] = int(bool(copies))
        same(answer_of(st.finish(image, desk, 48, 1)), wanted, "clock")


def with_log(image, place, words):
    """The image with these words at the front of a slot."""
    at = 4 + 4 * image[1] + 22 * place
    return image[:at] + words + image[at + len(words):]


def short_replays(st):
    """The entries of recover: in numbers with no, one and nine pairs; either form; the smallest number, and what is left."""
    image = numbered(st, 8)
    nine = [0, 3, 4, 8, 9, 20, 27, 30, 31]
    for indexes in ([], [0], [31], [4, 5], nine):
        log = [7, 16 + len(indexes)] + [word for index in indexes for word in (index, 900 + index)]
        before = with_log(image, 2, log + [77] * (22 - len(log)))
        done = st.recover(before, 48)
        same(answer_of(done), ("replayed", 7), "recover")
        same(done["entries"], [(4 + index, 900 + index) for index in indexes] + [FENCE, (80, 0), FENCE], "replay of %s" % indexes)
        same(answer_of(st.recover(done["image"], 48)), ("clean", 0), "and then")
    one, two = [3, 17, 9, 901], [4, 1, 2, 902, 903, 904, 905]
    for places in ((0, 3), (3, 0), (1, 2)):
        done = st.recover(with_log(with_log(image, places[0], one), places[1], two), 48)
        same((answer_of(done), done["entries"][:-3]), (("replayed", 3), [(13, 901)]), "the smaller number")
        done = st.recover(done["image"], 48)
        same((answer_of(done), done["entries"][:-3]), (("replayed", 4), [(12, 902), (13, 903), (14, 904), (15, 905)]), "and the other")
        done = st.recover(with_log(with_log(image, places[0], [6] + one[1:]), places[1], two), 48)
        same((answer_of(done), done["entries"][-2]), (("replayed", 4), (36 + 22 * places[1], 0)), "the full one first")


def short_refusals(st):
    """12: each count, indexes at and past the last home word, and indexes that don't ascend, at each place."""
    def told(n, log, place=1, m=1):
        done = st.recover(with_log(numbered(st, n, m), place, log + [0] * (22 - len(log))), 48)
        return answer_of(done)
    either = [0, 9, 1, 9, 2, 6, 3, 9, 4, 9, 5, 9, 6, 9, 7, 2, 8, 9, 9, 9]  # sound but for the count, read either way
    for count in [*range(60), 255, 256 + 1, 256 + 16, 2 ** 32 + 3, 2 ** 32 + 16, 2 ** 63, 2 ** 63 + 20, TOP - 15, TOP]:
        sound = count in (1, 2, 3, 4, 16, 17, 18, 19, 20, 21, 22, 23, 24, 25)
        same(told(8, [7, count] + either), ("replayed", 7) if sound else (12, 1), "count %d" % count)
        same(told(8, [0, count] + either), ("clean", 0), "count %d in an empty slot" % count)
    for n in (1, 2, 8, 64, 256):
        for index, wanted in ((4 * n - 1, ("replayed", 7)), (4 * n, (12, 1)), (4 * n + 1, (12, 1)), (2 ** 62, (12, 1)),
                              (2 ** 62 + 1, (12, 1)), (2 ** 32, (12, 1)), (TOP, (12, 1)), (TOP - 3, (12, 1))):
            same(told(n, [7, 17, index, 9]), wanted, "index %d, N %d" % (index, n))
            same(told(n, [7, 18, 0, 9, index, 9]), wanted, "index %d, N %d" % (index, n))
            same(told(n, [7, 17, 0, 9, index, 9]), ("replayed", 7), "index past the pairs")
    even = list(range(2, 20, 2))
    for k in range(2, 10):
        same(told(8, [7, 16 + k] + [w for index in even[:k] for w in (index, 9)]), ("replayed", 7), "ascending")
        for at in range(1, k):
            for less in (0, 1):
                indexes = even[:at] + [even[at - 1] - less] + even[at + 1:]
                pairs = [w for index in indexes for w in (index, 9)]
                same(told(8, [7, 16 + k] + pairs), (12, 1), "%s, %d pairs" % (indexes, k))
                same(told(8, [7, 16 + at] + pairs), ("replayed", 7), "%s, %d pairs" % (indexes, at))
    image = numbered(st, 8, 3)
    for logs, wanted in (({1: [2, 1, 8], 3: [1, 17, 32]}, 1), ({1: [2, 17, 32], 3: [1, 1, 8]}, 1), ({0: [1, 17, 31], 5: [2, 26]}, 5),
                         ({0: [1, 1, 7], 4: [2, 18, 5, 0, 5]}, 4), ({2: [2, 17, 32], 4: [2, 17, 32], 0: [2, 16]}, 2)):
        before = image
        for place, log in logs.items():
            before = with_log(before, place, log)
        same(answer_of(st.recover(before, 48)), (12, wanted), "the lowest place")
        same(answer_of(st.recover(before, 47)), (3, 0), "3 before 12")
        same(answer_of(st.recover(before[:-1], 47)), (1, 0), "1 before 3 and 12")


def short_ties(st):
    """13: whether two logs touch a record in common, over all pairs of some logs of both forms."""
    bodies = [([16], []), ([17, 0, 9], [0]), ([17, 3, 9], [0]), ([17, 4, 9], [1]), ([17, 7, 9], [1]), ([17, 8, 9], [2]),
              ([18, 3, 9, 8, 9], [0, 2]), ([18, 4, 9, 11, 9], [1, 2]), ([17, 3, 9, 8, 9], [0]), ([16, 3, 9, 8, 9], []),
              ([19, 12, 9, 20, 9, 31, 9], [3, 5, 7]), ([1, 0], [0]), ([1, 1], [1]), ([1, 2], [2]), ([1, 7], [7]), ([1, 4], [4]),
              ([2, 5, 9, 9, 9, 9, 0], [5, 0]), ([2, 3, 9, 9, 9, 9, 2], [3, 2]), ([1, 5, 9, 9, 9, 9, 0], [5]),
              ([25, 0, 9, 1, 9, 4, 9, 5, 9, 6, 9, 7, 9, 16, 9, 17, 9, 31, 9], [0, 1, 4, 7])]
    image, seen = numbered(st, 8), Counter()
    for (one, first), (other, second) in itertools.product(bodies, repeat=2):
        for places, numbers in itertools.product(((0, 1), (0, 3), (2, 1)), ((5, 5), (5, 6), (TOP, TOP), (5, 2 ** 32 + 5))):
            before = with_log(with_log(image, places[0], [numbers[0]] + one), places[1], [numbers[1]] + other)
            odd = numbers[0] == numbers[1] and bool(set(first) & set(second))
            done = st.recover(before, 48)
            same(answer_of(done), (13, 0) if odd else ("replayed", min(numbers)), "%s and %s" % (one, other))
            if not odd:
                same(done["entries"], replay_wanted(before), "%s and %s" % (one, other))
            seen[odd] += 1
    return "%(True)d at odds, %(False)d not" % {str(key): times for key, times in seen.items()}


def arrivals(rng, before, entries):
    """Images after a cut: each number of entries made, of the loose ones none, all, each alone, all but each, and some."""
    for k in range(len(entries) + 1):
        memory = Memory(before)
        memory.take(entries[:k])
        loose = memory.loose
        chosen = [[], loose] + [[one] for one in loose] + [[one for one in loose if one != left] for left in loose]
        chosen += [[one for one in loose if rng.random() < 0.5] for _ in range(3)]
        for some in chosen:
            yield memory.after(some)


def short_cuts(st):
    """Finishes of either form cut everywhere, over an older log of the same records, and their recovery cut everywhere:
    the records are as before, or as written if the persist number has arrived."""
    rng, ends = random.Random("short cuts"), Counter()
    for records, spots in (([2], []), ([2], [1]), ([2], [0, 3]), ([2], [0, 1, 3]), ([2, 0], []), ([2, 0], [0, 4, 5, 7]),
                           ([2, 0], [0, 4, 5, 6, 7]), ([3, 0, 1, 2], [0, 2, 4, 5, 6, 7, 8, 9, 15])):
        image = numbered(st, 4)
        older = with_log(image, 0, [2, 1, 2, *image[12:16]] if len(spots) % 2 else [2, 18, 8, image[12], 11, image[15]])
        copies = edited_copies(image, records, spots)
        written = list(image)
        for record, words in copies:
            written[4 + 4 * record:8 + 4 * record] = words
        entries = st.finish(older, writer(st, 4, copies), 48, 1)["entries"]
        for cut in arrivals(rng, older, entries):
            sealed = cut[4 + 16 + 66] != 0
            for _ in range(4):
                done = st.recover(cut, 48)
                if answer_of(done)[0] == "clean":
                    break
                for again in arrivals(rng, cut, done["entries"]):
                    if rng.random() > 0.2:
                        continue
                    ends["cut again"] += 1
                    same(cleaned(st, again)[4:20], (written if sealed else image)[4:20], "records after a cut recovery")
                cut = done["image"]
            same(cut[4:20], (written if sealed else image)[4:20], "records, %s of %s" % (spots, records))
            ends["sealed" if sealed else "not sealed"] += 1
    return ", ".join("%s %d" % part for part in sorted(ends.items()))


def cleaned(st, image):
    """The image recovered."""
    for _ in range(9):
        done = st.recover(image, 48)
        if answer_of(done) == ("clean", 0):
            return image
        same(answer_of(done)[0], "replayed", "recover")
        image = done["image"]
    raise AssertionError("recovery without end")


# ---- the order in which sessions began (document 02, Req 09) ----------------

def waiting(st, queue, order=None, seats=(), clock=9, m=16):
    """A desk with these active sessions, by session and start, as they began, with this order if it is another; the
    seats are session, phase and number of others, each with a copy of the record of its number."""
    desk = st.new_desk(clock, 32, m)
    for session, start in queue:
        desk["sessions"][session] = st.entry("active", start)
    for session, phase, number in seats:
        desk["sessions"][session] = st.entry(phase, number, [[session, [session, 2, 3, 4]]], session % 2)
        desk["marks"][session] = session
    order = [session for session, _ in queue] if order is None else list(order)
    return dict(desk, order=order + [0] * (16 - len(order)))


def order_right(desk):
    """Whether the order is right, found in another way: its front has just the active sessions, sorted by start."""
    starts = {session: e["number"] for session, e in enumerate(desk["sessions"]) if e["phase"] == "active"}
    front, rest = desk["order"][:len(starts)], desk["order"][len(starts):]
    return set(rest) <= {0} and sorted(front) == sorted(starts) and front == sorted(front, key=starts.get)


# Active sessions and their starts, orders of them, and the rules that are broken.
ORDERS = [
    ([(4, 2), (0, 3), (9, 3)], [([4, 0, 9], []), ([4, 9, 0], []), ([0, 4, 9], ["starts rise"]), ([4, 0, 7], ["listed"]),
                                ([4, 16, 9], ["listed"]), ([255, 0, 9], ["listed"]), ([4, 0, 9 + 16], ["listed"]),
                                ([4, 9], []), ([4, 9, 9], ["listed once"]), ([4, 4, 9], ["listed once"]),
                                ([9, 0, 4], ["starts rise"]), ([4, 0, 9, 4], ["unused listed"]),
                                ([4, 0, 9] + [0] * 12 + [1], ["unused listed"]), ([4, 0, 9, 0, 16], ["unused listed"]),
                                ([4], ["listed once"]), ([4, 0], ["listed once"]), ([4, 0, 11], ["listed"])]),
    ([(4, 2), (9, 3)], [([4, 9], []), ([9, 4], ["starts rise"]), ([4], ["listed"]), ([4, 0], ["listed"]),
                        ([0, 9], ["listed"]), ([9, 9], ["listed once"]), ([4, 0, 9], ["listed", "unused listed"]),
                        ([4, 9, 0, 9], ["unused listed"])]),
    ([(0, 5)], [([], []), ([0], []), ([1], ["listed"]), ([0, 1], ["unused listed"])]),
    ([(3, 5)], [([], ["listed"]), ([3], []), ([0, 3], ["listed", "unused listed"]), ([3, 3], ["unused listed"])]),
    ([(0, 5), (3, 5)], [([], ["listed once"]), ([3], []), ([0, 3], []), ([3, 0], []), ([3, 3], ["listed once"])]),
    ([], [([], []), ([1], ["unused listed"]), ([0] * 15 + [255], ["unused listed"]), ([0, 0, 16], ["unused listed"])]),
    ([(s, 4) for s in range(16)], [(range(16), []), (range(15, -1, -1), []), ([*range(8, 16), *range(8)], []),
                                   ([], ["listed once"]), ([*range(15), 16], ["listed"]),
                                   ([*range(15), 0], ["listed once"])]),
    ([(s, s // 4 + 1) for s in range(16)], [(range(16), []), ([3, 2, 1, 0, *range(4, 16)], []),
                                            ([*range(14), 15, 14], []),
                                            ([*range(11), 12, 11, 13, 14, 15], ["starts rise"]),
                                            ([12, *range(1, 12), 0, 13, 14, 15], ["starts rise"])]),
    ([(s, 4) for s in range(1, 16)], [(range(1, 16), []), ([*range(1, 16), 1], ["unused listed"]),
                                      ([0, *range(1, 15)], ["listed"])]),
]


def order_rules(st):
    """Each part of the rule by itself, in begin, abandon and settle; and orders that are drawn, right or not."""
    seats = [(11, "sealed", 4), (12, "published", 2)]
    for queue, orders in ORDERS:
        others = [seat for seat in seats if seat[0] not in dict(queue)]
        for order, broken in orders:
            desk = waiting(st, queue, order, others)
            what = "order %s of %s" % (list(order), queue)
            same(st.broken_rules(desk), broken, what)
            same((order_right(desk), st.coherent(desk, laid(st, 32, 16))), (not broken,) * 2, what)
            for done in (st.begin(desk, 7), st.abandon(desk, 4), st.settle(laid(st, 32, 16), desk, 48, 12)):
                same(answer_of(done)[0] == 2, bool(broken), what)
                if broken:
                    same(done["desk"], desk, what + " left")
    seen = Counter()
    for run in range(int(3000 * SHARE)):
        desk = drawn_order(st, random.Random("orders/%d" % run))
        same(st.coherent(desk), order_right(desk), "order %s" % desk["order"])
        seen[order_right(desk)] += 1
    return "drawn orders: %d right, %d not" % (seen[True], seen[False])


def drawn_order(st, rng):
    """A desk with drawn starts, and an order that is right or altered a little."""
    sessions = rng.sample(range(16), rng.choice([0, 1, 2, 3, 5, 15, 16]))
    queue = list(zip(sessions, sorted(rng.choice([1, 2, 2, 3, 9]) for _ in sessions)))
    order = waiting(st, queue)["order"]
    for _ in range(rng.randrange(3)):
        one, other = rng.randrange(16), rng.randrange(min(16, len(queue) + 1))
        if rng.random() < 0.5:
            order[one], order[other] = order[other], order[one]
        else:
            order[other] = rng.choice([0, order[one], rng.randrange(16), 16 + order[other]])
    return waiting(st, queue, order)


def order_calls(st):
    """What each call leaves: begin adds at the end; whatever ends a session takes it out; all else keeps the order."""
    image = laid(st, 32, 16)
    for queue in ([], [(0, 2)], [(3, 2)], [(4, 2), (0, 3), (9, 3)], [(0, 9), (15, 9)],
                  [(15, 1), (2, 1), (1, 1), (0, 1)], [(s, 5) for s in range(1, 16)],
                  [(s, 5) for s in range(14, -1, -1)],
                  [(7, 1), (0, 1), (8, 2), (15, 2), (3, 4), (4, 5), (12, 5), (5, 5), (6, 8)]):
        listed, what = [session for session, _ in queue], "order of %s" % queue
        desk = waiting(st, queue)
        for session in [session for session in range(16) if session not in listed]:
            done = st.begin(desk, session)
            same(answer_of(done), ("start", 9), what)
            same(done["desk"], waiting(st, queue + [(session, 9)]), what + ", %d begins" % session)
        for session in listed:
            gone = waiting(st, [one for one in queue if one[0] != session])
            for done, answer in ((st.abandon(desk, session), ("ok", 0)),
                                 (st.finish(image, desk, 48, session), ("empty", 0))):
                same((answer_of(done), done["desk"]), (answer, gone), what + " without %d" % session)
            wrote = st.write(image, desk, session, 20, [1, 2, 3, 4])["desk"]
            same(wrote["order"], desk["order"], what + ", %d writes" % session)
            same(st.read(image, wrote, session, 20)["desk"], wrote, what + ", %d reads" % session)
            same(st.abandon(wrote, session)["desk"], gone, what + ", %d writes and is abandoned" % session)
            followed(st, image, wrote, session, gone["order"])
            for other in listed[:2]:
                done = st.write(image, st.write(image, desk, other, 20, [5] * 4)["desk"], session, 20, [6] * 4)
                same(done["desk"]["order"], desk["order"] if session == other else gone["order"], what + ", 7")
                same(answer_of(done), ("ok", 0) if session == other else (7, other), what + ", 7")


def followed(st, image, desk, session, order):
    """A session with a copy is sealed, and so leaves this order; it is published and settled, its log reclaimed."""
    done = st.finish(image, desk, 48, session)
    same((answer_of(done), done["desk"]["order"]), (("sealed", 9), order), "sealed")
    for call in (st.publish, st.publish_group):
        member = session if call is st.publish else 2 ** session
        after = call(done["image"], done["desk"], 48, member)
        same((answer_of(after), after["desk"]["order"]), (("end", 10), order), "published")
    settled = st.settle(after["image"], after["desk"], 48, session)
    same((answer_of(settled)[0], settled["desk"]["order"]), ("wait" if any(
        e["phase"] == "active" for e in after["desk"]["sessions"]) else "ok", order), "settled")
    reclaimed = st.reclaim(settled["image"], settled["desk"], 48, session)
    same(reclaimed["desk"], settled["desk"], "reclaimed")


def order_refusals(st):
    """Refusals other than 7 leave the order: 4, 5, 6, 8, 9, 10 and those of each length of the trace."""
    image = laid(st, 32, 16)
    desk = waiting(st, [(4, 2), (0, 3), (9, 3)], None, [(11, "sealed", 4), (12, "published", 2)])
    four = desk
    for record in (20, 21, 22, 23):
        four = st.write(image, four, 0, record, [1] * 4)["desk"]
    full = slot_put(st, slot_put(st, image, 0, 1, [0]), 1, 1, [1])
    late = dict(four, clock=L)
    for done, given, number in (
            (st.begin(desk, 4), desk, 6), (st.begin(desk, 11), desk, 6), (st.begin(desk, 16), desk, 4),
            (st.abandon(desk, 12), desk, 6), (st.abandon(desk, 5), desk, 6), (st.abandon(desk, 16), desk, 4),
            (st.finish(image, desk, 47, 0), desk, 3), (st.finish(image, desk, 48, 11), desk, 6),
            (st.finish(image, late, 48, 0), late, 10),
            (st.write(image, four, 0, 24, [1] * 4), four, 8), (st.write(full, desk, 0, 24, [1] * 4), desk, 9),
            (st.write(image, desk, 0, 32, [1] * 4), desk, 5), (st.write(image, desk, 11, 24, [1] * 4), desk, 6),
            (st.read(image, desk, 12, 24), desk, 6), (st.publish(image, desk, 48, 0), desk, 6),
            (st.publish_group(image, desk, 48, 2 ** 11 + 1), desk, 6), (st.settle(image, desk, 48, 0), desk, 6)):
        same((answer_of(done), done["desk"]), ((number, 0), given), "refused with %d" % number)
    for done in (st.open_image(laid(st, 32, 16, 0), 48), st.open_image(image[:-1], 48), st.open_image(full, 48)):
        same(done["desk"]["order"], [0] * 16, "open, %s" % answer_of(done)[0])


def front_run(desk, end):
    """Settle's answer from the front of the order alone: the lowest session of the first run of equal starts, if they
    are below the end. The run ends with the number of active sessions, whatever stands behind it."""
    used = sum(e["phase"] == "active" for e in desk["sessions"])
    if used == 0 or desk["sessions"][desk["order"][0]]["number"] >= end:
        return "ok", 0
    first, named = desk["sessions"][desk["order"][0]]["number"], desk["order"][0]
    for session in desk["order"][1:used]:
        if desk["sessions"][session]["number"] != first:
            break
        named = min(named, session)
    return "wait", named


def order_fronts(st):
    """The law of the request: the front run gives the answer of the full walk. Four sessions in every phase, with all
    starts from 1 to 4, all orders that are right; and up to fifteen active ones, drawn."""
    image, seen = laid(st, 32, 16), Counter()
    for caller, others in ((caller, [s for s in range(4) if s != caller]) for caller in range(4)):
        for how in itertools.product([None, "sealed", "published", 1, 2, 3, 4], repeat=3):
            seats = [(s, phase, 2) for s, phase in zip(others, how) if isinstance(phase, str)]
            active = [(s, start) for s, start in zip(others, how) if isinstance(start, int)]
            for queue in itertools.permutations(active):
                if [start for _, start in queue] == sorted(start for _, start in queue):
                    front_holds(st, image, queue, seats + [(caller, "published", 3)], caller, 3, seen)
    for run in range(int(500 * SHARE)):
        rng = random.Random("fronts/%d" % run)
        caller, *others = rng.sample(range(16), rng.choice([1, 3, 8, 16, 16]))
        seats = [(s, rng.choice(["sealed", "published"]), rng.randrange(2, 10)) for s in others if rng.random() < 0.2]
        others = [s for s in others if s not in [seat[0] for seat in seats]]
        pool = [rng.randrange(1, 10) for _ in range(rng.choice([1, 2, 3]))]
        queue, end = list(zip(others, sorted(rng.choice(pool) for _ in others))), rng.randrange(2, 10)
        front_holds(st, image, queue, seats + [(caller, "published", end)], caller, end, seen)
    wanted = ["ok", "wait", "wait, not for the first", "wait for session 0"]
    same([name for name in wanted if seen[name] < 50 * SHARE], [], "too few of")
    return ", ".join("%s %d" % part for part in sorted(seen.items()))


def front_holds(st, image, queue, seats, caller, end, seen):
    """One settle: as found by the front run, and by a walk over all."""
    desk = waiting(st, queue, None, seats)
    done, wanted = st.settle(image, desk, 48, caller), front_run(desk, end)
    walk = [(start, session) for session, start in queue if start < end]
    same(wanted, ("wait", min(walk)[1]) if walk else ("ok", 0), "the front run of %s" % list(queue))
    same(answer_of(done), wanted, "settle with %s, end %d" % (list(queue), end))
    same(done["desk"]["order"], desk["order"], "order after settle")
    seen[wanted[0]] += 1
    if wanted[0] == "wait":
        seen["wait, not for the first"] += wanted[1] != queue[0][0]
        seen["wait for session 0"] += wanted[1] == 0


class OrderTrial(Trial):
    """A trial with many sessions that begin and end soon."""

    def __init__(self, st, rng):
        m = rng.choice([1, 2, 4, 15, 16, 16])
        super().__init__(st, rng, rng.choice([2, 8, 40]), m)
        self.groups, self.lazy = 0.1, 0.3

    def choose_one(self):
        call, session, record, words = super().choose_one()
        busy = sum(phase == "active" for phase in self.foresight.phase) > self.rng.randrange(self.m + 1)
        if call in ("read", "write") and self.rng.random() < (0.6 if busy else 0.3):
            call = self.rng.choice(["abandon", "finish", "write"])
        return call, session, record, words


def order_runs(st):
    """The order after each call of random schedules is the one that is kept from the calls alone; so is each answer."""
    seen = Counter()
    for run in range(int(60 * SHARE)):
        trial = OrderTrial(st, random.Random("order/%d" % run))
        for _ in range(150):
            step, before = trial.choose(), trial.foresight.listed()
            done, used = trial.made(*step), len(trial.foresight.order)
            wanted = trial.foresight.step(*step)
            same((*answer_of(done), len(done["entries"])), wanted, "%s in run %d" % (step[0], run))
            check_shape(st, trial, step, done)
            if len(trial.foresight.order) < used:
                at = before.index(step[1])
                seen["%s, %s" % (wanted[0], "first" if at == 0 else "last" if at == used - 1 else "in between")] += 1
            seen["most active"] = max(seen["most active"], used)
            trial.take(step, done)
    wanted = itertools.product(("ok", "empty", "sealed", 7), ("first", "last", "in between"))
    same([goes for goes in wanted if seen["%s, %s" % goes] < 8 * SHARE], [], "too few of")
    same(seen["most active"] > 10, True, "many active at once")
    return ", ".join("%s %d" % part for part in sorted(seen.items()))


# ---- raw cases -----------------------------------------------------------

def case_read(words):
    """A case read back from its input words, and the words left over."""
    call, desk, at = raw.CALLS[words[0]], words[11:670], 670 + words[10]
    like = raw.like(call)
    entries = [desk[259 + 24 * s:283 + 24 * s] for s in range(16)]
    sessions = [{"phase": raw.PHASES[e[0]], "number": e[1], "count": e[2], "slot": e[3],
                 "places": [[e[i], e[i + 1:i + 5]] for i in range(4, 24, 5)]} for e in entries]
    case = {"call": call, "N": words[1], "M": words[2], "session": words[3], "record": words[4],
            "words": words[5:9], "trace": words[9],
            "image": words[670:at] if like in raw.WITH_IMAGE else None,
            "desk": {"clock": desk[0], "N": desk[1], "M": desk[2],
                     "marks": [mark - 1 if mark else None for mark in desk[3:259]],
                     "sessions": sessions, "order": desk[643:]} if like in raw.WITH_DESK else None}
    return case, words[at:]


def unpacked(data):
    """The words of a packed case."""
    words, at = [], 0
    while at < len(data):
        size = max(0, data[at] - 247)
        if data[at] == 247:
            words += [0] * data[at + 1]
            size = 1
        else:
            words.append(int.from_bytes(data[at + 1:at + 1 + size], "little") if size else data[at])
        at += 1 + size
    return words


def check_format(case, what):
    """A case reads back from its words and keeps to the stated bounds."""
    words = raw.case_words(case)
    same(case_read(words), (case, []), what + " read back")
    same(unpacked(raw.packed(words)), words, what + " unpacked")
    if max(words) > TOP or max(words[14:270] + words[654:670]) > 255 \
            or len(case["image"] or []) > 1800 or case["trace"] > 64:
        raise AssertionError(what + " out of the stated bounds")


def made_unaltered(case, library=None):
    """What the call of a case gives; it alters nothing that it is given."""
    before = raw.case_words(case)
    done = raw.run(case, library)
    same(raw.case_words(case), before, "a call altered its input")
    return done


def raw_cases(st):
    """Each raw case meets its aim; refusals leave all; every answer occurs."""
    seen, cases = set(), 4 * len(raw.TURNS)
    same(rawreels.FIRST % len(raw.TURNS), 0, "stored cases past the last whole round")
    for number in range(cases):
        case, (call, aim) = raw.make(5, number)
        check_format(case, "raw case %d" % number)
        done = made_unaltered(case)
        got = answer_of(done)[0]
        seen.add((case["call"], got))
        if call is not None:
            same(case["call"], call, "call of raw case %d" % number)
        if aim is not None:
            same(got, aim, "aim of raw case %d" % number)
        if isinstance(got, int) and got != 7:
            same(done["entries"], [], "entries of a refusal")
            same(done["image"], case["image"], "image of a refusal")
            if case["call"] != "open":
                same(done["desk"], case["desk"], "desk of a refusal")
    wanted = {(call, aim) for call in raw.AIMS for aim in raw.AIMS[call]}
    same(sorted(map(str, wanted - seen)), [], "answers that no raw case has")
    return "%d cases, %d pairs of call and answer" % (cases, len(seen))


CEILING_AIMS = ["lay", "open", "publish", "recover"]


@functools.lru_cache(maxsize=None)
def ceiling_round():
    """Stored raw cases that are about word 3, of four rounds, each with what it is aimed at."""
    turns = [at for at, (kind, what) in enumerate(raw.TURNS)
             if isinstance(kind, (int, tuple)) or kind in [*raw.CEILINGS, *raw.RAISES, "trace", *CEILING_AIMS]
             or "refused" in kind or what == "clock above word 3"]
    return [raw.make(stored.RAW_SEED, at + turn * len(raw.TURNS)) for turn in range(4) for at in turns]


def ceiling_left(case, answer):
    """Desk and entries that an open or a publish must give, found without the store's calls."""
    call, word_3, desk = case["call"], case["image"][3], case["desk"]
    if answer == "ok":
        clock = word_3 + 1
        return store.new_desk(clock, *case["image"][1:3]), [(3, clock + 1024), FENCE]
    end, members = desk["clock"] + 1, sessions_in(case["session"]) if call == GROUP else [case["session"]]
    return published(desk, members, end), [(3, end + 1024), FENCE] if end == word_3 + 1 else []


def ceiling_cases(st):
    """Each stored raw case about word 3 meets its aim and leaves what it must."""
    for number, (case, (call, aim)) in enumerate(ceiling_round()):
        what = "case %d about word 3, %s" % (number, case["call"])
        done = made_unaltered(case, st)
        same(answer_of(done)[0], aim, what)
        if isinstance(aim, int):
            same((done["image"], done["entries"]), (case["image"], []), what + " leaves all")
            desk = store.new_desk(0, 0, 0) if call == "open" else case["desk"]
            same(done["desk"], desk, what + " leaves the desk")
        elif call in ("open", "publish"):
            same((done["desk"], done["entries"]), ceiling_left(case, aim), what)
            same(done["image"], store.made(case["image"], done["entries"]), "image after " + what)
            value = case["desk"]["clock"] + 1 if call == "publish" else 0
            same(told(done), (aim, value, ZEROS), what)
        else:
            same(done["image"][3], 0 if call == "lay" else case["image"][3], "word 3 after " + what)
            same([index for index, _ in done["entries"] if index == 3], [], "word 3 in the entries")
    return "%d cases" % len(ceiling_round())


def open_causes(case):
    """What is wrong with an open, in the order of its checks; the slots and word 3 of a right image alone."""
    image = case["image"]
    wrong = {1: not store.image_right(image), 3: case["trace"] < 48}
    if not wrong[1]:
        wrong.update({11: store.occupied(image) != [], 10: image[3] >= L})
    return tuple(number for number in wrong if wrong[number])


def ceiling_aims(st):
    """The cases about word 3: every refusal alone and with a later one, every edge with every call."""
    seen = set()
    for case, (_, aim) in ceiling_round():
        image, call, desk = case["image"], case["call"], case["desk"]
        seen.add((call, aim))
        if call == "open":
            seen.add((call, open_causes(case)))
        if call in ("open", "recover") and len(image) > 3:
            seen.add((call, "word 3", image[3]))
        elif desk and aim != 1:
            seen |= {(call, "word 3", image[3]), (call, "above the clock", image[3] - desk["clock"])}
        if aim == "end":
            more, sealed = image[3] - desk["clock"], sum(e["phase"] == "sealed" for e in desk["sessions"])
            seen |= {("end at", desk["clock"], more), ("end at the largest clock", L + 16 - sealed - desk["clock"], more)}
    both, words = [call for call in raw.WITH_DESK if call in raw.WITH_IMAGE], [0, 1, L - 1, L, L + 1, TOP]
    wanted = {(call, "above the clock", more) for call in both for more in (-1, 0, 1)}
    wanted |= {(call, "word 3", at) for call in both for at in (0, L - 1, L, TOP)}
    wanted |= {(call, "word 3", at) for call in ("open", "recover") for at in words}
    wanted |= {("end at", clock, more) for clock in (L - 1, L) for more in (0, 1, 2)}
    wanted |= {("end at the largest clock", 0, more) for more in (0, 1, 2)}
    wanted |= {("open", causes) for causes in [(), (1,), (3,), (11,), (10,), (1, 3), (3, 11), (3, 10), (11, 10)]}
    wanted |= {(call, aim) for call in CEILING_AIMS for aim in raw.AIMS[call]}
    same(sorted(map(str, wanted - seen)), [], "edges that no case has")
    return "%d edges" % len(wanted)


@functools.lru_cache(maxsize=None)
def group_round():
    """The stored group cases, each with its aim."""
    return [rawgroup.make(stored.RAW_SEED, number) for number in range(len(rawgroup.TURNS))]


def group_cases(st):
    """Each stored group case meets its aim and leaves what it must; none alters its input."""
    for number, (case, (call, aim, value)) in enumerate(group_round()):
        what = "group case %d" % number
        done = made_unaltered(case, st)
        same(told(done), (aim, value, ZEROS), what)
        desk, entries = ceiling_left(case, aim) if aim == "end" else (case["desk"], [])
        image = store.made(case["image"], entries)
        same((done["desk"], done["image"], done["entries"]), (desk, image, entries), "left by " + what)
    return "%d cases" % len(group_round())


def group_causes(case):
    """What is wrong with a group, in the order of its checks."""
    image, desk, sessions = case["image"], case["desk"], sessions_in(case["session"])
    wrong = {1: not store.image_right(image)}
    wrong[2] = store.broken_rules(desk, None if wrong[1] else image) != []
    wrong.update({3: case["trace"] < 48, 19: sessions == [], 4: any(s >= desk["M"] for s in sessions),
                  6: any(desk["sessions"][s]["phase"] != "sealed" for s in sessions if s < desk["M"])})
    return tuple(number for number in wrong if wrong[number])


def group_kind(e):
    """Phase of a session, and whether it holds copies."""
    return e["phase"], e["count"] > 0


def group_edges(case):
    """What is special in a group that is published."""
    desk, sessions, more = case["desk"], sessions_in(case["session"]), case["image"][3] - case["desk"]["clock"]
    members, size = [desk["sessions"][s] for s in sessions], len(sessions)
    beside = {group_kind(e) for s, e in enumerate(desk["sessions"][:desk["M"]]) if s not in sessions}
    sealed = sum(e["phase"] == "sealed" for e in desk["sessions"])
    numbers, copies = [e["number"] for e in members], {(e["count"], e["slot"]) for e in members}
    yield from (("set", case["session"]), ("of M", size, desk["M"]), ("beside", size, len(beside)),
                ("trace", case["trace"], more), ("word 3", case["image"][3]),
                ("largest clock", size, sealed, L + 16 - sealed - desk["clock"], more))
    orders = {"rise": sorted(set(numbers)), "fall": sorted(set(numbers), reverse=True), "equal": numbers[:1] * size}
    yield from (("persist numbers", size, order) for order in orders if numbers == orders[order])
    if size == 1:
        yield "alone", sessions[0], desk["M"]
    elif len(copies) == 1:
        yield "all with", *copies.pop()
    if desk["N"] == 256:
        yield "N 256", desk["M"], size, sum(e["count"] for e in members)


def group_places(case):
    """The members that are not sealed: their kinds, where one alone stands in the set, and how many there are."""
    sessions, entries = sessions_in(case["session"]), case["desk"]["sessions"]
    others = [s for s in sessions if entries[s]["phase"] != "sealed"]
    yield "not sealed", len(sessions), *sorted(group_kind(entries[s]) for s in others)
    if len(others) == 1:
        where = {0: "lowest", len(sessions) - 1: "highest"}.get(sessions.index(others[0]), "middle")
        yield "one not sealed", len(sessions), where, group_kind(entries[others[0]])
        yield "one not sealed", len(sessions), others[0]


def group_aims(st):
    """The group cases have the stated form; every refusal alone and with others, every edge occurs."""
    seen, answers = set(), Counter()
    for number, (case, (call, aim, value)) in enumerate(group_round()):
        check_format(case, "group case %d" % number)
        same((case["call"], call, case["session"] < 65536), (GROUP, GROUP, True), "call and set")
        causes, m = group_causes(case), case["desk"]["M"]
        same((causes + ("end",))[0], aim, "cause in group case %d" % number)
        answers[aim] += 1
        seen |= {("causes", causes), ("causes", causes, case["trace"])}
        if causes == (2,):
            seen.add(("broken", *store.broken_rules(case["desk"], case["image"])))
        if causes == (1,):
            seen.add(("length", len(case["image"])))
        if causes in ((4,), (4, 6)):
            sessions = sessions_in(case["session"])
            kinds = [group_kind(case["desk"]["sessions"][s]) for s in sessions if s < m]
            seen |= {("past", m, max(sessions) - m), ("only past", m, kinds == []), ("past", m, case["session"])}
            seen |= {(causes, "at M" if m in sessions else max(sessions), kind) for kind in kinds}
        if causes in ((4,), (6,), (19,)):
            seen.add((causes, "raise due", case["image"][3] == case["desk"]["clock"]))
        seen |= set(group_edges(case) if aim == "end" else group_places(case) if causes == (6,) else [])
    both = [some for some in subsets([1, 2, 3, 19, 4, 6]) if 19 not in some or not {4, 6} & set(some)]
    wanted = {("causes", tuple(some)) for some in both}
    wanted |= {("causes", (3, *later), trace) for later in ((), (19,), (4,), (6,)) for trace in (0, 47)}
    wanted |= {("broken", *rules) for _, rules in raw.BREAKS.values()}
    wanted |= {("past", m, 0) for m in range(1, 16)} | {("past", m, 65535) for m in (1, 2, 9, 14, 15)}
    wanted |= {("past", m, 15 - m) for m in (1, 2, 9, 14)} | {("only past", m, True) for m in (1, 2, 9, 14, 15)}
    wanted |= {(causes, "raise due", due) for causes in ((4,), (6,), (19,)) for due in (True, False)}
    wanted |= {("length", 1731), ("length", 1733), ("N 256", 16, 16, 64)}
    wanted |= {("of M", size, 16) for size in range(1, 17)} | {("of M", m, m) for m in range(1, 17)}
    wanted |= {("alone", s, 16) for s in range(16)} | {("alone", m - 1, m) for m in range(1, 17)}
    wanted |= {("beside", size, 5) for size in range(1, 12)}
    wanted |= {("set", members) for members in (1, 32768, 65534, 32767, 65535, 21845, 43690)}
    wanted |= {("trace", trace, more) for trace in (48, 49, 64) for more in (0, 1, 2, 1024)}
    wanted |= {("word 3", at) for at in (L, 2 ** 63, TOP)}
    wanted |= {("largest clock", size, size, 0, 0) for size in range(1, 17)}
    wanted |= {("all with", count, slot) for count in (1, 2, 3, 4) for slot in (0, 1)}
    wanted |= {("persist numbers", 16, order) for order in ("rise", "fall", "equal")}
    kinds = [("active", False), ("active", True), ("idle", False), ("published", True)]
    wanted |= {("one not sealed", 5, where, kind) for where in ("lowest", "middle", "highest") for kind in kinds}
    wanted |= {("one not sealed", 16, s) for s in range(16)} | {("not sealed", 1, kind) for kind in kinds}
    wanted |= {("not sealed", 5, *two) for two in itertools.combinations_with_replacement(kinds, 2)}
    wanted |= {((4, 6), where, kind) for where in ("at M", 15) for kind in kinds}
    same(sorted(map(str, wanted - seen)), [], "edges that no case has")
    return "%d edges; cases by answer: %s" % (len(wanted), dict(answers))


def stream_kinds(st):
    """Streams of every kind: each result that a stream can reach occurs."""
    seen, steps = streams.count(1)
    wanted = ["lay ok", "lay no 14", "begin start", "read own", "read copy", "read home",
              "write ok", "write no 7", "write no 8", "write no 9", "finish sealed",
              "finish empty", "finish cut", "publish end", "publish cut", "settle ok", "settle wait",
              "settle cut", "reclaim none", "reclaim held", "reclaim cleared", "reclaim cut",
              "abandon ok", "cut", "replayed", "open"]
    wanted += [call + " no 4" for call in reelwalk.NAMES[1:9]] + ["read no 5", "write no 5"]
    wanted += [call + " no 6" for call in reelwalk.NAMES[1:9] if call != "reclaim"]
    same([name for name in wanted if not seen[name]], [], "results that no stream has")
    ends = [reelwalk.run(streams.stream("damaged", seed))[-1:] for seed in range(streams.ENDINGS)]
    same(ends[0], [], "empty input")
    bad = sum(end != [] and end[0].endswith(" bad") for end in ends)
    same(bad, streams.ENDINGS - 2, "endings that are bad")
    return "%d lines, %d different results" % (sum(steps.values()), len(seen))


# ---- tests of the reel library -------------------------------------------

GOOD_REELS = [[1, 1, 1, 0], [999999, 1, 5, 359999], [5, 1, 1, 1], [5, 1, 2, 60], [70000, 1, 3, 3600],
              [5, 1, 4, 2 ** 16], [5, 2, 0, 0], [999999, 2, 1, 359999], [1, 3, 0, 0], [5, 3, 0, 359999]]
# Open reels without a speed: read with a mark, packed and written 16. And such with seconds out of range: read 17,
# packed and written 16.
WITHOUT_SPEED = [[1, 1, 0, 0], [999999, 1, 0, 359999], [5, 1, 0, 3600], [5, 1, 0, 1]]
NOR_SECONDS = [[5, 1, 0, 360000], [1, 1, 0, 2 ** 32], [5, 1, 0, 2 ** 32 + 5], [5, 1, 0, 2 ** 63], [999999, 1, 0, TOP]]
# By refusal, words that it names: at the edge, far out of range, with more than one of them bad.
BAD_REELS = {
    15: [[0, 1, 3, 60], [1000000, 1, 3, 60],
         [2 ** 32, 1, 3, 60], [2 ** 32 + 5, 1, 3, 60], [2 ** 63, 1, 3, 60], [TOP, 1, 3, 60],
         [0, 4, 3, 60], [0, 2, 2, 60], [0, 1, 6, 60], [0, 1, 3, 360000], [1000000, 3, 1, 360000],
         [TOP] * 4, [0, 1, 0, 0], [0, 0, 1, 0], [0, 0, 0, 1], [0, TOP, 0, 0], [0, 0, 2 ** 32, 0],
         [0, 2 ** 63, 0, 2 ** 63], [0, 1, 0, 60], [1000000, 1, 0, 60], [0, 1, 0, 360000], [TOP, 1, 0, TOP]],
    16: [[5, 0, 0, 60], [5, 4, 0, 60], [5, 1, 6, 60], [5, 2, 2, 60], [5, 2, 5, 60], [5, 3, 1, 60],
         [5, 3, 5, 60], [5, 257, 0, 60], [5, 2 ** 32 + 1, 0, 60], [5, TOP, 0, 60], [5, 1, 256, 60],
         [5, 3, 2 ** 32, 60], [5, 1, 2 ** 32 + 3, 60], [5, 1, 2 ** 63, 60], [5, 2, TOP, 60],
         [5, 0, 0, 360000], [5, 2, 2, 360000], [5, 1, 6, TOP], [5, 0, 0, 0],
         [5, 2 ** 63 + 1, 0, 60], [5, 1, 2 ** 32, 60], [5, 257, 256, 60]],
    17: [[5, 1, 3, 360000], [5, 1, 1, 360000], [5, 2, 1, 360000], [5, 2, 0, 360000], [5, 3, 0, 360000],
         [5, 1, 3, 2 ** 32], [5, 1, 3, 2 ** 32 + 5], [5, 1, 3, 2 ** 63], [5, 1, 3, TOP]],
}


def told(done):
    """Name or refusal number, value and words."""
    return (*answer_of(done), done["answer"]["words"])


def reel_numbers(lib):
    """Pack and unpack: reels by hand; carriers with codes, at the edges of the other two."""
    for reel in GOOD_REELS:
        same(told(lib.pack(reel)), ("ok", 0, reel), "pack %s" % reel)
        same(told(lib.unpack(reel)), ("reel", 0, reel), "unpack %s" % reel)
    for reel in WITHOUT_SPEED:
        same(told(lib.pack(reel)), (16, 0, ZEROS), "pack %s" % reel)
        same(told(lib.unpack(reel)), ("speed to find", 0, reel), "unpack %s" % reel)
    for reel in NOR_SECONDS:
        for call, number in ((lib.pack, 16), (lib.unpack, 17), (lib.length, 17)):
            same(told(call(reel)), (number, 0, ZEROS), "%s %s" % (call.__name__, reel))
    for number, bad in BAD_REELS.items():
        for reel in bad:
            for call in (lib.pack, lib.unpack, lib.length):
                same(told(call(reel)), (number, 0, ZEROS), "%s %s" % (call.__name__, reel))
    same(told(lib.unpack(ZEROS)), ("unused", 0, ZEROS), "unused, read as such")
    same(told(lib.pack(ZEROS)), (15, 0, ZEROS), "unused, not written")
    packable = {(1, 1), (1, 2), (1, 3), (1, 4), (1, 5), (2, 0), (2, 1), (3, 0)}
    for shelf, carrier, code, seconds in itertools.product(
            (0, 1, 999999, 1000000), range(6), range(8), (0, 359999, 360000)):
        reel, pair = [shelf, carrier, code, seconds], (carrier, code)
        for call, taken, good in ((lib.pack, packable, "ok"), (lib.unpack, packable | {(1, 0)}, "reel")):
            rights = {15: shelf in (1, 999999), 16: pair in taken, 17: seconds < 360000}
            bad = [number for number, right in rights.items() if not right]
            wanted = bad[0] if bad else good if pair in packable else "speed to find"
            if reel != ZEROS:
                same(answer_of(call(reel)), (wanted, 0), "%s %s" % (call.__name__, reel))


# By code: seconds and metres.
METRES = {1: [(0, 0), (21, 0), (22, 1), (2499, 118), (2500, 119), (359999, 17135)],
          2: [(0, 0), (10, 0), (11, 1), (9999, 952), (10000, 953), (359999, 34307)],
          3: [(0, 0), (5, 0), (6, 1), (1999, 380), (2000, 381), (3600, 685), (359999, 68579)],
          4: [(0, 0), (2, 0), (3, 1), (999, 380), (1000, 381), (359999, 137159)],
          5: [(0, 0), (1, 0), (2, 1), (499, 380), (500, 381), (359999, 274319)]}


def reel_lengths(lib):
    """Lengths by hand: rounded down; 0 s is 0 metres; unknown with code 0 alone, of open reels too."""
    for code, lengths in METRES.items():
        for seconds, metres in lengths:
            what = "%d s at code %d" % (seconds, code)
            same(told(lib.length([5, 1, code, seconds])), ("metres", metres, ZEROS), what)
    same(told(lib.length([5, 2, 1, 2500])), ("metres", 119, ZEROS), "cassette")
    for words in WITHOUT_SPEED + [[5, 1, 0, 0], [5, 2, 0, 60], [5, 3, 0, 359999], ZEROS]:
        same(told(lib.length(words)), ("unknown", 0, ZEROS), "length of %s" % words)


def reel_scene(own=ZEROS, copy=ZEROS, home=ZEROS):
    """Image and desk with these words: session 0 is active and copies record 0, session 1 is published
    and copies record 1, which session 0 is shown; records 2 to 4 have no copy. Home is record 2."""
    desk = store.new_desk(6, 5, 2)
    desk["sessions"][0] = store.entry("active", 6, [[0, own]])
    desk["sessions"][1] = store.entry("published", 5, [[1, copy]], 1)
    desk["marks"][:2] = [0, 1]
    image = laid(store, 5, 2)
    image[12:16] = home
    return image, queued(desk)


REEL_PLACES = {"own": 0, "copy": 1, "home": 2}  # which record of the scene is where


def reel_reads(lib):
    """Read: reel, marked or not, unused and bad words from each place; the store's refusals come first."""
    cases = [("reel", reel, reel) for reel in GOOD_REELS] + [("unused", ZEROS, ZEROS)]
    cases += [("speed to find", reel, reel) for reel in WITHOUT_SPEED] + [(17, words, ZEROS) for words in NOR_SECONDS]
    cases += [(number, words, ZEROS) for number, bad in BAD_REELS.items() for words in bad]
    for name, record in REEL_PLACES.items():
        for wanted, words, reel in cases:
            image, desk = reel_scene(**{name: words})
            done = lib.read(image, desk, 0, record)
            same(told(done), (wanted, name, reel), "%s read from %s" % (words, name))
            same((done["desk"], done["image"], done["entries"]), (desk, image, []), "read leaves all")
    for words in [ZEROS, GOOD_REELS[0], WITHOUT_SPEED[0], NOR_SECONDS[0]] + [bad[0] for bad in BAD_REELS.values()]:
        image, desk = reel_scene(words, words, words)
        image[4:12] = words * 2
        for scene, number in (
                ((image[:-1], desk, 0, 0), 1), ((image, dict(desk, clock=0), 0, 2), 2),
                ((image[:3] + [5] + image[4:], desk, 0, 2), 2),  # the clock is 6
                ((image, desk, 2, 0), 4), ((image, desk, TOP, TOP), 4), ((image, desk, 0, 5), 5),
                ((image, desk, 1, 2), 6), ((image, desk, 1, 1), 6)):
            done = lib.read(*scene)
            same(told(done), (number, 0, ZEROS), "refused by the store, words %s" % words)
            same((done["image"], done["desk"]), scene[:2], "refused by the store")


def reel_marks(lib):
    """The mark is by the words that are read: own copy, shown copy or home record, whatever the other place has."""
    for wanted, seen, others in (("speed to find", [5, 1, 0, 60], ([6, 1, 3, 60], [6, 2, 0, 60], ZEROS, [6, 1, 6, 60])),
                                 ("reel", [6, 1, 3, 60], ([5, 1, 0, 60],)), ("reel", [6, 2, 0, 60], ([5, 1, 0, 60],))):
        for other in others:
            for name, record, copy, home in (("own", 0, seen, other), ("copy", 1, seen, other),
                                             ("home", 1, other, seen)):
                image, desk = reel_scene(copy, copy)
                image[4:12] = home * 2
                if name == "home":  # the copy is of a later time
                    desk["sessions"][0]["number"] = 4
                same(told(lib.read(image, desk, 0, record)), (wanted, name, seen), "%s beside %s" % (seen, other))


def write_scenes():
    """Image, desk, session and record of a write, and the answer and value of the store."""
    image, desk = reel_scene()
    yield (image, desk, 0, 0), ("ok", 0)  # an own copy
    yield (image, desk, 0, 3), ("ok", 0)  # a further one
    fresh = store.begin(store.new_desk(1, 5, 2), 1)["desk"]
    yield (image, fresh, 1, 4), ("ok", 0)  # a first one
    yield (slot_put(store, image, 2, 1, [0]), fresh, 1, 4), ("ok", 0)
    yield (image[:-1], desk, 0, 0), (1, 0)
    yield (image, dict(desk, N=4), 0, 0), (2, 0)
    yield (image[:3] + [5] + image[4:], desk, 0, 0), (2, 0)  # the clock is 6
    yield (image[:3] + [6] + image[4:], desk, 0, 0), ("ok", 0)
    yield (image, desk, 2, 0), (4, 0)
    yield (image, desk, 0, 5), (5, 0)
    yield (image, desk, 1, 1), (6, 0)
    yield (image, desk, 0, 1), (7, 1)  # session 1 holds it
    four = store.new_desk(1, 5, 2)
    four["sessions"][0] = store.entry("active", 1, [[record, ZEROS] for record in range(4)])
    four["marks"][:4] = [0] * 4
    yield (image, queued(four), 0, 4), (8, 0)
    yield (slot_put(store, slot_put(store, image, 2, 1, [0]), 3, 2, [0]), fresh, 1, 4), (9, 0)


def reel_writes(lib):
    """Write: 15, 16 and 17 before any check of the store and all left; then as the store writes."""
    for scene, wanted in write_scenes():
        image, desk, session, record = scene
        for reel in GOOD_REELS:
            done = lib.write(*scene, reel)
            same(told(done), (*wanted, ZEROS), "write of %s" % reel)
            same(done, store.write(*scene, reel), "as the store writes")
            if wanted[0] == "ok":
                again = lib.read(image, done["desk"], session, record)
                same(told(again), ("reel", "own", reel), "read again")
        for number, bad in [*BAD_REELS.items(), (15, [ZEROS]), (16, WITHOUT_SPEED + NOR_SECONDS)]:
            for reel in bad:
                done = lib.write(*scene, reel)
                same(told(done), (number, 0, ZEROS), "write of %s" % reel)
                same((done["desk"], done["image"], done["entries"]), (desk, image, []), "all left")


# What a reel gives that is written over any words.
OVER = [([8, 1, 0, 60], 16), ([8, 1, 1, 60], "ok"), ([8, 1, 2, 60], "ok"), ([8, 1, 3, 60], "ok"), ([8, 1, 4, 60], "ok"),
        ([8, 1, 5, 60], "ok"), ([8, 1, 6, 60], 16), ([8, 2, 0, 60], "ok"), ([8, 2, 1, 60], "ok"), ([8, 2, 2, 60], 16),
        ([8, 3, 0, 60], "ok"), ([8, 3, 1, 60], 16)]


def reel_rewrites(lib):
    """What is stored at the record does not matter to a write: in the own copy, a shown copy, the home record."""
    for words in ([5, 1, 0, 60], [8, 1, 0, 60], [5, 1, 3, 60], [5, 2, 0, 60], ZEROS, [5, 1, 6, 60]):
        for (reel, answer), (name, record) in itertools.product(OVER, REEL_PLACES.items()):
            image, desk = reel_scene(words, words, words)
            what = "%s over %s in %s" % (reel, words, name)
            done = lib.write(image, desk, 0, record, reel)
            wanted = (7, 1) if (name, answer) == ("copy", "ok") else (answer, 0)  # session 1 holds it
            same(told(done), (*wanted, ZEROS), what)
            same(done["image"], image, what)
            if wanted[0] == 16:
                same(done["desk"], desk, what)
            if wanted[0] == "ok":
                same(told(lib.read(image, done["desk"], 0, record)), ("reel", "own", reel), what)


@functools.lru_cache(maxsize=None)
def reel_round():
    """A round of the reel cases, each with its aim."""
    return [rawreels.make(5, number) for number in range(len(rawreels.TURNS))]


def store_did(case):
    """What the store's call gives for a call of the libraries."""
    return raw.run(dict(case, call=raw.like(case["call"])))


def told_wanted(case, aim, where):
    """Answer, value and words that a reel case must give, found without the reel library."""
    call, value, words = case["call"], where or 0, ZEROS
    if aim in ("reel", "speed to find") or (call, aim) == ("pack", "ok"):
        words = store_did(case)["answer"]["words"] if call == "read reel" else case["words"]
    if aim == 7:
        value = case["desk"]["marks"][case["record"]]
    if aim == "metres":
        _, _, code, seconds = case["words"]
        speed = fractions.Fraction(["47.6", "95.3", "190.5", "381", "762"][code - 1])  # millimetres
        value = int(seconds * speed / 1000)
    return aim, value, words


def aims_met(lib, cases, title):
    """Each of these cases meets its aim and leaves what it must; none alters its input."""
    for number, (case, (call, aim, where)) in enumerate(cases):
        what = "%s case %d, %s" % (title, number, call)
        done = made_unaltered(case, lib)
        same(case["call"], call, what)
        same(told(done), told_wanted(case, aim, where), what)
        written = call == "write reel" and aim in ("ok", 7)
        desk = store_did(case)["desk"] if written else case["desk"]
        same((done["desk"], done["image"], done["entries"]), (desk, case["image"], []), "left by " + what)
    return "%d cases" % len(cases)


def reel_cases(lib):
    """The reel cases."""
    return aims_met(lib, reel_round(), "reel")


def reel_aims(lib):
    """The reel cases have the stated form; every answer and every edge occurs with each call."""
    seen, numbers = set(), {call: [set() for _ in range(5)] for call in raw.REEL_CALLS}
    for number, (case, (call, aim, where)) in enumerate(reel_round()):
        check_format(case, "reel case %d" % number)
        seen.add((call, aim, where))
        if call != "read reel" or where:
            words = store_did(case)["answer"]["words"] if where else case["words"]
            for found, part in zip(numbers[call], [*words, tuple(words[1:3])]):
                found.add(part)
    bad = [15, 16, 17]
    wanted = {(call, aim, None) for call, aims in (
        ("pack", ["ok"] + bad), ("unpack", ["reel", "speed to find", "unused"] + bad),
        ("length", ["metres", "unknown"] + bad), ("read reel", [1, 2, 4, 5, 6]),
        ("write reel", ["ok", 1, 2, 4, 5, 6, 7, 8, 9] + bad)) for aim in aims}
    wanted |= {("read reel", aim, where) for aim in ["reel", "speed to find", "unused"] + bad for where in REEL_PLACES}
    same(seen, wanted, "answers of the reel cases")
    huge = {2 ** 32, 2 ** 32 + 5, 2 ** 63, TOP}
    needed = [{0, 1, 999999, 1000000} | huge, {0, 1, 2, 3, 4, TOP}, {0, 1, 2, 3, 4, 5, 6, TOP},
              {0, 1, 359999, 360000} | huge, set(itertools.product((1, 2, 3), range(7)))]
    for call, found in numbers.items():
        missing = [part - has for part, has in zip(needed, found)]
        same(missing, [set()] * 5, "numbers that no %s has" % call)
    return "%d answers" % len(seen)


# ---- tests of the listening room's calls ---------------------------------

# In the room session 3 listens from 6 on. By record, who copies it: session, phase and number.
ROOM = {1: (0, "published", 6), 2: (4, "published", 7), 3: (1, "sealed", 5), 4: (7, "active", 2),
        5: (2, "published", 5)}
ROOM_SEEN = {0: 10, 1: 21, 2: 12, 3: 13, 4: 14, 5: 25, 6: 16, 7: 17}  # word 0 in its snapshot


def room(own=(), clock=9):
    """Image and desk: word 0 is 10 and the record at home, 20 and the record in a copy; words 1 to 3 are
    30 and 40 instead. Records 0, 6 and 7 have no copy but those that session 3 itself holds."""
    desk, image = store.new_desk(clock, 8, 8), laid(store, 8, 8)
    for record in range(8):
        image[4 + 4 * record:8 + 4 * record] = [10 + record] + [30 + record] * 3
    seats = [(3, "active", 6, own)] + [(*seat, [record]) for record, seat in ROOM.items()]
    for session, phase, number, records in seats:
        copies = [[record, [20 + record] + [40 + record] * 3] for record in records]
        desk["sessions"][session] = store.entry(phase, number, copies)
        for record in records:
            desk["marks"][record] = session
    return image, queued(desk)


def listened(lib, call, image, desk, session=3, record=0, number=10, trace=48):
    """What one of the listening room's calls gives, the image as before where it takes none."""
    case = dict(raw.blank(call), image=image, desk=desk, session=session, record=record, trace=trace,
                words=[number, 0, 0, 0])
    done = raw.run(case, lib)
    return dict(done, image=image) if call == "begin listening" else done


def left(done, image, desk, what):
    same((done["desk"], done["image"], done["entries"]), (desk, image, []), "left by " + what)


def refusal_rows():
    """What is not as in the room, and what read, finish and find then answer."""
    image, desk = room()
    _, copies = room([6])
    late = {"desk": room([0, 6, 7], L)[1]}
    torn, short = dict(desk, clock=0), image[:-1]
    far = {"session": 8, "record": 8, "trace": 47}
    yield {}, ["home", "empty", "found"]
    yield {"image": short}, [1, 1, 1]
    yield {"image": short, "desk": torn, **far}, [1, 1, 1]
    yield {"image": short, "desk": copies}, [1, 1, 1]
    yield {"desk": torn, **far}, [2, 2, 2]
    yield {"desk": dict(copies, clock=5)}, [2, 2, 2]
    for word_3 in (0, 8):  # the clock is 9
        yield {"image": image[:3] + [word_3] + image[4:], **far}, [2, 2, 2]
    for word_3 in (9, 10, 1033):
        yield {"image": image[:3] + [word_3] + image[4:]}, ["home", "empty", "found"]
    yield far, [4, 3, 4]
    yield {"trace": 47}, ["home", 3, "found"]
    yield {"trace": 0, "session": 5}, [6, 3, 6]
    yield {"trace": 47, "desk": copies}, [18, 3, 18]
    yield {"session": TOP, "record": TOP}, [4, 4, 4]
    yield {"session": 2 ** 32 + 3, "desk": copies}, [4, 4, 4]
    yield {"record": 8}, [5, "empty", "found"]
    yield {"record": 8, "session": 5}, [5, 6, 6]
    yield {"record": 8, "desk": copies}, [5, 18, 18]
    for session in (5, 0, 1):  # idle; published and sealed, with copies
        yield {"session": session}, [6, 6, 6]
    for own in ([6], [7, 0], [0, 6, 7]):
        yield {"desk": room(own)[1], "record": own[-1]}, [18, 18, 18]
        yield {"desk": room(own)[1], "record": 1}, [18, 18, 18]
    yield late, [18, 18, 18]
    yield {**late, "trace": 47}, [18, 3, 18]
    for clock in (L - 1, L, L + 15):  # one session is sealed
        yield {"desk": room(clock=clock)[1]}, ["home", "empty", "found"]
        yield {"desk": room([0], clock)[1]}, [18, 18, 18]
    yield {"desk": room(clock=L + 16)[1]}, [2, 2, 2]


def listening_refusals(lib):
    """Read, finish and find: each refusal, which comes first, and all left; find gives 15 before all."""
    for changes, wanted in refusal_rows():
        scene = dict(zip(("image", "desk"), room()), **changes)
        image, desk = scene["image"], scene["desk"]
        for call, answer in zip(raw.LISTENING_CALLS[1:], wanted):
            done = listened(lib, call, **scene)
            same(answer_of(done), (answer, 0), "%s with %s" % (call, list(changes)))
            gone = dict(store.made_idle(desk, 3), order=[7] + [0] * 15)  # session 7 is active, too
            left(done, image, gone if answer == "empty" else desk, call)
        for number in (0, 1000000, 2 ** 32, 2 ** 32 + 10, 2 ** 63, TOP):
            done = listened(lib, "find", **dict(scene, number=number))
            same(told(done), (15, 0, ZEROS), "find %d with %s" % (number, list(changes)))
            left(done, image, desk, "find")


def listening_begins(lib):
    """Begin: start is the clock, also at L and above; 2, 4 and 6."""
    for clock in (9, L, L + 15):
        image, desk = room(clock=clock)
        done = listened(lib, "begin listening", image, desk, 5)
        same(told(done), ("start", clock, ZEROS), "begin")
        begun = store.with_entry(desk, 5, store.entry("active", clock), order=[7, 3, 5] + [0] * 13)
        left(done, image, begun, "begin")
    for desk, session, number in (
            (dict(desk, clock=0), 8, 2), (desk, 8, 4), (desk, TOP, 4), (desk, 2 ** 32 + 5, 4),
            (desk, 0, 6), (desk, 1, 6), (desk, 3, 6), (room([6])[1], 3, 6)):
        done = listened(lib, "begin listening", image, desk, session)
        same(told(done), (number, 0, ZEROS), "begin by %d" % session)
        left(done, image, desk, "begin")


def listening_finds(lib):
    """Read and find by hand in the room: each record, hidden words, words 1 to 3, and the first of two."""
    image, desk = room()
    for record, word in ROOM_SEEN.items():
        name, rest = ("copy", 40) if word >= 20 else ("home", 30)
        done = listened(lib, "read listening", image, desk, record=record)
        same(told(done), (name, 0, [word] + [rest + record] * 3), "read of %d" % record)
        left(done, image, desk, "read")
    cases = [(image, word, ("found", record)) for record, word in ROOM_SEEN.items()]
    cases += [(image, word, ("none", 0)) for word in (11, 22, 23, 24, 15, *range(30, 48), 1, 999999)]
    for record in (0, 6, 7):  # a match at home too, ahead of one in a copy or behind it
        for word, copied in ((21, 1), (25, 5)):
            cases.append((store.made(image, [(4 + 4 * record, word)]), word, ("found", min(record, copied))))
        for word in (11, 22, 23, 24, 15):  # or beside one that is hidden
            cases.append((store.made(image, [(4 + 4 * record, word)]), word, ("found", record)))
    for word in (1, 999999):
        cases.append((store.made(image, [(32, word)]), word, ("found", 7)))
    cases.append((store.made(image, [(32, 2 ** 32 + 10), (28, 2 ** 63 + 99)]), 99, ("none", 0)))
    cases.append((store.made(image, [(4 + 4 * record, 5) for record in range(8)]), 5, ("found", 0)))
    for image, word, wanted in cases:
        done = listened(lib, "find", image, desk, number=word)
        same(told(done), (*wanted, ZEROS), "find %d" % word)
        left(done, image, desk, "find")
    for n, record in ((1, 0), (256, 255), (256, 0), (256, None)):
        large, desk = laid(store, n, 16), store.begin(store.new_desk(1, n, 16), 15)["desk"]
        if record is not None:
            large[4 + 4 * record] = 777
        done = listened(lib, "find", large, desk, 15, number=777)
        same(answer_of(done), ("none", 0) if record is None else ("found", record), "find in %d" % n)


class ListeningTrial(Trial):
    """A trial with so few shelf numbers that searches find them."""

    def shelf(self):
        return self.rng.randrange(1, self.n + 4)

    def scribbled(self, image):
        image = super().scribbled(image)
        image[4:4 + 4 * self.n:4] = [self.shelf() for _ in range(self.n)]
        return image

    def choose(self):
        """The same, but a published session mostly stays so, for those that begin after it."""
        call, session, record, words = super().choose()
        if call == "settle" and self.rng.random() < 0.8:
            return self.choose()
        return call, session, record, [self.shelf()] + words[1:]

    def listen(self):
        """A listening call, mostly by a session without copies: call, session, record and number."""
        rng, (_, session, record, _) = self.rng, self.choose_one()
        without = [s for s in range(self.m) if not self.foresight.mine[s]]
        if without and rng.random() < 0.6:
            session = rng.choice(without)
        idle = session < self.m and self.foresight.phase[session] == "idle"
        call = "begin" if idle else rng.choice(["read", "find", "find", "find", "finish"])
        if rng.random() < 0.1:
            call = rng.choice(["begin", "read", "find", "finish"])
        number = self.shelf() if rng.random() < 0.95 else rng.choice([0, 1000000, 2 ** 32 + 1, TOP])
        return call, session, record, number

    def foreseen(self, call, session, record, number):
        """Answer and value of a listening call, from the calls before it alone."""
        if call == "find" and not 1 <= number <= 999999:
            return 15, 0
        like = "read" if call == "find" else call
        refusal = self.foresight.refusal(like, session, 0 if call == "find" else record)
        if refusal or self.foresight.mine[session]:
            return refusal or 18, 0
        if call != "find":
            return self.foresight.step(call, session, record)[:2]
        view = self.book.view(session)
        matches = [record for record in range(self.n) if view[record][0] == number]
        return ("found", matches[0]) if matches else ("none", 0)


def listening_step(lib, trial, seen):
    """One listening call: its answer as foreseen; each record read or looked at as the book says."""
    call, session, record, number = trial.listen()
    wanted = trial.foreseen(call, session, record, number)
    scene = (trial.image, trial.desk, session)
    name = call if call == "find" else call + " listening"
    done = listened(lib, name, *scene, record, number)
    same(answer_of(done), wanted, "%s by %d, record %d, number %d" % (call, session, record, number))
    check_shape(store, trial, [call], done)
    same(done["entries"], [], "entries of " + call)
    if call in ("read", "find"):
        left(done, trial.image, trial.desk, call)
    looked = {"copy": [record], "home": [record], "found": range(wanted[1] + 1), "none": range(trial.n)}
    for at in looked.get(wanted[0], []):
        got = listened(lib, "read listening", *scene, at)["answer"]
        same(got["words"], trial.book.shared(session, at), "words of %d" % at)
        seen["looked at, " + got["name"]] += call == "find"
    seen["%s %s" % (call, wanted[0])] += 1
    seen["found in a copy"] += wanted[0] == "found" and got["name"] == "copy"
    trial.take((call, session, record, None), done)


def listening_runs(lib):
    """Demands 2 and 3 with listening calls among the store's: answers, words, and the records after a cut."""
    seen = Counter()
    for run in range(int(80 * SHARE)):
        rng = random.Random("listening/%d" % run)
        trial = ListeningTrial(store, rng, *((20, 16) if run % 10 == 9 else ()))
        for _ in range(140):
            if rng.random() < 0.4:
                listening_step(lib, trial, seen)
                continue
            step = trial.choose()
            done = trial.made(*step)
            same((*answer_of(done), len(done["entries"])), trial.foresight.step(*step), "run %d" % run)
            trial.take(step, done)
        cut_call(trial, rng)
        recovered(store, trial, rng, run)
        same(trial.homes(), trial.book.records(), "records in run %d" % run)
    wanted = ["begin start", "begin 6", "finish empty", "finish 18", "read copy", "read home", "read 18",
              "find found", "find none", "find 15", "find 6", "find 18", "found in a copy"]
    few = [name for name in wanted if seen[name] < 30 * SHARE]
    same(few, [], "too few of")
    return "found %(find found)d, of these in a copy %(found in a copy)d, none %(find none)d" % seen


@functools.lru_cache(maxsize=None)
def listening_round():
    """The stored listening cases, each with its aim."""
    return [rawlistening.make(stored.RAW_SEED, number) for number in range(len(rawlistening.TURNS))]


def listening_cases(lib):
    """Each stored listening case meets its aim and leaves what it must; none alters its input."""
    for number, (case, (call, aim, value)) in enumerate(listening_round()):
        what = "listening case %d, %s" % (number, call)
        done = made_unaltered(case, lib)
        same(case["call"], call, what)
        words = store_did(case)["answer"]["words"] if aim in ("copy", "home") else ZEROS
        same(told(done), (aim, value, words), what)
        left(done, case["image"], store_did(case)["desk"] if aim in ("start", "empty") else case["desk"], what)
    return "%d cases" % len(listening_round())


def number_places(case):
    """Where a search's number stands under a copy: its holder's phase and how its number compares with
    the start, whether in home and copy, and the place of the copy."""
    sessions, number = case["desk"]["sessions"], case["words"][0]
    start = sessions[case["session"]]["number"]
    for e in sessions:
        way = (e["number"] > start) - (e["number"] < start) if e["phase"] == "published" else None
        for place, (record, words) in enumerate(store.copies_of(e)):
            parts = (store.home(case["image"], record)[0] == number, words[0] == number)
            if any(parts):
                yield e["phase"], way, parts, place


def listening_aims(lib):
    """The listening cases have the stated form; every answer and every edge occurs."""
    seen, shelves, callers, found, places, limits = (set() for _ in range(6))
    for number, (case, (call, aim, value)) in enumerate(listening_round()):
        check_format(case, "listening case %d" % number)
        seen.add((call, aim))
        n, m = case["desk"]["N"], case["desk"]["M"]
        limits |= {(aim, case["trace"]), (aim, case["session"] - m), (aim, "record", case["record"] - n),
                   (aim, "clock", min(0, case["desk"]["clock"] - L))}
        if call == "find":
            shelves.add(case["words"][0])
        if aim in ("found", "none"):
            places |= set(number_places(case))
            callers.add((m, case["session"]))
            found.add((n, m, "none" if aim == "none" else {n - 1: "last", 0: "first"}.get(value)))
    answers = {"begin listening": ["start", 2, 4, 6], "read listening": ["copy", "home", 1, 2, 4, 5, 6, 18],
               "finish listening": ["empty", 1, 2, 3, 4, 6, 18], "find": ["found", "none", 15, 1, 2, 4, 6, 18]}
    same(seen, {(call, aim) for call, aims in answers.items() for aim in aims}, "answers")
    same({0, 1, 999999, 1000000, 2 ** 32 + 5, 2 ** 63, TOP} - shelves, set(), "shelf numbers")
    same({(16, session) for session in range(16)} - callers, set(), "callers")
    kinds = [("active", None), ("sealed", None), ("published", 1), ("published", 0), ("published", -1)]
    parts = [(True, False), (False, True), (True, True)]
    wanted = {(*kind, part, place) for kind in kinds for part in parts for place in range(4)}
    same(wanted - places, set(), "places of the number")
    wanted = {(n, m, which) for n, m in ((256, 16), (256, 1), (9, 16)) for which in ("first", "last", "none")}
    same((wanted | {(1, 1, "first"), (1, 16, "first"), (1, 1, "none")}) - found, set(), "positions")
    wanted = {(3, 47), ("empty", 48), (4, 0), (5, "record", 0), ("empty", "clock", 0), (18, "clock", 0)}
    same(wanted - limits, set(), "limits")
    return "%d answers" % len(seen)


# ---- raw cases with one cause alone --------------------------------------

@functools.lru_cache(maxsize=None)
def stored_cases():
    """The stored raw cases, read back, each with what the model gives."""
    with open(os.path.join(stored.CRATES, "rawcases", "stdin"), "rb") as file:
        words = unpacked(file.read())
    cases, at = [], 0
    while at < len(words):
        size = 670 + words[at + 10]
        cases.append(case_read(words[at:at + size])[0])
        at += size
    return [(case, raw.run(case)) for case in cases]


def as_stored(files, first, end):
    """The stored raw cases from first up to end, run by these copies of the model's files."""
    for number, (case, wanted) in enumerate(stored_cases()[first:end], first):
        same(raw.run(case, files[raw.library_of(case["call"])]), wanted, "stored case %d" % number)
    return "%d cases" % (end - first)


def older_cases(files):
    """The stored raw cases without those that have one cause alone."""
    return as_stored(files, 0, rawalone.FIRST)


def alone_cases(files):
    """Those that have one cause alone."""
    return as_stored(files, rawalone.FIRST, rawspeeds.FIRST)


def alone_named():
    """Two cases written out: a count of 5 over four sound records; a listener with a copy, and 47 words."""
    image = slot_put(store, laid(store, 4, 1), 0, 1, [0, 1, 2, 3])
    image[store.slot_at(4, 0) + 1] = 5
    yield "recover", image, None, 48, (12, 0)
    image, desk = laid(store, 1, 1), store.begin(store.new_desk(1, 1, 1), 0)["desk"]
    desk = store.write(image, desk, 0, 0, [1, 2, 3, 4])["desk"]
    yield "finish listening", image, desk, 47, (3, 0)


def alone_like(case):
    """What a case is about: the call, N and M, the trace, the logs' words that are looked at, the caller's copies."""
    image, desk = case["image"], case["desk"]
    logs = [(place, store.persist(image, place), store.log_count(image, place),
             image[store.slot_at(image[1], place) + 2::5][:4]) for place in store.occupied(image)]
    held = desk and [(e["phase"], [record for record, _ in store.copies_of(e)]) for e in desk["sessions"]]
    return case["call"], image[1:3], case["trace"], logs, held


def alone_aims(st):
    """The cases with one cause alone have the stated form, meet their aims, and refused ones leave all; each is new."""
    before = {tuple(raw.case_words(case)) for case, _ in stored_cases()[:rawalone.FIRST]}
    seen, answers = [], Counter()
    for number, (why, answer, value, case) in enumerate(rawalone.TURNS):
        what = "case %d alone, %s" % (number, why)
        check_format(case, what)
        same(stored_cases()[rawalone.FIRST + number][0], case, what + " as it is stored")
        done = made_unaltered(case)
        same(answer_of(done), (answer, value), what)
        if isinstance(answer, int) and answer != 7:
            desk = store.new_desk(0, 0, 0) if case["call"] == "open" else case["desk"]
            same((done["desk"], done["image"], done["entries"]), (desk, case["image"], []), what + " leaves all")
        same(tuple(raw.case_words(case)) in before, False, what + " is there already")
        seen += [alone_like(case)] if answer in (12, 3) else []
        answers[case["call"]] += 1
    for call, image, desk, trace, answer in alone_named():
        case = dict(raw.blank(call), image=image, desk=desk, trace=trace)
        same(answer_of(raw.run(case)), answer, "the named case of " + call)
        same(alone_like(case) in seen, True, "the named case of " + call)
    return "%d cases by call: %s" % (len(rawalone.TURNS), dict(answers))


# ---- raw cases of open reels without a speed -----------------------------

@functools.lru_cache(maxsize=None)
def speed_round():
    """The cases of open reels without a speed, with the stored ones' seed, each with its aim."""
    return [rawspeeds.make(stored.RAW_SEED, number) for number in range(len(rawspeeds.TURNS))]


def speed_cases(lib):
    """The cases of open reels without a speed."""
    return aims_met(lib, speed_round(), "speed")


def reel_about(case):
    """The four numbers of a reel case, and what the store does: its refusal, where it reads, the way it writes."""
    if case["call"] not in ("read reel", "write reel"):
        return case["words"], None
    answer = store_did(case)["answer"]
    if answer["name"] == "ok":
        return case["words"], rawreels.write_way(case)
    return case["words"] if case["call"] == "write reel" else answer["words"], answer["number"] or answer["name"]


def pairs_wanted():
    """By hand: call, carrier and code, what the store does, answer."""
    for pair in itertools.product((1, 2, 3), range(7)):
        packed = read = length = 16
        if pair in ((1, 1), (1, 2), (1, 3), (1, 4), (1, 5), (2, 1)):
            packed, read, length = "ok", "reel", "metres"
        if pair in ((2, 0), (3, 0)):
            packed, read, length = "ok", "reel", "unknown"
        if pair == (1, 0):
            packed, read, length = 16, "speed to find", "unknown"
        yield from (("pack", pair, None, packed), ("unpack", pair, None, read), ("length", pair, None, length))
        yield from (("write reel", pair, way, packed) for way in ("first", "further", "overwritten"))
        yield from (("read reel", pair, where, read) for where in ("own", "copy", "home"))
    for number in (1, 2, 4, 5, 6, 7, 8, 9):
        yield "write reel", (1, 0), number, 16
        yield "write reel", "with a speed", number, number
    for number in (1, 2, 4, 5, 6):
        yield "read reel", (0, 0), number, number  # refused, it has no words


# By hand: four numbers, and the answers of pack, unpack, read, write and length.
SPEED_EDGES = {(1, 1, 0, 0): (16, "speed to find", "speed to find", 16, "unknown"),
               (999999, 1, 0, 359999): (16, "speed to find", "speed to find", 16, "unknown"),
               (1, 1, 0, 360000): (16, 17, 17, 16, 17), (0, 1, 0, 0): (15,) * 5, (1000000, 1, 0, 359999): (15,) * 5,
               (0, 1, 0, 360000): (15,) * 5, (0, 0, 0, 0): (15, "unused", "unused", 15, "unknown")}
LOW_BITS = [(257, 0), (2 ** 32 + 1, 0), (2 ** 63 + 1, 0), (1, 256), (1, 2 ** 32), (1, 2 ** 63)]


def edges_wanted():
    """By hand: call, four numbers or carrier and code, answer."""
    for four, answers in SPEED_EDGES.items():
        yield from zip(("pack", "unpack", "read reel", "write reel", "length"), itertools.repeat(four), answers)
    for pair in LOW_BITS:
        yield from ((call, pair, 16) for call in ("pack", "unpack", "read reel", "write reel"))


def overs_wanted():
    """By hand: carrier and code of what is written, where the session sees the record, carrier and code of what is
    stored there, answer."""
    for (_, *pair, _), answer in OVER:
        for where in ("own", "home"):
            yield tuple(pair), where, (1, 0), answer
        yield tuple(pair), "copy", (1, 0), 7 if answer == "ok" else 16
    for where in ("own", "home"):
        yield from (((1, 0), where, stored, 16) for stored in ((1, 3), (0, 0), (1, 6)))


def besides_wanted():
    """By hand: where a read finds its words, carrier and code there and at the other place, answer."""
    for where in ("own", "copy", "home"):
        yield from ((where, (1, 0), other, "speed to find") for other in ((1, 3), (0, 0), (1, 6)))
        yield where, (1, 3), (1, 0), "reel"


def other_words(case, where):
    """What is at the place of a record that a read does not come to; None if there is no such place."""
    if where != "home":
        return store.home(case["image"], case["record"])
    held = [words for e in case["desk"]["sessions"] for record, words in store.copies_of(e) if record == case["record"]]
    return held[0] if held else None


def speed_seen(case, call, aim, where):
    """What a case has of all that is wanted by hand."""
    four, how = reel_about(case)
    pair = tuple(four[1:3])
    yield from ((call, pair, how, aim), (call, tuple(four), aim), (call, pair, aim))
    if call == "write reel":
        if pair in ((1, 1), (1, 2), (1, 3), (1, 4), (1, 5)):
            yield call, "with a speed", how, aim
        seen = raw.run(dict(case, call="read"))["answer"]
        yield pair, seen["name"], tuple(seen["words"][1:3]), aim
        slot = store_did(case)["desk"]["sessions"][case["session"] % 16]["slot"]
        yield "slot", pair == (1, 0), how, slot, aim
    if where and other_words(case, where):
        yield where, pair, tuple(other_words(case, where)[1:3]), aim
    if how == 2:
        yield "clock above word 3", call, pair == (1, 0), store.broken_rules(case["desk"], case["image"]) == ["ceiling"]


def speed_lines():
    """By hand: lines of raw cases."""
    for call, line in (("pack", "7 11 16 0 0 0 0 0 0 0 0 0"), ("unpack", "7 12 39 0 5 1 0 60 0 0 0 0"),
                       ("length", "7 15 36 0 0 0 0 0 0 0 0 0")):
        same(raw.want_line(7, dict(raw.blank(call), words=[5, 1, 0, 60])), line, "line of " + call)
    for where, line in (("own", "7 13 39 22 5 1 0 60 0 "), ("copy", "7 13 39 23 5 1 0 60 0 "),
                        ("home", "7 13 39 24 5 1 0 60 0 ")):
        image, desk = reel_scene(**{where: [5, 1, 0, 60]})
        case = dict(raw.blank("read reel"), image=image, desk=desk, record=REEL_PLACES[where])
        same(raw.want_line(7, case)[:len(line)], line, "line of a read from " + where)


def speed_aims(lib):
    """These cases have the stated form and are the stored ones; all that is wanted of them by hand occurs."""
    seen, answers = set(), set()
    for number, (case, (call, aim, where)) in enumerate(speed_round()):
        what = "speed case %d" % number
        check_format(case, what)
        same(stored_cases()[rawspeeds.FIRST + number][0], case, what + " as it is stored")
        answers.add((call, aim, where))
        seen.update(speed_seen(case, call, aim, where))
    wanted = {*pairs_wanted(), *edges_wanted(), *overs_wanted(), *besides_wanted()}
    wanted |= {("slot", True, "first", 1, 16), ("slot", False, "first", 1, "ok")}
    wanted |= {("clock above word 3", "write reel", without, True) for without in (True, False)}
    wanted.add(("clock above word 3", "read reel", False, True))  # refused, it has no words
    same(sorted(map(str, wanted - seen)), [], "what no case of open reels without a speed has")
    speed_lines()
    return "%d cases, %d answers, %d edges" % (len(speed_round()), len(answers), len(wanted))


# ---- raw cases of short logs ---------------------------------------------

def short_cases(st):
    """The cases of short logs meet their aims; what each leaves is what the model gives, and its entries are those that
    are read off by hand."""
    for number, (why, answer, value, entries, case) in enumerate(rawshort.TURNS):
        what = "short case %d, %s" % (number, why)
        library = None if raw.library_of(case["call"]) is listening else st
        done = raw.run(case, library)
        same((*answer_of(done), len(done["entries"])), (answer, value, entries), what)
        image = case["image"]
        if answer == "sealed":
            own = case["desk"]["sessions"][case["session"]]
            at = 4 + 4 * image[1] + 44 * case["session"] + 22 * own["slot"]
            same(done["entries"], finish_wanted(image, own["places"][:own["count"]], at, value), what)
        if answer == "replayed":
            same(done["entries"], replay_wanted(image), what)
        same(done, raw.run(case), what)
    return "%d cases" % len(rawshort.TURNS)


def short_seen(case, answer):
    """What a case has of all that is wanted by hand."""
    image = case["image"]
    if case["call"] == "finish" and answer == "sealed":
        own = case["desk"]["sessions"][case["session"]]
        copies = own["places"][:own["count"]]
        spots = [(record, i) for record, words in copies for i in range(4) if words[i] != image[4 + 4 * record + i]]
        yield "finish", len(copies), len(spots)
        if len(spots) == 1:
            yield "the word", image[1], *spots[0]
        records = [record for record, _ in copies]
        order = "rise" if records == sorted(records) else "fall" if records == sorted(records, reverse=True) else "mixed"
        yield "order", len(records), order, spots != sorted(spots)
    if case["call"] == "recover" and len(image) == 4 + 4 * image[1] + 44 * image[2] and case["trace"] >= 48:
        logs = [(place, image[at:at + 22]) for place, at in enumerate(range(4 + 4 * image[1], len(image), 22)) if image[at]]
        for _, log in logs:
            yield "count", log[1], answer
        if len(logs) == 1:
            _, log = logs[0]
            if 16 < log[1] <= 25 and answer in (12, "replayed"):
                indexes = log[2:2 + 2 * (log[1] - 16):2]
                wrong = [at for at in range(1, len(indexes)) if indexes[at] <= indexes[at - 1]]
                yield from (("wrong at", len(indexes), at, indexes[at] == indexes[at - 1]) for at in wrong if len(wrong) == 1)
                if not wrong:
                    yield "largest", image[1], indexes[-1], answer
                    yield "pairs, the last out of range", len(indexes), answer == 12
        if len(logs) == 2 and logs[0][1][0] == logs[1][1][0]:
            (one, a), (other, b) = logs
            yield "tie", form_of(a[1]), form_of(b[1]), one // 2 == other // 2, answer
            yield "tie of no pairs", form_of(a[1]), form_of(b[1]), a[1] == 16, b[1] == 16, answer


def short_wanted():
    """By hand: what the cases of short logs have."""
    yield from (("finish", copies, k) for copies in (1, 2, 3, 4) for k in range(4 * copies + 1))
    yield from (("the word", n, record, i) for n, records in ((8, (0, 4, 7)), (1, (0,))) for record in records for i in range(4))
    yield from (("the word", 256, record, i) for record, i in ((0, 0), (63, 3), (64, 0), (255, 3)))
    yield from (("order", copies, order, order != "rise") for copies in (3, 4) for order in ("rise", "fall", "mixed"))
    yield from (("count", count, "replayed") for count in (1, 2, 3, 4, *range(16, 26)))
    yield from (("count", count, 12) for count in (0, *range(5, 16), 26, 27, 31, 32, 2 ** 32 + 16, 2 ** 63, TOP))
    yield from (("wrong at", 9, at, equal) for at in range(1, 9) for equal in (True, False))
    for n in (1, 8, 64, 256):
        yield from (("largest", n, 4 * n - 1, "replayed"), ("largest", n, 4 * n, 12))
    yield from (("largest", 8, index, 12) for index in (33, 2 ** 32 + 4, 2 ** 62, 2 ** 62 + 1, 2 ** 63, TOP - 3, TOP))
    yield from (("pairs, the last out of range", k, out) for k in range(1, 10) for out in (True, False))
    for answer, ones in ((13, (True, False)), ("replayed", (False,))):
        yield from (("tie", one, other, alone, answer) for one in ("short", "full") for other in ("short", "full") for alone in ones
                    if (one, other) != ("full", "full") and (one, other, alone) != ("short", "full", True))
    yield from (("tie of no pairs", *what, "replayed") for what in (("short", "full", True, False), ("full", "short", False, True),
                                                                   ("short", "short", True, True), ("short", "short", True, False)))


def short_aims(st):
    """The cases of short logs have the stated form, are the stored ones and new; refused ones leave all; all that is
    wanted of them by hand occurs."""
    before = {tuple(raw.case_words(case)) for case, _ in stored_cases()[:rawshort.FIRST]}
    seen, answers = set(), Counter()
    for number, (why, answer, _, _, case) in enumerate(rawshort.TURNS):
        what = "short case %d, %s" % (number, why)
        check_format(case, what)
        same(stored_cases()[rawshort.FIRST + number][0], case, what + " as it is stored")
        done = made_unaltered(case)
        if isinstance(answer, int):
            desk = store.new_desk(0, 0, 0) if case["call"] == "open" else case["desk"]
            same((done["desk"], done["image"], done["entries"]), (desk, case["image"], []), what + " leaves all")
        same(tuple(raw.case_words(case)) in before, False, what + " is there already")
        before.add(tuple(raw.case_words(case)))
        answers[case["call"], answer] += 1
        seen.update(short_seen(case, answer))
    wanted = set(short_wanted())
    same(sorted(map(str, wanted - seen)), [], "what no case of short logs has")
    return "%d cases, %d pairs of call and answer, %d edges" % (len(rawshort.TURNS), len(answers), len(wanted))


def short_streams(st):
    """The streams of small edits: finishes of each number of copies and of words that differ, cut at each count."""
    seen, logs = Counter(), Counter()

    class Watch(reelwalk.Walk):
        """Notes the logs of the finishes."""

        def storing(self, kind, session):
            if kind == 4 and session < 16 and self.desk["sessions"][session]["count"]:
                done = st.finish(self.image, self.desk, 48, session)
                if done["answer"]["name"] == "sealed":
                    own = self.desk["sessions"][session]
                    differ = sum(word != self.image[4 + 4 * record + i] for record, words in own["places"][:own["count"]]
                                 for i, word in enumerate(words))
                    same(len(done["entries"]), entries_of_finish(own["count"], differ), "entries")
                    seen[own["count"], differ, None if self.cut is None else min(self.cut, len(done["entries"]) + 1)] += 1
                    logs[form_of(done["entries"][0][1])] += 1
            return super().storing(kind, session)

    for kind in ("edits", "cuts_edits", "equal_words"):
        for seed in range(1, stored.SEEDS[kind] + 1):
            walk, data, at = Watch(st), streams.stream(kind, seed), 0
            while at < len(data):
                size = reelwalk.BODIES[data[at]]
                walk.step(data[at], data[at + 1:at + 1 + size])
                at += 1 + size
    wanted = [(copies, k, cut) for copies in (1, 2, 3, 4) for k in [*range(LAST_SHORT[copies] + 2), 4 * copies]
              for cut in range(entries_of_finish(copies, k) + 2)]
    wanted += [(copies, k, None) for copies in (1, 2, 3, 4) for k in (0, 1, 2)]
    same([case for case in wanted if not seen[case]], [], "finishes that no stream has")
    return "%d finishes with a short log, %d with a full one" % (logs["short"], logs["full"])


# ---- raw cases of the order in which sessions began -----------------------

def above(st):
    """The model's files, those above the store on this copy of it."""
    if st is store:
        return FILES
    files = {store: st}
    for module in (reels, listening):
        files[module] = copied(text_of(module.__name__ + ".py"))
        for below in list(files)[:-1]:
            setattr(files[module], below.__name__, files[below])
    return files


@functools.lru_cache(maxsize=None)
def order_wanted():
    """What the model gives for each case of the order."""
    return [raw.run(case) for *_, case in raworder.TURNS]


def order_cases(st):
    """The cases of the order meet their aims, and each leaves the order that it states; all else is as the model gives
    it."""
    files = above(st)
    for number, (why, answer, value, order, case) in enumerate(raworder.TURNS):
        what = "order case %d, %s" % (number, why)
        done = raw.run(case, files[raw.library_of(case["call"])])
        same((*answer_of(done), done["desk"]["order"]), (answer, value, order), what)
        same(done, order_wanted()[number], what)
    return "%d cases" % len(raworder.TURNS)


def order_seen(case, answer, broken):
    """What a case has of all that is wanted by hand."""
    call, desk = case["call"], case["desk"]
    active = [session for session in range(16) if desk["sessions"][session]["phase"] == "active"]
    order, used = desk["order"], len(active)
    for rule in broken if len(broken) == 1 else ():
        yield "alone", rule, call, answer
        yield rule, used, "session 0 active" if 0 in active else "session 0 not active"
    if broken == ["listed"]:
        for at, session in enumerate(order[:used]):
            if session not in active:
                yield "in place", at, desk["sessions"][session]["phase"] if session < 16 else session
    if broken == ["unused listed"]:
        yield from (("unused place", used, at) for at in range(used, 16) if order[at])
    if broken == ["starts rise"]:
        starts = [desk["sessions"][session]["number"] for session in order[:used]]
        yield from (("falls at", used, at) for at in range(1, used) if starts[at] < starts[at - 1])
    if not broken and call == "begin" and answer == "start":
        yield "begin", used, case["session"]
    if not broken and answer in ("ok", "empty", "sealed", 7) and call not in ("settle",) and case["session"] in active:
        at = order.index(case["session"])
        where = "only" if used == 1 else "first" if at == 0 else "last" if at == used - 1 else "in between"
        yield "goes", call, answer, where
        yield "goes", answer, case["session"], used
    if call == "settle" and not broken and answer in ("ok", "wait"):
        starts = [desk["sessions"][session]["number"] for session in order[:used]]
        run = starts.count(starts[0]) if starts else 0
        yield "run", answer, run, run == used
        if run:
            yield "lowest at", answer, run, order.index(min(order[:run]))
            yield "session 0", answer, desk["sessions"][0]["phase"], 0 in order[:run] and 0 in active


def order_hoped():
    """By hand: what the cases of the order have."""
    rules = ["listed", "listed once", "starts rise", "unused listed"]
    yield from (("alone", rule, call, 2) for rule in rules for call in raworder.CALLS)
    yield from (("alone", "listed", call, 1) for call in ("read", "write reel", "find", GROUP))
    yield from ((rule, 16, "session 0 active") for rule in rules[:3])
    yield from ((rule, 4, "session 0 not active") for rule in rules[:1])
    yield from (("in place", at, who) for at in (0, 3) for who in ("idle", "sealed", "published", 16))
    yield from (("in place", at, 255) for at in (0, 2))
    yield from (("unused place", 0, at) for at in range(16))
    yield from (("unused place", used, 15) for used in (0, 1, 4, 15))
    yield from (("falls at", 16, at) for at in range(1, 16))
    yield from (("begin", used, session) for used in (0, 1, 15) for session in (0, 1, 15))
    ways = [("abandon", "ok"), ("finish", "empty"), ("finish", "sealed"), ("write", 7), ("finish listening", "empty")]
    yield from (("goes", *way, where) for way in ways for where in ("only", "first", "in between", "last"))
    yield from (("goes", answer, 0, used) for answer in ("ok", "empty", "sealed", 7) for used in (1, 3, 4, 16))
    yield from (("run", "wait", run, whole) for run in (1, 2, 3) for whole in (True, False))
    yield from (("run", "wait", 15, True), ("run", "wait", 14, False), ("run", "ok", 0, True), ("run", "ok", 15, True))
    yield from (("lowest at", "wait", 15, at) for at in (0, 7, 14))
    yield from (("session 0", "wait", phase, False) for phase in ("idle", "active", "sealed", "published"))
    yield "session 0", "wait", "active", True


def order_aims(st):
    """The cases of the order have the stated form, are the stored ones and new; refused ones leave all; all that is
    wanted of them by hand occurs."""
    before = {tuple(raw.case_words(case)) for case, _ in stored_cases()[:raworder.FIRST]}
    seen, answers = set(), Counter()
    for number, (why, answer, _, _, case) in enumerate(raworder.TURNS):
        what = "order case %d, %s" % (number, why)
        check_format(case, what)
        same(stored_cases()[raworder.FIRST + number][0], case, what + " as it is stored")
        done = made_unaltered(case)
        if isinstance(answer, int) and answer != 7:
            left(done, case["image"], case["desk"], what)
        same(tuple(raw.case_words(case)) in before, False, what + " is there already")
        before.add(tuple(raw.case_words(case)))
        answers[case["call"], answer] += 1
        broken = store.broken_rules(case["desk"])
        same(bool(broken), not order_right(case["desk"]), what + ", the order")
        seen.update(order_seen(case, answer, broken))
    same(len(stored_cases()), raworder.FIRST + len(raworder.TURNS), "stored cases")
    wanted = set(order_hoped())
    same(sorted(map(str, wanted - seen)), [], "what no case of the order has")
    return "%d cases, %d pairs of call and answer, %d edges" % (len(raworder.TURNS), len(answers), len(wanted))


def order_lists(st):
    """The other stored cases have orders that are right, so that what they are for is all that is wrong with them."""
    seen = Counter()
    for number, (case, _) in enumerate(stored_cases()[:raworder.FIRST]):
        if case["desk"] is not None:
            same(order_right(case["desk"]), True, "order of stored case %d" % number)
            numbers = [e["number"] for e in case["desk"]["sessions"]]
            used = case["desk"]["order"][:sum(e["phase"] == "active" for e in case["desk"]["sessions"])]
            for one, other in zip(used, used[1:]):
                if numbers[one] == numbers[other]:
                    seen["rises" if one < other else "falls"] += 1
    same(min(seen["rises"], seen["falls"]) > 1000, True, "equal starts in both orders")
    return "equal starts: session rises %(rises)d, falls %(falls)d" % seen


def order_streams(st):
    """The streams of the order: each way to end with the first, the last and one in between; up to sixteen active."""
    seen, most = Counter(), Counter()
    for seed in range(1, stored.SEEDS["order"] + 1):
        walk, data, at = reelwalk.Walk(st), streams.stream("order", seed), 0
        while at < len(data):
            size, before = reelwalk.BODIES[data[at]], walk.desk
            name = streams.label(walk.step(data[at], data[at + 1:at + 1 + size])[0])
            if before is not None and walk.desk is not None:
                used = [sum(e["phase"] == "active" for e in desk["sessions"]) for desk in (before, walk.desk)]
                if used[0] - used[1] == 1 and before["clock"] == walk.desk["clock"]:
                    place = before["order"].index(data[at + 1])
                    where = "first" if place == 0 else "last" if place == used[0] - 1 else "in between"
                    seen.update([(name, where), (name, data[at + 1])])
                most[data[2]] = max(most[data[2]], used[1])
            seen[name] += 1
            at += 1 + size
    wanted = [(name, where) for name in ("finish empty", "finish sealed", "abandon ok", "write no 7")
              for where in ("first", "last", "in between", 0, 15)]
    same([case for case in wanted if not seen[case]], [], "what no stream has")
    same([m for m in set(streams.ORDER_M) if most[m] != m], [], "sessions that are never all active")
    same(min(seen["settle wait"], seen["settle ok"]) > 300, True, "settles that wait, and that don't")
    return "waits %d, settled %d, up to %d active" % (seen["settle wait"], seen["settle ok"], max(most.values()))


# ---- the yearly report (document 02, Req 10) --------------------------------

def report_image(*records, m=1, word_3=0):
    """An image with these records and empty slots."""
    return [1, len(records), m, word_3] + [word for words in records for word in words] + [0] * 44 * m


def reported(lib, image, table):
    """The answer (number, reels, seconds, bad, unused) and the table. What is given is not altered, and no line comes or
    goes."""
    before = list(image), list(table)
    answer, after = lib.report(image, table)
    same((image, table), before, "what is given")
    same(len(after), len(table), "lines")
    same(sorted(answer), ["bad", "number", "reels", "seconds", "unused"], "fields")
    return tuple(answer[field] for field in ("number", "reels", "seconds", "bad", "unused")), after


def image_bytes(image):
    """Each word as eight bytes, lowest first."""
    return b"".join(bytes(word // 256 ** i % 256 for i in range(8)) for word in image)


OLD_LINES = [(70, 71), (80, 81), (90, 91), (100, 101), (110, 111), (120, 121)]  # what stood in a table before


def report_records(lib):
    """One record: with its carrier, bad or unused, by hand; carriers with codes, at the edges of the other two."""
    def single(words):
        return reported(lib, report_image(words), OLD_LINES[:3])
    for words in GOOD_REELS + WITHOUT_SPEED:
        lines = [(1, words[3]) if carrier == words[1] else (0, 0) for carrier in (1, 2, 3)]
        same(single(words), ((0, 1, words[3], 0, 0), lines), "reel %s" % words)
    for words in NOR_SECONDS + [words for bad in BAD_REELS.values() for words in bad]:
        same(single(words), ((0, 0, 0, 1, 0), [(0, 0)] * 3), "bad %s" % words)
    same(single(ZEROS), ((0, 0, 0, 0, 1), [(0, 0)] * 3), "unused")
    readable = {(1, 0), (1, 1), (1, 2), (1, 3), (1, 4), (1, 5), (2, 0), (2, 1), (3, 0)}
    for words in itertools.product((0, 1, 999999, 1000000), range(5), range(7), (0, 359999, 360000)):
        shelf, carrier, code, seconds = words
        good = shelf in (1, 999999) and (carrier, code) in readable and seconds < 360000
        wanted = (0, 1, seconds, 0, 0) if good else (0, 0, 0, 0, 1) if not any(words) else (0, 0, 0, 1, 0)
        same(single(list(words))[0], wanted, "record %s" % (words,))


# An image, the report of it and what the program prints.
SEVEN = [[17, 1, 3, 3600], ZEROS, [18, 2, 1, 2700], [20, 1, 0, 600], [21, 1, 6, 70], [19, 3, 0, 1500], [17, 1, 3, 3600]]
SEVEN_GIVE = (0, 5, 12000, 1, 1), [(3, 7800), (1, 2700), (1, 1500)]
SEVEN_LINES = b"1 3 7800\n2 1 2700\n3 1 1500\nall 5 12000\nbad 1\n"


def report_tables(lib):
    """Tables of each length: what stood in the first three lines does not count, the others stay."""
    answer, lines = SEVEN_GIVE
    for room in range(7):
        for table in (OLD_LINES[:room], [(0, 0)] * room, [(TOP, TOP)] * room):
            given = (20, 0, 0, 0, 0) if room < 3 else answer
            for image, first in ((report_image(*SEVEN), lines), (report_image(ZEROS), [(0, 0)] * 3)):
                got = reported(lib, image, table)
                same(got[1], table if room < 3 else first + table[3:], "room %d" % room)
            same(reported(lib, report_image(*SEVEN), table)[0], given, "room %d" % room)


def report_sums(lib):
    """Drawn images: what is drawn is counted as it is drawn. The counts and the unused make N."""
    rng, most = random.Random("report sums"), 0
    for _ in range(int(60 * SHARE)):
        n, m = rng.choice([1, 2, 3, 30, 255, 256]), rng.randint(1, 16)
        records, lines, bad, unused = [], [(0, 0)] * 3, 0, 0
        for _ in range(n):
            shelf, seconds, way = rng.randint(1, 999999), rng.choice([0, 359999, rng.randrange(360000)]), rng.random()
            carrier = rng.choice([1, 1, 2, 3])
            if way < 0.6:
                records.append([shelf, carrier, rng.randint(0, {1: 5, 2: 1, 3: 0}[carrier]), seconds])
                count, total = lines[carrier - 1]
                lines[carrier - 1] = count + 1, total + seconds
            elif way < 0.8:
                records.append(rng.choice([
                    [0, carrier, 0, seconds], [1000000 + shelf, carrier, 0, seconds], [shelf, carrier + 3, 0, seconds],
                    [shelf, carrier, 6 + shelf, seconds], [shelf, carrier, 0, 360000 + seconds]]))
                bad += 1
            else:
                records.append(ZEROS)
                unused += 1
        image = report_image(*records, m=m, word_3=rng.choice([0, 5, L, TOP]))
        for at in range(4 + 4 * n, len(image)):
            image[at] = 0 if (at - 4 - 4 * n) % 22 == 0 else rng.choice([0, 1, 5, TOP])
        answer = 0, sum(count for count, _ in lines), sum(total for _, total in lines), bad, unused
        same(reported(lib, image, OLD_LINES[:4]), (answer, lines + OLD_LINES[3:4]), "drawn image")
        same(answer[1] + bad + unused, n, "N")
        most = max(most, answer[2])
    return "up to %d seconds" % most


def report_refusals(lib):
    """1, 11 and 20 by hand: alone and together. The table stays, the other fields are 0."""
    good = report_image(*SEVEN, m=2)
    slots = {place: 32 + 22 * place for place in range(4)}  # by place, where it starts: behind 4 + 28 words

    def refused(number, image, room, what):
        same(reported(lib, image, OLD_LINES[:room]), ((number, 0, 0, 0, 0), OLD_LINES[:room]), what)
    for at, word in ((0, 0), (0, 2), (0, TOP), (0, 2 ** 32 + 1), (1, 0), (1, 6), (1, 8), (1, 257), (1, TOP), (1, 2 ** 62 + 7), (2, 0),
                     (2, 1), (2, 3), (2, 17), (2, TOP), (2, 2 ** 62 + 2)):
        for room in (0, 2, 3, 5):
            refused(1, good[:at] + [word] + good[at + 1:], room, "word %d is %d" % (at, word))
    for size in [*range(10), 31, 32, 119]:
        refused(1, good[:size], 3, "%d words" % size)
    refused(1, good + [0], 3, "a word too many")
    refused(1, report_image(m=1), 3, "no record")
    refused(1, report_image(*SEVEN, m=0), 3, "no session")
    refused(1, report_image(*[ZEROS] * 257), 3, "257 records")
    refused(1, report_image(ZEROS, m=17), 3, "17 sessions")
    for place, at in slots.items():
        for number in (1, 256, 2 ** 32, 2 ** 63, TOP):
            full = good[:at] + [number] + good[at + 1:]
            for room in (0, 2, 3, 6):
                refused(11, full, room, "place %d" % place)
            for image in (full[:-1], full + [0], [2] + full[1:], [1, 8] + full[2:]):
                for room in (2, 3):
                    refused(1, image, room, "place %d, and the image is wrong" % place)
        for i in range(1, 22):
            left_there = good[:at + i] + [TOP] + good[at + i + 1:]
            same(reported(lib, left_there, OLD_LINES[:3]), SEVEN_GIVE, "word %d of an empty slot" % i)
    for room in (0, 1, 2):
        refused(20, good, room, "room %d" % room)
    for word_3 in (1, L - 1, L, L + 1, 2 ** 63, TOP):
        image = good[:3] + [word_3] + good[4:]
        same(reported(lib, image, OLD_LINES[:3]), SEVEN_GIVE, "word 3 is %d" % word_3)
        refused(20, image, 2, "word 3 is %d" % word_3)
    same(reported(lib, report_image(*[[5, 3, 0, 359999]] * 256, m=16), OLD_LINES[:3]),
         ((0, 256, 92159744, 0, 0), [(0, 0), (0, 0), (256, 92159744)]), "1,732 words")


def report_texts(lib):
    """What the program prints, by hand."""
    good = image_bytes(report_image(*SEVEN, word_3=L))
    same(lib.text(good), SEVEN_LINES, "a report")
    same(lib.text(image_bytes(report_image(ZEROS))), b"1 0 0\n2 0 0\n3 0 0\nall 0 0\nbad 0\n", "nothing")
    same(lib.text(image_bytes(report_image(*[[1, 2, 1, 359999]] * 256, m=16))),
         b"1 0 0\n2 256 92159744\n3 0 0\nall 256 92159744\nbad 0\n", "256 cassettes")
    same(lib.text(image_bytes(report_image([0, 0, 0, 1], [TOP] * 4))), b"1 0 0\n2 0 0\n3 0 0\nall 0 0\nbad 2\n", "bad ones")
    for size in range(len(good)):
        same(lib.text(good[:size]), b"no 1\n", "the first %d bytes" % size)
    for more in [*range(1, 18), 8 * 1732, 65536 - len(good), 65536, 100000]:
        same(lib.text(good + bytes(more)), b"no 1\n", "%d bytes more" % more)
    same(lib.text(good[::-1]), b"no 1\n", "backwards")
    at = 8 * (4 + 28)
    for byte in range(8):
        occupied = good[:at + byte] + b"\1" + good[at + byte + 1:]
        same(lib.text(occupied), b"no 11\n", "persist number 256 to the %d" % byte)
        same(lib.text(occupied + b"\0"), b"no 1\n", "the same and a byte")


def report_of_store(lib):
    """Images that the store has written: 11 as long as a log is there, reclaimed or recovered the reels that were
    written."""
    image, desk = store.lay(3, 1, [0] * 60)["image"], None
    same(lib.text(image_bytes(image)), b"1 0 0\n2 0 0\n3 0 0\nall 0 0\nbad 0\n", "laid")
    done = store.open_image(image, 48)
    image, desk = done["image"], done["desk"]
    same((image[3], lib.text(image_bytes(image))[:4]), (1025, b"1 0 "), "opened")
    desk = store.begin(desk, 0)["desk"]
    for record, reel in ((2, [999999, 3, 0, 359999]), (0, [1, 1, 5, 1])):
        desk = reels.write(image, desk, 0, record, reel)["desk"]
    same(lib.text(image_bytes(image))[-14:], b"all 0 0\nbad 0\n", "not sealed")
    done = store.finish(image, desk, 48, 0)
    image, desk = done["image"], done["desk"]
    cut, wanted = image, b"1 1 1\n2 0 0\n3 1 359999\nall 2 360000\nbad 0\n"
    same(lib.text(image_bytes(image)), b"no 11\n", "sealed")
    for call in ("publish", "settle", "reclaim"):
        same(lib.text(image_bytes(image)), b"no 11\n", "before " + call)
        done = getattr(store, call)(image, desk, 48, 0)
        image, desk = done["image"], done["desk"]
    same(lib.text(image_bytes(image)), wanted, "reclaimed")
    same(lib.text(image_bytes(store.recover(cut, 48)["image"])), wanted, "recovered")


# ---- cases of the report ---------------------------------------------------

def report_wanted(given, room, size):
    """By hand: answer, the five lines and the program's text, of what an image gives with room enough."""
    old = [(0xA5A5A5A500000000 + 2 * i, 0xA5A5A5A500000000 + 2 * i + 1) for i in range(5)]
    if isinstance(given, int):
        return (given, 0, 0, 0, 0), old, b"no %d\n" % (given if size % 8 == 0 else 1)
    lines, bad, unused = given
    totals = sum(count for count, _ in lines), sum(seconds for _, seconds in lines)
    text = b"1 %d %d\n2 %d %d\n3 %d %d\nall %d %d\nbad %d\n" % (*lines[0], *lines[1], *lines[2], *totals, bad)
    text = text if size % 8 == 0 else b"no 1\n"
    return ((20, 0, 0, 0, 0), old, text) if room < 3 else ((0, *totals, bad, unused), lines + old[3:], text)


def report_cases(lib):
    """The report cases give what is stated for each by hand, from the library and from the program."""
    for number, (why, given, room, data) in enumerate(rawreport.TURNS):
        answer, table, text = rawreport.run(room, data, lib)
        answer = tuple(answer[field] for field in ("number", "reels", "seconds", "bad", "unused"))
        same((answer, table, text), report_wanted(given, room, len(data)), "report case %d, %s" % (number, why))
    return "%d cases" % len(rawreport.TURNS)


def report_stored():
    """The stored cases, read back: room, bytes, line and text of each."""
    parts = []
    for name in ("stdin", "stdout"):
        with open(os.path.join(stored.CRATES, "reportcases", name), "rb") as file:
            parts.append(file.read())
    data, lines, at = parts[0], parts[1].split(b"\n"), 0
    same(lines.pop(), b"", "the last line's end")
    while at < len(data):
        size = int.from_bytes(data[at + 1:at + 5], "little")
        text = [lines.pop(1) for _ in range(1 if lines[1].startswith(b"no ") else 5)]
        yield data[at], data[at + 5:at + 5 + size], lines.pop(0), b"".join(line + b"\n" for line in text)
        at += 5 + size
    same((at, lines), (len(data), []), "the end of both files")


def report_seen(given, room, data):
    """What a case has of all that is wanted by hand."""
    words = [int.from_bytes(data[at:at + 8], "little") for at in range(0, len(data), 8)]
    good, whole = not isinstance(given, int), len(data) % 8 == 0
    yield "room", room, given if not good else "good"
    yield "bytes", len(data)
    if whole and len(words) >= 4:
        yield "words", len(words), tuple(words[:3]), given if not good else "good"
    for at in range(3) if given == 1 and len(words) == 60 else ():
        yield "header", at, words[at]
    if good and whole:
        n, m = words[1:3]
        yield "size", n, m
        yield "word 3", words[3]
        records = [words[4 + 4 * i:8 + 4 * i] for i in range(n)]
        for place, record in enumerate(records):
            others = sum(any(other) for other in records) - 1
            if n == 4:
                yield "among", *record, given[1]
            if others == 0 and any(record):
                yield "alone", n, place, given[1]
        yield "totals", sum(count for count, _ in given[0]), sum(seconds for _, seconds in given[0]), given[1], given[2]
    if given == 11:
        slots = [words[at:at + 22] for at in range(4 + 4 * words[1], len(words), 22)]
        places = [place for place, slot in enumerate(slots) if slot[0]]
        if len(places) == 1:
            yield "occupied", words[2], places[0], slots[places[0]][0]


def report_hoped():
    """By hand: what the report cases have."""
    yield from (("room", room, given) for room in range(6) for given in ("good", 11, 1))
    yield from (("bytes", size) for size in [*range(9), 31, 32, 408, 415, 416, 417, 423, 424, 8 * 1732 - 1, 8 * 1732 + 1, 14407])
    yield from (("words", 1732 + more, (1, 256, 16), "good" if more == 0 else 1) for more in (-1, 0, 1))
    yield from (("words", 1732, (1, *size), 1) for size in ((255, 16), (256, 15)))
    yield "words", 1733, (2, 256, 16), 1
    yield from (("header", at, word) for at, words in ((0, (0, 2, 2 ** 32 + 1, TOP)), (1, (0, 2, 4, TOP)), (2, (0, 2, 17, TOP)))
                for word in words)
    yield from (("size", n, m) for n, m in ((1, 1), (256, 16), (256, 1), (1, 16)))
    yield from (("word 3", word) for word in (0, L - 1, L, TOP))
    readable = [(1, 0), (1, 1), (1, 2), (1, 3), (1, 4), (1, 5), (2, 0), (2, 1), (3, 0)]
    yield from (("among", 5, *pair, 61 + pair[0], int(pair not in readable)) for pair in itertools.product((1, 2, 3), [*range(7), TOP]))
    yield from (("among", 5, carrier, 0, 60, 1) for carrier in (0, 4, 257, 258, 259, 2 ** 32 + 1, 2 ** 32 + 2, 2 ** 32 + 3, TOP))
    yield from (("among", 5, carrier, int(carrier < 3), seconds, int(seconds == 360000))
                for carrier in (1, 2, 3) for seconds in (0, 359999, 360000))
    yield from (("among", shelf, 1, 1, 60, int(shelf != 1)) for shelf in (1, 1000000))
    yield from (("among", *words, 60, 1) for words in ((0, 2, 0), (TOP, 3, 0), (0, 1, 0), (1000000, 1, 0)))
    yield from (("among", *[word * (at == i) for i in range(4)], 1) for at in range(4) for word in (1, 2 ** 63))
    yield from (("among", *words, 0) for words in ((1, 1, 0, 0), (999999, 1, 0, 359999), (0, 0, 0, 0)))
    yield "among", 5, 1, 0, 360000, 1
    yield from (("alone", n, place, bad) for n, bad in ((9, 0), (9, 1), (256, 0)) for place in (0, n - 1))
    yield from (("totals", 256, 92159744, 0, 0), ("totals", 0, 0, 256, 0), ("totals", 0, 0, 0, 256))
    yield from (("occupied", 1, place, number) for place in (0, 1) for number in (1, TOP))
    yield from (("occupied", 3, place, 7) for place in (0, 2, 5))
    yield from (("occupied", 16, place, 1) for place in (0, 15, 31))


def report_aims(lib):
    """The report cases have the stated form, are the stored ones and differ; all that is wanted of them by hand occurs."""
    seen, before, sizes = set(), set(), 0
    files = list(report_stored())
    same(len(files), len(rawreport.TURNS), "stored report cases")
    for number, ((why, given, room, data), (stored_room, stored_data, line, text)) in enumerate(zip(rawreport.TURNS, files)):
        what = "report case %d, %s" % (number, why)
        same((stored_room, stored_data), (room, data), what + " as it is stored")
        same((room <= 5, len(data) <= 14407, (room, data) in before), (True, True, False), what)
        answer, table, printed = report_wanted(given, room, len(data))
        fields = [number, room, *answer] + [part for pair in table for part in pair]
        same((line, text), (b" ".join(b"%d" % field for field in fields), printed), what + ", stored lines")
        before.add((room, data))
        seen.update(report_seen(given, room, data))
        sizes += len(data)
    wanted = set(report_hoped())
    same(sorted(map(str, wanted - seen)), [], "what no report case has")
    return "%d cases, %d bytes of images, %d edges" % (len(files), sizes, len(wanted))


FILES = {module: module for module in (store, reels, listening)}
BY_SHORT = [short_finishes, short_replays, short_refusals, short_ties, short_cuts, short_cases]
BY_ORDER = [order_rules, order_calls, order_refusals, order_fronts, order_runs, order_cases]
BY_CEILING = [ceiling_opens, ceiling_orders, ceiling_publishes, ceiling_coherence, lives, ceiling_cases]
BY_GROUP = [group_sets, group_orders, group_raises, group_singles, group_moment, group_cuts, group_ends, group_runs,
            group_cases]
BY_STORE = [whole_case, edges, program_lines, answers, reads, crashes]
BY_REELS = [reel_numbers, reel_lengths, reel_reads, reel_marks, reel_writes, reel_rewrites, reel_cases]
BY_LISTENING = [listening_refusals, listening_begins, listening_finds, listening_runs, listening_cases]
BY_WALK = [walk_cuts]
BY_REPORT = [report_records, report_tables, report_sums, report_refusals, report_texts, report_of_store, report_cases]
ALL = [(test, store) for test in BY_STORE + BY_CEILING + [ceiling_aims, raw_cases, stream_kinds, stream_numbers]]
ALL += [(test, store) for test in BY_GROUP + [group_aims]]
ALL += [(test, reelwalk) for test in BY_WALK]
ALL += [(test, reels) for test in BY_REELS + [reel_aims]]
ALL += [(test, listening) for test in BY_LISTENING + [listening_aims]]
ALL += [(older_cases, FILES), (alone_cases, FILES), (alone_aims, store)]
ALL += [(speed_cases, reels), (speed_aims, reels)]
ALL += [(test, store) for test in BY_SHORT + [short_aims, short_streams]]
ALL += [(test, store) for test in BY_ORDER + [order_aims, order_lists, order_streams]]
ALL += [(test, report) for test in BY_REPORT + [report_aims]]


# ---- faulty copies -------------------------------------------------------
# name, text in store.py, text in its place

STORE_FAULTS = [
    ("persist number stored in the body's fence group",
     "[FENCE, (at, number), FENCE]", "[(at, number), FENCE]"),
    ("settle without waiting", "if in_the_way:", "if False:"),
    ("settle waits for sealed and published sessions too",
     'if e["phase"] == "active" and e["number"] < own["number"]]',
     'if e["phase"] != "idle" and e["number"] < own["number"]]'),
    ("settle waits at an equal start",
     'if e["phase"] == "active" and e["number"] < own["number"]]',
     'if e["phase"] == "active" and e["number"] <= own["number"]]'),
    ("settle answers wait at once",
     'if e["phase"] == "active" and e["number"] < own["number"]]', "if True]"),
    ("settle names the lowest session in the way", "min(in_the_way)", "in_the_way[0]"),
    ("settle names the last among equal starts",
     "min(in_the_way)", "min(in_the_way, key=lambda way: (way[0], -way[1]))"),
    ("settle names the largest start",
     "min(in_the_way)", "max(in_the_way, key=lambda way: (way[0], -way[1]))"),
    ("settle names a sealed or published session too",
     "min(in_the_way)", 'min((e["number"], s) for s, e in enumerate(desk["sessions"])\n'
     '                       if e["phase"] != "idle")'),
    ("settle without a fence", "to_home(copies_of(own)) + [FENCE]", "to_home(copies_of(own))"),
    ("reclaim although an older log is occupied", "if smallest < number:", "if False:"),
    ("reclaim answers held at once", "if smallest < number:", "if True:"),
    ("reclaim takes the slot of a sealed or published transaction",
     'own["slot"] if own["phase"] in ("sealed", "published") else None', "None"),
    ("reads show a sealed copy",
     'if holder["phase"] == "published" and', 'if holder["phase"] != "active" and'),
    ("reads show a copy only with end below start",
     'holder["number"] <= own["number"]', 'holder["number"] < own["number"]'),
    ("reads never show a copy", 'if holder["phase"] == "published" and', "if False and"),
    ("reads zeros", "words=home(image, record)", "words=ZEROS"),
    ("recovery in session order",
     "place = min(places, key=lambda p: (persist(image, p), p))\n    clear",
     "place = places[0]\n    clear"),
    ("recovery takes the highest place among equals",
     "place = min(places, key=lambda p: (persist(image, p), p))\n    clear",
     "place = min(places, key=lambda p: (persist(image, p), -p))\n    clear"),
    ("recovery clears in the fence group of the copies",
     "[FENCE, clear, FENCE]", "[clear, FENCE]"),
    ("recovery says clean, untouched",
     "    if not places:\n        return result(said(\"clean\")",
     "    if True:\n        return result(said(\"clean\")"),
    ("recovery replays the first log and clears the others",
     "[FENCE, clear, FENCE]",
     "[FENCE] + [(slot_at(image[1], p), 0) for p in places] + [FENCE]"),
    ("recovery examines empty slots",
     "bad = [place for place in places if", "bad = [place for place in range(2 * image[2]) if"),
    ("finish says sealed and stores nothing",
     "image, entries)\n\n\ndef log_body", "image)\n\n\ndef log_body"),
    ("finish seals at clock L", "if number >= L:", "if number > L:"),
    ("publish gives the clock, not the next number",
     'end = desk["clock"] + 1', 'end = desk["clock"]'),
    ("write does nothing", "copied(desk, session, record, words, slot), image)", "desk, image)"),
    ("write reserves slot 0 always",
     "return empty[0] if empty else None", "return 0 if empty else None"),
    ("write refused by 7 leaves the caller active",
     "no(7, holder), ended(desk, session)", "no(7, holder), desk"),
    ("write takes a record that another holds", "if holder is not None:  #", "if False:  #"),
    ("the checks for session and record exchanged",
     "if session >= desk[\"M\"]:\n        return no(4)\n    if record is not None",
     "if session >= desk[\"M\"] and not (record or 0) >= desk[\"N\"]:\n"
     "        return no(4)\n    if record is not None"),
    ("all session calls turned away", "if not coherent(desk, image):\n        return no(2)\n    if trace is not None",
     "if True:\n        return no(2)\n    if trace is not None"),
]

# The same, of Req 05. In UNASKED a call makes its checks as if word 3 were high enough.
OPEN_1 = "    if not image_right(image):\n        return no(1)\n    if trace < TRACE_WORDS:\n"
OPEN_3 = "    if trace < TRACE_WORDS:\n        return no(3)\n    if occupied(image):\n"
OPEN_11 = "    if occupied(image):\n        return no(11)\n"
OPEN_10 = "    if ceiling(image) >= L:  # open with word 3 at L or more\n        return no(10)\n"
OPEN_RAISE = "image[2]), image, raised(clock))"
PUBLISH_RAISE = "entries = raised(end) if end > ceiling(image) else []"
PUBLISH_CHECKS = "turned_away(desk, session, image, trace, phase=\"sealed\")"
UNASKED = "(image[:3] + [2 ** 64] + image[4:])"
CALLED_WITH = "\"\"\"\n    refusal = turned_away(desk, session, "
ASKED = {"read": "else the home record.", "write": "of the session is reserved.",  # how its docstring ends
         "finish": "persist number is the clock.", "publish": "there are no stores.",
         "settle": "the slot stays occupied.", "reclaim": "has a smaller one."}
ALONE = " or __import__(\"sys\")._getframe(4).f_code.co_name != %r"  # the call that makes the checks
ASKS = "def turned_away(desk, session, image=None, trace=None, record=None, phase=None):\n"
ASKED_EARLY = (ASKS + "    if image is not None and len(image) > 3 and not rule_ceiling(desk, image):\n"
               "        return no(2)\n    return checked(desk, session, image, trace, record, phase)\n\n\n")
ASKED_LATE = (ASKS + "    high = None if image is None else " + UNASKED + "\n"
              "    refusal = checked(desk, session, high, trace, record, phase)\n"
              "    if refusal and refusal[\"number\"] <= %d:\n        return refusal\n"
              "    return refusal if rule_ceiling(desk, image) else no(2)\n\n\n")
CEILING_FAULTS = [
    ("open checks 10 before 11", OPEN_11 + OPEN_10, OPEN_10 + OPEN_11),
    ("open checks 3 after 11", OPEN_3, OPEN_11 + OPEN_3),
    ("open checks 3 after 10", OPEN_3, OPEN_11 + OPEN_10 + OPEN_3),
    ("open checks 10 before 3", OPEN_3, OPEN_10 + OPEN_3),
    ("open checks 3 before 1", OPEN_1,
     "    if trace < TRACE_WORDS:\n        return no(3)\n" + OPEN_1),
    ("open checks 10 before 1", OPEN_1,
     "    if len(image) > 3 and image[3] >= L:\n        return no(10)\n" + OPEN_1),
    ("open without 3", OPEN_3, "    if occupied(image):\n"),
    ("open with 3 under 4 words alone, what it needs",
     OPEN_3, "    if trace < 4:\n        return no(3)\n    if occupied(image):\n"),
    ("open without 10", OPEN_10, ""),
    ("open with 10 above L alone", "if ceiling(image) >= L:", "if ceiling(image) > L:"),
    ("open with 10 at L - 1", "if ceiling(image) >= L:", "if ceiling(image) >= L - 1:"),
    ("open with 10 where the raise comes to L", "if ceiling(image) >= L:", "if ceiling(image) + 1025 >= L:"),
    ("open refused with 10 raises all the same",
     "return result(refusal, new_desk(0, 0, 0), image)",
     "return result(refusal, new_desk(0, 0, 0), image, raised(5) if refusal[\"number\"] == 10 else [])"),
    ("open refused with 10 gives a desk", "return result(refusal, new_desk(0, 0, 0), image)",
     "return result(refusal, new_desk(*([1, image[1], image[2]] if refusal[\"number\"] == 10\n"
     "                                     else [0, 0, 0])), image)"),
    ("open gives a desk that lists sessions", "new_desk(clock, image[1], image[2])",
     "dict(new_desk(clock, image[1], image[2]), order=list(range(16)))"),
    ("open refused gives a desk that lists sessions", "return result(refusal, new_desk(0, 0, 0), image)",
     "return result(refusal, dict(new_desk(0, 0, 0), order=[255] * 16), image)"),
    ("open without a raise", OPEN_RAISE, "image[2]), image)"),
    ("open's raise without its fence", OPEN_RAISE, "image[2]), image, raised(clock)[:1])"),
    ("open's fence before its store", OPEN_RAISE, "image[2]), image, raised(clock)[::-1])"),
    ("open's raise not listed", OPEN_RAISE, "image[2]), made(image, raised(clock)))"),
    ("open's raise goes 1,024 past the old word 3", OPEN_RAISE, "image[2]), image, raised(clock - 1))"),
    ("open's raise only where the clock passes 1,024", OPEN_RAISE,
     "image[2]), image, raised(clock) if clock > 1 else [])"),
    ("open sets the clock to word 3", "clock = ceiling(image) + 1\n", "clock = max(1, ceiling(image))\n"),
    ("open sets the clock to 1", "clock = ceiling(image) + 1\n", "clock = 1\n"),
    ("open sets the clock to the new word 3", "new_desk(clock, image[1], image[2]), image, raised(clock))",
     "new_desk(clock + 1024, image[1], image[2]), image, raised(clock))"),
    ("1,023 in place of 1,024", "RAISE = 1024", "RAISE = 1023"),
    ("1,025 in place of 1,024", "RAISE = 1024", "RAISE = 1025"),
    ("a raise stops at L", "[(3, clock + RAISE), FENCE]", "[(3, min(L, clock + RAISE)), FENCE]"),
    ("a raise into word 2", "[(3, clock + RAISE), FENCE]", "[(2, clock + RAISE), FENCE]"),
    ("publish without a raise", PUBLISH_RAISE, "entries = []"),
    ("publish raises at word 3 already", PUBLISH_RAISE, PUBLISH_RAISE.replace(">", ">=")),
    ("publish raises by the old clock", PUBLISH_RAISE, PUBLISH_RAISE.replace("if end >", "if end - 1 >")),
    ("publish raises every time", PUBLISH_RAISE, "entries = raised(end)"),
    ("publish raises from the old clock", PUBLISH_RAISE, PUBLISH_RAISE.replace("raised(end)", "raised(end - 1)")),
    ("publish does not raise past L", PUBLISH_RAISE, PUBLISH_RAISE.replace("else", "and end < L else")),
    ("publish refuses a raise past L", PUBLISH_RAISE, PUBLISH_RAISE + "\n"
     "    if entries and end + RAISE > L:\n        return result(no(10), desk, image)"),
    ("publish's raise without its fence", PUBLISH_RAISE, PUBLISH_RAISE.replace("raised(end)", "raised(end)[:1]")),
    ("publish's raise not listed", PUBLISH_RAISE, PUBLISH_RAISE + "\n"
     "    image, entries = made(image, entries), []"),
    ("publish without stores has a fence", PUBLISH_RAISE, PUBLISH_RAISE.replace("[]", "[FENCE]")),
    ("publish without 3", PUBLISH_CHECKS, PUBLISH_CHECKS.replace("trace", "None")),
    ("publish with 3 only where it raises", PUBLISH_CHECKS, "turned_away(\n        desk, session, image,"
     " trace if len(image) > 3 and desk[\"clock\"] == image[3] else None, phase=\"sealed\")"),
    ("publish checks 3 last", PUBLISH_CHECKS, PUBLISH_CHECKS.replace("trace", "None")
     + " \\\n        or (no(3) if trace < TRACE_WORDS else None)"),
    ("publish checks 3 first", PUBLISH_CHECKS, "(no(3) if trace < TRACE_WORDS else None) or " + PUBLISH_CHECKS),
    ("publish without 1 for the length", PUBLISH_CHECKS,
     "turned_away(\n        desk, session, image if len(image) < 4 or image[0] != 1 else image[:4]"
     " + [0] * (length(*image[1:3]) - 4),\n        trace, phase=\"sealed\")"),
    ("publish leaves the clock", "dict(with_phase(desk, session, \"published\", end), clock=end),\n"
     "                  image, entries)",
     "with_phase(dict(desk, clock=end - (not entries)), session, \"published\", end),\n"
     "                  image, entries)"),
    ("the ceiling is never asked", "return image is None or desk[\"clock\"] <= ceiling(image)", "return True"),
    ("the clock is to be below word 3",
     "desk[\"clock\"] <= ceiling(image)", "desk[\"clock\"] < ceiling(image)"),
    ("the new clock is to be at most word 3",
     "desk[\"clock\"] <= ceiling(image)", "desk[\"clock\"] + 1 <= ceiling(image)"),
    ("the ceiling is asked as far as L alone", "desk[\"clock\"] <= ceiling(image)",
     "desk[\"clock\"] <= max(L, ceiling(image))"),
    ("word 3 is compared in its low 63 bits", "desk[\"clock\"] <= ceiling(image)",
     "desk[\"clock\"] <= ceiling(image) % 2 ** 63"),
    *[("the ceiling is not asked in " + call, end + CALLED_WITH + "image", end + CALLED_WITH + UNASKED)
      for call, end in ASKED.items()],
    *[("the ceiling is asked in %s alone" % call, "desk[\"clock\"] <= ceiling(image)",
       "desk[\"clock\"] <= ceiling(image)" + ALONE % call) for call in ("read", "publish")],
    ("the ceiling is asked before 1", ASKS, ASKED_EARLY + ASKS.replace("turned_away", "checked")),
    *[("the ceiling is asked after %d" % number, ASKS, ASKED_LATE % number + ASKS.replace("turned_away", "checked"))
      for number in (3, 4, 5, 6)],
    ("recover clears word 3", "[FENCE, clear, FENCE]", "[FENCE, clear, (3, 0), FENCE]"),
    ("recover sets word 3 to the persist number", "[FENCE, clear, FENCE]",
     "[FENCE, clear, (3, persist(image, place)), FENCE]"),
    ("recover refuses word 3 at L or more", "    places = occupied(image)\n    bad",
     "    if ceiling(image) >= L:\n        return result(no(10), image=image)\n"
     "    places = occupied(image)\n    bad"),
    ("lay leaves word 3", "[1, n, m, 0]", "[1, n, m, image[3]]"),
    ("lay writes 1,025 into word 3", "[1, n, m, 0]", "[1, n, m, 1025]"),
]

# The same, of Req 06. A check is a text of group_turned_away; an order is that of its checks.
GROUP_CHECKS = {
    1: "    if not image_right(image):\n        return no(1)\n", 2: "    if not coherent(desk, image):\n        return no(2)\n",
    3: "    if trace < TRACE_WORDS:\n        return no(3)\n",
    19: "    if not sessions:  # empty set\n        return no(19)\n",
    4: "    if any(session >= desk[\"M\"] for session in sessions):\n        return no(4)\n",
    6: "    if any(desk[\"sessions\"][session][\"phase\"] != \"sealed\" for session in sessions):\n        return no(6)\n"}
GROUP_ORDERS = [[2, 1, 3, 19, 4, 6], [1, 3, 2, 19, 4, 6], [1, 2, 19, 3, 4, 6], [1, 2, 3, 19, 6, 4], [19, 1, 2, 3, 4, 6],
                [1, 19, 2, 3, 4, 6], [3, 1, 2, 19, 4, 6], [1, 2, 19, 4, 3, 6], [1, 2, 19, 4, 6, 3], [1, 3, 19, 4, 2, 6],
                [1, 3, 19, 4, 6, 2], [1, 4, 2, 3, 19, 6], [1, 2, 6, 3, 19, 4], [4, 1, 2, 3, 19, 6]]


def checks(numbers, **other):
    """The checks in this order, those that are named exchanged: as3="..." for 3."""
    return "".join(other.get("as%d" % number, GROUP_CHECKS[number]) for number in numbers)


CHECKED = checks(GROUP_CHECKS)
GROUP_SET = "return [session for session in range(16) if members & 2 ** session]"
GROUP_REFUSED = "    refusal = group_turned_away(image, desk, trace, sessions)\n    if refusal:\n"
GROUP_STOP = GROUP_REFUSED + "        return result(refusal, desk, image)\n"
GROUP_CLOCK = "    clock = desk[\"clock\"] + 1\n"
GROUP_RAISE = "entries = raised(clock) if clock > ceiling(image) else []"
GROUP_EACH = "    for session in sessions:\n        desk = with_phase(desk, session, \"published\", clock)\n"
GROUP_DONE = "return result(said(\"end\", clock), dict(desk, clock=clock), image, entries)"
IN_PHASE = "[\"phase\"] != \"sealed\" for session in sessions)"
AS_6 = "    if %s:\n        return no(6)\n"
SEALED_ONES = "[s for s in sessions if desk[\"sessions\"][s][\"phase\"] == \"sealed\"]"
GROUP_FAULTS = [
    *[("a group's checks in the order " + " ".join(map(str, order)), CHECKED, checks(order)) for order in GROUP_ORDERS],
    *[("a group without %d" % number, CHECKED, checks([k for k in GROUP_CHECKS if k != number]))
      for number in GROUP_CHECKS if number != 4],  # without 4 the answer is 6, as with 6 before 4
    ("a group does not ask the ceiling", CHECKED, checks(GROUP_CHECKS, as2=GROUP_CHECKS[2].replace("image", UNASKED))),
    ("a group's desk coherent without the image", CHECKED,
     checks(GROUP_CHECKS, as2=GROUP_CHECKS[2].replace("desk, image", "desk"))),
    ("a group with 3 under 4 words alone, what it needs", CHECKED,
     checks(GROUP_CHECKS, as3=GROUP_CHECKS[3].replace("TRACE_WORDS", "4"))),
    ("a group with 3 only where it raises", CHECKED, checks(GROUP_CHECKS, as3=GROUP_CHECKS[3].replace(
        "TRACE_WORDS", "TRACE_WORDS and desk[\"clock\"] == ceiling(image)"))),
    ("a trace of 48 is too short for a group", CHECKED,
     checks(GROUP_CHECKS, as3=GROUP_CHECKS[3].replace("<", "<="))),
    ("the empty set is refused with 6", CHECKED, checks(GROUP_CHECKS, as19=GROUP_CHECKS[19].replace("no(19)", "no(6)"))),
    ("a member at M", CHECKED, checks(GROUP_CHECKS, as4=GROUP_CHECKS[4].replace(">=", ">"))),
    ("4 only where all are at or above M", CHECKED, checks(GROUP_CHECKS, as4=GROUP_CHECKS[4].replace("any", "all"))),
    ("members at or above M are passed over", "sessions = in_set(members)",
     "sessions = [s for s in in_set(members) if s < desk[\"M\"]]"),
    ("6 for the lowest member alone", IN_PHASE, IN_PHASE.replace("sessions)", "sessions[:1])")),
    ("6 for the highest member alone", IN_PHASE, IN_PHASE.replace("sessions)", "sessions[-1:])")),
    ("6 for the lowest and the highest member alone", IN_PHASE,
     IN_PHASE.replace("sessions)", "sessions[:1] + sessions[-1:])")),
    ("6 only where none is sealed", CHECKED, checks(GROUP_CHECKS, as6=GROUP_CHECKS[6].replace("any", "all"))),
    ("6 for one member that is not sealed, not for two", CHECKED,
     checks(GROUP_CHECKS, as6=AS_6 % ("len(sessions) - len(" + SEALED_ONES + ") == 1"))),
    ("a member that is published is taken", IN_PHASE, IN_PHASE.replace("!= \"sealed\"", "not in (\"sealed\", \"published\")")),
    ("a member that is idle is taken", IN_PHASE, IN_PHASE.replace("!= \"sealed\"", "not in (\"sealed\", \"idle\")")),
    ("a member that is active is taken", IN_PHASE, IN_PHASE.replace("!= \"sealed\"", "not in (\"sealed\", \"active\")")),
    ("a member with copies is taken", CHECKED, checks(GROUP_CHECKS, as6=AS_6 % (
        "any(desk[\"sessions\"][session][\"count\"] == 0 for session in sessions)"))),
    ("the sealed members alone are published", GROUP_STOP,
     GROUP_REFUSED.replace("if refusal:", "if refusal and refusal[\"number\"] == 6 and any(" + SEALED_ONES + "):\n"
                           "        sessions = " + SEALED_ONES + "\n    elif refusal:")
     + "        return result(refusal, desk, image)\n"),
    ("refused with 6, the sealed members are published", GROUP_STOP, GROUP_REFUSED
     + "        for session in " + SEALED_ONES + " if refusal[\"number\"] == 6 else []:\n"
     "            desk = with_phase(desk, session, \"published\", desk[\"clock\"])\n"
     "        return result(refusal, desk, image)\n"),
    *[("refused with %d, the clock goes on" % number, GROUP_STOP, GROUP_REFUSED
       + "        ticks = refusal[\"number\"] == %d\n" % number
       + "        return result(refusal, dict(desk, clock=desk[\"clock\"] + ticks), image)\n") for number in (3, 19, 4, 6)],
    *[("refused with %d, word 3 is raised" % number, GROUP_STOP, GROUP_REFUSED
       + "        due = refusal[\"number\"] == %d and desk[\"clock\"] == ceiling(image)\n" % number
       + "        return result(refusal, desk, image, raised(desk[\"clock\"] + 1) if due else [])\n")
      for number in (19, 4, 6)],
    ("4 with the member", CHECKED, checks(GROUP_CHECKS, as4=GROUP_CHECKS[4].replace("no(4)", "no(4, sessions[-1])"))),
    ("6 with the number of members", CHECKED, checks(GROUP_CHECKS, as6=GROUP_CHECKS[6].replace("no(6)", "no(6, len(sessions))"))),
    ("the bits reversed", GROUP_SET, GROUP_SET.replace("2 ** session", "2 ** (15 - session)")),
    ("the bits reversed within M", "sessions = in_set(members)", "sessions = in_set(members)\n"
     "    if all(s < desk[\"M\"] for s in sessions):\n        sessions = [desk[\"M\"] - 1 - s for s in sessions]"),
    ("bit 15 lost", GROUP_SET, GROUP_SET.replace("range(16)", "range(15)")),
    ("bit 0 lost", GROUP_SET, GROUP_SET.replace("range(16)", "range(1, 16)")),
    ("the low byte alone", GROUP_SET, GROUP_SET.replace("range(16)", "range(8)")),
    ("the bytes exchanged", GROUP_SET, GROUP_SET.replace("2 ** session", "2 ** ((session + 8) % 16)")),
    ("bit s is session s - 1", GROUP_SET, GROUP_SET.replace("2 ** session", "2 ** (session + 1)")),
    ("the set is a session", GROUP_SET, "return [members % 16]"),
    ("the set is a number of sessions", GROUP_SET, "return list(range(bin(members).count(\"1\")))"),
    ("four members at most", GROUP_SET, GROUP_SET + "[:4]"),
    ("fifteen members at most", GROUP_SET, GROUP_SET + "[:15]"),
    ("an end of its own for each member", GROUP_EACH, "    for at, session in enumerate(sessions):\n"
     "        desk = with_phase(desk, session, \"published\", clock + at)\n    clock += len(sessions) - 1\n"),
    ("an end of its own for each member, one step of the clock", GROUP_EACH, "    for at, session in enumerate(sessions):\n"
     "        desk = with_phase(desk, session, \"published\", max(2, clock - at))\n"),
    ("the clock goes on by the number of members", GROUP_DONE,
     GROUP_DONE.replace("clock=clock", "clock=clock + len(sessions) - 1")),
    ("the end is the clock plus the number of members", GROUP_CLOCK, GROUP_CLOCK.replace("1", "len(sessions)")),
    ("the end is the clock", GROUP_CLOCK, GROUP_CLOCK.replace(" + 1", "")),
    ("the end is the clock plus 2", GROUP_CLOCK, GROUP_CLOCK.replace("1", "2")),
    ("the end is the largest persist number plus 1", GROUP_CLOCK,
     "    clock = max(desk[\"sessions\"][s][\"number\"] for s in sessions) + 1\n"),
    ("the clock stays", GROUP_DONE, GROUP_DONE.replace("clock=clock", "clock=clock - 1")),
    ("the lowest member alone is published", GROUP_EACH, GROUP_EACH.replace("in sessions", "in sessions[:1]")),
    ("the highest member alone is published", GROUP_EACH, GROUP_EACH.replace("in sessions", "in sessions[-1:]")),
    ("the end goes to the first member alone", GROUP_EACH, GROUP_EACH.replace(
        "clock)", "clock if session == sessions[0] else max(2, desk[\"sessions\"][session][\"number\"]))")),
    ("all sealed sessions are published", GROUP_EACH,
     GROUP_EACH.replace("in sessions", "in [s for s, e in enumerate(desk[\"sessions\"]) if e[\"phase\"] == \"sealed\"]")),
    ("the end goes to published sessions too", GROUP_EACH, GROUP_EACH.replace(
        "in sessions", "in sessions + [s for s, e in enumerate(desk[\"sessions\"]) if e[\"phase\"] == \"published\"]")),
    ("sessions from the lowest to the highest member are published", GROUP_EACH, GROUP_EACH.replace(
        "in sessions", "in [s for s in range(sessions[0], sessions[-1] + 1) if desk[\"sessions\"][s][\"count\"]]")),
    ("a group's marks are dropped", GROUP_DONE, "marks = [None if mark in sessions else mark for mark in desk[\"marks\"]]\n"
     "    return result(said(\"end\", clock), dict(desk, clock=clock, marks=marks), image, entries)"),
    ("a group's slots become 0", GROUP_EACH, GROUP_EACH
     + "        desk = with_entry(desk, session, dict(desk[\"sessions\"][session], slot=0))\n"),
    ("a group's copies are dropped", GROUP_EACH,
     "    for session in sessions:\n        desk = with_entry(desk, session, entry(\"published\", clock))\n"),
    ("a group is made idle", GROUP_EACH, "    for session in sessions:\n        desk = made_idle(desk, session)\n"),
    ("a group stays sealed", GROUP_EACH, ""),
    ("a group without a raise", GROUP_RAISE, "entries = []"),
    ("a group raises at word 3 already", GROUP_RAISE, GROUP_RAISE.replace(">", ">=")),
    ("a group raises every time", GROUP_RAISE, "entries = raised(clock)"),
    ("a group raises by 1,023", GROUP_RAISE, GROUP_RAISE.replace("raised(clock)", "[(3, clock + 1023), FENCE]")),
    ("a group raises by 1,024 for each member", GROUP_RAISE,
     GROUP_RAISE.replace("raised(clock)", "raised(clock + 1024 * len(sessions) - 1024)")),
    ("a group raises once for each member", GROUP_RAISE, GROUP_RAISE.replace("raised(clock)", "raised(clock) * len(sessions)")),
    ("a group raises where a step for each member would pass word 3", GROUP_RAISE,
     GROUP_RAISE.replace("if clock >", "if clock + len(sessions) - 1 >")),
    ("a group raises with one member alone", GROUP_RAISE, GROUP_RAISE.replace("else", "and len(sessions) == 1 else")),
    ("a group raises with two members or more", GROUP_RAISE, GROUP_RAISE.replace("else", "and len(sessions) > 1 else")),
    ("a group does not raise past L", GROUP_RAISE, GROUP_RAISE.replace("else", "and clock < L else")),
    ("a group refuses a raise past L", GROUP_RAISE, GROUP_RAISE
     + "\n    if entries and clock + RAISE > L:\n        return result(no(10), desk, image)"),
    ("a group is refused with 10 at L", GROUP_CLOCK,
     "    if desk[\"clock\"] >= L:\n        return result(no(10), desk, image)\n" + GROUP_CLOCK),
    ("a group's raise without its fence", GROUP_RAISE, GROUP_RAISE.replace("raised(clock)", "raised(clock)[:1]")),
    ("a group's fence before its store", GROUP_RAISE, GROUP_RAISE.replace("raised(clock)", "raised(clock)[::-1]")),
    ("a group's raise not listed", GROUP_RAISE, GROUP_RAISE + "\n    image, entries = made(image, entries), []"),
    ("a group's raise listed and not made", GROUP_DONE, "return dict(result(said(\"end\", clock), dict(desk, clock=clock),"
     " image), entries=entries)"),
    ("a group without stores has a fence", GROUP_RAISE, GROUP_RAISE.replace("[]", "[FENCE]")),
    ("a group answers ok", GROUP_DONE, GROUP_DONE.replace("said(\"end\", clock)", "said(\"ok\")")),
    ("a group answers the number of members", GROUP_DONE, GROUP_DONE.replace("\"end\", clock", "\"end\", len(sessions)")),
    ("a group answers the old clock", GROUP_DONE, GROUP_DONE.replace("\"end\", clock", "\"end\", clock - 1")),
]

# The same, of reelwalk.py.
NO_CUT = "        if self.cut is None:\n"
SHOWN_CUT = "shown = \"cut\" if done[\"entries\"] else text(done[\"answer\"])"
ARRIVED = "done[\"entries\"][:self.cut]"
TAKEN = "done = self.store.open_image(self.image, 48)\n        self.image, self.desk = done[\"image\"], done[\"desk\"]"
WALK_FAULTS = [
    ("a cut does not cover publish", NO_CUT, "        if self.cut is None or kind == 5:\n"),
    ("a cut covers a publish with entries alone", NO_CUT,
     "        if self.cut is None or (kind == 5 and not done[\"entries\"]):\n"),
    ("a cut does not cover a refused publish", NO_CUT,
     "        if self.cut is None or (kind == 5 and done[\"answer\"][\"number\"]):\n"),
    ("a cut publish without entries keeps the desk", NO_CUT,
     "        self.cut = None if kind == 5 and not done[\"entries\"] else self.cut\n" + NO_CUT),
    ("a publish without entries is shown as cut", SHOWN_CUT,
     SHOWN_CUT.replace("if done[\"entries\"]", "if done[\"entries\"] or done[\"answer\"][\"name\"] == \"end\"")),
    ("a cut publish shows its end", SHOWN_CUT, SHOWN_CUT.replace("done[\"entries\"]", "done[\"entries\"] and kind != 5")),
    ("all entries of a cut publish arrive", ARRIVED, "done[\"entries\"][:2 if kind == 5 else self.cut]"),
    ("no entries of a cut publish arrive", ARRIVED, "done[\"entries\"][:0 if kind == 5 else self.cut]"),
    ("the cut stays after a publish", "        self.cut = None\n        return [[shown]]",
     "        self.cut = self.cut if kind == 5 else None\n        return [[shown]]"),
    ("the raise of an opening is lost", TAKEN, TAKEN.split("\n")[0] + "\n"
     "        self.image = done[\"image\"]\n"
     "        self.image, self.desk = self.store.made(self.image, [(3, done[\"desk\"][\"clock\"])]), done[\"desk\"]"),
    ("a cut is also one of the opening behind it", "        self.open()\n        return lines + [\"open\"]",
     "        before = self.image\n        self.open()\n"
     "        self.image = before if not lines else self.image\n        return lines + [\"open\"]"),
    ("word 3 laid anew after a cut", "        self.open()\n        return lines + [\"open\"]",
     "        self.image = self.image[:3] + [0] + self.image[4:]\n        self.open()\n"
     "        return lines + [\"open\"]"),
]

# The same, of reels.py.
REEL_FAULTS = [
    ("a cassette takes code 2", "return 0 <= speed <= 1", "return 0 <= speed <= 2"),
    ("a cassette takes code 0 alone", "return 0 <= speed <= 1", "return speed == 0"),
    ("a disc takes code 1", "return speed == 0", "return speed <= 1"),
    ("an open reel takes code 6", "return 0 <= speed <= 5", "return 0 <= speed <= 6"),
    ("an open reel needs a speed when it is read", "return 0 <= speed <= 5", "return 1 <= speed <= 5"),
    ("a fourth carrier", "if carrier == 3:", "if carrier in (3, 4):"),
    ("carrier 0 with code 0", "if carrier == 3:", "if carrier in (0, 3):"),
    ("shelf number 1,000,000", "shelf <= 999999", "shelf <= 1000000"),
    ("shelf number 0", "1 <= shelf", "0 <= shelf"),
    ("360,000 seconds", "seconds <= 359999", "seconds <= 360000"),
    ("0 seconds refused", "0 <= seconds", "1 <= seconds"),
    ("the low 32 bits of the shelf number alone",
     "1 <= shelf <=", "1 <= shelf % 2 ** 32 <="),
    ("the low 32 bits of the seconds alone",
     "0 <= seconds <=", "0 <= seconds % 2 ** 32 <="),
    ("the low byte of the carrier alone", "if carrier == 1:", "if carrier % 256 == 1:"),
    ("16 before 15", "if not shelf_right(shelf):",
     "if not shelf_right(shelf) and speed_right(carrier, speed):"),
    ("17 before 16", "if not speed_right(carrier, speed):",
     "if not speed_right(carrier, speed) and seconds_right(seconds):"),
    ("17 before 15", "if not shelf_right(shelf):",
     "if not shelf_right(shelf) and seconds_right(seconds):"),
    ("unused written", "number = refused_number(*reel)",
     "number = refused_number(*reel) if reel != UNUSED else 0"),
    ("shelf number 0 taken as unused", "if words == UNUSED:", "if words[0] == 0:"),
    ("words 0 and 1 at 0 taken as unused", "if words == UNUSED:", "if words[:2] == [0, 0]:"),
    ("words that add up to 0 taken as unused", "if words == UNUSED:", "if sum(words) % 2 ** 64 == 0:"),
    ("unused read as 15", "if words == UNUSED:", "if False:"),
    ("reading checks the reel before the store's checks",
     "    done = store.read(image, desk, session, record)\n",
     "    done = store.read(image, desk, session, record)\n"
     "    first = meaning((image[4 + 4 * record:8 + 4 * record] + UNUSED)[:4])\n"
     "    if done[\"answer\"][\"name\"] == \"no\" and first[\"name\"] == \"no\":\n"
     "        return dict(done, answer=first)\n"),
    ("reading always the home record",
     "meaning(answer[\"words\"], answer[\"name\"])",
     "meaning(image[4 + 4 * record:8 + 4 * record], answer[\"name\"])"),
    ("a bad record in an own copy not refused",
     "meaning(answer[\"words\"], answer[\"name\"])",
     "meaning(answer[\"words\"], answer[\"name\"])\n"
     "                if answer[\"name\"] != \"own\" else store.said(\"reel\", \"own\", answer[\"words\"])"),
    ("a bad record read as unused",
     "return store.no(number, where)", "return store.said(\"unused\", where)"),
    ("a bad record without own, copy or home",
     "return store.no(number, where)", "return store.no(number)"),
    ("writing makes the store's checks first",
     "    answer = pack(reel)[\"answer\"]\n    if answer[\"name\"] == \"no\":",
     "    answer = pack(reel)[\"answer\"]\n    done = store.write(image, desk, session, record, reel)\n"
     "    if answer[\"name\"] == \"no\" and done[\"answer\"][\"name\"] == \"ok\":"),
    ("a bad reel written", "return store.result(answer, desk, image)",
     "return dict(store.write(image, desk, session, record, reel), answer=answer)"),
    ("writing zeros", "session, record, answer[\"words\"])", "session, record, UNUSED)"),
    ("one wrong speed", "1905", "1950"),
    ("the speeds a code too low", "[None, 476,", "[None, 0, 476,"),
    ("lengths rounded up", "// 10000", "// -10000 * -1"),
    ("lengths rounded to the nearest metre", "seconds * SPEEDS[speed]", "(seconds * SPEEDS[speed] + 5000)"),
    ("0 seconds are of unknown length", "if speed == 0:", "if speed == 0 or seconds == 0:"),
    ("code 0 has length 0", "return store.result(store.said(\"unknown\"))",
     "return store.result(store.said(\"metres\"))"),
    ("the length of an unused record is refused",
     "answer = meaning(words)\n", "answer = meaning(words) if words != UNUSED else store.no(15)\n"),
    ("a reel refused with 7 leaves its writer listed", "return store.write(image, desk, session, record, answer[\"words\"])",
     "done = store.write(image, desk, session, record, answer[\"words\"])\n"
     "    return dict(done, desk=dict(done[\"desk\"], order=desk[\"order\"]))"),
    ("the length of a bad record is unknown",
     "    if answer[\"name\"] == \"no\":\n        return store.result(answer)\n",
     "    if answer[\"name\"] == \"no\":\n        return store.result(store.said(\"unknown\"))\n"),
]

# The same, of Req 07 in reels.py. In STORED_ONE `one` tells whether the record has an open reel without a speed.
MISSING = "speed_missing(carrier, speed)"
REFUSED = "    if number != 15 and %s:\n        return 16\n" % MISSING
PACKED = "number = refused_number(*reel)"
MARK = "return \"speed to find\" if %s else \"reel\"" % MISSING
MARKED = "mark(words[1], words[2])"
ANSWERED = "return store.said(%s, where, words)" % MARKED
BAD_WORD = "    if number:\n        return store.no(number, where)\n"
BAD_BUT = ("    if number == %d and speed_missing(words[1], words[2]):\n"
           "        return store.said(\"speed to find\", where, words)\n")
TO_READ = "meaning(answer[\"words\"], answer[\"name\"])"
TO_WRITE = "    answer = pack(reel)[\"answer\"]\n"
STORED_ONE = (TO_WRITE + "    seen = store.read(image, desk, session, record)[\"answer\"]\n"
              "    one = speed_missing(seen[\"words\"][1], seen[\"words\"][2])\n    if %s:\n        answer = %s\n")
TAKEN_ANYWAY = "store.said(\"ok\", words=reel)"
NO_SPEED = "answer[\"number\"] == 16 and speed_missing(reel[1], reel[2]) and seconds_right(reel[3])"
STOPPED = "return store.result(answer, desk, image)"
UNKNOWN = "    if speed == 0:\n        return store.result(store.said(\"unknown\"))\n"
UNKNOWN_BUT = "    if speed_missing(words[1], speed):\n        %s\n" + UNKNOWN
SPEED_FAULTS = [
    ("no speed is asked for", REFUSED, ""),
    ("no speed is asked for when packed", PACKED,
     "written = __import__(\"sys\")._getframe(1).f_code.co_name == \"write\"\n"
     "    number = refused_number(*reel) if written else bad_number(*reel)"),
    ("no speed is asked for when written", TO_WRITE, STORED_ONE % (NO_SPEED, TAKEN_ANYWAY)),
    ("a cassette needs a speed", REFUSED, REFUSED.replace(MISSING, "carrier in (1, 2) and speed == 0")),
    ("a cassette needs a speed, and no open reel", REFUSED, REFUSED.replace(MISSING, "carrier == 2 and speed == 0")),
    ("a disc needs a speed", REFUSED, REFUSED.replace(MISSING, "carrier in (1, 3) and speed == 0")),
    ("every carrier needs a speed", REFUSED, REFUSED.replace(MISSING, "speed == 0")),
    ("an open reel with code 1 is refused too", REFUSED, REFUSED.replace(MISSING, "carrier == 1 and speed <= 1")),
    ("an open reel with code 5 is refused too", REFUSED, REFUSED.replace(MISSING, "carrier == 1 and speed in (0, 5)")),
    ("an open reel is refused", REFUSED, REFUSED.replace(MISSING, "carrier == 1")),
    ("a speed is not asked for with 0 seconds", REFUSED, REFUSED.replace(MISSING, MISSING + " and seconds > 0")),
    ("a speed is asked for after 17", REFUSED, REFUSED.replace("number != 15", "number == 0")),
    ("a speed is asked for before 15", REFUSED, REFUSED.replace("number != 15 and ", "")),
    ("a speed is asked for before 15 by a number too high", REFUSED, REFUSED.replace(
        "number != 15", "(number != 15 or shelf > 0)")),
    *[("without a speed it is %d" % number, REFUSED, REFUSED.replace("return 16", "return %d" % number))
      for number in (15, 17)],
    ("a stored one is bad", "number = bad_number(*words)", "number = refused_number(*words)"),
    ("a stored one is unused", ANSWERED,
     "if %s != \"reel\":\n        return store.said(\"unused\", where)\n    %s" % (MARKED, ANSWERED)),
    ("a stored one is read with code 1", ANSWERED, ANSWERED.replace(
        ", words)", ", [words[0], words[1], words[2] or int(words[1] == 1), words[3]])")),
    ("the mark on a disc", MARK, MARK.replace(MISSING, "carrier in (1, 3) and speed == 0")),
    ("the mark on a cassette with code 0", MARK, MARK.replace(MISSING, "carrier in (1, 2) and speed == 0")),
    ("the mark on every code 0", MARK, MARK.replace(MISSING, "speed == 0")),
    ("the mark on code 1", MARK, MARK.replace(MISSING, "carrier == 1 and speed <= 1")),
    ("the mark on every open reel", MARK, MARK.replace(MISSING, "carrier == 1")),
    ("the mark on what has a speed", MARK, MARK.replace(MISSING, "not " + MISSING)),
    ("the mark on unused records", "    if words == UNUSED:\n        return store.said(\"unused\", where)\n",
     "    if words == UNUSED:\n        return store.said(\"speed to find\", where)\n"),
    ("no mark", MARK, "return \"reel\""),
    ("the mark without the reel", ANSWERED, ANSWERED.replace(
        "words)", "words if %s == \"reel\" else UNUSED)" % MARKED)),
    ("the mark without own, copy or home", ANSWERED, ANSWERED.replace(
        "where", "where if %s == \"reel\" else 0" % MARKED)),
    ("the mark on seconds out of range", BAD_WORD, BAD_BUT % 17 + BAD_WORD),
    ("the mark on a shelf number out of range", BAD_WORD, BAD_BUT % 15 + BAD_WORD),
    ("no mark when read", TO_READ,
     "dict(%s, name=\"reel\") if unpack(answer[\"words\"])[\"answer\"][\"name\"] == \"speed to find\" else %s"
     % (TO_READ, TO_READ)),
    ("no mark when unpacked", "return store.result(meaning(words))", "answer = meaning(words)\n"
     "    return store.result(dict(answer, name=\"reel\") if answer[\"name\"] == \"speed to find\" else answer)"),
    *[("no mark when read from " + where, ANSWERED, ANSWERED.replace(
        MARKED, "\"reel\" if where == %r else %s" % (where, MARKED))) for where in ("own", "copy", "home")],
    ("the mark by the home record", "    return dict(done, answer=%s)" % TO_READ,
     "    at = 4 + 4 * record\n    answer = %s\n    if answer[\"name\"] in (\"reel\", \"speed to find\"):\n"
     "        answer[\"name\"] = mark(image[at + 1], image[at + 2])\n    return dict(done, answer=answer)" % TO_READ),
    ("the length of one is refused", UNKNOWN, UNKNOWN_BUT % "return store.result(store.no(16))"),
    ("the length of one is 0 metres", UNKNOWN, UNKNOWN_BUT % "return store.result(store.said(\"metres\"))"),
    ("the length of one is that at code 1", UNKNOWN, UNKNOWN_BUT % "speed = 1"),
    ("the length of one is \"speed to find\"", UNKNOWN, UNKNOWN_BUT % "return store.result(answer)"),
    ("a stored one may be written without a speed again", TO_WRITE, STORED_ONE % ("one and " + NO_SPEED, TAKEN_ANYWAY)),
    *[("a stored one may be written without a speed again: " + where, TO_WRITE, STORED_ONE % (
        "one and seen[\"name\"] == %r and %s" % (where, NO_SPEED), TAKEN_ANYWAY)) for where in ("own", "copy", "home")],
    ("a speed is asked for only over a stored one", TO_WRITE, STORED_ONE % ("not one and " + NO_SPEED, TAKEN_ANYWAY)),
    ("a speed is not asked for over an unused record", TO_WRITE, STORED_ONE % (
        "seen[\"name\"] != \"no\" and seen[\"words\"] == UNUSED and " + NO_SPEED, TAKEN_ANYWAY)),
    ("a stored one needs a speed as a cassette or disc too", TO_WRITE, STORED_ONE % (
        "one and reel[2] == 0 and answer[\"name\"] == \"ok\"", "store.no(16)")),
    ("a stored one stays an open reel", TO_WRITE, STORED_ONE % (
        "one and reel[1] != 1 and answer[\"name\"] == \"ok\"", "store.no(16)")),
    ("a stored one is not written", TO_WRITE, STORED_ONE % ("one and answer[\"name\"] == \"ok\"", "store.no(16)")),
    ("the store's checks before a speed is asked for", TO_WRITE,
     TO_WRITE + "    done = store.write(image, desk, session, record, reel)\n"
     "    if %s and done[\"answer\"][\"name\"] == \"no\":\n        return done\n" % NO_SPEED),
    ("refused for want of a speed and written", STOPPED,
     "written = dict(store.write(image, desk, session, record, reel), answer=answer)\n"
     "        return written if %s else store.result(answer, desk, image)" % NO_SPEED),
    ("refused for want of a speed the caller is idle", STOPPED, STOPPED.replace(
        "desk", "store.made_idle(desk, session) if session < 16 and %s else desk" % NO_SPEED)),
    ("written with code 1 for want of a speed", TO_WRITE, STORED_ONE % (
        NO_SPEED, "store.said(\"ok\", words=[reel[0], 1, 1, reel[3]])")),
]

# The same, of listening.py. In SHOWN_IF a copy is shown where this holds of its holder e and its place.
READ_0 = "return store.read(image, desk, session, record)[\"answer\"][\"words\"][0]"
SHOWN_IF = ("start = desk[\"sessions\"][session][\"number\"]\n"
            "    for holder, e in enumerate(desk[\"sessions\"]):\n"
            "        for place, (held, words) in enumerate(store.copies_of(e)):\n"
            "            if held == record and %s:\n"
            "                return words[0]\n"
            "    return store.home(image, record)[0]")
PUBLISHED = "e[\"phase\"] == \"published\" and e[\"number\"] <= start"
CHECKS = "    refusal = store.turned_away(desk, session, image, trace, record, \"active\")\n"
HOLDS_FIRST = (CHECKS + "    if refusal and refusal[\"number\"] == %d"
               " and desk[\"sessions\"][session %% 16][\"count\"] != 0:\n        return store.no(18)\n")
FINISH_STOP = ("        return store.result(refusal, desk, image)\n"
               "    return store.finish(image, desk, trace, session)")
LISTENING_FAULTS = [
    ("the last match", "in range(desk[\"N\"])", "in reversed(range(desk[\"N\"]))"),
    ("the search stops a record early", "in range(desk[\"N\"])", "in range(desk[\"N\"] - 1)"),
    ("the search starts at record 1", "in range(desk[\"N\"])", "in range(1, desk[\"N\"])"),
    ("the search looks at 255 records at most", "in range(desk[\"N\"])", "in range(min(255, desk[\"N\"]))"),
    ("the search takes M for N", "in range(desk[\"N\"])", "in range(min(desk[\"N\"], desk[\"M\"]))"),
    ("the search ends at an unused record", "in range(desk[\"N\"]):\n",
     "in range(desk[\"N\"]):\n        if word_0(image, desk, session, record) == 0:\n            break\n"),
    ("records that another copies passed over", "in range(desk[\"N\"]):\n",
     "in range(desk[\"N\"]):\n        if desk[\"marks\"][record] is not None:\n            continue\n"),
    ("records without a copy first", "in range(desk[\"N\"])",
     "in sorted(range(desk[\"N\"]), key=lambda r: desk[\"marks\"][r] is not None)"),
    ("records that another copies first", "in range(desk[\"N\"])",
     "in sorted(range(desk[\"N\"]), key=lambda r: desk[\"marks\"][r] is None)"),
    ("home records alone", READ_0, "return store.home(image, record)[0]"),
    ("the search shows sealed copies", READ_0,
     SHOWN_IF % "e[\"phase\"] in (\"sealed\", \"published\") and e[\"number\"] <= start"),
    ("the search shows active copies", READ_0,
     SHOWN_IF % "e[\"phase\"] in (\"active\", \"published\") and e[\"number\"] <= start"),
    ("the search shows a copy only with end below start", READ_0,
     SHOWN_IF % "e[\"phase\"] == \"published\" and e[\"number\"] < start"),
    ("the search shows a copy only with end equal to start", READ_0,
     SHOWN_IF % "e[\"phase\"] == \"published\" and e[\"number\"] == start"),
    ("the search shows a copy with any end", READ_0, SHOWN_IF % "e[\"phase\"] == \"published\""),
    ("the search shows the copies of lower sessions alone", READ_0,
     SHOWN_IF % ("holder < session and " + PUBLISHED)),
    ("the search shows the copies of higher sessions alone", READ_0,
     SHOWN_IF % ("holder > session and " + PUBLISHED)),
    ("the search shows the first copy of each alone", READ_0, SHOWN_IF % ("place == 0 and " + PUBLISHED)),
    ("the search passes over the last place of copies", READ_0, SHOWN_IF % ("place < 3 and " + PUBLISHED)),
    ("home or copy, whichever matches", "if word_0(image, desk, session, record) == number:",
     "if number in (word_0(image, desk, session, record), store.home(image, record)[0]):"),
    ("word 1 compared", READ_0, READ_0.replace("[0]", "[1]")),
    ("any word compared", "if word_0(image, desk, session, record) == number:",
     "if number in store.read(image, desk, session, record)[\"answer\"][\"words\"]:"),
    ("the low 32 bits of word 0 compared", READ_0, READ_0 + " % 2 ** 32"),
    ("the low 63 bits of word 0 compared", READ_0, READ_0 + " % 2 ** 63"),
    ("found a record too high", "said(\"found\", record)", "said(\"found\", record + 1)"),
    ("found without the record", "said(\"found\", record)", "said(\"found\")"),
    ("found with words", "said(\"found\", record)", "said(\"found\", record, store.home(image, record))"),
    ("none with N", "said(\"none\")", "said(\"none\", desk[\"N\"])"),
    ("none given as record 0", "said(\"none\")", "said(\"found\")"),
    ("find makes the session idle", "said(\"found\", record), desk,",
     "said(\"found\", record), store.ended(desk, session),"),
    ("find without a match makes the session idle", "said(\"none\"), desk,",
     "said(\"none\"), store.ended(desk, session),"),
    ("999,999 refused", "if not reels.shelf_right(number):",
     "if not reels.shelf_right(number) or number == 999999:"),
    ("1 refused", "if not reels.shelf_right(number):", "if not reels.shelf_right(number) or number == 1:"),
    ("0 taken", "if not reels.shelf_right(number):", "if not reels.shelf_right(number) and number != 0:"),
    ("1,000,000 taken", "if not reels.shelf_right(number):",
     "if not reels.shelf_right(number) and number != 1000000:"),
    ("the low 32 bits of the number alone in range",
     "if not reels.shelf_right(number):", "if not reels.shelf_right(number % 2 ** 32):"),
    ("15 never", "if not reels.shelf_right(number):", "if False:"),
    ("15 after 1", "if not reels.shelf_right(number):",
     "if not reels.shelf_right(number) and store.image_right(image):"),
    ("15 after 2", "if not reels.shelf_right(number):",
     "if not reels.shelf_right(number) and store.coherent(desk):"),
    ("15 after 4", "if not reels.shelf_right(number):", "if not reels.shelf_right(number) and session < 16:"),
    ("15 after 6", "if not reels.shelf_right(number):", "if not reels.shelf_right(number)"
     " and desk[\"sessions\"][session % 16][\"phase\"] == \"active\":"),
    ("15 after 18", "if not reels.shelf_right(number):", "if not reels.shelf_right(number)"
     " and desk[\"sessions\"][session % 16][\"count\"] == 0:"),
    *[("18 before %d" % number, CHECKS, HOLDS_FIRST % number) for number in range(1, 7)],
    ("the ceiling is not asked in the room", CHECKS, CHECKS.replace("image", UNASKED)),
    ("18 never", "[\"count\"] != 0:", "[\"count\"] > 4:"),
    ("18 with two copies or more", "[\"count\"] != 0:", "[\"count\"] > 1:"),
    ("18 with three copies at most", "[\"count\"] != 0:", "[\"count\"] in (1, 2, 3):"),
    ("18 where any session holds copies", "if desk[\"sessions\"][session][\"count\"] != 0:",
     "if any(e[\"count\"] != 0 for e in desk[\"sessions\"]):"),
    ("10 in place of 18", "return store.no(18)", "return store.no(10)"),
    ("18 makes the session idle", "    refusal = turned_away(image, desk, session)\n",
     "    refusal = turned_away(image, desk, session)\n"
     "    if refusal and refusal[\"number\"] == 18:\n"
     "        return store.result(refusal, store.ended(desk, session), image)\n"),
    ("read of a session with copies as the store reads", "turned_away(image, desk, session, record=record)",
     "store.turned_away(desk, session, image, record=record, phase=\"active\")"),
    ("read refuses by 18 only a record that the session copies",
     "    refusal = turned_away(image, desk, session, record=record)\n    if refusal:",
     "    refusal = turned_away(image, desk, session, record=record)\n"
     "    if refusal and (refusal[\"number\"] != 18 or desk[\"marks\"][record] == session):"),
    ("read always home", "return store.read(image, desk, session, record)\n\n",
     "return store.result(store.said(\"home\", words=store.home(image, record)), desk, image)\n\n"),
    ("finish of a session with copies seals", "turned_away(image, desk, session, trace)",
     "store.turned_away(desk, session, image, trace, phase=\"active\")"),
    ("finish with copies empties", FINISH_STOP,
     "        if refusal[\"number\"] != 18:\n            return store.result(refusal, desk, image)\n"
     "        return store.result(store.said(\"empty\"), store.ended(desk, session), image)\n"
     "    return store.finish(image, desk, trace, session)"),
    ("finish checks 10 before 18", FINISH_STOP,
     "        done = store.finish(image, desk, trace, session)\n"
     "        return done if done[\"answer\"][\"number\"] else store.result(refusal, desk, image)\n"
     "    return store.finish(image, desk, trace, session)"),
    ("finish without copies refused at L", "return store.finish(image, desk, trace, session)",
     "return store.finish(image, desk, trace, session) if desk[\"clock\"] < store.L \\\n"
     "        else store.result(store.no(10), desk, image)"),
    ("finish leaves the session active", "return store.finish(image, desk, trace, session)",
     "return dict(store.finish(image, desk, trace, session), desk=desk)"),
    ("find in a session with copies", "turned_away(image, desk, session)\n",
     "store.turned_away(desk, session, image, phase=\"active\")\n"),
    ("begin changes nothing", "return store.begin(desk, session)",
     "return dict(store.begin(desk, session), desk=desk)"),
    *[("begin %s" % name, "return store.begin(desk, session)",
       "done = store.begin(desk, session)\n    if done[\"answer\"][\"name\"] == \"no\":\n        return done\n"
       "    return dict(done, desk=dict(done[\"desk\"], order=%s))" % order)
      for name, order in (("of a listener is not listed", "desk[\"order\"]"),
                          ("of a listener at the front", "[session] + desk[\"order\"][:15]"))],
    ("finish of a listener leaves it listed", "return store.finish(image, desk, trace, session)",
     "done = store.finish(image, desk, trace, session)\n"
     "    return dict(done, desk=dict(done[\"desk\"], order=desk[\"order\"]))"),
    ("begin again by an active session", "return store.begin(desk, session)",
     "again = session < 16 and desk[\"sessions\"][session][\"phase\"] == \"active\"\n"
     "    return store.begin(store.ended(desk, session) if again else desk, session)"),
]

# The same, of each file: what the stored cases that have one cause alone tell, and no stored case before them. By
# name, text and text in its place.
CHECKED_LOG = """    if not 1 <= log_count(image, place) <= 4:
        return True
    records = [record for record, _ in log_copies(image, place)]
    return any(record >= image[1] for record in records) or len(set(records)) < len(records)
"""
LOG_COUNT = "    return image[slot_at(image[1], place) + 1]\n"
TWICE_BUT = "any(records[b] == records[a] for b in range(len(records)) for a in range(b) if (a, b) != (%d, %d))"
IN_COMMON = "    return bool(log_records(image, one) & log_records(image, other))\n"
COMMON_BUT = """    records = [[record for record, _ in log_copies(image, p)] for p in (one, other)]
    return any(a == b for i, a in enumerate(records[0]) for j, b in enumerate(records[1]) if (i, j) != (%d, %d))
"""
ODD_PAIRS = "at_odds(image, a, b) for a in places for b in places if a < b"
RECOVER_3 = "    if trace < TRACE_WORDS:\n        return result(no(3), image=image)\n"
RECOVER_BAD = "bad = [place for place in places if damaged(image, place)]"
HEADER = """    if len(image) < 4 or image[0] != 1 or not in_range(image[1], image[2]):
        return False
    return len(image) == length(image[1], image[2])
"""
LAY_14 = "    if not in_range(n, m):\n        return result(no(14), image=image)\n"
COUNTED = "return all(allowed[e[\"phase\"]][0] <= e[\"count\"] <= allowed[e[\"phase\"]][1]\n               for e in desk[\"sessions\"])"
ZERO_PLACES = "all(place == [0, ZEROS] for e in desk[\"sessions\"]\n               for place in e[\"places\"][e[\"count\"]:])"
ZERO_BUT = ("all(place == [0, ZEROS] or (at == %d and place == [0, [word * (i == %d) for i, word in enumerate(place[1])]])\n"
            "               for e in desk[\"sessions\"] for at, place in enumerate(e[\"places\"]) if at >= e[\"count\"])")
SLOTTED = "return all(e[\"slot\"] == 0 or (e[\"slot\"] == 1 and e[\"count\"] > 0)\n               for e in desk[\"sessions\"])"
RECORDED = "if any(record >= desk[\"N\"] for record in records):"
EMPTY_SLOT = "if persist(image, 2 * session + slot) == 0]"
FULL_SLOT = "if slot != left_out and persist(image, 2 * session + slot) != 0]"
HELD_BY = "    if holder is not None:  # another session"
FINISH_CHECKS = "turned_away(desk, session, image, trace, phase=\"active\")"
SETTLE_CHECKS = "turned_away(desk, session, image, trace, phase=\"published\")"
ALONE_STORE = [
    ("a log with a count of 5 is taken", CHECKED_LOG, CHECKED_LOG.replace("<= 4", "<= 5").replace(
        "place)]\n", "place)][:4]\n")),
    *[("the low %d bits of a log's count alone" % bits, LOG_COUNT, LOG_COUNT[:-1] + " %% 2 ** %d\n" % bits) for bits in (8, 32, 63)],
    *[("a log's record at N is taken at place %d" % place, CHECKED_LOG, CHECKED_LOG.replace(
        "image[1] for record in records", "image[1] + (at == %d) for at, record in enumerate(records)" % place))
      for place in (1, 2, 3)],
    *[("the low %d bits of a log's record alone" % bits, CHECKED_LOG, CHECKED_LOG.replace(
        "any(record", "any(record %% 2 ** %d" % bits)) for bits in (8, 32, 63)],
    *[("a log's record twice is taken at places %d and %d" % pair, CHECKED_LOG, CHECKED_LOG.replace(
        "len(set(records)) < len(records)", TWICE_BUT % pair)) for pair in ((0, 1), (0, 2), (0, 3), (1, 3), (2, 3))],
    ("a log's record twice is seen in neighbouring places alone", CHECKED_LOG, CHECKED_LOG.replace(
        "len(set(records)) < len(records)", "any(a == b for a, b in zip(records, records[1:]))")),
    ("12 is not asked of the third log", RECOVER_BAD, RECOVER_BAD.replace("in places if", "in places[:2] + places[3:] if")),
    *[("place %d of one log is not compared with place %d of the other" % pair, IN_COMMON, COMMON_BUT % pair)
      for pair in itertools.product(range(4), repeat=2) if pair not in ((0, 0), (2, 0))],
    ("13 is asked with the last log alone", ODD_PAIRS, ODD_PAIRS + " and b == places[-1]"),
    ("13 is asked below place 16 alone", ODD_PAIRS, ODD_PAIRS + " and b < 16"),
    ("13 is not asked of the second log with later ones", ODD_PAIRS, ODD_PAIRS.replace("a in places", "a in places[:1] + places[2:]")),
    ("recover takes 47 words where all slots are empty", RECOVER_3, RECOVER_3.replace(
        "TRACE_WORDS:", "TRACE_WORDS and not (trace == 47 and not occupied(image)):")),
    ("recover takes 47 words, and 12", RECOVER_3, RECOVER_3.replace(
        "TRACE_WORDS:", "TRACE_WORDS and not (trace == 47 and any(damaged(image, p) for p in occupied(image))):")),
    ("recover takes 47 words, and 13", RECOVER_3, RECOVER_3.replace(
        "TRACE_WORDS:", "TRACE_WORDS and not (trace == 47 and any(" + ODD_PAIRS.replace("places", "occupied(image)") + ")):")),
    *[("the low %d bits of word 0 alone" % bits, HEADER, HEADER.replace("image[0]", "image[0] %% 2 ** %d" % bits))
      for bits in (8, 32, 63)],
    *[("the low 63 bits of the header's word %d alone" % at, HEADER, HEADER.replace("image[%d]" % at, "image[%d] %% 2 ** 63" % at))
      for at in (1, 2)],
    ("lay looks at the low 63 bits of N", LAY_14, LAY_14.replace("(n, m)", "(n % 2 ** 63, m)")),
    ("lay looks at the low 63 bits of M", LAY_14, LAY_14.replace("(n, m)", "(n, m % 2 ** 63)")),
    ("an active session with a count of 5", "\"active\": (0, 4)", "\"active\": (0, 5)"),
    ("a sealed session with a count of 5", "\"sealed\": (1, 4)", "\"sealed\": (1, 5)"),
    *[("the low %d bits of a count alone" % bits, COUNTED, COUNTED.replace("<= e[\"count\"]", "<= e[\"count\"] %% 2 ** %d" % bits))
      for bits in (8, 32, 63)],
    ("counts below M alone", COUNTED, COUNTED.replace("desk[\"sessions\"])", "desk[\"sessions\"][:desk[\"M\"]])")),
    ("counts of fifteen sessions", COUNTED, COUNTED.replace("desk[\"sessions\"])", "desk[\"sessions\"][:15])")),
    ("the low 63 bits of a start, persist number or end", "<= e[\"number\"] <=", "<= e[\"number\"] % 2 ** 63 <="),
    *[("the low %d bits of slot %d alone" % (bits, slot), SLOTTED, SLOTTED.replace(
        "[\"slot\"] == %d" % slot, "[\"slot\"] %% 2 ** %d == %d" % (bits, slot))) for slot in (0, 1) for bits in (8, 32, 63)],
    ("slots of fifteen sessions", SLOTTED, SLOTTED.replace("desk[\"sessions\"])", "desk[\"sessions\"][:15])")),
    *[("unused place %d, word %d" % spot, ZERO_PLACES, ZERO_BUT % spot) for spot in ((0, 3), (2, 1), (3, 1))],
    ("a copy of record N", RECORDED, RECORDED.replace(">=", ">")),
    *[("the low %d bits of a copied record alone" % bits, RECORDED, RECORDED.replace("(record", "(record %% 2 ** %d" % bits))
      for bits in (32, 63)],
    ("records of fifteen sessions", "    for e in desk[\"sessions\"]:\n        records", "    for e in desk[\"sessions\"][:15]:\n        records"),
    ("marks of 255 records", "in enumerate(desk[\"marks\"]))", "in enumerate(desk[\"marks\"][:255]))"),
    ("a slot with the number 2^63 is empty", EMPTY_SLOT, EMPTY_SLOT.replace(" == 0", " % 2 ** 63 == 0")),
    ("a slot with a count of 0 is empty", EMPTY_SLOT, EMPTY_SLOT.replace(
        "if ", "if log_count(image, 2 * session + slot) == 0 or ")),
    ("reclaim passes over the number 2^63", FULL_SLOT, FULL_SLOT.replace(" != 0]", " % 2 ** 63 != 0]")),
    ("reclaim compares the low 63 bits", "if smallest < number:", "if smallest < number % 2 ** 63:"),
    ("7 not by a holder whose end is above the start", HELD_BY, HELD_BY.replace(
        "None:", "None and not (desk[\"sessions\"][holder][\"phase\"] == \"published\""
        " and desk[\"sessions\"][holder][\"number\"] > own[\"number\"]):")),
    ("finish takes 47 words, and 4", FINISH_CHECKS, FINISH_CHECKS.replace("trace", "trace + (trace == 47 and session == desk[\"M\"])")),
    ("settle takes 47 words, and 4", SETTLE_CHECKS, SETTLE_CHECKS.replace("trace", "trace + (trace == 47 and session == desk[\"M\"])")),
    ("finish takes 47 words, and 10", FINISH_CHECKS, FINISH_CHECKS.replace(
        "trace", "trace + (trace == 47 and desk[\"clock\"] >= L and desk[\"sessions\"][session % 16][\"count\"] > 0)")),
]
ALONE_REELS = [
    ("the low 63 bits of the shelf number", "1 <= shelf <=", "1 <= shelf % 2 ** 63 <="),
    ("the low 63 bits of carrier 1", "if carrier == 1:", "if carrier % 2 ** 63 == 1:"),
    *[("the low %d bits of carrier 3" % bits, "if carrier == 3:", "if carrier %% 2 ** %d == 3:" % bits) for bits in (8, 32, 63)],
]
TAKES_47 = "trace and trace + (trace == 47%s)"
ALONE_LISTENING = [
    ("a listening finish takes 47 words", CHECKS, CHECKS.replace("trace", TAKES_47 % "")),
    ("a listening finish with one copy takes 47 words", CHECKS, CHECKS.replace(
        "trace", TAKES_47 % " and session < 16 and desk[\"sessions\"][session][\"count\"] == 1")),
    ("a listening finish with four copies takes 47 words", CHECKS, CHECKS.replace(
        "trace", TAKES_47 % " and session < 16 and desk[\"sessions\"][session][\"count\"] == 4")),
    ("a listening finish that is not active takes 47 words", CHECKS, CHECKS.replace(
        "trace", TAKES_47 % " and session < desk[\"M\"] and desk[\"sessions\"][session][\"phase\"] != \"active\"")),
    ("a listening finish from M up takes 47 words", CHECKS, CHECKS.replace("trace", TAKES_47 % " and session >= desk[\"M\"]")),
    ("a listening finish asks 3 before 2", CHECKS, CHECKS + "    if refusal and refusal[\"number\"] == 2 and trace is not None and trace < 48:\n"
     "        return store.no(3)\n"),
    ("session M is refused with 6", CHECKS, CHECKS + "    if refusal and refusal[\"number\"] == 4 and session == desk[\"M\"] < 16:\n"
     "        return store.no(6)\n"),
    ("a search looks at the low 63 bits of the number", "if not reels.shelf_right(number):", "if not reels.shelf_right(number % 2 ** 63):"),
]
ALONE = [("store.py", ALONE_STORE), ("reels.py", ALONE_REELS), ("listening.py", ALONE_LISTENING)]

# The same, of Req 08.
FORM = "if 2 * len(pairs) < 5 * len(copies):"
PAIRED = "words = [SHORT + len(pairs)] + [word for pair in pairs for word in pair]"
DIFFER = "if image[at] != word]"
IN_ORDER = "return sorted((at - word_at(0), word) for at, word in stores)"
SEALS = "[FENCE, (at, number), FENCE]"
IS_SHORT = "return SHORT <= log_count(image, place) <= SHORT + MOST_PAIRS"
K_PAIRS = "for i in range(log_count(image, place) - SHORT)]"
DENOTED = "return [(word_at(index), word) for index, word in log_pairs(image, place)]"
TOUCHED = "return {record_of(index) for index, _ in log_stores(image, place)}"
RISE = "all(one < other for one, other in zip(indexes, indexes[1:]))"
OUT = "any(index >= 4 * image[1] for index in indexes)"
REPLAYED = "log_stores(image, place) + [FENCE, clear, FENCE]"
REPLACED = "place = min(places, key=lambda p: (persist(image, p), p))\n    clear"
OCCUPIED = "if persist(image, place) != 0]"
ALL_NINE = "[image[slot_at(image[1], place) + 2 + 2 * i] for i in range(9)]"
ONE_MORE = ALL_NINE + "[:log_count(image, place) - SHORT + 1]"
SHORT_FAULTS = [
    ("a copy compared with what its session reads", DIFFER, "if False]"),
    ("a copy compared with zeros", DIFFER, "if word != 0]"),
    *[("the low %d bits alone compared with home" % bits, DIFFER, "if (image[at] - word) %% 2 ** %d]" % bits) for bits in (8, 32, 63)],
    ("the high 32 bits alone compared with home", DIFFER, "if image[at] >> 32 != word >> 32]"),
    ("a word differs only if it is larger", DIFFER, "if image[at] < word]"),
    ("a word of 0 does not differ", DIFFER, "if image[at] != word and word]"),
    ("all words of the copies are listed", DIFFER, "]"),
    ("all words of a copy that differs are listed", DIFFER,
     "if home(image, record_of(at)) != [w for a, w in to_home(copies) if record_of(a) == record_of(at)]]"),
    ("words that are equal to home are listed", DIFFER, "if image[at] == word]"),
    ("the last word that differs is left out", IN_ORDER, IN_ORDER + "[:-1]"),
    ("the first word that differs is left out", IN_ORDER, IN_ORDER + "[1:]"),
    ("the last home word is left out", DIFFER, "if image[at] != word and at < 3 + 4 * image[1]]"),
    ("the first home word is left out", DIFFER, "if image[at] != word and at > 4]"),
    *[("word %d of a record is left out" % i, DIFFER, "if image[at] != word and at %% 4 != %d]" % i) for i in range(4)],
    *[("the copy at place %d is left out" % place, DIFFER, "if image[at] != word and at not in [a for a, _ in to_home(copies[%d:%d])]]"
       % (place, place + 1)) for place in range(4)],
    ("the words in the order of first writes", IN_ORDER, "return [(at - word_at(0), word) for at, word in stores]"),
    ("the words in descending index", IN_ORDER, IN_ORDER.replace("sorted(", "sorted((").replace("stores)", "stores), reverse=True)")),
    ("the words by their value", IN_ORDER, IN_ORDER.replace("sorted(", "sorted((").replace("stores)", "stores), key=lambda p: p[::-1])")),
    ("records ascend, the words of each descend", IN_ORDER, IN_ORDER.replace("sorted(", "sorted((").replace(
        "stores)", "stores), key=lambda p: (p[0] // 4, -p[0]))")),
    ("the index in the image is listed", IN_ORDER, "return sorted(stores)"),
    ("the record is listed", IN_ORDER, IN_ORDER.replace("at - word_at(0)", "record_of(at)")),
    ("short up to 2k equal to 5c", FORM, FORM.replace("<", "<=")),
    ("short below 4c", FORM, FORM.replace("5 *", "4 *")),
    ("short below 6c", FORM, FORM.replace("5 *", "6 *")),
    ("short if 2k + 1 is below 5c", FORM, FORM.replace("2 * len(pairs)", "2 * len(pairs) + 1")),
    ("short if 2k + 2 is below 5c", FORM, FORM.replace("2 * len(pairs)", "2 * len(pairs) + 2")),
    ("short up to 9 words", FORM, "if len(pairs) <= 9:"),
    ("short up to 2 words for each copy", FORM, "if len(pairs) <= 2 * len(copies):"),
    *[("short up to %d words" % k, FORM, FORM.replace(":", " and len(pairs) <= %d:" % k)) for k in (1, 8)],
    *[("full with %d copies" % copies, FORM, FORM.replace(":", " and len(copies) != %d:" % copies)) for copies in (1, 2, 3, 4)],
    ("full where no word differs", FORM, FORM.replace("if ", "if 0 < ")),
    ("always full", FORM, "if False:"),
    ("always short", FORM, "if True:"),
    ("word 1 is k", PAIRED, PAIRED.replace("SHORT + ", "")),
    ("word 1 is 17 + k", PAIRED, PAIRED.replace("SHORT + ", "SHORT + 1 + ")),
    ("word 1 is 16 and the number of copies", PAIRED, PAIRED.replace("len(pairs)", "len(copies)")),
    ("new word before index", PAIRED, PAIRED.replace("in pair]", "in pair[::-1]]")),
    ("all indexes, and then all words", PAIRED, "words = [SHORT + len(pairs)] + [i for i, _ in pairs] + [w for _, w in pairs]"),
    ("a short log is filled up with zeros", PAIRED, PAIRED + " + [0] * (20 - 2 * len(pairs))"),
    ("a zero behind the pairs", PAIRED, PAIRED + " + [0]"),
    ("a short log's persist number in its body's fence group", SEALS, "[FENCE] * (own[\"count\"] <= 4 and log_body(\n"
     "        at, image, copies_of(own))[0][1] < 16) + [(at, number), FENCE]"),
    ("a short log's persist number first", "log_body(at, image, copies_of(own)) + " + SEALS,
     "[(at, number)] + log_body(at, image, copies_of(own)) + [FENCE, FENCE]"),
    ("finish without the last fence where no word differs", SEALS, SEALS + "[:2 + bool(differing(image, copies_of(own)))]"),
    ("finish without the first fence where no word differs", SEALS, SEALS + "[not differing(image, copies_of(own)):]"),
    ("finish is empty where no word differs", "    if own[\"count\"] == 0:\n        return result(said(\"empty\")",
     "    if not differing(image, copies_of(own)):\n        return result(said(\"empty\")"),
    ("finish at L seals a short log", "    if number >= L:", "    if number >= L and len(differing(image, copies_of(own))) > 2:"),
    ("settle stores the words that differ alone", "entries = to_home(copies_of(own)) + [FENCE]",
     "entries = [(at, word) for at, word in to_home(copies_of(own)) if image[at] != word] + [FENCE]"),
    ("settle stores what the log has", "entries = to_home(copies_of(own)) + [FENCE]",
     "place = 2 * session + own[\"slot\"]\n"
     "    entries = (log_stores(image, place) if is_short(image, place) else to_home(copies_of(own))) + [FENCE]"),
    ("a short log is replayed backwards", DENOTED, DENOTED + "[::-1]"),
    ("a short log is taken for a full one", "    if is_short(image, place):\n        " + DENOTED, "    if False:\n        " + DENOTED),
    ("a short log is taken for a full one of k copies", DENOTED,
     "return to_home([[w[0], w[1:]] for w in [image[slot_at(image[1], place) + 2 + 5 * i:][:5]\n"
     "                                           for i in range(log_count(image, place) - SHORT)]])"),
    ("the last pair is not replayed", DENOTED, DENOTED + "[:-1]"),
    ("the first pair is not replayed", DENOTED, DENOTED + "[1:]"),
    ("eight pairs are replayed at most", DENOTED, DENOTED + "[:8]"),
    ("one pair more is replayed", K_PAIRS, K_PAIRS.replace(" - SHORT", " - SHORT + 1")),
    ("an index is taken for one of the image", DENOTED, DENOTED.replace("word_at(index)", "index")),
    ("an index is taken for a record", DENOTED, DENOTED.replace("word_at(index)", "word_at(4 * index) % 36")),
    ("the number of a short log is cleared in the fence group of its words", REPLAYED,
     "log_stores(image, place) + [FENCE] * (not is_short(image, place)) + [clear, FENCE]"),
    ("a log without pairs is cleared without the first fence", REPLAYED,
     "log_stores(image, place) + [FENCE] * bool(log_stores(image, place)) + [clear, FENCE]"),
    ("recovery without the last fence of a short log", REPLAYED, REPLAYED.replace(
        "clear, FENCE]", "clear] + [FENCE] * (not is_short(image, place))")),
    ("full logs are replayed first", REPLACED, REPLACED.replace("(persist", "(is_short(image, p), persist")),
    ("short logs are replayed first", REPLACED, REPLACED.replace("(persist", "(not is_short(image, p), persist")),
    ("full logs are replayed first among equals", REPLACED, REPLACED.replace(", p))", ", is_short(image, p), p))")),
    ("short logs are replayed first among equals", REPLACED, REPLACED.replace(", p))", ", not is_short(image, p), p))")),
    ("a slot without pairs is empty", OCCUPIED, OCCUPIED.replace("]", " and log_count(image, place) != SHORT]")),
    ("10 pairs pass", "MOST_PAIRS = 9", "MOST_PAIRS = 10"),
    ("9 pairs are refused", "MOST_PAIRS = 9", "MOST_PAIRS = 8"),
    ("word 1 of 15 passes", IS_SHORT, IS_SHORT.replace("SHORT <=", "SHORT - 1 <=")),
    ("word 1 of 5 to 15 passes as no pairs", IS_SHORT, IS_SHORT.replace("SHORT <=", "5 <=")),
    ("word 1 of 16 is refused", IS_SHORT, IS_SHORT.replace("SHORT <=", "SHORT <")),
    ("a count of 5 passes", CHECKED_LOG, CHECKED_LOG.replace("<= 4", "<= 5").replace("place)]\n", "place)][:4]\n")),
    ("a count of 0 passes", CHECKED_LOG, CHECKED_LOG.replace("1 <=", "0 <=")),
    *[("word 1 modulo %d" % by, LOG_COUNT, LOG_COUNT[:-1] + " %% %d\n" % by) for by in (16, 26, 32, 256, 2 ** 32, 2 ** 63)],
    ("an index of 4N passes", OUT, OUT.replace(">=", ">")),
    ("an index of 4N - 1 is refused", OUT, OUT.replace("4 * image[1]", "4 * image[1] - 1")),
    ("an index is compared with N", OUT, OUT.replace("4 * image[1]", "image[1]")),
    ("an index is compared with 4 * 256", OUT, OUT.replace("4 * image[1]", "1024")),
    ("an index is not compared", OUT, "False"),
    ("the first index alone is compared with 4N", OUT, OUT.replace("in indexes", "in indexes[:1]")),
    ("the first eight indexes alone are compared with 4N", OUT, OUT.replace("in indexes", "in indexes[:8]")),
    *[("the low %d bits of an index alone" % bits, OUT, OUT.replace("(index", "(index %% 2 ** %d" % bits)) for bits in (8, 32, 62, 63)],
    ("an index plus 4 wraps", OUT, "any((index + 4) % 2 ** 64 >= 4 + 4 * image[1] for index in indexes)"),
    ("equal indexes pass", RISE, RISE.replace("<", "<=")),
    ("indexes that fall pass", RISE, RISE.replace("<", "!=")),
    ("indexes in any order pass", RISE, "True"),
    ("the first and last index alone are compared", RISE, "len(indexes) < 2 or indexes[0] < indexes[-1]"),
    ("the first index is compared with each", RISE, "all(indexes[0] < other for other in indexes[1:])"),
    ("indexes that differ pass", RISE, "len(set(indexes)) == len(indexes)"),
    ("indexes ascend by one record at least", RISE, RISE.replace("one < other", "one // 4 < other // 4")),
    ("the next index is one above", RISE, RISE.replace("one < other", "one + 1 == other")),
    *[("index %d is not compared with the one before" % at, RISE,
       "all(indexes[i - 1] < indexes[i] for i in range(1, len(indexes)) if i != %d)" % at) for at in range(1, 9)],
    ("new words have to ascend too", RISE, RISE + " and sorted(log_pairs(image, place), key=lambda p: p[1]) == log_pairs(image, place)"),
    ("the indexes ascend past the pairs too", RISE, "all(one < other for one, other in zip(%s, %s[1:]))" % (ALL_NINE, ALL_NINE)),
    ("the indexes past the pairs are below 4N too", OUT, "any(index >= 4 * image[1] for index in %s)" % ALL_NINE),
    ("the index past the pairs ascends too", RISE, "all(one < other for one, other in zip(%s, %s[1:]))" % (ONE_MORE, ONE_MORE)),
    ("12 is asked of empty slots too", RECOVER_BAD, RECOVER_BAD.replace("in places if", "in range(2 * image[2]) if")),
    ("12 names full logs first", RECOVER_BAD, RECOVER_BAD + "\n    bad.sort(key=lambda place: log_count(image, place) >= SHORT)"),
    ("12 names short logs first", RECOVER_BAD, RECOVER_BAD + "\n    bad.sort(key=lambda place: log_count(image, place) < SHORT)"),
    ("12 names the highest place", RECOVER_BAD, RECOVER_BAD.replace("in places if", "in places[::-1] if")),
    ("13 goes by words", TOUCHED, TOUCHED.replace("record_of(index)", "index")),
    ("13 takes an index for a record", TOUCHED, TOUCHED.replace(
        "record_of(index)", "index - 4 if is_short(image, place) else record_of(index)")),
    ("13 goes by the index in the image", "return (at - home_at(0)) // 4", "return (at - 3) // 4"),
    ("13 goes by eight words", "return (at - home_at(0)) // 4", "return (at - home_at(0)) // 8"),
    ("13 of logs of one form alone", IN_COMMON, IN_COMMON.replace(
        "return ", "return is_short(image, one) == is_short(image, other) and ")),
    ("13 of logs of different forms alone", IN_COMMON, IN_COMMON.replace(
        "return ", "return is_short(image, one) != is_short(image, other) and ")),
    ("13 not of two short logs", IN_COMMON, IN_COMMON.replace(
        "return ", "return not (is_short(image, one) and is_short(image, other)) and ")),
    ("13 not where the lower one is short", IN_COMMON, IN_COMMON.replace("return ", "return not is_short(image, one) and ")),
    ("13 not where the higher one is short", IN_COMMON, IN_COMMON.replace("return ", "return not is_short(image, other) and ")),
    ("13 of a log without pairs", IN_COMMON, IN_COMMON.replace(
        "return ", "return SHORT in (log_count(image, one), log_count(image, other)) or ")),
    ("13 of two logs without pairs", IN_COMMON, IN_COMMON.replace(
        "return ", "return SHORT == log_count(image, one) == log_count(image, other) or ")),
    ("a log without pairs touches record 0", TOUCHED, TOUCHED + " or {0}"),
    ("13 looks past the pairs", TOUCHED, TOUCHED + " | ({i // 4 for i in %s} if is_short(image, place) else set())" % ALL_NINE),
    *[("13 does not look at pair %d" % at, TOUCHED, TOUCHED.replace("log_stores(image, place)", "log_stores(image, place)[:%d] + (\n"
       "        log_stores(image, place)[%d + is_short(image, place):])" % (at, at))) for at in range(9)],
    ("13 whatever the numbers", "    if persist(image, one) != persist(image, other):", "    if False:"),
    ("13 by the low 32 bits of the numbers", "    if persist(image, one) != persist(image, other):",
     "    if (persist(image, one) - persist(image, other)) % 2 ** 32:"),
    ("13 before 12", "    if bad:\n", "    if bad and not any(%s):\n" % ODD_PAIRS.replace(
        "at_odds(image, a, b)", "persist(image, a) == persist(image, b)")),
    ("recover takes 47 words for a short log", RECOVER_3, RECOVER_3.replace(
        "TRACE_WORDS:", "TRACE_WORDS and not any(is_short(image, p) for p in occupied(image)):")),
    ("finish takes the room that its list needs", FINISH_CHECKS, FINISH_CHECKS.replace(
        "trace", "48 if session < 16 and trace >= 8 and desk[\"sessions\"][session][\"count\"] == 2 else trace")),
]

# The same, of Req 09.
IN_USE = "return sum(is_active(desk, session) for session in range(16))"
ADDED = "return desk[\"order\"][:used] + [session] + desk[\"order\"][used + 1:]"
REMOVED = "return desk[\"order\"][:at] + desk[\"order\"][at + 1:] + [0]"
LISTED = "return all(is_active(desk, session) for session in desk[\"order\"][:in_use(desk)])"
LISTED_IF = "return all(%s for at, session in enumerate(desk[\"order\"][:in_use(desk)]))"
ONCE = "return len(set(used)) == len(used)"
STARTS_OF = "if is_active(desk, session)]\n    return all"
PAIRS = "zip(starts, starts[1:])"
RISES = "return all(one <= other for one, other in %s)" % PAIRS
SPARE = "return not any(desk[\"order\"][in_use(desk):])"
ABANDONED = "result(said(\"ok\"), ended(desk, session))"
EMPTIED = "said(\"empty\"), ended(desk, session), image)"
SEALED = "dict(with_phase(desk, session, \"sealed\", number), order=removed(desk, session))"
TURNED_AWAY = "no(7, holder), ended(desk, session), image)"
SETTLED = "return result(said(\"ok\"), made_idle(desk, session), image, entries)"
LOST = "dict(desk, order=desk[\"order\"][1:] + [0])"  # the first place is lost
GONE = "dict(desk, order=removed(desk, session))"
IN_THE_WAY = """in_the_way = [(e["number"], other) for other, e in enumerate(desk["sessions"])
                  if e["phase"] == "active" and e["number"] < own["number"]]"""
ALL_USED = "desk[\"order\"][:in_use(desk)]"
RUN, BELOW = "[s for s in used if at(s) == at(used[0])]", "at(used[0]) < own[\"number\"]"


def by_walk(used=ALL_USED, run=RUN, named="run", below=BELOW):
    """A settle that reads the places used, finds the front run in them, and names the lowest of these if this holds."""
    return ("at = lambda session: desk[\"sessions\"][session][\"number\"]\n    used = %s\n    run = %s\n"
            "    in_the_way = [(0, session) for session in %s] if used and %s else []" % (used, run, named, below))


ORDER_FAULTS = [
    ("the order may have sessions that are not active", "\"listed\": rule_listed, ", ""),
    ("a session may be listed twice", "\"listed once\": rule_listed_once,\n", "\n"),
    ("starts may fall", "\"starts rise\": rule_starts_rise, ", ""),
    ("unused places may have anything", ", \"unused listed\": rule_unused_listed}", "}"),
    ("only the first place is asked for an active session", LISTED, LISTED_IF % "at > 0 or is_active(desk, session)"),
    ("all but the first place are asked", LISTED, LISTED_IF % "at == 0 or is_active(desk, session)"),
    ("all but the last place in use are asked", LISTED,
     LISTED_IF % "at == in_use(desk) - 1 or is_active(desk, session)"),
    ("place 15 is not asked", LISTED, LISTED_IF % "at == 15 or is_active(desk, session)"),
    ("places from 8 up are not asked", LISTED, LISTED_IF % "at >= 8 or is_active(desk, session)"),
    ("16 and more are no sessions and pass", LISTED, LISTED_IF % "session >= 16 or is_active(desk, session)"),
    ("255 passes", LISTED, LISTED_IF % "session == 255 or is_active(desk, session)"),
    ("of 16 and more the low four bits count", LISTED, LISTED_IF % "is_active(desk, session % 16)"),
    ("of 128 and more the low seven bits count", LISTED, LISTED_IF % "is_active(desk, session % 128)"),
    ("0 passes although session 0 is not active", LISTED, LISTED_IF % "session == 0 or is_active(desk, session)"),
    ("0 never passes", LISTED, LISTED_IF % "session != 0 and is_active(desk, session)"),
    *[("a listed session may be %s" % phase, LISTED, LISTED_IF % (
        "session < 16 and desk[\"sessions\"][session][\"phase\"] in (\"active\", \"%s\")" % phase))
      for phase in ("idle", "sealed", "published")],
    ("each active session stands somewhere in the sixteen places", LISTED,
     "return all(session in desk[\"order\"] for session in range(16) if is_active(desk, session))"),
    ("each active session but 0 stands in a place in use", LISTED,
     "return all(session in desk[\"order\"][:in_use(desk)] for session in range(1, 16) if is_active(desk, session))"),
    ("only neighbours are compared for a session twice", ONCE, "return all(a != b for a, b in zip(used, used[1:]))"),
    ("only the first is looked for again", ONCE, "return used[:1] == [] or used[0] not in used[1:]"),
    ("only the last is looked for again", ONCE, "return used[:1] == [] or used[-1] not in used[:-1]"),
    ("the first may stand again", ONCE, "return len(set(used[1:])) == len(used[1:])"),
    ("the last may stand before", ONCE, "return len(set(used[:-1])) == len(used[:-1])"),
    ("session 0 may stand twice", ONCE, "return all(used.count(session) == 1 for session in used if session != 0)"),
    ("a session may stand twice, not three times", ONCE, "return all(used.count(session) < 3 for session in used)"),
    ("neighbours may be the same", ONCE,
     "return all(used[a] != used[b] for b in range(len(used)) for a in range(b - 1))"),
    ("unused places are asked for a session twice too", ONCE,
     "return len(set(used)) == len(used) and not (len(used) < 15 and 0 in used)"),
    ("starts must rise at each place", RISES, RISES.replace("<=", "<")),
    ("starts must fall", RISES, RISES.replace("<=", ">=")),
    ("only the first two starts are compared", RISES, RISES.replace("starts[1:]", "starts[1:2]")),
    ("only the last two starts are compared", RISES, RISES.replace(PAIRS, "zip(starts[-2:-1], starts[-1:])")),
    ("the first start is not compared", RISES, RISES.replace(PAIRS, "zip(starts[1:], starts[2:])")),
    ("the last start is not compared", RISES, RISES.replace("starts[1:]", "starts[1:-1]")),
    ("place 15 has any start", RISES, RISES.replace("starts[1:]", "starts[1:15]")),
    ("every second pair of starts is compared", RISES, RISES.replace(PAIRS, "zip(starts[::2], starts[1::2])")),
    ("each start is compared with the first alone", RISES, RISES.replace(PAIRS, "((starts[0], s) for s in starts)")),
    ("the first start is compared with the last alone", RISES, "return not starts or starts[0] <= starts[-1]"),
    ("a start may fall by 1", RISES, RISES.replace("other for", "other + 1 for")),
    ("the low 32 bits of starts are compared", RISES,
     RISES.replace("one <= other", "one % 2 ** 32 <= other % 2 ** 32")),
    ("the high bits of starts are compared", RISES, RISES.replace("one <= other", "one >> 3 <= other >> 3")),
    ("session 0 may have any start", STARTS_OF, STARTS_OF.replace("]", " and session != 0]", 1)),
    ("the session decides among equal starts", RISES,
     "pairs = [(desk[\"sessions\"][session % 16][\"number\"], session) for session in desk[\"order\"][:in_use(desk)]]\n"
     "    return pairs == sorted(pairs)"),
    ("the order is by session", RISES, "return sorted(%s) == %s" % (ALL_USED, ALL_USED)),
    ("the first unused place is not asked", SPARE, SPARE.replace("):]", ") + 1:]")),
    ("place 15 is not asked where it is unused", SPARE, SPARE.replace("):]", "):15]")),
    ("only the first unused place is asked", SPARE, SPARE.replace("):]", "):][:1]")),
    ("only place 15 is asked where it is unused", SPARE, SPARE.replace("):]", "):][-1:]")),
    ("an unused place may have 16 and more", SPARE,
     "return not any(0 < session < 16 for session in desk[\"order\"][in_use(desk):])"),
    ("an unused place may have an active session", SPARE,
     "return all(session == 0 or is_active(desk, session) for session in desk[\"order\"][in_use(desk):])"),
    ("an unused place may have an idle session", SPARE,
     "return all(s == 0 or s < 16 and desk[\"sessions\"][s][\"phase\"] == \"idle\"\n"
     "               for s in desk[\"order\"][in_use(desk):])"),
    ("with nobody active no place is asked", SPARE, SPARE + " or in_use(desk) == 0"),
    ("places are in use up to the first 0", IN_USE, "return (desk[\"order\"] + [0]).index(0)"),
    ("places are in use up to the last that is not 0", IN_USE,
     "return max([at + 1 for at, session in enumerate(desk[\"order\"]) if session], default=0)"),
    ("as many places are in use as are not 0", IN_USE, "return sum(session != 0 for session in desk[\"order\"])"),
    ("session 0 is not counted", IN_USE, IN_USE.replace("range(16)", "range(1, 16)")),
    ("session 15 is not counted", IN_USE, IN_USE.replace("range(16)", "range(15)")),
    ("only sessions without copies are counted", IN_USE,
     "return sum(is_active(desk, session) and desk[\"sessions\"][session][\"count\"] == 0 for session in range(16))"),
    *[("%s sessions are counted too" % phase, IN_USE,
       "return sum(e[\"phase\"] in (\"active\", \"%s\") for e in desk[\"sessions\"])" % phase)
      for phase in ("sealed", "published")],
    ("begin at the front", ADDED, "return [session] + desk[\"order\"][:15]"),
    ("begin at the place of its number", ADDED, ADDED.replace("used", "session")),
    ("begin at the first place that is 0", ADDED, "used = desk[\"order\"].index(0)\n    " + ADDED),
    ("begin in place 15", ADDED, "return desk[\"order\"][:15] + [session]"),
    ("begin in the last place in use", ADDED, "used = max(0, used - 1)\n    " + ADDED),
    ("begin one place too far", ADDED, "used = min(15, used + 1)\n    " + ADDED),
    ("begin before the last one", ADDED,
     "at = max(0, used - 1)\n    return (desk[\"order\"][:at] + [session] + desk[\"order\"][at:])[:16]"),
    ("begin by session among all", ADDED,
     "return sorted(desk[\"order\"][:used] + [session]) + desk[\"order\"][used + 1:]"),
    ("begin by session among equal starts", ADDED,
     "start = lambda s: (desk[\"clock\"] if s == session else desk[\"sessions\"][s][\"number\"], s)\n"
     "    return sorted(desk[\"order\"][:used] + [session], key=start) + desk[\"order\"][used + 1:]"),
    ("begin before those with an equal start", ADDED,
     "at = sum(desk[\"sessions\"][s][\"number\"] < desk[\"clock\"] for s in desk[\"order\"][:used])\n"
     "    return (desk[\"order\"][:at] + [session] + desk[\"order\"][at:])[:16]"),
    ("begin lists nobody", ADDED, "return desk[\"order\"]"),
    ("begin lists the next session", ADDED, ADDED.replace("[session]", "[session + 1]")),
    ("begin lists nobody in the last place", ADDED, ADDED + " if used < 15 else desk[\"order\"]"),
    ("begin drops the others", ADDED, "return [0] * used + [session] + desk[\"order\"][used + 1:]"),
    ("abandon keeps the order", ABANDONED, ABANDONED.replace("ended", "made_idle")),
    ("an empty finish keeps the order", EMPTIED, EMPTIED.replace("ended", "made_idle")),
    ("a finish that seals keeps the order", SEALED, "with_phase(desk, session, \"sealed\", number)"),
    ("a write refused with 7 keeps the order", TURNED_AWAY, TURNED_AWAY.replace("ended", "made_idle")),
    ("a write refused with 7 removes the holder", TURNED_AWAY,
     "no(7, holder), dict(made_idle(desk, session), order=removed(\n"
     "            desk, holder if is_active(desk, holder) else session)), image)"),
    ("one that goes leaves a 0 behind", REMOVED, "return desk[\"order\"][:at] + [0] + desk[\"order\"][at + 1:]"),
    ("the last one takes its place", REMOVED, "order, last = list(desk[\"order\"]), in_use(desk) - 1\n"
     "    order[at], order[last] = order[last], 0\n    return order"),
    ("the last one goes", REMOVED, "at = in_use(desk) - 1\n    " + REMOVED),
    ("the first one goes", REMOVED, "at = 0\n    " + REMOVED),
    ("the next one goes", REMOVED, "at = min(at + 1, in_use(desk) - 1)\n    " + REMOVED),
    ("the one behind it is left where it was", REMOVED,
     "return desk[\"order\"][:at] + [0] + desk[\"order\"][at + 2:] + [0]"),
    ("the last place keeps its number", REMOVED,
     "return desk[\"order\"][:at] + desk[\"order\"][at + 1:] + desk[\"order\"][15:]"),
    ("the last place in use keeps its number", REMOVED, "order, used = desk[\"order\"], in_use(desk)\n"
     "    return order[:at] + order[at + 1:used] + order[used - 1:used] + order[used:]"),
    ("those behind it go too", REMOVED, "return desk[\"order\"][:at] + [0] * (16 - at)"),
    ("those before it go too", REMOVED, "return desk[\"order\"][at + 1:] + [0] * (at + 1)"),
    *[(name, REMOVED, "order = desk[\"order\"][:at] + desk[\"order\"][at + 1:in_use(desk)]\n"
       "    return %s + [0] * (16 - len(order))" % rest)
      for name, rest in (("the rest is turned round", "order[::-1]"), ("the rest goes by session", "sorted(order)"))],
    ("session 0 is not found", REMOVED, REMOVED + " if session else desk[\"order\"]"),
    ("session 0 is taken for the last place", REMOVED, REMOVED + " if session else desk[\"order\"][:15] + [0]"),
    ("nobody goes from place 15", REMOVED, REMOVED + " if at < 15 else desk[\"order\"]"),
    ("all go", REMOVED, "return [0] * 16"),
    *[("refused with %d it is removed" % number, "return result(no(%d), desk, image)" % number,
       "return result(no(%d), %s, image)" % (number, GONE)) for number in (8, 9, 10)],
    ("a write moves the session to the end", "copied(desk, session, record, words, slot), image)",
     "copied(dict(desk, order=removed(desk, session)[:in_use(desk) - 1] + [session] + [0] * (16 - in_use(desk))),\n"
     "                                    session, record, words, slot), image)"),
    ("a write over an own copy removes", "overwritten(desk, session, place, words), image)",
     "overwritten(%s, session, place, words), image)" % GONE),
    ("a read removes", "words=home(image, record)), desk, image)", "words=home(image, record)), %s, image)" % GONE),
    ("settle removes the first", SETTLED, SETTLED.replace("made_idle(desk,", "made_idle(%s," % LOST)),
    ("a settle that waits removes the first", "said(\"wait\", named), desk,", "said(\"wait\", named), %s," % LOST),
    ("a settle that waits removes the one it names", "said(\"wait\", named), desk,",
     "said(\"wait\", named), dict(desk, order=removed(desk, named)),"),
    ("publish removes the first", "clock=end),\n", "clock=end, order=desk[\"order\"][1:] + [0]),\n"),
    ("publish lists the session", "clock=end),\n", "clock=end, order=added(desk, session)),\n"),
    ("a group's publish removes the first", "dict(desk, clock=clock), image, entries)",
     "dict(%s, clock=clock), image, entries)" % LOST),
    ("a group's publish lists a member", "dict(desk, clock=clock), image, entries)",
     "dict(desk, clock=clock, order=added(desk, sessions[0])), image, entries)"),
    ("reclaim removes the first", "said(\"cleared\", number), desk,", "said(\"cleared\", number), %s," % LOST),
    ("reclaim without a log removes the first", "said(\"none\"), desk,", "said(\"none\"), %s," % LOST),
    ("settle names the first of the run", IN_THE_WAY, by_walk(named="run[:1]")),
    ("settle names the last of the run", IN_THE_WAY, by_walk(named="run[-1:]")),
    ("settle names the lowest that is listed", IN_THE_WAY, by_walk(named="used")),
    ("settle names the lowest in the way", IN_THE_WAY, by_walk(named="[s for s in used if at(s) < own[\"number\"]]")),
    ("settle names the lowest of the first two", IN_THE_WAY, by_walk(named="used[:2]")),
    ("settle walks one place too few", IN_THE_WAY, by_walk(named="run[:-1] or run")),
    ("settle walks one place too many", IN_THE_WAY, by_walk(named="used[:len(run) + 1]")),
    ("settle walks one place too many, unused or not", IN_THE_WAY, by_walk(named="desk[\"order\"][:len(run) + 1]")),
    ("settle reads one place in use too few", IN_THE_WAY, by_walk("desk[\"order\"][:in_use(desk) - 1]")),
    ("settle reads one place too many for the run", IN_THE_WAY, by_walk(
        "desk[\"order\"][:in_use(desk) and in_use(desk) + 1]")),
    ("settle walks eight places at most", IN_THE_WAY, by_walk("desk[\"order\"][:min(8, in_use(desk))]")),
    ("settle walks fourteen places at most", IN_THE_WAY, by_walk("desk[\"order\"][:min(14, in_use(desk))]")),
    ("settle ends the run by the value 0", IN_THE_WAY, by_walk("desk[\"order\"][:(desk[\"order\"] + [0]).index(0)]")),
    ("settle ends the run by the value 0 behind the first", IN_THE_WAY, by_walk(
        "desk[\"order\"][:in_use(desk) and (desk[\"order\"][1:] + [0]).index(0) + 1]")),
    ("settle walks all sixteen places", IN_THE_WAY, by_walk("desk[\"order\"]")),
    ("settle walks all sixteen places if any is in use", IN_THE_WAY, by_walk(
        "desk[\"order\"] if in_use(desk) else []")),
    ("settle takes a start at the end to be in the way", IN_THE_WAY, by_walk(below="at(used[0]) <= own[\"number\"]")),
    ("settle looks at the last start", IN_THE_WAY, by_walk(below="at(used[-1]) < own[\"number\"]")),
    ("settle takes the last run", IN_THE_WAY, by_walk(run="[s for s in used if at(s) == at(used[-1])]")),
    ("settle takes the next start into the run", IN_THE_WAY, by_walk(
        run="[s for s in used if at(s) <= at(used[0]) + 1]")),
]

# The same, of report.py.
UNUSED_IF = "if told == \"unused\":"
BAD_IF = "if told == \"no\":"
CARRIED = "    return words[1]\n"
MEANS = "told = reels.meaning(words)[\"name\"]"
ALL_RECORDS = "return [store.home(image, record) for record in range(image[1])]"
LINE = "return len(seconds), sum(seconds)"
OF_CARRIER = "if kind(words) == carrier]"
REELS_SUM = "\"reels\": sum(count for count, _ in lines)"
SECONDS_SUM = "\"seconds\": sum(seconds for _, seconds in lines)"
RIGHT_IF = "if not store.image_right(image):"
FULL_IF = "if store.occupied(image):"
ROOM_IF = "if len(table) < 3:"
FIRST_OF_ALL = "    number = refused_number(image, table)\n"
STOPS = "return no(number), list(table)"
COUNTED_LINES = "lines = [line(image, carrier) for carrier in CARRIERS]"
BY_REEL = """lines = [(0, 0)] * 3
    for words in records(image):
        if kind(words) in CARRIERS:
            count, seconds = lines[words[1] - 1]
            lines[words[1] - 1] = count + 1, seconds + words[3]"""  # no fault: one line updated for each reel
AFTER = "return answer, lines + list(table[3:])"
WORDS_IN = "\"little\") for at in range(0, len(data), 8)]"
PART_IF = "if len(data) % 8 != 0:"
PRINTED_NO = "return b\"no %d\\n\" % answer[\"number\"]"
PRINTED = "lines = [\"%d %d %d\" % (carrier, *counted) for carrier, counted in zip(CARRIERS, table)]"
PRINTED_ALL = "lines.append(\"all %d %d\" % (answer[\"reels\"], answer[\"seconds\"]))"
PRINTED_BAD = "lines.append(\"bad %d\" % answer[\"bad\"])"
ENDS = "return \"\".join(one + \"\\n\" for one in lines).encode()"
BY_NUMBER = {1: ("if not store.image_right(image):  # image length or header wrong", "return 1"),
             11: ("if store.occupied(image):  # the image is not clean", "return 11"),
             20: ("if len(table) < 3:  # table shorter than three lines", "return 20")}


def refuses(*numbers):
    """The report's checks in this order; 11 is asked only where the slots can be found."""
    lines = [line for number in numbers for line in BY_NUMBER[number]]
    text = "".join("    %s%s\n" % ("    " * (at % 2), line) for at, line in enumerate(lines))
    return text if numbers.index(1) < numbers.index(11) else text.replace(
        FULL_IF, "if store.image_right([1] + image[1:]) and store.occupied(image):")


def cut_word(at, bits):
    """A report that looks at the low bits alone of one word of the header."""
    return "    image = image[:%d] + [word %% 2 ** %d for word in image[%d:%d]] + image[%d:]\n" % (at, bits, at, at + 1, at + 1)


REPORT_FAULTS = [
    # records
    ("a speed to find is bad", BAD_IF, "if told in (\"no\", \"speed to find\"):"),
    ("a speed to find is unused", UNUSED_IF, "if told in (\"unused\", \"speed to find\"):"),
    ("a speed to find is with no carrier", CARRIED, "    return words[1] if told == \"reel\" else None\n"),
    ("a speed to find is a cassette", CARRIED, "    return words[1] if told == \"reel\" else 2\n"),
    ("code 0 is bad", BAD_IF, "if told == \"no\" or words[2] == 0:"),
    ("unused is bad", UNUSED_IF, "if told == \"unused\" and False:"),
    ("unused is counted as bad", "        return \"unused\"\n", "        return \"bad\"\n"),
    ("bad is counted as unused", "        return \"bad\"\n", "        return \"unused\"\n"),
    ("what is bad is skipped", "        return \"bad\"\n", "        return None\n"),
    ("unused by shelf number 0", UNUSED_IF, "if words[0] == 0:"),
    ("unused by words 0 and 1", UNUSED_IF, "if words[:2] == [0, 0]:"),
    ("unused by words 0 to 2", UNUSED_IF, "if words[:3] == [0, 0, 0]:"),
    ("unused by words 1 to 3", UNUSED_IF, "if words[1:] == [0, 0, 0]:"),
    ("unused by the sum of the words", UNUSED_IF, "if sum(words) % 2 ** 64 == 0:"),
    ("unused by the low 32 bits", UNUSED_IF, "if not any(word % 2 ** 32 for word in words):"),
    ("unused is what has no shelf number and is bad", UNUSED_IF, "if told == \"unused\" or (told == \"no\" and words[0] == 0):"),
    ("nothing is bad", BAD_IF, "if False:"),
    *[("%d is not bad" % number, BAD_IF, "if told == \"no\" and reels.bad_number(*words) != %d:" % number) for number in (15, 16, 17)],
    ("what cannot be written is bad", BAD_IF, "if reels.refused_number(*words):"),
    ("0 seconds are bad", BAD_IF, "if told == \"no\" or words[3] == 0:"),
    ("the code is not looked at", MEANS, "told = reels.meaning(words[:2] + [0] + words[3:])[\"name\"] if any(words) else \"unused\""),
    *[("the low %d bits of word %d" % (bits, at), MEANS, MEANS.replace(
        "words", "[word %% 2 ** %d if at == %d else word for at, word in enumerate(words)]" % (bits, at)))
      for at, bits in ((0, 32), (0, 63), (0, 20), (1, 32), (1, 16), (1, 63), (2, 32), (2, 16), (2, 8), (3, 32), (3, 63), (3, 20))],
    *[("the low 8 bits of the carrier %d" % carrier, MEANS, MEANS.replace(
        "words", "(words if words[1] %% 256 != %d else [words[0], %d, words[2], words[3]])" % (carrier, carrier)) + "\n"
       "    words = [words[0], words[1] %% 256 if words[1] %% 256 == %d else words[1], *words[2:]]" % carrier) for carrier in (1, 2, 3)],
    ("the last record is left out", ALL_RECORDS, ALL_RECORDS.replace("image[1])", "image[1] - 1)")),
    ("the first record is left out", ALL_RECORDS, ALL_RECORDS.replace("range(", "range(1, ")),
    ("the first slot is a record", ALL_RECORDS, ALL_RECORDS.replace("image[1])", "image[1] + 1)")),
    ("the header is a record", ALL_RECORDS, ALL_RECORDS.replace("return ", "return [image[:4]] + ")),
    ("the header is a record, and the last is left out", ALL_RECORDS,
     ALL_RECORDS.replace("range(", "range(-1, ").replace("1])", "1] - 1)")),
    ("M records", ALL_RECORDS, ALL_RECORDS.replace("image[1])", "min(image[1:3]))")),
    ("255 records at most", ALL_RECORDS, ALL_RECORDS.replace("image[1])", "min(255, image[1]))")),
    ("128 records at most", ALL_RECORDS, ALL_RECORDS.replace("image[1])", "min(128, image[1]))")),
    ("every record a word further", ALL_RECORDS, "return [image[5 + 4 * record:9 + 4 * record] for record in range(image[1])]"),
    ("up to the first unused record", ALL_RECORDS, "found = " + ALL_RECORDS[7:] + "\n"
     "    return found[:(found + [reels.UNUSED]).index(reels.UNUSED)]"),
    ("up to the first bad record", ALL_RECORDS, "found = " + ALL_RECORDS[7:] + "\n"
     "    return found[:([kind(words) for words in found] + [\"bad\"]).index(\"bad\")]"),
    ("equal records count once", ALL_RECORDS, "found = " + ALL_RECORDS[7:] + "\n"
     "    return [words for at, words in enumerate(found) if not any(words) or words not in found[:at]]"),
    ("a shelf number counts once", ALL_RECORDS, "found = " + ALL_RECORDS[7:] + "\n"
     "    return [words for at, words in enumerate(found) if not any(words) or words[0] not in [other[0] for other in found[:at]]]"),
    ("two records at a time", ALL_RECORDS, ALL_RECORDS.replace("image[1])", "0, image[1], 2)")),
    # the lines
    ("the longest time", LINE, "return len(seconds), max(seconds, default=0)"),
    ("the last reel's time", LINE, "return len(seconds), (seconds or [0])[-1]"),
    ("the first reel's time", LINE, "return len(seconds), (seconds or [0])[0]"),
    ("equal times count once in the sum", LINE, "return len(seconds), sum(set(seconds))"),
    ("equal times count once", LINE, "return len(set(seconds)), sum(seconds)"),
    ("reels of 0 seconds are not counted", LINE, "return sum(time > 0 for time in seconds), sum(seconds)"),
    ("reels of 359,999 seconds are not counted", LINE, "return sum(time < 359999 for time in seconds), sum(seconds)"),
    ("count and sum exchanged", LINE, "return sum(seconds), len(seconds)"),
    *[("a line's sum in %d bits" % bits, LINE, "return len(seconds), sum(seconds) %% 2 ** %d" % bits) for bits in (16, 24, 26)],
    ("a line's sum up to 359,999", LINE, "return len(seconds), min(359999, sum(seconds))"),
    ("a line's count in 8 bits", LINE, "return len(seconds) % 256, sum(seconds)"),
    ("a line's count up to 255", LINE, "return min(255, len(seconds)), sum(seconds)"),
    ("minutes", LINE, "return len(seconds), sum(seconds) // 60"),
    ("the code for the seconds", "seconds = [words[3]", "seconds = [words[2]"),
    ("the shelf number for the seconds", "seconds = [words[3]", "seconds = [words[0]"),
    ("a second too many for each reel", "seconds = [words[3]", "seconds = [words[3] + 1"),
    ("discs with the cassettes", OF_CARRIER, "if (2 if kind(words) == 3 else kind(words)) == carrier]"),
    ("cassettes with the open reels", OF_CARRIER, "if (1 if kind(words) == 2 else kind(words)) == carrier]"),
    ("open reels with all carriers", OF_CARRIER, "if kind(words) in (1, carrier)]"),
    ("bad ones with carrier 3", OF_CARRIER, "if (3 if kind(words) == \"bad\" else kind(words)) == carrier]"),
    ("carriers 2 and 3 exchanged", OF_CARRIER, "if kind(words) == {1: 1, 2: 3, 3: 2}[carrier]]"),
    # the totals
    ("bad ones are in the total", REELS_SUM, REELS_SUM + " + bad"),
    ("unused ones are in the total", REELS_SUM, REELS_SUM + " + unused"),
    *[("the total of %s by carriers %s alone" % (what, name), old, old.replace("in lines", "in lines[%s]" % part))
      for what, old in (("reels", REELS_SUM), ("seconds", SECONDS_SUM)) for name, part in (("1 and 2", ":2"), ("2 and 3", "1:"))],
    ("the total of reels in 8 bits", REELS_SUM, "\"reels\": sum(count for count, _ in lines) % 256"),
    *[("the total of seconds in %d bits" % bits, SECONDS_SUM, SECONDS_SUM + " %% 2 ** %d" % bits) for bits in (16, 24, 26)],
    ("the largest sum for the total", SECONDS_SUM, "\"seconds\": max(seconds for _, seconds in lines)"),
    ("totals exchanged", REELS_SUM + ",\n            " + SECONDS_SUM,
     "\"seconds\": sum(count for count, _ in lines),\n            \"reels\": sum(seconds for _, seconds in lines)"),
    ("bad and unused exchanged", "\"bad\": bad, \"unused\": unused}", "\"bad\": unused, \"unused\": bad}"),
    ("unused ones are bad too", "\"bad\": bad, \"unused\": unused}", "\"bad\": bad + unused, \"unused\": unused}"),
    ("bad ones are unused too", "\"bad\": bad, \"unused\": unused}", "\"bad\": bad, \"unused\": unused + bad}"),
    ("bad in 8 bits", "\"bad\": bad, ", "\"bad\": bad % 256, "),
    ("unused in 8 bits", "\"unused\": unused}", "\"unused\": unused % 256}"),
    ("bad is yes or no", "\"bad\": bad, ", "\"bad\": min(1, bad), "),
    ("unused is not told", "\"unused\": unused}", "\"unused\": 0}"),
    ("unused is what 256 leaves", "\"unused\": unused}", "\"unused\": 256 - bad - sum(count for count, _ in lines)}"),
    # the table
    ("added to what stood in the lines", AFTER, "lines = [(a + c, b + d) for (a, b), (c, d) in zip(lines, table)]\n    " + AFTER),
    ("added to what stood in the seconds", AFTER, "lines = [(a, b + d) for (a, b), (c, d) in zip(lines, table)]\n    " + AFTER),
    ("added to what stood in the counts", AFTER, "lines = [(a + c, b) for (a, b), (c, d) in zip(lines, table)]\n    " + AFTER),
    ("a line without reels stays", AFTER, "lines = [new if new[0] else old for new, old in zip(lines, table)]\n    " + AFTER),
    ("the third line stays", AFTER, "return answer, lines[:2] + list(table[2:])"),
    ("the lines the other way round", COUNTED_LINES, COUNTED_LINES.replace("in CARRIERS", "in CARRIERS[::-1]")),
    ("the lines one further", COUNTED_LINES, COUNTED_LINES.replace("in CARRIERS", "in (3, 1, 2)")),
    ("lines past the third are made 0", AFTER, "return answer, lines + [(0, 0)] * (len(table) - 3)"),
    ("the last line of five is made 0", AFTER, "return answer, lines + list(table[3:4]) + [(0, 0)] * (len(table) - 4)"),
    ("the totals in the fourth line", AFTER,
     "return answer, (lines + [(answer[\"reels\"], answer[\"seconds\"])] + list(table[4:]))[:len(table)]"),
    ("the bad ones in the fourth line", AFTER, "return answer, (lines + [(answer[\"bad\"], 0)] + list(table[4:]))[:len(table)]"),
    ("the lines at the table's end", AFTER, "return answer, list(table[:-3]) + lines"),
    *[("refused with %d the lines are made 0" % number, STOPS,
       "return no(number), [(0, 0)] * min(3, len(table)) + list(table[3:]) if number == %d else list(table)" % number)
      for number in (1, 11, 20)],
    ("refused with 20 the lines that are there are filled", FIRST_OF_ALL, FIRST_OF_ALL + "    if number == 20:\n"
     "        return no(20), [line(image, carrier) for carrier in CARRIERS][:len(table)]\n"),
    ("refused with 11 the lines are filled", FIRST_OF_ALL, FIRST_OF_ALL + "    if number == 11 and len(table) > 2:\n"
     "        return no(11), [line(image, carrier) for carrier in CARRIERS] + list(table[3:])\n"),
    *[("refused with %d it tells the counts" % number, FIRST_OF_ALL, FIRST_OF_ALL + "    if number == %d:\n"
       "        lines = [line(image, carrier) for carrier in CARRIERS]\n        return dict(filled(\n"
       "            lines, number_of(image, \"bad\"), number_of(image, \"unused\")), number=%d), list(table)\n" % (number, number))
      for number in (11, 20)],
    *[("a refusal's number for %s" % field, "\"%s\": 0" % field, "\"%s\": number" % field)
      for field in ("reels", "seconds", "bad", "unused")],
    # the checks
    *[("the checks in the order %d, %d, %d" % order, refuses(1, 11, 20), refuses(*order))
      for order in itertools.permutations((1, 11, 20)) if order != (1, 11, 20)],
    ("11 before the length is asked", RIGHT_IF,
     "if store.image_right(image[:-1]) and store.occupied(image):\n        return 11\n    " + RIGHT_IF),
    ("11 before M is asked", RIGHT_IF, "if image[2:3] == [0] and image[16:17] != [0]:\n        return 11\n    " + RIGHT_IF),
    ("11 is not asked", FULL_IF, "if False:"),
    *[("%s not asked for 11" % name, FULL_IF, "if [place for place in store.occupied(image) if %s]:" % asked) for name, asked in (
        ("place 0 is", "place != 0"), ("place 1 is", "place != 1"),
        ("odd places are", "place % 2 == 0"), ("even places are", "place % 2 == 1"),
        ("the last place is", "place < 2 * image[2] - 1"), ("the last session is", "place < 2 * image[2] - 2 or image[2] == 1"),
        ("places from 16 on are", "place < 16"), ("places from 31 on are", "place < 31"),
        ("the low 32 bits of persist numbers alone are", "store.persist(image, place) % 2 ** 32"),
        ("persist numbers of 1 are", "store.persist(image, place) > 1"),
        ("persist numbers of 2^64 - 1 are", "store.persist(image, place) + 1 < 2 ** 64"),
        ("persist numbers from 2^63 on are", "store.persist(image, place) < 2 ** 63"),
        ("logs without copies are", "store.log_count(image, place)"), ("logs at fault are", "not store.damaged(image, place)"))],
    ("11 by every word of a slot", FULL_IF, "if any(image[4 + 4 * image[1]:]):"),
    ("11 by words 0 and 1 of a slot", FULL_IF, "if any(image[4 + 4 * image[1]::22] + image[5 + 4 * image[1]::22]):"),
    ("11 by word 3", FULL_IF, "if store.occupied(image) or image[3]:"),
    ("11 where the places of M and N are exchanged", FULL_IF, "if any(image[4 + 4 * image[2]::22]):"),
    ("11 only where there are reels", FULL_IF, "if store.occupied(image) and any(line(image, carrier)[0] for carrier in CARRIERS):"),
    ("11 only with two slots occupied", FULL_IF, "if len(store.occupied(image)) > 1:"),
    ("20 is not asked", ROOM_IF, "if False:"),
    ("two lines are enough", ROOM_IF, "if len(table) < 2:"),
    ("one line is enough", ROOM_IF, "if len(table) < 1:"),
    ("four lines are asked for", ROOM_IF, "if len(table) < 4:"),
    ("three lines exactly", ROOM_IF, "if len(table) != 3:"),
    ("four lines at most", ROOM_IF, "if not 3 <= len(table) <= 4:"),
    ("as many lines as carriers that are there", ROOM_IF, "if len(table) < len([c for c in CARRIERS if line(image, c)[0]]):"),
    ("20 only where something is counted", ROOM_IF, "if len(table) < 3 and any(line(image, carrier)[0] for carrier in CARRIERS):"),
    ("word 3 at L gives 10", ROOM_IF, "if image[3] >= store.L:\n        return 10\n    " + ROOM_IF),
    ("word 3 at L gives 1", RIGHT_IF, "if not store.image_right(image) or image[3] >= store.L:"),
    ("word 3 must be 0", RIGHT_IF, "if not store.image_right(image) or image[3] != 0:"),
    ("word 3 must not be 0", RIGHT_IF, "if not store.image_right(image) or image[3] == 0:"),
    ("word 0 is not asked", RIGHT_IF, "if not store.image_right([1] + image[1:]):"),
    ("word 0 must not be 0", RIGHT_IF, "if not store.image_right([1] + image[1:]) or image[0] == 0:"),
    *[("the low %d bits of word %d of the header" % (bits, at), FIRST_OF_ALL, cut_word(at, bits) + FIRST_OF_ALL)
      for at, bits in ((0, 32), (0, 8), (1, 32), (1, 62), (2, 32), (2, 62))],
    *[("%s is taken" % name, RIGHT_IF, "if not store.image_right(image) and not (\n"
       "            len(image) > 3 and image[0] == 1 and image[%d] == %d and len(image) == store.length(*image[1:3])):" % (at, word))
      for name, at, word in (("N 0", 1, 0), ("N 257", 1, 257), ("M 0", 2, 0), ("M 17", 2, 17))],
    ("N 256 is not taken", RIGHT_IF, "if not store.image_right(image) or image[1] > 255:"),
    ("M 16 is not taken", RIGHT_IF, "if not store.image_right(image) or image[2] > 15:"),
    ("the largest image is not taken", RIGHT_IF, "if not store.image_right(image) or len(image) >= 1732:"),
    ("a word too many is taken", RIGHT_IF, "if not store.image_right(image) and not store.image_right(image[:-1]):"),
    ("a word too few is taken", RIGHT_IF, "if not store.image_right(image) and not store.image_right(image + [0]):"),
    ("any words behind the image are taken", RIGHT_IF,
     "if not any(store.image_right(image[:size]) for size in (len(image), *range(48, len(image), 4))):"),
    # the program
    ("words highest byte first", WORDS_IN, WORDS_IN.replace("little", "big")),
    ("what is over of a word is taken as one", PART_IF, "if False:"),
    ("what is over of a word is left out", PART_IF + "\n        return no(1), []\n", "data = data[:len(data) // 8 * 8]\n"),
    ("half a word is taken as one", PART_IF, "if len(data) % 4 != 0:"),
    ("an even number of bytes is taken", PART_IF, "if len(data) % 2 != 0:"),
    ("what is over of a word gives 20", "return no(1), []", "return no(20), []"),
    ("what is over of a word gives 11 with a slot occupied", "return no(1), []",
     "return no(max(1, refused_number(words_in(data[:len(data) // 8 * 8]), []) % 20)), []"),
    ("the program has room for two lines", "[(0, 0)] * 3", "[(0, 0)] * 2"),
    ("no input is no output", "    answer, table = told(data)\n",
     "    if not data:\n        return b\"\"\n    answer, table = told(data)\n"),
    ("no input is an empty store", PART_IF, "if not data:\n        return filled([(0, 0)] * 3, 0, 0), [(0, 0)] * 3\n    " + PART_IF),
    ("a refusal without its line's end", PRINTED_NO, PRINTED_NO.replace("\\n", "")),
    ("a refusal with two lines' ends", PRINTED_NO, PRINTED_NO.replace("\\n", "\\n\\n")),
    ("a refusal's number alone", PRINTED_NO, PRINTED_NO.replace("no ", "")),
    ("11 is printed as 1", PRINTED_NO, "return b\"no 1\\n\""),
    ("a refusal is printed behind an empty report", PRINTED_NO,
     PRINTED_NO.replace("b\"no", "b\"1 0 0\\n2 0 0\\n3 0 0\\nall 0 0\\nbad 0\\nno")),
    ("the last line without its end", ENDS, "return \"\\n\".join(lines).encode()"),
    ("lines that end in two bytes", ENDS, ENDS.replace("\\n", "\\r\\n")),
    ("two spaces", PRINTED, PRINTED.replace("%d %d %d", "%d  %d %d")),
    ("carriers from 0", PRINTED, PRINTED.replace("(carrier, *", "(carrier - 1, *")),
    ("a line for carriers with reels alone", PRINTED, PRINTED.replace("table)]", "table) if counted[0]]")),
    ("seconds before reels", PRINTED, PRINTED.replace("*counted)", "*counted[::-1])")),
    ("the carriers' lines the other way round", PRINTED, PRINTED.replace("]", "][::-1]")),
    ("the totals exchanged in print", PRINTED_ALL, "lines.append(\"all %d %d\" % (answer[\"seconds\"], answer[\"reels\"]))"),
    ("the totals' line says \"All\"", PRINTED_ALL, PRINTED_ALL.replace("all", "All")),
    ("the totals' line has the seconds alone", PRINTED_ALL, "lines.append(\"all %d\" % answer[\"seconds\"])"),
    ("the totals with the bad ones in print", PRINTED_ALL,
     PRINTED_ALL.replace("answer[\"reels\"]", "answer[\"reels\"] + answer[\"bad\"]")),
    ("the totals' line first", PRINTED_ALL, PRINTED_ALL.replace("append(", "insert(0, ")),
    ("no totals' line", PRINTED_ALL, ""),
    ("the line of bad ones says the unused", PRINTED_BAD, "lines.append(\"bad %d\" % answer[\"unused\"])"),
    ("the line of bad ones first", PRINTED_BAD, PRINTED_BAD.replace("append(", "insert(0, ")),
    ("the line of bad ones before the totals", PRINTED_BAD, PRINTED_BAD.replace("append(", "insert(3, ")),
    ("no line of bad ones where there are none", PRINTED_BAD, "if answer[\"bad\"]:\n        " + PRINTED_BAD),
    ("a line of unused ones", PRINTED_BAD, PRINTED_BAD + "\n    lines.append(\"unused %d\" % answer[\"unused\"])"),
]

# File, its module, the tests that are run on copies of it, those that each must catch every fault alone, and
# the faults.
PLANTED = [("store.py", store, BY_STORE, [], STORE_FAULTS),
           ("store.py", store, BY_CEILING, [ceiling_cases], CEILING_FAULTS),
           ("store.py", store, BY_GROUP, [group_cases], GROUP_FAULTS),
           ("store.py", store, BY_SHORT, [short_cases], SHORT_FAULTS),
           ("store.py", store, BY_ORDER, [order_cases], ORDER_FAULTS),
           ("reelwalk.py", reelwalk, BY_WALK, [], WALK_FAULTS), ("reels.py", reels, BY_REELS, [], REEL_FAULTS),
           ("reels.py", reels, BY_REELS + [speed_cases], [speed_cases], SPEED_FAULTS),
           ("listening.py", listening, BY_LISTENING, [listening_cases], LISTENING_FAULTS),
           ("report.py", report, BY_REPORT, [report_cases], REPORT_FAULTS)]


def text_of(name):
    with open(os.path.join(HERE, name)) as file:
        return file.read()


def copied(text):
    """A file of the model with this text."""
    module = types.ModuleType("faulty")
    exec(compile(text, "faulty", "exec"), module.__dict__)
    return module


def faulty(name, old, new):
    """A copy of one file of the model with one place of its text exchanged."""
    text = text_of(name)
    same(text.count(old), 1, "places of %r" % old)
    return copied(text.replace(old, new))


def faulty_files(name, old, new):
    """Copies of the model's files above one another, with one place of one of them exchanged."""
    files = {}
    for module in FILES:
        file = module.__name__ + ".py"
        files[module] = faulty(name, old, new) if file == name else copied(text_of(file))
        for below in list(files)[:-1]:
            setattr(files[module], below.__name__, files[below])
    return files


def outcome(test, model):
    """(passed, remark) of one test."""
    try:
        return True, test(model) or ""
    except Exception as error:
        return False, "%s: %s" % (type(error).__name__, str(error)[:150])


def run_all():
    good = True
    for test, model in ALL:
        passed, remark = outcome(test, model)
        good = good and passed
        print("%-18s %s %s" % (test.__name__, "ok" if passed else "FAILED", remark), flush=True)
    print("all ok" if good else "FAILED")
    return good


def catching(tests, model):
    """The names of the tests that a model fails."""
    return [test.__name__ for test in tests if not outcome(test, model)[0]]


def run_faults():
    global SHARE
    SHARE, planted, missed = 0.3, 0, 0
    for file, model, tests, alone, faults in PLANTED:
        same(catching(tests, model), [], "no fault in " + file)
        for name, old, new in faults:
            caught = catching(tests, faulty(file, old, new))
            without = [test.__name__ for test in alone if test.__name__ not in caught]
            planted, missed = planted + 1, missed + (not caught or bool(without))
            print("%-62s %s%s" % (name, ", ".join(caught) or "NOT CAUGHT",
                                  "".join(", NOT BY " + test for test in without)), flush=True)
    for used in (ALL_USED, "[session for session in desk[\"order\"] if is_active(desk, session)]"):
        walk = faulty("store.py", IN_THE_WAY, by_walk(used))
        same(catching(BY_ORDER, walk), [], "no fault: a settle that reads the front run alone")
    by_reel = faulty("report.py", COUNTED_LINES, BY_REEL)
    same(catching(BY_REPORT, by_reel), [], "no fault: a report that updates one line for each reel")
    same(catching([older_cases, alone_cases], FILES), [], "no fault")
    for file, faults in ALONE:
        for name, old, new in faults:
            caught = catching([older_cases, alone_cases], faulty_files(file, old, new))
            planted, missed = planted + 1, missed + (caught != ["alone_cases"])
            print("%-62s %s%s" % (name, ", ".join(caught) or "NOT CAUGHT",
                                  ": NOT ONLY BY THE NEW CASES" if "older_cases" in caught else ""), flush=True)
    print("%d faults, %d not caught" % (planted, missed))
    return missed == 0


if __name__ == "__main__":
    passed = run_faults() if sys.argv[1:] == ["faults"] else run_all()
    sys.exit(0 if passed else 1)
