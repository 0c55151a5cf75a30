"""Raw cases with one cause alone, and bounds met exactly: what no case of the
other files has by itself, in the call where it is asked.

    python3 rawalone.py in SEED COUNT > cases       inputs of COUNT cases
    python3 rawalone.py packed SEED COUNT > cases   the same, packed
    python3 rawalone.py want SEED COUNT > lines     what they must give
    python3 rawalone.py count SEED COUNT            cases by call and answer
    python3 rawalone.py show SEED CASE              one case in full, as text
    python3 rawalone.py why                         what each case is for

The format is that of raw.py, described there. Nothing is drawn: a case depends
on its own number (from 0) alone. Stored, the cases stand behind the group
cases; the numbers in their lines go on from there.
"""

import itertools
import sys

import raw
import rawgroup
import store
from raw import TOP
from store import L

FIRST = rawgroup.FIRST + len(rawgroup.TURNS)  # number of the first of these cases in the lines
HIGH = 2 ** 63  # added to a good number it leaves all lower bits as they were
BEGIN, READ, FINISH, FIND = raw.LISTENING_CALLS
READ_REEL, WRITE_REEL = raw.REEL_CALLS[2:4]


# ---- a plain scene -------------------------------------------------------
# In it each call is accepted; a case alters one thing of it.

N, M, CLOCK, WORD_3 = 8, 4, 9, 20
HOLDER, CALLER, OTHER = 0, 1, 2
COPYING = ("active", 7, [2], 1)  # phase, number, records, slot
CALLERS = {"read": ("active", 7), FINISH: ("active", 7), "write": COPYING, "finish": COPYING, "abandon": COPYING,
           "publish": ("sealed", 6, [2], 1), "settle": ("published", 6, [2], 1)}  # the rest are idle
GOOD = {"idle": 0, "active": 2, "sealed": 2, "published": 3}  # a number for the other session
FOUR, REEL = [4, 5, 6, 7], [5, 1, 3, 3600]


def sit(desk, session, phase, number=0, records=(), slot=0):
    """Puts the session into this phase, with copies of these records, marked for it. The order follows."""
    desk["marks"] = [None if mark == session else mark for mark in desk["marks"]]
    copies = [[record, [record % 99 + i for i in range(1, 5)]] for record in records]
    desk["sessions"][session] = store.entry(phase, number, copies, slot)
    for record in records:
        desk["marks"][record] = session
    raw.listed(desk)


def log(number, records, count=None):
    """The 22 words of a slot with these records, and this count if it is another."""
    words = [number, len(records) if count is None else count]
    for record in records:
        words += [record] + [record % 99 + i for i in range(11, 15)]
    return words + [0] * (22 - len(words))


def image_of(n, m, logs, word_3=0):
    """An image with these logs by place, all else empty."""
    slots = [logs.get(place, [0] * 22) for place in range(2 * m)]
    return [1, n, m, word_3] + [21 + at % 99 for at in range(4 * n)] + [word for slot in slots for word in slot]


def desk_of(call, n, m, caller):
    """The caller as the call needs it; a published session and a sealed one where there is room for them."""
    desk = store.new_desk(CLOCK, n, m)
    if m >= M and n >= N:
        sit(desk, HOLDER, "published", 5, [0])
        sit(desk, OTHER, "sealed", 4, [4], 1)
    sit(desk, caller, *CALLERS.get(call) or CALLERS.get(raw.like(call)) or ["idle"])
    return desk


def plain(call, n=N, m=M, caller=CALLER):
    """The call with nothing wrong; record 3 is a reel that nobody holds."""
    like, case = raw.like(call), raw.blank(call)
    case["desk"] = desk_of(call, n, m, caller)
    case["session"] = 2 ** caller if call == raw.GROUP_CALL else caller
    if like in raw.WITH_IMAGE:
        case["image"] = image_of(n, m, {2 * caller: log(1, [0])} if call == "reclaim" else {}, WORD_3)
        case["image"][store.home_at(3):store.home_at(4)] = REEL
    if like in raw.WITH_TRACE:
        case["trace"] = 48
    if like in raw.WITH_RECORD and call != FIND:
        case["record"] = 3
    if like == "write":
        case["words"] = list(REEL)
    if call == FIND:
        case["words"] = [REEL[0], 0, 0, 0]
    return case


def seated(case, session, *seat):
    """The case with this session so."""
    sit(case["desk"], session, *seat)
    return case


def with_word(case, index, word):
    """The case with this word in its image."""
    case["image"][index] = word
    return case


def put(items, at, item):
    """The list with another item at this place."""
    return items[:at] + [item] + items[at + 1:]


# ---- logs ----------------------------------------------------------------
# What makes cases yields, for each, what it is for, the answer, its value and the case.

def recovers(n, m, logs, trace=48):
    return dict(raw.blank("recover"), image=image_of(n, m, logs), trace=trace)


def unsound():
    """12 by one thing in one log."""
    for count in (5, 0, HIGH + 1):
        yield "count %d, four sound records" % count, 12, 0, recovers(4, 1, {0: log(1, [0, 1, 2, 3], count)})
    for at in range(4):
        yield "record N at place %d of 4" % at, 12, 1, recovers(N, 1, {1: log(1, put(FOUR, at, N))})
    yield "record 256 where N is 256", 12, 0, recovers(256, 1, {0: log(1, [256])})
    yield "record 2^63 + 1", 12, 0, recovers(N, 1, {0: log(1, [HIGH + 1])})
    for one, other in itertools.combinations(range(4), 2):
        yield "the same record at places %d and %d" % (one, other), 12, 0, recovers(
            N, 1, {0: log(1, put(FOUR, other, FOUR[one]))})
    yield "the third log, the largest number", 12, 5, recovers(N, 3, {0: log(5, [1]), 2: log(6, [1]), 5: log(7, [1, 1])})
    yield "12 with 13 of two others, both below it", 12, 5, recovers(
        N, 3, {0: log(5, [1]), 1: log(5, [1]), 5: log(7, [N])})


SLOTS = [(0, 1, 1), (0, 2, 2), (1, 2, 2), (0, 31, 16), (10, 11, 16), (14, 15, 16), (15, 16, 16), (16, 17, 16),
         (18, 19, 16), (21, 22, 16), (23, 25, 16), (26, 27, 16), (29, 30, 16), (30, 31, 16)]  # two places, and M


def at_odds():
    """13 by one record, at each place of one log and of the other; and which two of three logs."""
    spots = [spot for spot in itertools.product(range(4), repeat=2) if spot not in ((0, 0), (2, 0))]  # these two are there
    for (i, j), (a, b, m) in zip(spots, SLOTS):
        yield "in common: place %d of log %d, place %d of log %d" % (i, a, j, b), 13, 0, recovers(
            N, m, {a: log(3, [0, 1, 2, 3]), b: log(3, put(FOUR, j, i))})
    for numbers in ((1, 3, 3), (5, 5, 1)):
        yield "three logs with the numbers %d %d %d" % numbers, 13, 0, recovers(
            N, 3, dict(zip((0, 3, 5), (log(number, [1]) for number in numbers))))


def tried():
    """3 at 47 words whatever else holds, and a number that is large and not 0."""
    yield "47 words, all slots empty", 3, 0, recovers(4, 1, {}, 47)
    yield "47 words, and 12", 3, 0, recovers(4, 1, {0: log(1, [4])}, 47)
    yield "47 words, and 13", 3, 0, recovers(4, 1, {0: log(1, [0]), 1: log(1, [0])}, 47)
    yield "2^63 is below 2^64 - 1, and no empty slot", "replayed", HIGH, recovers(N, 1, {0: log(TOP, [0]), 1: log(HIGH, [1])})


# ---- header --------------------------------------------------------------

def imaged(call):
    """A call with nothing wrong, recover and open too."""
    if call in ("open", "recover"):
        return dict(raw.blank(call), image=image_of(N, M, {}), trace=48)
    return plain(call)


def headed(call, at, word):
    """The call with this in a header word."""
    return with_word(imaged(call), at, word)


def short(call):
    """The call with a word too few in the image."""
    return dict(imaged(call), image=imaged(call)["image"][:-1])


def sized(call, n, m):
    """The call with this N and M in the header and just the length that they give."""
    return dict(imaged(call), image=[1, n, m, WORD_3] + [0] * (4 * n + 44 * m))


def headers():
    """1 by one part of the header, or by the length."""
    for call in (READ_REEL, READ):
        yield "a word too few", 1, 0, short(call)
    yield "a word too many", 1, 0, dict(plain(READ_REEL), image=plain(READ_REEL)["image"] + [0])
    for call in ("recover", "finish", READ_REEL, FINISH, FIND):
        yield "word 0 is 2^63 + 1", 1, 0, headed(call, 0, HIGH + 1)
    yield "N is 2^63 too high, which 4N doesn't show", 1, 0, headed("open", 1, HIGH + N)
    yield "M is 2^63 too high, which 44M doesn't show", 1, 0, headed("read", 2, HIGH + M)
    for call in ("recover", READ_REEL, FINISH):
        yield "N is 257, the length right", 1, 0, sized(call, 257, 1)
    for call in ("recover", "finish", WRITE_REEL):
        yield "M is 17, the length right", 1, 0, sized(call, 1, 17)
    yield "N is 0, the length right", 1, 0, sized("recover", 0, 1)


def orders():
    """Two causes at once that no other case has together: the first wins."""
    for logs, later in (({0: log(1, [N])}, 12), ({0: log(1, [1]), 1: log(1, [1])}, 13)):
        yield "word 0 is 2, and %d" % later, 1, 0, with_word(recovers(N, 1, logs), 0, 2)
    case = seated(short("write"), CALLER, "active", 7)
    for slot in (0, 1):
        case = with_word(case, store.slot_at(N, 2 * CALLER + slot), 1)
    yield "a word too few, and 9", 1, 0, case
    for call in (WRITE_REEL, FIND):
        yield "a word too few, and 4", 1, 0, dict(short(call), session=M)
    case = seated(plain(BEGIN), CALLER, "active", 7)
    case["desk"]["sessions"][OTHER]["slot"] = 2
    yield "slot 2, and 6", 2, 0, case


def lays():
    """14 by one of N and M, the room right."""
    for n, m in ((0, 1), (257, 1), (1, 0), (1, 17), (HIGH + 1, 1), (1, HIGH + 1)):
        yield "N %d, M %d" % (n, m), 14, 0, dict(
            raw.blank("lay"), N=n, M=m, image=[7] * ((4 + 4 * n + 44 * m) % 2 ** 64))


# ---- trace, session, record, phase ---------------------------------------

def traces():
    """3 at 47 words: alone, and before each cause that comes after it."""
    alone = dict(plain(FINISH, 1, 1, 0), trace=47)
    yield "47 words in the smallest image, one copy", 3, 0, seated(alone, 0, "active", 7, [0])
    yield "47 words, and 18: four copies", 3, 0, dict(seated(plain(FINISH), CALLER, "active", 7, [1, 2, 3, 5]), trace=47)
    yield "47 words, and 6: idle", 3, 0, dict(seated(plain(FINISH), CALLER, "idle"), trace=47)
    yield "47 words, and 6: sealed", 3, 0, dict(seated(plain(FINISH), CALLER, "sealed", 6, [2]), trace=47)
    for call in (FINISH, "finish", "settle"):
        yield "47 words, and 4", 3, 0, dict(plain(call), trace=47, session=M)
    yield "47 words, and a clock above word 3", 2, 0, dict(with_word(plain(FINISH), 3, CLOCK - 1), trace=47)
    yield "47 words alone", 3, 0, dict(plain("settle"), trace=47)
    case = with_word(dict(plain("finish"), trace=47), 3, L)
    case["desk"]["clock"] = L
    yield "47 words, and 10", 3, 0, case


def limits():
    """4 and 5 at their bounds."""
    for call in (READ, FINISH, FIND):
        yield "session M", 4, 0, dict(plain(call), session=M)
    for call in (WRITE_REEL, FIND):
        yield "session 16 where M is 16", 4, 0, dict(plain(call, m=16, caller=15), session=16)
    for call in ("write", READ_REEL, WRITE_REEL):
        yield "record N", 5, 0, dict(plain(call), record=N)


def holders():
    """7 to 9: each holder, each place, and what a slot has that is not empty."""
    for call in ("write", WRITE_REEL):
        yield "the holder is sealed", 7, OTHER, seated(plain(call), OTHER, "sealed", 4, [3], 1)
        yield "the holder's end is above the start", 7, OTHER, seated(plain(call), OTHER, "published", 8, [3], 1)
    yield "the holder's end is at the start", 7, OTHER, seated(plain(WRITE_REEL), OTHER, "published", 7, [3], 1)
    yield "a fourth record", "ok", 0, seated(plain(WRITE_REEL), CALLER, "active", 7, [1, 2, 5], 1)
    for place in (2, 3):
        yield "own copy at place %d" % place, "ok", 0, seated(
            plain(WRITE_REEL), CALLER, "active", 7, put([1, 2, 5, 6], place, 3), 1)
    for slots, answer in (((HIGH, 0), "ok"), ((HIGH, HIGH), 9), ((1, 1), 9)):
        case = seated(plain("write"), CALLER, "active", 7)
        for slot, number in enumerate(slots):
            case = with_word(case, store.slot_at(N, 2 * CALLER + slot), number)
        yield "first write, numbers %d and %d over counts of 0" % slots, answer, 0, case


def reclaims():
    """Numbers of 2^63 and up, and a smaller number far behind."""
    def slots(m, logs, *seat):
        logs = {place: log(number, [1]) for place, number in logs.items()}
        return seated(dict(plain("reclaim", m=m), image=image_of(N, m, logs, WORD_3)), CALLER, *seat or ["idle"])
    yield "2^63, and 1 elsewhere", "held", 1, slots(M, {3: HIGH, 7: 1})
    yield "held by the slot that is left out, 2^63 below 2^64 - 1", "held", HIGH, slots(
        M, {2: HIGH, 3: TOP}, "sealed", 6, [2], 0)
    yield "held by the last place of all", "held", 2, slots(16, {2: 3, 31: 2})


# ---- coherence -----------------------------------------------------------

def other(phase, records=(4,), **fields):
    """The other session in this phase, with these fields of its entry."""
    def alter(desk):
        sit(desk, OTHER, phase, GOOD[phase], records)
        desk["sessions"][OTHER].update(fields)
    return alter


def copying(record, at=0, count=1):
    """The other session with a record in one of its copies that no mark can be for."""
    def alter(desk):
        sit(desk, OTHER, "sealed", 4, FOUR[:count])
        desk["marks"][FOUR[at]] = None
        desk["sessions"][OTHER]["places"][at][0] = record
    return alter


def twice(desk):
    """The last session of sixteen with a record at places 0 and 2."""
    sit(desk, 15, "sealed", 4, [5, 6, 7])
    desk["marks"][7] = None
    desk["sessions"][15]["places"][2][0] = 5


def unused(place, word, session=OTHER):
    """An idle session with a word in a copy place; word 0 is the record, words 1 to 4 are its words."""
    def alter(desk):
        sit(desk, session, "idle")
        at = desk["sessions"][session]["places"][place]
        at[1 if word else 0] = put(at[1], word - 1, 1) if word else 1
    return alter


def seat(session, *how):
    return lambda desk: sit(desk, session, *how)


def slot_of(session):
    return lambda desk: desk["sessions"][session].update(slot=1)


def marked(record, session):
    def alter(desk):
        desk["marks"][record] = session
    return alter


def both(session):
    """Two sessions copy record 4, which is marked for this one."""
    def alter(desk):
        sit(desk, 3, "active", 3, [4])
        desk["marks"][4] = session
    return alter


def late(desk):
    """With its sealed sessions counted the clock is one too high, and by itself it is not."""
    desk["clock"] = L + 17 - sum(e["phase"] == "sealed" for e in desk["sessions"])


# What is broken, how, and in which calls: N, M, the other session, one past M, the marks.
BREAKS = [
    ("clock and sealed sessions at L + 17", late, ["abandon", "finish", READ_REEL, WRITE_REEL, BEGIN, READ, FIND]),
    ("active with a count of 5", other("active", FOUR, count=5), [READ]),
    ("sealed with a count of 5", other("sealed", FOUR, count=5), [FINISH]),
    ("published with a count of 5", other("published", FOUR, count=5), [WRITE_REEL]),
    ("a count of 2^63 + 4", other("active", FOUR, count=HIGH + 4), [READ_REEL]),
    ("a start of 2^63 + 2", other("active", number=HIGH + 2), [READ]),
    ("a persist number of 2^63 + 2", other("sealed", number=HIGH + 2), [WRITE_REEL]),
    ("an end of 2^63 + 3", other("published", number=HIGH + 3), [FINISH]),
    ("an end of 1", other("published", number=1), [READ_REEL, BEGIN]),
    ("a start one above the clock", other("active", number=CLOCK + 1), [WRITE_REEL, BEGIN]),
    ("active with slot 1 and no copies", other("active", [], slot=1), [raw.GROUP_CALL]),
    ("slot 2^63 with a copy", other("active", slot=HIGH), ["finish", FINISH]),
    ("slot 2^63 + 1 with a copy", other("published", slot=HIGH + 1), ["abandon", BEGIN]),
    ("a record of 2^63 + 4", copying(HIGH + 4), [READ_REEL]),
    ("a record of 2^63 + 4 at the last place", copying(HIGH + 4, 3, 4), [BEGIN]),
    ("idle past M with a copy", seat(M, "idle", 0, [5]), [BEGIN]),
    ("idle at 15 with a copy", seat(15, "idle", 0, [5]), [WRITE_REEL]),
    ("idle past M with slot 1", slot_of(M), ["begin", READ]),
    ("idle at 15 with slot 1", slot_of(15), [FINISH]),
    ("idle past M with a record", unused(0, 0, M), [BEGIN]),
    ("unused place 0, last word", unused(0, 4), [FINISH]),
    ("unused place 2, word 1", unused(2, 2), [WRITE_REEL]),
    ("unused place 3, word 1", unused(3, 2), [READ]),
    ("active past M", seat(M, "active", 3), [READ_REEL, BEGIN]),
    ("two copiers, marked for the lower", both(OTHER), [WRITE_REEL]),
    ("two copiers, marked for the higher", both(3), [BEGIN]),
]
LARGE = [("a copy of record 256 where N is 256", copying(256), [READ, FINISH]),
         ("mark 255 to spare where N is 256", marked(255, HOLDER), ["read"]),
         ("a record twice in session 15", twice, ["write"])]


def broken():
    """2 by one thing in the desk, or by N, M and the desk's."""
    for breaks, n, m in ((BREAKS, N, M), (LARGE, 256, 16)):
        for why, alter, calls in breaks:
            for call in calls:
                case = plain(call, n, m)
                alter(case["desk"])
                raw.listed(case["desk"])
                if case["image"]:
                    case["image"][3] = max(case["desk"]["clock"], WORD_3)
                yield why, 2, 0, case
    for call, size, number in ((READ_REEL, "N", N - 1), (WRITE_REEL, "N", N - 1), (FINISH, "M", M + 1)):
        case = plain(call)
        case["desk"][size] = number
        yield "%s not the header's" % size, 2, 0, case


# ---- numbers of a reel ---------------------------------------------------

def numbers():
    """15 and 16 by one number that is good but for its highest bit."""
    disc, cassette = [5, 3, 0, 60], [5, 2, 1, 60]
    for call, at, reel in (("pack", 0, REEL), ("pack", 1, REEL), ("pack", 1, disc), ("pack", 2, cassette),
                           ("unpack", 1, disc), ("unpack", 2, cassette)):
        words = put(reel, at, HIGH + reel[at])
        yield "%d as word %d" % (words[at], at), 16 if at else 15, 0, dict(raw.blank(call), words=words)
    yield "shelf number 2^63 + 5", 15, 0, dict(plain(FIND), words=[HIGH + 5, 0, 0, 0])


# ---- cases by aim --------------------------------------------------------

MAKERS = [unsound, at_odds, tried, headers, orders, lays, traces, limits, holders, reclaims, broken, numbers]
# What each case is for, its answer and value, and the case.
TURNS = [turn for maker in MAKERS for turn in maker()]


def make(seed, number):
    """The case with this number, whatever the seed, and what it is aimed at: call, answer and value."""
    _, answer, value, case = TURNS[number % len(TURNS)]
    return case, (case["call"], answer, value)


if __name__ == "__main__":
    if sys.argv[1:] == ["why"]:
        for at, (why, answer, value, case) in enumerate(TURNS, FIRST):
            print("%d %-16s %8s %s" % (at, case["call"], answer, why))
    else:
        raw.main(sys.argv[1:], make, __doc__, FIRST)
