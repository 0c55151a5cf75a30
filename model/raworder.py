"""Raw cases of the order in which active sessions began (document 02, Req 09):
one call each, and what it must answer and leave.

    python3 raworder.py in SEED COUNT > cases       inputs of COUNT cases
    python3 raworder.py packed SEED COUNT > cases   the same, packed
    python3 raworder.py want SEED COUNT > lines     what they must give
    python3 raworder.py count SEED COUNT            cases by call and answer
    python3 raworder.py show SEED CASE              one case in full, as text
    python3 raworder.py why                         what each case is for

The format is that of raw.py, described there. Nothing is drawn: a case depends
on its own number (from 0) alone. Stored, the cases stand behind those of short
logs; the numbers in their lines go on from there.
"""

import itertools
import sys

import raw
import rawalone
import rawshort
import store
from rawalone import BEGIN, FIND, FINISH, READ, READ_REEL, REEL, WRITE_REEL, put, sit
from store import L

FIRST = rawshort.FIRST + len(rawshort.TURNS)  # number of the first of these cases in the lines
GROUP = raw.GROUP_CALL
N, M, CLOCK, WORD_3 = 20, 16, 9, 20
RECORD = 3  # a reel that nobody holds, in all cases but where a write is to be refused
CALLS = [*raw.WITH_DESK, READ_REEL, WRITE_REEL, *raw.LISTENING_CALLS, GROUP]  # those that take a desk
ALL = range(16)


# ---- scenes --------------------------------------------------------------
# A queue is the active sessions as they began: session, start, and for some their records and slot.

def places(sessions):
    """Sixteen places with these sessions in front."""
    return [*sessions, *[0] * (16 - len(sessions))]


def queue_of(sessions, *starts):
    """These sessions with these starts; the last start goes for the rest."""
    return [(session, starts[min(at, len(starts) - 1)]) for at, session in enumerate(sessions)]


def desk_of(queue, seats, order, m, clock):
    """Active sessions as they began, others in these seats, and an order that may be another."""
    desk = store.new_desk(clock, N, m)
    for session, *seat in queue:
        sit(desk, session, "active", *seat)
    for session, seat in dict(seats).items():
        sit(desk, session, *seat)
    desk["order"] = places([session for session, *_ in queue] if order is None else order)
    return desk


def scene(call, caller, queue, seats=(), order=None, m=M, clock=CLOCK, logs=(), **fields):
    """A call by this session, with these fields if they are others."""
    like, case = raw.like(call), raw.blank(call)
    case["desk"] = desk_of(queue, seats, order, m, clock)
    case["session"] = 2 ** caller if call == GROUP else caller
    if like in raw.WITH_IMAGE:
        case["image"] = rawalone.image_of(N, m, dict(logs), max(WORD_3, clock))
        case["image"][store.home_at(RECORD):store.home_at(RECORD + 1)] = REEL
    if like in raw.WITH_TRACE:
        case["trace"] = 48
    if like in raw.WITH_RECORD and call != FIND:
        case["record"] = RECORD
    if like == "write":
        case["words"] = list(REEL)
    if call == FIND:
        case["words"] = [REEL[0], 0, 0, 0]
    return dict(case, **fields)


def holding(queue, session, *records):
    """The queue with these records copied by one of it."""
    return [(other, start, [*records], 1) if other == session else (other, start) for other, start in queue]


# Four active sessions, session 0 among them, or not; a sealed one and a published one that nobody is in the way of.
QUEUE, NO_0 = queue_of([5, 0, 9, 2], 2, 3, 3, 6), queue_of([5, 4, 9, 2], 2, 3, 3, 6)
EQUAL = queue_of([5, 0, 9, 2], 3)
SEALED, PUBLISHED = ("sealed", 4, [11], 1), ("published", 2, [6, 8])
SEATS = {11: SEALED, 6: PUBLISHED}
CALLER = {"begin": 7, "publish": 11, "settle": 6, "reclaim": 7}  # by what is like the call; the rest are by session 9
# What each call answers where all is right, and its value.
RIGHT = {"begin": ("start", CLOCK), "read": ("home", 0), "write": ("ok", 0), "finish": ("empty", 0),
         "abandon": ("ok", 0), "publish": ("end", CLOCK + 1), "settle": ("ok", 0), "reclaim": ("none", 0),
         READ_REEL: ("reel", "home"), FIND: ("found", RECORD)}


def among(call, order=None, queue=QUEUE, **fields):
    """The call by the session that it suits, with these four active."""
    return scene(call, CALLER.get(raw.like(call), 9), queue, SEATS, order, **fields)


# ---- the order broken ----------------------------------------------------
# What makes cases yields, for each, what it is for, the answer, its value, the order afterwards and the case.

def refused(why, number, case, value=0):
    return why, number, value, case["desk"]["order"], case


def right():
    """Each call with nothing wrong: what the broken ones below are to be held against."""
    left = {"begin": [5, 0, 9, 2, 7], "finish": [5, 0, 2], "abandon": [5, 0, 2]}
    for call in CALLS:
        answer, value = RIGHT.get(call) or RIGHT[raw.like(call)]
        yield "nothing wrong", answer, value, places(left.get(raw.like(call), [5, 0, 9, 2])), among(call)


# Of QUEUE: one thing wrong with the order.
IN_EACH_CALL = [("an idle session in the last place in use", [5, 0, 9, 13]), ("a session in two places", [5, 0, 9, 9]),
                ("starts that fall in the last place", [5, 0, 2, 9]),
                ("a number in the first place not in use", [5, 0, 9, 2, 13])]


def in_each_call():
    """2 by each part of the rule."""
    for (why, order), call in itertools.product(IN_EACH_CALL, CALLS):
        yield refused(why, 2, among(call, order))


def in_turn(rows):
    """2 for each of these: what it is, the order and the queue; each in the next call that it suits."""
    for (why, order, queue), call in zip(rows, itertools.cycle(CALLS)):
        caller = CALLER.get(raw.like(call), 9)
        active = [session for session, *_ in queue]
        seats = {session: seat for session, seat in SEATS.items() if session not in active}
        clock = max(CLOCK, *(start for _, start in queue)) if queue else CLOCK
        yield refused(why, 2, scene(call, caller, queue, seats, order, clock=clock))


def not_active():
    """One that is missing, and what stands in its place."""
    for at in range(3):
        yield "an idle session in place %d" % at, put([5, 0, 9, 2], at, 13), QUEUE
    for at in (0, 3):
        yield "a sealed session in place %d" % at, put([5, 0, 9, 2], at, 11), QUEUE
        yield "a published session in place %d" % at, put([5, 0, 9, 2], at, 6), QUEUE
    for number, at in ((16, 0), (16, 1), (16, 3), (17, 3), (255, 0), (255, 2), (128 + 5, 0), (16 + 5, 0), (240 + 9, 2)):
        yield "%d in place %d" % (number, at), put([5, 0, 9, 2], at, number), QUEUE
    for at in range(4):
        yield "0 in place %d, session 0 idle" % at, put([5, 4, 9, 2], at, 0), NO_0
    yield "the first missing, the rest moved up, session 0 idle", [4, 9, 2], NO_0
    yield "the first missing, the rest moved up", [0, 9, 2], QUEUE
    yield "the middle one missing, the rest moved up", [5, 4, 2], NO_0
    yield "all missing, session 0 idle", [], NO_0
    yield "all missing", [], EQUAL
    yield "each place one too far", [0, 5, 4, 9, 2], NO_0
    for session in (3, 15):
        yield "only session %d is active, and the list is empty" % session, [], [(session, 2)]
    for number in (2, 16 + 3, 255):
        yield "only session 3 is active, and %d is listed" % number, [number], [(3, 2)]
    for number in (1, 16):
        yield "only session 0 is active, and %d is listed" % number, [number], [(0, 2)]
    yield "only session 3 is active, and stands in place 1", [0, 3], [(3, 2)]
    yield "only session 15 is active, and stands in place 15", [0] * 15 + [15], [(15, 2)]
    for at in (0, 1, 4, 7, 8, 11, 13, 14):
        yield "fifteen active, the idle one in place %d" % at, put([*range(15)], at, 15), queue_of(range(15), 4)
    yield "fifteen active, all but session 0, and 0 in the first place", [0, *range(2, 16)], queue_of(range(1, 16), 4)
    yield "fifteen active, and 15 listed behind 0 to 14 one place on", [0, *range(15)], queue_of(range(1, 16), 4)
    for number, at in ((16, 15), (255, 0), (16 + 7, 7), (128, 8)):
        yield "sixteen active, and %d in place %d" % (number, at), put([*ALL], at, number), queue_of(ALL, 4)


def twice():
    """A session in two places, so that another is missing."""
    for order in ([5, 5, 9, 2], [5, 0, 5, 2], [5, 0, 9, 5], [0, 0, 9, 2], [5, 0, 9, 0], [5, 2, 9, 2], [2, 2, 2, 2]):
        yield "the order is %s" % order, order, EQUAL
    yield "0 and 3 are active, and the list is empty", [], queue_of([0, 3], 2)
    yield "0 and 3 are active, and the list is 3, 3", [3, 3], queue_of([0, 3], 2)
    for at in (0, 1, 4, 7, 8, 11, 13, 14):
        yield "sixteen active, one in places %d and %d" % (at, at + 1), put([*ALL], at + 1, at), queue_of(ALL, 4)
    for one, other in ((0, 15), (0, 2), (3, 9), (14, 1)):
        yield "sixteen active, one in places %d and %d" % (one, other), put([*ALL], other, one), queue_of(ALL, 4)
    yield "sixteen active, and the list is empty", [], queue_of(ALL, 4)


def exchanged(order, one, other):
    order = list(order)
    order[one], order[other] = order[other], order[one]
    return order


def falling():
    """Starts that fall along the list."""
    for one, other in ((0, 1), (1, 3), (0, 3), (0, 2)):
        yield "places %d and %d exchanged" % (one, other), exchanged([5, 0, 9, 2], one, other), QUEUE
    for at in range(15):
        yield "sixteen active, places %d and %d exchanged" % (at, at + 1), exchanged(ALL, at, at + 1), queue_of(
            ALL, *range(1, 17))
    yield "sixteen active, the first and the last exchanged", exchanged(ALL, 0, 15), queue_of(ALL, *range(1, 17))
    yield "sixteen active, by session, starts that fall", [*ALL], queue_of(ALL, *range(16, 0, -1))
    for one, other, session in ((3, 2, 0), (3, 2, 8), (2 ** 32 + 1, 2, 8), (2 ** 32, 1, 0), (L, L - 1, 8),
                                (L - 1, 2 ** 32 - 1, 0)):
        yield "start %d before %d" % (one, other), [session, 5], [(session, one), (5, other)]


def to_spare():
    """A number in a place that is not in use."""
    for number in (5, 2, 7, 11, 6, 16, 255):
        yield "%d in the first place not in use" % number, [5, 0, 9, 2, number], QUEUE
    for at in (5, 14, 15):
        yield "3 in place %d, four active" % at, put(places([5, 0, 9, 2]), at, 3), QUEUE
    for at in ALL:
        yield "nobody active, and 1 in place %d" % at, put(places([]), at, 1), []
    for number, at in ((16, 0), (255, 0), (255, 15), (16, 15)):
        yield "nobody active, and %d in place %d" % (number, at), put(places([]), at, number), []
    for idle in (15, 8, 1):
        others = [session for session in ALL if session != idle]
        yield "fifteen active, and the idle one, %d, in place 15" % idle, others + [idle], queue_of(others, 4)
    yield "only session 0 is active, and 1 in place 1", [0, 1], [(0, 2)]
    yield "only session 0 is active, and 15 in place 15", [0] * 15 + [15], [(0, 2)]


def broken():
    """2 by the order alone."""
    for rows in (not_active(), twice(), falling(), to_spare()):
        yield from in_turn(rows)


# ---- what comes before 2 and after it ------------------------------------

BROKEN = [5, 0, 9, 13]  # of QUEUE


def first_checks():
    """1 comes before 2, and 15 to 17 before both; all others come after it."""
    for call in ("read", "finish", "publish", WRITE_REEL, FIND, GROUP):
        case = among(call, BROKEN)
        yield refused("a word too few, and the order", 1, dict(case, image=case["image"][:-1]))
    yield refused("word 0 is 2, and the order", 1, rawalone.with_word(among(READ, BROKEN), 0, 2))
    yield refused("M is 17, and the order", 1, rawalone.with_word(among("settle", BROKEN), 2, 17))
    for number, words in ((15, [0, 1, 3, 60]), (16, [5, 1, 0, 60]), (17, [5, 1, 3, 360000])):
        yield refused("%d, and the order" % number, number, among(WRITE_REEL, BROKEN, words=words))
    yield refused("15, and the order", 15, among(FIND, BROKEN, words=[0] * 4))
    for call in ("finish", "publish", "settle", "reclaim", FINISH, GROUP):
        yield refused("47 words of room, and the order", 2, among(call, BROKEN, trace=47))
    for call in ("begin", "write", "reclaim", "abandon", FIND):
        yield refused("session M, and the order", 2, among(call, BROKEN, session=M))
    yield refused("a member at M, and the order", 2, among(GROUP, BROKEN, session=2 ** 11 + 2 ** 12, m=12))
    for call in ("read", "write", READ_REEL):
        yield refused("record N, and the order", 2, among(call, BROKEN, record=N))
    for call, session in (("begin", 6), ("write", 7), ("finish", 11), ("settle", 9), ("abandon", 7), (BEGIN, 2),
                          (READ, 6)):
        yield refused("another phase, and the order", 2, among(call, BROKEN, session=session))
    yield refused("a member not sealed, and the order", 2, among(GROUP, BROKEN, session=2 ** 11 + 2 ** 6))
    yield refused("an empty set, and the order", 2, among(GROUP, BROKEN, session=0))
    yield refused("a record that another holds, and the order", 2, among("write", BROKEN, record=11))
    four = holding(QUEUE, 9, 14, 15, 16, 17)
    yield refused("a fifth record, and the order", 2, among("write", BROKEN, four))
    logs = {2 * 9: rawalone.log(1, [0]), 2 * 9 + 1: rawalone.log(2, [1])}
    yield refused("both slots occupied, and the order", 2, among("write", BROKEN, logs=logs))
    yield refused("the clock is L, and the order", 2, among("finish", BROKEN, four, clock=L))
    for call in (READ, FINISH, FIND):
        yield refused("copies, and the order", 2, among(call, BROKEN, four))


# ---- what the calls leave ------------------------------------------------

def begins():
    """The session is last in the list, whatever its number and the starts."""
    def case(why, session, queue, call="begin", **fields):
        listed = [other for other, *_ in queue]
        clock = fields.get("clock", CLOCK)
        return why, "start", clock, places(listed + [session]), scene(call, session, queue, **fields)
    for session in (0, 1, 15):
        others = [other for other in (8, 3, 12, 0, 15, 1, 2, 4, 5, 6, 7, 9, 10, 11, 13, 14) if other != session]
        for count in (0, 1, 15):
            yield case("session %d, %d active" % (session, count), session, queue_of(others[:count], 2, 2, 5))
        yield case("session %d, all have this start" % session, session, queue_of(others, CLOCK))
        yield case("a listener, session %d" % session, session, queue_of(others[:3], 2), BEGIN)
    yield case("session 0 active and first, then 0 in the other places", 1, [(0, 2)])
    yield case("the only session of one", 0, [], m=1, clock=1)
    yield case("session 2 of three, the others active", 2, [(1, 1), (0, 1)], m=3, clock=1)
    yield case("sealed and published ones are not listed", 4, [(9, 2)], BEGIN, seats=SEATS)
    yield case("the clock is L + 15", 5, [(9, L), (2, L + 15)], clock=L + 15)
    for call, session, number in (("begin", 9, 6), ("begin", 11, 6), ("begin", 16, 4), (BEGIN, 6, 6), (BEGIN, 17, 4)):
        yield refused("refused, session %d" % session, number, scene(call, session, QUEUE, SEATS))


# Lists, and the places in them of those that go.
LISTS = [([0], [0]), ([3], [0]), ([5, 0, 9, 2], [0, 1, 2, 3]), ([0, 3, 15], [0]), ([15, 4, 0], [2]), ([*ALL], [0, 15]),
         ([7, *range(8, 16), *range(1, 7), 0], [8, 15])]


def turned_away(call, session, queue):
    """A write of a record that another session holds: one that is sealed, or active where all sixteen are."""
    listed = [other for other, _ in queue]
    holder = next(other for other in [*ALL, *listed] if other != session and (other not in listed or len(queue) == 16))
    if holder in listed:
        return 7, holder, scene(call, session, holding(queue, holder, RECORD))
    return 7, holder, scene(call, session, queue, {holder: ("sealed", 4, [RECORD], 1)})


# How an active session ends: answer, value and case.
WAYS_OUT = {"abandon": lambda session, queue: ("ok", 0, scene("abandon", session, holding(queue, session, 4))),
            "empty": lambda session, queue: ("empty", 0, scene("finish", session, queue)),
            "sealed": lambda session, queue: ("sealed", CLOCK, scene("finish", session, holding(queue, session, 4, 6))),
            "refused with 7": lambda session, queue: turned_away("write", session, queue),
            "a listener": lambda session, queue: ("empty", 0, scene(FINISH, session, queue)),
            "a reel refused with 7": lambda session, queue: turned_away(WRITE_REEL, session, queue)}


def ends():
    """Those behind it move up, and the last place becomes 0."""
    for (way, made), (order, spots) in itertools.product(WAYS_OUT.items(), LISTS):
        for at in spots if way != "a reel refused with 7" else spots[3:]:
            answer, value, case = made(order[at], queue_of(order, 2, 2, 5))
            why = "%s: session %d, place %d of %d" % (way, order[at], at, len(order))
            yield why, answer, value, places(order[:at] + order[at + 1:]), case


def listed_right():
    """Lists that are right: in any order among equal starts, with session 0 anywhere."""
    orders = {"by session": [*ALL], "the highest first": [*ALL][::-1], "from 5 on": [*range(5, 16), *range(5)],
              "odd ones first": [*range(1, 16, 2), *range(0, 16, 2)]}
    for (why, order), call in zip(orders.items(), (READ, "write", READ_REEL, "abandon")):
        left = order[:order.index(9)] + order[order.index(9) + 1:] if call == "abandon" else order
        answer, value = RIGHT.get(call) or RIGHT[raw.like(call)]
        yield "sixteen active, %s" % why, answer, value, places(left), scene(call, 9, queue_of(order, 4))
        yield "the same, with two starts", answer, value, places(left), scene(call, 9, queue_of(order, *[4] * 7, 5))
        yield "the same, a start each", answer, value, places(left), scene(
            call, 9, queue_of(order, *range(1, 17)), clock=16)
    yield "only session 0 is active: the list is all 0", "home", 0, places([]), scene("read", 0, [(0, 2)])
    for order in ([0, 3], [3, 0], [0, 3, 15], [3, 0, 15], [15, 3, 0]):
        for starts in ([2], [2, 3, 4]):
            case = scene("read", 3, queue_of(order, *starts))
            yield "session 0 in place %d" % order.index(0), "home", 0, places(order), case
    for session in (0, 15):
        others = [other for other in ALL if other != session]
        yield "all but %d are active" % session, "found", RECORD, places(others), scene(FIND, 9, queue_of(others, 4))


def kept():
    """All other answers leave the list."""
    copy, four = holding(QUEUE, 9, 14), holding(QUEUE, 9, 14, 15, 16, 17)
    one, two = {2 * 9: rawalone.log(1, [0])}, {2 * 9: rawalone.log(1, [0]), 2 * 9 + 1: rawalone.log(2, [1])}
    end = CLOCK + 1
    for answer, value, case in (
            ("home", 0, among("read", record=11)), ("own", 0, among("read", queue=copy, record=14)),
            ("copy", 0, scene("read", 9, QUEUE, {6: ("published", 3, [RECORD])})),
            ("ok", 0, among("write", queue=copy)),
            ("ok", 0, among("write", queue=copy, record=14)), ("ok", 0, among("write", logs=one)),
            (8, 0, among("write", queue=four)), (8, 0, among(WRITE_REEL, queue=four)),
            (9, 0, among("write", logs=two)), (9, 0, among(WRITE_REEL, logs=two)),
            (10, 0, among("finish", queue=copy, clock=L)), (3, 0, among("finish", trace=47)),
            (3, 0, among(FINISH, trace=47)),
            (4, 0, among("abandon", session=16)), (4, 0, among("finish", session=16)), (5, 0, among("write", record=N)),
            (6, 0, among("abandon", session=6)), (6, 0, among("finish", session=11)), (6, 0, among("write", session=7)),
            (6, 0, among(FINISH, session=7)), (6, 0, among("settle", session=9)), (6, 0, among("publish", session=9)),
            (6, 0, among(GROUP, session=2 ** 11 + 2 ** 9)), (19, 0, among(GROUP, session=0)),
            (18, 0, among(READ, queue=copy)), (18, 0, among(FINISH, queue=copy)), (18, 0, among(FIND, queue=copy)),
            (15, 0, among(WRITE_REEL, words=[0] * 4, record=11)), (15, 0, among(FIND, words=[0] * 4)),
            ("none", 0, among(FIND, words=[500, 0, 0, 0])), ("end", end, scene("publish", 0, NO_0, {0: SEALED})),
            ("end", end, scene(GROUP, 0, NO_0, {0: SEALED, 6: PUBLISHED})),
            ("end", end, scene(GROUP, 0, QUEUE, {11: SEALED, 1: ("sealed", 4, [1])}, session=2 ** 11 + 2 ** 1)),
            ("none", 0, among("reclaim", session=5)), ("cleared", 1, among("reclaim", session=9, logs=one)),
            ("cleared", 1, among("reclaim", session=0, logs={0: rawalone.log(1, [0])})),
            ("held", 1, among("reclaim", session=2, logs={**one, 5: rawalone.log(3, [0])}))):
        yield "the list is kept", answer, value, case["desk"]["order"], case


# ---- settle --------------------------------------------------------------

def settles(why, named, queue, caller=6, end=7, seats=(), **fields):
    """A settle of this session with this end: it waits for the one named, or is ok if none is."""
    case = scene("settle", caller, queue, {**dict(seats), caller: ("published", end, [6, 8], 1)}, **fields)
    return why, "ok" if named is None else "wait", named or 0, case["desk"]["order"], case


def runs():
    """The lowest session of the front run of equal starts, wherever it stands in it."""
    yield settles("a run of one", 4, queue_of([4], 3))
    yield settles("a run of one, a lower session behind it", 4, queue_of([4, 2], 3, 5))
    yield settles("a run of one, the lowest session of all behind it", 4, queue_of([4, 9, 0], 3, 5, 6))
    yield settles("a run of one, a lower session with start 4 behind it", 15, queue_of([15, 1, 0], 3, 4, 5))
    for run in ([4, 9], [9, 4], [15, 1]):
        yield settles("a run of two, a lower session behind it", min(run), queue_of(run + [0], 3, 3, 5))
        yield settles("a run of two and no more", min(run), queue_of(run, 3))
    for run in itertools.permutations([4, 9, 12]):
        yield settles("a run of three", 4, queue_of([*run, 2, 1], 3, 3, 3, 6))
    for run in ([0, 4, 9], [4, 0, 9], [4, 9, 0]):
        yield settles("session 0 in the run", 0, queue_of(run + [2], 3, 3, 3, 5))
        yield settles("session 0 in the run, which is all", 0, queue_of(run, 3))
    for caller in (0, 15):
        others = [session for session in ALL if session != caller]
        for at in (0, 7, 14):
            run = others[1:1 + at] + others[:1] + others[1 + at:]
            yield settles("a run of fifteen, the lowest in place %d" % at, others[0], queue_of(run, 3), caller)
        eight, fourteen = others[:6:-1] + others[:7], others[:0:-1] + others[:1]
        yield settles("a run of eight, lower ones behind it", others[7], queue_of(eight, *[3] * 8, 4), caller)
        yield settles("a run of fourteen, the lowest behind it", others[1], queue_of(fourteen, *[3] * 14, 6), caller)
        yield settles("fifteen with a start each, the highest session first", others[14],
                      queue_of(others[::-1], *range(1, 16)), caller, 16, clock=16)


def zeros():
    """A 0 behind the run is no session, whatever session 0 is; and one in it is session 0."""
    for queue in (queue_of([3], 3), queue_of([9, 3, 5, 1], 3)):
        lowest = min(session for session, _ in queue)
        yield settles("session 0 idle", lowest, queue)
        for seat in (("sealed", 3, [1]), ("published", 3, [1]), ("sealed", 1, [1]), ("published", 2, [1])):
            yield settles("session 0 %s with %d" % seat[:2], lowest, queue, seats={0: seat})
        yield settles("session 0 settles", lowest, queue, 0)
        yield settles("session 0 active with a later start", lowest, queue + [(0, 4)])
        yield settles("session 0 active with a start at the end", lowest, queue + [(0, 7)])
    yield settles("only session 0 is active", 0, [(0, 3)])
    yield settles("only session 0 is active, with a start at the end", None, [(0, 7)])
    yield settles("sessions 0 and 3", 0, queue_of([0, 3], 3))
    yield settles("sessions 3 and 0", 0, queue_of([3, 0], 3))
    yield settles("session 0 first, another start behind it", 0, queue_of([0, 3], 3, 4))
    yield settles("session 1 of two", 0, [(0, 1)], 1, 2, m=2, clock=2)
    yield settles("the only session of one", None, [], 0, 2, m=1, clock=2)


def in_the_way():
    """A start below the end is in the way, one at it is not."""
    yield settles("nobody active", None, [])
    yield settles("start 6, end 7", 4, [(4, 6)])
    yield settles("start 7, end 7", None, [(4, 7)])
    yield settles("start 8, end 7", None, [(4, 8)])
    yield settles("start 1, end 2", 4, [(4, 1)], end=2)
    yield settles("start 2, end 2", None, [(4, 2)], end=2)
    yield settles("starts 6 and 7, end 7", 9, queue_of([9, 4], 6, 7))
    yield settles("starts 6, 6 and 7, end 7", 9, queue_of([12, 9, 4], 6, 6, 7))
    yield settles("starts 7, 7 and 8, end 7", None, queue_of([12, 9, 4], 7, 7, 8))
    yield settles("fifteen active at the end", None, queue_of([session for session in ALL if session != 6], 7))
    yield settles("fifteen active above the end, with different starts", None, queue_of(range(1, 16), 7, 8, 8, 9), 0)
    yield settles("the front below the end, fourteen at it", 15, queue_of([15, *range(1, 15)], 6, 7), 0)
    for start, end, named in ((L - 1, L, 4), (L, L, None), (2 ** 32 + 1, 2 ** 32 + 2, 4),
                              (2 ** 32 + 2, 2 ** 32 + 1, None), (5, 2 ** 32 + 2, 4), (2 ** 32 + 5, 6, None)):
        yield settles("start %d, end %d" % (start, end), named, [(4, start)], end=end, clock=max(start, end))
    yield settles("equal in their low 32 bits", 9, queue_of([9, 4], 3, 2 ** 32 + 3), end=2 ** 33, clock=2 ** 33)
    yield settles("equal in their high bits", 9, queue_of([9, 4], 2 ** 40 + 3, 2 ** 40 + 4), end=2 ** 41, clock=2 ** 41)


# ---- cases by aim --------------------------------------------------------

MAKERS = [right, in_each_call, broken, first_checks, begins, ends, listed_right, kept, runs, zeros, in_the_way]
# What each case is for, its answer and value, the order that it leaves, and the case.
TURNS = [turn for maker in MAKERS for turn in maker()]


def make(seed, number):
    """The case with this number, whatever the seed, and what it is aimed at: call, answer, value and order left."""
    _, answer, value, order, case = TURNS[number % len(TURNS)]
    return case, (case["call"], answer, value, order)


if __name__ == "__main__":
    if sys.argv[1:] == ["why"]:
        for at, (why, answer, value, order, case) in enumerate(TURNS, FIRST):
            print("%d %-16s %8s %s" % (at, case["call"], answer, why))
    else:
        raw.main(sys.argv[1:], make, __doc__, FIRST)
