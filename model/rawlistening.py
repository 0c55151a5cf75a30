"""Raw cases of the listening room's calls (document 02, Req 03): one call each,
and what it must answer and leave.

    python3 rawlistening.py in SEED COUNT > cases       inputs of COUNT cases
    python3 rawlistening.py packed SEED COUNT > cases   the same, packed
    python3 rawlistening.py want SEED COUNT > lines     what they must give
    python3 rawlistening.py count SEED COUNT            cases by call and answer
    python3 rawlistening.py show SEED CASE              one case in full, as text

The format is that of raw.py, described there. A case depends on the seed and
its own number (from 0) alone. Stored, the cases stand behind the reel cases;
the numbers in their lines go on from there.
"""

import random
import sys

import raw
import rawreels
import store

FIRST = rawreels.FIRST + len(rawreels.TURNS)  # number of the first listening case in the lines
GOOD_SHELVES, BAD_SHELVES = rawreels.GOOD[rawreels.SHELF], rawreels.BAD[rawreels.SHELF]


# ---- the room ------------------------------------------------------------
# A kind of session is its phase and the numbers to choose from, by the listener's start and the clock.

KINDS = {"listener": ("active", lambda start, clock: [start]),
         "active": ("active", lambda start, clock: [1, start, clock]),
         "sealed": ("sealed", lambda start, clock: [1, start, clock]),
         "above": ("published", lambda start, clock: [start + 1, clock]),
         "equal": ("published", lambda start, clock: [start]),
         "below": ("published", lambda start, clock: [2, start - 1])}
HELD = ["active", "sealed", "above", "equal", "below"]
# What the listener is shown of a record, by its holder's kind; a free record has no holder.
SHOWN = {"free": "home", "active": "home", "sealed": "home", "above": "home", "equal": "copy", "below": "copy"}
HIDDEN = {"home": "copy", "copy": "home"}


def taken(free, count):
    """So many of the free records, or all that are left."""
    return [free.pop() for _ in range(min(count, len(free)))]


def seats(rng, n, m, session, caller, holders, each):
    """Session, kind and copied records of those that are not idle."""
    named = [record for _, record, _ in holders]
    free = [record for record in rng.sample(range(n), n) if record not in named]
    others = rng.sample([other for other in range(m) if other != session], m - 1)
    found = [(session, caller[0], taken(free, caller[1]))]
    found += [(others.pop(), kind, taken(free, place) + [record])
              for kind, record, place in holders if kind != "free"]
    for _, _, records in found[1:]:
        records += taken(free, (each or rng.randrange(len(records), 5)) - len(records))
    found += [(other, rng.choice(HELD if each else HELD + ["idle"]), taken(free, each or rng.randrange(1, 5)))
              for other in others]
    return [seat for seat in found if seat[1] in ("listener", "active") or (seat[2] and seat[1] != "idle")]


def room(rng, n, m, session, caller=("listener", 0), holders=(), each=None, edge=None):
    """A coherent desk. The caller is a kind with a number of copies. A holder is a kind, a record and the
    place at which some other session copies it. Each is the number of copies of the rest, edge a clock."""
    found = seats(rng, n, m, session, caller, holders, each)
    sealed = sum(kind == "sealed" for _, kind, _ in found)
    clock = raw.CLOCKS[edge](sealed) if edge else max(4, raw.some_clock(rng, sealed, True))
    start = rng.choice([3, clock - 1, rng.randrange(3, clock)])
    desk = store.new_desk(clock, n, m)
    for other, kind, records in found:
        phase, numbers = KINDS[kind]
        copies = [[record, [0] * 4] for record in records]
        slot = rng.randrange(2) if records else 0
        desk["sessions"][other] = store.entry(phase, rng.choice(numbers(start, clock)), copies, slot)
        for record in records:
            desk["marks"][record] = other
    return raw.listed(desk)


def turned(case, call):
    """The case of a store's call as one of this call; a find takes no record."""
    return dict(case, call=call, record=0 if call == "find" else case["record"])


def scene(rng, call, desk, session):
    """A call by this session with right image and arguments in range."""
    return turned(dict(raw.session_scene(rng, raw.like(call), desk), session=session), call)


# ---- words ---------------------------------------------------------------

NEAR = [lambda number: number - 1, lambda number: number + 1, lambda number: number + 2 ** 32,
        lambda number: number * 2 ** 32, lambda number: number + 2 ** 63]
PARTS = [("home",), ("copy",), ("home", "copy")]


def some_shelf(rng):
    """A shelf number that is in range."""
    return rawreels.good_reel(rng)[rawreels.SHELF]


def other_words(rng, number):
    """Four words, the first not the number but at times near it, the others at times the number."""
    near = rng.choice(NEAR)(number) % 2 ** 64
    first = near if rng.random() < 0.2 else raw.some_word(rng)
    return [first if first != number else number ^ 1] + [
        number if rng.random() < 0.2 else raw.some_word(rng) for _ in range(3)]


def rest_words(rng, number):
    """Such words, the number in all but the first."""
    return other_words(rng, number)[:1] + [number] * 3


def near_words(way):
    """Such words, the first near the number in this way."""
    return lambda rng, number: [way(number)] + other_words(rng, number)[1:]


def fill(rng, case, number, where, others=other_words):
    """Puts a search's number into word 0 of home records and copies, by record as where says, and words
    of others into the rest; into the logs, which no search looks at, it puts the number too."""
    case["words"] = [number, 0, 0, 0]
    image, n = case["image"], case["desk"]["N"]
    for record in range(n):
        words = {part: others(rng, number) for part in HIDDEN}
        for part in where.get(record, ()):
            words[part][0] = number
        rawreels.filled(dict(case, record=record), words["home"], words["copy"])
    for at in range(store.slot_at(n, 0), len(image), 22):
        image[at + 3 + 5 * rng.randrange(4)] = number


# ---- searches ------------------------------------------------------------
# Each gives the case, and its answer and value. A plan says, by record, the kind of its holder, the place
# of the copy, and the parts in which the number stands; it stands in no other word 0.

def search(rng, size, session, plan, number=None, others=other_words, each=None):
    """A find with this plan: the first match is the first planned record that shows the number."""
    holders = [(kind, record, place) for record, (kind, place, _) in plan.items()]
    case = scene(rng, "find", room(rng, *size, session, holders=holders, each=each), session)
    number = some_shelf(rng) if number is None else number
    fill(rng, case, number, {record: parts for record, (_, _, parts) in plan.items()}, others)
    matches = [record for record, (kind, _, parts) in plan.items() if SHOWN[kind] in parts]
    return case, ("found", min(matches)) if matches else ("none", 0)


def some_plan(rng, size, records):
    """These records, each of any kind that there is room for, with the number where it is shown."""
    kinds = [rng.choice(list(SHOWN)) if at < size[1] - 1 else "free" for at in range(len(records))]
    most = min(3, size[0] // len(records) - 1) if records else 0
    return {record: (kind, rng.randrange(most + 1), (SHOWN[kind],))
            for record, kind in zip(records, kinds)}


def under(rng, call, kind, parts, place):
    """One record has the number, under a holder of this kind at this place, in these parts."""
    n, m = rng.choice([(4, 2), (5, 2), (8, 4), (12, 3), (9, 16)])
    record = rng.choice([0, n - 1, rng.randrange(n)])
    return search(rng, (n, m), rng.randrange(m), {record: (kind, place, parts)})


def two(rng, call, kind, hidden, later):
    """Two records have the number, the later one where it is shown, the first where shown or hidden."""
    n, m = rng.choice([(8, 4), (12, 3), (9, 16)])
    one, other = sorted(rng.sample(range(n), 2))
    part = HIDDEN[SHOWN[kind]] if hidden else SHOWN[kind]
    return search(rng, (n, m), rng.randrange(m), {one: (kind, rng.randrange(4), (part,)),
                                                  other: (later, rng.randrange(4), (SHOWN[later],))})


POSITIONS = {"first": lambda rng, n: [0], "last": lambda rng, n: [n - 1], "none": lambda rng, n: [],
             "several": lambda rng, n: rng.sample(range(n), min(n, 4))}


def positions(rng, call, sizes, which, number=None, others=other_words):
    """Matches at these positions of an image of one of these sizes."""
    n, m = rng.choice(sizes)
    plan = some_plan(rng, (n, m), POSITIONS[which](rng, n))
    return search(rng, (n, m), rng.randrange(m), plan, number, others)


def by(rng, call, m, session):
    """A search by this session, the match under a holder."""
    kind = rng.choice(HELD)
    return search(rng, (9, m), session, {rng.randrange(9): (kind, rng.randrange(4), (SHOWN[kind],))})


def full(rng, call, kind, hidden):
    """The largest image, every slot occupied, with four copies of every session but the caller; one record
    has the number, under a holder of this kind, where it is shown or hidden."""
    part = HIDDEN[SHOWN[kind]] if hidden else SHOWN[kind]
    plan = {rng.randrange(256): (kind, rng.randrange(4), (part,))}
    case, aim = search(rng, (256, 16), rng.randrange(16), plan, each=4)
    for at in range(store.slot_at(256, 0), len(case["image"]), 22):
        case["image"][at] = case["image"][at] or rng.randrange(1, 99)
    return case, aim


# ---- refusals, and the other calls ---------------------------------------

def ready(rng, call, caller=("listener", 0), edge=None, number=None):
    """A call with nothing wrong but the caller; every record of a search is a match."""
    n, m = rng.choice([size for size in raw.SIZES if caller[1] <= size[0] < 255])
    session = rng.randrange(m)
    case = scene(rng, call, room(rng, n, m, session, caller, edge=edge), session)
    if call == "find":
        fill(rng, case, some_shelf(rng) if number is None else number, dict.fromkeys(range(n), PARTS[2]))
    return case


def spoiled(rng, case, number):
    """The case with a cause for this one of the refusals 1 to 5, and at times for later ones."""
    call = case["call"]
    return turned(raw.spoiled(rng, dict(case, call=raw.like(call)), number), call)


def refused(rng, call, number, caller, edge=None):
    """Refused with this number. The caller may be a cause for 6 or 18; if it has copies, the session that
    is refused by 4 has the caller in its low bits."""
    case = ready(rng, call, caller, edge)
    if number == 4 and caller[1]:
        case["session"] += rng.choice([16, 256, 2 ** 32, 2 ** 63])
    elif number <= 5:
        case = spoiled(rng, case, number)
    return case, (number, 0)


def broken(rng, call, name):
    """Refused by 2, with just this break."""
    while True:
        case = raw.broken_case(rng, ready(rng, call), name)
        if case is not None:
            return case, (2, 0)


def at_ceiling(rng, call, name):
    """A call with nothing wrong but header word 3, which is this; below the clock the answer is 2."""
    if call == READ:
        case, aim = looked(rng, call, "free", 0)
    else:
        case, aim = ready(rng, call), ("empty", 0) if call == FINISH else ("found", 0)
    clock = case["desk"]["clock"]
    ceiling = raw.CEILINGS[name](clock)
    return raw.with_ceiling(case, ceiling), (2, 0) if ceiling < clock else aim


def above_ceiling(rng, call, caller):
    """Refused by 2, the clock above header word 3, whatever the caller."""
    return rawreels.above_ceiling(rng, ready(rng, call, caller)), (2, 0)


def largest(rng, call):
    """N 256 and M 16 with a word too few or too many."""
    number = some_shelf(rng) if call == "find" else 0
    return dict(turned(raw.largest(rng, raw.like(call)), call), words=[number, 0, 0, 0]), (1, 0)


def out_of_range(rng, call, number, cause):
    """A shelf number out of range, which every record has, or its low 32 bits; and a cause that comes
    after 15, if any."""
    case = ready(rng, call, {6: ("sealed", 1), 18: ("listener", 1)}.get(cause, ("listener", 0)),
                 number=number % 2 ** 32 if cause == "low bits" else number)
    if cause in (1, 2, 4):
        case = spoiled(rng, case, cause)
    return dict(case, words=[number, 0, 0, 0]), (15, 0)


def begun(rng, call, edge):
    """A session begins at this clock, or at any."""
    case = ready(rng, call, ("idle", 0), edge)
    return case, ("start", case["desk"]["clock"])


def looked(rng, call, kind, place, own=0):
    """A read of a record under a holder of this kind; a caller with copies is refused."""
    n, m = rng.choice([(8, 4), (12, 3), (9, 16)])
    session, record = rng.randrange(m), rng.choice([0, n - 1, rng.randrange(n)])
    desk = room(rng, n, m, session, ("listener", own), [(kind, record, place)])
    case = dict(scene(rng, call, desk, session), record=record)
    rawreels.filled(case, *([rng.getrandbits(64) for _ in range(4)] for _ in range(2)))
    return case, (18 if own else SHOWN[kind], 0)


def looked_own(rng, call, own, place):
    """A read of a record that the caller itself copies."""
    case = ready(rng, call, ("listener", own))
    return dict(case, record=case["desk"]["sessions"][case["session"]]["places"][place][0]), (18, 0)


def emptied(rng, call, edge):
    """A finish without copies at this clock, or at any."""
    return ready(rng, call, edge=edge), ("empty", 0)


def traced(rng, call, trace):
    """A finish with nothing wrong but the length of the trace."""
    return dict(ready(rng, call), trace=trace), ("empty", 0) if trace >= 48 else (3, 0)


# ---- cases by aim --------------------------------------------------------

BEGIN, READ, FINISH, FIND = raw.LISTENING_CALLS
CAUSES = {BEGIN: [2, 4], READ: [1, 2, 4, 5], FINISH: [1, 2, 3, 4], FIND: [1, 2, 4]}
LISTENS, COPIES = ("listener", 0), [("listener", own) for own in (1, 2, 3, 4)]
NOT_ACTIVE = [("idle", 0), ("sealed", 1), ("sealed", 4), ("equal", 2), ("above", 3)]
EDGES = [None, *raw.CLOCKS]
SMALL, LARGE = [(1, 1), (1, 16), (2, 1), (3, 2), (9, 16)], [(255, 2), (256, 1), (256, 16)]
MIDDLE = [(5, 2), (8, 4), (12, 3)]
# What makes each search that is answered, with which arguments.
SEARCHES = ([(under, kind, parts, place) for kind in HELD for parts in PARTS for place in range(4)]
            + [(two, kind, False, later) for kind in SHOWN for later in SHOWN]
            + [(two, kind, True, later) for kind in HELD for later in SHOWN]
            + [(positions, [size], which) for size in SMALL + LARGE for which in POSITIONS]
            + [(positions, [size], "none", None, rest_words) for size in SMALL + LARGE[-1:]]
            + [(positions, MIDDLE, which, None, near_words(way)) for way in NEAR for which in ("none", "last")]
            + [(positions, MIDDLE, which, number) for number in GOOD_SHELVES for which in POSITIONS]
            + [(by, m, session) for m in (2, 3, 16) for session in range(m)]
            + [(full, kind, False) for kind in SHOWN] + [(full, kind, True) for kind in ("equal", "sealed")])
# What each case in turn is aimed at: call, what makes it, with which arguments.
TURNS = ([(FIND, *turn) for turn in SEARCHES]
         + [(FIND, out_of_range, number, cause) for number in BAD_SHELVES
            for cause in (None, "low bits", 1, 2, 4, 6, 18)]
         + [(FIND, broken, name) for name in raw.BREAKS]
         + [(call, refused, number, caller) for call in (READ, FINISH, FIND) for number in CAUSES[call]
            for caller in [LISTENS] * 2 + [COPIES[0], COPIES[3], ("sealed", 1)]]
         + [(call, refused, 6, caller) for call in (READ, FINISH, FIND) for caller in NOT_ACTIVE]
         + [(call, refused, 18, caller, edge) for call in (FINISH, FIND) for caller in COPIES for edge in EDGES]
         + [(call, largest) for call in (READ, FINISH, FIND)]
         + [(BEGIN, begun, edge) for edge in EDGES * 2]
         + [(BEGIN, refused, number, ("idle", 0)) for number in CAUSES[BEGIN] * 3]
         + [(BEGIN, refused, 4, ("sealed", 1))]
         + [(BEGIN, refused, 6, caller) for caller in [LISTENS, COPIES[2]] + NOT_ACTIVE[1:]]
         + [(READ, looked, kind, place) for kind in SHOWN for place in range(4)]
         + [(READ, looked, kind, 0, own) for kind in SHOWN for own in (1, 3)]
         + [(READ, looked_own, own, place) for own, place in ((1, 0), (2, 1), (4, 0), (4, 3))]
         + [(FINISH, emptied, edge) for edge in EDGES * 2]
         + [(call, at_ceiling, name) for call in (READ, FINISH, FIND) for name in raw.CEILINGS]
         + [(call, above_ceiling, caller) for call in (READ, FINISH, FIND) for caller in (COPIES[0], ("sealed", 1))]
         + [(FINISH, traced, trace) for trace in (0, 47, 48, 64)])


def make(seed, number):
    """The case with this number, and what it is aimed at: call, answer and value."""
    rng = random.Random("listening/%d/%d" % (seed, number))
    call, maker, *rest = TURNS[number % len(TURNS)]
    case, aim = maker(rng, call, *rest)
    return case, (call, *aim)


if __name__ == "__main__":
    raw.main(sys.argv[1:], make, __doc__, FIRST)
