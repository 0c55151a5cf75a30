"""Raw cases of a group's publish (document 02, Req 06): one call each, and what
it must answer and leave.

    python3 rawgroup.py in SEED COUNT > cases       inputs of COUNT cases
    python3 rawgroup.py packed SEED COUNT > cases   the same, packed
    python3 rawgroup.py want SEED COUNT > lines     what they must give
    python3 rawgroup.py count SEED COUNT            cases by call and answer
    python3 rawgroup.py show SEED CASE              one case in full, as text

The format is that of raw.py, described there; the set stands for the session.
A case depends on the seed and its own number (from 0) alone. Stored, the cases
stand behind the listening cases; the numbers in their lines go on from there.
"""

import itertools
import random
import sys

import raw
import rawlistening
import store

FIRST = rawlistening.FIRST + len(rawlistening.TURNS)  # number of the first group case in the lines
ALL = range(16)


# ---- desks and images ----------------------------------------------------
# A kind of session is its phase and whether it holds copies.

KINDS = {"idle": ("idle", False), "reader": ("active", False), "writer": ("active", True),
         "sealed": ("sealed", True), "published": ("published", True)}
NOT_SEALED = [kind for kind in KINDS if kind != "sealed"]


def set_of(sessions):
    """Bit s, worth 2 to the s, stands for session s."""
    return sum(2 ** session for session in sessions)


def kinds_of(rng, m, named, others):
    """The kind of each session: as named, and of the rest each of the others in turn."""
    rest = [session for session in range(m) if session not in named]
    turn = itertools.cycle(rng.sample(others, len(others)))
    return {**dict(zip(rng.sample(rest, len(rest)), turn)), **named}


def copies_of(rng, n, holders, each):
    """So many copies for each holder, or 1 to 4, as far as N goes."""
    free, left = rng.sample(range(n), n), n - len(holders)
    for holder in rng.sample(holders, len(holders)):
        more = each - 1 if each else min(rng.randrange(4), left)
        left -= more
        yield holder, [[free.pop(), [raw.some_word(rng) for _ in range(4)]] for _ in range(1 + more)]


def desk_of(rng, m, named, others=tuple(KINDS), n=None, each=None, slot=None, clock=None):
    """A coherent desk. Named says the kinds of some sessions; the rest are of the others in turn. Each is the
    number of copies of those that have some, slot theirs; clock goes by the number of sealed sessions."""
    kinds = kinds_of(rng, m, named, others)
    holders = [session for session in range(m) if KINDS[kinds[session]][1]]
    least = max(1, (each or 1) * len(holders))
    n = n or rng.choice([least, least + rng.randrange(9), max(least, 3 * len(holders))])
    copies = dict(copies_of(rng, n, holders, each))
    sealed = list(kinds.values()).count("sealed")
    clock = clock(sealed) if clock else max(2, raw.some_clock(rng, sealed, True))
    desk = store.new_desk(clock, n, m)
    for session, kind in kinds.items():
        phase, own = KINDS[kind][0], copies.get(session, [])
        number = rng.choice([2, clock, rng.randrange(2, clock + 1)] + [1] * (kind != "published"))
        at = 0 if not own else rng.randrange(2) if slot is None else slot
        desk["sessions"][session] = store.entry(phase, number if phase != "idle" else 0, own, at)
        for record, _ in own:
            desk["marks"][record] = session
    return raw.listed(desk)


def as_sealed(rng, desk):
    """The image as finish leaves it, with the logs of sealed and published sessions alone."""
    slots = [[0] * 22 for _ in range(2 * desk["M"])]
    for session, e in enumerate(desk["sessions"]):
        if e["phase"] in ("sealed", "published"):
            log = [word for record, words in store.copies_of(e) for word in [record] + words]
            slots[2 * session + e["slot"]][:2 + len(log)] = [e["number"], e["count"]] + log
    return raw.image_of(rng, desk["N"], desk["M"], slots, raw.some_ceiling(rng, desk["clock"]))


def scene(rng, desk, members, more=None):
    """A publish of these sessions. More is how far header word 3 is above the clock; at 0 it is to be raised."""
    image = as_sealed(rng, desk) if rng.random() < 0.8 else raw.some_image(rng, desk["N"], desk["M"], desk)
    case = dict(raw.blank(raw.GROUP_CALL), session=set_of(members), desk=desk, image=image,
                trace=rng.choice(raw.LONG_ENOUGH))
    return case if more is None else raw.with_ceiling(case, desk["clock"] + more)


def some(rng, sessions, least=1):
    """Some of these sessions."""
    return rng.sample(sessions, rng.randrange(least, len(sessions) + 1))


def sealed(sessions):
    return dict.fromkeys(sessions, "sealed")


def soon(rng):
    """At the clock half the time, so that a raise is due; else any word 3."""
    return rng.choice([0, None])


# ---- published -----------------------------------------------------------
# What makes a case gives it with its answer and value.

def ends(case):
    return case, ("end", case["desk"]["clock"] + 1)


def load(rng, count):
    """So many members of sixteen, others of every kind beside them."""
    members = rng.sample(ALL, count)
    return ends(scene(rng, desk_of(rng, 16, sealed(members)), members, rng.choice([0, 1, None])))


def whole(rng, m):
    """All of M sessions."""
    return ends(scene(rng, desk_of(rng, m, sealed(range(m))), range(m), soon(rng)))


def alone(rng, m, session):
    """One member."""
    return ends(scene(rng, desk_of(rng, m, sealed([session])), [session], soon(rng)))


def chosen(rng, members):
    """This set where all sixteen are sealed: those that are not in it stay so."""
    desk = desk_of(rng, 16, sealed(ALL))
    return ends(dict(scene(rng, desk, [], soon(rng)), session=members))


def copying(rng, each, slot):
    """Members and others with so many copies in this slot."""
    members = some(rng, ALL, 3)
    return ends(scene(rng, desk_of(rng, 16, sealed(members), each=each, slot=slot), members))


# Persist numbers of some sealed sessions, ascending.
ORDERS = {"rising": lambda numbers: numbers, "falling": lambda numbers: numbers[::-1],
          "equal": lambda numbers: numbers[:1] * len(numbers)}


def ordered(rng, order, count):
    """So many members with persist numbers in this order of their sessions."""
    members = sorted(rng.sample(ALL, count))
    desk = desk_of(rng, 16, sealed(members), clock=lambda sealed: rng.choice([16, 99, store.L]))
    numbers = ORDERS[order](sorted(rng.sample(range(1, desk["clock"] + 1), count)))
    for member, number in zip(members, numbers):
        desk["sessions"][member]["number"] = number
    return ends(scene(rng, desk, members))


def largest(rng, members, each):
    """N 256 and M 16."""
    return ends(scene(rng, desk_of(rng, 16, sealed(members), n=256, each=each), members, soon(rng)))


LOW = [3, 9, 1025, 2 ** 32]  # clocks far below L
CEILINGS = {**raw.CEILINGS, "word 3 is clock+2": lambda clock: clock + 2,
            "word 3 is clock+1024": lambda clock: clock + 1024}


def at_ceiling(rng, name, trace):
    """Header word 3 is this; below the clock the answer is 2."""
    members = some(rng, ALL)
    desk = desk_of(rng, 16, sealed(members), clock=lambda sealed: rng.choice(LOW))
    case, ceiling = scene(rng, desk, members), CEILINGS[name](desk["clock"])
    case = dict(raw.with_ceiling(case, ceiling), trace=trace)
    return (case, (2, 0)) if ceiling < desk["clock"] else ends(case)


def at_clock(rng, edge, more, count, others=tuple(KINDS)):
    """A clock at its edge, so many members, and word 3 so far above it."""
    members = rng.sample(ALL, count)
    return ends(scene(rng, desk_of(rng, 16, sealed(members), others, clock=raw.CLOCKS[edge]), members, more))


def traced(rng, trace, more):
    """Nothing wrong but the length of the trace, whether a raise is due or not."""
    members = some(rng, range(6))
    case = dict(scene(rng, desk_of(rng, 6, sealed(members)), members, more), trace=trace)
    return ends(case) if trace >= 48 else (case, (3, 0))


# ---- refused -------------------------------------------------------------

def empty(rng, m, kinds):
    """The empty set, with sessions of these kinds."""
    return scene(rng, desk_of(rng, m, {}, kinds), [], soon(rng)), (19, 0)


# Members at or above M: whether there are others, and which of those up to 15.
PAST = {"at": (True, lambda rng, past: past[:1]), "above": (True, lambda rng, past: [rng.choice(past[1:])]),
        "only at": (False, lambda rng, past: past[:1]), "only above": (False, lambda rng, past: some(rng, past[1:])),
        "all above": (False, lambda rng, past: past), "everything": (True, lambda rng, past: past)}


def past(rng, m, which):
    """Members at or above M, the others sealed; at "everything" the set is 65535."""
    beside, choice = PAST[which]
    members = some(rng, range(m), m if which == "everything" else 1) if beside else []
    desk = desk_of(rng, m, sealed(members or some(rng, range(m))))
    return scene(rng, desk, members + list(choice(rng, range(m, 16))), soon(rng)), (4, 0)


def past_and_unsealed(rng, kind, bit):
    """A member at M, or at bit 15, and one that is not sealed: 4."""
    m = rng.randrange(3, 15)
    members = some(rng, range(m), 2)
    desk = desk_of(rng, m, {**sealed(members), members[0]: kind})
    return scene(rng, desk, members + [m if bit == "at M" else 15]), (4, 0)


WHERE = {"lowest": 0, "middle": 2, "highest": -1}


def unsealed(rng, kind, where):
    """Five members, one of this kind."""
    members = sorted(rng.sample(ALL, 5))
    desk = desk_of(rng, 16, {**sealed(members), members[WHERE[where]]: kind})
    return scene(rng, desk, members, soon(rng)), (6, 0)


def many_unsealed(rng, kinds, beside):
    """Members of these kinds, and so many sealed ones."""
    members = rng.sample(ALL, len(kinds) + beside)
    desk = desk_of(rng, 16, {**sealed(members), **dict(zip(members, kinds))})
    return scene(rng, desk, members, soon(rng)), (6, 0)


def all_but(rng, session):
    """All sixteen, sealed but this one."""
    desk = desk_of(rng, 16, {**sealed(ALL), session: NOT_SEALED[session % 4]})
    return scene(rng, desk, ALL, soon(rng)), (6, 0)


def broken(rng, name, named=False):
    """Refused by 2, with just this break; named, the sessions from M up are in the set too."""
    while True:
        m = rng.choice([2, 3, 5, 9, 16])
        members = some(rng, range(m))
        desk = desk_of(rng, m, sealed(members), n=rng.choice([16, 20, 40, 64]))
        case = raw.broken_case(rng, scene(rng, desk, members), name)
        if case is not None:
            return dict(case, session=case["session"] | set_of(range(m, 16) if named else [])), (2, 0)


# Breaks that leave M and the phases of the members.
BESIDE = [name for name, (_, rules) in raw.BREAKS.items()
          if rules not in (["sizes"], ["ceiling"]) and name not in ("clock zero", "sealed without copies")]


def incoherent(rng, case, how):
    """The case with a cause for 2: word 3 below the clock, or another break."""
    if how == "word 3":
        return raw.with_ceiling(case, raw.too_low(rng, case["desk"]["clock"]))
    while True:
        found = raw.broken_case(rng, case, rng.choice(BESIDE))
        if found is not None:
            return found


def refused(rng, causes, how="break", trace=None):
    """A cause for each of these refusals; the first is the answer."""
    m = rng.randrange(3, 16)
    members = some(rng, range(m), 2)
    desk = desk_of(rng, m, {**sealed(members), members[0]: rng.choice(NOT_SEALED) if 6 in causes else "sealed"}, n=60)
    case = scene(rng, desk, [] if 19 in causes else members + (some(rng, range(m, 16)) if 4 in causes else []))
    if 3 in causes:
        case["trace"] = rng.choice(raw.TOO_SHORT) if trace is None else trace
    if 2 in causes:
        case = incoherent(rng, case, how)
    if 1 in causes:
        case["image"] = raw.wrong_image(rng, case["image"])
    return case, (causes[0], 0)


def wrong_length(rng, words):
    """N 256 and M 16 with so many words, one too few or too many."""
    case, _ = largest(rng, some(rng, ALL), None)
    return dict(case, image=(case["image"] + [0])[:words]), (1, 0)


# ---- cases by aim --------------------------------------------------------

CHECKS = [1, 2, 3, 19, 4, 6]  # in the order in which they are made
# What can be wrong at once: an empty set has no member at or above M and none that is not sealed.
CAUSES = [causes for size in range(1, 6) for causes in itertools.combinations(CHECKS, size)
          if 19 not in causes or not {4, 6} & set(causes)]
SETS = [0x0001, 0x8000, 0x7FFF, 0xFFFE, 0x5555, 0xAAAA, 0x00FF, 0xFF00, 0x0180, 0x8001, 0x1234, 0xFEDC]
# What each case in turn is aimed at: what makes it, with which arguments.
TURNS = ([(load, count) for count in range(1, 17)]
         + [(whole, m) for m in range(1, 17)]
         + [(alone, 16, session) for session in ALL]
         + [(alone, m, m - 1) for m in range(1, 16)]
         + [(chosen, members) for members in SETS]
         + [(copying, each, slot) for each in (1, 2, 3, 4) for slot in (0, 1)]
         + [(ordered, order, count) for order in ORDERS for count in (4, 16)]
         + [(largest, ALL, 4), (largest, ALL, None), (largest, [0, 15], 4), (largest, [3, 7, 8, 12], None)]
         + [(at_ceiling, name, trace) for name in CEILINGS for trace in (48, 49, 64)]
         + [(at_clock, edge, more, count) for edge in raw.CLOCKS for more in raw.RAISES.values() for count in (1, 5, 16)]
         + [(at_clock, "clock L+16 less sealed", 0, count, NOT_SEALED) for count in range(1, 17)]
         + [(traced, trace, more) for trace in sorted(raw.TRACES) for more in (0, 1)]
         + [(empty, m, kinds) for m in (1, 2, 9, 16) for kinds in (["sealed"], NOT_SEALED)]
         + [(past, m, "at") for m in range(1, 16)]
         + [(past, m, which) for m in (1, 2, 9, 14, 15) for which in PAST
            if which != "at" and (m < 15 or which not in ("above", "only above"))]
         + [(past_and_unsealed, kind, bit) for kind in NOT_SEALED for bit in ("at M", "15")]
         + [(unsealed, kind, where) for kind in NOT_SEALED for where in WHERE]
         + [(many_unsealed, [kind] * count, 0) for kind in NOT_SEALED for count in (1, 3)]
         + [(many_unsealed, kinds, 3) for kinds in itertools.combinations_with_replacement(NOT_SEALED, 2)]
         + [(all_but, session) for session in ALL]
         + [(broken, name) for name in raw.BREAKS]
         + [(broken, name, True) for name in raw.BREAKS if name.endswith("past M")]
         + [(refused, causes) for causes in CAUSES]
         + [(refused, causes, "word 3") for causes in CAUSES if 2 in causes]
         + [(refused, (3, later), "break", trace) for later in (19, 4, 6) for trace in (0, 47)]
         + [(refused, (1,))] * 4 + [(wrong_length, words) for words in (1731, 1733)])


def make(seed, number):
    """The case with this number, and what it is aimed at: call, answer and value."""
    rng = random.Random("group/%d/%d" % (seed, number))
    maker, *rest = TURNS[number % len(TURNS)]
    case, aim = maker(rng, *rest)
    return case, (raw.GROUP_CALL, *aim)


if __name__ == "__main__":
    raw.main(sys.argv[1:], make, __doc__, FIRST)
