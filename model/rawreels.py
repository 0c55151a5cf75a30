"""Raw cases of the reel library (document 02, Req 02 and Req 07): one call each,
and what it must answer and leave.

    python3 rawreels.py in SEED COUNT > cases       inputs of COUNT cases
    python3 rawreels.py packed SEED COUNT > cases   the same, packed
    python3 rawreels.py want SEED COUNT > lines     what they must give
    python3 rawreels.py count SEED COUNT            cases by call and answer
    python3 rawreels.py show SEED CASE              one case in full, as text

The format is that of raw.py, described there. A case depends on the seed and
its own number (from 0) alone. Stored, the cases stand behind those of raw.py;
the numbers in their lines go on from there. More cases of Req 07 are made by
rawspeeds.py.
"""

import itertools
import random
import sys

import raw
import store
from raw import TOP

FIRST = 3612  # number of the first reel case in the lines: so many cases of raw.py stand before it
SHELF, CARRIER, SPEED, SECONDS = range(4)


# ---- kinds of four numbers -----------------------------------------------
# A kind is its verdict, which is reel, unused, 15, 16 or 17, and the fields that it puts into a good
# reel, each with the numbers to choose from. Good is what can be stored, an open reel without a speed too;
# what becomes of that one is in without_speed().

TAKEN = {1: [0, 1, 2, 3, 4, 5], 2: [0, 1], 3: [0]}
NOT_TAKEN = {1: [6], 2: [2, 3, 4, 5, 6], 3: [1, 2, 3, 4, 5, 6]}
HUGE = [2 ** 32, 2 ** 32 + 5, 2 ** 63, TOP]  # the low 32 bits of the second alone would be good
GOOD = {SHELF: [1, 999999], SECONDS: [0, 1, 359999]}
BAD = {SHELF: [0, 1000000] + HUGE, CARRIER: [0, 4, 257, 2 ** 32 + 1, 2 ** 63 + 2, TOP],
       SPEED: [256, 2 ** 32, 2 ** 32 + 1, 2 ** 63, TOP], SECONDS: [360000] + HUGE}
NAMES = ["shelf", "carrier", "speed", "seconds"]
NUMBERS = [15, 16, 16, 17]
# What is bad in several words at once: the word, or a speed that neither a cassette nor a disc takes.
CAUSES = {name: {field: BAD[field]} for field, name in enumerate(NAMES)}
CAUSES["pair"] = {CARRIER: [2, 3], SPEED: [2, 3, 4, 5]}
# By code: tenths of a millimetre per second, and remainders of 10,000: none, the smallest and the largest.
REMAINDERS = {1: (476, [0, 4, 9996]), 2: (953, [0, 1, 9999]), 3: (1905, [0, 5, 9995]),
              4: (3810, [0, 10, 9990]), 5: (7620, [0, 20, 9980])}


def single_kinds():
    """One number or one pair at its edge."""
    for carrier in TAKEN:
        for speed in TAKEN[carrier] + NOT_TAKEN[carrier]:
            verdict = "reel" if speed in TAKEN[carrier] else 16
            yield "carrier %d speed %d" % (carrier, speed), (verdict, {CARRIER: [carrier], SPEED: [speed]})
    for field, name in enumerate(NAMES):
        for number in GOOD.get(field, []):
            yield "%s %d" % (name, number), ("reel", {field: [number]})
        for number in BAD[field]:
            yield "%s %d" % (name, number), (NUMBERS[field], {field: [number]})


def several_kinds():
    """Two or three bad numbers at once: 15 before 16 before 17."""
    shelf, seconds = CAUSES["shelf"], CAUSES["seconds"]
    yield "shelf, seconds", (15, {**shelf, **seconds})
    for name in ("carrier", "speed", "pair"):
        between = CAUSES[name]
        yield "shelf, " + name, (15, {**shelf, **between})
        yield name + ", seconds", (16, {**between, **seconds})
        yield "shelf, %s, seconds" % name, (15, {**shelf, **between, **seconds})


def zero_kinds():
    """Four zero words, and others that are nearly so."""
    unused = {field: [0] for field in range(4)}
    yield "unused", ("unused", unused)
    yield "shelf alone", (16, {**unused, SHELF: [1, 5, 999999]})
    for field in (CARRIER, SPEED, SECONDS):
        yield NAMES[field] + " alone", (15, {**unused, field: [1, 2, 3, 2 ** 32, 2 ** 63, TOP]})
    yield "no shelf, sum 2 ** 64", (15, {**unused, CARRIER: [2 ** 63], SECONDS: [2 ** 63]})


def length_kinds():
    """Reels for the length: an hour, the edges at each code, and where rounding down matters."""
    yield "an hour at code 3", ("reel", {CARRIER: [1], SPEED: [3], SECONDS: [3600]})
    for code, (speed, remainders) in REMAINDERS.items():
        reel = {CARRIER: [1], SPEED: [code]}
        for seconds in GOOD[SECONDS]:
            yield "%d s at code %d" % (seconds, code), ("reel", {**reel, SECONDS: [seconds]})
        for remainder in remainders:
            least = next(s for s in range(1, 10001) if s * speed % 10000 == remainder)
            yield "remainder %d at code %d" % (remainder, code), (
                "reel", {**reel, SECONDS: range(least, 360000, 10000)})


SEVERAL = dict(several_kinds())
KINDS = {**dict(single_kinds()), **SEVERAL, **dict(zero_kinds())}
LENGTHS = dict(length_kinds())


def good_reel(rng):
    """A reel with nothing bad in it; it may be an open reel without a speed."""
    carrier = rng.choice([1, 1, 2, 3])
    return [rng.choice([1, 999999, rng.randrange(1, 247), rng.randrange(1, 1000000)]), carrier,
            rng.choice(TAKEN[carrier]),
            rng.choice([0, 359999, rng.randrange(247), rng.randrange(360000)])]


def four_of(rng, kind):
    """Verdict and numbers of a kind; a verdict in its place means any of the kinds that have it."""
    if kind not in KINDS and kind not in LENGTHS:
        kind = rng.choice([name for name in KINDS if KINDS[name][0] == kind])
    verdict, fields = KINDS.get(kind) or LENGTHS[kind]
    four = good_reel(rng)
    for field, numbers in fields.items():
        four[field] = rng.choice(numbers)
    return verdict, four


# ---- scenes --------------------------------------------------------------

def filled(case, home, copy):
    """The case with these words in the home record, and these in the copy of it if there is one."""
    at = store.home_at(case["record"])
    case["image"][at:at + 4] = home
    for e in case["desk"]["sessions"]:
        for place in store.copies_of(e):
            if place[0] == case["record"]:
                place[1] = list(copy)
    return case


def above_ceiling(rng, case):
    """The case with header word 3 below the clock: the store refuses it by 2."""
    return raw.with_ceiling(case, raw.too_low(rng, case["desk"]["clock"]))


def read_scene(rng, how, four):
    """A read of these words: from own, copy or home, a good reel at the other place, or refused by the
    store with this number."""
    if how == ABOVE:
        return above_ceiling(rng, read_scene(rng, rng.choice(WHERE), four))
    if how in raw.causes("read"):
        return raw.spoiled(rng, filled(raw.session_scene(rng, "read"), four, four), how)
    case, other = raw.aimed(rng, "read", how), good_reel(rng)
    places = {"own": (other, four), "copy": (other, four), "home": (four, other), 6: (four, four)}
    return filled(case, *places[how])


def write_way(case):
    """Whether a write that the store takes is of a first copy, a further one or one that is there."""
    own = case["desk"]["sessions"][case["session"]]
    if store.copy_place(own, case["record"]) is not None:
        return "overwritten"
    return "further" if own["count"] else "first"


def write_scene(rng, how):
    """A write that the store takes in this way, or refuses with this number."""
    if how == ABOVE:
        return above_ceiling(rng, write_scene(rng, rng.choice(WAYS)))
    if how == "second slot":
        return raw.second_slot(rng)
    if how in raw.AIMS["write"]:
        return raw.aimed(rng, "write", how)
    while True:
        case = raw.aimed(rng, "write", "ok")
        if write_way(case) == how:
            return case


# ---- cases by aim --------------------------------------------------------

WHERE = ["own", "copy", "home"]
WAYS = ["first", "further", "overwritten"]
VERDICTS = ["reel", "unused", 15, 16, 17]
READ_STOPS = [1, 2, 4, 5, 6]
WRITE_STOPS = READ_STOPS + [7, 8, 9]
ABOVE = "clock above word 3"
# What each case in turn is aimed at: call, kind or verdict, and for a read or write what the store does.
TURNS = ([(call, kind, None) for call in ("pack", "unpack", "length") for kind in KINDS]
         + [("length", kind, None) for kind in LENGTHS]
         + [("read reel", kind, where) for kind in KINDS for where in WHERE]
         + [("write reel", kind, way) for kind in KINDS for way in WAYS]
         + [("read reel", verdict, number) for verdict in VERDICTS for number in READ_STOPS]
         + [("write reel", verdict, number) for verdict in VERDICTS for number in WRITE_STOPS]
         + [("read reel", kind, number) for kind, number in zip(SEVERAL, itertools.cycle(READ_STOPS))]
         + [("write reel", kind, number) for kind, number in zip(SEVERAL, itertools.cycle(WRITE_STOPS))]
         + [("write reel", "reel", how) for how in (WAYS + ["second slot"] + WRITE_STOPS) * 3]
         + [("read reel", verdict, where) for verdict in ("reel", "unused") for where in WHERE * 2]
         + [(call, "reel", None) for call in ("pack", "unpack", "length") * 4]
         + [(call, verdict, ABOVE) for call in ("read reel", "write reel") for verdict in VERDICTS])


def without_speed(call, verdict):
    """The verdict for an open reel without a speed: packed or written it is 16, before 17; unpacked or read,
    and not bad otherwise, it is marked; its length is as it was."""
    if call in ("pack", "write reel"):
        return 16 if verdict in ("reel", 17) else verdict
    return "speed to find" if verdict == "reel" and call != "length" else verdict


def answer_aimed(call, verdict, four, how):
    """The answer, and for a read that the store takes own, copy or home."""
    how = 2 if how == ABOVE else how
    if [four[CARRIER], four[SPEED]] == [1, 0]:
        verdict = without_speed(call, verdict)
    if call == "read reel":
        return (verdict, how) if how in WHERE else (how, None)
    if verdict == "unused" and call in ("pack", "write reel"):  # it is not written
        return 15, None
    if call == "unpack" or isinstance(verdict, int):
        return verdict, None
    if call == "length":
        return ("unknown" if four[SPEED] == 0 else "metres"), None
    return (how if isinstance(how, int) else "ok"), None


def make(seed, number):
    """The case with this number, and what it is aimed at: call, answer, and own, copy or home or None."""
    rng = random.Random("reels/%d/%d" % (seed, number))
    call, kind, how = TURNS[number % len(TURNS)]
    verdict, four = four_of(rng, kind)
    if call == "read reel":
        case = dict(read_scene(rng, how, four), call=call)
    elif call == "write reel":
        case = dict(write_scene(rng, how), call=call, words=four)
    else:
        case = dict(raw.blank(call), words=four)
    return case, (call, *answer_aimed(call, verdict, four, how))


if __name__ == "__main__":
    raw.main(sys.argv[1:], make, __doc__, FIRST)
