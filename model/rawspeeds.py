"""Raw cases of open reels without a speed (document 02, Req 07), and of the
reels beside them: one call each, and what it must answer and leave.

    python3 rawspeeds.py in SEED COUNT > cases       inputs of COUNT cases
    python3 rawspeeds.py packed SEED COUNT > cases   the same, packed
    python3 rawspeeds.py want SEED COUNT > lines     what they must give
    python3 rawspeeds.py count SEED COUNT            cases by call and answer
    python3 rawspeeds.py show SEED CASE              one case in full, as text

The format is that of raw.py, described there. A case depends on the seed and
its own number (from 0) alone. Stored, the cases stand behind those with one
cause alone; the numbers in their lines go on from there.
"""

import itertools
import random
import sys

import raw
import rawalone
import rawreels
from rawreels import ABOVE, READ_STOPS, WAYS, WHERE, WRITE_STOPS

FIRST = rawalone.FIRST + len(rawalone.TURNS)  # number of the first of these cases in the lines


# ---- reels and what the calls give for them ------------------------------
# Where a reel has None, a good shelf number or playing time is drawn.

WITHOUT = [None, 1, 0, None]  # an open reel without a speed
WITH = [[None, 1, code, None] for code in (1, 2, 3, 4, 5)]
UNUSED, BAD, BESIDE = [0, 0, 0, 0], [5, 1, 6, 60], [77, 1, 3, 3600]  # what may be stored beside it or before it
# The answers of pack, unpack, read, write and length: of a good reel; of another carrier with code 0; of an open
# reel without a speed, and of one whose seconds or shelf number are out of range besides; with 16 whatever is done.
GOOD = ["ok", "reel", "reel", "ok", "metres"]
CODE_0 = ["ok", "reel", "reel", "ok", "unknown"]
TO_FIND = [16, "speed to find", "speed to find", 16, "unknown"]
SECONDS_OUT = [16, 17, 17, 16, 17]
SHELF_OUT = [15, 15, 15, 15, 15]
NOT_TAKEN = [16, 16, 16, 16, 16]
# By carrier, of the codes 0 to 6.
CODES = {1: [TO_FIND] + [GOOD] * 5 + [NOT_TAKEN], 2: [CODE_0, GOOD] + [NOT_TAKEN] * 5, 3: [CODE_0] + [NOT_TAKEN] * 6}
PAIRS = [([None, carrier, code, None], answers) for carrier in CODES for code, answers in enumerate(CODES[carrier])]
# At the edges of shelf number and seconds, past them, and an unused record, which has code 0 too.
EDGES = [([1, 1, 0, 0], TO_FIND), ([999999, 1, 0, 359999], TO_FIND), ([1, 1, 0, 360000], SECONDS_OUT),
         ([0, 1, 0, 0], SHELF_OUT), ([1000000, 1, 0, 359999], SHELF_OUT), ([0, 1, 0, 360000], SHELF_OUT),
         (UNUSED, [15, "unused", "unused", 15, "unknown"])]
# Carriers and codes whose low bits alone would be 1 and 0.
LOW_BITS = [([None, carrier, 0, None], NOT_TAKEN) for carrier in (257, 2 ** 32 + 1, 2 ** 63 + 1)]
LOW_BITS += [([None, 1, code, None], NOT_TAKEN) for code in (256, 2 ** 32, 2 ** 63)]
# One without a speed written anew, and what the reel gives by itself.
REWRITES = [(WITHOUT, 16)] + [(reel, "ok") for reel in WITH] + [([None, 1, 6, None], 16)]
REWRITES += [([None, 2, 0, None], "ok"), ([None, 2, 1, None], "ok"), ([None, 2, 2, None], 16)]
REWRITES += [([None, 3, 0, None], "ok"), ([None, 3, 1, None], 16)]


def drawn(rng, four):
    """The four numbers, with what is to be drawn."""
    return [good if number is None else number for number, good in zip(four, rawreels.good_reel(rng))]


# ---- scenes --------------------------------------------------------------

HELD, SHOWN = "home, held by another", "shown by another"
# Where the session sees the record, for a read and for a write.
SEEN = {HELD: "home", SHOWN: "copy", "first": "home", "further": "home", "overwritten": "own",
        **{where: where for where in WHERE}}


def placed(case, where, seen, other):
    """The case with these words where the session sees the record, and others at the other place."""
    return rawreels.filled(case, *((seen, other) if where == "home" else (other, seen)))


def read_scene(rng, how):
    """A read that the store takes: from own, copy or home, or from home while another has a copy."""
    while True:
        case = raw.aimed(rng, "read", SEEN[how])
        if how != HELD or case["desk"]["marks"][case["record"]] is not None:
            return case


def shown_scene(rng):
    """A write of a record that another session holds and shows: it is refused with 7."""
    while True:
        case = raw.aimed(rng, "write", 7)
        if raw.outcome(dict(case, call="read")) == "copy":
            return case


def write_scene(rng, how):
    """A write that the store takes in this way, or refuses."""
    return shown_scene(rng) if how == SHOWN else rawreels.write_scene(rng, how)


def read_case(rng, four, how, other):
    """A read of these words."""
    if how not in SEEN:  # refused by the store
        return rawreels.read_scene(rng, how, four)
    return placed(read_scene(rng, how), SEEN[how], four, other)


def write_case(rng, four, how, stored):
    """A write of these numbers over what is stored."""
    case = dict(write_scene(rng, how), words=four)
    return case if how not in SEEN else placed(case, SEEN[how], stored, BESIDE)


# ---- cases by aim --------------------------------------------------------
# A turn is call, four numbers, answer, for a read or write what the store does, and the words beside: of a read
# those at the other place, of a write those that are stored where the session sees the record.

STORED = [40, 1, 0, 60]  # one without a speed


def each_call(reel, answers, wheres, ways):
    """The reel packed, unpacked, its length, read from these places and written in these ways."""
    pack, unpack, read, write, length = answers
    yield "pack", reel, pack, None, None
    yield "unpack", reel, unpack, None, None
    yield "length", reel, length, None, None
    for where in wheres:
        yield "read reel", reel, read, where, BESIDE
    for way in ways:  # a first and an own copy over one without a speed, a further one over one that has it
        yield "write reel", reel, write, way, BESIDE if way == "further" else STORED


def in_turn(reels):
    """Each reel with each call, the next place and way for each."""
    for (reel, answers), where, way in zip(reels, itertools.cycle(WHERE), itertools.cycle(WAYS)):
        yield from each_call(reel, answers, [where], [way])


def beside():
    """Reads with other words at the other place."""
    for how in ("own", "copy", HELD):
        for other in (BESIDE, UNUSED, BAD):
            yield "read reel", WITHOUT, "speed to find", how, other
        yield "read reel", WITH[2], "reel", how, STORED


def rewritten():
    """What another holds and shows written anew; an open reel without a speed over what is not one."""
    for reel, answer in REWRITES:
        yield "write reel", reel, 7 if answer == "ok" else 16, SHOWN, STORED
    for way in ("overwritten", "first"):
        for stored in (BESIDE, UNUSED, BAD):
            yield "write reel", WITHOUT, 16, way, stored


def refused():
    """Each refusal of the store: of a write with and without a speed, of a read without; and the second slot."""
    answers = {number: number for number in WRITE_STOPS}
    answers.update({ABOVE: 2, "second slot": "ok"})
    for (how, answer), reel in zip(answers.items(), itertools.cycle(WITH)):
        yield "write reel", WITHOUT, 16, how, None
        yield "write reel", reel, answer, how, None
    for how in READ_STOPS + [ABOVE]:
        yield "read reel", WITHOUT, answers[how], how, None


TURNS = [turn for reel, answers in PAIRS for turn in each_call(reel, answers, WHERE, WAYS)]
TURNS += [*in_turn(EDGES), *in_turn(LOW_BITS), *beside(), *rewritten(), *refused()]


def make(seed, number):
    """The case with this number, and what it is aimed at: call, answer, and own, copy or home or None."""
    rng = random.Random("speeds/%d/%d" % (seed, number))
    call, reel, answer, how, words = TURNS[number % len(TURNS)]
    four = drawn(rng, reel)
    if call == "read reel":
        return dict(read_case(rng, four, how, words), call=call), (call, answer, SEEN.get(how))
    if call == "write reel":
        return dict(write_case(rng, four, how, words), call=call), (call, answer, None)
    return dict(raw.blank(call), words=four), (call, answer, None)


if __name__ == "__main__":
    raw.main(sys.argv[1:], make, __doc__, FIRST)
