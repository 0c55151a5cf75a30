"""Raw cases of short logs (document 02, Req 08), and of full ones beside them:
one call each, and what it must answer and leave.

    python3 rawshort.py in SEED COUNT > cases       inputs of COUNT cases
    python3 rawshort.py packed SEED COUNT > cases   the same, packed
    python3 rawshort.py want SEED COUNT > lines     what they must give
    python3 rawshort.py count SEED COUNT            cases by call and answer
    python3 rawshort.py show SEED CASE              one case in full, as text
    python3 rawshort.py why                         what each case is for

The format is that of raw.py, described there. Nothing is drawn: a case depends
on its own number (from 0) alone. Stored, the cases stand behind those of open
reels without a speed; the numbers in their lines go on from there.
"""

import itertools
import sys

import raw
import rawalone
import rawspeeds
import store
from raw import TOP
from rawalone import put, seated, with_word
from store import L

FIRST = rawspeeds.FIRST + len(rawspeeds.TURNS)  # number of the first of these cases in the lines
N, M, CLOCK, WORD_3 = 8, 4, 9, 20
CALLER, START = 1, 7
HIGH = 2 ** 63
LAST = {1: 2, 2: 4, 3: 7, 4: 9}  # by the number of copies: the most words that differ in a short log


# ---- logs and images -----------------------------------------------------
# Words that no call may look at are 130 to 219: as a count, record or index below 4 * 8 they would be out of range.

def rest(at):
    """Such words from this one of a slot on."""
    return [130 + 37 * i % 90 for i in range(at, 22)]


def short(number, indexes, count=None):
    """The 22 words of a short log with these indexes, and this word 1 if it is another."""
    words = [number, 16 + len(indexes) if count is None else count]
    for at, index in enumerate(indexes):
        words += [index, 220 + at]
    return words + rest(len(words))


def full(number, records, count=None):
    """The same of a full log."""
    words = [number, len(records) if count is None else count]
    for at, record in enumerate(records):
        words += [record] + [180 + 10 * at + i for i in range(4)]
    return words + rest(len(words))


def home_word(index):
    return 21 + index % 99


def image_of(n, m, logs, word_3=WORD_3):
    """An image with these logs by place; the other slots are empty but for word 0."""
    slots = [logs.get(place, [0] + rest(1)) for place in range(2 * m)]
    return [1, n, m, word_3] + [home_word(index) for index in range(4 * n)] + [word for slot in slots for word in slot]


# ---- finish --------------------------------------------------------------
# What makes cases yields, for each, what it is for, the answer, its value, the number of entries and the case.

def copies_of(records, spots):
    """Copies of these records, in this order, that differ from home at these spots: 4 times the place plus the word."""
    return [[record, [home_word(4 * record + i) + 100 * (4 * place + i in spots) for i in range(4)]]
            for place, record in enumerate(records)]


def beside(desk, taken):
    """Other sessions with records of their own: one shows its copy to all, one to nobody yet, one is sealed."""
    free = [record for record in range(desk["N"]) if record not in taken]
    for session, phase, number in ((0, "published", 5), (2, "sealed", 4), (3, "published", 8)):
        if session < desk["M"] and free:
            rawalone.sit(desk, session, phase, number, [free.pop()], session % 2)


def finishing(copies, n=N, m=M, session=CALLER, slot=1, clock=CLOCK, trace=48, logs=()):
    """A finish with these copies."""
    desk, taken = store.new_desk(clock, n, m), [record for record, _ in copies]
    beside(desk, taken)
    desk["sessions"][session] = store.entry("active", min(START, clock), copies, slot if copies else 0)
    for record in taken:
        desk["marks"][record] = session
    image = image_of(n, m, dict(logs), max(clock, WORD_3))
    return dict(raw.blank("finish"), image=image, desk=raw.listed(desk), session=session, trace=trace)


def sealed(why, k, case):
    """A turn of a finish in which k words differ."""
    copies = case["desk"]["sessions"][case["session"]]["count"]
    entries = 2 * k + 4 if k <= LAST[copies] else 5 * copies + 4
    return why, "sealed", case["desk"]["clock"], entries, case


ORDERS = {1: [[3], [7], [0]], 2: [[6, 1], [2, 5], [1, 0]], 3: [[7, 0, 4], [1, 5, 3], [6, 5, 4]],
          4: [[6, 2, 7, 0], [3, 2, 1, 0], [0, 1, 2, 3], [4, 7, 1, 3]]}


def numbers_of_words():
    """Each number of copies with each number of words that differ, spread over them."""
    for c, orders in ORDERS.items():
        for k in range(4 * c + 1):
            spots = [i * 4 * c // k for i in range(k)]
            yield sealed("%d copies, %d words differ" % (c, k), k, finishing(
                copies_of(orders[k % len(orders)], spots), slot=k % 2))


def steps():
    """The last short log and the first full one, with the first words that differ and with the last ones."""
    for c, k in LAST.items():
        for many in (k, k + 1):
            for spots, name in ((range(many), "first"), (range(4 * c - many, 4 * c), "last")):
                yield sealed("%d copies, the %s %d words differ" % (c, name, many), many, finishing(
                    copies_of(sorted(ORDERS[c][-1], reverse=name == "last"), spots)))


def single_words():
    """One word of one copy differs, in each position; the first and the last home word too."""
    for record, i in itertools.product((0, 4, N - 1), range(4)):
        yield sealed("word %d of record %d" % (i, record), 1, finishing(copies_of([record], [i]), slot=0))
    for i in range(4):
        yield sealed("word %d of the only record" % i, 1, finishing(copies_of([0], [i]), 1, 1, 0, i % 2))
    for record, i in ((0, 0), (63, 3), (64, 0), (255, 3)):
        yield sealed("word %d of record %d of 256" % (i, record), 1, finishing(copies_of([record], [i]), 256, 16, 15))
    for spot in range(0, 16, 5):
        yield sealed("four copies, of one a word differs", 1, finishing(copies_of([5, 3, 6, 1], [spot])))


def orders():
    """The words go by ascending index, whatever the order of the copies."""
    for records in itertools.permutations([1, 2, 5]):
        yield sealed("copies of %s" % list(records), 3, finishing(copies_of(records, [2, 4, 11])))
    for records in ([7, 5, 2, 0], [0, 7, 2, 5], [5, 0, 7, 2], [2, 0, 5, 7]):
        yield sealed("copies of %s" % records, 9, finishing(copies_of(records, [0, 3, 4, 5, 7, 10, 12, 14, 15])))
    for spots in ([1, 2, 4, 7], [0, 3], [5, 6]):
        yield sealed("copies of 6 and 1, spots %s" % spots, len(spots), finishing(copies_of([6, 1], spots)))
    for records in ([255, 0, 128, 64], [64, 65, 63, 62]):
        for k in (9, 10):
            yield sealed("copies of %s of 256, %d words differ" % (records, k), k, finishing(
                copies_of(records, range(16 - k, 16)), 256, 16, 15))


def values():
    """A word differs if any of its bits does."""
    for one, other in ((0, 1), (1, 0), (0, TOP), (TOP, 0), (HIGH + 5, 5), (5, HIGH + 5), (2 ** 32 + 5, 5), (5, 2 ** 32 + 5),
                       (256, 0), (6, 7), (TOP, TOP - 1), (TOP, TOP), (0, 0), (HIGH, HIGH)):
        copies = copies_of([2], [])
        copies[0][1] = put(copies[0][1], 1, other)
        yield sealed("%d over %d" % (other, one), int(one != other), with_word(
            finishing(copies), store.home_at(2) + 1, one))


def other_logs():
    """Logs that are there don't tell what differs: of the session's other slot, of another session, older ones in the
    reserved slot."""
    copies = copies_of([2, 6], [1, 4])  # home words 9 and 24 differ
    words = [word for record, four in copies for word in [record] + four]
    told = [16 + 2, 9, home_word(9) + 100, 24, home_word(24) + 100]
    logs = {"full, with the copies' words": [3, 2] + words + rest(12), "full, with other words": full(3, [2, 6]),
            "short, with the copies' words": [3] + told + rest(6), "short, with other words": short(3, [9, 24])}
    for name, log in logs.items():
        yield sealed("a log in the other slot, %s" % name, 2, finishing(copies, logs={2 * CALLER: log}))
        yield sealed("a log of another session, %s" % name, 2, finishing(copies, logs={6: log}))
        yield sealed("what is left in the reserved slot: %s" % name, 2, finishing(copies, logs={2 * CALLER + 1: put(log, 0, 0)}))
    yield sealed("the reserved slot is occupied", 2, finishing(copies, logs={2 * CALLER + 1: short(4, [1])}))
    yield sealed("the same words, four copies", 0, finishing(copies_of([3, 2, 1, 0], []), logs={2 * CALLER: short(3, [0, 5])}))


def ends():
    """Room, clock and refusals, whichever the form would be."""
    one, none = copies_of([2], [3]), copies_of([2, 4], [])
    nine = copies_of([3, 1, 7, 5], range(3, 12))
    for trace in (48, 64):
        for copies, k in ((none, 0), (nine, 9)):
            yield sealed("%d words of room" % trace, k, finishing(copies, trace=trace))
    for copies, k in ((none, 0), (one, 1), (nine, 9)):
        yield sealed("the clock is L - 1", k, finishing(copies, clock=L - 1))
        yield "the clock is L", 10, 0, 0, finishing(copies, clock=L)
        yield "47 words of room", 3, 0, 0, finishing(copies, trace=47)
    for room in (8, 46):  # fewer words than a full log needs
        yield "%d words of room, and the list has 8" % room, 3, 0, 0, finishing(none, trace=room)
    short_of = finishing(none)
    yield "a word too few", 1, 0, 0, dict(short_of, image=short_of["image"][:-1])
    yield "the clock above word 3", 2, 0, 0, with_word(finishing(none), 3, CLOCK - 1)
    yield "session M", 4, 0, 0, dict(finishing(none), session=M)
    yield "sealed already", 6, 0, 0, seated(finishing(one), CALLER, "sealed", 6, [2])
    yield "no copies", "empty", 0, 0, finishing([])
    yield "a listener with copies of equal words", 18, 0, 0, dict(finishing(none), call="finish listening")


# ---- recover: sound logs -------------------------------------------------

RISING = [0, 2, 3, 7, 12, 13, 20, 30, 31]  # nine indexes below 4 * 8


def recovers(n, m, logs, trace=48):
    return dict(raw.blank("recover"), image=image_of(n, m, logs), trace=trace)


def replayed(why, number, entries, n, m, logs):
    return why, "replayed", number, entries, recovers(n, m, logs)


def refused(why, answer, place, *scene):
    return why, answer, place, 0, recovers(*scene)


def counted():
    """Each sound count, with words past what it counts that would be faults."""
    for c in (1, 2, 3, 4):
        yield replayed("count %d" % c, 6, 4 * c + 3, N, 2, {c - 1: full(6, [5, 0, 7, 2][:c])})
    for k in range(10):
        yield replayed("count %d" % (16 + k), 6, k + 3, N, M, {k % 8: short(6, RISING[9 - k:])})
        yield replayed("count %d, the first words" % (16 + k), 6, k + 3, 3, 1, {k % 2: short(6, range(k))})
    for k in range(9):  # the pair past them would not ascend, or is the same as the last
        for index in sorted({RISING[k - 1] if k else 4 * N, 0}):
            log = short(6, RISING[:k] + [index], 16 + k)
            yield replayed("count %d, and index %d past it" % (16 + k, index), 6, k + 3, N, 1, {0: log})
    yield replayed("new words as they are at home", 6, 5, N, 1, {0: [6, 18, 1, home_word(1), 9, home_word(9)] + rest(6)})
    yield replayed("new words that are large", 6, 6, N, 1, {1: [6, 19, 1, TOP, 9, HIGH, 10, 2 ** 32] + rest(8)})


def at_bounds():
    """The last home word, and one past it; indexes that are good but for high bits, or that a sum would bring back."""
    for n in (1, 8, 64, 256):
        last = 4 * n - 1
        yield replayed("index %d of %d records" % (last, n), 6, 4, n, 1, {1: short(6, [last])})
        yield replayed("indexes 0 and %d" % last, 6, 5, n, 1, {0: short(6, [0, last])})
        yield refused("index %d of %d records" % (last + 1, n), 12, 1, n, 1, {1: short(6, [last + 1])})
    yield replayed("all words of one record", 6, 7, 1, 16, {31: short(6, range(4))})
    yield refused("five indexes where there are four words", 12, 31, 1, 16, {31: short(6, range(5))})
    for index in (33, 36, 256, 2 ** 32, 2 ** 32 + 4, 2 ** 62, 2 ** 62 + 1, HIGH, HIGH + 5, TOP - 4, TOP - 3, TOP):
        yield refused("index %d of 8 records" % index, 12, 0, N, 1, {0: short(6, [index])})
        if index in (2 ** 32 + 4, 2 ** 62 + 1, HIGH + 5, TOP - 3, TOP):
            yield refused("index %d behind 5" % index, 12, 0, N, 1, {0: short(6, [5, index])})
    for k in range(1, 10):
        yield refused("the last of %d is 4N" % k, 12, 2, N, 2, {2: short(6, RISING[:k - 1] + [4 * N])})


# ---- recover: 12 and 13 --------------------------------------------------

COUNTS = [0, *range(5, 16), 26, 27, 31, 32, 33, 48, 255, 256 + 16, 2 ** 32 + 1, 2 ** 32 + 16, 2 ** 32 + 20, HIGH, HIGH + 1, HIGH + 17,
          TOP - 15, TOP]


# Ten pairs with rising indexes, and at words 2, 7, 12 and 17 four records below 8: sound but for word 1, read either way.
EITHER_WAY = [0, 220, 1, 221, 2, 6, 3, 222, 4, 223, 5, 224, 6, 225, 7, 2, 8, 226, 9, 227]


def counts():
    """12 by word 1 alone, all else sound in either form; in an empty slot it is nothing."""
    for count in COUNTS:
        yield refused("word 1 is %d" % count, 12, 1, N, 2, {1: [6, count] + EITHER_WAY})
    for count, entries in ((4, 19), (16, 3), (25, 12)):
        yield replayed("word 1 is %d" % count, 6, entries, N, 2, {1: [6, count] + EITHER_WAY})
    for count in (0, 10, 16, 25, 26, TOP):
        yield "word 1 is %d in an empty slot" % count, "clean", 0, 0, recovers(N, 1, {0: short(0, RISING, count)})
    for index in (4 * N, TOP):
        yield replayed("index %d in an empty slot" % index, 6, 5, N, 1, {0: short(0, [index]), 1: short(6, [3, 4])})
    yield replayed("indexes that fall in an empty slot", 6, 7, N, 1, {0: full(6, [3]), 1: short(0, [5, 4])})


def falling():
    """12 by two neighbours that don't ascend, at each place; each of the others is above the one before."""
    even = [2 * i + 2 for i in range(9)]
    for at in range(1, 9):
        yield refused("nine pairs, equal at %d" % at, 12, 0, N, 1, {0: short(6, put(even, at, even[at - 1]))})
        yield refused("nine pairs, falling at %d" % at, 12, 0, N, 1, {0: short(6, put(even, at, even[at - 1] - 1))})
    for k in (3, 6):
        yield refused("%d pairs, the last equal" % k, 12, 1, N, 1, {1: short(6, even[:k - 1] + [even[k - 2]])})
    yield refused("two pairs that fall", 12, 0, N, 1, {0: short(6, [9, 8])})
    yield refused("two pairs that fall, the new words rise with them", 12, 0, N, 1, {0: [6, 18, 9, 1, 0, 2] + rest(6)})
    yield refused("index 0 twice", 12, 0, N, 1, {0: short(6, [0, 0])})
    yield refused("nine pairs that fall throughout", 12, 3, N, 2, {3: short(6, even[::-1])})
    yield refused("the first and the last exchanged", 12, 0, N, 1, {0: short(6, [18, 4, 6, 2])})
    yield refused("the index of the third is that of the first", 12, 0, N, 1, {0: short(6, [4, 8, 4])})


def places():
    """12 names the lowest place at fault, whichever the form, and comes before 13."""
    bad_full, bad_short, bad_count, fine = full(2, [N]), short(9, [5, 5]), short(4, [1], 26), short(1, [0, 31])
    yield refused("full at fault, then short", 12, 1, N, 2, {1: bad_full, 2: bad_short})
    yield refused("short at fault, then full", 12, 1, N, 2, {1: bad_short, 2: bad_full})
    yield refused("short at fault in the last place of all", 12, 31, N, 16, {0: fine, 31: bad_short})
    yield refused("sound, count, index", 12, 4, N, M, {0: fine, 4: bad_count, 7: short(6, [4 * N])})
    yield refused("a sound short log and a full one at fault", 12, 3, N, 2, {0: fine, 3: full(1, [1, 1])})
    yield refused("a sound full log and a short one at fault", 12, 2, N, 2, {0: full(1, [1, 2]), 2: bad_short})
    yield refused("12 behind two logs at odds", 12, 5, N, 3, {0: short(3, [8]), 1: short(3, [9]), 5: short(7, [4 * N])})
    yield refused("12 of a log that is at odds with another", 12, 1, N, 1, {0: short(3, [8]), 1: short(3, [8, 8])})


def at_odds():
    """13 by a record that both touch."""
    def pair(why, one, other, spots=(0, 3), m=2):
        return refused(why, 13, 0, N, m, dict(zip(spots, (one, other))))
    yield pair("the same word", short(5, [9]), short(5, [9]))
    for one, other in itertools.combinations(range(4), 2):
        yield pair("words %d and %d of a record" % (one, other), short(5, [8 + one]), short(5, [8 + other]))
    yield pair("two slots of one session", short(5, [8]), short(5, [11]), (2, 3))
    yield pair("short, then full", short(5, [31]), full(5, [7]), (1, 2))
    yield pair("full, then short", full(5, [7]), short(5, [28]), (1, 2))
    yield pair("two slots of one session, of both forms", full(5, [0]), short(5, [3]), (0, 1))
    yield pair("the places furthest apart", short(5, [0]), full(5, [0]), (0, 31), 16)
    yield pair("the first word of all", short(5, [0]), short(5, [0, 31]))
    for at in range(9):
        yield pair("pair %d of nine, with a short log" % at, short(5, nine(at)), short(5, [17]))
        yield pair("pair %d of nine, with a full log" % at, full(5, [4]), short(5, nine(at)))
    for at in range(4):
        yield pair("place %d of a full log" % at, short(5, [3, 18, 22]), full(5, put([7, 1, 6, 2], at, 5)))
    yield pair("record 1 and index 4", full(5, [1]), short(5, [4]))
    yield pair("a number of 2^64 - 1", short(TOP, [6]), short(TOP, [5]))
    for numbers in ((1, 5, 5), (5, 5, 1), (5, 1, 5)):
        one, two, three = numbers
        yield refused("three logs with the numbers %d %d %d" % numbers, 13, 0, N, 3,
                      {0: short(one, [8]), 3: full(two, [2]), 5: short(three, [11])})


def nine(at):
    """Nine indexes below 4 * 8 of which this one alone is of record 4."""
    below, above = [0, 1, 3, 5, 7, 9, 11, 13][:at], [20, 21, 22, 24, 25, 28, 30, 31]
    return below + [16 + at % 4] + above[at:]


def apart():
    """No record in common, or other numbers: no 13."""
    def pair(why, entries, one, other, spots=(0, 3)):
        return replayed(why, min(one[0], other[0]), entries, N, 2, dict(zip(spots, (one, other))))
    yield pair("neighbouring words of two records", 4, short(5, [11]), short(5, [12]))
    yield pair("neighbours of both forms", 5, short(5, [7, 12]), full(5, [2]))
    yield pair("neighbours of both forms, full first", 11, full(5, [2, 4]), short(5, [7, 12, 15, 20]))
    yield pair("no pairs, and a full log", 3, short(5, []), full(5, [0, 1, 2, 3]))
    yield pair("a full log, and no pairs", 19, full(5, [0, 1, 2, 3]), short(5, []))
    yield pair("no pairs, and nine", 3, short(5, []), short(5, RISING))
    yield pair("twice no pairs", 3, short(5, []), short(5, []))
    yield pair("twice no pairs in one session", 3, short(5, []), short(5, []), (2, 3))
    yield pair("no pairs, and what is left of the same record in both", 3, short(5, [8], 16), short(5, [8], 16))
    yield pair("in common past the pairs alone", 4, short(5, [0, 8], 17), short(5, [4, 9], 17))
    yield pair("in common past the copies alone", 7, full(5, [1, 2], 1), short(5, [8]))
    yield pair("record 4 and index 4", 7, full(5, [4]), short(5, [4]))
    yield pair("record 2 and indexes 2 and 3", 5, short(5, [2, 3]), full(5, [2]))
    yield pair("a new word that is the other's index", 4, [5, 17, 4, 9] + rest(4), [5, 17, 9, 4] + rest(4))
    yield pair("other numbers, the same word", 4, short(6, [9]), short(5, [9]))
    yield pair("other numbers, the same record in both forms", 7, short(6, [9]), full(5, [2]))
    yield pair("numbers with the same low 32 bits", 4, short(5, [9]), short(2 ** 32 + 5, [9]))
    yield pair("numbers with the same low 63 bits", 7, short(HIGH + 5, [9]), full(5, [2]))


def smallest():
    """The smallest number of either form is replayed, the lowest place first among equals."""
    for why, number, entries, logs in (
            ("short before full", 3, 5, {0: full(7, [1]), 3: short(3, [4, 9])}),
            ("full before short", 3, 7, {0: short(7, [4, 9]), 3: full(3, [1])}),
            ("short, by its number", 3, 4, {0: short(7, [4, 9]), 1: full(5, [1]), 2: short(3, [8])}),
            ("equal numbers, short in the lower place", 3, 5, {1: short(3, [4, 9]), 2: full(3, [6]), 3: short(8, [0])}),
            ("equal numbers, full in the lower place", 3, 11, {1: full(3, [6, 0]), 2: short(3, [4, 9]), 0: short(8, [0])}),
            ("no pairs and the smallest number", 1, 3, {0: full(2, [6, 0]), 2: short(1, []), 3: short(3, [1])}),
            ("2^63 is below 2^64 - 1", HIGH, 4, {0: short(TOP, [1]), 1: short(HIGH, [2])}),
            ("nine pairs over a full log of the same records", 4, 12, {0: full(6, [0, 1]), 3: short(4, RISING)})):
        yield replayed(why, number, entries, N, 2, logs)
    yield replayed("the last place of all", 2, 12, 256, 16, {0: full(3, [255]), 31: short(2, [0, 1, 255, 256, 511, 512, 1020, 1022, 1023])})


def first_checks():
    """1 and 3 come before 12 and 13; room of 48 words is enough for each."""
    bad, odd = {0: short(6, [4 * N])}, {0: short(6, [8]), 1: short(6, [11])}
    fine = {0: short(6, RISING)}
    for name, logs in (("12", bad), ("13", odd), ("a sound log", fine), ("12 by word 1", {1: short(6, [1], 26)})):
        yield refused("47 words, and %s" % name, 3, 0, N, 1, logs, 47)
        case = recovers(N, 1, logs, 47)
        yield "a word too few, 47 words, and %s" % name, 1, 0, 0, dict(case, image=case["image"][:-1])
    yield "6 words of room, which the list would fill", 3, 0, 0, recovers(N, 1, {0: short(6, [])}, 6)
    for trace in (49, 64):
        yield "%d words of room" % trace, "replayed", 6, 12, recovers(N, 1, fine, trace)


# ---- the other calls -----------------------------------------------------

def on(call, logs, *seat):
    """A call of a session that sits so, on an image with these logs."""
    return seated(dict(rawalone.plain(call), image=image_of(N, M, logs)), CALLER, *seat or ["idle"])


def others():
    """Open, reclaim, settle, publish, read and write don't look at a log's form."""
    at, bad = 2 * CALLER, short(3, [4 * N], 40)
    yield "a short log", 11, 0, 0, dict(raw.blank("open"), image=image_of(N, 2, {3: short(6, [])}), trace=48)
    yield "what is left of short logs", "ok", 0, 2, dict(
        raw.blank("open"), image=image_of(N, 2, {0: short(0, RISING), 3: short(0, [])}), trace=48)
    yield "a short log", "cleared", 3, 2, on("reclaim", {at: short(3, [4, 9])})
    yield "no pairs", "cleared", 3, 2, on("reclaim", {at + 1: short(3, [])})
    yield "a short log at fault", "cleared", 3, 2, on("reclaim", {at: bad, 7: full(9, [1])})
    yield "a short log, an older full one", "held", 2, 0, on("reclaim", {at: short(3, [4]), 7: full(2, [5])})
    yield "a full log, an older one without pairs", "held", 2, 0, on("reclaim", {at: full(3, [4]), 0: short(2, [])})
    yield "equal numbers, a record in common", "cleared", 3, 2, on("reclaim", {at: short(3, [4]), at + 1: full(3, [1])})
    yield "the smaller of two short logs", "cleared", 2, 2, on("reclaim", {at: short(3, [4]), at + 1: short(2, [8])})
    yield "the short log of the sealed transaction is left out", "none", 0, 0, on(
        "reclaim", {at: short(3, [4])}, "sealed", 6, [2], 0)
    for log in (short(5, [8]), short(5, []), full(5, [2]), bad):
        yield "a log of count %d: all words of the copies go home" % log[1], "ok", 0, 9, on(
            "settle", {at + 1: log}, "published", 6, [2, 5], 1)
    case = on("settle", {at + 1: short(5, [9])}, "published", 6, [2, 5], 1)
    case["desk"]["sessions"][CALLER] = store.entry("published", 6, copies_of([2, 5], [1]), 1)
    yield "one word differs: all words of the copies go home", "ok", 0, 9, case
    yield "a short log of the record", "home", 0, 0, on("read", {at: short(5, [12, 13])}, "active", 7)
    yield "two short logs", 9, 0, 0, on("write", {at: short(5, []), at + 1: short(6, [3])}, "active", 7)
    yield "one short log", "ok", 0, 0, on("write", {at: short(5, [])}, "active", 7)
    yield "a short log in the slot", "end", CLOCK + 1, 0, on("publish", {at: short(5, [])}, "sealed", 6, [2], 0)


# ---- cases by aim --------------------------------------------------------

MAKERS = [numbers_of_words, steps, single_words, orders, values, other_logs, ends, counted, at_bounds, counts, falling, places,
          at_odds, apart, smallest, first_checks, others]
# What each case is for, its answer, value and number of entries, and the case.
TURNS = [turn for maker in MAKERS for turn in maker()]


def make(seed, number):
    """The case with this number, whatever the seed, and what it is aimed at: call, answer, value, entries."""
    _, answer, value, entries, case = TURNS[number % len(TURNS)]
    return case, (case["call"], answer, value, entries)


if __name__ == "__main__":
    if sys.argv[1:] == ["why"]:
        for at, (why, answer, value, entries, case) in enumerate(TURNS, FIRST):
            print("%d %-16s %8s %2d %s" % (at, case["call"], answer, entries, why))
    else:
        raw.main(sys.argv[1:], make, __doc__, FIRST)
