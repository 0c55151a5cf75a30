"""Raw cases: one call each, on images and desks that no stream reaches, and
what the call must answer and leave.

    python3 raw.py in SEED COUNT > cases       inputs of COUNT cases
    python3 raw.py packed SEED COUNT > cases   the same, packed
    python3 raw.py want SEED COUNT > lines     what they must give
    python3 raw.py count SEED COUNT            cases by call and answer
    python3 raw.py show SEED CASE              one case in full, as text

A case depends on the seed and its own number (from 0) alone. The cases of the
reel library (document 02, Req 02) are made by rawreels.py, those of the
listening room's calls (Req 03) by rawlistening.py, those of a group's publish
(Req 06) by rawgroup.py, those with one cause alone, of any call, by
rawalone.py, those of open reels without a speed (Req 07) by rawspeeds.py,
those of short logs (Req 08) by rawshort.py, and those of the order in which
sessions began (Req 09) by raworder.py, in the same format.

INPUT. 64-bit words, lowest byte first, case after case up to the end of file:
    word  0       call: 0 lay, 1 begin, 2 read, 3 write, 4 finish, 5 publish,
                  6 settle, 7 reclaim, 8 abandon, 9 open, 10 recover; of the reel
                  library: 11 pack, 12 unpack, 13 read, 14 write, 15 length; of
                  the listening room: 16 begin, 17 read, 18 finish, 19 find;
                  20 publish of a group
    words 1, 2    N and M, for lay
    words 3, 4    session and record; for 20 the set in word 3, 0 to 65535
    words 5-8     the four words, for write; shelf, carrier, speed and seconds,
                  for 11 and 14; the record's words, for 12 and 15; for 19
                  the shelf number in word 5
    word  9       trace length in words, at most 64
    word  10      image length in words, at most 1800
    words 11-669  the desk, 659 words (below)
    then          the image words
Fields that the call does not take are 0. Word i of the trace before the call
is 0xA5A5A5A500000000 + i.

A DESK is 659 words: clock, N, M; 256 marks (0 none, else session + 1); 16
session entries of 24 words: phase (0 idle, 1 active, 2 sealed, 3 published),
its number (0 when idle), count of copies, slot, 4 places of 5 words (record,
four words); the 16 places of the order in which active sessions began, each a
session number. Marks and places of the order fit 8 bits; the other fields may
be any 64-bit number.

PACKED. The same words. A byte 0 to 246 is that word. Byte 247 and a byte r,
2 to 255, are r words 0. A byte 248 to 255 says that 1 to 8 bytes follow
(byte - 247), lowest first, that are the word. The shortest form is taken; a
run of zeros ends with its case.

WANT. One line of text a case, 12 decimal fields parted by one space:
    case, call, answer, value, four words, entries,
    digest of the image, digest of the trace, digest of the desk
The answer is the refusal's number, or 20 ok, 21 start, 22 own, 23 copy,
24 home, 25 empty, 26 sealed, 27 end, 28 wait, 29 none, 30 held, 31 cleared,
32 clean, 33 replayed, 34 reel, 35 unused, 36 unknown, 37 metres, 38 found,
39 speed to find. The value goes with start, sealed, end, wait, held, cleared,
replayed, metres, found (the record), 7 and 12; for 13 it is 22, 23 or 24 as
the store read, with 34, 35, 39, 15, 16 and 17, and 0 where the store refused.
The four words go with own, copy and home, with ok of 11 (the words packed) and
with reel and speed to find (shelf, carrier, speed, seconds); unused fields are
0. Entries is their number; they stand at the front of the trace. The digests
are of what the call leaves, refused or not; 0 where the call takes no such
part (lay: image alone; begin, abandon, 16: desk alone; open: image, trace and
the desk it gives; read, write, 13, 14, 17, 19: image and desk; finish,
publish, settle, reclaim, 18, 20: all three; recover: image and trace; 11, 12,
15: none).

DIGEST of k words: d = k at first, then for each word w, with its parts
w % 2**32 and then w // 2**32:
    d = (d * 1000003 + part) % 4294967291
No sum or product in it reaches 2 to the 64th.
"""

import copy
import itertools
import random
import struct
import sys
from collections import Counter

import listening
import reels
import store
from store import L

TOP = 2 ** 64 - 1
MOST = {"N": 256, "M": 16}
STORE_CALLS = ["lay", "begin", "read", "write", "finish", "publish", "settle",
               "reclaim", "abandon", "open", "recover"]
REEL_CALLS = ["pack", "unpack", "read reel", "write reel", "length"]
LISTENING_CALLS = ["begin listening", "read listening", "finish listening", "find"]
GROUP_CALL = "publish group"
CALLS = STORE_CALLS + REEL_CALLS + LISTENING_CALLS + [GROUP_CALL]
PHASES = ["idle", "active", "sealed", "published"]
ANSWERS = ["ok", "start", "own", "copy", "home", "empty", "sealed", "end", "wait",
           "none", "held", "cleared", "clean", "replayed", "reel", "unused", "unknown", "metres",
           "found", "speed to find"]
# Of the store's single calls; for the others see like().
WITH_DESK = STORE_CALLS[1:9]
WITH_IMAGE = [c for c in STORE_CALLS if c not in ("begin", "abandon")]
WITH_TRACE = ["finish", "publish", "settle", "reclaim", "open", "recover"]
WITH_RECORD = ["read", "write"]


# ---- running and encoding a case -----------------------------------------

def like(call):
    """The store's single call that takes the same parts: read for "read reel". A find takes those of a read,
    but no record; "publish group" takes those of a publish, but a set in the session's place. Pack, unpack
    and length are like none of the store's."""
    return "read" if call == "find" else call.split()[0]


def library_of(call):
    """The file of the model that has this call."""
    if call in REEL_CALLS:
        return reels
    return listening if call in LISTENING_CALLS else store


def run(case, library=None):
    """Makes the call of a case on the model, or on this copy of the file that has it."""
    call, image, desk, trace, session = (case[k] for k in ("call", "image", "desk", "trace", "session"))
    model, name = library or library_of(call), call.split()[0]
    if call == "lay":
        return model.lay(case["N"], case["M"], image)
    if call == "open":
        return model.open_image(image, trace)
    if call == "recover":
        return model.recover(image, trace)
    if call == "find":
        return model.find(image, desk, session, case["words"][0])
    if call == GROUP_CALL:
        return model.publish_group(image, desk, trace, session)
    if name == "read":
        return model.read(image, desk, session, case["record"])
    if name == "write":
        return model.write(image, desk, session, case["record"], case["words"])
    if call in REEL_CALLS:
        return getattr(model, call)(case["words"])
    if name in WITH_TRACE:
        return getattr(model, name)(image, desk, trace, session)
    return getattr(model, name)(desk, session)


def desk_words(desk):
    """The 659 words of a desk; zeros for none."""
    if desk is None:
        return [0] * 659
    out = [desk["clock"], desk["N"], desk["M"]]
    out += [0 if mark is None else mark + 1 for mark in desk["marks"]]
    for e in desk["sessions"]:
        out += [PHASES.index(e["phase"]), e["number"], e["count"], e["slot"]]
        for record, words in e["places"]:
            out += [record] + words
    return out + desk["order"]


def case_words(case):
    head = [CALLS.index(case["call"]), case["N"], case["M"], case["session"], case["record"]]
    image = case["image"] or []
    return (head + case["words"] + [case["trace"], len(image)]
            + desk_words(case["desk"]) + image)


def trace_before(case):
    return [0xA5A5A5A500000000 + i for i in range(case["trace"])]


def name_number(name):
    return 20 + ANSWERS.index(name)


def answer_number(answer):
    return answer["number"] if answer["name"] == "no" else name_number(answer["name"])


def value_number(answer):
    """The value; of a reel that was read it is own, copy or home."""
    return name_number(answer["value"]) if answer["value"] in ANSWERS else answer["value"]


def packed_word(word):
    """The bytes of one word, in the shortest form."""
    if word <= 246:
        return bytes([word])
    size = (word.bit_length() + 7) // 8
    return bytes([247 + size]) + word.to_bytes(size, "little")


def packed_zeros(times):
    """The bytes of a run of zeros: full runs, and then what is left."""
    full, rest = divmod(times, 255)
    return bytes([247, 255]) * full + (bytes(rest) if rest < 2 else bytes([247, rest]))


def packed(words):
    """The words of one case, packed."""
    out = []
    for zero, run in itertools.groupby(words, lambda word: word == 0):
        run = list(run)
        out += [packed_zeros(len(run))] if zero else [packed_word(word) for word in run]
    return b"".join(out)


def digest(words):
    d = len(words)
    for word in words:
        for part in (word % 2 ** 32, word // 2 ** 32):
            d = (d * 1000003 + part) % 4294967291
    return d


def want_line(number, case):
    """The line of a case."""
    done = run(case)
    call, answer = case["call"], done["answer"]
    trace = store.trace_after(trace_before(case), done["entries"])
    fields = [number, CALLS.index(call), answer_number(answer), value_number(answer)]
    fields += answer["words"] + [len(done["entries"])]
    fields.append(0 if done["image"] is None else digest(done["image"]))
    fields.append(digest(trace) if like(call) in WITH_TRACE else 0)
    fields.append(0 if done["desk"] is None else digest(desk_words(done["desk"])))
    return " ".join(str(field) for field in fields)


# ---- images --------------------------------------------------------------

SIZES = [(1, 1), (1, 2), (2, 1), (2, 2), (3, 3), (5, 2), (8, 4), (12, 3), (9, 16)] * 3 + [
    (256, 16), (256, 1), (1, 16), (255, 2)]


def some_word(rng):
    """A word of one byte mostly, a longer one about 1 time in 12."""
    if rng.randrange(12) == 0:
        return rng.choice([TOP, rng.getrandbits(64), rng.getrandbits(16)])
    return rng.choice([0, 0, 1, rng.randrange(247)])


def log_words(rng, n, number, records):
    """An occupied slot with these records; anything past the count."""
    words = [number, len(records)]
    for record in records:
        words += [record] + [some_word(rng) for _ in range(4)]
    return words + [some_word(rng) for _ in range(22 - len(words))]


def empty_words(rng):
    """In an empty slot words 1 to 21 may hold anything."""
    if rng.random() < 0.4:
        return [0] * 22
    return [0, rng.choice([0, 1, 5, TOP])] + [some_word(rng) for _ in range(20)]


def some_records(rng, n):
    return rng.sample(range(n), rng.randrange(1, 1 + min(4, n)))


def spoil_log(rng, n, words):
    """Makes an occupied slot one that recover turns away."""
    way = rng.randrange(4)
    if way == 0:
        words[1] = rng.choice([0, 5, 6, 255, 2 ** 32, TOP])
    elif way == 1:  # a record at or above N, in any used place
        words[2 + 5 * rng.randrange(words[1])] = rng.choice([n, n + 1, 256, 2 ** 62, TOP])
    elif way == 2:  # a record twice
        words[1] = 4
        a, b = rng.sample(range(4), 2)
        words[2::5] = some_four(rng, n)
        words[2 + 5 * a] = words[2 + 5 * b]
    else:  # the last place of a full log
        words[1] = 4
        words[2::5] = some_four(rng, n)
        words[17] = rng.choice([n, TOP, words[2]])


def some_four(rng, n):
    """Four records below N, different where N allows."""
    return rng.sample(range(n), 4) if n >= 4 else [rng.randrange(n) for _ in range(4)]


def some_numbers(rng):
    """A small pool of persist numbers, so that equal ones are common."""
    return [rng.choice([1, 2, 3, rng.randrange(1, 50), L - 1, L, L + 16, TOP,
                        rng.getrandbits(64) or 1]) for _ in range(rng.randrange(1, 5))]


def some_ceiling(rng, clock):
    """Header word 3 at or above a clock: at it, near it, as far above as a raise goes, at the edges."""
    near = [clock, clock, clock + 1, clock + 2, clock + 1023, clock + 1024, clock + rng.randrange(1025)]
    return max(clock, rng.choice(near + [L - 1, L, L + 1040, 2 ** 63, TOP, rng.getrandbits(64)]))


def image_of(rng, n, m, slots, ceiling):
    """Header with this in word 3, home records, slots."""
    homes = [some_word(rng) for _ in range(4 * n)]
    return [1, n, m, ceiling] + homes + [w for slot in slots for w in slot]


def with_ceiling(case, ceiling):
    """The case with this in header word 3."""
    return dict(case, image=case["image"][:3] + [ceiling] + case["image"][4:])


def some_image(rng, n, m, desk):
    """An image for session calls: its logs may be in any state."""
    pool = some_numbers(rng) + [e["number"] for e in desk["sessions"] if e["number"]]
    share = rng.choice([0, 0.2, 0.5, 0.8, 1])
    slots = []
    for place in range(2 * m):
        e = desk["sessions"][place // 2]
        if e["phase"] in ("sealed", "published") and e["slot"] == place % 2 and rng.random() < 0.6:
            slots.append(log_words(rng, n, rng.choice([e["number"], rng.choice(pool)]),
                                   [r for r, _ in store.copies_of(e)]))
        elif rng.random() < share:
            slots.append(log_words(rng, n, rng.choice(pool), some_records(rng, n)))
            if rng.random() < 0.2:
                spoil_log(rng, n, slots[-1])
        else:
            slots.append(empty_words(rng))
    return image_of(rng, n, m, slots, some_ceiling(rng, desk["clock"]))


def wrong_image(rng, image):
    """The image with a wrong length or header, and right otherwise."""
    image = list(image)
    way = rng.randrange(8)
    if way == 0:
        return image[:-1]
    if way == 1:
        return image + [0]
    if way == 2:
        return image[:rng.randrange(5)]
    if way == 3:
        image[0] = rng.choice([0, 2, TOP])
    elif way == 4:
        image[1] = rng.choice([0, 257, image[1] + 1, image[1] - 1, image[1] + 2 ** 62, TOP])
    elif way == 5:
        image[2] = rng.choice([0, 17, image[2] + 1, image[2] - 1, image[2] + 2 ** 62, TOP])
    elif way == 6:  # out of range, yet the length fits
        n, m = rng.choice([(257, 1), (1, 17), (0, 1), (1, 0), (257, 16), (256, 17)])
        return [1, n, m, 0] + [0] * (4 * n + 44 * m)
    else:
        return image[:4] + image[4 + 44:] if len(image) > 60 else image + [0] * 44
    return image


# ---- coherent desks ------------------------------------------------------

def in_order(desk):
    """The order that is right for the desk's active sessions: by ascending start, among equal starts in any order. That
    depends on the desk alone, and on no random number of the case."""
    active = [session for session, e in enumerate(desk["sessions"]) if e["phase"] == "active"]
    starts = {session: desk["sessions"][session]["number"] for session in active}
    random.Random(str([desk["clock"], desk["N"], starts])).shuffle(active)
    return sorted(active, key=starts.get) + [0] * (16 - len(active))


def listed(desk):
    """The desk with the order that is right for it."""
    desk["order"] = in_order(desk)
    return desk


def some_clock(rng, sealed, published):
    """Low, high and the edges; an end number needs a clock of 2 or more."""
    top = L + 16 - sealed
    clock = rng.choice([1, 2, 3, 6, rng.randrange(1, 60), rng.randrange(1, L), L - 1, L - 1,
                        L, min(L + 1, top), top - 1, top, top])
    return max(clock, 2 if published else 1)


def some_phases(rng, n, m):
    """Phase and count of copies for each session, within N records."""
    choices = rng.choice([PHASES, PHASES[1:], [rng.choice(PHASES[1:])]])
    many, chosen = rng.random() < 0.3, []
    for _ in range(m):
        phase = rng.choice(choices)
        least, most = 0 if phase == "active" else 1, min(4, n)
        if phase == "idle" or most < least:
            chosen.append(("idle", 0))
        else:
            chosen.append((phase, most if many else rng.randrange(least, most + 1)))
        n -= chosen[-1][1]
    return chosen


def some_desk(rng, n, m):
    """A coherent desk in any mix of phases."""
    chosen = some_phases(rng, n, m)
    phases = [phase for phase, _ in chosen]
    clock = some_clock(rng, phases.count("sealed"), "published" in phases)
    pool = [rng.choice([1, min(2, clock), clock, max(1, clock - 1), rng.randrange(1, clock + 1)])
            for _ in range(4)]
    desk, free = store.new_desk(clock, n, m), rng.sample(range(n), n)
    for session, (phase, count) in enumerate(chosen):
        if phase == "idle":
            continue
        number = max(2 if phase == "published" else 1, rng.choice(pool))
        copies = [[free.pop(), [some_word(rng) for _ in range(4)]] for _ in range(count)]
        desk["sessions"][session] = store.entry(phase, number, copies, rng.randrange(2) if count else 0)
        for record, _ in copies:
            desk["marks"][record] = session
    return listed(desk)


# ---- desks with a rule broken --------------------------------------------
# Each function alters a desk and returns False where it cannot. The names of
# the rules that are then broken stand in BREAKS. The order follows, and header
# word 3: it is no lower than the clock, but where that is the rule to break.

def pick(rng, desk, phases, least=0, most=4):
    """An entry below M in one of these phases with so many copies, or None."""
    found = [e for e in desk["sessions"][:desk["M"]]
             if e["phase"] in phases and least <= e["count"] <= most]
    return rng.choice(found) if found else None


def free_record(rng, desk):
    free = [r for r in range(desk["N"]) if desk["marks"][r] is None]
    return rng.choice(free) if free else None


def clear(desk):
    desk.update(store.new_desk(desk["clock"], desk["N"], desk["M"]))


def zero(field):
    def alter(rng, desk):
        clear(desk)
        desk[field] = 0
    return alter


def clock_high(rng, desk):
    sealed = sum(e["phase"] == "sealed" for e in desk["sessions"])
    desk["clock"] = L + 17 - sealed + rng.randrange(sealed + 2)


def clock_top(rng, desk):
    desk["clock"] = rng.choice([TOP, TOP - 15, 2 ** 63])


def as_it_is(rng, desk):
    """Word 3 is to break the rule."""


def size_high(size):
    def alter(rng, desk):
        desk[size] = rng.choice([MOST[size] + 1, MOST[size] + 2, TOP])
    return alter


def size_other(size):
    def alter(rng, desk):
        desk[size] += rng.choice([1, -1, rng.randrange(1, MOST[size])])
        return 1 <= desk[size] <= MOST[size]
    return alter


def same_length(rng, desk):
    """Another N and M that give the same length of the image."""
    desk["N"], desk["M"] = rng.choice([(desk["N"] + 11, desk["M"] - 1), (desk["N"] - 11, desk["M"] + 1)])
    return store.in_range(desk["N"], desk["M"])


def idle_copy(rng, desk):
    found = [s for s in range(desk["M"]) if desk["sessions"][s]["phase"] == "idle"]
    record = free_record(rng, desk)
    if not found or record is None:
        return False
    session = rng.choice(found)
    desk["sessions"][session] = store.entry("idle", 0, [[record, [1, 2, 3, 4]]], rng.randrange(2))
    desk["marks"][record] = session


def five_copies(rng, desk):
    e = pick(rng, desk, PHASES[1:], 4)
    if e is None:
        return False
    e["count"] = rng.choice([5, 6, 255, TOP])


def no_copies(phase):
    def alter(rng, desk):
        e = pick(rng, desk, ["idle", "active"], 0, 0)
        if e is None:
            return False
        e["phase"], e["number"] = phase, min(2, desk["clock"])
    return alter


def number_at(phase, values):
    def alter(rng, desk):
        e = pick(rng, desk, [phase])
        if e is None:
            return False
        e["number"] = rng.choice(values(desk["clock"]))
    return alter


def slot_two(rng, desk):
    e = pick(rng, desk, PHASES[1:], 1)
    if e is None:
        return False
    e["slot"] = rng.choice([2, 3, TOP])


def slot_unused(rng, desk):
    found = [e for e in desk["sessions"] if e["count"] == 0]
    if not found:
        return False
    rng.choice(found)["slot"] = rng.choice([1, 1, 2])


def unused(part):
    def alter(rng, desk):
        found = [e for e in desk["sessions"] if e["count"] < 4]
        if not found:
            return False
        e = rng.choice(found)
        place = e["places"][rng.randrange(e["count"], 4)]
        if part == "record":
            place[0] = rng.choice([1, desk["N"], TOP])
        else:
            place[1][rng.randrange(4)] = rng.choice([1, TOP])
    return alter


def move_copy(desk, e, record):
    """One copy of an entry becomes a copy of another record, old mark dropped."""
    place = e["places"][e["count"] - 1]
    desk["marks"][place[0]] = None
    place[0] = record


def record_past_marks(rng, desk):
    e = pick(rng, desk, PHASES[1:], 1)
    if e is None:
        return False
    move_copy(desk, e, rng.choice([256, 257, TOP]))


def record_at_n(marked):
    def alter(rng, desk):
        e = pick(rng, desk, PHASES[1:], 1)
        if e is None or desk["N"] == 256:
            return False
        record = rng.choice([desk["N"], 255])
        move_copy(desk, e, record)
        if marked:
            desk["marks"][record] = desk["sessions"].index(e)
    return alter


def record_twice(rng, desk):
    e = pick(rng, desk, PHASES[1:], 2)
    if e is None:
        return False
    move_copy(desk, e, e["places"][rng.randrange(e["count"] - 1)][0])


def mark_missing(rng, desk):
    e = pick(rng, desk, PHASES[1:], 1)
    if e is None:
        return False
    desk["marks"][e["places"][rng.randrange(e["count"])][0]] = None


def mark_other(rng, desk):
    e = pick(rng, desk, PHASES[1:], 1)
    if e is None:
        return False
    record = e["places"][rng.randrange(e["count"])][0]
    others = [s for s in range(16) if s != desk["marks"][record]]
    desk["marks"][record] = rng.choice(others + [16, 254])


def mark_spare(rng, desk):
    record = free_record(rng, desk)
    if record is None:
        return False
    desk["marks"][record] = rng.choice([0, desk["M"] - 1, 15, 16, 254])


def two_copiers(rng, desk):
    one, other = pick(rng, desk, PHASES[1:], 1), pick(rng, desk, PHASES[1:], 1)
    if one is None or one is other:
        return False
    move_copy(desk, one, other["places"][0][0])


def mark_past_n(rng, desk):
    if desk["N"] == 256:
        return False
    desk["marks"][rng.choice([desk["N"], 255])] = rng.randrange(desk["M"])


def entry_past_m(phase):
    def alter(rng, desk):
        record = free_record(rng, desk)
        if desk["M"] == 16 or record is None:
            return False
        session = rng.choice([desk["M"], 15])
        copies = [] if phase == "active" else [[record, [1, 0, 0, 0]]]
        desk["sessions"][session] = store.entry(phase, min(2, desk["clock"]), copies)
        for r, _ in copies:
            desk["marks"][r] = session
    return alter


BREAKS = {
    "clock zero": (zero("clock"), ["clock"]),
    "clock high": (clock_high, ["clock"]),
    "clock top": (clock_top, ["clock"]),
    "clock above word 3": (as_it_is, ["ceiling"]),
    "N zero": (zero("N"), ["sizes"]),
    "N high": (size_high("N"), ["sizes"]),
    "M zero": (zero("M"), ["sizes"]),
    "M high": (size_high("M"), ["sizes"]),
    "N not the header's": (size_other("N"), ["sizes"]),
    "M not the header's": (size_other("M"), ["sizes"]),
    "same length": (same_length, ["sizes"]),
    "idle with a copy": (idle_copy, ["counts"]),
    "five copies": (five_copies, ["counts"]),
    "sealed without copies": (no_copies("sealed"), ["counts"]),
    "published without copies": (no_copies("published"), ["counts"]),
    "start low": (number_at("active", lambda clock: [0]), ["numbers"]),
    "start high": (number_at("active", lambda clock: [clock + 1, TOP]), ["numbers"]),
    "persist low": (number_at("sealed", lambda clock: [0]), ["numbers"]),
    "persist high": (number_at("sealed", lambda clock: [clock + 1, TOP]), ["numbers"]),
    "end low": (number_at("published", lambda clock: [0, 1]), ["numbers"]),
    "end high": (number_at("published", lambda clock: [clock + 1, TOP]), ["numbers"]),
    "slot two": (slot_two, ["slots"]),
    "slot without copies": (slot_unused, ["slots"]),
    "unused place, record": (unused("record"), ["unused"]),
    "unused place, word": (unused("word"), ["unused"]),
    "record past the marks": (record_past_marks, ["records"]),
    "record at N, marked": (record_at_n(True), ["records", "rest"]),
    "record at N, unmarked": (record_at_n(False), ["records", "marks"]),
    "record twice": (record_twice, ["records"]),
    "mark missing": (mark_missing, ["marks"]),
    "mark of another": (mark_other, ["marks"]),
    "mark to spare": (mark_spare, ["marks"]),
    "two copiers": (two_copiers, ["marks"]),
    "mark past N": (mark_past_n, ["marks", "rest"]),
    "active past M": (entry_past_m("active"), ["rest"]),
    "sealed past M": (entry_past_m("sealed"), ["rest"]),
    "published past M": (entry_past_m("published"), ["rest"]),
}
NEED_IMAGE = ["N not the header's", "M not the header's", "same length", "clock above word 3"]


def too_low(rng, clock):
    """A word 3 below this clock."""
    return rng.choice([0, clock - 1, clock - 1, rng.randrange(clock), max(0, clock - 1025)])


def broken_case(rng, case, name):
    """The case with just these rules broken by its desk, or by word 3; None where that cannot be."""
    alter, rules = BREAKS[name]
    desk = copy.deepcopy(case["desk"])
    if alter(rng, desk) is False:
        return None
    case, clock = dict(case, desk=listed(desk)), desk["clock"]
    if case["image"] is not None:
        case = with_ceiling(case, too_low(rng, clock) if rules == ["ceiling"] else max(clock, case["image"][3]))
    return case if store.broken_rules(desk, case["image"]) == rules else None


# ---- scenes --------------------------------------------------------------

TOO_SHORT, LONG_ENOUGH = [0, 1, 24, 46, 47, 47], [48, 48, 49, 50, 64]  # lengths of the trace


def session_scene(rng, call, desk=None):
    """A session call with right image, coherent desk and arguments in range."""
    desk = desk or some_desk(rng, *rng.choice(SIZES))
    n, m = desk["N"], desk["M"]
    case = blank(call)
    case["desk"], case["session"] = desk, rng.randrange(m)
    if call in WITH_IMAGE:
        case["image"] = some_image(rng, n, m, desk)
    if call in WITH_TRACE:
        case["trace"] = rng.choice(LONG_ENOUGH)
    if call in WITH_RECORD:
        held = [r for r in range(n) if desk["marks"][r] is not None]
        case["record"] = rng.choice(held) if held and rng.random() < 0.6 else rng.randrange(n)
    if call == "write":
        case["words"] = [some_word(rng) for _ in range(4)]
    return case


def blank(call):
    return {"call": call, "N": 0, "M": 0, "session": 0, "record": 0, "words": [0] * 4,
            "trace": 0, "image": None, "desk": None}


def lay_scene(rng, aim):
    case = blank("lay")
    n, m = rng.choice(SIZES)
    room = store.length(n, m)
    case["N"], case["M"] = n, m
    if aim == 14:
        case["N"] = rng.choice([0, 257, n + 2 ** 62, TOP, n])
        case["M"] = rng.choice([0, 17, m + 2 ** 62, TOP, m])
        room += rng.choice([0, 0, 1])
    if aim == 1:
        room = rng.choice([room - 1, room + 1, room + 4, room - 44, 0, 3, 4])
    case["image"] = [some_word(rng) for _ in range(room)]
    return case


OPENED = [0, 0, 1, 2, 1025, 2 ** 32, L - 1026, L - 1025, L - 2, L - 1]  # word 3 of an image that can be opened
USED_UP = [L, L, L + 1, L + 1024, 2 ** 63, TOP]  # and of one that is refused with 10


def open_scene(rng, *wrong):
    """Open with a cause for each of these of its refusals, and right otherwise."""
    case = blank("open")
    n, m = rng.choice(SIZES)
    slots = [empty_words(rng) for _ in range(2 * m)]
    if 11 in wrong:
        for _ in range(rng.randrange(1, 4)):
            slots[rng.randrange(2 * m)][0] = rng.choice([1, 7, 2 ** 32, 2 ** 63, TOP])
    low = OPENED + [rng.randrange(L), rng.randrange(5000)]
    case["image"] = image_of(rng, n, m, slots, rng.choice(USED_UP if 10 in wrong else low))
    case["trace"] = rng.choice(TOO_SHORT if 3 in wrong else LONG_ENOUGH)
    if 1 in wrong:
        case["image"] = wrong_image(rng, case["image"])
    return case


def recover_scene(rng, aim):
    case = blank("recover")
    n, m = rng.choice(SIZES)
    pool, share = some_numbers(rng), rng.choice([0.2, 0.5, 1])
    if aim == "clean":
        share = 0
    slots = [log_words(rng, n, rng.choice(pool), some_records(rng, n))
             if rng.random() < share else empty_words(rng) for _ in range(2 * m)]
    logs = [slot for slot in slots if slot[0]]
    if logs and (aim == 12 or rng.random() < 0.1):
        for _ in range(rng.choice([1, 1, 2, 3])):
            spoil_log(rng, n, rng.choice([s for s in logs if 1 <= s[1] <= 4] or [log_words(rng, n, 1, [0])]))
    if len(logs) > 1 and (aim == 13 or rng.random() < 0.3):  # equal numbers
        one, other = rng.sample(logs, 2)
        other[0] = one[0]
        if aim == 13 and one[1] <= 4 and other[1] <= 4:  # and a record in common
            other[2 + 5 * rng.randrange(max(1, other[1]))] = one[2 + 5 * rng.randrange(max(1, one[1]))]
    case["image"] = image_of(rng, n, m, slots, rng.choice([0, 1025, some_word(rng), *USED_UP]))
    case["trace"] = rng.choice([48, 48, 49, 64])
    if aim == 1:
        case["image"] = wrong_image(rng, case["image"])
    if aim == 3 or (aim == 1 and rng.random() < 0.3):
        case["trace"] = rng.choice(TOO_SHORT)
    return case


def scene(rng, call, aim):
    if call == "lay":
        return lay_scene(rng, aim)
    if call == "open":
        return open_scene(rng, aim)
    if call == "recover":
        return recover_scene(rng, aim)
    return session_scene(rng, call)


def far(rng, limit):
    """A number at or above a limit, up to far out of range."""
    return rng.choice([limit, limit, limit + 1, 16, 256, 2 ** 32, 2 ** 63, TOP]) \
        if limit <= 16 else rng.choice([limit, limit, limit + 1, 256, 2 ** 32, 2 ** 63, TOP])


def spoil(rng, case, number):
    """Gives a session call a cause for one of the refusals 1 to 5."""
    call = case["call"]
    if number == 1:
        case["image"] = wrong_image(rng, case["image"])
    elif number == 2:
        names = [name for name in BREAKS if call in WITH_IMAGE or name not in NEED_IMAGE]
        found = None
        while found is None:
            found = broken_case(rng, case, rng.choice(names))
        case.update(found)
    elif number == 3:
        case["trace"] = rng.choice(TOO_SHORT)
    elif number == 4:
        case["session"] = far(rng, case["desk"]["M"])
    elif number == 5:
        case["record"] = far(rng, case["desk"]["N"])


def causes(call):
    """Which of the checks 1 to 5 a session call makes."""
    found = [2, 4] + [1] * (call in WITH_IMAGE) + [3] * (call in WITH_TRACE) + [5] * (call in WITH_RECORD)
    return sorted(found)


# ---- cases by aim --------------------------------------------------------

AIMS = {
    "lay": ["ok", 1, 14], "open": ["ok", 1, 3, 11, 10], "begin": ["start", 2, 4, 6],
    "read": ["own", "copy", "home", 1, 2, 4, 5, 6],
    "write": ["ok", 1, 2, 4, 5, 6, 7, 8, 9],
    "finish": ["sealed", "empty", 1, 2, 3, 4, 6, 10],
    "publish": ["end", 1, 2, 3, 4, 6], "settle": ["ok", "wait", 1, 2, 3, 4, 6],
    "reclaim": ["none", "held", "cleared", 1, 2, 3, 4],
    "abandon": ["ok", 2, 4, 6], "recover": ["clean", "replayed", 1, 3, 12, 13],
}
CLOCKS = {"clock L-1": lambda sealed: L - 1, "clock L": lambda sealed: L,
          "clock L+16 less sealed": lambda sealed: L + 16 - sealed}
# Settle with wait or ok: its answer, and what holds of those in the way (start and session, ascending) and
# of whether an active session has a start equal to the end.
SETTLES = {
    "older above": ("wait", lambda way, at_end: any(session < way[0][1] for _, session in way)),
    "equal starts": ("wait", lambda way, at_end: len(way) > 2 and way[0][0] == way[1][0]
                     and any(session < way[0][1] for _, session in way)),
    "start at the end, wait": ("wait", lambda way, at_end: way and at_end),
    "start at the end, ok": ("ok", lambda way, at_end: not way and at_end),
    "last session": ("wait", lambda way, at_end: way and way[0][1] == 15),
}
# Header word 3 by the desk's clock; below the clock the answer is 2.
CEILINGS = {"word 3 is 0": lambda clock: 0, "word 3 is clock-1": lambda clock: clock - 1,
            "word 3 is clock": lambda clock: clock, "word 3 is clock+1": lambda clock: clock + 1,
            "word 3 is L-1": lambda clock: L - 1, "word 3 is L": lambda clock: L,
            "word 3 is 2^63": lambda clock: 2 ** 63, "word 3 is 2^64-1": lambda clock: TOP}
# Publish by how far word 3 is above the clock: at 0 it raises word 3.
RAISES = {"raise": 0, "up to word 3": 1, "one below word 3": 2}
OPEN_CHECKS, PUBLISH_CHECKS = [1, 3, 11, 10], [1, 2, 3, 4, 6]  # in the order in which they are made
# What a clock above word 3 comes together with; 2 comes before all but 1.
BESIDE = {"read": [1, 4, 5, 6], "write": [1, 4, 5, 6, 7, 8, 9], "finish": [1, 3, 4, 6, 10],
          "publish": [1, 3, 4, 6], "settle": [1, 3, 4, 6], "reclaim": [1, 3, 4]}
TRACES = [47, 48, 0, 64, 1, 2, 3, 4, 24, 46, 49, 63]  # one in each round
# What each case in turn is aimed at.
TURNS = ([(call, aim) for call in AIMS for aim in AIMS[call]]
         + [("break", name) for name in BREAKS]
         + [("copies", call) for call in ("write", "finish", "settle", "read")]
         + [("any", call) for call in WITH_DESK]
         + [(edge, call) for edge in CLOCKS for call in ("finish", "publish", "begin")]
         + [("largest", call) for call in WITH_IMAGE]
         + [("second slot", "write"), ("recover", "replayed")]
         + [(kind, "settle") for kind in SETTLES]
         + [(name, call) for name in CEILINGS for call in WITH_DESK if call in WITH_IMAGE]
         + [(word_3, call) for call in ("open", "recover") for word_3 in (0, 1, L - 1, L, L + 1, TOP)]
         + [(("above word 3", number), call) for call in BESIDE for number in BESIDE[call]]
         + [("open refused", pair) for pair in itertools.combinations(OPEN_CHECKS, 2)]
         + [("publish refused", pair) for pair in itertools.combinations(PUBLISH_CHECKS, 2)]
         + [(name, edge) for name in RAISES for edge in (None, *CLOCKS)]
         + [("trace", call) for call in ("open", "publish")])


def outcome(case):
    """The answer's name, or its number if refused."""
    answer = run(case)["answer"]
    return answer["number"] or answer["name"]


def spoiled(rng, case, aim):
    """A session call with a cause for this one of the refusals 1 to 5, and at times for later ones."""
    others = [k for k in causes(case["call"]) if k > aim and rng.random() < 0.3]
    for number in sorted([aim] + others, reverse=True):  # 1 and 2 go last
        spoil(rng, case, number)
    return case


def aimed(rng, call, aim):
    """A case of this call with this answer."""
    if call in WITH_DESK and aim in causes(call):
        return spoiled(rng, session_scene(rng, call), aim)
    while True:
        case = scene(rng, call, aim)
        if outcome(case) == aim:
            return case


def broken(rng, name):
    """A case refused by 2, with just this break."""
    calls = [c for c in WITH_DESK if c in WITH_IMAGE or name not in NEED_IMAGE]
    while True:
        case = broken_case(rng, session_scene(rng, rng.choice(calls)), name)
        if case is not None:
            return case


def full(rng, call):
    """An accepted call by a session with four copies."""
    while True:
        case = session_scene(rng, call)
        own = case["desk"]["sessions"][case["session"]]
        if own["count"] == 4 and isinstance(outcome(case), str):
            return case


def second_slot(rng):
    """A first write with the lower slot occupied."""
    while True:
        case = session_scene(rng, "write")
        session = case["session"]
        done = run(case)
        if case["desk"]["sessions"][session]["count"] == 0 and done["desk"]["sessions"][session]["slot"] == 1:
            return case


def at_clock(rng, call, edge):
    """A call in range and in phase, with the clock at an edge."""
    while True:
        case = session_scene(rng, call)
        sealed = sum(e["phase"] == "sealed" for e in case["desk"]["sessions"])
        if case["desk"]["clock"] == CLOCKS[edge](sealed) and outcome(case) != 6:
            return case


def settles(rng, kind):
    """A settle with active sessions of this kind; they have starts of a small pool, falling half the time."""
    while True:
        desk = some_desk(rng, *rng.choice(SIZES))
        clock, sessions = desk["clock"], desk["sessions"]
        published = [s for s, e in enumerate(sessions) if e["phase"] == "published"]
        active = [s for s, e in enumerate(sessions) if e["phase"] == "active"]
        if not published or not active:
            continue
        caller = rng.choice(published)
        end = sessions[caller]["number"]
        pool = [rng.choice([1, end - 1, end, min(end + 1, clock), rng.randrange(1, clock + 1)])
                for _ in range(4)]
        starts = [rng.choice(pool) for _ in active]
        if rng.random() < 0.5:
            starts.sort(reverse=True)
        for session, start in zip(active, starts):
            sessions[session]["number"] = start
        way = sorted((start, session) for session, start in zip(active, starts) if start < end)
        if SETTLES[kind][1](way, end in starts):
            return dict(session_scene(rng, "settle", listed(desk)), session=caller)


def accepted(rng, call):
    """One of the answers of a call that is not refused."""
    return rng.choice([aim for aim in AIMS[call] if isinstance(aim, str)])


def at_ceiling(rng, call, name):
    """A call with nothing wrong but word 3, which is this; and its answer."""
    answer = accepted(rng, call)
    case = aimed(rng, call, answer)
    clock = case["desk"]["clock"]
    ceiling = CEILINGS[name](clock)
    return with_ceiling(case, ceiling), 2 if ceiling < clock else answer


def above_ceiling(rng, call, number):
    """A call with the clock above word 3 and a cause for this refusal; and its answer."""
    case = aimed(rng, call, number if number >= 6 else accepted(rng, call))
    case = with_ceiling(case, too_low(rng, case["desk"]["clock"]))
    spoil(rng, case, number)
    return case, 1 if number == 1 else 2


def opened(rng, call, word_3):
    """Open or recover of an image with this word 3, and the answer."""
    if call == "recover":
        return with_ceiling(aimed(rng, call, "replayed"), word_3), "replayed"
    return with_ceiling(open_scene(rng), word_3), "ok" if word_3 < L else 10


def publish_refused(rng, pair):
    """Publish with a cause for each of these two."""
    case = aimed(rng, "publish", 6 if 6 in pair else "end")
    for number in sorted(pair, reverse=True):  # 1 and 2 go last
        spoil(rng, case, number)
    return case


def raises(rng, name, edge):
    """A publish with word 3 so far above the clock, which may be at an edge."""
    case = at_clock(rng, "publish", edge) if edge else aimed(rng, "publish", "end")
    return with_ceiling(case, case["desk"]["clock"] + RAISES[name])


def traced(rng, call, trace):
    """Open or publish with nothing wrong but the trace, and the answer."""
    answer = {"open": "ok", "publish": "end"}[call]
    return dict(aimed(rng, call, answer), trace=trace), answer if trace >= 48 else 3


def largest(rng, call):
    """N 256 and M 16 with a word too few or too many."""
    n, m = 256, 16
    case = blank(call)
    if call == "lay":
        case["N"], case["M"] = n, m
    if call in WITH_DESK:
        case["desk"] = some_desk(rng, n, m)
    if call in WITH_TRACE:
        case["trace"] = 48
    image = some_image(rng, n, m, case["desk"] or store.new_desk(1, n, m))
    case["image"] = rng.choice([image[:-1], image + [0]])
    return case


def make(seed, number):
    """The case with this number, and what it is aimed at."""
    rng = random.Random("%d/%d" % (seed, number))
    kind, what = TURNS[number % len(TURNS)]
    if kind == "break":
        return broken(rng, what), (None, 2)
    if kind == "copies":
        return full(rng, what), (what, None)
    if kind == "second slot":
        return second_slot(rng), (what, "ok")
    if kind == "any":
        return session_scene(rng, what), (what, None)
    if kind in CLOCKS:
        return at_clock(rng, what, kind), (what, None)
    if kind in SETTLES:
        return settles(rng, kind), (what, SETTLES[kind][0])
    if kind == "largest":
        return largest(rng, what), (what, 1)
    if kind in CEILINGS or isinstance(kind, int):
        case, answer = (at_ceiling if kind in CEILINGS else opened)(rng, what, kind)
        return case, (what, answer)
    if isinstance(kind, tuple):
        case, answer = above_ceiling(rng, what, kind[1])
        return case, (what, answer)
    if kind == "open refused":
        return open_scene(rng, *what), ("open", what[0])
    if kind == "publish refused":
        return publish_refused(rng, what), ("publish", what[0])
    if kind in RAISES:
        return raises(rng, kind, what), ("publish", "end")
    if kind == "trace":
        case, answer = traced(rng, what, TRACES[number // len(TURNS) % len(TRACES)])
        return case, (what, answer)
    return aimed(rng, kind, what), (kind, what)


# ---- the program ---------------------------------------------------------

def show(case, number):
    """One case in full, as text."""
    done = run(case)
    for name in ("call", "N", "M", "session", "record", "words", "trace"):
        print("%-8s %s" % (name, case[name]))
    for title, desk, image in (("before", case["desk"], case["image"]),
                               ("after", done["desk"], done["image"])):
        print("-- " + title)
        if desk is not None:
            marks = {r: mark for r, mark in enumerate(desk["marks"]) if mark is not None}
            print("clock %d N %d M %d marks %s" % (desk["clock"], desk["N"], desk["M"], marks))
            print("order %s" % desk["order"])
            for session, e in enumerate(desk["sessions"]):
                if e != store.entry("idle"):
                    print("session %d %s" % (session, e))
        if image is not None:
            print("image of %d words %s" % (len(image), image))
    print("-- answer %s" % done["answer"])
    print("entries %s" % done["entries"])
    print("want %s" % want_line(number, case))


def title(answer):
    """An answer's name or number as text, and own, copy or home where it has that."""
    name = "no %2d" % answer["number"] if answer["name"] == "no" else answer["name"]
    return "%s %s" % (name, answer["value"]) if answer["value"] in ANSWERS else name


def count(cases):
    """How many cases there are by call and answer."""
    seen = Counter((case["call"], title(run(case)["answer"])) for case in cases)
    for (call, got), times in sorted(seen.items()):
        print("%7d %-16s %s" % (times, call, got))


def main(words, make, usage, first=0):
    """The commands of raw.py, and with other cases, numbered from first on, those of rawreels.py,
    rawlistening.py, rawgroup.py, rawalone.py, rawspeeds.py, rawshort.py and raworder.py."""
    if len(words) != 3 or words[0] not in ("in", "packed", "want", "count", "show"):
        sys.exit(usage)
    seed, number = int(words[1]), int(words[2])
    if words[0] == "show":
        return show(make(seed, number)[0], first + number)
    cases = (make(seed, at)[0] for at in range(number))
    if words[0] == "count":
        return count(cases)
    for at, case in enumerate(cases, first):
        if words[0] == "in":
            out = case_words(case)
            sys.stdout.buffer.write(struct.pack("<%dQ" % len(out), *out))
        elif words[0] == "packed":
            sys.stdout.buffer.write(packed(case_words(case)))
        else:
            print(want_line(at, case))


if __name__ == "__main__":
    main(sys.argv[1:], make, __doc__)
