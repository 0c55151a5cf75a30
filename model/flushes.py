"""The program's output buffer: streams whose lines fill it to every length around the flush. `edges.py` lists these tests with the others.

Lines gather in 65,536 bytes and are written out when fewer than 256 of them are free. The streams are short, so that one read brings each of them
whole. The lengths of their lines are steered by the digits of the words that are read.
"""

import functools

from runs import BUFFER, Stream, from_file, paused
from streams import BEGIN, CUT, FINISH, LAY, PUBLISH, READ, RECLAIM, SETTLE, WRITE

FULL = BUFFER - 256   # more bytes of lines than this are written out
LONGEST = 106         # the longest line whose step number has four digits: a read's, of words of twenty digits each
DIGITS = "12345678901234567890"


# ---- lines of chosen lengths ----------------------------------------------

def words(digits):
    """The bytes of four words that have so many digits in all, 4 to 80."""
    each = [1 + max(0, min(19, digits - 4 - 19 * i)) for i in range(4)]
    return b"".join(int(DIGITS[:n]).to_bytes(8, "little") for n in each)


def laid(logs):
    """A store whose record 255 has four words of twenty digits, with session 14 active; thirty logs are left, or none."""
    made = Stream()
    made.do(LAY, 0, 16)
    for session in [s for s in range(16) if s != 14] if logs else [15]:
        for record in (session, session + 100) if session < 15 else (255, 115):
            made.do(BEGIN, session)
            made.do(WRITE, session, record, *words(80))
            for kind in (FINISH, PUBLISH, SETTLE):
                made.do(kind, session)
            if not logs:
                made.do(RECLAIM, session)
    made.do(BEGIN, 14)
    return made


@functools.lru_cache(maxsize=None)
def numbered(number, logs):
    """The same with short lines behind, up to this step number."""
    made = laid(logs)
    while made.walk.steps < number:
        made.do(CUT, 13)
    return made


@functools.lru_cache(maxsize=None)
def nearly(number, logs, size):
    """The same with the longest lines behind, up to some five of them below this size of all lines."""
    made = numbered(number, logs).copy()
    while len(made.want) < size - 5 * LONGEST:
        made.do(READ, 14, 255)
    return made


def filled(size, number=1000, logs=False, near=FULL - 600):
    """A stream whose lines have exactly this size. The last two lines are reads of records whose words have the digits that are missing."""
    made = nearly(number, logs, near).copy()
    first = len(str(made.walk.steps + 1))
    left = size - len(made.want) - 2 * (first + len(" write 14 254 ok\n")) - 2 * (first + len(" read 14 254    " + " own\n"))
    while left > 2 * 80:
        made.do(READ, 14, 255)
        left -= first + LONGEST - 4
    for record, digits in ((254, min(80, left - 4)), (253, left - min(80, left - 4))):
        made.do(WRITE, 14, record, *words(digits))
    for record in (254, 253):
        made.do(READ, 14, record)
    return made


def behind(made):
    """More lines behind: the finish that is cut, with a line for each log, and a reader of what was written."""
    made.do(FINISH, 14)
    made.do(BEGIN, 13)
    for record in (253, 254, 255, 0) * 4:
        made.do(READ, 13, record)


def held(want):
    """The bytes held at each line's end, by the rule of the flush."""
    size, sizes = 0, []
    for line in bytes(want).splitlines(True):
        size += len(line)
        sizes.append(size)
        if size > FULL:
            size = 0
    return sizes


# ---- the output buffer ------------------------------------------------------
# Covered: every length from 65,174 (65,280 less a longest line) to 65,386 (a longest line more); each is reached at a line's end in some stream.
# From 65,281 on it is the flush itself; up to 65,280 it is what is held just below, and what the input's end or a wait for more input writes out.
# 65,387 and 65,388 need step numbers of five and six digits (`beyond`); what is longer needs a million steps. Where the lines of one step go past
# the flush, it comes at each of them (`across`).

SIZES = range(FULL - LONGEST, FULL + 1)


def lengths():
    """That the streams of SIZES reach every length, have no longer lines and fit into one read."""
    reached, longest, most = set(), 0, 0
    for size in SIZES:
        made = filled(size)
        made.do(READ, 14, 255)
        reached.update(held(made.want))
        longest = max(longest, *map(len, bytes(made.want).splitlines(True)))
        most = max(most, len(made.bytes))
    yield "every length is reached", reached >= set(range(FULL - LONGEST, FULL + LONGEST + 1))
    yield "the longest line", longest == LONGEST
    yield "short input", most < BUFFER // 8


def flush(size):
    """Lines held that reach this size, and then a longest line more: run whole, ended at either, and waiting at either."""
    made = filled(size)
    made.do(READ, 14, 255)
    (low, _), (high, _) = made.ends[-2:]
    behind(made)
    yield "these sizes are reached", {size, size + LONGEST} <= set(held(made.want))
    yield "whole", from_file(made.bytes).good(made.want)
    for at, name in ((low, "below"), (high, "at the flush")):
        yield "input ended " + name, from_file(made.bytes[:at]).good(made.want[:made.due(at)])
        yield "waiting " + name, paused(made, [at])


def across():
    """A step with a line for each of 31 logs, such that the flush comes at each of its lines."""
    seen, lines = set(), 0
    for size in range(FULL - 580, FULL, 9):
        made = filled(size, logs=True)
        first = made.want.count(b"\n")
        made.do(FINISH, 14)
        lines = made.want.count(b"\n") - first
        behind(made)
        seen.update(i - first for i, length in enumerate(held(made.want)) if length > FULL)
        yield "%d bytes before it" % size, from_file(made.bytes).good(made.want)
    yield "the flush at each line", lines == 33 and seen >= set(range(lines))


def beyond(number):
    """The same as `flush` with step numbers from this one on, at the longest flush alone. All lines of the steps before have come by then."""
    start, base = numbered(number, False).ends[-1]
    made = filled(base + FULL, number, near=base + FULL - 600)
    made.do(READ, 14, 255)
    behind(made)
    longest = LONGEST - 4 + len(str(number))
    yield "%d bytes are reached" % (FULL + longest), FULL + longest in held(made.want[base:])
    yield "%d bytes" % (FULL + longest), paused(made, [at for at, _ in made.ends[1::1000] if at < start] + [start])


def tests():
    """Name, function and arguments of each test. The function yields what it looked at and whether it holds."""
    yield "lines held", lengths, ()
    for size in SIZES:
        yield "%d and %d bytes held" % (size, size + LONGEST), flush, (size,)
    yield "a step of many lines", across, ()
    for number in (10000, 100000):
        yield "from step %d on" % number, beyond, (number,)
