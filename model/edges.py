"""The program's edges: full buffers, torn steps, live sessions, outputs that fail. `program.py` runs them all.

What the tests demand: a step is taken as soon as all of its bytes are there, and before the program waits for more input it writes out all lines that
it holds. A write that fails is said in one line on standard error, and the program stops. The lines are the same however the bytes are delivered.
"""

import functools
import os
import random
import resource
import tempfile

import flushes
import reelwalk
import streams
from runs import BUFFER, Live, Stream, content, from_file, paused
from streams import ABANDON, BEGIN, CUT, FINISH, LAY, PUBLISH, READ, RECLAIM, SETTLE, WRITE


# ---- torn steps ----------------------------------------------------------------

TORN = [(LAY, 200, 9), (BEGIN, 7), (BEGIN, 3), (WRITE, 7, 130, *range(1, 33)), (READ, 7, 130), (FINISH, 7), (PUBLISH, 7), (READ, 3, 130),
        (SETTLE, 7), (WRITE, 3, 131, *range(33, 65)), (ABANDON, 3), (SETTLE, 7), (RECLAIM, 7), (BEGIN, 5), (WRITE, 5, 130, *range(65, 97)),
        (CUT, 8), (READ, 5, 130), (CUT, 14), (FINISH, 5), (BEGIN, 2), (READ, 2, 130), (FINISH, 2)]
UNKNOWN = (len(reelwalk.BODIES), 34, 35, 127, 128, 255)


def made_of(parts):
    """The stream of these steps."""
    made = Stream()
    for step in parts:
        made.do(*step)
    return made


def tear(made, at, more, early=False):
    """Whether a tear at this byte is as it should be: first the lines of the whole steps and no others, then the rest, or the input's end. The
    line of a step that is bad in any case may come early."""
    due, ended = made.want[:made.due(at)], reelwalk.output(made.bytes[:at])
    with Live() as live:
        live.send(made.bytes[:at])
        live.wait(len(due))
        live.quiet()
        if live.out != due and not (early and live.out == ended):
            return False
        if more:
            live.send(made.bytes[at:])
        return live.ended().good(made.want if more else ended)


def tears(parts, number, early=False):
    """Tears before each byte of this step, with the rest behind and without. Ends at the first that is wrong."""
    made, first = made_of(parts), len(made_of(parts[:number]).bytes)
    for byte in range(len(parts[number])):
        for more, name in ((True, "the rest behind"), (False, "input ended")):
            holds = tear(made, first + byte, more, early)
            yield "before byte %d, %s" % (byte, name), holds
            if not holds:
                return


def kinds():
    """That steps of every kind are torn."""
    yield "every kind", {step[0] for step in TORN} == set(range(len(reelwalk.BODIES)))


def stops(parts):
    """The last line comes, and the program stops, though the input stays open."""
    made = made_of(parts)
    with Live() as live:
        live.send(made.bytes)
        yield "stops", live.stopped().good(made.want)


def endings():
    """Streams whose last step stops the program, each with a name; and whether the step is bad whatever its body is."""
    for kind in UNKNOWN:
        yield "unknown kind %d" % kind, TORN + [(kind,)], True
        yield "unknown kind %d first" % kind, [(kind,)], True
    for kind in range(1, len(reelwalk.BODIES)):
        yield "first step of kind %d" % kind, [next(step for step in TORN if step[0] == kind)], True
    yield "a later step 0", TORN + [TORN[0]], True
    yield "a second step 0", [TORN[0]] * 2, True
    yield "step 0 refused, no session", [(LAY, 200, 0)], False
    yield "step 0 refused, too many sessions", [(LAY, 0, 17)], False


@functools.lru_cache(maxsize=None)
def refused():
    """A stream that fills the input buffer but for a few hundred bytes."""
    made = made_of(TORN[:1])
    while len(made.bytes) < BUFFER - 400:
        made.do(WRITE, 200, 130, *range(97, 129))
    return made


def at_end(number):
    """This step across the end of the input buffer, torn before each of its bytes. The last step is a later step 0."""
    parts = TORN[1:] + TORN[:1]
    first = sum(len(step) for step in parts[:number])
    for byte in range(len(parts[number])):
        made = refused().copy()
        while BUFFER - first - byte - len(made.bytes) > 3:
            made.do(BEGIN, 200)
        for step in [(BEGIN, 200) if BUFFER - first - byte - len(made.bytes) == 2 else (READ, 200, 130)] + parts:
            made.do(*step)
        yield "before byte %d" % byte, from_file(made.bytes).good(made.want)


# ---- live sessions -----------------------------------------------------------------

LIVE = ["restless", "cuts_idle", "cuts_finish", "cuts_publish", "every_answer", "openings", "mix", "noise"]
SEED = 7003


def session(kind, seed):
    """A step at a time, a few steps at a time, and pieces that end anywhere; the lines are waited for each time."""
    data = streams.stream(kind, seed) if kind in streams.KINDS else reelwalk.WHOLE_CASE
    made, rng = Stream(data), random.Random("%s/%d" % (kind, seed))
    ends = [at for at, _ in made.ends[1:]]
    yield "a step at a time", paused(made, ends)
    yield "a few steps at a time", paused(made, sorted(set(rng.choices(ends, k=1 + len(ends) // 3))) if ends else [])
    yield "odd pieces", paused(made, sorted(rng.sample(range(len(data)), len(data) // 4)))


# ---- outputs that fail ---------------------------------------------------------------

SHORT = reelwalk.WHOLE_CASE
LONG = bytes(TORN[0]) + bytes([BEGIN, 200]) * (5 * BUFFER)


def closed(number):
    """How to start a program with this descriptor closed."""
    return {"preexec_fn": functools.partial(os.close, number)}


def limited(size):
    """How to start a program that can write files up to this size only, and is told so by the write that fails."""
    return {"preexec_fn": functools.partial(resource.setrlimit, resource.RLIMIT_FSIZE, (size, resource.RLIM_INFINITY)), "restore_signals": False}


def failing():
    """Each kind of output that takes nothing: a name, the output and how to start the program."""
    with open("/dev/full", "wb") as full:
        yield "full", full, {}
    yield "closed", None, closed(1)
    ours, theirs = os.pipe()
    os.close(ours)
    yield "without a reader", theirs, {"restore_signals": False}
    os.close(theirs)


def fails():
    """One line on standard error, and the walk stops."""
    for name, output, how in failing():
        yield name + ", short stream", from_file(SHORT, output, **how).told()
        run = from_file(LONG, output, **how)
        yield name + ", long stream", run.told() and run.taken < len(LONG) // 2
        with Live(output, **how) as live:
            live.send(SHORT[:3])
            yield name + ", input open", live.stopped().told()
        run = from_file(b"", output, **how)
        yield name + ", nothing to write", run.status == 0 and run.err == b""


def part_way():
    """An output that fails after it has taken something: what it took is the lines' beginning."""
    for data, size in ((SHORT, 100), (LONG, 5000), (LONG, BUFFER + 5000)):
        with tempfile.TemporaryFile() as output:
            told = from_file(data, output, **limited(size)).told()
            yield "full after %d bytes" % size, told and content(output) == reelwalk.output(data[:9999])[:size]
    with Live(restore_signals=False) as live:
        live.send(SHORT[:3])
        live.wait(1)
        live.leave()
        live.send(SHORT[3:])
        yield "the reader goes", live.stopped().told()


def no_input():
    """A read that fails is the input's end."""
    yield "closed", from_file(SHORT, **closed(0)).good(b"")


def both():
    """With standard error failing, too, the program stops and is not ended by a signal."""
    with open("/dev/full", "wb") as full:
        for name, data in (("short", SHORT), ("long", LONG)):
            run = from_file(data, full, stderr=full)
            yield "%s stream" % name, run.status is not None and run.status >= 0 and run.taken < len(LONG) // 2


# ---- all of them ------------------------------------------------------------------------

def tests():
    """Name, function and arguments of each test. The function yields what it looked at and whether it holds."""
    yield from flushes.tests()
    yield "torn steps", kinds, ()
    for number, step in enumerate(TORN):
        yield "step %d (%s) torn" % (number + 1, reelwalk.NAMES[step[0]]), tears, (TORN, number)
    for name, parts, early in endings():
        yield name, stops, (parts,)
        yield name + " torn", tears, (parts, len(parts) - 1, early)
    for number in range(len(TORN)):
        yield "step %d behind the first at the input buffer's end" % (number + 1), at_end, (number,)
    for kind, seed in [("the whole case", 0)] + [(kind, SEED) for kind in LIVE] + [("damaged", seed) for seed in range(streams.ENDINGS)]:
        yield "a live session, %s %d" % (kind, seed), session, (kind, seed)
    for name, function in (("an output", fails), ("an output that takes a part", part_way), ("both outputs full", both),
                           ("an input", no_input)):
        yield name, function, ()


def tried(test):
    """What does not hold, and how much was looked at."""
    name, function, arguments = test
    looks = list(function(*arguments))
    return ["%s: %s" % (name, what) for what, holds in looks if not holds], len(looks)
