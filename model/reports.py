"""Runs crates/reelreport/out/reelreport itself and compares it with the model.

    python3 model/reports.py                  the images of the stored cases, and 300 fresh ones of a new seed
    python3 model/reports.py COUNT SEED       so many fresh ones of this seed

One line, or what differs. Each image is fed whole from a file and whole through a pipe, every second one also through a pipe in
odd pieces with small pauses, and some short ones a byte at a time. Then what the operating system may answer: inputs that are
empty, too long, without end or that cannot be read, outputs that take nothing or a part. The environment variable REELREPORT
names another program to run.
"""

import contextlib
import multiprocessing
import os
import random
import signal
import socket
import subprocess
import sys
import tempfile
import threading
import time
from collections import Counter

HERE = os.path.dirname(os.path.abspath(__file__))
sys.path.insert(0, HERE)

import rawreport  # noqa: E402
import report  # noqa: E402
from edges import closed, failing, limited  # noqa: E402
from raw import TOP  # noqa: E402
from runs import BUFFER, Result, content, until, waits  # noqa: E402

PROGRAM = os.environ.get("REELREPORT") or os.path.join(HERE, "..", "crates", "reelreport", "out", "reelreport")
COUNT = 300
SAYS = b"reelreport: the report could not be written\n"
LIMIT = [20]  # seconds for a run; once one has not ended the check has failed, and further ones get less time


# ---- fresh images --------------------------------------------------------

EDGES = [[0, 1, 999999, 1000000, 2 ** 20 + 5, 2 ** 32 + 5, TOP], [0, 1, 2, 3, 4, 257, 2 ** 32 + 1, TOP],
         [0, 1, 2, 5, 6, 256, 2 ** 32 + 1, TOP], [0, 1, 359999, 360000, 2 ** 20 + 5, 2 ** 32 + 5, TOP]]  # by word of a record
COMMON = [0, 1, 2, 17, 256, 2 ** 62, 2 ** 63, TOP]


def record(rng):
    """Unused, a reel, or a reel with a word or two altered."""
    if rng.random() < 0.25:
        return [0, 0, 0, 0]
    carrier = rng.choice([1, 2, 3])
    words = [rng.randint(1, 999999), carrier, rng.randint(0, {1: 5, 2: 1, 3: 0}[carrier]), rng.randrange(360000)]
    if rng.random() < 0.4:
        for at in rng.choices(range(4), k=rng.choice([1, 1, 2])):
            words[at] = rng.choice(EDGES[at])
    return words if rng.random() < 0.95 else [rng.choice([0, 0, 0, *COMMON]) for _ in range(4)]


def altered(rng, words):
    """The image with something wrong with its header or its length, in words or bytes; it may be right still."""
    way = rng.randrange(5)
    if way < 2:
        at = rng.randrange(3)
        words[at] = rng.choice([words[at] + 1, max(0, words[at] - 1), words[at] + 2 ** 32, words[at] + 2 ** 62, *COMMON])
    elif way == 2:
        words[1:3] = words[2:0:-1]
    data = rawreport.bytes_of(words)
    if way == 3:
        return data[:-8 * rng.randint(1, 3)] if rng.random() < 0.5 else data + bytes(8 * rng.randint(1, 3))
    if way == 4 and rng.random() < 0.6:
        return data[:rng.choice([len(data) - rng.randint(1, 15), rng.randrange(len(data))])]
    return data + rng.randbytes(rng.randint(1, 15)) if way == 4 else data


def fresh(seed, number):
    """Image `number` of the seed, as bytes."""
    rng = random.Random("report/%d/%d" % (seed, number))
    n, m = rng.choice([1, 1, 2, 3, 5, 8, 31, 100, 255, 256]), rng.choice([1, 1, 2, 3, 7, 15, 16])
    words = [1, n, m, rng.choice([0, 1025, 2 ** 62, *COMMON])] + [word for _ in range(n) for word in record(rng)]
    occupied = rng.sample(range(2 * m), rng.choice([1, 1, 2, 2 * m])) if rng.random() < 0.35 else []
    for place in range(2 * m):
        words.append(rng.choice([1, 5, 2 ** 32, TOP]) if place in occupied else 0)
        words += [rng.choice(COMMON) for _ in range(21)]
    return altered(rng, words) if rng.random() < 0.35 else rawreport.bytes_of(words)


# ---- runs ----------------------------------------------------------------

@contextlib.contextmanager
def started(**how):
    """A run of the program; after the time limit a signal ends it, so that its status is not good."""
    run = subprocess.Popen([PROGRAM], **how)

    def late():
        LIMIT[0] = 1
        run.kill()
    timer = threading.Timer(LIMIT[0], late)
    timer.start()
    try:
        yield run
    finally:
        run.wait()
        timer.cancel()


def given(source, stdout=subprocess.PIPE, **how):
    """The result of a run with this open file as input."""
    with tempfile.TemporaryFile() as said:
        with started(stdin=source, stdout=stdout, **{"stderr": said, **how}) as run:
            out, err = run.communicate()
        return Result(out, run.returncode, content(said) if err is None else err)


def from_file(data, stdout=subprocess.PIPE, **how):
    """The same where the input is a file with these bytes."""
    with tempfile.TemporaryFile() as source:
        source.write(data)
        source.seek(0)
        return given(source, stdout, **how)


def fed(pieces):
    """The result where the input comes through a pipe in pieces, each with the seconds to wait behind it. A program that has
    stopped reading takes none."""
    with tempfile.TemporaryFile() as said:
        with started(stdin=subprocess.PIPE, stdout=subprocess.PIPE, stderr=said) as run:
            feeder = threading.Thread(target=feed, args=(run, pieces))
            feeder.start()
            out = run.stdout.read()
            run.wait()
            feeder.join()
            run.stdout.close()
        return Result(out, run.returncode, content(said))


def feed(run, pieces):
    try:
        for piece, wait in pieces:
            while piece:
                piece = piece[os.write(run.stdin.fileno(), piece):]
            if wait:
                time.sleep(wait)
    except BrokenPipeError:
        pass
    run.stdin.close()


def odd(rng, data):
    """These bytes in odd pieces, with pauses between some of them."""
    at = 0
    while at < len(data):
        size = rng.choice([1, 7, 8, 9, 32, rng.randrange(1, 300), rng.randrange(1, 5000)])
        yield data[at:at + size], rng.choice([0, 0, 0, 0, 0, 0, 0.0001, 0.0005])
        at += size


def slowly(data):
    """A byte at a time."""
    return [(data[at:at + 1], 0.0001) for at in range(len(data))]


# ---- images --------------------------------------------------------------

def image(case):
    """The bytes of a case: of a stored one, or of a fresh one with its seed."""
    number, seed = case
    return rawreport.TURNS[number][3] if seed is None else fresh(seed, number)


def tried(case):
    """How the program's lines differ from the model's for one image, the number of runs, and how the report begins."""
    number, seed = case
    data, name = image(case), "stored case %d" % number if seed is None else "image %d of seed %d" % case
    want, rng, slow = report.text(data), random.Random(name), number % 6 == 0 if seed is None else number % 9 == 0
    ways = [("a file", from_file(data)), ("a pipe", fed([(data, 0)]))]
    if number % 2 == 0:
        ways.append(("odd pieces", fed(odd(rng, data))))
    if slow and len(data) <= 800:
        ways.append(("a byte at a time", fed(slowly(data))))
    wrong = ["%s, %s: %s, not %s" % (name, way, shown(run), want) for way, run in ways if not run.good(want)]
    return wrong, len(ways), want.decode().split("\n")[0] if want.startswith(b"no") else "report"


def shown(run):
    """A result as it is told: long ones in part."""
    parts = [str(run.out if run.out is None or len(run.out) < 200 else run.out[:200] + b"..")]
    parts += ["exit status %s" % run.status] if run.status else []
    parts += ["on standard error %s" % run.err[:200]] if run.err else []
    return ", ".join(parts)


# ---- what the operating system may answer -----------------------------------
# Each test yields what it looked at, the result and whether it is as it should be.

ONE = rawreport.bytes_of(rawreport.ONE)
LARGEST = rawreport.bytes_of(rawreport.image_of(256, 16, {0: rawreport.DISC, 255: rawreport.OPEN}))
FULL = rawreport.bytes_of(rawreport.small({0: rawreport.slot_of(4)}))


def look(what, run, want):
    return what, run, run.good(want)


def told(run):
    """One line on standard error, nothing on standard output, and exit status 0."""
    return run.err == SAYS and run.status == 0 and not run.out


def unreadable():
    """Inputs without a byte; a read that fails is the input's end."""
    yield look("an empty file", from_file(b""), b"no 1\n")
    yield look("an empty pipe", fed([]), b"no 1\n")
    yield look("an empty pipe, later", fed([(b"", 0.05)]), b"no 1\n")
    yield look("closed", from_file(ONE, **closed(0)), b"no 1\n")
    for path, how in ((HERE, os.O_RDONLY), (os.devnull, os.O_RDONLY), (os.devnull, os.O_WRONLY)):
        source = os.open(path, how)
        yield look("%s, opened for %s" % (path, "reading" if how == os.O_RDONLY else "writing"), given(source), b"no 1\n")
        os.close(source)


def breaking_off():
    """A read that fails behind some bytes: they are the input."""
    for data in (ONE, LARGEST, FULL, ONE[:-8], ONE[:-1], ONE + bytes(8)):
        ours, theirs = socket.socketpair()
        with ours, theirs:
            theirs.send(b"unread, so that the connection is reset")
            ours.sendall(data)
            ours.close()
            yield look("a connection reset behind %d bytes" % len(data), given(theirs), report.text(data))
        source, end = os.pipe()
        os.set_blocking(source, False)
        os.write(end, data)
        yield look("nothing to read behind %d bytes" % len(data), given(source), report.text(data))
        os.close(end)
        os.close(source)


def long_inputs():
    """More bytes than any image has, up to the buffer's size and past it; an input without end."""
    for size in (BUFFER - 8, BUFFER - 1, BUFFER, BUFFER + 1, BUFFER + 8, BUFFER + len(ONE), 2 * BUFFER, 3 * BUFFER + 5, 1000000):
        for front, behind in ((ONE, b""), (LARGEST, b""), (b"", ONE), (FULL, FULL)):
            data = front + bytes(size - len(front) - len(behind)) + behind
            yield look("%d bytes from a file" % size, from_file(data), b"no 1\n")
            if front is not FULL:
                yield look("%d bytes through a pipe" % size, fed([(data, 0)]), b"no 1\n")
                two = [(data[:len(LARGEST)], 0.001), (data[len(LARGEST):], 0)]
                yield look("%d bytes in two pieces" % size, fed(two), b"no 1\n")
    for data in (bytes(BUFFER), ONE * 158, b"\xff" * (BUFFER + 8)):
        yield look("%d bytes" % len(data), from_file(data), b"no 1\n")
    with open("/dev/zero", "rb") as zeros:
        yield look("/dev/zero", given(zeros), b"no 1\n")


def waiting():
    """An image is whole at the input's end only: bytes that come late count too."""
    for data in (ONE, LARGEST):
        for late, want in ((b"", report.text(data)), (b"\0", b"no 1\n"), (bytes(8), b"no 1\n"), (data, b"no 1\n")):
            yield look("%d bytes, later %d more" % (len(data), len(late)), fed([(data, 0.03), (late, 0)]), want)
        yield look("%d bytes, the last late" % len(data), fed([(data[:-1], 0.03), (data[-1:], 0)]), report.text(data))
    with tempfile.TemporaryFile() as said:
        with started(stdin=subprocess.PIPE, stdout=subprocess.PIPE, stderr=said) as run:
            os.write(run.stdin.fileno(), ONE[:100])
            until(lambda: waits(run), lambda _: time.sleep(0.001))
            for number in (signal.SIGSTOP, signal.SIGCONT):
                run.send_signal(number)
                time.sleep(0.02)
            out = run.communicate(ONE[100:])[0]
        yield look("stopped and continued", Result(out, run.returncode, content(said)), report.text(ONE))


def outputs():
    """Outputs that take nothing or a part, with a report and with a refusal: it is said, unless a signal tells it."""
    for data, name in ((ONE, "a report"), (FULL, "no 11"), (b"", "no 1"), (ONE * 200, "no 1 of a long input")):
        for what, output, how in failing():
            run = from_file(data, output, **how)
            yield "%s, output %s" % (name, what), run, told(run)
        ours, theirs = os.pipe()
        os.close(ours)
        run = from_file(data, theirs)
        yield "%s, no reader, with the signal" % name, run, told(run) or (run.status == -signal.SIGPIPE and run.err == b"")
        os.close(theirs)
    for size in (0, 1, 5, 29):
        with tempfile.TemporaryFile() as output:
            run = from_file(ONE, output, stderr=subprocess.PIPE, **limited(size))  # standard error is no file, so not limited
            yield "full after %d bytes" % size, run, told(run) and content(output) == report.text(ONE)[:size]
    with tempfile.TemporaryFile() as output:
        run = from_file(ONE, output, **limited(1000))
        yield "a file as output", run, run.good(None) and content(output) == report.text(ONE)


def both_outputs():
    """With standard error failing, too, the program ends, and its exit status is 0."""
    with open("/dev/full", "wb") as full:
        for data in (ONE, FULL):
            run = from_file(data, full, stderr=full)
            yield "both full", run, run.status == 0
            run = from_file(data, full, stderr=None, **closed(2))
            yield "output full, standard error closed", run, run.status == 0
    for number, name in ((0, "input"), (2, "standard error")):
        run = from_file(ONE, stderr=None, **closed(number))
        yield name + " closed", run, (run.out, run.status) == (report.text(ONE if number else b""), 0)


def late_reader():
    """An output that takes the report only after a while."""
    ours, theirs = os.pipe()
    os.set_blocking(theirs, False)
    filled = 0
    with contextlib.suppress(BlockingIOError):
        while True:
            filled += os.write(theirs, bytes(4096))
    os.set_blocking(theirs, True)
    with tempfile.TemporaryFile() as said:
        with started(stdin=subprocess.PIPE, stdout=theirs, stderr=said) as run:
            os.close(theirs)
            run.stdin.write(ONE)
            run.stdin.close()
            time.sleep(0.05)
            out = b"".join(iter(lambda: os.read(ours, 65536), b""))
        yield look("a reader that is late", Result(out[filled:], run.returncode, content(said)), report.text(ONE))
    os.close(ours)


ANSWERS = [unreadable, breaking_off, long_inputs, waiting, outputs, both_outputs, late_reader]


def looked(test):
    """What does not hold, and how much was looked at."""
    looks = list(test())
    return ["%s, %s: %s" % (test.__name__, what, shown(run)) for what, run, holds in looks if not holds], len(looks)


# ---- all of them ---------------------------------------------------------

def main(words):
    if len(words) not in (0, 2) or not all(word.isdigit() for word in words):
        sys.exit(__doc__)
    if not os.access(PROGRAM, os.X_OK):
        sys.exit("reelreport: there is no program %s" % PROGRAM)
    count, seed = map(int, words or (COUNT, random.SystemRandom().randrange(10 ** 6)))
    cases = [(number, None) for number in range(len(rawreport.TURNS))] + [(number, seed) for number in range(count)]
    wrong, runs, answers, looks = [], 0, Counter(), 0
    with multiprocessing.Pool() as pool:
        parts = pool.imap_unordered(looked, ANSWERS)
        for differs, fed_runs, answer in pool.imap_unordered(tried, cases, chunksize=4):
            wrong += differs
            runs += fed_runs
            answers[answer] += 1
        for differs, number in parts:
            wrong += differs
            looks += number
    for what in wrong[:50]:
        print("reelreport is not as the model: " + what)
    kinds = ", ".join("%d %s" % (many, answer) for answer, many in sorted(answers.items()))
    print("reelreport against the model: %d stored images and %d of seed %d (%s), %d runs, %d looks at edges, %d not as they should be"
          % (len(cases) - count, count, seed, kinds, runs, looks, len(wrong)))
    return 1 if wrong else 0


if __name__ == "__main__":
    sys.exit(main(sys.argv[1:]))
