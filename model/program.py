"""Runs crates/reelwalk/out/reelwalk itself and compares it with the model, on fixed streams.

    python3 model/program.py       all of them; one line, or what differs

The streams: two seeds of every kind; streams ten times as long as the program's buffers, with N 256 and M 16 too; every beginning of document 01's
whole case, the empty one included. Each is fed whole, and most also through a pipe in odd pieces. Then what the operating system may answer: a read
that fails, an output that takes nothing, a reader that is slow. Then the program's edges (`edges.py`). The environment variable REELWALK names
another program to run.
"""

import multiprocessing
import os
import random
import subprocess
import sys
import tempfile
import threading
import time

HERE = os.path.dirname(os.path.abspath(__file__))
sys.path.insert(0, HERE)

import edges  # noqa: E402
import reelwalk  # noqa: E402
import streams  # noqa: E402
from runs import BUFFER, PROGRAM, WHOLE_RUN, Result, content, from_file, watched  # noqa: E402

SEEDS = (7001, 7002)


def far(seed, n, m, cuts):
    """A stream of more than ten buffers that follows no model: mostly writes, all numbers in range but a few."""
    rng = random.Random("far/%d" % seed)
    out = bytearray([streams.LAY, n % 256, m])
    while len(out) < 10 * BUFFER + 1000:
        session = rng.randrange(m) if rng.random() < 0.99 else rng.randrange(256)
        record = rng.randrange(min(n, 256)) if rng.random() < 0.99 else rng.randrange(256)
        if cuts and rng.random() < 0.001:
            out += bytes([streams.CUT, rng.randrange(26)])
        kind = rng.choice([streams.BEGIN] * 2 + [streams.READ] * 2 + [streams.WRITE] * 12 + [streams.FINISH, streams.PUBLISH] * 2
                          + [streams.SETTLE] * 3 + [streams.RECLAIM] * 2 + ([streams.ABANDON] if rng.random() < 0.2 else []))
        out.append(kind)
        out.append(session)
        if kind in (streams.READ, streams.WRITE):
            out.append(record)
        if kind == streams.WRITE:
            out += rng.randbytes(32)
    return bytes(out)


def cases():
    """Name and maker of each stream."""
    for seed in SEEDS:
        for kind in streams.KINDS:
            yield "%s %d" % (kind, seed), ("kind", kind, seed)
    for seed, n, m, cuts in ((1, 256, 16, False), (2, 256, 16, True), (3, 5, 3, True)):
        yield "far %d" % seed, ("far", seed, n, m, cuts)
    for size in range(len(reelwalk.WHOLE_CASE) + 1):
        yield "the whole case's first %d bytes" % size, ("whole", size)


def made(way):
    if way[0] == "kind":
        return streams.stream(*way[1:])
    if way[0] == "far":
        return far(*way[1:])
    return reelwalk.WHOLE_CASE[:way[1]]


def fed(data, pieces, wait=0.0):
    """The program's result where its input comes in pieces of these sizes, one after the other."""
    said = tempfile.TemporaryFile()
    run = watched(subprocess.Popen([PROGRAM], stdin=subprocess.PIPE, stdout=subprocess.PIPE, stderr=said))

    def feed():
        at = 0
        try:
            for size in pieces:
                if at >= len(data):
                    break
                os.write(run.stdin.fileno(), data[at:at + size])
                at += size
                if wait:
                    time.sleep(wait)
        except BrokenPipeError:
            pass
        run.stdin.close()

    feeder = threading.Thread(target=feed)
    feeder.start()
    out = run.stdout.read()
    feeder.join()
    return Result(out, run.wait(), content(said))


def fed_whole(data):
    """The program's result where its input comes at once."""
    run = watched(subprocess.Popen([PROGRAM], stdin=subprocess.PIPE, stdout=subprocess.PIPE, stderr=subprocess.PIPE))
    out, err = run.communicate(data)
    return Result(out, run.returncode, err)


def odd(rng, size):
    """Sizes of pieces that add up to this size or more: single bytes, a few, and around the buffer's size."""
    while size > 0:
        piece = rng.choice([1, 2, 34, 35, 36, rng.randrange(1, 400), rng.randrange(1, 9000)]) if rng.random() < 0.9 else rng.choice(
            [BUFFER - 1, BUFFER, BUFFER + 1, rng.randrange(1, 3 * BUFFER)])
        size -= piece
        yield piece


def tried(case):
    """The ways in which the program's lines are not the model's, for one stream, and how many lines were compared."""
    name, way = case
    data = made(way)
    want = reelwalk.output(data)
    rng = random.Random(name)
    ways = {"whole": lambda: fed_whole(data), "a file": lambda: from_file(data), "odd pieces": lambda: fed(data, odd(rng, len(data)))}
    if len(data) < 1500:
        ways["a byte at a time"] = lambda: fed(data, [1] * len(data), 0.0002)
    return ["%s, %s" % (name, kind) for kind, make in ways.items() if not make().good(want)], want.count(b"\n") * len(ways)


def read_fails():
    """The result where standard input cannot be read."""
    folder = os.open(HERE, os.O_RDONLY)
    run = subprocess.run([PROGRAM], stdin=folder, stdout=subprocess.PIPE, stderr=subprocess.PIPE, timeout=WHOLE_RUN, check=False)
    os.close(folder)
    return Result(run.stdout, run.returncode, run.stderr)


def write_fails(data):
    """The result where standard output takes nothing, with how much of the input was taken."""
    said, taken = tempfile.TemporaryFile(), 0
    with open("/dev/full", "wb") as full:
        run = watched(subprocess.Popen([PROGRAM], stdin=subprocess.PIPE, stdout=full, stderr=said))
    try:
        for at in range(0, len(data), 4096):
            os.write(run.stdin.fileno(), data[at:at + 4096])
            taken = at
    except BrokenPipeError:
        pass
    run.stdin.close()
    return Result(b"", run.wait(), content(said), taken)


def read_slowly(data):
    """The result where standard output is read in small pieces."""
    said, out, piece = tempfile.TemporaryFile(), b"", b"first"
    run = watched(subprocess.Popen([PROGRAM], stdin=subprocess.PIPE, stdout=subprocess.PIPE, stderr=said))
    threading.Thread(target=lambda: (run.stdin.write(data), run.stdin.close())).start()
    while piece:
        piece = os.read(run.stdout.fileno(), 3001)
        out += piece
    return Result(out, run.wait(), content(said))


def answers():
    """What the operating system may answer: each test's name and whether it holds."""
    long = far(4, 256, 16, False)
    yield "a read that fails is the input's end", read_fails().good(b"")
    run = write_fails(long)
    yield "an output that takes nothing stops the walk", run.taken < len(long) // 2
    yield "an output that takes nothing is told", run.told()
    yield "a slow reader gets every line", read_slowly(long).good(reelwalk.output(long))


def main():
    wrong, lines, count, looks = [], 0, 0, 0
    with multiprocessing.Pool() as pool:
        for differs, compared in pool.imap_unordered(tried, list(cases())):
            wrong += differs
            lines += compared
            count += 1
        for differs, looked in pool.imap_unordered(edges.tried, list(edges.tests())):
            wrong += differs
            looks += looked
    for name, holds in answers():
        count += 1
        if not holds:
            wrong.append(name)
    for name in wrong:
        print("reelwalk is not as the model: " + name)
    print("reelwalk against the model: %d streams and answers, %d lines, %d looks at edges, %d not as they should be"
          % (count, lines, looks, len(wrong)))
    return 1 if wrong else 0


if __name__ == "__main__":
    sys.exit(main())
