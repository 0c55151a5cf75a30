"""Ways to run crates/reelwalk/out/reelwalk, or the program that the environment variable REELWALK names.

Every run is watched: it ends within a time limit, its exit status is known, and so is what it says on standard error.
"""

import fcntl
import os
import select
import subprocess
import sys
import tempfile
import termios
import threading
import time

HERE = os.path.dirname(os.path.abspath(__file__))
sys.path.insert(0, HERE)

import reelwalk  # noqa: E402

PROGRAM = os.environ.get("REELWALK") or os.path.join(HERE, "..", "crates", "reelwalk", "out", "reelwalk")
BUFFER = 65536    # bytes of the program's input buffer, and of its output buffer
WHOLE_RUN = 120   # seconds for a run from its start to its end
PATIENCE = [10]   # seconds for one answer; once one has not come the check has failed, and further ones get less time
PAUSE = 0.0002    # seconds between two looks at a program that is not ready yet


class Stream:
    """Bytes of steps, followed by the model step by step."""

    def __init__(self, data=b""):
        self.bytes, self.want, self.walk = bytearray(), bytearray(), reelwalk.Walk()
        self.ends = [(0, 0)]  # for each whole step: bytes of input up to its end, and bytes of all lines up to there
        for step in steps(data):
            self.do(*step)

    def do(self, kind, *body):
        """One more step, which may be short. After the last line nothing is printed."""
        self.bytes += bytes([kind, *body])
        if not self.walk.stopped:
            self.want += "".join(line + "\n" for line in self.walk.step(kind, bytes(body))).encode()
        if kind >= len(reelwalk.BODIES) or len(body) == reelwalk.BODIES[kind]:
            self.ends.append((len(self.bytes), len(self.want)))

    def copy(self):
        other = Stream()
        other.bytes, other.want, other.ends = self.bytes[:], self.want[:], self.ends[:]
        for name, part in vars(self.walk).items():  # no call of the model alters what it is given
            setattr(other.walk, name, part)
        return other

    def due(self, size):
        """How many bytes of lines are due when so many bytes of input are there: those of all whole steps."""
        return max(lines for at, lines in self.ends if at <= size)


def steps(data):
    """The steps of a stream one by one; the last may be short."""
    at = 0
    while at < len(data):
        size = 1 + (reelwalk.BODIES[data[at]] if data[at] < len(reelwalk.BODIES) else 0)
        yield data[at:at + size]
        at += size


class Result:
    """What a run left: output, exit status, standard error and how much of its input was taken. A run that did not end has status None."""

    def __init__(self, out, status, err, taken=None):
        self.out, self.status, self.err, self.taken = out, status, err, taken

    def good(self, want):
        """These lines, nothing on standard error and exit status 0."""
        return self.out == want and self.err == b"" and self.status == 0

    def told(self):
        """The run ended by itself, not by a signal, and said one line on standard error."""
        return (self.status is not None and self.status >= 0 and self.err.startswith(b"reelwalk: ")
                and self.err.endswith(b"\n") and self.err.count(b"\n") == 1)


def content(file):
    file.seek(0)
    return file.read()


def from_file(data, stdout=subprocess.PIPE, **how):
    """A run whose input is a file, so that one read brings as much as the program asks for."""
    with tempfile.TemporaryFile() as source, tempfile.TemporaryFile() as said:
        source.write(data)
        source.seek(0)
        try:
            run = subprocess.run([PROGRAM], stdin=source, stdout=stdout, stderr=how.pop("stderr", said), timeout=WHOLE_RUN, check=False, **how)
        except subprocess.TimeoutExpired:
            return Result(None, None, content(said))
        return Result(run.stdout, run.returncode, content(said), os.lseek(source.fileno(), 0, os.SEEK_CUR))


def watched(run):
    """Sees to it that this run ends: after the time limit by a signal, so that its status is not good."""
    timer = threading.Timer(WHOLE_RUN, run.kill)
    timer.daemon = True
    timer.start()
    return run


class Live:
    """A run whose input is a pipe that stays open, for as long as the with block lasts."""

    def __init__(self, stdout=subprocess.PIPE, **how):
        self.out, self.open, self.said = b"", True, tempfile.TemporaryFile()
        self.run = subprocess.Popen([PROGRAM], stdin=subprocess.PIPE, stdout=stdout, stderr=self.said, **how)

    def __enter__(self):
        return self

    def __exit__(self, *_):
        for file in (self.run.stdin, self.run.stdout):
            if file:
                file.close()
        if self.run.poll() is None:
            self.run.kill()
        self.run.wait()
        self.said.close()

    def send(self, data):
        """Sends these bytes at once. A program that has stopped takes none."""
        try:
            os.write(self.run.stdin.fileno(), data)
        except BrokenPipeError:
            pass

    def leave(self):
        """The reader of the output goes."""
        self.run.stdout.close()
        self.run.stdout, self.open = None, False

    def take(self, seconds):
        """Reads what is there, or comes within so many seconds; False if that is nothing."""
        if not self.open or not select.select([self.run.stdout], [], [], max(0, seconds))[0]:
            return False
        piece = os.read(self.run.stdout.fileno(), 1 << 20)
        self.out += piece
        self.open = bool(piece)
        return self.open

    def wait(self, size):
        """Until so many bytes have come, or the output's end."""
        until(lambda: len(self.out) >= size or not self.open, self.take)

    def quiet(self):
        """Until the program has taken all input and waits for more, or has ended; then reads what is there."""
        until(lambda: waits(self.run), pause)
        while self.take(0):
            pass

    def stopped(self):
        """The result if the program ends by itself, though its input stays open."""
        if self.run.stdout:
            until(lambda: not self.open, self.take)
        until(lambda: self.run.poll() is not None, pause)
        return Result(self.out, self.run.poll(), content(self.said))

    def ended(self):
        """The result where the input ends here."""
        self.run.stdin.close()
        return self.stopped()


def paused(made, stops):
    """Whether at each of these bytes of input all lines that are due come, and no others, while the input stays open; and the rest then."""
    with Live() as live:
        at = 0
        for stop in stops:
            live.send(made.bytes[at:stop])
            at = stop
            live.wait(made.due(stop))
            if live.out != made.want[:made.due(stop)]:
                return False
        live.send(made.bytes[at:])
        return live.ended().good(made.want)


def until(holds, look):
    """Looks again and again until it holds, at most as long as patience lasts."""
    last = time.monotonic() + PATIENCE[0]
    while not holds():
        left = last - time.monotonic()
        if left <= 0:
            PATIENCE[0] = 0.3
            return
        look(left)


def pause(_):
    time.sleep(PAUSE)


def waits(run):
    """The program has ended, or it has taken all input and sleeps: it waits for more."""
    if run.poll() is not None:
        return True
    if int.from_bytes(fcntl.ioctl(run.stdin, termios.FIONREAD, bytes(4)), sys.byteorder):
        return False
    try:
        with open("/proc/%d/stat" % run.pid, encoding="utf-8") as stat:
            return stat.read().rpartition(")")[2].split()[0] in "SZ"
    except OSError:
        return True  # a system that does not tell it
