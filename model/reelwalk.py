"""The program: steps on standard input, one line or more for each on
standard output.

    python3 reelwalk.py < steps > lines
    python3 reelwalk.py whole-case        checks the document's whole case
"""

import sys

import store

NAMES = ["lay", "begin", "read", "write", "finish", "publish", "settle",
         "reclaim", "abandon", "cut"]
BODIES = [2, 1, 2, 34, 1, 1, 1, 1, 1, 1]
STORING = (4, 5, 6, 7)  # what a cut waits for


def text(answer):
    """A result as it is printed."""
    name = answer["name"]
    if name == "no":
        return "no %d" % answer["number"]
    if name in ("own", "copy", "home"):
        return " ".join(str(word) for word in answer["words"] + [name])
    if name in ("start", "end", "sealed", "wait", "held", "cleared"):
        return "%s %d" % (name, answer["value"])
    return name  # ok, empty, none


def words_in(body):
    """Words lowest byte first."""
    return [int.from_bytes(body[i:i + 8], "little") for i in range(0, len(body), 8)]


class Walk:
    """The program's state between steps. stopped is set after the last line."""

    def __init__(self, model=store):
        self.store = model
        self.image = self.desk = self.cut = None
        self.steps = 0
        self.stopped = False

    def step(self, kind, body):
        """The lines of one step whose body may be short."""
        self.steps += 1
        whole = kind < len(BODIES) and len(body) == BODIES[kind]
        if not whole or (kind == 0) != (self.steps == 1):
            self.stopped = True
            return ["%d bad" % self.steps]
        fields = [str(self.steps), NAMES[kind]] + self.arguments(kind, body)
        first, *rest = self.results(kind, body)
        lines = [" ".join(fields + first)]
        return lines + ["%d %s" % (self.steps, line) for line in rest]

    def arguments(self, kind, body):
        """The arguments as printed: no record words, N as 1 to 256."""
        if kind == 0:
            return [str(body[0] or 256), str(body[1])]
        return [str(byte) for byte in body[:2]]

    def results(self, kind, body):
        """The step's own result (a list, empty for cut), then further lines."""
        if kind == 9:  # a second one before the cut replaces K
            self.cut = body[0]
            return [[]]
        if kind == 0:
            return [[self.lay(body[0] or 256, body[1])]]
        if kind in STORING:
            return self.storing(kind, body[0])
        return [[self.plain(kind, body)]]

    def lay(self, n, m):
        """A refused step 0 prints its line and stops."""
        room = self.store.length(n, m) if self.store.in_range(n, m) else 0
        done = self.store.lay(n, m, [0] * room)
        if done["answer"]["name"] == "no":
            self.stopped = True
        else:
            self.image = done["image"]
            self.open()
        return text(done["answer"])

    def open(self):
        """Opens the image, which raises its word 3."""
        done = self.store.open_image(self.image, 48)
        self.image, self.desk = done["image"], done["desk"]

    def plain(self, kind, body):
        """Begin, read, write, abandon."""
        session = body[0]
        if kind == 1:
            done = self.store.begin(self.desk, session)
        elif kind == 2:
            done = self.store.read(self.image, self.desk, session, body[1])
        elif kind == 3:
            done = self.store.write(self.image, self.desk, session, body[1], words_in(body[2:]))
        else:
            done = self.store.abandon(self.desk, session)
        self.desk = done["desk"]
        return text(done["answer"])

    def storing(self, kind, session):
        """Finish, publish, settle, reclaim; with a pending cut the desk is then lost, also by a
        step that is refused or has no entries."""
        done = getattr(self.store, NAMES[kind])(self.image, self.desk, 48, session)
        if self.cut is None:
            self.image, self.desk = done["image"], done["desk"]
            return [[text(done["answer"])]]
        self.image = self.store.made(self.image, done["entries"][:self.cut])
        shown = "cut" if done["entries"] else text(done["answer"])
        self.cut = None
        return [[shown]] + self.reopened()

    def reopened(self):
        """Lines "replayed P" for each log, then "open"."""
        lines = []
        done = self.store.recover(self.image, 48)
        while done["answer"]["name"] == "replayed":
            lines.append("replayed %d" % done["answer"]["value"])
            self.image = done["image"]
            done = self.store.recover(self.image, 48)
        self.open()
        return lines + ["open"]


def run(data, model=store):
    """All lines for a stream of bytes."""
    walk, lines, at = Walk(model), [], 0
    while at < len(data) and not walk.stopped:
        kind = data[at]
        size = BODIES[kind] if kind < len(BODIES) else 0
        lines += walk.step(kind, data[at + 1:at + 1 + size])
        at += 1 + size
    return lines


def output(data, model=store):
    return "".join(line + "\n" for line in run(data, model)).encode()


WHOLE_CASE = (bytes.fromhex("000202 0100 0101 03000105") + bytes(31)
              + bytes.fromhex("020001 0400 0500 020101 0600 0401 0600 0700"))
WHOLE_CASE_LINES = b"""\
1 lay 2 2 ok
2 begin 0 start 1
3 begin 1 start 1
4 write 0 1 ok
5 read 0 1 5 0 0 0 own
6 finish 0 sealed 1
7 publish 0 end 2
8 read 1 1 0 0 0 0 home
9 settle 0 wait 1
10 finish 1 empty
11 settle 0 ok
12 reclaim 0 cleared 1
"""


if __name__ == "__main__":
    if sys.argv[1:] == ["whole-case"]:
        same = output(WHOLE_CASE) == WHOLE_CASE_LINES
        print("whole case: %s" % ("same" if same else "differs"))
        sys.exit(0 if same else 1)
    sys.stdout.buffer.write(output(sys.stdin.buffer.read()))
