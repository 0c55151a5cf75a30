"""Entries and instructions of a finish, for 1 to 4 copies (c) with 0 to 4c changed words (k), as Markdown.

    python3 bench/finish.py BEFORE AFTER      programs before Req 08 and with it, each a path, with words behind it

A round is begin, c writes, finish, publish, settle and reclaim by session 0, with N 256 and M 16. The records are
written in descending order. The changed words go round the copies: word 0 of each in the order of the writes, then
word 1 of each, up to k. They hold the round's number, so that they differ from what the round before left at home;
all other words are 0, as at home.

Entries are found by cutting the finish behind each count: its log is replayed from the last but one on. Instructions
are by callgrind. Those of a round are the difference of 50 rounds and 250, by the rounds. Those of a finish are what
this one step adds, with 50 rounds, begin and the writes before it: its checks, copies of the desk and line are included.
"""

import os
import shlex
import shutil
import subprocess
import sys

HERE = os.path.dirname(os.path.abspath(__file__))
os.chdir(os.path.join(HERE, ".."))
sys.path.insert(0, HERE)

import instructions  # noqa: E402
from load import BEGIN, FINISH, LAY, PUBLISH, RECLAIM, SETTLE, WRITE  # noqa: E402

CUT = 9
RECORDS = (200, 150, 100, 50)
FEW, MANY = 50, 250
MOST_ENTRIES = 24
PLACE = "target/bench"
STEPS, COUNTS = PLACE + "/finish.steps", PLACE + "/finish.callgrind"
HEAD = ["c", "k", "form", "entries before", "after", "instructions a round before", "after", "difference",
        "instructions of a finish before", "after", "difference"]


def command(name, program):
    """The program under a name of fixed length, since how long it is moves the stack and so the counts."""
    path, *words = shlex.split(program)
    return [shutil.copy(path, "%s/finish-%s" % (PLACE, name))] + words


# ---- streams -------------------------------------------------------------

def draft(c, k, number):
    """Begin and the writes, with this number in the changed words."""
    words = [[0] * 4 for _ in range(c)]
    for j in range(k):
        words[j % c][j // c] = number
    writes = [bytes([WRITE, 0, record]) + b"".join(word.to_bytes(8, "little") for word in four)
              for record, four in zip(RECORDS, words)]
    return bytes([BEGIN, 0]) + b"".join(writes)


def rounds(c, k, count):
    rest = bytes([FINISH, 0, PUBLISH, 0, SETTLE, 0, RECLAIM, 0])
    return bytes([LAY, 0, 16]) + b"".join(draft(c, k, number) + rest for number in range(1, count + 1))


# ---- counts --------------------------------------------------------------

def entries(program, c, k):
    """Finishes are cut until a log is replayed; up to there the home records stay as laid."""
    tries = [draft(c, k, 1) + bytes([CUT, made, FINISH, 0]) for made in range(MOST_ENTRIES + 1)]
    done = subprocess.run(program, input=bytes([LAY, 0, 16]) + b"".join(tries), stdout=subprocess.PIPE, check=True)
    steps = [int(line.split()[0]) for line in done.stdout.splitlines() if line.split()[1] == b"replayed"]
    made = (min(steps) - 1) // (c + 3) - 1
    return made + 1


def total(program, data):
    with open(STEPS, "wb") as out:
        out.write(data)
    return instructions.Profile(program, STEPS, COUNTS).total()


def measured(program, c, k):
    """Entries, instructions of a round and of a finish."""
    few, many = (total(program, rounds(c, k, count)) for count in (FEW, MANY))
    drafted = rounds(c, k, FEW) + draft(c, k, FEW + 1)
    finish = total(program, drafted + bytes([FINISH, 0])) - total(program, drafted)
    return entries(program, c, k), (many - few) / (MANY - FEW), finish


def row(programs, c, k):
    short = 2 * k < 5 * c
    before, after = (measured(program, c, k) for program in programs)
    due = 5 * c + 4, 2 * k + 4 if short else 5 * c + 4
    if (before[0], after[0]) != due:
        sys.exit("c %d k %d: %d and %d entries instead of %d and %d" % (c, k, before[0], after[0], *due))
    fields = [c, k, "short" if short else "full", before[0], after[0]]
    for one, other in list(zip(before, after))[1:]:
        fields += ["{:,.0f}".format(one), "{:,.0f}".format(other), "{:+,.0f}".format(other - one)]
    return fields


def main(before, after):
    os.makedirs(PLACE, exist_ok=True)
    programs = command("1", before), command("2", after)
    print("| %s |\n|%s" % (" | ".join(HEAD), " --- |" * len(HEAD)))
    for c in range(1, 5):
        for k in range(4 * c + 1):
            print("| %s |" % " | ".join(str(field) for field in row(programs, c, k)), flush=True)


if __name__ == "__main__":
    if len(sys.argv) != 3:
        sys.exit(__doc__)
    main(*sys.argv[1:])
