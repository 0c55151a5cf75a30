#!/usr/bin/env python3
"""Counts the instructions that one call takes, by callgrind, and prints them as a Markdown table.

    bench/calls.py

bench/calls has the program that makes the calls, as a crate of its own that the gate does not prove. Its files end in
.txt, since rt refuses a repository with Rattle files that no listed crate has. Here it becomes a crate of a small repository
in the system's folder for temporary files, beside copies of the libraries that it uses, and rt run proves and builds it there.
"""

import os
import shutil
import subprocess
import sys
import tempfile

HERE = os.path.dirname(os.path.abspath(__file__))
os.chdir(os.path.join(HERE, ".."))
sys.path.insert(0, HERE)

import instructions  # noqa: E402

PLACE = os.path.join(tempfile.gettempdir(), "jivandu-calls")
PROGRAM = PLACE + "/crates/calls/out/calls"
FEW, MANY = 2, 12  # hundreds of calls: one run is taken off the other
# A title, then bench/calls' number of the call, the session and how many are active: inputs, so that the compiler does
# not know them.
CALLS = [
    ("`store::read`, home record", 1, 0, 0),
    ("`store::read`, own copy", 2, 0, 0),
    ("`store::write` over an own copy", 3, 0, 0),
    ("`reels::read`, own copy", 4, 0, 0),
    ("`reels::write` over an own copy", 5, 0, 0),
    ("`listening::read`, home record", 6, 0, 0),
    ("`listening::find`, no match", 7, 0, 0),
    ("`listening::find`, match at record 0", 8, 0, 0),
    ("`publish` of session 3", 9, 3, 0),
    ("`publish_group` of session 3 alone", 10, 3, 0),
    ("`publish_group` of all sixteen", 11, 3, 0),
    ("`desk::census`, nobody active", 12, 0, 0),
    ("`desk::census`, 4 active with 4 copies each", 12, 0, 4),
    ("`desk::census`, 16 active with 4 copies each", 12, 0, 16),
    ("`begin` and `abandon` of session 15, 4 others active with 4 copies each", 13, 15, 4),
    ("`settle` that waits, 1 active", 14, 15, 1),
    ("`settle` that waits, 4 active, equal starts", 14, 15, 4),
    ("`settle` that waits, 15 active, equal starts", 14, 15, 15),
]


def build():
    """Proves and builds the program in a repository of its own, over copies of the libraries."""
    shutil.rmtree(PLACE, ignore_errors=True)
    with open("crates.txt") as file:
        lists = {line.split(":")[0]: line for line in file if ":" in line}
    over = ["listening", "feed"] + lists["listening"].split()[1:]
    for library in over:
        shutil.copytree("crates/" + library, PLACE + "/crates/" + library, ignore=shutil.ignore_patterns("out", "must-fail"))
    for folder, _, files in os.walk("bench/calls"):
        to = folder.replace("bench/calls", PLACE + "/crates/calls", 1)
        os.makedirs(to)
        for name in files:
            shutil.copy(os.path.join(folder, name), os.path.join(to, name.removesuffix(".txt")))
    with open(PLACE + "/crates.txt", "w") as file:
        file.writelines([lists[library] for library in over] + ["calls: %s\n" % " ".join(over)])
    done = subprocess.run(["rt", "run"], cwd=PLACE + "/crates/calls", stdin=subprocess.DEVNULL, stdout=subprocess.PIPE,
                          stderr=subprocess.PIPE, text=True)
    if not os.path.exists(PROGRAM):
        sys.exit(done.stderr + "bench/calls is not proved")


def run(call, session, active, hundreds):
    """All instructions of a run, and those in memcpy; every call must have answered as it should."""
    path = "%s/%d-%d-%d" % (PLACE, call, active, hundreds)
    with open(path, "wb") as out:
        out.write(bytes([call, hundreds, session, active]))
    with open(path, "rb") as data:
        made = subprocess.run([PROGRAM], stdin=data, stdout=subprocess.PIPE, check=True).stdout
    if made != b"%d" % (100 * hundreds):
        sys.exit("call %d, %d active: %s of %d answered as they should" % (call, active, made.decode(), 100 * hundreds))
    functions = instructions.Profile([PROGRAM], path, path + ".callgrind").functions()
    return sum(functions.values()), functions["memcpy"]


def main(words):
    if words:
        sys.exit(__doc__)
    build()
    print("| A call | instructions | of these in `memcpy` |\n| --- | --- | --- |")
    for title, *call in CALLS:
        few, many = run(*call, FEW), run(*call, MANY)
        each = [(b - a) / (100 * (MANY - FEW)) for a, b in zip(few, many)]
        print("| %s | %s |" % (title, " | ".join("{:,.0f}".format(count) for count in each)))


if __name__ == "__main__":
    main(sys.argv[1:])
