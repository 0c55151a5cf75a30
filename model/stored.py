"""The stored test data of the programs schedules, rawcases and reportcases.

    python3 model/stored.py write     makes the files anew
    python3 model/stored.py check     shows that the model still gives them

A stream of `schedules` stands behind its length in bytes, as four bytes, lowest first.
"""

import multiprocessing
import os
import struct
import sys

HERE = os.path.dirname(os.path.abspath(__file__))
sys.path.insert(0, HERE)

import raw  # noqa: E402
import rawalone  # noqa: E402
import rawgroup  # noqa: E402
import rawlistening  # noqa: E402
import raworder  # noqa: E402
import rawreels  # noqa: E402
import rawreport  # noqa: E402
import rawshort  # noqa: E402
import rawspeeds  # noqa: E402
import reelwalk  # noqa: E402
import streams  # noqa: E402

CRATES = os.path.join(HERE, "..", "crates")
SEEDS = {kind: 14 for kind in streams.KINDS}
SEEDS.update({"long": 6, "ceiling": 4, "openings": 6, "cuts_publish": 6})
RAW_SEED = 1
# What makes the raw cases, each from this number on; of all but the first it is one round.
RAW_MAKERS = [(0, raw), (rawreels.FIRST, rawreels), (rawlistening.FIRST, rawlistening), (rawgroup.FIRST, rawgroup),
              (rawalone.FIRST, rawalone), (rawspeeds.FIRST, rawspeeds), (rawshort.FIRST, rawshort),
              (raworder.FIRST, raworder)]
RAW_CASES = raworder.FIRST + len(raworder.TURNS)


def schedule(kind_and_seed):
    """A stream behind its length, and the lines that it must print."""
    stream = streams.stream(*kind_and_seed)
    return struct.pack("<I", len(stream)) + stream, reelwalk.output(stream)


def raw_case(number):
    """A raw case, packed, and the line that it must give."""
    first, maker = [(first, maker) for first, maker in RAW_MAKERS if first <= number][-1]
    case, _ = maker.make(RAW_SEED, number - first)
    return raw.packed(raw.case_words(case)), (raw.want_line(number, case) + "\n").encode()


def report_case(number):
    """A report case, packed, and the line and text that it must give."""
    return rawreport.packed(number), rawreport.wanted(number)


def files():
    """Path and content of each file; the cases are made on all processors."""
    kinds = [(kind, seed) for kind, seeds in SEEDS.items() for seed in range(1, seeds + 1)]
    with multiprocessing.Pool() as pool:
        for crate, make, cases in (("schedules", schedule, kinds),
                                   ("rawcases", raw_case, range(RAW_CASES)),
                                   ("reportcases", report_case, range(len(rawreport.TURNS)))):
            made = pool.map(make, cases, chunksize=1 if crate == "schedules" else 8)
            for i, name in enumerate(("stdin", "stdout")):
                yield os.path.join(CRATES, crate, name), b"".join(part[i] for part in made)


def main(words):
    if words not in (["write"], ["check"]):
        sys.exit(__doc__)
    for path, content in files():
        if words == ["write"]:
            os.makedirs(os.path.dirname(path), exist_ok=True)
            with open(path, "wb") as file:
                file.write(content)
        else:
            with open(path, "rb") as file:
                if file.read() != content:
                    sys.exit("%s is not what the model gives" % os.path.relpath(path))
    print("stored files: " + {"write": "written", "check": "as the model gives them"}[words[0]])


if __name__ == "__main__":
    main(sys.argv[1:])
