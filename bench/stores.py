"""Stores and fences of the loads in bench/load.py, counted from the model's entries, as Markdown.

    python3 bench/stores.py [STEPS]      streams of so many steps, 20,000 if not said

Each stream is run twice: with both log forms, as Req 08 has it, and with the full form alone, as before. No call's
answer hangs on the form, so that the two runs have the same calls. Entries of a finish are those of one that seals.
"""

import os
import sys
from collections import Counter
from unittest.mock import patch

HERE = os.path.dirname(os.path.abspath(__file__))
sys.path[:0] = [HERE, os.path.join(HERE, "..", "model")]

import load  # noqa: E402
import reelwalk  # noqa: E402
import store  # noqa: E402

STREAMS = [(n, m, name) for n, m in [(256, 16), (8, 4)] for name in ("write", "edit")]
CALLS = ("open_image", "finish", "publish", "settle", "reclaim", "recover")
HEAD = ["Stream", "log forms", "stores in finish", "fences in finish", "all stores", "all fences", "short logs",
        "full logs", "entries of a finish"]


class Counted:
    """The model; what its calls list is counted."""

    def __init__(self):
        self.stores, self.fences, self.logs = Counter(), Counter(), Counter()

    def __getattr__(self, name):
        if name not in CALLS:
            return getattr(store, name)
        return lambda *arguments: self.counted(name, getattr(store, name)(*arguments))

    def counted(self, name, done):
        entries = done["entries"]
        fences = entries.count(store.FENCE)
        self.fences[name] += fences
        self.stores[name] += len(entries) - fences
        if name == "finish" and entries:
            _, form = entries[0]
            self.logs["short" if form >= store.SHORT else "full"] += 1
        return done

    def row(self):
        stores, fences, logs = self.stores, self.fences, self.logs
        counts = [stores["finish"], fences["finish"], sum(stores.values()), sum(fences.values()),
                  logs["short"], logs["full"]]
        average = (stores["finish"] + fences["finish"]) / sum(logs.values())
        return ["{:,}".format(count) for count in counts] + ["%.2f" % average]


def run(data, full_alone):
    """A stream's counts and lines. The model takes the full form where all words of the copies count as changed."""
    counted = Counted()
    if full_alone:
        with patch.object(store, "differing", lambda image, copies: store.to_home(copies)):
            return counted, reelwalk.output(data, counted)
    return counted, reelwalk.output(data, counted)


def main(steps):
    rows = [HEAD, ["---"] * len(HEAD)]
    for n, m, name in STREAMS:
        data = load.stream(n, m, name, steps)
        before, lines = run(data, True)
        after, same = run(data, False)
        if before.logs["short"] or lines != same:
            sys.exit("N %d M %d, %s: the runs are not of the same calls in the two ways" % (n, m, name))
        title = "N %d M %d, %s-heavy" % (n, m, name)
        rows += [[title, "full"] + before.row(), [title, "both"] + after.row()]
    for row in rows:
        print("| %s |" % " | ".join(row))


if __name__ == "__main__":
    if len(sys.argv) > 2:
        sys.exit(__doc__)
    main(int(sys.argv[1]) if len(sys.argv) == 2 else 20000)
