"""Instructions that a program executes, counted by callgrind: in all, by function, by caller."""

import os
import re
import shutil
import subprocess
from collections import Counter

# The same for every run: how copies fall on the stack, and so what they cost, depends on the size of the environment.
ENVIRONMENT = {"PATH": os.defpath}

LINE = re.compile(r"\s*([\d,]+) \(\s*[\d.]+%\) +([<*] +)?([^:]+):(.*)")
CALLS = re.compile(r" \(([\d,]+)x\)")


def tool(name):
    path = shutil.which(name)
    if not path:
        raise SystemExit("%s is missing; it comes with valgrind" % name)
    return path


def number(text):
    return int(text.replace(",", ""))


def plain(name):
    """A function's name without calls and object; libc's copies by their common names."""
    name = re.sub(r" \[.*\]$", "", CALLS.sub("", name))
    common = re.match(r"_*(mem[a-z]+)_(sse|avx|evex|erms)", name)
    return common.group(1) if common else name


class Profile:
    """One run of a command on a stream."""

    def __init__(self, command, stream, out):
        self.out = out
        call = [tool("valgrind"), "--tool=callgrind", "--callgrind-out-file=" + out] + command
        with open(stream, "rb") as steps:
            done = subprocess.run(call, stdin=steps, stdout=subprocess.DEVNULL, stderr=subprocess.PIPE, env=ENVIRONMENT)
        if done.returncode:
            raise SystemExit("%s: %s" % (" ".join(call), done.stderr.decode()))

    def lines(self, *options):
        """callgrind_annotate's lines: instructions, "<" for a caller, the function, calls."""
        call = [tool("callgrind_annotate"), "--auto=no", "--threshold=100", *options, self.out]
        done = subprocess.run(call, stdout=subprocess.PIPE, stderr=subprocess.PIPE, text=True, check=True)
        for line in done.stdout.splitlines():
            found = LINE.match(line)
            if found:
                calls = CALLS.search(found.group(4))
                yield (number(found.group(1)), (found.group(2) or "").strip(), plain(found.group(4)),
                       number(calls.group(1)) if calls else 0)

    def functions(self, *options):
        """Instructions by function, without those of the functions that it calls."""
        count = Counter()
        for instructions, _, name, _ in self.lines(*options):
            count[name] += instructions
        return count

    def inclusive(self):
        return self.functions("--inclusive=yes")

    def total(self):
        return sum(self.functions().values())

    def callers(self, wanted):
        """Calls of a function by caller, with the instructions of the callee."""
        found, waiting = {}, {}
        for instructions, mark, name, calls in self.lines("--tree=caller"):
            if mark == "<":
                before = waiting.get(name, (0, 0))
                waiting[name] = (before[0] + calls, before[1] + instructions)
            else:
                if name == wanted:
                    found.update(waiting)
                waiting = {}
        return found
