#!/usr/bin/env python3
"""Brings the repository's own names to today's spelling, after the kit's port.py and once.

    tools/port/respell.py           rewrites crates/, README.md and docs/
    tools/port/respell.py list      prints each old name beside its new one, and writes nothing

A definition's, lemma's or variable's name in camel case goes to snake case, part by part between its hyphens (`slotAt-apart`: `slot_at-apart`).
Types, modules and constructors stay, and so do Rust's own names. A lemma to which port.py gave an underscore, and with which a name would fall
together, gets its hyphen back. It stops where two names would still fall together.
"""

import os
import re
import sys

TOP = os.path.join(os.path.dirname(os.path.realpath(__file__)), "..", "..")
TOKEN = re.compile(r"(?<![\w'?-])[A-Za-z][A-Za-z0-9_'?-]*")
CAMEL = re.compile(r"[a-z][A-Za-z0-9_']*?[A-Z]")
DECLARED = re.compile(r"\s*(?:abbrev |unfoldable )?(?:pub )?(?:data |record )?([^\s:(){}]+)(?: [^:]*)? : ")
KEPT = {"getD"}
LEMMAS = {
    "shows_later": "", "no_copies": "", "read_done": "", "open_told": "", "read_told": "", "write_done": "", "open_row": "", "ended_at": "",
    "read_at": "", "no_words": "", "open_said": "", "source_told": "", "none_left": "sheet/proofs/Words.antt commit/proofs/Front.antt",
    "good_length": "reels/proofs/Laws.antt",
}


def texts(top, ends):
    """The paths below a folder of files with these endings."""
    for folder, folders, files in os.walk(top):
        folders[:] = sorted(f for f in folders if f not in ("out", "target", ".git", "__pycache__"))
        for file in sorted(files):
            if file.endswith(ends):
                yield os.path.join(folder, file)


def read(path):
    with open(path, encoding="utf-8") as file:
        return file.read()


def snake(name):
    """A name whose parts in camel case are in snake case."""
    parts = name.split("-")
    for i, part in enumerate(parts):
        if CAMEL.match(part):
            parts[i] = re.sub(r"(?<=[a-z0-9'])([A-Z])|(?<=[A-Z])([A-Z])", lambda m: "_" + m.group(0), part).lower()
    return "-".join(parts)


def hyphened(path, text):
    """A file's text where the lemmas of LEMMAS have their hyphens."""
    for name, places in LEMMAS.items():
        if path.endswith(".antt") and (not places or path.endswith(tuple(places.split()))):
            text = re.sub(r"(?<![\w'?-])%s(?![\w'?-])" % name, name.replace("_", "-"), text)
    return text


def renamed():
    """Each old name with its new one."""
    names, declared = {}, set()
    for path in texts(os.path.join(TOP, "crates"), (".antt",)):
        text = hyphened(path, read(path))
        declared.update(found.group(1) for line in text.split("\n") if (found := DECLARED.match(line)))
        for token in TOKEN.findall(text):
            if snake(token) != token and token not in KEPT:
                names[token] = snake(token)
    new = {}
    for old, name in names.items():
        if (name in declared and name not in LEMMAS) or new.setdefault(name, old) != old:
            sys.exit(f"respell: {old} would fall together with another {name}")
    return names


def respelled(path, text, names):
    """A file's text with the new names; a line's Rust strings keep theirs."""
    def turned(found):
        return names.get(found.group(0), found.group(0))

    if not path.endswith(".rt"):
        return TOKEN.sub(turned, text)
    parts = re.split(r'("(?:[^"\\\n]|\\.)*")', text)
    return "".join(part if i % 2 else TOKEN.sub(turned, part) for i, part in enumerate(parts))


def main(words):
    """The exit status."""
    if words not in ([], ["list"]):
        sys.stderr.write(__doc__)
        return 2
    names = renamed()
    if words:
        for old in sorted(names):
            print(f"{old}\t{names[old]}")
        return 0
    paths = list(texts(os.path.join(TOP, "crates"), (".antt", ".rt", ".edit")))
    paths += [os.path.join(TOP, "README.md"), *texts(os.path.join(TOP, "docs"), (".md",))]
    for path in paths:
        text = read(path)
        now = respelled(path, hyphened(path, text), names)
        if now != text:
            with open(path, "w", encoding="utf-8") as file:
                file.write(now)
    return 0


if __name__ == "__main__":
    sys.exit(main(sys.argv[1:]))
