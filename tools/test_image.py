"""Tests of tools/image, run as a user runs it.

    python3 tools/test_image.py            all tests
    python3 tools/test_image.py faults     faulty copies of the tool, and which tests catch each of them
"""

import fcntl
import os
import random
import re
import resource
import signal
import struct
import subprocess
import sys
import tempfile
import termios
import time

HERE = os.path.dirname(os.path.abspath(__file__))
TOOL = os.path.join(HERE, "image")

TAKES = {"size": "N M", "ceiling": "WORD", "reel": "RECORD SHELF CARRIER SPEED SECONDS", "record": "RECORD WORD WORD WORD WORD",
         "slot": "PLACE and 1 to 22 times WORD"}
COUNTS = {"size": [2], "ceiling": [1], "reel": [5], "record": [5], "slot": range(2, 24)}
CARRIERS = {1: "open", 2: "cassette", 3: "disc"}
SPEEDS = {"open": "from 0 to 5", "cassette": "from 0 to 1", "disc": "0"}
PAIRS = [(1, 0), (1, 1), (1, 2), (1, 3), (1, 4), (1, 5), (2, 0), (2, 1), (3, 0)]  # carriers with their speed codes
TOP = 2**64 - 1
NO_DIGITS = " is not a number in digits 0 to 9"
INSTEAD = " (record takes any words)"
OURS = re.compile(r"(line [0-9]+: |word [0-2]: |image: )[ -~]+\n")


def same(got, want, what=""):
    if got != want:
        raise AssertionError("%.100r: got %.300r, want %.300r" % (what, got, want))


def ended(done):
    """(exit status, standard output, standard error); the last is the usage or lines of the tool's own."""
    errors = done.stderr.decode()
    if not errors.startswith("Readable text"):
        same(OURS.sub("", errors), "", "lines that are not the tool's own")
    return done.returncode, done.stdout, errors


def run(data, *words, **how):
    data = data.encode() if isinstance(data, str) else data
    return ended(subprocess.run([TOOL, *words], input=data, stdout=subprocess.PIPE, stderr=subprocess.PIPE, timeout=60, **how))


def shell(command, data=b"size 1 1\n"):
    """A command of the shell in which $0 is the tool."""
    return ended(subprocess.run(["sh", "-c", command, TOOL], input=data, stdout=subprocess.PIPE, stderr=subprocess.PIPE, timeout=60))


def right(data, output, *words):
    same(run(data, *words), (0, output, ""), data)


def wrong(data, *messages):
    """All these messages and nothing else; nothing on standard output."""
    same(run(data), (1, b"", "".join(message + "\n" for message in messages)), data)


def each_wrong(pairs, size="size 256 16"):
    """Lines behind a size and what is wrong with each, in one run."""
    lines, messages = zip(*pairs)
    wrong("\n".join([size, *lines]), *["line %d: %s" % (at, message) for at, message in enumerate(messages, 2)])


def image(n, m, ceiling=0, records={}, slots={}):
    """The bytes of an image, not by the tool's code."""
    words = [1, n, m, ceiling]
    for record in range(n):
        words.extend(records.get(record, (0, 0, 0, 0)))
    for place in range(2 * m):
        words.extend((list(slots.get(place, ())) + 22 * [0])[:22])
    return struct.pack("<%dQ" % (4 + 4 * n + 44 * m), *words)


def good(words):
    """Whether Req 02 has these words good to read, a speed to find with them."""
    return words[0] in range(1, 10**6) and (words[1], words[2]) in PAIRS and words[3] in range(100 * 3600)


def as_reel(record, words):
    return "reel %d %d %s %d %d" % (record, words[0], CARRIERS[words[1]], *words[2:])


def as_record(record, words):
    return "record %d %d %d %d %d" % (record, *words)


def as_slot(place, words):
    return " ".join(str(word) for word in ["slot", place, *words])


def plain(n, m, ceiling=0, records={}, slots={}):
    """What back gives of the image."""
    lines = ["size %d %d" % (n, m)]
    if ceiling:
        lines.append("ceiling %d" % ceiling)
    for record, words in sorted(records.items()):
        if good(words):
            lines.append(as_reel(record, words) + ("  # speed to find" if tuple(words[1:3]) == (1, 0) else ""))
        elif any(words):
            lines.append(as_record(record, words) + "  # bad")
    for place, words in sorted(slots.items()):
        words = list(words)
        while words and words[-1] == 0:
            words.pop()
        if words:
            lines.append(as_slot(place, words))
    return "".join(line + "\n" for line in lines).encode()


def both_ways(*parts):
    """The image of some parts to its text, and the text to the image."""
    right(image(*parts), plain(*parts), "back")
    right(plain(*parts), image(*parts))


def random_words(dice):
    """The words of a record: of a reel, of one with a single number that may be wrong, any, or zeros."""
    words = [dice.choice([1, dice.randint(1, 999999), 999999]), *dice.choice(PAIRS), dice.choice([0, dice.randint(0, 359999), 359999])]
    if dice.random() < 0.4:
        words[dice.randrange(4)] = dice.choice([0, 1, 2, 3, 4, 6, 360000, 10**6, TOP, dice.getrandbits(64)])
    return dice.choice([words, words, words, words, [dice.getrandbits(64) for _ in range(4)], [0] * 4])


def random_parts(dice, n, m):
    records = {record: random_words(dice) for record in range(n) if dice.random() < 0.8}
    slots = {place: [dice.choice([0, 1, 10, TOP, dice.getrandbits(64)]) for _ in range(dice.choice([1, 2, 7, 22]))]
             for place in range(2 * m) if dice.random() < 0.6}
    return n, m, dice.choice([0, 0, 1025, TOP]), records, slots


def untidy(dice, n, m, ceiling, records, slots):
    """A text of the same meaning that a person could have written."""
    lines = ["ceiling %d" % ceiling] if ceiling or dice.random() < 0.5 else []
    lines += [as_reel(*pair) if good(pair[1]) and dice.random() < 0.7 else as_record(*pair) for pair in records.items()]
    lines += [as_slot(place, words + [0] * dice.choice([0, 22 - len(words)])) for place, words in slots.items()]
    dice.shuffle(lines)
    text = ""
    for line in ["size %d %d" % (n, m)] + lines:
        fields = ["0" * dice.choice([0, 0, 1, 30]) + field if field.isdigit() else field for field in line.split()]
        text += dice.choice(["", "", "", "\n", "  \t\r\n", "# size 9 9\n"]) + dice.choice(["", " ", "\t"])
        text += dice.choice([" ", "  ", "\t", " \t "]).join(fields)
        text += dice.choice(["", " ", "\t", "#", " # reel é #"]) + dice.choice(["\n", "\r\n"])
    return text


# Wrong lines: all of them in one run, and nothing is written.

def test_every_wrong_line():
    wrong("size 8 2\nrel 0\n\n# note\nreel 0 1 open 1 0\nrecord 8 0 0 0 0\r\n\r\nslot 4 1\nreel 0 2 disc 0 0\nceiling\nslot 3 1\n",
          'line 2: no line begins with "rel"', "line 6: RECORD 8 is not from 0 to 7", "line 8: PLACE 4 is not from 0 to 3",
          "line 9: record 0 stands on line 5 already", "line 10: ceiling takes WORD, not 0 fields")
    dice = random.Random(1)
    bad = [dice.random() < 0.3 for _ in range(200)]
    wrong("size 256 1\n" + "".join("record %d 1 2 3 %s\n" % (at, "x" if b else "4") for at, b in enumerate(bad)),
          *['line %d: WORD "x"%s' % (at, NO_DIGITS) for at, b in enumerate(bad, 2) if b])


def test_nothing_written():
    wrong("size 256 16\n" + "".join("record %d 1 2 3 4\n" % at for at in range(256)) + "# " * 50000 + "\nslot 0",
          "line 259: slot takes PLACE and 1 to 22 times WORD, not 1 field")


# Size first, and each part once.

def test_size_first():
    wrong("", "image: no line gives the size")
    wrong("\r\n# size 1 1\n", "image: no line gives the size")
    wrong("ceiling 1\nreel x\n\nrel\nrecord 0 1 2 3 4\nslot", "line 1: ceiling stands before size", "line 2: reel stands before size",
          'line 4: no line begins with "rel"', "line 5: record stands before size", "line 6: slot stands before size",
          "image: no line gives the size")
    wrong("record 0 1 2 3 4\nsize 1 1\nrecord 0 1 2 3 4\nrecord 1 1 2 3 4\n", "line 1: record stands before size",
          "line 4: RECORD 1 is not 0")


def test_size_once():
    wrong("size 1 1\nsize 1 1\nsize 9 9\nrecord 1 0 0 0 0\n", "line 2: size stands on line 1 already",
          "line 3: size stands on line 1 already", "line 4: RECORD 1 is not 0")
    wrong("#\nsize 1\nsize 1 1\nsize 1\n", "line 2: size takes N M, not 1 field", "line 3: size stands on line 2 already",
          "line 4: size takes N M, not 1 field")


def test_wrong_size():
    """Behind a wrong size, what is wrong with every size."""
    for size, message in (("0 1", "N 0 is not from 1 to 256"), ("1 17", "M 17 is not from 1 to 16"), ("x 1", 'N "x"' + NO_DIGITS),
                          ("1", "size takes N M, not 1 field")):
        wrong("size " + size + "\nrecord 255 1 1 1 1\nrecord 256 1 1 1 1\nslot 31 1\nslot 32 1\n", "line 1: " + message,
              "line 3: RECORD 256 is not from 0 to 255", "line 5: PLACE 32 is not from 0 to 31")


def test_named_twice():
    each_wrong([("ceiling x", 'WORD "x"' + NO_DIGITS), ("ceiling 1", "ceiling stands on line 2 already"),
                ("reel 7 0 open 1 1", "SHELF 0 is not from 1 to 999999" + INSTEAD),
                ("record 7 0 0 0 0", "record 7 stands on line 4 already"),
                ("reel 007 1 open 1 1", "record 7 stands on line 4 already"), ("slot 7 x", 'WORD "x"' + NO_DIGITS),
                ("slot 07 x", "slot 7 stands on line 7 already"), ("slot 7 0", "slot 7 stands on line 7 already")])
    again = "reel 1 1 open 1 1\nslot 1 1\nreel 0 0 open 1 1\nslot 0 x\n"
    wrong("size 2 1\n\nrecord 1 0 0 0 0\nrecord 0 0 0 0 0\nslot 1 0\nslot 0 0\n" + 2 * again,
          *["line %d: %s stands on line %d already" % (4 * turn + at, part, line) for turn in (0, 1)
            for at, part, line in ((7, "record 1", 3), (8, "slot 1", 5), (9, "record 0", 4), (10, "slot 0", 6))])
    right("size 2 1\nrecord 1 0 0 0 0\nslot 1 0\nceiling 0\nslot 0 0 0\nrecord 0 0 0 0 0\n", image(2, 1))


# Numbers: digits and bounds.

def test_digits():
    shown = {field: field for field in ("1_0", "+1", "-0", "-1", "1.0", "1e2", "0x1", "1,", "one", "open", "x" * 40)}
    digits = ("\u0661", "\uff11", "\u0967", "\xb2", "\U0001d7cf")
    blanks = ("\xa01", "1\u2003", "1\v", "\f1", "1\x1f", "1\x85", "1\u2028", "1\0", "\ufeff1")
    shown.update(zip(digits, (r"\u0661", r"\uff11", r"\u0967", r"\xb2", r"\U0001d7cf")))
    shown.update(zip(blanks, (r"\xa01", r"1\u2003", r"1\x0b", r"\x0c1", r"1\x1f", r"1\x85", r"1\u2028", r"1\x00", r"\ufeff1")))
    shown.update({"1\\": r"1\\", "\x1b[2J": r"\x1b[2J", "x" * 41: "x" * 40 + "..."})
    each_wrong([("record " + field + " 1 1 1 1", 'RECORD "%s"%s' % (show, NO_DIGITS)) for field, show in shown.items()])
    fields = [("reel 1 x open 1 1", "SHELF"), ("reel 2 1 open x 1", "SPEED"), ("reel 3 1 open 1 x", "SECONDS"),
              ("reel x 1 open 1 1", "RECORD"), ("record 4 1 1 1 x", "WORD"), ("record 5 x 1 1 1", "WORD"), ("slot 1 x", "WORD"),
              ("slot 2 1 1 x 1", "WORD"), ("slot x 1", "PLACE"), ("ceiling x", "WORD")]
    each_wrong([(line, '%s "x"%s' % (what, NO_DIGITS)) for line, what in fields])
    for size, what in (("x 1", "N"), ("1 x", "M")):
        wrong("size " + size, 'line 1: %s "x"%s' % (what, NO_DIGITS))


def outside(least, most):
    return [number for number in (least - 1, most + 1, 10 * most + 10, 10**30) if number >= 0]


def test_sizes():
    for n, m in ((1, 16), (256, 3)):
        last, end = n - 1, 2 * m - 1
        right("size %d %d\nrecord %d 1 2 3 4\nslot %d 5" % (n, m, last, end), image(n, m, 0, {last: [1, 2, 3, 4]}, {end: [5]}))
        records = "RECORD %%d is not from 0 to %d" % last if last else "RECORD %d is not 0"
        bad = [(line % number, records % number) for line in ("record %d 1 1 1 1", "reel %d 1 open 1 1") for number in outside(0, last)]
        bad += [("slot %d 1" % number, "PLACE %d is not from 0 to %d" % (number, end)) for number in outside(0, end)]
        each_wrong(bad, "size %d %d" % (n, m))
    for size, what, most in (("%d 1", "N", 256), ("1 %d", "M", 16)):
        for number in (0, most + 1, 10**30):
            wrong("size " + size % number, "line 1: %s %d is not from 1 to %d" % (what, number, most))


def test_words():
    ends = (0, 1, 2**63, TOP)
    records = {4 * at + which: [7] * at + [word] + [8] * (3 - at) for at in range(4) for which, word in enumerate(ends)}
    slots = {at: [7] * at + [TOP] + [8] * (21 - at) for at in range(22)}
    slots.update({22: [0] * 21 + [1], 23: [1], 24: [0, 1], 25: list(range(22)), 31: [2**63]})
    for ceiling in (0, TOP):
        lines = ["ceiling %d" % ceiling] + [as_record(*pair) for pair in records.items()] + [as_slot(*pair) for pair in slots.items()]
        right("\n".join(["size 256 16", *lines]), image(256, 16, ceiling, records, slots))
    message, over = "WORD %d is not from 0 to 18446744073709551615", TOP + 1
    bad = [(as_record(at, [1] * at + [over] + [1] * (3 - at)), message % over) for at in range(4)]
    bad += [(as_slot(at, [1] * at + [over] + [1] * (21 - at)), message % over) for at in range(22)]
    bad += [("record %d %d 1 1 1" % (at, word), message % word) for at, word in enumerate(outside(0, TOP), 9)]
    each_wrong(bad + [("ceiling %d" % over, message % over)])


def test_long_numbers():
    each_wrong([("record 1" + "0" * 4999 + " 1 1 1 1", "RECORD of 5000 digits is not from 0 to 255"),
                ("slot " + "9" * 40 + " 1", "PLACE " + "9" * 40 + " is not from 0 to 31"),
                ("reel 0 " + "0" * 9000 + " open 1 1", "SHELF of 9000 digits is not from 1 to 999999" + INSTEAD),
                ("slot 0 1 " + "9" * 41, "WORD of 41 digits is not from 0 to 18446744073709551615")])
    right("size 01 " + "0" * 100000 + "1\nslot " + "0" * 50 + " " + "0" * 30 + "18446744073709551615", image(1, 1, 0, {}, {0: [TOP]}))


# Reels: what is good to read, both ways.

def test_good_reels():
    reels = [[shelf, *pair, seconds] for shelf in (1, 999999) for pair in PAIRS for seconds in (0, 359999)]
    both_ways(36, 1, 0, dict(enumerate(reels)))
    right("\n".join(["size 36 1"] + [as_record(*pair) for pair in enumerate(reels)]), image(36, 1, 0, dict(enumerate(reels))))
    right("size 3 1\nreel 2 7 disc 0 5\nreel 0 8 open 4 6\nreel 1 9 cassette 1 7",
          image(3, 1, 0, {0: [8, 1, 4, 6], 1: [9, 2, 1, 7], 2: [7, 3, 0, 5]}))


def test_bad_reels():
    faults = []
    for carrier, name in CARRIERS.items():
        faults += [([shelf, carrier, 0, 1], "SHELF %d is not from 1 to 999999" % shelf) for shelf in outside(1, 999999)]
        faults += [([5, carrier, speed, 1], "SPEED %d is not %s for %s" % (speed, SPEEDS[name], name))
                   for speed in [*range(7), TOP, 10**30] if (carrier, speed) not in PAIRS]
        faults += [([5, carrier, 0, seconds], "SECONDS %d is not from 0 to 359999" % seconds) for seconds in outside(0, 359999)]
    each_wrong([(as_reel(at, words), said + INSTEAD) for at, (words, said) in enumerate(faults)])
    records = [words for words, _ in faults if max(words) <= TOP] + [[5, carrier, 0, 0] for carrier in (0, 4, 5, TOP)]
    records += [[TOP] * 4, [0, 0, 0, 1], [0, 0, 1, 0], [0, 1, 0, 0], [1, 0, 0, 0]]
    text = b"".join(b"record %d %d %d %d %d  # bad\n" % (at, *words) for at, words in enumerate(records))
    same(plain(99, 1, 0, dict(enumerate(records))), b"size 99 1\n" + text)
    both_ways(99, 1, 0, dict(enumerate(records)))


def test_carriers():
    shown = {name: name for name in ("1", "Open", "OPEN", "reel", "opens", "cassete", "disk", "open,")}
    shown.update({"\xa0open": r"\xa0open", "disc\0": r"disc\x00", "x" * 41: "x" * 40 + "..."})
    each_wrong([("reel %d 1 %s 0 0" % (at, name), 'CARRIER "%s" is not open, cassette or disc%s' % (show, INSTEAD))
                for at, (name, show) in enumerate(shown.items())])


# Words: what is said of a wrong line.

def test_names():
    shown = {name: name for name in ("rel", "Size", "REEL", "reel2", "slots", "7", "back", "log")}
    shown.update({"\xa0reel": r"\xa0reel", "slot\0": r"slot\x00", "r\u0435el": r"r\u0435el", "\ufeffsize": r"\ufeffsize"})
    shown.update({"slot\v": r"slot\x0b", "x" * 9999: "x" * 40 + "..."})
    each_wrong([(name + fields, 'no line begins with "%s"' % show) for fields in (" 1 1", "") for name, show in shown.items()])


def test_counts():
    each_wrong([(" ".join([name] + ["1"] * n), "%s takes %s, not %d field%s" % (name, TAKES[name], n, "s" if n != 1 else ""))
                for name, counts in COUNTS.items() for n in range(26) if n not in counts])


def test_first_fault_of_a_line():
    each_wrong([("rel x", 'no line begins with "rel"'), ("reel 300 x", "reel takes RECORD SHELF CARRIER SPEED SECONDS, not 2 fields"),
                ("reel 300 x x x x", "RECORD 300 is not from 0 to 255"), ("reel 1 0 x 9 x", "SHELF 0 is not from 1 to 999999" + INSTEAD),
                ("reel 2 1 x 9 x", 'CARRIER "x" is not open, cassette or disc' + INSTEAD),
                ("reel 3 1 disc 9 x", "SPEED 9 is not 0 for disc" + INSTEAD),
                ("reel 3 0 x 9 x", "record 3 stands on line 7 already"), ("slot 32 x", "PLACE 32 is not from 0 to 31"),
                ("record 4 %d x 1 1" % (TOP + 1), "WORD 18446744073709551616 is not from 0 to 18446744073709551615")])
    wrong("size 0 0", "line 1: N 0 is not from 1 to 256")


# Outside: files that fail, readers that leave, Ctrl-C.

def test_closed_files():
    unread, unwritten = "image: cannot read standard input: it is not open\n", "image: cannot write standard output: it is not open\n"
    for words in ("", "back"):
        same(shell('"$0" %s <&-' % words), (1, b"", unread))
        same(shell('"$0" %s 0>/dev/null' % words), (1, b"", unread))
        same(shell('"$0" %s <&- >&- 2>&-' % words), (1, b"", ""))
    same(shell('"$0" <&- >&-'), (1, b"", unread))
    same(shell('"$0" >&-'), (1, b"", unwritten))
    same(shell('"$0" back >&-', image(1, 1)), (1, b"", unwritten))
    same(shell('"$0" --help >&-'), (1, b"", unwritten))
    same(shell('"$0" 2>&-', b"size"), (1, b"", ""))
    same(shell('"$0" other 2>&-'), (2, b"", ""))


def test_unreadable():
    """A pipe that does not wait for its writer."""
    reader, writer = os.pipe()
    os.set_blocking(reader, False)
    os.write(writer, b"size 1 1\n")
    done = subprocess.run([TOOL], stdin=reader, stdout=subprocess.PIPE, stderr=subprocess.PIPE, timeout=60)
    os.close(reader)
    os.close(writer)
    same(ended(done), (1, b"", "image: cannot read standard input: Resource temporarily unavailable\n"))


def test_full_disk():
    for words, data in (("", b"size 1 1\n"), ("back", image(1, 1)), ("--help", b"")):
        same(shell('"$0" %s >/dev/full' % words, data), (1, b"", "image: cannot write standard output: No space left on device\n"))
    same(shell('"$0" 2>/dev/full', b"size"), (1, b"", ""))
    with tempfile.TemporaryFile() as file:  # full after 100 bytes
        done = subprocess.run([TOOL], input=b"size 1 1\n", stdout=file, stderr=subprocess.PIPE, timeout=60,
                              preexec_fn=lambda: resource.setrlimit(resource.RLIMIT_FSIZE, (100, 100)))
    same((done.returncode, done.stderr), (1, b"image: cannot write standard output: File too large\n"))


def test_reader_leaves():
    for words, data in (([], b"size 1 1\n"), (["back"], image(256, 16)), (["--help"], b"")):
        reader, writer = os.pipe()
        os.close(reader)
        done = subprocess.run([TOOL, *words], input=data, stdout=writer, stderr=subprocess.PIPE, timeout=60)
        os.close(writer)
        same((done.returncode, done.stderr), (0, b""), words)
    same(shell('"$0" | head -c 9', b"size 2 1\n"), (0, b"\1\0\0\0\0\0\0\0\2", ""))


def test_not_text():
    wrong(b"size 2 2\nreel \xff\n", "line 2: byte ff is not UTF-8")
    wrong(b"size 2 2 # caf\xe9\n\nreel\n\xe2\x82\nreel \xed\xa0\x80", "line 1: byte e9 is not UTF-8", "line 3: reel stands before size",
          "line 4: byte e2 is not UTF-8", "line 5: byte ed is not UTF-8", "image: no line gives the size")
    wrong(image(1, 1), 'line 1: no line begins with "%s..."' % (r"\x01" + r"\x00" * 7 + r"\x01" + r"\x00" * 7 + r"\x01" + r"\x00" * 23),
          "image: no line gives the size")
    wrong(b"size 1 1\n\0\0\nrecord 0\0\nslot \0 1\n", 'line 2: no line begins with "\\x00\\x00"',
          "line 3: record takes RECORD WORD WORD WORD WORD, not 1 field", 'line 4: PLACE "\\x00"' + NO_DIGITS)
    for locale in ("C", "C.UTF-8"):
        same(run("size 1 1 # é\nceiling é\n", env={**os.environ, "LC_ALL": locale}), (1, b"", 'line 2: WORD "\\xe9"%s\n' % NO_DIGITS))


def unread(pipe):
    return struct.unpack("i", fcntl.ioctl(pipe, termios.FIONREAD, b"\0\0\0\0"))[0]


def started(*words):
    return subprocess.Popen([TOOL, *words], stdin=subprocess.PIPE, stdout=subprocess.PIPE, stderr=subprocess.PIPE,
                            preexec_fn=lambda: signal.signal(signal.SIGINT, signal.SIG_DFL))


def stopped(tool):
    """Ctrl-C, then the end of the input; what the tool answers."""
    tool.send_signal(signal.SIGINT)
    output, errors = tool.communicate(timeout=60)
    return ended(subprocess.CompletedProcess([], tool.returncode, output, errors))


def test_interrupted():
    for words in ([], ["back"]):
        tool = started(*words)
        tool.stdin.write(b"size 1 1\n")
        tool.stdin.flush()
        limit = time.monotonic() + 60
        while unread(tool.stdin) and time.monotonic() < limit:  # until it reads
            time.sleep(0.005)
        same(stopped(tool), (1, b"", "image: interrupted\n"))


def test_memory():
    with open("/dev/zero") as zeros:
        done = subprocess.run([TOOL, "back"], stdin=zeros, stdout=subprocess.PIPE, stderr=subprocess.PIPE, timeout=60,
                              preexec_fn=lambda: resource.setrlimit(resource.RLIMIT_AS, (2**27, 2**27)))
    same(ended(done), (1, b"", "image: not enough memory for the input\n"))


# Back, and round trips.

def not_an_image(data, message):
    same(run(data, "back"), (1, b"", message + "\n"), data)


def test_lengths():
    whole = image(2, 3)
    for size in (1, len(whole) - 1, 99999):
        not_an_image((whole * 200)[:size], "image: its length in bytes is %d, no whole number of words" % size)
    for count in (0, 3):
        not_an_image(whole[:8 * count], "image: its length in words is %d, less than the 4 of a header" % count)
    for count in (4, 145, 9999):
        not_an_image((whole * 100)[:8 * count], "image: its length in words is %d and should be 144 with N 2 and M 3" % count)
    not_an_image(image(256, 16)[:-8], "image: its length in words is 1731 and should be 1732 with N 256 and M 16")
    not_an_image(image(256, 16) + bytes(8), "image: its length in words is 1733 and should be 1732 with N 256 and M 16")


def test_headers():
    for word in (0, 2**32 + 1):
        not_an_image(struct.pack("<Q", word) + image(2, 2)[8:], "word 0: %d is not 1" % word)
    for at, what, most in ((1, "N", 256), (2, "M", 16)):
        for word in (0, most + 1, 2**63 + 1):
            header = struct.pack("<4Q", 1, *[word if at == which else 1 for which in (1, 2)], 0)
            not_an_image(header + bytes(48 * 8), "word %d: %s %d is not from 1 to %d" % (at, what, word, most))
    not_an_image(b"size 8 2" * 8, "word 0: %d is not 1" % int.from_bytes(b"size 8 2", "little"))
    not_an_image(struct.pack("<4Q", 1, 0, 0, 0), "word 1: N 0 is not from 1 to 256")


def test_back():
    """Worked out by hand: what is left out, what is marked."""
    records = {0: [12, 1, 3, 3600], 1: [13, 1, 0, 5], 3: [14, 3, 1, 5], 4: [15, 2, 0, 0]}
    right(image(6, 2, 1025, records, {1: [3, 17, 5, 9], 2: [0, 0, 10], 3: [100]}),
          b"size 6 2\nceiling 1025\nreel 0 12 open 3 3600\nreel 1 13 open 0 5  # speed to find\nrecord 3 14 3 1 5  # bad\n"
          b"reel 4 15 cassette 0 0\nslot 1 3 17 5 9\nslot 2 0 0 10\nslot 3 100\n", "back")
    words = "01 02 01 00 0c 01 03 a0 00 00 00 00" + " 00" * 22 + " 05 11" + " 00" * 20
    data = b"".join(bytes.fromhex(word) + bytes(7) for word in words.split())
    right(data, b"size 2 1\nreel 0 12 open 3 160\nslot 1 5 17\n", "back")
    right("size 2 1\nslot 1 5 17 # a log of one word\nreel 0 12 open 3 160", data)


def test_largest():
    dice = random.Random(2)
    whole = (256, 16, TOP, {at: [TOP] * 4 for at in range(256)}, {at: [TOP] * 22 for at in range(32)})
    some = (256, 16, 5, {at: [at + 1, 1, at % 6, at] for at in range(256)}, {at: dice.choices([1, 10, TOP], k=22) for at in range(32)})
    for parts in (whole, some):
        same(len(image(*parts)), 8 * 1732)
        both_ways(*parts)


def test_round_trips():
    for seed, (n, m) in enumerate([(1, 1), (40, 5), (256, 16)]):
        dice = random.Random(seed)
        parts = random_parts(dice, n, m)
        right(untidy(dice, *parts), image(*parts))
        both_ways(*parts)


def test_every_bit():
    """Each word with one bit, all bits in turn; then random bytes behind a header."""
    dice = random.Random(3)
    bits = struct.pack("<4Q", 1, 9, 7, 1) + b"".join(struct.pack("<Q", 1 << at % 64) for at in range(4 * 9 + 44 * 7))
    for data in (bits, struct.pack("<3Q", 1, 30, 3) + dice.randbytes(8 * (1 + 120 + 132))):
        status, text, errors = run(data, "back")
        same((status, errors), (0, ""))
        right(text, data)


def test_documents():
    """The README's file."""
    with open(os.path.join(HERE, "..", "docs", "shelf.txt"), "rb") as file:
        text = file.read()
    data = image(8, 2, 0, {0: [1204, 1, 3, 3600], 1: [1205, 1, 0, 1500], 2: [1310, 2, 1, 5400], 4: [1311, 2, 0, 2700],
                           5: [2040, 3, 0, 1260], 6: [2041, 3, 0, 360000]})
    same((text[:2], text.count(b"\n") <= 12, len(data)), (b"# ", True, 8 * 124))
    right(text, data)
    stored = os.path.join(HERE, "..", "crates", "reelreport")
    with open(os.path.join(stored, "stdin"), "rb") as file:
        same(file.read(), data, "the image that reelreport is run on")
    with open(os.path.join(stored, "stdout"), "rb") as file:
        lines = b"$ cat docs/shelf.txt\n" + text + b"$ tools/image < docs/shelf.txt | crates/reelreport/out/reelreport\n" + file.read()
    with open(os.path.join(HERE, "..", "README.md"), "rb") as file:
        same(b"".join(b"    " + line + b"\n" for line in lines.splitlines()) in file.read(), True, "the README's session")
    lines = [b" ".join(line.split(b"#")[0].split()) for line in text.split(b"\n")]
    back = run(data, "back")[1]
    same([line.split(b"  #")[0] for line in back.split(b"\n")[:-1]], [line for line in lines if line])
    same(re.findall(b"# (.*)", back), [b"speed to find", b"bad"])


# Arguments, the form of a text, the usage.

def test_arguments():
    usage = run(b"", "--help")[1].decode()
    same(run(b"wrong", "--help"), (0, usage.encode(), ""))
    for words in (["forth"], [""], ["back", "back"], ["back", "--help"], [b"\xff"]):
        same(run(b"size 1 1\n", *words), (2, b"", usage), words)
    same(shell('"$0" --help <&-'), (0, usage.encode(), ""))


def test_lines():
    data = image(1, 1, 2)
    for text in ("size 1 1\nceiling 2\n", "size 1 1\r\nceiling 2\r\n", "size 1 1\nceiling 2",
                 "\n\r\n \t\n#\n# size 3 3\r\n\tsize\t1  1#x\nceiling 2 # # \0 é\n   "):
        right(text, data)
    wrong("size 1 1\rceiling\nceiling 2\r", 'line 1: M "1\\rceiling"' + NO_DIGITS, 'line 2: WORD "2\\r"' + NO_DIGITS)
    wrong("size 1 1\nceiling 2\r\r\n\r", 'line 2: WORD "2\\r"' + NO_DIGITS, 'line 3: no line begins with "\\r"')


def test_usage():
    """Each line as the usage has it is right with values for its capitals, and the usage has all of them."""
    usage = run(b"", "--help")[1].decode()
    lines = [re.match("[a-z]+( [A-Z]+)+", line.strip()).group() for line in usage.split("\n") if re.match("    [a-z]+ [A-Z]", line)]
    same([line.split()[0] for line in lines], list(TAKES))
    for old, new in (("N", "2"), ("CARRIER", "open"), ("record RECORD", "record 0"), ("[A-Z]+", "1")):
        lines = [re.sub(r"\b%s\b" % old, new, line) for line in lines]
    right("\n".join(lines), image(2, 1, 1, {0: [1] * 4, 1: [1] * 4}, {1: [1]}))
    same([line for line in usage.split("\n") if len(line) > 140], [])


ALL = [test for name, test in list(globals().items()) if name.startswith("test_")]

FAULTS = [  # a name, a place of the tool's text, what stands there instead
    ("lines: only the first wrong line", '            faults.append("line %d: %s" % (line, fault))\n',
     '            raise Wrong("line %d: %s" % (line, fault))\n'),
    ("lines: lines count from 0", 'split(b"\\n"), 1)', 'split(b"\\n"), 0)'),
    ("lines: wrong lines, and the header all the same", "    if faults:\n", "    if faults:\n        give(1, bytes(32))\n"),
    ("lines: exit status 0", "    return 1\n\n\nif __name__", "    return 0\n\n\nif __name__"),
    ("size: lines before it are taken", '    if "size" not in first:\n        raise', '    if "size" in ():\n        raise'),
    ("size: none is needed", '    if "size" not in first:\n        faults', '    if "size" in ():\n        faults'),
    ("size: a wrong one is none", '        first.setdefault("size", line)  # a wrong one too\n',
     '        first.setdefault("size", line) if len(fields) == 2 and "0" not in fields else None\n'),
    ("size: the last one counts", "if first.setdefault(part, line) != line:",
     'if name != "size" and first.setdefault(part, line) != line:'),
    ("size: behind a wrong one nothing is checked", '{"size": [256, 16], "ceiling"', '{"size": [999, 999], "ceiling"'),
    ("size: behind a wrong one the smallest", '{"size": [256, 16], "ceiling"', '{"size": [1, 1], "ceiling"'),
    ("size: N and M exchanged", "    words = [1, n, m]", "    words = [1, m, n]"),
    ("twice: the last line counts", "if first.setdefault(part, line) != line:",
     "if part == name and first.setdefault(part, line) != line:"),
    ("twice: the last ceiling counts", "if first.setdefault(part, line) != line:",
     'if name != "ceiling" and first.setdefault(part, line) != line:'),
    ("twice: a reel and a record are two", 'part = "record %d" % number(', 'part = name + " %d" % number('),
    ("twice: the latest line is named", '        raise Wrong("%s stands on line %d already" % (part, first[part]))',
     '        before, first[part] = first[part], line\n        raise Wrong("%s stands on line %d already" % (part, before))'),
    ("twice: zeros do not count", "if first.setdefault(part, line) != line:",
     "if first.setdefault(part, line) != line and any(parts.get(part, [1])):"),
    ("numbers: digits of every script", "if not (field.isascii() and field.isdigit()):", "if not field.isdigit():"),
    ("numbers: whatever int takes", "if not (field.isascii() and field.isdigit()):",
     'if not field.strip("+-").replace("_", "").isalnum():'),
    ("numbers: N up to 255", "= (1, 256), (1, 16)", "= (1, 255), (1, 16)"),
    ("numbers: N from 0", "= (1, 256), (1, 16)", "= (0, 256), (1, 16)"),
    ("numbers: M up to 15", "= (1, 256), (1, 16)", "= (1, 256), (1, 15)"),
    ("numbers: M from 0", "= (1, 256), (1, 16)", "= (1, 256), (0, 16)"),
    ("numbers: words up to 2^64", "(0, 2**64 - 1)", "(0, 2**64)"),
    ("numbers: words below 2^63", "(0, 2**64 - 1)", "(0, 2**63 - 1)"),
    ("numbers: RECORD up to N", "fields[0], 0, n - 1)", "fields[0], 0, n)"),
    ("numbers: RECORD below 256", "fields[0], 0, n - 1)", "fields[0], 0, 255)"),
    ("numbers: PLACE up to 2M", "0, 2 * m - 1)", "0, 2 * m)"),
    ("numbers: PLACE below M", "0, 2 * m - 1)", "0, m - 1)"),
    ("numbers: the first 20 digits only", "[:21]", "[:20]"),
    ("numbers: digits without end", 'int(field.lstrip("0")[:21] or "0")', "int(field)"),
    ("numbers: zeros in front count as digits", 'int(field.lstrip("0")[:21] or "0")', "int(field[:21])"),
    ("numbers: long numbers shown whole", "len(field) <= 40 else", "len(field) <= 9999 else"),
    ("reels: SHELF from 0", "(1, 999999)", "(0, 999999)"),
    ("reels: SHELF up to 1000000", "(1, 999999)", "(1, 1000000)"),
    ("reels: SECONDS up to 360000", "(0, 359999)", "(0, 360000)"),
    ("reels: SECONDS from 1", "(0, 359999)", "(1, 359999)"),
    ("reels: an open reel needs a speed", 'number("SPEED", speed, 0, most,', 'number("SPEED", speed, word == 1, most,'),
    ("reels: six speeds", '"open": (1, 5)', '"open": (1, 6)'),
    ("reels: a cassette with code 2", '"cassette": (2, 1)', '"cassette": (2, 2)'),
    ("reels: a disc with code 1", '"disc": (3, 0)', '"disc": (3, 1)'),
    ("reels: two carriers exchanged", '"cassette": (2, 1), "disc": (3, 0)', '"cassette": (3, 1), "disc": (2, 0)'),
    ("reels: carriers in any case", "    if carrier not in CARRIERS:", "    carrier = carrier.lower()\n    if carrier not in CARRIERS:"),
    ("reels: carriers by number", "    if carrier not in CARRIERS:",
     '    carrier = {"1": "open"}.get(carrier, carrier)\n    if carrier not in CARRIERS:'),
    ("reels: not said that record takes it", 'INSTEAD = " (record takes any words)"', 'INSTEAD = ""'),
    ("reels: record takes reels only", '    elif name == "reel":\n', '    elif name in ("reel", "record"):\n'),
    ("words: a slot without words", '22 times WORD", 2, 23)', '22 times WORD", 1, 23)'),
    ("words: 23 words to a slot", '22 times WORD", 2, 23)', '22 times WORD", 2, 24)'),
    ("words: 21 words to a slot", '22 times WORD", 2, 23)', '22 times WORD", 2, 22)'),
    ("words: three words to a record", 'WORD WORD WORD WORD", 5, 5)', 'WORD WORD WORD WORD", 4, 5)'),
    ("words: fields unquoted", '"no line begins with %s" % quoted(name)', '"no line begins with %s" % name'),
    ("words: fields not escaped", 'field[:40].encode("unicode_escape").decode()', "field[:40]"),
    ("words: bounds not told", '"%s %s is not %s%d%s" % (what, found, "from %d to " % least if least < most else "", most, more)',
     '"%s %s is too large%s" % (what, found, more)'),
    ("words: from 0 to 0", 'if least < most else ""', 'if least <= most else ""'),
    ("words: 1 fields", '"" if len(fields) == 1 else "s"', '"s"'),
    ("image: words highest byte first", '.to_bytes(8, "little")', '.to_bytes(8, "big")'),
    ("image: words highest byte first, both ways", '"little"', '"big"'),
    ("image: slots before records", '[("record %d" % at, 4) for at in range(n)] + [("slot %d" % at, 22) for at in range(2 * m)]',
     '[("slot %d" % at, 22) for at in range(2 * m)] + [("record %d" % at, 4) for at in range(n)]'),
    ("image: one slot to a session", "for at in range(2 * m)]:", "for at in range(m)]:"),
    ("image: the ceiling is left out", '+ parts["ceiling"]\n', "+ [0]\n"),
    ("image: words of a short slot stand last", "(parts.get(part, []) + [0] * size)[:size]",
     "([0] * size + parts.get(part, []))[-size:]"),
    ("outside: one read", 'b"".join(iter(lambda: os.read(0, 65536), b""))', "os.read(0, 65536)"),
    ("outside: what is not there yet is not waited for", 'b"".join(iter(lambda: os.read(0, 65536), b""))',
     'open(0, "rb", closefd=False).read()'),
    ("outside: a read's error is Python's", "    except OSError as fault:\n        raise Wrong(\"image: cannot read",
     "    except ValueError as fault:\n        raise Wrong(\"image: cannot read"),
    ("outside: one write", "        while data := data[os.write(place, data):]:\n            pass\n", "        os.write(place, data)\n"),
    ("outside: a write's error is Python's", "    except OSError as fault:\n        raise Wrong(\"image: cannot write",
     "    except ValueError as fault:\n        raise Wrong(\"image: cannot write"),
    ("outside: messages on standard output", "give(2, text.encode())", "give(1, text.encode())"),
    ("outside: messages where Python puts them", "give(2, text.encode())", "print(text, end=\"\", file=sys.stderr)"),
    ("outside: a reader that leaves is a fault", "    except BrokenPipeError:\n        pass\n", ""),
    ("outside: Latin-1 accepted", "line.decode()", 'line.decode("latin-1")'),
    ("outside: not UTF-8 is Python's", "except UnicodeDecodeError as fault:", "except KeyError as fault:"),
    ("outside: Ctrl-C is Python's", "except KeyboardInterrupt:", "except ZeroDivisionError:"),
    ("outside: memory", "except MemoryError:", "except KeyError:"),
    ("back: bytes behind the last word are left out", "    if len(image) % 8:\n", "    if len(image) % 8 and count < 4:\n"),
    ("back: a header is not asked for", "    if count < 4:\n", "    if count < 3:\n"),
    ("back: word 0 may be anything", '    number("word 0:", str(words[0]), 1, 1)\n', ""),
    ("back: the low bytes of word 0 alone", "str(words[0]), 1, 1)", "str(words[0] % 2**32), 1, 1)"),
    ("back: N may be anything", "str(words[1]), *RECORDS)", "str(words[1]), 0, 2**64)"),
    ("back: M may be anything", "str(words[2]), *SESSIONS)", "str(words[2]), 0, 2**64)"),
    ("back: words behind the image are left out", "    if count != 4 + 4 * n + 44 * m:", "    if count < 4 + 4 * n + 44 * m:"),
    ("back: words that are missing are zeros", "    if count != 4 + 4 * n + 44 * m:", "    if count > 4 + 4 * n + 44 * m:"),
    ("back: lengths up to 1732", "(count, 4 + 4 * n", "(len(words), 4 + 4 * n"),
    ("back: the last words are left out", "min(count, 1732)", "min(count, 1731)"),
    ("back: a ceiling of 0 is written", "if words[3] else []", "if True else []"),
    ("back: no ceiling", "if words[3] else []", "if False else []"),
    ("back: unused records are written", "in enumerate(homes) if any(home)]", "in enumerate(homes)]"),
    ("back: empty slots are written", "in enumerate(slots) if any(slot)]", "in enumerate(slots)]"),
    ("back: a slot with persist number 0 is left out", "in enumerate(slots) if any(slot)]", "in enumerate(slots) if slot[0]]"),
    ("back: a record on no shelf is left out", "in enumerate(homes) if any(home)]", "in enumerate(homes) if home[0]]"),
    ("back: zeros at the end of a slot are written", 're.sub("( 0)+$", ""', 're.sub("x", ""'),
    ("back: all zeros of a slot are left out", 're.sub("( 0)+$", ""', 're.sub("( 0)+( |$)", r"\\2"'),
    ("back: the last digits 0 are left out", 're.sub("( 0)+$", ""', 're.sub("[ 0]+$", ""'),
    ("back: every record by its words", "        if carrier == word and", "        if 0 and carrier == word and"),
    ("back: shelf 0 is a reel's", "SHELF[0] <= shelf <= SHELF[1]", "shelf <= SHELF[1]"),
    ("back: every shelf is a reel's", "SHELF[0] <= shelf <= SHELF[1]", "SHELF[0] <= shelf"),
    ("back: every time is a reel's", " and seconds <= SECONDS[1]:", ":"),
    ("back: every speed is a reel's", " and speed <= most and", " and"),
    ("back: a speed to find is bad", " and speed <= most and", " and (word == 1) <= speed <= most and"),
    ("back: every code 0 is a speed to find", '"" if speed or name != "open" else', '"" if speed else'),
    ("back: no speed to find", '"" if speed or name != "open" else "  # speed to find"', '""'),
    ("back: nothing is called bad", '%d  # bad"', '%d"'),
    ("form: unknown arguments are left out", 'if words not in ([], ["back"], ["--help"]):', 'if not set(words) <= {"back", "--help"}:'),
    ("form: exit status 1 with the usage", "        return 2\n", "        return 1\n"),
    ("form: help on standard error", "give(1, __doc__.encode() if", "give(2 if words == [\"--help\"] else 1, __doc__.encode() if"),
    ("form: line ends stay", '.replace(b"\\r\\n", b"\\n")', ""),
    ("form: every \\r ends a line", '.replace(b"\\r\\n", b"\\n")', '.replace(b"\\r\\n", b"\\n").replace(b"\\r", b"\\n")'),
    ("form: comments stay", '.split("#")[0]', ""),
    ("form: no tabs", '.replace("\\t", " ")', ""),
    ("form: every blank parts fields", 'text.replace("\\t", " ").split(" ")', "text.split()"),
    ("usage: a line missing in the usage", "    ceiling WORD    ", "    the ceiling     "),
    ("usage: a wrong line in the usage", "    reel RECORD SHELF CARRIER SPEED SECONDS ", "    reel RECORD SHELF CARRIER SECONDS       "),
]


def outcome(test):
    """Nothing, or why the test failed."""
    try:
        test()
    except Exception as fault:
        return "%s: %s" % (type(fault).__name__, fault)


def run_all():
    failed = 0
    for test in ALL:
        fault = outcome(test)
        if fault:
            failed += 1
            print("%s: %s" % (test.__name__, fault), flush=True)
    print("tools/image: %d passed, %d failed" % (len(ALL) - failed, failed))
    return not failed


def run_faults():
    global TOOL
    missed, idle, text = 0, {test.__name__ for test in ALL}, open(TOOL).read()
    with tempfile.TemporaryDirectory() as place:
        TOOL = os.path.join(place, "image")
        for name, old, new in FAULTS:
            same(text.count(old) > 0, True, "place of %r" % old)
            with open(TOOL, "w") as file:
                file.write(text.replace(old, new))
            os.chmod(TOOL, 0o755)
            caught = [test.__name__ for test in ALL if outcome(test)]
            missed, idle = missed + (not caught), idle - set(caught)
            print("%-50s %s" % (name, ", ".join(caught) or "NOT CAUGHT"), flush=True)
    print("%d faults, %d not caught; tests that caught none: %s" % (len(FAULTS), missed, ", ".join(sorted(idle)) or "none"))
    return not missed and not idle


if __name__ == "__main__":
    sys.exit(0 if (run_faults() if sys.argv[1:] == ["faults"] else run_all()) else 1)
