"""Tests of tools/steps, run as a user runs it.

    python3 tools/test_steps.py            all tests
    python3 tools/test_steps.py faults     faulty copies of the tool, and which tests catch each of them
"""

import fcntl
import os
import random
import re
import resource
import signal
import struct
import subprocess
import sys
import tempfile
import termios
import time

HERE = os.path.dirname(os.path.abspath(__file__))
TOOL = os.path.join(HERE, "steps")

LAYOUTS = {"lay": "BB", "begin": "B", "read": "BB", "write": "BB4Q", "finish": "B", "publish": "B", "settle": "B", "reclaim": "B", "abandon": "B",
           "cut": "B"}
TAKES = {"lay": "N and M", "read": "a session and a record", "write": "a session, a record and four words", "cut": "a count of entries"}
COUNTS = {name: struct.calcsize("<" + layout.replace("Q", "B")) for name, layout in LAYOUTS.items()}
WHOLE_CASE = "lay 2 2\nbegin 0\nbegin 1\nwrite 0 1 5 0 0 0\nread 0 1\nfinish 0\npublish 0\nread 1 1\nsettle 0\nfinish 1\nsettle 0\nreclaim 0\n"
OURS = re.compile(r"(line [0-9]+: |byte [0-9]+: |steps: )[ -~]+\n")


def same(got, want, what=""):
    if got != want:
        raise AssertionError("%.100r: got %.300r, want %.300r" % (what, got, want))


def ended(done):
    """(exit status, standard output, standard error); the last is the usage or lines of the tool's own."""
    errors = done.stderr.decode()
    if not errors.startswith("Readable steps"):
        same(OURS.sub("", errors), "", "lines that are not the tool's own")
    return done.returncode, done.stdout, errors


def run(data, *words, **how):
    data = data.encode() if isinstance(data, str) else data
    return ended(subprocess.run([TOOL, *words], input=data, stdout=subprocess.PIPE, stderr=subprocess.PIPE, timeout=60, **how))


def shell(command, data=b"lay 2 2\n"):
    """A command of the shell in which $0 is the tool."""
    return ended(subprocess.run(["sh", "-c", command, TOOL], input=data, stdout=subprocess.PIPE, stderr=subprocess.PIPE, timeout=60))


def right(data, stream, *words):
    same(run(data, *words), (0, stream, ""), data)


def wrong(data, *messages):
    """All these messages and nothing else; nothing on standard output."""
    same(run(data), (1, b"", "".join(message + "\n" for message in messages)), data)


def each_wrong(pairs):
    """Lines and what is wrong with each, in one run."""
    wrong("".join(line + "\n" for line, _ in pairs), *["line %d: %s" % (at, message) for at, (_, message) in enumerate(pairs, 1)])


def packed(name, numbers):
    """The bytes of a step, not by the tool's code."""
    return struct.pack("<B" + LAYOUTS[name], list(LAYOUTS).index(name), *[0 if name == "lay" and n == 256 else n for n in numbers])


def bounds(name, place):
    """The least and the most of one of a step's numbers."""
    return (1, 256) if (name, place) == ("lay", 0) else (0, 2**64 - 1) if place > 1 else (0, 255)


def random_step(dice):
    name = dice.choice(list(LAYOUTS))
    ends = [bounds(name, place) for place in range(COUNTS[name])]
    return name, [dice.choice([least, most, dice.randint(least, most)]) for least, most in ends]


def plain(name, numbers):
    return " ".join([name] + [str(n) for n in numbers]) + "\n"


def untidy(name, numbers, dice):
    """A line of the same meaning that a person could have written."""
    fields = [name] + ["0" * dice.choice([0, 0, 1, 30]) + str(n) for n in numbers]
    gaps = [dice.choice(["", " ", "\t"])] + [dice.choice([" ", "  ", "\t", " \t "]) for _ in numbers]
    after = dice.choice(["", " ", "\t", "#", " # lay é #"]) + dice.choice(["\n", "\r\n"])
    before = dice.choice(["", "", "", "\n", "  \t\r\n", "# begin 0\n"])
    return before + "".join(gap + field for gap, field in zip(gaps, fields)) + after


# Wrong lines: all of them in one run, and nothing is written.

def test_every_wrong_line():
    wrong("lay 2 2\nwrte 0\n\n# note\nbegin 0\nbegin 256\r\n\r\nfinish\n", 'line 2: no step is called "wrte"', "line 6: 256 is not from 0 to 255",
          "line 8: finish takes a session, not 0 numbers")
    dice = random.Random(1)
    bad = [dice.random() < 0.3 for _ in range(500)]
    message = 'line %d: "x" is not a number in digits 0 to 9'
    wrong("".join("cut x\n" if b else "cut 7\n" for b in bad), *[message % at for at, b in enumerate(bad, 1) if b])


def test_nothing_written():
    wrong("write 0 1 2 3 4 5\n" * 20000 + "begin", "line 20001: begin takes a session, not 0 numbers")


# Numbers: digits and bounds.

def test_digits():
    shown = {field: field for field in ("1_0", "+1", "-0", "-1", "1.0", "1e2", "0x1", "1,", "one", "x" * 40)}
    shown.update({"\u0661": "\\u0661", "\uff11": "\\uff11", "\u0967": "\\u0967", "\xb2": "\\xb2", "\U0001d7cf": "\\U0001d7cf"})  # digits
    shown.update({"\xa01": "\\xa01", "1\u2003": "1\\u2003", "1\v": "1\\x0b", "\f1": "\\x0c1", "1\x1f": "1\\x1f", "1\x85": "1\\x85"})  # blanks
    shown.update({"1\u2028": "1\\u2028", "1\0": "1\\x00", "\ufeff1": "\\ufeff1", "1\\": "1\\\\", "\x1b[2J": "\\x1b[2J", "x" * 41: "x" * 40 + "..."})
    each_wrong([("begin " + field, '"%s" is not a number in digits 0 to 9' % show) for field, show in shown.items()])


def test_bounds():
    good, bad = [], []
    for name, count in COUNTS.items():
        for place in range(count):
            least, most = bounds(name, place)
            for number in (least, most, least - 1, most + 1, 10 * most, 10**30):
                numbers = [number if i == place else 1 for i in range(count)]
                if least <= number <= most:
                    good.append((name, numbers))
                elif number >= 0:
                    bad.append((plain(name, numbers).strip(), "%d is not from %d to %d" % (number, least, most)))
    right("".join(plain(*step) for step in good), b"".join(packed(*step) for step in good))
    each_wrong(bad)


def test_long_numbers():
    each_wrong([("begin 1" + "0" * 4999, "a number of 5000 digits is not from 0 to 255"),
                ("lay " + "0" * 9000 + " 1", "a number of 9000 digits is not from 1 to 256"),
                ("write 0 0 1 1 1 " + "9" * 41, "a number of 41 digits is not from 0 to 18446744073709551615"),
                ("write 0 0 1 1 1 " + "9" * 40, "9" * 40 + " is not from 0 to 18446744073709551615")])
    right("begin " + "0" * 100000 + "7\nwrite 0 0 0 0 0 " + "0" * 30 + "18446744073709551615",
          packed("begin", [7]) + packed("write", [0] * 5 + [2**64 - 1]))


# Words: what is said of a wrong line.

def test_names():
    shown = {"wrte": "wrte", "Lay": "Lay", "LAY": "LAY", "lay2": "lay2", "lays": "lays", "7": "7", "back": "back",
             "\xa0lay": "\\xa0lay", "lay\0": "lay\\x00", "l\u0430y": "l\\u0430y", "\ufefflay": "\\ufefflay", "lay\v": "lay\\x0b",
             "x" * 9999: "x" * 40 + "...", "group": "group"}
    each_wrong([(name + " 1 1", 'no step is called "%s"' % show) for name, show in shown.items()] + [("group", 'no step is called "group"')])


def test_counts():
    each_wrong([(plain(name, [1] * n).strip(), "%s takes %s, not %d number%s" % (name, TAKES.get(name, "a session"), n, "s" if n != 1 else ""))
                for name, count in COUNTS.items() for n in range(9) if n != count])


def test_first_fault_of_a_line():
    each_wrong([("wrte x", 'no step is called "wrte"'), ("begin 300 x", '"x" is not a number in digits 0 to 9'),
                ("begin 300 1", "begin takes a session, not 2 numbers"), ("read 300 400", "300 is not from 0 to 255")])


# Outside: files that fail, readers that leave, Ctrl-C.

def test_closed_files():
    unread, unwritten = "steps: cannot read standard input: it is not open\n", "steps: cannot write standard output: it is not open\n"
    for words in ("", "back"):
        same(shell('"$0" %s <&-' % words), (1, b"", unread))
        same(shell('"$0" %s 0>/dev/null' % words), (1, b"", unread))
        same(shell('"$0" %s <&- >&-' % words), (1, b"", unread))
        same(shell('"$0" %s </dev/null >&-' % words), (1, b"", unwritten))
        same(shell('"$0" %s <&- 2>&-' % words), (1, b"", ""))
        same(shell('"$0" %s <&- >&- 2>&-' % words), (1, b"", ""))
    same(shell('"$0" >&-'), (1, b"", unwritten))
    same(shell('"$0" back >&-', b"\1\1"), (1, b"", unwritten))
    same(shell('"$0" --help >&-'), (1, b"", unwritten))
    same(shell('"$0" 2>&-', b"lay"), (1, b"", ""))
    same(shell('"$0" other 2>&-'), (2, b"", ""))


def test_full_disk():
    for words, data in (("", b"lay 2 2\n"), ("back", b"\0\2\2"), ("--help", b"")):
        same(shell('"$0" %s >/dev/full' % words, data), (1, b"", "steps: cannot write standard output: No space left on device\n"))
    same(shell('"$0" 2>/dev/full', b"lay"), (1, b"", ""))


def test_reader_leaves():
    many = b"lay 2 2\n" * 30000
    for words, data in (([], b"lay 2 2\n"), ([], many), (["back"], b"\0\2\2"), (["back"], b"\0\2\2" * 30000), (["--help"], b"")):
        reader, writer = os.pipe()
        os.close(reader)
        done = subprocess.run([TOOL, *words], input=data, stdout=writer, stderr=subprocess.PIPE, timeout=60)
        os.close(writer)
        same((done.returncode, done.stderr), (0, b""), words)
    same(shell('"$0" | head -0', many), (0, b"", ""))
    same(shell('"$0" | head -c 3', many), (0, b"\0\2\2", ""))


def test_not_text():
    wrong(b"lay 2 2\nbegin \xff\n", "line 2: byte ff is not UTF-8")
    wrong(b"lay 2 2 # caf\xe9\n\nbegin\n\xe2\x82\nbegin \xed\xa0\x80", "line 1: byte e9 is not UTF-8", "line 3: begin takes a session, not 0 numbers",
          "line 4: byte e2 is not UTF-8", "line 5: byte ed is not UTF-8")
    wrong(b"\0", 'line 1: no step is called "\\x00"')
    wrong(b"begin 0\n\0\0\nbegin 1\0\nbegin \0 1\n", 'line 2: no step is called "\\x00\\x00"', 'line 3: "1\\x00" is not a number in digits 0 to 9',
          'line 4: "\\x00" is not a number in digits 0 to 9')
    for locale in ("C", "C.UTF-8"):
        same(run("begin 0 # é\nbegin é\n", env={**os.environ, "LC_ALL": locale}), (1, b"", 'line 2: "\\xe9" is not a number in digits 0 to 9\n'))


def unread(pipe):
    return struct.unpack("i", fcntl.ioctl(pipe, termios.FIONREAD, b"\0\0\0\0"))[0]


def started(*words):
    return subprocess.Popen([TOOL, *words], stdin=subprocess.PIPE, stdout=subprocess.PIPE, stderr=subprocess.PIPE,
                            preexec_fn=lambda: signal.signal(signal.SIGINT, signal.SIG_DFL))


def stopped(tool):
    """Ctrl-C, then the end of the input; what the tool answers."""
    tool.send_signal(signal.SIGINT)
    output, errors = tool.communicate(timeout=60)
    return ended(subprocess.CompletedProcess([], tool.returncode, output, errors))


def test_interrupted():
    for words in ([], ["back"]):
        tool = started(*words)
        tool.stdin.write(b"lay 2 2\n")
        tool.stdin.flush()
        limit = time.monotonic() + 60
        while unread(tool.stdin) and time.monotonic() < limit:  # until it reads
            time.sleep(0.005)
        same(stopped(tool), (1, b"", "steps: interrupted\n"))


def test_memory():
    with open("/dev/zero") as zeros:
        done = subprocess.run([TOOL, "back"], stdin=zeros, stdout=subprocess.PIPE, stderr=subprocess.PIPE, timeout=60,
                              preexec_fn=lambda: resource.setrlimit(resource.RLIMIT_AS, (2**27, 2**27)))
    same(ended(done), (1, b"", "steps: not enough memory for the input\n"))


# Back, and round trips.

def test_not_whole_steps():
    steps = [(name, [1] * count) for name, count in COUNTS.items()]
    stream, start = b"".join(packed(*step) for step in steps), 0
    for name, numbers in steps:
        size = len(packed(name, numbers)) - 1
        for left in {0, size // 8, size // 2, size - 1}:
            same(run(stream[:start + 1 + left], "back"), (1, b"", "byte %d: %s has %d bytes after its kind, not %d\n" % (start, name, size, left)))
        start += 1 + size
    right(stream, "".join(plain(*step) for step in steps).encode(), "back")


def test_unknown_kinds():
    for kind in (10, 128, 255):
        same(run(b"\0\2\2" * 300 + bytes([kind, 1]), "back"), (1, b"", "byte 900: no step has kind %d\n" % kind))


def test_round_trips():
    for seed, size in enumerate([1, 3, 10, 30, 10000]):
        dice = random.Random(seed)
        steps = [random_step(dice) for _ in range(size)]
        stream, text = b"".join(packed(*step) for step in steps), "".join(plain(*step) for step in steps).encode()
        right("".join(untidy(*step, dice) for step in steps), stream)
        right(stream, text, "back")
        right(text, stream)


def test_every_byte():
    """Each value of each byte of a body, there and back."""
    stream = b"".join(bytes([kind] + [value] * struct.calcsize("<" + layout)) for kind, layout in enumerate(LAYOUTS.values()) for value in range(256))
    status, text, errors = run(stream, "back")
    same((status, errors, text.count(b"\n")), (0, "", 2560))
    same(text.split(b"\n")[0], b"lay 256 0")
    right(text, stream)


def test_documents():
    """Document 01's whole case, and the README's two files."""
    words = " 00" * 31
    right(WHOLE_CASE, bytes.fromhex("00 02 02 01 00 01 01 03 00 01 05" + words + "02 00 01 04 00 05 00 02 01 01 06 00 04 01 06 00 07 00"))
    session = bytes.fromhex("00 02 02 01 00 03 00 01 05" + words + "09 05 04 00 01 01 02 01 01")
    waiting = bytes.fromhex("00 02 04 01 02 01 03 03 03 00 07" + words + "04 03 05 03 01 00 01 01 03 01 01 08" + words
                            + "04 01 05 01 06 01 04 02 06 01 04 00 06 01")
    for name, stream in (("session.txt", session), ("waiting.txt", waiting)):
        with open(os.path.join(HERE, "..", "docs", name), "rb") as file:
            right(file.read(), stream)


# Arguments, the form of a text, the usage.

def test_arguments():
    usage = run(b"", "--help")[1].decode()
    same(run(b"wrong", "--help"), (0, usage.encode(), ""))
    for words in (["forth"], [""], ["back", "back"], ["back", "--help"], ["-h"], [b"\xff"]):
        same(run(b"lay 2 2\n", *words), (2, b"", usage), words)
    same(shell('"$0" --help <&-'), (0, usage.encode(), ""))


def test_lines():
    one, two = packed("lay", [1, 1]), packed("begin", [2])
    for text in ("lay 1 1\nbegin 2\n", "lay 1 1\r\nbegin 2\r\n", "lay 1 1\nbegin 2",
                 "\n\r\n \t\n#\n# lay 3 3\r\n\tlay\t1  1#x\nbegin 2 # # \0 é\n   "):
        right(text, one + two)
    right("", b"")
    right("\r\n# no step", b"")
    wrong("lay 1 1\rbegin 2\nbegin 2\r", 'line 1: "1\\rbegin" is not a number in digits 0 to 9', 'line 2: "2\\r" is not a number in digits 0 to 9')
    wrong("begin 2\r\r\n\r", 'line 1: "2\\r" is not a number in digits 0 to 9', 'line 2: no step is called "\\r"')


def test_usage():
    """Each step as the usage has it is right with numbers for its capitals, and the usage has all of them."""
    usage = run(b"", "--help")[1].decode()
    steps = [re.match("[a-z]+( [A-Z]+)+", line.strip()).group() for line in usage.split("\n") if re.match("    [a-z]+ [A-Z]", line)]
    same([step.split()[0] for step in steps], list(LAYOUTS))
    text = "".join(re.sub("[A-Z]+", "1", step) + "\n" for step in steps)
    right(text, b"".join(packed(name, [1] * count) for name, count in COUNTS.items()))
    same([line for line in usage.split("\n") if len(line) > 140], [])


ALL = [test for name, test in list(globals().items()) if name.startswith("test_")]

FAULTS = [  # a name, a place of the tool's text, what stands there instead
    ("lines: only the first wrong line", '            faults.append("line %d: %s" % (number, fault))\n',
     '            raise Wrong("line %d: %s" % (number, fault))\n'),
    ("lines: lines count from 0", 'split(b"\\n"), 1)', 'split(b"\\n"), 0)'),
    ("lines: right lines are written at once", "            steps.append(encoded(*fields) if fields else b\"\")\n",
     "            step = encoded(*fields) if fields else b\"\"\n            steps.append(b\"\")\n            give(1, step)\n"),
    ("lines: wrong lines, and the stream all the same", '    if faults:\n        raise Wrong("\\n".join(faults))\n    return b"".join(steps)',
     '    give(1, b"".join(steps))\n    if faults:\n        raise Wrong("\\n".join(faults))\n    return b""'),
    ("lines: exit status 0", "    return 1\n\n\nif __name__", "    return 0\n\n\nif __name__"),
    ("numbers: digits of every script", "if not (field.isascii() and field.isdigit()):", "if not field.isdigit():"),
    ("numbers: whatever int takes", "if not (field.isascii() and field.isdigit()):", 'if not field.strip("+-").replace("_", "").isalnum():'),
    ("numbers: N up to 255", "RECORDS, WORD = (0, 255, 1), (1, 256, 1)", "RECORDS, WORD = (0, 255, 1), (1, 255, 1)"),
    ("numbers: N from 0", "RECORDS, WORD = (0, 255, 1), (1, 256, 1)", "RECORDS, WORD = (0, 255, 1), (0, 256, 1)"),
    ("numbers: M from 1", "[RECORDS, BYTE]", "[RECORDS, (1, 255, 1)]"),
    ("numbers: bytes up to 256", "BYTE, RECORDS, WORD = (0, 255, 1)", "BYTE, RECORDS, WORD = (0, 256, 1)"),
    ("numbers: words up to 2^64", "(0, 2**64 - 1, 8)", "(0, 2**64, 8)"),
    ("numbers: words below 2^63", "(0, 2**64 - 1, 8)", "(0, 2**63 - 1, 8)"),
    ("numbers: the first 20 digits only", "[:21]", "[:20]"),
    ("numbers: digits without end", 'int(field.lstrip("0")[:21] or "0")', "int(field)"),
    ("numbers: zeros in front count as digits", 'int(field.lstrip("0")[:21] or "0")', "int(field[:21])"),
    ("numbers: long numbers shown whole", "len(field) <= 40 else", "len(field) <= 9999 else"),
    ("words: fields unquoted", '"no step is called %s" % quoted(name)', '"no step is called %s" % name'),
    ("words: fields not escaped", 'field[:40].encode("unicode_escape").decode()', "field[:40]"),
    ("words: bounds not told", '"%s is not from %d to %d" % (found, least, most)', '"%s is too large" % found'),
    ("words: 1 numbers", '"" if len(fields) == 1 else "s"', '"s"'),
    ("words: a read called a session", '"a session and a record"', '"a session"'),
    ("outside: a read's error is Python's", "    except OSError as fault:\n        raise Wrong(\"steps: cannot read",
     "    except ValueError as fault:\n        raise Wrong(\"steps: cannot read"),
    ("outside: no write where there is nothing to write",
     "while data := data[os.write(place, data):]:", "while data and (data := data[os.write(place, data):]):"),
    ("outside: a write's error is Python's", "    except OSError as fault:\n        raise Wrong(\"steps: cannot write",
     "    except ValueError as fault:\n        raise Wrong(\"steps: cannot write"),
    ("outside: messages on standard output", "give(2, text.encode())", "give(1, text.encode())"),
    ("outside: messages where Python puts them", "give(2, text.encode())", "print(text, end=\"\", file=sys.stderr)"),
    ("outside: a reader that leaves is a fault", "    except BrokenPipeError:\n        pass\n", ""),
    ("outside: Latin-1 accepted", "line.decode()", 'line.decode("latin-1")'),
    ("outside: not UTF-8 is Python's", "except UnicodeDecodeError as fault:", "except KeyError as fault:"),
    ("outside: Ctrl-C is Python's", "except KeyboardInterrupt:", "except ZeroDivisionError:"),
    ("outside: memory", "except MemoryError:", "except KeyError:"),
    ("back: a short last step is left out", "    if end > len(stream):\n        raise",
     "    if end > len(stream):\n        return \"\", end\n        raise"),
    ("back: a short last step is filled with zeros", "if end > len(stream):", "if end > len(stream) + 99:"),
    ("back: the last byte may be missing", "if end > len(stream):", "if end > len(stream) + 1:"),
    ("back: the byte after the last step is named", '(at, name, end - at - 1', '(end, name, end - at - 1'),
    ("back: an unknown kind ends the stream",
     '        raise Wrong("byte %d: no step has kind %d" % (at, stream[at]))', '        return "", len(stream)'),
    ("back: steps before the fault are written", "        lines.append(line)\n", '        give(1, line.encode())\n'),
    ("back: N byte 0 is 0", "str(number if number >= least else most)", "str(number)"),
    ("back: words highest byte first", '.to_bytes(size, "little")', '.to_bytes(size, "big")'),
    ("back: words highest byte first, both ways", '"little"', '"big"'),
    ("back: two kinds exchanged",
     '("settle", "a session", [BYTE]),\n    ("reclaim", "a session", [BYTE]),',
     '("reclaim", "a session", [BYTE]),\n    ("settle", "a session", [BYTE]),'),
    ("form: unknown arguments are left out", 'if words not in ([], ["back"], ["--help"]):', 'if not set(words) <= {"back", "--help"}:'),
    ("form: exit status 1 with the usage", "        return 2\n", "        return 1\n"),
    ("form: help on standard error", "give(1, __doc__.encode() if", "give(2 if words == [\"--help\"] else 1, __doc__.encode() if"),
    ("form: line ends stay", '.replace(b"\\r\\n", b"\\n")', ""),
    ("form: every \\r ends a line", '.replace(b"\\r\\n", b"\\n")', '.replace(b"\\r\\n", b"\\n").replace(b"\\r", b"\\n")'),
    ("form: comments stay", '.split("#")[0]', ""),
    ("form: no tabs", '.replace("\\t", " ")', ""),
    ("form: every blank parts fields", 'text.replace("\\t", " ").split(" ")', "text.split()"),
    ("usage: a step missing in the usage", "    abandon SESSION\n", ""),
    ("usage: a wrong step in the usage", "    read SESSION RECORD\n", "    read SESSION\n"),
]


def outcome(test):
    """Nothing, or why the test failed."""
    try:
        test()
    except Exception as fault:
        return "%s: %s" % (type(fault).__name__, fault)


def run_all():
    failed = 0
    for test in ALL:
        fault = outcome(test)
        if fault:
            failed += 1
            print("%s: %s" % (test.__name__, fault), flush=True)
    print("tools/steps: %d passed, %d failed" % (len(ALL) - failed, failed))
    return not failed


def run_faults():
    global TOOL
    missed, idle, text = 0, {test.__name__ for test in ALL}, open(TOOL).read()
    with tempfile.TemporaryDirectory() as place:
        TOOL = os.path.join(place, "steps")
        for name, old, new in FAULTS:
            same(text.count(old) > 0, True, "place of %r" % old)
            with open(TOOL, "w") as file:
                file.write(text.replace(old, new))
            os.chmod(TOOL, 0o755)
            caught = [test.__name__ for test in ALL if outcome(test)]
            missed, idle = missed + (not caught), idle - set(caught)
            print("%-50s %s" % (name, ", ".join(caught) or "NOT CAUGHT"), flush=True)
    print("%d faults, %d not caught; tests that caught none: %s" % (len(FAULTS), missed, ", ".join(sorted(idle)) or "none"))
    return not missed and not idle


if __name__ == "__main__":
    sys.exit(0 if (run_faults() if sys.argv[1:] == ["faults"] else run_all()) else 1)
