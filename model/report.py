"""The yearly playing-time report (document 02, Req 10): the library's call,
which fills a lent table, and what the program prints.

    python3 report.py < image > lines

A table is a list of carrier lines; a line is a pair, number of reels and total
seconds. No call alters what it is given: the table comes back as it is
afterwards. Header word 3 plays no part.
"""

import sys

import reels
import store

CARRIERS = [1, 2, 3]  # their lines are the table's first three


# ---- the records ---------------------------------------------------------

def kind(words):
    """What a record is to the report: "unused", "bad", or the carrier that it
    counts with. It is what a read of a reel tells: a reel with a speed to find
    is not bad."""
    told = reels.meaning(words)["name"]
    if told == "unused":
        return "unused"
    if told == "no":
        return "bad"
    return words[1]


def records(image):
    """The N home records."""
    return [store.home(image, record) for record in range(image[1])]


def line(image, carrier):
    """A carrier's reels: how many there are, and the sum of their seconds."""
    seconds = [words[3] for words in records(image) if kind(words) == carrier]
    return len(seconds), sum(seconds)


def number_of(image, what):
    """How many records are unused, or bad."""
    return sum(kind(words) == what for words in records(image))


# ---- the call ------------------------------------------------------------

def no(number):
    """A refusal with its number; the other fields are 0."""
    return {"number": number, "reels": 0, "seconds": 0, "bad": 0, "unused": 0}


def filled(lines, bad, unused):
    """The totals over all carriers, and what is not counted with any."""
    return {"number": 0, "reels": sum(count for count, _ in lines),
            "seconds": sum(seconds for _, seconds in lines),
            "bad": bad, "unused": unused}


def refused_number(image, table):
    """1, 11 and 20, checked in that order; 0 if nothing is wrong."""
    if not store.image_right(image):  # image length or header wrong
        return 1
    if store.occupied(image):  # the image is not clean
        return 11
    if len(table) < 3:  # table shorter than three lines
        return 20
    return 0


def report(image, table):
    """Answer and table. The first three lines are counted afresh, whatever
    stood there; those past the third stay, and so do all of them where the
    report is refused."""
    number = refused_number(image, table)
    if number:
        return no(number), list(table)
    lines = [line(image, carrier) for carrier in CARRIERS]
    answer = filled(lines, number_of(image, "bad"), number_of(image, "unused"))
    return answer, lines + list(table[3:])


# ---- the program ---------------------------------------------------------

def words_in(data):
    """The words of an image, each lowest byte first."""
    return [int.from_bytes(data[at:at + 8], "little") for at in range(0, len(data), 8)]


def told(data):
    """The program's answer, and its table. A byte count that is no whole
    number of words gives 1."""
    if len(data) % 8 != 0:
        return no(1), []
    return report(words_in(data), [(0, 0)] * 3)


def text(data):
    """What the program prints for these bytes of input. A refusal is printed
    alone; otherwise a line for each carrier, their totals, the bad records."""
    answer, table = told(data)
    if answer["number"]:
        return b"no %d\n" % answer["number"]
    lines = ["%d %d %d" % (carrier, *counted) for carrier, counted in zip(CARRIERS, table)]
    lines.append("all %d %d" % (answer["reels"], answer["seconds"]))
    lines.append("bad %d" % answer["bad"])
    return "".join(one + "\n" for one in lines).encode()


if __name__ == "__main__":
    sys.stdout.buffer.write(text(sys.stdin.buffer.read()))
