"""Cases of the yearly report (document 02, Req 10): an image and a lent table
each, and what the library's call and the program must give.

    python3 rawreport.py in > cases       all cases, as crate reportcases reads them
    python3 rawreport.py want > lines     what they must give
    python3 rawreport.py count            cases by what the library and the program answer
    python3 rawreport.py why              what each case is for

Nothing is drawn: a case depends on its own number (from 0) alone.

A case is the room, how many lines the lent table has (0 to 5), and the bytes of
an image, at most 14,407. In `cases` it is one byte, the room, then the number of
image bytes as four bytes, lowest first, then the image bytes. The library is
given the whole words among them. The table has five lines before the call: line
i is MARK + 2i and MARK + 2i + 1; the first lines of it are lent.

In `lines` a case is one line of 17 numbers: case, room, answer (0 where the
table is filled, else the number of the refusal), reels, seconds, bad, unused,
and reels and seconds of all five lines after the call. Behind it stands the text
that the program prints for all of the bytes.
"""

import itertools
import sys
from collections import Counter

import report
from raw import TOP
from rawalone import put
from store import L

MARK = 0xA5A5A5A500000000
LINES = 5
MOST_BYTES = 14407
WORD_3 = 20
HIGH = 2 ** 63


# ---- images --------------------------------------------------------------

OPEN, CASSETTE, DISC = [17, 1, 3, 3600], [18, 2, 1, 2700], [19, 3, 0, 1500]
TO_FIND, BAD, UNUSED = [20, 1, 0, 600], [21, 1, 6, 70], [0, 0, 0, 0]
REST = [130 + 37 * i % 90 for i in range(1, 22)]  # what may be left in an empty slot


def slot_of(number, rest=REST):
    """The 22 words of a slot with this persist number."""
    return [number, *rest, *[0] * (21 - len(rest))]


def image_of(n, m, records, slots=(), word_3=WORD_3, rest=REST):
    """An image with these records by number, the others unused, and these slots by place, the others empty."""
    records, slots = dict(records), dict(slots)
    words = [1, n, m, word_3]
    for record in range(n):
        words += records.get(record, UNUSED)
    for place in range(2 * m):
        words += slots.get(place, slot_of(0, rest))
    return words


def bytes_of(words):
    return b"".join(word.to_bytes(8, "little") for word in words)


# What makes cases yields, for each, what it is for, what the image by itself gives with room enough, the room or None,
# and the bytes. What it gives is the number of a refusal, or by hand: the three lines, how many are bad, how many
# unused.

def case(why, given, words, room=None):
    return why, given, room, bytes_of(words)


def nothing(unused):
    return [(0, 0)] * 3, 0, unused


# Three reels, one of each carrier, and a record among them.
THREE = [(1, 3600), (1, 2700), (1, 1500)]
ONE_BAD, ONE_UNUSED = (THREE, 1, 0), (THREE, 0, 1)


def reel(carrier, seconds):
    """The lines where the record is a reel of this carrier with so many seconds."""
    count, total = THREE[carrier - 1]
    return put(THREE, carrier - 1, (count + 1, total + seconds)), 0, 0


def among(why, words, given, place=1):
    """This record among the three reels, at this place."""
    four = [OPEN, CASSETTE, DISC]
    four.insert(place, words)
    return case(why, given, image_of(4, 1, enumerate(four)))


def in_turn(records):
    """Each of these records (what it is for, words, what it gives) at the next place."""
    for (why, words, given), place in zip(records, itertools.cycle(range(4))):
        yield among(why, words, given, place)


# ---- sizes and sums ------------------------------------------------------

def empty():
    """Laid and never written."""
    for n, m in ((1, 1), (1, 2), (3, 5), (1, 16), (256, 1), (256, 16)):
        yield case("no reel, N %d and M %d" % (n, m), nothing(n), image_of(n, m, {}, word_3=0, rest=[]))


def every(n, words_of):
    """All n records by a rule."""
    return {record: words_of(record) for record in range(n)}


def whole():
    """All records or nearly all are in use, one way or several."""
    yield case("256 open reels of 0 to 255 seconds", ([(256, 32640), (0, 0), (0, 0)], 0, 0),
               image_of(256, 16, every(256, lambda i: [i + 1, 1, 1 + i % 5, i])))
    yield case("256 bad records", ([(0, 0)] * 3, 256, 0), image_of(256, 16, every(256, lambda i: BAD)))
    yield case("256 reels with a speed to find", ([(256, 153600), (0, 0), (0, 0)], 0, 0),
               image_of(256, 1, every(256, lambda i: TO_FIND)))
    yield case("the carriers in turn, N 256 and M 16", ([(86, 309600), (85, 229500), (85, 127500)], 0, 0),
               image_of(256, 16, every(256, lambda i: [OPEN, CASSETTE, DISC][i % 3])))
    yield case("each carrier, a speed to find and a bad record in turn", (
        [(52 + 51, 187200 + 30600), (51, 137700), (51, 76500)], 51, 0), image_of(256, 1, every(
            256, lambda i: [OPEN, CASSETTE, DISC, TO_FIND, BAD][i % 5])))
    yield case("every second one unused, every fourth bad", ([(64, 230400), (0, 0), (0, 0)], 64, 128),
               image_of(256, 1, every(256, lambda i: [OPEN, UNUSED, BAD, UNUSED][i % 4])))
    yield case("255 cassettes and one unused record", ([(0, 0), (255, 688500), (0, 0)], 0, 1),
               image_of(256, 1, every(255, lambda i: CASSETTE)))
    yield case("one reel in use four times", ([(0, 0), (0, 0), (4, 6000)], 0, 0), image_of(4, 1, every(4, lambda i: DISC)))
    for carrier, m in ((1, 16), (2, 1), (3, 1)):
        yield case("256 times the longest time, carrier %d" % carrier, (put([(0, 0)] * 3, carrier - 1, (256, 92159744)), 0, 0),
                   image_of(256, m, every(256, lambda i, c=carrier: [999999, c, 0, 359999])))
    yield case("the longest time with each carrier", ([(86, 30959914), (85, 30599915), (85, 30599915)], 0, 0),
               image_of(256, 1, every(256, lambda i: [999999, 1 + i % 3, 0, 359999])))
    yield case("the store of a small archive", ([(3, 7800), (2, 5400), (1, 1500)], 1, 2), image_of(
        9, 2, enumerate([OPEN, UNUSED, CASSETTE, TO_FIND, DISC, BAD, OPEN, UNUSED, CASSETTE])))


def alone():
    """One record in use, the first or the last of them."""
    for n, m in ((1, 1), (9, 2), (256, 1)):
        for place in sorted({0, n - 1}):
            where = "record %d of %d" % (place, n)
            yield case(where + " alone, a disc", ([(0, 0), (0, 0), (1, 1500)], 0, n - 1), image_of(n, m, {place: DISC}))
            if n == 9:
                yield case(where + " alone, an open reel", ([(1, 3600), (0, 0), (0, 0)], 0, n - 1), image_of(n, m, {place: OPEN}))
                yield case(where + " alone, a cassette", ([(0, 0), (1, 2700), (0, 0)], 0, n - 1), image_of(n, m, {place: CASSETTE}))
                yield case(where + " alone, bad", ([(0, 0)] * 3, 1, n - 1), image_of(n, m, {place: BAD}))
                others = every(n, lambda i, spare=place: UNUSED if i == spare else CASSETTE)
                yield case(where + " alone unused", ([(0, 0), (n - 1, 2700 * (n - 1)), (0, 0)], 0, 1), image_of(n, m, others))
    yield case("the first and the last of 256", ([(1, 3600), (0, 0), (1, 1500)], 0, 254), image_of(256, 1, {0: DISC, 255: OPEN}))
    yield case("a header that would be an open reel", nothing(1), image_of(1, 1, {}, word_3=60))
    yield case("a header that would be a cassette", nothing(2), image_of(2, 1, {}, word_3=60))
    yield case("a reel across two records", ([(0, 0)] * 3, 2, 1), image_of(3, 1, {0: [0, 0, 17, 1], 1: [3, 60, 0, 0]}))


# ---- single words --------------------------------------------------------

GOOD = {1: range(6), 2: range(2), 3: range(1)}  # by carrier, its codes


def codes():
    """Every carrier with every code, and with the largest code of all."""
    for carrier in (1, 2, 3):
        for code in (*range(7), TOP):
            yield ("carrier %d, code %d" % (carrier, code), [5, carrier, code, 61 + carrier],
                   reel(carrier, 61 + carrier) if code in GOOD[carrier] else ONE_BAD)


def bounds():
    """Each word at its bounds and past them, all else being right."""
    for shelf, carrier in ((0, 2), (1, 1), (1, 3), (999999, 2), (1000000, 1), (1000000, 3), (TOP, 3)):
        yield ("shelf number %d, carrier %d" % (shelf, carrier), [shelf, carrier, int(carrier == 1), 60],
               reel(carrier, 60) if shelf in (1, 999999) else ONE_BAD)
    for carrier in (0, 4, TOP):
        yield "carrier %d" % carrier, [5, carrier, 0, 60], ONE_BAD
    for seconds in (0, 359999, 360000):
        for carrier in (1, 2, 3):
            yield ("%d seconds, carrier %d" % (seconds, carrier), [5, carrier, int(carrier < 3), seconds],
                   reel(carrier, seconds) if seconds < 360000 else ONE_BAD)
    yield "2^64 - 1 seconds", [5, 1, 1, TOP], ONE_BAD


def low_bits():
    """Numbers that are right in their low bits alone."""
    for bits, carrier in ((8, 1), (8, 2), (8, 3), (16, 2), (32, 1), (32, 2), (32, 3), (63, 1)):
        yield "carrier %d + 2^%d" % (carrier, bits), [5, carrier + 2 ** bits, 0, 60], ONE_BAD
    for bits, carrier, code in ((8, 1, 0), (8, 2, 1), (16, 3, 0), (32, 1, 3), (32, 2, 0), (32, 3, 0), (63, 1, 1)):
        yield "carrier %d, code %d + 2^%d" % (carrier, code, bits), [5, carrier, code + 2 ** bits, 60], ONE_BAD
    for bits in (20, 32, 63):
        yield "shelf number 5 + 2^%d" % bits, [5 + 2 ** bits, 2, 1, 60], ONE_BAD
        yield "60 + 2^%d seconds" % bits, [5, 3, 0, 60 + 2 ** bits], ONE_BAD
    yield "shelf number 65,541, 5 + 2^16", [65541, 2, 1, 60], reel(2, 60)
    yield "65,596 seconds, 60 + 2^16", [5, 3, 0, 65596], reel(3, 65596)
    yield "all four words right in their low 32 bits", [2 ** 32 + 5, 2 ** 32 + 1, 2 ** 32 + 3, 2 ** 32 + 60], ONE_BAD


def zeros():
    """Unused is four zero words and no other."""
    yield "four zero words", UNUSED, ONE_UNUSED
    for at in range(4):
        for word in (1, HIGH):
            yield "word %d alone is %d" % (at, word), put(UNUSED, at, word), ONE_BAD
    yield "a reel but for shelf number 0", [0, 1, 3, 3600], ONE_BAD
    yield "a cassette but for shelf number 0", [0, 2, 0, 0], ONE_BAD
    yield "words that add up to 2^64", [0, HIGH, 0, HIGH], ONE_BAD
    yield "four words of 2^64 - 1", [TOP] * 4, ONE_BAD


def mixed_up():
    """A reel's words in another order, and causes that come together."""
    for turn in (1, 3):
        yield "a reel's words turned by %d" % turn, OPEN[turn:] + OPEN[:turn], ONE_BAD
    yield "15 and 16", [1000000, 4, 0, 60], ONE_BAD
    yield "15 and 17", [0, 1, 3, 360000], ONE_BAD
    yield "16 and 17", [5, 2, 2, 360000], ONE_BAD
    yield "15, 16 and 17", [1000000, 0, 9, TOP], ONE_BAD


def to_find():
    """Open reels without a speed: with everything else right, and not."""
    for shelf, seconds in ((1, 0), (999999, 359999), (5, 60)):
        yield "speed to find, shelf number %d, %d seconds" % (shelf, seconds), [shelf, 1, 0, seconds], reel(1, seconds)
    for words, why in (([0, 1, 0, 60], "shelf number 0"), ([1000000, 1, 0, 60], "shelf number 1,000,000"),
                       ([5, 1, 0, 360000], "360,000 seconds"), ([0, 1, 0, 360000], "shelf number and seconds wrong")):
        yield "no speed, " + why, words, ONE_BAD


def singles():
    for maker in (codes, bounds, low_bits, zeros, mixed_up, to_find):
        yield from in_turn(maker())


# ---- slots ---------------------------------------------------------------

SMALL = {0: OPEN, 1: TO_FIND, 2: CASSETTE}
SMALL_GIVES = [(2, 4200), (1, 2700), (0, 0)], 0, 0


def small(slots=(), word_3=WORD_3, m=1):
    """Three reels and these slots."""
    return image_of(3, m, SMALL, slots, word_3)


def occupied():
    """11 by one slot, at each place and with each kind of number; the words behind it don't matter."""
    for place in (0, 2, 3, 5):
        yield case("place %d of 6 is occupied" % place, 11, small({place: slot_of(7)}, m=3))
    for place in (0, 1):
        for number in (1, TOP):
            yield case("persist number %d at place %d of 2" % (number, place), 11, small({place: slot_of(number)}))
    for number in (2 ** 32, HIGH):
        yield case("persist number %d" % number, 11, small({1: slot_of(number)}))
    for place in (0, 15, 31):
        yield case("place %d of 32 is occupied" % place, 11, image_of(1, 16, {0: DISC}, {place: slot_of(1)}))
    yield case("all slots are occupied", 11, small({place: slot_of(place + 1) for place in range(4)}, m=2))
    yield case("the last place of all, N 256 and M 16", 11, image_of(256, 16, {9: DISC}, {31: slot_of(TOP)}))
    for why, rest in (("nothing behind it", []), ("a sound log", [1, 2, 5, 3, 0, 60]),
                      ("a short log without pairs", [16]), ("a log at fault", [5, 9, 9, 9, 9])):
        yield case("occupied, " + why, 11, small({0: slot_of(3, rest)}))
    yield case("occupied, and all records bad or unused", 11, image_of(3, 1, {1: BAD}, {0: slot_of(3)}))


def empty_slots():
    """What is left in empty slots is nothing."""
    for why, rest in (("what is left of a log", [1, 2, 5, 3, 0, 60]), ("2^64 - 1 throughout", [TOP] * 21),
                      ("reels", [5, 1, 3, 60] * 5), ("nothing", [])):
        yield case("in empty slots: " + why, SMALL_GIVES, small({0: slot_of(0, rest), 1: slot_of(0, rest)}))
    for at in (1, 21):
        yield case("word %d alone of an empty slot is not 0" % at, SMALL_GIVES, small({
            0: slot_of(0, []), 1: put(slot_of(0, []), at, 1)}))


# ---- the header ----------------------------------------------------------

def headed(why, at, word, words=None):
    """1 by one word of the header."""
    return case(why, 1, put(words or small(), at, word))


def headers():
    """1 by the header; the length is right for the numbers as they were, or as they are."""
    for word in (0, 2, 257, 2 ** 32 + 1, TOP):
        yield headed("word 0 is %d" % word, 0, word)
    for word in (0, 2, 4, 2 ** 32 + 3, 2 ** 62 + 3, TOP):
        yield headed("N is %d, the records are 3" % word, 1, word)
    for word in (0, 2, 17, 2 ** 32 + 1, 2 ** 62 + 1, TOP):
        yield headed("M is %d, the sessions are 1" % word, 2, word)
    yield case("N and M exchanged", 1, [1, 1, 3, WORD_3] + small()[4:])
    yield case("N 0 and the length of it", 1, image_of(0, 1, {}))
    yield case("M 0 and the length of it", 1, image_of(3, 0, SMALL))
    yield case("N 257 and the length of it", 1, image_of(257, 1, {0: OPEN}))
    yield case("M 17 and the length of it", 1, image_of(1, 17, {0: OPEN}))
    yield case("N 2^62 and the length of none", 1, put(image_of(0, 1, {}), 1, 2 ** 62))
    yield case("four zero words in front", 1, UNUSED + small())
    # 1 record with 2 sessions and 12 records with 1 session have the same length.
    words = put(image_of(1, 2, {0: OPEN}, {0: slot_of(30, [2, 0, 100])}, rest=[]), 3, 0)
    yield case("N 1 and M 2: record 1 would be a slot", 11, words)
    yield case("N 12 and M 1: the slot is record 1", ([(1, 3600), (1, 100), (0, 0)], 0, 10), [1, 12, 1, 0] + words[4:])


def ceilings():
    """Word 3 is not looked at."""
    for word_3 in (0, L - 1, L, TOP):
        yield case("word 3 is %d" % word_3, SMALL_GIVES, small(word_3=word_3))


# ---- lengths -------------------------------------------------------------

ONE = image_of(1, 1, {0: CASSETTE})
ONE_GIVES = [(0, 0), (1, 2700), (0, 0)], 0, 0


def lengths():
    """1 by a length in words or bytes; the program alone sees a part of a word at the end."""
    whole_bytes = bytes_of(ONE)
    for size in (*range(9), 24, 31, 32):
        yield "bytes of the image: %d" % size, 1, None, whole_bytes[:size]
    for less in (8, 7, 4, 2, 1):
        yield "bytes of the image: all but %d" % less, 1, None, whole_bytes[:-less]
    for more in (1, 7):
        yield "bytes behind the image: %d" % more, ONE_GIVES, None, whole_bytes + bytes(more)
    for more in (8, 9):
        yield "bytes behind the image: %d" % more, 1, None, whole_bytes + bytes(more)
    yield "the image twice", 1, None, whole_bytes * 2
    yield "each word highest byte first", 1, None, b"".join(word.to_bytes(8, "big") for word in ONE)
    yield "a byte before the image", 1, None, b"\1" + whole_bytes


def large_lengths():
    """The same around the largest image."""
    words = image_of(256, 16, {0: DISC, 255: OPEN})
    gives = [(1, 3600), (0, 0), (1, 1500)], 0, 254
    yield case("1,731 words, N 256 and M 16", 1, words[:-1])
    yield case("1,732 words, N 256 and M 16", gives, words)
    yield case("1,733 words, N 256 and M 16", 1, words + [0])
    yield case("1,732 words, N 255 and M 16", 1, put(words, 1, 255))
    yield case("1,732 words, N 256 and M 15", 1, put(words, 2, 15))
    yield case("1,736 words, N 257 and M 16", 1, put(words, 1, 257) + [0] * 4)
    yield case("1,733 words, word 0 is 2", 1, put(words, 0, 2) + [0])
    for more in (1, 7):
        yield "1,732 words, and bytes behind them: %d" % more, gives, None, bytes_of(words) + bytes(more)
    yield "1,732 words but for a byte", 1, None, bytes_of(words)[:-1]
    yield "14,407 bytes", 1, None, bytes_of(words) + bytes(MOST_BYTES - 8 * len(words))


# ---- tables --------------------------------------------------------------

def rooms():
    """Tables of each length with an image that is right, with 11 and with 1."""
    for room in range(LINES + 1):
        yield case("lines in the table: %d" % room, SMALL_GIVES, small(), room)
        yield case("lines in the table: %d, a slot is occupied" % room, 11, small({1: slot_of(4)}), room)
        yield case("lines in the table: %d, word 0 is 3" % room, 1, put(small(), 0, 3), room)


def orders():
    """1 before 11 before 20: two causes or three at once."""
    full = small({0: slot_of(4), 1: slot_of(5)})
    for room in (2, 3):
        yield case("the length and a slot, %d lines" % room, 1, full[:-1], room)
        yield case("N and a slot, %d lines" % room, 1, put(full, 1, 2), room)
        yield case("word 0 and a slot, %d lines" % room, 1, put(full, 0, 2), room)
    yield case("M 0 and a slot, no line", 1, put(full, 2, 0), 0)
    yield case("a word too many, 1 line", 1, small() + [0], 1)
    yield case("a word too many and a slot, 3 lines", 1, full + [0], 3)
    yield case("word 3 at L, 2 lines", SMALL_GIVES, small(word_3=L), 2)
    yield case("word 3 at L and a slot, 2 lines", 11, small({0: slot_of(4)}, L), 2)
    yield "no bytes, no line", 1, 0, b""
    yield "3 bytes too many, 2 lines", ONE_GIVES, 2, bytes_of(ONE) + bytes(3)
    for room in (2, 3):
        yield "3 bytes too many and a slot, %d lines" % room, 11, room, bytes_of(full) + bytes(3)
    yield case("nothing but bad records, 2 lines", ([(0, 0)] * 3, 2, 0), image_of(2, 1, {0: BAD, 1: BAD}), 2)
    yield case("one carrier alone, 1 line", ([(1, 3600), (0, 0), (0, 0)], 0, 1), image_of(2, 1, {0: OPEN}), 1)


# ---- all of them ---------------------------------------------------------

MAKERS = [empty, whole, alone, singles, occupied, empty_slots, headers, ceilings, lengths, large_lengths, rooms, orders]
# What each case is for, what its image gives, the room and the bytes. Where a maker leaves the room open it goes round.
TURNS = [(why, given, turn if room is None else room, data) for (why, given, room, data), turn in zip(
    (made for maker in MAKERS for made in maker()), itertools.cycle((5, 3, 4)))]


def table_before():
    """The five lines as they are before the call."""
    return [(MARK + 2 * i, MARK + 2 * i + 1) for i in range(LINES)]


def run(room, data, library=report):
    """The answer, the five lines after the call, and the program's text."""
    table = table_before()
    answer, lent = library.report(report.words_in(data[:len(data) // 8 * 8]), table[:room])
    return answer, lent + table[room:], library.text(data)


def packed(number):
    """A case as it is stored."""
    _, _, room, data = TURNS[number]
    return bytes([room]) + len(data).to_bytes(4, "little") + data


def wanted(number):
    """What it must give: the line and the program's text."""
    _, _, room, data = TURNS[number]
    answer, table, text = run(room, data)
    numbers = [number, room, *(answer[field] for field in ("number", "reels", "seconds", "bad", "unused"))]
    numbers += [part for line in table for part in line]
    return (" ".join(map(str, numbers)) + "\n").encode() + text


def main(words):
    numbers = range(len(TURNS))
    if words == ["in"]:
        sys.stdout.buffer.write(b"".join(map(packed, numbers)))
    elif words == ["want"]:
        sys.stdout.buffer.write(b"".join(map(wanted, numbers)))
    elif words == ["count"]:
        kinds = Counter()
        for _, _, room, data in TURNS:
            answer, _, text = run(room, data)
            kinds[answer["number"], text.decode().strip() if text.startswith(b"no") else "report"] += 1
        for (answer, text), many in sorted(kinds.items()):
            print("%4d answer %-2d %s" % (many, answer, text))
    elif words == ["why"]:
        for number, (why, _, room, data) in enumerate(TURNS):
            print("%3d room %d %5d bytes  answer %-2s %s" % (number, room, len(data), wanted(number).split()[2].decode(), why))
    else:
        sys.exit(__doc__)


if __name__ == "__main__":
    main(sys.argv[1:])
