"""Reel records (document 02, Req 02 and Req 07): one agreed meaning for the
four words.

The library sits above the store: it calls store.read and store.write and
knows nothing else of the store's inside. A reel is a list of four numbers:
shelf, carrier, speed, seconds. They and the words of a record are any 64-bit
numbers. No call alters what it is given. Results have the store's form;
where the store has read a record, the value of the answer is its word for
where from: own, copy or home.
"""

import store

SPEEDS = [None, 476, 953, 1905, 3810, 7620]  # by code, in tenths of a millimetre per second
UNUSED = [0, 0, 0, 0]


# ---- the four words ------------------------------------------------------

def shelf_right(shelf):
    """Word 0 is the shelf number, 1 to 999,999."""
    return 1 <= shelf <= 999999


def speed_right(carrier, speed):
    """Word 1 is the carrier: 1 open reel, 2 cassette, 3 disc. Word 2 is the
    speed code: 0 unknown, and 1 to 5 stand for a speed. A cassette takes code
    0 or 1; a disc takes 0."""
    if carrier == 1:
        return 0 <= speed <= 5
    if carrier == 2:
        return 0 <= speed <= 1
    if carrier == 3:
        return speed == 0
    return False


def speed_missing(carrier, speed):
    """An open reel without a speed (Req 07). It can be stored from earlier."""
    return carrier == 1 and speed == 0


def seconds_right(seconds):
    """Word 3 is the playing time in seconds, 0 to 359,999."""
    return 0 <= seconds <= 359999


def bad_number(shelf, carrier, speed, seconds):
    """What is bad to read: 15, 16 or 17, checked in that order; 0 for a good
    reel."""
    if not shelf_right(shelf):  # shelf number out of range
        return 15
    if not speed_right(carrier, speed):  # carrier or speed not allowed
        return 16
    if not seconds_right(seconds):  # seconds out of range
        return 17
    return 0


def refused_number(shelf, carrier, speed, seconds):
    """What is refused when packed or written: what is bad to read, and an open
    reel without a speed. That is 16 at 16's place: after 15, before 17."""
    number = bad_number(shelf, carrier, speed, seconds)
    if number != 15 and speed_missing(carrier, speed):
        return 16
    return number


def mark(carrier, speed):
    """What a good reel is read as: an open reel without a speed, and it alone,
    is marked "speed to find"."""
    return "speed to find" if speed_missing(carrier, speed) else "reel"


def meaning(words, where=0):
    """The answer for a record's words: a reel, marked or not; four zero words
    are an unused record; otherwise the number names the first bad word."""
    if words == UNUSED:
        return store.said("unused", where)
    number = bad_number(*words)
    if number:
        return store.no(number, where)
    return store.said(mark(words[1], words[2]), where, words)


# ---- the calls -----------------------------------------------------------

def pack(reel):
    """A reel's words, each number at its place. An unused record is not
    written: it gives 15."""
    number = refused_number(*reel)
    if number:
        return store.result(store.no(number))
    return store.result(store.said("ok", words=reel))


def unpack(words):
    """The reel, "speed to find" with the reel, "unused", or the number of the
    first bad word."""
    return store.result(meaning(words))


def read(image, desk, session, record):
    """The store reads and may refuse; what it read is then unpacked."""
    done = store.read(image, desk, session, record)
    answer = done["answer"]
    if answer["name"] == "no":
        return done
    return dict(done, answer=meaning(answer["words"], answer["name"]))


def write(image, desk, session, record, reel):
    """15, 16 and 17 are checked before any store check and leave all as it
    was; then the store writes the packed words. What is stored at the record
    does not matter."""
    answer = pack(reel)["answer"]
    if answer["name"] == "no":
        return store.result(answer, desk, image)
    return store.write(image, desk, session, record, answer["words"])


def length(words):
    """Seconds times speed, divided by 10,000, rounded down to metres; with
    code 0 "unknown", for an unused record and a speed to find too. A bad
    record is refused as on reading."""
    answer = meaning(words)
    if answer["name"] == "no":
        return store.result(answer)
    _, _, speed, seconds = words
    if speed == 0:
        return store.result(store.said("unknown"))
    return store.result(store.said("metres", seconds * SPEEDS[speed] // 10000))
