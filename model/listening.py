"""The listening room's calls (document 02, Req 03): begin, read, finish, and
find a reel by its shelf number in the session's own snapshot.

The library sits above the store: it calls the store's checks, begin, read and
finish. A session that holds copies is refused by read, finish and find. No
call alters what it is given. Results have the store's form; where find has
found a record, the value of the answer is its number.
"""

import reels
import store


# ---- checks --------------------------------------------------------------

def turned_away(image, desk, session, trace=None, record=None):
    """The refusal by those of the store's checks 1 to 6 that apply, then by
    18, or None."""
    refusal = store.turned_away(desk, session, image, trace, record, "active")
    if refusal:
        return refusal
    if desk["sessions"][session]["count"] != 0:  # the session holds copies
        return store.no(18)
    return None


# ---- the calls -----------------------------------------------------------

def begin(desk, session):
    """As the store begins. An idle session holds no copies."""
    return store.begin(desk, session)


def read(image, desk, session, record):
    """As the store reads: copy or home, never own."""
    refusal = turned_away(image, desk, session, record=record)
    if refusal:
        return store.result(refusal, desk, image)
    return store.read(image, desk, session, record)


def finish(image, desk, trace, session):
    """Without copies the store's finish is "empty" at any clock; with copies
    18 comes right after 6, and 10 is never asked."""
    refusal = turned_away(image, desk, session, trace)
    if refusal:
        return store.result(refusal, desk, image)
    return store.finish(image, desk, trace, session)


def word_0(image, desk, session, record):
    """Word 0 of a record in the session's snapshot."""
    return store.read(image, desk, session, record)["answer"]["words"][0]


def find(image, desk, session, number):
    """The first record of the full snapshot whose word 0 is the number: from
    record 0 up to the first match. 15 is checked before the store's checks."""
    if not reels.shelf_right(number):  # shelf number out of range
        return store.result(store.no(15), desk, image)
    refusal = turned_away(image, desk, session)
    if refusal:
        return store.result(refusal, desk, image)
    for record in range(desk["N"]):
        if word_0(image, desk, session, record) == number:
            return store.result(store.said("found", record), desk, image)
    return store.result(store.said("none"), desk, image)
