"""Reference model of the two-copy record store (document 01, and Req 01, Req 05, Req 06, Req 08 and Req 09 of
document 02).

An image is a list of 64-bit words, a desk is a dictionary, a trace (the document's strip) is given
by its length in words. No call alters what it is given. Each call returns a
dictionary: "answer", "desk", "image" and "entries". A part that the call
does not take or give is None; entries are pairs (index, word).
"""

L = 2 ** 62
FENCE = (2 ** 64 - 1, 0)
TRACE_WORDS = 48
RAISE = 1024  # how far a raise of header word 3 goes past the new clock
SHORT = 16  # word 1 of a short log is this plus its number of pairs, at most 9
MOST_PAIRS = 9
ZEROS = [0, 0, 0, 0]


# ---- answers -------------------------------------------------------------

def said(name, value=0, words=ZEROS):
    """An accepted call's answer. Fields that a result doesn't use are 0."""
    return {"name": name, "number": 0, "value": value, "words": list(words)}


def no(number, value=0):
    """A refusal with its number; the value is the holder (7) or place (12)."""
    return {"name": "no", "number": number, "value": value, "words": list(ZEROS)}


def result(answer, desk=None, image=None, entries=()):
    """What a call hands back: the image is given as before the stores."""
    if entries:
        image = made(image, entries)
    return {"answer": answer, "desk": desk, "image": image, "entries": list(entries)}


# ---- the image -----------------------------------------------------------

def in_range(n, m):
    """N is 1 to 256, M is 1 to 16."""
    return 1 <= n <= 256 and 1 <= m <= 16


def length(n, m):
    """The length is exactly 4 + 4N + 44M words."""
    return 4 + 4 * n + 44 * m


def image_right(image):
    """Word 0 is 1, words 1 and 2 are N and M in range; word 3 is no part of
    this check."""
    if len(image) < 4 or image[0] != 1 or not in_range(image[1], image[2]):
        return False
    return len(image) == length(image[1], image[2])


def ceiling(image):
    """Header word 3: no start or end number above it has been given (document
    02, Req 05)."""
    return image[3]


def home_at(record):
    """Index of a home record's first word."""
    return 4 + 4 * record


def home(image, record):
    return image[home_at(record):home_at(record) + 4]


def word_at(index):
    """Index in the image of the home word with this index, 0 to 4N - 1."""
    return home_at(0) + index


def record_of(at):
    """The record whose home words have this index in the image."""
    return (at - home_at(0)) // 4


def slot_at(n, place):
    """Index of a slot's first word; its place is twice the session plus 0 or 1."""
    return 4 + 4 * n + 22 * place


def persist(image, place):
    """Word 0 of a slot is the persist number, 0 meaning empty."""
    return image[slot_at(image[1], place)]


def occupied(image):
    """The places of all occupied slots, ascending."""
    return [place for place in range(2 * image[2]) if persist(image, place) != 0]


def log_count(image, place):
    """Word 1 of a slot is the count of copies, or 16 + k of a short log."""
    return image[slot_at(image[1], place) + 1]


def is_short(image, place):
    """Word 1 is 16 + k, k from 0 to 9 (document 02, Req 08)."""
    return SHORT <= log_count(image, place) <= SHORT + MOST_PAIRS


def log_copies(image, place):
    """The copies of a slot, up to its count (for counts up to 4)."""
    first = slot_at(image[1], place) + 2
    starts = [first + 5 * i for i in range(log_count(image, place))]
    return [[image[at], image[at + 1:at + 5]] for at in starts]


def log_pairs(image, place):
    """The k pairs of a short log: home word index, new word."""
    first = slot_at(image[1], place) + 2
    starts = [first + 2 * i for i in range(log_count(image, place) - SHORT)]
    return [(image[at], image[at + 1]) for at in starts]


def log_stores(image, place):
    """What a log of either form denotes: stores to home words, in its order."""
    if is_short(image, place):
        return [(word_at(index), word) for index, word in log_pairs(image, place)]
    return to_home(log_copies(image, place))


def log_records(image, place):
    """The records that a log of either form touches."""
    return {record_of(index) for index, _ in log_stores(image, place)}


# ---- stores and fences ---------------------------------------------------

def made(image, entries):
    """The image before with the listed stores made."""
    image = list(image)
    for index, word in entries:
        if (index, word) != FENCE:
            image[index] = word
    return image


def trace_after(trace, entries):
    """An entry is two words; words past the entries stay unchanged."""
    listed = [word for entry in entries for word in entry]
    return listed + list(trace[len(listed):])


def to_home(copies):
    """Stores of copies to the home records, words in ascending index."""
    return [(home_at(record) + i, words[i]) for record, words in copies for i in range(4)]


def raised(clock):
    """The raise of header word 3: the new clock plus 1,024, and a fence. Past L
    it is stored as it is."""
    return [(3, clock + RAISE), FENCE]


def arrived(entries, k, chosen):
    """The crash rule: the first k entries are made; stores before the last
    fence have arrived, of the others those that chosen(entry) picks."""
    first = entries[:k]
    fences = [i for i, entry in enumerate(first) if entry == FENCE]
    last = fences[-1] if fences else 0
    sure = [entry for entry in first[:last] if entry != FENCE]
    return sure + [e for e in first[last:] if e != FENCE and chosen(e)]


# ---- the desk ------------------------------------------------------------

def entry(phase, number=0, copies=(), slot=0):
    """A session entry; idle has no number. Unused copy places are zero."""
    places = [[record, list(words)] for record, words in copies]
    places += [[0, list(ZEROS)] for _ in range(4 - len(places))]
    return {"phase": phase, "number": number, "count": len(copies),
            "places": places, "slot": slot}


def new_desk(clock, n, m):
    """A desk with all sessions idle and all records unmarked. The order is a
    list of 16 places for the active sessions as they began (document 02, Req
    09); here it is empty."""
    return {"clock": clock, "N": n, "M": m, "marks": [None] * 256,
            "sessions": [entry("idle") for _ in range(16)], "order": [0] * 16}


def copies_of(session_entry):
    return session_entry["places"][:session_entry["count"]]


def with_entry(desk, session, new, **other):
    """The desk with one session entry replaced, and other fields if named."""
    sessions = list(desk["sessions"])
    sessions[session] = new
    return dict(desk, sessions=sessions, **other)


def made_idle(desk, session):
    """Marks and copies are dropped, the session is idle."""
    marks = [None if mark == session else mark for mark in desk["marks"]]
    return with_entry(desk, session, entry("idle"), marks=marks)


def ended(desk, session):
    """An active session made idle; it leaves the order."""
    return dict(made_idle(desk, session), order=removed(desk, session))


def with_phase(desk, session, phase, number):
    """The session in another phase, with its copies, slot and marks kept."""
    return with_entry(desk, session, dict(desk["sessions"][session], phase=phase, number=number))


# ---- the active sessions in the order they began (document 02, Req 09) ---

def is_active(desk, session):
    """There are sixteen entries; a larger number is no session."""
    return session < 16 and desk["sessions"][session]["phase"] == "active"


def in_use(desk):
    """How many places of the order are in use: as many as there are active
    sessions. A 0 in a place does not tell, since it is session 0 too."""
    return sum(is_active(desk, session) for session in range(16))


def added(desk, session):
    """The order with a session that begins, at the first place not in use."""
    used = in_use(desk)
    return desk["order"][:used] + [session] + desk["order"][used + 1:]


def removed(desk, session):
    """The order without a session that is no longer active: those behind it
    move up one place, the last place becomes 0."""
    at = desk["order"].index(session)
    return desk["order"][:at] + desk["order"][at + 1:] + [0]


# ---- coherence, rule by rule ---------------------------------------------

def rule_clock(desk, image):
    """The clock is at least 1, and with the number of sealed sessions added
    at most L + 16."""
    sealed = sum(e["phase"] == "sealed" for e in desk["sessions"])
    return desk["clock"] >= 1 and desk["clock"] + sealed <= L + 16


def rule_ceiling(desk, image):
    """A desk taken with an image has a clock that is at most word 3 (document
    02, Req 05)."""
    return image is None or desk["clock"] <= ceiling(image)


def rule_sizes(desk, image):
    """N and M are in range and, where the call takes an image, equal to its
    header."""
    same = image is None or [desk["N"], desk["M"]] == image[1:3]
    return in_range(desk["N"], desk["M"]) and same


def rule_counts(desk, image):
    """An idle session has no copies; an active one has 0 to 4; a sealed or
    published one has 1 to 4."""
    allowed = {"idle": (0, 0), "active": (0, 4), "sealed": (1, 4), "published": (1, 4)}
    return all(allowed[e["phase"]][0] <= e["count"] <= allowed[e["phase"]][1]
               for e in desk["sessions"])


def rule_numbers(desk, image):
    """Start and persist numbers are 1 to the clock; end numbers are 2 to the
    clock."""
    lowest = {"active": 1, "sealed": 1, "published": 2}
    return all(lowest[e["phase"]] <= e["number"] <= desk["clock"]
               for e in desk["sessions"] if e["phase"] != "idle")


def rule_slots(desk, image):
    """Slots are 0 or 1, and 0 where there are no copies."""
    return all(e["slot"] == 0 or (e["slot"] == 1 and e["count"] > 0)
               for e in desk["sessions"])


def rule_unused(desk, image):
    """Unused copy places are zero."""
    return all(place == [0, ZEROS] for e in desk["sessions"]
               for place in e["places"][e["count"]:])


def rule_records(desk, image):
    """Copied records are below N and differ within a session."""
    for e in desk["sessions"]:
        records = [record for record, _ in copies_of(e)]
        if any(record >= desk["N"] for record in records):
            return False
        if len(set(records)) != len(records):
            return False
    return True


def rule_marks(desk, image):
    """A record is marked for a session when that session copies it,
    otherwise unmarked."""
    copiers = {}
    for session, e in enumerate(desk["sessions"]):
        for record, _ in copies_of(e):
            copiers.setdefault(record, set()).add(session)
    return all({mark} == copiers.get(record, {None})
               for record, mark in enumerate(desk["marks"]))


def rule_rest(desk, image):
    """Entries from M up are idle and marks from N up are none."""
    return (all(e["phase"] == "idle" for e in desk["sessions"][desk["M"]:])
            and all(mark is None for mark in desk["marks"][desk["N"]:]))


def rule_listed(desk, image):
    """Each place of the order that is in use has an active session (document
    02, Req 09; with the next rule the list has all of them)."""
    return all(is_active(desk, session) for session in desk["order"][:in_use(desk)])


def rule_listed_once(desk, image):
    """No session stands in two places in use (Req 09)."""
    used = desk["order"][:in_use(desk)]
    return len(set(used)) == len(used)


def rule_starts_rise(desk, image):
    """Along the places in use starts don't fall (Req 09)."""
    starts = [desk["sessions"][session]["number"] for session in desk["order"][:in_use(desk)]
              if is_active(desk, session)]
    return all(one <= other for one, other in zip(starts, starts[1:]))


def rule_unused_listed(desk, image):
    """Places of the order that are not in use are 0 (Req 09)."""
    return not any(desk["order"][in_use(desk):])


RULES = {"clock": rule_clock, "ceiling": rule_ceiling, "sizes": rule_sizes,
         "counts": rule_counts, "numbers": rule_numbers, "slots": rule_slots,
         "unused": rule_unused, "records": rule_records, "marks": rule_marks,
         "rest": rule_rest, "listed": rule_listed, "listed once": rule_listed_once,
         "starts rise": rule_starts_rise, "unused listed": rule_unused_listed}


def broken_rules(desk, image=None):
    """Names of the rules that a desk breaks; none when it is coherent."""
    return [name for name, rule in RULES.items() if not rule(desk, image)]


def coherent(desk, image=None):
    return all(rule(desk, image) for rule in RULES.values())


# ---- checks 1 to 6, lowest number first ----------------------------------

def turned_away(desk, session, image=None, trace=None, record=None, phase=None):
    """The refusal by the checks that apply to the arguments given, or None."""
    if image is not None and not image_right(image):
        return no(1)
    if not coherent(desk, image):
        return no(2)
    if trace is not None and trace < TRACE_WORDS:
        return no(3)
    if session >= desk["M"]:
        return no(4)
    if record is not None and record >= desk["N"]:
        return no(5)
    if phase is not None and desk["sessions"][session]["phase"] != phase:
        return no(6)
    return None


# ---- lay and open --------------------------------------------------------

def lay(n, m, image):
    """Writes an empty image: zero records, zero slots, word 3 is 0. Checks 14
    before 1, and then the length alone."""
    if not in_range(n, m):
        return result(no(14), image=image)
    if len(image) != length(n, m):
        return result(no(1), image=image)
    return result(said("ok"), image=[1, n, m, 0] + [0] * (len(image) - 4))


def open_image(image, trace):
    """Needs all slots empty. It gives a desk whose clock is word 3 plus 1, all
    idle, and raises word 3."""
    refusal = open_turned_away(image, trace)
    if refusal:
        return result(refusal, new_desk(0, 0, 0), image)
    clock = ceiling(image) + 1
    return result(said("ok"), new_desk(clock, image[1], image[2]), image, raised(clock))


def open_turned_away(image, trace):
    """Open's refusal, or None: checks 1, 3, 11, and 10 after 11."""
    if not image_right(image):
        return no(1)
    if trace < TRACE_WORDS:
        return no(3)
    if occupied(image):
        return no(11)
    if ceiling(image) >= L:  # open with word 3 at L or more
        return no(10)
    return None


# ---- calls on the desk alone ---------------------------------------------

def begin(desk, session):
    """Idle becomes active; start is the clock. The session is last in the
    order."""
    refusal = turned_away(desk, session, phase="idle")
    if refusal:
        return result(refusal, desk)
    start = desk["clock"]
    return result(said("start", start), with_entry(desk, session, entry("active", start),
                                                   order=added(desk, session)))


def abandon(desk, session):
    """Active only; marks and copies are dropped, the session is idle and no
    longer in the order."""
    refusal = turned_away(desk, session, phase="active")
    if refusal:
        return result(refusal, desk)
    return result(said("ok"), ended(desk, session))


# ---- read and write ------------------------------------------------------

def copy_place(session_entry, record):
    """Which of the session's copies is of this record, or None."""
    records = [r for r, _ in copies_of(session_entry)]
    return records.index(record) if record in records else None


def read(image, desk, session, record):
    """Own copy; else the holder's if published with end at most this start;
    else the home record."""
    refusal = turned_away(desk, session, image, record=record, phase="active")
    if refusal:
        return result(refusal, desk, image)
    own = desk["sessions"][session]
    place = copy_place(own, record)
    if place is not None:
        return result(said("own", words=own["places"][place][1]), desk, image)
    if desk["marks"][record] is not None:
        holder = desk["sessions"][desk["marks"][record]]
        if holder["phase"] == "published" and holder["number"] <= own["number"]:
            words = holder["places"][copy_place(holder, record)][1]
            return result(said("copy", words=words), desk, image)
    return result(said("home", words=home(image, record)), desk, image)


def write(image, desk, session, record, words):
    """An own copy is overwritten. Otherwise the record is marked and copied;
    at the first copy the lowest empty slot of the session is reserved."""
    refusal = turned_away(desk, session, image, record=record, phase="active")
    if refusal:
        return result(refusal, desk, image)
    own = desk["sessions"][session]
    place = copy_place(own, record)
    if place is not None:
        return result(said("ok"), overwritten(desk, session, place, words), image)
    holder = desk["marks"][record]
    if holder is not None:  # another session holds the record
        return result(no(7, holder), ended(desk, session), image)
    if own["count"] == 4:  # fifth record in one transaction
        return result(no(8), desk, image)
    slot = own["slot"] if own["count"] else lowest_empty(image, session)
    if slot is None:  # first write, both slots occupied
        return result(no(9), desk, image)
    return result(said("ok"), copied(desk, session, record, words, slot), image)


def lowest_empty(image, session):
    """The session's lowest empty slot, or None."""
    empty = [slot for slot in (0, 1) if persist(image, 2 * session + slot) == 0]
    return empty[0] if empty else None


def overwritten(desk, session, place, words):
    """The desk with one copy's words replaced, its place kept."""
    own = desk["sessions"][session]
    copies = list(copies_of(own))
    copies[place] = [copies[place][0], words]
    return with_entry(desk, session, entry("active", own["number"], copies, own["slot"]))


def copied(desk, session, record, words, slot):
    """The desk with the record marked and copied, last among the copies."""
    own = desk["sessions"][session]
    copies = copies_of(own) + [[record, words]]
    marks = list(desk["marks"])
    marks[record] = session
    return with_entry(desk, session, entry("active", own["number"], copies, slot), marks=marks)


# ---- finish, publish, settle, reclaim ------------------------------------

def finish(image, desk, trace, session):
    """Active only; the session leaves the order. Without copies: idle,
    "empty". With copies: sealed; the persist number is the clock."""
    refusal = turned_away(desk, session, image, trace, phase="active")
    if refusal:
        return result(refusal, desk, image)
    own = desk["sessions"][session]
    if own["count"] == 0:
        return result(said("empty"), ended(desk, session), image)
    number = desk["clock"]
    if number >= L:  # finish with copies, clock at L or more
        return result(no(10), desk, image)
    at = slot_at(desk["N"], 2 * session + own["slot"])
    entries = log_body(at, image, copies_of(own)) + [FENCE, (at, number), FENCE]
    desk = dict(with_phase(desk, session, "sealed", number), order=removed(desk, session))
    return result(said("sealed", number), desk, image, entries)


def log_body(at, image, copies):
    """The log from word 1 on, for the slot whose first word is at: the short form
    where 2k is less than 5c, 1 + 2k words; else count and copies, 1 + 5c words."""
    pairs = differing(image, copies)
    if 2 * len(pairs) < 5 * len(copies):
        words = [SHORT + len(pairs)] + [word for pair in pairs for word in pair]
    else:
        words = [len(copies)] + [word for record, four in copies for word in [record] + four]
    return [(at + 1 + i, word) for i, word in enumerate(words)]


def differing(image, copies):
    """Home word index and new word, for each word of the copies that differs from
    the home record, in ascending index."""
    stores = [(at, word) for at, word in to_home(copies) if image[at] != word]
    return sorted((at - word_at(0), word) for at, word in stores)


def publish(image, desk, trace, session):
    """Sealed only. End is clock + 1 and the clock becomes that. Where it passes
    word 3, word 3 is raised; otherwise there are no stores."""
    refusal = turned_away(desk, session, image, trace, phase="sealed")
    if refusal:
        return result(refusal, desk, image)
    end = desk["clock"] + 1
    entries = raised(end) if end > ceiling(image) else []
    return result(said("end", end), dict(with_phase(desk, session, "published", end), clock=end),
                  image, entries)


def publish_group(image, desk, trace, members):
    """Publishes each session of the set with the same end; clock and word 3 go as
    in publish (document 02, Req 06)."""
    sessions = in_set(members)
    refusal = group_turned_away(image, desk, trace, sessions)
    if refusal:
        return result(refusal, desk, image)
    clock = desk["clock"] + 1
    entries = raised(clock) if clock > ceiling(image) else []
    for session in sessions:
        desk = with_phase(desk, session, "published", clock)
    return result(said("end", clock), dict(desk, clock=clock), image, entries)


def in_set(members):
    """The sessions of a 16-bit set: bit s, worth 2 to the s, stands for session s."""
    return [session for session in range(16) if members & 2 ** session]


def group_turned_away(image, desk, trace, sessions):
    """The refusal of a group, or None: checks 1, 2, 3, 19 right after 3, 4, 6."""
    if not image_right(image):
        return no(1)
    if not coherent(desk, image):
        return no(2)
    if trace < TRACE_WORDS:
        return no(3)
    if not sessions:  # empty set
        return no(19)
    if any(session >= desk["M"] for session in sessions):
        return no(4)
    if any(desk["sessions"][session]["phase"] != "sealed" for session in sessions):
        return no(6)
    return None


def settle(image, desk, trace, session):
    """Published only. Waits while an active session has a start below this
    end, and names the one with the smallest start, among equal starts the
    lowest session (document 02, Req 01); otherwise the copies go home, the
    session is idle and the slot stays occupied."""
    refusal = turned_away(desk, session, image, trace, phase="published")
    if refusal:
        return result(refusal, desk, image)
    own = desk["sessions"][session]
    in_the_way = [(e["number"], other) for other, e in enumerate(desk["sessions"])
                  if e["phase"] == "active" and e["number"] < own["number"]]
    if in_the_way:
        _, named = min(in_the_way)  # the smallest start, among equal starts the lowest session
        return result(said("wait", named), desk, image)
    entries = to_home(copies_of(own)) + [FENCE]
    return result(said("ok"), made_idle(desk, session), image, entries)


def reclaim(image, desk, trace, session):
    """Any phase. Clears this session's log with the smallest persist number,
    unless a slot of the image has a smaller one."""
    refusal = turned_away(desk, session, image, trace)
    if refusal:
        return result(refusal, desk, image)
    places = reclaimable(image, desk, session)
    if not places:
        return result(said("none"), desk, image)
    place = min(places, key=lambda p: (persist(image, p), p))  # lower slot first
    number = persist(image, place)
    smallest = min(persist(image, p) for p in occupied(image))
    if smallest < number:
        return result(said("held", smallest), desk, image)
    entries = [(slot_at(desk["N"], place), 0), FENCE]
    return result(said("cleared", number), desk, image, entries)


def reclaimable(image, desk, session):
    """This session's occupied slots, leaving out the slot of a sealed or
    published transaction."""
    own = desk["sessions"][session]
    left_out = own["slot"] if own["phase"] in ("sealed", "published") else None
    return [2 * session + slot for slot in (0, 1)
            if slot != left_out and persist(image, 2 * session + slot) != 0]


# ---- recover -------------------------------------------------------------

def damaged(image, place):
    """Word 1 is 0, 5 to 15 or above 25, or what it counts is wrong: in a full log
    a record at or above N or a record twice, in a short one an index at or
    above 4N or indexes that don't ascend. Nothing past that is looked at."""
    if is_short(image, place):
        indexes = [index for index, _ in log_pairs(image, place)]
        rise = all(one < other for one, other in zip(indexes, indexes[1:]))
        return not rise or any(index >= 4 * image[1] for index in indexes)
    if not 1 <= log_count(image, place) <= 4:
        return True
    records = [record for record, _ in log_copies(image, place)]
    return any(record >= image[1] for record in records) or len(set(records)) < len(records)


def at_odds(image, one, other):
    """Equal persist numbers, a record that both touch."""
    if persist(image, one) != persist(image, other):
        return False
    return bool(log_records(image, one) & log_records(image, other))


def recover(image, trace):
    """Replays and clears the log with the smallest persist number, lowest
    place in the image first. Checks 1, 3, 12, 13."""
    if not image_right(image):
        return result(no(1), image=image)
    if trace < TRACE_WORDS:
        return result(no(3), image=image)
    places = occupied(image)
    bad = [place for place in places if damaged(image, place)]
    if bad:
        return result(no(12, bad[0]), image=image)
    if any(at_odds(image, a, b) for a in places for b in places if a < b):
        return result(no(13), image=image)
    if not places:
        return result(said("clean"), image=image)
    place = min(places, key=lambda p: (persist(image, p), p))
    clear = (slot_at(image[1], place), 0)
    entries = log_stores(image, place) + [FENCE, clear, FENCE]
    return result(said("replayed", persist(image, place)), image=image, entries=entries)
