//! The program of document 01 in plain Rust, on a desk that is altered in place: what `reelwalk` is measured against.
//!
//!     baseline checks < steps     every call makes all checks of document 01
//!     baseline trust < steps      checks 1 to 3, which look at the program's own state alone, are left out

use std::hint::black_box;
use std::io::{self, ErrorKind, Read, Write};

// ---- the image ------------------------------------------------------------

const RECORDS: usize = 256;
const SESSIONS: usize = 16;
const COPIES: usize = 4;
const SLOT_WORDS: usize = 22;
const TRACE_WORDS: usize = 48;
const FENCE: u64 = u64::MAX;
const L: u64 = 1 << 62;

/// The header's word 3: no number above it is given. A raise puts it this far above the clock.
const CEILING: usize = 3;
const AHEAD: u64 = 1024;

/// Word 1 of a slot: the count of copies of a full log, or this much more than the number of pairs of a short one.
const SHORT: u64 = 16;
const LONGEST_SHORT: u64 = SHORT + 9;

type Words = [u64; 4];

fn in_range(n: u64, m: u64) -> bool {
    (1..=RECORDS as u64).contains(&n) && (1..=SESSIONS as u64).contains(&m)
}

fn length(n: usize, m: usize) -> usize {
    4 + 4 * n + 44 * m
}

fn home_at(record: usize) -> usize {
    4 + 4 * record
}

/// Where a slot starts; its place is twice its session plus 0 or 1.
fn slot_at(n: usize, place: usize) -> usize {
    4 + 4 * n + SLOT_WORDS * place
}

/// Check 1: header and length.
fn shaped(image: &[u64]) -> bool {
    image.len() >= 4
        && image[0] == 1
        && in_range(image[1], image[2])
        && image.len() == length(image[1] as usize, image[2] as usize)
}

fn persist(image: &[u64], n: usize, place: usize) -> u64 {
    image[slot_at(n, place)]
}

/// The smallest persist number of some places and the lowest place that has it; none if all are empty.
fn oldest(image: &[u64], n: usize, places: impl Iterator<Item = usize>) -> Option<(u64, usize)> {
    let logs = places.map(|place| (persist(image, n, place), place));
    logs.filter(|&(number, _)| number != 0).min()
}

/// The copies of a full log, each a record number and its words; none of any other log.
fn log_copies(slot: &[u64]) -> &[[u64; 5]] {
    let count = if slot[1] <= COPIES as u64 { slot[1] as usize } else { 0 };
    &slot[2..].as_chunks().0[..count]
}

/// The pairs of a short log, each a home word index and its new word; none of any other log.
fn log_pairs(slot: &[u64]) -> &[[u64; 2]] {
    let count = if (SHORT..=LONGEST_SHORT).contains(&slot[1]) { slot[1] - SHORT } else { 0 };
    &slot[2..].as_chunks().0[..count as usize]
}

/// The records that the log in a slot touches, one as often as it is listed; none if its word 1 is out of range.
fn log_records(slot: &[u64]) -> impl Iterator<Item = u64> + '_ {
    let of_pairs = log_pairs(slot).iter().map(|&[index, _]| index / 4);
    log_copies(slot).iter().map(|copy| copy[0]).chain(of_pairs)
}

/// Check 12 of one occupied slot.
fn sound_log(slot: &[u64], n: usize) -> bool {
    let (copies, pairs) = (log_copies(slot), log_pairs(slot));
    let fresh = |(j, copy): (usize, &[u64; 5])| copies[..j].iter().all(|earlier| earlier[0] != copy[0]);
    (matches!(slot[1], SHORT..=LONGEST_SHORT) || !copies.is_empty())
        && log_records(slot).all(|record| record < n as u64)
        && copies.iter().enumerate().all(fresh)
        && pairs.windows(2).all(|two| two[0][0] < two[1][0])
}

/// Check 13 of two occupied slots.
fn at_odds(one: &[u64], other: &[u64]) -> bool {
    one[0] == other[0] && log_records(one).any(|record| log_records(other).any(|r| r == record))
}

// ---- stores and fences ----------------------------------------------------

/// The lent trace and the number of entries that the last call listed.
struct Trace {
    words: Vec<u64>,
    entries: usize,
}

impl Trace {
    /// Check 3.
    fn roomy(&self) -> bool {
        self.words.len() >= TRACE_WORDS
    }

    fn list(&mut self, index: u64, word: u64) {
        let at = 2 * self.entries;
        self.words[at..at + 2].copy_from_slice(&[index, word]);
        self.entries += 1;
    }

    fn store(&mut self, image: &mut [u64], index: usize, word: u64) {
        image[index] = word;
        self.list(index as u64, word);
    }

    fn store_all(&mut self, image: &mut [u64], index: usize, words: &[u64]) {
        for (i, &word) in words.iter().enumerate() {
            self.store(image, index + i, word);
        }
    }

    fn fence(&mut self) {
        self.list(FENCE, 0);
    }

    /// Makes the first k entries.
    fn arrive(&self, image: &mut [u64], k: usize) {
        for entry in self.words.chunks_exact(2).take(self.entries.min(k)) {
            if entry[0] != FENCE {
                image[entry[0] as usize] = entry[1];
            }
        }
    }
}

// ---- the desk -------------------------------------------------------------

#[derive(Clone, Copy, PartialEq)]
enum Phase {
    Idle,
    Active(u64),
    Sealed(u64),
    Published(u64),
}

/// A session entry: the first `count` records and words are its copies.
#[derive(Clone, Copy)]
struct Session {
    phase: Phase,
    count: u8,
    slot: u8,
    records: [u16; COPIES],
    words: [Words; COPIES],
}

const IDLE: Session = Session { phase: Phase::Idle, count: 0, slot: 0, records: [0; COPIES], words: [[0; 4]; COPIES] };

const UNMARKED: u8 = 0;

fn mark_of(session: usize) -> u8 {
    session as u8 + 1
}

/// The first `active` places of the list are the active sessions in the order they began; the others are zero.
#[derive(Clone, Copy)]
struct Desk {
    clock: u64,
    n: usize,
    m: usize,
    marks: [u8; RECORDS],
    sessions: [Session; SESSIONS],
    active: usize,
    order: [u8; SESSIONS],
}

impl Session {
    /// The place of a record that this session copies.
    fn place_of(&self, record: usize) -> usize {
        (0..COPIES - 1).find(|&j| self.records[j] as usize == record).unwrap_or(COPIES - 1)
    }

    fn copies(&self) -> impl Iterator<Item = (usize, &Words)> {
        let records = self.records[..self.count as usize].iter();
        records.map(|&record| record as usize).zip(&self.words)
    }

    /// The words of the copies that differ from the home records, ascending: so many pairs of home word index and
    /// new word.
    fn changes(&self, image: &[u64]) -> (usize, [[u64; 2]; 4 * COPIES]) {
        // Four times the record plus the place of its copy.
        let mut order = [0, 1, 2, 3].map(|place| 4 * self.records[place] as usize + place);
        let order = &mut order[..self.count as usize];
        order.sort_unstable();
        let (mut k, mut pairs) = (0, [[0; 2]; 4 * COPIES]);
        for &mut at in order {
            let (record, words) = (at / 4, &self.words[at % 4]);
            let home: &Words = image[home_at(record)..].first_chunk().expect("four words");
            for (i, (&word, &old)) in words.iter().zip(home).enumerate() {
                pairs[k] = [(4 * record + i) as u64, word];
                k += (word != old) as usize;
            }
        }
        (k, pairs)
    }

    /// The rules of phase, count, slot and number; the sessions from M up are not in use.
    fn fits(&self, clock: u64, in_use: bool) -> bool {
        let phase = match self.phase {
            Phase::Idle => self.count == 0,
            Phase::Active(start) => in_use && (1..=clock).contains(&start),
            Phase::Sealed(number) => in_use && self.count > 0 && (1..=clock).contains(&number),
            Phase::Published(end) => in_use && self.count > 0 && (2..=clock).contains(&end),
        };
        phase && self.count <= COPIES as u8 && self.slot <= (self.count > 0) as u8
    }

    /// Whether each copied record is below N and has the mark, which is struck out: a record that is copied twice
    /// finds none. Whether the other places have record 0; the bits of their words are gathered.
    fn strike(&self, n: usize, mark: u8, marks: &mut [u8; RECORDS], unused: &mut Words) -> bool {
        if self.count == 0 {
            self.words.iter().for_each(|words| gather(unused, words));
            return self.records == [0; COPIES];
        }
        let mut right = true;
        for (j, &record) in self.records.iter().enumerate() {
            if j >= self.count as usize {
                right &= record == 0;
                gather(unused, &self.words[j]);
            } else if let Some(found) = marks[..n].get_mut(record as usize) {
                right &= *found == mark;
                *found = UNMARKED;
            } else {
                return false;
            }
        }
        right
    }
}

fn gather(bits: &mut Words, words: &Words) {
    for (bits, word) in bits.iter_mut().zip(words) {
        *bits |= word;
    }
}

impl Desk {
    fn new(clock: u64, n: usize, m: usize) -> Desk {
        let (marks, sessions, order) = ([UNMARKED; RECORDS], [IDLE; SESSIONS], [0; SESSIONS]);
        Desk { clock, n, m, marks, sessions, active: 0, order }
    }

    /// The start of an active session; none of any other, and of a number that is no session.
    fn start(&self, session: u8) -> Option<u64> {
        match self.sessions.get(session as usize)?.phase {
            Phase::Active(start) => Some(start),
            _ => None,
        }
    }

    /// Puts a session that becomes active behind the others.
    fn join(&mut self, session: usize) {
        self.order[self.active] = session as u8;
        self.active += 1;
    }

    /// Takes a session that was active out of the list; those behind it move up.
    fn leave(&mut self, session: usize) {
        let listed = &mut self.order[..self.active];
        let place = listed.iter().position(|&other| other as usize == session).expect("listed");
        listed.copy_within(place + 1.., place);
        self.active -= 1;
        self.order[self.active] = 0;
    }

    /// The active session with the smallest start below an end, the lowest of them: it stands in the front run of
    /// equal starts.
    fn oldest_reader(&self, end: u64) -> Option<u8> {
        let listed = &self.order[..self.active];
        let first = self.start(*listed.first()?).filter(|&start| start < end)?;
        listed.iter().copied().take_while(|&session| self.start(session) == Some(first)).min()
    }

    /// Drops a session's marks and copies; it is idle.
    fn clear(&mut self, session: usize) {
        let own = &mut self.sessions[session];
        for &record in &own.records[..own.count as usize] {
            self.marks[record as usize] = UNMARKED;
        }
        *own = IDLE;
    }

    /// Whether the list has so many active sessions, each once, with starts that do not fall, and zero behind them.
    fn in_order(&self, active: usize) -> bool {
        if self.active != active {
            return false;
        }
        let (mut seen, mut last) = (0u16, 0);
        for &session in &self.order[..active] {
            match self.start(session) {
                Some(start) if start >= last => last = start,
                _ => return false,
            }
            seen |= 1 << session;
        }
        let unused = u128::from_le_bytes(self.order).unbounded_shr(8 * active as u32);
        seen.count_ones() as usize == active && unused == 0
    }

    /// Check 2 without the image's header: every rule, all marks, all sessions and the list.
    #[inline(never)]
    fn coherent(&self) -> bool {
        let clock = self.clock;
        if !(1..=L + 16).contains(&clock) || !in_range(self.n as u64, self.m as u64) {
            return false;
        }
        let (mut marks, mut unused, mut sealed, mut active) = (self.marks, [0; 4], 0, 0);
        for (s, entry) in self.sessions.iter().enumerate() {
            match entry.phase {
                Phase::Active(_) => active += 1,
                Phase::Sealed(_) => sealed += 1,
                _ => {}
            }
            if !entry.fits(clock, s < self.m) {
                return false;
            }
            if !entry.strike(self.n, mark_of(s), &mut marks, &mut unused) {
                return false;
            }
        }
        let left = marks.iter().fold(UNMARKED, |bits, mark| bits | mark);
        clock + sealed <= L + 16 && left == UNMARKED && unused == [0; 4] && self.in_order(active)
    }
}

// ---- the calls ------------------------------------------------------------

enum Answer<'a> {
    Ok,
    Start(u64),
    End(u64),
    Sealed(u64),
    Empty,
    Own(&'a Words),
    Copy(&'a Words),
    Home(&'a Words),
    Wait(usize),
    None,
    Held(u64),
    Cleared(u64),
    Cut,
}

/// An answer, or the number of a refusal.
type Reply<'a> = Result<Answer<'a>, u8>;

/// What a call takes besides a session.
#[derive(PartialEq, PartialOrd)]
enum Takes {
    Desk,
    Image,
    Trace,
}

struct Store<const CHECKS: bool> {
    image: Vec<u64>,
    desk: Desk,
    trace: Trace,
}

impl<const CHECKS: bool> Store<CHECKS> {
    fn new(words: usize) -> Self {
        let trace = Trace { words: vec![0; TRACE_WORDS], entries: 0 };
        Store { image: vec![0; words], desk: Desk::new(0, 0, 0), trace }
    }

    /// Checks 1 to 4, as far as they apply.
    #[inline(always)]
    fn enter(&mut self, takes: Takes, session: usize) -> Result<(), u8> {
        if takes == Takes::Trace {
            self.trace.entries = 0;
        }
        if CHECKS {
            if takes >= Takes::Image && !shaped(&self.image) {
                return Err(1);
            }
            if !self.desk.coherent() || (takes >= Takes::Image && !self.fits_header()) {
                return Err(2);
            }
            if takes == Takes::Trace && !self.trace.roomy() {
                return Err(3);
            }
        }
        if session < self.desk.m {
            Ok(())
        } else {
            Err(4)
        }
    }

    /// The part of check 2 that looks at the image's header.
    fn fits_header(&self) -> bool {
        let Desk { clock, n, m, .. } = self.desk;
        self.image[1] == n as u64 && self.image[2] == m as u64 && clock <= self.image[CEILING]
    }

    /// Stores a ceiling above the clock.
    fn raise(&mut self) {
        self.trace.store(&mut self.image, CEILING, self.desk.clock + AHEAD);
        self.trace.fence();
    }

    fn lay(&mut self, n: usize, m: usize) -> Reply<'static> {
        if !in_range(n as u64, m as u64) {
            return Err(14);
        }
        if CHECKS && self.image.len() != length(n, m) {
            return Err(1);
        }
        self.image.fill(0);
        self.image[..3].copy_from_slice(&[1, n as u64, m as u64]);
        Ok(Answer::Ok)
    }

    fn open(&mut self) -> Reply<'static> {
        self.desk = Desk::new(0, 0, 0);
        self.trace.entries = 0;
        if CHECKS && !shaped(&self.image) {
            return Err(1);
        }
        if CHECKS && !self.trace.roomy() {
            return Err(3);
        }
        let (n, m, ceiling) = (self.image[1] as usize, self.image[2] as usize, self.image[CEILING]);
        if oldest(&self.image, n, 0..2 * m).is_some() {
            return Err(11);
        }
        if ceiling >= L {
            return Err(10);
        }
        (self.desk.clock, self.desk.n, self.desk.m) = (ceiling + 1, n, m);
        self.raise();
        Ok(Answer::Ok)
    }

    fn begin(&mut self, session: usize) -> Reply<'static> {
        self.enter(Takes::Desk, session)?;
        let own = &mut self.desk.sessions[session];
        let Phase::Idle = own.phase else { return Err(6) };
        own.phase = Phase::Active(self.desk.clock);
        self.desk.join(session);
        Ok(Answer::Start(self.desk.clock))
    }

    fn publish(&mut self, session: usize) -> Reply<'static> {
        self.enter(Takes::Trace, session)?;
        let own = &mut self.desk.sessions[session];
        let Phase::Sealed(_) = own.phase else { return Err(6) };
        self.desk.clock += 1;
        own.phase = Phase::Published(self.desk.clock);
        if self.desk.clock > self.image[CEILING] {
            self.raise();
        }
        Ok(Answer::End(self.desk.clock))
    }

    fn abandon(&mut self, session: usize) -> Reply<'static> {
        self.enter(Takes::Desk, session)?;
        let Phase::Active(_) = self.desk.sessions[session].phase else { return Err(6) };
        self.desk.leave(session);
        self.desk.clear(session);
        Ok(Answer::Ok)
    }

    /// On a coherent desk the mark alone says whose copy there is.
    fn read(&mut self, session: usize, record: usize) -> Reply<'_> {
        self.enter(Takes::Image, session)?;
        let desk = &self.desk;
        if record >= desk.n {
            return Err(5);
        }
        let Phase::Active(start) = desk.sessions[session].phase else { return Err(6) };
        let mark = desk.marks[record];
        if mark != UNMARKED {
            let holder = &desk.sessions[mark as usize - 1];
            let words = &holder.words[holder.place_of(record)];
            if mark == mark_of(session) {
                return Ok(Answer::Own(words));
            }
            if matches!(holder.phase, Phase::Published(end) if end <= start) {
                return Ok(Answer::Copy(words));
            }
        }
        let home = self.image[home_at(record)..].first_chunk();
        Ok(Answer::Home(home.expect("four words")))
    }

    fn write(&mut self, session: usize, record: usize, words: &Words) -> Reply<'static> {
        self.enter(Takes::Image, session)?;
        let desk = &mut self.desk;
        if record >= desk.n {
            return Err(5);
        }
        let own = &mut desk.sessions[session];
        let Phase::Active(_) = own.phase else { return Err(6) };
        let (mark, count) = (desk.marks[record], own.count as usize);
        if mark == mark_of(session) {
            own.words[own.place_of(record)] = *words;
            return Ok(Answer::Ok);
        }
        if mark != UNMARKED {
            desk.leave(session);
            desk.clear(session);
            return Err(7);
        }
        if count == COPIES {
            return Err(8);
        }
        if count == 0 {
            let empty = |slot: &usize| persist(&self.image, desk.n, 2 * session + slot) == 0;
            own.slot = (0..2).find(empty).ok_or(9)? as u8;
        }
        desk.marks[record] = mark_of(session);
        (own.records[count], own.words[count]) = (record as u16, *words);
        own.count += 1;
        Ok(Answer::Ok)
    }

    fn finish(&mut self, session: usize) -> Reply<'static> {
        self.enter(Takes::Trace, session)?;
        let Desk { clock, n, ref mut sessions, .. } = self.desk;
        let own = &mut sessions[session];
        let Phase::Active(_) = own.phase else { return Err(6) };
        if own.count == 0 {
            own.phase = Phase::Idle;
            self.desk.leave(session);
            return Ok(Answer::Empty);
        }
        if clock >= L {
            return Err(10);
        }
        let (image, trace) = (&mut self.image, &mut self.trace);
        let at = slot_at(n, 2 * session + own.slot as usize);
        let (k, pairs) = own.changes(image);
        if 2 * k < 5 * own.count as usize {
            trace.store(image, at + 1, SHORT + k as u64);
            trace.store_all(image, at + 2, pairs[..k].as_flattened());
        } else {
            trace.store(image, at + 1, own.count as u64);
            for (j, (record, words)) in own.copies().enumerate() {
                trace.store(image, at + 2 + 5 * j, record as u64);
                trace.store_all(image, at + 3 + 5 * j, words);
            }
        }
        trace.fence();
        trace.store(image, at, clock);
        trace.fence();
        own.phase = Phase::Sealed(clock);
        self.desk.leave(session);
        Ok(Answer::Sealed(clock))
    }

    fn settle(&mut self, session: usize) -> Reply<'static> {
        self.enter(Takes::Trace, session)?;
        let desk = &mut self.desk;
        let Phase::Published(end) = desk.sessions[session].phase else { return Err(6) };
        if let Some(reader) = desk.oldest_reader(end) {
            return Ok(Answer::Wait(reader as usize));
        }
        for (record, words) in desk.sessions[session].copies() {
            self.trace.store_all(&mut self.image, home_at(record), words);
        }
        self.trace.fence();
        desk.clear(session);
        Ok(Answer::Ok)
    }

    fn reclaim(&mut self, session: usize) -> Reply<'static> {
        self.enter(Takes::Trace, session)?;
        let (n, m, image) = (self.desk.n, self.desk.m, &mut self.image);
        let own = &self.desk.sessions[session];
        let in_use = matches!(own.phase, Phase::Sealed(_) | Phase::Published(_));
        let slots = (0..2).filter(|&slot| !in_use || slot != own.slot as usize);
        let Some((number, place)) = oldest(image, n, slots.map(|slot| 2 * session + slot)) else {
            return Ok(Answer::None);
        };
        match oldest(image, n, 0..2 * m) {
            Some((smallest, _)) if smallest < number => Ok(Answer::Held(smallest)),
            _ => {
                self.trace.store(image, slot_at(n, place), 0);
                self.trace.fence();
                Ok(Answer::Cleared(number))
            }
        }
    }

    /// Replays the oldest log and gives its persist number; none if all slots are empty.
    fn recover(&mut self) -> Result<Option<u64>, u8> {
        if CHECKS && !shaped(&self.image) {
            return Err(1);
        }
        if CHECKS && !self.trace.roomy() {
            return Err(3);
        }
        let (image, trace) = (&mut self.image, &mut self.trace);
        let (n, m) = (image[1] as usize, image[2] as usize);
        check_logs(&image[slot_at(n, 0)..slot_at(n, 2 * m)], n)?;
        trace.entries = 0;
        let Some((number, place)) = oldest(image, n, 0..2 * m) else { return Ok(None) };
        let at = slot_at(n, place);
        let slot: [u64; SLOT_WORDS] = *image[at..].first_chunk().expect("a slot");
        for copy in log_copies(&slot) {
            trace.store_all(image, home_at(copy[0] as usize), &copy[1..]);
        }
        for &[index, word] in log_pairs(&slot) {
            trace.store(image, home_at(0) + index as usize, word);
        }
        trace.fence();
        trace.store(image, at, 0);
        trace.fence();
        Ok(Some(number))
    }
}

/// Checks 12 and 13 over all slots.
fn check_logs(slots: &[u64], n: usize) -> Result<(), u8> {
    let logs = || slots.chunks_exact(SLOT_WORDS).filter(|slot| slot[0] != 0);
    if logs().any(|slot| !sound_log(slot, n)) {
        return Err(12);
    }
    let odd = |(i, slot): (usize, &[u64])| logs().take(i).any(|earlier| at_odds(earlier, slot));
    if logs().enumerate().any(odd) {
        Err(13)
    } else {
        Ok(())
    }
}

// ---- lines ----------------------------------------------------------------

const LINE_ROOM: usize = 256;

const EIGHT_DIGITS: u64 = 100_000_000;

/// Eight decimal digits of a number below 10^8, the first in the lowest byte: halves, quarters, then digits are parted
/// in lanes of one word, each quotient before its rest.
fn eight_digits(number: u64) -> u64 {
    let halves = (number / 10_000) | ((number % 10_000) << 32);
    let hundreds = ((halves * 10_486) >> 20) & 0x7f_0000_007f;
    let pairs = hundreds | ((halves - 100 * hundreds) << 16);
    let tens = ((pairs * 103) >> 10) & 0x000f_000f_000f_000f;
    (tens | ((pairs - 10 * tens) << 8)) + 0x3030_3030_3030_3030
}

/// Lines not yet written.
struct Lines<W: Write> {
    buf: Vec<u8>,
    at: usize,
    output: W,
}

impl<W: Write> Lines<W> {
    fn new(output: W) -> Self {
        Lines { buf: vec![0; BUFFER], at: 0, output }
    }

    fn flush(&mut self) -> io::Result<()> {
        self.output.write_all(&self.buf[..self.at])?;
        self.at = 0;
        Ok(())
    }

    #[inline(always)]
    fn text<const K: usize>(&mut self, text: &[u8; K]) {
        self.buf[self.at..self.at + K].copy_from_slice(text);
        self.at += K;
    }

    #[inline(always)]
    fn number(&mut self, number: u64) {
        if number < 10 {
            self.text(&[b'0' + number as u8]);
        } else {
            self.long_number(number);
        }
    }

    #[inline(never)]
    fn long_number(&mut self, number: u64) {
        if number < EIGHT_DIGITS {
            self.first_digits(number);
        } else if number < EIGHT_DIGITS * EIGHT_DIGITS {
            self.first_digits(number / EIGHT_DIGITS);
            self.text(&eight_digits(number % EIGHT_DIGITS).to_le_bytes());
        } else {
            let low = number % (EIGHT_DIGITS * EIGHT_DIGITS);
            self.first_digits(number / (EIGHT_DIGITS * EIGHT_DIGITS));
            self.text(&eight_digits(low / EIGHT_DIGITS).to_le_bytes());
            self.text(&eight_digits(low % EIGHT_DIGITS).to_le_bytes());
        }
    }

    /// A number from 1 to 10^8 - 1 without leading zeros. The bytes put behind it are overwritten.
    fn first_digits(&mut self, number: u64) {
        let digits = eight_digits(number);
        let zeros = (digits & 0x0f0f_0f0f_0f0f_0f0f).trailing_zeros() / 8;
        self.text(&(digits >> (8 * zeros)).to_le_bytes());
        self.at -= zeros as usize;
    }

    fn told<const K: usize>(&mut self, name: &[u8; K], number: u64) {
        self.text(name);
        self.number(number);
    }

    fn words<const K: usize>(&mut self, words: &Words, source: &[u8; K]) {
        for &word in words {
            self.told(b" ", word);
        }
        self.text(source);
    }

    fn reply(&mut self, reply: Reply) {
        match reply {
            Err(refusal) => self.told(b" no ", refusal as u64),
            Ok(Answer::Ok) => self.text(b" ok"),
            Ok(Answer::Start(number)) => self.told(b" start ", number),
            Ok(Answer::End(number)) => self.told(b" end ", number),
            Ok(Answer::Sealed(number)) => self.told(b" sealed ", number),
            Ok(Answer::Empty) => self.text(b" empty"),
            Ok(Answer::Own(words)) => self.words(words, b" own"),
            Ok(Answer::Copy(words)) => self.words(words, b" copy"),
            Ok(Answer::Home(words)) => self.words(words, b" home"),
            Ok(Answer::Wait(session)) => self.told(b" wait ", session as u64),
            Ok(Answer::None) => self.text(b" none"),
            Ok(Answer::Held(number)) => self.told(b" held ", number),
            Ok(Answer::Cleared(number)) => self.told(b" cleared ", number),
            Ok(Answer::Cut) => self.text(b" cut"),
        }
    }

    /// The start of a line, once there is room for all of it.
    #[inline(always)]
    fn head<const K: usize, const A: usize>(
        &mut self,
        step: u64,
        name: &[u8; K],
        arguments: [u64; A],
    ) -> io::Result<()> {
        if self.buf.len() - self.at < LINE_ROOM {
            self.flush()?;
        }
        self.number(step);
        self.text(name);
        for argument in arguments {
            self.told(b" ", argument);
        }
        Ok(())
    }

    #[inline(always)]
    fn line<const K: usize, const A: usize>(
        &mut self,
        step: u64,
        name: &[u8; K],
        arguments: [u64; A],
        reply: Reply,
    ) -> io::Result<()> {
        self.head(step, name, arguments)?;
        self.reply(reply);
        self.text(b"\n");
        Ok(())
    }

    fn line_without_reply<const K: usize, const A: usize>(
        &mut self,
        step: u64,
        name: &[u8; K],
        arguments: [u64; A],
    ) -> io::Result<()> {
        self.head(step, name, arguments)?;
        self.text(b"\n");
        Ok(())
    }
}

// ---- steps ----------------------------------------------------------------

const BUFFER: usize = 1 << 16;
const BODIES: [usize; 10] = [2, 1, 2, 34, 1, 1, 1, 1, 1, 1];
const LONGEST_STEP: usize = 35;

/// Input held and not yet taken: buf[at..have].
struct Steps<R: Read> {
    buf: Vec<u8>,
    at: usize,
    have: usize,
    ended: bool,
    input: R,
}

impl<R: Read> Steps<R> {
    fn new(input: R) -> Self {
        Steps { buf: vec![0; BUFFER], at: 0, have: 0, ended: false, input }
    }

    /// Reads until a whole step is held or the input has ended.
    #[cold]
    fn fill(&mut self) -> io::Result<()> {
        self.buf.copy_within(self.at..self.have, 0);
        (self.at, self.have) = (0, self.have - self.at);
        while !self.ended && self.have < LONGEST_STEP {
            match self.input.read(&mut self.buf[self.have..]) {
                Ok(count) => {
                    self.have += count;
                    self.ended = count == 0;
                }
                Err(fault) if fault.kind() == ErrorKind::Interrupted => {}
                Err(fault) => return Err(fault),
            }
        }
        Ok(())
    }

    /// The next step's kind and body, which is short where the input ends in it; none at the end.
    fn next(&mut self) -> io::Result<Option<&[u8]>> {
        if self.have - self.at < LONGEST_STEP && !self.ended {
            self.fill()?;
        }
        let held = &self.buf[self.at..self.have];
        let Some(&kind) = held.first() else { return Ok(None) };
        let size = 1 + BODIES.get(kind as usize).copied().unwrap_or(0);
        let step = &held[..size.min(held.len())];
        self.at += step.len();
        Ok(Some(step))
    }
}

/// Four words, lowest byte first.
fn words_of(bytes: &[u8; 32]) -> Words {
    let mut words = [0; 4];
    for (word, bytes) in words.iter_mut().zip(bytes.chunks_exact(8)) {
        *word = u64::from_le_bytes(bytes.try_into().expect("eight bytes"));
    }
    words
}

// ---- the program ----------------------------------------------------------

/// The store and what the program keeps besides: steps so far, a cut to come, room for the image before a cut.
struct Walk<const CHECKS: bool> {
    store: Store<CHECKS>,
    number: u64,
    cut: Option<u8>,
    before: Vec<u64>,
}

impl<const CHECKS: bool> Walk<CHECKS> {
    fn new() -> Self {
        Walk { store: Store::new(0), number: 0, cut: None, before: Vec::new() }
    }

    /// Makes one step and puts its lines; whether the run goes on.
    fn step<W: Write>(&mut self, step: &[u8], out: &mut Lines<W>) -> io::Result<bool> {
        self.number += 1;
        let (i, store) = (self.number, &mut self.store);
        if i == 1 {
            return self.first(step, out);
        }
        match *step {
            [1, s] => out.line(i, b" begin", [s.into()], store.begin(s.into()))?,
            [2, s, r] => {
                let reply = store.read(s.into(), r.into());
                out.line(i, b" read", [s.into(), r.into()], reply)?
            }
            [3, s, r, ref body @ ..] if body.len() == 32 => {
                let words = words_of(body.try_into().expect("32 bytes"));
                let reply = store.write(s.into(), r.into(), &words);
                out.line(i, b" write", [s.into(), r.into()], reply)?
            }
            [4, s] => self.storing(b" finish", s, Store::finish, out)?,
            [5, s] => self.storing(b" publish", s, Store::publish, out)?,
            [6, s] => self.storing(b" settle", s, Store::settle, out)?,
            [7, s] => self.storing(b" reclaim", s, Store::reclaim, out)?,
            [8, s] => out.line(i, b" abandon", [s.into()], store.abandon(s.into()))?,
            [9, k] => {
                self.cut = Some(k);
                out.line_without_reply(i, b" cut", [k.into()])?
            }
            _ => return self.bad(out),
        }
        Ok(true)
    }

    fn bad<W: Write>(&self, out: &mut Lines<W>) -> io::Result<bool> {
        out.line_without_reply(self.number, b" bad", [])?;
        Ok(false)
    }

    /// Step 0: lays the image and opens it. Refused, it ends the run.
    fn first<W: Write>(&mut self, step: &[u8], out: &mut Lines<W>) -> io::Result<bool> {
        let [0, n, m] = *step else { return self.bad(out) };
        let (n, m) = (if n == 0 { RECORDS } else { n as usize }, m as usize);
        let fits = in_range(n as u64, m as u64);
        self.store = Store::new(if fits { length(n, m) } else { 0 });
        let laid = self.store.lay(n, m).and_then(|_| self.store.open());
        let goes_on = laid.is_ok();
        out.line(self.number, b" lay", [n as u64, m as u64], laid)?;
        Ok(goes_on)
    }

    /// A step that may store; with a cut to come, only the first entries arrive and the desk is lost.
    #[inline(always)]
    fn storing<const K: usize, W: Write>(
        &mut self,
        name: &[u8; K],
        session: u8,
        call: impl Fn(&mut Store<CHECKS>, usize) -> Reply<'static>,
        out: &mut Lines<W>,
    ) -> io::Result<()> {
        let session = session as usize;
        let Some(k) = self.cut.take() else {
            return out.line(self.number, name, [session as u64], call(&mut self.store, session));
        };
        self.before.clone_from(&self.store.image);
        let reply = call(&mut self.store, session);
        let Store { image, trace, .. } = &mut self.store;
        image.copy_from_slice(&self.before);
        trace.arrive(image, k.into());
        let shown = if trace.entries == 0 { reply } else { Ok(Answer::Cut) };
        out.line(self.number, name, [session as u64], shown)?;
        self.reopen(out)
    }

    fn reopen<W: Write>(&mut self, out: &mut Lines<W>) -> io::Result<()> {
        while let Ok(Some(number)) = self.store.recover() {
            out.line_without_reply(self.number, b" replayed", [number])?;
        }
        let _ = self.store.open();
        out.line_without_reply(self.number, b" open", [])
    }
}

/// The black box hides from the compiler what the store holds between steps, so that no check can be left out.
fn run<const CHECKS: bool>(input: impl Read, output: impl Write) -> io::Result<()> {
    let (mut steps, mut out) = (Steps::new(input), Lines::new(output));
    let mut walk = Walk::<CHECKS>::new();
    while let Some(step) = steps.next()? {
        if !black_box(&mut walk).step(step, &mut out)? {
            break;
        }
    }
    out.flush()
}

fn main() {
    let way = std::env::args().nth(1);
    let (input, output) = (io::stdin().lock(), io::stdout().lock());
    let done = match way.as_deref() {
        Some("checks") => run::<true>(input, output),
        Some("trust") => run::<false>(input, output),
        _ => {
            eprintln!("baseline checks|trust < steps");
            std::process::exit(2)
        }
    };
    if let Err(fault) = done {
        eprintln!("baseline: {fault}");
        std::process::exit(1);
    }
}

#[cfg(test)]
mod tests {
    use super::*;

    fn word(session: usize) -> Words {
        [session as u64 + 1; 4]
    }

    /// N 12, M 6: sessions active without copies, active, sealed, published, idle, idle; clock 9.
    fn busy() -> Store<true> {
        let mut store = Store::new(length(12, 6));
        store.lay(12, 6).and_then(|_| store.open()).expect("laid");
        store.desk.clock = 7;
        for session in 0..4 {
            store.begin(session).expect("begun");
        }
        for (session, record) in [(1, 4), (1, 0), (2, 6), (2, 7), (2, 8), (2, 11), (3, 9)] {
            store.write(session, record, &word(session)).expect("written");
        }
        store.finish(2).expect("sealed");
        store.finish(3).expect("sealed");
        store.publish(3).expect("published");
        store.desk.clock = 9;
        store
    }

    fn refusal(reply: Reply) -> u8 {
        reply.err().unwrap_or(0)
    }

    /// Lists these sessions, in this order.
    fn list(desk: &mut Desk, sessions: &[u8]) {
        (desk.active, desk.order) = (sessions.len(), [0; SESSIONS]);
        desk.order[..sessions.len()].copy_from_slice(sessions);
    }

    /// The sessions that are listed; the places behind them are zero.
    fn listed(desk: &Desk) -> &[u8] {
        let (listed, unused) = desk.order.split_at(desk.active);
        assert!(unused.iter().all(|&session| session == 0));
        listed
    }

    /// Puts a session into a phase and lists these.
    fn put(desk: &mut Desk, session: usize, phase: Phase, sessions: &[u8]) {
        desk.sessions[session].phase = phase;
        list(desk, sessions);
    }

    fn coherent_after(edit: impl Fn(&mut Desk)) -> bool {
        let mut desk = busy().desk;
        edit(&mut desk);
        desk.coherent()
    }

    type Edit = (&'static str, fn(&mut Desk));

    fn all_give(wanted: bool, edits: &[Edit]) {
        for (name, edit) in edits {
            assert_eq!(coherent_after(edit), wanted, "{name}");
        }
    }

    #[test]
    fn desks_that_are_coherent() {
        all_give(
            true,
            &[
                ("as it is", |_| {}),
                ("clock and sealed at the most", |d| d.clock = L + 15),
                ("start at the clock", |d| put(d, 0, Phase::Active(9), &[1, 0])),
                ("start 1", |d| d.sessions[0].phase = Phase::Active(1)),
                ("end 2", |d| d.sessions[3].phase = Phase::Published(2)),
                ("slot 1", |d| d.sessions[1].slot = 1),
                ("N larger", |d| d.n = 256),
                ("M larger", |d| d.m = 16),
                ("M as small as it can be", |d| d.m = 4),
            ],
        );
    }

    #[test]
    fn clock_and_sizes() {
        all_give(
            false,
            &[
                ("clock 0", |d| *d = Desk::new(0, 12, 6)),
                ("clock and sealed over L + 16", |d| d.clock = L + 16),
                ("clock over L + 16", |d| *d = Desk::new(L + 17, 12, 6)),
                ("largest clock", |d| d.clock = u64::MAX),
                ("N 0", |d| *d = Desk::new(1, 0, 6)),
                ("N 257", |d| d.n = 257),
                ("M 0", |d| *d = Desk::new(1, 12, 0)),
                ("M 17", |d| d.m = 17),
            ],
        );
    }

    #[test]
    fn counts_and_numbers() {
        all_give(
            false,
            &[
                ("idle with a copy", |d| put(d, 1, Phase::Idle, &[0])),
                ("idle with a count", |d| d.sessions[4].count = 1),
                ("sealed without copies", |d| put(d, 0, Phase::Sealed(7), &[1])),
                ("published without copies", |d| put(d, 0, Phase::Published(7), &[1])),
                ("five copies", |d| d.sessions[2].count = 5),
                ("start 0", |d| d.sessions[0].phase = Phase::Active(0)),
                ("start over the clock", |d| put(d, 0, Phase::Active(10), &[1, 0])),
                ("persist number 0", |d| d.sessions[2].phase = Phase::Sealed(0)),
                ("persist number over the clock", |d| d.sessions[2].phase = Phase::Sealed(10)),
                ("end 1", |d| d.sessions[3].phase = Phase::Published(1)),
                ("end over the clock", |d| d.sessions[3].phase = Phase::Published(10)),
            ],
        );
    }

    #[test]
    fn slots_and_unused_places() {
        all_give(
            false,
            &[
                ("slot 2", |d| d.sessions[1].slot = 2),
                ("active without copies, slot 1", |d| d.sessions[0].slot = 1),
                ("idle, slot 1", |d| d.sessions[4].slot = 1),
                ("idle, a record", |d| d.sessions[4].records[3] = 1),
                ("idle, a word", |d| d.sessions[5].words[0][0] = 1),
                ("idle past M, a word", |d| d.sessions[15].words[3][3] = 1),
                ("active, an unused record", |d| d.sessions[1].records[2] = 5),
                ("active, an unused word", |d| d.sessions[1].words[2][0] = 5),
                ("active without copies, a word", |d| d.sessions[0].words[3][3] = 5),
                ("published, an unused word", |d| d.sessions[3].words[1][2] = 5),
            ],
        );
    }

    #[test]
    fn records_and_marks() {
        all_give(
            false,
            &[
                ("record at N", |d| d.n = 11),
                ("record over all marks", |d| d.sessions[3].records[0] = 256),
                ("a record twice in a session", |d| d.sessions[1].records[1] = 4),
                ("a record of two sessions", |d| (d.sessions[3].records[0], d.marks[9]) = (4, 0)),
                ("a copy without its mark", |d| d.marks[4] = 0),
                ("a copy marked for another", |d| d.marks[4] = 3),
                ("a mark without a copy", |d| d.marks[5] = 2),
                ("a mark of no session", |d| d.marks[5] = 200),
                ("a mark at N", |d| d.marks[12] = 1),
                ("the last mark", |d| d.marks[255] = 1),
                ("active from M up", |d| put(d, 6, Phase::Active(1), &[6, 0, 1])),
                ("active, last", |d| put(d, 15, Phase::Active(1), &[15, 0, 1])),
                ("published from M up", |d| d.m = 3),
                ("sealed from M up", |d| {
                    (d.sessions[3], d.sessions[6]) = (IDLE, d.sessions[3]);
                    (d.sessions[6].phase, d.marks[9]) = (Phase::Sealed(7), 7);
                }),
            ],
        );
    }

    #[test]
    fn every_single_mark_counts() {
        for record in 0..RECORDS {
            let change = |d: &mut Desk| d.marks[record] = if d.marks[record] == 0 { 1 } else { 0 };
            assert!(!coherent_after(change), "mark {record}");
        }
    }

    #[test]
    fn lists_that_are_coherent() {
        all_give(
            true,
            &[
                ("equal starts the other way round", |d| list(d, &[1, 0])),
                ("a smaller start in front", |d| put(d, 0, Phase::Active(6), &[0, 1])),
                ("a smaller start of a higher session in front", |d| put(d, 1, Phase::Active(6), &[1, 0])),
                ("one more behind", |d| put(d, 5, Phase::Active(8), &[1, 0, 5])),
                ("one more among equals", |d| put(d, 5, Phase::Active(7), &[1, 5, 0])),
                ("nobody", |d| *d = Desk::new(1, 12, 6)),
                ("all sixteen", |d| {
                    *d = Desk::new(1, 12, 16);
                    d.sessions.iter_mut().for_each(|entry| entry.phase = Phase::Active(1));
                    list(d, &[7, 6, 5, 4, 3, 2, 1, 0, 15, 14, 13, 12, 11, 10, 9, 8]);
                }),
            ],
        );
    }

    #[test]
    fn lists_that_are_not() {
        all_give(
            false,
            &[
                ("an active session is missing", |d| list(d, &[0])),
                ("session 0 is missing", |d| list(d, &[1])),
                ("all are missing", |d| list(d, &[])),
                ("one twice", |d| list(d, &[1, 1])),
                ("session 0 twice", |d| list(d, &[0, 0])),
                ("one twice, behind all", |d| list(d, &[0, 1, 1])),
                ("one twice, with three active", |d| put(d, 5, Phase::Active(7), &[0, 1, 0])),
                ("a sealed one", |d| list(d, &[0, 2])),
                ("a sealed one, behind all", |d| list(d, &[0, 1, 2])),
                ("a published one", |d| list(d, &[0, 3])),
                ("an idle one", |d| list(d, &[0, 4])),
                ("an idle one past M", |d| list(d, &[0, 15])),
                ("no session", |d| list(d, &[0, 16])),
                ("the largest byte", |d| list(d, &[255, 1])),
                ("starts that fall", |d| put(d, 0, Phase::Active(8), &[0, 1])),
                ("starts that fall to a lower session", |d| put(d, 1, Phase::Active(8), &[1, 0])),
                ("starts that fall at the end", |d| put(d, 5, Phase::Active(6), &[0, 1, 5])),
                ("more in use than are active", |d| d.active = 3),
                ("fewer in use than are active", |d| d.active = 1),
                ("more in use than there are places", |d| d.active = 17),
            ],
        );
    }

    #[test]
    fn every_single_place_counts() {
        let right = busy().desk.order;
        for (place, session) in (0..SESSIONS).flat_map(|place| (0..=255).map(move |session| (place, session))) {
            let same = right[place] == session;
            assert_eq!(coherent_after(|d| d.order[place] = session), same, "place {place}: {session}");
        }
    }

    #[test]
    fn begin_adds_and_ends_remove() {
        let mut store = busy();
        assert_eq!(listed(&store.desk), [0, 1], "behind two finishes and a publish");
        for session in [5, 4] {
            store.begin(session).expect("begun");
        }
        assert_eq!(listed(&store.desk), [0, 1, 5, 4]);
        assert_eq!([refusal(store.begin(5)), refusal(store.abandon(2)), refusal(store.finish(3))], [6; 3]);
        assert_eq!(listed(&store.desk), [0, 1, 5, 4], "behind refusals");
        store.abandon(1).expect("abandoned");
        assert_eq!(listed(&store.desk), [0, 5, 4]);
        store.finish(0).expect("empty");
        assert_eq!(listed(&store.desk), [5, 4], "behind an empty finish");
        store.begin(0).expect("begun");
        store.write(5, 4, &word(5)).expect("written");
        assert_eq!(refusal(store.write(4, 4, &word(4))), 7);
        assert_eq!(listed(&store.desk), [5, 0], "behind a write refused with 7");
        store.finish(5).expect("sealed");
        assert_eq!(listed(&store.desk), [0], "behind a sealing");
        store.publish(5).expect("published");
        store.abandon(0).expect("abandoned");
        store.settle(5).expect("settled");
        store.reclaim(5).expect("answered");
        assert_eq!(listed(&store.desk), [0u8; 0]);
        assert!(store.desk.coherent());
    }

    #[test]
    fn other_refusals_leave_the_list() {
        let mut store = busy();
        store.desk.clock = L;
        store.image[CEILING] = L;
        assert_eq!(refusal(store.finish(1)), 10);
        store.desk.clock = 9;
        for record in [1, 2] {
            store.write(1, record, &word(1)).expect("written");
        }
        assert_eq!([refusal(store.write(1, 3, &word(1))), refusal(store.write(1, 12, &word(1)))], [8, 5]);
        (store.image[slot_at(12, 0)], store.image[slot_at(12, 1)]) = (3, 4);
        assert_eq!(refusal(store.write(0, 3, &word(0))), 9);
        assert_eq!(listed(&store.desk), [0, 1]);
        assert_eq!(refusal(store.open()), 11);
        assert_eq!(listed(&store.desk), [0u8; 0], "behind an open, refused too");
    }

    #[test]
    fn all_sixteen_begin_and_end_in_any_order() {
        for (step, back) in [(1, 1), (3, 5), (5, 11), (7, 15), (15, 3), (9, 9)] {
            let mut store = Store::<true>::new(length(1, 16));
            store.lay(1, 16).and_then(|_| store.open()).expect("laid");
            let mut wanted: Vec<u8> = (0..16).map(|i| i * step % 16).collect();
            for &session in &wanted {
                store.begin(session.into()).expect("begun");
            }
            assert_eq!(listed(&store.desk), wanted);
            for session in (0..16).map(|i| i * back % 16) {
                store.abandon(session.into()).expect("abandoned");
                wanted.retain(|&other| other != session);
                assert_eq!(listed(&store.desk), wanted);
                assert!(store.desk.coherent());
            }
        }
    }

    type Call<const CHECKS: bool> = fn(&mut Store<CHECKS>) -> u8;

    /// Every session call with arguments that no later check refuses: those with a trace, then those with an
    /// image alone, then those with neither.
    fn calls<const CHECKS: bool>() -> [Call<CHECKS>; 8] {
        [
            |store| refusal(store.finish(1)),
            |store| refusal(store.settle(3)),
            |store| refusal(store.reclaim(3)),
            |store| refusal(store.publish(2)),
            |store| refusal(store.read(1, 4)),
            |store| refusal(store.write(1, 5, &[0; 4])),
            |store| refusal(store.begin(4)),
            |store| refusal(store.abandon(1)),
        ]
    }

    fn refusals(edit: impl Fn(&mut Store<true>)) -> [u8; 8] {
        calls().map(|call| {
            let mut store = busy();
            edit(&mut store);
            call(&mut store)
        })
    }

    #[test]
    fn checks_1_to_3_of_every_call() {
        assert_eq!(refusals(|_| {}), [0; 8]);
        let image = [1, 1, 1, 1, 1, 1, 0, 0];
        assert_eq!(refusals(|store| store.image.truncate(315)), image);
        assert_eq!(refusals(|store| store.image.push(0)), image);
        assert_eq!(refusals(|store| store.image.clear()), image);
        assert_eq!(refusals(|store| store.image[0] = 2), image);
        assert_eq!(refusals(|store| store.image[1] = 257), image);
        assert_eq!(refusals(|store| store.image[2] = 0), image);
        for (n, m) in [(0, 6), (257, 6), (12, 0), (12, 17)] {
            assert_eq!(
                refusals(|store| {
                    store.image.resize(length(n, m), 0);
                    store.image[1..3].copy_from_slice(&[n as u64, m as u64]);
                }),
                image
            );
        }
        assert_eq!(refusals(|store| store.desk.marks[5] = 1), [2; 8]);
        assert_eq!(refusals(|store| list(&mut store.desk, &[1])), [2; 8]);
        let header = [2, 2, 2, 2, 2, 2, 0, 0];
        assert_eq!(refusals(|store| store.desk.n = 13), header);
        assert_eq!(refusals(|store| store.desk.m = 7), header);
        assert_eq!(refusals(|store| store.image[CEILING] = 8), header);
        assert_eq!(refusals(|store| store.image[CEILING] = 9), [0; 8]);
        assert_eq!(refusals(|store| store.trace.words.truncate(47)), [3, 3, 3, 3, 0, 0, 0, 0]);
    }

    #[test]
    fn lowest_number_first() {
        let mut store = busy();
        assert_eq!(refusal(store.read(6, 12)), 4);
        assert_eq!(refusal(store.read(4, 12)), 5);
        assert_eq!([refusal(store.publish(6)), refusal(store.publish(4))], [4, 6]);
        store.trace.words.truncate(47);
        assert_eq!([refusal(store.finish(6)), refusal(store.publish(6))], [3; 2]);
        store.desk.marks[5] = 1;
        assert_eq!([refusal(store.finish(6)), refusal(store.publish(6))], [2; 2]);
        store.image[0] = 0;
        assert_eq!([refusal(store.finish(6)), refusal(store.publish(6)), refusal(store.open())], [1; 3]);
        assert_eq!(store.recover(), Err(1));
    }

    /// The session that the settle of session 3, whose end is 8, waits for, with these sessions listed.
    fn waits_for(starts: &[(u8, u64)]) -> Option<usize> {
        let mut store = busy();
        for session in [0, 1] {
            store.abandon(session).expect("abandoned");
        }
        for &(session, start) in starts {
            store.desk.sessions[session as usize].phase = Phase::Active(start);
        }
        list(&mut store.desk, &starts.iter().map(|&(session, _)| session).collect::<Vec<_>>());
        match store.settle(3) {
            Ok(Answer::Wait(reader)) => Some(reader),
            Ok(Answer::Ok) => None,
            _ => panic!("refused"),
        }
    }

    #[test]
    fn settle_names_the_oldest_reader() {
        assert_eq!(waits_for(&[(0, 7), (1, 7)]), Some(0), "equal starts");
        assert_eq!(waits_for(&[(1, 6), (0, 7)]), Some(1), "a higher session with a smaller start");
        assert_eq!(waits_for(&[(5, 5), (4, 5), (0, 7), (1, 7)]), Some(4), "equal starts behind a lower session");
        assert_eq!(waits_for(&[(1, 7), (0, 8)]), Some(1), "a start equal to the end, and one below it");
        assert_eq!(waits_for(&[(0, 8), (1, 8)]), None, "starts equal to the end");
        assert_eq!(waits_for(&[(5, 7)]), Some(5), "an unused place is not session 0");
        assert_eq!(waits_for(&[]), None, "nobody");
    }

    /// Calls a function with every list of some of these sessions that has starts 6 to 8 which do not fall.
    fn every_list(starts: &mut Vec<(u8, u64)>, left: &[u8], call: &mut impl FnMut(&[(u8, u64)])) {
        call(starts);
        for &session in left {
            let rest: Vec<u8> = left.iter().copied().filter(|&other| other != session).collect();
            for start in starts.last().map_or(6, |&(_, start)| start)..=8 {
                starts.push((session, start));
                every_list(starts, &rest, call);
                starts.pop();
            }
        }
    }

    #[test]
    fn settle_answers_as_the_walk_over_all_sessions() {
        let mut lists = 0;
        every_list(&mut Vec::new(), &[0, 1, 4, 5], &mut |starts| {
            let below = starts.iter().filter(|&&(_, start)| start < 8);
            let oldest = below.min_by_key(|&&(session, start)| (start, session));
            assert_eq!(waits_for(starts), oldest.map(|&(session, _)| session as usize), "{starts:?}");
            lists += 1;
        });
        assert_eq!(lists, 1 + 4 * 3 + 12 * 6 + 24 * 10 + 24 * 15);
    }

    #[test]
    fn trust_leaves_out_checks_1_to_3_alone() {
        for call in calls() {
            let Store { image, desk, trace } = busy();
            let mut store = Store::<false> { image, desk, trace };
            store.image[0] = 2;
            store.desk.sessions[15].phase = Phase::Active(100);
            store.trace.words.truncate(47);
            assert_eq!(call(&mut store), 0);
            assert_eq!(refusal(store.begin(6)), 4);
        }
    }

    #[test]
    fn recover_and_open_check() {
        let mut store = busy();
        assert_eq!(refusal(store.open()), 11);
        let (four, one) = (slot_at(12, 4), slot_at(12, 6));
        let faults = [(four + 1, 0, 12), (four + 1, 5, 12), (four + 2, 12, 12), (four + 7, 6, 12), (one + 2, 6, 13)];
        for (index, wrong, refused) in faults {
            let kept = std::mem::replace(&mut store.image[index], wrong);
            assert_eq!(store.recover(), Err(refused));
            store.image[index] = kept;
        }
        store.trace.words.truncate(47);
        assert_eq!(store.recover(), Err(3));
        assert_eq!(refusal(store.open()), 3);
        store.trace.words.push(0);
        assert_eq!([(); 3].map(|_| store.recover()), [Ok(Some(7)), Ok(Some(7)), Ok(None)]);
    }

    fn entries<const CHECKS: bool>(store: &Store<CHECKS>) -> &[u64] {
        &store.trace.words[..2 * store.trace.entries]
    }

    /// N 12, M 2, home words 100 to 147, clock 5: session 1 is active with copies of these records, as at home.
    fn editing(records: &[usize]) -> Store<true> {
        let mut store = Store::new(length(12, 2));
        store.lay(12, 2).and_then(|_| store.open()).expect("laid");
        store.image[4..52].iter_mut().zip(100..).for_each(|(home, word)| *home = word);
        store.desk.clock = 5;
        store.begin(1).expect("begun");
        for &record in records {
            let home = *store.image[home_at(record)..].first_chunk().expect("four words");
            store.write(1, record, &home).expect("written");
        }
        store
    }

    #[test]
    fn the_form_of_every_count() {
        for (c, k) in (1..=COPIES).flat_map(|c| (0..=4 * c).map(move |k| (c, k))) {
            let mut store = editing(&[9, 7, 11, 0][..c]);
            for j in 0..k {
                store.desk.sessions[1].words[j % c][j / c] += 1000;
            }
            let (before, wanted) = (store.image.clone(), store.desk.sessions[1].words);
            store.finish(1).expect("sealed");
            let short = 2 * k < 5 * c;
            let (word_1, entries) = if short { (16 + k, 2 * k + 4) } else { (c, 5 * c + 4) };
            assert_eq!(store.image[slot_at(12, 2) + 1], word_1 as u64, "c {c} k {k}");
            assert_eq!(store.trace.entries, entries, "c {c} k {k}");
            let mut arrived = before;
            store.trace.arrive(&mut arrived, entries);
            assert_eq!(arrived, store.image, "c {c} k {k}");
            assert_eq!(store.recover(), Ok(Some(5)));
            assert_eq!(store.trace.entries, if short { k + 3 } else { 4 * c + 3 }, "c {c} k {k}");
            for (j, &record) in [9, 7, 11, 0][..c].iter().enumerate() {
                assert_eq!(store.image[home_at(record)..home_at(record) + 4], wanted[j], "c {c} k {k}");
            }
            assert_eq!(store.recover(), Ok(None));
        }
    }

    #[test]
    fn a_short_log_ascends_over_all_copies() {
        let mut store = editing(&[9, 3]);
        store.desk.sessions[1].words = [[1, 137, 2, 139], [112, 113, 3, 4], [0; 4], [0; 4]];
        let at = slot_at(12, 2) as u64;
        let (one, two) = ([at + 1, 20, at + 2, 14, at + 3, 3, at + 4, 15, at + 5, 4], [at + 6, 36, at + 7, 1]);
        let rest = [at + 8, 38, at + 9, 2, FENCE, 0, at, 5, FENCE, 0];
        store.finish(1).expect("sealed");
        assert_eq!(entries(&store), [&one[..], &two, &rest].concat());
        assert_eq!(store.recover(), Ok(Some(5)));
        assert_eq!(entries(&store), [18, 3, 19, 4, 40, 1, 42, 2, FENCE, 0, at, 0, FENCE, 0]);
    }

    #[test]
    fn a_log_of_no_pairs() {
        let mut store = editing(&[9]);
        let at = slot_at(12, 2) as u64;
        store.finish(1).expect("sealed");
        assert_eq!(entries(&store), [at + 1, 16, FENCE, 0, at, 5, FENCE, 0]);
        assert_eq!(store.recover(), Ok(Some(5)));
        assert_eq!(entries(&store), [FENCE, 0, at, 0, FENCE, 0]);
    }

    #[test]
    fn settle_stores_all_four_words() {
        let mut store = editing(&[9, 3]);
        store.desk.sessions[1].words[1][2] = 7;
        store.finish(1).expect("sealed");
        store.publish(1).expect("published");
        store.settle(1).expect("settled");
        let (nine, three) = ([40, 136, 41, 137, 42, 138, 43, 139], [16, 112, 17, 113, 18, 7, 19, 115]);
        assert_eq!(entries(&store), [&nine[..], &three, &[FENCE, 0]].concat());
    }

    /// What recover answers for logs in slots 0, 1, .. of an image with N 12, M 2; the slots' other words are large.
    fn recovered(logs: &[&[u64]]) -> Result<Option<u64>, u8> {
        let mut store = editing(&[]);
        for (place, log) in logs.iter().enumerate() {
            let slot = &mut store.image[slot_at(12, place)..][..SLOT_WORDS];
            slot.fill(u64::MAX);
            slot[..log.len()].copy_from_slice(log);
        }
        store.recover()
    }

    #[test]
    fn check_12_of_short_logs() {
        for sound in [&[3, 16][..], &[3, 17, 47, 8], &[3, 18, 0, 8, 1, 8], &[3, 18, 0, 8, 47, 8]] {
            assert_eq!(recovered(&[sound]), Ok(Some(3)), "{sound:?}");
        }
        let ten: Vec<u64> = (0..10).flat_map(|j| [5 * j, 8]).collect();
        let nine = [&[3, 25], &ten[..18]].concat();
        assert_eq!(recovered(&[&nine]), Ok(Some(3)));
        for word_1 in [0, 5, 6, 14, 15, 26, 27, u64::MAX] {
            assert_eq!(recovered(&[&[0, word_1]]), Ok(None), "{word_1}");
            assert_eq!(recovered(&[&[&[3, word_1], &ten[..]].concat()]), Err(12), "{word_1}");
        }
        let wrong = [
            &[3, 17, 48, 8][..],
            &[3, 17, u64::MAX, 8],
            &[3, 18, 0, 8, 48, 8],
            &[3, 18, 48, 8, 0, 8],
            &[3, 18, 7, 8, 7, 8],
            &[3, 18, 7, 8, 6, 8],
            &[3, 19, 6, 8, 7, 8, 6, 8],
        ];
        for slot in wrong {
            assert_eq!(recovered(&[slot]), Err(12), "{slot:?}");
        }
        for j in 1..9 {
            let mut equal = nine.clone();
            equal[2 + 2 * j] = equal[2 * j];
            assert_eq!(recovered(&[&equal]), Err(12), "{equal:?}");
        }
    }

    #[test]
    fn check_13_of_both_forms() {
        let full = |number: u64, record: u64| [number, 1, record, 8, 8, 8, 8];
        for (index, odd) in [(11, false), (12, true), (13, true), (15, true), (16, false)] {
            let wanted = if odd { Err(13) } else { Ok(Some(3)) };
            let short = [3, 17, index, 8];
            assert_eq!(recovered(&[&full(3, 3), &short]), wanted, "full, {index}");
            assert_eq!(recovered(&[&short, &full(3, 3)]), wanted, "{index}, full");
            assert_eq!(recovered(&[&[3, 17, 14, 8], &short]), wanted, "short, {index}");
            assert_eq!(
                recovered(&[&[3, 18, 1, 8, 14, 8], &[4, 16], &[3, 18, index, 8, 47, 8]]),
                wanted,
                "later, {index}"
            );
            assert_eq!(recovered(&[&full(4, 3), &short]), Ok(Some(3)), "other numbers, {index}");
        }
        assert_eq!(recovered(&[&full(3, 3), &full(3, 3)]), Err(13));
        assert_eq!(recovered(&[&full(3, 3), &[3, 16], &[3, 16]]), Ok(Some(3)));
        assert_eq!(recovered(&[&full(3, 3), &[3, 17, 12, 8], &[3, 15]]), Err(12), "12 before 13");
    }

    #[test]
    fn open_raises_the_ceiling() {
        let opened = |ceiling: u64| {
            let mut store = Store::<true>::new(length(2, 2));
            store.lay(2, 2).expect("laid");
            assert_eq!(store.image[CEILING], 0);
            store.image[CEILING] = ceiling;
            let refused = refusal(store.open());
            (refused, store.desk.clock, store.desk.n, store.image[CEILING], entries(&store).to_vec())
        };
        assert_eq!(opened(0), (0, 1, 2, 1025, vec![3, 1025, FENCE, 0]));
        assert_eq!(opened(1025), (0, 1026, 2, 2050, vec![3, 2050, FENCE, 0]));
        assert_eq!(opened(L - 1), (0, L, 2, L + 1024, vec![3, L + 1024, FENCE, 0]));
        assert_eq!(opened(L), (10, 0, 0, L, vec![]));
        assert_eq!(opened(u64::MAX), (10, 0, 0, u64::MAX, vec![]));
        let mut store = busy();
        store.image[CEILING] = L;
        store.finish(1).expect("sealed");
        assert_eq!((refusal(store.open()), store.trace.entries), (11, 0));
        while let Ok(Some(_)) = store.recover() {}
        assert_eq!((refusal(store.open()), store.image[CEILING]), (10, L));
    }

    #[test]
    fn publish_raises_the_ceiling_when_it_passes_it() {
        let published = |clock: u64, ceiling: u64| {
            let mut store = busy();
            (store.desk.clock, store.image[CEILING]) = (clock, ceiling);
            let refused = refusal(store.publish(2));
            (refused, store.desk.clock, store.image[CEILING], entries(&store).to_vec())
        };
        assert_eq!(published(9, 11), (0, 10, 11, vec![]));
        assert_eq!(published(9, 10), (0, 10, 10, vec![]));
        assert_eq!(published(9, 9), (0, 10, 1034, vec![3, 1034, FENCE, 0]));
        assert_eq!(published(9, 8), (2, 9, 8, vec![]));
        assert_eq!(published(L + 15, L + 15), (0, L + 16, L + 1040, vec![3, L + 1040, FENCE, 0]));
    }

    #[test]
    fn numbers() {
        let near = |k: u32| [10u64.pow(k) - 1, 10u64.pow(k), 10u64.pow(k) + 1, 1234567890123456789 / 10u64.pow(k)];
        for number in (0..20_000).chain((0..20).flat_map(near)).chain([u64::MAX, u64::MAX - 1]) {
            let mut lines = Lines::new(Vec::new());
            lines.number(number);
            lines.flush().expect("written");
            assert_eq!(String::from_utf8_lossy(&lines.output), number.to_string());
        }
    }

    /// The lines that both ways give.
    fn lines(steps: &[u8]) -> String {
        let (mut checks, mut trust) = (Vec::new(), Vec::new());
        run::<true>(steps, &mut checks).expect("written");
        run::<false>(steps, &mut trust).expect("written");
        assert_eq!(checks, trust);
        String::from_utf8(checks).expect("text")
    }

    /// The bytes of begin, write and finish of record 0.
    fn sealing(session: u8) -> Vec<u8> {
        [&[1, session, 3, session, 0], &[5; 32][..], &[4, session]].concat()
    }

    #[test]
    fn whole_case() {
        let mut steps = vec![0, 2, 2, 1, 0, 1, 1, 3, 0, 1, 5];
        steps.extend([0; 31]);
        steps.extend([2, 0, 1, 4, 0, 5, 0, 2, 1, 1, 6, 0, 4, 1, 6, 0, 7, 0]);
        let wanted = "1 lay 2 2 ok\n2 begin 0 start 1\n3 begin 1 start 1\n4 write 0 1 ok\n5 read 0 1 5 0 0 0 own\n\
            6 finish 0 sealed 1\n7 publish 0 end 2\n8 read 1 1 0 0 0 0 home\n9 settle 0 wait 1\n10 finish 1 empty\n\
            11 settle 0 ok\n12 reclaim 0 cleared 1\n";
        assert_eq!(lines(&steps), wanted);
    }

    #[test]
    fn numbers_go_on_behind_a_cut() {
        let wanted = "1 lay 1 1 ok\n2 cut 0\n3 finish 0 no 6\n3 open\n4 begin 0 start 1026\n5 cut 9\n\
            6 reclaim 0 none\n6 open\n7 begin 0 start 2051\n";
        assert_eq!(lines(&[0, 1, 1, 9, 0, 4, 0, 1, 0, 9, 9, 7, 0, 1, 0]), wanted);
    }

    #[test]
    fn a_cut_waits_for_publish_too() {
        let steps = [&[0, 1, 1, 9, 0, 5, 0], &sealing(0)[..], &[9, 0, 5, 0, 1, 0]].concat();
        let wanted = "1 lay 1 1 ok\n2 cut 0\n3 publish 0 no 6\n3 open\n4 begin 0 start 1026\n5 write 0 0 ok\n\
            6 finish 0 sealed 1026\n7 cut 0\n8 publish 0 end 1027\n8 replayed 1026\n8 open\n9 begin 0 start 2051\n";
        assert_eq!(lines(&steps), wanted);
    }

    #[test]
    fn the_1025th_publish_raises_the_ceiling() {
        let whole = [&sealing(0)[..], &[5, 0, 6, 0, 7, 0]].concat();
        let before = [&[0, 1, 1], &whole.repeat(1024)[..], &sealing(0)].concat();
        let behind = |steps: &[u8]| {
            let all = lines(&[&before, steps].concat());
            let at = all.find("6148 finish 0 sealed 1025\n").expect("sealed");
            all[at..].split_once('\n').expect("a line").1.to_string()
        };
        for (k, start) in [(0, 1026), (1, 2051), (2, 2051), (3, 2051)] {
            let wanted = format!(
                "6149 cut {k}\n6150 publish 0 cut\n6150 replayed 1025\n6150 open\n6151 begin 0 start {start}\n"
            );
            assert_eq!(behind(&[9, k, 5, 0, 1, 0]), wanted);
        }
        let uncut = "6149 publish 0 end 1026\n6150 cut 0\n6151 publish 0 no 6\n6151 replayed 1025\n6151 open\n\
            6152 begin 0 start 2051\n";
        assert_eq!(behind(&[5, 0, 9, 0, 5, 0, 1, 0]), uncut);
    }
}
