//! A lesson (document 02, Ask 5): one file of transfers and events with the ticks at which they were made. It is read,
//! written, and played from power-on.

use crate::bus::*;
use crate::chip::{Answer, Chip, BUFFER, TRANSFER};
use crate::flips::{flipped, Flip};
use crate::pin::pin_level;
use crate::spi::transfer;

/// Bytes of the longest file.
pub const FILE: usize = 65_536;
/// Entries of the longest lesson.
pub const ENTRIES: usize = 255;
/// The version byte and n.
pub const HEAD: usize = 2;
/// Bytes of an entry: kind, tick, offset, length.
pub const ENTRY: usize = 11;

pub const VERSION: u8 = 1;
pub const TRANSFER_KIND: u8 = 1;
pub const EVENT_KIND: u8 = 2;

// Marks of a transaction: damaged or, at IN, acknowledged; OUT's DATA1.
pub const MARK: u8 = 1;
pub const DATA1_MARK: u8 = 2;

/// What checking and writing hand back: `found` is the entry that 13 names, else 0; `count` the entries, or the bytes written.
#[derive(Clone, Copy, Debug, PartialEq, Eq)]
pub struct LessonAnswer {
    pub refusal: u8,
    pub found: usize,
    pub count: usize,
}

/// What a replay hands back: the chip after the lesson and its pin, or the power-on record where it is refused.
#[derive(Clone, Copy, Debug, PartialEq, Eq)]
pub struct ReplayAnswer {
    pub chip: Chip,
    pub refusal: u8,
    pub pin: u8,
    pub found: usize,
    pub count: usize,
}

/// One call of a lesson: its kind, its tick, its body.
#[derive(Clone, Copy, Debug, PartialEq, Eq)]
pub struct Entry<'f> {
    pub kind: u8,
    pub tick: u32,
    pub body: &'f [u8],
}

/// An entry as the table has it.
struct Row {
    kind: u8,
    tick: u32,
    offset: u32,
    length: u16,
}

/// Row i of the table, if the file has it whole.
fn row(file: &[u8], i: usize) -> Option<Row> {
    let bytes: &[u8; ENTRY] = file.get(HEAD + ENTRY * i..)?.first_chunk()?;
    let [kind, t0, t1, t2, t3, o0, o1, o2, o3, l0, l1] = *bytes;
    let (tick, offset) = (u32::from_le_bytes([t0, t1, t2, t3]), u32::from_le_bytes([o0, o1, o2, o3]));
    Some(Row { kind, tick, offset, length: u16::from_le_bytes([l0, l1]) })
}

/// The entries of a lesson, in order; `at` is where the next body begins.
#[derive(Clone, Debug)]
pub struct Entries<'f> {
    file: &'f [u8],
    n: usize,
    next: usize,
    at: usize,
}

impl<'f> Iterator for Entries<'f> {
    type Item = Entry<'f>;

    fn next(&mut self) -> Option<Entry<'f>> {
        if self.next == self.n {
            return None;
        }
        let Row { kind, tick, offset, length } = row(self.file, self.next)?;
        let from = if flipped(Flip::GapAccepted) { offset as usize } else { self.at };
        self.at = from + usize::from(length);
        self.next += 1;
        Some(Entry { kind, tick, body: &self.file[from..self.at] })
    }
}

fn is_kind(kind: u8) -> bool {
    kind == TRANSFER_KIND || kind == EVENT_KIND || flipped(Flip::KindUnchecked)
}

fn is_too_long(size: usize) -> bool {
    match size {
        FILE => flipped(Flip::FileUnder64K),
        _ => size > FILE + usize::from(flipped(Flip::FileOver64K)),
    }
}

/// How many entries the file says it has.
fn entry_count(file: &[u8], n: u8) -> usize {
    match row(file, 0) {
        Some(first) if n > 0 && flipped(Flip::EntriesByOffset) => (first.offset as usize).saturating_sub(HEAD) / ENTRY,
        _ => usize::from(n),
    }
}

/// Is this the offset of a body at `at`, in a file of n entries?
fn is_at(offset: u32, at: usize, n: usize) -> bool {
    let offset = offset as usize;
    offset == offset_of(at, n)
        || flipped(Flip::OffsetLow16) && offset as u16 == at as u16
        || flipped(Flip::GapAccepted) && offset > at
}

/// Offsets count from the file's start.
fn offset_of(at: usize, n: usize) -> usize {
    if flipped(Flip::OffsetFromBodies) {
        at - HEAD - ENTRY * n
    } else {
        at
    }
}

/// What 13 names for entry i.
fn named(i: usize) -> usize {
    i + usize::from(flipped(Flip::NamedFrom1))
}

/// The entries of a file, or the entry that refusal 13 names: 0 for its length and version, which are looked at first; then the
/// first that is missing or has a bad kind or offset; then n where the file does not end with the last body.
pub fn read(file: &[u8]) -> Result<Entries<'_>, usize> {
    let &[version, n, ..] = file else { return Err(0) };
    if is_too_long(file.len()) || version != VERSION && !flipped(Flip::AnyVersion) {
        return Err(0);
    }
    let n = entry_count(file, n);
    let table = HEAD + ENTRY * n;
    if flipped(Flip::KindsFirst) {
        all_kinds(file, n)?;
    }
    let (mut at, mut tick) = (table, 0);
    for i in 0..n {
        let cut = named(if flipped(Flip::CutNamesN) { n } else { i });
        let row = row(file, i).ok_or(cut)?;
        let early = flipped(Flip::TicksInOrder) && row.tick < tick;
        if !is_kind(row.kind) || !is_at(row.offset, at, n) || early {
            return Err(named(i));
        }
        let from = if flipped(Flip::GapAccepted) { row.offset as usize } else { at };
        (at, tick) = (from + usize::from(row.length), row.tick);
        if flipped(Flip::EndNamesEntry) && at > file.len() {
            return Err(named(i));
        }
    }
    if at > file.len() || at < file.len() && !flipped(Flip::TrailingAccepted) || n == 0 && flipped(Flip::NoEntries) {
        return Err(named(n));
    }
    Ok(Entries { file, n, next: 0, at: table })
}

/// The flip that looks at the kinds alone.
fn all_kinds(file: &[u8], n: usize) -> Result<(), usize> {
    match (0..n).find(|i| row(file, *i).is_some_and(|row| !is_kind(row.kind))) {
        Some(i) => Err(i),
        None => Ok(()),
    }
}

/// Is this file a lesson?
pub fn check(file: &[u8]) -> LessonAnswer {
    match read(file) {
        Ok(entries) => LessonAnswer { refusal: 0, found: 0, count: entries.n },
        Err(found) => LessonAnswer { refusal: 13, found, count: 0 },
    }
}

/// The one file of a lesson: `kinds`, `ticks` and `lengths` of its entries, and their bodies one after another.
pub fn write(kinds: &[u8], ticks: &[u32], lengths: &[u16], bodies: &[u8], file: &mut [u8]) -> LessonAnswer {
    let size = HEAD + ENTRY * kinds.len() + total(kinds, lengths);
    let no_lesson = !is_lesson(kinds, ticks, lengths, bodies) || is_too_long(size);
    let short = file.len() < size + usize::from(flipped(Flip::WriterRoomBelow));
    if no_lesson && !(short && flipped(Flip::WriterShortFirst)) {
        let bad_kind = kinds.iter().position(|kind| !is_kind(*kind)).filter(|_| flipped(Flip::WriterNamesEntry));
        return LessonAnswer { refusal: 13, found: bad_kind.unwrap_or(0), count: 0 };
    }
    if short {
        return LessonAnswer { refusal: 4, found: 0, count: 0 };
    }
    if flipped(Flip::WriterClearsRest) {
        file[size..].fill(0);
    }
    lay_out(kinds, ticks, lengths, &bodies[..total(kinds, lengths)], &mut file[..size]);
    LessonAnswer { refusal: 0, found: 0, count: size }
}

/// Bytes of all bodies, by their lengths.
fn total(kinds: &[u8], lengths: &[u16]) -> usize {
    let of_kinds = if flipped(Flip::WriterUneven) { kinds.len() } else { lengths.len() };
    lengths.iter().take(of_kinds).map(|length| usize::from(*length)).sum()
}

/// Known kinds, as many ticks and lengths, and the bodies that the lengths tell; at most 255.
fn is_lesson(kinds: &[u8], ticks: &[u32], lengths: &[u16], bodies: &[u8]) -> bool {
    let n = kinds.len();
    let counted = |parts: usize| parts == n || parts > n && flipped(Flip::WriterUneven);
    let (all, bodies) = (total(kinds, lengths), bodies.len());
    n <= ENTRIES + usize::from(flipped(Flip::WriterEntriesWrap))
        && kinds.iter().all(|kind| is_kind(*kind))
        && counted(ticks.len())
        && counted(lengths.len())
        && (all == bodies || all < bodies && flipped(Flip::WriterBodiesLeft))
}

/// Version, n, the table, the bodies.
fn lay_out(kinds: &[u8], ticks: &[u32], lengths: &[u16], bodies: &[u8], file: &mut [u8]) {
    let n = kinds.len();
    let (table, rest) = file.split_at_mut(HEAD + ENTRY * n);
    table[..HEAD].copy_from_slice(&[VERSION, n as u8]);
    rest.copy_from_slice(bodies);
    let mut at = HEAD + ENTRY * n;
    let parts = kinds.iter().zip(ticks).zip(lengths);
    for (row, ((kind, tick), length)) in table[HEAD..].chunks_exact_mut(ENTRY).zip(parts) {
        row[0] = *kind;
        row[1..5].copy_from_slice(&tick_bytes(*tick));
        row[5..9].copy_from_slice(&(offset_of(at, n) as u32).to_le_bytes());
        row[9..].copy_from_slice(&length.to_le_bytes());
        at += usize::from(*length);
    }
}

/// Low byte first.
fn tick_bytes(tick: u32) -> [u8; 4] {
    if flipped(Flip::WriterTickHighFirst) {
        tick.to_be_bytes()
    } else {
        tick.to_le_bytes()
    }
}

/// The event that a body says, and its payload; none where the body breaks the layout.
pub fn event_of(body: &[u8]) -> Option<(Event, &[u8])> {
    let longer = flipped(Flip::LongBody);
    match *body {
        [code @ (POWER_ON..=VBUS_OFF | RESET_START..=ACTIVITY), ref rest @ ..] if rest.is_empty() || longer => {
            Some((Event { code, ..Event::default() }, &[]))
        }
        [PINS, pins, ref rest @ ..] if rest.is_empty() || longer => {
            Some((Event { code: PINS, pins, ..Event::default() }, &[]))
        }
        [PINS] if flipped(Flip::PinsByDefault) => Some((Event { code: PINS, ..Event::default() }, &[])),
        [code @ (SETUP_EVENT | OUT_EVENT), address, endpoint, marks, ref payload @ ..] => {
            Some((transaction(code, address, endpoint, marks)?, payload))
        }
        [IN_EVENT, address, endpoint, marks, ref rest @ ..] if rest.is_empty() || longer => {
            Some((transaction(IN_EVENT, address, endpoint, marks)?, &[]))
        }
        [code @ SETUP_EVENT..=IN_EVENT, address, endpoint] if flipped(Flip::ShortTransaction) => {
            Some((transaction(code, address, endpoint, 0)?, &[]))
        }
        _ => None,
    }
}

/// A transaction by its marks; none where there is another one.
fn transaction(code: u8, address: u8, endpoint: u8, marks: u8) -> Option<Event> {
    let known = if code == OUT_EVENT || flipped(Flip::Mark2Anywhere) { MARK | DATA1_MARK } else { MARK };
    if marks & !known != 0 && !flipped(Flip::AnyMark) {
        return None;
    }
    let swapped = code == OUT_EVENT && flipped(Flip::MarksSwapped);
    let (first, second) = if swapped { (DATA1_MARK, MARK) } else { (MARK, DATA1_MARK) };
    let mark = u8::from(marks & first != 0);
    let data1 = u8::from(code == OUT_EVENT && marks & second != 0 && !flipped(Flip::Data1Ignored));
    let (damaged, acknowledged) = match code {
        IN_EVENT => (0, mark ^ u8::from(flipped(Flip::InMarkInverted))),
        _ => (if flipped(Flip::DamagedIgnored) { 0 } else { mark }, 0),
    };
    Some(Event { code, address, endpoint, damaged, data1, acknowledged, ..Event::default() })
}

/// A lesson played from power-on: for each entry its refusal or 0, the PID or 0, the count, low byte first, and the bytes go to
/// the output, or with 4 nothing if they do not fit.
pub fn replay(file: &[u8], output: &mut [u8]) -> ReplayAnswer {
    if flipped(Flip::ShortFirst) && file.get(1).is_some_and(|n| output.len() < 4 * usize::from(*n)) {
        return refused(4, 0, Chip::power_on());
    }
    let entries = match read(file) {
        Ok(entries) => entries,
        Err(found) => return refused(13, found, Chip::power_on()),
    };
    let (chip, told) = play(entries);
    let count = told.len();
    if count + usize::from(flipped(Flip::RoomBelow)) > output.len() {
        if flipped(Flip::PartWritten) {
            output.copy_from_slice(&told[..output.len()]);
        }
        return refused(4, 0, if flipped(Flip::RefusedKeepsChip) { chip } else { Chip::power_on() });
    }
    output[..count].copy_from_slice(&told);
    ReplayAnswer { chip, refusal: 0, pin: pin_level(&chip), found: 0, count }
}

fn refused(refusal: u8, found: usize, chip: Chip) -> ReplayAnswer {
    ReplayAnswer { chip, refusal, pin: pin_level(&chip), found, count: 0 }
}

/// The chip after all entries, and what is told of them. An entry's reply has at most its body's bytes, or a packet's.
fn play(entries: Entries) -> (Chip, Vec<u8>) {
    let mut told = Vec::with_capacity(entries.file.len() + BUFFER * entries.n);
    let mut reply = [0; TRANSFER];
    let mut chip = Chip::power_on();
    for entry in entries {
        if flipped(Flip::EachFromPowerOn) {
            chip = Chip::power_on();
        }
        let answer = call(chip, &entry, &mut reply);
        tell(&mut told, &answer, &reply);
        chip = answer.chip;
        if answer.refusal != 0 && flipped(Flip::RefusedEnds) {
            break;
        }
    }
    (chip, told)
}

/// One entry's call, lent 4,096 bytes.
fn call(chip: Chip, entry: &Entry, reply: &mut [u8; TRANSFER]) -> Answer {
    let reply = if flipped(Flip::LentBuffer) { &mut reply[..BUFFER] } else { &mut reply[..] };
    if entry.kind == TRANSFER_KIND {
        return transfer(chip, entry.body, reply);
    }
    match event_of(entry.body) {
        Some((what, payload)) => event(chip, what, payload, reply),
        None => {
            let refusal = if entry.body.is_empty() && flipped(Flip::EmptyIsNoCommand) { 2 } else { 5 };
            Answer { chip, refusal, pid: 0, count: 0, pin: pin_level(&chip), found: 0 }
        }
    }
}

fn tell(told: &mut Vec<u8>, answer: &Answer, reply: &[u8]) {
    let Answer { refusal, pid, count, found, .. } = *answer;
    let number = if flipped(Flip::RefusalLeftOut) { 0 } else { refusal };
    let pid = if flipped(Flip::PidLeftOut) { 0 } else { pid };
    let counted = if flipped(Flip::FoundAsCount) && refusal != 0 { found as u16 } else { count };
    let [mut low, mut high] = counted.to_le_bytes();
    if flipped(Flip::CountHighFirst) {
        (low, high) = (high, low);
    }
    told.extend_from_slice(&[number, pid, low, high]);
    told.extend_from_slice(&reply[..usize::from(count)]);
}

/// Ticks between two entries, modulo 2 to the 32.
pub fn elapsed(from: u32, to: u32) -> u32 {
    if flipped(Flip::TickSaturates) {
        to.saturating_sub(from)
    } else if flipped(Flip::TickBackwards) {
        from.wrapping_sub(to)
    } else {
        to.wrapping_sub(from)
    }
}
