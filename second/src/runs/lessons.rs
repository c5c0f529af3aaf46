//! Lessons, as files and in parts: random ones, such as fill a file, bodies that break the layout; ticks.

use super::*;
use crate::bus::*;
use crate::lesson::{Entry, DATA1_MARK, ENTRIES, ENTRY, EVENT_KIND, FILE, HEAD, MARK, TRANSFER_KIND, VERSION};

/// An entry to be: its kind, its tick, its body.
#[derive(Clone, Debug, PartialEq, Eq)]
pub struct Timed {
    pub kind: u8,
    pub tick: u32,
    pub body: Vec<u8>,
}

impl From<Entry<'_>> for Timed {
    fn from(entry: Entry) -> Timed {
        Timed { kind: entry.kind, tick: entry.tick, body: entry.body.to_vec() }
    }
}

/// A lesson as the writer takes it, or what is none.
#[derive(Clone, Debug, PartialEq, Eq)]
pub struct Parts {
    pub kinds: Vec<u8>,
    pub ticks: Vec<u32>,
    pub lengths: Vec<u16>,
    pub bodies: Vec<u8>,
}

/// What is asked of both models: a file to be checked and played, parts to be written, two ticks.
#[derive(Clone, Debug, PartialEq, Eq)]
pub enum Trial {
    File(Vec<u8>),
    Parts(Parts),
    Ticks(u32, u32),
}

impl Parts {
    pub fn of(entries: &[Timed]) -> Parts {
        Parts {
            kinds: entries.iter().map(|entry| entry.kind).collect(),
            ticks: entries.iter().map(|entry| entry.tick).collect(),
            lengths: entries.iter().map(|entry| entry.body.len() as u16).collect(),
            bodies: entries.iter().flat_map(|entry| entry.body.iter().copied()).collect(),
        }
    }
}

/// Bytes of the entries' file.
pub fn size_of(entries: &[Timed]) -> usize {
    HEAD + entries.iter().map(|entry| ENTRY + entry.body.len()).sum::<usize>()
}

/// The entries' file by the rules, whether they are too many or not.
pub fn file_of(entries: &[Timed]) -> Vec<u8> {
    let mut file = vec![VERSION, entries.len() as u8];
    let mut at = HEAD + ENTRY * entries.len();
    for Timed { kind, tick, body } in entries {
        file.push(*kind);
        file.extend(tick.to_le_bytes());
        file.extend((at as u32).to_le_bytes());
        file.extend((body.len() as u16).to_le_bytes());
        at += body.len();
    }
    entries.iter().for_each(|entry| file.extend(&entry.body));
    file
}

/// A call of the chip as an entry.
pub fn timed(call: &Call) -> Option<Timed> {
    let (kind, body) = match call {
        Call::Transfer { bytes, .. } => (TRANSFER_KIND, bytes.clone()),
        Call::Event { event, payload, .. } => (EVENT_KIND, body_of(event, payload)),
        _ => return None,
    };
    Some(Timed { kind, tick: 0, body })
}

/// An event's body: its code, then what it carries.
pub fn body_of(event: &Event, payload: &[u8]) -> Vec<u8> {
    let Event { code, pins, address, endpoint, damaged, data1, acknowledged } = *event;
    let mark = |yes: u8, mark: u8| if yes != 0 { mark } else { 0 };
    match code {
        PINS => vec![code, pins],
        SETUP_EVENT => [&[code, address, endpoint, mark(damaged, MARK)], payload].concat(),
        OUT_EVENT => [&[code, address, endpoint, mark(damaged, MARK) | mark(data1, DATA1_MARK)], payload].concat(),
        IN_EVENT => vec![code, address, endpoint, mark(acknowledged, MARK)],
        _ => vec![code],
    }
}

/// A lesson of up to 255 entries that fits a file: calls of the other runs, some bodies broken, ticks at random.
pub fn lesson(rng: &mut Rng) -> Vec<Timed> {
    let n = match rng.below(8) {
        0 => rng.below(4),
        1 => ENTRIES - rng.below(2),
        2 => rng.below(ENTRIES + 1),
        _ => 4 + rng.below(60),
    };
    lesson_of(rng, n)
}

/// The same of n entries.
pub(super) fn lesson_of(rng: &mut Rng, n: usize) -> Vec<Timed> {
    let (mut entries, mut tick) = (Vec::new(), rng.number() as u32);
    let mut room = FILE - HEAD - ENTRY * n;
    let mut calls = Vec::new();
    while entries.len() < n {
        if calls.is_empty() {
            calls = classes::plan_of(rng);
            calls.reverse();
        }
        let Some(mut entry) = calls.pop().and_then(|call| timed(&served(rng, call))) else { continue };
        if rng.one_in(16) {
            (entry.kind, entry.body) = (EVENT_KIND, broken_body(rng));
        }
        tick = if rng.one_in(16) { rng.number() as u32 } else { tick.wrapping_add(rng.below(1000) as u32) };
        entry.tick = tick;
        entry.body.truncate(room);
        room -= entry.body.len();
        entries.push(entry);
    }
    entries
}

/// A lesson has no steps of the board: a transfer that the firmware makes stands for one.
fn served(rng: &mut Rng, call: Call) -> Call {
    match call {
        Call::Step { .. } if rng.one_in(2) => spi(rng.pick(&[&[0x5A, 0x20][..], &[0x91], &[0x2B, 18], &[0x4A, 0x23]])),
        Call::Step { .. } => read(4, 8),
        _ => call,
    }
}

/// An event's body that breaks the layout, or nearly.
fn broken_body(rng: &mut Rng) -> Vec<u8> {
    let (plain, any) = (rng.pick(&[1, 2, 3, 4, 6, 7, 8, 9]), rng.below(12));
    let (code, endpoint) = (rng.pick(&[SETUP_EVENT, OUT_EVENT, IN_EVENT]), rng.below(4) as u8);
    let payload = if code == IN_EVENT { Vec::new() } else { rng.bytes(8) };
    match rng.below(11) {
        0 => Vec::new(),
        1 => vec![rng.pick(&[0, 13, 14, 128, 255])],
        2 => [&[rng.pick(&[0, 13, 255])], &rng.bytes(any)[..]].concat(),
        3 => vec![plain, rng.byte()],
        4 => vec![PINS],
        5 => vec![PINS, rng.byte(), rng.byte()],
        6 => [code, 0, endpoint][..1 + rng.below(3)].to_vec(),
        7 => [&[IN_EVENT, 0, endpoint, rng.below(2) as u8], &rng.bytes(1 + any)[..]].concat(),
        8 => [&[code, 0, endpoint, rng.pick(&[4, 5, 8, 16, 32, 64, 128, 129, 255])], &payload[..]].concat(),
        9 if code != OUT_EVENT => [&[code, 0, 0, rng.pick(&[2, 3])], &payload[..]].concat(),
        _ => rng.bytes(any),
    }
}

/// A lesson whose file has just this many bytes, at least a few thousand: long transfers fill it, and its last body may be empty.
pub fn sized(rng: &mut Rng, size: usize) -> Vec<Timed> {
    let n = rng.below(40);
    let mut entries = lesson_of(rng, n);
    while size_of(&entries) + 3000 > size {
        entries.pop();
    }
    let last = rng.one_in(2).then(|| Timed { kind: rng.pick(&[1, 2]), tick: 9, body: Vec::new() });
    let size = if last.is_some() { size - ENTRY } else { size };
    loop {
        let rest = size - size_of(&entries) - ENTRY;
        let length = if rest < 3000 || entries.len() > 200 { rest } else { 1 + rng.below(5000).min(rest - 200) };
        entries.push(Timed { kind: TRANSFER_KIND, tick: rng.number() as u32, body: long_body(rng, length) });
        if length == rest {
            entries.extend(last);
            return entries;
        }
    }
}

/// A transfer over many registers or of a FIFO.
fn long_body(rng: &mut Rng, length: usize) -> Vec<u8> {
    let mut body = rng.bytes(length);
    body[0] = rng.pick(&[0x00, 0x02, 0x08, 0x12, 0x20, 0x28, 0x58, 0xA0, 0xA2, 0xF8]);
    body
}

/// A file just under, at, or over the limit.
fn any_sized(rng: &mut Rng) -> Vec<Timed> {
    let size = rng.pick(&[FILE - 1, FILE, FILE, FILE, FILE + 1, FILE + 1, FILE + 2, 10_000]);
    sized(rng, size)
}

/// Parts that are no lesson, or nearly.
fn spoiled_parts(rng: &mut Rng) -> Parts {
    let n = 1 + rng.below(20);
    let mut parts = Parts::of(&lesson_of(rng, n));
    let at = rng.below(n);
    match rng.below(12) {
        0 | 1 => parts.kinds[at] = rng.pick(&[0, 3, 4, 129, 130, 255]),
        2 => parts.kinds.push(rng.pick(&[1, 2, 3])),
        3 => parts.ticks.push(7),
        4 => drop(parts.ticks.pop()),
        5 => parts.lengths.push(rng.pick(&[0, 0, 1])),
        6 => {
            // with its body, so that the rest fits
            let last = parts.lengths.pop().map_or(0, usize::from);
            parts.bodies.truncate(parts.bodies.len() - last);
        }
        7 => parts.lengths[at] = rng.pick(&[parts.lengths[at].wrapping_add(1), parts.lengths[at].wrapping_sub(1), 65_535]),
        8 => parts.bodies.push(9),
        9 => drop(parts.bodies.pop()),
        10 => parts = many_parts(rng),
        _ => parts = Parts::of(&any_sized(rng)),
    }
    parts
}

/// 254 to 258, or 512 entries: 255 is the most.
fn many_parts(rng: &mut Rng) -> Parts {
    let n = rng.pick(&[254, 255, 256, 256, 256, 257, 258, 512]);
    let few = lesson_of(rng, 4);
    Parts::of(&(0..n).map(|i| few[i % few.len()].clone()).collect::<Vec<_>>())
}

fn any_ticks(rng: &mut Rng) -> Trial {
    let (a, b, near) = (rng.number() as u32, rng.number() as u32, rng.below(5) as u32);
    let (from, to) = (rng.pick(&[a, 0, u32::MAX, 1 << 31, near]), rng.pick(&[a, b, a.wrapping_add(near), u32::MAX, 0]));
    Trial::Ticks(from, to)
}

/// The trial of a seed.
pub fn lesson_trial(seed: u64) -> Trial {
    let rng = &mut Rng::new(seed);
    match seed % 16 {
        0..=5 => Trial::File(file_of(&lesson(rng))),
        6 => Trial::File(file_of(&any_sized(rng))),
        7..=11 => {
            let n = rng.pick(&[0, 1, 2, 3, 5, 20, 60, 255]);
            let file = file_of(&lesson_of(rng, n));
            Trial::File(damaged(rng, &file))
        }
        12 => Trial::Parts(Parts::of(&lesson(rng))),
        13 | 14 => Trial::Parts(spoiled_parts(rng)),
        _ => any_ticks(rng),
    }
}
