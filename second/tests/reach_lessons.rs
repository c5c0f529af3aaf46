//! Do the trials of lessons reach what they are for? Counts what is wrong with files, bodies and parts, what entries are answered,
//! and which limits are met; each must occur often.

use second::bus::*;
use second::lesson::*;
use second::runs::{lesson_trial, Parts, Trial};
use std::collections::BTreeMap;

#[derive(Default)]
struct Counts(BTreeMap<String, usize>);

impl Counts {
    fn add(&mut self, what: impl Into<String>) {
        *self.0.entry(what.into()).or_default() += 1;
    }

    /// How many entries and bytes, where that is near a limit.
    fn add_limits(&mut self, what: &str, entries: usize, bytes: usize) {
        if !(2..254).contains(&entries) {
            self.add(format!("{what} of {entries} entries"));
        }
        if bytes.abs_diff(FILE) < 3 {
            self.add(format!("{what} of {bytes} bytes"));
        }
    }
}

fn number(bytes: &[u8]) -> usize {
    bytes.iter().rev().fold(0, |high, low| high << 8 | usize::from(*low))
}

/// What is wrong with a file, and which entry it names.
fn fault(file: &[u8]) -> Option<(&'static str, usize)> {
    let n = match file {
        [] | [_] => return Some(("under two bytes", 0)),
        _ if file.len() > 65_536 => return Some(("over 64 KiB", 0)),
        [1, n, ..] => usize::from(*n),
        _ => return Some(("another version", 0)),
    };
    let mut at = 2 + 11 * n;
    for i in 0..n {
        let Some(row) = file.get(2 + 11 * i..13 + 11 * i) else { return Some(("an entry missing", i)) };
        let offset = number(&row[5..9]);
        match row[0] {
            1 | 2 if offset == at => at += number(&row[9..]),
            1 | 2 if offset % 65_536 == at % 65_536 => return Some(("a bad offset in its high half", i)),
            1 | 2 => return Some(("a bad offset", i)),
            _ => return Some(("a bad kind", i)),
        }
    }
    match file.len() {
        length if length < at => Some(("a body past the end", n)),
        length if length > at => Some(("bytes after the last body", n)),
        _ => None,
    }
}

fn note_file(file: &[u8], counts: &mut Counts) {
    let (told, wrong) = (check(file), fault(file));
    assert_eq!((told.refusal, told.found), wrong.map_or((0, 0), |(_, entry)| (13, entry)));
    if let Some((what, entry)) = wrong {
        let place = if entry == 0 { "" } else { ", not the first entry" };
        return counts.add(format!("13: {what}{place}"));
    }
    counts.add("a lesson");
    counts.add_limits("a lesson", told.count, file.len());
    let mut output = vec![0; file.len() + 64 * told.count];
    let answer = replay(file, &mut output);
    counts.add(if answer.count > 0 { "4 with a byte too little" } else { "nothing to write" });
    let mut told = &output[..answer.count];
    let mut last = 0;
    for entry in read(file).expect("it is a lesson") {
        let count = number(&told[2..4]);
        note_entry(&entry, told[0], told[1], count, counts);
        told = &told[4 + count..];
        counts.add(if entry.tick < last { "a tick that goes back" } else { "a tick that goes on" });
        last = entry.tick;
        if entry.body.is_empty() && entry.body.as_ptr() == file.as_ptr_range().end && file.len() == FILE {
            counts.add("a body at 65,536");
        }
    }
}

fn note_entry(entry: &Entry, refusal: u8, pid: u8, count: usize, counts: &mut Counts) {
    let length = entry.body.len();
    if entry.kind == TRANSFER_KIND {
        counts.add(format!("transfer refusal {refusal}"));
        let size = ["to 64", "over 64", "4,096"][usize::from(length > 64) + usize::from(length == 4096)];
        return counts.add(format!("transfer of {size} bytes, refusal {refusal}"));
    }
    counts.add(format!("event refusal {refusal}"));
    if refusal == 5 {
        return counts.add(broken(entry.body));
    }
    let code = entry.body[0];
    counts.add(format!("event {code} refusal {refusal}"));
    if code >= SETUP_EVENT {
        counts.add(format!("event {code} mark {}", entry.body[3]));
        counts.add(format!("event {code} pid {pid:02X}"));
    }
    if count == 64 {
        counts.add(format!("event {code} of 64 bytes"));
    }
}

/// How a body breaks the layout.
fn broken(body: &[u8]) -> &'static str {
    match body {
        [] => "an empty event",
        [0 | 13.., ..] => "an unknown code",
        [PINS] => "pins without their byte",
        [PINS, ..] => "pins with more",
        [..SETUP_EVENT, ..] => "a plain event with more",
        [_] | [_, _] | [_, _, _] => "a short transaction",
        [SETUP_EVENT, _, _, 2 | 3, ..] => "mark 2 at SETUP",
        [IN_EVENT, _, _, 2 | 3] => "mark 2 at IN",
        [IN_EVENT, _, _, 0 | 1, ..] => "an IN with more",
        [IN_EVENT, _, _, _, _, ..] => "an IN with more and another mark",
        [SETUP_EVENT, ..] => "another mark at SETUP",
        [OUT_EVENT, ..] => "another mark at OUT",
        _ => "another mark at IN",
    }
}

/// What makes parts no lesson, each where it is the only ground.
fn note_parts(parts: &Parts, counts: &mut Counts) {
    let Parts { kinds, ticks, lengths, bodies } = parts;
    let n = kinds.len();
    let all: usize = lengths.iter().map(|length| usize::from(*length)).sum();
    let size = 2 + 11 * n + all;
    let grounds = [
        (kinds.iter().any(|kind| *kind != 1 && *kind != 2), "a bad kind"),
        (ticks.len() < n, "too few ticks"),
        (ticks.len() > n, "too many ticks"),
        (lengths.len() < n, "too few lengths"),
        (lengths.len() > n, "too many lengths"),
        (all > bodies.len(), "too short bodies"),
        (all < bodies.len(), "too long bodies"),
        (n > 255, "over 255 entries"),
        (size > 65_536, "over 64 KiB"),
    ];
    let mut file = vec![0; size];
    let told = write(kinds, ticks, lengths, bodies, &mut file);
    let found: Vec<&str> = grounds.iter().filter(|(applies, _)| *applies).map(|(_, name)| *name).collect();
    assert_eq!((told.refusal, told.found), (if found.is_empty() { 0 } else { 13 }, 0));
    match found[..] {
        [] => {
            counts.add("parts written");
            counts.add_limits("parts", n, size);
        }
        [only] => {
            counts.add(format!("parts 13: {only}"));
            counts.add_limits("no parts", n, size);
        }
        _ => counts.add("parts 13: several grounds"),
    }
}

/// What must occur at least this often: half of what is counted, or less.
const WANTED: [(usize, &[&str]); 5] = [
    (
        1000,
        &[
            "a lesson",
            "4 with a byte too little",
            "a tick that goes back",
            "transfer refusal 0",
            "event refusal 0",
            "event refusal 5",
            "event 1 refusal 0",
            "event 2 refusal 0",
            "event 10 pid 00",
            "event 10 pid D2",
            "event 11 pid 00",
            "event 11 pid 1E",
            "event 11 pid 5A",
            "event 11 pid D2",
            "event 12 pid 00",
            "event 12 pid 1E",
            "event 12 pid 4B",
            "event 12 pid 5A",
            "event 12 pid C3",
            "transfer of over 64 bytes, refusal 0",
        ],
    ),
    (
        500,
        &[
            "transfer refusal 2",
            "transfer refusal 3",
            "event refusal 6",
            "event refusal 7",
            "event refusal 8",
            "event 3 refusal 0",
            "event 5 refusal 0",
            "event 6 refusal 0",
            "event 7 refusal 0",
            "event 10 mark 1",
            "event 11 mark 1",
            "an empty event",
            "an unknown code",
            "a plain event with more",
            "pins without their byte",
            "pins with more",
            "a short transaction",
            "an IN with more",
        ],
    ),
    (
        200,
        &[
            "transfer of 4,096 bytes, refusal 0",
            "event 4 refusal 0",
            "event 8 refusal 0",
            "event 9 refusal 0",
            "event 11 mark 3",
            "event 12 of 64 bytes",
            "mark 2 at SETUP",
            "mark 2 at IN",
            "another mark at SETUP",
            "another mark at OUT",
            "another mark at IN",
            "parts written",
            "13: a bad offset, not the first entry",
        ],
    ),
    (
        50,
        &[
            "13: a bad kind, not the first entry",
            "13: a bad offset",
            "13: a bad offset in its high half, not the first entry",
            "13: a body past the end, not the first entry",
            "13: an entry missing",
            "13: an entry missing, not the first entry",
            "13: another version",
            "13: bytes after the last body, not the first entry",
            "13: over 64 KiB",
            "a body at 65,536",
            "a lesson of 0 entries",
            "a lesson of 1 entries",
            "a lesson of 254 entries",
            "a lesson of 255 entries",
            "a lesson of 65536 bytes",
            "parts 13: a bad kind",
            "parts 13: too long bodies",
            "parts 13: too short bodies",
            "ticks",
            "ticks over the end",
        ],
    ),
    (
        8,
        &[
            "13: a bad kind",
            "13: a bad offset in its high half",
            "13: bytes after the last body",
            "13: under two bytes",
            "a lesson of 65535 bytes",
            "parts of 0 entries",
            "parts of 255 entries",
            "parts of 65536 bytes",
            "parts 13: over 255 entries",
            "parts 13: over 64 KiB",
            "parts 13: too few lengths",
            "parts 13: too few ticks",
            "parts 13: too many lengths",
            "parts 13: too many ticks",
            "no parts of 256 entries",
            "no parts of 512 entries",
            "no parts of 65537 bytes",
        ],
    ),
];

#[test]
fn the_trials_reach_every_refusal() {
    let mut counts = Counts::default();
    for seed in 0..8000 {
        match lesson_trial(seed) {
            Trial::File(file) => note_file(&file, &mut counts),
            Trial::Parts(parts) => note_parts(&parts, &mut counts),
            Trial::Ticks(from, to) => counts.add(if from > to { "ticks over the end" } else { "ticks" }),
        }
    }
    let often = |name: &str| counts.0.get(name).copied().unwrap_or_default();
    println!("{:?}", counts.0);
    for (floor, names) in WANTED {
        let rare: Vec<_> = names.iter().filter(|name| often(name) < floor).collect();
        assert!(rare.is_empty(), "reached under {floor} times: {rare:?}");
    }
}
