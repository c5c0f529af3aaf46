//! Lessons of this model: files, replies and refusals worked out by hand from the documents, reading and writing, playing against
//! single calls, and that the trials notice every flip.

use second::bus::*;
use second::compare::Second;
use second::compare_lessons::{compare_trial, shortest_trial};
use second::flips::Flip;
use second::lesson::*;
use second::noticed::unnoticed_lesson_flips;
use second::runs::{
    all_damages, file_of, lesson, lesson_tables, lesson_trial, recipe, size_of, sized, small_lessons, timed,
};
use second::runs::{list, Call, Parts, Rng, Timed, Trial};
use second::{event, int_pin, transfer, Chip};

const RIGHT: Second = Second { flip: None };

/// Powered, stable, `7A 08`, R11 read: four entries, so that the bodies begin at 2E.
#[rustfmt::skip]
const ON: [u8; 52] = [
    0x01, 0x04,
    0x02, 0x00, 0x00, 0x00, 0x00, 0x2E, 0x00, 0x00, 0x00, 0x01, 0x00,
    0x02, 0x05, 0x00, 0x00, 0x00, 0x2F, 0x00, 0x00, 0x00, 0x01, 0x00,
    0x01, 0x04, 0x03, 0x02, 0x01, 0x30, 0x00, 0x00, 0x00, 0x02, 0x00,
    0x01, 0x00, 0x00, 0x00, 0x80, 0x32, 0x00, 0x00, 0x00, 0x02, 0x00,
    0x01, 0x02, 0x7A, 0x08, 0x58, 0x00,
];

/// What playing it writes: two events without a packet, two transfers of two bytes.
const ON_TOLD: [u8; 20] = [0, 0, 0, 0, 0, 0, 0, 0, 0, 0, 2, 0, 0, 0, 0, 0, 2, 0, 0, 0x19];

fn on() -> [Timed; 3] {
    let of = |kind: u8, body: &[u8]| Timed { kind, tick: 0, body: body.to_vec() };
    [of(2, &[1]), of(2, &[2]), of(1, &[0x7A, 0x08])]
}

/// Entries after "On" of document 01: what is told of them, and the chip.
fn after_on(more: &[(u8, &[u8])]) -> (Vec<u8>, Chip) {
    let more = more.iter().map(|(kind, body)| Timed { kind: *kind, tick: 0, body: body.to_vec() });
    let file = file_of(&on().into_iter().chain(more).collect::<Vec<_>>());
    let mut output = vec![0xEE; 70_000];
    let answer = replay(&file, &mut output);
    assert_eq!((answer.refusal, answer.found), (0, 0));
    output.truncate(answer.count);
    (output[14..].to_vec(), answer.chip)
}

fn named(file: &[u8]) -> Option<usize> {
    match check(file) {
        LessonAnswer { refusal: 0, found: 0, .. } => None,
        LessonAnswer { refusal: 13, found, count: 0 } => Some(found),
        other => panic!("{other:?}"),
    }
}

#[test]
fn a_file_byte_for_byte() {
    assert_eq!(check(&ON), LessonAnswer { refusal: 0, found: 0, count: 4 });
    let entries: Vec<Entry> = read(&ON).unwrap().collect();
    assert_eq!(entries[0], Entry { kind: 2, tick: 0, body: &[1] });
    assert_eq!(entries[2], Entry { kind: 1, tick: 0x0102_0304, body: &[0x7A, 0x08] });
    assert_eq!(entries[3], Entry { kind: 1, tick: 0x8000_0000, body: &[0x58, 0x00] });
    let mut file = [0xEE; 54];
    let bodies = [0x01, 0x02, 0x7A, 0x08, 0x58, 0x00];
    let answer = write(&[2, 2, 1, 1], &[0, 5, 0x0102_0304, 0x8000_0000], &[1, 1, 2, 2], &bodies, &mut file);
    assert_eq!(answer, LessonAnswer { refusal: 0, found: 0, count: 52 });
    assert_eq!((&file[..52], &file[52..]), (&ON[..], &[0xEE; 2][..]));
    let mut none = [0xEE; 3];
    assert_eq!(write(&[], &[], &[], &[], &mut none), LessonAnswer { refusal: 0, found: 0, count: 2 });
    assert_eq!(none, [0x01, 0x00, 0xEE]);
}

#[test]
fn a_replay_byte_for_byte() {
    let mut output = [0xEE; 21];
    let answer = replay(&ON, &mut output);
    assert_eq!((answer.refusal, answer.found, answer.count, answer.pin), (0, 0, 20, 1));
    assert_eq!((&output[..20], output[20]), (&ON_TOLD[..], 0xEE));
    assert_eq!((answer.chip.oscok, answer.chip.r(15), answer.chip.r(13)), (1, 0x08, 0x01));
    let none = replay(&[1, 0], &mut []);
    assert_eq!((none.refusal, none.count, none.chip), (0, 0, Chip::power_on()));
}

#[test]
fn room_for_the_replies() {
    let mut output = [0xEE; 20];
    assert_eq!(replay(&ON, &mut output).count, 20);
    assert_eq!(output, ON_TOLD);
    for room in [19, 4, 0] {
        let mut output = [0xEE; 20];
        let answer = replay(&ON, &mut output[..room]);
        assert_eq!((answer.refusal, answer.found, answer.count), (4, 0, 0));
        assert_eq!((output, answer.chip, Ok(answer.pin)), ([0xEE; 20], Chip::power_on(), int_pin(&Chip::power_on())));
    }
    // 13 comes before 4
    let answer = replay(&ON[..51], &mut []);
    assert_eq!((answer.refusal, answer.found, answer.count, answer.chip), (13, 4, 0, Chip::power_on()));
}

#[test]
fn the_entry_that_13_names() {
    assert_eq!(named(&[1, 0]), None);
    // version, under two bytes
    for file in [&[][..], &[1], &[0, 0], &[2, 0], &[0x81, 1]] {
        assert_eq!(named(file), Some(0));
    }
    // the table cut: the first entry that is not whole
    for (bytes, entry) in [(2, 0), (12, 0), (13, 1), (23, 1), (24, 2), (35, 3), (45, 3)] {
        assert_eq!(named(&ON[..bytes]), Some(entry), "{bytes} bytes");
    }
    // the bodies cut, or too much: n
    for bytes in 46..52 {
        assert_eq!(named(&ON[..bytes]), Some(4), "{bytes} bytes");
    }
    assert_eq!(named(&[&ON[..], &[0]].concat()), Some(4));
    assert_eq!(named(&[1, 0, 0]), Some(0));
    let with = |changes: &[(usize, u8)]| {
        let mut file = ON;
        changes.iter().for_each(|(at, byte)| file[*at] = *byte);
        named(&file)
    };
    // bad kinds
    assert_eq!([with(&[(2, 0)]), with(&[(13, 3)]), with(&[(24, 0x82)]), with(&[(35, 255)])], [0, 1, 2, 3].map(Some));
    // bad offsets, in each of their bytes
    assert_eq!([with(&[(7, 0x2F)]), with(&[(19, 1)]), with(&[(31, 1)]), with(&[(43, 1)])], [0, 1, 2, 3].map(Some));
    // another length makes the next offset bad; the last one's moves the end
    assert_eq!([with(&[(11, 2)]), with(&[(34, 1)]), with(&[(44, 3)]), with(&[(45, 1)])], [1, 3, 4, 4].map(Some));
    // the first of two faults
    assert_eq!([with(&[(18, 0), (35, 0)]), with(&[(13, 0), (40, 0)]), with(&[(0, 2), (2, 0)])], [1, 1, 0].map(Some));
    // n says another number: the offsets begin elsewhere
    assert_eq!([with(&[(1, 3)]), with(&[(1, 5)]), with(&[(1, 0)])], [0, 0, 0].map(Some));
    // a gap before the second body, with offsets that know of it
    let gap = [(18, 0x30), (29, 0x31), (40, 0x33)];
    assert_eq!(with(&gap), Some(1));
    // ticks may go any way
    assert_eq!(with(&[(6, 255), (28, 0)]), None);
}

#[test]
fn the_limits_of_a_file() {
    let one = |n: usize| file_of(&[Timed { kind: 1, tick: 0, body: vec![0; n] }]);
    assert_eq!((one(65_523).len(), named(&one(65_523))), (65_536, None));
    assert_eq!(named(&one(65_524)), Some(0));
    // the last body is empty and begins at 65,536
    let two = [(1, 65_512), (2, 0)].map(|(kind, n)| Timed { kind, tick: 0, body: vec![0; n] });
    let file = file_of(&two);
    assert_eq!((file.len(), &file[18..22], named(&file)), (65_536, &[0, 0, 1, 0][..], None));
    let full = vec![Timed { kind: 1, tick: 0, body: vec![0; 245] }; 255];
    assert_eq!((size_of(&full), check(&file_of(&full)).count), (65_282, 255));
    let answer = replay(&file_of(&full), &mut vec![0; 255 * 249]);
    assert_eq!((answer.refusal, answer.count), (0, 63_495));
}

#[test]
fn what_the_writer_refuses() {
    let told = |kinds: &[u8], ticks: usize, lengths: &[u16], bodies: usize, room: usize| {
        let mut file = vec![0xEE; room];
        let answer = write(kinds, &vec![7; ticks], lengths, &vec![0; bodies], &mut file);
        assert!(answer.refusal == 0 || answer.count == 0 && file.iter().all(|byte| *byte == 0xEE));
        assert_eq!(answer.found, 0);
        (answer.refusal, answer.count)
    };
    assert_eq!([told(&[1, 2], 2, &[2, 1], 3, 27), told(&[1, 2], 2, &[2, 1], 3, 26)], [(0, 27), (4, 0)]);
    assert_eq!([told(&[1, 3], 2, &[2, 1], 3, 27), told(&[1, 0], 2, &[2, 1], 3, 0)], [(13, 0), (13, 0)]);
    assert_eq!([told(&[1, 2], 1, &[2, 1], 3, 27), told(&[1, 2], 3, &[2, 1], 3, 27)], [(13, 0), (13, 0)]);
    assert_eq!([told(&[1, 2], 2, &[3], 3, 27), told(&[1, 2], 2, &[2, 1, 0], 3, 27)], [(13, 0), (13, 0)]);
    assert_eq!([told(&[1, 2], 2, &[2, 1], 2, 27), told(&[1, 2], 2, &[2, 1], 4, 28)], [(13, 0), (13, 0)]);
    assert_eq!([told(&[], 0, &[], 0, 1), told(&[], 0, &[], 1, 9), told(&[], 0, &[], 0, 2)], [(4, 0), (13, 0), (0, 2)]);
    // 255 entries, 65,536 bytes
    assert_eq!(told(&[1; 255], 255, &[0; 255], 0, 2807), (0, 2807));
    assert_eq!([told(&[1; 256], 256, &[0; 256], 0, 3000), told(&[1; 256], 256, &[0; 256], 0, 0)], [(13, 0), (13, 0)]);
    assert_eq!([told(&[1], 1, &[65_523], 65_523, 65_536), told(&[1], 1, &[65_523], 65_523, 65_535)], [(0, 65_536), (4, 0)]);
    assert_eq!([told(&[1], 1, &[65_524], 65_524, 65_537), told(&[1], 1, &[65_524], 65_524, 9)], [(13, 0), (13, 0)]);
}

/// An event's body by itself: refusal, PID.
fn plays(body: &[u8]) -> (u8, u8) {
    let (told, _) = after_on(&[(2, body)]);
    assert_eq!(&told[2..], [0, 0]);
    (told[0], told[1])
}

#[test]
fn bodies_of_events() {
    for code in [1, 2, 3, 4, 6, 7, 8, 9] {
        assert_eq!([plays(&[code]), plays(&[code, 0])], [(0, 0), (5, 0)], "code {code}");
    }
    assert_eq!([plays(&[5, 0xFA]), plays(&[5]), plays(&[5, 1, 2])], [(0, 0), (5, 0), (5, 0)]);
    assert_eq!(after_on(&[(2, &[5, 0xFA])]).1.r(20), 0xA0);
    assert_eq!([plays(&[]), plays(&[0]), plays(&[13]), plays(&[13, 0, 0, 0])], [(5, 0); 4]);
    // IN: four bytes, mark 0 or 1
    assert_eq!([plays(&[12, 0, 2, 0]), plays(&[12, 0, 2, 1])], [(0, 0x5A); 2]);
    assert_eq!([plays(&[12, 0, 2, 2]), plays(&[12, 0, 2, 3]), plays(&[12, 0, 2]), plays(&[12, 0, 2, 0, 0])], [(5, 0); 4]);
    // OUT: marks 0 to 3
    assert_eq!([plays(&[11, 0, 1, 0]), plays(&[11, 0, 1, 2]), plays(&[11, 0, 1, 0, 7])], [(0, 0xD2); 3]);
    assert_eq!([plays(&[11, 0, 1, 1]), plays(&[11, 0, 1, 3])], [(0, 0); 2]);
    assert_eq!([plays(&[11, 0, 1, 4]), plays(&[11, 0, 1, 0x80]), plays(&[11, 0, 1]), plays(&[11])], [(5, 0); 4]);
    // SETUP: mark 0 or 1
    let setup = |marks: u8, n: usize| plays(&[&[10, 0, 0, marks][..], &vec![0; n]].concat());
    assert_eq!([setup(0, 8), setup(1, 8), setup(2, 8), setup(3, 8)], [(0, 0xD2), (0, 0), (5, 0), (5, 0)]);
    assert_eq!([setup(0, 7), setup(0, 9), setup(0, 0), setup(2, 9), plays(&[10, 0, 0])].map(|told| told.0), [8, 8, 8, 5, 5]);
    // the event's own refusals
    assert_eq!([plays(&[11, 128, 1, 0]).0, plays(&[12, 0, 16, 0]).0, plays(&[12, 128, 0, 4]).0], [7, 7, 5]);
    assert_eq!(plays(&[&[11, 128, 1, 0][..], &[0; 65]].concat()).0, 6);
}

#[test]
fn marks() {
    let arm: [(u8, &[u8]); 2] = [(1, &[0x12, 0x01]), (1, &[0x3A, 0x01])];
    let in2 = |mark: u8| [12, 0, 2, mark];
    let (told, chip) = after_on(&[arm[0], arm[1], (2, &in2(0)), (2, &in2(1)), (2, &in2(1))]);
    let written = [0, 0, 2, 0, 0, 0];
    assert_eq!(told, [&written[..], &written, &[0, 0xC3, 1, 0, 1], &[0, 0xC3, 1, 0, 1], &[0, 0x5A, 0, 0]].concat());
    assert_eq!((chip.toggle_ep2, chip.ep2.waiting), (1, 0));
    // OUT 1: damaged, DATA0, DATA0 again (dropped), DATA1, no room
    let out = |mark: u8, byte: u8| [11, 0, 1, mark, byte];
    let bodies = [out(1, 1), out(0, 2), out(0, 3), out(2, 4), out(0, 5)];
    let (told, chip) = after_on(&bodies.each_ref().map(|body| (2, &body[..])));
    assert_eq!([told[1], told[5], told[9], told[13], told[17]], [0, 0xD2, 0xD2, 0xD2, 0x5A]);
    assert_eq!((chip.ep1.packet(0), chip.ep1.packet(1)), (&[2][..], &[4][..]));
}

/// A refused entry writes its number, 0 and a count of 0, and the lesson goes on.
#[test]
fn refused_entries() {
    let long = |n: usize| vec![0x58; n];
    let (told, chip) = after_on(&[(1, &[]), (1, &long(4097)), (2, &[99]), (1, &[0x58, 0x00])]);
    assert_eq!(told, [&[2, 0, 0, 0][..], &[3, 0, 0, 0], &[5, 0, 0, 0], &[0, 0, 2, 0, 0, 0x19]].concat());
    assert_eq!(chip, after_on(&[]).1);
    let (told, _) = after_on(&[(1, &long(4096)), (1, &[0x58])]);
    assert_eq!((&told[..6], told.len()), (&[0, 0, 0x00, 0x10, 0, 0x19][..], 4100 + 5));
    let (told, _) = after_on(&[(2, &[11; 4 + 320]), (2, &[11, 0, 0, 0])]);
    assert_eq!(told, [5, 0, 0, 0, 0, 0x5A, 0, 0]);
    let (told, _) = after_on(&[(2, &[&[11, 0, 1, 0][..], &[0; 320]].concat()), (2, &[10, 0, 0, 0, 1])]);
    assert_eq!(told, [6, 0, 0, 0, 8, 0, 0, 0]);
}

#[test]
fn ticks() {
    assert_eq!([elapsed(5, 9), elapsed(9, 9), elapsed(u32::MAX, 1), elapsed(1, 0)], [4, 0, 2, u32::MAX]);
    assert_eq!([elapsed(0x8000_0000, 0), elapsed(0, 0x8000_0000), elapsed(0, u32::MAX)], [1 << 31, 1 << 31, u32::MAX]);
}

fn parts_of(entries: Entries) -> Parts {
    Parts::of(&entries.map(Timed::from).collect::<Vec<_>>())
}

fn written(parts: &Parts) -> Option<Vec<u8>> {
    let mut file = vec![0; FILE];
    let answer = write(&parts.kinds, &parts.ticks, &parts.lengths, &parts.bodies, &mut file);
    file.truncate(answer.count);
    (answer.refusal == 0).then_some(file)
}

/// What is written reads back to the same lesson; a file that is read is written again as it was. So a lesson has one file.
#[test]
fn written_and_read_back() {
    let mut files = 0;
    for trial in (0..3000).map(lesson_trial).chain(lesson_tables()) {
        match &trial {
            Trial::Parts(parts) => {
                if let Some(file) = written(parts) {
                    assert_eq!(read(&file).map(parts_of).as_ref(), Ok(parts));
                }
            }
            Trial::File(file) => {
                if let Ok(entries) = read(file) {
                    assert_eq!(written(&parts_of(entries)).as_ref(), Some(file));
                    files += 1;
                }
            }
            Trial::Ticks(from, to) => assert_eq!(from.wrapping_add(elapsed(*from, *to)), *to),
        }
    }
    assert!(files > 1500, "{files} files are lessons");
}

/// Playing equals making the calls one by one, each lent enough.
#[test]
fn single_calls() {
    let mut reply = [0; 5000];
    let mut lessons = 0;
    for seed in 0..600 {
        let calls: Vec<Call> = list(seed).into_iter().filter(|call| timed(call).is_some()).take(255).collect();
        let file = file_of(&calls.iter().flat_map(timed).collect::<Vec<_>>());
        if file.len() > FILE {
            continue;
        }
        let (mut chip, mut told) = (Chip::power_on(), Vec::new());
        for call in &calls {
            let answer = match call {
                Call::Transfer { bytes, .. } => transfer(chip, bytes, &mut reply),
                Call::Event { event: what, payload, .. } => event(chip, *what, payload, &mut reply),
                _ => unreachable!("no such call is left"),
            };
            chip = answer.chip;
            told.extend([answer.refusal, answer.pid, answer.count as u8, (answer.count >> 8) as u8]);
            told.extend(&reply[..answer.count as usize]);
        }
        let mut output = vec![0; told.len()];
        let answer = replay(&file, &mut output);
        assert_eq!((answer.refusal, answer.count, answer.chip), (0, told.len(), chip), "seed {seed}");
        assert!(output == told, "seed {seed}");
        lessons += 1;
    }
    assert!(lessons > 500, "{lessons} lessons");
}

/// An event and its body say the same, whatever the event does not use.
#[test]
fn events_of_bodies() {
    let carried = Event { code: OUT_EVENT, address: 0x17, endpoint: 1, damaged: 1, data1: 1, ..Event::default() };
    assert_eq!(event_of(&[11, 0x17, 1, 3, 5, 6]), Some((carried, &[5, 6][..])));
    let taken = Event { code: IN_EVENT, address: 0x7F, endpoint: 3, acknowledged: 1, ..Event::default() };
    assert_eq!(event_of(&[12, 0x7F, 3, 1]), Some((taken, &[][..])));
    let asked = Event { code: SETUP_EVENT, damaged: 1, ..Event::default() };
    assert_eq!(event_of(&[10, 0, 0, 1, 9]), Some((asked, &[9][..])));
    assert_eq!(event_of(&[5, 0xAB]), Some((Event { code: PINS, pins: 0xAB, ..Event::default() }, &[][..])));
}

/// The benchmark's lessons fill their files, and all of their entries act.
#[test]
fn the_recipe() {
    for (kib, entries) in [(1, 36), (16, 255), (64, 255)] {
        let file = recipe(1024 * kib);
        assert_eq!((file.len(), check(&file)), (1024 * kib, LessonAnswer { refusal: 0, found: 0, count: entries }));
        let mut output = vec![0; 2 * FILE];
        let count = replay(&file, &mut output).count;
        let mut told = &output[..count];
        let mut pids = Vec::new();
        while let [refusal, pid, low, high, rest @ ..] = told {
            assert_eq!(*refusal, 0);
            pids.push(*pid);
            told = &rest[u16::from_le_bytes([*low, *high]) as usize..];
        }
        assert_eq!((pids.len(), pids.contains(&0x5A), pids.contains(&0x1E)), (entries, false, false));
        for pid in [0xD2, 0x4B, 0xC3] {
            assert!(pids.iter().filter(|p| **p == pid).count() >= entries / 28, "PID {pid:02X}");
        }
    }
}

#[test]
fn sizes() {
    for (seed, size) in [(1, 5000), (2, FILE - 1), (3, FILE), (4, FILE + 1), (5, FILE)] {
        assert_eq!(file_of(&sized(&mut Rng::new(seed), size)).len(), size);
    }
    assert!((0..200).all(|seed| size_of(&lesson(&mut Rng::new(seed))) <= FILE));
    // every bit, six values of each byte, every cut, 21 that are longer
    assert!(small_lessons()
        .iter()
        .map(|entries| file_of(entries))
        .all(|file| all_damages(&file).count() == 15 * file.len() + 21));
}

#[test]
fn every_flip_is_noticed() {
    let missed = unnoticed_lesson_flips(&RIGHT);
    assert!(missed.is_empty(), "not noticed by the random trials: {missed:?}");
}

#[test]
fn self_comparison() {
    for trial in (0..1500).map(lesson_trial).chain(lesson_tables()) {
        assert_eq!(compare_trial(&RIGHT, &RIGHT, &trial), None, "{trial:?}");
    }
}

#[test]
fn a_difference_is_shortened() {
    let flipped = Second { flip: Some(Flip::InMarkInverted) };
    let trial = (0..).map(lesson_trial).find(|trial| compare_trial(&RIGHT, &flipped, trial).is_some());
    let (short, what) = shortest_trial(&RIGHT, &flipped, &trial.unwrap()).unwrap();
    println!("{short:02X?} differs in {what}");
    assert!(matches!(short, Trial::File(file) if file[1] <= 8));
}
