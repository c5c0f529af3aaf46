//! Do the runs reach what they are for? Counts the situations of a stream of lists; each named one must occur.

use second::bus::*;
use second::chip::*;
use second::runs::*;
use second::{board_event, board_step, fields, sees_bus, transfer, Chip, Event, Firmware};
use std::collections::BTreeMap;

#[derive(Default)]
struct Counts(BTreeMap<String, usize>);

impl Counts {
    fn add(&mut self, what: String) {
        *self.0.entry(what).or_default() += 1;
    }
}

/// Plays a list on the model; from power-on without pokes every record must be sound.
fn play(list: &[Call], counts: &mut Counts) {
    let (mut chip, mut firmware) = (Chip::power_on(), Firmware::power_on());
    let mut poked = false;
    for call in list {
        let mut reply = vec![0; call.room()];
        match call {
            Call::Transfer { bytes, .. } => {
                let answer = transfer(chip, bytes, &mut reply);
                counts.add(format!("transfer refusal {}", answer.refusal));
                note_write(&chip, bytes, counts);
                note_bav(&chip, bytes, counts);
                if answer.refusal == 0 {
                    note_burst(&chip, bytes, counts);
                }
                chip = answer.chip;
            }
            Call::Event { event, payload, .. } => {
                let after = board_event(chip, firmware, *event, payload, &mut reply);
                note_event(&chip, event, payload, after.answer.refusal, after.answer.pid, counts);
                (chip, firmware) = (after.answer.chip, after.firmware);
            }
            Call::Step { .. } => {
                let answer = board_step(chip, firmware, &mut reply);
                counts.add(format!("step refusal {} kind {}", answer.refusal, answer.kind));
                let changes = firmware != answer.firmware;
                counts.add(format!("step changes the firmware {changes}"));
                (chip, firmware) = (answer.chip, answer.firmware);
            }
            Call::Poke { field, value } => {
                if *field < fields::FIELDS.len() {
                    poked = true;
                    fields::poke(&mut chip, *field, *value);
                }
            }
        }
        assert!(poked || chip.is_sound() && firmware.is_sound());
    }
}

fn note_write(chip: &Chip, bytes: &[u8], counts: &mut Counts) {
    let &[command, byte, ..] = bytes else { return };
    let chips = [chip.ep0_waiting > 0 || chip.has(EPIRQ, OUT0DAVIRQ), false, chip.ep2.waiting == 2, chip.ep3_waiting > 0];
    match (command & 2, command >> 3) {
        (2, r @ (0 | 2 | 3)) => counts.add(format!("R{r} written, the chip's {}", chips[r as usize])),
        (2, 5) => counts.add(format!("R5 over {} the chip's {}", byte & 0x7F > 64, chips[0])),
        (2, 7) => counts.add(format!("R7 over {} waiting {} first {}", byte > 64, chip.ep2.waiting, chip.ep2.oldest)),
        (2, 8) => counts.add(format!("R8 over {} the chip's {}", byte > 64, chips[3])),
        (2, 11) if byte & 4 != 0 => counts.add(format!("release of {} first {}", chip.ep1.waiting, chip.ep1.oldest)),
        (2, 15) => counts.add(format!("CHIPRES {} to {}", chip.has(USBCTL, CHIPRES), byte & CHIPRES != 0)),
        (0, 1) => counts.add(format!("R1 read with {} first {}", chip.ep1.waiting, chip.ep1.oldest)),
        _ => {}
    }
}

/// What R0, R2 and R3 are written with: how a burst of two bytes or more meets the buffer and its write position, bit 0 of the
/// command with such a burst and with no data at all, and which of endpoint 2's buffers is the next one.
fn note_burst(chip: &Chip, bytes: &[u8], counts: &mut Counts) {
    let (register, ackstat, data) = (bytes[0] >> 3, bytes[0] & 1, bytes.len() - 1);
    let (position, owned) = match register {
        0 if chip.ep0_waiting > 0 => (chip.r0_write, "while armed"),
        0 => (chip.r0_write, if chip.has(EPIRQ, OUT0DAVIRQ) { "while OUT0DAVIRQ" } else { "" }),
        2 => (chip.r2_write, if chip.ep2.waiting == 2 { "while two wait" } else { "" }),
        3 => (chip.r3_write, if chip.ep3_waiting > 0 { "while armed" } else { "" }),
        _ => return,
    };
    match (bytes[0] & 2, data) {
        (0, _) | (_, 1) => return,
        (_, 0) => return counts.add(format!("R{register} no data, ACKSTAT {ackstat}")),
        _ => counts.add(format!("R{register} burst, ACKSTAT {ackstat}")),
    }
    let (from, end) = (if position > 0 { "over 0" } else { "0" }, position as usize + data);
    counts.add(match (owned, position) {
        ("", 64) => format!("R{register} burst at 64"),
        ("", _) if end > 64 => format!("R{register} burst in part from {from}"),
        ("", _) => format!("R{register} burst whole from {from}"),
        _ => format!("R{register} burst {owned}"),
    });
    if owned.is_empty() && (end == 64 || end == 65) {
        counts.add(format!("R{register} burst up to {end}"));
    }
    if register == 2 && owned.is_empty() {
        counts.add(format!("R2 burst to buffer {}", chip.ep2.index(chip.ep2.waiting)));
    }
}

/// What soundness alone allows: a BAV bit that is 0 though there is room.
fn cleared_by_hand(chip: &Chip) -> bool {
    chip.ep2.waiting < 2 && !chip.has(EPIRQ, IN2BAVIRQ) || chip.ep3_waiting == 0 && !chip.has(EPIRQ, IN3BAVIRQ)
}

/// 1s written to the BAV bits of endpoints 2 and 3, armings and chip resets, by what the bits say before.
fn note_bav(chip: &Chip, bytes: &[u8], counts: &mut Counts) {
    let &[command, byte, ..] = bytes else { return };
    let (bit2, bit3) = (chip.has(EPIRQ, IN2BAVIRQ), chip.has(EPIRQ, IN3BAVIRQ));
    let (waiting2, waiting3) = (chip.ep2.waiting, chip.ep3_waiting);
    if command & 2 == 0 {
        return;
    }
    match command >> 3 {
        7 if byte <= 64 => counts.add(format!("R7 waiting {waiting2} IN2BAVIRQ {bit2}")),
        8 if byte <= 64 => counts.add(format!("R8 waiting {waiting3} IN3BAVIRQ {bit3}")),
        11 if byte & IN2BAVIRQ != 0 => counts.add(format!("1 to IN2BAVIRQ waiting {waiting2} bit {bit2}")),
        15 if byte & CHIPRES != 0 => counts.add(format!("CHIPRES set, cleared by hand {}", cleared_by_hand(chip))),
        _ => {}
    }
    if command >> 3 == 11 && byte & IN3BAVIRQ != 0 {
        counts.add(format!("1 to IN3BAVIRQ waiting {waiting3} bit {bit3}"));
    }
}

fn note_event(chip: &Chip, event: &Event, payload: &[u8], refusal: u8, pid: u8, counts: &mut Counts) {
    let code = event.code.min(13);
    counts.add(format!("event {code} refusal {refusal}"));
    counts.add(format!("event {code} cleared by hand {}", cleared_by_hand(chip)));
    if refusal != 0 || code < RESET_START {
        return;
    }
    counts.add(format!("event {code} seen {}", sees_bus(chip)));
    let gate = (chip.has(USBCTL, VBGATE), chip.vbus == 1);
    counts.add(format!("event {code} gate {gate:?}"));
    let hears = sees_bus(chip) && event.address == chip.r(FNADDR) && (event.damaged == 0 || code == IN_EVENT);
    if hears && code >= SETUP_EVENT {
        counts.add(format!("event {code} endpoint {} pid {pid:02X}", event.endpoint.min(4)));
        note_endpoint(chip, event, payload, counts);
    }
}

/// Endpoint 0: each stage with each of ACKSTAT, STLSTAT and its STLEP bit; the others: disabled, stalled, packets, turn.
fn note_endpoint(chip: &Chip, event: &Event, payload: &[u8], counts: &mut Counts) {
    let bits = |b: u8| u8::from(chip.has(EPSTALLS, b));
    let room = chip.ep0_waiting == 0 && !chip.has(EPIRQ, OUT0DAVIRQ);
    let (disabled, stalled, waiting, first, toggle) = match (event.code, event.endpoint) {
        (IN_EVENT, 0) => {
            let r9 = (bits(ACKSTAT), bits(STLSTAT), bits(STLEP0IN));
            return counts.add(format!("IN 0 {} {r9:?} armed {}", transfer_kind(chip), chip.ep0_waiting));
        }
        (OUT_EVENT, 0) => {
            let r9 = (bits(ACKSTAT), bits(STLSTAT), bits(STLEP0OUT));
            counts.add(format!("OUT 0 {} {r9:?} empty {}", transfer_kind(chip), payload.is_empty()));
            let fits = u8::from(event.data1 != 0) == chip.toggle_ep0out;
            return counts.add(format!("OUT 0 {} room {room} toggle fits {fits}", transfer_kind(chip)));
        }
        (OUT_EVENT, 1) => {
            let fits = u8::from(event.data1 != 0) == chip.toggle_ep1;
            (chip.has(CLRTOGS, 0x20), bits(STLEP1OUT), chip.ep1.waiting, chip.ep1.oldest, fits)
        }
        (IN_EVENT, 2) => {
            let lost = event.acknowledged == 0;
            (chip.has(CLRTOGS, 0x40), bits(STLEP2IN), chip.ep2.waiting, chip.ep2.oldest, lost)
        }
        (IN_EVENT, 3) => (chip.has(CLRTOGS, 0x80), bits(STLEP3IN), chip.ep3_waiting, 0, event.acknowledged == 0),
        _ => return,
    };
    let code = event.code;
    counts.add(format!("event {code} at {} disabled {disabled} stalled {stalled}", event.endpoint));
    if !disabled && stalled == 0 {
        counts.add(format!("event {code} at {} waiting {waiting} first {first} mark {toggle}", event.endpoint));
    }
}

fn transfer_kind(chip: &Chip) -> &'static str {
    match (chip.setup, chip.sudfifo[0] & 0x80 != 0, chip.wlength() != 0) {
        (0, _, _) => "no setup",
        (_, true, true) => "read",
        (_, false, true) => "write",
        (_, true, false) => "read of 0",
        (_, false, false) => "no data",
    }
}

/// Everything that must occur.
fn wanted() -> Vec<String> {
    let mut all = Vec::new();
    let both = [false, true];
    let kinds = ["no setup", "read", "write", "read of 0", "no data"];
    for n in 0..16 {
        let r9 = (n & 1, n >> 1 & 1, n >> 2 & 1);
        for kind in kinds {
            if kind != "no setup" {
                all.push(format!("IN 0 {kind} {r9:?} armed {}", n >> 3));
            }
            all.push(format!("OUT 0 {kind} {r9:?} empty {}", n >> 3 == 1));
        }
    }
    for (a, b) in [(false, false), (false, true), (true, false), (true, true)] {
        all.push(format!("OUT 0 write room {a} toggle fits {b}"));
        all.push(format!("R5 over {a} the chip's {b}"));
        all.push(format!("R8 over {a} the chip's {b}"));
        all.push(format!("CHIPRES {a} to {b}"));
        all.extend((6..=12).map(|code| format!("event {code} gate {:?}", (a, b))));
        let places = [(11, 1), (12, 2), (12, 3)];
        all.extend(places.iter().map(|(c, e)| format!("event {c} at {e} disabled {a} stalled {}", u8::from(b))));
        all.extend((0..2).map(|waiting| format!("event 12 at 3 waiting {waiting} first 0 mark {a}")));
    }
    for b in both {
        all.extend([0, 2, 3].iter().map(|r| format!("R{r} written, the chip's {b}")));
        all.extend((6..=12).map(|code| format!("event {code} seen {b}")));
        for n in 0..6 {
            let (waiting, first) = (n % 3, n / 3);
            all.push(format!("event 11 at 1 waiting {waiting} first {first} mark {b}"));
            all.push(format!("event 12 at 2 waiting {waiting} first {first} mark {b}"));
            all.push(format!("R7 over {b} waiting {waiting} first {first}"));
            all.push(format!("release of {waiting} first {first}"));
            all.push(format!("R1 read with {waiting} first {first}"));
        }
    }
    for pid in ["D2", "5A", "1E"] {
        all.extend((0..2).map(|e| format!("event 11 endpoint {e} pid {pid}")));
    }
    for pid in ["5A", "1E", "C3", "4B"] {
        all.extend([0, 2, 3].iter().map(|e| format!("event 12 endpoint {e} pid {pid}")));
    }
    all.extend([0, 2, 3, 4].iter().map(|n| format!("transfer refusal {n}")));
    all.extend((0..=12).map(|code| format!("event {code} refusal {}", if code == 0 { 5 } else { 0 })));
    all.extend(["event 12 refusal 4", "event 13 refusal 5", "event 10 refusal 8", "event 11 refusal 6"].map(String::from));
    all.extend((10..=12).map(|code| format!("event {code} refusal 7")));
    for (waiting, bit) in [(0, false), (0, true), (1, false), (1, true), (2, false)] {
        all.extend([format!("1 to IN2BAVIRQ waiting {waiting} bit {bit}"), format!("R7 waiting {waiting} IN2BAVIRQ {bit}")]);
    }
    for (waiting, bit) in [(0, false), (0, true), (1, false)] {
        all.extend([format!("1 to IN3BAVIRQ waiting {waiting} bit {bit}"), format!("R8 waiting {waiting} IN3BAVIRQ {bit}")]);
    }
    all.push("CHIPRES set, cleared by hand true".to_string());
    all.extend((1..=12).map(|code| format!("event {code} cleared by hand true")));
    all.extend((0..=3).map(|kind| format!("step refusal 0 kind {kind}")));
    all.push("step refusal 4 kind 0".to_string());
    all
}

/// Every way of `note_burst`.
fn wanted_bursts() -> Vec<String> {
    let each = [
        "burst whole from 0",
        "burst whole from over 0",
        "burst in part from 0",
        "burst in part from over 0",
        "burst at 64",
        "burst up to 64",
        "burst up to 65",
        "burst, ACKSTAT 0",
        "burst, ACKSTAT 1",
        "no data, ACKSTAT 0",
        "no data, ACKSTAT 1",
    ];
    let mut all: Vec<String> = [0, 2, 3].iter().flat_map(|r| each.map(|way| format!("R{r} {way}"))).collect();
    all.extend(["R0 burst while armed", "R0 burst while OUT0DAVIRQ", "R3 burst while armed"].map(String::from));
    all.extend(["R2 burst while two wait", "R2 burst to buffer 0", "R2 burst to buffer 1"].map(String::from));
    all
}

/// The wanted bursts that occur less often than `floor`; prints how often each does.
fn rare_bursts(counts: &Counts, floor: usize) -> Vec<(usize, String)> {
    let often = |name: &String| counts.0.get(name).copied().unwrap_or_default();
    let mut found: Vec<_> = wanted_bursts().into_iter().map(|name| (often(&name), name)).collect();
    println!("{found:?}");
    found.retain(|(n, _)| *n < floor);
    found
}

#[test]
fn the_runs_reach_every_situation_from_power_on() {
    let mut counts = Counts::default();
    let mut calls = 0;
    for seed in 0..3000u64 {
        let rng = &mut Rng::new(seed);
        let list = match seed % 8 {
            0 => walk(rng, 400),
            1 | 2 => requests(rng),
            3 => refusals(rng),
            _ => built(rng),
        };
        calls += list.len();
        play(&list, &mut counts);
    }
    let missing: Vec<String> = wanted().into_iter().filter(|name| !counts.0.contains_key(name)).collect();
    let rare: Vec<_> = counts.0.iter().filter(|(_, n)| **n < 10).collect();
    println!("{calls} calls, {} situations, rare: {rare:?}", counts.0.len());
    assert!(missing.is_empty(), "not reached: {missing:#?}");
    // 1s go to both BAV bits often, whatever waits and whatever they are
    let by_hand: Vec<_> = counts.0.iter().filter(|(name, _)| name.starts_with("1 to IN")).collect();
    println!("{by_hand:?}");
    assert!(by_hand.iter().all(|(_, n)| **n >= 200));
    // the rarest way occurs 110 times
    let rare = rare_bursts(&counts, 60);
    assert!(rare.is_empty(), "rare: {rare:?}");
}

#[test]
fn the_table_of_bursts_reaches_every_way() {
    let mut counts = Counts::default();
    burst_states().for_each(|list| play(&list, &mut counts));
    assert!(!counts.0.contains_key("transfer refusal 1"), "its records are sound");
    let rare = rare_bursts(&counts, 2);
    assert!(rare.is_empty(), "rare: {rare:?}");
}

#[test]
fn unsound_records_are_reached_and_refused() {
    let mut counts = Counts::default();
    (0..500u64).for_each(|seed| play(&unsound_record(&mut Rng::new(seed)), &mut counts));
    for name in ["transfer refusal 1", "event 1 refusal 1", "event 12 refusal 1", "step refusal 1 kind 0"] {
        assert!(counts.0.contains_key(name), "{name}");
    }
}
