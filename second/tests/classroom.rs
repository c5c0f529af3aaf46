//! The classroom of this model: what each order is refused with, that the classes reach it, that they notice every flip,
//! and that other desks do not matter.

use second::bus::{IN_EVENT, OUT_EVENT, POWER_ON, RESET_START};
use second::classroom::{Classroom, Desk, DESKS};
use second::compare::{Given, Second};
use second::compare_classes::{compare_classes, told_at, OtherClassroom};
use second::noticed::unnoticed_class_flips;
use second::runs::*;
use second::Firmware;
use std::collections::BTreeMap;

const RIGHT: Second = Second { flip: None };

/// Desk 3 is open with key 7, desk 5 with key 9.
fn two_pupils() -> Classroom {
    let room = Classroom::start().open(3, 7);
    assert_eq!(room.refusal, 0);
    let room = room.classroom.open(5, 9);
    assert_eq!(room.refusal, 0);
    room.classroom
}

fn refusal_of(room: Classroom, desk: u8, key: u32) -> u8 {
    room.call(desk, key, &read(11, 1), &mut [0; 2]).refusal
}

#[test]
fn openings_in_the_order_of_the_refusals() {
    let room = two_pupils();
    assert_eq!(room.open(16, 0).refusal, 9);
    assert_eq!(room.open(255, 7).refusal, 9);
    assert_eq!(room.open(3, 0).refusal, 10);
    assert_eq!(room.open(3, 7).refusal, 10);
    assert_eq!(room.open(4, 0).refusal, 12);
    assert_eq!(room.open(4, 9).refusal, 12);
    assert_eq!(room.open(4, 0x10009).refusal, 0);
    let mut spoiled = room;
    spoiled.desks[4].chip.vbus = 1;
    assert_eq!(spoiled.open(4, 9).refusal, 12);
    assert_eq!(spoiled.open(4, 11).refusal, 1);
    assert_eq!(spoiled.open(6, 11).refusal, 0);
    assert_eq!(refusal_of(spoiled, 4, 0), 10);
}

#[test]
fn closings_in_the_order_of_the_refusals() {
    let room = two_pupils();
    assert_eq!(room.close(16).refusal, 9);
    assert_eq!(room.close(4).refusal, 10);
    let closed = room.close(3);
    assert_eq!((closed.refusal, closed.classroom.desks[3]), (0, Desk::closed()));
    assert_eq!(closed.classroom.open(4, 7).refusal, 0);
    let mut spoiled = room;
    spoiled.desks[3].firmware.halted = 1;
    assert_eq!(spoiled.close(3).refusal, 1);
    spoiled.desks[3].opened = 2;
    assert_eq!(spoiled.close(3).refusal, 10);
    assert_eq!(spoiled.open(3, 11).refusal, 1);
}

#[test]
fn a_pupils_calls_in_the_order_of_the_refusals() {
    let room = two_pupils();
    assert_eq!(refusal_of(room, 16, 7), 9);
    assert_eq!(refusal_of(room, 4, 0), 10);
    assert_eq!(refusal_of(room, 3, 9), 11);
    assert_eq!(refusal_of(room, 3, 0x10007), 11);
    assert_eq!(refusal_of(room, 3, 7), 0);
    let mut spoiled = room;
    spoiled.desks[3].firmware.wakeup = 2;
    assert_eq!((refusal_of(spoiled, 3, 9), refusal_of(spoiled, 3, 7), refusal_of(spoiled, 5, 9)), (11, 1, 0));
    let answer = room.call(3, 7, &Call::Step { room: 63 }, &mut [0; 63]);
    assert_eq!((answer.refusal, answer.pin), (4, second::int_pin(&room.desks[3].chip).unwrap_or(2)));
    assert_eq!(room.call(3, 8, &step(), &mut [0; 64]).pin, 2);
}

#[test]
fn an_event_at_a_desk_is_the_boards() {
    let mut room = two_pupils();
    let configured = Firmware { configuration: 1, wakeup: 1, halted: 0 };
    room.desks[3].firmware = configured;
    let unseen = room.call(3, 7, &plain(RESET_START), &mut []).classroom.desks[3];
    assert_eq!(unseen.firmware, configured);
    let again = room.call(3, 7, &plain(POWER_ON), &mut []).classroom.desks[3];
    assert_eq!((again.firmware, again.opened, again.key), (Firmware::power_on(), 1, 7));
    for call in &on()[1..] {
        room = room.call(3, 7, call, &mut [0; 2]).classroom;
    }
    let seen = room.call(3, 7, &plain(RESET_START), &mut []).classroom.desks[3];
    assert_eq!((seen.firmware, seen.opened, seen.key), (Firmware::power_on(), 1, 7));
}

#[test]
fn every_flip_is_noticed() {
    let missed = unnoticed_class_flips(&RIGHT);
    assert!(missed.is_empty(), "not noticed by the classes: {missed:?}");
}

#[test]
fn self_comparison() {
    for seed in 0..200 {
        assert_eq!(compare_classes(&RIGHT, &RIGHT, &class_list(seed)), None, "seed {seed}");
    }
}

/// Why an order is refused, by the rule and by what was ordered.
fn situation(room: &Classroom, order: &Order, given: &Given) -> String {
    let (name, key) = match order {
        Order::Open { key, .. } => ("open", *key),
        Order::Close { .. } => ("close", 0),
        Order::Pupil { key, call, .. } => match call {
            Call::Transfer { .. } => ("transfer", *key),
            Call::Event { event, .. } if event.code == OUT_EVENT || event.code == IN_EVENT => ("transaction", *key),
            Call::Event { .. } => ("event", *key),
            _ => ("step", *key),
        },
        Order::Poke { .. } => return "poke".to_string(),
    };
    let desk = room.desks.get(order.desk() as usize);
    let why = match (given.refusal, desk) {
        (10, Some(desk)) if desk.is_open() => " of an open desk",
        (10, Some(desk)) if *desk != Desk::closed() => " of a spoiled desk",
        (11, Some(desk)) if desk.key as u16 == key as u16 => " in the high bits",
        (11, Some(desk)) if desk.key >> 16 == key >> 16 => " in the low bits",
        (12, _) if key == 0 => " that is 0",
        (1, Some(desk)) if desk.firmware.is_sound() && desk.chip.is_sound() => " of sound records",
        _ => "",
    };
    format!("{name} {}{why}", given.refusal)
}

#[test]
fn the_classes_reach_every_refusal() {
    let mut counts: BTreeMap<String, usize> = BTreeMap::new();
    let mut most_open = 0;
    for seed in 0..1200 {
        let mut room = Classroom::start();
        for order in class_list(seed) {
            let mut reply = vec![0; order.room()];
            let (after, given) = match &order {
                Order::Open { desk, key } => told(RIGHT.open(room, *desk, *key)),
                Order::Close { desk } => told(RIGHT.close(room, *desk)),
                Order::Pupil { desk, key, call } => RIGHT.call(room, *desk, *key, call, &mut reply),
                Order::Poke { desk, field, value } => {
                    RIGHT.poke(&mut room, *desk, *field, *value);
                    continue;
                }
            };
            *counts.entry(situation(&room, &order, &given)).or_default() += 1;
            room = after;
            most_open = most_open.max(room.desks.iter().filter(|desk| desk.is_open()).count());
        }
    }
    println!("{counts:#?}");
    let pupil = ["transfer", "event", "transaction", "step"];
    let often = ["open 0", "open 9", "open 10 of an open desk", "open 12", "open 12 that is 0", "open 1 of sound records"];
    let closing = ["close 0", "close 9", "close 10"];
    let calling = ["0", "9", "10", "11", "11 in the high bits", "11 in the low bits", "1"];
    let all = pupil.iter().flat_map(|name| calling.iter().map(move |n| format!("{name} {n}")));
    let named = often.iter().chain(&closing).map(|name| name.to_string());
    let rare: Vec<String> = all.chain(named).filter(|name| counts.get(name).copied().unwrap_or(0) < 50).collect();
    assert!(rare.is_empty(), "reached under 50 times: {rare:?}");
    for name in ["open 1", "close 1", "close 10 of a spoiled desk", "transfer 10 of a spoiled desk"] {
        assert!(counts.get(name).copied().unwrap_or(0) >= 10, "{name}");
    }
    assert_eq!(most_open, DESKS);
}

fn told((room, refusal): (Classroom, u8)) -> (Classroom, Given) {
    (room, Given { refusal, pid: 0, count: 0, pin: 0, found: 0 })
}

#[test]
fn other_desks_do_not_matter() {
    for seed in 0..300 {
        let (desk, [left, right]) = same_at_one_desk(&mut Rng::new(seed));
        let told = told_at(&RIGHT, &left, desk);
        assert!(left != right && told.0[0].0.refusal == 0, "seed {seed}: two classes, the desk opened");
        assert_eq!(told, told_at(&RIGHT, &right, desk), "seed {seed}, desk {desk}");
    }
}
