//! Calls that are refused, alone and for several reasons at once, in a chip where something waits.

use super::*;
use crate::bus::*;

/// A used chip, then refused calls of every number with good ones between them.
pub fn refusals(rng: &mut Rng) -> Vec<Call> {
    let mut calls = on();
    calls.extend([out(0, 1, false, &[7, 8]), write(2, &[9, 9]), write(7, &[2]), setup(0, &setup_kinds(5)[rng.below(9)])]);
    if rng.one_in(3) {
        calls.push(write(15, &[rng.pick(&[0x00, 0x28, 0x48])]));
    }
    for _ in 0..60 {
        calls.push(one_refusal(rng));
        if rng.one_in(4) {
            calls.push(any_event(rng, 0));
        }
    }
    calls
}

/// One call with a ground of refusal, or just inside the limit.
pub fn one_refusal(rng: &mut Rng) -> Call {
    match rng.below(12) {
        0 => Call::Transfer { bytes: Vec::new(), room: rng.below(3) },
        1 => long_transfer(rng),
        2 => short_reply(rng),
        3 => transaction(Event { code: rng.byte(), ..Event::default() }, &[], rng.below(70)),
        4 => Call::Step { room: rng.pick(&[0, 1, 63, 64, 4200]) },
        5 => wrong_length(rng, OUT_EVENT, &[63, 64, 65, 66, 200, 256, 320]),
        6 => wrong_length(rng, SETUP_EVENT, &[0, 7, 8, 9, 64, 65, 264]),
        7..=9 => far_transaction(rng),
        _ => any_marks(rng),
    }
}

/// 4,096 bytes pass, 4,097 do not; the room may be short as well.
fn long_transfer(rng: &mut Rng) -> Call {
    let n = rng.pick(&[4095, 4096, 4097, 5000]);
    let mut bytes = rng.bytes(n);
    bytes[0] = rng.pick(&[0x00, 0x02, 0x0A, 0x12, 0x20, 0xA0, 0xA2, 0xF9]);
    let room = rng.pick(&[0, 4096, 4097, 5001]);
    Call::Transfer { bytes, room }
}

fn short_reply(rng: &mut Rng) -> Call {
    let n = 1 + rng.below(20);
    let room = rng.pick(&[0, n - 1, n, n + 1]);
    Call::Transfer { bytes: rng.bytes(n), room }
}

fn wrong_length(rng: &mut Rng, code: u8, lengths: &[usize]) -> Call {
    let n = rng.pick(lengths);
    let event = Event { code, address: rng.pick(&[0, 0, 128]), endpoint: rng.pick(&[0, 1, 16]), ..Event::default() };
    transaction(event, &rng.bytes(n), rng.below(70))
}

fn far_transaction(rng: &mut Rng) -> Call {
    let event = Event {
        code: rng.pick(&[SETUP_EVENT, OUT_EVENT, IN_EVENT]),
        address: rng.pick(&[0, 127, 128, 255]),
        endpoint: rng.pick(&[0, 1, 2, 3, 4, 15, 16, 255]),
        damaged: rng.below(2) as u8,
        ..Event::default()
    };
    transaction(event, &rng.bytes(8), rng.pick(&[0, 63, 64]))
}

/// Every argument from its edges.
fn any_marks(rng: &mut Rng) -> Call {
    let event = Event {
        code: rng.below(14) as u8,
        pins: rng.byte(),
        address: rng.pick(&[0, 0, 0, 127, 128, 200]),
        endpoint: rng.pick(&[0, 0, 1, 2, 3, 15, 16]),
        damaged: rng.pick(&[0, 0, 1, 7]),
        data1: rng.byte(),
        acknowledged: rng.byte(),
    };
    let n = rng.pick(&[0, 8, 8, 64, 65]);
    transaction(event, &rng.bytes(n), rng.pick(&[0, 63, 64, 64, 100]))
}
