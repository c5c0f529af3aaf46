//! Single calls, and short groups of them.

use super::{Call, Rng};
use crate::bus::*;

/// A transfer with just enough room.
pub fn spi(bytes: &[u8]) -> Call {
    Call::Transfer { bytes: bytes.to_vec(), room: bytes.len() }
}

/// `register` written with data.
pub fn write(register: u8, data: &[u8]) -> Call {
    let mut bytes = vec![register << 3 | 2];
    bytes.extend_from_slice(data);
    spi(&bytes)
}

/// `register` read n times.
pub fn read(register: u8, n: usize) -> Call {
    let mut bytes = vec![register << 3];
    bytes.resize(n + 1, 0);
    spi(&bytes)
}

/// An event of codes 1 to 9 (or a code that is none).
pub fn plain(code: u8) -> Call {
    transaction(Event { code, ..Event::default() }, &[], 0)
}

pub fn pins(pins: u8) -> Call {
    transaction(Event { code: PINS, pins, ..Event::default() }, &[], 0)
}

pub fn transaction(event: Event, payload: &[u8], room: usize) -> Call {
    Call::Event { event, payload: payload.to_vec(), room }
}

pub fn setup(address: u8, bytes: &[u8]) -> Call {
    transaction(Event { code: SETUP_EVENT, address, ..Event::default() }, bytes, 0)
}

pub fn out(address: u8, endpoint: u8, data1: bool, payload: &[u8]) -> Call {
    let data1 = u8::from(data1);
    transaction(Event { code: OUT_EVENT, address, endpoint, data1, ..Event::default() }, payload, 0)
}

/// IN; the host's ACK arrives or is lost.
pub fn take(address: u8, endpoint: u8, acknowledged: bool) -> Call {
    let acknowledged = u8::from(acknowledged);
    transaction(Event { code: IN_EVENT, address, endpoint, acknowledged, ..Event::default() }, &[], 64)
}

pub fn step() -> Call {
    Call::Step { room: 64 }
}

/// Powered, stable, `7A 08` sent ("On" of document 01).
pub fn on() -> Vec<Call> {
    vec![plain(POWER_ON), plain(STABLE), spi(&[0x7A, 0x08])]
}

/// Every register read: R5 to R20 and two more, the FIFOs past their end, one that does not exist.
pub fn read_all() -> Vec<Call> {
    vec![read(5, 18), read(0, 66), read(1, 66), read(2, 2), read(3, 2), read(4, 10), read(21, 2), read(5, 3)]
}

/// Setup bytes of one kind each: read, write, without data, read of 0 bytes, SET_ADDRESS, and near misses of it.
pub fn setup_kinds(address: u8) -> [[u8; 8]; 9] {
    [
        [0x80, 6, 0, 1, 0, 0, 64, 0],
        [0x80, 8, 0, 0, 0, 0, 0, 1],
        [0x21, 9, 0, 2, 0, 0, 8, 0],
        [0x00, 9, 1, 0, 0, 0, 0, 0],
        [0x80, 6, 0, 1, 0, 0, 0, 0],
        [0x00, 5, address, 0, 0, 0, 0, 0],
        [0x00, 5, address, 0, 0, 0, 2, 0],
        [0x80, 5, address, 0, 0, 0, 0, 0],
        [0x00, 4, address, 0, 0, 0, 0, 0],
    ]
}

/// A count for R5, R7, R8: often one that arms.
pub fn arm_count(rng: &mut Rng) -> u8 {
    match rng.below(8) {
        0 => rng.byte(),
        1 => rng.pick(&[0, 1, 63, 64, 65, 127, 128, 129, 192, 193, 255]),
        2 => 0x80 | rng.below(66) as u8,
        _ => rng.below(66) as u8,
    }
}

/// The length of an OUT payload, now and then full or empty.
pub fn out_length(rng: &mut Rng) -> usize {
    match rng.below(6) {
        0 => 0,
        1 => 64,
        _ => rng.below(12),
    }
}

/// Any transaction or other event: marks, toggles, endpoints and addresses near what the chip may answer.
pub fn any_event(rng: &mut Rng, address: u8) -> Call {
    let code = match rng.below(64) {
        0 => rng.byte(),
        n if n < 12 => rng.pick(&[2, 3, 4, 5, 6, 7, 8, 9, 9, 3]),
        n if n < 18 => SETUP_EVENT,
        n if n < 38 => OUT_EVENT,
        _ => IN_EVENT,
    };
    let event = Event {
        code,
        pins: rng.byte(),
        address: if rng.one_in(12) { rng.byte() } else { address },
        endpoint: any_endpoint(rng, code),
        damaged: if rng.one_in(12) { rng.pick(&[1, 2, 0x80, 255]) } else { 0 },
        data1: rng.pick(&[0, 0, 1, 1, 2, 255]),
        acknowledged: rng.pick(&[0, 1, 1, 1, 2, 254]),
    };
    let payload = any_payload(rng, code, address);
    let room = if code == IN_EVENT { 64 + rng.below(3) } else { rng.below(3) };
    transaction(event, &payload, room)
}

fn any_endpoint(rng: &mut Rng, code: u8) -> u8 {
    match (rng.below(16), code) {
        (0, _) => rng.below(17) as u8,
        (1, _) => rng.below(4) as u8,
        (_, SETUP_EVENT) => 0,
        (_, OUT_EVENT) => rng.below(2) as u8,
        _ => rng.pick(&[0, 2, 3]),
    }
}

fn any_payload(rng: &mut Rng, code: u8, address: u8) -> Vec<u8> {
    match code {
        SETUP_EVENT => any_setup(rng, address).to_vec(),
        OUT_EVENT => {
            let n = out_length(rng);
            rng.bytes(n)
        }
        _ if rng.one_in(8) => rng.bytes(3),
        _ => Vec::new(),
    }
}

/// Setup bytes: a kind, a request of the firmware's, or any bytes.
pub fn any_setup(rng: &mut Rng, address: u8) -> [u8; 8] {
    match rng.below(8) {
        0 => std::array::from_fn(|_| rng.byte()),
        1..=3 => super::requests::any_request(rng),
        _ => rng.pick(&setup_kinds(address)),
    }
}
