//! Chapter 9 requests: each served by the board step, with its stages, in every firmware state.

use super::*;
use crate::bus::*;
use crate::fields::FIELDS;

/// Type and code of what is answered, and neighbours that are stalled.
const CODES: [[u8; 2]; 24] = [
    [0x80, 0x00],
    [0x81, 0x00],
    [0x82, 0x00],
    [0x00, 0x01],
    [0x00, 0x03],
    [0x02, 0x01],
    [0x02, 0x03],
    [0x00, 0x05],
    [0x80, 0x06],
    [0x80, 0x06],
    [0x80, 0x06],
    [0x81, 0x06],
    [0x81, 0x06],
    [0x80, 0x08],
    [0x00, 0x09],
    [0x00, 0x09],
    [0x81, 0x0A],
    [0x01, 0x0B],
    [0x01, 0x01],
    [0x00, 0x07],
    [0x82, 0x0C],
    [0xC0, 0x00],
    [0x21, 0x0A],
    [0xA1, 0x01],
];

/// A request that is often right in all fields, else wrong in one or two.
pub fn any_request(rng: &mut Rng) -> [u8; 8] {
    let [kind, code] = rng.pick(&CODES);
    let reads = kind & 0x80 != 0;
    let value = usual_value(rng, code, kind);
    let index: u16 = match (kind & 0x7F, code) {
        (2, _) => rng.pick(&[0x83, 0x83, 0x83, 0, 0x80, 0x81, 0x03, 0x0183]),
        (_, 6) => rng.pick(&[0, 0, 0, 0x0409]),
        _ => rng.pick(&[0, 0, 0, 0, 0, 0, 1, 0x100]),
    };
    let length: u16 = if reads {
        rng.pick(&[0, 1, 2, 8, 9, 18, 34, 43, 64, 255, 0x100, 0x0112, 0xFFFF])
    } else {
        rng.pick(&[0, 0, 0, 0, 0, 0, 1, 0x100])
    };
    let mut request = [kind, code, 0, 0, 0, 0, 0, 0];
    request[2..4].copy_from_slice(&value.to_le_bytes());
    request[4..6].copy_from_slice(&index.to_le_bytes());
    request[6..8].copy_from_slice(&length.to_le_bytes());
    if rng.one_in(12) {
        request[rng.below(8)] ^= 1 << rng.below(8);
    }
    request
}

fn usual_value(rng: &mut Rng, code: u8, kind: u8) -> u16 {
    match code {
        1 | 3 if kind == 0 => rng.pick(&[1, 1, 1, 0, 2, 0x101]),
        5 => rng.pick(&[0, 1, 0x17, 0x7F, 0x80, 0xFF, 0x1234]),
        6 => {
            let descriptor = rng.pick(&[1, 2, 3, 3, 3, 0x21, 0x22, 0, 4, 5, 6, 0x20, 0x23]);
            let index = rng.pick(&[0, 0, 0, 1, 2, 3, 4, 255]);
            descriptor << 8 | index
        }
        9 => rng.pick(&[0, 1, 1, 1, 2, 0x100, 0x101]),
        _ => rng.pick(&[0, 0, 0, 0, 0, 1, 0x100]),
    }
}

/// A host that asks, the board that answers, the stages after it; registers changed by hand between.
pub fn requests(rng: &mut Rng) -> Vec<Call> {
    let mut calls = on();
    let mut address = 0;
    if !rng.one_in(4) {
        calls.extend([setup(0, &[0, 9, 1, 0, 0, 0, 0, 0]), step(), take(0, 0, true)]);
    }
    for _ in 0..20 {
        address = one_request(rng, address, &mut calls);
    }
    calls
}

fn one_request(rng: &mut Rng, address: u8, calls: &mut Vec<Call>) -> u8 {
    let request = any_request(rng);
    use_toggles(rng, address, calls);
    calls.push(setup(address, &request));
    calls.extend(by_hand(rng));
    calls.push(step());
    let mut now = address;
    for _ in 0..3 {
        let acknowledged = !rng.one_in(4);
        calls.push(take(now, 0, acknowledged));
        if acknowledged && request[..2] == [0, 5] && request[4..] == [0; 4] {
            now = request[2] & 0x7F;
        }
        if rng.one_in(3) {
            let n = rng.pick(&[0, 0, 0, 1, 8]);
            calls.push(out(now, 0, rng.one_in(2), &rng.bytes(n)));
        }
    }
    if rng.one_in(12) {
        calls.extend([plain(RESET_START), plain(RESET_END)]);
        now = 0;
    }
    now
}

/// Moves the toggles of endpoints 1, 2, 3, so that clearing them shows.
fn use_toggles(rng: &mut Rng, address: u8, calls: &mut Vec<Call>) {
    for (register, endpoint) in [(7, 2), (8, 3)] {
        if rng.one_in(2) {
            calls.extend([write(register, &[2]), take(address, endpoint, true)]);
        }
    }
    calls.extend([out(address, 1, rng.one_in(2), &[1]), write(11, &[0x04])]);
}

/// What firmware would not do between a SETUP and the step: stall and disable bits, a partly read R4, an armed endpoint 0,
/// a firmware record of any sound value.
fn by_hand(rng: &mut Rng) -> Vec<Call> {
    let firmware = |i: usize, value: u8| Call::Poke { field: FIELDS.len() + i, value };
    match rng.below(12) {
        0 => vec![write(9, &[rng.byte()])],
        1 => vec![write(10, &[rng.byte()])],
        2 => vec![read(4, rng.below(9))],
        3 => vec![write(0, &[1, 2, 3]), write(5, &[2])],
        4 => vec![write(0, &[5; 60])],
        5 => vec![write(9, &[0x1C | rng.byte()])],
        6 => vec![firmware(0, 1), firmware(1, rng.below(2) as u8), firmware(2, rng.below(2) as u8)],
        7 => vec![firmware(2, 0), firmware(0, 0)],
        8 => vec![write(11, &[0x20])],
        9 => vec![spi(&[0x91])],
        _ => Vec::new(),
    }
}
