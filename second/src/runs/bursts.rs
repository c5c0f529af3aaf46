//! Bursts that write an endpoint's buffer, by R0, R2 or R3: that fit, fill it, pass its end, or hold no byte.

use super::*;
use crate::fields::field;

/// A burst to one of the three, often of a length at which something changes.
pub fn any_burst(rng: &mut Rng) -> Call {
    let register = rng.pick(&[0, 2, 3]);
    let n = match rng.below(4) {
        0 => rng.pick(&[0, 1, 2, 62, 63, 64, 65, 66]),
        1 => rng.below(67),
        2 => 66,
        _ => 2 + rng.below(30),
    };
    burst(rng, register, n)
}

/// Two bursts to `register`: from position 0 on, the second often just fits or is a byte too long.
pub fn two_bursts(rng: &mut Rng, register: u8) -> [Call; 2] {
    let (first, any) = (rng.below(64), rng.below(67));
    let second = rng.pick(&[64 - first, 65 - first, any]);
    [first, second].map(|n| burst(rng, register, n))
}

/// n bytes to `register`, at times with bit 0 of the command (ACKSTAT).
fn burst(rng: &mut Rng, register: u8, n: usize) -> Call {
    let data = rng.bytes(n);
    with_ackstat(rng.one_in(4), register, &data)
}

/// `register` written with data, bit 0 of the command as said.
fn with_ackstat(ackstat: bool, register: u8, data: &[u8]) -> Call {
    spi(&[&[register << 3 | 2 | u8::from(ackstat)], data].concat())
}

/// Whose the buffer is: R0 free, armed, with OUT0DAVIRQ; R2 with 0 to 2 packets from either buffer; R3 free, armed.
const OWNERS: [(u8, [(&str, u8); 2]); 11] = [
    (0, [("ep0_waiting", 0), ("r11", 0x00)]),
    (0, [("ep0_waiting", 1), ("r11", 0x00)]),
    (0, [("ep0_waiting", 0), ("r11", 0x02)]),
    (2, [("ep2_waiting", 0), ("ep2_oldest", 0)]),
    (2, [("ep2_waiting", 0), ("ep2_oldest", 1)]),
    (2, [("ep2_waiting", 1), ("ep2_oldest", 0)]),
    (2, [("ep2_waiting", 1), ("ep2_oldest", 1)]),
    (2, [("ep2_waiting", 2), ("ep2_oldest", 0)]),
    (2, [("ep2_waiting", 2), ("ep2_oldest", 1)]),
    (3, [("ep3_waiting", 0), ("r11", 0x00)]),
    (3, [("ep3_waiting", 1), ("r11", 0x00)]),
];

/// Each owner with each write position, and bursts of 0 to 2 bytes, that just fit, are a byte too long, and far too long.
pub fn burst_states() -> impl Iterator<Item = Vec<Call>> {
    OWNERS.iter().flat_map(|(register, owner)| (0..=64).map(move |position| burst_state(*register, owner, position)))
}

fn burst_state(register: u8, owner: &[(&str, u8)], position: u8) -> Vec<Call> {
    let set = |(name, value): (&str, u8)| Call::Poke { field: field(name), value };
    let write_position = ["r0_write", "", "r2_write", "r3_write"][register as usize];
    let mut calls = on();
    let fit = 64 - position as usize;
    for (i, n) in [0, 1, 2, fit, fit + 1, 66].into_iter().enumerate() {
        // r11 first: a BAV bit that is 0 fits every owner
        calls.extend([("r9", 0), ("r11", 0)].map(set));
        calls.extend(owner.iter().copied().map(set));
        calls.push(set((write_position, position)));
        let data: Vec<u8> = (0..n).map(|byte| (byte * 7 + i * 41 + 1) as u8).collect();
        calls.push(with_ackstat((i + position as usize) % 2 == 1, register, &data));
    }
    calls
}
