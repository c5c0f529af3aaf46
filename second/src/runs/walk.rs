//! Random walks from power-on.

use super::*;
use crate::bus::*;

/// About n calls: mostly what acts, now and then resets, refused calls, long transfers.
pub fn walk(rng: &mut Rng, n: usize) -> Vec<Call> {
    let mut calls = if rng.one_in(8) { Vec::new() } else { on() };
    let mut address = 0;
    while calls.len() < n {
        match rng.below(100) {
            0..=19 => calls.push(any_transfer(rng)),
            20..=49 => calls.push(useful_transfer(rng)),
            50..=91 => calls.push(any_event(rng, address)),
            92..=95 => calls.push(Call::Step { room: 64 + rng.below(2) }),
            96 => calls.push(refusals::one_refusal(rng)),
            97 => calls.extend(read_all()),
            98 => address = move_address(rng, address, &mut calls),
            _ => address = start_over(rng, &mut calls),
        }
    }
    calls
}

/// SET_ADDRESS with its status stage.
fn move_address(rng: &mut Rng, address: u8, calls: &mut Vec<Call>) -> u8 {
    let new = rng.pick(&[0, 1, 0x17, 0x7F, 0x80, 0x97]);
    calls.push(setup(address, &[0, 5, new, 0, 0, 0, 0, 0]));
    calls.push(spi(rng.pick(&[&[0x91u8][..], &[0x4A, 0x40], &[0x5B, 0x20]])));
    calls.push(take(address, 0, !rng.one_in(4)));
    calls.push(take(new & 0x7F, 0, true));
    new & 0x7F
}

fn start_over(rng: &mut Rng, calls: &mut Vec<Call>) -> u8 {
    match rng.below(4) {
        0 => calls.extend(on()),
        1 => calls.extend([spi(&[0x7A, 0x28]), spi(&[0x7A, 0x08]), plain(STABLE)]),
        2 => calls.extend([plain(RESET_START), plain(RESET_END)]),
        _ => calls.extend([spi(&[0x7A, 0x08]), plain(STABLE)]),
    }
    0
}

/// Any register, direction and bit 0, any data, of a random length.
pub fn any_transfer(rng: &mut Rng) -> Call {
    let length = match rng.below(400) {
        0 => 4096,
        1 => rng.below(4097),
        2..=9 => 64,
        10..=19 => 65 + rng.below(10),
        20..=99 => 0,
        _ => rng.below(20),
    };
    let mut bytes = vec![rng.byte()];
    // a burst over R15 mostly keeps the chip connected
    let over_r15 = bytes[0] & 2 != 0 && (40..128).contains(&bytes[0]);
    if over_r15 && !rng.one_in(8) {
        bytes[0] = bytes[0] & 7 | rng.pick(&[0, 1, 2, 3, 4, 9, 10, 11, 12, 16, 17, 20, 21, 31]) << 3;
    }
    let data = if over_r15 { rng.below(4) } else { length.saturating_sub(1) };
    bytes.extend(rng.bytes(data));
    let room = bytes.len() + rng.below(3);
    Call::Transfer { bytes, room }
}

/// A transfer that does something at an endpoint or to the requests.
pub fn useful_transfer(rng: &mut Rng) -> Call {
    let n = rng.below(9);
    match rng.below(20) {
        0 | 1 => write(rng.pick(&[0, 2, 3]), &rng.bytes(n)),
        2 | 3 => any_burst(rng),
        4..=8 => write(rng.pick(&[5, 7, 7, 8]), &[arm_count(rng)]),
        9 => write(9, &[rng.byte() & rng.byte() & rng.byte()]),
        10 => write(10, &[rng.byte() & rng.byte() & 0x1C | rng.byte() & rng.byte() & rng.byte()]),
        11 | 12 => write(11, &[rng.pick(&[0x04, 0x02, 0x01, 0x20, 0x06, 0x3F, 0x18, 0xFF, 0x08, 0x10])]),
        13 => write(13, &[rng.byte()]),
        14 => write(rng.pick(&[12, 14, 16]), &[rng.byte()]),
        15 => write(17, &[rng.byte()]),
        16 => spi(&[rng.byte() | 1]),
        17 => read(rng.pick(&[0, 1, 4]), n),
        18 => write(15, &[rng.pick(&[0x08, 0x08, 0x48, 0x0C, 0x98, 0x00, 0x28])]),
        _ => read(5, 16),
    }
}
