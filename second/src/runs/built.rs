//! Built states: registers and endpoints set step by step, then events, then everything read.

use super::*;
use crate::bus::*;

/// One built state and what it does.
pub fn built(rng: &mut Rng) -> Vec<Call> {
    let mut calls = on();
    if rng.one_in(2) {
        calls.push(plain(VBUS_ON));
    }
    calls.push(pins(rng.byte()));
    calls.extend(interrupts(rng));
    let address = if rng.one_in(4) { rng.below(128) as u8 } else { 0 };
    if address != 0 {
        calls.extend([setup(0, &[0, 5, address, 0, 0, 0, 0, 0]), spi(&[0x91])]);
        calls.extend(rng.one_in(2).then(|| take(0, 0, false)));
        calls.push(take(0, 0, true));
    }
    endpoint_1(rng, address, &mut calls);
    endpoint_2(rng, address, &mut calls);
    endpoint_3(rng, address, &mut calls);
    endpoint_0(rng, address, &mut calls);
    calls.extend(controls(rng));
    for _ in 0..1 + rng.below(4) {
        calls.push(probe(rng, address));
    }
    calls.extend(read_all());
    calls.extend(afterwards(rng, address));
    calls.extend(read_all());
    calls
}

/// R12, R14, R16, R17.
fn interrupts(rng: &mut Rng) -> Vec<Call> {
    let few = |rng: &mut Rng| rng.byte() & rng.byte();
    let mut calls = vec![write(17, &[rng.byte()]), write(16, &[u8::from(!rng.one_in(4))])];
    calls.push(write(12, &[few(rng)]));
    calls.push(write(14, &[few(rng)]));
    calls
}

/// Packets come, are read in part, released; 0 to 2 wait in the end. The toggles are mostly right.
fn endpoint_1(rng: &mut Rng, address: u8, calls: &mut Vec<Call>) {
    let mut data1 = false;
    for _ in 0..rng.below(6) {
        match rng.below(5) {
            0 => calls.push(write(11, &[0x04])),
            1 => calls.push(read(1, rng.below(9))),
            2 => calls.push(out(address, 1, rng.one_in(2), &[0xEE; 3])),
            _ => {
                let n = out_length(rng);
                calls.push(out(address, 1, data1, &rng.bytes(n)));
                data1 = !data1;
            }
        }
    }
}

/// Packets armed and taken, IN2BAVIRQ cleared by hand; 0 to 2 wait in the end.
fn endpoint_2(rng: &mut Rng, address: u8, calls: &mut Vec<Call>) {
    for _ in 0..rng.below(7) {
        let n = rng.below(10);
        match rng.below(5) {
            0 => calls.push(take(address, 2, !rng.one_in(3))),
            1 => calls.extend(two_bursts(rng, 2)),
            2 => calls.push(write(11, &[rng.pick(&[0x08, 0x08, 0x18, 0x39])])),
            _ => calls.extend([write(2, &rng.bytes(n)), write(7, &[arm_count(rng)])]),
        }
    }
}

fn endpoint_3(rng: &mut Rng, address: u8, calls: &mut Vec<Call>) {
    for _ in 0..rng.below(4) {
        let n = rng.below(10);
        match rng.below(5) {
            0 => calls.push(take(address, 3, !rng.one_in(3))),
            1 => calls.push(write(11, &[rng.pick(&[0x10, 0x10, 0x18, 0x39])])),
            2 => calls.extend(two_bursts(rng, 3)),
            _ => calls.extend([write(3, &rng.bytes(n)), write(8, &[arm_count(rng)])]),
        }
    }
}

/// A control transfer brought to one of its stages, perhaps after another one.
fn endpoint_0(rng: &mut Rng, address: u8, calls: &mut Vec<Call>) {
    for _ in 0..rng.below(3) {
        let kinds = setup_kinds(rng.pick(&[5, 0x85, address]));
        calls.push(setup(address, &rng.pick(&kinds)));
        for _ in 0..rng.below(5) {
            let n = rng.below(9);
            calls.push(match rng.below(9) {
                0 => write(0, &rng.bytes(n)),
                1 | 2 => write(5, &[arm_count(rng)]),
                3 => out(address, 0, rng.below(3) > 0, &rng.bytes(n)),
                4 => write(11, &[rng.pick(&[0x02, 0x01, 0x20, 0x23])]),
                5 => read(rng.pick(&[0, 4]), n),
                6 => take(address, 0, rng.one_in(2)),
                7 => spi(&[rng.pick(&[0x91, 0xF9, 0x01])]),
                _ => out(address, 0, true, &rng.bytes(n)),
            });
        }
        if rng.one_in(2) {
            calls.extend(two_bursts(rng, 0));
        }
    }
}

/// R9, R10 and R15 at random, VBUS gone, the oscillator back after a chip reset: each now and then.
fn controls(rng: &mut Rng) -> Vec<Call> {
    let mut calls = Vec::new();
    if rng.one_in(2) {
        calls.push(write(9, &[rng.byte()]));
    }
    if rng.one_in(4) {
        calls.push(write(10, &[rng.byte() & (rng.byte() | 0x1C)]));
    }
    if rng.one_in(4) {
        calls.push(write(15, &[rng.pick(&[0x48, 0x48, 0x00, 0x28, 0x2C, 0x6C, 0x98, 0xFC])]));
    }
    if rng.one_in(6) {
        calls.push(plain(rng.pick(&[VBUS_ON, VBUS_OFF, VBUS_OFF])));
    }
    if rng.one_in(8) {
        calls.extend([write(15, &[0x28]), plain(STABLE), useful_transfer(rng), write(12, &[rng.byte()])]);
        calls.extend([write(15, &[0x28 | rng.byte() & 0xFC]), pins(rng.byte()), write(15, &[0x08])]);
        calls.push(plain(if rng.one_in(3) { ACTIVITY } else { STABLE }));
    }
    if rng.one_in(8) {
        calls.extend([plain(RESET_START), plain(RESET_END)]);
    }
    calls
}

/// What is done to the built state.
fn probe(rng: &mut Rng, address: u8) -> Call {
    match rng.below(12) {
        0..=5 => any_event(rng, address),
        10 => refusals::one_refusal(rng),
        11 => spi(&[0x4B | rng.below(8) as u8 & 4, rng.byte()]),
        6 => step(),
        7 => plain(rng.pick(&[STABLE, VBUS_ON, VBUS_OFF, RESET_START, RESET_END, SUSPEND, ACTIVITY])),
        8 => useful_transfer(rng),
        _ => any_transfer(rng),
    }
}

/// Every endpoint once more, then arming without new bytes, so that old bytes and turns show.
fn afterwards(rng: &mut Rng, address: u8) -> Vec<Call> {
    let mut calls = vec![take(address, 2, true), take(address, 3, true), take(address, 0, true), take(0, 0, false)];
    calls.extend([out(address, 1, rng.one_in(2), &[1, 2, 3]), out(address, 0, true, &[]), out(address, 0, true, &[4, 5])]);
    calls.extend([write(7, &[64]), write(2, &[0x77]), write(8, &[64]), write(5, &[64])]);
    for endpoint in [2, 2, 3, 0] {
        calls.extend([take(address, endpoint, true), take(0, endpoint, rng.one_in(2))]);
    }
    calls
}
