//! Whole tables of short lists: every event code, register and length, every R9 in each stage of a control transfer.

use super::*;
use crate::bus::*;

/// All tables of this file, and the one of bursts.
pub fn whole_tables() -> impl Iterator<Item = Vec<Call>> {
    [codes(), lengths(), registers()].into_iter().chain(event_states()).chain(control_states()).chain(burst_states())
}

/// Every event code, off and on.
pub fn codes() -> Vec<Call> {
    let all = |room: usize| (0..=255u8).map(move |code| transaction(Event { code, ..Event::default() }, &[0; 8], room));
    let mut calls: Vec<Call> = all(64).collect();
    for code in 0..=255 {
        calls.extend(on());
        calls.extend([write(15, &[0x48]), plain(VBUS_ON)]);
        calls.push(transaction(Event { code, pins: code, acknowledged: 1, ..Event::default() }, &[1; 8], 64));
        calls.push(read(5, 17));
    }
    calls.extend(all(63));
    calls
}

/// The lengths at which something changes.
pub const LENGTHS: [usize; 14] = [0, 1, 2, 3, 8, 9, 10, 17, 18, 64, 65, 66, 4096, 4097];

/// Every command byte with transfers of every such length.
pub fn lengths() -> Vec<Call> {
    let mut calls = on();
    for command in 0..=255u8 {
        for n in LENGTHS {
            let mut bytes: Vec<u8> = (0..n).map(|i| (i as u8).wrapping_mul(37) ^ command).collect();
            if let Some(first) = bytes.first_mut() {
                *first = command;
            }
            calls.push(spi(&bytes));
            if n == 18 {
                calls.extend([out(0, 1, command & 8 != 0, &[command; 20]), setup(0, &[command; 8])]);
            }
        }
        calls.extend(on().into_iter().skip(usize::from(command % 4 != 0)));
    }
    calls
}

/// Every register with every byte written, then all read.
pub fn registers() -> Vec<Call> {
    let mut calls = on();
    for register in 0..32 {
        for byte in 0..=255 {
            if byte % 16 == 0 {
                calls.extend(on());
                calls.extend([write(11, &[0]), plain(VBUS_ON), plain(SUSPEND), take(0, 2, true), take(0, 3, true)]);
                calls.extend([out(0, 1, false, &[1, 2, 3]), setup(0, &setup_kinds(9)[byte as usize / 16 % 9])]);
            }
            calls.extend([write(register, &[byte]), read(5, 17), take(0, 2, byte % 2 == 0), read(1, 2)]);
        }
    }
    calls
}

/// Each kind of SETUP, or none; each R9; nothing, armed, or data received; each transaction at endpoint 0.
pub fn control_states() -> impl Iterator<Item = Vec<Call>> {
    (0..10usize).flat_map(|kind| (0..128u8).flat_map(move |r9| (0..4u8).map(move |way| control_state(kind, r9, way))))
}

fn control_state(kind: usize, r9: u8, way: u8) -> Vec<Call> {
    let mut calls = Vec::new();
    for probe in control_probes() {
        calls.extend(on());
        if let Some(bytes) = setup_kinds(0x85).get(kind) {
            calls.extend([write(0, &[1, 2, 3, 4]), setup(0, bytes)]);
        }
        match way {
            0 => {}
            1 => calls.extend([write(0, &[5, 6, 7]), write(5, &[2])]),
            2 => calls.extend([write(0, &[8, 9]), out(0, 0, true, &[0x11, 0x12, 0x13])]),
            _ => calls.extend([write(5, &[3]), take(0, 0, true), write(5, &[1])]),
        }
        calls.push(write(9, &[r9]));
        calls.extend(probe);
        calls.push(read(5, 16));
    }
    calls
}

/// Pairs of transactions: the second shows what the first left.
fn control_probes() -> Vec<Vec<Call>> {
    let setup_again = setup(0, &[0x80, 6, 0, 1, 0, 0, 2, 0]);
    vec![
        vec![take(0, 0, false), take(0, 0, true), take(0, 0, true), take(5, 0, true)],
        vec![out(0, 0, true, &[]), out(0, 0, false, &[1]), out(0, 0, true, &[2, 3])],
        vec![out(0, 0, false, &[9]), take(0, 0, true), read(0, 5)],
        vec![setup_again.clone(), take(0, 0, true), read(4, 9)],
        vec![step(), take(0, 0, true), out(0, 0, true, &[])],
        vec![plain(RESET_START), take(0, 0, true), out(0, 0, true, &[]), setup_again],
    ]
}

/// Each of R15's 64 values with VBUS on and off, stable or not; then each event, and the registers.
pub fn event_states() -> impl Iterator<Item = Vec<Call>> {
    (0..64u8).flat_map(|r15| (0..4u8).map(move |way| event_state(r15 << 2, way & 1 != 0, way & 2 != 0)))
}

fn event_state(r15: u8, vbus: bool, stable: bool) -> Vec<Call> {
    let mut calls = Vec::new();
    for code in POWER_ON..=IN_EVENT {
        calls.extend([plain(POWER_ON), pins(0xA), write(20, &[0x5]), write(12, &[0x3F, 0, 0xFF]), write(16, &[1])]);
        calls.extend([write(17, &[code << 2 & 0x1C]), write(15, &[r15])]);
        calls.extend(vbus.then(|| plain(VBUS_ON)));
        calls.extend(stable.then(|| plain(STABLE)));
        let event = Event { code, pins: 0xC6, acknowledged: 1, ..Event::default() };
        calls.extend([transaction(event, &[0x80, 6, 0, 1, 0, 0, 2, 0], 64), read(5, 16)]);
        calls.extend([transaction(event, &[0x80, 6, 0, 1, 0, 0, 2, 0], 64), step(), plain(RESET_START), read(5, 16)]);
    }
    calls
}
