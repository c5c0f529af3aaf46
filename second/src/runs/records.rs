//! Records made by pokes: any sound one, also such as power-on does not reach, and ones that are not sound.

use super::*;
use crate::bus::*;
use crate::fields::{field, FIELDS};

fn set(name: &str, value: u8) -> Call {
    Call::Poke { field: field(name), value }
}

/// A sound record with every field at random, then calls on it.
pub fn sound_record(rng: &mut Rng) -> Vec<Call> {
    let mut calls = on();
    calls.extend([write(0, &rng.bytes(64)), write(3, &rng.bytes(64)), write(2, &rng.bytes(64)), write(7, &[64])]);
    calls.extend([write(2, &rng.bytes(64)), out(0, 1, false, &rng.bytes(64)), out(0, 1, true, &rng.bytes(64))]);
    calls.push(setup(0, &any_setup(rng, 5)));
    calls.extend(sound_fields(rng));
    let address = rng.below(3) as u8;
    calls.push(set("r19", address));
    calls.extend([set("r15", rng.pick(&[0x08, 0x08, 0x08, 0x48, 0x28, 0xFC])), set("oscok", u8::from(!rng.one_in(8)))]);
    for _ in 0..12 {
        calls.push(match rng.below(8) {
            0..=4 => any_event(rng, address),
            5 => step(),
            6 => useful_transfer(rng),
            _ => any_transfer(rng),
        });
    }
    calls.extend(read_all());
    calls
}

/// Counts, positions, flags and registers within the limits; OUT1DAVIRQ as the waiting packets want it, a BAV bit 1 only where there is
/// room.
fn sound_fields(rng: &mut Rng) -> Vec<Call> {
    let (ep1, ep2, ep3) = (rng.below(3) as u8, rng.below(3) as u8, rng.below(2) as u8);
    let mut calls = Vec::new();
    for (number, (name, _)) in FIELDS.iter().enumerate() {
        let value = match *name {
            "ep1_waiting" => ep1,
            "ep2_waiting" => ep2,
            "ep3_waiting" => ep3,
            "r4_read" => rng.below(9) as u8,
            "r9" => rng.byte() & rng.byte() & 0x7F,
            "r10" => rng.byte() & rng.byte() & 0xE0,
            "r11" => {
                let room = 0x23 | u8::from(ep3 == 0) << 4 | u8::from(ep2 < 2) << 3;
                rng.byte() & room | u8::from(ep1 > 0) << 2
            }
            "r12" => rng.byte() & 0x3F,
            "r13" | "r14" | "r17" | "r20" => rng.byte(),
            "r15" => rng.byte() & 0xFC,
            "r16" => rng.below(2) as u8,
            "r19" => rng.below(128) as u8,
            "r5" | "r7" | "r8" | "ep1_count0" | "ep1_count1" | "ep2_count0" | "ep2_count1" => length(rng),
            "r0_read" | "r0_write" | "r1_read" | "r2_write" | "r3_write" => length(rng),
            _ => rng.below(2) as u8,
        };
        calls.push(Call::Poke { field: number, value });
    }
    calls
}

fn length(rng: &mut Rng) -> u8 {
    match rng.below(4) {
        0 => rng.pick(&[0, 1, 63, 64]),
        _ => rng.below(65) as u8,
    }
}

/// A used chip with one to three fields set to any byte, then every kind of call. Some of these records are sound.
pub fn unsound_record(rng: &mut Rng) -> Vec<Call> {
    let mut calls = on();
    calls.extend([write(16, &[1]), write(12, &[rng.byte()]), write(17, &[rng.byte()]), write(2, &[1]), write(7, &[1])]);
    calls.extend([out(0, 1, false, &[1, 2]), setup(0, &any_setup(rng, 5))]);
    for _ in 0..1 + rng.below(3) {
        let number = rng.below(FIELDS.len() + 3);
        let (any, bit) = (rng.byte(), 1 << rng.below(8));
        let value = rng.pick(&[any, bit, 2, 3, 9, 65, 128, 255]);
        calls.push(Call::Poke { field: number, value });
    }
    for _ in 0..6 {
        calls.push(match rng.below(6) {
            0 => step(),
            1 => plain(POWER_ON + rng.below(9) as u8),
            2 => refusals::one_refusal(rng),
            3 => any_transfer(rng),
            _ => any_event(rng, 0),
        });
    }
    calls
}
