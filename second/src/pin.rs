//! The INT pin (document 01, end of "The bus side"; decisions 27 and 40).

use crate::chip::*;
use crate::flips::{flipped, Flip};

const LOW: u8 = 0;
const HIGH: u8 = 1;
const OPEN: u8 = 2;

/// Refusal 1 if the record is not sound; else 0 low, 1 high, 2 open.
pub fn int_pin(chip: &Chip) -> Result<u8, u8> {
    if chip.is_sound() {
        Ok(pin_level(chip))
    } else {
        Err(1)
    }
}

/// The level by the record's bits, sound or not.
pub fn pin_level(chip: &Chip) -> u8 {
    let positive = chip.has(PINCTL, POSINT) != flipped(Flip::EdgePolarity);
    match (chip.has(PINCTL, INTLEVEL), int_active(chip)) {
        (true, true) => LOW,
        (true, false) => OPEN,
        (false, active) if active == positive => HIGH,
        (false, _) => LOW,
    }
}

/// IE=1 and some request bit has its enable bit set: the 14 of a sound record, which has no others. An unsound record's
/// level is by the same rule (decision 54).
fn int_active(chip: &Chip) -> bool {
    let endpoints = chip.r(EPIRQ) & chip.r(EPIEN);
    let bus = chip.r(USBIRQ) & chip.r(USBIEN);
    chip.has(CPUCTL, 0x01) && (endpoints | bus) != 0
}
