//! The reset lines (document 01, "Reset lines"; the pages of 000): what becomes of each register at each reset.

use crate::chip::{Chip, Ring, BUFFER, SETUP};
use crate::flips::{flipped, Flip};

#[derive(Clone, Copy, PartialEq, Eq)]
pub enum Reset {
    PowerOn,
    Chip,
    Bus,
}

/// A register becomes (old and keep) or value.
#[derive(Clone, Copy)]
struct Line {
    keep: u8,
    value: u8,
}

const fn line(keep: u8, value: u8) -> Line {
    Line { keep, value }
}

/// Rows R5 to R20; columns power-on, chip reset, bus reset.
const LINES: [[Line; 3]; 16] = [
    [line(0, 0), line(0, 0), line(0, 0)],          // R5
    [line(0, 0), line(0, 0), line(0, 0)],          // R6 (not stored)
    [line(0, 0), line(0, 0), line(0, 0)],          // R7
    [line(0, 0), line(0, 0), line(0, 0)],          // R8
    [line(0, 0), line(0, 0), line(0, 0)],          // R9
    [line(0, 0), line(0, 0), line(0, 0)],          // R10
    [line(0, 0x19), line(0, 0x19), line(0, 0x19)], // R11: the three BAV bits
    [line(0, 0), line(0, 0), line(0, 0)],          // R12
    [line(0, 0), line(0, 0), line(0x80, 0x08)],    // R13: URESDNIRQ stays, URESIRQ becomes 1
    [line(0, 0), line(0, 0), line(0x88, 0)],       // R14: URESDNIE and URESIE stay
    [line(0, 0), line(0xFC, 0), line(0xFC, 0)],    // R15
    [line(0, 0), line(0, 0), line(0x01, 0)],       // R16
    [line(0, 0), line(0x1F, 0), line(0x1F, 0)],    // R17: the INAK bits go
    [line(0, 0), line(0, 0), line(0, 0)],          // R18 (not stored)
    [line(0, 0), line(0, 0), line(0, 0)],          // R19
    [line(0, 0), line(0xFF, 0), line(0xFF, 0)],    // R20: outputs and input pins stay
];

/// One rule for the three resets.
pub fn reset(chip: &mut Chip, kind: Reset) {
    let before = *chip;
    for (register, lines) in chip.registers.iter_mut().zip(&LINES) {
        let Line { keep, value } = lines[kind as usize];
        *register = *register & keep | value;
    }
    if kind != Reset::Bus {
        clear_buffers(chip);
        chip.oscok = 0;
    }
    if kind == Reset::PowerOn {
        chip.vbus = 0;
    }
    clear_traffic(chip);
    turn_round(chip, &before, kind);
}

fn clear_buffers(chip: &mut Chip) {
    chip.ep0 = [0; BUFFER];
    chip.ep1 = Ring::EMPTY;
    chip.ep2 = Ring::EMPTY;
    chip.ep3 = [0; BUFFER];
}

/// No packet waits, positions are 0, toggles DATA0, no SETUP is current; SUDFIFO is 0 at each reset (decision 1).
fn clear_traffic(chip: &mut Chip) {
    for ring in [&mut chip.ep1, &mut chip.ep2] {
        *ring = Ring { bytes: ring.bytes, ..Ring::EMPTY };
    }
    chip.sudfifo = [0; SETUP];
    chip.setup = 0;
    (chip.ep0_waiting, chip.ep3_waiting) = (0, 0);
    (chip.r0_read, chip.r0_write, chip.r1_read) = (0, 0, 0);
    (chip.r2_write, chip.r3_write, chip.r4_read) = (0, 0, 0);
    (chip.toggle_ep0in, chip.toggle_ep0out) = (0, 0);
    (chip.toggle_ep1, chip.toggle_ep2, chip.toggle_ep3) = (0, 0, 0);
}

/// The flips of resets.
fn turn_round(chip: &mut Chip, before: &Chip, kind: Reset) {
    match kind {
        Reset::PowerOn => {}
        Reset::Chip => {
            if flipped(Flip::ChipresKeepsOsc) {
                chip.oscok = before.oscok;
            }
            if flipped(Flip::ChipresClearsR15) {
                chip.registers[10] &= !0x08;
            }
            if flipped(Flip::ChipResetVbus) {
                chip.vbus = 0;
            }
        }
        Reset::Bus => turn_bus_reset_round(chip, before),
    }
}

fn turn_bus_reset_round(chip: &mut Chip, before: &Chip) {
    if flipped(Flip::BusResetClearsIe) {
        chip.registers[11] = 0;
    }
    if flipped(Flip::BusResetClearsEnables) {
        chip.registers[9] = 0;
    }
    if flipped(Flip::BusResetClearsDone) {
        chip.registers[8] &= 0x7F;
    }
    if flipped(Flip::BusResetBuffers) {
        clear_buffers(chip);
    }
    if flipped(Flip::BusResetSudfifo) {
        chip.sudfifo = before.sudfifo;
    }
    if flipped(Flip::BusResetSetup) {
        chip.setup = before.setup;
    }
    if flipped(Flip::BusResetTurn) {
        chip.ep2.oldest = before.ep2.oldest;
    }
}
