//! Chip and firmware together (document 01, end of "The firmware").

use crate::bus::{event, sees_bus, Event, POWER_ON, RESET_START};
use crate::chip::*;
use crate::firmware::{firmware_answer, Endpoints, Firmware, FirmwareAnswer, ACK, DATA, IDLE, STALL};
use crate::flips::{flipped, Flip};
use crate::pin::pin_level;
use crate::spi::transfer;

/// `kind`: 0 idle, 1 stall, 2 ack, 3 data. `found` is 0: a step has no payload of its own.
#[derive(Clone, Copy, Debug, PartialEq, Eq)]
pub struct BoardAnswer {
    pub chip: Chip,
    pub firmware: Firmware,
    pub refusal: u8,
    pub kind: u8,
    pub count: u16,
    pub pin: u8,
    pub found: usize,
}

#[derive(Clone, Copy, Debug, PartialEq, Eq)]
pub struct BoardEventAnswer {
    pub answer: Answer,
    pub firmware: Firmware,
}

/// Serves a SETUP, if one waits. Refusals 1 and 4 come first, whatever SUDAVIRQ is (decisions 9 and 10).
pub fn board_step(chip: Chip, firmware: Firmware, reply: &mut [u8]) -> BoardAnswer {
    let refusal = match (chip.is_sound() && firmware.is_sound(), reply.len() < BUFFER) {
        (false, _) => 1,
        (true, true) => 4,
        (true, false) => 0,
    };
    let idle = BoardAnswer { chip, firmware, refusal, kind: IDLE, count: 0, pin: pin_level(&chip), found: 0 };
    if refusal != 0 || !chip.has(EPIRQ, SUDAVIRQ) {
        return idle;
    }
    let mut after = chip;
    let setup = fetch_setup(&mut after);
    let answer = firmware_answer(&setup, firmware, reply);
    match answer.kind {
        STALL => stall(&mut after),
        ACK => acknowledge(&mut after, answer.endpoints),
        DATA => send(&mut after, &reply[..answer.count as usize]),
        _ => {}
    }
    let FirmwareAnswer { firmware, kind, count, .. } = answer;
    BoardAnswer { chip: after, firmware, refusal: 0, kind, count, pin: pin_level(&after), found: 0 }
}

/// Sends a transfer of the board's own; its reply.
fn send_transfer(chip: &mut Chip, bytes: &[u8]) -> [u8; BUFFER + 1] {
    let mut reply = [0; BUFFER + 1];
    *chip = transfer(*chip, bytes, &mut reply).chip;
    reply
}

/// `5A 20`, then eight bytes by R4.
fn fetch_setup(chip: &mut Chip) -> [u8; SETUP] {
    send_transfer(chip, &[0x5A, 0x20]);
    let reply = send_transfer(chip, &[0x20, 0, 0, 0, 0, 0, 0, 0, 0]);
    let mut setup = [0; SETUP];
    setup.copy_from_slice(&reply[1..=SETUP]);
    setup
}

/// R9 gets 23 with bits 4..2 kept (decision 35).
fn stall(chip: &mut Chip) {
    let kept = if flipped(Flip::StallDropsHalt) { 0 } else { chip.r(EPSTALLS) & 0x1C };
    send_transfer(chip, &[0x4A, kept | 0x23]);
}

/// Bytes to R0, then `2B n`.
fn send(chip: &mut Chip, bytes: &[u8]) {
    let mut to_r0 = [0x02; BUFFER + 1];
    to_r0[1..=bytes.len()].copy_from_slice(bytes);
    send_transfer(chip, &to_r0[..=bytes.len()]);
    send_transfer(chip, &[0x2B, bytes.len() as u8]);
}

/// R9 and R10 for halts and toggles, other bits kept, then `91`.
fn acknowledge(chip: &mut Chip, endpoints: Endpoints) {
    let other = if flipped(Flip::HaltDropsStalls) { ACKSTAT } else { !STLEP3IN };
    let stalls = chip.r(EPSTALLS) & other;
    let all = if flipped(Flip::ConfigureKeepsToggles) { 0 } else { 0x1C };
    match endpoints {
        Endpoints::Unchanged => {}
        Endpoints::SetHalt => write_halts(chip, stalls | STLEP3IN, 0),
        Endpoints::ClearHalt => write_halts(chip, stalls, 0x10),
        Endpoints::Configure => write_halts(chip, stalls, all),
    }
    send_transfer(chip, &[0x91]);
}

/// R9, and R10 with its disabling bits kept.
fn write_halts(chip: &mut Chip, stalls: u8, toggles: u8) {
    send_transfer(chip, &[0x4A, stalls]);
    send_transfer(chip, &[0x52, chip.r(CLRTOGS) | toggles]);
}

/// A transfer of the board: refusal 1 looks at both records (decision 10).
pub fn board_transfer(chip: Chip, firmware: Firmware, bytes: &[u8], reply: &mut [u8]) -> Answer {
    if firmware.is_sound() {
        transfer(chip, bytes, reply)
    } else {
        unsound(chip)
    }
}

fn unsound(chip: Chip) -> Answer {
    Answer { chip, refusal: 1, pid: 0, count: 0, pin: pin_level(&chip), found: 0 }
}

/// An event of the board: power-on and a bus reset start that is seen put the firmware's record back.
pub fn board_event(chip: Chip, firmware: Firmware, what: Event, payload: &[u8], reply: &mut [u8]) -> BoardEventAnswer {
    if !firmware.is_sound() {
        return BoardEventAnswer { answer: unsound(chip), firmware };
    }
    let resets = what.code == POWER_ON || what.code == RESET_START && sees_bus(&chip);
    let answer = event(chip, what, payload, reply);
    let firmware = if resets && answer.refusal == 0 { Firmware::power_on() } else { firmware };
    BoardEventAnswer { answer, firmware }
}
