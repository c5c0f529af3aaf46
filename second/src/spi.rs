//! A transfer (document 01, "The SPI side").

use crate::chip::*;
use crate::flips::{flipped, Flip};
use crate::pin::pin_level;
use crate::registers::{read_register, write_position, write_register};

/// One SPI transfer: a command byte and data bytes; the reply is as long.
pub fn transfer(chip: Chip, bytes: &[u8], reply: &mut [u8]) -> Answer {
    let refusal = refusal(&chip, bytes, reply.len());
    if refusal != 0 {
        return Answer { chip, refusal, pid: 0, count: 0, pin: pin_level(&chip), found: 0 };
    }
    let mut after = chip;
    burst(&mut after, bytes, reply);
    Answer { chip: after, refusal: 0, pid: 0, count: bytes.len() as u16, pin: pin_level(&after), found: 0 }
}

fn refusal(chip: &Chip, bytes: &[u8], room: usize) -> u8 {
    if !chip.is_sound() {
        1
    } else if bytes.is_empty() {
        2
    } else if bytes.len() > TRANSFER {
        3
    } else if room < bytes.len() {
        4
    } else {
        0
    }
}

/// Bytes act one at a time, the command byte first (decision 12).
fn burst(chip: &mut Chip, bytes: &[u8], reply: &mut [u8]) {
    let command = bytes[0];
    reply[0] = status_byte(chip, chip);
    let before = *chip;
    let sets_ackstat = command & 1 != 0 && (command >> 3 <= IOPINS || !flipped(Flip::AckstatBelow21));
    if sets_ackstat && !flipped(Flip::AckstatLast) {
        chip.put(EPSTALLS, ACKSTAT, true);
    }
    let mut register = command >> 3;
    let ignored = command & 2 != 0 && flipped_burst(chip, register, bytes.len() - 1);
    for (byte, place) in bytes[1..].iter().zip(&mut reply[1..]) {
        *place = if command & 2 != 0 {
            if !ignored {
                write_register(chip, register, *byte);
            }
            0
        } else {
            read_register(chip, register)
        };
        register = following(register);
    }
    if sets_ackstat && flipped(Flip::AckstatLast) {
        chip.put(EPSTALLS, ACKSTAT, true);
    }
    if flipped(Flip::StatusByteAfter) {
        reply[0] = status_byte(&before, chip);
    }
    if flipped(Flip::FdupspiAfter) {
        reply[0] = status_byte(chip, &before);
    }
}

/// The flips of whole bursts to R0, R2 and R3; is this one ignored?
fn flipped_burst(chip: &mut Chip, register: u8, length: usize) -> bool {
    let Some(position) = write_position(chip, register) else { return false };
    if flipped(Flip::BurstFromStart) && length > 1 {
        *position = 0;
    }
    flipped(Flip::BurstWhole) && *position as usize + length > BUFFER
}

/// Reply byte 0: FDUPSPI and the bits as they stood before the transfer (decision 13).
fn status_byte(duplex: &Chip, bits: &Chip) -> u8 {
    if !duplex.has(PINCTL, FDUPSPI) {
        return 0;
    }
    let suspirq = u8::from(bits.has(USBIRQ, SUSPIRQ)) << 7;
    let uresirq = u8::from(bits.has(USBIRQ, URESIRQ)) << 6;
    suspirq | uresirq | bits.r(EPIRQ) & 0x3F
}

/// R0 to R4 stay selected; R5 to R20 step by one and stick at R20.
fn following(register: u8) -> u8 {
    let last = if flipped(Flip::StickAtR19) { FNADDR } else { IOPINS };
    if (EP0BC..last).contains(&register) {
        register + 1
    } else {
        register
    }
}
