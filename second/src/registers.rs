//! One register written, one register read (document 01, "The SPI side").

use crate::chip::*;
use crate::flips::{flipped, Flip};
use crate::resets::{reset, Reset};

/// Is endpoint 0's buffer the chip's? (Decision 16: IN0BAVIRQ does not matter.)
pub fn ep0_is_chips(chip: &Chip) -> bool {
    chip.ep0_waiting > 0 || chip.has(EPIRQ, OUT0DAVIRQ)
}

pub fn write_register(chip: &mut Chip, register: u8, byte: u8) {
    match register {
        0 => write_r0(chip, byte),
        2 => write_r2(chip, byte),
        3 => write_r3(chip, byte),
        EP0BC => arm_ep0(chip, byte),
        EP2INBC => arm_ep2(chip, byte),
        EP3INBC => arm_ep3(chip, byte),
        EPSTALLS => chip.set_r(EPSTALLS, byte & 0x7F),
        CLRTOGS => write_clrtogs(chip, byte),
        EPIRQ => write_epirq(chip, byte),
        EPIEN => chip.set_r(EPIEN, byte & 0x3F),
        USBIRQ => chip.put(USBIRQ, byte, false),
        USBIEN => chip.set_r(USBIEN, byte),
        USBCTL => write_usbctl(chip, byte),
        CPUCTL => chip.set_r(CPUCTL, byte & 0x01),
        PINCTL => chip.set_r(PINCTL, chip.r(PINCTL) & !byte & 0xE0 | byte & 0x1F),
        IOPINS => chip.set_r(IOPINS, chip.r(IOPINS) & 0xF0 | byte & 0x0F),
        _ => {} // R1, R4, R6, R18, R19 and what is above R20
    }
}

/// A byte stored at a position, which moves on; nothing at 64.
fn store(buffer: &mut [u8; BUFFER], position: &mut u8, byte: u8) {
    if let Some(place) = buffer.get_mut(*position as usize) {
        *place = byte;
        *position += 1;
    } else if flipped(Flip::FullOverwrites) {
        buffer[BUFFER - 1] = byte;
    } else if flipped(Flip::FullMoves) {
        *position = position.saturating_add(1);
    }
}

/// A byte that is ignored, because the buffer is the chip's.
fn ignore(position: &mut u8) {
    if flipped(Flip::ChipsMoves) {
        *position = position.saturating_add(1);
    }
}

/// Where R0, R2 or R3 is written next, while its buffer is not the chip's.
pub fn write_position(chip: &mut Chip, register: u8) -> Option<&mut u8> {
    match register {
        0 if !ep0_is_chips(chip) => Some(&mut chip.r0_write),
        2 if chip.ep2.waiting < 2 => Some(&mut chip.r2_write),
        3 if chip.ep3_waiting == 0 => Some(&mut chip.r3_write),
        _ => None,
    }
}

fn write_r0(chip: &mut Chip, byte: u8) {
    let armed = chip.ep0_waiting > 0 && !flipped(Flip::R0WriteWhileArmed);
    let received = chip.has(EPIRQ, OUT0DAVIRQ) && !flipped(Flip::R0WriteWhileOut0dav);
    if !armed && !received {
        store(&mut chip.ep0, &mut chip.r0_write, byte);
    } else {
        ignore(&mut chip.r0_write);
    }
}

fn write_r2(chip: &mut Chip, byte: u8) {
    if chip.ep2.waiting < 2 || flipped(Flip::R2WriteWhileFull) {
        let next = chip.ep2.index(chip.ep2.waiting);
        store(&mut chip.ep2.bytes[next], &mut chip.r2_write, byte);
    } else {
        ignore(&mut chip.r2_write);
    }
}

fn write_r3(chip: &mut Chip, byte: u8) {
    if chip.ep3_waiting == 0 || flipped(Flip::R3WriteWhileArmed) {
        store(&mut chip.ep3, &mut chip.r3_write, byte);
    } else {
        ignore(&mut chip.r3_write);
    }
}

/// R5 (000 page 9: bit 7 has no effect; decision 14).
fn arm_ep0(chip: &mut Chip, byte: u8) {
    let n = if flipped(Flip::R5KeepsBit7) { byte } else { byte & 0x7F };
    let owned = if flipped(Flip::R5WhileOut0dav) { chip.ep0_waiting > 0 } else { ep0_is_chips(chip) };
    if n as usize > BUFFER || owned {
        return;
    }
    chip.set_r(EP0BC, n);
    chip.ep0_waiting = 1;
    chip.r0_write = if flipped(Flip::ArmKeepsPosition) { chip.r0_write } else { 0 };
    chip.put(EPIRQ, IN0BAVIRQ, false);
}

/// R7: IN2BAVIRQ clears only when two now wait, and is left as it is while there is room (decisions 36, 65).
fn arm_ep2(chip: &mut Chip, byte: u8) {
    let n = if flipped(Flip::R7DropsBit7) { byte & 0x7F } else { byte };
    let locked = flipped(Flip::R7ByBit) && !chip.has(EPIRQ, IN2BAVIRQ);
    if n as usize > BUFFER || locked {
        return;
    }
    if chip.ep2.waiting == 2 {
        if !flipped(Flip::ThirdOverwrites) {
            return;
        }
        chip.ep2.waiting = 1;
    }
    chip.ep2.push(n);
    chip.set_r(EP2INBC, n);
    chip.r2_write = if flipped(Flip::ArmKeepsPosition) { chip.r2_write } else { 0 };
    if chip.ep2.waiting == 2 {
        chip.put(EPIRQ, IN2BAVIRQ, false);
    } else if flipped(Flip::R7SetsIn2bav) {
        chip.put(EPIRQ, IN2BAVIRQ, true);
    }
}

fn arm_ep3(chip: &mut Chip, n: u8) {
    let locked = flipped(Flip::R8ByBit) && !chip.has(EPIRQ, IN3BAVIRQ);
    if n as usize > BUFFER || chip.ep3_waiting > 0 || locked {
        return;
    }
    chip.set_r(EP3INBC, n);
    chip.ep3_waiting = 1;
    chip.r3_write = if flipped(Flip::ArmKeepsPosition) { chip.r3_write } else { 0 };
    chip.put(EPIRQ, IN3BAVIRQ, false);
}

/// R10: a 1 in bits 4, 3, 2 sets that toggle to DATA0 and reads back 0.
fn write_clrtogs(chip: &mut Chip, byte: u8) {
    chip.set_r(CLRTOGS, byte & 0xE0);
    for (bit, toggle) in [(0x10, &mut chip.toggle_ep3), (0x08, &mut chip.toggle_ep2), (0x04, &mut chip.toggle_ep1)] {
        if byte & bit != 0 {
            *toggle = 0;
        }
    }
}

/// R11: a 1 clears, and no packet moves (decision 65); but in OUT1DAVIRQ it releases.
fn write_epirq(chip: &mut Chip, byte: u8) {
    let kept = if flipped(Flip::R11KeepsIn2bav) { IN2BAVIRQ } else { 0 };
    let kept = if flipped(Flip::R11KeepsIn3bav) { kept | IN3BAVIRQ } else { kept };
    chip.put(EPIRQ, byte & (SUDAVIRQ | IN3BAVIRQ | IN2BAVIRQ | OUT0DAVIRQ | IN0BAVIRQ) & !kept, false);
    if byte & OUT1DAVIRQ != 0 {
        release_ep1(chip);
    }
    if flipped(Flip::R11DropsEp2) && byte & IN2BAVIRQ != 0 {
        chip.ep2.pop();
    }
    if flipped(Flip::R11DropsEp3) && byte & IN3BAVIRQ != 0 {
        chip.ep3_waiting = 0;
    }
}

/// A 1 in OUT1DAVIRQ: the older packet goes, R1's read position becomes 0 in any case (decision 37).
fn release_ep1(chip: &mut Chip) {
    chip.ep1.pop();
    if flipped(Flip::ReleaseAll) {
        chip.ep1.pop();
    }
    if !flipped(Flip::ReleaseKeepsR1) {
        chip.r1_read = 0;
    }
    let more = chip.ep1.waiting > 0;
    chip.put(EPIRQ, OUT1DAVIRQ, more);
}

/// R15: CHIPRES going 0 to 1 is, after the store, a chip reset.
fn write_usbctl(chip: &mut Chip, byte: u8) {
    let held = chip.has(USBCTL, CHIPRES) && !flipped(Flip::ChipresByLevel);
    chip.set_r(USBCTL, byte & 0xFC);
    if byte & CHIPRES != 0 && !held {
        reset(chip, Reset::Chip);
    }
}

/// A read moves the position of R0, R1 and R4.
pub fn read_register(chip: &mut Chip, register: u8) -> u8 {
    match register {
        0 => fetch(&chip.ep0[..chip.registers[0] as usize], &mut chip.r0_read),
        1 => fetch(chip.ep1.older().unwrap_or(&[]), &mut chip.r1_read),
        4 => fetch(&chip.sudfifo, &mut chip.r4_read),
        EP0BC..=IOPINS => shown(chip, register),
        _ => 0, // R2, R3 and what is above R20
    }
}

/// The byte at a position, which moves on; past the end 0 and no move.
fn fetch(bytes: &[u8], position: &mut u8) -> u8 {
    match bytes.get(*position as usize) {
        Some(byte) => {
            *position += 1;
            *byte
        }
        None => 0,
    }
}

/// R5 to R20 as read.
pub fn shown(chip: &Chip, register: u8) -> u8 {
    match register {
        EP1OUTBC => chip.ep1.older().map_or(0, |packet| packet.len() as u8),
        REVISION => 1,
        _ => chip.r(register),
    }
}
