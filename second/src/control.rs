//! Endpoint 0: SETUP, and IN and OUT by the stage of the control transfer (document 01, "The bus side").

use crate::bus::{data, fill, nak_in, toggle_after, unstored, Handshake};
use crate::chip::*;
use crate::flips::{flipped, Flip};
use crate::registers::ep0_is_chips;

/// Always ACK; document 01 lists what changes. R5's count stays (decision 15).
pub(crate) fn setup(chip: &mut Chip, payload: &[u8]) -> Handshake {
    if flipped(Flip::SetupStalled) && chip.has(EPSTALLS, STLEP0OUT) {
        return Handshake::Stall;
    }
    chip.sudfifo.copy_from_slice(payload);
    chip.setup = 1;
    (chip.r0_read, chip.r0_write) = (0, 0);
    if !flipped(Flip::SetupKeepsR4) {
        chip.r4_read = 0;
    }
    clear_stage(chip);
    let toggle = u8::from(!flipped(Flip::SetupToggleData0));
    (chip.toggle_ep0in, chip.toggle_ep0out) = (toggle, toggle);
    Handshake::Ack
}

fn clear_stage(chip: &mut Chip) {
    let ackstat = if flipped(Flip::SetupKeepsAckstat) { 0 } else { ACKSTAT };
    chip.put(EPSTALLS, ackstat | STLSTAT | STLEP0IN | STLEP0OUT, false);
    chip.put(EPIRQ, SUDAVIRQ | IN0BAVIRQ, true);
    if !flipped(Flip::SetupKeepsOut0dav) {
        chip.put(EPIRQ, OUT0DAVIRQ, false);
    }
    if !flipped(Flip::SetupKeepsArmed) {
        chip.ep0_waiting = 0;
    }
    if flipped(Flip::SetupClearsR5) {
        chip.set_r(EP0BC, 0);
    }
}

#[derive(Clone, Copy, PartialEq, Eq)]
enum Stage {
    /// No SETUP is current.
    None,
    Data,
    Status,
}

/// The stage that an IN or an OUT belongs to, by the setup bytes alone (decisions 22 and 23).
fn stage(chip: &Chip, is_in: bool) -> Stage {
    let reads = chip.sudfifo[0] & 0x80 != 0 && (chip.wlength() != 0 || flipped(Flip::ReadByBit7));
    if chip.setup == 0 {
        Stage::None
    } else if is_in == reads {
        Stage::Data
    } else {
        Stage::Status
    }
}

pub(crate) fn in_ep0(chip: &mut Chip, acknowledged: bool, reply: &mut [u8]) -> Handshake {
    let stage = stage(chip, true);
    let stalls = stage != Stage::Status || flipped(Flip::Stlep0inStatus);
    if stalls && chip.has(EPSTALLS, STLEP0IN) {
        return Handshake::Stall;
    }
    match stage {
        Stage::None => nak_in(chip, EP0INAK),
        Stage::Data => in_data(chip, acknowledged, reply),
        Stage::Status => in_status(chip, acknowledged),
    }
}

fn in_data(chip: &mut Chip, acknowledged: bool, reply: &mut [u8]) -> Handshake {
    if chip.ep0_waiting == 0 {
        return nak_in(chip, EP0INAK);
    }
    let sent = data(&chip.ep0[..chip.r(EP0BC) as usize], chip.toggle_ep0in, reply);
    chip.toggle_ep0in = toggle_after(chip.toggle_ep0in, acknowledged);
    if acknowledged {
        chip.ep0_waiting = 0;
        chip.put(EPIRQ, IN0BAVIRQ, true);
    }
    sent
}

/// STLSTAT before ACKSTAT (decision 21).
fn status(chip: &mut Chip, bytes: usize) -> Handshake {
    let full = bytes > 0 && !flipped(Flip::FullStatusOut);
    let acks = chip.has(EPSTALLS, ACKSTAT);
    if (chip.has(EPSTALLS, STLSTAT) && !(acks && flipped(Flip::AckstatFirst))) || full {
        Handshake::Stall
    } else if acks {
        if flipped(Flip::StatusEndsAckstat) {
            chip.put(EPSTALLS, ACKSTAT, false);
        }
        if flipped(Flip::StatusEndsSetup) {
            chip.setup = 0;
        }
        Handshake::Ack
    } else {
        Handshake::Nak
    }
}

fn in_status(chip: &mut Chip, acknowledged: bool) -> Handshake {
    match status(chip, 0) {
        Handshake::Ack => {
            if acknowledged || flipped(Flip::FnaddrWithoutAck) {
                take_address(chip);
            }
            Handshake::Data { toggle: 1, count: 0 }
        }
        Handshake::Nak if !flipped(Flip::NoInakForStatus) => nak_in(chip, EP0INAK),
        other => other,
    }
}

/// SET_ADDRESS: bytes 0, 1 are 00 05 with wLength 0.
fn take_address(chip: &mut Chip) {
    if chip.sudfifo[..2] == [0x00, 0x05] && chip.wlength() == 0 {
        let mask = if flipped(Flip::FnaddrEightBits) { 0xFF } else { 0x7F };
        chip.set_r(FNADDR, chip.sudfifo[2] & mask);
    }
}

pub(crate) fn out_ep0(chip: &mut Chip, payload: &[u8], data1: u8) -> Handshake {
    let stage = stage(chip, false);
    let stalls = stage != Stage::Status || flipped(Flip::Stlep0outStatus);
    if stalls && chip.has(EPSTALLS, STLEP0OUT) {
        return Handshake::Stall;
    }
    match stage {
        Stage::None => Handshake::Nak,
        Stage::Data => out_data(chip, payload, data1),
        Stage::Status => status(chip, payload.len()),
    }
}

/// STALL if wLength is 0. The read position becomes 0, the write position stays.
fn out_data(chip: &mut Chip, payload: &[u8], data1: u8) -> Handshake {
    if chip.wlength() == 0 {
        return if flipped(Flip::NoDataOutNak) { Handshake::Nak } else { Handshake::Stall };
    }
    if let Some(answer) = unstored(!ep0_is_chips(chip), data1 == chip.toggle_ep0out) {
        return answer;
    }
    fill(&mut chip.ep0, payload);
    chip.set_r(EP0BC, payload.len() as u8);
    chip.r0_read = 0;
    if flipped(Flip::OutMovesWrite) {
        chip.r0_write = 0;
    }
    chip.toggle_ep0out ^= 1;
    chip.put(EPIRQ, OUT0DAVIRQ, true);
    Handshake::Ack
}
