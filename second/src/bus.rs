//! The twelve events (document 01, "The bus side"); endpoint 0 is in control.rs.

use crate::chip::*;
use crate::control::{in_ep0, out_ep0, setup};
use crate::flips::{flipped, Flip};
use crate::pin::pin_level;
use crate::resets::{reset, Reset};

/// Codes 1 to 12. A mark is yes if it is not 0; what an event does not use is ignored (decision 11).
#[derive(Clone, Copy, Debug, Default, PartialEq, Eq)]
pub struct Event {
    pub code: u8,
    pub pins: u8,
    pub address: u8,
    pub endpoint: u8,
    pub damaged: u8,
    pub data1: u8,
    pub acknowledged: u8,
}

pub const POWER_ON: u8 = 1;
pub const STABLE: u8 = 2;
pub const VBUS_ON: u8 = 3;
pub const VBUS_OFF: u8 = 4;
pub const PINS: u8 = 5;
pub const RESET_START: u8 = 6;
pub const RESET_END: u8 = 7;
pub const SUSPEND: u8 = 8;
pub const ACTIVITY: u8 = 9;
pub const SETUP_EVENT: u8 = 10;
pub const OUT_EVENT: u8 = 11;
pub const IN_EVENT: u8 = 12;

/// What the chip answers on the bus. A data packet's bytes are in the reply, counted.
#[derive(Clone, Copy, Debug, PartialEq, Eq)]
pub(crate) enum Handshake {
    Silence,
    Ack,
    Nak,
    Stall,
    Data { toggle: u8, count: u16 },
}

impl Handshake {
    fn pid(self) -> u8 {
        match self {
            Handshake::Silence => 0,
            Handshake::Ack => 0xD2,
            Handshake::Nak => 0x5A,
            Handshake::Stall => 0x1E,
            Handshake::Data { toggle: 0, .. } => 0xC3,
            Handshake::Data { .. } => 0x4B,
        }
    }

    fn count(self) -> u16 {
        match self {
            Handshake::Data { count, .. } => count,
            _ => 0,
        }
    }
}

/// One event. Events 1 to 9 answer PID 0, seen or not.
pub fn event(chip: Chip, event: Event, payload: &[u8], reply: &mut [u8]) -> Answer {
    let refusal = refusal(&chip, &event, payload.len(), reply.len());
    if refusal != 0 {
        let found = found(refusal, told_length(payload, reply));
        return Answer { chip, refusal, pid: 0, count: 0, pin: pin_level(&chip), found };
    }
    let mut after = chip;
    let handshake = act(&mut after, &event, payload, reply);
    Answer { chip: after, refusal: 0, pid: handshake.pid(), count: handshake.count(), pin: pin_level(&after), found: 0 }
}

/// The length that refusals 6 and 8 tell.
fn told_length(payload: &[u8], reply: &[u8]) -> usize {
    let length = if flipped(Flip::FoundIsRoom) { reply.len() } else { payload.len() };
    if flipped(Flip::FoundByte) {
        length % 256
    } else {
        length
    }
}

/// The grounds in the order of documents 01 and 02: 8 is looked at where 6 is, before 7 (Ask 1).
fn refusal(chip: &Chip, event: &Event, length: usize, room: usize) -> u8 {
    let transaction = (SETUP_EVENT..=IN_EVENT).contains(&event.code);
    let far = transaction && (event.address > 127 || event.endpoint > 15);
    if !chip.is_sound() {
        1
    } else if event.code == IN_EVENT && room < BUFFER && !flipped(Flip::ShortInRoom) {
        4
    } else if event.code < POWER_ON || event.code > IN_EVENT {
        5
    } else if far && flipped(Flip::AddressFirst) {
        7
    } else if event.code == OUT_EVENT && length > BUFFER {
        6
    } else if event.code == SETUP_EVENT && length != SETUP {
        if flipped(Flip::SetupIsSix) {
            6
        } else {
            8
        }
    } else if far {
        7
    } else {
        0
    }
}

fn act(chip: &mut Chip, event: &Event, payload: &[u8], reply: &mut [u8]) -> Handshake {
    match event.code {
        POWER_ON => reset(chip, Reset::PowerOn),
        STABLE => oscillator_stable(chip),
        VBUS_ON => set_vbus(chip, 1, VBUSIRQ),
        VBUS_OFF => set_vbus(chip, 0, NOVBUSIRQ),
        PINS => chip.set_r(IOPINS, chip.r(IOPINS) & 0x0F | event.pins << 4),
        _ if !sees_bus(chip) => {}
        RESET_START => reset(chip, Reset::Bus),
        RESET_END => chip.put(USBIRQ, URESDNIRQ, true),
        SUSPEND => chip.put(USBIRQ, SUSPIRQ, true),
        ACTIVITY => chip.put(USBIRQ, BUSACTIRQ, true),
        _ => return transaction(chip, event, payload, reply),
    }
    Handshake::Silence
}

/// Decision 8: OSCOKIRQ is set again if the flag is 1 already.
fn oscillator_stable(chip: &mut Chip) {
    if !chip.has(USBCTL, CHIPRES) || flipped(Flip::StableInReset) {
        chip.oscok = 1;
        chip.put(USBIRQ, OSCOKIRQ, true);
    }
}

fn set_vbus(chip: &mut Chip, level: u8, request: u8) {
    if chip.vbus != level || flipped(Flip::VbusWithoutChange) {
        chip.vbus = level;
        chip.put(USBIRQ, request, true);
    }
}

/// Are bus resets, suspend, activity and transactions seen?
pub fn sees_bus(chip: &Chip) -> bool {
    let gated = chip.has(USBCTL, VBGATE) && chip.vbus == 0 && !flipped(Flip::VbgateIgnored);
    chip.oscok == 1 && !chip.has(USBCTL, CHIPRES) && chip.has(USBCTL, CONNECT) && !gated
}

/// A transaction that is seen: silence, then STALL, then the endpoint's own rule.
fn transaction(chip: &mut Chip, event: &Event, payload: &[u8], reply: &mut [u8]) -> Handshake {
    let carries_damage = event.code != IN_EVENT || flipped(Flip::DamagedIn);
    if carries_damage && event.damaged != 0 || event.address != chip.r(FNADDR) {
        return Handshake::Silence;
    }
    let acknowledged = event.acknowledged != 0;
    let data1 = u8::from(event.data1 != 0);
    match (event.code, event.endpoint) {
        (SETUP_EVENT, 0) => setup(chip, payload),
        (OUT_EVENT, 0) => out_ep0(chip, payload, data1),
        (IN_EVENT, 0) => in_ep0(chip, acknowledged, reply),
        (OUT_EVENT, 1) => barred(chip, 0x20, STLEP1OUT).unwrap_or_else(|| out_ep1(chip, payload, data1)),
        (IN_EVENT, 2) => barred(chip, 0x40, STLEP2IN).unwrap_or_else(|| in_ep2(chip, acknowledged, reply)),
        (IN_EVENT, 3) => barred(chip, 0x80, STLEP3IN).unwrap_or_else(|| in_ep3(chip, acknowledged, reply)),
        _ => Handshake::Silence,
    }
}

/// Silence of a disabled endpoint, before STALL of a stalled one.
fn barred(chip: &Chip, disab: u8, stlep: u8) -> Option<Handshake> {
    let stalled = chip.has(EPSTALLS, stlep);
    if chip.has(CLRTOGS, disab) && !(stalled && flipped(Flip::StallBeforeDisabled)) {
        Some(Handshake::Silence)
    } else {
        stalled.then_some(Handshake::Stall)
    }
}

/// NAK to an IN sets the endpoint's INAK bit.
pub(crate) fn nak_in(chip: &mut Chip, inak: u8) -> Handshake {
    chip.put(PINCTL, inak, true);
    Handshake::Nak
}

/// A data packet: its bytes to the reply.
pub(crate) fn data(packet: &[u8], toggle: u8, reply: &mut [u8]) -> Handshake {
    let count = packet.len().min(reply.len());
    reply[..count].copy_from_slice(&packet[..count]);
    Handshake::Data { toggle, count: packet.len() as u16 }
}

/// The toggle after an IN packet was sent.
pub(crate) fn toggle_after(toggle: u8, acknowledged: bool) -> u8 {
    toggle ^ u8::from(acknowledged || flipped(Flip::ToggleWhenSent))
}

fn in_ep2(chip: &mut Chip, acknowledged: bool, reply: &mut [u8]) -> Handshake {
    let Some(packet) = chip.ep2.older() else {
        return nak_in(chip, EP2INAK);
    };
    let sent = data(packet, chip.toggle_ep2, reply);
    chip.toggle_ep2 = toggle_after(chip.toggle_ep2, acknowledged);
    if acknowledged {
        chip.ep2.pop();
        chip.put(EPIRQ, IN2BAVIRQ, true);
    }
    sent
}

fn in_ep3(chip: &mut Chip, acknowledged: bool, reply: &mut [u8]) -> Handshake {
    if chip.ep3_waiting == 0 {
        return nak_in(chip, EP3INAK);
    }
    let sent = data(&chip.ep3[..chip.r(EP3INBC) as usize], chip.toggle_ep3, reply);
    chip.toggle_ep3 = toggle_after(chip.toggle_ep3, acknowledged);
    if acknowledged {
        chip.ep3_waiting = 0;
        chip.put(EPIRQ, IN3BAVIRQ, true);
    }
    sent
}

/// What to do with an OUT packet: room is looked at before the toggle (decision 20).
pub(crate) fn unstored(room: bool, toggle_fits: bool) -> Option<Handshake> {
    let wrong = if flipped(Flip::WrongToggleNak) { Handshake::Nak } else { Handshake::Ack };
    match (room, toggle_fits) {
        (false, false) if flipped(Flip::ToggleBeforeRoom) => Some(wrong),
        (false, _) => Some(Handshake::Nak),
        (true, false) if !flipped(Flip::WrongToggleStored) => Some(wrong),
        _ => None,
    }
}

/// The payload at the buffer's start; the rest stays.
pub(crate) fn fill(buffer: &mut [u8; BUFFER], payload: &[u8]) {
    if flipped(Flip::OutClearsRest) {
        *buffer = [0; BUFFER];
    }
    buffer[..payload.len()].copy_from_slice(payload);
}

fn out_ep1(chip: &mut Chip, payload: &[u8], data1: u8) -> Handshake {
    if let Some(answer) = unstored(chip.ep1.waiting < 2, data1 == chip.toggle_ep1) {
        return answer;
    }
    let next = chip.ep1.index(chip.ep1.waiting);
    fill(&mut chip.ep1.bytes[next], payload);
    chip.ep1.push(payload.len() as u8);
    chip.toggle_ep1 ^= 1;
    chip.put(EPIRQ, OUT1DAVIRQ, true);
    Handshake::Ack
}
