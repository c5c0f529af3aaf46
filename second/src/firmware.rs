//! The firmware's answer to a chapter 9 request (document 01, "The firmware").

use crate::chip::{found, BUFFER, SETUP};
use crate::descriptors::{hid, string, Sent, CONFIGURATION, DEVICE, REPORT};
use crate::flips::{flipped, Flip};

/// The firmware's own record; flags are 0 or 1.
#[derive(Clone, Copy, Debug, Default, PartialEq, Eq)]
pub struct Firmware {
    pub configuration: u8,
    pub wakeup: u8,
    pub halted: u8,
}

impl Firmware {
    /// Configuration 0, wakeup off, no halt.
    pub fn power_on() -> Firmware {
        Firmware::default()
    }

    /// Sets a field to any byte: 0 configuration, 1 wakeup, 2 halted.
    pub fn poke(&mut self, field: usize, value: u8) {
        let Firmware { configuration, wakeup, halted } = self;
        *[configuration, wakeup, halted][field] = value;
    }

    /// Sound (decision 30): configuration 0 or 1, a halt only in configuration 1; flags are flags.
    pub fn is_sound(&self) -> bool {
        self.configuration <= 1 && self.wakeup <= 1 && self.halted <= self.configuration
    }
}

/// What the board does to R9 and R10 before it acknowledges (decision 49).
#[derive(Clone, Copy, Debug, PartialEq, Eq)]
pub enum Endpoints {
    Unchanged,
    SetHalt,
    ClearHalt,
    Configure,
}

/// `kind`: 0 none (refused), 1 stall, 2 ack, 3 data. `found`: how many setup bytes there are, where `refusal` is 8.
#[derive(Clone, Copy, Debug, PartialEq, Eq)]
pub struct FirmwareAnswer {
    pub firmware: Firmware,
    pub refusal: u8,
    pub kind: u8,
    pub count: u16,
    pub endpoints: Endpoints,
    pub found: usize,
}

pub const IDLE: u8 = 0;
pub const STALL: u8 = 1;
pub const ACK: u8 = 2;
pub const DATA: u8 = 3;

enum Decision {
    Stall,
    Ack(Firmware, Endpoints),
    Data(Sent),
}

/// Eight setup bytes, the firmware's record, 64 bytes or more lent for the reply.
pub fn firmware_answer(setup: &[u8], firmware: Firmware, reply: &mut [u8]) -> FirmwareAnswer {
    let refusal = refusal(setup, &firmware, reply.len());
    let found = found(refusal, setup.len());
    let plain = FirmwareAnswer { firmware, refusal, kind: IDLE, count: 0, endpoints: Endpoints::Unchanged, found };
    if refusal != 0 {
        return plain;
    }
    match decide(&Request::of(setup), &firmware) {
        Decision::Stall => FirmwareAnswer { kind: STALL, ..plain },
        Decision::Ack(firmware, endpoints) => FirmwareAnswer { firmware, kind: ACK, endpoints, ..plain },
        Decision::Data(sent) => {
            let bytes = sent.bytes();
            let wlength = u16::from_le_bytes([setup[6], setup[7]]) as usize;
            let n = wlength.min(bytes.len());
            reply[..n].copy_from_slice(&bytes[..n]);
            FirmwareAnswer { kind: if n == 0 { ACK } else { DATA }, count: n as u16, ..plain }
        }
    }
}

fn refusal(setup: &[u8], firmware: &Firmware, room: usize) -> u8 {
    if !firmware.is_sound() {
        1
    } else if room < BUFFER {
        4
    } else if setup.len() != SETUP {
        8
    } else {
        0
    }
}

struct Request {
    kind: u8,
    code: u8,
    value: u16,
    index: u16,
    length: u16,
}

impl Request {
    fn of(setup: &[u8]) -> Request {
        let word = |at: usize| u16::from_le_bytes([setup[at], setup[at + 1]]);
        let index = if flipped(Flip::IndexLowByte) { setup[4] as u16 } else { word(4) };
        Request { kind: setup[0], code: setup[1], value: word(2), index, length: word(6) }
    }

    /// wValue and wIndex are 0; wLength is free for reads.
    fn plain_read(&self) -> bool {
        self.value == 0 && self.index == 0
    }

    /// A request without data: wIndex as named, wLength 0.
    fn no_data(&self, index: u16) -> bool {
        self.index == index && self.length == 0
    }
}

/// By request type and code; fields not named must be 0 (decision 32).
fn decide(request: &Request, firmware: &Firmware) -> Decision {
    let configured = firmware.configuration == 1;
    match (request.kind, request.code) {
        (0x80..=0x82, 0x00) => status(request, firmware),
        (0x00, 0x01 | 0x03) if request.value == 1 && request.no_data(0) => {
            let wakeup = u8::from(request.code == 0x03);
            Decision::Ack(Firmware { wakeup, ..*firmware }, Endpoints::Unchanged)
        }
        (0x02, 0x01 | 0x03) if request.value == 0 && request.no_data(0x83) && configured => halt(request.code, firmware),
        (0x00, 0x05) if request.no_data(0) => Decision::Ack(*firmware, Endpoints::Unchanged),
        (0x80, 0x06) | (0x81, 0x06) => descriptor(request),
        (0x80, 0x08) if request.plain_read() => Decision::Data(Sent::of(&[firmware.configuration])),
        (0x00, 0x09) if request.value <= 1 && request.no_data(0) => {
            let configuration = request.value as u8;
            Decision::Ack(Firmware { configuration, halted: 0, ..*firmware }, Endpoints::Configure)
        }
        (0x81, 0x0A) if request.plain_read() && configured => Decision::Data(Sent::of(&[0])),
        (0x01, 0x0B) if request.value == 0 && request.no_data(0) && configured => {
            Decision::Ack(*firmware, Endpoints::Unchanged)
        }
        _ => Decision::Stall,
    }
}

fn status(request: &Request, firmware: &Firmware) -> Decision {
    let configured = firmware.configuration == 1;
    match (request.kind, request.value, request.index) {
        (0x80, 0, 0) => Decision::Data(Sent::of(&[1 | firmware.wakeup << 1, 0])),
        (0x81, 0, 0) if configured => Decision::Data(Sent::of(&[0, 0])),
        (0x82, 0, 0 | 0x80) => Decision::Data(Sent::of(&[0, 0])),
        (0x82, 0, 0x83) if configured => Decision::Data(Sent::of(&[firmware.halted, 0])),
        _ => Decision::Stall,
    }
}

fn halt(code: u8, firmware: &Firmware) -> Decision {
    if code == 0x03 {
        Decision::Ack(Firmware { halted: 1, ..*firmware }, Endpoints::SetHalt)
    } else {
        Decision::Ack(Firmware { halted: 0, ..*firmware }, Endpoints::ClearHalt)
    }
}

/// Only strings take an index other than 0 and any wIndex.
fn descriptor(request: &Request) -> Decision {
    let [index, kind] = request.value.to_le_bytes();
    let bytes = match (request.kind, kind) {
        (0x80, 3) => string(index),
        (0x80, 1) if index == 0 && request.index == 0 => Some(Sent::of(&DEVICE)),
        (0x80, 2) if index == 0 && request.index == 0 => Some(Sent::of(&CONFIGURATION)),
        (0x81, 0x21) if index == 0 && request.index == 0 => Some(hid()),
        (0x81, 0x22) if index == 0 && request.index == 0 => Some(Sent::of(&REPORT)),
        _ => None,
    };
    bytes.map_or(Decision::Stall, Decision::Data)
}
