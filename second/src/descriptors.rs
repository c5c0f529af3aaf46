//! The firmware's tables (decision 31: 003 prints part of the bytes, the rest is the project's own), and what it sends of them.

use crate::chip::BUFFER;

/// Bytes to send, at most 64, by value.
#[derive(Clone, Copy)]
pub struct Sent {
    bytes: [u8; BUFFER],
    count: usize,
}

impl Sent {
    pub fn of(bytes: &[u8]) -> Sent {
        let mut sent = Sent { bytes: [0; BUFFER], count: bytes.len() };
        sent.bytes[..bytes.len()].copy_from_slice(bytes);
        sent
    }

    pub fn bytes(&self) -> &[u8] {
        &self.bytes[..self.count]
    }
}

/// USB 1.0, vendor 0B6A, product 5346, release 1234, strings 1, 2, 3, one configuration.
pub const DEVICE: [u8; 18] =
    [0x12, 0x01, 0x00, 0x01, 0x00, 0x00, 0x00, 0x40, 0x6A, 0x0B, 0x46, 0x53, 0x34, 0x12, 0x01, 0x02, 0x03, 0x01];

/// Configuration, interface, HID at byte 18 (report length at byte 25), endpoint 83 interrupt.
pub const CONFIGURATION: [u8; 34] = [
    0x09, 0x02, 0x22, 0x00, 0x01, 0x01, 0x00, 0xE0, 0x01, // configuration
    0x09, 0x04, 0x00, 0x00, 0x01, 0x03, 0x00, 0x00, 0x00, // interface
    0x09, 0x21, 0x10, 0x01, 0x00, 0x01, 0x22, 0x2B, 0x00, // HID
    0x07, 0x05, 0x83, 0x03, 0x40, 0x00, 0x0A, // endpoint 3 IN
];

pub const REPORT: [u8; 43] = [
    0x05, 0x01, 0x09, 0x06, 0xA1, 0x01, 0x05, 0x07, 0x19, 0xE0, 0x29, 0xE7, 0x15, 0x00, 0x25, 0x01, 0x75, 0x01, 0x95, 0x08,
    0x81, 0x02, 0x95, 0x01, 0x75, 0x08, 0x81, 0x01, 0x19, 0x00, 0x29, 0x65, 0x15, 0x00, 0x25, 0x65, 0x75, 0x08, 0x95, 0x01,
    0x81, 0x00, 0xC0,
];

/// String descriptor `index`: 0 is the language 0409, 1 to 3 are texts.
pub fn string(index: u8) -> Option<Sent> {
    let text = match index {
        0 => return Some(Sent::of(&[4, 0x03, 0x09, 0x04])),
        1 => "Maxim",
        2 => "MAX3420E Enum Code",
        3 => "S/N 3420E",
        _ => return None,
    };
    let mut sent = Sent::of(&[2 + 2 * text.len() as u8, 0x03]);
    for unit in text.encode_utf16() {
        sent.bytes[sent.count..][..2].copy_from_slice(&unit.to_le_bytes());
        sent.count += 2;
    }
    Some(sent)
}

/// The HID descriptor stands inside the configuration.
pub fn hid() -> Sent {
    Sent::of(&CONFIGURATION[18..27])
}
