//! The chip's record (document 01, "The record"), its power-on value and when it is sound (decision 29).

use crate::flips::{flipped, Flip};
use crate::resets::{reset, Reset};

/// Bytes of an endpoint buffer.
pub const BUFFER: usize = 64;
/// Bytes of the longest transfer.
pub const TRANSFER: usize = 4096;
/// Bytes of a SETUP.
pub const SETUP: usize = 8;

pub const EP0BC: u8 = 5;
pub const EP1OUTBC: u8 = 6;
pub const EP2INBC: u8 = 7;
pub const EP3INBC: u8 = 8;
pub const EPSTALLS: u8 = 9;
pub const CLRTOGS: u8 = 10;
pub const EPIRQ: u8 = 11;
pub const EPIEN: u8 = 12;
pub const USBIRQ: u8 = 13;
pub const USBIEN: u8 = 14;
pub const USBCTL: u8 = 15;
pub const CPUCTL: u8 = 16;
pub const PINCTL: u8 = 17;
pub const REVISION: u8 = 18;
pub const FNADDR: u8 = 19;
pub const IOPINS: u8 = 20;

// EPSTALLS
pub const ACKSTAT: u8 = 0x40;
pub const STLSTAT: u8 = 0x20;
pub const STLEP3IN: u8 = 0x10;
pub const STLEP2IN: u8 = 0x08;
pub const STLEP1OUT: u8 = 0x04;
pub const STLEP0OUT: u8 = 0x02;
pub const STLEP0IN: u8 = 0x01;
// EPIRQ
pub const SUDAVIRQ: u8 = 0x20;
pub const IN3BAVIRQ: u8 = 0x10;
pub const IN2BAVIRQ: u8 = 0x08;
pub const OUT1DAVIRQ: u8 = 0x04;
pub const OUT0DAVIRQ: u8 = 0x02;
pub const IN0BAVIRQ: u8 = 0x01;
// USBIRQ
pub const URESDNIRQ: u8 = 0x80;
pub const VBUSIRQ: u8 = 0x40;
pub const NOVBUSIRQ: u8 = 0x20;
pub const SUSPIRQ: u8 = 0x10;
pub const URESIRQ: u8 = 0x08;
pub const BUSACTIRQ: u8 = 0x04;
pub const OSCOKIRQ: u8 = 0x01;
// USBCTL
pub const VBGATE: u8 = 0x40;
pub const CHIPRES: u8 = 0x20;
pub const CONNECT: u8 = 0x08;
// PINCTL
pub const EP3INAK: u8 = 0x80;
pub const EP2INAK: u8 = 0x40;
pub const EP0INAK: u8 = 0x20;
pub const FDUPSPI: u8 = 0x10;
pub const INTLEVEL: u8 = 0x08;
pub const POSINT: u8 = 0x04;

/// Two buffers that serve in turn (endpoints 1 and 2).
#[derive(Clone, Copy, Debug, PartialEq, Eq)]
pub struct Ring {
    pub bytes: [[u8; BUFFER]; 2],
    pub counts: [u8; 2],
    /// Which buffer holds the older packet, or gets the next one when none waits.
    pub oldest: u8,
    pub waiting: u8,
}

impl Ring {
    pub const EMPTY: Ring = Ring { bytes: [[0; BUFFER]; 2], counts: [0; 2], oldest: 0, waiting: 0 };

    /// The buffer of the i-th waiting packet; for i = `waiting` the next to be filled.
    pub fn index(&self, i: u8) -> usize {
        (self.oldest as usize + i as usize) % 2
    }

    /// The older waiting packet.
    pub fn older(&self) -> Option<&[u8]> {
        (self.waiting > 0).then(|| self.packet(0))
    }

    /// The i-th waiting packet's bytes.
    pub fn packet(&self, i: u8) -> &[u8] {
        let at = self.index(i);
        &self.bytes[at][..BUFFER.min(self.counts[at] as usize)]
    }

    /// The next buffer's first n bytes become a waiting packet.
    pub fn push(&mut self, n: u8) {
        let at = self.index(self.waiting);
        self.counts[at] = n;
        self.waiting += 1;
    }

    /// The older packet leaves, if any.
    pub fn pop(&mut self) {
        if self.waiting > 0 {
            self.oldest = (self.oldest + 1) % 2;
            self.waiting -= 1;
        }
    }
}

/// Everything the chip is. Flags and toggles are 0 or 1 (toggle 1 is DATA1).
#[derive(Clone, Copy, Debug, PartialEq, Eq)]
pub struct Chip {
    /// R5 to R20. R6 and R18 are not stored: their places stay 0.
    pub registers: [u8; 16],
    pub ep0: [u8; BUFFER],
    pub ep1: Ring,
    pub ep2: Ring,
    pub ep3: [u8; BUFFER],
    pub sudfifo: [u8; SETUP],
    /// Packets that wait at endpoint 0 IN and endpoint 3 (R5 and R8 are their counts).
    pub ep0_waiting: u8,
    pub ep3_waiting: u8,
    pub r0_read: u8,
    pub r0_write: u8,
    pub r1_read: u8,
    pub r2_write: u8,
    pub r3_write: u8,
    pub r4_read: u8,
    pub toggle_ep0in: u8,
    pub toggle_ep0out: u8,
    pub toggle_ep1: u8,
    pub toggle_ep2: u8,
    pub toggle_ep3: u8,
    pub vbus: u8,
    pub oscok: u8,
    /// Is a SETUP current? Its bytes are SUDFIFO's.
    pub setup: u8,
}

/// The answer of a transfer or an event: `pid` is 0 where no packet is sent, `pin` 0 low, 1 high, 2 open; `found` is the
/// payload's length where `refusal` is 6 or 8, else 0.
#[derive(Clone, Copy, Debug, PartialEq, Eq)]
pub struct Answer {
    pub chip: Chip,
    pub refusal: u8,
    pub pid: u8,
    pub count: u16,
    pub pin: u8,
    pub found: usize,
}

/// What a refusal tells of a payload's length (Ask 1).
pub(crate) fn found(refusal: u8, length: usize) -> usize {
    match refusal {
        6 | 8 => length,
        _ => 0,
    }
}

impl Chip {
    /// The record at power-on.
    pub fn power_on() -> Chip {
        let mut chip = Chip {
            registers: [0; 16],
            ep0: [0; BUFFER],
            ep1: Ring::EMPTY,
            ep2: Ring::EMPTY,
            ep3: [0; BUFFER],
            sudfifo: [0; SETUP],
            ep0_waiting: 0,
            ep3_waiting: 0,
            r0_read: 0,
            r0_write: 0,
            r1_read: 0,
            r2_write: 0,
            r3_write: 0,
            r4_read: 0,
            toggle_ep0in: 0,
            toggle_ep0out: 0,
            toggle_ep1: 0,
            toggle_ep2: 0,
            toggle_ep3: 0,
            vbus: 0,
            oscok: 0,
            setup: 0,
        };
        reset(&mut chip, Reset::PowerOn);
        chip
    }

    /// The stored byte of a register R5 to R20.
    pub fn r(&self, register: u8) -> u8 {
        self.registers[register as usize - 5]
    }

    pub fn set_r(&mut self, register: u8, value: u8) {
        self.registers[register as usize - 5] = value;
    }

    pub fn has(&self, register: u8, bits: u8) -> bool {
        self.r(register) & bits != 0
    }

    /// Sets or clears bits of a register.
    pub fn put(&mut self, register: u8, bits: u8, on: bool) {
        let old = self.r(register);
        self.set_r(register, if on { old | bits } else { old & !bits });
    }

    /// wLength of the bytes in SUDFIFO.
    pub fn wlength(&self) -> u16 {
        u16::from_le_bytes([self.sudfifo[6], self.sudfifo[7]])
    }

    /// Sound (document 01; decision 29 lists the clauses).
    pub fn is_sound(&self) -> bool {
        self.numbers_fit() && self.unused_bits_are_0() && self.requests_fit()
    }

    fn numbers_fit(&self) -> bool {
        let counts = [self.r(EP0BC), self.r(EP2INBC), self.r(EP3INBC)];
        let places = [self.r0_read, self.r0_write, self.r1_read, self.r2_write, self.r3_write];
        let rings = [&self.ep1, &self.ep2];
        let flags = [self.ep0_waiting, self.ep3_waiting, self.vbus, self.oscok, self.setup];
        let toggles = [self.toggle_ep0in, self.toggle_ep0out, self.toggle_ep1, self.toggle_ep2, self.toggle_ep3];
        let in_buffer = |n: &u8| *n as usize <= BUFFER;
        counts.iter().chain(&places).all(in_buffer)
            && rings.iter().all(|r| r.counts.iter().all(in_buffer) && r.waiting <= 2 && r.oldest <= 1)
            && self.r4_read as usize <= SETUP
            && flags.iter().chain(&toggles).all(|f| *f <= 1)
    }

    fn unused_bits_are_0(&self) -> bool {
        const UNUSED: [(u8, u8); 7] = [
            (EPSTALLS, 0x80),
            (CLRTOGS, 0x1F),
            (EPIRQ, 0xC0),
            (EPIEN, 0xC0),
            (USBCTL, 0x03),
            (CPUCTL, 0xFE),
            (FNADDR, 0x80),
        ];
        UNUSED.iter().all(|(register, bits)| !self.has(*register, *bits))
    }

    fn requests_fit(&self) -> bool {
        let (room2, room3) = (self.ep2.waiting < 2, self.ep3_waiting == 0);
        let exact = self.has(EPIRQ, IN2BAVIRQ) == room2 && self.has(EPIRQ, IN3BAVIRQ) == room3;
        (room2 || !self.has(EPIRQ, IN2BAVIRQ))
            && (room3 || !self.has(EPIRQ, IN3BAVIRQ))
            && self.has(EPIRQ, OUT1DAVIRQ) == (self.ep1.waiting > 0)
            && (exact || !flipped(Flip::SoundExactly))
    }
}
