//! Whole enumerations, and every pair of request type and code.

use super::*;
use crate::bus::*;

/// From power-on to reports on endpoint 3, as a host does it; what the host may do otherwise is at random.
pub fn enumeration(rng: &mut Rng) -> Vec<Call> {
    let mut calls = connect(rng);
    let mut host = Host { rng, address: 0, calls: &mut calls };
    host.bus_reset();
    host.read([0x80, 6, 0, 1, 0, 0], &[8, 64]);
    if host.rng.one_in(2) {
        host.bus_reset();
    }
    host.set_address();
    host.read([0x80, 6, 0, 1, 0, 0], &[18]);
    host.read([0x80, 6, 0, 2, 0, 0], &[9]);
    host.read([0x80, 6, 0, 2, 0, 0], &[34, 255]);
    for index in [0, 1, 2, 3, 4] {
        host.read([0x80, 6, index, 3, 9, 4], &[4, 64, 255]);
    }
    host.write([0x00, 9, 1, 0, 0, 0]);
    host.write([0x21, 0x0A, 0, 0, 0, 0]); // SET_IDLE, which the board stalls
    host.read([0x81, 6, 0, 0x22, 0, 0], &[43, 64, 107]);
    host.read([0x80, 8, 0, 0, 0, 0], &[1]);
    host.read([0x81, 10, 0, 0, 0, 0], &[1]);
    for _ in 0..4 {
        host.halt_or_status();
        host.report();
    }
    calls.extend(read_all());
    calls
}

/// The firmware's first writes, in the order of 003, and the power that the board gets.
fn connect(rng: &mut Rng) -> Vec<Call> {
    let mut calls = vec![plain(POWER_ON), plain(STABLE), write(17, &[rng.pick(&[0x18, 0x08, 0x10, 0x14])])];
    if rng.one_in(2) {
        calls.extend([write(15, &[0x20]), write(15, &[0x00]), plain(STABLE)]);
    }
    calls.extend([write(15, &[0x48]), write(12, &[0x30]), write(14, &[0x88]), write(16, &[0x01]), plain(VBUS_ON)]);
    calls
}

struct Host<'r, 'c> {
    rng: &'r mut Rng,
    address: u8,
    calls: &'c mut Vec<Call>,
}

impl Host<'_, '_> {
    fn bus_reset(&mut self) {
        self.address = 0;
        self.calls.extend([plain(RESET_START), read(13, 1), write(13, &[0x08]), plain(RESET_END), read(13, 1)]);
        self.calls.extend([write(13, &[0x80]), write(12, &[0x30]), write(14, &[0x88])]);
    }

    /// SETUP, perhaps damaged at first; tokens before the board's step, which are NAKed; the step.
    fn ask(&mut self, request: &[u8; 8]) {
        let address = self.address;
        if self.rng.one_in(8) {
            let damaged = Event { code: SETUP_EVENT, address, damaged: 1, ..Event::default() };
            self.calls.push(transaction(damaged, request, 0));
        }
        self.calls.push(setup(address, request));
        for _ in 0..self.rng.below(3) {
            self.calls.push(take(address, 0, true));
        }
        self.calls.extend([spi(&[0x58, 0]), step()]);
    }

    /// A request that reads: data with an ACK lost now and then, then an empty OUT.
    fn read(&mut self, fields: [u8; 6], lengths: &[u8]) {
        let wlength = self.rng.pick(lengths);
        let [kind, code, v0, v1, i0, i1] = fields;
        self.ask(&[kind, code, v0, v1, i0, i1, wlength, 0]);
        if self.rng.one_in(4) {
            self.calls.push(take(self.address, 0, false));
        }
        self.calls.extend([take(self.address, 0, true), out(self.address, 0, true, &[])]);
    }

    /// A request without data: the status stage, its ACK lost now and then.
    fn write(&mut self, fields: [u8; 6]) {
        let [kind, code, v0, v1, i0, i1] = fields;
        self.ask(&[kind, code, v0, v1, i0, i1, 0, 0]);
        if self.rng.one_in(4) {
            self.calls.push(take(self.address, 0, false));
        }
        self.calls.push(take(self.address, 0, true));
    }

    fn set_address(&mut self) {
        let address = 1 + self.rng.below(127) as u8;
        self.write([0x00, 5, address, 0, 0, 0]);
        self.calls.push(take(0, 0, true));
        self.address = address;
    }

    fn halt_or_status(&mut self) {
        match self.rng.below(5) {
            0 => self.write([0x02, 3, 0, 0, 0x83, 0]),
            1 => self.write([0x02, 1, 0, 0, 0x83, 0]),
            2 => self.read([0x82, 0, 0, 0, 0x83, 0], &[2]),
            3 => self.read([0x80, 0, 0, 0, 0, 0], &[2]),
            _ => self.write([0x00, 3, 1, 0, 0, 0]),
        }
    }

    /// Five bytes armed on endpoint 3 and taken.
    fn report(&mut self) {
        self.calls.extend([write(3, &self.rng.bytes(5)), write(8, &[5])]);
        self.calls.push(take(self.address, 3, !self.rng.one_in(4)));
        self.calls.push(take(self.address, 3, true));
    }
}

/// wValue, wIndex, wLength as (low, high) bytes: near what some request wants.
const OTHER_FIELDS: [[u8; 6]; 9] = [
    [0, 0, 0, 0, 0, 0],
    [0, 0, 0, 0, 64, 0],
    [1, 0, 0, 0, 0, 0],
    [0, 0, 0x83, 0, 0, 0],
    [0, 0, 0x83, 0, 2, 0],
    [0, 1, 0, 0, 18, 0],
    [0, 2, 0, 0, 0, 1],
    [2, 3, 9, 4, 255, 0],
    [0, 0x22, 0, 0, 43, 0],
];

/// A request type with every code, and each with several values of the other fields, served in any sound state of the
/// firmware. The host's ACK is lost, so that the address stays 0.
pub fn request_pairs(kind: u8, configured: bool, rng: &mut Rng) -> Vec<Call> {
    let mut calls = on();
    for code in 0..=255 {
        let any: [u8; 6] = std::array::from_fn(|_| rng.byte() & rng.byte());
        calls.extend(firmware_state(configured, rng));
        for others in OTHER_FIELDS.iter().chain([&any]) {
            let mut request = [kind, code, 0, 0, 0, 0, 0, 0];
            request[2..].copy_from_slice(others);
            calls.extend([setup(0, &request), step(), take(0, 0, false)]);
        }
    }
    calls
}

/// SET_CONFIGURATION, remote wakeup on or off, endpoint 3 halted or not (stalled where it is not configured).
fn firmware_state(configured: bool, rng: &mut Rng) -> Vec<Call> {
    let configure = [0x00, 9, u8::from(configured), 0, 0, 0, 0, 0];
    let wakeup = [0x00, rng.pick(&[1, 3]), 1, 0, 0, 0, 0, 0];
    let halt = [0x02, rng.pick(&[1, 3]), 0, 0, 0x83, 0, 0, 0];
    [configure, wakeup, halt].iter().flat_map(|request| [setup(0, request), step()]).collect()
}
