//! The record's fields by number, for building and spoiling records, and the list of what can be observed.

use crate::chip::*;
use crate::registers::shown;

type Place = fn(&mut Chip) -> &mut u8;

/// Every field that is one byte: its name and its place. Another model pokes its own field of that meaning.
pub const FIELDS: &[(&str, Place)] = &[
    ("r5", |chip| &mut chip.registers[0]),
    ("r7", |chip| &mut chip.registers[2]),
    ("r8", |chip| &mut chip.registers[3]),
    ("r9", |chip| &mut chip.registers[4]),
    ("r10", |chip| &mut chip.registers[5]),
    ("r11", |chip| &mut chip.registers[6]),
    ("r12", |chip| &mut chip.registers[7]),
    ("r13", |chip| &mut chip.registers[8]),
    ("r14", |chip| &mut chip.registers[9]),
    ("r15", |chip| &mut chip.registers[10]),
    ("r16", |chip| &mut chip.registers[11]),
    ("r17", |chip| &mut chip.registers[12]),
    ("r19", |chip| &mut chip.registers[14]),
    ("r20", |chip| &mut chip.registers[15]),
    ("ep1_count0", |chip| &mut chip.ep1.counts[0]),
    ("ep1_count1", |chip| &mut chip.ep1.counts[1]),
    ("ep1_oldest", |chip| &mut chip.ep1.oldest),
    ("ep1_waiting", |chip| &mut chip.ep1.waiting),
    ("ep2_count0", |chip| &mut chip.ep2.counts[0]),
    ("ep2_count1", |chip| &mut chip.ep2.counts[1]),
    ("ep2_oldest", |chip| &mut chip.ep2.oldest),
    ("ep2_waiting", |chip| &mut chip.ep2.waiting),
    ("ep0_waiting", |chip| &mut chip.ep0_waiting),
    ("ep3_waiting", |chip| &mut chip.ep3_waiting),
    ("r0_read", |chip| &mut chip.r0_read),
    ("r0_write", |chip| &mut chip.r0_write),
    ("r1_read", |chip| &mut chip.r1_read),
    ("r2_write", |chip| &mut chip.r2_write),
    ("r3_write", |chip| &mut chip.r3_write),
    ("r4_read", |chip| &mut chip.r4_read),
    ("toggle_ep0in", |chip| &mut chip.toggle_ep0in),
    ("toggle_ep0out", |chip| &mut chip.toggle_ep0out),
    ("toggle_ep1", |chip| &mut chip.toggle_ep1),
    ("toggle_ep2", |chip| &mut chip.toggle_ep2),
    ("toggle_ep3", |chip| &mut chip.toggle_ep3),
    ("vbus", |chip| &mut chip.vbus),
    ("oscok", |chip| &mut chip.oscok),
    ("setup", |chip| &mut chip.setup),
];

/// The number of a field.
pub fn field(name: &str) -> usize {
    FIELDS.iter().position(|(n, _)| *n == name).expect("a field's name")
}

/// Sets a field to any byte, sound or not.
pub fn poke(chip: &mut Chip, field: usize, value: u8) {
    *(FIELDS[field].1)(chip) = value;
}

/// Everything observable, in this order:
/// R5 to R20 as read (16 bytes); positions R0 read, R0 write, R1 read, R2 write, R3 write, R4 read;
/// toggles EP0 IN, EP0 OUT, EP1, EP2, EP3; VBUS, oscillator flag, SETUP current;
/// the waiting packets of EP0 IN, EP1, EP2, EP3 (each: how many wait, then for each, older first, its count and bytes);
/// the first buffer to serve at EP1 and EP2 (0 or 1); buffers EP0 64, EP1 2 x 64, EP2 2 x 64, EP3 64, SUDFIFO 8.
/// The count of a buffer that does not wait is not observable and not listed.
pub fn observe(chip: &Chip) -> Vec<u8> {
    let mut list = Vec::with_capacity(900);
    list.extend((EP0BC..=IOPINS).map(|register| shown(chip, register)));
    list.extend([chip.r0_read, chip.r0_write, chip.r1_read, chip.r2_write, chip.r3_write, chip.r4_read]);
    list.extend([chip.toggle_ep0in, chip.toggle_ep0out, chip.toggle_ep1, chip.toggle_ep2, chip.toggle_ep3]);
    list.extend([chip.vbus, chip.oscok, chip.setup]);
    list_packet(&mut list, chip.ep0_waiting, chip.r(EP0BC), &chip.ep0);
    list_ring(&mut list, &chip.ep1);
    list_ring(&mut list, &chip.ep2);
    list_packet(&mut list, chip.ep3_waiting, chip.r(EP3INBC), &chip.ep3);
    list.extend([chip.ep1.oldest, chip.ep2.oldest]);
    list.extend(chip.ep0);
    list.extend(chip.ep1.bytes.iter().chain(&chip.ep2.bytes).flatten());
    list.extend(chip.ep3);
    list.extend(chip.sudfifo);
    list
}

/// One buffer: 0, or how many wait, the count and the packet's bytes.
fn list_packet(list: &mut Vec<u8>, waiting: u8, count: u8, buffer: &[u8; BUFFER]) {
    list.push(waiting);
    if waiting > 0 {
        list.push(count);
        list.extend(&buffer[..BUFFER.min(count as usize)]);
    }
}

/// Two buffers; a record that is not sound lists at most two packets.
fn list_ring(list: &mut Vec<u8>, ring: &Ring) {
    list.push(ring.waiting);
    for i in 0..ring.waiting.min(2) {
        list.push(ring.counts[ring.index(i)]);
        list.extend(ring.packet(i));
    }
}
