//! Runs of packets: conversations of a host and a device, packets at random, damaged ones; events to be written; bytes and bits
//! to be checked.

use super::Rng;
use crate::bus::*;
use crate::packets::{crc16, crc5, Packets, ACK, DATA0, DATA1, IN, NAK, OUT, SETUP, SOF, STALL};

/// An event with its payload.
#[derive(Clone, Debug, PartialEq, Eq)]
pub struct Transaction {
    pub event: Event,
    pub payload: Vec<u8>,
}

/// What is asked of both models: a run to be read from a place on, an event to be written with each room, events to be written one
/// after the other and read back, bytes for CRC16, bits for CRC5.
#[derive(Clone, Debug, PartialEq, Eq)]
pub enum PacketTrial {
    Run(Vec<u8>, usize),
    Event(Transaction),
    List(Vec<Transaction>),
    Bytes(Vec<u8>),
    Bits(u16),
}

/// PIDs with a right complement: those of tokens, data and handshakes, then the others.
pub const KNOWN_PIDS: [u8; 9] = [SETUP, OUT, IN, SOF, DATA0, DATA1, ACK, NAK, STALL];
pub const OTHER_PIDS: [u8; 7] = [0x3C, 0x96, 0x87, 0x0F, 0x78, 0xB4, 0xF0];

/// A packet after its length.
pub fn framed(packet: &[u8]) -> Vec<u8> {
    [&(packet.len() as u16).to_le_bytes(), packet].concat()
}

/// A token of eleven bits with its check.
pub fn token_of(pid: u8, bits: u16) -> Vec<u8> {
    let [low, high] = (bits | u16::from(crc5(bits)) << 11).to_le_bytes();
    vec![pid, low, high]
}

/// Any number of bytes with their check.
pub fn data_of(pid: u8, bytes: &[u8]) -> Vec<u8> {
    [&[pid], bytes, &crc16(bytes).to_le_bytes()].concat()
}

/// The eleven bits of an address and an endpoint, most of them a device's.
fn any_target(rng: &mut Rng) -> u16 {
    match rng.below(4) {
        0 => rng.number() as u16 & 0x7FF,
        _ => rng.pick(&[0, 3, 127]) | rng.pick(&[0, 1, 2, 3, 8, 15]) << 7,
    }
}

/// Data of up to 64 bytes, with their check.
fn any_data(rng: &mut Rng, pid: u8) -> Vec<u8> {
    let n = match rng.below(8) {
        0 => rng.pick(&[0, 1, 63, 64]),
        1 => rng.below(65),
        _ => rng.below(9),
    };
    data_of(pid, &rng.bytes(n))
}

/// The packets of one transaction, whole, or with one of them missing or changed for another.
fn transaction(rng: &mut Rng) -> Vec<Vec<u8>> {
    let bits = any_target(rng);
    let data = rng.pick(&[DATA0, DATA1]);
    let answer = vec![rng.pick(&[ACK, ACK, ACK, NAK, STALL])];
    let mut packets = match rng.below(8) {
        0 | 1 => {
            let data = if rng.one_in(4) { data } else { DATA0 };
            vec![token_of(SETUP, bits), data_of(data, &rng.bytes(8)), vec![ACK]]
        }
        2..=4 => vec![token_of(OUT, bits), any_data(rng, data), answer],
        5 | 6 => vec![token_of(IN, bits), any_data(rng, data), vec![ACK]],
        _ => vec![token_of(IN, bits), answer],
    };
    let at = rng.below(packets.len());
    match rng.below(16) {
        0 => drop(packets.remove(at)),
        1 => packets[at] = any_packet(rng),
        2 | 3 => packets.insert(at + 1, any_packet(rng)),
        4 => packets.insert(at, token_of(SOF, rng.number() as u16 & 0x7FF)),
        5 => packets.push(any_data(rng, data)),
        _ => {}
    }
    packets
}

/// A good packet of any PID.
fn any_packet(rng: &mut Rng) -> Vec<u8> {
    let (known, other) = (rng.pick(&KNOWN_PIDS), rng.pick(&OTHER_PIDS));
    let bits = any_target(rng);
    match known {
        _ if rng.one_in(4) => {
            let n = rng.pick(&[0, 0, 1, 2, 3, 66, 70]);
            [&[other][..], &rng.bytes(n)].concat()
        }
        SETUP | OUT | IN | SOF => token_of(known, bits),
        DATA0 | DATA1 => any_data(rng, known),
        _ => vec![known],
    }
}

/// A packet with something wrong, or nearly, after its length.
fn bad_packet(rng: &mut Rng) -> Vec<u8> {
    let mut packet = any_packet(rng);
    let at = rng.below(packet.len());
    match rng.below(10) {
        0 => packet.clear(),
        1 => packet.truncate(at),
        2 => packet.extend(rng.bytes(1 + at)),
        3 => packet[0] = rng.byte(),
        4 => packet[0] ^= 1 << rng.below(8),
        5 | 6 => packet[at] ^= 1 << rng.below(8),
        7 => packet = any_length(rng),
        8 => {
            packet = any_length(rng);
            let last = packet.len() - 1;
            packet[last] ^= rng.pick(&[0, 1, 0x80, 0xFF]);
        }
        _ => {
            // the length says more or less than there is
            let said = packet.len() + rng.pick(&[1, 2, 3, 5, 255, 256]);
            let less = packet.len() - 1;
            let said = if rng.one_in(3) { less } else { said } as u16;
            return [&said.to_le_bytes()[..], &packet].concat();
        }
    }
    framed(&packet)
}

/// Data with a right check, of about as many bytes as there may be.
fn any_length(rng: &mut Rng) -> Vec<u8> {
    let n = rng.pick(&[0, 1, 62, 63, 64, 64, 65, 65, 66, 100, 253, 300]);
    data_of(rng.pick(&[DATA0, DATA1]), &rng.bytes(n))
}

/// Packets of some transactions, each after its length, now and then a bad one among them.
pub fn conversation(rng: &mut Rng, bad: bool) -> Vec<Vec<u8>> {
    let mut list = Vec::new();
    for _ in 0..1 + rng.below(8) {
        for packet in transaction(rng) {
            if bad && rng.one_in(6) {
                list.push(bad_packet(rng));
            }
            if !(bad && rng.one_in(12)) {
                list.push(framed(&packet));
            }
        }
    }
    list
}

/// A run whose last packet is not whole: cut, with a length that says more, or a lone byte.
fn cut_run(rng: &mut Rng) -> Vec<u8> {
    let bad = rng.one_in(2);
    let mut run = conversation(rng, bad).concat();
    let last = if rng.one_in(2) { framed(&any_packet(rng)) } else { bad_packet(rng) };
    match rng.below(4) {
        0 => run.push(rng.byte()),
        1 => {
            let left = rng.below(last.len());
            run.extend(&last[..left]);
        }
        2 => run.truncate(rng.below(run.len() + 1)),
        _ => {
            let at = run.len();
            run.extend(&last);
            run[at] = run[at].saturating_add(rng.pick(&[1, 2, 64, 200]));
        }
    }
    run
}

/// Bytes at random, the lengths among them often small.
fn any_bytes(rng: &mut Rng) -> Vec<u8> {
    let n = rng.below(120);
    let mut run = rng.bytes(n);
    for byte in &mut run {
        match rng.below(9) {
            0..=2 => *byte = rng.pick(&[0, 0, 0, 1, 3]),
            3 | 4 => *byte = rng.pick(&KNOWN_PIDS),
            _ => {}
        }
    }
    run
}

/// A place to read from: the start, a packet's, any, the end, behind it.
fn any_place(rng: &mut Rng, run: &[u8]) -> usize {
    let n = run.len();
    match rng.below(12) {
        0 => rng.pick(&[n, n + 1, n + 2, usize::MAX, usize::MAX - 1, usize::MAX / 2 + 1]),
        1 => rng.below(n + 1),
        2 | 3 => {
            let places: Vec<usize> = Packets::of(run, 0).map(|packet| packet.place).chain([n]).collect();
            rng.pick(&places)
        }
        _ => 0,
    }
}

/// Any event, most of them transactions, with a payload that may be too long.
fn any_transaction(rng: &mut Rng) -> Transaction {
    let code = match rng.below(12) {
        0 => rng.byte(),
        1 => rng.below(14) as u8,
        2..=4 => SETUP_EVENT,
        5..=8 => OUT_EVENT,
        _ => IN_EVENT,
    };
    let far = rng.one_in(8);
    let event = Event {
        code,
        pins: rng.byte(),
        address: if far { rng.pick(&[127, 128, 129, 200, 255]) } else { rng.byte() & 0x7F },
        endpoint: if rng.one_in(8) { rng.pick(&[15, 16, 17, 128, 255]) } else { rng.byte() & 0x0F },
        damaged: rng.pick(&[0, 0, 0, 0, 1, 2, 255]),
        data1: rng.pick(&[0, 0, 1, 2, 128, 255]),
        acknowledged: rng.pick(&[0, 0, 1, 2, 128, 255]),
    };
    let n = match (rng.below(4), code) {
        (0, _) => rng.pick(&[0, 7, 8, 9, 63, 64, 65, 66, 70, 256, 264, 320, 65_544]),
        (1, _) => rng.below(71),
        (_, SETUP_EVENT) => 8,
        _ => rng.below(9),
    };
    Transaction { event, payload: rng.bytes(n) }
}

/// An event that is written out and reads back as it is: not refused, not damaged, and what it does not use is 0.
pub fn written_transaction(rng: &mut Rng) -> Transaction {
    let code = rng.pick(&[SETUP_EVENT, OUT_EVENT, IN_EVENT]);
    let (address, endpoint) = (rng.byte() & 0x7F, rng.byte() & 0x0F);
    let mark = rng.below(2) as u8;
    let (data1, acknowledged) = (if code == OUT_EVENT { mark } else { 0 }, if code == IN_EVENT { mark } else { 0 });
    let n = match code {
        SETUP_EVENT => 8,
        OUT_EVENT => rng.below(65),
        _ => 0,
    };
    let event = Event { code, address, endpoint, data1, acknowledged, ..Event::default() };
    Transaction { event, payload: rng.bytes(n) }
}

/// The trial of a seed.
pub fn packet_trial(seed: u64) -> PacketTrial {
    let rng = &mut Rng::new(seed);
    let run = match seed % 16 {
        0..=2 => conversation(rng, false).concat(),
        3..=6 => conversation(rng, true).concat(),
        7 | 8 => cut_run(rng),
        9 => {
            let mut run = conversation(rng, false).concat();
            let at = rng.below(run.len());
            run[at] ^= 1 << rng.below(8);
            run
        }
        10 => any_bytes(rng),
        11 | 12 => return PacketTrial::Event(any_transaction(rng)),
        13 => {
            let n = rng.below(12);
            return PacketTrial::List((0..n).map(|_| any_transaction(rng)).collect());
        }
        14 => {
            let n = rng.below(301);
            return PacketTrial::Bytes(rng.bytes(n));
        }
        _ => return PacketTrial::Bits(rng.number() as u16 & rng.pick(&[0x7FF, 0xFFFF])),
    };
    let at = any_place(rng, &run);
    PacketTrial::Run(run, at)
}

/// A well-formed run of just `size` bytes, for the benchmark: control transfers, packets of 64 bytes each way, a NAK, an SOF.
pub fn packet_recipe(size: usize) -> Vec<u8> {
    let mut run = Vec::with_capacity(size);
    for number in 0.. {
        let round = recipe_round(number).map(|packet| framed(&packet)).concat();
        if run.len() + round.len() + 16 > size {
            break;
        }
        run.extend(round);
    }
    // SOFs and, until their five bytes fit, ACKs that nobody takes
    while run.len() < size {
        let packet = if (size - run.len()).is_multiple_of(5) { token_of(SOF, 7) } else { vec![ACK] };
        run.extend(framed(&packet));
    }
    run
}

fn recipe_round(number: u16) -> [Vec<u8>; 18] {
    let packet: [u8; 64] = std::array::from_fn(|i| (number as u8).wrapping_add(i as u8));
    let target = |endpoint: u16| 5 | endpoint << 7;
    let toggle = [DATA0, DATA1][usize::from(number % 2)];
    [
        token_of(SOF, number & 0x7FF),
        token_of(SETUP, target(0)),
        data_of(DATA0, &[0x80, 6, 0, 1, 0, 0, 18, 0]),
        vec![ACK],
        token_of(IN, target(0)),
        data_of(DATA1, &packet[..18]),
        vec![ACK],
        token_of(OUT, target(0)),
        data_of(DATA1, &[]),
        vec![ACK],
        token_of(OUT, target(1)),
        data_of(toggle, &packet),
        vec![ACK],
        token_of(IN, target(2)),
        data_of(toggle, &packet),
        vec![ACK],
        token_of(IN, target(3)),
        vec![NAK],
    ]
}
