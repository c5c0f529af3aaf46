//! Small runs of packets of every kind with each bit turned, each cut and each place; whole tables of PIDs, lengths, tokens, orders
//! of packets and events.

use super::packets::*;
use crate::bus::*;
use crate::packets::{ACK, DATA0, DATA1, IN, NAK, OUT, SETUP, SOF, STALL};

fn run_of(packets: &[&[u8]]) -> Vec<u8> {
    packets.iter().flat_map(|packet| framed(packet)).collect()
}

/// Small runs: none to seven packets, of each kind.
pub fn small_runs() -> Vec<Vec<u8>> {
    let asked = data_of(DATA0, &[0x80, 6, 0, 1, 0, 0, 0x40, 0]);
    let (none, some) = (data_of(DATA1, &[]), data_of(DATA1, &[1, 2, 3]));
    let (setup, out, taken) = (token_of(SETUP, 0), token_of(OUT, 0x0AA), token_of(IN, 3 << 7 | 3));
    let (sof, ack, nak, stall): (_, &[u8], &[u8], &[u8]) = (token_of(SOF, 1), &[ACK], &[NAK], &[STALL]);
    vec![
        Vec::new(),
        run_of(&[&[]]),
        run_of(&[ack]),
        run_of(&[&sof]),
        run_of(&[&none]),
        run_of(&[&setup, &asked, ack]),
        run_of(&[&out, &some, ack]),
        run_of(&[&taken, &some, ack]),
        run_of(&[&taken, nak, &taken, stall, &taken]),
        run_of(&[&setup, &some, &out, ack, &taken, &none]),
        run_of(&[&out, &sof, nak, &[0x3C], &some, &asked, ack]),
        run_of(&[&taken, &[0x96], ack, ack, &[0x87, 9, 9], &out, &none]),
        run_of(&[&setup, &[], &asked, &out, &[0x2C], &some]),
    ]
}

/// Each bit of a run turned, each start of it, and each place to read it from.
fn changed_runs(run: Vec<u8>) -> impl Iterator<Item = PacketTrial> {
    let (n, bits, cuts) = (run.len(), run.clone(), run.clone());
    let turned = (0..8 * n).map(move |bit| {
        let mut run = bits.clone();
        run[bit / 8] ^= 1 << (bit % 8);
        PacketTrial::Run(run, 0)
    });
    let cut = (0..n).map(move |length| PacketTrial::Run(cuts[..length].to_vec(), 0));
    let places = (0..n + 4).chain([usize::MAX / 2, usize::MAX - 2, usize::MAX - 1, usize::MAX]);
    turned.chain(cut).chain(places.map(move |at| PacketTrial::Run(run.clone(), at)))
}

/// Every PID byte with every number of bytes up to 71, its check right and wrong, whole and a byte short at the run's end: behind
/// an OUT, with an ACK and data after it where it is whole.
fn lengths_of_pids() -> impl Iterator<Item = PacketTrial> {
    (0..=255).flat_map(|pid| (0..=71).flat_map(move |length| packets_of_length(pid, length)))
}

fn packets_of_length(pid: u8, length: usize) -> [PacketTrial; 3] {
    let bytes: Vec<u8> = (0..71).map(|i| pid.wrapping_mul(31) ^ i).collect();
    let right = match (pid, length) {
        (_, 0) => Vec::new(),
        (SETUP | OUT | IN | SOF, 3) => token_of(pid, 0x2D5),
        (_, 1 | 2) => [&[pid], &bytes[..length - 1]].concat(),
        _ => data_of(pid, &bytes[..length - 3]),
    };
    let mut wrong = right.clone();
    if let [_, .., last] = &mut wrong[..] {
        *last ^= 0x10;
    }
    let (before, after) = (token_of(OUT, 0x0AA), data_of(DATA1, &[7]));
    let whole = |packet: &[u8]| run_of(&[&before, packet, &[ACK], &after]);
    let cut = [&run_of(&[&before])[..], &(length as u16 + 1).to_le_bytes(), &right].concat();
    [whole(&right), whole(&wrong), cut].map(|run| PacketTrial::Run(run, 0))
}

/// Every order of up to four packets out of eleven.
fn orders() -> impl Iterator<Item = PacketTrial> {
    let kinds: [Vec<u8>; 11] = [
        token_of(SETUP, 0x155),
        token_of(OUT, 0x0AA),
        token_of(IN, 0x7FF),
        token_of(SOF, 0x400),
        data_of(DATA0, &[1, 2]),
        data_of(DATA1, &[3]),
        vec![ACK],
        vec![NAK],
        vec![STALL],
        vec![0x3C, 1],
        vec![DATA0, 0],
    ];
    (0..=4).flat_map(move |n| {
        let kinds = kinds.clone();
        (0..11usize.pow(n)).map(move |number| {
            let order = (0..n).map(|i| &kinds[number / 11usize.pow(i) % 11][..]);
            PacketTrial::Run(run_of(&order.collect::<Vec<_>>()), 0)
        })
    })
}

/// Every word after a token's PID.
fn tokens() -> impl Iterator<Item = PacketTrial> {
    (0..=u16::MAX).map(|word| {
        let [low, high] = word.to_le_bytes();
        PacketTrial::Run(run_of(&[&[[SETUP, OUT, IN, SOF][usize::from(word >> 1 & 3)], low, high]]), 0)
    })
}

/// Every code, and of transactions every address, endpoint and length of the payload, each mark in between.
fn events() -> impl Iterator<Item = PacketTrial> {
    let event = |code: u8, address: u8, endpoint: u8, marks: u8, n: usize| {
        let mark = |bit: u8| [0, 1, 0x80][usize::from(marks >> bit & 1) * (1 + n % 2)];
        let (damaged, data1, acknowledged) = (mark(0), mark(1), mark(2));
        let event = Event { code, pins: 0xFF, address, endpoint, damaged, data1, acknowledged };
        PacketTrial::Event(Transaction { event, payload: (0..n).map(|i| i as u8 ^ address).collect() })
    };
    let codes = (0..=255).flat_map(move |code| [0, 8, 65].map(|n| event(code, 200, 3, 0, n)));
    let marks = [SETUP_EVENT, OUT_EVENT, IN_EVENT].into_iter().flat_map(|code| (0..8).map(move |marks| (code, marks)));
    let lengths = marks
        .clone()
        .flat_map(move |(code, marks)| (0..=70).chain([256, 264, 320]).map(move |n| event(code, 0x55, 10, marks, n)));
    let targets = marks.flat_map(move |(code, marks)| {
        (0..=255).step_by(5).map(move |address: u8| event(code, address, address.wrapping_mul(37) % 20, marks, 8))
    });
    let near = (0..=128).flat_map(move |address| (0..=16).step_by(3).map(move |e| event(IN_EVENT, address, e, 4, 0)));
    codes.chain(lengths).chain(targets).chain(near)
}

/// The small runs and each change of them, then the whole tables.
pub fn packet_tables() -> impl Iterator<Item = PacketTrial> {
    let bits = (0..=u16::MAX).map(PacketTrial::Bits);
    let bytes = (0..=255).map(|byte| PacketTrial::Bytes(vec![byte]));
    let small = small_runs().into_iter().flat_map(changed_runs);
    small.chain(orders()).chain(lengths_of_pids()).chain(events()).chain(tokens()).chain(bytes).chain(bits)
}
