//! Gives runs of packets and events to two models and says where they first differ: every item, every answer, every lent byte.

use crate::bus::Event;
use crate::compare::{is_written, lend, shorten, Difference, Second, GUARD};
use crate::flips::with_flip;
use crate::packets::{self, Fault, Found, Packets};
use crate::runs::{PacketTrial, Transaction};
use crate::{ffi, packets::PacketsAnswer};

/// `found` of an item that is the end, and of one that is an event.
pub const END: u8 = 0;
pub const EVENT: u8 = 1;

/// Rooms lent for an event's packets: 0 to this, which is more than any has.
pub const ROOMS: usize = 80;

/// A model of packets; items and answers as the C interface has them.
pub trait OtherPackets {
    fn next_item(&self, run: &[u8], at: usize) -> ffi::Item;
    fn write_packets(&self, event: &Event, payload: &[u8], packets: &mut [u8]) -> ffi::PacketsAnswer;
    fn crc16(&self, bytes: &[u8]) -> u16;
    fn crc5(&self, bits: u16) -> u8;
}

impl From<packets::Item> for ffi::Item {
    fn from(item: packets::Item) -> ffi::Item {
        let packets::Item { found, place, next, skipped, start, count } = item;
        let (found, event) = match found {
            Found::End => (END, Event::default()),
            Found::Event(event) => (EVENT, event),
            Found::Bad(Fault::Complement) => (2, Event::default()),
            Found::Bad(Fault::Length) => (3, Event::default()),
            Found::Bad(Fault::Check) => (4, Event::default()),
        };
        let Event { code, address, endpoint, data1, acknowledged, .. } = event;
        ffi::Item { found, code, address, endpoint, data1, acknowledged, place, next, skipped, start, count }
    }
}

impl OtherPackets for Second {
    fn next_item(&self, run: &[u8], at: usize) -> ffi::Item {
        with_flip(self.flip, || packets::next_item(run, at)).into()
    }

    fn write_packets(&self, event: &Event, payload: &[u8], output: &mut [u8]) -> ffi::PacketsAnswer {
        let answer = with_flip(self.flip, || packets::write_packets(event, payload, output));
        let PacketsAnswer { refusal, found, count } = answer;
        ffi::PacketsAnswer { refusal, found, count }
    }

    fn crc16(&self, bytes: &[u8]) -> u16 {
        with_flip(self.flip, || packets::crc16(bytes))
    }

    fn crc5(&self, bits: u16) -> u8 {
        with_flip(self.flip, || packets::crc5(bits))
    }
}

/// All items of a run from a place on, the end among them; no more than a right model has.
pub fn items<'r, M: OtherPackets>(model: &'r M, run: &'r [u8], at: usize) -> impl Iterator<Item = ffi::Item> + 'r {
    let first = model.next_item(run, at);
    let all = std::iter::successors(Some(first), |item| (item.found != END).then(|| model.next_item(run, item.next)));
    all.take(run.len() + 1)
}

fn compare_run<L: OtherPackets, R: OtherPackets>(left: &L, right: &R, run: &[u8], mut at: usize) -> Option<String> {
    loop {
        let (l, r) = (left.next_item(run, at), right.next_item(run, at));
        if l != r {
            return Some(format!("the item from {at} on: {l:?} against {r:?}"));
        }
        if l.found == END {
            return None;
        }
        if l.next <= at || l.next > run.len() {
            return Some(format!("the item from {at} on goes on at {}", l.next));
        }
        at = l.next;
    }
}

/// What a model makes of an event with this room: the answer, the lent bytes with `GUARD` more behind them.
fn written<M: OtherPackets>(model: &M, what: &Transaction, room: usize) -> (ffi::PacketsAnswer, Vec<u8>) {
    let mut lent = Vec::new();
    lend(&mut lent, room + GUARD);
    let answer = model.write_packets(&what.event, &what.payload, &mut lent[..room]);
    (answer, lent)
}

/// An event with each room, then what is written read back.
fn compare_event<L: OtherPackets, R: OtherPackets>(left: &L, right: &R, what: &Transaction) -> Option<String> {
    let mut last = Vec::new();
    for room in 0..=ROOMS {
        let ((l, mut packets), (r, other)) = (written(left, what, room), written(right, what, room));
        let difference = if l != r {
            format!("the answers: {l:?} against {r:?}")
        } else if is_written(&packets, l.count) || is_written(&other, l.count) {
            "bytes are written beyond the count".to_string()
        } else if l.refusal != 0 && l.count != 0 {
            "a refused call counts bytes".to_string()
        } else if packets != other {
            format!("the packets: {:02X?} against {:02X?}", &packets[..l.count], &other[..l.count])
        } else {
            packets.truncate(l.count);
            last = packets;
            continue;
        };
        return Some(format!("{difference}, with room for {room} bytes"));
    }
    compare_run(left, right, &last, 0)
}

/// The packets of all events that are not refused, one after the other.
pub fn written_run<M: OtherPackets>(model: &M, list: &[Transaction]) -> Vec<u8> {
    list.iter().fold(Vec::new(), |mut run, what| {
        let at = run.len();
        run.resize(at + ROOMS, 0xEE);
        let count = model.write_packets(&what.event, &what.payload, &mut run[at..]).count;
        run.truncate(at + count);
        run
    })
}

/// The events of a run with their payloads, if it has nothing else: no bad packet, none skipped.
pub fn read_back<M: OtherPackets>(model: &M, run: &[u8]) -> Option<Vec<Transaction>> {
    let mut list = Vec::new();
    for item in items(model, run, 0) {
        let ffi::Item { found, code, address, endpoint, data1, acknowledged, skipped, start, count, .. } = item;
        match found {
            _ if skipped != 0 => return None,
            END => {}
            EVENT => {
                let event = Event { code, address, endpoint, data1, acknowledged, ..Event::default() };
                list.push(Transaction { event, payload: run[start..start + count].to_vec() });
            }
            _ => return None,
        }
    }
    Some(list)
}

fn compare_list<L: OtherPackets, R: OtherPackets>(left: &L, right: &R, list: &[Transaction]) -> Option<String> {
    let (run, other) = (written_run(left, list), written_run(right, list));
    if run != other {
        return Some(format!("the run that is written: {run:02X?} against {other:02X?}"));
    }
    compare_run(left, right, &run, 0)
}

/// In what two models differ on a trial.
pub fn compare_packets<L: OtherPackets, R: OtherPackets>(left: &L, right: &R, trial: &PacketTrial) -> Option<String> {
    match trial {
        PacketTrial::Run(run, at) => compare_run(left, right, run, *at),
        PacketTrial::Event(what) => compare_event(left, right, what),
        PacketTrial::List(list) => compare_list(left, right, list),
        PacketTrial::Bytes(bytes) => {
            let (l, r) = (left.crc16(bytes), right.crc16(bytes));
            (l != r).then(|| format!("the CRC16: {l:04X} against {r:04X}"))
        }
        PacketTrial::Bits(bits) => {
            let (l, r) = (left.crc5(*bits), right.crc5(*bits));
            (l != r).then(|| format!("the CRC5: {l:02X} against {r:02X}"))
        }
    }
}

/// A trial that still differs, and in what: a run with the packets that are needed, else the trial itself.
pub fn shortest_run<L: OtherPackets, R: OtherPackets>(
    left: &L,
    right: &R,
    trial: &PacketTrial,
) -> Option<(PacketTrial, String)> {
    let whole = (trial.clone(), compare_packets(left, right, trial)?);
    let PacketTrial::Run(run, at) = trial else { return Some(whole) };
    let pieces: Vec<&[u8]> = Packets::of(run, *at).map(|packet| &run[packet.place..packet.next]).collect();
    let differ = |list: &[&[u8]]| {
        compare_run(left, right, &list.concat(), 0).map(|what| Difference { at: list.len().saturating_sub(1), what })
    };
    let short = shorten(&pieces, differ).map(|(list, difference)| (PacketTrial::Run(list.concat(), 0), difference.what));
    Some(short.unwrap_or(whole))
}
