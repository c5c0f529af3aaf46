//! Packets of the bus as an analyser has them (document 02, Ask 6; USB 2.0 section 8.3): runs of packets, each after its 16-bit
//! length, are read item by item, and the host's packets of an event are written. The check fields are worked out bit by bit.

use crate::bus::*;
use crate::chip::{found, BUFFER};
use crate::flips::{flipped, Flip};

// PIDs: the low four bits, and their complement above them (section 8.3.1).
pub const OUT: u8 = 0xE1;
pub const IN: u8 = 0x69;
pub const SOF: u8 = 0xA5;
pub const SETUP: u8 = 0x2D;
pub const DATA0: u8 = 0xC3;
pub const DATA1: u8 = 0x4B;
pub const ACK: u8 = 0xD2;
pub const NAK: u8 = 0x5A;
pub const STALL: u8 = 0x1E;
const DATA2: u8 = 0x87;

/// Bits of a token under its CRC5: address and endpoint, or the frame's number.
const TOKEN_BITS: u32 = 11;
const ADDRESS_BITS: u32 = 7;

/// Section 8.3.5: a register of ones; where its high bit differs from the next bit sent, the generator is added after the shift.
/// The remainder is inverted and sent high bit first; as other fields are sent low bit first, that turns its bits round.
fn check_field(width: u32, generator: u16, bits: impl Iterator<Item = bool>) -> u16 {
    let ones = u16::MAX >> (16 - width);
    let mut remainder = if flipped(Flip::ChecksFromZero) { 0 } else { ones };
    for bit in bits {
        let differs = (remainder >> (width - 1) == 1) != bit;
        remainder = remainder << 1 & ones;
        if differs {
            remainder ^= generator;
        }
    }
    (remainder ^ ones).reverse_bits() >> (16 - width)
}

/// A data packet's CRC16, as it is sent low byte first; generator x^16 + x^15 + x^2 + 1.
pub fn crc16(bytes: &[u8]) -> u16 {
    let generator = if flipped(Flip::Crc16Generator) { 0x1021 } else { 0x8005 };
    let place = |i: u32| if flipped(Flip::Crc16HighFirst) { 7 - i } else { i };
    let bits = bytes.iter().flat_map(|byte| (0..8).map(move |i| byte >> place(i) & 1 == 1));
    let field = check_field(16, generator, bits);
    if flipped(Flip::Crc16Plain) {
        !field
    } else if flipped(Flip::Crc16LowFirst) {
        field.reverse_bits()
    } else {
        field
    }
}

/// A token's CRC5, of the low eleven bits; generator x^5 + x^2 + 1.
pub fn crc5(bits: u16) -> u8 {
    let generator = if flipped(Flip::Crc5Generator) { 0b01001 } else { 0b00101 };
    let used = if flipped(Flip::Crc5Above) { TOKEN_BITS.max(16 - bits.leading_zeros()) } else { TOKEN_BITS };
    let place = |i: u32| if flipped(Flip::Crc5HighFirst) { used - 1 - i } else { i };
    let field = check_field(5, generator, (0..used).map(|i| bits >> place(i) & 1 == 1)) as u8;
    if flipped(Flip::Crc5Plain) {
        !field & 0x1F
    } else {
        field
    }
}

/// What is wrong with a packet.
#[derive(Clone, Copy, Debug, PartialEq, Eq)]
pub enum Fault {
    Complement,
    Length,
    Check,
}

/// What a packet with a known PID is made of.
#[derive(Clone, Copy, PartialEq, Eq)]
enum Kind {
    Token,
    Data,
    Handshake,
}

impl Kind {
    fn of(pid: u8) -> Option<Kind> {
        match pid {
            SETUP | OUT | IN | SOF => Some(Kind::Token),
            DATA0 | DATA1 => Some(Kind::Data),
            NAK | STALL if flipped(Flip::HandshakesUnchecked) => None,
            ACK | NAK | STALL => Some(Kind::Handshake),
            DATA2 if flipped(Flip::Data2Checked) => Some(Kind::Data),
            _ => None,
        }
    }

    /// May so many bytes follow the PID?
    fn has_length(self, length: usize) -> bool {
        match self {
            Kind::Token => length == 2,
            Kind::Data if flipped(Flip::Data65) => (2..=2 + BUFFER + 1).contains(&length),
            Kind::Data if flipped(Flip::Data63) => (2..2 + BUFFER).contains(&length),
            Kind::Data => (2..=2 + BUFFER).contains(&length),
            Kind::Handshake => length == 0,
        }
    }

    /// Is there a check field after the PID, and a wrong one?
    fn has_wrong_check(self, pid: u8, body: &[u8]) -> bool {
        match (self, body) {
            (Kind::Token, [low, high]) => {
                let (bits, check) = split_token(*low, *high);
                check != crc5(bits) && !(pid == SOF && flipped(Flip::SofUnchecked))
            }
            (Kind::Data, [data @ .., low, high]) => u16::from_le_bytes([*low, *high]) != data_check(pid, data),
            _ => false,
        }
    }
}

/// A token's eleven bits and its check.
fn split_token(low: u8, high: u8) -> (u16, u8) {
    let word = u16::from_le_bytes([low, high]);
    (word & ((1 << TOKEN_BITS) - 1), (word >> TOKEN_BITS) as u8)
}

/// The PID is not among what is checked.
fn data_check(pid: u8, data: &[u8]) -> u16 {
    if flipped(Flip::Crc16OverPid) {
        crc16(&[&[pid], data].concat())
    } else {
        crc16(data)
    }
}

fn is_complemented(pid: u8) -> bool {
    pid >> 4 == !pid & 0x0F || flipped(Flip::ComplementSkipped)
}

/// A packet of a run: the place of its length, that of the next one, and the bytes that are there, if not `whole` too few.
#[derive(Clone, Copy, Debug, PartialEq, Eq)]
pub struct Packet<'r> {
    pub place: usize,
    pub next: usize,
    pub bytes: &'r [u8],
    pub whole: bool,
}

impl Packet<'_> {
    pub fn pid(&self) -> Option<u8> {
        let pid = *self.bytes.first()?;
        Some(if flipped(Flip::PidLowNibble) { pid & 0x0F | (!pid & 0x0F) << 4 } else { pid })
    }

    /// What is wrong with it, the first that applies; of PIDs that are none of the nine only the complement can be.
    pub fn fault(&self) -> Option<Fault> {
        let (Some(pid), [_, body @ ..]) = (self.pid(), self.bytes) else {
            return (!(self.whole && flipped(Flip::EmptySkipped))).then_some(Fault::Length);
        };
        let cut = !self.whole && !flipped(Flip::CutAccepted);
        if cut && flipped(Flip::CutFirst) {
            return Some(Fault::Length);
        }
        if !is_complemented(pid) {
            return Some(Fault::Complement);
        }
        let Some(kind) = Kind::of(pid) else {
            let wrong = cut && flipped(Flip::OthersCut) || !body.is_empty() && flipped(Flip::OthersAlone);
            return wrong.then_some(Fault::Length);
        };
        let wrong_check = || kind.has_wrong_check(pid, body);
        if flipped(Flip::CheckFirst) && wrong_check() {
            Some(Fault::Check)
        } else if cut || !kind.has_length(body.len()) {
            Some(Fault::Length)
        } else {
            wrong_check().then_some(Fault::Check)
        }
    }

    /// Does a transaction begin here?
    fn is_transaction(&self) -> bool {
        matches!(self.pid(), Some(SETUP | OUT | IN))
    }

    /// Does it belong to the transaction before it?
    fn is_of_group(&self) -> bool {
        let ends = match self.pid() {
            Some(SOF) => flipped(Flip::SofEndsGroup),
            Some(NAK | STALL) => flipped(Flip::HandshakeEndsGroup),
            _ => self.is_transaction(),
        };
        !ends && (flipped(Flip::BadInGroup) || self.fault().is_none())
    }

    /// A token's address and endpoint.
    fn target(&self) -> (u8, u8) {
        let [_, low, high] = *self.bytes else { unreachable!("a token has three bytes") };
        let (bits, _) = split_token(low, high);
        if flipped(Flip::EndpointLow) {
            return ((bits >> 4) as u8, bits as u8 & 0x0F);
        }
        let endpoint = (bits >> ADDRESS_BITS) as u8;
        let endpoint = if flipped(Flip::EndpointOf3Bits) { endpoint & 0x07 } else { endpoint };
        ((bits & ((1 << ADDRESS_BITS) - 1)) as u8, endpoint)
    }

    /// Where a data packet's bytes stand in the run, and how many there are.
    fn payload(&self) -> (usize, usize) {
        let start = self.place + if flipped(Flip::PayloadWithPid) { 2 } else { 3 };
        (start, self.bytes.len() - if flipped(Flip::PayloadWithCheck) { 1 } else { 3 })
    }
}

/// The packets of a run from a place on, good and bad.
#[derive(Clone, Debug)]
pub struct Packets<'r> {
    run: &'r [u8],
    at: usize,
}

impl<'r> Packets<'r> {
    pub fn of(run: &'r [u8], at: usize) -> Packets<'r> {
        Packets { run, at }
    }
}

impl<'r> Iterator for Packets<'r> {
    type Item = Packet<'r>;

    /// A byte that is left alone is a packet cut off in its length.
    fn next(&mut self) -> Option<Packet<'r>> {
        let place = self.at;
        let (bytes, whole) = match self.run.get(place..)? {
            [] => return None,
            [_] if flipped(Flip::LoneByteIgnored) => return None,
            [_] => {
                self.at = place + 1;
                return Some(Packet { place, next: self.at, bytes: &[], whole: false });
            }
            [low, high, rest @ ..] => {
                let length = said_length(*low, *high);
                (&rest[..length.min(rest.len())], length <= rest.len())
            }
        };
        self.at = place + 2 + bytes.len();
        Some(Packet { place, next: self.at, bytes, whole })
    }
}

/// Low byte first.
fn said_length(low: u8, high: u8) -> usize {
    usize::from(match [low, high] {
        bytes if flipped(Flip::LengthHighFirst) => u16::from_be_bytes(bytes),
        [low, _] if flipped(Flip::LengthOfByte) => u16::from(low),
        bytes => u16::from_le_bytes(bytes),
    })
}

/// What stands next in a run.
#[derive(Clone, Copy, Debug, PartialEq, Eq)]
pub enum Found {
    End,
    Event(Event),
    Bad(Fault),
}

/// An item: where it stands, where to go on, how many good packets made no event since the place before or are of its group,
/// and where an event's payload stands in the run.
#[derive(Clone, Copy, Debug, PartialEq, Eq)]
pub struct Item {
    pub found: Found,
    pub place: usize,
    pub next: usize,
    pub skipped: usize,
    pub start: usize,
    pub count: usize,
}

/// The next item of a run from a place on.
pub fn next_item(run: &[u8], at: usize) -> Item {
    let mut skipped = 0;
    let mut end = if flipped(Flip::EndInRun) { at.min(run.len()) } else { at };
    for packet in Packets::of(run, at) {
        let Packet { place, next, .. } = packet;
        if let Some(fault) = packet.fault() {
            return Item { found: Found::Bad(fault), place, next, skipped, start: 0, count: 0 };
        }
        let item = if packet.is_transaction() { transaction(run, &packet, skipped) } else { None };
        if let Some(item) = item {
            return item;
        }
        skipped += usize::from(!(flipped(Flip::OthersUncounted) && packet.pid().and_then(Kind::of).is_none()));
        end = next;
    }
    Item { found: Found::End, place: end, next: end, skipped, start: 0, count: 0 }
}

/// The event of a token with its group, if it makes one.
fn transaction(run: &[u8], token: &Packet, skipped: usize) -> Option<Item> {
    let group: Vec<Packet> = Packets::of(run, token.next).take_while(Packet::is_of_group).collect();
    let mut suited = group.iter().filter(|packet| is_taken(token, packet));
    let taken = if flipped(Flip::LastTaken) { suited.next_back() } else { suited.next() };
    let event = event_of(token, taken, &group)?;
    let data = match event.code {
        IN_EVENT if flipped(Flip::InPayload) => group.iter().find(|packet| is_data(packet)),
        IN_EVENT => None,
        _ => taken,
    };
    let (start, count) = data.map_or((0, 0), Packet::payload);
    let others = group.len() - usize::from(taken.is_some() && !flipped(Flip::TakenSkipped));
    let next = match taken {
        _ if flipped(Flip::NextAfterToken) => token.next,
        Some(packet) if flipped(Flip::NextAfterTaken) => packet.next,
        _ => group.last().unwrap_or(token).next,
    };
    let skipped = if flipped(Flip::GroupUncounted) { skipped } else { skipped + others };
    Some(Item { found: Found::Event(event), place: token.place, next, skipped, start, count })
}

/// SETUP and OUT make an event with the data that they take, IN always.
fn event_of(token: &Packet, taken: Option<&Packet>, group: &[Packet]) -> Option<Event> {
    let (address, endpoint) = token.target();
    let event = Event { address, endpoint, ..Event::default() };
    match (token.pid()?, taken) {
        (SETUP, Some(_)) => Some(Event { code: SETUP_EVENT, ..event }),
        (SETUP, None) if flipped(Flip::SetupWithoutData) => Some(Event { code: SETUP_EVENT, ..event }),
        (OUT, Some(data)) => {
            let data1 = u8::from(data.pid() == Some(DATA1));
            let ack = flipped(Flip::AckMarksOut) && group.iter().any(|packet| packet.pid() == Some(ACK));
            Some(Event { code: OUT_EVENT, data1, acknowledged: u8::from(ack), ..event })
        }
        (OUT, None) if flipped(Flip::OutWithoutData) => Some(Event { code: OUT_EVENT, ..event }),
        (IN, None) if flipped(Flip::InNeedsAck) => None,
        (IN, ack) => {
            let unheard = flipped(Flip::AckAfterData) && !group.iter().any(is_data);
            Some(Event { code: IN_EVENT, acknowledged: u8::from(ack.is_some() && !unheard), ..event })
        }
        _ => None,
    }
}

fn is_data(packet: &Packet) -> bool {
    matches!(packet.pid(), Some(DATA0 | DATA1))
}

/// Does a token take this packet of its group?
fn is_taken(token: &Packet, packet: &Packet) -> bool {
    let takes = match (token.pid(), packet.pid()) {
        (Some(SETUP), Some(DATA1)) => flipped(Flip::SetupTakesData1),
        (Some(OUT), Some(DATA1)) => !flipped(Flip::OutTakesData0),
        (Some(SETUP | OUT), Some(DATA0)) | (Some(IN), Some(ACK)) => true,
        _ => false,
    };
    takes && (!flipped(Flip::BadInGroup) || packet.fault().is_none())
}

/// What writing hands back: `found` is the length that 6 and 8 tell, else 0; `count` the bytes written.
#[derive(Clone, Copy, Debug, PartialEq, Eq)]
pub struct PacketsAnswer {
    pub refusal: u8,
    pub found: usize,
    pub count: usize,
}

/// The host's packets of an event: refused as the event is, else with 4 where they do not fit.
pub fn write_packets(event: &Event, payload: &[u8], output: &mut [u8]) -> PacketsAnswer {
    let own = match own_refusal(event, payload.len()) {
        6..=8 if event.damaged != 0 && flipped(Flip::PacketsDamagedAccepted) => 0,
        refusal => refusal,
    };
    let packets = if own == 0 || flipped(Flip::PacketsShortFirst) { packets_of(event, payload) } else { Vec::new() };
    let wanted = match event.code {
        _ if flipped(Flip::PacketsRoomBelow) => packets.len() + 1,
        IN_EVENT if flipped(Flip::PacketsRoomOfIn) => BUFFER,
        _ => packets.len(),
    };
    let short = output.len() < wanted;
    let refusal = match own {
        0 if short => 4,
        5..=8 if short && flipped(Flip::PacketsShortFirst) => 4,
        own => own,
    };
    if refusal != 0 {
        if refusal == 4 && flipped(Flip::PacketsPartWritten) {
            let fits = output.len().min(packets.len());
            output[..fits].copy_from_slice(&packets[..fits]);
        }
        return PacketsAnswer { refusal, found: found(refusal, told_length(payload, output)), count: 0 };
    }
    output[..packets.len()].copy_from_slice(&packets);
    PacketsAnswer { refusal: 0, found: 0, count: packets.len() }
}

/// The packets as a run. A damaged SETUP or OUT has none, and no event but a transaction has any.
fn packets_of(event: &Event, payload: &[u8]) -> Vec<u8> {
    let Event { code, damaged, data1, acknowledged, .. } = *event;
    let yes = |mark: u8| if flipped(Flip::PacketsMarksOfBit) { mark & 1 == 1 } else { mark != 0 };
    let is_in = code == IN_EVENT && !flipped(Flip::PacketsDamagedIn);
    if yes(damaged) && !is_in && !flipped(Flip::PacketsDamaged) {
        return Vec::new();
    }
    let mut run = Vec::new();
    match code {
        SETUP_EVENT => {
            put(&mut run, &token_packet(SETUP, event));
            let pid = if yes(data1) && flipped(Flip::PacketsSetupData1) { DATA1 } else { DATA0 };
            put(&mut run, &data_packet(pid, payload));
        }
        OUT_EVENT => {
            put(&mut run, &token_packet(OUT, event));
            put(&mut run, &data_packet(if yes(data1) { DATA1 } else { DATA0 }, payload));
            if yes(acknowledged) && flipped(Flip::PacketsOutAck) {
                put(&mut run, &[ACK]);
            }
        }
        IN_EVENT => {
            put(&mut run, &token_packet(IN, event));
            if yes(acknowledged) || flipped(Flip::PacketsInAck) {
                put(&mut run, &[ACK]);
            }
        }
        _ => {}
    }
    run
}

/// A packet after its length.
fn put(run: &mut Vec<u8>, packet: &[u8]) {
    let length = packet.len() as u16;
    run.extend(if flipped(Flip::PacketsLengthHighFirst) { length.to_be_bytes() } else { length.to_le_bytes() });
    run.extend(packet);
}

fn token_packet(pid: u8, event: &Event) -> [u8; 3] {
    let bits = u16::from(event.endpoint) << ADDRESS_BITS | u16::from(event.address);
    let [low, high] = (bits | u16::from(crc5(bits)) << TOKEN_BITS).to_le_bytes();
    [pid, low, high]
}

fn data_packet(pid: u8, data: &[u8]) -> Vec<u8> {
    [&[pid], data, &data_check(pid, data).to_le_bytes()].concat()
}
