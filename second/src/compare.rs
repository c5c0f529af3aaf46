//! Plays a list of calls on two models and says where they first differ. `Other` is the seam for another model.

use crate::bus::{Event, POWER_ON, RESET_START};
use crate::fields::{self, FIELDS};
use crate::flips::{with_flip, Flip};
use crate::runs::Call;
use crate::{board_step, event, observe, transfer, Answer, BoardAnswer, Chip, Firmware};

/// An answer without the records. `pid` is the kind of a board step's answer.
#[derive(Clone, Copy, Debug, PartialEq, Eq)]
pub struct Given {
    pub refusal: u8,
    pub pid: u8,
    pub count: u16,
    pub pin: u8,
    pub found: usize,
}

/// A model: records by value in and out.
pub trait Other {
    type Chip: Clone;
    fn power_on(&self) -> Self::Chip;
    fn transfer(&self, chip: Self::Chip, bytes: &[u8], reply: &mut [u8]) -> (Self::Chip, Given);
    fn event(&self, chip: Self::Chip, what: &Event, payload: &[u8], reply: &mut [u8]) -> (Self::Chip, Given);
    fn board_step(&self, chip: Self::Chip, firmware: Firmware, reply: &mut [u8]) -> (Self::Chip, Firmware, Given);
    /// Sets the field of `fields::FIELDS` with this number.
    fn poke(&self, chip: &mut Self::Chip, field: usize, value: u8);
    /// The list of `fields::observe`.
    fn observe(&self, chip: &Self::Chip) -> Vec<u8>;
}

/// This model, with a flip for tests.
#[derive(Clone, Copy, Default)]
pub struct Second {
    pub flip: Option<Flip>,
}

impl Other for Second {
    type Chip = Chip;

    fn power_on(&self) -> Chip {
        Chip::power_on()
    }

    fn transfer(&self, chip: Chip, bytes: &[u8], reply: &mut [u8]) -> (Chip, Given) {
        let Answer { chip, refusal, pid, count, pin, found } = with_flip(self.flip, || transfer(chip, bytes, reply));
        (chip, Given { refusal, pid, count, pin, found })
    }

    fn event(&self, chip: Chip, what: &Event, payload: &[u8], reply: &mut [u8]) -> (Chip, Given) {
        let Answer { chip, refusal, pid, count, pin, found } = with_flip(self.flip, || event(chip, *what, payload, reply));
        (chip, Given { refusal, pid, count, pin, found })
    }

    fn board_step(&self, chip: Chip, firmware: Firmware, reply: &mut [u8]) -> (Chip, Firmware, Given) {
        let answer = with_flip(self.flip, || board_step(chip, firmware, reply));
        let BoardAnswer { chip, firmware, refusal, kind, count, pin, found } = answer;
        (chip, firmware, Given { refusal, pid: kind, count, pin, found })
    }

    fn poke(&self, chip: &mut Chip, field: usize, value: u8) {
        fields::poke(chip, field, value);
    }

    fn observe(&self, chip: &Chip) -> Vec<u8> {
        observe(chip)
    }
}

/// The first call that differs, and in what.
#[derive(Clone, Debug, PartialEq, Eq)]
pub struct Difference {
    pub at: usize,
    pub what: String,
}

/// Bytes behind the reply buffer that are not lent, to see whether they are written.
pub(crate) const GUARD: usize = 16;

/// One model with its records and the reply buffer lent to it, `GUARD` bytes longer than what is lent.
struct Side<'m, M: Other> {
    model: &'m M,
    chip: M::Chip,
    firmware: Firmware,
    seen: Vec<u8>,
    reply: Vec<u8>,
}

impl<'m, M: Other> Side<'m, M> {
    fn new(model: &'m M) -> Self {
        let chip = model.power_on();
        let seen = model.observe(&chip);
        Side { model, chip, firmware: Firmware::power_on(), seen, reply: Vec::new() }
    }

    /// Plays a call; says what breaks a rule for every call: bytes beyond the count, a change by a refused call.
    fn play(&mut self, call: &Call) -> (Given, Option<&'static str>) {
        lend(&mut self.reply, call.room() + GUARD);
        let (before, firmware) = (std::mem::take(&mut self.seen), self.firmware);
        let given = self.call(call, &before);
        self.seen = self.model.observe(&self.chip);
        let refused = given.refusal != 0;
        let fault = if is_written(&self.reply, if refused { 0 } else { given.count as usize }) {
            Some("bytes are written beyond the count")
        } else if refused && (before != self.seen || firmware != self.firmware) {
            Some("a refused call changes a record")
        } else {
            None
        };
        (given, fault)
    }

    fn call(&mut self, call: &Call, before: &[u8]) -> Given {
        let chip = self.chip.clone();
        let reply = &mut self.reply[..call.room()];
        let given = match call {
            Call::Transfer { bytes, .. } => self.model.transfer(chip, bytes, reply),
            Call::Event { event, payload, .. } => self.model.event(chip, event, payload, reply),
            Call::Step { .. } => {
                let (chip, firmware, given) = self.model.board_step(chip, self.firmware, reply);
                self.firmware = firmware;
                (chip, given)
            }
            Call::Poke { field, value } => {
                (self.poked(chip, *field, *value), Given { refusal: 0, pid: 0, count: 0, pin: 0, found: 0 })
            }
        };
        self.chip = given.0;
        if given.1.refusal == 0 && resets_firmware(call, before) {
            self.firmware = Firmware::power_on();
        }
        given.1
    }

    /// Fields after the chip's are the firmware's: configuration, wakeup, halted.
    fn poked(&mut self, mut chip: M::Chip, field: usize, value: u8) -> M::Chip {
        match field.checked_sub(FIELDS.len()) {
            None => self.model.poke(&mut chip, field, value),
            Some(field) => self.firmware.poke(field, value),
        }
        chip
    }
}

/// Power-on and a bus reset start that is seen put the firmware's record back; told by R15, VBUS and the oscillator flag
/// in the list of what was observed before.
fn resets_firmware(call: &Call, before: &[u8]) -> bool {
    let (usbctl, vbus, oscok) = (before[10], before[27], before[28]);
    let gate_open = usbctl & 0x40 == 0 || vbus == 1;
    let sees = oscok == 1 && usbctl & 0x28 == 0x08 && gate_open;
    match call {
        Call::Event { event, .. } => event.code == POWER_ON || event.code == RESET_START && sees,
        _ => false,
    }
}

fn pattern(i: usize) -> u8 {
    (i as u8).wrapping_mul(29) ^ 0xA5
}

pub(crate) fn lend(reply: &mut Vec<u8>, length: usize) {
    reply.clear();
    reply.extend((0..length).map(pattern));
}

pub(crate) fn is_written(reply: &[u8], from: usize) -> bool {
    reply.iter().enumerate().skip(from).any(|(i, byte)| *byte != pattern(i))
}

/// The first difference of two models on a list of calls, both starting from power-on.
pub fn compare<L: Other, R: Other>(left: &L, right: &R, calls: &[Call]) -> Option<Difference> {
    let (mut left, mut right) = (Side::new(left), Side::new(right));
    if left.seen != right.seen {
        return Some(Difference { at: 0, what: "the power-on records".to_string() });
    }
    for (at, call) in calls.iter().enumerate() {
        let (l, left_fault) = left.play(call);
        let (r, right_fault) = right.play(call);
        let what = if l != r {
            format!("the answers: {l:X?} against {r:X?}")
        } else if let Some(fault) = left_fault.or(right_fault) {
            fault.to_string()
        } else if left.reply != right.reply {
            format!("the replies: {:02X?} against {:02X?}", head(&left.reply, l.count), head(&right.reply, r.count))
        } else if left.firmware != right.firmware {
            format!("the firmware: {:?} against {:?}", left.firmware, right.firmware)
        } else if left.seen != right.seen && (l.refusal != 1 && !matches!(call, Call::Poke { .. })) {
            format!("the record, at {:?} of the list", first_difference(&left.seen, &right.seen))
        } else {
            continue;
        };
        return Some(Difference { at, what });
    }
    None
}

pub(crate) fn head(reply: &[u8], count: u16) -> &[u8] {
    &reply[..reply.len().min(count as usize)]
}

fn first_difference(left: &[u8], right: &[u8]) -> Option<(usize, u8, u8)> {
    let pairs = left.iter().zip(right).enumerate();
    pairs.filter(|(_, (l, r))| l != r).map(|(i, (l, r))| (i, *l, *r)).next()
}

/// A short list that still differs (`shorten`).
pub fn shortest<L: Other, R: Other>(left: &L, right: &R, calls: &[Call]) -> Option<(Vec<Call>, Difference)> {
    shorten(calls, |list| compare(left, right, list))
}

/// A short list that still differs: the prefix up to the difference, without the items that are not needed. First long
/// stretches are left out, then shorter ones; in the end no single item can be.
pub fn shorten<T: Clone>(list: &[T], differ: impl Fn(&[T]) -> Option<Difference>) -> Option<(Vec<T>, Difference)> {
    let mut difference = differ(list)?;
    let mut short = prefix(list, &difference);
    let mut stretch = short.len() / 2;
    while stretch > 0 {
        let (mut at, length) = (0, short.len());
        while at < short.len() {
            let end = short.len().min(at + stretch);
            let fewer = [&short[..at], &short[end..]].concat();
            match differ(&fewer) {
                Some(still) => (short, difference) = (prefix(&fewer, &still), still),
                None => at = end,
            }
        }
        if stretch > 1 || short.len() == length {
            stretch /= 2;
        }
    }
    Some((short, difference))
}

/// The items up to the one that differs.
fn prefix<T: Clone>(list: &[T], difference: &Difference) -> Vec<T> {
    list[..list.len().min(difference.at + 1)].to_vec()
}
