//! The classroom (document 02, Ask 3): sixteen desks, each with a board, a session key, and whether it is open.

use crate::board::{board_event, board_step, board_transfer, BoardAnswer, BoardEventAnswer};
use crate::bus::{event, POWER_ON};
use crate::chip::{Answer, Chip};
use crate::firmware::Firmware;
use crate::flips::{flipped, Flip};
use crate::pin::pin_level;
use crate::runs::Call;

pub const DESKS: usize = 16;

/// The pin of a call that 9 to 11 refuse: open, whatever the desk's chip is.
const PIN_OPEN: u8 = 2;

/// `opened` is a flag, 0 or 1; key 0 is none.
#[derive(Clone, Copy, Debug, PartialEq, Eq)]
pub struct Desk {
    pub chip: Chip,
    pub firmware: Firmware,
    pub opened: u8,
    pub key: u32,
}

impl Desk {
    pub fn closed() -> Desk {
        Desk { chip: Chip::power_on(), firmware: Firmware::power_on(), opened: 0, key: 0 }
    }

    pub fn is_open(&self) -> bool {
        self.opened == 1 || self.opened != 0 && flipped(Flip::OpenedNot0)
    }

    /// Sound: open with sound records, or just the closed desk.
    pub fn is_sound(&self) -> bool {
        let records = self.chip.is_sound() && self.firmware.is_sound();
        let plain = Desk { key: if flipped(Flip::ClosedKeySound) { 0 } else { self.key }, ..*self };
        if self.is_open() || self.opened == 0 && self.key == 0 && flipped(Flip::ClosedAsOpen) {
            records
        } else {
            plain == Desk::closed()
        }
    }
}

#[derive(Clone, Copy, Debug, PartialEq, Eq)]
pub struct Classroom {
    pub desks: [Desk; DESKS],
}

/// What opening and closing hand back.
#[derive(Clone, Copy, Debug, PartialEq, Eq)]
pub struct TeacherAnswer {
    pub classroom: Classroom,
    pub refusal: u8,
}

/// What a pupil's call hands back. `pid` is the kind of a board step's answer.
#[derive(Clone, Copy, Debug, PartialEq, Eq)]
pub struct DeskAnswer {
    pub classroom: Classroom,
    pub refusal: u8,
    pub pid: u8,
    pub count: u16,
    pub pin: u8,
    pub found: usize,
}

fn same_key(a: u32, b: u32) -> bool {
    a == b || flipped(Flip::KeyLow16) && a as u16 == b as u16
}

impl Classroom {
    /// All sixteen start closed.
    pub fn start() -> Classroom {
        Classroom { desks: [Desk::closed(); DESKS] }
    }

    fn desk(&self, number: u8) -> Option<&Desk> {
        let number = if number == 16 && flipped(Flip::Desk16) { 0 } else { number };
        self.desks.get(number as usize)
    }

    /// Refusal 1 looks at the named desk only.
    fn is_sound_at(&self, desk: &Desk) -> bool {
        desk.is_sound() && (!flipped(Flip::EveryDeskSound) || self.desks.iter().all(Desk::is_sound))
    }

    /// Asked where the desk that is to be opened is not open: every open one is another.
    fn key_in_use(&self, key: u32) -> bool {
        let counts = |desk: &&Desk| desk.is_open() || flipped(Flip::KeyOfClosed);
        !flipped(Flip::KeyInUse) && self.desks.iter().filter(counts).any(|desk| same_key(desk.key, key))
    }

    fn opening_refusal(&self, number: u8, key: u32) -> u8 {
        let Some(desk) = self.desk(number) else { return 9 };
        let open = desk.is_open() && !flipped(Flip::OpenTwice);
        let bad_key = key == 0 && !flipped(Flip::KeyZero) || key != 0 && self.key_in_use(key);
        let unsound = !self.is_sound_at(desk) && !flipped(Flip::OpenUnsound);
        let mut grounds = [(open, 10), (bad_key, 12), (unsound, 1)];
        if flipped(Flip::BadKeyBeforeState) {
            grounds.swap(0, 1);
        }
        if flipped(Flip::UnsoundBeforeBadKey) {
            grounds.swap(1, 2);
        }
        first(&grounds)
    }

    fn closing_refusal(&self, number: u8) -> u8 {
        let Some(desk) = self.desk(number) else { return 9 };
        let closed = !desk.is_open() && !flipped(Flip::CloseTwice);
        let unsound = !self.is_sound_at(desk) && !flipped(Flip::CloseUnsound);
        first(&[(closed, 10), (unsound, 1)])
    }

    /// Before the call's own refusals, of which 1 comes first.
    fn calling_refusal(&self, number: u8, key: u32) -> u8 {
        let Some(desk) = self.desk(number) else { return 9 };
        let closed = !desk.is_open() && !flipped(Flip::ClosedAnswers);
        let wrong_key = !same_key(desk.key, key);
        let unsound = flipped(Flip::UnsoundBeforeKey) && !self.is_sound_at(desk);
        let rooms_unsound = flipped(Flip::EveryDeskSound) && !self.is_sound_at(desk);
        if flipped(Flip::KeyBeforeState) {
            return first(&[(wrong_key, 11), (closed, 10)]);
        }
        first(&[(closed, 10), (unsound, 1), (wrong_key, 11), (rooms_unsound, 1)])
    }

    /// The teacher opens a desk with a session key.
    pub fn open(mut self, number: u8, key: u32) -> TeacherAnswer {
        let refusal = self.opening_refusal(number, key);
        if refusal == 0 {
            let at = number as usize % DESKS;
            self.desks[at] = Desk { opened: 1, key, ..self.desks[at] };
            if flipped(Flip::OpeningCloses) {
                self.desks[(at + DESKS - 1) % DESKS] = Desk::closed();
            }
        }
        TeacherAnswer { classroom: self, refusal }
    }

    /// The teacher closes a desk: both records go back to power-on.
    pub fn close(mut self, number: u8) -> TeacherAnswer {
        let refusal = self.closing_refusal(number);
        if refusal == 0 {
            let desk = &mut self.desks[number as usize % DESKS];
            let Desk { chip, firmware, opened, key } = *desk;
            *desk = Desk::closed();
            if flipped(Flip::CloseKeepsChip) {
                desk.chip = chip;
            }
            if flipped(Flip::CloseKeepsFirmware) {
                desk.firmware = firmware;
            }
            if flipped(Flip::CloseKeepsOpen) {
                desk.opened = opened;
            }
            if flipped(Flip::CloseKeepsKey) {
                desk.key = key;
            }
        }
        TeacherAnswer { classroom: self, refusal }
    }

    /// A pupil's call: the board's, on the records of the desk.
    pub fn call(mut self, number: u8, key: u32, call: &Call, reply: &mut [u8]) -> DeskAnswer {
        let refusal = self.calling_refusal(number, key);
        if refusal != 0 {
            let tells = self.desk(number).filter(|_| flipped(Flip::RefusedPin) || refusal == 1);
            let pin = tells.map_or(PIN_OPEN, |desk| pin_level(&desk.chip));
            return DeskAnswer { classroom: self, refusal, pid: 0, count: 0, pin, found: 0 };
        }
        let next = usize::from(flipped(Flip::NextDesk));
        let desk = &mut self.desks[(number as usize + next) % DESKS];
        let answer = call_board(desk, call, reply);
        let BoardAnswer { chip, firmware, refusal, kind, count, pin, found } = answer;
        *desk = Desk { chip, firmware, ..*desk };
        if refusal == 0 && is_power_on(call) && flipped(Flip::PowerOnCloses) {
            *desk = Desk::closed();
        }
        DeskAnswer { classroom: self, refusal, pid: kind, count, pin, found }
    }
}

/// The number of the first ground that applies; 0 is none.
fn first(grounds: &[(bool, u8)]) -> u8 {
    grounds.iter().find(|(applies, _)| *applies).map_or(0, |(_, number)| *number)
}

fn is_power_on(call: &Call) -> bool {
    matches!(call, Call::Event { event, .. } if event.code == POWER_ON)
}

/// Any call of the board in one form of answer: `kind` is the PID of a transfer or an event.
fn call_board(desk: &Desk, call: &Call, reply: &mut [u8]) -> BoardAnswer {
    let Desk { chip, firmware, .. } = *desk;
    let BoardEventAnswer { answer, firmware } = match call {
        Call::Step { .. } => return board_step(chip, firmware, reply),
        Call::Transfer { bytes, .. } => BoardEventAnswer { answer: board_transfer(chip, firmware, bytes, reply), firmware },
        Call::Event { event: what, payload, .. } if flipped(Flip::ChipEvent) => {
            BoardEventAnswer { answer: event(chip, *what, payload, reply), firmware }
        }
        Call::Event { event, payload, .. } => board_event(chip, firmware, *event, payload, reply),
        Call::Poke { .. } => panic!("a poke is no call"),
    };
    let Answer { chip, refusal, pid, count, pin, found } = answer;
    BoardAnswer { chip, firmware, refusal, kind: pid, count, pin, found }
}
