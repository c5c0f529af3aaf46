//! Plays orders to a classroom on two models and says where they first differ: every answer, every lent byte, every desk.

use crate::classroom::{Classroom, Desk, DeskAnswer, TeacherAnswer, DESKS};
use crate::compare::{is_written, lend, shorten, Difference, Given, Second, GUARD};
use crate::fields::{self, FIELDS};
use crate::flips::with_flip;
use crate::observe;
use crate::runs::{Call, Order, KEY, OPENED};

/// A classroom by value in and out.
pub trait OtherClassroom {
    type Classroom: Clone + PartialEq;
    fn start(&self) -> Self::Classroom;
    fn open(&self, room: Self::Classroom, desk: u8, key: u32) -> (Self::Classroom, u8);
    fn close(&self, room: Self::Classroom, desk: u8) -> (Self::Classroom, u8);
    /// `call` is no poke.
    fn call(&self, room: Self::Classroom, desk: u8, key: u32, call: &Call, reply: &mut [u8]) -> (Self::Classroom, Given);
    /// Sets the field of a desk with this number (`runs::Order`).
    fn poke(&self, room: &mut Self::Classroom, desk: u8, field: usize, value: u32);
    /// What can be observed of a desk: the chip's list, the firmware's record, whether it is open, its key.
    fn observe(&self, room: &Self::Classroom, desk: usize) -> Vec<u8>;
}

impl OtherClassroom for Second {
    type Classroom = Classroom;

    fn start(&self) -> Classroom {
        Classroom::start()
    }

    fn open(&self, room: Classroom, desk: u8, key: u32) -> (Classroom, u8) {
        let TeacherAnswer { classroom, refusal } = with_flip(self.flip, || room.open(desk, key));
        (classroom, refusal)
    }

    fn close(&self, room: Classroom, desk: u8) -> (Classroom, u8) {
        let TeacherAnswer { classroom, refusal } = with_flip(self.flip, || room.close(desk));
        (classroom, refusal)
    }

    fn call(&self, room: Classroom, desk: u8, key: u32, call: &Call, reply: &mut [u8]) -> (Classroom, Given) {
        let answer = with_flip(self.flip, || room.call(desk, key, call, reply));
        let DeskAnswer { classroom, refusal, pid, count, pin, found } = answer;
        (classroom, Given { refusal, pid, count, pin, found })
    }

    fn poke(&self, room: &mut Classroom, desk: u8, field: usize, value: u32) {
        let Desk { chip, firmware, opened, key } = &mut room.desks[desk as usize];
        match field {
            KEY => *key = value,
            OPENED => *opened = value as u8,
            _ if field < FIELDS.len() => fields::poke(chip, field, value as u8),
            _ => firmware.poke(field - FIELDS.len(), value as u8),
        }
    }

    fn observe(&self, room: &Classroom, desk: usize) -> Vec<u8> {
        let Desk { chip, firmware, opened, key } = &room.desks[desk];
        let mut list = observe(chip);
        list.extend([firmware.configuration, firmware.wakeup, firmware.halted, *opened]);
        list.extend(key.to_le_bytes());
        list
    }
}

/// One model with its classroom and the reply buffer lent to it, `GUARD` bytes longer than what is lent.
struct Side<'m, M: OtherClassroom> {
    model: &'m M,
    room: M::Classroom,
    reply: Vec<u8>,
}

impl<'m, M: OtherClassroom> Side<'m, M> {
    fn new(model: &'m M) -> Self {
        Side { model, room: model.start(), reply: Vec::new() }
    }

    /// Plays an order; says what breaks a rule for every order: bytes beyond the count, a change by a refused one.
    fn play(&mut self, order: &Order) -> (Given, Option<&'static str>) {
        lend(&mut self.reply, order.room() + GUARD);
        let room = self.room.clone();
        let teacher = |refusal| Given { refusal, pid: 0, count: 0, pin: 0, found: 0 };
        let (after, given) = match order {
            Order::Open { desk, key } => {
                let (after, refusal) = self.model.open(room, *desk, *key);
                (after, teacher(refusal))
            }
            Order::Close { desk } => {
                let (after, refusal) = self.model.close(room, *desk);
                (after, teacher(refusal))
            }
            Order::Pupil { desk, key, call } => self.model.call(room, *desk, *key, call, &mut self.reply[..call.room()]),
            Order::Poke { desk, field, value } => {
                let mut after = room;
                self.model.poke(&mut after, *desk, *field, *value);
                (after, teacher(0))
            }
        };
        let before = std::mem::replace(&mut self.room, after);
        let refused = given.refusal != 0;
        let fault = if is_written(&self.reply, if refused { 0 } else { given.count as usize }) {
            Some("bytes are written beyond the count")
        } else if refused && before != self.room {
            Some("a refused order changes the classroom")
        } else {
            None
        };
        (given, fault)
    }
}

/// What both models list of a desk.
type Lists = (Vec<u8>, Vec<u8>);

fn lists<L: OtherClassroom, R: OtherClassroom>(left: &Side<L>, right: &Side<R>, desk: usize) -> Lists {
    (left.model.observe(&left.room, desk), right.model.observe(&right.room, desk))
}

/// The first difference of two models on a list of orders, both starting with sixteen closed desks. The lists of a desk
/// that is not sound may differ: from a poke to the next order that it accepts, each stays as it is.
pub fn compare_classes<L: OtherClassroom, R: OtherClassroom>(left: &L, right: &R, orders: &[Order]) -> Option<Difference> {
    let (mut left, mut right) = (Side::new(left), Side::new(right));
    let mut poked: [Option<Lists>; DESKS] = Default::default();
    for (at, order) in orders.iter().enumerate() {
        let (l, left_fault) = left.play(order);
        let (r, right_fault) = right.play(order);
        if let Order::Poke { desk, .. } = order {
            poked[*desk as usize] = Some(lists(&left, &right, *desk as usize));
        } else if l.refusal == 0 {
            poked[order.desk() as usize % DESKS] = None;
        }
        let differs = |desk: &usize| {
            let now = lists(&left, &right, *desk);
            poked[*desk].as_ref().map_or(now.0 != now.1, |then| *then != now)
        };
        let what = if l != r {
            format!("the answers: {l:X?} against {r:X?}")
        } else if let Some(fault) = left_fault.or(right_fault) {
            fault.to_string()
        } else if left.reply != right.reply {
            "the replies".to_string()
        } else if let Some(desk) = (0..DESKS).find(differs) {
            format!("desk {desk}")
        } else {
            continue;
        };
        return Some(Difference { at, what });
    }
    None
}

/// A short list of orders that still differs.
pub fn shortest_class<L: OtherClassroom, R: OtherClassroom>(
    left: &L,
    right: &R,
    orders: &[Order],
) -> Option<(Vec<Order>, Difference)> {
    shorten(orders, |list| compare_classes(left, right, list))
}

/// What the orders of one desk are answered, and what can be observed of that desk at the end.
pub fn told_at<M: OtherClassroom>(model: &M, orders: &[Order], desk: u8) -> (Vec<(Given, Vec<u8>)>, Vec<u8>) {
    let mut side = Side::new(model);
    let mut told = Vec::new();
    for order in orders {
        let (given, _) = side.play(order);
        if order.desk() == desk {
            told.push((given, side.reply.clone()));
        }
    }
    (told, model.observe(&side.room, desk as usize))
}
