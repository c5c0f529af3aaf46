//! Lists of orders to a classroom: pupils at walks of their own, wrong keys, closed desks, desks that are not there,
//! openings and closings that are refused; and classrooms handed in unsound.

use super::*;
use crate::classroom::DESKS;
use crate::fields::{field, FIELDS};

/// One order. A poke sets one field of a desk: the chip's, then the firmware's configuration, wakeup and halted, then
/// whether it is open, and its key.
#[derive(Clone, Debug, PartialEq, Eq)]
pub enum Order {
    Open { desk: u8, key: u32 },
    Close { desk: u8 },
    Pupil { desk: u8, key: u32, call: Call },
    Poke { desk: u8, field: usize, value: u32 },
}

impl Order {
    pub fn desk(&self) -> u8 {
        match self {
            Order::Open { desk, .. } | Order::Close { desk } => *desk,
            Order::Pupil { desk, .. } | Order::Poke { desk, .. } => *desk,
        }
    }

    pub fn room(&self) -> usize {
        match self {
            Order::Pupil { call, .. } => call.room(),
            _ => 0,
        }
    }
}

/// The fields of a desk beyond the chip's and the firmware's.
pub const OPENED: usize = FIELDS.len() + 3;
pub const KEY: usize = FIELDS.len() + 4;

/// Keys that agree in their low 16 bits, in their high ones, and others.
const KEYS: [u32; 10] = [1, 7, 0x10001, 0x20001, 0x10007, 0x8000_0000, 0xFFFF_FFFF, 0xFFFF, 0x12345678, 0x92345678];

/// What the class was last asked for at each desk (0: to be closed), and what each pupil still has to do.
struct Class {
    keys: [u32; DESKS],
    plans: [Vec<Call>; DESKS],
}

impl Class {
    fn desk(&self, rng: &mut Rng, open: bool) -> Option<u8> {
        let desks: Vec<u8> = (0..DESKS as u8).filter(|d| (self.keys[*d as usize] != 0) == open).collect();
        (!desks.is_empty()).then(|| rng.pick(&desks))
    }

    /// A key of the pool or of its own that no desk has.
    fn new_key(&self, rng: &mut Rng) -> u32 {
        let (any, pool) = (rng.number() as u32 | 1, rng.pick(&KEYS));
        if self.keys.contains(&pool) || rng.one_in(3) {
            any
        } else {
            pool
        }
    }

    /// The pupil's next call: he follows a list from power-on to its end, then another one.
    fn next_call(&mut self, rng: &mut Rng, desk: u8) -> Call {
        let plan = &mut self.plans[desk as usize];
        if plan.is_empty() {
            *plan = plan_of(rng);
            plan.retain(|call| !matches!(call, Call::Poke { .. }));
            plan.reverse();
        }
        plan.pop().expect("a plan has calls")
    }

    fn open(&mut self, desk: u8, key: u32) -> Order {
        self.keys[desk as usize] = key;
        Order::Open { desk, key }
    }

    fn close(&mut self, desk: u8) -> Order {
        self.keys[desk as usize] = 0;
        Order::Close { desk }
    }

    /// An opening of a closed desk with a key that is free.
    fn opening(&mut self, rng: &mut Rng) -> Option<Order> {
        let desk = self.desk(rng, false)?;
        let key = self.new_key(rng);
        Some(self.open(desk, key))
    }

    /// A call of the pupil at an open desk.
    fn calling(&mut self, rng: &mut Rng) -> Option<Order> {
        let desk = self.desk(rng, true)?;
        let key = self.keys[desk as usize];
        Some(Order::Pupil { desk, key, call: self.next_call(rng, desk) })
    }

    /// A key that is not the desk's: near it, another pupil's, none.
    fn wrong_key(&mut self, rng: &mut Rng) -> Option<Order> {
        let desk = self.desk(rng, true)?;
        let (own, other) = (self.keys[desk as usize], self.keys[rng.below(DESKS)]);
        let key = rng.pick(&[own ^ 0x10000, own ^ 1, own ^ 0x8000_0000, own & 0xFFFF, other, 0, own.wrapping_add(1)]);
        Some(Order::Pupil { desk, key, call: any_call(rng) })
    }

    fn closed_desk(&mut self, rng: &mut Rng) -> Option<Order> {
        let desk = self.desk(rng, false)?;
        let other = self.keys[rng.below(DESKS)];
        let key = rng.pick(&[0, 0, 1, 7, other]);
        Some(Order::Pupil { desk, key, call: any_call(rng) })
    }

    fn no_desk(&mut self, rng: &mut Rng) -> Order {
        let desk = rng.pick(&[16, 16, 16, 17, 31, 32, 127, 128, 255]);
        let key = rng.pick(&[0, 1, self.keys[0]]);
        match rng.below(4) {
            0 => Order::Open { desk, key },
            1 => Order::Close { desk },
            _ => Order::Pupil { desk, key, call: any_call(rng) },
        }
    }

    /// Key 0, or a key in use: at a closed desk, or at an open one where 10 comes first.
    fn bad_opening(&mut self, rng: &mut Rng) -> Option<Order> {
        let open = rng.one_in(3);
        let (desk, other) = (self.desk(rng, open)?, self.desk(rng, true)?);
        let (own, used, new) = (self.keys[desk as usize], self.keys[other as usize], self.new_key(rng));
        let near = rng.pick(&[used ^ 0x10000, used ^ 0x8000_0000]);
        let key = if open { rng.pick(&[own, 0, used, new]) } else { rng.pick(&[0, used, used, near]) };
        let taken = self.keys.contains(&key);
        Some(if open || taken || key == 0 { Order::Open { desk, key } } else { self.open(desk, key) })
    }

    fn order(&mut self, rng: &mut Rng) -> Option<Order> {
        match rng.below(100) {
            0..=77 => self.calling(rng),
            78..=81 => self.wrong_key(rng),
            82..=83 => self.closed_desk(rng),
            84..=85 => Some(self.no_desk(rng)),
            86..=91 => self.opening(rng),
            92..=94 => self.bad_opening(rng),
            95..=97 => self.desk(rng, true).map(|desk| self.close(desk)),
            _ => self.desk(rng, false).map(|desk| Order::Close { desk }),
        }
    }
}

pub(super) fn plan_of(rng: &mut Rng) -> Vec<Call> {
    match rng.below(6) {
        0 => walk(rng, 60),
        1 => requests(rng),
        2 => enumeration(rng),
        3 => refusals(rng),
        _ => built(rng),
    }
}

/// A call that does not follow from what was done before.
fn any_call(rng: &mut Rng) -> Call {
    match rng.below(4) {
        0 => step(),
        1 => any_event(rng, 0),
        2 => refusals::one_refusal(rng),
        _ => useful_transfer(rng),
    }
}

/// n orders from the start, some desks open from the beginning.
fn taught(rng: &mut Rng, n: usize) -> (Class, Vec<Order>) {
    let mut class = Class { keys: [0; DESKS], plans: Default::default() };
    let mut orders = Vec::new();
    for _ in 0..rng.below(DESKS + 1) {
        orders.extend(class.opening(rng));
    }
    while orders.len() < n {
        orders.extend(class.order(rng));
    }
    (class, orders)
}

/// A class of n orders.
pub fn class(rng: &mut Rng, n: usize) -> Vec<Order> {
    taught(rng, n).1
}

/// A short class, then a desk or two with fields set to what they may not be, and orders to those and other desks.
pub fn unsound_class(rng: &mut Rng) -> Vec<Order> {
    let n = 20 + rng.below(60);
    let (class, mut orders) = taught(rng, n);
    let desks = [rng.below(DESKS) as u8, rng.below(DESKS) as u8];
    for _ in 0..1 + rng.below(3) {
        let desk = rng.pick(&desks);
        orders.push(any_poke(rng, desk));
    }
    for _ in 0..16 {
        let desk = if rng.one_in(4) { rng.below(DESKS) as u8 } else { rng.pick(&desks) };
        let (kept, other, new) = (class.keys[desk as usize], class.keys[rng.below(DESKS)], class.new_key(rng));
        let key = rng.pick(&[kept, kept, kept, 0, 7, other]);
        orders.push(match rng.below(8) {
            0 => Order::Close { desk },
            1 | 2 => Order::Open { desk, key: rng.pick(&[key, new, 7]) },
            _ => Order::Pupil { desk, key, call: any_call(rng) },
        });
    }
    orders
}

fn any_poke(rng: &mut Rng, desk: u8) -> Order {
    let (any, bit) = (u32::from(rng.byte()), 1 << rng.below(8));
    let (field, value) = match rng.below(8) {
        0 | 1 => (OPENED, rng.pick(&[0, 1, 1, 2, 3, 255])),
        2 => (KEY, rng.pick(&[0, 7, 1, 0x10007])),
        3 => (FIELDS.len() + rng.below(3), rng.pick(&[0, 1, 2])),
        4 => (field(rng.pick(&["vbus", "oscok", "r20", "r0_read", "ep2_count1", "toggle_ep3"])), 1),
        _ => (rng.below(FIELDS.len()), rng.pick(&[any, bit, 2, 3, 9, 65, 128, 255])),
    };
    Order::Poke { desk, field, value }
}

/// A desk, and two classes that send it the same, from an opening with a key that no other desk has then.
pub fn same_at_one_desk(rng: &mut Rng) -> (u8, [Vec<Order>; 2]) {
    // No key of a class is even with these bits.
    let (desk, key) = (rng.below(DESKS) as u8, rng.number() as u32 & !1 | 0x4000_0002);
    let mut own = vec![Order::Open { desk, key }];
    let plan = plan_of(rng).into_iter().filter(|call| !matches!(call, Call::Poke { .. })).take(80);
    own.extend(plan.map(|call| Order::Pupil { desk, key, call }));
    for _ in 0..4 {
        let place = 1 + rng.below(own.len() - 1);
        own.insert(place, Order::Pupil { desk, key: rng.pick(&[0, 1, key ^ 0x10000]), call: any_call(rng) });
    }
    own.extend(rng.one_in(2).then_some(Order::Close { desk }));
    (desk, [among_others(rng, &own, key), among_others(rng, &own, key)])
}

/// The orders in their order, with those of a class to other desks between them; some want the same key.
fn among_others(rng: &mut Rng, own: &[Order], key: u32) -> Vec<Order> {
    let desk = own[0].desk();
    let others = if rng.one_in(2) { class(rng, 120) } else { unsound_class(rng) };
    let mut others = others.into_iter().filter(|order| order.desk() != desk).peekable();
    let mut own = own.iter().cloned().peekable();
    let mut all = Vec::new();
    let mut opened = false;
    while own.peek().is_some() || others.peek().is_some() {
        if rng.one_in(2) {
            opened |= own.peek().is_some();
            all.extend(own.next());
        } else {
            all.extend(others.next());
            let other = (desk + 1 + rng.below(DESKS - 1) as u8) % DESKS as u8;
            all.extend((opened && rng.one_in(8)).then_some(Order::Open { desk: other, key }));
        }
    }
    all
}

/// The class of a seed, from one of the generators.
pub fn class_list(seed: u64) -> Vec<Order> {
    let rng = &mut Rng::new(seed);
    match seed % 4 {
        0 => class(rng, 400),
        _ => unsound_class(rng),
    }
}
