//! Lists of calls for both models: random walks, built states, requests, refusals, records by pokes, whole tables; of orders
//! to a classroom; and lessons.

mod built;
mod bursts;
mod classes;
mod damages;
mod enumeration;
mod lesson_tables;
mod lessons;
mod parts;
mod recipe;
mod records;
mod refusals;
mod requests;
mod rng;
mod tables;
mod walk;

pub use built::built;
pub use bursts::{any_burst, burst_states, two_bursts};
pub use classes::{class, class_list, same_at_one_desk, unsound_class, Order, KEY, OPENED};
pub use damages::{all_damages, damaged};
pub use enumeration::{enumeration, request_pairs};
pub use lesson_tables::{lesson_tables, small_lessons};
pub use lessons::{file_of, lesson, lesson_trial, size_of, sized, timed, Parts, Timed, Trial};
pub use parts::*;
pub use recipe::recipe;
pub use records::{sound_record, unsound_record};
pub use refusals::refusals;
pub use requests::requests;
pub use rng::Rng;
pub use tables::{codes, control_states, event_states, lengths, registers, whole_tables};
pub use walk::{any_transfer, useful_transfer, walk};

use crate::bus::Event;

/// One call. `room` is how many bytes are lent for the reply. A poke sets one field of the records (see `fields`);
/// numbers from `FIELDS.len()` are the firmware's configuration, wakeup and halted.
#[derive(Clone, Debug, PartialEq, Eq)]
pub enum Call {
    Transfer { bytes: Vec<u8>, room: usize },
    Event { event: Event, payload: Vec<u8>, room: usize },
    Step { room: usize },
    Poke { field: usize, value: u8 },
}

impl Call {
    pub fn room(&self) -> usize {
        match self {
            Call::Transfer { room, .. } | Call::Event { room, .. } | Call::Step { room } => *room,
            Call::Poke { .. } => 0,
        }
    }
}

/// The list of a seed, from one of the generators.
pub fn list(seed: u64) -> Vec<Call> {
    let rng = &mut Rng::new(seed);
    match seed % 16 {
        0..=2 => walk(rng, 400),
        3..=8 => built(rng),
        9 | 10 => requests(rng),
        11 => refusals(rng),
        12 | 13 => sound_record(rng),
        14 => unsound_record(rng),
        _ => built_twice(rng),
    }
}

/// Two built states without a power-on between them: the second starts where the first left off.
fn built_twice(rng: &mut Rng) -> Vec<Call> {
    let mut calls = built(rng);
    let again = built(rng);
    calls.extend(again.into_iter().skip(1));
    calls
}
