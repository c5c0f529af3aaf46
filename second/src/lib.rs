//! The second model of the MAX3420E, written from the documents only (01-scope.md, the maker's guide 000, DECISIONS.md).
//! "Document 01" in comments is 01-scope.md; "decision N" is an entry of docs/DECISIONS.md.
//!
//! The model takes records by value and hands them back: `transfer`, `event`, `firmware_answer`, `board_step`, `int_pin`;
//! `classroom` has sixteen boards, `lesson` files of calls. `runs` makes lists of calls, `script` prints them for the console,
//! `compare` plays them on this model and another, `compare_classes` the classroom's, `compare_lessons` lessons.
//! The other one is the proved library where it is linked (build.rs, `ffi`, `library`).

#![deny(unsafe_code)]

mod board;
pub mod bus;
pub mod chip;
pub mod classroom;
pub mod compare;
pub mod compare_classes;
pub mod compare_lessons;
mod control;
mod descriptors;
pub mod ffi;
pub mod fields;
mod firmware;
pub mod flips;
pub mod lesson;
pub mod library;
pub mod measure;
pub mod noticed;
mod pin;
mod registers;
mod resets;
pub mod runs;
pub mod script;
mod spi;

pub use board::{board_event, board_step, board_transfer, BoardAnswer, BoardEventAnswer};
pub use bus::{event, sees_bus, Event};
pub use chip::{Answer, Chip, Ring};
pub use fields::observe;
pub use firmware::{firmware_answer, Endpoints, Firmware, FirmwareAnswer};
pub use pin::int_pin;
pub use spi::transfer;
