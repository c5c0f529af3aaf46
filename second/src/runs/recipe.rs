//! A lesson by a fixed recipe, for the benchmark.

use super::*;
use crate::bus::VBUS_ON;
use crate::lesson::{ENTRIES, ENTRY, TRANSFER_KIND};

/// A lesson of 255 entries at most whose file has just `size` bytes: a bus with traffic at every endpoint, by a fixed recipe.
/// The transfers of many bytes are longer where 255 entries do not fill the file.
pub fn recipe(size: usize) -> Vec<u8> {
    let start = [&on()[..], &[plain(VBUS_ON), write(17, &[0x18])]].concat();
    let calls = start.into_iter().chain((0..).flat_map(round));
    let mut entries: Vec<Timed> = Vec::new();
    for entry in calls.flat_map(|call| timed(&call)).take(ENTRIES) {
        if size_of(&entries) + ENTRY + entry.body.len() > size {
            break;
        }
        entries.push(Timed { tick: 1000 * entries.len() as u32, ..entry });
    }
    lengthen(&mut entries, size);
    file_of(&entries)
}

/// A packet each way at endpoints 1 and 2, a control read at endpoint 0, the registers read.
fn round(number: u8) -> [Call; 14] {
    let packet: [u8; 64] = std::array::from_fn(|i| number.wrapping_add(i as u8));
    [
        write(2, &packet),
        write(7, &[64]),
        take(0, 2, true),
        out(0, 1, number % 2 == 1, &packet),
        read(6, 1),
        read(1, 64),
        write(11, &[0x04]),
        setup(0, &[0x80, 6, 0, 1, 0, 0, 18, 0]),
        read(4, 8),
        write(0, &packet[..18]),
        spi(&[0x2B, 18]),
        take(0, 0, true),
        out(0, 0, true, &[]),
        read(9, 12),
    ]
}

/// Makes the file `size` bytes long: the transfers of nine bytes or more share what is missing.
fn lengthen(entries: &mut [Timed], size: usize) {
    let mut missing = size - size_of(entries);
    let is_long = |entry: &&mut Timed| entry.kind == TRANSFER_KIND && entry.body.len() > 8;
    let mut long: Vec<&mut Timed> = entries.iter_mut().filter(is_long).collect();
    let mut left = long.len();
    for entry in &mut long {
        let more = missing / left;
        entry.body.resize(entry.body.len() + more, 0);
        (missing, left) = (missing - more, left - 1);
    }
}
