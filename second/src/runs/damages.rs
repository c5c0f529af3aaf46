//! Damaged files: a lesson's file with a byte changed, a piece missing or too much.

use super::*;
use crate::lesson::{ENTRY, HEAD};

/// The file with a change or two, most of which make it no lesson.
pub fn damaged(rng: &mut Rng, file: &[u8]) -> Vec<u8> {
    let mut file = file.to_vec();
    for _ in 0..1 + rng.below(2) {
        if let Some(n) = file.get(1) {
            let n = usize::from(*n);
            damage(rng, &mut file, n);
        }
    }
    file
}

/// One change of a file that says n entries.
fn damage(rng: &mut Rng, file: &mut Vec<u8>, n: usize) {
    let table = file.len().min(HEAD + ENTRY * n);
    let row = HEAD + ENTRY * rng.below(n.max(1));
    let at = match rng.below(12) {
        0 => return file[0] = rng.pick(&[0, 2, 3, 129, 255]),
        1 => return file[1] = rng.pick(&[0, n.wrapping_sub(1) as u8, n as u8 + u8::from(n < 255), 255]),
        2 => return file.truncate(rng.below(table + 1)),
        3 => return file.truncate(table + rng.below(file.len() - table + 1)),
        4 => return (0..1 + rng.below(12)).for_each(|_| file.push(rng.byte())),
        5 => return gap(rng, file, n),
        6 => rng.below(file.len()),
        7 => rng.below(table),
        8 => row,
        9 => row + 9 + rng.below(2),
        _ => row + 5 + rng.below(4),
    };
    let any = rng.byte();
    if let Some(byte) = file.get_mut(at) {
        let bit = *byte ^ 1 << rng.below(8);
        *byte = rng.pick(&[any, bit, byte.wrapping_add(1), byte.wrapping_sub(1)]);
    }
}

/// Bytes put in before a body, with the offsets from there on moved.
fn gap(rng: &mut Rng, file: &mut Vec<u8>, n: usize) {
    let (first, bytes) = (rng.below(n.max(1)), 1 + rng.below(3));
    let Some(at) = offset_at(file, first).filter(|at| n > 0 && *at as usize <= file.len()) else { return };
    for i in first..n {
        if let Some(offset) = offset_at(file, i) {
            let row = HEAD + ENTRY * i;
            file[row + 5..row + 9].copy_from_slice(&offset.wrapping_add(bytes as u32).to_le_bytes());
        }
    }
    let place = at as usize;
    file.splice(place..place, rng.bytes(bytes));
}

/// What row i of the table has as its offset.
fn offset_at(file: &[u8], i: usize) -> Option<u32> {
    file.get(HEAD + ENTRY * i + 5..)?.first_chunk().map(|bytes| u32::from_le_bytes(*bytes))
}

/// Every damage of one byte or of the length: each bit turned, each byte set to some values, each cut, some bytes more.
pub fn all_damages(file: &[u8]) -> impl Iterator<Item = Vec<u8>> + '_ {
    let changed = move |at: usize, byte: u8| {
        let mut other = file.to_vec();
        other[at] = byte;
        other
    };
    let bits = (0..file.len()).flat_map(move |at| (0..8).map(move |bit| changed(at, file[at] ^ 1 << bit)));
    let values = (0..file.len()).flat_map(move |at| [0, 1, 2, 3, 11, 255].map(move |byte| changed(at, byte)));
    let more = (1..2 * ENTRY).map(move |n| [file, &vec![n as u8; n][..]].concat());
    bits.chain(values).chain((0..file.len()).map(move |n| file[..n].to_vec())).chain(more)
}
