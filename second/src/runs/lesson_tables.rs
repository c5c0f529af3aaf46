//! Small lessons of every kind, each damage of their files, and what stands at each limit.

use super::*;
use crate::bus::*;
use crate::lesson::{EVENT_KIND, FILE, TRANSFER_KIND};

/// Small lessons: none to six entries, of each kind of body.
pub fn small_lessons() -> Vec<Vec<Timed>> {
    let entries = |calls: &[Call]| calls.iter().flat_map(timed).collect::<Vec<_>>();
    let raw = |kind: u8, body: &[u8]| Timed { kind, tick: 0x0403_0201, body: body.to_vec() };
    let asked = setup(0, &[0x80, 6, 0, 1, 0, 0, 64, 0]);
    vec![
        Vec::new(),
        entries(&[read(11, 1)]),
        vec![raw(EVENT_KIND, &[POWER_ON])],
        vec![raw(EVENT_KIND, &[]), raw(TRANSFER_KIND, &[]), raw(EVENT_KIND, &[PINS, 0x0A])],
        entries(&[&on()[..], &[pins(9), read(11, 1)]].concat()),
        entries(&[&on()[..], &[out(0, 1, false, &[1, 2]), out(0, 1, true, &[3]), read(1, 2)]].concat()),
        entries(&[&on()[..], &[write(2, &[5, 6]), write(7, &[2]), take(0, 2, true)]].concat()),
        entries(&[&on()[..], &[asked, read(4, 8), take(0, 0, false)]].concat()),
    ]
}

/// Files and parts at each limit.
fn limits() -> Vec<Trial> {
    let rng = &mut Rng::new(5);
    let short: [&[u8]; 5] = [&[], &[1], &[0, 0], &[1, 1], &[1, 255]];
    let mut all: Vec<Trial> = short.map(|file| Trial::File(file.to_vec())).into();
    for size in FILE - 2..=FILE + 2 {
        for _ in 0..4 {
            let entries = sized(rng, size);
            all.extend([Trial::Parts(Parts::of(&entries)), Trial::File(file_of(&entries))]);
        }
    }
    for n in [0, 1, 254, 255] {
        let entries = lessons::lesson_of(rng, n);
        all.extend([Trial::Parts(Parts::of(&entries)), Trial::File(file_of(&entries))]);
    }
    let same = |body: &[u8], n: usize| vec![Timed { kind: TRANSFER_KIND, tick: 3, body: body.to_vec() }; n];
    let many = [255, 256, 257, 511, 512, 6000].map(|n| same(&[0x58, 0], n));
    // 65,523 bytes are the longest body that fits a file
    let long = [65_523, 65_524, 65_535].map(|n| same(&vec![0; n], 1));
    all.extend(many.iter().chain(&long).map(|entries| Trial::Parts(Parts::of(entries))));
    let ticks = [0, 1, 2, 255, 256, 65_535, 65_536, 0x7FFF_FFFF, 0x8000_0000, 0xFFFF_FFFE, u32::MAX];
    all.extend(ticks.iter().flat_map(|from| ticks.map(|to| Trial::Ticks(*from, to))));
    all
}

/// The small lessons and each damage of them, then the limits.
pub fn lesson_tables() -> impl Iterator<Item = Trial> {
    let files = small_lessons().into_iter().map(|entries| file_of(&entries));
    let damages = files.flat_map(|file| {
        let damages: Vec<Vec<u8>> = all_damages(&file).collect();
        std::iter::once(file).chain(damages).map(Trial::File)
    });
    damages.chain(limits())
}
