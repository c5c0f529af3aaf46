//! How soon each flip of this model (`flips`) is noticed against a reference, by each kind of runs.

use crate::compare::{compare, Other, Second};
use crate::compare_classes::{compare_classes, OtherClassroom};
use crate::compare_lessons::{compare_trial, OtherLessons};
use crate::flips::{BOARD, CLASSROOM, LESSONS};
use crate::runs::*;

/// How many calls of a stream of lists are played until the models differ.
pub fn calls_until_noticed<L: Other, R: Other>(
    left: &L,
    right: &R,
    lists: impl Iterator<Item = Vec<Call>>,
) -> Option<usize> {
    let mut calls = 0;
    for list in lists {
        match compare(left, right, &list) {
            Some(difference) => return Some(calls + difference.at + 1),
            None => calls += list.len(),
        }
    }
    None
}

fn seeded(make: fn(&mut Rng) -> Vec<Call>, lists: u64) -> impl Iterator<Item = Vec<Call>> {
    (0..lists).map(move |seed| make(&mut Rng::new(seed)))
}

fn from_power_on() -> impl Iterator<Item = Vec<Call>> {
    (0..4000u64).map(|seed| if seed % 4 == 3 { requests(&mut Rng::new(seed)) } else { built(&mut Rng::new(seed)) })
}

/// Prints the table of flips; those that the built states do not notice.
pub fn unnoticed_flips<R: Other>(reference: &R) -> Vec<&'static str> {
    let show = |n: Option<usize>| n.map_or("-".to_string(), |n| n.to_string());
    let mut missed = Vec::new();
    println!("{:<60}{:>8}{:>8}{:>8}{:>8}", "calls until noticed by", "built", "walks", "pokes", "tables");
    for (flip, text) in BOARD {
        let flipped = Second { flip: Some(*flip) };
        let built = calls_until_noticed(reference, &flipped, from_power_on());
        let walks = calls_until_noticed(reference, &flipped, seeded(|rng| walk(rng, 400), 200));
        let pokes = calls_until_noticed(reference, &flipped, seeded(sound_record, 2000));
        let tables = calls_until_noticed(reference, &flipped, whole_tables());
        println!("{text:<60}{:>8}{:>8}{:>8}{:>8}", show(built), show(walks), show(pokes), show(tables));
        if built.is_none() {
            missed.push(*text);
        }
    }
    missed
}

/// Prints the table of the classroom's flips; those that the classes do not notice.
pub fn unnoticed_class_flips<R: OtherClassroom>(reference: &R) -> Vec<&'static str> {
    let mut missed = Vec::new();
    println!("{:<60}{:>8}", "orders until noticed by", "classes");
    for (flip, text) in CLASSROOM {
        let flipped = Second { flip: Some(*flip) };
        let mut orders = 0;
        let noticed = (0..4000).map(class_list).any(|list| {
            let difference = compare_classes(reference, &flipped, &list);
            orders += difference.as_ref().map_or(list.len(), |d| d.at + 1);
            difference.is_some()
        });
        if noticed {
            println!("{text:<60}{orders:>8}");
        } else {
            missed.push(*text);
        }
    }
    missed
}

/// Prints the table of the lessons' flips; those that the random trials do not notice.
pub fn unnoticed_lesson_flips<R: OtherLessons>(reference: &R) -> Vec<&'static str> {
    let show = |n: Option<usize>| n.map_or("-".to_string(), |n| (n + 1).to_string());
    let mut missed = Vec::new();
    println!("{:<60}{:>8}{:>8}", "trials until noticed by", "random", "tables");
    for (flip, text) in LESSONS {
        let flipped = Second { flip: Some(*flip) };
        let differs = |trial: Trial| compare_trial(reference, &flipped, &trial).is_some();
        let random = (0..4000).map(lesson_trial).position(differs);
        let tables = lesson_tables().position(differs);
        println!("{text:<60}{:>8}{:>8}", show(random), show(tables));
        if random.is_none() {
            missed.push(*text);
        }
    }
    missed
}
