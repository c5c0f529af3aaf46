//! The comparison notices every flip; the model agrees with itself over a million calls.

use second::compare::{compare, shortest, Second};
use second::flips::Flip;
use second::noticed::unnoticed_flips;
use second::runs::*;
use second::script::script;
use std::time::Instant;

const RIGHT: Second = Second { flip: None };

#[test]
fn every_flip_is_noticed() {
    let missed = unnoticed_flips(&RIGHT);
    assert!(missed.is_empty(), "not noticed by the built states: {missed:?}");
}

#[test]
fn a_million_calls_of_self_comparison() {
    let start = Instant::now();
    let (mut calls, mut seed) = (0, 0);
    while calls < 1_000_000 {
        let list = list(seed);
        assert_eq!(compare(&RIGHT, &RIGHT, &list), None, "seed {seed}");
        calls += list.len();
        seed += 1;
    }
    println!("{calls} calls, {seed} lists, {:?}", start.elapsed());
    assert!(start.elapsed().as_secs() < 60);
}

#[test]
fn whole_tables_of_self_comparison() {
    let (start, mut calls) = (Instant::now(), 0);
    for list in whole_tables() {
        assert_eq!(compare(&RIGHT, &RIGHT, &list), None);
        calls += list.len();
    }
    println!("{calls} calls, {:?}", start.elapsed());
}

#[test]
fn a_difference_is_shortened_to_a_script() {
    let flipped = Second { flip: Some(Flip::ToggleWhenSent) };
    let list = (0..).map(|seed| built(&mut Rng::new(seed))).find(|list| compare(&RIGHT, &flipped, list).is_some());
    let (short, _) = shortest(&RIGHT, &flipped, &list.unwrap()).unwrap();
    let text = script(&short);
    println!("{text}");
    assert!(short.len() <= 8 && text.contains("lost"));
}
