//! Schedules of hands of cards, written out and drawn.

use crate::measure::{medians, Medians};
use crate::table::{call_row, Row, Table, CALL};
use std::hint::black_box;

pub const HAND: Table = Table {
    title: "Schedule of a hand of 10,000 cards, by turns",
    names: &["W"],
    columns: CALL,
    measure: |_, repetitions| rows(|workers| deal(workers, repetitions)),
};

pub const SEED: Table = Table {
    title: "Schedule of 10,000 draws of a seed, by turns",
    names: &["W"],
    columns: CALL,
    measure: |_, repetitions| rows(|workers| deal_seed(workers, repetitions)),
};

const CARDS: usize = 10_000;

/// A hand without a pattern that a processor could learn.
fn hand() -> Vec<u32> {
    let mixed = |i: u64| (i ^ (i >> 29)).wrapping_mul(0xbf58_476d_1ce4_e5b9);
    let card = |i: u64| (mixed(mixed(i + 1)) >> 33) as u32 % reference::DECK;
    (0..CARDS as u64).map(card).collect()
}

fn deal(workers: u32, repetitions: usize) -> Medians<3> {
    let cards = hand();
    let proved = |schedule: &mut Vec<u8>| black_box(kullneyra::deal(&cards, workers, schedule)).expect("a hand");
    let plain = |schedule: &mut Vec<u8>| black_box(reference::deal(&cards, workers, schedule)).expect("a hand");
    let tuned = |schedule: &mut Vec<u8>| black_box(tuned::deal(&cards, workers, schedule)).expect("a hand");
    let mut schedule = vec![1; 2 * workers as usize * CARDS];
    medians(&mut schedule, repetitions, [&proved, &plain, &tuned])
}

/// The seed that is left is read: for one worker nothing else depends on the draws.
fn deal_seed(workers: u32, repetitions: usize) -> Medians<3> {
    let proved = |schedule: &mut Vec<u8>| {
        let mut seed = kullneyra::Seed { first: 1, second: 0 };
        black_box(seed.deal_seed(CARDS, workers, schedule)).expect("a seed");
        black_box(seed);
    };
    let plain = |schedule: &mut Vec<u8>| {
        let mut seed = reference::Seed { first: 1, second: 0 };
        black_box(reference::deal_seed(&mut seed, CARDS, workers, schedule)).expect("a seed");
        black_box(seed);
    };
    let tuned = |schedule: &mut Vec<u8>| {
        let mut seed = reference::Seed { first: 1, second: 0 };
        black_box(tuned::deal_seed(&mut seed, CARDS, workers, schedule)).expect("a seed");
        black_box(seed);
    };
    let mut schedule = vec![1; 2 * workers as usize * CARDS];
    medians(&mut schedule, repetitions, [&proved, &plain, &tuned])
}

/// By W, counted by turns.
fn rows(measure: impl Fn(u32) -> Medians<3>) -> Vec<Row> {
    let row = |workers: u32| call_row(&workers.to_string(), workers as usize * CARDS, &measure(workers));
    [1, 4, 6].map(row).into()
}
