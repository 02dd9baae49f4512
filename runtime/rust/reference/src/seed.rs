//! Turns from a seed, SPECIFICATION 10.

use crate::cards::{check_workers, deal, DECK};

/// The two words.
#[derive(Clone, Copy, Debug, PartialEq, Eq)]
pub struct Seed {
    pub first: u32,
    pub second: u32,
}

/// Moves the words, and answers the card of the moved words.
pub fn draw(seed: &mut Seed) -> Result<u32, u8> {
    let Seed { first: mut x, second: y } = *seed;
    if x == 0 {
        return Err(16);
    }
    x ^= x << 13;
    x ^= x >> 17;
    x ^= x << 5;
    *seed = Seed { first: x, second: y.wrapping_add(362_437) };
    Ok(seed.first.wrapping_add(seed.second) % DECK)
}

/// The turns of so many draws.
pub fn deal_seed(seed: &mut Seed, rounds: usize, workers: u32, schedule: &mut [u8]) -> Result<(), u8> {
    if check_workers(workers) == Err(8) {
        return Err(8);
    }
    if seed.first == 0 {
        return Err(16);
    }
    check_workers(workers)?;
    let wanted = rounds.checked_mul(2 * workers as usize);
    if wanted != Some(schedule.len()) {
        return Err(7);
    }
    let cards: Vec<u32> = (0..rounds).map(|_| draw(seed).expect("the first word never becomes 0")).collect();
    deal(&cards, workers, schedule)
}
