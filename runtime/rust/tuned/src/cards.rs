//! The schedules of a hand and of a seed: the round of each card, for each number of workers, is there when the program is built, and
//! dealing copies it.

use reference::{Seed, CARD_WORKERS, DECK};

const WORKERS: usize = CARD_WORKERS as usize;
const CARDS: usize = DECK as usize;

/// The order of six workers with this number among all of them, ascending.
const fn order(mut number: usize) -> [u8; WORKERS] {
    let (mut left, mut order, mut ways) = ([0, 1, 2, 3, 4, 5], [0; WORKERS], CARDS);
    let mut i = 0;
    while i < WORKERS {
        ways /= WORKERS - i;
        let mut at = number / ways;
        number %= ways;
        order[i] = left[at];
        while at + 1 < WORKERS {
            left[at] = left[at + 1];
            at += 1;
        }
        i += 1;
    }
    order
}

/// The turns of a card with so many workers: each names the one after it, and the last one the first.
const fn round(card: usize, workers: usize) -> [u8; 2 * WORKERS] {
    let (order, mut turns) = (order(card), [0; 2 * WORKERS]);
    let (mut i, mut seats) = (0, 0);
    while i < WORKERS {
        if (order[i] as usize) < workers {
            turns[2 * seats] = order[i];
            if seats > 0 {
                turns[2 * seats - 1] = order[i];
            }
            seats += 1;
        }
        i += 1;
    }
    turns[2 * seats - 1] = turns[0];
    turns
}

/// Of the rounds of all cards with so many workers, the SIZE bytes from a place on.
const fn parts<const SIZE: usize>(workers: usize, from: usize) -> [[u8; SIZE]; CARDS] {
    let mut parts = [[0; SIZE]; CARDS];
    let mut card = 0;
    while card < CARDS {
        let round = round(card, workers);
        let mut i = 0;
        while i < SIZE {
            parts[card][i] = round[from + i];
            i += 1;
        }
        card += 1;
    }
    parts
}

static TWO: [[u8; 4]; CARDS] = parts(2, 0);
static THREE: [[u8; 6]; CARDS] = parts(3, 0);
static FOUR: [[u8; 8]; CARDS] = parts(4, 0);
static FIVE: [[u8; 10]; CARDS] = parts(5, 0);
/// The rounds of six workers in two parts: each is copied by one load and one store.
static SIX_FRONT: [[u8; 8]; CARDS] = parts(6, 0);
static SIX_BACK: [[u8; 4]; CARDS] = parts(6, 8);

fn check_workers(workers: u32) -> Result<(), u8> {
    match workers {
        1..=CARD_WORKERS => Ok(()),
        7..=16 => Err(15),
        _ => Err(8),
    }
}

/// A card's place in a table. The cards were checked; the bound is there for the compiler, and takes no jump.
fn place(card: u32) -> usize {
    (card as usize).min(CARDS - 1)
}

/// The rounds of these cards, one behind the other; a round has SIZE bytes.
fn copy<const SIZE: usize>(rounds: &[[u8; SIZE]; CARDS], cards: impl Iterator<Item = u32>, schedule: &mut [u8]) {
    for (bytes, card) in schedule.chunks_exact_mut(SIZE).zip(cards) {
        bytes.copy_from_slice(&rounds[place(card)]);
    }
}

fn copy_six(cards: impl Iterator<Item = u32>, schedule: &mut [u8]) {
    for (bytes, card) in schedule.chunks_exact_mut(2 * WORKERS).zip(cards) {
        bytes[..8].copy_from_slice(&SIX_FRONT[place(card)]);
        bytes[8..].copy_from_slice(&SIX_BACK[place(card)]);
    }
}

/// One worker asks itself at each turn, whatever the card.
fn copy_for(workers: u32, cards: impl Iterator<Item = u32>, schedule: &mut [u8]) {
    match workers {
        1 => {
            schedule.fill(0);
            cards.for_each(drop);
        }
        2 => copy(&TWO, cards, schedule),
        3 => copy(&THREE, cards, schedule),
        4 => copy(&FOUR, cards, schedule),
        5 => copy(&FIVE, cards, schedule),
        _ => copy_six(cards, schedule),
    }
}

/// The turns of a hand.
pub fn deal(cards: &[u32], workers: u32, schedule: &mut [u8]) -> Result<(), u8> {
    check_workers(workers)?;
    if !cards.iter().fold(true, |known, &card| known & (card < DECK)) {
        return Err(15);
    }
    if cards.len().checked_mul(2 * workers as usize) != Some(schedule.len()) {
        return Err(7);
    }
    copy_for(workers, cards.iter().copied(), schedule);
    Ok(())
}

/// The turns of so many draws.
pub fn deal_seed(seed: &mut Seed, rounds: usize, workers: u32, schedule: &mut [u8]) -> Result<(), u8> {
    if check_workers(workers) == Err(8) {
        return Err(8);
    }
    if seed.first == 0 {
        return Err(16);
    }
    check_workers(workers)?;
    if rounds.checked_mul(2 * workers as usize) != Some(schedule.len()) {
        return Err(7);
    }
    let Seed { first: mut x, second: mut y } = *seed;
    let draws = (0..rounds).map(|_| {
        x ^= x << 13;
        x ^= x >> 17;
        x ^= x << 5;
        y = y.wrapping_add(362_437);
        x.wrapping_add(y) % DECK
    });
    copy_for(workers, draws, schedule);
    *seed = Seed { first: x, second: y };
    Ok(())
}
