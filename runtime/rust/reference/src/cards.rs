//! The deck and the schedule of a hand, SPECIFICATION 9.

use std::sync::LazyLock;

/// How many cards there are.
pub const DECK: u32 = 720;
/// How many workers a card orders.
pub const CARD_WORKERS: u32 = 6;

/// The orders of the six workers, ascending.
static ORDERS: LazyLock<Vec<[u8; 6]>> = LazyLock::new(|| {
    let mut orders = Vec::new();
    let mut order = [0, 1, 2, 3, 4, 5];
    loop {
        orders.push(order);
        // The next order: the last worker that has a larger one behind it gives its place to the least of those.
        let Some(at) = (0..5).rev().find(|&i| order[i] < order[i + 1]) else {
            return orders;
        };
        let next = (at + 1..6).rev().find(|&i| order[at] < order[i]).expect("the one right behind it");
        order.swap(at, next);
        order[at + 1..].reverse();
    }
});

/// The cards, each as the order of its workers.
pub fn deck() -> &'static [[u8; 6]] {
    &ORDERS
}

pub(crate) fn check_workers(workers: u32) -> Result<(), u8> {
    match workers {
        1..=CARD_WORKERS => Ok(()),
        7..=16 => Err(15),
        _ => Err(8),
    }
}

/// How many bytes the schedule of so many cards has.
pub fn schedule_length(cards: usize, workers: u32) -> Result<u64, u8> {
    check_workers(workers)?;
    (cards as u64).checked_mul(2 * u64::from(workers)).ok_or(7)
}

/// The turns of one card.
fn round(card: u32, workers: u32) -> impl Iterator<Item = [u8; 2]> {
    let order = deck()[card as usize].into_iter().filter(move |&b| u32::from(b) < workers);
    order.clone().zip(order.clone().skip(1).chain(order.take(1))).map(|(b, asked)| [b, asked])
}

/// The turns of a hand.
pub fn deal(cards: &[u32], workers: u32, schedule: &mut [u8]) -> Result<(), u8> {
    check_workers(workers)?;
    if cards.iter().any(|&card| card >= DECK) {
        return Err(15);
    }
    if schedule_length(cards.len(), workers) != Ok(schedule.len() as u64) {
        return Err(7);
    }
    let turns = cards.iter().flat_map(|&card| round(card, workers));
    for (bytes, turn) in schedule.chunks_exact_mut(2).zip(turns) {
        bytes.copy_from_slice(&turn);
    }
    Ok(())
}

#[cfg(test)]
mod tests {
    use super::*;

    #[test]
    fn the_deck() {
        let as_text = |card: &[u8; 6]| card.iter().map(|b| b.to_string()).collect::<String>();
        let texts: Vec<String> = deck().iter().map(as_text).collect();
        assert_eq!(texts.len(), DECK as usize);
        assert_eq!(
            [&texts[0], &texts[1], &texts[119], &texts[120], &texts[719]],
            ["012345", "012354", "054321", "102345", "543210"]
        );
        assert!(texts.windows(2).all(|pair| pair[0] < pair[1]));
        assert!(texts.iter().all(|text| "012345".chars().all(|digit| text.contains(digit))));
    }
}
