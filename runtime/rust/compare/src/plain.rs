//! The specification in plain Rust by the C header's parameters: the length of the result buffer is looked at first. The calls
//! of numbers are in `calls`.

use crate::case::Mark;
use crate::sides::{Buffers, Renewal};
use reference::{Contents, Header, Outcome, Seed, Stopped};

/// A lent buffer is not as long as it must be.
pub const WRONG_LENGTH: u32 = 7;

/// Result words for what was answered; 0, or the number with the words left alone.
pub fn told<T: Copy, const N: usize>(result: &mut [T], answer: impl FnOnce() -> Result<[T; N], u8>) -> u32 {
    if result.len() != N {
        return WRONG_LENGTH;
    }
    match answer() {
        Ok(words) => {
            result.copy_from_slice(&words);
            0
        }
        Err(number) => u32::from(number),
    }
}

/// The same for one result word.
pub fn told_one<T: Copy>(result: &mut [T], answer: impl FnOnce() -> Result<T, u8>) -> u32 {
    told(result, || answer().map(|word| [word]))
}

/// The number of a call that answers nothing else.
pub fn number(answer: Result<(), u8>) -> u32 {
    answer.map_or_else(u32::from, |()| 0)
}

pub fn header_words(header: Header) -> [u32; 3] {
    [header.n, header.m, header.index]
}

pub fn store_words(store: Contents) -> [u32; 4] {
    let [n, m, index] = header_words(store.head);
    [n, m, index, store.starts]
}

pub fn header(bytes: &[u8], result: &mut [u32]) -> u32 {
    told(result, || reference::header(bytes).map(header_words))
}

pub fn read(
    bytes: &[u8],
    offsets: &mut [u32],
    targets: &mut [u32],
    sizes: &mut [u64],
    starts: &mut [u32],
    result: &mut [u32],
) -> u32 {
    told(result, || reference::read(bytes, offsets, targets, sizes, starts).map(store_words))
}

pub fn references(offsets: &[u32], targets: &[u32], object: u32, result: &mut [u64]) -> u32 {
    told(result, || {
        let (start, length) = reference::part(offsets, targets, object);
        assert_eq!(reference::references(offsets, targets, object), &targets[start..start + length]);
        Ok([start as u64, length as u64])
    })
}

pub fn mark(call: &Mark, marks: &mut [u8], work: &mut [u32], tallies: &mut [u64], result: &mut [u64]) -> u32 {
    told(result, || reference::mark(call.call(), marks, work, tallies).map(Outcome::words))
}

pub fn mark_all(call: &Mark, marks: &mut [u8], work: &mut [u32], tallies: &mut [u64], result: &mut [u64]) -> u32 {
    told(result, || reference::mark_all(call.call(), marks, work, tallies).map(Outcome::words))
}

pub fn begin(call: &Mark, lent: &mut Buffers<'_>) -> u32 {
    let Buffers { marks, work, tallies, saved, result } = lent;
    told(result, || reference::begin(call.call(), marks, work, tallies, saved).map(Stopped::words))
}

pub fn resume(call: &Mark, lent: &mut Buffers<'_>) -> u32 {
    let Buffers { marks, work, tallies, saved, result } = lent;
    told(result, || reference::resume(call.call(), marks, work, tallies, saved).map(Stopped::words))
}

pub fn sweep(marks: &[u8], sizes: &[u64], list: &mut [u32], result: &mut [u64]) -> u32 {
    told(result, || reference::sweep(marks, sizes, list).map(|swept| [u64::from(swept.count), swept.freed]))
}

pub fn deal(cards: &[u32], workers: u32, schedule: &mut [u8]) -> u32 {
    number(reference::deal(cards, workers, schedule))
}

/// What is done with the two words of a seed; another number of them is refused before anything else.
pub fn seeded(seed: &mut [u32], call: impl FnOnce(&mut Seed) -> u32) -> u32 {
    let &mut [first, second] = seed else {
        return WRONG_LENGTH;
    };
    let mut words = Seed { first, second };
    let number = call(&mut words);
    seed.copy_from_slice(&[words.first, words.second]);
    number
}

pub fn draw(seed: &mut [u32], result: &mut [u32]) -> u32 {
    seeded(seed, |seed| told_one(result, || reference::draw(seed)))
}

pub fn deal_seed(seed: &mut [u32], rounds: usize, workers: u32, schedule: &mut [u8]) -> u32 {
    seeded(seed, |seed| number(reference::deal_seed(seed, rounds, workers, schedule)))
}

pub fn hops(offsets: &[u32], targets: &[u32], starts: &[u32], hops: &mut [u32], work: &mut [u32]) -> u32 {
    number(reference::hops(offsets, targets, starts, hops, work))
}

pub fn add(offsets: &[u32], targets: &[u32], from: &[u32], to: &[u32], lent: &mut Renewal<'_>) -> u32 {
    number(reference::add(offsets, targets, from, to, lent))
}

pub fn remove(offsets: &[u32], targets: &[u32], numbers: &[u32], starts: &[u32], lent: &mut Renewal<'_>) -> u32 {
    number(reference::remove(offsets, targets, numbers, starts, lent))
}

pub fn market_header(text: &[u8], result: &mut [u32]) -> u32 {
    told(result, || reference::market_header(text).map(header_words))
}

pub fn import(text: &[u8], offsets: &mut [u32], targets: &mut [u32], sizes: &mut [u64], result: &mut [u32]) -> u32 {
    told(result, || reference::import(text, offsets, targets, sizes).map(header_words))
}

pub fn export_length(offsets: &[u32], targets: &[u32], result: &mut [u64]) -> u32 {
    told_one(result, || reference::export_length(offsets, targets))
}

pub fn export(offsets: &[u32], targets: &[u32], out: &mut [u8]) -> u32 {
    number(reference::export(offsets, targets, out))
}

#[allow(clippy::too_many_arguments)]
pub fn scan_length(
    objects: u32,
    width: u32,
    names: &[u8],
    named: &[u32],
    texts: &[u8],
    ends: &[u64],
    owners: &[u32],
    work: &mut [u32],
    result: &mut [u64],
) -> u32 {
    let scan = reference::Scan { objects, width, names, named, texts, ends, owners };
    told_one(result, || reference::scan_length(scan, work))
}

#[allow(clippy::too_many_arguments)]
pub fn scan(
    objects: u32,
    width: u32,
    names: &[u8],
    named: &[u32],
    texts: &[u8],
    ends: &[u64],
    owners: &[u32],
    work: &mut [u32],
    from: &mut [u32],
    to: &mut [u32],
) -> u32 {
    let scan = reference::Scan { objects, width, names, named, texts, ends, owners };
    number(reference::scan(scan, work, from, to))
}
