//! The sides of the comparison that are written by hand; `calls` has the others.

use crate::case::Mark;
use crate::plain::{header_words, number, seeded, store_words, told};
use kullneyra::Refusal;
use reference::{Outcome, Stopped};

pub use crate::calls::{Proved, Side, Typed, Untouched};
pub use reference::Renewed as Renewal;

/// What is lent to the calls that save.
pub struct Buffers<'a> {
    pub marks: &'a mut [u8],
    pub work: &'a mut [u32],
    pub tallies: &'a mut [u64],
    pub saved: &'a mut [u32],
    pub result: &'a mut [u64],
}

/// Result words for what the library answered; 0, or the refusal's number with the words left alone.
pub fn written<T: Copy, const N: usize>(answer: Result<[T; N], Refusal>, result: &mut [T]) -> u32 {
    number_of(answer.map(|words| result.copy_from_slice(&words)))
}

/// The number of a call that answers nothing else.
pub fn number_of(answer: Result<(), Refusal>) -> u32 {
    answer.map_or_else(Refusal::number, |()| 0)
}

/// Calls whose Rust types are written by hand.
pub mod by_hand {
    pub fn references(offsets: &[u32], targets: &[u32], object: u32, result: &mut [u64]) -> u32 {
        let part = kullneyra::references(offsets, targets, object);
        let start = (part.as_ptr() as usize - targets.as_ptr() as usize) / size_of::<u32>();
        result.copy_from_slice(&[start as u64, part.len() as u64]);
        0
    }
}

/// The specification in plain Rust.
pub struct Reference;

impl Side for Reference {}

/// What the proved calls are measured against; where there is no tuned call, the plain one.
pub struct Tuned;

impl Side for Tuned {
    fn read(
        &self,
        bytes: &[u8],
        offsets: &mut [u32],
        targets: &mut [u32],
        sizes: &mut [u64],
        starts: &mut [u32],
        result: &mut [u32],
    ) -> u32 {
        told(result, || tuned::read(bytes, offsets, targets, sizes, starts).map(store_words))
    }

    fn mark(&self, call: &Mark, marks: &mut [u8], work: &mut [u32], tallies: &mut [u64], result: &mut [u64]) -> u32 {
        told(result, || tuned::mark(call.call(), marks, work, tallies).map(Outcome::words))
    }

    fn mark_all(
        &self,
        call: &Mark,
        marks: &mut [u8],
        work: &mut [u32],
        tallies: &mut [u64],
        result: &mut [u64],
    ) -> u32 {
        told(result, || tuned::mark_all(call.call(), marks, work, tallies).map(Outcome::words))
    }

    fn resume(&self, call: &Mark, lent: &mut Buffers<'_>) -> u32 {
        let Buffers { marks, work, tallies, saved, result } = lent;
        told(result, || tuned::resume(call.call(), marks, work, tallies, saved).map(Stopped::words))
    }

    fn sweep(&self, marks: &[u8], sizes: &[u64], list: &mut [u32], result: &mut [u64]) -> u32 {
        told(result, || tuned::sweep(marks, sizes, list).map(|swept| [u64::from(swept.count), swept.freed]))
    }

    fn deal(&self, cards: &[u32], workers: u32, schedule: &mut [u8]) -> u32 {
        number(tuned::deal(cards, workers, schedule))
    }

    fn deal_seed(&self, seed: &mut [u32], rounds: usize, workers: u32, schedule: &mut [u8]) -> u32 {
        seeded(seed, |seed| number(tuned::deal_seed(seed, rounds, workers, schedule)))
    }

    /// The queue stands in words of its own, since it leaves others than the call may; beside a refusal it is as it was.
    fn hops(&self, offsets: &[u32], targets: &[u32], starts: &[u32], hops: &mut [u32], work: &mut [u32]) -> u32 {
        let mut queue = work.to_vec();
        let answer = number(tuned::hops(offsets, targets, starts, hops, &mut queue));
        assert!(answer == 0 || queue == work, "a work word is changed beside a refusal");
        answer
    }

    fn add(&self, offsets: &[u32], targets: &[u32], from: &[u32], to: &[u32], lent: &mut Renewal<'_>) -> u32 {
        number(tuned::add(offsets, targets, from, to, lent))
    }

    fn remove(&self, offsets: &[u32], targets: &[u32], numbers: &[u32], starts: &[u32], lent: &mut Renewal<'_>) -> u32 {
        number(tuned::remove(offsets, targets, numbers, starts, lent))
    }

    fn import(
        &self,
        text: &[u8],
        offsets: &mut [u32],
        targets: &mut [u32],
        sizes: &mut [u64],
        result: &mut [u32],
    ) -> u32 {
        told(result, || tuned::import(text, offsets, targets, sizes).map(header_words))
    }

    fn export(&self, offsets: &[u32], targets: &[u32], out: &mut [u8]) -> u32 {
        number(tuned::export(offsets, targets, out))
    }

    fn scan(
        &self,
        objects: u32,
        width: u32,
        names: &[u8],
        named: &[u32],
        texts: &[u8],
        ends: &[u64],
        owners: &[u32],
        work: &mut [u32],
        from: &mut [u32],
        to: &mut [u32],
    ) -> u32 {
        let scan = reference::Scan { objects, width, names, named, texts, ends, owners };
        number(tuned::scan(scan, work, from, to))
    }
}
