//! Lent buffers between guards, and what a call leaves in them.

use crate::calls::NUMBER_CALLS;
use crate::case::{Call, Case, Mark, Scan, Update};
use crate::sides::{Buffers, Renewal, Side};
use kullneyra::{Marked, Stopped, SCAN_WORK};
use std::cell::RefCell;

/// Elements on either side of a lent buffer that no call may touch.
const GUARD: usize = 3;

/// A lent buffer, filled beforehand, between its guards.
struct Lent<T>(Vec<T>);

impl<T: TryFrom<u64> + Copy> Lent<T>
where
    u64: From<T>,
{
    /// Some fills are all zeros, some all ones; in the others every element differs.
    fn new(length: usize, fill: u64, mask: u64) -> Self {
        let element = |i: usize| match fill % 8 {
            0 => 0,
            1 => u64::MAX,
            _ => (fill ^ i as u64).wrapping_mul(0x9e37_79b9_7f4a_7c15) >> 17,
        };
        let all = (0..length + 2 * GUARD).map(|i| T::try_from(element(i) & mask).ok().expect("masked"));
        Lent(all.collect())
    }

    /// A buffer that the call reads, too: these elements between their guards.
    fn holding(elements: &[T], fill: u64, mask: u64) -> Self {
        let mut lent = Lent::new(elements.len(), fill, mask);
        lent.part().copy_from_slice(elements);
        lent
    }

    fn part(&mut self) -> &mut [T] {
        let end = self.0.len() - GUARD;
        &mut self.0[GUARD..end]
    }
}

fn bytes(length: usize, fill: u64) -> Lent<u8> {
    Lent::new(length, fill, 0xff)
}

fn words(length: usize, fill: u64) -> Lent<u32> {
    Lent::new(length, fill, 0xffff_ffff)
}

fn longs(length: usize, fill: u64) -> Lent<u64> {
    Lent::new(length, fill, u64::MAX)
}

/// The whole of a buffer after the call, guards included.
#[derive(Clone, Debug, PartialEq, Eq)]
pub enum Whole {
    Bytes(Vec<u8>),
    Words(Vec<u32>),
    Longs(Vec<u64>),
}

impl Whole {
    pub fn len(&self) -> usize {
        match self {
            Whole::Bytes(all) => all.len(),
            Whole::Words(all) => all.len(),
            Whole::Longs(all) => all.len(),
        }
    }

    pub fn at(&self, i: usize) -> u64 {
        match self {
            Whole::Bytes(all) => u64::from(all[i]),
            Whole::Words(all) => u64::from(all[i]),
            Whole::Longs(all) => all[i],
        }
    }
}

#[cfg(test)]
impl Whole {
    /// Changes the first lent element.
    pub fn add_to_first(&mut self, more: u8) {
        match self {
            Whole::Bytes(all) => all[GUARD] = all[GUARD].wrapping_add(more),
            Whole::Words(all) => all[GUARD] = all[GUARD].wrapping_add(u32::from(more)),
            Whole::Longs(all) => all[GUARD] = all[GUARD].wrapping_add(u64::from(more)),
        }
    }
}

/// What a call answered, and every lent word afterwards.
#[derive(Clone, Debug, PartialEq, Eq)]
pub struct After {
    pub number: u32,
    /// The buffers by name; the result words come last.
    pub buffers: Vec<(&'static str, Whole)>,
}

/// A place in a buffer, counted without the guard.
pub fn place(i: usize) -> isize {
    i as isize - GUARD as isize
}

impl After {
    /// The lent elements of a buffer, without the guards.
    pub fn lent(&self, buffer: usize) -> Vec<u64> {
        let all = &self.buffers[buffer].1;
        (GUARD..all.len() - GUARD).map(|i| all.at(i)).collect()
    }

    /// The result words of an accepted marking, by name; a call that saves has them first.
    pub fn marked(&self) -> Marked {
        let words = self.lent(self.buffers.len() - 1);
        Marked::from_words(words[..Marked::WORDS].try_into().expect("as many words as a marking has"))
    }

    /// Those of an accepted call that saves.
    pub fn stopped(&self) -> Stopped {
        let words = self.lent(self.buffers.len() - 1);
        Stopped::from_words(words.try_into().expect("as many words as a call that saves has"))
    }
}

/// A call that is lent nothing but 32-bit result words.
fn words_only(case: &Case, call: impl FnOnce(&mut [u32]) -> u32) -> After {
    let mut result = words(case.result, case.fill(0));
    let number = call(result.part());
    After { number, buffers: vec![("result", Whole::Words(result.0))] }
}

/// The same with 64 bits.
fn longs_only(case: &Case, call: impl FnOnce(&mut [u64]) -> u32) -> After {
    let mut result = longs(case.result, case.fill(0));
    let number = call(result.part());
    After { number, buffers: vec![("result", Whole::Longs(result.0))] }
}

thread_local! {
    /// The work words of scans, one more than there are, between their guards: too many to be made anew for each call.
    static WORK: RefCell<Vec<u32>> = RefCell::new(vec![0; SCAN_WORK + 1 + 2 * GUARD]);
}

/// A call with the work words of a scan, and what it changed in them and in their guards: places and words.
fn with_work(scan: &Scan, call: impl FnOnce(&mut [u32]) -> u32) -> (u32, Whole) {
    WORK.with_borrow_mut(|all| {
        let littered = scan.litter.map(|place| GUARD + place).filter(|&place| place < GUARD + scan.work);
        if let Some(place) = littered {
            all[place] = 1;
        }
        let number = call(&mut all[GUARD..GUARD + scan.work]);
        if let Some(place) = littered {
            all[place] ^= 1;
        }
        let mut changes = Vec::new();
        if all.iter().fold(0, |any, &word| any | word) != 0 {
            let changed = all.iter_mut().enumerate().filter(|(_, word)| **word != 0);
            changes = changed.flat_map(|(place, word)| [place as u32, std::mem::take(word)]).collect();
        }
        (number, Whole::Words(changes))
    })
}

/// Fresh buffers for the case, the call, and the buffers afterwards.
pub fn after(case: &Case, side: &dyn Side) -> After {
    match &case.call {
        Call::Numbers { which, given } => longs_only(case, |result| (NUMBER_CALLS[*which].make)(side, given, result)),
        Call::Header { bytes } => words_only(case, |result| side.header(bytes, result)),
        Call::Read { bytes, offsets, targets, sizes, starts } => {
            after_read(case, side, bytes, [*offsets, *targets, *sizes, *starts])
        }
        Call::References { offsets, targets, object } => {
            longs_only(case, |result| side.references(offsets, targets, *object, result))
        }
        Call::Mark(mark) => {
            after_marking(case, mark, |marks, work, tallies, result| side.mark(mark, marks, work, tallies, result))
        }
        Call::MarkAll(mark) => {
            after_marking(case, mark, |marks, work, tallies, result| side.mark_all(mark, marks, work, tallies, result))
        }
        Call::Begin { mark, saved, .. } => {
            let mut saved = words(*saved, case.fill(4));
            after_saving(case, mark, &mut saved, |lent| side.begin(mark, lent))
        }
        Call::Resume { mark, saved } => {
            let mut saved = Lent::holding(saved, case.fill(4), 0xffff_ffff);
            after_saving(case, mark, &mut saved, |lent| side.resume(mark, lent))
        }
        Call::Sweep { marks, sizes, list } => {
            let (mut list, mut result) = (words(*list, case.fill(1)), longs(case.result, case.fill(0)));
            let number = side.sweep(marks, sizes, list.part(), result.part());
            After { number, buffers: vec![("list", Whole::Words(list.0)), ("result", Whole::Longs(result.0))] }
        }
        Call::Deal { cards, workers, schedule } => {
            let mut schedule = bytes(*schedule, case.fill(1));
            let number = side.deal(cards, *workers, schedule.part());
            After { number, buffers: vec![("schedule", Whole::Bytes(schedule.0))] }
        }
        Call::Draw { seed } => {
            let mut result = words(case.result, case.fill(0));
            let mut seed = Lent::holding(seed, case.fill(1), 0xffff_ffff);
            let number = side.draw(seed.part(), result.part());
            After { number, buffers: vec![("seed", Whole::Words(seed.0)), ("result", Whole::Words(result.0))] }
        }
        Call::DealSeed { seed, rounds, workers, schedule } => {
            let mut seed = Lent::holding(seed, case.fill(1), 0xffff_ffff);
            let mut schedule = bytes(*schedule, case.fill(2));
            let number = side.deal_seed(seed.part(), *rounds, *workers, schedule.part());
            After { number, buffers: vec![("seed", Whole::Words(seed.0)), ("schedule", Whole::Bytes(schedule.0))] }
        }
        Call::Hops { offsets, targets, starts, hops, work } => {
            let (mut hops, mut work) = (words(*hops, case.fill(1)), words(*work, case.fill(2)));
            let number = side.hops(offsets, targets, starts, hops.part(), work.part());
            // Left open are the two work words of an object with a count, and no others.
            if number == 0 {
                let links = work.part().chunks_exact_mut(2);
                links.zip(hops.part()).filter(|(_, hop)| **hop != u32::MAX).for_each(|(two, _)| two.fill(0));
            }
            After { number, buffers: vec![("hops", Whole::Words(hops.0)), ("work", Whole::Words(work.0))] }
        }
        Call::Add { update, from, to } => {
            after_update(case, update, &update.marks, |lent| side.add(&update.offsets, &update.targets, from, to, lent))
        }
        Call::Remove { update, numbers, starts } => {
            let none = vec![0; update.marks.len()];
            after_update(case, update, &none, |lent| {
                side.remove(&update.offsets, &update.targets, numbers, starts, lent)
            })
        }
        Call::MarketHeader { text } => words_only(case, |result| side.market_header(text, result)),
        Call::Import { text, offsets, targets, sizes } => {
            let (mut offsets, mut targets) = (words(*offsets, case.fill(1)), words(*targets, case.fill(2)));
            let (mut sizes, mut result) = (longs(*sizes, case.fill(3)), words(case.result, case.fill(0)));
            let number = side.import(text, offsets.part(), targets.part(), sizes.part(), result.part());
            let buffers = vec![
                ("offsets", Whole::Words(offsets.0)),
                ("targets", Whole::Words(targets.0)),
                ("sizes", Whole::Longs(sizes.0)),
                ("result", Whole::Words(result.0)),
            ];
            After { number, buffers }
        }
        Call::ExportLength { offsets, targets } => {
            longs_only(case, |result| side.export_length(offsets, targets, result))
        }
        Call::Export { offsets, targets, out } => {
            let mut out = bytes(*out, case.fill(1));
            let number = side.export(offsets, targets, out.part());
            After { number, buffers: vec![("out", Whole::Bytes(out.0))] }
        }
        Call::ScanLength(scan) => {
            let Scan { objects, width, names, named, texts, ends, owners, .. } = scan;
            let mut result = longs(case.result, case.fill(0));
            let (number, work) = with_work(scan, |work| {
                side.scan_length(*objects, *width, names, named, texts, ends, owners, work, result.part())
            });
            After { number, buffers: vec![("changes of the work", work), ("result", Whole::Longs(result.0))] }
        }
        Call::Scan { scan, from, to } => {
            let Scan { objects, width, names, named, texts, ends, owners, .. } = scan;
            let (mut from, mut to) = (words(*from, case.fill(1)), words(*to, case.fill(2)));
            let (number, work) = with_work(scan, |work| {
                side.scan(*objects, *width, names, named, texts, ends, owners, work, from.part(), to.part())
            });
            let lists = [("from", Whole::Words(from.0)), ("to", Whole::Words(to.0))];
            After { number, buffers: [("changes of the work", work)].into_iter().chain(lists).collect() }
        }
    }
}

/// `marked` are the marks from which the call goes on.
fn after_update(case: &Case, update: &Update, marked: &[u8], call: impl FnOnce(&mut Renewal<'_>) -> u32) -> After {
    let (mut offsets, mut targets) = (words(update.new_offsets, case.fill(1)), words(update.new_targets, case.fill(2)));
    let mut marks = Lent::holding(&update.marks, case.fill(3), 0xff);
    let mut work = words(update.work, case.fill(4));
    let number =
        call(&mut Renewal { offsets: offsets.part(), targets: targets.part(), marks: marks.part(), work: work.part() });
    // Left open are the first work words, as many as there are objects newly marked, and no others.
    if number == 0 {
        let fresh = marked.iter().zip(marks.part()).filter(|(before, after)| **before == 0 && **after != 0).count();
        work.part()[..fresh].fill(0);
    }
    let buffers = vec![
        ("new offsets", Whole::Words(offsets.0)),
        ("new targets", Whole::Words(targets.0)),
        ("marks", Whole::Bytes(marks.0)),
        ("work", Whole::Words(work.0)),
    ];
    After { number, buffers }
}

fn after_read(case: &Case, side: &dyn Side, bytes: &[u8], lengths: [usize; 4]) -> After {
    let [offsets, targets, sizes, starts] = lengths;
    let (mut offsets, mut targets) = (words(offsets, case.fill(1)), words(targets, case.fill(2)));
    let (mut sizes, mut starts) = (longs(sizes, case.fill(3)), words(starts, case.fill(4)));
    let mut result = words(case.result, case.fill(0));
    let number = side.read(bytes, offsets.part(), targets.part(), sizes.part(), starts.part(), result.part());
    let buffers = vec![
        ("offsets", Whole::Words(offsets.0)),
        ("targets", Whole::Words(targets.0)),
        ("sizes", Whole::Longs(sizes.0)),
        ("starts", Whole::Words(starts.0)),
        ("result", Whole::Words(result.0)),
    ];
    After { number, buffers }
}

fn after_marking(
    case: &Case,
    mark: &Mark,
    call: impl FnOnce(&mut [u8], &mut [u32], &mut [u64], &mut [u64]) -> u32,
) -> After {
    let (mut marks, mut work) = (bytes(mark.marks, case.fill(1)), words(mark.work, case.fill(2)));
    let (mut tallies, mut result) = (longs(mark.tallies, case.fill(3)), longs(case.result, case.fill(0)));
    let number = call(marks.part(), work.part(), tallies.part(), result.part());
    let buffers = vec![
        ("marks", Whole::Bytes(marks.0)),
        ("work", Whole::Words(work.0)),
        ("tallies", Whole::Longs(tallies.0)),
        ("result", Whole::Longs(result.0)),
    ];
    After { number, buffers }
}

fn after_saving(case: &Case, mark: &Mark, saved: &mut Lent<u32>, call: impl FnOnce(&mut Buffers<'_>) -> u32) -> After {
    let (mut marks, mut work) = (bytes(mark.marks, case.fill(1)), words(mark.work, case.fill(2)));
    let (mut tallies, mut result) = (longs(mark.tallies, case.fill(3)), longs(case.result, case.fill(0)));
    let number = call(&mut Buffers {
        marks: marks.part(),
        work: work.part(),
        tallies: tallies.part(),
        saved: saved.part(),
        result: result.part(),
    });
    let buffers = vec![
        ("marks", Whole::Bytes(marks.0)),
        ("work", Whole::Words(work.0)),
        ("tallies", Whole::Longs(tallies.0)),
        ("saved", Whole::Words(saved.0.clone())),
        ("result", Whole::Longs(result.0)),
    ];
    After { number, buffers }
}

/// The same collection begun with the first of these parts and taken up with the others. Only the saved words go from
/// one call to the next.
pub fn after_parts(case: &Case, side: &dyn Side, parts: &[Mark]) -> After {
    let mut saved = words(parts[0].places().all(), case.fill(4));
    let mut after = after_saving(case, &parts[0], &mut saved, |lent| side.begin(&parts[0], lent));
    for part in &parts[1..] {
        if after.number != 0 {
            return after;
        }
        after = after_saving(case, part, &mut saved, |lent| side.resume(part, lent));
    }
    after
}
