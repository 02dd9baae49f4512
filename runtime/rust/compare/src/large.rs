//! Large cases: at the limits and just beyond them.

use crate::case::{Call, Case, Mark, Update};
use crate::draw;
use crate::rng::Rng;
use crate::store;
use reference::{Tally, LARGEST_SIZE, MOST_LEASES, MOST_OBJECTS, MOST_REFERENCES, STARTS};

/// How many there are: the first numbers of every run.
pub const LARGE: u64 = 36;

/// The large case of this number.
pub fn large(rng: &mut Rng, number: u64) -> Case {
    let call = match number {
        0..=6 => large_read(rng, number),
        7 => large_sweep(rng, MOST_OBJECTS),
        8 => large_sweep(rng, MOST_OBJECTS + 1),
        9..=23 => Call::Mark(large_mark(rng, number - 9)),
        24 | 25 => large_begin(rng, number - 24),
        26..=28 => large_resume(rng, number - 26),
        _ => large_graph(rng, number - 29),
    };
    Case { result: call.result_words(), fill: rng.word(), call }
}

fn large_read(rng: &mut Rng, number: u64) -> Call {
    let (n, m) = match number {
        0 => (1, MOST_REFERENCES),
        1 => (MOST_OBJECTS, 0),
        _ => (MOST_OBJECTS, MOST_REFERENCES),
    };
    let mut store = store::store(rng, 0, n, m);
    if number == 2 {
        store.leases = vec![n as u32 - 1; MOST_LEASES];
        store.subjects = (0..m).map(|_| rng.once_in(2)).collect();
    }
    let sizes = store::sizes(rng, n);
    let mut bytes = store::bytes(&store.records(&sizes));
    let end = bytes.len();
    match number {
        // The last reference's target is not below n.
        3 => bytes[end - 4..].copy_from_slice(&(n as u32).to_le_bytes()),
        // A record too many.
        4 => bytes.extend_from_within(end - 12..),
        // A byte is missing.
        5 => drop(bytes.pop()),
        // The header promises one more reference than there may be.
        6 => bytes[8..12].copy_from_slice(&(m as u32 + 1).to_le_bytes()),
        _ => {}
    }
    Call::Read { bytes, offsets: n + 1, targets: m, sizes: n, starts: STARTS }
}

fn large_sweep(rng: &mut Rng, n: usize) -> Call {
    let marks = (0..n).map(|_| rng.pick(&[0, 0, 1])).collect();
    Call::Sweep { marks, sizes: vec![LARGEST_SIZE; n], list: n }
}

/// A large collection in parts, of which one has no turns.
fn large_begin(rng: &mut Rng, number: u64) -> Call {
    let mark = large_mark(rng, number);
    let turns = mark.schedule.len() / 2;
    Call::Begin { saved: mark.places().all(), cuts: vec![turns / 5, turns / 2, turns / 2], mark }
}

/// One that is taken up in its middle: as it was saved, with a word behind the last run, or with a run carried twice.
fn large_resume(rng: &mut Rng, number: u64) -> Call {
    let mut mark = large_mark(rng, 2);
    let mut parts = mark.parts(&[mark.schedule.len() / 8]);
    let mut saved = draw::begun(&parts[0]);
    let places = mark.places();
    match number {
        1 => saved[places.all() - 1] = 1,
        2 => saved.copy_within(places.stretch(1)..places.stretch(1) + 2, places.stretch(0)),
        _ => {}
    }
    mark = parts.pop().expect("two parts");
    Call::Resume { mark, saved }
}

/// The calls over a graph, with all the objects and references that there may be; of an import also with the pairs in no order.
fn large_graph(rng: &mut Rng, number: u64) -> Call {
    const NEW: usize = 100;
    let (n, m) = (MOST_OBJECTS, if number == 1 { MOST_REFERENCES - NEW } else { MOST_REFERENCES });
    let store = store::store(rng, 0, n, m);
    let (offsets, targets) = store.lists();
    let mut drawn = |count, below| -> Vec<u32> { (0..count).map(|_| rng.below(below) as u32).collect() };
    match number {
        0 => Call::Hops { offsets, targets, starts: vec![store.index], hops: n, work: 2 * n },
        1 => {
            let update =
                Update { offsets, targets, marks: vec![2; n], new_offsets: n + 1, new_targets: m + NEW, work: n };
            Call::Add { update, from: drawn(NEW, n), to: drawn(NEW, n) }
        }
        2 | 3 => {
            let numbers = drawn(if number == 2 { NEW } else { m / 2 }, m);
            let mut named = numbers.clone();
            named.sort_unstable();
            named.dedup();
            let new_targets = m - named.len();
            let update = Update { offsets, targets, marks: vec![2; n], new_offsets: n + 1, new_targets, work: n };
            Call::Remove { update, numbers, starts: vec![store.index] }
        }
        4 => {
            let out = reference::export_length(&offsets, &targets).expect("a graph") as usize;
            Call::Export { offsets, targets, out }
        }
        _ => {
            let mut pairs = store.pairs;
            if number == 5 {
                pairs.sort_unstable();
            }
            let line = |(from, to): (u32, u32)| format!("{} {}\n", from + 1, to + 1);
            let lines: String = pairs.into_iter().map(line).collect();
            let text = format!("{}\n{n} {n} {m}\n{lines}", reference::BANNER).into_bytes();
            Call::Import { text, offsets: n + 1, targets: m, sizes: n }
        }
    }
}

/// Shape, n, m, W, D, K and turns of each large marker's call.
type Row = (usize, usize, usize, usize, u32, u32, usize);

const ROWS: [Row; 12] = [
    (0, MOST_OBJECTS, MOST_REFERENCES, 16, 64, 64, 1_500_000),
    (0, MOST_OBJECTS, MOST_REFERENCES, 1, 65_535, 65_535, 1_500_000),
    (0, MOST_OBJECTS, MOST_REFERENCES, 16, 1, 1, 2_500_000),
    (0, MOST_OBJECTS, MOST_REFERENCES, 4, 1024, 4096, 700_000),
    (1, MOST_OBJECTS, 0, 16, 1, 1, 4_000_000),
    (2, MOST_OBJECTS, MOST_REFERENCES, 16, 1, 1, 2_500_000),
    (4, MOST_OBJECTS, MOST_REFERENCES, 16, 64, 64, 1_500_000),
    (2, 1, MOST_REFERENCES, 4, 3, 1, 1_500_000),
    (3, MOST_OBJECTS, 0, 7, 2, 3, 1_000_000),
    (4, 40, 100, 16, 1, 1, 3_000_000),
    // Beyond the limits: one object, one reference too many.
    (0, MOST_OBJECTS + 1, 10, 2, 1, 1, 10),
    (0, 10, MOST_REFERENCES + 1, 2, 1, 1, 10),
];

fn large_mark(rng: &mut Rng, number: u64) -> Mark {
    // The last ones are the first once more, with a work memory or schedule that is wrong at its end.
    let (shape, n, m, workers, batch, cutoff, turns) = ROWS[number as usize % ROWS.len()];
    let store = store::store(rng, shape, n, m);
    let (offsets, targets) = store.lists();
    let mut work = workers * (2 * n + 4);
    let mut schedule = Vec::with_capacity(2 * turns);
    for i in 0..turns {
        let worker = if rng.once_in(8) { rng.below(workers) } else { i % workers };
        let named = if rng.once_in(2) { rng.below(workers) } else { (worker + 1) % workers };
        schedule.extend([worker as u8, named as u8]);
    }
    match number {
        12 => work -= 1,
        13 => schedule[2 * turns - 2] = workers as u8,
        14 => drop(schedule.pop()),
        _ => {}
    }
    let starts = if number < 4 { draw::starts(rng, store.index, n) } else { vec![store.index] };
    let (workers, marks, tallies) = (workers as u32, n, workers * Tally::WORDS);
    Mark { offsets, targets, starts, workers, batch, cutoff, schedule, marks, work, tallies }
}
