//! The marker's checks. Each loop looks at everything, so that it is compiled without a jump out of it.

use reference::{Call, Renewed, Tally, MOST_OBJECTS, MOST_REFERENCES, STARTS};

fn rising(offsets: &[u32]) -> bool {
    offsets.iter().zip(&offsets[1..]).fold(true, |rising, (one, next)| rising & (one <= next))
}

pub fn all_below(targets: &[u32], n: u32) -> bool {
    targets.iter().fold(true, |below, &target| below & (target < n))
}

fn is_graph(offsets: &[u32], targets: &[u32]) -> bool {
    let n = offsets.len() - 1;
    offsets[0] == 0 && offsets[n] as usize == targets.len() && rising(offsets) && all_below(targets, n as u32)
}

fn is_schedule(schedule: &[u8], workers: u32) -> bool {
    let entries = schedule.chunks_exact(2);
    entries.remainder().is_empty() && entries.fold(true, |below, entry| below & (u32::from(entry[0]) < workers))
}

/// Check 4 of a graph.
pub fn counts(offsets: &[u32], targets: &[u32]) -> Result<(), u8> {
    if (2..=MOST_OBJECTS + 1).contains(&offsets.len()) && targets.len() <= MOST_REFERENCES {
        Ok(())
    } else {
        Err(4)
    }
}

/// Checks 4 and 10 of a graph.
pub fn graph(offsets: &[u32], targets: &[u32]) -> Result<(), u8> {
    counts(offsets, targets)?;
    if is_graph(offsets, targets) {
        Ok(())
    } else {
        Err(10)
    }
}

/// The graph and its starts: checks 4, 10, 13 and 5.
pub fn store(offsets: &[u32], targets: &[u32], starts: &[u32]) -> Result<(), u8> {
    graph(offsets, targets)?;
    if !(1..=STARTS).contains(&starts.len()) {
        return Err(13);
    }
    if !all_below(starts, offsets.len() as u32 - 1) {
        return Err(5);
    }
    Ok(())
}

/// Whether what is lent to the calls that renew a store has the right lengths.
pub fn renewed(lent: &Renewed<'_>, n: usize, targets: usize) -> bool {
    let Renewed { offsets, targets: places, marks, work } = lent;
    offsets.len() == n + 1 && places.len() == targets && marks.len() == n && work.len() == n
}

/// The number of the first fault of a call with so many marks, work words and words of tallies, and saved words that fit or
/// do not.
pub fn call(call: Call<'_>, marks: usize, work: usize, tallies: usize, saved: bool) -> Result<(), u8> {
    let Call { offsets, targets, starts, workers, batch, cutoff, schedule } = call;
    if !(1..=16).contains(&workers) || !(1..=65_535).contains(&batch) || !(1..=65_535).contains(&cutoff) {
        return Err(8);
    }
    counts(offsets, targets)?;
    let n = offsets.len() - 1;
    if marks != n || work != workers as usize * (2 * n + 4) || tallies != workers as usize * Tally::WORDS || !saved {
        return Err(7);
    }
    store(offsets, targets, starts)?;
    if !is_schedule(schedule, workers) {
        return Err(9);
    }
    Ok(())
}

/// The same for the hops' call, with so many counts and work words.
pub fn hops(offsets: &[u32], targets: &[u32], starts: &[u32], hops: usize, work: usize) -> Result<(), u8> {
    counts(offsets, targets)?;
    let n = offsets.len() - 1;
    if hops != n || work != 2 * n {
        return Err(7);
    }
    store(offsets, targets, starts)
}
