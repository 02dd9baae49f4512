//! What is asked of every case: both sides agree, and what the specification demands holds of the answer.

use crate::case::{Call, Case, Mark};
use crate::lent::{after, after_parts, place, After};
use crate::sides::{Proved, Reference, Side, Tuned, Typed, Untouched};
use kullneyra::Marked;
use reference::Tally;
use std::collections::BTreeSet;

/// What the proved library answered and left, or what is wrong with it.
pub fn judge(case: &Case) -> Result<After, String> {
    let wanted = after(case, &Reference);
    let got = same(case, &Proved, &wanted).map_err(|what| format!("library against reference: {what}"))?;
    if case.is_typed() {
        same(case, &Typed, &wanted).map_err(|what| format!("library by its Rust types against reference: {what}"))?;
    }
    same(case, &Tuned, &wanted).map_err(|what| format!("tuned Rust against reference: {what}"))?;
    demands(case, &got)?;
    if let (Call::Begin { mark, cuts, .. }, 0) = (&case.call, got.number) {
        for (name, side) in [("library", &Proved as &dyn Side), ("reference", &Reference)] {
            same_in_parts(case, side, &mark.parts(cuts), &got).map_err(|what| format!("{name} in parts: {what}"))?;
            same_as_marked(case, side, mark, &got).map_err(|what| format!("{name}, begin against mark: {what}"))?;
        }
    }
    if let (Call::MarkAll(mark), 0) = (&case.call, got.number) {
        let rounds = Case { call: Call::Mark(in_rounds(mark)), ..case.clone() };
        for (name, side) in [("library", &Proved as &dyn Side), ("reference", &Reference)] {
            same(&rounds, side, &got)
                .map_err(|what| format!("{name}, mark with enough rounds against mark_all: {what}"))?;
        }
    }
    Ok(got)
}

/// The same call with so many rounds, each worker naming the next one, as are sure to finish.
fn in_rounds(call: &Mark) -> Mark {
    let (_, leaving) = reached(&call.offsets, &call.targets, &call.starts);
    let workers = call.workers as usize;
    let round: Vec<u8> = (0..workers).flat_map(|b| [b as u8, ((b + 1) % workers) as u8]).collect();
    Mark { schedule: round.repeat(7 * leaving + 4 * workers + 2), ..call.clone() }
}

/// Calls in a row leave what one call leaves.
fn same_in_parts(case: &Case, side: &dyn Side, parts: &[Mark], whole: &After) -> Result<(), String> {
    difference(&after_parts(case, side, parts), whole).map_or(Ok(()), Err)
}

/// What is begun is marked as `mark` does it, beside the saved words.
fn same_as_marked(case: &Case, side: &dyn Side, mark: &Mark, begun: &After) -> Result<(), String> {
    let marked = after(&Case { call: Call::Mark(mark.clone()), result: Marked::WORDS, ..case.clone() }, side);
    if (marked.number, marked.marked()) != (begun.number, begun.marked()) {
        return Err(format!("{:?} against {:?}", begun.marked(), marked.marked()));
    }
    let unsaved = |all: &After| {
        let mut all = all.clone();
        all.buffers.retain(|(name, _)| !["saved", "result"].contains(name));
        all
    };
    difference(&unsaved(begun), &unsaved(&marked)).map_or(Ok(()), Err)
}

/// What a side answers and leaves, if it is what is wanted.
pub fn same(case: &Case, side: &dyn Side, wanted: &After) -> Result<After, String> {
    let got = after(case, side);
    match difference(&got, wanted) {
        None => Ok(got),
        Some(what) => Err(what),
    }
}

/// The first thing in which two sides differ.
fn difference(got: &After, wanted: &After) -> Option<String> {
    if got.number != wanted.number {
        return Some(format!("answer {} against {}", got.number, wanted.number));
    }
    for ((name, one), (_, other)) in got.buffers.iter().zip(&wanted.buffers) {
        if one != other {
            let i = (0..one.len()).find(|&i| one.at(i) != other.at(i))?;
            return Some(format!("{name}[{}] is {} against {}", place(i), one.at(i), other.at(i)));
        }
    }
    None
}

/// The demands that can be tested on an answer.
pub fn demands(case: &Case, got: &After) -> Result<(), String> {
    if !Call::ANSWERS[case.call.place()].contains(&got.number) {
        return Err(format!("{} is no answer of the call", got.number));
    }
    if got.number != 0 && got.buffers != after(case, &Untouched).buffers {
        return Err(format!("a buffer is changed beside refusal {}", got.number));
    }
    match &case.call {
        Call::Mark(call) | Call::Begin { mark: call, .. } if got.number == 0 => run_demands(call, got),
        Call::MarkAll(call) if got.number == 0 => run_demands(&in_rounds(call), got),
        Call::Resume { mark, .. } if got.number == 0 => resumed_demands(mark, got),
        Call::Deal { cards, workers, .. } if got.number == 0 => {
            let schedule: Vec<u8> = got.lent(0).iter().map(|&byte| byte as u8).collect();
            match stretches(&schedule, *workers) == cards.len() as u64 {
                true => Ok(()),
                false => Err("does not hold: each card is a stretch".into()),
            }
        }
        Call::Draw { .. } if got.number == 0 && got.lent(0)[0] == 0 => {
            Err("does not hold: a first word other than 0 never becomes 0".into())
        }
        Call::DealSeed { rounds, workers, .. } if got.number == 0 => {
            let schedule: Vec<u8> = got.lent(1).iter().map(|&byte| byte as u8).collect();
            match stretches(&schedule, *workers) == *rounds as u64 {
                true => Ok(()),
                false => Err("does not hold: each draw is a stretch".into()),
            }
        }
        Call::Hops { offsets, targets, starts, .. } if got.number == 0 => {
            let (found, _) = reached(offsets, targets, starts);
            let counted = got.lent(0).into_iter().map(|hops| hops != u64::from(reference::NO_HOPS));
            match counted.eq(found) {
                true => Ok(()),
                false => Err("does not hold: exactly the objects that live have a hop count".into()),
            }
        }
        // From the marked objects, or from the starts, along the new references.
        Call::Add { update, from, .. } if got.number == 0 => {
            let given: Vec<u32> = (0..).zip(&update.marks).filter(|(_, &mark)| mark != 0).map(|(v, _)| v).collect();
            let kept = update.marks.iter().zip(got.lent(2)).all(|(&mark, now)| mark == 0 || u64::from(mark) == now);
            match kept && update.targets.len() + from.len() == got.lent(1).len() {
                true => renewed_demands(&given, got),
                false => Err("does not hold: marks that are set keep their value".into()),
            }
        }
        Call::Remove { starts, .. } if got.number == 0 => renewed_demands(starts, got),
        Call::Export { offsets, targets, .. } if got.number == 0 => {
            let text: Vec<u8> = got.lent(0).iter().map(|&byte| byte as u8).collect();
            let (mut os, mut ts) = (vec![1; offsets.len()], vec![1; targets.len()]);
            match kullneyra::import(&text, &mut os, &mut ts, &mut vec![1; offsets.len() - 1]) {
                Ok(_) if (&os, &ts) == (offsets, targets) => Ok(()),
                _ => Err("does not hold: importing an export gives the same offsets and targets".into()),
            }
        }
        _ => Ok(()),
    }
}

/// The marked objects are those that the given ones reach in the store that was written.
fn renewed_demands(given: &[u32], got: &After) -> Result<(), String> {
    let words = |buffer: usize| got.lent(buffer).into_iter().map(|word| word as u32).collect::<Vec<u32>>();
    let (found, _) = reached(&words(0), &words(1), given);
    match got.lent(2).into_iter().map(|mark| mark != 0).eq(found) {
        true => Ok(()),
        false => Err("does not hold: exactly what is reached is marked".into()),
    }
}

/// What holds of a collection that was taken up, whoever wrote its words.
fn resumed_demands(call: &Mark, got: &After) -> Result<(), String> {
    let (marks, result) = (got.lent(0), got.marked());
    let (found, _) = reached(&call.offsets, &call.targets, &call.starts);
    let all_marked = marks.iter().zip(&found).all(|(&mark, &found)| mark != 0 || !found);
    if result.finished && !all_marked {
        return Err("finished, and an object that lives is not marked".into());
    }
    // The bounds of demand 3 may be left behind where the words were written by hand.
    let saved: Vec<u32> = got.lent(3).into_iter().map(|word| word as u32).collect();
    let unsound = reference::unsound(call.call(), &saved);
    if got.stopped().sound != unsound.is_empty() {
        return Err(format!("sound is {} beside the conditions {unsound:?}", got.stopped().sound));
    }
    match unsound.into_iter().find(|number| ![20, 21].contains(number)) {
        Some(number) => Err(format!("condition {number} does not hold of what is saved")),
        None => Ok(()),
    }
}

/// The objects that the starts reach, and how many references leave them: R.
pub fn reached(offsets: &[u32], targets: &[u32], starts: &[u32]) -> (Vec<bool>, usize) {
    let mut found = vec![false; offsets.len() - 1];
    let mut leaving = 0;
    let mut next: Vec<usize> = Vec::new();
    for v in starts.iter().map(|&start| start as usize) {
        if !found[v] {
            found[v] = true;
            next.push(v);
        }
    }
    while let Some(v) = next.pop() {
        let part = &targets[offsets[v] as usize..offsets[v + 1] as usize];
        leaving += part.len();
        for &to in part {
            if !found[to as usize] {
                found[to as usize] = true;
                next.push(to as usize);
            }
        }
    }
    (found, leaving)
}

/// Into how many stretches the turns can be cut, each with a turn of every worker.
fn stretches(schedule: &[u8], workers: u32) -> u64 {
    let all = (1u32 << workers) - 1;
    let (mut seen, mut count) = (0u32, 0);
    for turn in schedule.chunks_exact(2) {
        seen |= 1 << turn[0];
        if seen == all {
            seen = 0;
            count += 1;
        }
    }
    count
}

/// References carried by all workers, if each stretch of the work memory is pairs and then zeros.
fn carried(work: &[u64], stretch: usize) -> Option<u64> {
    let mut carried = 0;
    for words in work.chunks_exact(stretch) {
        let runs = words.chunks_exact(2).take_while(|pair| pair[0] < pair[1]);
        let count = runs.clone().count();
        carried += runs.map(|pair| pair[1] - pair[0]).sum::<u64>();
        if words[2 * count..].iter().any(|&word| word != 0) {
            return None;
        }
    }
    Some(carried)
}

/// References that leave unmarked objects.
fn leaving_unmarked(call: &Mark, marks: &[u64]) -> u64 {
    let bounds = call.offsets.windows(2).map(|pair| u64::from(pair[1] - pair[0]));
    marks.iter().zip(bounds).filter(|(&mark, _)| mark == 0).map(|(_, leaving)| leaving).sum()
}

/// Every mark but a start's is that of a worker which has an entry.
fn owners_had_turns(call: &Mark, marks: &[u64]) -> bool {
    let has_entry = |mark: u64| call.schedule.chunks_exact(2).any(|entry| u64::from(entry[0]) + 1 == mark);
    let claimed: BTreeSet<u64> =
        (0..).zip(marks).filter(|&(v, &mark)| mark != 0 && !call.starts.contains(&v)).map(|(_, &mark)| mark).collect();
    claimed.into_iter().all(has_entry)
}

/// Each worker won as many claims as objects have its mark, those without a claim left out: the starts.
fn won_their_marks(call: &Mark, marks: &[u64], all: &[Tally]) -> bool {
    let mut claimed = marks.to_vec();
    call.starts.iter().for_each(|&start| claimed[start as usize] = 0);
    (1..).zip(all).all(|(mark, one)| one.won == claimed.iter().filter(|&&found| found == mark).count() as u64)
}

/// What the tallies of an accepted run add up to.
fn tallies_add_up(call: &Mark, marked: Marked, all: &[Tally]) -> bool {
    let sum = |count: fn(&Tally) -> u64| all.iter().map(count).sum::<u64>();
    let starts: BTreeSet<u32> = call.starts.iter().copied().collect();
    let sums = [sum(|one| one.followed), sum(|one| one.handed), sum(|one| one.won) + starts.len() as u64];
    sums == [marked.followed, marked.handed, marked.live]
}

/// What demands 2 and 3 say of every accepted run.
fn run_demands(call: &Mark, got: &After) -> Result<(), String> {
    let (marks, work, tallies) = (got.lent(0), got.lent(1), reference::tallies(&got.lent(2)));
    let result = got.lent(got.buffers.len() - 1);
    let (found, leaving) = reached(&call.offsets, &call.targets, &call.starts);
    let Marked { finished, live, followed, handed, moved, carrying, .. } = got.marked();
    let most = leaving as u64;
    let workers = u64::from(call.workers);
    let (bound, enough) = (7 * most + workers, 7 * most + 4 * workers - 2);
    let stretch = 2 * marks.len() + 4;
    // The stretch of a worker that carries references begins with a run, whose end is above 0.
    let loaded = work.chunks_exact(stretch).filter(|words| words[1] > 0).count() as u64;
    let total = carried(&work, stretch).map(|c| followed + c + leaving_unmarked(call, &marks));
    let mut checks = vec![
        ("marks are 0 to W", marks.iter().all(|&mark| mark <= u64::from(call.workers))),
        ("live is the number of marks", live == marks.iter().filter(|&&mark| mark != 0).count() as u64),
        ("only reachable objects are marked", marks.iter().zip(&found).all(|(&mark, &found)| mark == 0 || found)),
        ("every start has mark 1", call.starts.iter().all(|&start| marks[start as usize] == 1)),
        ("whoever claimed an object had turns", owners_had_turns(call, &marks)),
        ("work is pairs, then zeros", total.is_some()),
        ("followed, carried and leaving unmarked make m", total == Some(call.targets.len() as u64)),
        ("followed is at most R", followed <= most),
        ("handed times K is at most 3R", handed * u64::from(call.cutoff) <= 3 * most),
        ("moved is at most 7R + W", moved <= bound),
        ("carrying is the number of workers with runs", carrying == loaded),
        ("finished is 0 or 1", result[0] < 2),
        ("there is a tally for each worker", tallies.len() == call.workers as usize),
        ("the tallies add up to followed, handed and live", tallies_add_up(call, got.marked(), &tallies)),
        ("won and lost are at most followed", tallies.iter().all(|one| one.won + one.lost <= one.followed)),
        ("each worker won the objects with its mark", won_their_marks(call, &marks, &tallies)),
    ];
    if finished {
        checks.push(("finished: all that is reachable is marked", live == found.iter().map(|&f| u64::from(f)).sum()));
        checks.push(("finished: followed is R", followed == most));
        checks.push(("finished: nothing is carried", work.iter().all(|&word| word == 0)));
    } else {
        checks.push(("7R + 4W - 2 stretches finish", stretches(&call.schedule, call.workers) < enough));
    }
    match checks.iter().find(|(_, holds)| !holds) {
        Some((broken, _)) => Err(format!("does not hold: {broken} (R {leaving}, result {result:?})")),
        None => Ok(()),
    }
}
