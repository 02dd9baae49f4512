//! A saved collection taken up: the test of SPECIFICATION 8.2, the state put back, and saved again.
//!
//! What makes it fast:
//! - Each pass over marks, targets and the words behind the runs looks at everything and remembers whether something was
//!   wrong; what was wrong is looked at closely only where that is not content.
//! - No set of references: whole runs are a set of objects, and the others, two for each worker at most, a list.
//! - Where there are many runs, an index of the offsets tells which few objects a reference can leave.
//! - Of work and saved words only those of the runs are copied: those behind them are zeros already, or are cleared by the
//!   turns' end.

use crate::{check, Begun, Counts, Machine, Ring, Worker, Workers, ASKING, ENDED, GIVEN, POLL};
use reference::{Call, Outcome, Places, Stopped, Tally, FORM, MOST_OBJECTS};
use std::ops::Range;

/// A set of objects.
type Objects = [u64; MOST_OBJECTS / 64];

fn contains(set: &Objects, v: usize) -> bool {
    set[v / 64] >> (v % 64) & 1 == 1
}

/// False where it was in it already.
fn insert(set: &mut Objects, v: usize) -> bool {
    let (word, bit) = (&mut set[v / 64], 1 << (v % 64));
    let new = *word & bit == 0;
    *word |= bit;
    new
}

fn number(words: &[u32]) -> u64 {
    u64::from(words[0]) | u64::from(words[1]) << 32
}

fn put_number(words: &mut [u32], number: u64) {
    words[0] = number as u32;
    words[1] = (number >> 32) as u32;
}

/// How many objects there are for each block of the index at most, on average.
const BLOCKS: usize = 8192;

/// For each block of references the object that its first one leaves, or one before it.
struct Index {
    shift: u32,
    first: [u16; BLOCKS + 1],
}

impl Index {
    fn of(offsets: &[u32], m: usize) -> Self {
        let shift = (0..).find(|&shift| m >> shift <= BLOCKS).unwrap_or(0);
        let mut first = [0; BLOCKS + 1];
        let last = (1 << shift) - 1;
        for (v, &offset) in offsets[..offsets.len() - 1].iter().enumerate() {
            first[((offset + last) >> shift) as usize] = v as u16;
        }
        let mut highest = 0;
        for entry in &mut first {
            highest = highest.max(*entry);
            *entry = highest;
        }
        Index { shift, first }
    }

    /// The object that reference e leaves.
    #[inline(always)]
    fn object_of(&self, offsets: &[u32], e: u32) -> usize {
        let low = usize::from(self.first[(e >> self.shift) as usize]);
        if let Some(after) = offsets.get(low + 1..low + 17) {
            let passed: u32 = after.iter().map(|&offset| u32::from(offset <= e)).sum();
            if passed < 16 {
                return low + passed as usize;
            }
        }
        low + offsets[low..].partition_point(|&offset| offset <= e) - 1
    }
}

/// The runs that are not whole, with the objects that they leave: the first and the last of each worker at most.
#[derive(Default)]
struct Parts {
    runs: [(u32, u32, u32); 32],
    len: usize,
}

/// What the workers carry.
struct Carried {
    carrying: u64,
    references: u64,
    /// The objects all of whose references are carried in one run.
    whole: Objects,
    parts: Parts,
    /// How many words the runs of each worker take.
    used: [usize; 16],
}

/// Where references with unmarked targets were found to be carried; they are looked at in ascending order.
struct Near<'a> {
    carried: &'a Carried,
    object: usize,
    /// References that are carried.
    known: Range<u32>,
}

/// The saved words of a call, and where they stand.
struct Words<'a> {
    call: Call<'a>,
    words: &'a [u32],
    places: Places,
}

impl<'a> Words<'a> {
    fn count(&self, k: usize) -> u64 {
        number(&self.words[Places::COUNTS + 2 * k..])
    }

    fn head(&self, b: usize) -> [u32; 4] {
        let at = self.places.worker(b);
        std::array::from_fn(|k| self.words[at + k])
    }

    fn tally(&self, b: usize) -> Tally {
        let at = self.places.tally(b);
        Tally::from_words(std::array::from_fn(|k| number(&self.words[at + 2 * k..])))
    }

    fn marks(&self) -> &'a [u32] {
        &self.words[self.places.marks()..][..self.places.objects]
    }

    fn stretch(&self, b: usize) -> &'a [u32] {
        &self.words[self.places.stretch(b)..][..self.places.stretch_words()]
    }

    /// The workers' own words, the cells and the ring.
    fn links_hold(&self) -> bool {
        let workers = self.call.workers;
        let [holder, colour, black] = [0, 1, 2].map(|k| self.words[Places::RING + k]);
        if self.words[0] != FORM || colour > 1 || black >> workers != 0 || holder >= workers {
            return false;
        }
        let heads: [[u32; 4]; 16] = std::array::from_fn(|b| if b < workers as usize { self.head(b) } else { [0; 4] });
        let heads = &heads[..workers as usize];
        let (mut cells, mut asking, mut above) = (0u32, 0u32, false);
        for (b, &[status, cell, since, batch]) in heads.iter().enumerate() {
            let busy = status >= POLL;
            if status > 7 || cell > workers || batch > self.call.batch || (status > POLL) != (batch > 0) {
                return false;
            }
            if !busy && cell != 0 || status == GIVEN && since != 0 {
                return false;
            }
            if cell != 0 {
                let asker = 1 << (cell - 1);
                if cells & asker != 0 {
                    return false;
                }
                cells |= asker;
            }
            asking |= u32::from(status == ASKING) << b;
            above |= b as u32 > holder && status >= GIVEN;
        }
        let some_black = colour == 1 || black & ((2 << holder) - 1) != 0;
        let ended = heads.iter().any(|head| head[0] == ENDED);
        cells == asking && (some_black || !above) && (!ended || heads[0][0] == ENDED && holder == 0)
    }

    /// How many marks are set, and how many references leave objects without one; none where a mark is too high.
    fn count_marks(&self) -> Option<(u64, u64)> {
        let (offsets, workers) = (self.call.offsets, self.call.workers);
        let (mut wrong, mut unmarked, mut leaving) = (0, 0, 0);
        for ((&mark, from), to) in self.marks().iter().zip(offsets).zip(&offsets[1..]) {
            wrong |= u32::from(mark > workers);
            let none = u32::from(mark == 0);
            unmarked += none;
            leaving += none.wrapping_neg() & (to - from);
        }
        (wrong == 0).then(|| ((self.places.objects as u32 - unmarked).into(), leaving.into()))
    }

    /// How many objects the starts are, if all are marked.
    fn count_starts(&self) -> Option<u64> {
        let mut seen = [0; MOST_OBJECTS / 64];
        let mut distinct = 0;
        for &start in self.call.starts {
            if self.marks()[start as usize] == 0 {
                return None;
            }
            distinct += u64::from(insert(&mut seen, start as usize));
        }
        Some(distinct)
    }

    /// The runs: those of marked objects, none of whose references is carried twice.
    fn carried(&self) -> Option<Carried> {
        let offsets = self.call.offsets;
        let m = self.call.targets.len() as u32;
        let mut all = Carried {
            carrying: 0,
            references: 0,
            whole: [0; MOST_OBJECTS / 64],
            parts: Parts::default(),
            used: [0; 16],
        };
        for b in 0..self.places.workers {
            let stretch = self.stretch(b);
            let [status, _, _, batch] = self.head(b);
            let pairs = stretch.chunks_exact(2).take_while(|pair| pair[0] < pair[1]).count();
            all.used[b] = 2 * pairs;
            if (status >= GIVEN) != (pairs > 0) || stretch[2 * pairs..].iter().fold(0, |any, &word| any | word) != 0 {
                return None;
            }
            all.carrying += u64::from(pairs > 0);
            let carried: u64 = stretch[..2 * pairs].chunks_exact(2).map(|pair| u64::from(pair[1] - pair[0])).sum();
            if u64::from(batch) > carried {
                return None;
            }
            all.references += carried;
        }
        let many = all.used.iter().sum::<usize>() > 1024;
        let index = many.then(|| Index::of(offsets, m as usize));
        let object_of = |e: u32| match &index {
            Some(index) => index.object_of(offsets, e),
            None => offsets.partition_point(|&offset| offset <= e) - 1,
        };
        for b in 0..self.places.workers {
            let last = (all.used[b] / 2).wrapping_sub(1);
            for (i, pair) in self.stretch(b)[..all.used[b]].chunks_exact(2).enumerate() {
                let (from, to) = (pair[0], pair[1]);
                if to > m {
                    return None;
                }
                let v = object_of(from);
                if to > offsets[v + 1] || self.marks()[v] == 0 {
                    return None;
                }
                if from == offsets[v] && to == offsets[v + 1] {
                    if !insert(&mut all.whole, v) {
                        return None;
                    }
                } else if i == 0 || i == last {
                    all.parts.runs[all.parts.len] = (from, to, v as u32);
                    all.parts.len += 1;
                } else {
                    return None;
                }
            }
        }
        let parts = &mut all.parts.runs[..all.parts.len];
        parts.sort_unstable();
        let apart = parts.windows(2).all(|two| two[0].1 <= two[1].0);
        let outside = parts.iter().all(|&(_, _, v)| !contains(&all.whole, v as usize));
        (apart && outside).then_some(all)
    }

    /// Whether the references from one to another, of marked objects, that nobody carries have marked targets.
    #[inline(always)]
    fn part_marked(&self, near: &mut Near<'_>, from: u32, to: u32) -> bool {
        const CHUNK: usize = 128;
        let marks = self.marks();
        for (k, chunk) in self.call.targets[from as usize..to as usize].chunks(CHUNK).enumerate() {
            let all = chunk.iter().fold(true, |all, &target| all & (marks[target as usize] != 0));
            if !all && !self.closely(near, from + (k * CHUNK) as u32, chunk) {
                return false;
            }
        }
        true
    }

    /// Whether each of these references with an unmarked target is carried.
    fn closely(&self, near: &mut Near<'_>, first: u32, targets: &[u32]) -> bool {
        let offsets = self.call.offsets;
        let marks = self.marks();
        let parts = &near.carried.parts.runs[..near.carried.parts.len];
        for (e, &target) in (first..).zip(targets) {
            if marks[target as usize] != 0 || near.known.contains(&e) {
                continue;
            }
            if let Some(part) = parts.iter().find(|part| (part.0..part.1).contains(&e)) {
                near.known = part.0..part.1;
                continue;
            }
            while offsets[near.object + 1] <= e {
                near.object += 1;
            }
            if !contains(&near.carried.whole, near.object) {
                return false;
            }
            near.known = offsets[near.object]..offsets[near.object + 1];
        }
        true
    }

    /// The same for the references of all marked objects: rows of these are looked at as one.
    fn all_marked(&self, carried: &Carried) -> bool {
        const BLOCK: usize = 32;
        let offsets = self.call.offsets;
        let near = &mut Near { carried, object: 0, known: 0..0 };
        let mut from = 0;
        for (k, block) in self.marks().chunks(BLOCK).enumerate() {
            let first = k * BLOCK;
            let (end, after) = (offsets[first], offsets[first + block.len()]);
            let none: u32 = block.iter().map(|&mark| u32::from(mark == 0)).sum();
            if none == 0 || end == after {
                continue;
            }
            if none as usize == block.len() {
                if from < end && !self.part_marked(near, from, end) {
                    return false;
                }
                from = after;
                continue;
            }
            for (i, &mark) in block.iter().enumerate() {
                if mark == 0 {
                    let end = offsets[first + i];
                    if from < end && !self.part_marked(near, from, end) {
                        return false;
                    }
                    from = offsets[first + i + 1];
                }
            }
        }
        let end = self.call.targets.len() as u32;
        from >= end || self.part_marked(near, from, end)
    }

    /// The workers' runs, if the words are sound.
    fn sound(&self) -> Option<Carried> {
        if !self.links_hold() {
            return None;
        }
        let (live, leaving) = self.count_marks()?;
        let distinct = self.count_starts()?;
        let Call { targets, workers, cutoff, .. } = self.call;
        let m = targets.len() as u64;
        let [saved_live, followed, handed, refused, moved, carrying] = std::array::from_fn(|k| self.count(k));
        let heads = || (0..self.places.workers).map(|b| self.head(b));
        let tallies = || (0..self.places.workers).map(|b| self.tally(b));
        let sum = |number: fn(&Tally) -> u64| tallies().map(|tally| u128::from(number(&tally))).sum::<u128>();
        let since: u64 = heads().map(|head| u64::from(head[2])).sum();
        let holds = live == saved_live
            && followed <= m
            && moved <= 7 * m + u64::from(workers)
            && u128::from(handed) * u128::from(cutoff) <= 3 * u128::from(m)
            && since <= followed
            && refused <= moved
            && sum(|tally| tally.followed) == followed.into()
            && sum(|tally| tally.handed) == handed.into()
            && sum(|tally| tally.won) + u128::from(distinct) == live.into()
            && tallies().all(|tally| tally.followed.checked_sub(tally.won).is_some_and(|left| tally.lost <= left));
        if !holds {
            return None;
        }
        let carried = self.carried()?;
        let ended = heads().any(|head| head[0] == ENDED);
        let adds_up = carried.carrying == carrying && followed + carried.references + leaving == m;
        (adds_up && !(ended && carried.references > 0) && self.all_marked(&carried)).then_some(carried)
    }

    /// Worker b, with the runs in its stretch of the work memory.
    fn worker(&self, b: usize, used: usize) -> Worker {
        let [status, cell, since, batch] = self.head(b);
        let Tally { followed, won, lost, handed } = self.tally(b);
        let base = b * self.places.stretch_words();
        let mut worker = Worker {
            status,
            cell,
            since: since + batch,
            base: base as u32,
            top: base as u32,
            won: won as u32,
            lost: lost as u32,
            handed: handed as u32,
            ..Worker::default()
        };
        if used > 0 {
            let runs = &self.stretch(b)[..used];
            let carried: u32 = runs.chunks_exact(2).map(|pair| pair[1] - pair[0]).sum();
            worker.aim(runs[used - 2], runs[used - 1], self.call.targets);
            worker.top += used as u32 - 2;
            worker.batch = batch;
            worker.carried = carried - batch;
        }
        worker.taken = followed as u32 + worker.carried + worker.batch;
        worker
    }
}

/// Takes a saved collection up, makes the turns of the schedule, and saves it again.
pub fn resume(
    call: Call<'_>,
    marks: &mut [u8],
    work: &mut [u32],
    tallies: &mut [u64],
    saved: &mut [u32],
) -> Result<Stopped, u8> {
    let places = Places::of(call);
    check::call(call, marks.len(), work.len(), tallies.len(), saved.len() == places.all())?;
    let words = Words { call, words: saved, places };
    let used = words.sound().ok_or(14)?.used;

    for (mark, &word) in marks.iter_mut().zip(words.marks()) {
        *mark = word as u8;
    }
    let stretch = places.stretch_words();
    let mut workers = Workers::default();
    for b in 0..places.workers {
        work[b * stretch..][..used[b]].copy_from_slice(&words.stretch(b)[..used[b]]);
        workers[b] = words.worker(b, used[b]);
    }
    let [live, _, _, refused, moved, carrying] = std::array::from_fn(|k| words.count(k));
    let won: u64 = workers.iter().map(|worker| u64::from(worker.won)).sum();
    let awake = workers[..places.workers].iter().filter(|worker| worker.status != ENDED).count();
    let [holder, colour, black] = [0, 1, 2].map(|k| words.words[Places::RING + k]);
    let mut machine = Machine {
        offsets: call.offsets,
        targets: call.targets,
        batch: call.batch,
        cutoff: call.cutoff,
        marks,
        work,
        workers,
        highest: call.workers as u8 - 1,
        ring: Ring { holder: holder as u8, token: colour == 1, black },
        counts: Counts { refused, carrying: carrying as u32, awake: awake as u32 },
    };
    let moved = moved + machine.turns(call.schedule);
    let mut begun = Begun { machine, stretch, distinct: live - won };
    let outcome = begun.answer(moved, tallies);
    save(&begun.machine, places, &used, saved);
    for (k, &count) in outcome.words()[1..].iter().enumerate() {
        put_number(&mut saved[Places::COUNTS + 2 * k..], count);
    }
    for (b, tally) in tallies.chunks_exact(Tally::WORDS).enumerate() {
        for (k, &number) in tally.iter().enumerate() {
            put_number(&mut saved[places.tally(b) + 2 * k..], number);
        }
    }
    Ok(Stopped { outcome, sound: low(call, outcome) })
}

/// Conditions 20 and 21, which turns may fail; they keep the others.
fn low(call: Call<'_>, outcome: Outcome) -> bool {
    let m = call.targets.len() as u64;
    outcome.moved <= 7 * m + u64::from(call.workers) && outcome.handed <= 3 * m / u64::from(call.cutoff)
}

/// All but the counts and the tallies. Behind the runs that were there, as many words as `used` says, are zeros.
fn save(machine: &Machine<'_>, places: Places, used: &[usize; 16], saved: &mut [u32]) {
    let Ring { holder, token, black } = machine.ring;
    saved[Places::RING..Places::WORKERS].copy_from_slice(&[holder.into(), token.into(), black]);
    for (word, &mark) in saved[places.marks()..].iter_mut().zip(machine.marks.iter()) {
        *word = mark.into();
    }
    for b in 0..places.workers {
        let worker = &machine.workers[b];
        let cell = if worker.status >= POLL { worker.cell } else { 0 };
        let batch = if worker.status > POLL { worker.batch } else { 0 };
        saved[places.worker(b)..][..4].copy_from_slice(&[worker.status, cell, worker.since - batch, batch]);
        let runs = (worker.top - worker.base) as usize + if worker.first < worker.end { 2 } else { 0 };
        let kept = runs.max(used[b]);
        let stretch = places.stretch_words();
        saved[places.stretch(b)..][..kept].copy_from_slice(&machine.work[b * stretch..][..kept]);
    }
}
