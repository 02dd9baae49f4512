//! The reader and the marker in safe Rust, as fast as we can write them: what the proved calls are measured
//! against; `compare` holds them to the plain reference. The marker does the turns of the specification, one for each
//! entry, with the same checks, and leaves the same marks, work words and tallies.
//!
//! What makes it fast:
//! - A worker's block has the bounds of the run being followed and the target of its next reference, so a look
//!   reads one mark and following touches no work memory while that run lasts.
//! - Poll, look and claim are codes of the status, so a turn branches once on what to do.
//! - `since` and `carried` are brought forward by a whole batch at the poll that begins it.
//! - A hand-over walks over runs only where its cut is in the middle, and moves no word where it is in the back.
//! - Nothing is counted at a turn that can be worked out at the end.
//! - The words behind the runs are cleared once, at the end, and there are no turns after the last worker has ended.

mod cards;
mod check;
mod floor;
mod hops;
mod market;
mod read;
mod saved;
mod scan;
mod sweep;
mod updates;

pub use cards::{deal, deal_seed};
pub use floor::depth_first;
pub use hops::hops;
pub use market::{export, import};
pub use read::read;
pub use saved::resume;
pub use scan::{scan, scan_length};
pub use sweep::sweep;
pub use updates::{add, remove};

use reference::{Call, Outcome, Tally};
use std::hint::black_box;

/// How many words below the top of the work memory the run stands whose references are touched.
const AHEAD: usize = 8;

/// What a worker is, and what its next turn does if it is busy, by the codes of SPECIFICATION 8.1. The busy ones are the last three.
const IDLE: u32 = 0;
const ASKING: u32 = 1;
const DENIED: u32 = 2;
const ENDED: u32 = 3;
const GIVEN: u32 = 4;
const POLL: u32 = 5;
const LOOK: u32 = 6;
const CLAIM: u32 = 7;

/// One worker. Its run being followed is `first..end`; the others stand in its stretch of the work memory, `base..top`,
/// the next one on top.
#[derive(Clone, Copy, Default)]
#[repr(align(64))]
struct Worker {
    status: u32,
    /// The asker's number and 1, or 0.
    cell: u32,
    /// References that it may still follow before its next poll.
    batch: u32,
    first: u32,
    end: u32,
    /// The target of reference `first`.
    target: u32,
    /// References carried beyond the batch.
    carried: u32,
    /// As it will be when the batch is done.
    since: u32,
    top: u32,
    base: u32,
    /// References that it was given or opened itself, less those that it gave away: those followed and those carried.
    taken: u32,
    won: u32,
    lost: u32,
    handed: u32,
}

/// W workers, the first of an array of the most: an index below 16 needs no check.
type Workers = [Worker; 16];

/// What a turn did.
#[derive(PartialEq)]
enum Turned {
    /// No mark and no worker changed; the token may have been passed.
    Nothing,
    Something,
    /// The last worker has ended.
    Last,
}

/// What is counted as the turns go.
struct Counts {
    refused: u64,
    /// Workers that carry references.
    carrying: u32,
    /// Workers that have not ended.
    awake: u32,
}

/// The token ring: who holds the token, whether it is black, and the black workers as bits.
struct Ring {
    holder: u8,
    token: bool,
    black: u32,
}

struct Machine<'a> {
    offsets: &'a [u32],
    targets: &'a [u32],
    batch: u32,
    cutoff: u32,
    marks: &'a mut [u8],
    work: &'a mut [u32],
    workers: Workers,
    highest: u8,
    ring: Ring,
    counts: Counts,
}

impl Worker {
    /// A new batch.
    #[inline(always)]
    fn begin(&mut self, most: u32) {
        let batch = most.min(self.carried);
        self.batch = batch;
        self.carried -= batch;
        self.since += batch;
        self.status = LOOK;
    }

    /// Takes up this run.
    #[inline(always)]
    fn aim(&mut self, first: u32, end: u32, targets: &[u32]) {
        self.first = first;
        self.end = end;
        self.target = targets[first as usize];
    }
}

impl Machine<'_> {
    /// One turn of worker b, naming v.
    #[inline(always)]
    fn turn(&mut self, b: u8, v: u8) -> Turned {
        let worker = &mut self.workers[usize::from(b & 15)];
        match worker.status {
            LOOK => {
                if self.marks[worker.target as usize] == 0 {
                    worker.status = CLAIM;
                } else {
                    self.follow(b);
                }
            }
            CLAIM => {
                let target = worker.target as usize;
                if self.marks[target] == 0 {
                    self.marks[target] = b + 1;
                    worker.won += 1;
                    self.open(b, target);
                } else {
                    worker.lost += 1;
                    self.follow(b);
                }
            }
            POLL if worker.cell == 0 => worker.begin(self.batch),
            POLL => self.answer(b),
            IDLE => return self.idle(b, v),
            GIVEN => worker.status = POLL,
            DENIED => worker.status = IDLE,
            _ => return Turned::Nothing,
        }
        Turned::Something
    }

    /// The reference is followed and nothing is opened.
    #[inline(always)]
    fn follow(&mut self, b: u8) {
        let worker = &mut self.workers[usize::from(b & 15)];
        let next = worker.first + 1;
        if next < worker.end {
            worker.first = next;
        } else if worker.base < worker.top {
            worker.top -= 2;
            let top = worker.top as usize;
            worker.first = self.work[top];
            worker.end = self.work[top + 1];
        } else {
            return self.stop(b);
        }
        worker.target = self.targets[worker.first as usize];
        worker.batch -= 1;
        worker.status = if worker.batch == 0 { POLL } else { LOOK };
    }

    /// The reference is followed and its target's run is carried from now on.
    #[inline(always)]
    fn open(&mut self, b: u8, target: usize) {
        let (from, to) = (self.offsets[target], self.offsets[target + 1]);
        if from == to {
            return self.follow(b);
        }
        let worker = &mut self.workers[usize::from(b & 15)];
        worker.taken += to - from;
        worker.carried += to - from;
        let next = worker.first + 1;
        if next < worker.end {
            let top = worker.top as usize;
            self.work[top] = from;
            self.work[top + 1] = to;
            worker.top += 2;
            worker.first = next;
        } else {
            worker.first = from;
            worker.end = to;
        }
        worker.target = self.targets[worker.first as usize];
        worker.batch -= 1;
        worker.status = if worker.batch == 0 { POLL } else { LOOK };
    }

    /// The worker has followed its last reference: it is idle, and its asker is refused. Its batch ends with it.
    fn stop(&mut self, b: u8) {
        let worker = &mut self.workers[usize::from(b & 15)];
        worker.status = IDLE;
        worker.batch = 0;
        worker.first = worker.end;
        self.counts.carrying -= 1;
        self.refuse(b);
    }

    /// The asker in the cell, if there is one, is answered no.
    fn refuse(&mut self, b: u8) {
        let cell = std::mem::take(&mut self.workers[usize::from(b & 15)].cell);
        if cell != 0 {
            self.workers[(cell - 1) as usize & 15].status = DENIED;
            self.counts.refused += 1;
        }
    }

    #[inline(always)]
    fn idle(&mut self, b: u8, v: u8) -> Turned {
        if self.workers[0].status == ENDED {
            return self.end(b);
        }
        if self.ring.holder == b {
            return self.pass(b);
        }
        match self.workers.get_mut(usize::from(v)) {
            Some(other) if other.status >= POLL && other.cell == 0 => {
                other.cell = u32::from(b) + 1;
                self.workers[usize::from(b & 15)].status = ASKING;
                Turned::Something
            }
            _ => Turned::Nothing,
        }
    }

    fn end(&mut self, b: u8) -> Turned {
        self.workers[usize::from(b & 15)].status = ENDED;
        self.counts.awake -= 1;
        if self.counts.awake == 0 {
            Turned::Last
        } else {
            Turned::Something
        }
    }

    /// An idle worker holds the token. Worker 0 ends the collection if both are white, and else sends a white one.
    fn pass(&mut self, b: u8) -> Turned {
        let own = self.ring.black >> b & 1 == 1;
        if b == 0 && !self.ring.token && !own {
            return self.end(b);
        }
        self.ring.token = b != 0 && (self.ring.token || own);
        self.ring.black &= !(1 << b);
        self.ring.holder = if b == 0 { self.highest } else { b - 1 };
        Turned::Nothing
    }

    /// A poll with an asker in the cell.
    fn answer(&mut self, b: u8) {
        let Worker { carried, since, .. } = self.workers[usize::from(b & 15)];
        if carried > self.cutoff || (since >= self.cutoff && carried >= 2) {
            self.share(b);
        } else {
            self.refuse(b);
        }
        self.workers[usize::from(b & 15)].begin(self.batch);
    }

    /// The first half of the references stays, the asker gets the rest.
    fn share(&mut self, b: u8) {
        let mut giver = self.workers[usize::from(b & 15)];
        let a = (giver.cell - 1) as usize & 15;
        let mut asker = self.workers[a];
        let half = giver.carried.div_ceil(2);
        asker.carried = giver.carried - half;
        asker.since = 0;
        asker.status = GIVEN;
        asker.taken += asker.carried;
        giver.taken -= asker.carried;
        giver.handed += 1;
        giver.carried = half;
        giver.since = 0;
        giver.cell = 0;

        // The front, then the back, then the middle: only there are runs walked over.
        let base = giver.base as usize;
        if half <= giver.end - giver.first {
            self.cut_front(&mut giver, &mut asker);
        } else if asker.carried < self.work[base + 1] - self.work[base] {
            self.cut_back(&giver, &mut asker);
        } else {
            self.cut_middle(&mut giver, &mut asker);
        }
        self.workers[usize::from(b & 15)] = giver;
        self.workers[a] = asker;
        self.ring.black |= 1 << b;
        self.counts.carrying += 1;
    }

    /// The run being followed is cut, or ends where the kept half does; the asker gets all the others.
    fn cut_front(&mut self, giver: &mut Worker, asker: &mut Worker) {
        let (base, mut top) = (giver.base as usize, giver.top as usize);
        let cut = giver.first + giver.carried;
        if cut < giver.end {
            asker.aim(cut, giver.end, self.targets);
            giver.end = cut;
        } else {
            top -= 2;
            asker.aim(self.work[top], self.work[top + 1], self.targets);
        }
        self.work.copy_within(base..top, asker.base as usize);
        asker.top = asker.base + (top - base) as u32;
        giver.top = giver.base;
    }

    /// The lowest pair is cut: the asker gets the end of its run, and no word moves.
    fn cut_back(&mut self, giver: &Worker, asker: &mut Worker) {
        let end = &mut self.work[giver.base as usize + 1];
        let cut = *end - asker.carried;
        asker.aim(cut, *end, self.targets);
        asker.top = asker.base;
        *end = cut;
    }

    /// A pair between them is cut, or the half ends above it: what is above stays, what is below goes.
    fn cut_middle(&mut self, giver: &mut Worker, asker: &mut Worker) {
        let (base, mut below) = (giver.base as usize, giver.top as usize - 2);
        let mut left = giver.carried - (giver.end - giver.first);
        let (mut first, mut end) = (self.work[below], self.work[below + 1]);
        while left >= end - first {
            left -= end - first;
            below -= 2;
            (first, end) = (self.work[below], self.work[below + 1]);
        }
        asker.aim(first + left, end, self.targets);
        self.work.copy_within(base..below, asker.base as usize);
        asker.top = asker.base + (below - base) as u32;
        // What is left of the cut run is kept, below the runs above it.
        let kept = if left > 0 {
            self.work[below + 1] = asker.first;
            below
        } else {
            below + 2
        };
        self.work.copy_within(kept..giver.top as usize, base);
        giver.top -= (kept - base) as u32;
    }

    /// All turns, or those up to the end of the last worker; how many changed something.
    fn turns(&mut self, schedule: &[u8]) -> u64 {
        let mut moved = 0;
        for entry in schedule.chunks_exact(2) {
            match self.turn(entry[0], entry[1]) {
                Turned::Nothing => {}
                Turned::Something => moved += 1,
                Turned::Last => return moved + 1,
            }
        }
        moved
    }

    /// Rounds of all workers, each naming the next, until the last one has ended; how many turns changed something.
    fn rounds(&mut self) -> u64 {
        let mut moved = 0;
        loop {
            for b in 0..=self.highest {
                let next = if b < self.highest { b + 1 } else { 0 };
                match self.turn(b, next) {
                    Turned::Nothing => {}
                    Turned::Something => moved += 1,
                    Turned::Last => return moved + 1,
                }
            }
        }
    }

    /// The same of one worker alone: a run is followed as far as the batch goes.
    fn rows(&mut self) -> u64 {
        let Machine { offsets, targets, marks, work, .. } = self;
        let worker = &mut self.workers[0];
        let (mut first, mut end, mut top) = (worker.first, worker.end, worker.top as usize);
        let (mut carried, mut batch, mut polls, mut followed, mut won) = (worker.carried, 0, 0u32, 0, 0);
        let mut touched = 0;
        while first < end {
            // References that will be followed soon are touched, so that they are near then.
            if top >= AHEAD {
                touched |= targets[work[top - AHEAD] as usize];
            }
            if batch == 0 {
                batch = self.batch.min(carried);
                carried -= batch;
                polls += 1;
            }
            let until = first + batch.min(end - first);
            for &target in &targets[first as usize..until as usize] {
                let target = target as usize;
                if marks[target] == 0 {
                    marks[target] = 1;
                    won += 1;
                    let ends = &offsets[target..target + 2];
                    if ends[0] < ends[1] {
                        work[top..top + 2].copy_from_slice(ends);
                        top += 2;
                        carried += ends[1] - ends[0];
                    }
                }
            }
            followed += until - first;
            batch -= until - first;
            first = until;
            if first == end && top > 0 {
                top -= 2;
                (first, end) = (work[top], work[top + 1]);
            }
        }
        black_box(touched);
        *worker = Worker { status: ENDED, taken: followed, won, ..Worker::default() };
        self.counts = Counts { refused: 0, carrying: 0, awake: 0 };
        u64::from(followed) + u64::from(won) + u64::from(polls) + 1
    }

    /// Writes the run being followed on top of each stretch, clears what stands behind, and writes the tallies; their
    /// sum.
    fn settle(&mut self, stretch: usize, tallies: &mut [u64]) -> Tally {
        let mut sum = Tally::default();
        let stretches = self.work.chunks_exact_mut(stretch);
        for ((worker, words), tally) in self.workers.iter().zip(stretches).zip(tallies.chunks_exact_mut(Tally::WORDS)) {
            let mut used = (worker.top - worker.base) as usize;
            if worker.first < worker.end {
                words[used] = worker.first;
                words[used + 1] = worker.end;
                used += 2;
            }
            words[used..].fill(0);
            let followed = worker.taken - worker.carried - worker.batch;
            let one = Tally::from_words([followed, worker.won, worker.lost, worker.handed].map(u64::from));
            tally.copy_from_slice(&one.words());
            sum.followed += one.followed;
            sum.won += one.won;
            sum.handed += one.handed;
        }
        sum
    }
}

/// A collection before its first turn.
struct Begun<'a> {
    machine: Machine<'a>,
    stretch: usize,
    /// How many objects the starts are.
    distinct: u64,
}

impl<'a> Begun<'a> {
    fn start(call: Call<'a>, marks: &'a mut [u8], work: &'a mut [u32]) -> Self {
        let Call { offsets, targets, starts, workers, batch, cutoff, .. } = call;
        let stretch = 2 * (offsets.len() - 1) + 4;
        let mut blocks = Workers::default();
        for (b, worker) in blocks.iter_mut().enumerate() {
            worker.base = (b * stretch) as u32;
            worker.top = worker.base;
        }
        marks.fill(0);
        let mut at = stretch;
        let mut distinct = 0;
        for v in starts.iter().map(|&start| start as usize) {
            if std::mem::replace(&mut marks[v], 1) != 0 {
                continue;
            }
            distinct += 1;
            let (from, to) = (offsets[v], offsets[v + 1]);
            if from < to {
                blocks[0].carried += to - from;
                at -= 2;
                work[at] = from;
                work[at + 1] = to;
            }
        }
        if at < stretch {
            blocks[0].aim(work[stretch - 2], work[stretch - 1], targets);
            blocks[0].status = POLL;
            blocks[0].top += (stretch - 2 - at) as u32;
            work.copy_within(at..stretch - 2, 0);
        }
        blocks[0].taken = blocks[0].carried;
        let counts = Counts { refused: 0, carrying: u32::from(at < stretch), awake: workers };
        let (highest, ring) = (workers as u8 - 1, Ring { holder: 0, token: false, black: 0 });
        let machine = Machine { offsets, targets, batch, cutoff, marks, work, workers: blocks, highest, ring, counts };
        Begun { machine, stretch, distinct }
    }

    /// What it comes to after so many turns that changed something.
    fn answer(&mut self, moved: u64, tallies: &mut [u64]) -> Outcome {
        let Tally { followed, won, handed, .. } = self.machine.settle(self.stretch, tallies);
        let Counts { refused, carrying, awake } = self.machine.counts;
        let (live, carrying) = (self.distinct + won, u64::from(carrying));
        Outcome { finished: awake == 0, live, followed, handed, refused, moved, carrying }
    }
}

/// The marker's call: the counts, or the number of the refusal.
pub fn mark(call: Call<'_>, marks: &mut [u8], work: &mut [u32], tallies: &mut [u64]) -> Result<Outcome, u8> {
    check::call(call, marks.len(), work.len(), tallies.len(), true)?;
    let mut begun = Begun::start(call, marks, work);
    let moved = begun.machine.turns(call.schedule);
    Ok(begun.answer(moved, tallies))
}

/// A whole collection: rounds of several workers, or one worker's turns in rows.
pub fn mark_all(call: Call<'_>, marks: &mut [u8], work: &mut [u32], tallies: &mut [u64]) -> Result<Outcome, u8> {
    let call = Call { schedule: &[], ..call };
    check::call(call, marks.len(), work.len(), tallies.len(), true)?;
    let mut begun = Begun::start(call, marks, work);
    let moved = if call.workers == 1 { begun.machine.rows() } else { begun.machine.rounds() };
    Ok(begun.answer(moved, tallies))
}
