//! A collection that is stopped and taken up again, SPECIFICATION 8.

use crate::machine::{check, Call, Machine, Outcome, Run, Status, Tally, Token, Worker};
use crate::MOST_OBJECTS;

/// The first of the saved words.
pub const FORM: u32 = 2;

/// Where each part of the saved words begins.
#[derive(Clone, Copy, Debug, PartialEq, Eq)]
pub struct Places {
    pub objects: usize,
    pub workers: usize,
}

impl Places {
    /// Six counts of two words each, behind the form.
    pub const COUNTS: usize = 1;
    /// The holder of the token, its colour, and the black workers as bits.
    pub const RING: usize = 13;
    /// Status, cell, since and batch of each worker.
    pub const WORKERS: usize = 16;

    /// For a call.
    pub fn of(call: Call<'_>) -> Self {
        Places { objects: call.offsets.len().saturating_sub(1), workers: call.workers as usize }
    }

    pub fn worker(self, b: usize) -> usize {
        Self::WORKERS + 4 * b
    }

    /// Four numbers of two words each for each worker.
    pub fn tally(self, b: usize) -> usize {
        self.worker(self.workers) + 8 * b
    }

    pub fn marks(self) -> usize {
        self.tally(self.workers)
    }

    pub fn stretch_words(self) -> usize {
        2 * self.objects + 4
    }

    pub fn stretch(self, b: usize) -> usize {
        self.marks() + self.objects + b * self.stretch_words()
    }

    /// How many words there are.
    pub fn all(self) -> usize {
        self.stretch(self.workers)
    }
}

/// The exact number of words that a collection takes.
pub fn saved_words(objects: u32, workers: u32) -> Result<u64, u8> {
    if !(1..=16).contains(&workers) {
        return Err(8);
    }
    if !(1..=MOST_OBJECTS).contains(&(objects as usize)) {
        return Err(4);
    }
    Ok(Places { objects: objects as usize, workers: workers as usize }.all() as u64)
}

fn put_number(words: &mut [u32], at: usize, number: u64) {
    words[at] = number as u32;
    words[at + 1] = (number >> 32) as u32;
}

fn number(words: &[u32], at: usize) -> u64 {
    u64::from(words[at]) | u64::from(words[at + 1]) << 32
}

/// What the words say.
struct State {
    live: u64,
    followed: u64,
    handed: u64,
    refused: u64,
    moved: u64,
    carrying: u64,
    token: Token,
    workers: Vec<Worker>,
    marks: Vec<u32>,
}

/// Status, and whether a claim waits, by the code and the batch; none where there is no such worker.
fn status(code: u32, batch: u32) -> Option<(Status, bool)> {
    match (code, batch) {
        (0, 0) => Some((Status::Idle, false)),
        (1, 0) => Some((Status::Asking, false)),
        (2, 0) => Some((Status::Refused, false)),
        (3, 0) => Some((Status::Ended, false)),
        (4, 0) => Some((Status::Given, false)),
        (5, 0) => Some((Status::Busy, false)),
        (6, 1..) => Some((Status::Busy, false)),
        (7, 1..) => Some((Status::Busy, true)),
        _ => None,
    }
}

fn code(worker: &Worker) -> u32 {
    match worker.status {
        Status::Idle => 0,
        Status::Asking => 1,
        Status::Refused => 2,
        Status::Ended => 3,
        Status::Given => 4,
        Status::Busy if worker.batch == 0 => 5,
        Status::Busy if worker.claim => 7,
        Status::Busy => 6,
    }
}

/// The runs of a stretch, if zeros follow them.
fn runs(stretch: &[u32]) -> Option<Vec<Run>> {
    let runs: Vec<Run> =
        stretch.chunks_exact(2).take_while(|pair| pair[0] < pair[1]).map(|pair| (pair[0], pair[1])).collect();
    stretch[2 * runs.len()..].iter().all(|&word| word == 0).then_some(runs)
}

fn length((first, end): Run) -> u64 {
    u64::from(end - first)
}

/// Worker b, if its words are a worker's; an asker in its cell may be any number that a byte holds.
fn worker(words: &[u32], places: Places, b: usize) -> Option<Worker> {
    let at = places.worker(b);
    let (status, claim) = status(words[at], words[at + 3])?;
    let cell = match words[at + 1] {
        0 => None,
        asker if status == Status::Busy && asker <= 255 => Some(asker as u8 - 1),
        _ => return None,
    };
    let since = words[at + 2];
    if status == Status::Given && since != 0 {
        return None;
    }
    let stretch = places.stretch(b);
    let runs = runs(&words[stretch..stretch + places.stretch_words()])?;
    let carried = u32::try_from(runs.iter().map(|&run| length(run)).sum::<u64>()).unwrap_or(u32::MAX);
    let tally = Tally::from_words(std::array::from_fn(|k| number(words, places.tally(b) + 2 * k)));
    let black = words[Places::RING + 2] >> b & 1 == 1;
    Some(Worker { status, cell, since, batch: words[at + 3], claim, runs, carried, black, tally })
}

/// The state that the words hold, if they hold one.
fn state(words: &[u32], places: Places) -> Option<State> {
    let [holder, colour, black] = [0, 1, 2].map(|k| words[Places::RING + k]);
    if words[0] != FORM || colour > 1 || black >> places.workers != 0 {
        return None;
    }
    let token = Token { holder: holder as usize, black: colour == 1 };
    let [live, followed, handed, refused, moved, carrying] =
        std::array::from_fn(|k| number(words, Places::COUNTS + 2 * k));
    let workers = (0..places.workers).map(|b| worker(words, places, b)).collect::<Option<_>>()?;
    let marks = words[places.marks()..places.marks() + places.objects].to_vec();
    Some(State { live, followed, handed, refused, moved, carrying, token, workers, marks })
}

/// The object whose references hold the one of this number.
fn object_of(offsets: &[u32], e: u32) -> usize {
    offsets.partition_point(|&offset| offset <= e) - 1
}

/// How often each reference is carried.
fn carried_times(workers: &[Worker], m: usize) -> Vec<i64> {
    let mut times = vec![0; m + 1];
    for &(first, end) in workers.iter().flat_map(|one| &one.runs) {
        times[(first as usize).min(m)] += 1;
        times[(end as usize).min(m)] -= 1;
    }
    let mut sum = 0;
    for time in &mut times {
        sum += *time;
        *time = sum;
    }
    times.truncate(m);
    times
}

fn sum(all: impl Iterator<Item = u64>) -> u128 {
    all.map(u128::from).sum()
}

/// The conditions of SPECIFICATION 8.2 that do not hold of the words, by their numbers there; [0] if they hold no state.
/// There are as many words as there must be, and the call has no other fault.
pub fn unsound(call: Call<'_>, words: &[u32]) -> Vec<u8> {
    let Call { offsets, targets, starts, workers: w, batch: d, cutoff: k, .. } = call;
    let Some(s) = state(words, Places::of(call)) else { return vec![0] };
    let (m, w64) = (targets.len() as u32, u64::from(w));
    let marked = |v: usize| s.marks[v] != 0;
    let every = |test: &dyn Fn(&Worker) -> bool| s.workers.iter().all(test);
    let every_run = |test: &dyn Fn(Run) -> bool| every(&|one| one.runs.iter().all(|&run| test(run)));
    let within = |(first, end): Run| end <= m && end <= offsets[object_of(offsets, first) + 1];
    let whole = |run: Run| within(run) && length(run) == length(bounds(offsets, object_of(offsets, run.0)));
    let times = carried_times(&s.workers, targets.len());
    let carries = |one: &Worker| !one.runs.is_empty();
    let carried = sum(s.workers.iter().flat_map(|one| one.runs.iter().map(|&run| length(run))));
    let leaving = |v: usize| length(bounds(offsets, v));
    let unmarked = sum((0..s.marks.len()).filter(|&v| !marked(v)).map(leaving));
    let cells = |a: usize| s.workers.iter().filter(|one| one.cell.map(usize::from) == Some(a)).count();
    let asked = |statuses: &[Status], count: usize| {
        (0..s.workers.len()).filter(|&a| statuses.contains(&s.workers[a].status)).all(|a| cells(a) == count)
    };
    let mut distinct = starts.to_vec();
    distinct.sort_unstable();
    distinct.dedup();
    let tallied = |number: fn(&Tally) -> u64| sum(s.workers.iter().map(|one| number(&one.tally)));
    let followed = u128::from(s.followed);
    let below = |b: usize| b <= s.token.holder;
    let some_black = s.token.black || (0..s.workers.len()).any(|b| below(b) && s.workers[b].black);
    let some_ended = s.workers.iter().any(|one| one.status == Status::Ended);

    let conditions = [
        (1, s.marks.iter().all(|&mark| mark <= w)),
        (2, starts.iter().all(|&start| marked(start as usize))),
        (3, s.live == s.marks.iter().filter(|&&mark| mark != 0).count() as u64),
        (4, s.carrying == s.workers.iter().filter(|one| carries(one)).count() as u64),
        (6, every_run(&within)),
        (7, every_run(&|run| !within(run) || marked(object_of(offsets, run.0)))),
        (8, every(&|one| one.runs.iter().skip(1).rev().skip(1).all(|&run| whole(run)))),
        (9, times.iter().all(|&time| time <= 1)),
        (10, followed + carried + unmarked == u128::from(m)),
        (
            11,
            (0..m).all(|e| {
                !marked(object_of(offsets, e)) || times[e as usize] > 0 || marked(targets[e as usize] as usize)
            }),
        ),
        (12, every(&|one| carries(one) == matches!(one.status, Status::Busy | Status::Given))),
        (13, asked(&[Status::Asking], 1)),
        (14, asked(&[Status::Refused, Status::Given], 0)),
        (
            15,
            asked(&[Status::Idle, Status::Busy, Status::Ended], 0)
                && every(&|one| one.cell.is_none_or(|a| u32::from(a) < w)),
        ),
        (16, every(&|one| one.batch <= d)),
        (17, every(&|one| one.batch <= one.carried)),
        (19, carried == 0 || every(&|one| one.status != Status::Ended)),
        (20, s.moved <= 7 * u64::from(m) + w64),
        (21, u128::from(s.handed) * u128::from(k) <= 3 * u128::from(m)),
        (22, sum(s.workers.iter().map(|one| u64::from(one.since))) <= followed),
        (23, s.refused <= s.moved),
        (24, tallied(|tally| tally.followed) == followed),
        (24, tallied(|tally| tally.handed) == u128::from(s.handed)),
        (24, tallied(|tally| tally.won) + distinct.len() as u128 == u128::from(s.live)),
        (25, every(&|one| u128::from(one.tally.won) + u128::from(one.tally.lost) <= u128::from(one.tally.followed))),
        (26, s.token.holder < s.workers.len()),
        (27, some_black || (0..s.workers.len()).all(|b| below(b) || !carries(&s.workers[b]))),
        (28, !some_ended || (s.workers[0].status == Status::Ended && s.token.holder == 0)),
    ];
    conditions.into_iter().filter(|&(_, holds)| !holds).map(|(number, _)| number).collect()
}

fn bounds(offsets: &[u32], v: usize) -> Run {
    (offsets[v], offsets[v + 1])
}

/// Writes the state that was reached.
fn save(machine: &Machine<'_>, saved: &mut [u32]) {
    let places = Places { objects: machine.marks.len(), workers: machine.workers.len() };
    let outcome = machine.outcome();
    saved.fill(0);
    saved[0] = FORM;
    for (k, &count) in outcome.words()[1..].iter().enumerate() {
        put_number(saved, Places::COUNTS + 2 * k, count);
    }
    let black = (0..machine.workers.len()).filter(|&b| machine.workers[b].black).map(|b| 1 << b).sum();
    saved[Places::RING..Places::WORKERS].copy_from_slice(&[
        machine.token.holder as u32,
        u32::from(machine.token.black),
        black,
    ]);
    for (b, one) in machine.workers.iter().enumerate() {
        let cell = one.cell.map_or(0, |asker| u32::from(asker) + 1);
        saved[places.worker(b)..places.worker(b) + 4].copy_from_slice(&[code(one), cell, one.since, one.batch]);
        for (k, &number) in one.tally.words().iter().enumerate() {
            put_number(saved, places.tally(b) + 2 * k, number);
        }
        for (i, &(first, end)) in one.runs.iter().enumerate() {
            saved[places.stretch(b) + 2 * i] = first;
            saved[places.stretch(b) + 2 * i + 1] = end;
        }
    }
    for (word, &mark) in saved[places.marks()..].iter_mut().zip(machine.marks.iter()) {
        *word = u32::from(mark);
    }
}

/// What a call that saves answers: what the turns did, and whether the words that it saved are sound.
#[derive(Clone, Copy, Debug, PartialEq, Eq)]
pub struct Stopped {
    pub outcome: Outcome,
    pub sound: bool,
}

impl Stopped {
    /// How many result words the C function has.
    pub const WORDS: usize = Outcome::WORDS + 1;

    /// The result words of the C function.
    pub fn words(self) -> [u64; Self::WORDS] {
        let outcome = self.outcome.words();
        std::array::from_fn(|k| outcome.get(k).copied().unwrap_or(u64::from(self.sound)))
    }
}

/// The marker's call that saves what it leaves.
pub fn begin(
    call: Call<'_>,
    marks: &mut [u8],
    work: &mut [u32],
    tallies: &mut [u64],
    saved: &mut [u32],
) -> Result<Stopped, u8> {
    check(call, marks.len(), work.len(), tallies.len(), saved.len() == Places::of(call).all())?;
    let mut machine = Machine::start(call, marks);
    machine.run(call.schedule);
    save(&machine, saved);
    let outcome = machine.leave(work, tallies);
    Ok(Stopped { outcome, sound: unsound(call, saved).is_empty() })
}

/// The call that takes a saved collection up.
pub fn resume(
    call: Call<'_>,
    marks: &mut [u8],
    work: &mut [u32],
    tallies: &mut [u64],
    saved: &mut [u32],
) -> Result<Stopped, u8> {
    let places = Places::of(call);
    check(call, marks.len(), work.len(), tallies.len(), saved.len() == places.all())?;
    if !unsound(call, saved).is_empty() {
        return Err(14);
    }
    let State { followed, handed, refused, moved, token, workers, marks: saved_marks, .. } =
        state(saved, places).expect("a sound state");
    for (mark, word) in marks.iter_mut().zip(saved_marks) {
        *mark = word as u8;
    }
    let Call { offsets, targets, batch, cutoff, schedule, .. } = call;
    let mut machine =
        Machine { offsets, targets, batch, cutoff, marks, workers, token, followed, handed, refused, moved };
    machine.run(schedule);
    save(&machine, saved);
    let outcome = machine.leave(work, tallies);
    Ok(Stopped { outcome, sound: unsound(call, saved).is_empty() })
}

#[cfg(test)]
mod tests {
    use super::*;

    const OFFSETS: [u32; 7] = [0, 2, 3, 4, 5, 5, 6];
    const TARGETS: [u32; 6] = [1, 2, 3, 3, 0, 4];
    const A: [u8; 20] = [0, 1, 0, 0, 0, 1, 1, 0, 1, 0, 0, 0, 1, 0, 1, 1, 0, 1, 0, 1];

    fn schedule(turns: &[u8]) -> Vec<u8> {
        turns.iter().flat_map(|&b| [b, 0]).collect()
    }

    fn call(schedule: &[u8]) -> Call<'_> {
        Call { offsets: &OFFSETS, targets: &TARGETS, starts: &[0], workers: 2, batch: 1, cutoff: 1, schedule }
    }

    /// Store S and case A's settings: these turns in these parts.
    fn run(parts: &[&[u8]]) -> (Stopped, Vec<u8>, Vec<u32>, Vec<u64>, Vec<u32>) {
        let (mut marks, mut work, mut tallies, mut saved) = (vec![7; 6], vec![9; 32], vec![5; 8], vec![3; 78]);
        let mut outcome = None;
        for turns in parts {
            let schedule = schedule(turns);
            let call = call(&schedule);
            let made = match outcome {
                None => begin(call, &mut marks, &mut work, &mut tallies, &mut saved),
                Some(_) => resume(call, &mut marks, &mut work, &mut tallies, &mut saved),
            };
            outcome = Some(made.unwrap());
            assert_eq!(unsound(call, &saved), []);
            assert!(outcome.unwrap().sound);
        }
        (outcome.unwrap(), marks, work, tallies, saved)
    }

    #[test]
    fn lengths() {
        assert_eq!(saved_words(6, 2), Ok(78));
        assert_eq!(saved_words(65_536, 16), Ok(16 + 12 * 16 + 65_536 + 16 * 131_076));
        assert_eq!(
            [saved_words(0, 0), saved_words(1, 17), saved_words(0, 1), saved_words(65_537, 16)],
            [Err(8), Err(8), Err(4), Err(4)]
        );
    }

    #[test]
    fn parts_are_one_call() {
        let whole = run(&[&A]);
        for cut in 0..=A.len() {
            assert_eq!(run(&[&A[..cut], &A[cut..]]), whole);
            assert_eq!(run(&[&[], &A[..cut], &[], &A[cut..], &[]]), whole);
        }
        let every: Vec<&[u8]> = A.chunks(1).collect();
        assert_eq!(run(&every), whole);
    }

    #[test]
    fn words_of_case_b() {
        let words = run(&[&A[..5]]).4;
        let (head, rest) = words.split_at(16);
        assert_eq!(head, [2, 2, 0, 1, 0, 1, 0, 0, 0, 5, 0, 2, 0, 0, 0, 1]);
        let (workers, rest) = rest.split_at(8);
        assert_eq!(workers, [6, 0, 0, 1, 4, 0, 0, 0]);
        let (tallies, rest) = rest.split_at(16);
        assert_eq!(tallies, [1, 0, 1, 0, 0, 0, 1, 0, 0, 0, 0, 0, 0, 0, 0, 0]);
        let (marks, stretches) = rest.split_at(6);
        assert_eq!(marks, [1, 1, 0, 0, 0, 0]);
        assert_eq!(stretches[..4], [1, 2, 0, 0]);
        assert_eq!(stretches[16..20], [2, 3, 0, 0]);
    }

    #[test]
    fn zeros_and_other_forms_hold_none() {
        let call = call(&[]);
        assert_eq!(unsound(call, &[0; 78]), [0]);
        for form in [0, 1, u32::MAX] {
            let mut words = run(&[&A[..5]]).4;
            words[0] = form;
            assert_eq!(unsound(call, &words), [0]);
        }
    }
}
