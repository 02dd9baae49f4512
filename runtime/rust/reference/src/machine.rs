//! The machine, SPECIFICATION 4: workers that a schedule steps.

use crate::{MOST_OBJECTS, MOST_REFERENCES, STARTS};

/// What the marker is given, beside the buffers that it writes.
#[derive(Clone, Copy)]
pub struct Call<'a> {
    pub offsets: &'a [u32],
    pub targets: &'a [u32],
    /// The index, then the leases.
    pub starts: &'a [u32],
    pub workers: u32,
    pub batch: u32,
    pub cutoff: u32,
    pub schedule: &'a [u8],
}

#[derive(Clone, Copy, Debug, PartialEq, Eq)]
pub struct Outcome {
    pub finished: bool,
    pub live: u64,
    pub followed: u64,
    pub handed: u64,
    pub refused: u64,
    pub moved: u64,
    pub carrying: u64,
}

impl Outcome {
    /// How many result words the C function has.
    pub const WORDS: usize = 7;

    /// The result words of the C function.
    pub fn words(self) -> [u64; Self::WORDS] {
        let Outcome { finished, live, followed, handed, refused, moved, carrying } = self;
        [u64::from(finished), live, followed, handed, refused, moved, carrying]
    }
}

/// What one worker did, over its own turns.
#[derive(Clone, Copy, Debug, Default, PartialEq, Eq)]
pub struct Tally {
    pub followed: u64,
    pub won: u64,
    pub lost: u64,
    pub handed: u64,
}

impl Tally {
    /// How many words of the lent tallies it has.
    pub const WORDS: usize = 4;

    pub fn from_words([followed, won, lost, handed]: [u64; Self::WORDS]) -> Self {
        Tally { followed, won, lost, handed }
    }

    pub fn words(self) -> [u64; Self::WORDS] {
        let Tally { followed, won, lost, handed } = self;
        [followed, won, lost, handed]
    }
}

/// The tallies of these words, by worker.
pub fn tallies(words: &[u64]) -> Vec<Tally> {
    let four = |words: &[u64]| Tally::from_words(words.try_into().expect("four words"));
    words.chunks_exact(Tally::WORDS).map(four).collect()
}

/// References first..end, not yet followed.
pub(crate) type Run = (u32, u32);

#[derive(Clone, Copy, Debug, PartialEq, Eq)]
pub(crate) enum Status {
    Idle,
    /// Asked another worker, no reply yet.
    Asking,
    Refused,
    /// Has a hand-over that it has not taken up; its runs are already its own.
    Given,
    Busy,
    Ended,
}

#[derive(Debug, PartialEq, Eq)]
pub(crate) struct Worker {
    pub status: Status,
    pub cell: Option<u8>,
    /// An idle worker's is what it was when it last carried something.
    pub since: u32,
    pub batch: u32,
    pub claim: bool,
    /// In reverse: the last one is followed first.
    pub runs: Vec<Run>,
    pub carried: u32,
    /// It has handed over since it last passed the token.
    pub black: bool,
    pub tally: Tally,
}

impl Worker {
    /// A worker that carries nothing.
    fn idle() -> Self {
        Worker {
            status: Status::Idle,
            cell: None,
            since: 0,
            batch: 0,
            claim: false,
            runs: Vec::new(),
            carried: 0,
            black: false,
            tally: Tally::default(),
        }
    }
}

/// The token of the ring.
#[derive(Clone, Copy, Debug, PartialEq, Eq)]
pub(crate) struct Token {
    pub holder: usize,
    pub black: bool,
}

/// What a turn did.
#[derive(PartialEq, Eq)]
enum Turned {
    Nothing,
    /// It passed the token, and changed nothing else.
    Passed,
    Moved,
}

pub(crate) struct Machine<'a> {
    pub offsets: &'a [u32],
    pub targets: &'a [u32],
    pub batch: u32,
    pub cutoff: u32,
    pub marks: &'a mut [u8],
    pub workers: Vec<Worker>,
    pub token: Token,
    pub followed: u64,
    pub handed: u64,
    pub refused: u64,
    pub moved: u64,
}

impl<'a> Machine<'a> {
    /// The state before the first turn.
    pub fn start(call: Call<'a>, marks: &'a mut [u8]) -> Self {
        let Call { offsets, targets, starts, workers, batch, cutoff, .. } = call;
        marks.fill(0);
        let mut all: Vec<Worker> = (0..workers).map(|_| Worker::idle()).collect();
        let first = &mut all[0];
        for v in starts.iter().map(|&start| start as usize) {
            let (from, to) = (offsets[v], offsets[v + 1]);
            if marks[v] == 0 && from < to {
                first.status = Status::Busy;
                first.runs.insert(0, (from, to));
                first.carried += to - from;
            }
            marks[v] = 1;
        }
        let token = Token { holder: 0, black: false };
        Machine {
            offsets,
            targets,
            batch,
            cutoff,
            marks,
            workers: all,
            token,
            followed: 0,
            handed: 0,
            refused: 0,
            moved: 0,
        }
    }

    /// The turns of a schedule.
    pub fn run(&mut self, schedule: &[u8]) {
        for entry in schedule.chunks_exact(2) {
            if self.turn(entry[0] as usize, entry[1] as usize) == Turned::Moved {
                self.moved += 1;
            }
        }
    }

    /// Every worker has ended.
    fn is_over(&self) -> bool {
        self.workers.iter().all(|one| one.status == Status::Ended)
    }

    /// Writes out the stretches and the tallies; what is answered.
    pub fn leave(&self, work: &mut [u32], tallies: &mut [u64]) -> Outcome {
        let stretch = 2 * self.marks.len() + 4;
        work.fill(0);
        for (b, one) in self.workers.iter().enumerate() {
            for (i, &(first, end)) in one.runs.iter().enumerate() {
                work[b * stretch + 2 * i] = first;
                work[b * stretch + 2 * i + 1] = end;
            }
            tallies[Tally::WORDS * b..Tally::WORDS * (b + 1)].copy_from_slice(&one.tally.words());
        }
        self.outcome()
    }

    pub fn outcome(&self) -> Outcome {
        Outcome {
            finished: self.is_over(),
            live: self.marks.iter().filter(|&&mark| mark != 0).count() as u64,
            followed: self.followed,
            handed: self.handed,
            refused: self.refused,
            moved: self.moved,
            carrying: self.carrying(),
        }
    }

    /// How many workers carry references: counted over them each time.
    pub fn carrying(&self) -> u64 {
        self.workers.iter().filter(|one| one.carried > 0).count() as u64
    }

    /// One turn of worker b, naming another.
    fn turn(&mut self, b: usize, named: usize) -> Turned {
        match self.workers[b].status {
            Status::Ended | Status::Asking => Turned::Nothing,
            Status::Refused => {
                self.workers[b].status = Status::Idle;
                Turned::Moved
            }
            Status::Given => {
                let me = &mut self.workers[b];
                me.status = Status::Busy;
                me.since = 0;
                me.batch = 0;
                Turned::Moved
            }
            Status::Idle => self.idle(b, named),
            Status::Busy if self.workers[b].batch == 0 => self.poll(b),
            Status::Busy => self.work(b),
        }
    }

    fn idle(&mut self, b: usize, named: usize) -> Turned {
        if self.workers[0].status == Status::Ended {
            self.workers[b].status = Status::Ended;
            return Turned::Moved;
        }
        if self.token.holder == b {
            return self.pass(b);
        }
        match self.workers.get_mut(named) {
            Some(other) if named != b && other.status == Status::Busy && other.cell.is_none() => {
                other.cell = Some(b as u8);
                self.workers[b].status = Status::Asking;
                Turned::Moved
            }
            _ => Turned::Nothing,
        }
    }

    /// An idle worker that holds the token.
    fn pass(&mut self, b: usize) -> Turned {
        let black = std::mem::take(&mut self.workers[b].black);
        if b > 0 {
            self.token = Token { holder: b - 1, black: self.token.black || black };
            return Turned::Passed;
        }
        if !self.token.black && !black {
            self.workers[0].status = Status::Ended;
            return Turned::Moved;
        }
        self.token = Token { holder: self.workers.len() - 1, black: false };
        Turned::Passed
    }

    fn poll(&mut self, b: usize) -> Turned {
        if let Some(asker) = self.workers[b].cell.take() {
            let me = &self.workers[b];
            if me.carried > self.cutoff || (me.since >= self.cutoff && me.carried >= 2) {
                self.share(b, asker as usize);
            } else {
                self.workers[asker as usize].status = Status::Refused;
                self.refused += 1;
            }
        }
        let me = &mut self.workers[b];
        me.batch = self.batch.min(me.carried);
        Turned::Moved
    }

    fn share(&mut self, b: usize, asker: usize) {
        let me = &mut self.workers[b];
        let keep = me.carried.div_ceil(2);
        let mut left = keep;
        let mut cut = me.runs.len();
        while left > 0 {
            let (first, end) = me.runs[cut - 1];
            if end - first > left {
                break;
            }
            left -= end - first;
            cut -= 1;
        }
        let kept = me.runs.split_off(cut);
        let mut given = std::mem::replace(&mut me.runs, kept);
        if left > 0 {
            let (first, end) = given.pop().unwrap();
            given.push((first + left, end));
            me.runs.insert(0, (first, first + left));
        }
        let handed = me.carried - keep;
        me.carried = keep;
        me.since = 0;
        me.tally.handed += 1;
        me.black = true;
        let other = &mut self.workers[asker];
        other.runs = given;
        other.carried = handed;
        other.since = 0;
        other.status = Status::Given;
        self.handed += 1;
    }

    fn work(&mut self, b: usize) -> Turned {
        let me = &mut self.workers[b];
        let &(e, _) = me.runs.last().unwrap();
        let target = self.targets[e as usize] as usize;
        let marked = self.marks[target] != 0;
        if !me.claim && !marked {
            me.claim = true;
            return Turned::Moved;
        }
        let claiming = std::mem::take(&mut me.claim);
        if claiming && marked {
            me.tally.lost += 1;
        }
        if claiming && !marked {
            me.tally.won += 1;
            self.marks[target] = b as u8 + 1;
        }
        self.follow(b, (claiming && !marked).then_some(target));
        Turned::Moved
    }

    fn follow(&mut self, b: usize, claimed: Option<usize>) {
        let me = &mut self.workers[b];
        let (first, end) = me.runs.pop().unwrap();
        me.carried -= 1;
        if let Some(v) = claimed {
            let (from, to) = (self.offsets[v], self.offsets[v + 1]);
            if from < to {
                me.runs.push((from, to));
                me.carried += to - from;
            }
        }
        if first + 1 < end {
            me.runs.push((first + 1, end));
        }
        me.batch -= 1;
        me.since += 1;
        me.tally.followed += 1;
        self.followed += 1;
        if me.carried == 0 {
            me.status = Status::Idle;
            if let Some(asker) = me.cell.take() {
                self.workers[asker as usize].status = Status::Refused;
                self.refused += 1;
            }
        }
    }
}

fn is_graph(offsets: &[u32], targets: &[u32]) -> bool {
    let n = offsets.len() - 1;
    offsets[0] == 0
        && offsets.windows(2).all(|pair| pair[0] <= pair[1])
        && offsets[n] as usize == targets.len()
        && targets.iter().all(|&target| (target as usize) < n)
}

/// The number of the first fault of a marker's call with so many marks, work words and words of tallies, where
/// `saved` is false if there are saved words and another number of them than there must be.
pub(crate) fn check(call: Call<'_>, marks: usize, work: usize, tallies: usize, saved: bool) -> Result<(), u8> {
    let Call { offsets, targets, starts, workers, batch, cutoff, schedule } = call;
    if !(1..=16).contains(&workers) || !(1..=65_535).contains(&batch) || !(1..=65_535).contains(&cutoff) {
        return Err(8);
    }
    let n = offsets.len().wrapping_sub(1);
    if offsets.len() < 2 || n > MOST_OBJECTS || targets.len() > MOST_REFERENCES {
        return Err(4);
    }
    let lengths = [(marks, n), (work, workers as usize * (2 * n + 4)), (tallies, 4 * workers as usize)];
    if lengths.iter().any(|(length, right)| length != right) || !saved {
        return Err(7);
    }
    if !is_graph(offsets, targets) {
        return Err(10);
    }
    if starts.is_empty() || starts.len() > STARTS {
        return Err(13);
    }
    if starts.iter().any(|&start| start as usize >= n) {
        return Err(5);
    }
    if !schedule.len().is_multiple_of(2) || schedule.chunks(2).any(|entry| entry[0] as u32 >= workers) {
        return Err(9);
    }
    Ok(())
}

/// The marker's call.
pub fn mark(call: Call<'_>, marks: &mut [u8], work: &mut [u32], tallies: &mut [u64]) -> Result<Outcome, u8> {
    check(call, marks.len(), work.len(), tallies.len(), true)?;
    let mut machine = Machine::start(call, marks);
    machine.run(call.schedule);
    Ok(machine.leave(work, tallies))
}

/// A whole collection, SPECIFICATION 15: rounds of all workers, each naming the next one, until all have ended. The schedule
/// of the call is not looked at.
pub fn mark_all(call: Call<'_>, marks: &mut [u8], work: &mut [u32], tallies: &mut [u64]) -> Result<Outcome, u8> {
    let call = Call { schedule: &[], ..call };
    check(call, marks.len(), work.len(), tallies.len(), true)?;
    let round: Vec<u8> = (0..call.workers).flat_map(|b| [b as u8, ((b + 1) % call.workers) as u8]).collect();
    let mut machine = Machine::start(call, marks);
    while !machine.is_over() {
        machine.run(&round);
    }
    Ok(machine.leave(work, tallies))
}

#[cfg(test)]
mod tests {
    use super::*;

    const OFFSETS: [u32; 7] = [0, 2, 3, 4, 5, 5, 6];
    const TARGETS: [u32; 6] = [1, 2, 3, 3, 0, 4];

    fn run(offsets: &[u32], targets: &[u32], w: u32, d: u32, k: u32, turns: &[u8]) -> [u64; Outcome::WORDS] {
        run_from(&[0], offsets, targets, [w, d, k], turns)
    }

    fn run_from(
        starts: &[u32],
        offsets: &[u32],
        targets: &[u32],
        [w, d, k]: [u32; 3],
        turns: &[u8],
    ) -> [u64; Outcome::WORDS] {
        let n = offsets.len() - 1;
        let schedule: Vec<u8> = turns.iter().flat_map(|&b| [b, 0]).collect();
        let (mut marks, mut work) = (vec![7; n], vec![9; w as usize * (2 * n + 4)]);
        let mut words = vec![5; 4 * w as usize];
        let call = Call { offsets, targets, starts, workers: w, batch: d, cutoff: k, schedule: &schedule };
        mark(call, &mut marks, &mut work, &mut words).unwrap().words()
    }

    #[test]
    fn drawings() {
        let a = A;
        assert_eq!(run(&OFFSETS, &TARGETS, 2, 1, 1, &a), [1, 4, 5, 1, 0, 18, 0]);
        assert_eq!(run(&OFFSETS, &TARGETS, 2, 1, 1, &a[..18]), [0, 4, 5, 1, 0, 16, 0]);
        assert_eq!(run(&OFFSETS, &TARGETS, 2, 1, 1, &a[..5]), [0, 2, 1, 1, 0, 5, 2]);
        assert_eq!(run(&OFFSETS, &TARGETS, 2, 1, 2, &a[..5]), [0, 2, 1, 0, 1, 5, 1]);
        assert_eq!(run(&OFFSETS, &TARGETS, 1, 2, 1, &[0; 12]), [1, 4, 5, 0, 0, 12, 0]);
        assert_eq!(run(&OFFSETS, &TARGETS, 1, 2, 1, &[0; 11]), [0, 4, 5, 0, 0, 11, 0]);
        assert_eq!(run(&[0, 0], &[], 1, 1, 1, &[]), [0, 1, 0, 0, 0, 0, 0]);
        assert_eq!(run(&[0, 0], &[], 1, 1, 1, &[0]), [1, 1, 0, 0, 0, 1, 0]);
        assert_eq!(run(&[0, 0], &[], 2, 1, 1, &[0, 0]), [0, 1, 0, 0, 0, 1, 0]);
        assert_eq!(run(&[0, 1], &[0], 1, 1, 1, &[0; 3]), [1, 1, 1, 0, 0, 3, 0]);
        assert_eq!(run(&[0, 2, 2], &[1, 1], 1, 2, 1, &[0; 5]), [1, 2, 2, 0, 0, 5, 0]);
    }

    /// 0→1 four times and three workers: the token comes back black once.
    #[test]
    fn ring() {
        let turns = [(1, 0), (0, 0), (1, 0), (0, 0), (0, 0), (0, 0), (0, 0), (0, 0), (2, 0), (2, 1), (1, 0)];
        let more = [(1, 0), (1, 0), (0, 0), (2, 0), (2, 0), (2, 0), (2, 0), (1, 0), (0, 0), (1, 0), (2, 0)];
        let schedule: Vec<u8> = turns.iter().chain(&more).flat_map(|&(b, v)| [b, v]).collect();
        let (offsets, targets) = ([0, 4, 4], [1; 4]);
        let (mut marks, mut work, mut words) = (vec![7; 2], vec![9; 24], vec![5; 12]);
        let call = Call {
            offsets: &offsets,
            targets: &targets,
            starts: &[0],
            workers: 3,
            batch: 1,
            cutoff: 1,
            schedule: &schedule,
        };
        let outcome = mark(call, &mut marks, &mut work, &mut words).unwrap();
        assert_eq!(outcome.words(), [1, 2, 4, 2, 0, 16, 0]);
    }

    /// Store S in one call: with one worker case D, with two 14 rounds.
    #[test]
    fn whole() {
        let marked = |workers: u32, batch: u32| {
            let (mut marks, mut work) = (vec![7; 6], vec![9; 16 * workers as usize]);
            let mut words = vec![5; 4 * workers as usize];
            let call =
                Call { offsets: &OFFSETS, targets: &TARGETS, starts: &[0], workers, batch, cutoff: 1, schedule: &[] };
            mark_all(call, &mut marks, &mut work, &mut words).unwrap().words()
        };
        assert_eq!(marked(1, 2), [1, 4, 5, 0, 0, 12, 0]);
        let [finished, live, followed, .., carrying] = marked(2, 1);
        assert_eq!([finished, live, followed, carrying], [1, 4, 5, 0]);
    }

    #[test]
    fn starts() {
        assert_eq!(run_from(&[3, 0, 5], &OFFSETS, &TARGETS, [2, 1, 1], &[]), [0, 3, 0, 0, 0, 0, 1]);
        assert_eq!(run_from(&[5, 0, 5, 0, 0], &OFFSETS, &TARGETS, [1, 1, 1], &[]), [0, 2, 0, 0, 0, 0, 1]);
        assert_eq!(run_from(&[4, 4], &OFFSETS, &TARGETS, [2, 1, 1], &[0, 1]), [1, 1, 0, 0, 0, 2, 0]);
        assert_eq!(run_from(&[0, 5], &OFFSETS, &TARGETS, [1, 6, 1], &[0; 13]), [1, 6, 6, 0, 0, 13, 0]);
    }

    /// The marks and the tallies that these turns leave on store S, with case A's settings.
    fn left(turns: &[u8]) -> (Vec<u8>, Vec<u64>) {
        let schedule: Vec<u8> = turns.iter().flat_map(|&b| [b, 0]).collect();
        let (mut marks, mut work, mut words) = (vec![7; 6], vec![9; 32], vec![5; 8]);
        let call = Call {
            offsets: &OFFSETS,
            targets: &TARGETS,
            starts: &[0],
            workers: 2,
            batch: 1,
            cutoff: 1,
            schedule: &schedule,
        };
        mark(call, &mut marks, &mut work, &mut words).unwrap();
        (marks, words)
    }

    const A: [u8; 20] = [0, 1, 0, 0, 0, 1, 1, 0, 1, 0, 0, 0, 1, 0, 1, 1, 0, 1, 0, 1];

    #[test]
    fn owners_differ_between_two_orders() {
        assert_eq!(left(&A).0, [1, 1, 1, 2, 0, 0]);
        assert_eq!(left(&[0, 0, 0, 0, 0, 0, 0, 0, 0, 0, 0, 0, 0, 0, 1]).0, [1, 1, 1, 1, 0, 0]);
    }

    #[test]
    fn tallies_by_worker() {
        assert_eq!(left(&A).1, [3, 2, 1, 1, 2, 1, 0, 0]);
        assert_eq!(left(&A[..5]).1, [1, 1, 0, 1, 0, 0, 0, 0]);
        assert_eq!(left(&[]).1, [0; 8]);
    }
}
