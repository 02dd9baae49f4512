//! Saved words written by hand: states that the conditions allow and no collection begun afresh need reach, and damage.

use crate::case::Mark;
use crate::rng::Rng;
use reference::{unsound, Places};

/// The saved words of a call, and where their parts stand.
struct Words<'a> {
    call: &'a Mark,
    places: Places,
    all: Vec<u32>,
}

/// Two of them, as a number.
fn number(words: &[u32], at: usize) -> u64 {
    u64::from(words[at]) | u64::from(words[at + 1]) << 32
}

fn put_number(words: &mut [u32], at: usize, number: u64) {
    words[at] = number as u32;
    words[at + 1] = (number >> 32) as u32;
}

/// The counts, by their places among the saved words.
const LIVE: usize = 1;
const FOLLOWED: usize = 3;
const HANDED: usize = 5;
const REFUSED: usize = 7;
const MOVED: usize = 9;
const CARRYING: usize = 11;

/// The numbers of a tally, by their places in it.
const TALLY_FOLLOWED: usize = 0;
const TALLY_WON: usize = 2;
const TALLY_LOST: usize = 4;
const TALLY_HANDED: usize = 6;

/// What a worker is.
const IDLE: u32 = 0;
const ASKING: u32 = 1;
const DENIED: u32 = 2;
const ENDED: u32 = 3;
const GIVEN: u32 = 4;
const POLL: u32 = 5;
const LOOK: u32 = 6;
const CLAIM: u32 = 7;

impl Words<'_> {
    fn worker(&mut self, b: usize) -> &mut [u32] {
        let at = self.places.worker(b);
        &mut self.all[at..at + 4]
    }

    fn stretch(&mut self, b: usize) -> &mut [u32] {
        let (at, words) = (self.places.stretch(b), self.places.stretch_words());
        &mut self.all[at..at + words]
    }

    /// How many runs worker b carries.
    fn runs(&mut self, b: usize) -> usize {
        self.stretch(b).chunks(2).take_while(|pair| pair[0] < pair[1]).count()
    }

    fn carried(&mut self, b: usize) -> u32 {
        self.stretch(b).chunks(2).take_while(|pair| pair[0] < pair[1]).map(|pair| pair[1] - pair[0]).sum()
    }

    fn add(&mut self, at: usize, more: i64) {
        let sum = number(&self.all, at).wrapping_add(more as u64);
        put_number(&mut self.all, at, sum);
    }

    fn add_to_tally(&mut self, b: usize, place: usize, more: i64) {
        self.add(self.places.tally(b) + place, more);
    }

    /// Puts a run before the others of worker b or behind them, or takes one off there, where there is room.
    fn insert(&mut self, b: usize, at: usize, (first, end): (u32, u32)) {
        let used = 2 * self.runs(b);
        let stretch = self.stretch(b);
        if used + 2 <= stretch.len() {
            stretch.copy_within(2 * at..used, 2 * at + 2);
            stretch[2 * at..2 * at + 2].copy_from_slice(&[first, end]);
        }
    }

    fn remove(&mut self, b: usize, at: usize) -> (u32, u32) {
        let used = 2 * self.runs(b);
        let stretch = self.stretch(b);
        let run = (stretch[2 * at], stretch[2 * at + 1]);
        stretch.copy_within(2 * at + 2..used, 2 * at);
        stretch[used - 2..used].fill(0);
        run
    }

    /// One change to worker b, or between b and c, that may leave the state sound. Others may not, and are told apart by
    /// the conditions.
    fn change(&mut self, rng: &mut Rng, b: usize, c: usize) {
        let workers = self.places.workers;
        let m = self.call.targets.len();
        let more = rng.below(4) as i64;
        match rng.below(18) {
            0 => self.own(rng),
            1 => self.worker(b)[2] = rng.below(6) as u32,
            2 => self.start_batch(rng, b),
            3 => self.exchange(b, c),
            4 if self.runs(b) > 1 => {
                let (i, j) = (rng.below(self.runs(b)), rng.below(self.runs(b)));
                let run = self.remove(b, i);
                self.insert(b, j, run);
            }
            5 if self.runs(b) > 1 && self.runs(c) > 0 => {
                let last = self.runs(b) - 1;
                let run = self.remove(b, rng.pick(&[0, last]));
                let at = self.runs(c);
                self.insert(c, rng.pick(&[0, at]), run);
            }
            6 if self.runs(b) > 0 && self.runs(c) > 0 => self.cut(rng, b, c),
            7 => {
                let most = 7 * m + workers;
                let any = rng.below(most);
                put_number(&mut self.all, MOVED, rng.pick(&[most, most + 1 - more as usize / 3, any]) as u64);
            }
            8 => {
                let moved = number(&self.all, MOVED);
                put_number(&mut self.all, REFUSED, rng.pick(&[moved, moved / 2, 0]));
            }
            9 => {
                let place = rng.pick(&[TALLY_FOLLOWED, TALLY_WON]);
                self.add_to_tally(b, place, more);
                self.add_to_tally(c, place, -more);
            }
            10 => self.add_to_tally(b, TALLY_LOST, rng.pick(&[1, -1])),
            11 => {
                self.add(HANDED, more);
                self.add_to_tally(b, TALLY_HANDED, more);
            }
            12 => self.status(rng, b, c),
            13 => self.unfollow(rng, b),
            14 => self.mark(rng, b),
            15 | 16 => self.ring(rng, b),
            _ => self.end(),
        }
    }

    /// Another holder or colour of the token, or another colour of a worker.
    fn ring(&mut self, rng: &mut Rng, b: usize) {
        let at = Places::RING;
        match rng.below(3) {
            0 => self.all[at] = b as u32,
            1 => self.all[at + 1] ^= 1,
            _ => self.all[at + 2] ^= 1 << b,
        }
    }

    /// Another owner for an object.
    fn own(&mut self, rng: &mut Rng) {
        let at = self.places.marks() + rng.below(self.places.objects);
        if self.all[at] != 0 {
            self.all[at] = rng.between(1, self.places.workers) as u32;
        }
    }

    /// Another batch for a busy worker.
    fn start_batch(&mut self, rng: &mut Rng, b: usize) {
        if self.worker(b)[0] >= POLL {
            let most = self.call.batch.min(self.carried(b)) as usize;
            let batch = rng.below(most + 1) as u32;
            self.worker(b)[3] = batch;
            self.worker(b)[0] = if batch == 0 { POLL } else { rng.pick(&[LOOK, CLAIM]) };
        }
    }

    /// Two workers change places, but for their tallies.
    fn exchange(&mut self, b: usize, c: usize) {
        for (one, other, words) in [
            (self.places.worker(b), self.places.worker(c), 4),
            (self.places.stretch(b), self.places.stretch(c), self.places.stretch_words()),
        ] {
            for k in 0..words {
                self.all.swap(one + k, other + k);
            }
        }
        for a in 0..self.places.workers {
            let cell = &mut self.worker(a)[1];
            if *cell == b as u32 + 1 {
                *cell = c as u32 + 1;
            } else if *cell == c as u32 + 1 {
                *cell = b as u32 + 1;
            }
        }
    }

    /// The last run of b is cut, and c gets its end.
    fn cut(&mut self, rng: &mut Rng, b: usize, c: usize) {
        let stretch = self.stretch(b);
        let (first, end) = (stretch[0], stretch[1]);
        if b != c && end - first > 1 {
            let cut = first + 1 + rng.below((end - first - 1) as usize) as u32;
            stretch[1] = cut;
            self.insert(c, 0, (cut, end));
        }
    }

    /// Another status.
    fn status(&mut self, rng: &mut Rng, b: usize, c: usize) {
        let (mine, theirs) = (self.worker(b)[0], self.worker(c)[0]);
        match mine {
            IDLE if theirs >= POLL && self.worker(c)[1] == 0 && rng.once_in(2) => {
                self.worker(b)[0] = ASKING;
                self.worker(c)[1] = b as u32 + 1;
            }
            IDLE => self.worker(b)[0] = DENIED,
            DENIED => self.worker(b)[0] = IDLE,
            ASKING => {
                self.worker(b)[0] = rng.pick(&[IDLE, DENIED]);
                for a in 0..self.places.workers {
                    if self.worker(a)[1] == b as u32 + 1 {
                        self.worker(a)[1] = 0;
                    }
                }
            }
            GIVEN => self.worker(b)[0] = POLL,
            POLL if self.worker(b)[1] == 0 => self.worker(b).copy_from_slice(&[GIVEN, 0, 0, 0]),
            _ => {}
        }
    }

    /// A followed reference is carried once more.
    fn unfollow(&mut self, rng: &mut Rng, b: usize) {
        let m = self.call.targets.len();
        if m > 0 && self.runs(b) > 0 {
            let e = rng.below(m) as u32;
            let end = self.runs(b);
            self.insert(b, rng.pick(&[0, end]), (e, e + 1));
            self.add(FOLLOWED, -1);
            self.add_to_tally(rng.below(self.places.workers), TALLY_FOLLOWED, -1);
        }
    }

    /// An object is marked, be it reachable or not, and its run is carried.
    fn mark(&mut self, rng: &mut Rng, b: usize) {
        let v = rng.below(self.places.objects);
        let at = self.places.marks() + v;
        let (from, to) = (self.call.offsets[v], self.call.offsets[v + 1]);
        if self.all[at] == 0 && (from == to || self.runs(b) > 0) {
            self.all[at] = 1;
            self.add(LIVE, 1);
            self.add_to_tally(rng.below(self.places.workers), TALLY_WON, 1);
            if from < to {
                let end = self.runs(b);
                self.insert(b, rng.below(end + 1), (from, to));
            }
        }
    }

    /// One of the bounds on moved, handed, the sinces and refused is passed, by as little as can be.
    fn exceed(&mut self, rng: &mut Rng, b: usize) {
        let m = self.call.targets.len() as u64;
        match rng.below(4) {
            0 => put_number(&mut self.all, MOVED, 7 * m + self.places.workers as u64 + 1),
            1 => {
                let most = 3 * m / u64::from(self.call.cutoff);
                let more = (most + 1) as i64 - number(&self.all, HANDED) as i64;
                self.add(HANDED, more);
                self.add_to_tally(b, TALLY_HANDED, more);
            }
            2 => {
                let sinces: u64 = (0..self.places.workers).map(|a| u64::from(self.worker(a)[2])).sum();
                let more = (number(&self.all, FOLLOWED) + 1).saturating_sub(sinces) as u32;
                self.worker(b)[2] += more;
            }
            _ => {
                let moved = number(&self.all, MOVED);
                put_number(&mut self.all, REFUSED, moved + 1);
            }
        }
    }

    /// Some idle workers end.
    fn end(&mut self) {
        if number(&self.all, CARRYING) == 0 {
            for b in 0..self.places.workers {
                if self.worker(b)[0] == IDLE {
                    self.worker(b)[0] = ENDED;
                }
            }
        }
    }
}

/// So many changes, each of which leaves the words sound.
pub fn written(rng: &mut Rng, call: &Mark, saved: Vec<u32>, changes: usize) -> Vec<u32> {
    let mut words = Words { call, places: call.places(), all: saved };
    for _ in 0..changes {
        let before = words.all.clone();
        let (b, c) = (rng.below(words.places.workers), rng.below(words.places.workers));
        words.change(rng, b, c);
        if !unsound(call.call(), &words.all).is_empty() {
            words.all = before;
        }
    }
    words.all
}

/// One change that may leave the words sound or not; one in four just passes a bound.
pub fn changed(rng: &mut Rng, call: &Mark, saved: Vec<u32>) -> Vec<u32> {
    let mut words = Words { call, places: call.places(), all: saved };
    let (b, c) = (rng.below(words.places.workers), rng.below(words.places.workers));
    if rng.once_in(4) {
        words.exceed(rng, b);
    } else {
        words.change(rng, b, c);
    }
    words.all
}

/// A place in one of the parts: counts, ring, workers, tallies, marks, stretches.
fn place(rng: &mut Rng, places: Places) -> usize {
    let starts = [0, Places::RING, Places::WORKERS, places.tally(0), places.marks(), places.stretch(0), places.all()];
    let part = rng.below(6);
    let at = rng.between(starts[part], starts[part + 1] - 1);
    // A stretch has its runs at its front.
    let b = rng.below(places.workers);
    match part {
        5 if !rng.once_in(4) => places.stretch(b) + rng.below(places.stretch_words().min(8)),
        _ => at,
    }
}

/// Damages the words: one changed, two exchanged, a count off by one, a worker's words another's, or all of them.
pub fn damage(rng: &mut Rng, places: Places, words: &mut [u32]) {
    let (at, other) = (place(rng, places), place(rng, places));
    let any = rng.word() as u32;
    let workers = places.workers as u32;
    match rng.below(12) {
        0 => words[at] = words[at].wrapping_add(1),
        1 => words[at] = words[at].wrapping_sub(1),
        2 => words[at] = rng.pick(&[0, 1, any, u32::MAX, workers, workers + 1]),
        3 => words.swap(at, other),
        4 => words[at] = words[other],
        5 => words[at] ^= 1 << rng.below(32),
        6 => {
            let count = rng.pick(&[LIVE, FOLLOWED, HANDED, REFUSED, MOVED, CARRYING]);
            let off = number(words, count).wrapping_add(rng.pick(&[1, u64::MAX, 1 << 32]));
            put_number(words, count, off);
        }
        7 => words[places.worker(rng.below(places.workers))] = rng.below(10) as u32,
        8 => {
            let (b, c) = (rng.below(places.workers), rng.below(places.workers));
            words.copy_within(places.worker(b)..places.worker(b) + 4, places.worker(c));
        }
        9 => {
            let b = rng.below(places.workers);
            words[places.worker(b) + rng.between(1, 3)] = rng.below(places.workers + 3) as u32;
        }
        10 => words[places.tally(rng.below(places.workers)) + rng.below(8)] = rng.below(9) as u32,
        _ => match rng.below(8) {
            0 => words.fill(0),
            1 => words.iter_mut().for_each(|word| *word = rng.word() as u32),
            2 => words[0] = rng.pick(&[0, 1, u32::MAX]),
            3 => words[Places::RING + rng.below(3)] = rng.pick(&[0, 1, 2, workers, 1 << workers]),
            _ => words[places.marks() + rng.below(places.objects)] = rng.below(places.workers + 2) as u32,
        },
    }
}
