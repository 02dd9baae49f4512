//! The box marker's proved library in safe Rust.
//!
//! Every call takes any values and any buffers. It answers what docs/SPECIFICATION.md of the repository
//! says, or the [`Refusal`] that its table gives, and beside a refusal no lent buffer is changed.
//! Nothing is kept between calls and nothing is allocated.
//!
//! A refusal is an `Err` and comes with nothing else. Where the zeros are wanted that the specification
//! has beside it, `unwrap_or_default` gives them: the `Default` of each answer is all zeros.
//!
//! # The library
//!
//! The crate links `libkullneyra.a`, which `make library` makes in the repository, as
//! `target/staticlib/libkullneyra.a`. It is looked for there. Where it stands elsewhere, as after
//! `make install`, the environment variable `KULLNEYRA_LIB_DIR` names its folder:
//!
//! ```text
//! KULLNEYRA_LIB_DIR=/usr/local/lib cargo build
//! ```
//!
//! # One collection
//!
//! ```
//! use kullneyra::{header, lengths, mark_all, read, references, sweep, tallies};
//! use kullneyra::{Settings, STARTS};
//!
//! // Two objects, 0 and 1, and the reference 0→0: object 1 hangs on nothing.
//! let catalogue = [
//!     16, 0, 1, 0, 2, 0, 0, 0, 1, 0, 0, 0, 0, 0, 0, 0, // header: n 2, m 1, index 0
//!     12, 0, 2, 0, 100, 0, 0, 0, 0, 0, 0, 0, // object 0, 100 bytes
//!     12, 0, 2, 0, 200, 0, 0, 0, 0, 0, 0, 0, // object 1, 200 bytes
//!     12, 0, 3, 0, 0, 0, 0, 0, 0, 0, 0, 0, // reference 0→0
//! ];
//! let head = header(&catalogue)?;
//! assert_eq!((head.objects, head.references, head.index), (2, 1, 0));
//!
//! let (mut offsets, mut targets, mut sizes, mut starts) = ([0; 3], [0; 1], [0; 2], [0; STARTS]);
//! let store = read(&catalogue, &mut offsets, &mut targets, &mut sizes, &mut starts)?;
//! let starts = &starts[..store.starts as usize];
//! assert_eq!(starts, [0]);
//! assert_eq!(references(&offsets, &targets, 0), [0]);
//!
//! let settings = Settings { workers: 1, batch: 64, cutoff: 64 };
//! let (mut marks, mut work, mut words) = ([0; 2], [0; lengths::work(2, 1)], [0; lengths::tallies(1)]);
//! let marked = mark_all(&offsets, &targets, starts, settings, &mut marks, &mut work, &mut words)?;
//! assert!(marked.finished);
//! for (worker, tally) in tallies(&words).enumerate() {
//!     assert_eq!((worker, tally.followed, tally.won), (0, 1, 0));
//! }
//!
//! let mut list = [0; 2];
//! let dead = sweep(&marks, &sizes, &mut list)?;
//! assert_eq!((dead.count, dead.freed, list), (1, 200, [1, 0]));
//! # Ok::<(), kullneyra::Refusal>(())
//! ```
//!
//! # Stop and go on
//!
//! [`mark`] takes the turns of a schedule, which the caller makes; [`begin`] marks as [`mark`] does and saves the collection; [`resume`] takes it up, in the same process or, from
//! words that were kept in a file, in another. However the turns are parted, the collection ends as one call ends it.
//!
//! ```
//! use kullneyra::{begin, lengths, mark, resume};
//! use kullneyra::{Refusal, Schedule, Settings, Turn};
//!
//! // Three objects, 0→1 and 1→2, one worker.
//! let (offsets, targets, starts) = ([0, 1, 2, 2], [1, 2], [0]);
//! let settings = Settings { workers: 1, batch: 1, cutoff: 1 };
//! let turns = [Turn { worker: 0, asked: 0 }; 8];
//! let (mut marks, mut work, mut words) = ([0; 3], [0; lengths::work(3, 1)], [0; lengths::tallies(1)]);
//! let whole = mark(&offsets, &targets, &starts, settings, Schedule::new(&turns), &mut marks, &mut work, &mut words)?;
//!
//! let mut saved = [0; lengths::saved(3, 1)];
//! let (first, later) = turns.split_at(5);
//! let first = Schedule::new(first);
//! let stopped =
//!     begin(&offsets, &targets, &starts, settings, first, &mut marks, &mut work, &mut words, &mut saved)?;
//! assert!(!stopped.finished && stopped.sound);
//!
//! // An hour later. Only the saved words were kept.
//! (marks, work, words) = ([7; 3], [7; lengths::work(3, 1)], [7; lengths::tallies(1)]);
//! let later = Schedule::new(later);
//! let done =
//!     resume(&offsets, &targets, &starts, settings, later, &mut marks, &mut work, &mut words, &mut saved)?;
//! assert_eq!((&done.words()[..7], marks), (&whole.words()[..], [1, 1, 1]));
//! assert!(done.sound);
//!
//! // Words of another collection are refused, and left as they are.
//! let none = Schedule::new(&[]);
//! let other = resume(&offsets, &targets, &[0, 1], settings, none, &mut marks, &mut work, &mut words, &mut saved);
//! assert_eq!(other, Err(Refusal::Saved));
//! # Ok::<(), kullneyra::Refusal>(())
//! ```
//! # Cards
//!
//! ```
//! use kullneyra::deal;
//!
//! // Card 0 is 012345 and card 719 is 543210; with two workers the others are skipped.
//! let mut schedule = [0; 8];
//! deal(&[0, 719], 2, &mut schedule)?;
//! assert_eq!(schedule, [0, 1, 1, 0, 1, 0, 0, 1]);
//! # Ok::<(), kullneyra::Refusal>(())
//! ```
//!
//! # Hops
//!
//! ```
//! use kullneyra::{hops, lengths, NO_HOPS};
//!
//! // 0→1, 0→2, 1→3, 2→3, and nothing leads to 4.
//! let (offsets, targets) = ([0, 2, 3, 4, 4, 4], [1, 2, 3, 3]);
//! let (mut counts, mut work) = ([0; 5], [0; lengths::hop_work(5)]);
//! hops(&offsets, &targets, &[0], &mut counts, &mut work)?;
//! assert_eq!(counts, [0, 1, 1, 2, NO_HOPS]);
//! # Ok::<(), kullneyra::Refusal>(())
//! ```
//!
//! # References that come and go
//!
//! ```
//! use kullneyra::{add, lengths, remove, NEWLY_LIVE};
//!
//! // 0→1, 2→3, and 0 and 1 live. With 1→2 the others do, too.
//! let (offsets, targets, mut marks) = ([0, 1, 1, 2, 2], [1, 3], [1, 1, 0, 0]);
//! let (mut new_offsets, mut new_targets, mut work) = ([0; 5], [0; 3], [0; lengths::update_work(4)]);
//! add(&offsets, &targets, &[1], &[2], &mut new_offsets, &mut new_targets, &mut marks, &mut work)?;
//! assert_eq!((new_offsets, new_targets), ([0, 1, 2, 3, 3], [1, 2, 3]));
//! assert_eq!(marks, [1, 1, NEWLY_LIVE, NEWLY_LIVE]);
//!
//! // 0→1, 0→2, 1→2: without reference 1 object 2 is still reached.
//! let (offsets, targets, mut marks) = ([0, 2, 3, 3], [1, 2, 2], [0; 3]);
//! let (mut new_offsets, mut new_targets, mut work) = ([0; 4], [0; 2], [0; lengths::update_work(3)]);
//! remove(&offsets, &targets, &[1, 1], &[0], &mut new_offsets, &mut new_targets, &mut marks, &mut work)?;
//! assert_eq!((new_offsets, new_targets), ([0, 1, 2, 2], [1, 2]));
//! assert_eq!(marks, [1, NEWLY_LIVE, NEWLY_LIVE]);
//! # Ok::<(), kullneyra::Refusal>(())
//! ```
//!
//! # Course graphs
//!
//! ```
//! use kullneyra::{export, export_length, import, market_header};
//!
//! // The pairs come in any order, and go out object after object.
//! let text = b"%%MatrixMarket matrix coordinate pattern general\n% two pages\n2 2 2\n2 1\n1 2\n";
//! let header = market_header(text)?;
//! let (mut offsets, mut targets, mut sizes) = ([9; 3], [9; 2], [9; 2]);
//! assert_eq!(import(text, &mut offsets, &mut targets, &mut sizes)?, header);
//! assert_eq!((offsets, targets, sizes), ([0, 1, 2], [1, 0], [0, 0]));
//! let mut out = vec![0; export_length(&offsets, &targets)? as usize];
//! export(&offsets, &targets, &mut out)?;
//! assert_eq!(out, b"%%MatrixMarket matrix coordinate pattern general\n2 2 2\n1 2\n2 1\n");
//! # Ok::<(), kullneyra::Refusal>(())
//! ```
//!
//! # Names in texts
//!
//! ```
//! use kullneyra::{scan, scan_length, SCAN_WORK};
//!
//! // Three names of two digits, of the objects 2, 0 and 1, and two texts: one of object 1, one of object 0.
//! let (names, named) = (b"0aaaab", [2, 0, 1]);
//! let (texts, ends, owners) = (b"{\"0aab\"}ab", [8, 10], [1, 0]);
//! let mut work = vec![0; SCAN_WORK];
//! let length = scan_length(3, 2, names, &named, texts, &ends, &owners, &mut work)? as usize;
//! let (mut from, mut to) = (vec![0; length], vec![0; length]);
//! scan(3, 2, names, &named, texts, &ends, &owners, &mut work, &mut from, &mut to)?;
//! assert_eq!((from, to), (vec![1, 1, 1, 0], vec![2, 0, 1, 1]));
//! # Ok::<(), kullneyra::Refusal>(())
//! ```
#![no_std]
#![deny(missing_docs)]

mod calls;
mod numbers;
pub mod raw;

pub use calls::*;
pub use numbers::*;

/// The version of the library that is linked, as [`VERSION`] is that of this crate.
///
/// ```
/// assert_eq!(kullneyra::version(), kullneyra::VERSION);
/// ```
pub fn version() -> &'static str {
    extern "C" {
        fn kullneyra_version() -> *const core::ffi::c_char;
    }
    // SAFETY: it answers a text that stays, with a zero byte at its end.
    let text = unsafe { core::ffi::CStr::from_ptr(kullneyra_version()) };
    text.to_str().unwrap_or_default()
}

impl Refusal {
    /// The number in the specification's table.
    pub fn number(self) -> u32 {
        self.number_and_words().0
    }
}

impl core::fmt::Display for Refusal {
    fn fmt(&self, f: &mut core::fmt::Formatter<'_>) -> core::fmt::Result {
        let (number, words) = self.number_and_words();
        write!(f, "refusal {number}: {words}")
    }
}

impl core::error::Error for Refusal {}

fn answer(number: u32) -> Result<(), Refusal> {
    match number {
        0 => Ok(()),
        _ => Err(Refusal::of(number)),
    }
}

/// The settings of a marking.
#[derive(Clone, Copy, Debug, PartialEq, Eq)]
pub struct Settings {
    /// W, 1 to 16.
    pub workers: u32,
    /// D, 1 to 65,535: references followed between two polls.
    pub batch: u32,
    /// K, 1 to 65,535: references from which on a worker shares.
    pub cutoff: u32,
}

/// One turn: a worker, and whom it asks if it is idle (any value).
#[derive(Clone, Copy, Debug, PartialEq, Eq)]
#[repr(C)]
pub struct Turn {
    /// The worker whose turn it is.
    pub worker: u8,
    /// The worker that it asks.
    pub asked: u8,
}

/// The turns of a call, in order.
#[derive(Clone, Copy, Debug)]
pub struct Schedule<'a>(&'a [u8]);

impl<'a> Schedule<'a> {
    /// These turns.
    pub fn new(turns: &'a [Turn]) -> Self {
        // SAFETY: a Turn is two bytes without padding, and bytes have no alignment.
        Schedule(unsafe { core::slice::from_raw_parts(turns.as_ptr().cast(), 2 * turns.len()) })
    }

    /// Bytes, two for each turn; an odd number of them is refused by the call.
    pub fn from_bytes(bytes: &'a [u8]) -> Self {
        Schedule(bytes)
    }
}

/// The tallies by worker, worker 0's first, of the words that [`mark`] left. A reference whose target was marked when the
/// worker looked is followed without a claim.
///
/// ```
/// use kullneyra::tallies;
///
/// let lost: Vec<u64> = tallies(&[3, 2, 1, 1, 2, 1, 0, 0]).map(|tally| tally.lost).collect();
/// assert_eq!(lost, [1, 0]);
/// ```
pub fn tallies(words: &[u64]) -> impl Iterator<Item = Tally> + '_ {
    words.chunks_exact(Tally::WORDS).map(|four| Tally::from_words([four[0], four[1], four[2], four[3]]))
}

/// Who claimed an object. Its text is what the drawings say: `start`, `box 0`, `reached`, `nobody`.
#[derive(Clone, Copy, Debug, PartialEq, Eq, Hash)]
#[non_exhaustive]
pub enum Owner {
    /// The object is not marked.
    Nobody,
    /// A collection starts there.
    Start,
    /// This worker claimed it.
    Worker(u8),
    /// [`add`] or [`remove`] found it live: no worker claimed it.
    Reached,
}

impl core::fmt::Display for Owner {
    fn fmt(&self, f: &mut core::fmt::Formatter<'_>) -> core::fmt::Result {
        match self {
            Owner::Nobody => f.write_str("nobody"),
            Owner::Start => f.write_str("start"),
            Owner::Worker(b) => write!(f, "box {b}"),
            Owner::Reached => f.write_str("reached"),
        }
    }
}

/// The owner of each object in turn, by the marks that a call left and the objects where the collection
/// started (the index and the leases).
///
/// The starts are asked for since a start and an object that worker 0 claimed both have mark 1.
///
/// ```
/// use kullneyra::{owners, Owner};
///
/// let names: Vec<String> = owners(&[0], &[1, 1, 2, 0, 255]).map(|owner| owner.to_string()).collect();
/// assert_eq!(names, ["start", "box 0", "box 1", "nobody", "reached"]);
/// ```
pub fn owners<'a>(starts: &'a [u32], marks: &'a [u8]) -> impl Iterator<Item = Owner> + 'a {
    (0u32..).zip(marks).map(move |(object, &mark)| match mark {
        0 => Owner::Nobody,
        1 if starts.contains(&object) => Owner::Start,
        NEWLY_LIVE => Owner::Reached,
        _ => Owner::Worker(mark - 1),
    })
}

/// Exact lengths of the lent buffers, for arrays: n objects and so many workers.
pub mod lengths {
    /// The work words of a marking.
    pub const fn work(objects: usize, workers: usize) -> usize {
        workers * (2 * objects + 4)
    }

    /// The words of the tallies.
    pub const fn tallies(workers: usize) -> usize {
        workers * crate::Tally::WORDS
    }

    /// The words of a saved collection, as [`saved_words`](crate::saved_words) answers.
    pub const fn saved(objects: usize, workers: usize) -> usize {
        16 + 12 * workers + objects + work(objects, workers)
    }

    /// The work words of [`hops`](crate::hops), as [`hop_words`](crate::hop_words) answers.
    pub const fn hop_work(objects: usize) -> usize {
        2 * objects
    }

    /// The work words of [`add`](crate::add) and [`remove`](crate::remove), as [`update_words`](crate::update_words) answers.
    pub const fn update_work(objects: usize) -> usize {
        objects
    }
}

/// The references of one object: that part of the targets, or the empty part.
pub fn references<'a>(offsets: &[u32], targets: &'a [u32], object: u32) -> &'a [u32] {
    let mut part = [0; 2];
    let number = raw::references(offsets, targets, object, &mut part);
    debug_assert_eq!(number, 0);
    let (start, length) = (part[0] as usize, part[1] as usize);
    &targets[start..start + length]
}

/// Two words from which cards are drawn; each draw moves them on. The first is not 0, and never becomes 0.
///
/// ```
/// use kullneyra::{deal, Seed};
///
/// let mut seed = Seed { first: 1, second: 0 };
/// let mut again = seed;
/// assert_eq!([seed.draw()?, seed.draw()?], [646, 603]);
///
/// // The schedule of two draws is that of the two cards, and it leaves the seed as the draws do.
/// let (mut drawn, mut written) = ([0; 12], [0; 12]);
/// again.deal_seed(2, 3, &mut drawn)?;
/// deal(&[646, 603], 3, &mut written)?;
/// assert_eq!((drawn, again), (written, seed));
/// # Ok::<(), kullneyra::Refusal>(())
/// ```
#[derive(Clone, Copy, Debug, PartialEq, Eq, Hash)]
pub struct Seed {
    /// Moved by a xorshift of 32 bits.
    pub first: u32,
    /// Grows by 362,437 at each draw.
    pub second: u32,
}

#[cfg(test)]
mod tests {
    use super::*;
    extern crate std;
    use std::string::ToString;

    #[test]
    fn one_version() {
        assert_eq!((VERSION, version()), (env!("CARGO_PKG_VERSION"), VERSION));
    }

    #[test]
    fn numbers_are_places_in_the_table() {
        for number in (1..=10).chain([13, 14, 15, 16, 17, 18]) {
            let refusal = Refusal::of(number);
            assert!(!matches!(refusal, Refusal::Other(_)));
            assert_eq!(refusal.number(), number);
        }
    }

    #[test]
    fn an_unknown_number_keeps_its_number() {
        assert_eq!(answer(0), Ok(()));
        for number in [11, 12, 99, 255, u32::MAX] {
            assert_eq!(answer(number), Err(Refusal::Other(number)));
            assert_eq!(Refusal::Other(number).number(), number);
        }
    }

    #[test]
    fn display_is_in_words() {
        assert_eq!(
            Refusal::Buffer.to_string(),
            "refusal 7: a lent buffer is not as long as it must be, or overlaps another"
        );
        assert_eq!(Refusal::Other(99).to_string(), "refusal 99: a number newer than this crate");
    }

    #[test]
    fn zeros_beside_a_refusal() {
        assert_eq!(header(&[]).unwrap_or_default(), Header { objects: 0, references: 0, index: 0 });
        let store = read(&[], &mut [], &mut [], &mut [], &mut []).unwrap_or_default();
        assert_eq!(store, Store { objects: 0, references: 0, index: 0, starts: 0 });
        let settings = Settings { workers: 0, batch: 1, cutoff: 1 };
        let none = Schedule::new(&[]);
        let marked = mark(&[0, 0], &[], &[0], settings, none, &mut [0], &mut [], &mut []).unwrap_or_default();
        assert_eq!(marked.words(), [0; Marked::WORDS]);
        let stopped =
            begin(&[0, 0], &[], &[0], settings, none, &mut [0], &mut [], &mut [], &mut []).unwrap_or_default();
        assert_eq!(stopped.words(), [0; Stopped::WORDS]);
        let stopped =
            resume(&[0, 0], &[], &[0], settings, none, &mut [0], &mut [], &mut [], &mut []).unwrap_or_default();
        assert_eq!(stopped.words(), [0; Stopped::WORDS]);
        assert_eq!(saved_words(0, 0).unwrap_or_default(), 0);
        assert_eq!(Tally::default().words(), [0; Tally::WORDS]);
        assert_eq!(sweep(&[], &[], &mut []).unwrap_or_default(), Swept { count: 0, freed: 0 });
    }

    #[test]
    fn words_and_back() {
        let words = core::array::from_fn(|i| i as u64 + 1);
        assert_eq!(Marked::from_words(words).words(), words);
        let words = [1, 2, 3, 4, 5, 6, 7, 1];
        assert_eq!(Stopped::from_words(words).words(), words);
        let words = [1, 2, 3, 4];
        assert_eq!(Tally::from_words(words).words(), words);
        assert_eq!(tallies(&[0, 0, 0, 0, 1, 2, 3, 4]).nth(1), Some(Tally::from_words(words)));
    }

    #[test]
    fn limits_are_the_library_s() {
        let (mut marks, mut list) = ([0], [0]);
        assert_eq!(sweep(&marks, &[LARGEST_SIZE], &mut list).map(|swept| swept.freed), Ok(LARGEST_SIZE));
        assert_eq!(sweep(&marks, &[LARGEST_SIZE + 1], &mut list), Err(Refusal::Size));
        let mut work = [0; lengths::work(1, MOST_WORKERS as usize)];
        let mut tallies = [0; lengths::tallies(MOST_WORKERS as usize)];
        let mut alone = |starts: usize, workers: u32, setting| {
            let settings = Settings { workers, batch: setting, cutoff: setting };
            let workers = workers.min(MOST_WORKERS) as usize;
            let (work, tallies) = (&mut work[..lengths::work(1, workers)], &mut tallies[..lengths::tallies(workers)]);
            let starts = &[0; STARTS + 1][..starts];
            mark(&[0, 0], &[], starts, settings, Schedule::new(&[]), &mut marks, work, tallies)
        };
        assert_eq!(alone(1, MOST_WORKERS, MOST_SETTING).map(|marked| marked.live), Ok(1));
        assert_eq!(alone(1, MOST_WORKERS + 1, 1), Err(Refusal::Setting));
        assert_eq!(alone(1, 1, MOST_SETTING + 1), Err(Refusal::Setting));
        assert_eq!(alone(STARTS, 1, 1).map(|marked| marked.live), Ok(1));
        assert_eq!(alone(STARTS + 1, 1, 1), Err(Refusal::Starts));
        assert_eq!(alone(0, 1, 1), Err(Refusal::Starts));
    }

    #[test]
    fn lengths_are_the_library_s() {
        for (objects, workers) in [(1, 1), (1, 16), (6, 2), (MOST_OBJECTS, 1), (MOST_OBJECTS, 16)] {
            assert_eq!(saved_words(objects as u32, workers as u32), Ok(lengths::saved(objects, workers) as u64));
            assert_eq!(hop_words(objects as u32), Ok(lengths::hop_work(objects) as u64));
            assert_eq!(update_words(objects as u32), Ok(lengths::update_work(objects) as u64));
        }
        for objects in [0, MOST_OBJECTS as u32 + 1] {
            assert_eq!((hop_words(objects), update_words(objects)), (Err(Refusal::Count), Err(Refusal::Count)));
        }
        assert_eq!(saved_words(1, 0), Err(Refusal::Setting));
        assert_eq!(saved_words(0, MOST_WORKERS + 1), Err(Refusal::Setting));
        assert_eq!(saved_words(0, 1), Err(Refusal::Count));
        assert_eq!(saved_words(MOST_OBJECTS as u32 + 1, 1), Err(Refusal::Count));
    }

    /// An object without references: begun without a turn, taken up with one; one word more or less, and all zeros.
    #[test]
    fn saved_words_are_exact() {
        const WORDS: usize = lengths::saved(1, 1);
        let settings = Settings { workers: 1, batch: 1, cutoff: 1 };
        let (mut marks, mut work, mut words, mut saved) = ([7], [7; 6], [7; 4], [7; WORDS + 1]);
        let (none, one) = (Schedule::from_bytes(&[]), Schedule::from_bytes(&[0, 0]));
        for length in [0, WORDS - 1, WORDS + 1] {
            let saved = &mut saved[..length];
            let begun = begin(&[0, 0], &[], &[0], settings, none, &mut marks, &mut work, &mut words, saved);
            let taken = resume(&[0, 0], &[], &[0], settings, none, &mut marks, &mut work, &mut words, saved);
            assert_eq!((begun, taken), (Err(Refusal::Buffer), Err(Refusal::Buffer)));
        }
        let saved = &mut saved[..WORDS];
        let mut zeros = [0; WORDS];
        let empty = resume(&[0, 0], &[], &[0], settings, none, &mut marks, &mut work, &mut words, &mut zeros);
        assert_eq!((empty, marks, work, words, zeros), (Err(Refusal::Saved), [7], [7; 6], [7; 4], [0; WORDS]));
        let begun = begin(&[0, 0], &[], &[0], settings, none, &mut marks, &mut work, &mut words, saved);
        assert_eq!(begun.map(|stopped| (stopped.finished, stopped.live, stopped.sound)), Ok((false, 1, true)));
        let taken = resume(&[0, 0], &[], &[0], settings, one, &mut marks, &mut work, &mut words, saved);
        assert_eq!(taken.map(|stopped| (stopped.finished, stopped.moved, stopped.sound)), Ok((true, 1, true)));
    }

    #[test]
    fn cards_to_the_last() {
        let mut schedule = [9; 12];
        assert_eq!(deal(&[DECK - 1], CARD_WORKERS, &mut schedule), Ok(()));
        assert_eq!(schedule, [5, 4, 4, 3, 3, 2, 2, 1, 1, 0, 0, 5]);
        let before = schedule;
        assert_eq!(deal(&[DECK], CARD_WORKERS, &mut schedule), Err(Refusal::Cards));
        assert_eq!(deal(&[0], CARD_WORKERS + 1, &mut schedule), Err(Refusal::Cards));
        assert_eq!(deal(&[DECK], 0, &mut schedule), Err(Refusal::Setting));
        assert_eq!(deal(&[0, 0], CARD_WORKERS, &mut schedule), Err(Refusal::Buffer));
        assert_eq!(schedule, before);
        assert_eq!(schedule_length(1, CARD_WORKERS), Ok(12));
        assert_eq!(schedule_length(0, 1), Ok(0));
        assert_eq!(schedule_length(1, CARD_WORKERS + 1), Err(Refusal::Cards));
        assert_eq!(schedule_length(1, MOST_WORKERS + 1), Err(Refusal::Setting));
        let most = usize::MAX / 12;
        assert_eq!(schedule_length(most, CARD_WORKERS), Ok(12 * most as u64));
        assert_eq!(schedule_length(most + 1, CARD_WORKERS), Err(Refusal::Buffer));
    }

    #[test]
    fn draws_of_known_seeds() {
        for (first, second, cards) in [
            (1, 0, [646, 603, 612, 243, 538]),
            (2_463_534_242, 0, [152, 660, 671, 130, 394]),
            (u32::MAX, u32::MAX, [99, 600, 257, 541, 489]),
        ] {
            let mut seed = Seed { first, second };
            assert_eq!([0; 5].map(|_| seed.draw()), cards.map(Ok));
        }
        let mut none = Seed { first: 0, second: 5 };
        assert_eq!(none.draw(), Err(Refusal::Seed));
        let mut schedule = [9; 4];
        assert_eq!(none.deal_seed(2, 0, &mut schedule), Err(Refusal::Setting));
        assert_eq!(none.deal_seed(2, 7, &mut schedule), Err(Refusal::Seed));
        assert_eq!(none, Seed { first: 0, second: 5 });
        let mut one = Seed { first: 1, second: 5 };
        assert_eq!(one.deal_seed(2, 7, &mut schedule), Err(Refusal::Cards));
        assert_eq!(one.deal_seed(1, 1, &mut schedule), Err(Refusal::Buffer));
        assert_eq!((one, schedule), (Seed { first: 1, second: 5 }, [9; 4]));
    }

    #[test]
    fn leases_to_the_most() {
        let mut catalogue =
            std::vec![16, 0, 1, 0, 1, 0, 0, 0, 0, 0, 0, 0, 0, 0, 0, 0, 12, 0, 2, 0, 5, 0, 0, 0, 0, 0, 0, 0];
        let leased = |catalogue: &[u8]| {
            let (mut offsets, mut starts) = ([0; 2], [7; STARTS]);
            let store = read(catalogue, &mut offsets, &mut [], &mut [0], &mut starts);
            (store.map(|store| store.starts), starts[STARTS - 1])
        };
        assert_eq!(leased(&catalogue), (Ok(1), 0));
        catalogue.extend([8, 0, 4, 0, 0, 0, 0, 0].repeat(MOST_LEASES));
        assert_eq!(leased(&catalogue), (Ok(STARTS as u32), 0));
        catalogue.extend([8, 0, 4, 0, 1, 0, 0, 0]);
        assert_eq!(leased(&catalogue), (Err(Refusal::Starts), 7));
    }
}
