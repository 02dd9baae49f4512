//! The version, the refusals and the constants, written by tools/boundary.py from the constants of the crates.

/// The version of this crate; [`version`](crate::version) tells that of the library that is linked.
pub const VERSION: &str = "1.0.0";
/// The most objects that a store has.
pub const MOST_OBJECTS: usize = 65_536;
/// The most references that a store has.
pub const MOST_REFERENCES: usize = 1_048_576;
/// The largest size of an object.
pub const LARGEST_SIZE: u64 = 1_099_511_627_776;
/// The most leases that a store has.
pub const MOST_LEASES: usize = 256;
/// The words of the start buffer: the index and the most leases.
pub const STARTS: usize = 257;
/// The most workers of a marking.
pub const MOST_WORKERS: u32 = 16;
/// The largest batch and the largest cutoff of a marking.
pub const MOST_SETTING: u32 = 65_535;
/// How many cards the deck has; they are numbered from 0.
pub const DECK: u32 = 720;
/// The most workers that cards deal turns to.
pub const CARD_WORKERS: u32 = 6;
/// The hop count of an object to which no chain of references leads.
pub const NO_HOPS: u32 = 4_294_967_295;
/// The work words of a scan.
pub const SCAN_WORK: usize = 135_169;
/// The mark of an object that a change finds live, where it is no start.
pub const NEWLY_LIVE: u8 = 255;

/// Why a call is refused: the table of the specification, section 2.
#[derive(Clone, Copy, Debug, PartialEq, Eq, Hash)]
#[non_exhaustive]
pub enum Refusal {
    /// 1: the bytes end too soon for a record; also empty.
    Short,
    /// 2: unknown kind of record, or a length that its kind does not have.
    Kind,
    /// 3: a record that is not due at its place, or one too many.
    Place,
    /// 4: number of objects or of references out of range.
    Count,
    /// 5: index, from, to, a lease, a start, a name or an owner is no object's number; also 0 in [`import`], no
    /// reference's number in [`remove`].
    Object,
    /// 6: a size above [`LARGEST_SIZE`].
    Size,
    /// 7: a lent buffer is not as long as it must be, or overlaps another.
    Buffer,
    /// 8: workers, batch or cutoff out of range.
    Setting,
    /// 9: half an entry at the schedule's end, or one for a worker that is not there.
    Schedule,
    /// 10: offsets and targets that are no graph.
    Graph,
    /// 13: no start, or more leases than [`MOST_LEASES`].
    Starts,
    /// 14: saved words that hold no sound collection of this graph, these starts and settings.
    Saved,
    /// 15: a card that is not in the deck, or more workers than [`CARD_WORKERS`].
    Cards,
    /// 16: the first word of a seed is 0.
    Seed,
    /// 17: a marked object has a reference to an unmarked one.
    Marks,
    /// 18: a text that is no Matrix Market file of a graph.
    Text,
    /// 19: names that do not ascend, are not lower-case hexadecimal, or have no bytes.
    Names,
    /// A number that this crate has no name for: the library is newer than the crate.
    Other(u32),
}

/// The refusals that have a name.
const NAMED: [Refusal; 17] = [
    Refusal::Short,
    Refusal::Kind,
    Refusal::Place,
    Refusal::Count,
    Refusal::Object,
    Refusal::Size,
    Refusal::Buffer,
    Refusal::Setting,
    Refusal::Schedule,
    Refusal::Graph,
    Refusal::Starts,
    Refusal::Saved,
    Refusal::Cards,
    Refusal::Seed,
    Refusal::Marks,
    Refusal::Text,
    Refusal::Names,
];

impl Refusal {
    /// The refusal of a number that the library answered.
    pub(crate) fn of(number: u32) -> Self {
        NAMED.into_iter().find(|named| named.number() == number).unwrap_or(Refusal::Other(number))
    }

    pub(crate) fn number_and_words(self) -> (u32, &'static str) {
        match self {
            Refusal::Short => (1, "the bytes end too soon for a record"),
            Refusal::Kind => (2, "unknown kind of record, or a length that its kind does not have"),
            Refusal::Place => (3, "a record that is not due at its place, or one too many"),
            Refusal::Count => (4, "number of objects or of references out of range"),
            Refusal::Object => (5, "the number of an object or of a reference that is not there"),
            Refusal::Size => (6, "the size of an object is too large"),
            Refusal::Buffer => (7, "a lent buffer is not as long as it must be, or overlaps another"),
            Refusal::Setting => (8, "workers, batch or cutoff out of range"),
            Refusal::Schedule => (9, "half an entry at the schedule's end, or one for a worker that is not there"),
            Refusal::Graph => (10, "offsets and targets that are no graph"),
            Refusal::Starts => (13, "no start, or too many leases"),
            Refusal::Saved => (14, "saved words that hold no sound collection"),
            Refusal::Cards => (15, "a card that is not in the deck, or more workers than a card has"),
            Refusal::Seed => (16, "the first word of a seed is 0"),
            Refusal::Marks => (17, "a marked object has a reference to an unmarked one"),
            Refusal::Text => (18, "a text that is no Matrix Market file of a graph"),
            Refusal::Names => (19, "names that do not ascend, or are not lower-case hexadecimal"),
            Refusal::Other(number) => (number, "a number newer than this crate"),
        }
    }
}
