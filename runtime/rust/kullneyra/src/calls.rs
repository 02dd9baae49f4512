//! The calls and their answers with Rust's own types, written by tools/boundary.py from the exported functions.

use super::*;

/// [`header`]: what the catalogue's header says; [`market_header`] and [`import`]: what the text's counts say, and
/// index 0.
#[derive(Clone, Copy, Debug, Default, PartialEq, Eq)]
#[non_exhaustive]
pub struct Header {
    /// Objects.
    pub objects: u32,
    /// References, and subjects.
    pub references: u32,
    /// The object at which every collection starts.
    pub index: u32,
}

impl Header {
    /// How many words it has.
    pub const WORDS: usize = 3;

    /// The names of its words, in their order.
    pub const NAMES: [&'static str; Self::WORDS] = ["objects", "references", "index"];

    /// These words by name.
    pub fn from_words(words: [u32; Self::WORDS]) -> Self {
        let [objects, references, index] = words;
        Header { objects, references, index }
    }

    /// Its words.
    pub fn words(self) -> [u32; Self::WORDS] {
        let Header { objects, references, index } = self;
        [objects, references, index]
    }
}

/// [`read`]: what [`header`] says, and how many starts the start buffer holds.
#[derive(Clone, Copy, Debug, Default, PartialEq, Eq)]
#[non_exhaustive]
pub struct Store {
    /// Objects.
    pub objects: u32,
    /// References, and subjects.
    pub references: u32,
    /// The first start.
    pub index: u32,
    /// The index and the leases.
    pub starts: u32,
}

impl Store {
    /// How many words it has.
    pub const WORDS: usize = 4;

    /// The names of its words, in their order.
    pub const NAMES: [&'static str; Self::WORDS] = ["objects", "references", "index", "starts"];

    /// These words by name.
    pub fn from_words(words: [u32; Self::WORDS]) -> Self {
        let [objects, references, index, starts] = words;
        Store { objects, references, index, starts }
    }

    /// Its words.
    pub fn words(self) -> [u32; Self::WORDS] {
        let Store { objects, references, index, starts } = self;
        [objects, references, index, starts]
    }
}

/// [`mark`], [`mark_all`]: what the turns did.
#[derive(Clone, Copy, Debug, Default, PartialEq, Eq)]
#[non_exhaustive]
pub struct Marked {
    /// Every worker has ended: the marks are exactly the reachable objects.
    pub finished: bool,
    /// Marked objects.
    pub live: u64,
    /// References followed.
    pub followed: u64,
    /// Polls that shared.
    pub handed: u64,
    /// Askers that were refused.
    pub refused: u64,
    /// Turns that changed something.
    pub moved: u64,
    /// Workers that carry references now.
    pub carrying: u64,
}

impl Marked {
    /// How many words it has.
    pub const WORDS: usize = 7;

    /// The names of its words, in their order.
    pub const NAMES: [&'static str; Self::WORDS] =
        ["finished", "live", "followed", "handed", "refused", "moved", "carrying"];

    /// These words by name.
    pub fn from_words(words: [u64; Self::WORDS]) -> Self {
        let [finished, live, followed, handed, refused, moved, carrying] = words;
        Marked { finished: finished == 1, live, followed, handed, refused, moved, carrying }
    }

    /// Its words.
    pub fn words(self) -> [u64; Self::WORDS] {
        let Marked { finished, live, followed, handed, refused, moved, carrying } = self;
        [u64::from(finished), live, followed, handed, refused, moved, carrying]
    }
}

/// [`begin`], [`resume`]: what the turns did, over all calls of a collection, and whether what is saved can be taken
/// up.
#[derive(Clone, Copy, Debug, Default, PartialEq, Eq)]
#[non_exhaustive]
pub struct Stopped {
    /// Every worker has ended: the marks are exactly the reachable objects.
    pub finished: bool,
    /// Marked objects.
    pub live: u64,
    /// References followed.
    pub followed: u64,
    /// Polls that shared.
    pub handed: u64,
    /// Askers that were refused.
    pub refused: u64,
    /// Turns that changed something.
    pub moved: u64,
    /// Workers that carry references now.
    pub carrying: u64,
    /// The saved words hold a sound collection, as those of one begun here always do; else they will be refused.
    pub sound: bool,
}

impl Stopped {
    /// How many words it has.
    pub const WORDS: usize = 8;

    /// The names of its words, in their order.
    pub const NAMES: [&'static str; Self::WORDS] =
        ["finished", "live", "followed", "handed", "refused", "moved", "carrying", "sound"];

    /// These words by name.
    pub fn from_words(words: [u64; Self::WORDS]) -> Self {
        let [finished, live, followed, handed, refused, moved, carrying, sound] = words;
        Stopped { finished: finished == 1, live, followed, handed, refused, moved, carrying, sound: sound == 1 }
    }

    /// Its words.
    pub fn words(self) -> [u64; Self::WORDS] {
        let Stopped { finished, live, followed, handed, refused, moved, carrying, sound } = self;
        [u64::from(finished), live, followed, handed, refused, moved, carrying, u64::from(sound)]
    }
}

/// [`mark`]: what one worker did, over its own turns. Over all workers, followed and handed add up to those of the
/// marking, and the won claims and the different starts make its live.
#[derive(Clone, Copy, Debug, Default, PartialEq, Eq)]
#[non_exhaustive]
pub struct Tally {
    /// References followed.
    pub followed: u64,
    /// Claims won: objects that it was the first to reach.
    pub won: u64,
    /// Claims lost to another worker.
    pub lost: u64,
    /// Hand-overs that it gave.
    pub handed: u64,
}

impl Tally {
    /// How many words it has.
    pub const WORDS: usize = 4;

    /// The names of its words, in their order.
    pub const NAMES: [&'static str; Self::WORDS] = ["followed", "won", "lost", "handed"];

    /// These words by name.
    pub fn from_words(words: [u64; Self::WORDS]) -> Self {
        let [followed, won, lost, handed] = words;
        Tally { followed, won, lost, handed }
    }

    /// Its words.
    pub fn words(self) -> [u64; Self::WORDS] {
        let Tally { followed, won, lost, handed } = self;
        [followed, won, lost, handed]
    }
}

/// [`sweep`]: the dead objects.
#[derive(Clone, Copy, Debug, Default, PartialEq, Eq)]
#[non_exhaustive]
pub struct Swept {
    /// How many they are.
    pub count: u64,
    /// The sum of their sizes.
    pub freed: u64,
}

impl Swept {
    /// How many words it has.
    pub const WORDS: usize = 2;

    /// The names of its words, in their order.
    pub const NAMES: [&'static str; Self::WORDS] = ["count", "freed"];

    /// These words by name.
    pub fn from_words(words: [u64; Self::WORDS]) -> Self {
        let [count, freed] = words;
        Swept { count, freed }
    }

    /// Its words.
    pub fn words(self) -> [u64; Self::WORDS] {
        let Swept { count, freed } = self;
        [count, freed]
    }
}

/// Reads only the catalogue's header record.
pub fn header(bytes: &[u8]) -> Result<Header, Refusal> {
    let mut result = [0; Header::WORDS];
    answer(raw::header(bytes, &mut result))?;
    Ok(Header::from_words(result))
}

/// Checks the whole catalogue and fills offsets, targets, sizes and starts: the index, the leases in their order, and
/// zeros behind them. A subject record fills in a reference from the subject to the object that names it, so that a
/// signature lives while its image does. There are n + 1 offsets, m targets, n sizes and [`STARTS`] words of starts.
pub fn read(
    bytes: &[u8],
    offsets: &mut [u32],
    targets: &mut [u32],
    sizes: &mut [u64],
    starts: &mut [u32],
) -> Result<Store, Refusal> {
    let mut result = [0; Store::WORDS];
    answer(raw::read(bytes, offsets, targets, sizes, starts, &mut result))?;
    Ok(Store::from_words(result))
}

/// Marks what the starts reach, by the turns of the schedule: two bytes for each, the worker and whom it asks. The
/// starts are the index and then the leases; a repeated one adds nothing. Only when the collection is finished are the
/// objects with mark 0 unreachable. A mark tells who claimed the object: b + 1 for worker b; a start has mark 1. The
/// tallies are four words for each worker, worker 0's first: the fields of [`Tally`]. Marks are n bytes, work is
/// [`lengths::work`] words and tallies are [`lengths::tallies`] words; all may hold anything before. [`owners`] gives
/// the marks by name, and [`tallies`] the tallies.
#[allow(clippy::too_many_arguments)]
pub fn mark(
    offsets: &[u32],
    targets: &[u32],
    starts: &[u32],
    settings: Settings,
    schedule: Schedule<'_>,
    marks: &mut [u8],
    work: &mut [u32],
    tallies: &mut [u64],
) -> Result<Marked, Refusal> {
    let mut result = [0; Marked::WORDS];
    answer(raw::mark(
        offsets,
        targets,
        starts,
        settings.workers,
        settings.batch,
        settings.cutoff,
        schedule.0,
        marks,
        work,
        tallies,
        &mut result,
    ))?;
    Ok(Marked::from_words(result))
}

/// A whole collection without a schedule, which is always finished: the workers have their turns in rounds, each asking
/// the next one, until all have ended. Answer, marks, work and tallies are those of [`mark`] with so many rounds. With
/// one worker nobody asks, and its turns are made in rows: the quickest way to mark.
pub fn mark_all(
    offsets: &[u32],
    targets: &[u32],
    starts: &[u32],
    settings: Settings,
    marks: &mut [u8],
    work: &mut [u32],
    tallies: &mut [u64],
) -> Result<Marked, Refusal> {
    let mut result = [0; Marked::WORDS];
    answer(raw::mark_all(
        offsets,
        targets,
        starts,
        settings.workers,
        settings.batch,
        settings.cutoff,
        marks,
        work,
        tallies,
        &mut result,
    ))?;
    Ok(Marked::from_words(result))
}

/// How many words a saved collection of n objects with so many workers takes, as [`lengths::saved`] has it.
pub fn saved_words(objects: u32, workers: u32) -> Result<u64, Refusal> {
    let mut result = [0];
    answer(raw::saved_words(objects, workers, &mut result))?;
    Ok(result[0])
}

/// As [`mark`], and saves the collection: everything that is needed to go on later stands in the saved words, marks
/// too. Nobody has to keep the other buffers, but the graph, the starts and the settings are passed again. The words
/// are for this library; docs/SPECIFICATION.md, 8.1, has their layout. What is saved is sound. There are
/// [`lengths::saved`] of them, which may hold anything before.
#[allow(clippy::too_many_arguments)]
pub fn begin(
    offsets: &[u32],
    targets: &[u32],
    starts: &[u32],
    settings: Settings,
    schedule: Schedule<'_>,
    marks: &mut [u8],
    work: &mut [u32],
    tallies: &mut [u64],
    saved: &mut [u32],
) -> Result<Stopped, Refusal> {
    let mut result = [0; Stopped::WORDS];
    answer(raw::begin(
        offsets,
        targets,
        starts,
        settings.workers,
        settings.batch,
        settings.cutoff,
        schedule.0,
        marks,
        work,
        tallies,
        saved,
        &mut result,
    ))?;
    Ok(Stopped::from_words(result))
}

/// Takes a saved collection up with more turns, and saves it again. A collection that was begun with the same graph,
/// starts and settings ends as one call with all the turns would have ended it, counts and tallies included. Marks,
/// work and tallies need not hold anything before. Saved words that hold no sound collection are [`Refusal::Saved`].
/// Whoever wrote them: a collection that is finished has marked all that lives. The answer's sound tells whether
/// [`resume`] would take up what is saved now: it is 0 only where somebody else wrote the words, and turns took moved
/// or handed above its bound.
#[allow(clippy::too_many_arguments)]
pub fn resume(
    offsets: &[u32],
    targets: &[u32],
    starts: &[u32],
    settings: Settings,
    schedule: Schedule<'_>,
    marks: &mut [u8],
    work: &mut [u32],
    tallies: &mut [u64],
    saved: &mut [u32],
) -> Result<Stopped, Refusal> {
    let mut result = [0; Stopped::WORDS];
    answer(raw::resume(
        offsets,
        targets,
        starts,
        settings.workers,
        settings.batch,
        settings.cutoff,
        schedule.0,
        marks,
        work,
        tallies,
        saved,
        &mut result,
    ))?;
    Ok(Stopped::from_words(result))
}

/// Lists the objects whose mark is 0, upwards, then zeros; answers how many they are and what their sizes add up to.
pub fn sweep(marks: &[u8], sizes: &[u64], list: &mut [u32]) -> Result<Swept, Refusal> {
    let mut result = [0; Swept::WORDS];
    answer(raw::sweep(marks, sizes, list, &mut result))?;
    Ok(Swept::from_words(result))
}

/// How many bytes the schedule of so many cards has: two for each worker, for each card. [`Refusal::Buffer`] where no
/// buffer is so long.
pub fn schedule_length(cards: usize, workers: u32) -> Result<u64, Refusal> {
    let mut result = [0];
    answer(raw::schedule_length(cards, workers, &mut result))?;
    Ok(result[0])
}

/// The schedule of a hand of cards, for the marker's call with so many workers: each card is a round in which every
/// worker has a turn, in the card's order, and asks the one after it, the last the first. The schedule is exactly as
/// long as [`schedule_length`] says.
pub fn deal(cards: &[u32], workers: u32, schedule: &mut [u8]) -> Result<(), Refusal> {
    answer(raw::deal(cards, workers, schedule))
}

/// How many work words [`hops`] takes for so many objects.
pub fn hop_words(objects: u32) -> Result<u64, Refusal> {
    let mut result = [0];
    answer(raw::hop_words(objects, &mut result))?;
    Ok(result[0])
}

/// For each object the least number of references from a start, [`NO_HOPS`] where no chain leads to it. hops has as
/// many words as there are objects, and work as many as [`hop_words`] says; what they held before does not matter, and
/// afterwards the two work words of an object without a count are as they were. Offsets, targets and starts are checked
/// as in [`mark`]. Beside a refusal both are as they were.
pub fn hops(
    offsets: &[u32],
    targets: &[u32],
    starts: &[u32],
    hops: &mut [u32],
    work: &mut [u32],
) -> Result<(), Refusal> {
    answer(raw::hops(offsets, targets, starts, hops, work))
}

/// How many work words [`add`] and [`remove`] take for so many objects.
pub fn update_words(objects: u32) -> Result<u64, Refusal> {
    let mut result = [0];
    answer(raw::update_words(objects, &mut result))?;
    Ok(result[0])
}

/// Adds the references `from[i]` -> `to[i]` to a store. `new_offsets` has as many words as offsets, and `new_targets`
/// as many as targets and from together: an object's new references stand behind its old ones, in list order. An object
/// that is newly live gets the mark [`NEWLY_LIVE`], and a mark that is set keeps its value. The marks must be closed
/// under the old references ([`Refusal::Marks`]), as those of a finished collection are. A work word that has changed
/// names an object newly live. Beside a refusal all four are as they were.
#[allow(clippy::too_many_arguments)]
pub fn add(
    offsets: &[u32],
    targets: &[u32],
    from: &[u32],
    to: &[u32],
    new_offsets: &mut [u32],
    new_targets: &mut [u32],
    marks: &mut [u8],
    work: &mut [u32],
) -> Result<(), Refusal> {
    answer(raw::add(offsets, targets, from, to, new_offsets, new_targets, marks, work))
}

/// Takes the references with these numbers out of a store; a number that stands in the list twice counts once.
/// `new_targets` has as many words as references remain. The marks are made afresh: 1 for a start, [`NEWLY_LIVE`] for
/// what else is reached, 0 for the rest; what they held before does not matter. A work word that has changed names a
/// marked object. Beside a refusal all four are as they were.
#[allow(clippy::too_many_arguments)]
pub fn remove(
    offsets: &[u32],
    targets: &[u32],
    numbers: &[u32],
    starts: &[u32],
    new_offsets: &mut [u32],
    new_targets: &mut [u32],
    marks: &mut [u8],
    work: &mut [u32],
) -> Result<(), Refusal> {
    answer(raw::remove(offsets, targets, numbers, starts, new_offsets, new_targets, marks, work))
}

/// What the counts of a Matrix Market text say, so that buffers can be lent to [`import`]. Looks only at what stands
/// before the pairs.
pub fn market_header(text: &[u8]) -> Result<Header, Refusal> {
    let mut result = [0; Header::WORDS];
    answer(raw::market_header(text, &mut result))?;
    Ok(Header::from_words(result))
}

/// A graph from a Matrix Market text: fills offsets, targets and sizes as [`read`] does from the catalogue of the same
/// pairs in the same order, with the sizes 0. The index is 0.
pub fn import(text: &[u8], offsets: &mut [u32], targets: &mut [u32], sizes: &mut [u64]) -> Result<Header, Refusal> {
    let mut result = [0; Header::WORDS];
    answer(raw::import(text, offsets, targets, sizes, &mut result))?;
    Ok(Header::from_words(result))
}

/// How many bytes the Matrix Market text of a graph has.
pub fn export_length(offsets: &[u32], targets: &[u32]) -> Result<u64, Refusal> {
    let mut result = [0];
    answer(raw::export_length(offsets, targets, &mut result))?;
    Ok(result[0])
}

/// Writes the Matrix Market text of a graph into a buffer of exactly as many bytes as [`export_length`] says.
pub fn export(offsets: &[u32], targets: &[u32], out: &mut [u8]) -> Result<(), Refusal> {
    answer(raw::export(offsets, targets, out))
}

/// How many mentions there are in texts: places where the bytes of a name stand, whatever stands around them. The names
/// are `width` lower-case hexadecimal digits each, one behind the other, ascending and distinct; named[k] is the object
/// that name k names. The texts stand one behind the other too: text i ends where ends[i] says, and owners[i] is the
/// object that it belongs to. The work is [`SCAN_WORK`] words, all 0, and they are 0 again afterwards.
#[allow(clippy::too_many_arguments)]
pub fn scan_length(
    objects: u32,
    width: u32,
    names: &[u8],
    named: &[u32],
    texts: &[u8],
    ends: &[u64],
    owners: &[u32],
    work: &mut [u32],
) -> Result<u64, Refusal> {
    let mut result = [0];
    answer(raw::scan_length(objects, width, names, named, texts, ends, owners, work, &mut result))?;
    Ok(result[0])
}

/// Writes each mention as a pair `from[i]` -> `to[i]`, by text and then by place: the owner of the text, and the object
/// whose name stands there. Both lists have exactly as many words as [`scan_length`] says. [`add`] takes them as
/// references.
#[allow(clippy::too_many_arguments)]
pub fn scan(
    objects: u32,
    width: u32,
    names: &[u8],
    named: &[u32],
    texts: &[u8],
    ends: &[u64],
    owners: &[u32],
    work: &mut [u32],
    from: &mut [u32],
    to: &mut [u32],
) -> Result<(), Refusal> {
    answer(raw::scan(objects, width, names, named, texts, ends, owners, work, from, to))
}

impl Seed {
    /// Draws a card: moves the two words of the seed on and answers the card of the moved words. Beside a refusal the
    /// seed is as it was.
    pub fn draw(&mut self) -> Result<u32, Refusal> {
        let mut seed = [self.first, self.second];
        let mut result = [0];
        answer(raw::draw(&mut seed, &mut result))?;
        [self.first, self.second] = seed;
        Ok(result[0])
    }

    /// The schedule of so many draws, which is that of their cards; leaves the seed as those draws do. The schedule is
    /// as long as that of so many cards. Beside a refusal seed and schedule are as they were.
    pub fn deal_seed(&mut self, rounds: usize, workers: u32, schedule: &mut [u8]) -> Result<(), Refusal> {
        let mut seed = [self.first, self.second];
        answer(raw::deal_seed(&mut seed, rounds, workers, schedule))?;
        [self.first, self.second] = seed;
        Ok(())
    }
}
