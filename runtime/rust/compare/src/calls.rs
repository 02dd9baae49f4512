//! The calls by name, those of numbers, and the sides that only pass on, written by tools/boundary.py from the exported
//! functions.

use crate::case::{Call, Mark};
use crate::plain::{self, told_one, WRONG_LENGTH};
use crate::sides::{by_hand, number_of, written, Buffers, Renewal};
use kullneyra::{raw, Schedule, Settings};

impl Call {
    pub const CALLS: usize = 24;
    pub const NAMES: [&'static str; Self::CALLS] = [
        "header",
        "read",
        "references",
        "mark",
        "mark_all",
        "saved_words",
        "begin",
        "resume",
        "sweep",
        "schedule_length",
        "deal",
        "draw",
        "deal_seed",
        "hop_words",
        "hops",
        "update_words",
        "add",
        "remove",
        "market_header",
        "import",
        "export_length",
        "export",
        "scan_length",
        "scan",
    ];
    /// What each call may answer: 0, and its refusals.
    pub const ANSWERS: [&'static [u32]; Self::CALLS] = [
        &[0, 1, 2, 3, 4, 5, 7],
        &[0, 1, 2, 3, 4, 5, 6, 7, 13],
        &[0, 7],
        &[0, 4, 5, 7, 8, 9, 10, 13],
        &[0, 4, 5, 7, 8, 10, 13],
        &[0, 4, 7, 8],
        &[0, 4, 5, 7, 8, 9, 10, 13],
        &[0, 4, 5, 7, 8, 9, 10, 13, 14],
        &[0, 4, 6, 7],
        &[0, 7, 8, 15],
        &[0, 7, 8, 15],
        &[0, 7, 16],
        &[0, 7, 8, 15, 16],
        &[0, 4, 7],
        &[0, 4, 5, 7, 10, 13],
        &[0, 4, 7],
        &[0, 4, 5, 7, 10, 17],
        &[0, 4, 5, 7, 10, 13],
        &[0, 4, 7, 18],
        &[0, 4, 5, 7, 18],
        &[0, 4, 7, 10],
        &[0, 4, 7, 10],
        &[0, 4, 5, 7, 10, 19],
        &[0, 4, 5, 7, 10, 19],
    ];

    pub fn place(&self) -> usize {
        match self {
            Call::Numbers { which, .. } => NUMBER_CALLS[*which].place,
            Call::Header { .. } => 0,
            Call::Read { .. } => 1,
            Call::References { .. } => 2,
            Call::Mark { .. } => 3,
            Call::MarkAll { .. } => 4,
            Call::Begin { .. } => 6,
            Call::Resume { .. } => 7,
            Call::Sweep { .. } => 8,
            Call::Deal { .. } => 10,
            Call::Draw { .. } => 11,
            Call::DealSeed { .. } => 12,
            Call::Hops { .. } => 14,
            Call::Add { .. } => 16,
            Call::Remove { .. } => 17,
            Call::MarketHeader { .. } => 18,
            Call::Import { .. } => 19,
            Call::ExportLength { .. } => 20,
            Call::Export { .. } => 21,
            Call::ScanLength { .. } => 22,
            Call::Scan { .. } => 23,
        }
    }

    /// The right length of the result buffer; 0 for a call that has none.
    pub fn result_words(&self) -> usize {
        [3, 4, 2, 7, 7, 1, 8, 8, 2, 1, 0, 1, 0, 1, 0, 1, 0, 0, 3, 3, 1, 0, 1, 0][self.place()]
    }
}

/// A call that is given numbers alone and answers one.
pub struct NumberCall {
    /// Its place among all calls.
    pub place: usize,
    /// What it is given: the name of each number, and the largest of its type.
    pub given: &'static [(&'static str, u64)],
    /// Makes it on a side, with these numbers and these result words.
    pub make: fn(&dyn Side, &[u64], &mut [u64]) -> u32,
}

pub static NUMBER_CALLS: [NumberCall; 4] = [
    NumberCall {
        place: 5,
        given: &[("objects", u32::MAX as u64), ("workers", u32::MAX as u64)],
        make: |side, given, result| side.saved_words(given[0] as u32, given[1] as u32, result),
    },
    NumberCall {
        place: 9,
        given: &[("cards", usize::MAX as u64), ("workers", u32::MAX as u64)],
        make: |side, given, result| side.schedule_length(given[0] as usize, given[1] as u32, result),
    },
    NumberCall {
        place: 13,
        given: &[("objects", u32::MAX as u64)],
        make: |side, given, result| side.hop_words(given[0] as u32, result),
    },
    NumberCall {
        place: 15,
        given: &[("objects", u32::MAX as u64)],
        make: |side, given, result| side.update_words(given[0] as u32, result),
    },
];

/// The calls as the C header has them. Where a side has none of its own, it is the plain one.
pub trait Side {
    fn header(&self, bytes: &[u8], result: &mut [u32]) -> u32 {
        plain::header(bytes, result)
    }

    fn read(
        &self,
        bytes: &[u8],
        offsets: &mut [u32],
        targets: &mut [u32],
        sizes: &mut [u64],
        starts: &mut [u32],
        result: &mut [u32],
    ) -> u32 {
        plain::read(bytes, offsets, targets, sizes, starts, result)
    }

    fn references(&self, offsets: &[u32], targets: &[u32], object: u32, result: &mut [u64]) -> u32 {
        plain::references(offsets, targets, object, result)
    }

    fn mark(&self, call: &Mark, marks: &mut [u8], work: &mut [u32], tallies: &mut [u64], result: &mut [u64]) -> u32 {
        plain::mark(call, marks, work, tallies, result)
    }

    fn mark_all(
        &self,
        call: &Mark,
        marks: &mut [u8],
        work: &mut [u32],
        tallies: &mut [u64],
        result: &mut [u64],
    ) -> u32 {
        plain::mark_all(call, marks, work, tallies, result)
    }

    fn saved_words(&self, objects: u32, workers: u32, result: &mut [u64]) -> u32 {
        told_one(result, || reference::saved_words(objects, workers))
    }

    fn begin(&self, call: &Mark, lent: &mut Buffers<'_>) -> u32 {
        plain::begin(call, lent)
    }

    fn resume(&self, call: &Mark, lent: &mut Buffers<'_>) -> u32 {
        plain::resume(call, lent)
    }

    fn sweep(&self, marks: &[u8], sizes: &[u64], list: &mut [u32], result: &mut [u64]) -> u32 {
        plain::sweep(marks, sizes, list, result)
    }

    fn schedule_length(&self, cards: usize, workers: u32, result: &mut [u64]) -> u32 {
        told_one(result, || reference::schedule_length(cards, workers))
    }

    fn deal(&self, cards: &[u32], workers: u32, schedule: &mut [u8]) -> u32 {
        plain::deal(cards, workers, schedule)
    }

    fn draw(&self, seed: &mut [u32], result: &mut [u32]) -> u32 {
        plain::draw(seed, result)
    }

    fn deal_seed(&self, seed: &mut [u32], rounds: usize, workers: u32, schedule: &mut [u8]) -> u32 {
        plain::deal_seed(seed, rounds, workers, schedule)
    }

    fn hop_words(&self, objects: u32, result: &mut [u64]) -> u32 {
        told_one(result, || reference::hop_words(objects))
    }

    fn hops(&self, offsets: &[u32], targets: &[u32], starts: &[u32], hops: &mut [u32], work: &mut [u32]) -> u32 {
        plain::hops(offsets, targets, starts, hops, work)
    }

    fn update_words(&self, objects: u32, result: &mut [u64]) -> u32 {
        told_one(result, || reference::update_words(objects))
    }

    fn add(&self, offsets: &[u32], targets: &[u32], from: &[u32], to: &[u32], lent: &mut Renewal<'_>) -> u32 {
        plain::add(offsets, targets, from, to, lent)
    }

    fn remove(&self, offsets: &[u32], targets: &[u32], numbers: &[u32], starts: &[u32], lent: &mut Renewal<'_>) -> u32 {
        plain::remove(offsets, targets, numbers, starts, lent)
    }

    fn market_header(&self, text: &[u8], result: &mut [u32]) -> u32 {
        plain::market_header(text, result)
    }

    fn import(
        &self,
        text: &[u8],
        offsets: &mut [u32],
        targets: &mut [u32],
        sizes: &mut [u64],
        result: &mut [u32],
    ) -> u32 {
        plain::import(text, offsets, targets, sizes, result)
    }

    fn export_length(&self, offsets: &[u32], targets: &[u32], result: &mut [u64]) -> u32 {
        plain::export_length(offsets, targets, result)
    }

    fn export(&self, offsets: &[u32], targets: &[u32], out: &mut [u8]) -> u32 {
        plain::export(offsets, targets, out)
    }

    #[allow(clippy::too_many_arguments)]
    fn scan_length(
        &self,
        objects: u32,
        width: u32,
        names: &[u8],
        named: &[u32],
        texts: &[u8],
        ends: &[u64],
        owners: &[u32],
        work: &mut [u32],
        result: &mut [u64],
    ) -> u32 {
        plain::scan_length(objects, width, names, named, texts, ends, owners, work, result)
    }

    #[allow(clippy::too_many_arguments)]
    fn scan(
        &self,
        objects: u32,
        width: u32,
        names: &[u8],
        named: &[u32],
        texts: &[u8],
        ends: &[u64],
        owners: &[u32],
        work: &mut [u32],
        from: &mut [u32],
        to: &mut [u32],
    ) -> u32 {
        plain::scan(objects, width, names, named, texts, ends, owners, work, from, to)
    }
}

/// The proved library by its C functions.
pub struct Proved;

impl Side for Proved {
    fn header(&self, bytes: &[u8], result: &mut [u32]) -> u32 {
        raw::header(bytes, result)
    }

    fn read(
        &self,
        bytes: &[u8],
        offsets: &mut [u32],
        targets: &mut [u32],
        sizes: &mut [u64],
        starts: &mut [u32],
        result: &mut [u32],
    ) -> u32 {
        raw::read(bytes, offsets, targets, sizes, starts, result)
    }

    fn references(&self, offsets: &[u32], targets: &[u32], object: u32, result: &mut [u64]) -> u32 {
        raw::references(offsets, targets, object, result)
    }

    fn mark(&self, call: &Mark, marks: &mut [u8], work: &mut [u32], tallies: &mut [u64], result: &mut [u64]) -> u32 {
        raw::mark(
            &call.offsets,
            &call.targets,
            &call.starts,
            call.workers,
            call.batch,
            call.cutoff,
            &call.schedule,
            marks,
            work,
            tallies,
            result,
        )
    }

    fn mark_all(
        &self,
        call: &Mark,
        marks: &mut [u8],
        work: &mut [u32],
        tallies: &mut [u64],
        result: &mut [u64],
    ) -> u32 {
        raw::mark_all(
            &call.offsets,
            &call.targets,
            &call.starts,
            call.workers,
            call.batch,
            call.cutoff,
            marks,
            work,
            tallies,
            result,
        )
    }

    fn saved_words(&self, objects: u32, workers: u32, result: &mut [u64]) -> u32 {
        raw::saved_words(objects, workers, result)
    }

    fn begin(&self, call: &Mark, lent: &mut Buffers<'_>) -> u32 {
        raw::begin(
            &call.offsets,
            &call.targets,
            &call.starts,
            call.workers,
            call.batch,
            call.cutoff,
            &call.schedule,
            lent.marks,
            lent.work,
            lent.tallies,
            lent.saved,
            lent.result,
        )
    }

    fn resume(&self, call: &Mark, lent: &mut Buffers<'_>) -> u32 {
        raw::resume(
            &call.offsets,
            &call.targets,
            &call.starts,
            call.workers,
            call.batch,
            call.cutoff,
            &call.schedule,
            lent.marks,
            lent.work,
            lent.tallies,
            lent.saved,
            lent.result,
        )
    }

    fn sweep(&self, marks: &[u8], sizes: &[u64], list: &mut [u32], result: &mut [u64]) -> u32 {
        raw::sweep(marks, sizes, list, result)
    }

    fn schedule_length(&self, cards: usize, workers: u32, result: &mut [u64]) -> u32 {
        raw::schedule_length(cards, workers, result)
    }

    fn deal(&self, cards: &[u32], workers: u32, schedule: &mut [u8]) -> u32 {
        raw::deal(cards, workers, schedule)
    }

    fn draw(&self, seed: &mut [u32], result: &mut [u32]) -> u32 {
        raw::draw(seed, result)
    }

    fn deal_seed(&self, seed: &mut [u32], rounds: usize, workers: u32, schedule: &mut [u8]) -> u32 {
        raw::deal_seed(seed, rounds, workers, schedule)
    }

    fn hop_words(&self, objects: u32, result: &mut [u64]) -> u32 {
        raw::hop_words(objects, result)
    }

    fn hops(&self, offsets: &[u32], targets: &[u32], starts: &[u32], hops: &mut [u32], work: &mut [u32]) -> u32 {
        raw::hops(offsets, targets, starts, hops, work)
    }

    fn update_words(&self, objects: u32, result: &mut [u64]) -> u32 {
        raw::update_words(objects, result)
    }

    fn add(&self, offsets: &[u32], targets: &[u32], from: &[u32], to: &[u32], lent: &mut Renewal<'_>) -> u32 {
        raw::add(offsets, targets, from, to, lent.offsets, lent.targets, lent.marks, lent.work)
    }

    fn remove(&self, offsets: &[u32], targets: &[u32], numbers: &[u32], starts: &[u32], lent: &mut Renewal<'_>) -> u32 {
        raw::remove(offsets, targets, numbers, starts, lent.offsets, lent.targets, lent.marks, lent.work)
    }

    fn market_header(&self, text: &[u8], result: &mut [u32]) -> u32 {
        raw::market_header(text, result)
    }

    fn import(
        &self,
        text: &[u8],
        offsets: &mut [u32],
        targets: &mut [u32],
        sizes: &mut [u64],
        result: &mut [u32],
    ) -> u32 {
        raw::import(text, offsets, targets, sizes, result)
    }

    fn export_length(&self, offsets: &[u32], targets: &[u32], result: &mut [u64]) -> u32 {
        raw::export_length(offsets, targets, result)
    }

    fn export(&self, offsets: &[u32], targets: &[u32], out: &mut [u8]) -> u32 {
        raw::export(offsets, targets, out)
    }

    #[allow(clippy::too_many_arguments)]
    fn scan_length(
        &self,
        objects: u32,
        width: u32,
        names: &[u8],
        named: &[u32],
        texts: &[u8],
        ends: &[u64],
        owners: &[u32],
        work: &mut [u32],
        result: &mut [u64],
    ) -> u32 {
        raw::scan_length(objects, width, names, named, texts, ends, owners, work, result)
    }

    #[allow(clippy::too_many_arguments)]
    fn scan(
        &self,
        objects: u32,
        width: u32,
        names: &[u8],
        named: &[u32],
        texts: &[u8],
        ends: &[u64],
        owners: &[u32],
        work: &mut [u32],
        from: &mut [u32],
        to: &mut [u32],
    ) -> u32 {
        raw::scan(objects, width, names, named, texts, ends, owners, work, from, to)
    }
}

/// The proved library by its Rust types. The result buffer has the right length.
pub struct Typed;

impl Side for Typed {
    fn header(&self, bytes: &[u8], result: &mut [u32]) -> u32 {
        let answer = kullneyra::header(bytes);
        written(answer.map(kullneyra::Header::words), result)
    }

    fn read(
        &self,
        bytes: &[u8],
        offsets: &mut [u32],
        targets: &mut [u32],
        sizes: &mut [u64],
        starts: &mut [u32],
        result: &mut [u32],
    ) -> u32 {
        let answer = kullneyra::read(bytes, offsets, targets, sizes, starts);
        written(answer.map(kullneyra::Store::words), result)
    }

    fn references(&self, offsets: &[u32], targets: &[u32], object: u32, result: &mut [u64]) -> u32 {
        by_hand::references(offsets, targets, object, result)
    }

    fn mark(&self, call: &Mark, marks: &mut [u8], work: &mut [u32], tallies: &mut [u64], result: &mut [u64]) -> u32 {
        let answer = kullneyra::mark(
            &call.offsets,
            &call.targets,
            &call.starts,
            Settings { workers: call.workers, batch: call.batch, cutoff: call.cutoff },
            Schedule::from_bytes(&call.schedule),
            marks,
            work,
            tallies,
        );
        written(answer.map(kullneyra::Marked::words), result)
    }

    fn mark_all(
        &self,
        call: &Mark,
        marks: &mut [u8],
        work: &mut [u32],
        tallies: &mut [u64],
        result: &mut [u64],
    ) -> u32 {
        let answer = kullneyra::mark_all(
            &call.offsets,
            &call.targets,
            &call.starts,
            Settings { workers: call.workers, batch: call.batch, cutoff: call.cutoff },
            marks,
            work,
            tallies,
        );
        written(answer.map(kullneyra::Marked::words), result)
    }

    fn saved_words(&self, objects: u32, workers: u32, result: &mut [u64]) -> u32 {
        let answer = kullneyra::saved_words(objects, workers);
        written(answer.map(|word| [word]), result)
    }

    fn begin(&self, call: &Mark, lent: &mut Buffers<'_>) -> u32 {
        let answer = kullneyra::begin(
            &call.offsets,
            &call.targets,
            &call.starts,
            Settings { workers: call.workers, batch: call.batch, cutoff: call.cutoff },
            Schedule::from_bytes(&call.schedule),
            lent.marks,
            lent.work,
            lent.tallies,
            lent.saved,
        );
        written(answer.map(kullneyra::Stopped::words), lent.result)
    }

    fn resume(&self, call: &Mark, lent: &mut Buffers<'_>) -> u32 {
        let answer = kullneyra::resume(
            &call.offsets,
            &call.targets,
            &call.starts,
            Settings { workers: call.workers, batch: call.batch, cutoff: call.cutoff },
            Schedule::from_bytes(&call.schedule),
            lent.marks,
            lent.work,
            lent.tallies,
            lent.saved,
        );
        written(answer.map(kullneyra::Stopped::words), lent.result)
    }

    fn sweep(&self, marks: &[u8], sizes: &[u64], list: &mut [u32], result: &mut [u64]) -> u32 {
        let answer = kullneyra::sweep(marks, sizes, list);
        written(answer.map(kullneyra::Swept::words), result)
    }

    fn schedule_length(&self, cards: usize, workers: u32, result: &mut [u64]) -> u32 {
        let answer = kullneyra::schedule_length(cards, workers);
        written(answer.map(|word| [word]), result)
    }

    fn deal(&self, cards: &[u32], workers: u32, schedule: &mut [u8]) -> u32 {
        let answer = kullneyra::deal(cards, workers, schedule);
        number_of(answer)
    }

    fn draw(&self, seed: &mut [u32], result: &mut [u32]) -> u32 {
        let mut words = kullneyra::Seed { first: seed[0], second: seed[1] };
        let answer = words.draw();
        seed.copy_from_slice(&[words.first, words.second]);
        written(answer.map(|word| [word]), result)
    }

    fn deal_seed(&self, seed: &mut [u32], rounds: usize, workers: u32, schedule: &mut [u8]) -> u32 {
        let mut words = kullneyra::Seed { first: seed[0], second: seed[1] };
        let answer = words.deal_seed(rounds, workers, schedule);
        seed.copy_from_slice(&[words.first, words.second]);
        number_of(answer)
    }

    fn hop_words(&self, objects: u32, result: &mut [u64]) -> u32 {
        let answer = kullneyra::hop_words(objects);
        written(answer.map(|word| [word]), result)
    }

    fn hops(&self, offsets: &[u32], targets: &[u32], starts: &[u32], hops: &mut [u32], work: &mut [u32]) -> u32 {
        let answer = kullneyra::hops(offsets, targets, starts, hops, work);
        number_of(answer)
    }

    fn update_words(&self, objects: u32, result: &mut [u64]) -> u32 {
        let answer = kullneyra::update_words(objects);
        written(answer.map(|word| [word]), result)
    }

    fn add(&self, offsets: &[u32], targets: &[u32], from: &[u32], to: &[u32], lent: &mut Renewal<'_>) -> u32 {
        let answer = kullneyra::add(offsets, targets, from, to, lent.offsets, lent.targets, lent.marks, lent.work);
        number_of(answer)
    }

    fn remove(&self, offsets: &[u32], targets: &[u32], numbers: &[u32], starts: &[u32], lent: &mut Renewal<'_>) -> u32 {
        let answer =
            kullneyra::remove(offsets, targets, numbers, starts, lent.offsets, lent.targets, lent.marks, lent.work);
        number_of(answer)
    }

    fn market_header(&self, text: &[u8], result: &mut [u32]) -> u32 {
        let answer = kullneyra::market_header(text);
        written(answer.map(kullneyra::Header::words), result)
    }

    fn import(
        &self,
        text: &[u8],
        offsets: &mut [u32],
        targets: &mut [u32],
        sizes: &mut [u64],
        result: &mut [u32],
    ) -> u32 {
        let answer = kullneyra::import(text, offsets, targets, sizes);
        written(answer.map(kullneyra::Header::words), result)
    }

    fn export_length(&self, offsets: &[u32], targets: &[u32], result: &mut [u64]) -> u32 {
        let answer = kullneyra::export_length(offsets, targets);
        written(answer.map(|word| [word]), result)
    }

    fn export(&self, offsets: &[u32], targets: &[u32], out: &mut [u8]) -> u32 {
        let answer = kullneyra::export(offsets, targets, out);
        number_of(answer)
    }

    #[allow(clippy::too_many_arguments)]
    fn scan_length(
        &self,
        objects: u32,
        width: u32,
        names: &[u8],
        named: &[u32],
        texts: &[u8],
        ends: &[u64],
        owners: &[u32],
        work: &mut [u32],
        result: &mut [u64],
    ) -> u32 {
        let answer = kullneyra::scan_length(objects, width, names, named, texts, ends, owners, work);
        written(answer.map(|word| [word]), result)
    }

    #[allow(clippy::too_many_arguments)]
    fn scan(
        &self,
        objects: u32,
        width: u32,
        names: &[u8],
        named: &[u32],
        texts: &[u8],
        ends: &[u64],
        owners: &[u32],
        work: &mut [u32],
        from: &mut [u32],
        to: &mut [u32],
    ) -> u32 {
        let answer = kullneyra::scan(objects, width, names, named, texts, ends, owners, work, from, to);
        number_of(answer)
    }
}

/// Writes nothing, as beside a refusal: the buffers as they were beforehand.
pub struct Untouched;

impl Side for Untouched {
    fn header(&self, _: &[u8], _: &mut [u32]) -> u32 {
        WRONG_LENGTH
    }

    fn read(&self, _: &[u8], _: &mut [u32], _: &mut [u32], _: &mut [u64], _: &mut [u32], _: &mut [u32]) -> u32 {
        WRONG_LENGTH
    }

    fn references(&self, _: &[u32], _: &[u32], _: u32, _: &mut [u64]) -> u32 {
        WRONG_LENGTH
    }

    fn mark(&self, _: &Mark, _: &mut [u8], _: &mut [u32], _: &mut [u64], _: &mut [u64]) -> u32 {
        WRONG_LENGTH
    }

    fn mark_all(&self, _: &Mark, _: &mut [u8], _: &mut [u32], _: &mut [u64], _: &mut [u64]) -> u32 {
        WRONG_LENGTH
    }

    fn saved_words(&self, _: u32, _: u32, _: &mut [u64]) -> u32 {
        WRONG_LENGTH
    }

    fn begin(&self, _: &Mark, _: &mut Buffers<'_>) -> u32 {
        WRONG_LENGTH
    }

    fn resume(&self, _: &Mark, _: &mut Buffers<'_>) -> u32 {
        WRONG_LENGTH
    }

    fn sweep(&self, _: &[u8], _: &[u64], _: &mut [u32], _: &mut [u64]) -> u32 {
        WRONG_LENGTH
    }

    fn schedule_length(&self, _: usize, _: u32, _: &mut [u64]) -> u32 {
        WRONG_LENGTH
    }

    fn deal(&self, _: &[u32], _: u32, _: &mut [u8]) -> u32 {
        WRONG_LENGTH
    }

    fn draw(&self, _: &mut [u32], _: &mut [u32]) -> u32 {
        WRONG_LENGTH
    }

    fn deal_seed(&self, _: &mut [u32], _: usize, _: u32, _: &mut [u8]) -> u32 {
        WRONG_LENGTH
    }

    fn hop_words(&self, _: u32, _: &mut [u64]) -> u32 {
        WRONG_LENGTH
    }

    fn hops(&self, _: &[u32], _: &[u32], _: &[u32], _: &mut [u32], _: &mut [u32]) -> u32 {
        WRONG_LENGTH
    }

    fn update_words(&self, _: u32, _: &mut [u64]) -> u32 {
        WRONG_LENGTH
    }

    fn add(&self, _: &[u32], _: &[u32], _: &[u32], _: &[u32], _: &mut Renewal<'_>) -> u32 {
        WRONG_LENGTH
    }

    fn remove(&self, _: &[u32], _: &[u32], _: &[u32], _: &[u32], _: &mut Renewal<'_>) -> u32 {
        WRONG_LENGTH
    }

    fn market_header(&self, _: &[u8], _: &mut [u32]) -> u32 {
        WRONG_LENGTH
    }

    fn import(&self, _: &[u8], _: &mut [u32], _: &mut [u32], _: &mut [u64], _: &mut [u32]) -> u32 {
        WRONG_LENGTH
    }

    fn export_length(&self, _: &[u32], _: &[u32], _: &mut [u64]) -> u32 {
        WRONG_LENGTH
    }

    fn export(&self, _: &[u32], _: &[u32], _: &mut [u8]) -> u32 {
        WRONG_LENGTH
    }

    #[allow(clippy::too_many_arguments)]
    fn scan_length(
        &self,
        _: u32,
        _: u32,
        _: &[u8],
        _: &[u32],
        _: &[u8],
        _: &[u64],
        _: &[u32],
        _: &mut [u32],
        _: &mut [u64],
    ) -> u32 {
        WRONG_LENGTH
    }

    #[allow(clippy::too_many_arguments)]
    fn scan(
        &self,
        _: u32,
        _: u32,
        _: &[u8],
        _: &[u32],
        _: &[u8],
        _: &[u64],
        _: &[u32],
        _: &mut [u32],
        _: &mut [u32],
        _: &mut [u32],
    ) -> u32 {
        WRONG_LENGTH
    }
}
