//! The C functions on slices, written by tools/boundary.py from the exported functions: the answer is 0 or a refusal's
//! number, and result words go to a lent buffer. Its length is looked at before all else (another one is 7), and beside
//! a refusal the words are left as they are. Most callers want the functions of the crate itself.

mod c {
    extern "C" {
        pub fn kullneyra_header(bytes: *const u8, bytes_len: usize, result: *mut u32, result_len: usize) -> u32;
        pub fn kullneyra_read(
            bytes: *const u8,
            bytes_len: usize,
            offsets: *mut u32,
            offsets_len: usize,
            targets: *mut u32,
            targets_len: usize,
            sizes: *mut u64,
            sizes_len: usize,
            starts: *mut u32,
            starts_len: usize,
            result: *mut u32,
            result_len: usize,
        ) -> u32;
        pub fn kullneyra_references(
            offsets: *const u32,
            offsets_len: usize,
            targets: *const u32,
            targets_len: usize,
            object: u32,
            result: *mut u64,
            result_len: usize,
        ) -> u32;
        pub fn kullneyra_mark(
            offsets: *const u32,
            offsets_len: usize,
            targets: *const u32,
            targets_len: usize,
            starts: *const u32,
            starts_len: usize,
            workers: u32,
            batch: u32,
            cutoff: u32,
            schedule: *const u8,
            schedule_len: usize,
            marks: *mut u8,
            marks_len: usize,
            work: *mut u32,
            work_len: usize,
            tallies: *mut u64,
            tallies_len: usize,
            result: *mut u64,
            result_len: usize,
        ) -> u32;
        pub fn kullneyra_mark_all(
            offsets: *const u32,
            offsets_len: usize,
            targets: *const u32,
            targets_len: usize,
            starts: *const u32,
            starts_len: usize,
            workers: u32,
            batch: u32,
            cutoff: u32,
            marks: *mut u8,
            marks_len: usize,
            work: *mut u32,
            work_len: usize,
            tallies: *mut u64,
            tallies_len: usize,
            result: *mut u64,
            result_len: usize,
        ) -> u32;
        pub fn kullneyra_saved_words(objects: u32, workers: u32, result: *mut u64, result_len: usize) -> u32;
        pub fn kullneyra_begin(
            offsets: *const u32,
            offsets_len: usize,
            targets: *const u32,
            targets_len: usize,
            starts: *const u32,
            starts_len: usize,
            workers: u32,
            batch: u32,
            cutoff: u32,
            schedule: *const u8,
            schedule_len: usize,
            marks: *mut u8,
            marks_len: usize,
            work: *mut u32,
            work_len: usize,
            tallies: *mut u64,
            tallies_len: usize,
            saved: *mut u32,
            saved_len: usize,
            result: *mut u64,
            result_len: usize,
        ) -> u32;
        pub fn kullneyra_resume(
            offsets: *const u32,
            offsets_len: usize,
            targets: *const u32,
            targets_len: usize,
            starts: *const u32,
            starts_len: usize,
            workers: u32,
            batch: u32,
            cutoff: u32,
            schedule: *const u8,
            schedule_len: usize,
            marks: *mut u8,
            marks_len: usize,
            work: *mut u32,
            work_len: usize,
            tallies: *mut u64,
            tallies_len: usize,
            saved: *mut u32,
            saved_len: usize,
            result: *mut u64,
            result_len: usize,
        ) -> u32;
        pub fn kullneyra_sweep(
            marks: *const u8,
            marks_len: usize,
            sizes: *const u64,
            sizes_len: usize,
            list: *mut u32,
            list_len: usize,
            result: *mut u64,
            result_len: usize,
        ) -> u32;
        pub fn kullneyra_schedule_length(cards: usize, workers: u32, result: *mut u64, result_len: usize) -> u32;
        pub fn kullneyra_deal(
            cards: *const u32,
            cards_len: usize,
            workers: u32,
            schedule: *mut u8,
            schedule_len: usize,
        ) -> u32;
        pub fn kullneyra_draw(seed: *mut u32, seed_len: usize, result: *mut u32, result_len: usize) -> u32;
        pub fn kullneyra_deal_seed(
            seed: *mut u32,
            seed_len: usize,
            rounds: usize,
            workers: u32,
            schedule: *mut u8,
            schedule_len: usize,
        ) -> u32;
        pub fn kullneyra_hop_words(objects: u32, result: *mut u64, result_len: usize) -> u32;
        pub fn kullneyra_hops(
            offsets: *const u32,
            offsets_len: usize,
            targets: *const u32,
            targets_len: usize,
            starts: *const u32,
            starts_len: usize,
            hops: *mut u32,
            hops_len: usize,
            work: *mut u32,
            work_len: usize,
        ) -> u32;
        pub fn kullneyra_update_words(objects: u32, result: *mut u64, result_len: usize) -> u32;
        pub fn kullneyra_add(
            offsets: *const u32,
            offsets_len: usize,
            targets: *const u32,
            targets_len: usize,
            from: *const u32,
            from_len: usize,
            to: *const u32,
            to_len: usize,
            new_offsets: *mut u32,
            new_offsets_len: usize,
            new_targets: *mut u32,
            new_targets_len: usize,
            marks: *mut u8,
            marks_len: usize,
            work: *mut u32,
            work_len: usize,
        ) -> u32;
        pub fn kullneyra_remove(
            offsets: *const u32,
            offsets_len: usize,
            targets: *const u32,
            targets_len: usize,
            numbers: *const u32,
            numbers_len: usize,
            starts: *const u32,
            starts_len: usize,
            new_offsets: *mut u32,
            new_offsets_len: usize,
            new_targets: *mut u32,
            new_targets_len: usize,
            marks: *mut u8,
            marks_len: usize,
            work: *mut u32,
            work_len: usize,
        ) -> u32;
        pub fn kullneyra_market_header(text: *const u8, text_len: usize, result: *mut u32, result_len: usize) -> u32;
        pub fn kullneyra_import(
            text: *const u8,
            text_len: usize,
            offsets: *mut u32,
            offsets_len: usize,
            targets: *mut u32,
            targets_len: usize,
            sizes: *mut u64,
            sizes_len: usize,
            result: *mut u32,
            result_len: usize,
        ) -> u32;
        pub fn kullneyra_export_length(
            offsets: *const u32,
            offsets_len: usize,
            targets: *const u32,
            targets_len: usize,
            result: *mut u64,
            result_len: usize,
        ) -> u32;
        pub fn kullneyra_export(
            offsets: *const u32,
            offsets_len: usize,
            targets: *const u32,
            targets_len: usize,
            out: *mut u8,
            out_len: usize,
        ) -> u32;
        pub fn kullneyra_scan_length(
            objects: u32,
            width: u32,
            names: *const u8,
            names_len: usize,
            named: *const u32,
            named_len: usize,
            texts: *const u8,
            texts_len: usize,
            ends: *const u64,
            ends_len: usize,
            owners: *const u32,
            owners_len: usize,
            work: *mut u32,
            work_len: usize,
            result: *mut u64,
            result_len: usize,
        ) -> u32;
        pub fn kullneyra_scan(
            objects: u32,
            width: u32,
            names: *const u8,
            names_len: usize,
            named: *const u32,
            named_len: usize,
            texts: *const u8,
            texts_len: usize,
            ends: *const u64,
            ends_len: usize,
            owners: *const u32,
            owners_len: usize,
            work: *mut u32,
            work_len: usize,
            from: *mut u32,
            from_len: usize,
            to: *mut u32,
            to_len: usize,
        ) -> u32;
    }
}

/// [`crate::header`] on words. Result words: n, m, index.
pub fn header(bytes: &[u8], result: &mut [u32]) -> u32 {
    // SAFETY: each pointer comes with the length of its own slice, and a slice that is written overlaps no other.
    unsafe { c::kullneyra_header(bytes.as_ptr(), bytes.len(), result.as_mut_ptr(), result.len()) }
}

/// [`crate::read`] on words. Result words: n, m, index, starts.
pub fn read(
    bytes: &[u8],
    offsets: &mut [u32],
    targets: &mut [u32],
    sizes: &mut [u64],
    starts: &mut [u32],
    result: &mut [u32],
) -> u32 {
    // SAFETY: each pointer comes with the length of its own slice, and a slice that is written overlaps no other.
    unsafe {
        c::kullneyra_read(
            bytes.as_ptr(),
            bytes.len(),
            offsets.as_mut_ptr(),
            offsets.len(),
            targets.as_mut_ptr(),
            targets.len(),
            sizes.as_mut_ptr(),
            sizes.len(),
            starts.as_mut_ptr(),
            starts.len(),
            result.as_mut_ptr(),
            result.len(),
        )
    }
}

/// [`crate::references`] on words. Result words: start, length.
pub fn references(offsets: &[u32], targets: &[u32], object: u32, result: &mut [u64]) -> u32 {
    // SAFETY: each pointer comes with the length of its own slice, and a slice that is written overlaps no other.
    unsafe {
        c::kullneyra_references(
            offsets.as_ptr(),
            offsets.len(),
            targets.as_ptr(),
            targets.len(),
            object,
            result.as_mut_ptr(),
            result.len(),
        )
    }
}

/// [`crate::mark`] on words. Result words: finished, live, followed, handed, refused, moved, carrying.
#[allow(clippy::too_many_arguments)]
pub fn mark(
    offsets: &[u32],
    targets: &[u32],
    starts: &[u32],
    workers: u32,
    batch: u32,
    cutoff: u32,
    schedule: &[u8],
    marks: &mut [u8],
    work: &mut [u32],
    tallies: &mut [u64],
    result: &mut [u64],
) -> u32 {
    // SAFETY: each pointer comes with the length of its own slice, and a slice that is written overlaps no other.
    unsafe {
        c::kullneyra_mark(
            offsets.as_ptr(),
            offsets.len(),
            targets.as_ptr(),
            targets.len(),
            starts.as_ptr(),
            starts.len(),
            workers,
            batch,
            cutoff,
            schedule.as_ptr(),
            schedule.len(),
            marks.as_mut_ptr(),
            marks.len(),
            work.as_mut_ptr(),
            work.len(),
            tallies.as_mut_ptr(),
            tallies.len(),
            result.as_mut_ptr(),
            result.len(),
        )
    }
}

/// [`crate::mark_all`] on words. Result words: finished, live, followed, handed, refused, moved, carrying.
#[allow(clippy::too_many_arguments)]
pub fn mark_all(
    offsets: &[u32],
    targets: &[u32],
    starts: &[u32],
    workers: u32,
    batch: u32,
    cutoff: u32,
    marks: &mut [u8],
    work: &mut [u32],
    tallies: &mut [u64],
    result: &mut [u64],
) -> u32 {
    // SAFETY: each pointer comes with the length of its own slice, and a slice that is written overlaps no other.
    unsafe {
        c::kullneyra_mark_all(
            offsets.as_ptr(),
            offsets.len(),
            targets.as_ptr(),
            targets.len(),
            starts.as_ptr(),
            starts.len(),
            workers,
            batch,
            cutoff,
            marks.as_mut_ptr(),
            marks.len(),
            work.as_mut_ptr(),
            work.len(),
            tallies.as_mut_ptr(),
            tallies.len(),
            result.as_mut_ptr(),
            result.len(),
        )
    }
}

/// [`crate::saved_words`] on words. One result word.
pub fn saved_words(objects: u32, workers: u32, result: &mut [u64]) -> u32 {
    // SAFETY: each pointer comes with the length of its own slice, and a slice that is written overlaps no other.
    unsafe { c::kullneyra_saved_words(objects, workers, result.as_mut_ptr(), result.len()) }
}

/// [`crate::begin`] on words. Result words: finished, live, followed, handed, refused, moved, carrying, sound.
#[allow(clippy::too_many_arguments)]
pub fn begin(
    offsets: &[u32],
    targets: &[u32],
    starts: &[u32],
    workers: u32,
    batch: u32,
    cutoff: u32,
    schedule: &[u8],
    marks: &mut [u8],
    work: &mut [u32],
    tallies: &mut [u64],
    saved: &mut [u32],
    result: &mut [u64],
) -> u32 {
    // SAFETY: each pointer comes with the length of its own slice, and a slice that is written overlaps no other.
    unsafe {
        c::kullneyra_begin(
            offsets.as_ptr(),
            offsets.len(),
            targets.as_ptr(),
            targets.len(),
            starts.as_ptr(),
            starts.len(),
            workers,
            batch,
            cutoff,
            schedule.as_ptr(),
            schedule.len(),
            marks.as_mut_ptr(),
            marks.len(),
            work.as_mut_ptr(),
            work.len(),
            tallies.as_mut_ptr(),
            tallies.len(),
            saved.as_mut_ptr(),
            saved.len(),
            result.as_mut_ptr(),
            result.len(),
        )
    }
}

/// [`crate::resume`] on words. Result words: finished, live, followed, handed, refused, moved, carrying, sound.
#[allow(clippy::too_many_arguments)]
pub fn resume(
    offsets: &[u32],
    targets: &[u32],
    starts: &[u32],
    workers: u32,
    batch: u32,
    cutoff: u32,
    schedule: &[u8],
    marks: &mut [u8],
    work: &mut [u32],
    tallies: &mut [u64],
    saved: &mut [u32],
    result: &mut [u64],
) -> u32 {
    // SAFETY: each pointer comes with the length of its own slice, and a slice that is written overlaps no other.
    unsafe {
        c::kullneyra_resume(
            offsets.as_ptr(),
            offsets.len(),
            targets.as_ptr(),
            targets.len(),
            starts.as_ptr(),
            starts.len(),
            workers,
            batch,
            cutoff,
            schedule.as_ptr(),
            schedule.len(),
            marks.as_mut_ptr(),
            marks.len(),
            work.as_mut_ptr(),
            work.len(),
            tallies.as_mut_ptr(),
            tallies.len(),
            saved.as_mut_ptr(),
            saved.len(),
            result.as_mut_ptr(),
            result.len(),
        )
    }
}

/// [`crate::sweep`] on words. Result words: count, freed.
pub fn sweep(marks: &[u8], sizes: &[u64], list: &mut [u32], result: &mut [u64]) -> u32 {
    // SAFETY: each pointer comes with the length of its own slice, and a slice that is written overlaps no other.
    unsafe {
        c::kullneyra_sweep(
            marks.as_ptr(),
            marks.len(),
            sizes.as_ptr(),
            sizes.len(),
            list.as_mut_ptr(),
            list.len(),
            result.as_mut_ptr(),
            result.len(),
        )
    }
}

/// [`crate::schedule_length`] on words. Result words: bytes.
pub fn schedule_length(cards: usize, workers: u32, result: &mut [u64]) -> u32 {
    // SAFETY: each pointer comes with the length of its own slice, and a slice that is written overlaps no other.
    unsafe { c::kullneyra_schedule_length(cards, workers, result.as_mut_ptr(), result.len()) }
}

/// [`crate::deal`] on words. There are no result words.
pub fn deal(cards: &[u32], workers: u32, schedule: &mut [u8]) -> u32 {
    // SAFETY: each pointer comes with the length of its own slice, and a slice that is written overlaps no other.
    unsafe { c::kullneyra_deal(cards.as_ptr(), cards.len(), workers, schedule.as_mut_ptr(), schedule.len()) }
}

/// [`crate::Seed::draw`] on words. Result words: card.
pub fn draw(seed: &mut [u32], result: &mut [u32]) -> u32 {
    // SAFETY: each pointer comes with the length of its own slice, and a slice that is written overlaps no other.
    unsafe { c::kullneyra_draw(seed.as_mut_ptr(), seed.len(), result.as_mut_ptr(), result.len()) }
}

/// [`crate::Seed::deal_seed`] on words. There are no result words.
pub fn deal_seed(seed: &mut [u32], rounds: usize, workers: u32, schedule: &mut [u8]) -> u32 {
    // SAFETY: each pointer comes with the length of its own slice, and a slice that is written overlaps no other.
    unsafe {
        c::kullneyra_deal_seed(seed.as_mut_ptr(), seed.len(), rounds, workers, schedule.as_mut_ptr(), schedule.len())
    }
}

/// [`crate::hop_words`] on words. One result word.
pub fn hop_words(objects: u32, result: &mut [u64]) -> u32 {
    // SAFETY: each pointer comes with the length of its own slice, and a slice that is written overlaps no other.
    unsafe { c::kullneyra_hop_words(objects, result.as_mut_ptr(), result.len()) }
}

/// [`crate::hops`] on words. There are no result words.
pub fn hops(offsets: &[u32], targets: &[u32], starts: &[u32], hops: &mut [u32], work: &mut [u32]) -> u32 {
    // SAFETY: each pointer comes with the length of its own slice, and a slice that is written overlaps no other.
    unsafe {
        c::kullneyra_hops(
            offsets.as_ptr(),
            offsets.len(),
            targets.as_ptr(),
            targets.len(),
            starts.as_ptr(),
            starts.len(),
            hops.as_mut_ptr(),
            hops.len(),
            work.as_mut_ptr(),
            work.len(),
        )
    }
}

/// [`crate::update_words`] on words. One result word.
pub fn update_words(objects: u32, result: &mut [u64]) -> u32 {
    // SAFETY: each pointer comes with the length of its own slice, and a slice that is written overlaps no other.
    unsafe { c::kullneyra_update_words(objects, result.as_mut_ptr(), result.len()) }
}

/// [`crate::add`] on words. There are no result words.
#[allow(clippy::too_many_arguments)]
pub fn add(
    offsets: &[u32],
    targets: &[u32],
    from: &[u32],
    to: &[u32],
    new_offsets: &mut [u32],
    new_targets: &mut [u32],
    marks: &mut [u8],
    work: &mut [u32],
) -> u32 {
    // SAFETY: each pointer comes with the length of its own slice, and a slice that is written overlaps no other.
    unsafe {
        c::kullneyra_add(
            offsets.as_ptr(),
            offsets.len(),
            targets.as_ptr(),
            targets.len(),
            from.as_ptr(),
            from.len(),
            to.as_ptr(),
            to.len(),
            new_offsets.as_mut_ptr(),
            new_offsets.len(),
            new_targets.as_mut_ptr(),
            new_targets.len(),
            marks.as_mut_ptr(),
            marks.len(),
            work.as_mut_ptr(),
            work.len(),
        )
    }
}

/// [`crate::remove`] on words. There are no result words.
#[allow(clippy::too_many_arguments)]
pub fn remove(
    offsets: &[u32],
    targets: &[u32],
    numbers: &[u32],
    starts: &[u32],
    new_offsets: &mut [u32],
    new_targets: &mut [u32],
    marks: &mut [u8],
    work: &mut [u32],
) -> u32 {
    // SAFETY: each pointer comes with the length of its own slice, and a slice that is written overlaps no other.
    unsafe {
        c::kullneyra_remove(
            offsets.as_ptr(),
            offsets.len(),
            targets.as_ptr(),
            targets.len(),
            numbers.as_ptr(),
            numbers.len(),
            starts.as_ptr(),
            starts.len(),
            new_offsets.as_mut_ptr(),
            new_offsets.len(),
            new_targets.as_mut_ptr(),
            new_targets.len(),
            marks.as_mut_ptr(),
            marks.len(),
            work.as_mut_ptr(),
            work.len(),
        )
    }
}

/// [`crate::market_header`] on words. Result words: n, m, index.
pub fn market_header(text: &[u8], result: &mut [u32]) -> u32 {
    // SAFETY: each pointer comes with the length of its own slice, and a slice that is written overlaps no other.
    unsafe { c::kullneyra_market_header(text.as_ptr(), text.len(), result.as_mut_ptr(), result.len()) }
}

/// [`crate::import`] on words. Result words: n, m, index.
pub fn import(text: &[u8], offsets: &mut [u32], targets: &mut [u32], sizes: &mut [u64], result: &mut [u32]) -> u32 {
    // SAFETY: each pointer comes with the length of its own slice, and a slice that is written overlaps no other.
    unsafe {
        c::kullneyra_import(
            text.as_ptr(),
            text.len(),
            offsets.as_mut_ptr(),
            offsets.len(),
            targets.as_mut_ptr(),
            targets.len(),
            sizes.as_mut_ptr(),
            sizes.len(),
            result.as_mut_ptr(),
            result.len(),
        )
    }
}

/// [`crate::export_length`] on words. One result word.
pub fn export_length(offsets: &[u32], targets: &[u32], result: &mut [u64]) -> u32 {
    // SAFETY: each pointer comes with the length of its own slice, and a slice that is written overlaps no other.
    unsafe {
        c::kullneyra_export_length(
            offsets.as_ptr(),
            offsets.len(),
            targets.as_ptr(),
            targets.len(),
            result.as_mut_ptr(),
            result.len(),
        )
    }
}

/// [`crate::export`] on words. There are no result words.
pub fn export(offsets: &[u32], targets: &[u32], out: &mut [u8]) -> u32 {
    // SAFETY: each pointer comes with the length of its own slice, and a slice that is written overlaps no other.
    unsafe {
        c::kullneyra_export(
            offsets.as_ptr(),
            offsets.len(),
            targets.as_ptr(),
            targets.len(),
            out.as_mut_ptr(),
            out.len(),
        )
    }
}

/// [`crate::scan_length`] on words. One result word.
#[allow(clippy::too_many_arguments)]
pub fn scan_length(
    objects: u32,
    width: u32,
    names: &[u8],
    named: &[u32],
    texts: &[u8],
    ends: &[u64],
    owners: &[u32],
    work: &mut [u32],
    result: &mut [u64],
) -> u32 {
    // SAFETY: each pointer comes with the length of its own slice, and a slice that is written overlaps no other.
    unsafe {
        c::kullneyra_scan_length(
            objects,
            width,
            names.as_ptr(),
            names.len(),
            named.as_ptr(),
            named.len(),
            texts.as_ptr(),
            texts.len(),
            ends.as_ptr(),
            ends.len(),
            owners.as_ptr(),
            owners.len(),
            work.as_mut_ptr(),
            work.len(),
            result.as_mut_ptr(),
            result.len(),
        )
    }
}

/// [`crate::scan`] on words. There are no result words.
#[allow(clippy::too_many_arguments)]
pub fn scan(
    objects: u32,
    width: u32,
    names: &[u8],
    named: &[u32],
    texts: &[u8],
    ends: &[u64],
    owners: &[u32],
    work: &mut [u32],
    from: &mut [u32],
    to: &mut [u32],
) -> u32 {
    // SAFETY: each pointer comes with the length of its own slice, and a slice that is written overlaps no other.
    unsafe {
        c::kullneyra_scan(
            objects,
            width,
            names.as_ptr(),
            names.len(),
            named.as_ptr(),
            named.len(),
            texts.as_ptr(),
            texts.len(),
            ends.as_ptr(),
            ends.len(),
            owners.as_ptr(),
            owners.len(),
            work.as_mut_ptr(),
            work.len(),
            from.as_mut_ptr(),
            from.len(),
            to.as_mut_ptr(),
            to.len(),
        )
    }
}
