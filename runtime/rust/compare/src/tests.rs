//! The comparison finds what it should: sides with one fault each, made from the reference.

use crate::case::{Call, Case, Mark, Update};
use crate::draw::number;
use crate::judge::{demands, judge, same};
use crate::large::LARGE;
use crate::lent::after;
use crate::rng::Rng;
use crate::sides::{Buffers, Reference, Renewal, Side, Untouched};
use crate::{case_of, SEED};

/// The reference with one fault.
#[derive(Clone, Copy, PartialEq)]
enum Fault {
    None,
    /// The list's zeros are left out.
    ListNotPadded,
    /// So are those behind the starts.
    StartsNotPadded,
    /// A subject is stored as it is written.
    SubjectsNotExchanged,
    /// Marks are cleared before the schedule is checked.
    MarksClearedBesideRefusal,
    /// The owner of an object is forgotten: its mark is 1.
    OwnersForgotten,
    /// Tallies are cleared before the schedule is checked.
    TalliesClearedBesideRefusal,
    /// What the workers did is not written.
    TalliesForgotten,
    /// One word too far is written.
    PastTheEnd,
    /// A result buffer that is too long is taken.
    LongResultTaken,
    /// Sizes are checked before lengths.
    ChecksExchanged,
    /// A word too few is told.
    SavedWordsShort,
    /// The largest hand that has a schedule is refused.
    LargestHandRefused,
    /// The since of a worker that is not busy is not saved.
    SinceForgotten,
    /// The saved words are touched before they are found unsound.
    SavedClearedBesideRefusal,
    /// The count of refusals begins anew when a collection is taken up.
    RefusedRestarted,
    /// 14 before 9.
    UnsoundBeforeSchedule,
    /// Whatever was saved is taken up without moved's bound, or without that of the sinces.
    MovedNotLooked,
    SinceNotLooked,
    /// The last worker of a round asks itself.
    LastAsksItself,
    /// A whole collection does not count the turn in which the last worker ends.
    LastTurnForgotten,
    /// A refused draw moves the second word.
    RefusedSeedMoved,
    /// The seed is moved by one draw too few.
    SeedOneDrawBehind,
    FarthestLost,
    /// 255 is written over an older mark.
    OlderMarkLost,
    /// A start is marked as what it reaches.
    StartsNotTold,
    /// A line of a text may end in a carriage return and a line feed.
    CarriageReturnTaken,
    /// Offsets are cleared before the pairs are looked at.
    OffsetsClearedBesideRefusal,
    /// A text ends without a line feed.
    LastFeedLost,
}

impl Side for Fault {
    fn header(&self, bytes: &[u8], result: &mut [u32]) -> u32 {
        match self {
            Fault::LongResultTaken if result.len() > 3 => Reference.header(bytes, &mut result[..3]),
            _ => Reference.header(bytes, result),
        }
    }

    fn read(
        &self,
        bytes: &[u8],
        o: &mut [u32],
        t: &mut [u32],
        s: &mut [u64],
        starts: &mut [u32],
        result: &mut [u32],
    ) -> u32 {
        let before = starts.to_vec();
        let mut bytes = bytes.to_vec();
        if *self == Fault::SubjectsNotExchanged && bytes.len() > 16 {
            bytes[16..].chunks_exact_mut(12).filter(|one| one[..4] == [12, 0, 5, 0]).for_each(|one| one[2] = 3);
        }
        let number = Reference.read(&bytes, o, t, s, starts, result);
        if *self == Fault::StartsNotPadded && number == 0 {
            let count = result[3] as usize;
            starts[count..].copy_from_slice(&before[count..]);
        }
        if *self == Fault::PastTheEnd && number == 0 {
            // SAFETY: a guard follows every lent buffer.
            unsafe { *o.as_mut_ptr().add(o.len()) ^= 1 };
        }
        number
    }

    fn mark(&self, call: &Mark, marks: &mut [u8], work: &mut [u32], tallies: &mut [u64], result: &mut [u64]) -> u32 {
        let before = tallies.to_vec();
        let number = Reference.mark(call, marks, work, tallies, result);
        if *self == Fault::TalliesClearedBesideRefusal && number == 9 {
            tallies.fill(0);
        }
        if *self == Fault::TalliesForgotten {
            tallies.copy_from_slice(&before);
        }
        if *self == Fault::MarksClearedBesideRefusal && number == 9 {
            marks.fill(0);
        }
        if *self == Fault::OwnersForgotten && number == 0 {
            marks.iter_mut().for_each(|mark| *mark = (*mark).min(1));
        }
        number
    }

    fn mark_all(
        &self,
        call: &Mark,
        marks: &mut [u8],
        work: &mut [u32],
        tallies: &mut [u64],
        result: &mut [u64],
    ) -> u32 {
        let number = Reference.mark_all(call, marks, work, tallies, result);
        if *self == Fault::LastTurnForgotten && number == 0 {
            result[5] -= 1;
        }
        number
    }

    fn sweep(&self, marks: &[u8], sizes: &[u64], list: &mut [u32], result: &mut [u64]) -> u32 {
        let before = list.to_vec();
        let number = Reference.sweep(marks, sizes, list, result);
        match self {
            Fault::ListNotPadded if number == 0 => {
                let count = result[0] as usize;
                list[count..].copy_from_slice(&before[count..]);
                0
            }
            Fault::ChecksExchanged if number == 7 && sizes.iter().any(|&size| size > reference::LARGEST_SIZE) => 6,
            _ => number,
        }
    }

    fn saved_words(&self, objects: u32, workers: u32, result: &mut [u64]) -> u32 {
        let number = Reference.saved_words(objects, workers, result);
        if *self == Fault::SavedWordsShort && number == 0 {
            result[0] -= 1;
        }
        number
    }

    fn schedule_length(&self, cards: usize, workers: u32, result: &mut [u64]) -> u32 {
        match (self, Reference.schedule_length(cards, workers, &mut [0])) {
            (Fault::LargestHandRefused, 0) if cards == usize::MAX / (2 * workers as usize) => 7,
            _ => Reference.schedule_length(cards, workers, result),
        }
    }

    fn begin(&self, call: &Mark, lent: &mut Buffers<'_>) -> u32 {
        let number = Reference.begin(call, lent);
        if *self == Fault::SinceForgotten && number == 0 {
            let places = call.places();
            for worker in (0..places.workers).map(|b| places.worker(b)) {
                if lent.saved[worker] < 5 {
                    lent.saved[worker + 2] = 0;
                }
            }
        }
        number
    }

    fn resume(&self, call: &Mark, lent: &mut Buffers<'_>) -> u32 {
        let refused = lent.saved.get(7).copied().unwrap_or(0);
        let before = lent.saved.to_vec();
        let number = Reference.resume(call, lent);
        match self {
            Fault::RefusedRestarted if number == 0 => {
                lent.saved[7] -= refused;
                lent.result[4] -= u64::from(refused);
                number
            }
            Fault::SavedClearedBesideRefusal if number == 14 => {
                lent.saved.fill(0);
                number
            }
            Fault::UnsoundBeforeSchedule if number == 9 && !reference::unsound(call.call(), &before).is_empty() => 14,
            Fault::MovedNotLooked if number == 14 && reference::unsound(call.call(), &before) == [20] => 0,
            Fault::SinceNotLooked if number == 14 && reference::unsound(call.call(), &before) == [22] => 0,
            _ => number,
        }
    }

    fn deal(&self, cards: &[u32], workers: u32, schedule: &mut [u8]) -> u32 {
        let number = Reference.deal(cards, workers, schedule);
        if *self == Fault::LastAsksItself && number == 0 {
            schedule
                .chunks_exact_mut(2 * workers as usize)
                .for_each(|round| round[round.len() - 1] = round[round.len() - 2]);
        }
        number
    }

    fn draw(&self, seed: &mut [u32], result: &mut [u32]) -> u32 {
        let number = Reference.draw(seed, result);
        if *self == Fault::RefusedSeedMoved && number == 16 {
            seed[1] = seed[1].wrapping_add(362_437);
        }
        number
    }

    fn deal_seed(&self, seed: &mut [u32], rounds: usize, workers: u32, schedule: &mut [u8]) -> u32 {
        let before = seed.to_vec();
        let number = Reference.deal_seed(seed, rounds, workers, schedule);
        if *self == Fault::SeedOneDrawBehind && number == 0 && rounds > 0 {
            seed.copy_from_slice(&before);
            (1..rounds).for_each(|_| assert_eq!(Reference.draw(seed, &mut [0]), 0));
        }
        number
    }

    fn hops(&self, offsets: &[u32], targets: &[u32], starts: &[u32], hops: &mut [u32], work: &mut [u32]) -> u32 {
        let number = Reference.hops(offsets, targets, starts, hops, work);
        if *self == Fault::FarthestLost && number == 0 {
            let most = hops.iter().copied().filter(|&hop| hop != reference::NO_HOPS).max();
            hops.iter_mut().filter(|hop| Some(**hop) == most).for_each(|hop| *hop = reference::NO_HOPS);
        }
        number
    }

    fn add(&self, offsets: &[u32], targets: &[u32], from: &[u32], to: &[u32], lent: &mut Renewal<'_>) -> u32 {
        let number = Reference.add(offsets, targets, from, to, lent);
        if *self == Fault::OlderMarkLost && number == 0 {
            lent.marks.iter_mut().filter(|mark| **mark != 0).for_each(|mark| *mark = 255);
        }
        number
    }

    fn remove(&self, offsets: &[u32], targets: &[u32], numbers: &[u32], starts: &[u32], lent: &mut Renewal<'_>) -> u32 {
        let number = Reference.remove(offsets, targets, numbers, starts, lent);
        if *self == Fault::StartsNotTold && number == 0 {
            lent.marks.iter_mut().filter(|mark| **mark != 0).for_each(|mark| *mark = 255);
        }
        number
    }

    fn import(
        &self,
        text: &[u8],
        offsets: &mut [u32],
        targets: &mut [u32],
        sizes: &mut [u64],
        result: &mut [u32],
    ) -> u32 {
        // Each carriage return in front of a line feed is taken away.
        let mut text = text.to_vec();
        if *self == Fault::CarriageReturnTaken {
            let ends = |i: usize| text[i] == b'\r' && text.get(i + 1) == Some(&b'\n');
            text = (0..text.len()).filter(|&i| !ends(i)).map(|i| text[i]).collect();
        }
        let number = Reference.import(&text, offsets, targets, sizes, result);
        if *self == Fault::OffsetsClearedBesideRefusal && number == 5 {
            offsets.fill(0);
        }
        number
    }

    fn export(&self, offsets: &[u32], targets: &[u32], out: &mut [u8]) -> u32 {
        let number = Reference.export(offsets, targets, out);
        if *self == Fault::LastFeedLost && number == 0 {
            out[out.len() - 1] = b' ';
        }
        number
    }
}

/// The first small case in which the faulty side differs.
fn found(fault: Fault) -> Option<u64> {
    (LARGE..LARGE + 16_000).find(|&number| {
        let case = case_of(SEED, number);
        same(&case, &fault, &after(&case, &Reference)).is_err()
    })
}

#[test]
fn faults_are_found() {
    assert_eq!(found(Fault::None), None);
    assert!(found(Fault::ListNotPadded).is_some());
    assert!(found(Fault::StartsNotPadded).is_some());
    assert!(found(Fault::SubjectsNotExchanged).is_some());
    assert!(found(Fault::MarksClearedBesideRefusal).is_some());
    assert!(found(Fault::OwnersForgotten).is_some());
    assert!(found(Fault::TalliesClearedBesideRefusal).is_some());
    assert!(found(Fault::TalliesForgotten).is_some());
    assert!(found(Fault::PastTheEnd).is_some());
    assert!(found(Fault::LongResultTaken).is_some());
    assert!(found(Fault::ChecksExchanged).is_some());
    assert!(found(Fault::SavedWordsShort).is_some());
    assert!(found(Fault::LargestHandRefused).is_some());
    assert!(found(Fault::SinceForgotten).is_some());
    assert!(found(Fault::SavedClearedBesideRefusal).is_some());
    assert!(found(Fault::RefusedRestarted).is_some());
    assert!(found(Fault::UnsoundBeforeSchedule).is_some());
    assert!(found(Fault::MovedNotLooked).is_some());
    assert!(found(Fault::SinceNotLooked).is_some());
    assert!(found(Fault::LastAsksItself).is_some());
    assert!(found(Fault::LastTurnForgotten).is_some());
    assert!(found(Fault::RefusedSeedMoved).is_some());
    assert!(found(Fault::SeedOneDrawBehind).is_some());
    assert!(found(Fault::FarthestLost).is_some());
    assert!(found(Fault::OlderMarkLost).is_some());
    assert!(found(Fault::StartsNotTold).is_some());
    assert!(found(Fault::CarriageReturnTaken).is_some());
    assert!(found(Fault::OffsetsClearedBesideRefusal).is_some());
    assert!(found(Fault::LastFeedLost).is_some());
}

#[test]
fn a_case_depends_on_its_seed_and_number_alone() {
    assert_eq!(case_of(7, 1_234), case_of(7, 1_234));
    assert_ne!(case_of(7, 1_234), case_of(8, 1_234));
    assert_ne!(case_of(7, 1_234), case_of(7, 1_235));
}

/// As many references as a store may have, and one more.
#[test]
fn the_enlarged_store_at_its_limit() {
    for (count, wanted) in [(reference::MOST_REFERENCES, 0), (reference::MOST_REFERENCES + 1, 4)] {
        let update = Update {
            offsets: vec![0, 0],
            targets: Vec::new(),
            marks: vec![1],
            new_offsets: 2,
            new_targets: count,
            work: 1,
        };
        let (from, to) = (vec![0; count], vec![0; count]);
        let case = Case { result: 0, fill: 5, call: Call::Add { update, from, to } };
        let plain = after(&case, &Reference);
        assert_eq!(plain.number, wanted);
        assert_eq!(judge(&case), Ok(plain));
    }
}

/// A number of any name is drawn at its edges, and fits its type.
#[test]
fn numbers_at_their_edges() {
    let (word, long, hand) = (u64::from(u32::MAX), u64::MAX, u64::MAX / 12);
    for (name, largest, edges) in [
        ("objects", word, &[0, 1, 65_535, 65_536, 65_537, word][..]),
        ("cards", long, &[0, hand - 1, hand, hand + 1, long]),
        ("cards", word, &[0, word]),
        ("of a new call", word, &[0, 1, word - 1, word]),
        ("of a new call", long, &[0, 1, long - 1, long]),
    ] {
        let mut rng = Rng::of(SEED, 0);
        let drawn: Vec<u64> = (0..1_000).map(|_| number(&mut rng, name, largest, 6)).collect();
        assert!(drawn.iter().all(|&number| number <= largest), "{name}");
        assert!(edges.iter().all(|edge| drawn.contains(edge)), "{name}");
    }
}

/// An answer that the specification does not have for the call is found, though the sides agree on it.
#[test]
fn foreign_answers_are_found() {
    let case = case_of(SEED, LARGE);
    let mut after = after(&case, &Untouched);
    assert_eq!(demands(&case, &after), Ok(()));
    after.number = 11;
    assert_eq!(demands(&case, &after), Err("11 is no answer of the call".into()));
}

/// A million draws of the library and of the reference.
#[test]
fn a_million_draws() {
    for (first, second) in [(1, 0), (2_463_534_242, 123_456_789)] {
        let (mut seed, mut wanted) = (kullneyra::Seed { first, second }, reference::Seed { first, second });
        for _ in 0..500_000 {
            assert_eq!(seed.draw().ok(), reference::draw(&mut wanted).ok());
            assert_eq!((seed.first, seed.second), (wanted.first, wanted.second));
            assert_ne!(seed.first, 0);
        }
    }
}

/// Demands that are broken on purpose: one mark, work word or tally of a good answer changed.
#[test]
fn broken_demands_are_found() {
    let accepted = |number: &u64| {
        let case = case_of(SEED, *number);
        matches!(case.call, Call::Mark(_)) && after(&case, &Reference).number == 0
    };
    for number in (LARGE..LARGE + 2_000).filter(accepted) {
        let case = case_of(SEED, number);
        let good = after(&case, &Reference);
        assert_eq!(demands(&case, &good), Ok(()));
        // A mark above every W, a work word one further, and a reference followed too many.
        for (buffer, more) in [(0, 17), (1, 1), (2, 1)] {
            let mut bad = good.clone();
            bad.buffers[buffer].1.add_to_first(more);
            assert!(demands(&case, &bad).is_err(), "case {number}, buffer {buffer}");
        }
    }
}
