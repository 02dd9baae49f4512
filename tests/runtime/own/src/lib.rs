//! The library as a runtime's own crate meets it: buffers made from the header, errors by `?`, and a
//! `match` on a refusal that must have a way for those still to come.
#![deny(unreachable_patterns)]

use kullneyra::{header, lengths, mark_all, read, sweep, Refusal, Settings, STARTS};
use std::error::Error;

/// What to do about a refusal.
#[derive(Debug, PartialEq, Eq)]
pub enum Advice {
    FetchAgain,
    BeginAnew,
    MendCaller,
    Update,
}

/// `Refusal` may grow, so the last way is not unreachable.
pub fn advice(refusal: Refusal) -> Advice {
    match refusal {
        Refusal::Short | Refusal::Kind | Refusal::Place | Refusal::Count | Refusal::Object | Refusal::Size => {
            Advice::FetchAgain
        }
        Refusal::Starts => Advice::FetchAgain,
        Refusal::Saved => Advice::BeginAnew,
        Refusal::Buffer | Refusal::Setting | Refusal::Schedule | Refusal::Graph => Advice::MendCaller,
        Refusal::Other(_) => Advice::Update,
        _ => Advice::Update,
    }
}

/// The dead objects of a catalogue, found by one worker.
pub fn dead(catalogue: &[u8]) -> Result<Vec<u32>, Box<dyn Error>> {
    let head = header(catalogue)?;
    let (n, m) = (head.objects as usize, head.references as usize);
    let (mut offsets, mut targets, mut sizes) = (vec![0; n + 1], vec![0; m], vec![0; n]);
    let mut starts = [0; STARTS];
    let store = read(catalogue, &mut offsets, &mut targets, &mut sizes, &mut starts)?;
    let starts = &starts[..store.starts as usize];
    let settings = Settings { workers: 1, batch: 64, cutoff: 64 };
    let (mut marks, mut work, mut tallies) = (vec![0; n], vec![0; lengths::work(n, 1)], [0; lengths::tallies(1)]);
    let marked = mark_all(&offsets, &targets, starts, settings, &mut marks, &mut work, &mut tallies)?;
    assert!(marked.finished);
    let mut list = vec![0; n];
    let swept = sweep(&marks, &sizes, &mut list)?;
    list.truncate(swept.count as usize);
    Ok(list)
}

#[cfg(test)]
mod tests {
    use super::*;

    fn record(kind: u16, contents: &[u8]) -> Vec<u8> {
        let length = 4 + contents.len() as u16;
        [&length.to_le_bytes()[..], &kind.to_le_bytes(), contents].concat()
    }

    /// Store S of the specification, section 1.
    fn store() -> Vec<u8> {
        let words = |words: &[u32]| words.iter().flat_map(|word| word.to_le_bytes()).collect::<Vec<u8>>();
        let mut bytes = record(1, &words(&[6, 6, 0]));
        for size in 1..=6u64 {
            bytes.extend(record(2, &(100 * size).to_le_bytes()));
        }
        for pair in [[0, 1], [0, 2], [1, 3], [2, 3], [3, 0], [5, 4]] {
            bytes.extend(record(3, &words(&pair)));
        }
        bytes
    }

    #[test]
    fn store_s() {
        assert_eq!(dead(&store()).unwrap(), [4, 5]);
    }

    #[test]
    fn refusals_are_errors_in_words() {
        let told = dead(&store()[..40]).unwrap_err();
        assert_eq!(told.to_string(), "refusal 1: the bytes end too soon for a record");
        let refusal = told.downcast_ref::<Refusal>().copied().unwrap();
        assert_eq!((refusal, refusal.number()), (Refusal::Short, 1));
        assert_eq!(advice(refusal), Advice::FetchAgain);
        assert_eq!(advice(Refusal::Other(18)), Advice::Update);
    }
}
