//! Stores: objects and references of several shapes, as offsets and targets and as a catalogue.

use crate::rng::Rng;
use reference::LARGEST_SIZE;

pub struct Store {
    pub n: usize,
    pub index: u32,
    /// From, to, as they are stored: in catalogue order.
    pub pairs: Vec<(u32, u32)>,
    /// Which of them the catalogue has as subjects; those behind the last are references.
    pub subjects: Vec<bool>,
    /// Objects with a lease, in catalogue order.
    pub leases: Vec<u32>,
}

/// As many objects and about as many references as asked for, in the shape of this number.
pub fn store(rng: &mut Rng, shape: usize, n: usize, m: usize) -> Store {
    let n = n.max(1);
    let pairs = match shape {
        0 => (0..m).map(|_| (rng.below(n) as u32, rng.below(n) as u32)).collect(),
        1 => (1..n as u32).map(|v| (v - 1, v)).collect(),
        2 => (0..m.max(1)).map(|e| (0, (e % n) as u32)).collect(),
        3 => (1..n).map(|v| (rng.below(v) as u32, v as u32)).collect(),
        4 => layered(rng, n, m),
        5 => (0..m).map(|e| ((e % n) as u32, (e / n % n) as u32)).collect(),
        6 => (0..n as u32).map(|v| (v, (v + 1) % n as u32)).collect(),
        _ => (0..m).map(|_| (rng.below(n).min(rng.below(n)) as u32, rng.below(n.min(3)) as u32)).collect(),
    };
    Store { n, index: 0, pairs, subjects: Vec::new(), leases: Vec::new() }
}

pub const SHAPES: usize = 8;

/// Like a container registry: an index of manifests, each with a configuration and shared layers.
fn layered(rng: &mut Rng, n: usize, m: usize) -> Vec<(u32, u32)> {
    let manifests = (n / 8).max(1).min(n - 1);
    let mut pairs: Vec<_> = (1..=manifests).map(|v| (0, v as u32)).collect();
    if manifests + 1 < n {
        for e in 0..m.saturating_sub(manifests) {
            let to = manifests + 1 + rng.below(n - manifests - 1);
            pairs.push((1 + (e % manifests) as u32, to as u32));
        }
    }
    pairs
}

impl Store {
    pub fn m(&self) -> usize {
        self.pairs.len()
    }

    /// Offsets and targets.
    pub fn lists(&self) -> (Vec<u32>, Vec<u32>) {
        let mut sorted = self.pairs.clone();
        sorted.sort_by_key(|&(from, _)| from);
        let mut offsets = vec![0; self.n + 1];
        for &(from, _) in &sorted {
            offsets[from as usize + 1] += 1;
        }
        for v in 0..self.n {
            offsets[v + 1] += offsets[v];
        }
        (offsets, sorted.into_iter().map(|(_, to)| to).collect())
    }

    /// The catalogue's records.
    pub fn records(&self, sizes: &[u64]) -> Vec<Record> {
        let head = [self.n as u32, self.m() as u32, self.index];
        let mut records = vec![Record::new(1, head.iter().flat_map(|word| word.to_le_bytes()).collect())];
        records.extend(sizes.iter().map(|size| Record::new(2, size.to_le_bytes().to_vec())));
        let subjects = self.subjects.iter().copied().chain(std::iter::repeat(false));
        for (&(from, to), subject) in self.pairs.iter().zip(subjects) {
            let (kind, first, second) = if subject { (5, to, from) } else { (3, from, to) };
            records.push(Record::new(kind, [first.to_le_bytes(), second.to_le_bytes()].concat()));
        }
        records.extend(self.leases.iter().map(|object| Record::new(4, object.to_le_bytes().to_vec())));
        records
    }
}

/// A record, right or damaged.
#[derive(Clone)]
pub struct Record {
    pub length: u16,
    pub kind: u16,
    pub contents: Vec<u8>,
}

impl Record {
    pub fn new(kind: u16, contents: Vec<u8>) -> Self {
        Record { length: contents.len() as u16 + 4, kind, contents }
    }
}

pub fn bytes(records: &[Record]) -> Vec<u8> {
    let mut all = Vec::with_capacity(16 * records.len());
    for record in records {
        all.extend(record.length.to_le_bytes());
        all.extend(record.kind.to_le_bytes());
        all.extend(&record.contents);
    }
    all
}

/// A size within the range, often at its ends.
pub fn size(rng: &mut Rng) -> u64 {
    match rng.below(6) {
        0 => 0,
        1 => LARGEST_SIZE,
        2 => LARGEST_SIZE - 1,
        3 => rng.below(LARGEST_SIZE as usize) as u64,
        _ => rng.below(1_000) as u64,
    }
}

pub fn sizes(rng: &mut Rng, n: usize) -> Vec<u64> {
    (0..n).map(|_| size(rng)).collect()
}
