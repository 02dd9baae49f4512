//! A store as the bytes of a catalogue, for the examples that write one.

/// A record: its length, its kind and its contents.
fn record(catalogue: &mut Vec<u8>, kind: u16, contents: &[u8]) {
    catalogue.extend((4 + contents.len() as u16).to_le_bytes());
    catalogue.extend(kind.to_le_bytes());
    catalogue.extend(contents);
}

fn words(words: &[u32]) -> Vec<u8> {
    words.iter().flat_map(|word| word.to_le_bytes()).collect()
}

/// The catalogue of a store: its references object by object, and a lease for each start behind the index.
pub fn layout(offsets: &[u32], targets: &[u32], sizes: &[u64], index: u32, leases: &[u32]) -> Vec<u8> {
    let (n, m) = (sizes.len(), targets.len());
    let mut catalogue = Vec::with_capacity(16 + 12 * (n + m) + 8 * leases.len());
    record(&mut catalogue, 1, &words(&[n as u32, m as u32, index]));
    for size in sizes {
        record(&mut catalogue, 2, &size.to_le_bytes());
    }
    for (from, part) in (0..).zip(offsets.windows(2)) {
        for &to in &targets[part[0] as usize..part[1] as usize] {
            record(&mut catalogue, 3, &words(&[from, to]));
        }
    }
    for &lease in leases {
        record(&mut catalogue, 4, &words(&[lease]));
    }
    catalogue
}
