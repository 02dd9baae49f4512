//! Names in texts (SPECIFICATION 14).

use crate::MOST_OBJECTS;

/// What both calls are given.
#[derive(Clone, Copy)]
pub struct Scan<'a> {
    pub objects: u32,
    pub width: u32,
    pub names: &'a [u8],
    pub named: &'a [u32],
    pub texts: &'a [u8],
    pub ends: &'a [u64],
    pub owners: &'a [u32],
}

/// The work words of both calls.
pub const SCAN_WORK: usize = 135_169;

fn check(scan: Scan<'_>, work: &[u32]) -> Result<(), u8> {
    let Scan { objects, width, names, named, texts, ends, owners } = scan;
    if objects == 0 || objects as usize > MOST_OBJECTS {
        return Err(4);
    }
    if names.len() as u128 != u128::from(width) * named.len() as u128 || owners.len() != ends.len() {
        return Err(7);
    }
    if work.len() != SCAN_WORK || work.iter().any(|&word| word != 0) {
        return Err(7);
    }
    let falls = ends.windows(2).any(|pair| pair[0] > pair[1]);
    if falls || ends.last().copied().unwrap_or(0) != texts.len() as u64 {
        return Err(10);
    }
    if named.iter().chain(owners).any(|&object| object >= objects) {
        return Err(5);
    }
    if width == 0 || names.iter().any(|byte| !matches!(byte, b'0'..=b'9' | b'a'..=b'f')) {
        return Err(19);
    }
    let all: Vec<&[u8]> = names.chunks(width as usize).collect();
    if all.windows(2).any(|pair| pair[0] >= pair[1]) {
        return Err(19);
    }
    Ok(())
}

/// Each mention, as the owner of the text and the object that is named: by text, and then by place. No work is needed for it.
fn mentions(scan: Scan<'_>, work: &[u32]) -> Result<Vec<(u32, u32)>, u8> {
    check(scan, work)?;
    let width = scan.width as usize;
    let names: std::collections::HashMap<&[u8], u32> =
        scan.names.chunks(width).zip(scan.named.iter().copied()).collect();
    let mut found = Vec::new();
    let mut start = 0;
    for (&end, &owner) in scan.ends.iter().zip(scan.owners) {
        let text = &scan.texts[start..end as usize];
        found.extend(text.windows(width).filter_map(|window| names.get(window)).map(|&object| (owner, object)));
        start = end as usize;
    }
    Ok(found)
}

/// How many mentions there are.
pub fn scan_length(scan: Scan<'_>, work: &[u32]) -> Result<u64, u8> {
    mentions(scan, work).map(|found| found.len() as u64)
}

/// Writes the mentions into two lists of exactly that length.
pub fn scan(scan: Scan<'_>, work: &[u32], from: &mut [u32], to: &mut [u32]) -> Result<(), u8> {
    let found = mentions(scan, work)?;
    if from.len() != found.len() || to.len() != found.len() {
        return Err(7);
    }
    for (i, &(owner, object)) in found.iter().enumerate() {
        (from[i], to[i]) = (owner, object);
    }
    Ok(())
}
