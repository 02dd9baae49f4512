//! The file that keeps a stopped collection: its form (docs/SPECIFICATION.md, 8.4), and what can be wrong with it.

use sha2::{Digest, Sha256};
use std::fmt;

const NAME: [u8; 16] = *b"kullneyra pause\n";
const VERSION: u32 = 1;
const DIGEST: usize = 32;
const HEAD: usize = NAME.len() + 4 + 8 + 2 * DIGEST;

/// A stopped collection: how many turns of the order were made, and the saved words.
#[derive(Debug, PartialEq, Eq)]
pub struct Kept {
    pub made: u64,
    pub saved: Vec<u32>,
}

/// The two files that a collection is of, as their digests.
pub struct Files {
    store: [u8; DIGEST],
    order: [u8; DIGEST],
}

/// Why a file is not taken up. Each has its own sentence.
#[derive(Debug, PartialEq, Eq)]
pub enum Fault {
    Foreign,
    Version(u32),
    Damaged,
    Store,
    Order,
}

impl fmt::Display for Fault {
    fn fmt(&self, f: &mut fmt::Formatter<'_>) -> fmt::Result {
        match self {
            Fault::Foreign => f.write_str("it is no file of this program, or one of an earlier form"),
            Fault::Version(version) => write!(f, "it has version {version}, and this program reads version {VERSION}"),
            Fault::Damaged => f.write_str("it is damaged or cut off: its check does not fit its contents"),
            Fault::Store => f.write_str("it belongs to another store.cat"),
            Fault::Order => f.write_str("it belongs to another order.run"),
        }
    }
}

/// The first N bytes, which are taken off.
fn take<const N: usize>(bytes: &mut &[u8]) -> Option<[u8; N]> {
    let (head, rest) = bytes.split_first_chunk()?;
    *bytes = rest;
    Some(*head)
}

impl Files {
    pub fn of(store: &[u8], order: &[u8]) -> Self {
        Files { store: Sha256::digest(store).into(), order: Sha256::digest(order).into() }
    }

    /// The bytes of the file that keeps a collection of these files.
    pub fn bytes(&self, kept: &Kept) -> Vec<u8> {
        let mut bytes = Vec::with_capacity(HEAD + 4 * kept.saved.len() + DIGEST);
        bytes.extend(NAME);
        bytes.extend(VERSION.to_le_bytes());
        bytes.extend(kept.made.to_le_bytes());
        bytes.extend(self.store);
        bytes.extend(self.order);
        bytes.extend(kept.saved.iter().flat_map(|word| word.to_le_bytes()));
        let check = Sha256::digest(&bytes);
        bytes.extend(check);
        bytes
    }

    /// The collection that a file keeps, with so many saved words.
    pub fn kept(&self, bytes: &[u8], words: usize) -> Result<Kept, Fault> {
        let mut rest = bytes;
        if take(&mut rest) != Some(NAME) {
            return Err(Fault::Foreign);
        }
        let version = u32::from_le_bytes(take(&mut rest).ok_or(Fault::Damaged)?);
        if version != VERSION {
            return Err(Fault::Version(version));
        }
        let (contents, check) = bytes.split_last_chunk::<DIGEST>().ok_or(Fault::Damaged)?;
        if contents.len() < HEAD || *check != <[u8; DIGEST]>::from(Sha256::digest(contents)) {
            return Err(Fault::Damaged);
        }
        let made = u64::from_le_bytes(take(&mut rest).ok_or(Fault::Damaged)?);
        if take(&mut rest) != Some(self.store) {
            return Err(Fault::Store);
        }
        if take(&mut rest) != Some(self.order) {
            return Err(Fault::Order);
        }
        if contents.len() - HEAD != 4 * words {
            return Err(Fault::Damaged);
        }
        let saved =
            contents[HEAD..].chunks_exact(4).map(|word| u32::from_le_bytes([word[0], word[1], word[2], word[3]]));
        Ok(Kept { made, saved: saved.collect() })
    }
}

#[cfg(test)]
mod tests {
    use super::*;

    fn files() -> Files {
        Files::of(b"store", b"order")
    }

    fn kept() -> Kept {
        Kept { made: 7, saved: vec![1, 2, u32::MAX] }
    }

    #[test]
    fn there_and_back() {
        assert_eq!(files().kept(&files().bytes(&kept()), 3), Ok(kept()));
    }

    /// Whatever bit is changed and wherever the file is cut off, it is refused.
    #[test]
    fn damage_is_found() {
        let bytes = files().bytes(&kept());
        for at in 0..bytes.len() {
            assert!(files().kept(&bytes[..at], 3).is_err());
            for bit in 0..8 {
                let mut damaged = bytes.clone();
                damaged[at] ^= 1 << bit;
                let fault = files().kept(&damaged, 3).unwrap_err();
                match at {
                    0..16 => assert_eq!(fault, Fault::Foreign),
                    16..20 => assert!(matches!(fault, Fault::Version(_))),
                    _ => assert_eq!(fault, Fault::Damaged),
                }
            }
        }
    }

    #[test]
    fn other_files_are_told() {
        let bytes = files().bytes(&kept());
        assert_eq!(Files::of(b"another", b"order").kept(&bytes, 3), Err(Fault::Store));
        assert_eq!(Files::of(b"store", b"another").kept(&bytes, 3), Err(Fault::Order));
        assert_eq!(files().kept(&bytes, 2), Err(Fault::Damaged));
    }
}
