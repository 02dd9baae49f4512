//! Names in texts in safe Rust by the same passes and the same index as the proved calls: what those are measured against.

use reference::{Scan, MOST_OBJECTS, SCAN_WORK};
use std::cmp::Ordering;

/// The bytes at a name's end that stand for it in the index: each takes the value on by three bits.
const TAIL: usize = 8;
const TAILS: u32 = 1 << 22;
/// One bit for each value of a tail, and behind them where names with the same first three digits end.
const BITS: usize = TAILS as usize / 32;

/// By one comparison of the lesser number: for texts in which other bytes are mixed with digits.
#[inline]
fn is_digit(byte: u8) -> bool {
    let byte = u32::from(byte);
    ((byte + 208) % 256).min((byte + 159) % 256 + 4) < 10
}

/// For rows of digits.
#[inline]
fn is_row_digit(byte: u8) -> bool {
    (byte.wrapping_sub(b'0') < 10) | (byte.wrapping_sub(b'a') < 6)
}

#[inline]
fn value(byte: u8) -> u32 {
    u32::from((byte % 16 + 9 * (byte / 64)) % 16)
}

#[inline]
fn value_of(bytes: &[u8]) -> u32 {
    bytes.iter().fold(0, |all, &byte| 16 * all + value(byte))
}

fn check(scan: Scan<'_>, work: &[u32]) -> Result<(), u8> {
    let Scan { objects, width, names, named, texts, ends, owners } = scan;
    let width = width as usize;
    if objects == 0 || objects as usize > MOST_OBJECTS {
        return Err(4);
    }
    if width.checked_mul(named.len()) != Some(names.len()) || owners.len() != ends.len() {
        return Err(7);
    }
    if work.len() != SCAN_WORK || work.iter().fold(0, |all, &word| all | word) != 0 {
        return Err(7);
    }
    let mut start = 0;
    if ends.iter().any(|&end| std::mem::replace(&mut start, end) > end) || start != texts.len() as u64 {
        return Err(10);
    }
    if named.iter().chain(owners).any(|&object| object >= objects) {
        return Err(5);
    }
    if width == 0 || names.iter().fold(false, |wrong, &byte| wrong | !is_row_digit(byte)) {
        return Err(19);
    }
    let mut before: &[u8] = &[];
    if names.chunks_exact(width).any(|name| compare(std::mem::replace(&mut before, name), name).is_ge()) {
        return Err(19);
    }
    Ok(())
}

#[inline]
fn tail_of(bytes: &[u8]) -> u32 {
    bytes.iter().fold(0, |all, &byte| 8 * all + u32::from(byte)) % TAILS
}

fn put_index(names: &[u8], width: usize, index: &mut [u32]) {
    if width < TAIL {
        return;
    }
    for (k, name) in names.chunks_exact(width).enumerate() {
        index[BITS + 1 + value_of(&name[..3]) as usize] = k as u32 + 1;
        let tail = tail_of(&name[width - TAIL..]);
        index[tail as usize / 32] |= 1 << (tail % 32);
    }
    for i in BITS + 1..SCAN_WORK {
        index[i] = index[i].max(index[i - 1]);
    }
}

/// The first eight bytes decide nearly always, as a number.
#[inline]
fn compare(a: &[u8], b: &[u8]) -> Ordering {
    let lead = |bytes: &[u8]| bytes.first_chunk().map(|bytes| u64::from_be_bytes(*bytes));
    lead(a).cmp(&lead(b)).then_with(|| a.cmp(b))
}

#[inline]
fn contains(index: &[u32], tail: u32) -> bool {
    index[tail as usize / 32] >> (tail % 32) & 1 == 1
}

/// The names and their index.
struct Names<'a> {
    width: usize,
    bytes: &'a [u8],
    named: &'a [u32],
    index: &'a [u32],
}

impl Names<'_> {
    fn guess(&self, window: &[u8]) -> usize {
        if window.len() < 6 {
            return 0;
        }
        let first = value_of(&window[..3]);
        let at = BITS + first as usize;
        let (from, to) = (u64::from(self.index[at]), u64::from(self.index[at + 1]));
        let part = value_of(&window[3..6]);
        (from + to.saturating_sub(from) * u64::from(part) / 4_096) as usize
    }

    /// The object that a window names: from the guess on by strides that double, then by halves.
    fn find(&self, window: &[u8]) -> Option<u32> {
        let (mut low, mut high) = (0, self.named.len());
        let (mut step, mut turn) = (self.guess(window), None);
        while low < high {
            let reach = step.min(high - low - 1);
            let middle = if turn == Some(Ordering::Less) { high - 1 - reach } else { low + reach };
            let name = &self.bytes[middle * self.width..][..self.width];
            let now = compare(window, name);
            match now {
                Ordering::Equal => return Some(self.named[middle]),
                Ordering::Less => high = middle,
                Ordering::Greater => low = middle + 1,
            }
            step = match turn {
                None => 0,
                before if before == Some(now) && step < (high - low) / 2 => 2 * step + 1,
                _ => (high - low) / 2,
            };
            turn = Some(now);
        }
        None
    }

    /// The first place from one on whose tail is in the index, or where to go on.
    #[inline]
    fn slide(&self, text: &[u8], from: usize) -> Result<usize, usize> {
        if self.width < TAIL {
            return Ok(from);
        }
        let mut end = from + self.width;
        let mut tail = tail_of(&text[end - TAIL..end]);
        loop {
            if contains(self.index, tail) {
                return Ok(end - self.width);
            }
            match text.get(end) {
                None => return Err(end),
                Some(&byte) if !is_row_digit(byte) => return Err(end + 1),
                Some(&byte) => tail = (8 * tail + u32::from(byte)) % TAILS,
            }
            end += 1;
        }
    }

    /// The next mention: its place, and the object.
    fn next(&self, text: &[u8], from: usize, sure: usize) -> Option<(usize, u32)> {
        let (mut at, mut known) = (from, sure);
        while self.width <= text.len() - at {
            let end = at + self.width;
            let mut behind = end;
            while known < behind && is_digit(text[behind - 1]) {
                behind -= 1;
            }
            if known < behind {
                (at, known) = (behind, end);
                continue;
            }
            match self.slide(text, at) {
                Err(on) => (at, known) = (on, on),
                Ok(place) => {
                    if let Some(object) = self.find(&text[place..place + self.width]) {
                        return Some((place, object));
                    }
                    (at, known) = (place + 1, place + self.width);
                }
            }
        }
        None
    }
}

/// What is done with each mention: the owner of the text, and the object.
fn each(scan: Scan<'_>, index: &[u32], mut found: impl FnMut(u32, u32)) {
    let names = Names { width: scan.width as usize, bytes: scan.names, named: scan.named, index };
    let mut start = 0;
    for (&end, &owner) in scan.ends.iter().zip(scan.owners) {
        let text = &scan.texts[start..end as usize];
        let (mut at, mut sure) = (0, 0);
        while let Some((place, object)) = names.next(text, at, sure) {
            found(owner, object);
            (at, sure) = (place + 1, place + names.width);
        }
        start = end as usize;
    }
}

/// How many mentions there are.
pub fn scan_length(scan: Scan<'_>, work: &mut [u32]) -> Result<u64, u8> {
    check(scan, work)?;
    put_index(scan.names, scan.width as usize, work);
    let mut count = 0;
    each(scan, work, |_, _| count += 1);
    work.fill(0);
    Ok(count)
}

/// Writes the mentions into two lists of exactly that length.
pub fn scan(scan: Scan<'_>, work: &mut [u32], from: &mut [u32], to: &mut [u32]) -> Result<(), u8> {
    check(scan, work)?;
    put_index(scan.names, scan.width as usize, work);
    let mut count = 0;
    each(scan, work, |_, _| count += 1);
    let fits = from.len() == count && to.len() == count;
    if fits {
        let mut lists = from.iter_mut().zip(to);
        each(scan, work, |owner, object| {
            if let Some((from, to)) = lists.next() {
                (*from, *to) = (owner, object);
            }
        });
    }
    work.fill(0);
    fits.then_some(()).ok_or(7)
}
