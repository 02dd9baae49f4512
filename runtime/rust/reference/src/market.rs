//! Matrix Market, SPECIFICATION 13, by splitting the text into lines and the lines into numbers.

use crate::{Header, MOST_OBJECTS, MOST_REFERENCES};
use std::fmt::Write;

/// The first line.
pub const BANNER: &str = "%%MatrixMarket matrix coordinate pattern general";

/// The numbers of a line: each one to ten decimal digits, parted by one space.
fn numbers<const N: usize>(line: &[u8]) -> Option<[u64; N]> {
    let words: Vec<&[u8]> = line.split(|&byte| byte == b' ').collect();
    let mut values = [0; N];
    if words.len() != N {
        return None;
    }
    for (value, word) in values.iter_mut().zip(words) {
        if !(1..=10).contains(&word.len()) || !word.iter().all(u8::is_ascii_digit) {
            return None;
        }
        *value = std::str::from_utf8(word).ok()?.parse().ok()?;
    }
    Some(values)
}

/// The lines of a text, each without its line feed; `None` for a line behind the last of them.
fn lines(text: &[u8]) -> impl Iterator<Item = Option<&[u8]>> {
    text.split_inclusive(|&byte| byte == b'\n').map(|line| line.strip_suffix(b"\n"))
}

/// Rows and entries, and the lines of the pairs.
fn head(text: &[u8]) -> Option<(u64, u64, impl Iterator<Item = Option<&[u8]>>)> {
    let mut lines = lines(text);
    if lines.next()?? != BANNER.as_bytes() {
        return None;
    }
    let mut lines = lines.skip_while(|line| line.is_some_and(|line| line.first() == Some(&b'%')));
    let [rows, columns, entries] = numbers(lines.next()??)?;
    (rows == columns).then_some((rows, entries, lines))
}

/// Check 4.
fn ranged(rows: u64, entries: u64) -> Result<Header, u8> {
    if (1..=MOST_OBJECTS as u64).contains(&rows) && entries <= MOST_REFERENCES as u64 {
        Ok(Header { n: rows as u32, m: entries as u32, index: 0 })
    } else {
        Err(4)
    }
}

/// The counts of a text.
pub fn market_header(text: &[u8]) -> Result<Header, u8> {
    let (rows, entries, _) = head(text).ok_or(18)?;
    ranged(rows, entries)
}

/// The pairs of a text, counted from 1, and what its counts say.
fn pairs(text: &[u8]) -> Result<(Header, Vec<[u64; 2]>), u8> {
    let (rows, entries, lines) = head(text).ok_or(18)?;
    let pairs: Option<Vec<[u64; 2]>> = lines.map(|line| numbers(line?)).collect();
    let pairs = pairs.filter(|pairs| pairs.len() as u64 == entries).ok_or(18)?;
    let header = ranged(rows, entries)?;
    if pairs.as_flattened().iter().any(|number| !(1..=rows).contains(number)) {
        return Err(5);
    }
    Ok((header, pairs))
}

/// The graph of a text, with sizes of 0.
pub fn import(text: &[u8], offsets: &mut [u32], targets: &mut [u32], sizes: &mut [u64]) -> Result<Header, u8> {
    let (header, pairs) = pairs(text)?;
    let n = header.n as usize;
    if offsets.len() != n + 1 || targets.len() != pairs.len() || sizes.len() != n {
        return Err(7);
    }
    offsets.fill(0);
    for [from, _] in &pairs {
        offsets[*from as usize] += 1;
    }
    for v in 0..n {
        offsets[v + 1] += offsets[v];
    }
    let mut next = offsets[..n].to_vec();
    for [from, to] in &pairs {
        let place = &mut next[*from as usize - 1];
        targets[*place as usize] = *to as u32 - 1;
        *place += 1;
    }
    sizes.fill(0);
    Ok(header)
}

/// The text of a graph.
fn text(offsets: &[u32], targets: &[u32]) -> Result<String, u8> {
    if offsets.len() < 2 || offsets.len() - 1 > MOST_OBJECTS || targets.len() > MOST_REFERENCES {
        return Err(4);
    }
    let n = offsets.len() - 1;
    let falls = offsets.windows(2).any(|pair| pair[0] > pair[1]);
    let outside = targets.iter().any(|&object| object as usize >= n);
    if offsets[0] != 0 || falls || offsets[n] as usize != targets.len() || outside {
        return Err(10);
    }
    let mut text = format!("{BANNER}\n{n} {n} {}\n", targets.len());
    for v in 0..n {
        for target in &targets[offsets[v] as usize..offsets[v + 1] as usize] {
            writeln!(text, "{} {}", v + 1, target + 1).expect("a string takes all");
        }
    }
    Ok(text)
}

/// How many bytes the text of a graph has.
pub fn export_length(offsets: &[u32], targets: &[u32]) -> Result<u64, u8> {
    text(offsets, targets).map(|text| text.len() as u64)
}

/// Writes the text of a graph into a buffer of its length.
pub fn export(offsets: &[u32], targets: &[u32], out: &mut [u8]) -> Result<(), u8> {
    let text = text(offsets, targets)?;
    if out.len() != text.len() {
        return Err(7);
    }
    out.copy_from_slice(text.as_bytes());
    Ok(())
}
