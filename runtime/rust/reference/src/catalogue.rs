//! The catalogue, SPECIFICATION 1 and 3: `header`, `read` and `references`.

use std::ops::Range;

use crate::{LARGEST_SIZE, MOST_LEASES, MOST_OBJECTS, MOST_REFERENCES, STARTS};

#[derive(Clone, Copy, Debug, PartialEq, Eq)]
pub struct Header {
    pub n: u32,
    pub m: u32,
    pub index: u32,
}

/// What `read` answers.
#[derive(Clone, Copy, Debug, PartialEq, Eq)]
pub struct Contents {
    pub head: Header,
    /// How many starts there are.
    pub starts: u32,
}

fn u16_at(bytes: &[u8], at: usize) -> u16 {
    u16::from_le_bytes(bytes[at..at + 2].try_into().unwrap())
}

fn u32_at(bytes: &[u8], at: usize) -> u32 {
    u32::from_le_bytes(bytes[at..at + 4].try_into().unwrap())
}

fn u64_at(bytes: &[u8], at: usize) -> u64 {
    u64::from_le_bytes(bytes[at..at + 8].try_into().unwrap())
}

#[derive(Clone, Copy, PartialEq, Eq)]
enum Due {
    Header,
    Object,
    Reference,
    Lease,
    /// No lease either: there have been the most.
    Nothing,
}

enum Record {
    Header(Header),
    Object(u64),
    Reference(u32, u32),
    /// The naming object, and its subject.
    Subject(u32, u32),
    Lease(u32),
}

/// The record at the front of `rest`, or the first of the faults 1 to 3, 13 and 4 to 6. `n` is the number of
/// objects, once the header told it.
fn record(rest: &[u8], due: Due, n: u32) -> Result<(Record, usize), u8> {
    if rest.len() < 4 {
        return Err(1);
    }
    let length = u16_at(rest, 0) as usize;
    if rest.len() < length {
        return Err(1);
    }
    let kind = u16_at(rest, 2);
    let (wanted, place) = match kind {
        1 => (16, Due::Header),
        2 => (12, Due::Object),
        3 => (12, Due::Reference),
        4 => (8, Due::Lease),
        5 => (12, Due::Reference),
        _ => return Err(2),
    };
    if length != wanted {
        return Err(2);
    }
    if place == Due::Lease && due == Due::Nothing {
        return Err(13);
    }
    if place != due {
        return Err(3);
    }
    let record = match place {
        Due::Header => {
            let header = Header { n: u32_at(rest, 4), m: u32_at(rest, 8), index: u32_at(rest, 12) };
            if header.n == 0 || header.n as usize > MOST_OBJECTS || header.m as usize > MOST_REFERENCES {
                return Err(4);
            }
            if header.index >= header.n {
                return Err(5);
            }
            Record::Header(header)
        }
        Due::Object => {
            let size = u64_at(rest, 4);
            if size > LARGEST_SIZE {
                return Err(6);
            }
            Record::Object(size)
        }
        Due::Reference => {
            let (from, to) = (u32_at(rest, 4), u32_at(rest, 8));
            if from >= n || to >= n {
                return Err(5);
            }
            if kind == 5 {
                Record::Subject(from, to)
            } else {
                Record::Reference(from, to)
            }
        }
        Due::Lease | Due::Nothing => {
            let object = u32_at(rest, 4);
            if object >= n {
                return Err(5);
            }
            Record::Lease(object)
        }
    };
    Ok((record, length))
}

/// Reads only the header record.
pub fn header(bytes: &[u8]) -> Result<Header, u8> {
    match record(bytes, Due::Header, 0)? {
        (Record::Header(header), _) => Ok(header),
        _ => unreachable!(),
    }
}

/// Reads the whole catalogue into the four lent buffers.
pub fn read(
    bytes: &[u8],
    offsets: &mut [u32],
    targets: &mut [u32],
    sizes: &mut [u64],
    starts: &mut [u32],
) -> Result<Contents, u8> {
    let head = header(bytes)?;
    let mut rest = &bytes[16..];
    let mut all_sizes = Vec::new();
    let mut pairs = Vec::new();
    let mut leases = Vec::new();
    loop {
        let due = if all_sizes.len() < head.n as usize {
            Due::Object
        } else if pairs.len() < head.m as usize {
            Due::Reference
        } else if leases.len() < MOST_LEASES {
            Due::Lease
        } else {
            Due::Nothing
        };
        if matches!(due, Due::Lease | Due::Nothing) && rest.is_empty() {
            break;
        }
        let (found, length) = record(rest, due, head.n)?;
        match found {
            Record::Object(size) => all_sizes.push(size),
            Record::Reference(from, to) => pairs.push((from, to)),
            Record::Subject(naming, subject) => pairs.push((subject, naming)),
            Record::Lease(object) => leases.push(object),
            Record::Header(_) => unreachable!(),
        }
        rest = &rest[length..];
    }
    let n = head.n as usize;
    if offsets.len() != n + 1 || targets.len() != pairs.len() || sizes.len() != n || starts.len() != STARTS {
        return Err(7);
    }
    sizes.copy_from_slice(&all_sizes);
    let mut next = vec![0u32; n + 1];
    for &(from, _) in &pairs {
        next[from as usize + 1] += 1;
    }
    for v in 0..n {
        next[v + 1] += next[v];
    }
    offsets.copy_from_slice(&next);
    for &(from, to) in &pairs {
        targets[next[from as usize] as usize] = to;
        next[from as usize] += 1;
    }
    let count = 1 + leases.len();
    starts[0] = head.index;
    starts[1..count].copy_from_slice(&leases);
    starts[count..].fill(0);
    Ok(Contents { head, starts: count as u32 })
}

/// The two offsets of an object, where they bound a part of so many targets.
fn bounds(offsets: &[u32], targets: usize, object: u32) -> Option<Range<usize>> {
    let v = object as usize;
    let (from, to) = (*offsets.get(v)? as usize, *offsets.get(v + 1)? as usize);
    (from <= to && to <= targets).then_some(from..to)
}

/// The references of one object, as a part of the targets.
pub fn references<'a>(offsets: &[u32], targets: &'a [u32], object: u32) -> &'a [u32] {
    bounds(offsets, targets.len(), object).map_or(&[], |part| &targets[part])
}

/// Where that part starts, and its length; zeros where the offsets bound none.
pub fn part(offsets: &[u32], targets: &[u32], object: u32) -> (usize, usize) {
    bounds(offsets, targets.len(), object).map_or((0, 0), |part| (part.start, part.len()))
}
