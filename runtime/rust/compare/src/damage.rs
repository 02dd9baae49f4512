//! Damage to catalogues, graphs, settings, schedules, names, texts and lengths.

use crate::case::{Mark, Scan};
use crate::rng::Rng;
use crate::store::Record;
use reference::{LARGEST_SIZE, MOST_OBJECTS, MOST_REFERENCES, SCAN_WORK, STARTS};

/// A length that is most likely wrong: one short, one long, empty, or another.
pub fn length(rng: &mut Rng, right: usize) -> usize {
    match rng.below(5) {
        0 => right.saturating_sub(1),
        1 => right + 1,
        2 => 0,
        3 => 2 * right,
        _ => rng.below(right + 8),
    }
}

/// The right length, and now and then a wrong one.
pub fn length_once_in(rng: &mut Rng, times: usize, right: usize) -> usize {
    if rng.once_in(times) {
        length(rng, right)
    } else {
        right
    }
}

/// One change of a text: a byte more, less or other, a line less, twice or out of its place, or the end cut off.
pub fn text(rng: &mut Rng, text: &mut Vec<u8>) {
    let at = rng.below(text.len());
    let byte = rng.pick(b"0123456789 \n\r%\t-x\x00\xff");
    let feeds: Vec<usize> = (0..text.len()).filter(|&i| text[i] == b'\n').collect();
    let line = rng.below(feeds.len().max(1));
    let start = if line == 0 { 0 } else { feeds[line - 1] + 1 };
    let end = feeds.get(line).map_or(text.len(), |feed| feed + 1);
    match rng.below(9) {
        0 => text[at] = byte,
        1 => text.insert(at, byte),
        2 => drop(text.remove(at)),
        3 => drop(text.drain(start..end)),
        4 => text.extend_from_within(start..end),
        5 => drop(text.pop()),
        6 => text.truncate(at),
        7 => text.insert(end - 1, b'\r'),
        _ => drop(text.splice(end..end, *b"% late\n")),
    }
}

/// A number about `near`, at a limit, or any.
fn number(rng: &mut Rng, near: u32, limit: u32) -> u32 {
    match rng.below(7) {
        0 => near.wrapping_sub(1),
        1 => near.wrapping_add(1),
        2 => 0,
        3 => limit,
        4 => limit + 1,
        5 => u32::MAX,
        _ => rng.word() as u32,
    }
}

fn put(contents: &mut [u8], at: usize, value: &[u8]) {
    if let Some(part) = contents.get_mut(at..at + value.len()) {
        part.copy_from_slice(value);
    }
}

fn word_of(contents: &[u8], at: usize) -> u32 {
    contents.get(at..at + 4).map_or(0, |part| u32::from_le_bytes(part.try_into().expect("4 bytes")))
}

/// Damages one field of one record.
fn field(rng: &mut Rng, record: &mut Record, n: u32) {
    let contents = &mut record.contents;
    match record.kind {
        1 => {
            let at = 4 * rng.below(3);
            let near = word_of(contents, at);
            let limit = [MOST_OBJECTS as u32, MOST_REFERENCES as u32, n - 1][at / 4];
            put(contents, at, &number(rng, near, limit).to_le_bytes());
        }
        2 => {
            let size = rng.pick(&[LARGEST_SIZE, LARGEST_SIZE + 1, u64::MAX, LARGEST_SIZE << 8, 1 << 63]);
            put(contents, 0, &size.to_le_bytes());
        }
        4 => put(contents, 0, &number(rng, n - 1, n - 1).to_le_bytes()),
        _ => {
            let at = 4 * rng.below(2);
            put(contents, at, &number(rng, n - 1, n - 1).to_le_bytes());
        }
    }
}

/// Damages the records: fields, kinds, lengths, their order and their number.
pub fn records(rng: &mut Rng, records: &mut Vec<Record>, n: u32) {
    if records.is_empty() {
        return;
    }
    // Often the header, or the last record.
    let i = match rng.below(4) {
        0 => 0,
        1 => records.len() - 1,
        _ => rng.below(records.len()),
    };
    let j = rng.below(records.len());
    match rng.below(8) {
        0 | 1 => field(rng, &mut records[i], n),
        2 => records[i].kind = rng.pick(&[0, 1, 2, 3, 4, 5, 6, 255, 256, 512, 768, 1024, 1280, u16::MAX]),
        3 => records[i].length = rng.pick(&[0, 1, 3, 4, 8, 11, 12, 13, 15, 16, 17, 24, 0x0c00, 0x1000, u16::MAX]),
        4 => records.swap(i, j),
        5 => drop(records.remove(i)),
        6 => records.insert(j, records[i].clone()),
        _ => records.push(Record::new(rng.pick(&[1, 2, 3, 4, 4, 5, 6]), vec![0; rng.pick(&[0, 4, 8, 12])])),
    }
}

/// Damages the catalogue's bytes: cut off, flipped, added, or all of them anything.
pub fn bytes(rng: &mut Rng, bytes: &mut Vec<u8>) {
    let whole = bytes.len();
    match rng.below(7) {
        0 => bytes.truncate(rng.below(whole + 1)),
        1 => bytes.truncate(whole.saturating_sub(rng.between(1, 13))),
        2 => bytes.truncate(rng.below(18)),
        3 => (0..rng.between(1, 13)).for_each(|_| bytes.push(rng.pick(&[0, 2, 3, 12, 255]))),
        4 if whole > 0 => bytes[rng.below(whole)] ^= 1 << rng.below(8),
        5 if whole > 0 => bytes[rng.below(whole)] = rng.word() as u8,
        _ => *bytes = (0..rng.below(40)).map(|_| rng.pick(&[0, 1, 2, 3, 12, 16, 255])).collect(),
    }
}

/// Damages offsets and targets, so that most often they are no graph.
pub fn graph(rng: &mut Rng, offsets: &mut Vec<u32>, targets: &mut Vec<u32>) {
    let (n, m) = (offsets.len().saturating_sub(1) as u32, targets.len() as u32);
    let i = rng.below(offsets.len().max(1));
    match rng.below(9) {
        0 if n > 0 => offsets[0] = rng.pick(&[1, m, u32::MAX]),
        1 if n > 0 => offsets[i] = number(rng, offsets[i], m),
        2 if n > 0 => offsets[n as usize] = rng.pick(&[m.wrapping_sub(1), m + 1, 0, u32::MAX]),
        3 if n > 0 => offsets.swap(i, n as usize),
        4 => offsets.truncate(rng.pick(&[0, 1, n as usize])),
        5 => offsets.push(m),
        6 if m > 0 => targets[rng.below(m as usize)] = number(rng, n, n),
        7 => drop(targets.pop()),
        _ => targets.push(rng.pick(&[0, n, n.wrapping_sub(1)])),
    }
}

/// Damages the schedule: an odd length, or a worker that is not below their number.
fn schedule(rng: &mut Rng, schedule: &mut Vec<u8>, workers: u32) {
    let turns = schedule.len() / 2;
    match rng.below(4) {
        0 => schedule.push(0),
        1 => drop(schedule.pop()),
        _ if turns == 0 => schedule.extend([workers as u8, 0]),
        _ => {
            let at = 2 * rng.pick(&[0, turns - 1, turns / 2]);
            schedule[at] = rng.pick(&[workers as u8, (workers as u8).wrapping_add(1), 255, 16]);
        }
    }
}

/// Damages the starts: none, one or more too many, or one that is most likely no object.
fn starts(rng: &mut Rng, starts: &mut Vec<u32>, n: u32) {
    let first = starts.first().copied().unwrap_or(0);
    match rng.below(5) {
        0 => starts.clear(),
        1 => starts.resize(rng.pick(&[STARTS, STARTS + 1, 2 * STARTS]), first),
        2 => starts.push(number(rng, n, n)),
        _ if starts.is_empty() => starts.push(number(rng, n, n)),
        _ => {
            let at = rng.below(starts.len());
            starts[at] = number(rng, n, n);
        }
    }
}

/// Now and then damages one thing of a scan's call.
pub fn scan(rng: &mut Rng, call: &mut Scan) {
    let (width, names, texts) = (call.width as usize, call.named.len(), call.ends.len());
    match rng.below(28) {
        0 => call.objects = rng.pick(&[0, 1, MOST_OBJECTS as u32, MOST_OBJECTS as u32 + 1, u32::MAX]),
        1 => call.width = rng.pick(&[0, call.width + 1, call.width - 1, u32::MAX]),
        2 => (call.width, call.names) = (0, Vec::new()),
        3 => call.names.resize(length(rng, call.names.len()), b'a'),
        4 => call.named.resize(length(rng, names), 0),
        5 => call.owners.resize(length(rng, texts), 0),
        6 => call.texts.resize(length(rng, call.texts.len()), b'a'),
        7 if texts > 0 => call.ends[rng.below(texts)] = rng.pick(&[0, 1, call.texts.len() as u64, u64::MAX]),
        8 if names > 0 => call.named[rng.below(names)] = number(rng, call.objects, call.objects),
        9 if texts > 0 => call.owners[rng.below(texts)] = number(rng, call.objects, call.objects),
        10 if names > 0 => call.names[rng.below(names * width)] = rng.pick(b"/:`gAF\0\xff"),
        11 if names > 1 => call.names.rotate_left(width),
        12 if names > 1 => call.names.copy_within(..width, width),
        13 => call.work = rng.pick(&[0, 1, SCAN_WORK - 1, SCAN_WORK + 1]),
        14 => call.litter = Some([0, rng.below(SCAN_WORK), SCAN_WORK - 1][rng.below(3)]),
        _ => {}
    }
}

/// Damages one thing of a marker's call.
pub fn mark(rng: &mut Rng, call: &mut Mark) {
    let any = rng.word() as u32;
    match rng.below(10) {
        0 => call.workers = rng.pick(&[0, 1, 16, 17, 256, 257, u32::MAX, any]),
        1 => call.batch = number(rng, call.batch, 65_535),
        2 => call.cutoff = number(rng, call.cutoff, 65_535),
        3 | 4 => graph(rng, &mut call.offsets, &mut call.targets),
        5 => starts(rng, &mut call.starts, call.marks as u32),
        6 => schedule(rng, &mut call.schedule, call.workers),
        7 => call.marks = length(rng, call.marks),
        8 => call.work = length(rng, call.work),
        _ => call.tallies = length(rng, call.tallies),
    }
}
