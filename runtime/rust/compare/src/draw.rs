//! Small cases, drawn.

use crate::calls::NUMBER_CALLS;
use crate::case::{Call, Case, Mark, Scan, Update};
use crate::damage;
use crate::judge::reached;
use crate::rng::Rng;
use crate::states;
use crate::store::{self, Store};
use reference::{Tally, CARD_WORKERS, LARGEST_SIZE, MOST_LEASES, MOST_OBJECTS, SCAN_WORK, STARTS};

/// The weights of the calls that are not of numbers; each of those has the weight 1.
const OTHERS: usize = 60;

/// A small case.
pub fn small(rng: &mut Rng) -> Case {
    let call = match rng.below(OTHERS + NUMBER_CALLS.len()) {
        0 | 1 => Call::Header { bytes: catalogue(rng).0 },
        2..=8 => read(rng),
        9 | 10 => references(rng),
        11..=17 => Call::Mark(mark(rng)),
        18 | 19 => sweep(rng),
        20..=23 => begin(rng),
        24..=30 => resume(rng),
        31 => deal(rng),
        32 => Call::Draw { seed: seed(rng) },
        33 => deal_seed(rng),
        34..=36 => hops(rng),
        37..=39 => add(rng),
        40..=42 => remove(rng),
        43 => Call::MarketHeader { text: market(rng).0 },
        44..=46 => import(rng),
        47 => export_length(rng),
        48 | 49 => export(rng),
        50 | 51 => Call::ScanLength(scan(rng)),
        52..=55 => scan_into(rng),
        56..=59 => Call::MarkAll(Mark { schedule: Vec::new(), ..mark(rng) }),
        behind => numbers(rng, behind - OTHERS),
    };
    let result = match call.result_words() {
        0 => 0,
        words => damage::length_once_in(rng, 30, words),
    };
    Case { result, fill: rng.word(), call }
}

/// A call of numbers. Those that have to fit one another are drawn for the same workers.
fn numbers(rng: &mut Rng, which: usize) -> Call {
    let workers = if rng.once_in(3) { rng.between(1, 16) as u32 } else { card_workers(rng) };
    let given = NUMBER_CALLS[which].given.iter();
    Call::Numbers { which, given: given.map(|&(name, largest)| number(rng, name, largest, workers)).collect() }
}

/// A number by its name, at most the largest of its type; of a name that is not known, often at the edges of its type.
pub fn number(rng: &mut Rng, name: &str, largest: u64, workers: u32) -> u64 {
    let any = rng.word() >> rng.below(64);
    let edges = match name {
        "objects" => {
            let (some, most) = (rng.between(1, MOST_OBJECTS) as u64, MOST_OBJECTS as u64);
            vec![some, some, any, 0, 1, 6, most - 1, most, most + 1, largest]
        }
        "workers" => vec![workers.into()],
        // As many as any buffer has room for, with so many workers.
        "cards" => {
            let most = largest / (2 * u64::from(workers.clamp(1, CARD_WORKERS)));
            vec![rng.below(1_000) as u64, any, 0, most - 1, most, most + 1, largest]
        }
        _ => vec![any, any, 0, 1, largest - 1, largest],
    };
    rng.pick(&edges) & largest
}

/// A graph and starts as the marker is given, with words for the hop counts.
fn hops(rng: &mut Rng) -> Call {
    let Mark { offsets, targets, starts, .. } = mark(rng);
    let n = offsets.len().saturating_sub(1);
    let (hops, work) = (damage::length_once_in(rng, 15, n), damage::length_once_in(rng, 15, 2 * n));
    Call::Hops { offsets, targets, starts, hops, work }
}

/// A graph, and buffers for one with so many targets.
fn update(rng: &mut Rng, offsets: Vec<u32>, targets: Vec<u32>, marks: Vec<u8>, left: usize) -> Update {
    let n = offsets.len().saturating_sub(1);
    let (new_offsets, new_targets) = (damage::length_once_in(rng, 25, n + 1), damage::length_once_in(rng, 25, left));
    Update { offsets, targets, marks, new_offsets, new_targets, work: damage::length_once_in(rng, 25, n) }
}

/// An object, now and then none.
fn object(rng: &mut Rng, n: usize) -> u32 {
    match rng.below(60) {
        0 => n as u32,
        1 => u32::MAX,
        _ => rng.below(n.max(1)) as u32,
    }
}

/// Marks that are closed under the references, in any values; now and then one is missing, or any are set.
fn closed_marks(rng: &mut Rng, offsets: &[u32], targets: &[u32], starts: &[u32]) -> Vec<u8> {
    let n = offsets.len().saturating_sub(1);
    let rises = offsets.windows(2).all(|pair| pair[0] <= pair[1]) && offsets.last() == Some(&(targets.len() as u32));
    let formed = n > 0 && rises && targets.iter().chain(starts).all(|&v| (v as usize) < n);
    let mut marks: Vec<u8> = match formed && !rng.once_in(8) {
        true => reached(offsets, targets, starts).0.iter().map(|&found| u8::from(found)).collect(),
        false => (0..n).map(|_| u8::from(rng.once_in(3))).collect(),
    };
    for mark in marks.iter_mut().filter(|mark| **mark != 0) {
        *mark = rng.pick(&[1, 2, 16, 255]);
    }
    if rng.once_in(8) && n > 0 {
        let v = rng.below(n);
        marks[v] = 0;
    }
    if rng.once_in(25) {
        marks.resize(damage::length(rng, n), 1);
    }
    marks
}

fn add(rng: &mut Rng) -> Call {
    let Mark { offsets, targets, starts, .. } = mark(rng);
    let marks = closed_marks(rng, &offsets, &targets, &starts);
    let n = offsets.len().saturating_sub(1);
    let most = rng.pick(&[0, 1, 3, 12]);
    let count = rng.below(most + 1);
    let from: Vec<u32> = (0..count).map(|_| object(rng, n)).collect();
    let to: Vec<u32> = (0..damage::length_once_in(rng, 25, count)).map(|_| object(rng, n)).collect();
    let left = targets.len() + count;
    Call::Add { update: update(rng, offsets, targets, marks, left), from, to }
}

fn remove(rng: &mut Rng) -> Call {
    let Mark { offsets, targets, starts, .. } = mark(rng);
    let m = targets.len();
    let most = rng.pick(&[0, 1, 3, m, 2 * m]);
    let count = rng.below(most + 1);
    let numbers: Vec<u32> = (0..count).map(|_| if m == 0 { rng.below(3) as u32 } else { object(rng, m) }).collect();
    let mut named: Vec<u32> = numbers.iter().copied().filter(|&number| (number as usize) < m).collect();
    named.sort_unstable();
    named.dedup();
    // As if a repeated number counted twice, too.
    let left = if rng.once_in(25) { m.saturating_sub(numbers.len()) } else { m - named.len() };
    let n = offsets.len().saturating_sub(1);
    let marks = (0..damage::length_once_in(rng, 25, n)).map(|_| rng.word() as u8).collect();
    Call::Remove { update: update(rng, offsets, targets, marks, left), numbers, starts }
}

/// A number in decimal digits, now and then with zeros in front.
fn digits(rng: &mut Rng, number: u64) -> String {
    match rng.below(400) {
        0..=20 => format!("{number:02}"),
        21..=30 => format!("{number:010}"),
        31 => format!("{number:011}"),
        _ => number.to_string(),
    }
}

/// A Matrix Market text, often damaged, and the n and m that its buffers are made for.
fn market(rng: &mut Rng) -> (Vec<u8>, usize, usize) {
    let store = small_store(rng);
    let (mut n, m) = (store.n, store.m());
    let mut text = format!("{}\n", reference::BANNER).into_bytes();
    for _ in 0..rng.pick(&[0, 0, 0, 1, 3]) {
        text.push(b'%');
        text.extend((0..rng.below(12)).map(|_| rng.pick(b"% 1aZ\t\r\xff")));
        text.push(b'\n');
    }
    if rng.once_in(20) {
        n = rng.pick(&[0, 65_535, 65_536, 65_537]);
    }
    let (mut rows, mut columns, mut entries) = (n as u64, n as u64, m as u64);
    match rng.below(60) {
        0 => columns += 1,
        1 => rows = columns.saturating_sub(1),
        2 => (rows, columns) = (9_999_999_999, 9_999_999_999),
        3 => entries += 1,
        4 => entries = entries.saturating_sub(1),
        5 => entries = rng.pick(&[1_048_576, 1_048_577, 9_999_999_999, 10_000_000_000]),
        _ => {}
    }
    let counts = [rows, columns, entries].map(|count| digits(rng, count));
    text.extend(format!("{}\n", counts.join(" ")).bytes());
    let wrong = rng.once_in(8).then(|| rng.below(m + 1));
    for (e, &(from, to)) in store.pairs.iter().enumerate() {
        let mut ends = [u64::from(from) + 1, u64::from(to) + 1];
        if wrong == Some(e) {
            ends[rng.below(2)] = rng.pick(&[0, n as u64, n as u64 + 1, 9_999_999_999]);
        }
        let ends = ends.map(|end| digits(rng, end));
        text.extend(format!("{}\n", ends.join(" ")).bytes());
    }
    if rng.once_in(4) {
        damage::text(rng, &mut text);
    }
    (text, n, m)
}

fn import(rng: &mut Rng) -> Call {
    let (text, n, m) = market(rng);
    let (offsets, targets) = (damage::length_once_in(rng, 20, n + 1), damage::length_once_in(rng, 20, m));
    let sizes = damage::length_once_in(rng, 20, n);
    Call::Import { text, offsets, targets, sizes }
}

fn export_length(rng: &mut Rng) -> Call {
    let Mark { offsets, targets, .. } = mark(rng);
    Call::ExportLength { offsets, targets }
}

fn export(rng: &mut Rng) -> Call {
    let Mark { offsets, targets, .. } = mark(rng);
    let right = reference::export_length(&offsets, &targets).unwrap_or(60) as usize;
    Call::Export { out: damage::length_once_in(rng, 8, right), offsets, targets }
}

/// Names and texts. The digits are few, so that names overlap and windows are nearly names; names stand at the first and the
/// last byte, cut by a text's end, with a letter in upper case, and in runs of digits. Damage is of one part or none.
fn scan(rng: &mut Rng) -> Scan {
    let width = rng.pick(&[1, 2, 3, 4, 5, 6, 7, 8, 9, 16, 64, 128]);
    let objects = rng.between(1, 40) as u32;
    let few = rng.pick(&[&b"a"[..], b"0a", b"9af", b"0123456789abcdef"]);
    let digit = |rng: &mut Rng| rng.pick(few);
    let mut names: Vec<Vec<u8>> = (0..rng.below(12)).map(|_| (0..width).map(|_| digit(rng)).collect()).collect();
    names.sort();
    names.dedup();
    let mut texts = Vec::new();
    let mut ends = Vec::new();
    for _ in 0..rng.below(6) {
        for _ in 0..rng.below(8) {
            match rng.below(6) {
                0 | 1 if !names.is_empty() => {
                    let mut name = names[rng.below(names.len())].clone();
                    match rng.below(8) {
                        0 => name.truncate(width - 1),
                        1 => name.make_ascii_uppercase(),
                        2 => name[rng.below(width)] = digit(rng),
                        _ => {}
                    }
                    texts.extend(name);
                }
                2 => texts.extend((0..rng.below(3 * width)).map(|_| digit(rng))),
                3 => texts.extend(rng.pick(&[
                    &b"\"digest\":\"sha256:"[..],
                    b"\",\"size\":",
                    b"{",
                    b"g",
                    b"/",
                    b":",
                    b"`",
                    b"G",
                ])),
                4 => texts.push(rng.word() as u8),
                _ => {}
            }
        }
        ends.push(texts.len() as u64);
    }
    let object = |rng: &mut Rng| rng.below(objects as usize) as u32;
    let named = names.iter().map(|_| object(rng)).collect();
    let owners = ends.iter().map(|_| object(rng)).collect();
    let (width, names) = (width as u32, names.concat());
    let mut scan = Scan { objects, width, names, named, texts, ends, owners, work: SCAN_WORK, litter: None };
    damage::scan(rng, &mut scan);
    scan
}

fn scan_into(rng: &mut Rng) -> Call {
    let scan = scan(rng);
    static BLANK: [u32; SCAN_WORK] = [0; SCAN_WORK];
    let right = reference::scan_length(scan.call(), &BLANK).unwrap_or(3) as usize;
    let (from, to) = (damage::length_once_in(rng, 8, right), damage::length_once_in(rng, 8, right));
    Call::Scan { scan, from, to }
}

/// W for cards, now and then out of range or more than a card has.
fn card_workers(rng: &mut Rng) -> u32 {
    let any = rng.word() as u32;
    match rng.below(4) {
        0 => rng.pick(&[0, 7, 8, 16, 17, u32::MAX, any]),
        _ => rng.between(1, 6) as u32,
    }
}

/// A seed: any two words, some at the edges, some with a first word of 0, and now and then not two.
fn seed(rng: &mut Rng) -> Vec<u32> {
    let any = [rng.word() as u32, rng.word() as u32];
    let first = rng.pick(&[any[0], any[0], any[0], 0, 1, 1 << 31, u32::MAX]);
    let second = rng.pick(&[any[1], any[1], 0, u32::MAX, u32::MAX - 362_436]);
    match rng.below(20) {
        0 => vec![first; rng.pick(&[0, 1, 3])],
        _ => vec![first, second],
    }
}

fn deal_seed(rng: &mut Rng) -> Call {
    let workers = card_workers(rng);
    let most = rng.pick(&[1, 3, 40, 100]);
    let rounds = rng.below(most + 1);
    let schedule = damage::length_once_in(rng, 6, 2 * (workers as usize).min(40) * rounds);
    // More rounds than any buffer holds, too.
    let rounds = rng.pick(&[rounds, rounds, rounds, rounds, rounds, rounds, usize::MAX, usize::MAX / 2 + 1 + rounds]);
    Call::DealSeed { seed: seed(rng), rounds, workers, schedule }
}

/// Cards of the deck, so many.
fn cards(rng: &mut Rng, count: usize) -> Vec<u32> {
    (0..count).map(|_| rng.below(reference::DECK as usize) as u32).collect()
}

fn deal(rng: &mut Rng) -> Call {
    let workers = card_workers(rng);
    let most = rng.pick(&[1, 3, 40, 100]);
    let count = rng.below(most + 1);
    let mut cards = cards(rng, count);
    if rng.once_in(6) && !cards.is_empty() {
        let at = rng.below(cards.len());
        cards[at] = rng.pick(&[719, 720, 721, u32::MAX, 1_000]);
    }
    let schedule = damage::length_once_in(rng, 6, 2 * (workers as usize).min(40) * cards.len());
    Call::Deal { cards, workers, schedule }
}

fn small_store(rng: &mut Rng) -> Store {
    let most = rng.pick(&[3, 12, 40, 150]);
    let n = rng.between(1, most);
    let m = rng.below(4 * n + 2);
    let shape = rng.below(store::SHAPES);
    let mut store = store::store(rng, shape, n, m);
    if rng.once_in(3) {
        store.index = rng.below(n) as u32;
    }
    if rng.once_in(2) {
        rng.shuffle(&mut store.pairs);
    }
    store.subjects = subjects(rng, store.m());
    store.leases = leases(rng, n);
    store
}

/// Which of m references are subjects: none, a few, half, or all.
fn subjects(rng: &mut Rng, m: usize) -> Vec<bool> {
    match rng.below(5) {
        0 | 1 => Vec::new(),
        2 => (0..m).map(|_| rng.once_in(8)).collect(),
        3 => (0..m).map(|_| rng.once_in(2)).collect(),
        _ => vec![true; m],
    }
}

/// The objects of the leases: none, a few, repeated ones, or about as many as there may be.
fn leases(rng: &mut Rng, n: usize) -> Vec<u32> {
    let few = rng.between(1, 5);
    let count = rng.pick(&[0, 0, few, few, few, few, MOST_LEASES - 1, MOST_LEASES, MOST_LEASES + 1]);
    let below = rng.pick(&[n, n, 1]);
    (0..count).map(|_| rng.below(below) as u32).collect()
}

/// A catalogue, often damaged, and the n and m that its buffers are made for.
pub fn catalogue(rng: &mut Rng) -> (Vec<u8>, usize, usize) {
    let store = small_store(rng);
    let sizes = store::sizes(rng, store.n);
    let mut records = store.records(&sizes);
    for _ in 0..rng.pick(&[0, 0, 0, 1, 1, 1, 2, 3]) {
        damage::records(rng, &mut records, store.n as u32);
    }
    let mut bytes = store::bytes(&records);
    if rng.once_in(4) {
        damage::bytes(rng, &mut bytes);
    }
    (bytes, store.n, store.m())
}

fn read(rng: &mut Rng) -> Call {
    let (bytes, n, m) = catalogue(rng);
    let once_in = rng.pick(&[4, 1_000, 1_000]);
    Call::Read {
        bytes,
        offsets: damage::length_once_in(rng, once_in, n + 1),
        targets: damage::length_once_in(rng, once_in, m),
        sizes: damage::length_once_in(rng, once_in, n),
        starts: damage::length_once_in(rng, once_in, STARTS),
    }
}

fn references(rng: &mut Rng) -> Call {
    let store = small_store(rng);
    let (mut offsets, mut targets) = store.lists();
    for _ in 0..rng.below(3) {
        damage::graph(rng, &mut offsets, &mut targets);
    }
    let n = store.n as u32;
    let any = rng.word() as u32;
    let object = match rng.below(3) {
        0 => rng.pick(&[0, n - 1, n, n + 1, u32::MAX, u32::MAX - 1, any]),
        _ => rng.below(store.n) as u32,
    };
    Call::References { offsets, targets, object }
}

fn sweep(rng: &mut Rng) -> Call {
    let n = rng.below(40);
    let mut sizes = store::sizes(rng, n);
    if n > 0 && rng.once_in(5) {
        sizes[rng.below(n)] = rng.pick(&[LARGEST_SIZE + 1, u64::MAX, LARGEST_SIZE]);
    }
    let marks = damage::length_once_in(rng, 8, n);
    let values: &[u8] = rng.pick(&[&[0, 1][..], &[0], &[1], &[0, 0, 1, 2, 128, 255]]);
    Call::Sweep {
        marks: (0..marks).map(|_| rng.pick(values)).collect(),
        sizes,
        list: damage::length_once_in(rng, 8, n),
    }
}

/// A marker's call, accepted more often than not.
fn mark(rng: &mut Rng) -> Mark {
    let call = accepted(rng);
    damaged_once_in(rng, 3, call)
}

fn damaged_once_in(rng: &mut Rng, times: usize, mut call: Mark) -> Mark {
    if rng.once_in(times) {
        for _ in 0..rng.pick(&[1, 1, 1, 2, 3]) {
            damage::mark(rng, &mut call);
        }
    }
    call
}

/// Where turns are parted: nowhere, anywhere, and the same place more than once.
pub fn cuts(rng: &mut Rng, call: &Mark) -> Vec<usize> {
    let turns = call.schedule.len() / 2;
    let count = rng.pick(&[0, 1, 2, 3, 6, turns.min(12)]);
    let mut cuts: Vec<usize> = (0..count).map(|_| rng.below(turns + 1)).collect();
    if let (Some(&one), true) = (cuts.first(), rng.once_in(3)) {
        cuts.push(one);
    }
    cuts.sort_unstable();
    cuts
}

fn begin(rng: &mut Rng) -> Call {
    let call = accepted(rng);
    let right = call.places().all();
    let cuts = cuts(rng, &call);
    Call::Begin { saved: damage::length_once_in(rng, 12, right), mark: damaged_once_in(rng, 3, call), cuts }
}

/// A collection that is begun, and what is left of its turns. The saved words are as they were, written by hand or damaged,
/// or they are another collection's.
fn resume(rng: &mut Rng) -> Call {
    let mut call = accepted(rng);
    let turns = call.schedule.len() / 2;
    let some = rng.below(turns + 1);
    let done = rng.pick(&[0, turns, some, some, some]);
    let mut saved = begun(&call.parts(&[done])[0]);
    call.schedule.drain(..2 * done);
    let (sort, changes) = (rng.below(10), rng.between(1, 30));
    if matches!(sort, 1..=5) {
        saved = states::written(rng, &call, saved, changes);
    }
    match sort {
        0..=2 => {}
        3 => saved = states::changed(rng, &call, saved),
        4..=7 => {
            for _ in 0..rng.pick(&[1, 1, 1, 2]) {
                states::damage(rng, call.places(), &mut saved);
            }
        }
        8 => another(rng, &mut call),
        _ => {
            call = damaged_once_in(rng, 1, call);
            if rng.once_in(4) {
                saved.fill(0);
            }
        }
    }
    let right = damage::length_once_in(rng, 40, saved.len());
    saved.resize(right, 0);
    Call::Resume { mark: call, saved }
}

/// The words of a collection, after the turns of this call.
pub fn begun(call: &Mark) -> Vec<u32> {
    let mut saved = vec![0; call.places().all()];
    let (mut marks, mut work, mut tallies) = (vec![0; call.marks], vec![0; call.work], vec![0; call.tallies]);
    reference::begin(call.call(), &mut marks, &mut work, &mut tallies, &mut saved).expect("an accepted call");
    saved
}

/// Another setting, another start or another graph of the same size.
fn another(rng: &mut Rng, call: &mut Mark) {
    let (n, m) = (call.marks, call.targets.len());
    match rng.below(4) {
        0 => call.batch = setting(rng),
        1 => call.cutoff = setting(rng),
        2 => {
            let index = rng.below(n) as u32;
            call.starts = starts(rng, index, n);
        }
        _ if m > 0 => call.targets[rng.below(m)] = rng.below(n) as u32,
        _ => {}
    }
}

/// A marker's call without a fault.
fn accepted(rng: &mut Rng) -> Mark {
    let store = small_store(rng);
    let (offsets, targets) = store.lists();
    let workers = rng.pick(&[1, 2, 3, 4, 8, 15, 16]);
    let mut call = Mark {
        schedule: Vec::new(),
        starts: starts(rng, store.index, store.n),
        workers: workers as u32,
        batch: setting(rng),
        cutoff: setting(rng),
        marks: store.n,
        work: workers * (2 * store.n + 4),
        tallies: workers * Tally::WORDS,
        offsets,
        targets,
    };
    call.schedule = schedule(rng, &call);
    call
}

/// The index, often alone; or leases behind it, a few or as many as there may be, with repeats among them.
pub fn starts(rng: &mut Rng, index: u32, n: usize) -> Vec<u32> {
    let leases = match rng.below(6) {
        0 | 1 => rng.between(1, 4),
        2 => rng.between(1, n),
        3 => rng.pick(&[STARTS - 2, STARTS - 1]),
        _ => 0,
    };
    let below = rng.pick(&[n, n, 2.min(n)]);
    let mut starts = vec![index];
    starts.extend((0..leases.min(STARTS - 1)).map(|_| rng.below(below) as u32));
    starts
}

/// D or K, within the range.
fn setting(rng: &mut Rng) -> u32 {
    let any = rng.between(1, 65_535) as u32;
    match rng.below(8) {
        0 => rng.pick(&[65_535, any]),
        1 | 2 => rng.between(1, 100) as u32,
        _ => rng.pick(&[1, 1, 2, 3, 4, 7]),
    }
}

/// The turns: none, few, some, or as many full rounds as finish every collection.
fn schedule(rng: &mut Rng, call: &Mark) -> Vec<u8> {
    let (workers, m) = (call.workers as usize, call.targets.len());
    let turns = match rng.below(8) {
        0 => rng.below(3),
        1 | 2 => rng.below(40),
        3..=5 => rng.below(workers * (2 * m + 8)),
        _ => {
            let (_, leaving) = reached(&call.offsets, &call.targets, &call.starts);
            workers * (7 * leaving + 4 * workers + 2)
        }
    };
    if workers <= 6 && rng.once_in(4) {
        let hand = cards(rng, turns / workers);
        let mut schedule = vec![0; 2 * workers * hand.len()];
        reference::deal(&hand, call.workers, &mut schedule).expect("a hand");
        return schedule;
    }
    let (order, naming) = (rng.below(6), rng.below(6));
    let mut schedule = Vec::with_capacity(2 * turns);
    for worker in workers_in_turn(rng, order, workers, turns) {
        schedule.extend([worker, named(rng, naming, worker, call.workers as u8)]);
    }
    schedule
}

/// Whose turn it is, in the order of this number.
fn workers_in_turn(rng: &mut Rng, order: usize, workers: usize, turns: usize) -> Vec<u8> {
    let mut round: Vec<u8> = (0..workers as u8).collect();
    let mut all = Vec::with_capacity(turns);
    let mut current = 0;
    for i in 0..turns {
        let at = i % workers;
        if at == 0 && order == 1 {
            rng.shuffle(&mut round);
        }
        current = match order {
            // Full rounds, in order or shuffled.
            0 | 1 => round[at],
            // Any worker.
            2 | 3 => rng.below(workers) as u8,
            // The same one for a while.
            4 if !rng.once_in(9) => current,
            // The first ones more often.
            _ => rng.below(workers).min(rng.below(workers)) as u8,
        };
        all.push(current);
    }
    all
}

/// Whom a turn names: the next, any worker, worker 0, the one before, itself, or none that there is.
fn named(rng: &mut Rng, naming: usize, current: u8, workers: u8) -> u8 {
    let any = rng.word() as u8;
    match naming {
        0 => (current + 1) % workers,
        1 | 2 => rng.below(workers as usize) as u8,
        3 => rng.pick(&[0, 0, 0, current, workers]),
        4 => current.checked_sub(1).unwrap_or(workers - 1),
        _ => rng.pick(&[workers, workers + 1, 255, 0, current, any]),
    }
}
