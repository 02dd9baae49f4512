//! One call with its inputs. Lent buffers that are written are given by their lengths.

use crate::calls::NUMBER_CALLS;
use std::fmt;

/// A call and what it is given.
#[derive(Clone, Debug, PartialEq, Eq)]
pub enum Call {
    /// One of [`NUMBER_CALLS`], by its place there.
    Numbers {
        which: usize,
        given: Vec<u64>,
    },
    Header {
        bytes: Vec<u8>,
    },
    Read {
        bytes: Vec<u8>,
        offsets: usize,
        targets: usize,
        sizes: usize,
        starts: usize,
    },
    References {
        offsets: Vec<u32>,
        targets: Vec<u32>,
        object: u32,
    },
    Mark(Mark),
    /// Its schedule is empty.
    MarkAll(Mark),
    Sweep {
        marks: Vec<u8>,
        sizes: Vec<u64>,
        list: usize,
    },
    /// Also made in parts, cut before these turns.
    Begin {
        mark: Mark,
        saved: usize,
        cuts: Vec<usize>,
    },
    /// The saved words as they are beforehand.
    Resume {
        mark: Mark,
        saved: Vec<u32>,
    },
    Deal {
        cards: Vec<u32>,
        workers: u32,
        schedule: usize,
    },
    Draw {
        seed: Vec<u32>,
    },
    DealSeed {
        seed: Vec<u32>,
        rounds: usize,
        workers: u32,
        schedule: usize,
    },
    Hops {
        offsets: Vec<u32>,
        targets: Vec<u32>,
        starts: Vec<u32>,
        hops: usize,
        work: usize,
    },
    Add {
        update: Update,
        from: Vec<u32>,
        to: Vec<u32>,
    },
    Remove {
        update: Update,
        numbers: Vec<u32>,
        starts: Vec<u32>,
    },
    MarketHeader {
        text: Vec<u8>,
    },
    Import {
        text: Vec<u8>,
        offsets: usize,
        targets: usize,
        sizes: usize,
    },
    ExportLength {
        offsets: Vec<u32>,
        targets: Vec<u32>,
    },
    Export {
        offsets: Vec<u32>,
        targets: Vec<u32>,
        out: usize,
    },
    ScanLength(Scan),
    Scan {
        scan: Scan,
        from: usize,
        to: usize,
    },
}

/// What `scan_length` and `scan` are both given: the number of objects, names and texts, how many work words, and the place of
/// one that is not 0.
#[derive(Clone, Debug, PartialEq, Eq)]
pub struct Scan {
    pub objects: u32,
    pub width: u32,
    pub names: Vec<u8>,
    pub named: Vec<u32>,
    pub texts: Vec<u8>,
    pub ends: Vec<u64>,
    pub owners: Vec<u32>,
    pub work: usize,
    pub litter: Option<usize>,
}

impl Scan {
    /// The call, for the scan in plain Rust.
    pub fn call(&self) -> reference::Scan<'_> {
        let Scan { objects, width, ref names, ref named, ref texts, ref ends, ref owners, .. } = *self;
        reference::Scan { objects, width, names, named, texts, ends, owners }
    }
}

/// What `add` and `remove` are both given: a graph, marks as they are beforehand, and lengths.
#[derive(Clone, Debug, PartialEq, Eq)]
pub struct Update {
    pub offsets: Vec<u32>,
    pub targets: Vec<u32>,
    pub marks: Vec<u8>,
    pub new_offsets: usize,
    pub new_targets: usize,
    pub work: usize,
}

#[derive(Clone, Debug, PartialEq, Eq)]
pub struct Mark {
    pub offsets: Vec<u32>,
    pub targets: Vec<u32>,
    pub starts: Vec<u32>,
    pub workers: u32,
    pub batch: u32,
    pub cutoff: u32,
    pub schedule: Vec<u8>,
    pub marks: usize,
    pub work: usize,
    pub tallies: usize,
}

impl Mark {
    /// The call, for the markers in plain Rust.
    pub fn call(&self) -> reference::Call<'_> {
        let Mark { ref offsets, ref targets, ref starts, workers, batch, cutoff, ref schedule, .. } = *self;
        reference::Call { offsets, targets, starts, workers, batch, cutoff, schedule }
    }

    /// How many words the collection takes when it is saved.
    pub fn places(&self) -> reference::Places {
        reference::Places::of(self.call())
    }

    /// The schedule in parts, cut before these turns.
    pub fn parts(&self, cuts: &[usize]) -> Vec<Mark> {
        let whole = self.schedule.len();
        let ends = cuts.iter().map(|cut| whole.min(2 * cut)).chain([whole]);
        let part = |at: &mut usize, end: usize| {
            let schedule = self.schedule[*at..end].to_vec();
            *at = end;
            Some(Mark { schedule, ..self.clone() })
        };
        ends.scan(0, part).collect()
    }
}

#[derive(Clone, Debug, PartialEq, Eq)]
pub struct Case {
    pub call: Call,
    /// The length of the result buffer.
    pub result: usize,
    /// What the written buffers hold beforehand is made from this.
    pub fill: u64,
}

impl Case {
    /// The same for the buffer of this number.
    pub fn fill(&self, buffer: u64) -> u64 {
        self.fill.wrapping_add(8 * buffer)
    }

    /// Whether the call can be made by the functions with Rust's own types.
    pub fn is_typed(&self) -> bool {
        let whole = match &self.call {
            Call::Draw { seed } | Call::DealSeed { seed, .. } => seed.len() == 2,
            _ => true,
        };
        whole && self.result == self.call.result_words()
    }
}

/// How many elements of a list are printed.
const SHOWN: usize = 2_000;

fn list<T: fmt::Display>(f: &mut fmt::Formatter<'_>, name: &str, all: &[T]) -> fmt::Result {
    write!(f, "  {name} ({}):", all.len())?;
    for one in all.iter().take(SHOWN) {
        write!(f, " {one}")?;
    }
    writeln!(f, "{}", if all.len() > SHOWN { " .." } else { "" })
}

/// One record to a line, in hex, as far as the lengths can be followed.
fn catalogue(f: &mut fmt::Formatter<'_>, bytes: &[u8]) -> fmt::Result {
    writeln!(f, "  catalogue ({} bytes, hex, one record to a line):", bytes.len())?;
    let mut rest = bytes;
    for _ in 0..SHOWN {
        if rest.is_empty() {
            return Ok(());
        }
        let told = if rest.len() < 2 { 0 } else { usize::from(u16::from_le_bytes([rest[0], rest[1]])) };
        let length = if (4..=rest.len()).contains(&told) { told } else { rest.len() };
        write!(f, "   ")?;
        for byte in &rest[..length.min(SHOWN)] {
            write!(f, " {byte:02x}")?;
        }
        writeln!(f)?;
        rest = &rest[length..];
    }
    writeln!(f, "    ..")
}

/// A text, with its line feeds escaped.
fn text(f: &mut fmt::Formatter<'_>, name: &str, all: &[u8]) -> fmt::Result {
    let shown = &all[..all.len().min(SHOWN)];
    writeln!(f, "  {name} ({} bytes): {}", all.len(), shown.escape_ascii())
}

fn schedule(f: &mut fmt::Formatter<'_>, bytes: &[u8]) -> fmt::Result {
    write!(f, "  schedule ({} bytes, worker>named):", bytes.len())?;
    for turn in bytes.chunks(2).take(SHOWN) {
        match turn {
            [worker, named] => write!(f, " {worker}>{named}")?,
            rest => write!(f, " {}", rest[0])?,
        }
    }
    writeln!(f, "{}", if bytes.len() > 2 * SHOWN { " .." } else { "" })
}

impl fmt::Display for Mark {
    fn fmt(&self, f: &mut fmt::Formatter<'_>) -> fmt::Result {
        list(f, "offsets", &self.offsets)?;
        list(f, "targets", &self.targets)?;
        list(f, "starts", &self.starts)?;
        writeln!(f, "  W {}, D {}, K {}", self.workers, self.batch, self.cutoff)?;
        schedule(f, &self.schedule)?;
        writeln!(f, "  lengths: marks {}, work {}, tallies {}", self.marks, self.work, self.tallies)
    }
}

impl fmt::Display for Update {
    fn fmt(&self, f: &mut fmt::Formatter<'_>) -> fmt::Result {
        let Update { new_offsets, new_targets, work, .. } = self;
        list(f, "offsets", &self.offsets)?;
        list(f, "targets", &self.targets)?;
        list(f, "marks", &self.marks)?;
        writeln!(f, "  lengths: new offsets {new_offsets}, new targets {new_targets}, work {work}")
    }
}

impl fmt::Display for Scan {
    fn fmt(&self, f: &mut fmt::Formatter<'_>) -> fmt::Result {
        writeln!(f, "  n {}, width {}", self.objects, self.width)?;
        text(f, "names", &self.names)?;
        list(f, "named", &self.named)?;
        text(f, "texts", &self.texts)?;
        list(f, "ends", &self.ends)?;
        list(f, "owners", &self.owners)?;
        writeln!(f, "  work: {} words, not 0 at {:?}", self.work, self.litter)
    }
}

impl fmt::Display for Case {
    fn fmt(&self, f: &mut fmt::Formatter<'_>) -> fmt::Result {
        writeln!(f, "call {}", Call::NAMES[self.call.place()])?;
        match &self.call {
            Call::Numbers { which, given } => {
                for ((name, _), number) in NUMBER_CALLS[*which].given.iter().zip(given) {
                    writeln!(f, "  {name} {number}")?;
                }
            }
            Call::Header { bytes } => catalogue(f, bytes)?,
            Call::Read { bytes, offsets, targets, sizes, starts } => {
                catalogue(f, bytes)?;
                writeln!(f, "  lengths: offsets {offsets}, targets {targets}, sizes {sizes}, starts {starts}")?;
            }
            Call::References { offsets, targets, object } => {
                list(f, "offsets", offsets)?;
                list(f, "targets", targets)?;
                writeln!(f, "  object {object}")?;
            }
            Call::Mark(mark) | Call::MarkAll(mark) => write!(f, "{mark}")?,
            Call::Sweep { marks, sizes, list: length } => {
                list(f, "marks", marks)?;
                list(f, "sizes", sizes)?;
                writeln!(f, "  length: list {length}")?;
            }
            Call::Begin { mark, saved, cuts } => {
                write!(f, "{mark}")?;
                writeln!(f, "  length: saved {saved}")?;
                list(f, "cut before the turns", cuts)?;
            }
            Call::Resume { mark, saved } => {
                write!(f, "{mark}")?;
                list(f, "saved", saved)?;
            }
            Call::Deal { cards, workers, schedule } => {
                list(f, "cards", cards)?;
                writeln!(f, "  W {workers}, length: schedule {schedule}")?;
            }
            Call::Draw { seed } => list(f, "seed", seed)?,
            Call::DealSeed { seed, rounds, workers, schedule } => {
                list(f, "seed", seed)?;
                writeln!(f, "  rounds {rounds}, W {workers}, length: schedule {schedule}")?;
            }
            Call::Hops { offsets, targets, starts, hops, work } => {
                list(f, "offsets", offsets)?;
                list(f, "targets", targets)?;
                list(f, "starts", starts)?;
                writeln!(f, "  lengths: hops {hops}, work {work}")?;
            }
            Call::Add { update, from, to } => {
                write!(f, "{update}")?;
                list(f, "from", from)?;
                list(f, "to", to)?;
            }
            Call::Remove { update, numbers, starts } => {
                write!(f, "{update}")?;
                list(f, "numbers", numbers)?;
                list(f, "starts", starts)?;
            }
            Call::MarketHeader { text: all } => text(f, "text", all)?,
            Call::Import { text: all, offsets, targets, sizes } => {
                text(f, "text", all)?;
                writeln!(f, "  lengths: offsets {offsets}, targets {targets}, sizes {sizes}")?;
            }
            Call::ExportLength { offsets, targets } => {
                list(f, "offsets", offsets)?;
                list(f, "targets", targets)?;
            }
            Call::Export { offsets, targets, out } => {
                list(f, "offsets", offsets)?;
                list(f, "targets", targets)?;
                writeln!(f, "  length: out {out}")?;
            }
            Call::ScanLength(scan) => write!(f, "{scan}")?,
            Call::Scan { scan, from, to } => {
                write!(f, "{scan}")?;
                writeln!(f, "  lengths: from {from}, to {to}")?;
            }
        }
        writeln!(f, "  length: result {}", self.result)
    }
}
