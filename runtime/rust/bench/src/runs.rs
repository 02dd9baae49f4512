//! Runs of the marker on each side, and the buffers that are lent to them.

use crate::graphs::Graph;
use kullneyra::{Schedule, Settings};
use reference::{Call, Outcome};

/// Lent buffers, all written once before anything is measured.
pub struct Buffers {
    pub offsets: Vec<u32>,
    pub targets: Vec<u32>,
    pub sizes: Vec<u64>,
    pub starts: Vec<u32>,
    pub marks: Vec<u8>,
    pub work: Vec<u32>,
    pub tallies: Vec<u64>,
    pub list: Vec<u32>,
    pub stack: Vec<u32>,
}

impl Buffers {
    pub fn new(graph: &Graph, workers: usize) -> Self {
        let (n, m) = (graph.n(), graph.m());
        let work = kullneyra::lengths::work(n, workers);
        let mut stack = vec![1; n + 1];
        stack.clear();
        Buffers {
            offsets: vec![1; n + 1],
            targets: vec![1; m],
            sizes: vec![1; n],
            starts: vec![1; kullneyra::STARTS],
            marks: vec![1; n],
            work: vec![1; work],
            tallies: vec![1; kullneyra::lengths::tallies(workers)],
            list: vec![1; n],
            stack,
        }
    }
}

/// Round robin: the workers in order, each naming the next.
pub fn round_robin(workers: u32, turns: usize) -> Vec<u8> {
    let workers = workers as usize;
    (0..turns).flat_map(|i| [(i % workers) as u8, ((i + 1) % workers) as u8]).collect()
}

pub fn call<'a>(graph: &'a Graph, settings: Settings, schedule: &'a [u8]) -> Call<'a> {
    let Settings { workers, batch, cutoff } = settings;
    let Graph { offsets, targets, .. } = graph;
    Call { offsets, targets, starts: &[0], workers, batch, cutoff, schedule }
}

pub fn run_reference(graph: &Graph, settings: Settings, schedule: &[u8], b: &mut Buffers) -> Outcome {
    reference::mark(call(graph, settings, schedule), &mut b.marks, &mut b.work, &mut b.tallies).expect("a call")
}

pub fn run_tuned(graph: &Graph, settings: Settings, schedule: &[u8], b: &mut Buffers) -> Outcome {
    tuned::mark(call(graph, settings, schedule), &mut b.marks, &mut b.work, &mut b.tallies).expect("a call")
}

pub fn run_proved(graph: &Graph, settings: Settings, schedule: &[u8], b: &mut Buffers) -> kullneyra::Marked {
    let Graph { offsets, targets, .. } = graph;
    let Buffers { marks, work, tallies, .. } = b;
    let schedule = Schedule::from_bytes(schedule);
    kullneyra::mark(offsets, targets, &[0], settings, schedule, marks, work, tallies).expect("a call")
}

/// The shortest round-robin schedule that finishes, up to one in 256 longer.
pub fn schedule(graph: &Graph, settings: Settings, buffers: &mut Buffers) -> Vec<u8> {
    let mut enough = 64;
    let mut turns = round_robin(settings.workers, enough);
    while !run_tuned(graph, settings, &turns, buffers).finished {
        enough *= 2;
        turns = round_robin(settings.workers, enough);
    }
    let mut short = enough / 2;
    while enough - short > enough / 256 + 1 {
        let middle = short + (enough - short) / 2;
        if run_tuned(graph, settings, &turns[..2 * middle], buffers).finished {
            enough = middle;
        } else {
            short = middle;
        }
    }
    turns.truncate(2 * enough);
    turns
}
