//! The marker from the start to the end of the collection: the proved one, the tuned one, the plain one, and a plain depth-first marking of the
//! same graph.

use crate::graphs::Graph;
use crate::measure::{medians, Medians};
use crate::runs::{run_proved, run_reference, run_tuned, schedule, Buffers};
use crate::table::Kind::{Count, Nanoseconds, Ratio, Span};
use crate::table::{Merged, Row, Table};
use kullneyra::Settings;
use reference::Outcome;
use std::fmt::Write;
use std::hint::black_box;

const WORKERS: [u32; 3] = [1, 4, 16];
const BATCH_AND_CUTOFF: [(u32, u32); 3] = [(1, 1), (64, 64), (1024, 4096)];

pub const TABLE: Table = Table {
    title: "Marker, to the end of the collection",
    names: &["Store", "W", "D, K"],
    columns: &[
        ("turns", Count),
        ("hand-overs", Count),
        ("proved ns/ref", Nanoseconds),
        ("tuned ns/ref", Nanoseconds),
        ("Rust ns/ref", Nanoseconds),
        ("depth-first ns/ref", Nanoseconds),
        ("proved ns/turn", Nanoseconds),
        ("proved : tuned", Span),
        ("proved : Rust", Ratio),
        ("proved : depth-first", Ratio),
    ],
    measure: |graphs, repetitions| {
        let settings = WORKERS.iter().flat_map(|&workers| {
            BATCH_AND_CUTOFF.iter().map(move |&(batch, cutoff)| Settings { workers, batch, cutoff })
        });
        let settings: Vec<Settings> = settings.collect();
        graphs.iter().flat_map(|graph| settings.iter().map(|&one| row(graph, one, repetitions))).collect()
    },
};

/// The columns of the sides' nanoseconds for one reference: proved, tuned, plain, depth-first.
pub const PER_REFERENCE: [usize; 4] = [2, 3, 4, 5];
/// Those of the ratios to the tuned machine, the plain one and the depth-first marking.
const OVER: [usize; 3] = [7, 8, 9];

/// A finished marking.
pub struct Marking {
    /// Proved, tuned, plain and depth-first.
    pub medians: Medians<4>,
    pub turns: usize,
    pub followed: u64,
    pub handed: u64,
}

impl Marking {
    pub fn per_reference(&self) -> [f64; 4] {
        self.medians.times.map(|time| time / self.followed as f64)
    }
}

fn row(graph: &Graph, settings: Settings, repetitions: usize) -> Row {
    let marking = mark(graph, settings, repetitions);
    let Settings { workers, batch, cutoff } = settings;
    let [_, over @ ..] = marking.medians.over;
    let mut figures = vec![marking.turns as f64, marking.handed as f64];
    figures.extend(marking.per_reference());
    figures.push(marking.medians.times[0] / marking.turns as f64);
    figures.extend(over);
    Row { names: vec![graph.name.into(), workers.to_string(), format!("{batch}, {cutoff}")], figures }
}

/// All sides finish, with the same counts and tallies.
fn agree(graph: &Graph, settings: Settings, turns: &[u8], buffers: &mut Buffers) -> Outcome {
    let wanted = run_reference(graph, settings, turns, buffers);
    assert!(wanted.finished);
    let tallies = buffers.tallies.clone();
    let got = run_proved(graph, settings, turns, buffers);
    assert_eq!((got.words(), &buffers.tallies), (wanted.words(), &tallies));
    let got = run_tuned(graph, settings, turns, buffers);
    assert_eq!((got, &buffers.tallies), (wanted, &tallies));
    wanted
}

pub fn mark(graph: &Graph, settings: Settings, repetitions: usize) -> Marking {
    let mut buffers = Buffers::new(graph, settings.workers as usize);
    let turns = schedule(graph, settings, &mut buffers);
    let outcome = agree(graph, settings, &turns, &mut buffers);
    let proved = |b: &mut Buffers| {
        black_box(run_proved(graph, settings, &turns, b));
    };
    let tuned = |b: &mut Buffers| {
        black_box(run_tuned(graph, settings, &turns, b));
    };
    let plain = |b: &mut Buffers| {
        black_box(run_reference(graph, settings, &turns, b));
    };
    let floor = |b: &mut Buffers| {
        black_box(tuned::depth_first(&graph.offsets, &graph.targets, 0, &mut b.marks, &mut b.stack));
    };
    let medians = medians(&mut buffers, repetitions, [&proved, &tuned, &plain, &floor]);
    Marking { medians, turns: turns.len() / 2, followed: outcome.followed, handed: outcome.handed }
}

/// How many rows are as fast as a side, and how far the others are from it.
fn goal(rows: &[Merged], name: &str, column: usize) -> String {
    let mut ratios: Vec<f64> = rows.iter().map(|row| row.figures[column][0]).collect();
    ratios.sort_by(f64::total_cmp);
    let at_most = |ratio: f64| ratios.iter().filter(|&&one| one <= ratio).count();
    let (all, middle, worst) = (ratios.len(), ratios[ratios.len() / 2], ratios[ratios.len() - 1]);
    format!(
        "- At least as fast as {name}: {} of {all} rows; {} up to 1.05 for noise; median ratio {middle:.2}, worst {worst:.2}.\n",
        at_most(1.0),
        at_most(1.05),
    )
}

/// How the goals stand.
pub fn goals(rows: &[Merged]) -> String {
    if rows.is_empty() {
        return String::new();
    }
    let [tuned, plain, floor] = OVER;
    let mut text = "## Goals\n\n".to_string();
    text += &goal(rows, "the tuned machine", tuned);
    text += &goal(rows, "the Rust machine", plain);
    // One worker with large batches, where the goal is twice the floor.
    for row in rows.iter().filter(|row| row.names[1..] == ["1", "1024, 4096"]) {
        let ratio = row.figures[floor][0];
        let verdict = if ratio <= 2.0 { "within" } else { "above" };
        writeln!(text, "- {}, W 1, D 1024, K 4096: {ratio:.2} × depth-first, {verdict} twice.", row.names[0])
            .expect("text");
    }
    text
}
