//! Reader and marker on uniform stores that grow.

use crate::graphs;
use crate::marker::mark;
use crate::reader::read;
use crate::table::Kind::{Microseconds, Nanoseconds};
use crate::table::{Row, Table};
use kullneyra::Settings;

const REFERENCES: [usize; 7] = [1_000, 3_162, 10_000, 31_623, 100_000, 316_228, 1_000_000];

pub const TABLE: Table = Table {
    title: "Growth: uniform store, n = m / 16, W 4, D 64, K 64",
    names: &["References"],
    columns: &[
        ("read, proved ns/ref", Nanoseconds),
        ("read, Rust ns/ref", Nanoseconds),
        ("mark, proved ns/ref", Nanoseconds),
        ("mark, tuned ns/ref", Nanoseconds),
        ("mark, Rust ns/ref", Nanoseconds),
        ("depth-first ns/ref", Nanoseconds),
        ("mark, proved µs", Microseconds),
    ],
    measure: |_, repetitions| REFERENCES.map(|references| row(references, repetitions)).into(),
};

fn row(references: usize, repetitions: usize) -> Row {
    let graph = graphs::uniform(references / 16, references);
    let read = read(&graph, repetitions);
    let marking = mark(&graph, Settings { workers: 4, batch: 64, cutoff: 64 }, repetitions);
    let mut figures: Vec<f64> = read.times[..2].iter().map(|time| time / references as f64).collect();
    figures.extend(marking.per_reference());
    figures.push(marking.medians.times[0] / 1_000.0);
    Row { names: vec![references.to_string()], figures }
}
