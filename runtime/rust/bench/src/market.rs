//! Matrix Market: import and export of each store, the proved calls beside plain Rust, which splits lines and formats numbers, and tuned Rust.

use crate::graphs::Graph;
use crate::measure::{medians, Medians};
use crate::table::{call_row, Row, Table, CALL};
use std::hint::black_box;

pub const IMPORT: Table = Table {
    title: "Import of a Matrix Market text, by bytes",
    names: &["Store"],
    columns: CALL,
    measure: |graphs, repetitions| rows(graphs, |graph, text, lent| import(graph, text, lent, repetitions)),
};

pub const EXPORT: Table = Table {
    title: "Export of a Matrix Market text, by bytes",
    names: &["Store"],
    columns: CALL,
    measure: |graphs, repetitions| rows(graphs, |graph, _, lent| export(graph, lent, repetitions)),
};

struct Lent {
    offsets: Vec<u32>,
    targets: Vec<u32>,
    sizes: Vec<u64>,
    out: Vec<u8>,
}

/// The text of a store, as export writes it.
pub fn text(graph: &Graph) -> Vec<u8> {
    let length = kullneyra::export_length(&graph.offsets, &graph.targets).expect("a graph");
    let mut text = vec![0; length as usize];
    kullneyra::export(&graph.offsets, &graph.targets, &mut text).expect("a buffer of its length");
    text
}

fn import(graph: &Graph, text: &[u8], lent: &mut Lent, repetitions: usize) -> Medians<3> {
    let proved = |l: &mut Lent| {
        black_box(kullneyra::import(text, &mut l.offsets, &mut l.targets, &mut l.sizes)).expect("a text");
    };
    let plain = |l: &mut Lent| {
        black_box(reference::import(text, &mut l.offsets, &mut l.targets, &mut l.sizes)).expect("a text");
    };
    let tuned = |l: &mut Lent| {
        black_box(tuned::import(text, &mut l.offsets, &mut l.targets, &mut l.sizes)).expect("a text");
    };
    let medians = medians(lent, repetitions, [&proved, &plain, &tuned]);
    assert!(lent.offsets == graph.offsets && lent.targets == graph.targets, "the same graph again");
    medians
}

fn export(graph: &Graph, lent: &mut Lent, repetitions: usize) -> Medians<3> {
    let Graph { offsets, targets, .. } = graph;
    let proved = |l: &mut Lent| {
        black_box(kullneyra::export(offsets, targets, &mut l.out)).expect("a graph");
    };
    let plain = |l: &mut Lent| {
        black_box(reference::export(offsets, targets, &mut l.out)).expect("a graph");
    };
    let tuned = |l: &mut Lent| {
        black_box(tuned::export(offsets, targets, &mut l.out)).expect("a graph");
    };
    medians(lent, repetitions, [&proved, &plain, &tuned])
}

/// One row for each store, counted by bytes of the text.
fn rows(graphs: &[Graph], measure: impl Fn(&Graph, &[u8], &mut Lent) -> Medians<3>) -> Vec<Row> {
    let row = |graph: &Graph| {
        let text = text(graph);
        let mut lent = Lent {
            offsets: vec![1; graph.n() + 1],
            targets: vec![1; graph.m()],
            sizes: vec![1; graph.n()],
            out: vec![1; text.len()],
        };
        call_row(graph.name, text.len(), &measure(graph, &text, &mut lent))
    };
    graphs.iter().map(row).collect()
}
