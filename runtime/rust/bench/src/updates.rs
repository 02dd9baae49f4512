//! A hundred references added and taken out.

use crate::graphs::Graph;
use crate::measure::{medians, Medians};
use crate::table::{store_rows, Table, CALL};
use reference::Renewed;
use std::hint::black_box;

pub const ADD: Table = Table {
    title: "100 references added, by references",
    names: &["Store"],
    columns: CALL,
    measure: |graphs, repetitions| store_rows(graphs, Graph::m, |graph| add(graph, repetitions)),
};

pub const REMOVE: Table = Table {
    title: "100 references taken out, by references",
    names: &["Store"],
    columns: CALL,
    measure: |graphs, repetitions| store_rows(graphs, Graph::m, |graph| remove(graph, repetitions)),
};

/// How many references come or go.
const COUNT: usize = 100;

struct Lent {
    offsets: Vec<u32>,
    targets: Vec<u32>,
    marks: Vec<u8>,
    work: Vec<u32>,
}

impl Lent {
    fn new(graph: &Graph, targets: usize) -> Self {
        let n = graph.n();
        Lent { offsets: vec![1; n + 1], targets: vec![1; targets], marks: vec![1; n], work: vec![1; n] }
    }

    fn renewed(&mut self) -> Renewed<'_> {
        let Lent { offsets, targets, marks, work } = self;
        Renewed { offsets, targets, marks, work }
    }
}

/// The store without its last references, so that there is room for others.
fn with_room(graph: &Graph) -> Graph {
    let left = graph.m() - COUNT;
    let offsets = graph.offsets.iter().map(|&offset| offset.min(left as u32)).collect();
    let Graph { name, sizes, .. } = graph;
    Graph { name, offsets, targets: graph.targets[..left].into(), sizes: sizes.clone(), catalogue: Vec::new() }
}

/// Numbers below a bound, the same in every run.
fn spread(below: usize, step: usize) -> Vec<u32> {
    (0..COUNT).map(|i| ((i * step + 7) % below) as u32).collect()
}

/// The marks of the graph as a finished collection leaves them.
fn finished(graph: &Graph) -> Vec<u8> {
    let (mut marks, mut stack) = (vec![0; graph.n()], Vec::new());
    tuned::depth_first(&graph.offsets, &graph.targets, 0, &mut marks, &mut stack);
    marks
}

fn add(graph: &Graph, repetitions: usize) -> Medians<3> {
    let graph = &with_room(graph);
    let Graph { offsets, targets, .. } = graph;
    let (from, to, marks) = (spread(graph.n(), 7_919), spread(graph.n(), 104_729), finished(graph));
    let proved = |lent: &mut Lent| {
        lent.marks.copy_from_slice(&marks);
        let Lent { offsets: new_offsets, targets: new_targets, marks, work } = lent;
        black_box(kullneyra::add(offsets, targets, &from, &to, new_offsets, new_targets, marks, work))
            .expect("a graph");
    };
    let plain = |lent: &mut Lent| {
        lent.marks.copy_from_slice(&marks);
        black_box(reference::add(offsets, targets, &from, &to, &mut lent.renewed())).expect("a graph");
    };
    let tuned = |lent: &mut Lent| {
        lent.marks.copy_from_slice(&marks);
        black_box(tuned::add(offsets, targets, &from, &to, &mut lent.renewed())).expect("a graph");
    };
    medians(&mut Lent::new(graph, graph.m() + COUNT), repetitions, [&proved, &plain, &tuned])
}

fn remove(graph: &Graph, repetitions: usize) -> Medians<3> {
    let Graph { offsets, targets, .. } = graph;
    let mut numbers = spread(graph.m(), 7_919);
    numbers.sort_unstable();
    numbers.dedup();
    let proved = |lent: &mut Lent| {
        let Lent { offsets: new_offsets, targets: new_targets, marks, work } = lent;
        black_box(kullneyra::remove(offsets, targets, &numbers, &[0], new_offsets, new_targets, marks, work))
            .expect("a graph");
    };
    let plain = |lent: &mut Lent| {
        black_box(reference::remove(offsets, targets, &numbers, &[0], &mut lent.renewed())).expect("a graph");
    };
    let tuned = |lent: &mut Lent| {
        black_box(tuned::remove(offsets, targets, &numbers, &[0], &mut lent.renewed())).expect("a graph");
    };
    medians(&mut Lent::new(graph, graph.m() - numbers.len()), repetitions, [&proved, &plain, &tuned])
}
