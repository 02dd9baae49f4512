//! The reader on the whole catalogue, and the sweep with the marks of a finished collection.

use crate::graphs::Graph;
use crate::measure::{medians, Medians};
use crate::runs::Buffers;
use crate::table::{store_rows, Table, CALL};
use std::hint::black_box;

pub const READER: Table = Table {
    title: "Reader, by references",
    names: &["Store"],
    columns: CALL,
    measure: |graphs, repetitions| store_rows(graphs, Graph::m, |graph| read(graph, repetitions)),
};

pub const SWEEP: Table = Table {
    title: "Sweep, by objects",
    names: &["Store"],
    columns: CALL,
    measure: |graphs, repetitions| store_rows(graphs, Graph::n, |graph| sweep(graph, repetitions)),
};

pub fn read(graph: &Graph, repetitions: usize) -> Medians<3> {
    let proved = |b: &mut Buffers| {
        let Buffers { offsets, targets, sizes, starts, .. } = b;
        black_box(kullneyra::read(&graph.catalogue, offsets, targets, sizes, starts)).expect("a store");
    };
    let plain = |b: &mut Buffers| {
        let Buffers { offsets, targets, sizes, starts, .. } = b;
        black_box(reference::read(&graph.catalogue, offsets, targets, sizes, starts)).expect("a store");
    };
    let tuned = |b: &mut Buffers| {
        let Buffers { offsets, targets, sizes, starts, .. } = b;
        black_box(tuned::read(&graph.catalogue, offsets, targets, sizes, starts)).expect("a store");
    };
    medians(&mut Buffers::new(graph, 0), repetitions, [&proved, &plain, &tuned])
}

fn sweep(graph: &Graph, repetitions: usize) -> Medians<3> {
    let mut buffers = Buffers::new(graph, 0);
    tuned::depth_first(&graph.offsets, &graph.targets, 0, &mut buffers.marks, &mut buffers.stack);
    let proved = |b: &mut Buffers| {
        black_box(kullneyra::sweep(&b.marks, &graph.sizes, &mut b.list)).expect("sizes");
    };
    let plain = |b: &mut Buffers| {
        black_box(reference::sweep(&b.marks, &graph.sizes, &mut b.list)).expect("sizes");
    };
    let tuned = |b: &mut Buffers| {
        black_box(tuned::sweep(&b.marks, &graph.sizes, &mut b.list)).expect("sizes");
    };
    medians(&mut buffers, repetitions, [&proved, &plain, &tuned])
}
