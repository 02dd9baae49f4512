//! Hop counts: the proved call, a plain search with a queue, and one with an array as its queue, in the lent work words.

use crate::graphs::Graph;
use crate::measure::{medians, Medians};
use crate::table::{store_rows, Table, CALL};
use std::hint::black_box;

pub const TABLE: Table = Table {
    title: "Hops, by references; tuned has an array as its queue",
    names: &["Store"],
    columns: CALL,
    measure: |graphs, repetitions| store_rows(graphs, Graph::m, |graph| hops(graph, repetitions)),
};

struct Words {
    hops: Vec<u32>,
    work: Vec<u32>,
}

fn hops(graph: &Graph, repetitions: usize) -> Medians<3> {
    let Graph { offsets, targets, .. } = graph;
    let proved = |w: &mut Words| {
        black_box(kullneyra::hops(offsets, targets, &[0], &mut w.hops, &mut w.work)).expect("a graph");
    };
    let plain = |w: &mut Words| {
        black_box(reference::hops(offsets, targets, &[0], &mut w.hops, &w.work)).expect("a graph");
    };
    let tuned = |w: &mut Words| {
        black_box(tuned::hops(offsets, targets, &[0], &mut w.hops, &mut w.work)).expect("a graph");
    };
    let mut words = Words { hops: vec![1; graph.n()], work: vec![1; kullneyra::lengths::hop_work(graph.n())] };
    medians(&mut words, repetitions, [&proved, &plain, &tuned])
}
