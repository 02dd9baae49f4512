//! Whole collections of one worker: in one call; a plain depth-first marking; the same call tuned; and the marker with as many rounds as are
//! sure to finish, in a schedule that is there already. All leave the same marks.

use crate::graphs::{self, Graph};
use crate::measure::{medians, Medians};
use crate::runs::{call, round_robin, run_proved, Buffers};
use crate::table::Kind::{Count, Microseconds, Ratio, Span};
use crate::table::{Row, Table};
use kullneyra::Settings;
use std::hint::black_box;

pub const TABLE: Table = Table {
    title: "A whole collection in one call, W 1, D 1024, K 4096",
    names: &["Store"],
    columns: &[
        ("objects", Count),
        ("references", Count),
        ("one call, µs", Microseconds),
        ("depth-first, µs", Microseconds),
        ("tuned, µs", Microseconds),
        (": depth-first", Span),
        (": tuned", Span),
        (": mark with enough rounds", Ratio),
    ],
    measure: |graphs, repetitions| graphs.iter().chain(&graphs::small()).map(|graph| row(graph, repetitions)).collect(),
};

fn row(graph: &Graph, repetitions: usize) -> Row {
    let Medians { times, over } = whole(graph, repetitions);
    let mut figures = vec![graph.n() as f64, graph.m() as f64];
    figures.extend(times[..3].iter().map(|time| time / 1_000.0));
    figures.extend(&over[1..]);
    Row { names: vec![graph.name.into()], figures }
}

fn whole(graph: &Graph, repetitions: usize) -> Medians<4> {
    let settings = Settings { workers: 1, batch: 1024, cutoff: 4096 };
    let run = |b: &mut Buffers| {
        let (Graph { offsets, targets, .. }, Buffers { marks, work, tallies, .. }) = (graph, b);
        kullneyra::mark_all(offsets, targets, &[0], settings, marks, work, tallies).expect("a call")
    };
    let mut buffers = Buffers::new(graph, 1);
    let marked = run(&mut buffers);
    let (marks, tallies) = (buffers.marks.clone(), buffers.tallies.clone());
    let turns = round_robin(1, 7 * marked.followed as usize + 6);
    assert_eq!(run_proved(graph, settings, &turns, &mut buffers), marked);
    assert_eq!((&buffers.marks, &buffers.tallies), (&marks, &tallies));
    let run_tuned = |b: &mut Buffers| {
        tuned::mark_all(call(graph, settings, &[]), &mut b.marks, &mut b.work, &mut b.tallies).expect("a call")
    };
    assert_eq!(run_tuned(&mut buffers).words(), marked.words());
    let live = tuned::depth_first(&graph.offsets, &graph.targets, 0, &mut buffers.marks, &mut buffers.stack);
    assert_eq!((live, &buffers.marks), (marked.live, &marks));
    let all = |b: &mut Buffers| {
        black_box(run(b));
    };
    let floor = |b: &mut Buffers| {
        black_box(tuned::depth_first(&graph.offsets, &graph.targets, 0, &mut b.marks, &mut b.stack));
    };
    let tuned = |b: &mut Buffers| {
        black_box(run_tuned(b));
    };
    let rounds = |b: &mut Buffers| {
        black_box(run_proved(graph, settings, &turns, b));
    };
    medians(&mut buffers, repetitions, [&all, &floor, &tuned, &rounds])
}
