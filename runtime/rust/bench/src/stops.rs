//! A collection that is stopped and taken up, with D 64 and K 64: taking up beside a call's checks, and 100 calls beside one.

use crate::graphs::Graph;
use crate::measure::medians;
use crate::runs::{call, run_proved, schedule, Buffers};
use crate::table::Kind::{Microseconds, Ratio, Span};
use crate::table::{Row, Table};
use kullneyra::{Schedule, Settings};
use reference::Stopped;
use std::hint::black_box;

pub const TAKING_UP: Table = Table {
    title: "Taking up, D 64, K 64",
    names: &["Store", "W"],
    columns: &[
        ("a call's checks, µs", Microseconds),
        ("taking up, µs", Microseconds),
        ("tuned, µs", Microseconds),
        ("Rust, µs", Microseconds),
        (": checks", Span),
        (": tuned", Span),
        (": Rust", Ratio),
    ],
    measure: |graphs, repetitions| rows(graphs, |graph, settings| taking_up(graph, settings, repetitions)),
};

pub const PARTS: Table = Table {
    title: "100 calls that stop, D 64, K 64",
    names: &["Store", "W"],
    columns: &[("one call, µs", Microseconds), ("100 calls, µs", Microseconds), (": one", Span)],
    measure: |graphs, repetitions| rows(graphs, |graph, settings| parts(graph, settings, repetitions)),
};

fn rows(graphs: &[Graph], measure: impl Fn(&Graph, Settings) -> Vec<f64>) -> Vec<Row> {
    let row = |graph: &Graph, workers: u32| Row {
        names: vec![graph.name.into(), workers.to_string()],
        figures: measure(graph, Settings { workers, batch: 64, cutoff: 64 }),
    };
    graphs.iter().flat_map(|graph| [1, 4].map(|workers| row(graph, workers))).collect()
}

/// How many calls a collection is cut into.
const CALLS: usize = 100;

/// The buffers with the saved words.
type Saving = (Buffers, Vec<u32>);

/// The result words of a call that saves.
type Words = [u64; Stopped::WORDS];

/// One proved call that saves: the collection begun, or taken up. The result words.
fn run_part(graph: &Graph, settings: Settings, part: &[u8], fresh: bool, (b, saved): &mut Saving) -> Words {
    let Graph { offsets, targets, .. } = graph;
    let Buffers { marks, work, tallies, .. } = b;
    let run = if fresh { kullneyra::begin } else { kullneyra::resume };
    let part = Schedule::from_bytes(part);
    run(offsets, targets, &[0], settings, part, marks, work, tallies, saved).expect("a call").words()
}

fn saving(graph: &Graph, settings: Settings) -> (Saving, Vec<u8>) {
    let workers = settings.workers as usize;
    let mut buffers = Buffers::new(graph, workers);
    let turns = schedule(graph, settings, &mut buffers);
    ((buffers, vec![1; kullneyra::lengths::saved(graph.n(), workers)]), turns)
}

/// A collection taken up by the tuned call, without a turn.
fn run_tuned(graph: &Graph, settings: Settings, (Buffers { marks, work, tallies, .. }, saved): &mut Saving) -> Words {
    tuned::resume(call(graph, settings, &[]), marks, work, tallies, saved).expect("a call").words()
}

/// Taking up what half of the turns left, without a turn, beside a call without a turn, which checks and starts; tuned, and in plain Rust.
fn taking_up(graph: &Graph, settings: Settings, repetitions: usize) -> Vec<f64> {
    let (mut saving, turns) = saving(graph, settings);
    run_part(graph, settings, &turns[..turns.len() / 4 * 2], true, &mut saving);
    let half = (run_part(graph, settings, &[], false, &mut saving), saving.1.clone());
    assert_eq!((run_tuned(graph, settings, &mut saving), &saving.1), (half.0, &half.1));
    let taken = |saving: &mut Saving| {
        black_box(run_part(graph, settings, &[], false, saving));
    };
    let tuned = |saving: &mut Saving| {
        black_box(run_tuned(graph, settings, saving));
    };
    let plain = |(Buffers { marks, work, tallies, .. }, saved): &mut Saving| {
        black_box(reference::resume(call(graph, settings, &[]), marks, work, tallies, saved)).expect("a call");
    };
    let checked = |saving: &mut Saving| {
        black_box(run_proved(graph, settings, &[], &mut saving.0));
    };
    let medians = medians(&mut saving, repetitions, [&taken, &plain, &checked, &tuned]);
    let [taken, plain, checked, tuned] = medians.times.map(|time| time / 1_000.0);
    vec![checked, taken, tuned, plain, medians.over[2], medians.over[3], medians.over[1]]
}

/// All turns in 100 calls that save, beside one call that does not.
fn parts(graph: &Graph, settings: Settings, repetitions: usize) -> Vec<f64> {
    let (mut saving, turns) = saving(graph, settings);
    let marked = run_proved(graph, settings, &turns, &mut saving.0).words();
    let wanted: Words = std::array::from_fn(|k| marked.get(k).copied().unwrap_or(1));
    let each = 2 * (turns.len() / 2).div_ceil(CALLS);
    let run = |saving: &mut Saving| {
        let part = |(k, part)| run_part(graph, settings, part, k == 0, saving);
        turns.chunks(each).enumerate().map(part).last().expect("a part")
    };
    assert_eq!(run(&mut saving), wanted);
    let parts = |saving: &mut Saving| {
        black_box(run(saving));
    };
    let whole = |saving: &mut Saving| {
        black_box(run_proved(graph, settings, &turns, &mut saving.0));
    };
    let medians = medians(&mut saving, repetitions, [&parts, &whole]);
    let [parts, whole] = medians.times.map(|time| time / 1_000.0);
    vec![whole, parts, medians.over[1]]
}
