//! Tables: their rows as measured, in a file, over several files, and as Markdown.

use crate::graphs::Graph;
use crate::measure::{median, Medians};
use std::fmt::Write;

/// What the figures of a column are.
#[derive(Clone, Copy)]
pub enum Kind {
    Count,
    Nanoseconds,
    Microseconds,
    Ratio,
    /// A ratio with the least and the most of it.
    Span,
}

pub struct Table {
    pub title: &'static str,
    /// The heads of the names in a row, and of its figures.
    pub names: &'static [&'static str],
    pub columns: &'static [(&'static str, Kind)],
    pub measure: fn(&[Graph], usize) -> Vec<Row>,
}

pub struct Row {
    pub names: Vec<String>,
    pub figures: Vec<f64>,
}

/// A row over several files: of each figure the median, the least and the most.
pub struct Merged {
    pub names: Vec<String>,
    pub figures: Vec<[f64; 3]>,
}

pub type Rows = Vec<Merged>;

/// The columns of a call that is measured beside the plain and the tuned one; its title says what the times are divided by.
pub const CALL: &[(&str, Kind)] = &[
    ("how many", Kind::Count),
    ("proved, ns each", Kind::Nanoseconds),
    ("Rust, ns each", Kind::Nanoseconds),
    ("tuned, ns each", Kind::Nanoseconds),
    ("proved : Rust", Kind::Ratio),
    ("proved : tuned", Kind::Span),
];

/// A row of these columns; the sides are the proved, the plain and the tuned one.
pub fn call_row(name: &str, count: usize, medians: &Medians<3>) -> Row {
    let [proved, plain, tuned] = medians.times.map(|time| time / count as f64);
    let figures = vec![count as f64, proved, plain, tuned, medians.over[1], medians.over[2]];
    Row { names: vec![name.into()], figures }
}

/// One such row for each store.
pub fn store_rows(graphs: &[Graph], count: fn(&Graph) -> usize, measure: impl Fn(&Graph) -> Medians<3>) -> Vec<Row> {
    graphs.iter().map(|graph| call_row(graph.name, count(graph), &measure(graph))).collect()
}

/// Rows as lines of a file: the table's title, the names and the figures, parted by tabs.
pub fn written(table: &Table, rows: &[Row]) -> String {
    let line = |row: &Row| {
        assert_eq!((row.names.len(), row.figures.len()), (table.names.len(), table.columns.len()), "{}", table.title);
        let figures = row.figures.iter().map(f64::to_string);
        let words: Vec<String> =
            [table.title.to_string()].into_iter().chain(row.names.clone()).chain(figures).collect();
        words.join("\t") + "\n"
    };
    rows.iter().map(line).collect()
}

/// The rows of a table in a file's text.
fn read(table: &Table, text: &str) -> Vec<Row> {
    let row = |line: &str| {
        let words: Vec<&str> = line.split('\t').collect();
        let (names, figures) = words[1..].split_at(table.names.len());
        Row {
            names: names.iter().map(|name| name.to_string()).collect(),
            figures: figures.iter().map(|figure| figure.parse().expect("a figure")).collect(),
        }
    };
    text.lines().filter(|line| line.split('\t').next() == Some(table.title)).map(row).collect()
}

/// The rows of a table over several files.
pub fn merged(table: &Table, texts: &[String]) -> Rows {
    let files: Vec<Vec<Row>> = texts.iter().map(|text| read(table, text)).collect();
    let figure = |row: usize, column: usize| {
        let all: Vec<f64> = files.iter().map(|rows| rows[row].figures[column]).collect();
        let (least, most) = all.iter().fold((f64::MAX, f64::MIN), |(low, high), &one| (low.min(one), high.max(one)));
        [median(all), least, most]
    };
    let row = |(i, row): (usize, &Row)| Merged {
        names: row.names.clone(),
        figures: (0..row.figures.len()).map(|column| figure(i, column)).collect(),
    };
    files.first().map_or(Vec::new(), |rows| rows.iter().enumerate().map(row).collect())
}

fn cell(kind: Kind, [middle, least, most]: [f64; 3]) -> String {
    match kind {
        Kind::Count => format!("{middle:.0}"),
        Kind::Microseconds => format!("{middle:.1}"),
        Kind::Nanoseconds | Kind::Ratio => format!("{middle:.2}"),
        Kind::Span => format!("{middle:.2} ({least:.2} to {most:.2})"),
    }
}

pub fn markdown(table: &Table, rows: &[Merged]) -> String {
    let heads: Vec<&str> = table.names.iter().copied().chain(table.columns.iter().map(|(head, _)| *head)).collect();
    let right = "--:|".repeat(heads.len() - 1);
    let mut text = format!("## {}\n\n| {} |\n|---|{right}\n", table.title, heads.join(" | "));
    for row in rows {
        let figures = table.columns.iter().zip(&row.figures).map(|((_, kind), figure)| cell(*kind, *figure));
        let words: Vec<String> = row.names.iter().cloned().chain(figures).collect();
        writeln!(text, "| {} |", words.join(" | ")).expect("text");
    }
    text + "\n"
}
