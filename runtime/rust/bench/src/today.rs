//! What users have today: containerd's gc.Tricolor and SciPy's mmread on the same stores. tools/bench runs both where they are installed;
//! they write a line for each store: what it is, the store, and nanoseconds for each reference or byte.

use crate::graphs::{self, Graph};
use crate::market;
use crate::table::Merged;
use std::fmt::Write;
use std::path::Path;
use std::{fs, io};

/// Each store in two files: its numbers of objects and references, offsets and targets as words of 32 bits; and its Matrix Market text.
pub fn write_stores(folder: &Path) -> io::Result<()> {
    for graph in graphs::all() {
        let Graph { name, offsets, targets, .. } = &graph;
        let counts = [graph.n() as u32, graph.m() as u32];
        let words: Vec<u8> = counts.iter().chain(offsets).chain(targets).flat_map(|word| word.to_le_bytes()).collect();
        fs::write(folder.join(name).with_extension("words"), words)?;
        fs::write(folder.join(name).with_extension("mtx"), market::text(&graph))?;
    }
    Ok(())
}

const HEAD: &str = "\
## What users have today

| Store | ours | ns | theirs | ns | theirs : ours |
|---|---|--:|---|--:|--:|
";

/// Our whole collections beside Tricolor's for each reference, and our imports beside mmread's for each byte; nothing where neither was run.
pub fn table(folder: &Path, wholes: &[Merged], imports: &[Merged]) -> String {
    let lines = fs::read_to_string(folder.join("today.txt")).unwrap_or_default();
    let mut text = String::new();
    for line in lines.lines() {
        let words: Vec<&str> = line.split('\t').collect();
        let [what, store, theirs] = words[..] else { continue };
        let (ours, rows) = if what == "mmread" { ("import", imports) } else { ("mark_all", wholes) };
        let Some(row) = rows.iter().find(|row| row.names[0] == store) else { continue };
        let figure = |column: usize| row.figures[column][0];
        let time = if what == "mmread" { figure(1) } else { figure(2) * 1_000.0 / figure(1) };
        let theirs: f64 = theirs.parse().expect("nanoseconds");
        writeln!(text, "| {store} | `{ours}` | {time:.2} | `{what}` | {theirs:.2} | {:.1} |", theirs / time)
            .expect("text");
    }
    if text.is_empty() {
        return text;
    }
    format!("{HEAD}{text}\n")
}
