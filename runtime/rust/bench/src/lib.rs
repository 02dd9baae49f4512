//! Measures every call of the proved library, interleaved on the same input with the specification in plain Rust and with the same call in
//! safe Rust as fast as we can write it; for the marker also with a plain depth-first marking, as the floor. tools/bench links it several
//! times, with the code at another place each time, and runs it.
//!
//! ```text
//! bench stores FOLDER                            writes each store as words, and as a Matrix Market text
//! bench measure FILE [REPETITIONS [TITLE..]]     measures the tables, or those with such a title, and writes their rows; with 0
//!                                                repetitions each side is run once, on the layered store
//! bench tables FOLDER FILE..                     the tables of these rows, with what others take if the folder has it, and two plots
//! ```

mod graphs;
mod growth;
mod hands;
mod hops;
mod marker;
mod market;
mod measure;
mod names;
mod plot;
mod reader;
mod runs;
mod stops;
mod table;
mod today;
mod updates;
mod whole;

use std::path::Path;
use std::{env, fs, io};
use table::{Rows, Table};

const REPETITIONS: usize = 7;

const TABLES: [&Table; 15] = [
    &reader::READER,
    &marker::TABLE,
    &whole::TABLE,
    &reader::SWEEP,
    &hands::HAND,
    &hands::SEED,
    &hops::TABLE,
    &updates::ADD,
    &updates::REMOVE,
    &market::IMPORT,
    &market::EXPORT,
    &names::TABLE,
    &stops::TAKING_UP,
    &stops::PARTS,
    &growth::TABLE,
];

fn measure(file: &Path, repetitions: usize, titles: &[String]) -> io::Result<()> {
    let mut stores = graphs::all();
    if repetitions == 0 {
        stores.drain(..stores.len() - 1);
    }
    let mut text = String::new();
    for table in TABLES {
        if titles.is_empty() || titles.iter().any(|title| table.title.contains(title)) {
            eprintln!("bench: {}", table.title);
            text += &table::written(table, &(table.measure)(&stores, repetitions));
        }
    }
    fs::write(file, text)
}

fn tables(folder: &Path, files: &[String]) -> io::Result<()> {
    let texts: Vec<String> = files.iter().map(fs::read_to_string).collect::<io::Result<_>>()?;
    let rows = |table: &Table| -> Rows { table::merged(table, &texts) };
    let mut text = format!(
        "Medians over {} places of the code of the medians of interleaved runs; in brackets the least and the most of them.\n\n",
        files.len()
    );
    for table in TABLES.into_iter().filter(|table| !rows(table).is_empty()) {
        text += &table::markdown(table, &rows(table));
    }
    text += &today::table(folder, &rows(&whole::TABLE), &rows(&market::IMPORT));
    text += &marker::goals(&rows(&marker::TABLE));
    print!("{text}");
    fs::write(folder.join("table.md"), text)?;
    fs::write(folder.join("marker.svg"), plot::marks(&rows(&marker::TABLE)))?;
    fs::write(folder.join("growth.svg"), plot::growth(&rows(&growth::TABLE)))
}

fn run(arguments: &[String]) -> io::Result<()> {
    match arguments {
        [what, folder] if what == "stores" => today::write_stores(Path::new(folder)),
        [what, file, rest @ ..] if what == "measure" => {
            let repetitions = rest.first().and_then(|text| text.parse().ok()).unwrap_or(REPETITIONS);
            measure(Path::new(file), repetitions, rest.get(1..).unwrap_or(&[]))
        }
        [what, folder, files @ ..] if what == "tables" => tables(Path::new(folder), files),
        _ => Err(io::Error::other("stores FOLDER, measure FILE [REPETITIONS [TITLE..]], or tables FOLDER FILE..")),
    }
}

/// The program that C's startup code calls.
#[no_mangle]
extern "C" fn main() -> i32 {
    let arguments: Vec<String> = env::args().skip(1).collect();
    match run(&arguments) {
        Ok(()) => 0,
        Err(what) => {
            eprintln!("bench: {what}");
            1
        }
    }
}
