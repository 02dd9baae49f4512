//! Compares the proved library with the specification in plain Rust, on drawn inputs.
//!
//! ```text
//! compare [CASES [SEED]]                that many cases (300,000 of seed 1)
//! compare replay SEED NUMBER            one of them, printed
//! compare program PATH [CASES [SEED]]   the program at this path, on that many pairs of files (3,000 of seed 1)
//! compare vectors FILE                  the answers to the stored cases of a file, if all sides agree on each
//! ```
//! It ends with exit status 1 at the first difference and prints how to replay it.

mod calls;
mod case;
mod damage;
mod draw;
mod judge;
mod large;
mod lent;
mod plain;
mod program;
mod rng;
mod sides;
mod states;
mod store;
mod tally;
#[cfg(test)]
mod tests;
mod vectors;

use case::Case;
use rng::Rng;
use std::env;
use std::fs;
use std::panic;
use std::path::Path;
use std::process::ExitCode;
use std::sync::atomic::{AtomicU64, Ordering::Relaxed};
use tally::Tally;

const CASES: u64 = 300_000;
const FILES: u64 = 3_000;
const SEED: u64 = 1;

/// The case of this seed and number.
fn case_of(seed: u64, number: u64) -> Case {
    let mut rng = Rng::of(seed, number);
    if number < large::LARGE {
        large::large(&mut rng, number)
    } else {
        draw::small(&mut rng)
    }
}

/// A panic on either side says which case it was, too.
fn name_case_at_panic() {
    let usual = panic::take_hook();
    panic::set_hook(Box::new(move |what| {
        println!("compare: panic. {}", again(AT.0.load(Relaxed), AT.1.load(Relaxed)));
        usual(what);
    }));
}

/// The seed and number of the case that is running.
static AT: (AtomicU64, AtomicU64) = (AtomicU64::new(0), AtomicU64::new(0));

/// All cases below `cases`; how often each answer came, or the first case that is wrong.
fn run(cases: u64, seed: u64) -> Result<Tally, String> {
    let mut tally = Tally::default();
    AT.0.store(seed, Relaxed);
    for number in 0..cases {
        AT.1.store(number, Relaxed);
        let case = case_of(seed, number);
        match judge::judge(&case) {
            Ok(after) => tally.count(&case, &after),
            Err(what) => return Err(format!("case {number} of seed {seed}: {what}\n{}\n{case}", again(seed, number))),
        }
    }
    Ok(tally)
}

fn again(seed: u64, number: u64) -> String {
    let program = env::args().next().unwrap_or_else(|| "compare".into());
    format!("replay with: {program} replay {seed} {number}")
}

/// One case, printed with its answer.
fn replay(seed: u64, number: u64) -> Result<(), String> {
    let case = case_of(seed, number);
    println!("case {number} of seed {seed}\n{case}");
    let after = judge::judge(&case)?;
    println!("both sides answer {}", after.number);
    for (buffer, (name, _)) in after.buffers.iter().enumerate() {
        println!("  {name}: {:?}", after.lent(buffer));
    }
    Ok(())
}

fn compare(cases: u64, seed: u64) -> Result<(), String> {
    println!("compare: {cases} cases of seed {seed}");
    name_case_at_panic();
    let tally = run(cases, seed)?;
    print!("{tally}");
    tally.covers_all(cases)?;
    println!("compare: no difference");
    Ok(())
}

fn number(text: Option<&String>, otherwise: u64) -> Result<u64, String> {
    text.map_or(Ok(otherwise), |text| text.replace(',', "").parse().map_err(|_| format!("not a number: {text}")))
}

fn chosen(arguments: &[String]) -> Result<(), String> {
    match arguments.first().map(String::as_str) {
        Some("replay") if arguments.len() == 3 => replay(number(arguments.get(1), SEED)?, number(arguments.get(2), 0)?),
        Some("program") if (2..=4).contains(&arguments.len()) => {
            let (files, seed) = (number(arguments.get(2), FILES)?, number(arguments.get(3), SEED)?);
            println!("compare: the program on {files} pairs of files of seed {seed}");
            program::compare(Path::new(&arguments[1]), files, seed)?;
            println!("compare: no difference");
            Ok(())
        }
        Some("vectors") if arguments.len() == 2 => {
            let cases = fs::read_to_string(&arguments[1]).map_err(|what| format!("{}: {what}", arguments[1]))?;
            print!("{}", vectors::answers(&cases)?);
            Ok(())
        }
        _ if arguments.len() <= 2 => compare(number(arguments.first(), CASES)?, number(arguments.get(1), SEED)?),
        _ => Err("usage: compare [CASES [SEED]], compare replay SEED NUMBER, compare program PATH [CASES [SEED]] or \
                 compare vectors FILE"
            .into()),
    }
}

fn main() -> ExitCode {
    let arguments: Vec<String> = env::args().skip(1).collect();
    match chosen(&arguments) {
        Ok(()) => ExitCode::SUCCESS,
        Err(what) => {
            println!("compare: {what}");
            ExitCode::FAILURE
        }
    }
}
