//! Course graphs: turns a Matrix Market file into a catalogue, and a catalogue's references into a Matrix Market file.
//!
//! ```text
//! market import FILE.mtx STORE.cat
//! market export STORE.cat FILE.mtx
//! ```
//! A catalogue made from a file has sizes of 0, index 0 and no lease. A file made from a catalogue has its stored references
//! object by object; sizes, index and leases are not in it. Files that other readers of Matrix Market take, and `import`
//! refuses, are turned into what it takes by `tools/market.py`.

mod catalogue;

use kullneyra::{export, export_length, header, import, market_header, read, Refusal, STARTS};
use std::process::ExitCode;
use std::{env, fs};

fn catalogue_of(text: &[u8]) -> Result<Vec<u8>, Refusal> {
    let head = market_header(text)?;
    let (n, m) = (head.objects as usize, head.references as usize);
    let (mut offsets, mut targets, mut sizes) = (vec![0; n + 1], vec![0; m], vec![0; n]);
    import(text, &mut offsets, &mut targets, &mut sizes)?;
    Ok(catalogue::layout(&offsets, &targets, &sizes, head.index, &[]))
}

fn text_of(catalogue: &[u8]) -> Result<Vec<u8>, Refusal> {
    let head = header(catalogue)?;
    let (n, m) = (head.objects as usize, head.references as usize);
    let (mut offsets, mut targets, mut sizes, mut starts) = (vec![0; n + 1], vec![0; m], vec![0; n], [0; STARTS]);
    read(catalogue, &mut offsets, &mut targets, &mut sizes, &mut starts)?;
    let mut text = vec![0; export_length(&offsets, &targets)? as usize];
    export(&offsets, &targets, &mut text)?;
    Ok(text)
}

/// The numbers of a line, each one to ten digits, parted by one space.
fn numbers(line: &[u8]) -> Option<Vec<u64>> {
    let number = |word: &str| {
        let digits = (1..=10).contains(&word.len()) && word.bytes().all(|byte| byte.is_ascii_digit());
        digits.then(|| word.parse().ok()).flatten()
    };
    std::str::from_utf8(line).ok()?.split(' ').map(number).collect()
}

/// The line to look at first in a text that the library has refused, and what is odd about it (SPECIFICATION 13.1): a help for
/// who mends the file, which decides nothing.
fn odd_line(text: &[u8], refused: Refusal) -> Option<(usize, &'static str)> {
    const BANNER: &[u8] = b"%%MatrixMarket matrix coordinate pattern general";
    // The rows, and the pairs that are still due.
    let mut counts = None;
    let mut last = 1;
    for (number, line) in (1..).zip(text.split_inclusive(|&byte| byte == b'\n')) {
        last = number;
        let Some(line) = line.strip_suffix(b"\n") else {
            return Some((number, "no line feed ends it"));
        };
        let odd = match (number, counts, numbers(line).as_deref()) {
            _ if line.ends_with(b"\r") => "it ends in a carriage return",
            (1, _, _) if line == BANNER => continue,
            (1, _, _) => "expected: %%MatrixMarket matrix coordinate pattern general",
            (_, None, _) if line.starts_with(b"%") => continue,
            (_, None, Some(_)) if refused == Refusal::Count => "rows or entries out of range",
            (_, None, Some(&[rows, columns, entries])) if rows == columns => {
                counts = Some((rows, entries));
                continue;
            }
            (_, None, Some([_, _, _])) => "not as many rows as columns",
            (_, None, _) => "expected: ROWS COLUMNS ENTRIES, parted by one space",
            (_, Some((_, 0)), _) => "more lines than the counts promise",
            (_, Some((rows, due)), Some(&[from, to])) => {
                let inside = (1..=rows).contains(&from) && (1..=rows).contains(&to);
                if inside || refused != Refusal::Object {
                    counts = Some((rows, due - 1));
                    continue;
                }
                "a number that is not 1 to the number of rows"
            }
            (_, Some(_), _) => "expected: FROM TO, parted by one space",
        };
        return Some((number, odd));
    }
    match counts {
        Some((_, 0)) => None,
        Some(_) => Some((last, "fewer lines than the counts promise")),
        None => Some((last, "the counts are missing")),
    }
}

/// What a refused text is told for: the file, the refusal's sentence, the line, and what helps.
fn explained(file: &str, text: &[u8], refused: Refusal) -> String {
    let line = odd_line(text, refused).map(|(number, odd)| format!("market: {file}, line {number}: {odd}\n"));
    let help = format!("market: tools/market.py {file} NEW.mtx writes it as import takes it, or says why it cannot");
    format!("{file}: {refused}\n{}{help}", line.unwrap_or_default())
}

fn run(arguments: &[String]) -> Result<(), String> {
    let [way, from, to] = arguments else {
        return Err("market import FILE.mtx STORE.cat, or market export STORE.cat FILE.mtx".into());
    };
    let given = fs::read(from).map_err(|fault| format!("{from}: {fault}"))?;
    let made = match way.as_str() {
        "import" => catalogue_of(&given).map_err(|refused| explained(from, &given, refused))?,
        "export" => text_of(&given).map_err(|refused| format!("{from}: {refused}"))?,
        _ => return run(&[]),
    };
    fs::write(to, made).map_err(|fault| format!("{to}: {fault}"))
}

fn main() -> ExitCode {
    let arguments: Vec<String> = env::args().skip(1).collect();
    match run(&arguments) {
        Ok(()) => ExitCode::SUCCESS,
        Err(told) => {
            eprintln!("market: {told}");
            ExitCode::FAILURE
        }
    }
}
