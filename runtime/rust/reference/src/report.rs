//! The program's text, SPECIFICATION 7.

use crate::{header, mark, read, sweep, tallies, Call, Tally, STARTS};
use std::fmt::Write;

const MOST_STORE_BYTES: usize = 62_064;
const MOST_ORDER_BYTES: usize = 65_536;
const MOST_OBJECTS: u32 = 1_000;
const MOST_REFERENCES: u32 = 4_000;
const MOST_WORKERS: u32 = 4;

fn number(bytes: &[u8]) -> u32 {
    u32::from(u16::from_le_bytes([bytes[0], bytes[1]]))
}

/// The lines of a collection, or the number of the refusal.
fn collection(store: &[u8], order: &[u8]) -> Result<String, u8> {
    if order.len() < 5 {
        return Err(12);
    }
    if store.len() > MOST_STORE_BYTES || order.len() > MOST_ORDER_BYTES {
        return Err(11);
    }
    let head = header(store)?;
    if head.n > MOST_OBJECTS || head.m > MOST_REFERENCES {
        return Err(11);
    }
    let (n, m) = (head.n as usize, head.m as usize);
    let (mut offsets, mut targets, mut sizes) = (vec![0; n + 1], vec![0; m], vec![0; n]);
    let mut starts = [0; STARTS];
    let count = read(store, &mut offsets, &mut targets, &mut sizes, &mut starts)?.starts;
    let (workers, batch, cutoff) = (u32::from(order[0]), number(&order[1..]), number(&order[3..]));
    let settings = [(workers, 16), (batch, 65_535), (cutoff, 65_535)];
    if settings.iter().any(|&(setting, most)| setting < 1 || setting > most) {
        return Err(8);
    }
    if workers > MOST_WORKERS {
        return Err(11);
    }
    let (mut marks, mut work) = (vec![0; n], vec![0; workers as usize * (2 * n + 4)]);
    let schedule = &order[5..];
    let starts = &starts[..count as usize];
    let call = Call { offsets: &offsets, targets: &targets, starts, workers, batch, cutoff, schedule };
    let mut words = vec![0; Tally::WORDS * workers as usize];
    let outcome = mark(call, &mut marks, &mut work, &mut words)?;
    let mut text = if outcome.finished { "finished\n" } else { "unfinished\n" }.to_string();
    let counts = [
        ("live", outcome.live),
        ("followed", outcome.followed),
        ("handed", outcome.handed),
        ("refused", outcome.refused),
        ("moved", outcome.moved),
        ("carrying", outcome.carrying),
    ];
    for (name, count) in counts {
        writeln!(text, "{name} {count}").expect("text");
    }
    for (b, Tally { followed, won, lost, handed }) in tallies(&words).into_iter().enumerate() {
        writeln!(text, "box {b} followed {followed} won {won} lost {lost} handed {handed}").expect("text");
    }
    if outcome.finished {
        let mut list = vec![0; n];
        let swept = sweep(&marks, &sizes, &mut list)?;
        for &object in &list[..swept.count as usize] {
            writeln!(text, "dead {object} {}", sizes[object as usize]).expect("text");
        }
        writeln!(text, "freed {}", swept.freed).expect("text");
    }
    Ok(text)
}

/// What the program prints for these two files.
pub fn report(store: &[u8], order: &[u8]) -> String {
    collection(store, order).unwrap_or_else(|number| format!("refusal {number}\n"))
}
