//! The program beside the specification in plain Rust: drawn files, and what is printed for them.

use crate::draw;
use crate::rng::Rng;
use crate::store;
use std::collections::BTreeMap;
use std::path::Path;
use std::process::Command;
use std::{env, fs, process};

/// `store.cat`: small, damaged or not, and now and then at a limit of the program or one above it.
fn store_file(rng: &mut Rng) -> Vec<u8> {
    if !rng.once_in(12) {
        return draw::catalogue(rng).0;
    }
    let (n, m) = rng.pick(&[(1_000, 4_000), (1_001, 3_000), (1_000, 4_001), (900, 10)]);
    let drawn = store::store(rng, 0, n, m);
    let sizes = store::sizes(rng, n);
    let mut bytes = store::bytes(&drawn.records(&sizes));
    if rng.once_in(3) {
        bytes.resize(rng.pick(&[62_064, 62_065, 62_100]), 0);
    }
    bytes
}

/// `order.run`: settings, mostly within their ranges, and turns of all workers in order or drawn.
fn order_file(rng: &mut Rng) -> Vec<u8> {
    let workers = rng.pick(&[1, 1, 2, 2, 3, 4, 4, 4, 0, 5, 16, 17]) as u8;
    let mut order = vec![workers];
    for _ in 0..2 {
        let setting = rng.pick(&[1, 1, 2, 3, 64, 65_535, 0]) as u16;
        order.extend(setting.to_le_bytes());
    }
    let turns = rng.pick(&[0, 5, 40, 400, 4_000, 32_765, 32_766]);
    let in_order = rng.once_in(2);
    let below = usize::from(workers.max(1));
    for i in 0..rng.between(turns / 2, turns) {
        let current = if in_order { i % below } else { rng.below(below) };
        order.extend([current as u8, rng.below(below + 1) as u8]);
    }
    if rng.once_in(10) {
        order.push(rng.word() as u8);
    }
    if rng.once_in(10) {
        let place = rng.below(order.len());
        order[place] = rng.word() as u8;
    }
    if rng.once_in(20) {
        order.truncate(rng.below(6));
    }
    order
}

/// Runs the program on so many pairs of files; how often each first line came.
pub fn compare(program: &Path, cases: u64, seed: u64) -> Result<(), String> {
    let program = program.canonicalize().map_err(|why| format!("{}: {why}", program.display()))?;
    let folder = env::temp_dir().join(format!("kullneyra-compare-{}", process::id()));
    fs::create_dir_all(&folder).map_err(|why| why.to_string())?;
    let result = (0..cases).try_fold(BTreeMap::new(), |mut tally: BTreeMap<String, u64>, number| {
        let mut rng = Rng::of(seed, number);
        let (store, order) = (store_file(&mut rng), order_file(&mut rng));
        let wanted = reference::report(&store, &order);
        let got = run(&program, &folder, &store, &order).map_err(|why| why.to_string())?;
        if got != wanted {
            return Err(format!("files {number} of seed {seed}: printed\n{got}instead of\n{wanted}"));
        }
        let line = wanted.lines().next().unwrap_or_default().to_string();
        *tally.entry(line).or_default() += 1;
        Ok(tally)
    });
    fs::remove_dir_all(&folder).map_err(|why| why.to_string())?;
    covers(&result?)
}

fn run(program: &Path, folder: &Path, store: &[u8], order: &[u8]) -> std::io::Result<String> {
    fs::write(folder.join("store.cat"), store)?;
    fs::write(folder.join("order.run"), order)?;
    let output = Command::new(program).current_dir(folder).output()?;
    Ok(String::from_utf8_lossy(&[output.stdout, output.stderr].concat()).into_owned())
}

/// Every answer that the program has came.
fn covers(tally: &BTreeMap<String, u64>) -> Result<(), String> {
    for (line, count) in tally {
        println!("  {line}: {count}");
    }
    let refusals = [1, 2, 3, 4, 5, 6, 8, 9, 11, 12, 13].map(|number| format!("refusal {number}"));
    let all = refusals.into_iter().chain(["finished".to_string(), "unfinished".to_string()]);
    match all.into_iter().find(|line| !tally.contains_key(line)) {
        Some(line) => Err(format!("no pair of files was answered with: {line}")),
        None => Ok(()),
    }
}
