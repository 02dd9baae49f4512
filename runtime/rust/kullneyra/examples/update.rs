//! References that come and go: takes references out of the store in a folder and adds others, as the file `store.update`
//! there says, and writes the store and the marks afterwards to another folder, with the order beside them. Prints each
//! object's mark.
//!
//! ```text
//! update FOLDER NEW
//! ```
//! `tools/case.py make` writes `store.update`: how many references come, how many go, the sources of those that come, their
//! targets, and the numbers of those that go, each a word of 32 bits with its lowest byte first. Where none goes, the marks
//! before are the file `marks`, which the example `owners` writes.

mod catalogue;

use kullneyra::{add, header, lengths, read, remove, STARTS};
use std::collections::HashSet;
use std::error::Error;
use std::path::Path;
use std::{env, fs};

/// The sources and targets of the references that come, and the numbers of those that go.
fn update(bytes: &[u8]) -> Option<(Vec<u32>, Vec<u32>, Vec<u32>)> {
    let mut words = bytes.chunks_exact(4).map(|word| u32::from_le_bytes(word.try_into().expect("4 bytes")));
    let (come, go) = (words.next()? as usize, words.next()? as usize);
    if bytes.len() != 4 * (2 + 2 * come + go) {
        return None;
    }
    let sources = words.by_ref().take(come).collect();
    let targets = words.by_ref().take(come).collect();
    Some((sources, targets, words.collect()))
}

fn main() -> Result<(), Box<dyn Error>> {
    let arguments: Vec<String> = env::args().skip(1).collect();
    let [folder, new] = arguments.as_slice() else {
        return Err("update FOLDER NEW".into());
    };
    let (folder, new) = (Path::new(folder), Path::new(new));
    let bytes = fs::read(folder.join("store.cat"))?;
    let head = header(&bytes)?;
    let (n, m) = (head.objects as usize, head.references as usize);
    let (mut offsets, mut targets, mut sizes, mut starts) = (vec![0; n + 1], vec![0; m], vec![0; n], [0; STARTS]);
    let store = read(&bytes, &mut offsets, &mut targets, &mut sizes, &mut starts)?;
    let starts = &starts[..store.starts as usize];
    let (from, to, numbers) =
        update(&fs::read(folder.join("store.update"))?).ok_or("store.update has another length")?;
    let (mut marks, mut work) = (vec![0; n], vec![0; lengths::update_work(n)]);

    if numbers.is_empty() {
        marks = fs::read(folder.join("marks"))?;
    } else {
        let gone = numbers.iter().collect::<HashSet<_>>().len();
        let (mut fewer_offsets, mut fewer) = (vec![0; n + 1], vec![0; m.saturating_sub(gone)]);
        remove(&offsets, &targets, &numbers, starts, &mut fewer_offsets, &mut fewer, &mut marks, &mut work)?;
        (offsets, targets) = (fewer_offsets, fewer);
    }
    let (mut more_offsets, mut more) = (vec![0; n + 1], vec![0; targets.len() + from.len()]);
    add(&offsets, &targets, &from, &to, &mut more_offsets, &mut more, &mut marks, &mut work)?;

    for (object, mark) in marks.iter().enumerate() {
        println!("{object} {mark}");
    }
    fs::create_dir_all(new)?;
    fs::write(new.join("store.cat"), catalogue::layout(&more_offsets, &more, &sizes, head.index, &starts[1..]))?;
    fs::write(new.join("marks"), &marks)?;
    fs::copy(folder.join("order.run"), new.join("order.run"))?;
    Ok(())
}
