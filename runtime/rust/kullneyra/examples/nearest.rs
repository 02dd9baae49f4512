//! What to fetch first: reads the store in a folder and prints its objects nearest first, each with the least number of
//! references from a start, its number and its size. Objects to which no chain leads are left out.

use kullneyra::{header, hops, lengths, read, NO_HOPS, STARTS};
use std::error::Error;
use std::path::PathBuf;
use std::{env, fs};

fn main() -> Result<(), Box<dyn Error>> {
    let folder = PathBuf::from(env::args_os().nth(1).ok_or("nearest FOLDER")?);
    let catalogue = fs::read(folder.join("store.cat"))?;
    let head = header(&catalogue)?;
    let (n, m) = (head.objects as usize, head.references as usize);
    let (mut offsets, mut targets, mut sizes, mut starts) = (vec![0; n + 1], vec![0; m], vec![0; n], [0; STARTS]);
    let store = read(&catalogue, &mut offsets, &mut targets, &mut sizes, &mut starts)?;
    let (mut counts, mut work) = (vec![0; n], vec![0; lengths::hop_work(n)]);
    hops(&offsets, &targets, &starts[..store.starts as usize], &mut counts, &mut work)?;

    let mut order: Vec<usize> = (0..n).filter(|&object| counts[object] != NO_HOPS).collect();
    order.sort_by_key(|&object| counts[object]);
    for object in order {
        println!("{} {object} {}", counts[object], sizes[object]);
    }
    Ok(())
}
