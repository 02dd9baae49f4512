//! Who claimed what: collects the store in a folder by the order beside it, prints each object's owner, and writes the
//! marks to the file `marks` there, a byte for each object. `tools/case.py show FOLDER --marks FOLDER/marks` takes
//! them.

use kullneyra::{header, lengths, mark, owners, read, Schedule, Settings, STARTS};
use std::error::Error;
use std::path::PathBuf;
use std::{env, fs};

fn main() -> Result<(), Box<dyn Error>> {
    let folder = PathBuf::from(env::args_os().nth(1).ok_or("owners FOLDER")?);
    let (catalogue, order) = (fs::read(folder.join("store.cat"))?, fs::read(folder.join("order.run"))?);
    let &[workers, d0, d1, k0, k1, ref schedule @ ..] = &order[..] else {
        return Err("order.run has fewer than 5 bytes".into());
    };
    let settings = Settings {
        workers: u32::from(workers),
        batch: u32::from(u16::from_le_bytes([d0, d1])),
        cutoff: u32::from(u16::from_le_bytes([k0, k1])),
    };

    let head = header(&catalogue)?;
    let (n, m) = (head.objects as usize, head.references as usize);
    let (mut offsets, mut targets, mut sizes, mut starts) = (vec![0; n + 1], vec![0; m], vec![0; n], [0; STARTS]);
    let store = read(&catalogue, &mut offsets, &mut targets, &mut sizes, &mut starts)?;
    let starts = &starts[..store.starts as usize];
    let (mut marks, mut work) = (vec![0; n], vec![0; lengths::work(n, usize::from(workers))]);
    let mut tallies = vec![0; lengths::tallies(usize::from(workers))];
    let schedule = Schedule::from_bytes(schedule);
    mark(&offsets, &targets, starts, settings, schedule, &mut marks, &mut work, &mut tallies)?;

    for (object, owner) in owners(starts, &marks).enumerate() {
        println!("{object} {owner}");
    }
    fs::write(folder.join("marks"), &marks)?;
    Ok(())
}
