//! The sweep, SPECIFICATION 5.

use crate::{LARGEST_SIZE, MOST_OBJECTS};

#[derive(Clone, Copy, Debug, PartialEq, Eq)]
pub struct Swept {
    pub count: u32,
    pub freed: u64,
}

pub fn sweep(marks: &[u8], sizes: &[u64], list: &mut [u32]) -> Result<Swept, u8> {
    let n = sizes.len();
    if n == 0 || n > MOST_OBJECTS {
        return Err(4);
    }
    if marks.len() != n || list.len() != n {
        return Err(7);
    }
    if sizes.iter().any(|&size| size > LARGEST_SIZE) {
        return Err(6);
    }
    let mut swept = Swept { count: 0, freed: 0 };
    for (v, (&mark, &size)) in marks.iter().zip(sizes).enumerate() {
        if mark == 0 {
            list[swept.count as usize] = v as u32;
            swept.count += 1;
            swept.freed += size;
        }
    }
    list[swept.count as usize..].fill(0);
    Ok(swept)
}
