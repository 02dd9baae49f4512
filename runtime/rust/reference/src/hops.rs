//! Hops, SPECIFICATION 11, by the plain search with a queue: what each object's count is, and not how the proved call finds it.

use crate::{MOST_OBJECTS, MOST_REFERENCES, STARTS};
use std::collections::VecDeque;

/// The count of an object to which no chain leads.
pub const NO_HOPS: u32 = 4_294_967_295;

/// How many work words the proved call takes.
pub fn hop_words(objects: u32) -> Result<u64, u8> {
    if (1..=MOST_OBJECTS).contains(&(objects as usize)) {
        Ok(2 * u64::from(objects))
    } else {
        Err(4)
    }
}

/// The least number of references from a start, for each object. The work words are counted, and not used.
pub fn hops(offsets: &[u32], targets: &[u32], starts: &[u32], hops: &mut [u32], work: &[u32]) -> Result<(), u8> {
    if offsets.len() < 2 || offsets.len() - 1 > MOST_OBJECTS || targets.len() > MOST_REFERENCES {
        return Err(4);
    }
    let n = offsets.len() - 1;
    if hops.len() != n || work.len() != 2 * n {
        return Err(7);
    }
    let falls = offsets.windows(2).any(|pair| pair[0] > pair[1]);
    let outside = |object: &u32| *object as usize >= n;
    if offsets[0] != 0 || falls || offsets[n] as usize != targets.len() || targets.iter().any(outside) {
        return Err(10);
    }
    if starts.is_empty() || starts.len() > STARTS {
        return Err(13);
    }
    if starts.iter().any(outside) {
        return Err(5);
    }

    hops.fill(NO_HOPS);
    let mut queue = VecDeque::new();
    for &start in starts {
        if hops[start as usize] == NO_HOPS {
            hops[start as usize] = 0;
            queue.push_back(start);
        }
    }
    while let Some(object) = queue.pop_front() {
        let u = object as usize;
        for &v in &targets[offsets[u] as usize..offsets[u + 1] as usize] {
            if hops[v as usize] == NO_HOPS {
                hops[v as usize] = hops[u] + 1;
                queue.push_back(v);
            }
        }
    }
    Ok(())
}
