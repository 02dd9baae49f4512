//! The sweep: eight marks are looked at as one word, and only the dead among them one by one; the sizes are looked at without a jump and
//! without a comparison.

use reference::{Swept, LARGEST_SIZE, MOST_OBJECTS};

/// How many marks are looked at together.
const GROUP: usize = 8;

/// The high bit of each byte that is 0.
fn zeros(word: u64) -> u64 {
    const LOW: u64 = u64::from_le_bytes([0x7f; 8]);
    !((word & LOW).wrapping_add(LOW) | word | LOW)
}

/// Whether no size is above the largest, which is a power of two: neither a size nor its sum with all the bits below that has a higher bit.
fn sizes_fit(sizes: &[u64]) -> bool {
    let bits = sizes.iter().fold(0, |bits, &size| bits | size | size.wrapping_add(LARGEST_SIZE - 1));
    bits < 2 * LARGEST_SIZE
}

pub fn sweep(marks: &[u8], sizes: &[u64], list: &mut [u32]) -> Result<Swept, u8> {
    let n = sizes.len();
    if n == 0 || n > MOST_OBJECTS {
        return Err(4);
    }
    if marks.len() != n || list.len() != n {
        return Err(7);
    }
    if !sizes_fit(sizes) {
        return Err(6);
    }
    let (mut count, mut freed) = (0, 0);
    let mut put = |v: usize| {
        list[count] = v as u32;
        count += 1;
        freed += sizes[v];
    };
    let groups = marks.chunks_exact(GROUP);
    let tail = n - groups.remainder().len();
    for (at, group) in groups.enumerate() {
        let mut dead = zeros(u64::from_le_bytes(group.try_into().expect("eight marks")));
        while dead != 0 {
            put(GROUP * at + dead.trailing_zeros() as usize / 8);
            dead &= dead - 1;
        }
    }
    (tail..n).filter(|&v| marks[v] == 0).for_each(put);
    list[count..].fill(0);
    Ok(Swept { count: count as u32, freed })
}
