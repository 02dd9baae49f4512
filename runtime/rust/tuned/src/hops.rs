//! Hops in safe Rust by a search with an array as its queue, in the lent work words: what the proved call is measured against. It
//! differs from that in what it leaves in the work words: the queue stands in the first ones, whoever's they are.
//!
//! What makes it fast: an object is found without a jump; the references of the object eight places ahead are touched, so that they
//! are near when its turn comes; the search ends with the last object.

use crate::check;
use reference::NO_HOPS;
use std::hint::black_box;

/// How far ahead references are touched.
const AHEAD: usize = 8;

/// The least number of references from a start, for each object.
pub fn hops(offsets: &[u32], targets: &[u32], starts: &[u32], hops: &mut [u32], work: &mut [u32]) -> Result<(), u8> {
    check::hops(offsets, targets, starts, hops.len(), work.len())?;
    hops.fill(NO_HOPS);
    let mut tail = 0;
    for &start in starts {
        if hops[start as usize] == NO_HOPS {
            hops[start as usize] = 0;
            work[tail] = start;
            tail += 1;
        }
    }
    let (mut head, mut hop, mut touched) = (0, 0, 0);
    while head < tail && tail < hops.len() {
        hop += 1;
        let end = tail;
        while head < end && tail < hops.len() {
            let u = work[head] as usize;
            let ahead = work[(head + AHEAD).min(tail)] as usize;
            touched |= offsets.get(ahead).and_then(|&first| targets.get(first as usize)).copied().unwrap_or(0);
            head += 1;
            for &v in &targets[offsets[u] as usize..offsets[u + 1] as usize] {
                let count = &mut hops[v as usize];
                let before = *count;
                *count = before.min(hop);
                work[tail] = v;
                tail += usize::from(before > hop);
            }
        }
    }
    black_box(touched);
    Ok(())
}
