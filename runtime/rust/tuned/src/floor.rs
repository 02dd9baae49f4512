//! The floor of the benchmark: a plain depth-first marking, with no workers, no turns, no counts and no checks.

/// Marks what the index reaches; how many objects that is. A run is followed to its end before another one.
pub fn depth_first(offsets: &[u32], targets: &[u32], index: u32, marks: &mut [u8], stack: &mut Vec<u32>) -> u64 {
    marks.fill(0);
    marks[index as usize] = 1;
    let mut live = 1;
    stack.clear();
    stack.push(index);
    while let Some(v) = stack.pop() {
        let v = v as usize;
        for &target in &targets[offsets[v] as usize..offsets[v + 1] as usize] {
            let mark = &mut marks[target as usize];
            if *mark == 0 {
                *mark = 1;
                live += 1;
                stack.push(target);
            }
        }
    }
    live
}
