//! References that come and go, SPECIFICATION 12: a list of references for each object, and marking from the marked objects.

use crate::{MOST_OBJECTS, MOST_REFERENCES, STARTS};

/// The mark of an object newly in the set.
const NEW: u8 = 255;

/// How many work words the proved calls take.
pub fn update_words(objects: u32) -> Result<u64, u8> {
    if (1..=MOST_OBJECTS).contains(&(objects as usize)) {
        Ok(objects.into())
    } else {
        Err(4)
    }
}

/// What both calls are lent. The work words are counted, and not used.
pub struct Renewed<'a> {
    pub offsets: &'a mut [u32],
    pub targets: &'a mut [u32],
    pub marks: &'a mut [u8],
    pub work: &'a mut [u32],
}

impl Renewed<'_> {
    fn fit(&self, n: usize, targets: usize) -> bool {
        self.offsets.len() == n + 1 && self.targets.len() == targets && self.marks.len() == n && self.work.len() == n
    }

    /// The store whose objects have these references.
    fn store(&mut self, objects: &[Vec<u32>]) {
        let mut end = 0;
        self.offsets[0] = 0;
        for (v, references) in objects.iter().enumerate() {
            self.targets[end..end + references.len()].copy_from_slice(references);
            end += references.len();
            self.offsets[v + 1] = end as u32;
        }
    }

    /// Everything that a marked object leads to is marked.
    fn complete(&mut self, objects: &[Vec<u32>]) {
        let mut next: Vec<usize> = (0..objects.len()).filter(|&v| self.marks[v] != 0).collect();
        while let Some(v) = next.pop() {
            for to in objects[v].iter().map(|&to| to as usize) {
                if self.marks[to] == 0 {
                    self.marks[to] = NEW;
                    next.push(to);
                }
            }
        }
    }
}

/// Check 10, and the references of each object.
fn objects(offsets: &[u32], targets: &[u32]) -> Option<Vec<Vec<u32>>> {
    let n = offsets.len() - 1;
    let falls = offsets.windows(2).any(|pair| pair[0] > pair[1]);
    if offsets[0] != 0 || falls || offsets[n] as usize != targets.len() || targets.iter().any(|&to| to as usize >= n) {
        return None;
    }
    Some(offsets.windows(2).map(|part| targets[part[0] as usize..part[1] as usize].to_vec()).collect())
}

fn counts_outside(offsets: &[u32], targets: &[u32]) -> bool {
    offsets.len() < 2 || offsets.len() - 1 > MOST_OBJECTS || targets.len() > MOST_REFERENCES
}

/// Adds the pairs to the store and brings the marks up to date.
pub fn add(offsets: &[u32], targets: &[u32], from: &[u32], to: &[u32], lent: &mut Renewed<'_>) -> Result<(), u8> {
    if counts_outside(offsets, targets) || from.len() > MOST_REFERENCES - targets.len() {
        return Err(4);
    }
    let n = offsets.len() - 1;
    if to.len() != from.len() || !lent.fit(n, targets.len() + from.len()) {
        return Err(7);
    }
    let mut objects = objects(offsets, targets).ok_or(10)?;
    if from.iter().chain(to).any(|&object| object as usize >= n) {
        return Err(5);
    }
    let marked = |v: u32| lent.marks[v as usize] != 0;
    if (0..n).any(|v| marked(v as u32) && objects[v].iter().any(|&to| !marked(to))) {
        return Err(17);
    }

    for (&from, &to) in from.iter().zip(to) {
        objects[from as usize].push(to);
    }
    lent.store(&objects);
    lent.complete(&objects);
    Ok(())
}

/// Takes the references with these numbers out of the store, and marks afresh.
pub fn remove(
    offsets: &[u32],
    targets: &[u32],
    numbers: &[u32],
    starts: &[u32],
    lent: &mut Renewed<'_>,
) -> Result<(), u8> {
    if counts_outside(offsets, targets) {
        return Err(4);
    }
    let n = offsets.len() - 1;
    let mut stays = vec![true; targets.len()];
    for &number in numbers {
        *stays.get_mut(number as usize).ok_or(5)? = false;
    }
    if !lent.fit(n, stays.iter().filter(|&&stays| stays).count()) {
        return Err(7);
    }
    let mut objects = objects(offsets, targets).ok_or(10)?;
    if starts.is_empty() || starts.len() > STARTS {
        return Err(13);
    }
    if starts.iter().any(|&start| start as usize >= n) {
        return Err(5);
    }

    for (v, references) in objects.iter_mut().enumerate() {
        let mut stays = stays[offsets[v] as usize..].iter();
        references.retain(|_| *stays.next().expect("one for each"));
    }
    lent.store(&objects);
    lent.marks.fill(0);
    starts.iter().for_each(|&start| lent.marks[start as usize] = 1);
    lent.complete(&objects);
    Ok(())
}
