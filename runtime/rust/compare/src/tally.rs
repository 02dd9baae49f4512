//! How often each call gave each answer, so that a run shows what it covered.

use crate::case::{Call, Case};
use crate::lent::After;
use std::fmt;

#[derive(Default)]
pub struct Tally {
    /// By call, then by answer.
    answers: [[u64; 20]; Call::CALLS],
    finished: u64,
    handed: u64,
    refused: u64,
    /// Parts of collections that were made in parts, too.
    parts: u64,
    /// Collections taken up whose saved words are sound no more.
    dead_ends: u64,
    /// How often each condition of SPECIFICATION 8.2 failed; at 0, words that hold no state.
    unsound: [u64; 29],
}

impl Tally {
    pub fn count(&mut self, case: &Case, after: &After) {
        let place = case.call.place();
        self.answers[place][after.number as usize] += 1;
        if let (Call::Mark(_), 0) = (&case.call, after.number) {
            let marked = after.marked();
            self.finished += u64::from(marked.finished);
            self.handed += u64::from(marked.handed > 0);
            self.refused += u64::from(marked.refused > 0);
        }
        match &case.call {
            Call::Begin { cuts, .. } if after.number == 0 => self.parts += cuts.len() as u64 + 1,
            Call::Resume { .. } if after.number == 0 => self.dead_ends += u64::from(!after.stopped().sound),
            Call::Resume { mark, saved } if after.number == 14 => {
                reference::unsound(mark.call(), saved)
                    .into_iter()
                    .for_each(|number| self.unsound[number as usize] += 1);
            }
            _ => {}
        }
    }

    /// A run of many cases must meet every answer of every call.
    pub fn covers_all(&self, cases: u64) -> Result<(), String> {
        if cases < 10_000 {
            return Ok(());
        }
        for ((name, wanted), met) in Call::NAMES.iter().zip(Call::ANSWERS).zip(&self.answers) {
            if let Some(answer) = wanted.iter().find(|&&answer| met[answer as usize] == 0) {
                return Err(format!("no case of {name} was answered {answer}"));
            }
        }
        if cases < 100_000 {
            return Ok(());
        }
        if self.dead_ends == 0 {
            return Err("no collection that was taken up came to a dead end".into());
        }
        match (0..self.unsound.len()).find(|number| ![5, 18].contains(number) && self.unsound[*number] == 0) {
            Some(number) => Err(format!("no saved words failed condition {number}")),
            None => Ok(()),
        }
    }
}

impl fmt::Display for Tally {
    fn fmt(&self, f: &mut fmt::Formatter<'_>) -> fmt::Result {
        for (name, answers) in Call::NAMES.iter().zip(&self.answers) {
            write!(f, "  {name:<15} accepted {}, refused", answers[0])?;
            for (number, count) in answers.iter().enumerate().skip(1).filter(|(_, &count)| count > 0) {
                write!(f, " {number}: {count}")?;
            }
            writeln!(f)?;
        }
        let Tally { finished, handed, refused, .. } = self;
        writeln!(f, "  of the marker's: {finished} finished, {handed} with hand-overs, {refused} with refused asks")?;
        writeln!(f, "  collections begun were also made in {} parts", self.parts)?;
        writeln!(f, "  collections taken up that came to a dead end: {}", self.dead_ends)?;
        write!(f, "  saved words by the condition that they fail:")?;
        for (number, count) in self.unsound.iter().enumerate().filter(|(_, &count)| count > 0) {
            write!(f, " {number}: {count}")?;
        }
        writeln!(f)
    }
}
