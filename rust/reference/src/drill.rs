//! The drill (document 02, E12): each cell does what the request says, one after another, by recursion.

use crate::plan::{ask_table, refuse, Cell, Plan, Refusal};
use std::collections::BTreeSet;

/// Numbers that the lent list needs, and records that a drill makes at most.
pub const RECORDS: usize = 4_096;
/// Question 21.
pub const ANSWERS: usize = 4_096;

#[derive(Clone, Copy, Debug, PartialEq, Eq)]
pub enum Outcome {
    Finished,
    Spent,
    Wrong,
    Full,
}

#[derive(Clone, Copy, Debug, PartialEq, Eq)]
pub struct Drill {
    pub outcome: Outcome,
    pub used: usize,
    pub records: usize,
}

/// A candidate who follows a plan.
struct Candidate<'a> {
    plan: &'a Plan,
    answers: &'a [u8],
    used: usize,
    steps: Vec<u16>,
    /// Repeats that are being done, and what was met so far, for the comparison.
    repeats: usize,
    met: BTreeSet<String>,
}

impl Candidate<'_> {
    /// "Spent" exactly when a byte is needed and none is left.
    fn byte(&mut self) -> Result<u8, Outcome> {
        let byte = *self.answers.get(self.used).ok_or(Outcome::Spent)?;
        self.used += 1;
        Ok(byte)
    }

    fn meet(&mut self, what: impl Into<String>) {
        self.met.insert(what.into());
    }

    fn follow(&mut self, cell: usize) -> Result<(), Outcome> {
        let plan = self.plan;
        let sons = &plan.sons[cell];
        match plan.cells[cell].kind {
            1 => self.step(cell),
            2 => {
                self.meet("run");
                sons.iter().try_for_each(|&son| self.follow(son))
            }
            3 => self.repeat(sons[0]),
            4 => {
                let place = self.byte()? as usize;
                self.meet(if sons.len() > 1 && !sons.is_sorted() { "choice by rank" } else { "choice" });
                self.follow(*sons.get(place).ok_or(Outcome::Wrong)?)
            }
            _ => {
                let byte = self.byte()?;
                self.meet(format!("wait {} {}", byte.min(2), if sons.is_empty() { "without" } else { "with" }));
                match byte {
                    0 => Ok(()),
                    1 => sons.iter().try_for_each(|&son| self.follow(son)),
                    _ => Err(Outcome::Wrong),
                }
            }
        }
    }

    fn step(&mut self, cell: usize) -> Result<(), Outcome> {
        if self.steps.len() == RECORDS {
            return Err(Outcome::Full);
        }
        self.steps.push(cell as u16);
        Ok(())
    }

    fn repeat(&mut self, son: usize) -> Result<(), Outcome> {
        let times = self.byte()?;
        if [0, 1, 255].contains(&times) {
            let nested = if self.repeats > 0 { "nested " } else { "" };
            self.meet(format!("{nested}repeat {times}"));
        }
        self.repeats += 1;
        for _ in 0..times {
            self.follow(son)?;
        }
        self.repeats -= 1;
        Ok(())
    }
}

/// The drill, with what was met in it.
pub fn drill_met(table: &[Cell], answers: &[u8], list: &mut [u16]) -> Result<(Drill, BTreeSet<String>), Refusal> {
    if list.len() < RECORDS {
        return refuse(1, 0);
    }
    // No positions are lent, so that none are too few.
    let plan = ask_table(table, usize::MAX)?;
    if answers.len() > ANSWERS {
        return refuse(21, 0);
    }
    let mut candidate = Candidate { plan: &plan, answers, used: 0, steps: Vec::new(), repeats: 0, met: BTreeSet::new() };
    let outcome = candidate.follow(0).err().unwrap_or(Outcome::Finished);
    let records = candidate.steps.len();
    list[..records].copy_from_slice(&candidate.steps);
    Ok((Drill { outcome, used: candidate.used, records }, candidate.met))
}

/// Drill: how it ends, the bytes used and the number of records, with the recorded steps first in the list.
pub fn drill(table: &[Cell], answers: &[u8], list: &mut [u16]) -> Result<Drill, Refusal> {
    drill_met(table, answers, list).map(|(drill, _)| drill)
}

/// What the program `drill` prints of a plan file and answers.
pub fn transcript(file: &[u8], answers: &[u8]) -> Vec<u8> {
    let mut table = vec![Cell::default(); 256];
    let mut list = vec![0; RECORDS];
    let done = crate::read(file, &mut table).and_then(|(n, _)| drill(&table[..n as usize], answers, &mut list));
    let mut text = Vec::new();
    match done {
        Err(refusal) => text.extend(format!("refused {} {}\n", refusal.number, refusal.cell).bytes()),
        Ok(drill) => {
            for &step in &list[..drill.records] {
                let cell = &table[step as usize];
                let label = &file[cell.label_start as usize..][..cell.label_len as usize];
                text.extend(step.to_string().bytes());
                if !label.is_empty() {
                    text.push(b' ');
                    text.extend(label);
                }
                text.push(b'\n');
            }
            let word = match drill.outcome {
                Outcome::Finished => "finished",
                Outcome::Spent => "spent",
                Outcome::Wrong => "wrong",
                Outcome::Full => "full",
            };
            text.extend(format!("{word} {} {}\n", drill.used, drill.records).bytes());
        }
    }
    text
}
