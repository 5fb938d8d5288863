//! A sheet that is being made, cell by cell (document 02, E9). What is kept here between the calls is a number
//! of steps and nothing else: the reaches are read off the complete sheet.

use crate::layout::{distances_by_paths, place, SCRATCH};
use crate::plan::{ask_allowance, ask_table, refuse, Cell, Plan, Refusal};

/// The numbers of the second scratch.
pub const SECOND: usize = 1_024;

#[derive(Clone, Copy, Debug, PartialEq, Eq)]
pub enum Step {
    Finished(u32),
    Done,
}

/// The order of finishing: sons before their father, each brother's whole sub-diagram before the next's. It is the
/// order in which a father stands before his sons and a later brother before an earlier one, turned round.
pub fn order(plan: &Plan) -> Vec<usize> {
    let mut turned = Vec::new();
    let mut open = vec![0];
    while let Some(c) = open.pop() {
        turned.push(c);
        open.extend(&plan.sons[c]);
    }
    turned.reverse();
    turned
}

/// The left and the right reach of each sub-diagram in the complete sheet.
pub fn reaches(plan: &Plan, allowance: u32) -> Vec<(u32, u32)> {
    let p = place(plan, &distances_by_paths(plan, allowance as i64));
    let of = |top: usize| {
        let cells = plan.sub_diagram(top);
        let least = cells.iter().map(|&c| p[c].0).min().unwrap_or(0);
        let greatest = cells.iter().map(|&c| p[c].0 + plan.cells[c].width as i64).max().unwrap_or(0);
        ((p[top].0 - least) as u32, (greatest - p[top].0) as u32)
    };
    (0..plan.len()).map(of).collect()
}

/// The questions of a start, and of a step with so many positions.
pub fn ask(table: &[Cell], allowance: u32, scratch: usize, second: usize, positions: usize) -> Result<Plan, Refusal> {
    if scratch < SCRATCH || second < SECOND {
        return refuse(1, 0);
    }
    let plan = ask_table(table, positions)?;
    ask_allowance(allowance)?;
    Ok(plan)
}

/// The questions of a reading but 20.
pub fn ask_reach(table: &[Cell], allowance: u32, scratch: usize, second: usize, cell: usize) -> Result<Plan, Refusal> {
    let plan = ask(table, allowance, scratch, second, usize::MAX)?;
    if cell >= plan.len() {
        return refuse(16, 0);
    }
    Ok(plan)
}
