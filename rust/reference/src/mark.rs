//! The mark of a drawing: full marks exactly where it keeps the rules and no placement that keeps them is narrower.

use crate::layout::{distances_by_paths, place, SCRATCH};
use crate::plan::{refuse, Cell, Plan, Refusal};
use crate::rules::{check, measure, Measure, Verdict};

#[derive(Clone, Copy, Debug, PartialEq, Eq)]
pub enum Mark {
    Full(Measure),
    /// Wider than it had to be.
    Wide { measure: Measure, least: u32 },
    Broken { rule: u32, a: u32, b: u32 },
}

/// Mark: Check's verdict; of a drawing that is kept, its width against the least that there is.
pub fn mark(table: &[Cell], positions: &[i32], allowance: u32, scratch: &mut [u32]) -> Result<Mark, Refusal> {
    if scratch.len() < SCRATCH {
        return refuse(1, 0);
    }
    let verdict = check(table, positions, allowance)?;
    scratch[..SCRATCH].fill(0);
    let m = match verdict {
        Verdict::Kept(m) => m,
        Verdict::Broken { rule, a, b } => return Ok(Mark::Broken { rule, a, b }),
    };
    let plan = Plan::new(table);
    let least = measure(&plan, &place(&plan, &distances_by_paths(&plan, allowance as i64))).width;
    assert!(least <= m.width, "a drawing that keeps the rules is narrower than the least width");
    Ok(if m.width == least { Mark::Full(m) } else { Mark::Wide { measure: m, least } })
}
