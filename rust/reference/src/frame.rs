//! The allowance that fits the frame (document 02, E2).

use crate::layout::{distances_by_paths, place, SCRATCH};
use crate::plan::{ask_table, refuse, Cell, Plan, Refusal};
use crate::rules::measure;

const LAST: u32 = 65_535;
/// Plans whose boxes stand side by side in so many columns are searched allowance by allowance.
const FEW: u32 = 60;

fn fits(plan: &Plan, squares: u32, allowance: u32) -> bool {
    measure(plan, &place(plan, &distances_by_paths(plan, allowance as i64))).width <= squares
}

/// Each allowance from 0 on. No cells overlap by more than all boxes' columns together, so that beyond
/// them S5 asks nothing and no sheet changes.
fn from_0(plan: &Plan, squares: u32, columns: u32) -> Option<u32> {
    (0..=columns.min(LAST)).find(|&a| fits(plan, squares, a))
}

/// By halves, and a look at both neighbours of the answer.
fn by_halves(plan: &Plan, squares: u32) -> Option<u32> {
    if !fits(plan, squares, LAST) {
        return None;
    }
    let (mut low, mut high) = (0, LAST);
    while low < high {
        let middle = (low + high) / 2;
        if fits(plan, squares, middle) {
            high = middle;
        } else {
            low = middle + 1;
        }
    }
    assert!(low == 0 || !fits(plan, squares, low - 1));
    assert!(low == LAST || fits(plan, squares, low + 1));
    Some(low)
}

/// Frame: the least allowance whose sheet is no wider than so many squares, or none.
pub fn frame(table: &[Cell], squares: u32, scratch: &mut [u32]) -> Result<Option<u32>, Refusal> {
    if scratch.len() < SCRATCH {
        return refuse(1, 0);
    }
    // No positions are lent, so that none are too few.
    let plan = ask_table(table, usize::MAX)?;
    if squares == 0 {
        return refuse(19, 0);
    }
    let columns = table.iter().map(|c| c.width as u32 + 1).sum();
    scratch[..SCRATCH].fill(0);
    Ok(if columns <= FEW { from_0(&plan, squares, columns) } else { by_halves(&plan, squares) })
}
