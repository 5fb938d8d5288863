//! The season's folder (document 02, E14): reports of plans, and their pools.

use crate::layout::{layout, SCRATCH};
use crate::plan::{refuse, Cell, Refusal, MAX_CELLS};
use crate::plan_file::{cells_said, read};

const MAX_PLANS: u64 = 1_024;
const CELLS: u64 = 256;
const WIDTH: u64 = 262_143;
const AREA: u64 = 67_108_608;

/// One plan's cells, and its sheet's width and rows.
pub type Figures = (u64, u64, u64);

#[derive(Clone, Copy, Debug, Default, PartialEq, Eq)]
pub struct Report {
    pub plans: u64,
    pub cells: u64,
    pub widths: u64,
    pub areas: u64,
    pub least: u64,
    pub greatest: u64,
    pub mean: u64,
    pub rest: u64,
}

impl Report {
    /// The report of these plans.
    pub fn of(plans: &[Figures]) -> Report {
        let n = plans.len() as u64;
        let widths: u64 = plans.iter().map(|p| p.1).sum();
        Report {
            plans: n,
            cells: plans.iter().map(|p| p.0).sum(),
            widths,
            areas: plans.iter().map(|p| p.1 * p.2).sum(),
            least: plans.iter().map(|p| p.1).min().unwrap_or(0),
            greatest: plans.iter().map(|p| p.1).max().unwrap_or(0),
            mean: widths.checked_div(n).unwrap_or(0),
            rest: widths.checked_rem(n).unwrap_or(0),
        }
    }

    /// Question 22.
    fn is_wrong(&self) -> bool {
        let none = Report::default();
        self.plans > MAX_PLANS
            || self.cells > CELLS * self.plans
            || self.widths > WIDTH * self.plans
            || self.areas > AREA * self.plans
            || self.plans == 0 && *self != none
    }
}

/// Report: of one plan file, by Read and then Layout at the file's own allowance.
pub fn report(file: &[u8], table: &mut [Cell], scratch: &mut [u32], positions: &mut [i32]) -> Result<Report, Refusal> {
    if table.len() < MAX_CELLS || scratch.len() < SCRATCH {
        return refuse(1, 0);
    }
    let mut filled = table.to_vec();
    let plan = read(file, &mut filled);
    // The positions are measured between 4 and 5.
    match plan {
        Err(Refusal { number: 2..=4, .. }) => {}
        _ if positions.len() < 2 * cells_said(file) => return refuse(1, 0),
        _ => {}
    }
    let (n, allowance) = plan?;
    let sheet = layout(&filled[..n as usize], allowance, positions, scratch)?;
    table.copy_from_slice(&filled);
    Ok(Report::of(&[(n as u64, sheet.width as u64, sheet.rows as u64)]))
}

/// Pool: the report of both together. The plans themselves are not there, so all but the mean is put together.
pub fn pool(a: Report, b: Report) -> Result<Report, Refusal> {
    if a.is_wrong() || b.is_wrong() {
        return refuse(22, 0);
    }
    let plans = a.plans + b.plans;
    if plans > MAX_PLANS {
        return refuse(4, 0);
    }
    let widths = a.widths + b.widths;
    let with_plans: Vec<&Report> = [&a, &b].into_iter().filter(|r| r.plans > 0).collect();
    Ok(Report {
        plans,
        cells: a.cells + b.cells,
        widths,
        areas: a.areas + b.areas,
        least: with_plans.iter().map(|r| r.least).min().unwrap_or(0),
        greatest: with_plans.iter().map(|r| r.greatest).max().unwrap_or(0),
        mean: widths.checked_div(plans).unwrap_or(0),
        rest: widths.checked_rem(plans).unwrap_or(0),
    })
}

#[cfg(test)]
mod tests {
    use super::*;

    const A: Figures = (1, 5, 2);
    const B: Figures = (3, 9, 4);
    const C: Figures = (4, 11, 4);

    #[test]
    fn three_sheets() {
        let all = Report { plans: 3, cells: 8, widths: 25, areas: 90, least: 5, greatest: 11, mean: 8, rest: 1 };
        assert_eq!(Report::of(&[A, B, C]), all);
        assert_eq!(pool(Report::of(&[B, C]), Report::of(&[A])), Ok(all));
        assert_eq!(pool(all, Report::default()), Ok(all));
    }

    #[test]
    fn too_many() {
        let half = Report { plans: 512, ..Report::default() };
        let more = Report { plans: 513, ..Report::default() };
        assert!(pool(half, half).is_ok());
        assert_eq!(pool(half, more), refuse(4, 0));
        assert_eq!(pool(Report { plans: 1_025, ..half }, half), refuse(22, 0));
    }
}
