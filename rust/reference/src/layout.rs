//! Layout. S1 fixes the rows, so S2 to S5 say of the columns alone: some x are equal, and for some
//! pairs x(b) is at least x(a) plus a constant. Such a system of differences is met with every distance
//! of neighbouring brothers at the length of the longest path between them, if by anything, and no
//! placement that keeps the rules can have that distance less.

use crate::plan::{ask_allowance, ask_table, refuse, Cell, Plan, Refusal};
use crate::rules::{measure, Measure, Placement};
use std::collections::HashMap;

/// The 32-bit numbers of scratch that Layout asks for, and leaves zero.
pub const SCRATCH: usize = 16_384;

/// For each pair of neighbouring brothers, the later one's x less the earlier one's.
pub type Distances = HashMap<(usize, usize), i64>;

/// Each cell's foot.
fn feet(plan: &Plan) -> Vec<i64> {
    let last = |c: usize| plan.row[c] + plan.cells[c].depth as i64;
    (0..plan.len()).map(|c| plan.sub_diagram(c).into_iter().map(last).max().unwrap()).collect()
}

/// The columns from its x to the right end that a cell fills in a row: its box's or its plumb line's.
fn reach_in_row(plan: &Plan, feet: &[i64], c: usize, row: i64) -> Option<i64> {
    let last = plan.row[c] + plan.cells[c].depth as i64;
    if plan.row[c] <= row && row <= last {
        Some(plan.cells[c].width as i64)
    } else if !plan.sons[c].is_empty() && last < row && row <= feet[c] {
        Some(0)
    } else {
        None
    }
}

/// The least x(b) − x(a) that S4 and S5 leave, for a below or at one brother and b a later one.
fn apart(plan: &Plan, feet: &[i64], a: usize, b: usize, allowance: i64) -> i64 {
    let mut least = plan.cells[a].width as i64 + 1 - allowance;
    for row in plan.row[a]..=feet[a] {
        if let (Some(reach), Some(_)) = (reach_in_row(plan, feet, a, row), reach_in_row(plan, feet, b, row)) {
            least = least.max(reach + 1);
        }
    }
    least
}

/// The lower bounds x(b) − x(a) ≥ c of S2 to S5, as (a, b, c).
fn bounds(plan: &Plan, allowance: i64) -> Vec<(usize, usize, i64)> {
    let feet = feet(plan);
    let under: Vec<Vec<usize>> = (0..plan.len()).map(|c| plan.sub_diagram(c)).collect();
    let mut out = Vec::new();
    for f in 0..plan.len() {
        if let Some(s) = plan.appointed(f) {
            out.push((f, s, 0));
            out.push((s, f, 0));
        }
    }
    for (e, l) in plan.neighbours() {
        for &a in &under[e] {
            out.push((a, l, plan.cells[a].width as i64 + 1));
        }
        for &b in &under[l] {
            out.push((e, b, 1));
        }
    }
    for (e, l) in plan.brothers() {
        for &a in &under[e] {
            for &b in &under[l] {
                out.push((a, b, apart(plan, &feet, a, b, allowance)));
            }
        }
    }
    out
}

/// The distances as longest paths through the bounds of the whole plan at once.
pub fn distances_by_paths(plan: &Plan, allowance: i64) -> Distances {
    const NONE: i64 = i64::MIN / 4;
    let n = plan.len();
    let mut long = vec![NONE; n * n];
    for (a, b, c) in bounds(plan, allowance) {
        long[a * n + b] = long[a * n + b].max(c);
    }
    for via in 0..n {
        for a in 0..n {
            let first = long[a * n + via];
            if first == NONE {
                continue;
            }
            for b in 0..n {
                if long[via * n + b] != NONE {
                    long[a * n + b] = long[a * n + b].max(first + long[via * n + b]);
                }
            }
        }
    }
    plan.neighbours().into_iter().map(|(e, l)| ((e, l), long[e * n + l])).collect()
}

/// The same distances from below: of each two neighbours, with what lies below them standing, the
/// least distance that the bounds between their cells leave.
pub fn distances_by_pairs(plan: &Plan, allowance: i64) -> Distances {
    let feet = feet(plan);
    let mut out = Distances::new();
    for f in (0..plan.len()).rev() {
        for w in plan.sons[f].windows(2) {
            let (e, l) = (w[0], w[1]);
            let (left, right) = (columns(plan, &out, e), columns(plan, &out, l));
            let mut least = 1;
            for &(a, xa) in &left {
                least = least.max(xa + plan.cells[a].width as i64 + 1);
                for &(b, xb) in &right {
                    least = least.max(1 - xb).max(xa + apart(plan, &feet, a, b, allowance) - xb);
                }
            }
            out.insert((e, l), least);
        }
    }
    out
}

/// The columns of top's sub-diagram relative to top, by S2 and the distances.
fn columns(plan: &Plan, distances: &Distances, top: usize) -> Vec<(usize, i64)> {
    let mut out = vec![(top, 0)];
    let mut done = 0;
    while done < out.len() {
        let (f, x) = out[done];
        done += 1;
        let sons = &plan.sons[f];
        let mut at = vec![0; sons.len()];
        for i in 1..sons.len() {
            at[i] = at[i - 1] + distances[&(sons[i - 1], sons[i])];
        }
        let middle = plan.appointed(f).map_or(0, |s| at[sons.iter().position(|&c| c == s).unwrap()]);
        for i in 0..sons.len() {
            out.push((sons[i], x + at[i] - middle));
        }
    }
    out
}

/// The placement with the root at (0, 0) and these distances.
pub fn place(plan: &Plan, distances: &Distances) -> Placement {
    let mut p: Placement = plan.row.iter().map(|&y| (0, y)).collect();
    for (c, x) in columns(plan, distances, 0) {
        p[c].0 = x;
    }
    p
}

/// Layout: x then y of each cell into the positions; the width and the rows.
pub fn layout(table: &[Cell], allowance: u32, positions: &mut [i32], scratch: &mut [u32]) -> Result<Measure, Refusal> {
    if scratch.len() < SCRATCH {
        return refuse(1, 0);
    }
    let plan = ask_table(table, positions.len())?;
    ask_allowance(allowance)?;
    let p = place(&plan, &distances_by_paths(&plan, allowance as i64));
    for (c, &(x, y)) in p.iter().enumerate() {
        positions[2 * c] = x as i32;
        positions[2 * c + 1] = y as i32;
    }
    scratch[..SCRATCH].fill(0);
    Ok(measure(&plan, &p))
}
