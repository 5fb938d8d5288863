//! S1 to S5 over all pairs of cells and all rows; Check and Ends.

use crate::plan::{ask_allowance, ask_table, refuse, Cell, Plan, Refusal};
use std::collections::BTreeSet;

/// Document 02, E7.
pub const MAX_COORDINATE: i64 = 262_143;

#[derive(Clone, Copy, Debug, PartialEq, Eq)]
pub struct Measure {
    pub width: u32,
    pub rows: u32,
}

#[derive(Clone, Copy, Debug, PartialEq, Eq)]
pub enum Verdict {
    Kept(Measure),
    Broken { rule: u32, a: u32, b: u32 },
}

#[derive(Clone, Copy, Debug, PartialEq, Eq)]
pub struct Ends {
    pub from: (i32, i32),
    pub to: (i32, i32),
}

/// The placement of each cell, as pairs.
pub type Placement = Vec<(i64, i64)>;

fn right(plan: &Plan, p: &Placement, c: usize) -> i64 {
    p[c].0 + plan.cells[c].width as i64
}

fn bottom(plan: &Plan, p: &Placement, c: usize) -> i64 {
    p[c].1 + plan.cells[c].depth as i64
}

fn foot(plan: &Plan, p: &Placement, c: usize) -> i64 {
    plan.sub_diagram(c).into_iter().map(|d| bottom(plan, p, d)).max().unwrap()
}

/// The columns that c's box, or its plumb line, fills in a row.
fn ends_in_row(plan: &Plan, p: &Placement, feet: &[i64], c: usize, row: i64) -> Option<(i64, i64)> {
    if p[c].1 <= row && row <= bottom(plan, p, c) {
        Some((p[c].0, right(plan, p, c)))
    } else if !plan.sons[c].is_empty() && bottom(plan, p, c) < row && row <= feet[c] {
        Some((p[c].0, p[c].0))
    } else {
        None
    }
}

/// Whether a, of an earlier brother, is not left of b, of a later one, in a row.
fn meet_in_row(plan: &Plan, p: &Placement, feet: &[i64], a: usize, b: usize, row: i64) -> bool {
    let (in_a, in_b) = (ends_in_row(plan, p, feet, a, row), ends_in_row(plan, p, feet, b, row));
    matches!((in_a, in_b), (Some(i), Some(j)) if i.1 >= j.0)
}

/// The width and the rows of a placement.
pub fn measure(plan: &Plan, p: &Placement) -> Measure {
    let all = 0..plan.len();
    let most = all.clone().map(|c| right(plan, p, c)).max().unwrap();
    let least = all.map(|c| p[c].0).min().unwrap();
    Measure { width: (most - least) as u32, rows: (foot(plan, p, 0) + 1) as u32 }
}

/// Each fault as (rule, a, b), in no order.
pub fn faults(plan: &Plan, p: &Placement, allowance: i64) -> Vec<(u32, usize, usize)> {
    let n = plan.len();
    let mut out = Vec::new();
    if p[0] != (0, 0) {
        out.push((1, 0, 0));
    }
    for c in 1..n {
        if p[c].1 != bottom(plan, p, plan.father[c].unwrap()) + 1 {
            out.push((1, c, c));
        }
    }
    for f in 0..n {
        if let Some(s) = plan.appointed(f) {
            if p[f].0 != p[s].0 {
                out.push((2, f, s));
            }
        }
    }
    for (e, l) in plan.neighbours() {
        for a in plan.sub_diagram(e) {
            if right(plan, p, a) >= p[l].0 {
                out.push((3, a, l));
            }
        }
        for b in plan.sub_diagram(l) {
            if p[b].0 <= p[e].0 {
                out.push((3, e, b));
            }
        }
    }
    pair_faults(plan, p, allowance, &mut out);
    out
}

/// The faults of S4 and S5: for cells at or below one brother and at or below a later one.
fn pair_faults(plan: &Plan, p: &Placement, allowance: i64, out: &mut Vec<(u32, usize, usize)>) {
    // A row in which two cells meet lies between the first row and the last of one of them.
    let feet: Vec<i64> = (0..plan.len()).map(|c| foot(plan, p, c)).collect();
    let under: Vec<Vec<usize>> = (0..plan.len()).map(|c| plan.sub_diagram(c)).collect();
    for (e, l) in plan.brothers() {
        for &a in &under[e] {
            for &b in &under[l] {
                if (p[a].1..=feet[a]).any(|row| meet_in_row(plan, p, &feet, a, b, row)) {
                    out.push((4, a, b));
                }
                if right(plan, p, a) - p[b].0 + 1 > allowance {
                    out.push((5, a, b));
                }
            }
        }
    }
}

/// Whether two boxes of a placement share a point.
pub fn boxes_meet(table: &[Cell], positions: &[i32]) -> bool {
    let apart = |from: i32, size: i32, other: i32, other_size: i32| from + size < other || other + other_size < from;
    (0..table.len()).any(|a| {
        (0..a).any(|b| {
            !apart(positions[2 * a], table[a].width as i32, positions[2 * b], table[b].width as i32)
                && !apart(positions[2 * a + 1], table[a].depth as i32, positions[2 * b + 1], table[b].depth as i32)
        })
    })
}

/// What of two cells meets where they break S4.
pub fn crossings(table: &[Cell], positions: &[i32], a: usize, b: usize) -> BTreeSet<&'static str> {
    let plan = Plan::new(table);
    let p: Placement = positions.chunks_exact(2).take(table.len()).map(|c| (c[0] as i64, c[1] as i64)).collect();
    let feet: Vec<i64> = (0..plan.len()).map(|c| foot(&plan, &p, c)).collect();
    let rows = (p[a].1..=feet[a]).filter(|&row| meet_in_row(&plan, &p, &feet, a, b, row));
    rows.map(|row| match (row <= bottom(&plan, &p, a), row <= bottom(&plan, &p, b)) {
        (true, true) => "two boxes",
        (true, false) => "a box, a later plumb line",
        (false, true) => "a plumb line, a later box",
        (false, false) => "two plumb lines",
    })
    .collect()
}

/// Question 15.
pub(crate) fn ask_positions(n: usize, positions: &[i32]) -> Result<Placement, Refusal> {
    let inside = |v: i32| (-MAX_COORDINATE..=MAX_COORDINATE).contains(&(v as i64));
    if let Some(c) = (0..n).find(|&c| !inside(positions[2 * c]) || !inside(positions[2 * c + 1])) {
        return refuse(15, c);
    }
    Ok((0..n).map(|c| (positions[2 * c] as i64, positions[2 * c + 1] as i64)).collect())
}

/// Check: the lowest rule broken, then the lowest a, then the lowest b.
pub fn check(table: &[Cell], positions: &[i32], allowance: u32) -> Result<Verdict, Refusal> {
    let plan = ask_table(table, positions.len())?;
    ask_allowance(allowance)?;
    let p = ask_positions(plan.len(), positions)?;
    Ok(match faults(&plan, &p, allowance as i64).into_iter().min() {
        None => Verdict::Kept(measure(&plan, &p)),
        Some((rule, a, b)) => Verdict::Broken { rule, a: a as u32, b: b as u32 },
    })
}

/// Half a width (document 02, E3): to the nearer whole number, a tie going to the even one.
pub(crate) fn half(width: u16) -> i64 {
    (f64::from(width) / 2.0).round_ties_even() as i64
}

/// Ends: of the connector from a son's father to the son.
pub fn ends(table: &[Cell], positions: &[i32], son: usize) -> Result<Ends, Refusal> {
    let plan = ask_table(table, positions.len())?;
    let p = ask_positions(plan.len(), positions)?;
    if son == 0 || son >= plan.len() {
        return refuse(16, 0);
    }
    let f = plan.father[son].unwrap();
    Ok(Ends {
        from: ((p[f].0 + half(table[f].width)) as i32, (p[f].1 + table[f].depth as i64) as i32),
        to: ((p[son].0 + half(table[son].width)) as i32, p[son].1 as i32),
    })
}
