//! Pen strokes for the plotter (document 02, E1).

use crate::plan::{ask_table, refuse, Cell, Refusal};
use crate::rules::{ask_positions, half};

/// Millimetres.
#[derive(Clone, Copy, Debug, PartialEq)]
pub struct Page {
    pub pitch: f64,
    pub margin_x: f64,
    pub margin_y: f64,
}

#[derive(Clone, Copy, Debug)]
pub enum Stroke {
    Move(f64, f64),
    Line(f64, f64),
    Lift,
}

/// Bit by bit: -0 is not 0.
impl PartialEq for Stroke {
    fn eq(&self, other: &Stroke) -> bool {
        let bits = |s: &Stroke| match *s {
            Stroke::Move(x, y) => (1, x.to_bits(), y.to_bits()),
            Stroke::Line(x, y) => (2, x.to_bits(), y.to_bits()),
            Stroke::Lift => (3, 0, 0),
        };
        bits(self) == bits(other)
    }
}

impl Page {
    /// Question 17. A NaN is in no range.
    fn is_fair(&self) -> bool {
        (0.25..=16.0).contains(&self.pitch) && [self.margin_x, self.margin_y].iter().all(|m| (0.0..=100.0).contains(m))
    }
}

/// Times the pitch, rounded once, plus the margin, rounded once.
fn plotted(lattice: i64, pitch: f64, margin: f64) -> f64 {
    let product = lattice as f64 * pitch;
    product + margin
}

/// All strokes of a sheet: each box in cell order, then each connector in order of the son.
fn all(table: &[Cell], p: &[(i64, i64)], page: &Page) -> Vec<Stroke> {
    let least = p.iter().map(|q| q.0).min().unwrap();
    let paper = |x: i64, y: i64| (plotted(x - least, page.pitch, page.margin_x), plotted(y, page.pitch, page.margin_y));
    let to = |(x, y): (i64, i64)| {
        let (x, y) = paper(x, y);
        Stroke::Line(x, y)
    };
    let from = |(x, y): (i64, i64)| {
        let (x, y) = paper(x, y);
        Stroke::Move(x, y)
    };
    let mut out = Vec::new();
    for (cell, &(x, y)) in table.iter().zip(p) {
        let (right, lower) = (x + cell.width as i64, y + cell.depth as i64);
        out.push(from((x, y)));
        out.extend([(right, y), (right, lower), (x, lower), (x, y)].map(to));
        out.push(Stroke::Lift);
    }
    for son in 1..table.len() {
        let father = table[son].parent as usize;
        out.push(from((p[father].0 + half(table[father].width), p[father].1 + table[father].depth as i64)));
        out.push(to((p[son].0 + half(table[son].width), p[son].1)));
        out.push(Stroke::Lift);
    }
    out
}

/// Stroke number s, from 0.
pub fn stroke(table: &[Cell], positions: &[i32], page: &Page, s: usize) -> Result<Stroke, Refusal> {
    let plan = ask_table(table, positions.len())?;
    let p = ask_positions(plan.len(), positions)?;
    if !page.is_fair() {
        return refuse(17, 0);
    }
    let strokes = all(table, &p, page);
    assert_eq!(strokes.len(), 9 * table.len() - 3);
    match strokes.get(s) {
        Some(stroke) => Ok(*stroke),
        None => refuse(18, 0),
    }
}
