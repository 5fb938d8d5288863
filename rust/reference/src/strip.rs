//! Strips for the raster printer (document 02, E8), point by point.

use crate::plan::{ask_table, Cell, Refusal};
use crate::rules::{ask_positions, Placement};

/// Whether a lattice point belongs to the box and is not inside it.
fn on_boundary(cell: &Cell, (x, y): (i64, i64), column: i64, row: i64) -> bool {
    let (right, bottom) = (x + cell.width as i64, y + cell.depth as i64);
    let filled = (x..=right).contains(&column) && (y..=bottom).contains(&row);
    let inside = x < column && column < right && y < row && row < bottom;
    filled && !inside
}

fn is_set(table: &[Cell], p: &Placement, column: i64, row: i64) -> bool {
    table.iter().zip(p).any(|(cell, &corner)| on_boundary(cell, corner, column, row))
}

/// Strip: each byte holds eight columns of the row, the leftmost in the highest bit.
pub fn strip(table: &[Cell], positions: &[i32], row: u32, first: u32, bytes: &mut [u8]) -> Result<(), Refusal> {
    let plan = ask_table(table, positions.len())?;
    let p = ask_positions(plan.len(), positions)?;
    let least = p.iter().map(|&(x, _)| x).min().unwrap();
    for (i, byte) in bytes.iter_mut().enumerate() {
        *byte = 0;
        for j in 0..8 {
            let column = least + first as i64 + 8 * i as i64 + j;
            *byte = *byte * 2 + u8::from(is_set(table, &p, column, row as i64));
        }
    }
    Ok(())
}
