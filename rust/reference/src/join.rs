//! Joining two plans (document 02, E10, with E13's clause about it).

use crate::plan::{ask_record, ask_tree, refuse, Cell, Refusal, MAX_CELLS, MAX_WIDTH};

/// Questions 4 and 6 to 8 of one of the two tables, cells by its own numbers.
pub fn ask_part(table: &[Cell]) -> Result<(), Refusal> {
    if table.is_empty() || table.len() > MAX_CELLS {
        return refuse(4, 0);
    }
    table.iter().enumerate().try_for_each(|(i, c)| ask_record(i, c, MAX_WIDTH))
}

/// "The first's cells, then the second's with numbers raised by the first's count", its root under the cell. All other fields are copied, the rank too.
fn joined(first: &[Cell], second: &[Cell], cell: usize) -> Vec<Cell> {
    let mut all = first.to_vec();
    for (number, c) in second.iter().enumerate() {
        let father = match number {
            0 => cell,
            _ => first.len() + c.parent as usize,
        };
        all.push(Cell { parent: father as u16, ..*c });
    }
    all
}

/// Join: the joined plan into the first records of the table; how many.
pub fn join(first: &[Cell], second: &[Cell], cell: usize, table: &mut [Cell]) -> Result<usize, Refusal> {
    if table.len() < MAX_CELLS {
        return refuse(1, 0);
    }
    ask_part(first)?;
    ask_part(second)?;
    if cell >= first.len() {
        return refuse(16, 0);
    }
    let all = joined(first, second, cell);
    if all.len() > MAX_CELLS {
        return refuse(4, 0);
    }
    ask_tree(&all)?;
    table[..all.len()].copy_from_slice(&all);
    Ok(all.len())
}
