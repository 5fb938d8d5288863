//! What the comparison, the fuzz and the benchmark share.

pub mod guard;
pub mod plain;

use bindings::Record;
use reference::Cell;

pub fn record(c: &Cell) -> Record {
    Record {
        parent: c.parent,
        kind: c.kind,
        rank: c.rank,
        width: c.width,
        depth: c.depth,
        label_length: c.label_len,
        label_start: c.label_start,
    }
}

pub fn records(cells: &[Cell]) -> Vec<Record> {
    cells.iter().map(record).collect()
}
