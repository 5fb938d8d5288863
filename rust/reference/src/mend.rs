//! Mending cramped boxes (document 02, E11).

use crate::plan::{border, refuse, Cell, Refusal, MAX_CELLS};
use crate::plan_file::{read, record, shape, Form};

/// The bytes that the mended file's output needs, and those of the lines'.
pub const MENDED: usize = 16_384;
pub const LINES: usize = 6_144;

/// A cell that is altered, with its old width and depth, and the new ones.
#[derive(Clone, Copy, Debug, PartialEq, Eq)]
pub struct Altered {
    pub cell: usize,
    pub old: (u16, u8),
    pub new: (u16, u8),
}

/// Where a record of a form has its width and its depth: the bytes of each, from the record's first.
fn box_bytes(form: Form) -> (std::ops::Range<usize>, usize) {
    match form {
        Form::Old => (3..4, 4),
        Form::Wide => (4..6, 3),
    }
}

/// The width and depth that a cell is to have, where it is one that may be altered.
fn roomy(c: &Cell) -> (u16, u8) {
    match border(c.kind) {
        Some(border) if c.label_len <= 40 => (c.width.max(c.label_len as u16 + border as u16), c.depth.max(1)),
        _ => (c.width, c.depth),
    }
}

/// The file with its cramped boxes mended, whether it is then accepted or not, and what is altered.
pub fn mended(file: &[u8]) -> (Vec<u8>, Vec<Altered>) {
    let mut bytes = file.to_vec();
    let mut all = Vec::new();
    // Refused by 2 to 4: not altered.
    let Ok((form, begin, n)) = shape(file) else { return (bytes, all) };
    for cell in 0..n {
        let at = begin + form.size() * cell;
        let c = record(file, at, form);
        let (old, new) = ((c.width, c.depth), roomy(&c));
        if old != new {
            let (width, depth) = box_bytes(form);
            let low_first = new.0.to_le_bytes();
            bytes[at + width.start..at + width.end].copy_from_slice(&low_first[..width.len()]);
            bytes[at + depth] = new.1;
            all.push(Altered { cell, old, new });
        }
    }
    (bytes, all)
}

/// The lines that tell what is altered.
pub fn lines(all: &[Altered]) -> String {
    all.iter().map(|a| format!("{} {} {} {} {}\n", a.cell, a.old.0, a.old.1, a.new.0, a.new.1)).collect()
}

/// Mend: the mended file into the first bytes of `out`, the lines into those of `text`, if Read accepts it then; both lengths.
pub fn mend(file: &[u8], out: &mut [u8], text: &mut [u8]) -> Result<(usize, usize), Refusal> {
    if out.len() < MENDED || text.len() < LINES {
        return refuse(1, 0);
    }
    let (bytes, all) = mended(file);
    read(&bytes, &mut [Cell::default(); MAX_CELLS])?;
    let told = lines(&all);
    out[..bytes.len()].copy_from_slice(&bytes);
    text[..told.len()].copy_from_slice(told.as_bytes());
    Ok((bytes.len(), told.len()))
}
