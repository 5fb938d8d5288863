//! The clean copy of a plan (document 02, E4, with what E7 and E13 say of it).

use crate::plan::{ask_allowance, ask_record, ask_tree, refuse, Cell, Refusal, MAX_CELLS, MAX_WIDTH};
use crate::plan_file::{ask_label, ask_letters, Form};

/// The bytes that the output needs.
pub const COPY: usize = 16_384;

/// What a plan says, however its file is arranged: fathers, kinds, widths, depths, ranks, label texts and the allowance.
#[derive(Debug, PartialEq, Eq)]
pub struct Content {
    pub cells: Vec<(u16, u8, u16, u8, u8, Vec<u8>)>,
    pub allowance: u32,
}

fn text<'a>(c: &Cell, letters: &'a [u8]) -> &'a [u8] {
    &letters[c.label_start as usize..][..c.label_len as usize]
}

/// Only for labels inside the label bytes.
pub fn content(table: &[Cell], letters: &[u8], allowance: u32) -> Content {
    let cells = table.iter().map(|c| (c.parent, c.kind, c.width, c.depth, c.rank, text(c, letters).to_vec())).collect();
    Content { cells, allowance }
}

/// The old form where every width fits (E7) and every rank is 0 (E13).
pub fn clean_form(table: &[Cell]) -> Form {
    if table.iter().all(|c| c.width <= Form::Old.max_width() && c.rank == 0) {
        Form::Old
    } else {
        Form::Wide
    }
}

fn put_two(out: &mut [u8], at: usize, value: usize) {
    out[at] = (value % 256) as u8;
    out[at + 1] = (value / 256) as u8;
}

/// Copy: the length of the clean copy, which is written to the first bytes of the output.
pub fn copy(table: &[Cell], letters: &[u8], allowance: u32, out: &mut [u8]) -> Result<usize, Refusal> {
    if out.len() < COPY {
        return refuse(1, 0);
    }
    if table.is_empty() || table.len() > MAX_CELLS {
        return refuse(4, 0);
    }
    ask_letters(letters)?;
    for (i, c) in table.iter().enumerate() {
        ask_record(i, c, MAX_WIDTH)?;
        ask_label(i, c, letters.len())?;
    }
    ask_tree(table)?;
    ask_allowance(allowance)?;
    let form = clean_form(table);
    let begin: usize = table.iter().map(|c| c.label_len as usize).sum();
    let end = begin + form.size() * table.len();
    // Each byte by its own place: labels before the records, and both from the last cell to the first.
    let mut start = begin;
    for (i, c) in table.iter().enumerate().rev() {
        start -= c.label_len as usize;
        out[start..start + c.label_len as usize].copy_from_slice(text(c, letters));
        let at = begin + form.size() * i;
        put_two(out, at, c.parent as usize);
        out[at + 2] = c.kind;
        match form {
            Form::Old => {
                out[at + 3] = c.width as u8;
                out[at + 4] = c.depth;
                out[at + 5] = c.label_len;
                put_two(out, at + 6, start);
            }
            Form::Wide => {
                out[at + 3] = c.depth;
                put_two(out, at + 4, c.width as usize);
                out[at + 6] = c.label_len;
                out[at + 7] = c.rank;
                put_two(out, at + 8, start);
            }
        }
    }
    put_two(out, end, begin);
    put_two(out, end + 2, table.len());
    put_two(out, end + 4, allowance as usize);
    out[end + 6..end + 8].copy_from_slice(&form.mark());
    Ok(end + 8)
}
