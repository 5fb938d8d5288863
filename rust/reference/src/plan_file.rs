//! The plan file in its two forms: Read, Label and Label's refusal.

use crate::plan::{ask_record, ask_tree, border, refuse, Cell, Refusal, MAX_CELLS};

/// A form of the file, told by its mark: document 01's, and the one for wider boxes (document 02, E7).
#[derive(Clone, Copy, Debug, PartialEq, Eq)]
pub enum Form {
    Old,
    Wide,
}

pub const FORMS: [Form; 2] = [Form::Old, Form::Wide];

impl Form {
    pub fn mark(self) -> [u8; 2] {
        match self {
            Form::Old => [0x53, 0x54],
            Form::Wide => [0x53, 0x55],
        }
    }

    /// The form that a file's last two bytes say, if they are a mark.
    pub fn of(file: &[u8]) -> Option<Form> {
        FORMS.into_iter().find(|form| file.ends_with(&form.mark()))
    }

    /// The bytes of a record.
    pub fn size(self) -> usize {
        match self {
            Form::Old => 8,
            Form::Wide => 10,
        }
    }

    pub fn max_width(self) -> u16 {
        match self {
            Form::Old => 255,
            Form::Wide => 1_023,
        }
    }
}

struct Parsed {
    cells: Vec<Cell>,
    allowance: u32,
}

fn two(file: &[u8], at: usize) -> u16 {
    file[at] as u16 + 256 * file[at + 1] as u16
}

/// The record at a place. Byte 7 of a wide one is the rank (document 02, E13); an old one has rank 0.
pub fn record(file: &[u8], at: usize, form: Form) -> Cell {
    let (parent, kind) = (two(file, at), file[at + 2]);
    match form {
        Form::Old => Cell {
            parent,
            kind,
            rank: 0,
            width: file[at + 3] as u16,
            depth: file[at + 4],
            label_len: file[at + 5],
            label_start: two(file, at + 6),
        },
        Form::Wide => Cell {
            parent,
            kind,
            rank: file[at + 7],
            width: two(file, at + 4),
            depth: file[at + 3],
            label_len: file[at + 6],
            label_start: two(file, at + 8),
        },
    }
}

/// Question 5.
pub fn ask_letters(letters: &[u8]) -> Result<(), Refusal> {
    if letters.iter().any(|b| !(32..=126).contains(b)) {
        return refuse(5, 0);
    }
    Ok(())
}

/// Questions 9 and 10 of record number i, with so many label bytes.
pub fn ask_label(i: usize, c: &Cell, letters: usize) -> Result<(), Refusal> {
    if c.label_len > 40 || c.label_start as usize + c.label_len as usize > letters {
        return refuse(9, i);
    }
    if (c.width as u32) < c.label_len as u32 + border(c.kind).unwrap_or(0) {
        return refuse(10, i);
    }
    Ok(())
}

/// Questions 2 to 4 of a file: its form, the place where its records begin, and how many they are.
pub fn shape(file: &[u8]) -> Result<(Form, usize, usize), Refusal> {
    let len = file.len();
    if !(16..=16_384).contains(&len) {
        return refuse(2, 0);
    }
    let trailer = len - 8;
    let Some(form) = Form::of(file) else {
        return refuse(3, 0);
    };
    let begin = two(file, trailer) as usize;
    let n = two(file, trailer + 2) as usize;
    if n < 1 || n > MAX_CELLS || begin + form.size() * n + 8 != len {
        return refuse(4, 0);
    }
    Ok((form, begin, n))
}

/// Questions 2 to 14 of a file, in their order.
fn parse(file: &[u8]) -> Result<Parsed, Refusal> {
    let (form, begin, n) = shape(file)?;
    ask_letters(&file[..begin])?;
    let mut cells = Vec::new();
    for i in 0..n {
        let c = record(file, begin + form.size() * i, form);
        ask_record(i, &c, form.max_width())?;
        ask_label(i, &c, begin)?;
        cells.push(c);
    }
    ask_tree(&cells)?;
    // Question 14 cannot be answered "no": the file keeps the allowance in two bytes.
    Ok(Parsed { cells, allowance: two(file, file.len() - 4) as u32 })
}

/// Read: the records into the table; the number of cells and the allowance.
pub fn read(file: &[u8], table: &mut [Cell]) -> Result<(u32, u32), Refusal> {
    if table.len() < MAX_CELLS {
        return refuse(1, 0);
    }
    let parsed = parse(file)?;
    table[..parsed.cells.len()].copy_from_slice(&parsed.cells);
    Ok((parsed.cells.len() as u32, parsed.allowance))
}

fn labelled(file: &[u8], cell: usize) -> Result<(usize, usize), Refusal> {
    let parsed = parse(file)?;
    match parsed.cells.get(cell) {
        Some(c) => Ok((c.label_start as usize, c.label_len as usize)),
        None => refuse(16, 0),
    }
}

/// Label: that part of the file's own bytes; refused, the empty part at byte 0.
pub fn label(file: &[u8], cell: usize) -> &[u8] {
    match labelled(file, cell) {
        Ok((start, len)) => &file[start..start + len],
        Err(_) => &file[0..0],
    }
}

/// Label's refusal, or 0 and 0 where there is none.
pub fn label_refusal(file: &[u8], cell: usize) -> Refusal {
    match labelled(file, cell) {
        Ok(_) => Refusal { number: 0, cell: 0 },
        Err(r) => r,
    }
}

/// The number of cells that a file of at least 8 bytes says it has.
pub fn cells_said(file: &[u8]) -> usize {
    two(file, file.len() - 6) as usize
}
