//! The printed listing of a file, and List, which writes it into a lent output.

use crate::layout::{layout, SCRATCH};
use crate::plan::{refuse, Cell, Refusal, MAX_CELLS};
use crate::plan_file::{label, read};

/// The bytes that an output must have, whatever the file.
pub const LISTING: usize = 17_408;

/// List: the listing into the first bytes of the output; its length. A file that is refused has a listing too.
pub fn list(file: &[u8], out: &mut [u8]) -> Result<usize, Refusal> {
    if out.len() < LISTING {
        return refuse(1, 0);
    }
    let text = listing(file);
    out[..text.len()].copy_from_slice(&text);
    Ok(text.len())
}

pub fn listing(file: &[u8]) -> Vec<u8> {
    let mut table = [Cell::default(); MAX_CELLS];
    let (n, allowance) = match read(file, &mut table) {
        Ok(found) => found,
        Err(r) => return format!("refused {} {}\n", r.number, r.cell).into_bytes(),
    };
    let n = n as usize;
    let mut positions = vec![0; 2 * n];
    let m = match layout(&table[..n], allowance, &mut positions, &mut vec![0; SCRATCH]) {
        Ok(m) => m,
        Err(r) => return format!("refused {} {}\n", r.number, r.cell).into_bytes(),
    };
    let mut out = format!("sheet {} {} {} {}\n", n, allowance, m.width, m.rows).into_bytes();
    for c in 0..n {
        let (x, y) = (positions[2 * c], positions[2 * c + 1]);
        out.extend(format!("{} {} {} {} {}", c, x, y, table[c].width, table[c].depth).bytes());
        let text = label(file, c);
        if !text.is_empty() {
            out.push(b' ');
            out.extend(text);
        }
        out.push(b'\n');
    }
    out
}
