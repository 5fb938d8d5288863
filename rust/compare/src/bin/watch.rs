//! Prints each branch of a plan as it is finished, with its left and right reach: a line for each step, then the complete sheet's corners.
//!
//!     watch FILE

use bindings::{reach, read, start, step, Record, Refusal, Step};
use std::process::exit;

const CELLS: usize = 256;
const SCRATCH: usize = 16_384;
const SECOND: usize = 1_024;

fn refused(r: Refusal) -> ! {
    println!("refused {} {}", r.number, r.cell);
    exit(1)
}

fn main() {
    let Some(path) = std::env::args().nth(1) else {
        eprintln!("watch: no plan is named");
        exit(2)
    };
    let file = std::fs::read(&path).unwrap_or_else(|e| {
        eprintln!("watch: {path}: {e}");
        exit(2)
    });
    let mut table = [Record::default(); CELLS];
    let plan = read(&file, &mut table).unwrap_or_else(|r| refused(r));
    let (table, allowance) = (&table[..plan.count], plan.allowance as u32);
    let (mut scratch, mut second, mut positions) = (vec![0; SCRATCH], vec![0; SECOND], vec![0; 2 * plan.count]);
    start(table, allowance, &mut scratch, &mut second).unwrap_or_else(|r| refused(r));
    loop {
        match step(table, allowance, &mut scratch, &mut second, &mut positions).unwrap_or_else(|r| refused(r)) {
            Step::Finished(cell) => {
                let sides = reach(table, allowance, &scratch, &second, cell as usize).unwrap_or_else(|r| refused(r));
                println!("finished {cell} {} {}", sides.left, sides.right);
            }
            Step::Done => break,
        }
    }
    println!("done");
    for (cell, corner) in positions.chunks(2).enumerate() {
        println!("{cell} {} {}", corner[0], corner[1]);
    }
}
