//! Joining two plans (document 02, E10), by hand.

use reference::generate::{broad, chain};
use reference::*;

fn cell(parent: u16, kind: u8, width: u16, rank: u8) -> Cell {
    Cell { parent, kind, rank, width, depth: 1, label_len: width as u8, label_start: 7 * width }
}

/// Sheet B, its steps with these ranks, and a run over a step, its root with this rank.
fn pond(one: u8, two: u8) -> Vec<Cell> {
    vec![cell(ROOT, 2, 4, 0), cell(0, 1, 3, one), cell(0, 1, 5, two)]
}

fn rinse(rank: u8) -> Vec<Cell> {
    vec![cell(ROOT, 2, 2, rank), cell(0, 1, 6, 0)]
}

fn refused<T>(number: u32, cell: u32) -> Result<T, Refusal> {
    Err(Refusal { number, cell })
}

#[test]
fn the_table() {
    let mut table = vec![cell(9, 9, 9, 9); 258];
    assert_eq!(join(&pond(0, 0), &rinse(3), 0, &mut table), Ok(5));
    let expected = [cell(ROOT, 2, 4, 0), cell(0, 1, 3, 0), cell(0, 1, 5, 0), cell(0, 2, 2, 3), cell(3, 1, 6, 0)];
    assert_eq!(table[..5], expected);
    assert!(table[5..].iter().all(|c| *c == cell(9, 9, 9, 9)));
}

#[test]
fn the_root_stands_by_its_rank() {
    let sons = |one, two, rank| {
        let mut table = vec![Cell::default(); MAX_CELLS];
        let n = join(&pond(one, two), &rinse(rank), 0, &mut table).unwrap();
        Plan::new(&table[..n]).sons[0].clone()
    };
    assert_eq!(sons(0, 0, 0), [1, 2, 3]);
    assert_eq!(sons(0, 2, 2), [1, 2, 3]);
    assert_eq!(sons(0, 2, 1), [1, 3, 2]);
    assert_eq!(sons(1, 2, 0), [3, 1, 2]);
}

#[test]
fn refusals() {
    let ask = |first: &[Cell], second: &[Cell], named, room| {
        let mut table = vec![Cell::default(); room];
        let answer = join(first, second, named, &mut table);
        assert!(answer.is_ok() || table.iter().all(|c| *c == Cell::default()));
        answer
    };
    let mut bad = rinse(0);
    bad[1].width = 0;
    assert_eq!(ask(&pond(0, 0), &bad, 9, 255), refused(1, 0));
    assert_eq!(ask(&[], &bad, 9, 256), refused(4, 0));
    assert_eq!(ask(&bad, &[], 9, 256), refused(8, 1));
    assert_eq!(ask(&pond(0, 0), &bad, 9, 256), refused(8, 1));
    assert_eq!(ask(&broad(200), &broad(57), 200, 256), refused(16, 0));
    assert_eq!(ask(&broad(200), &broad(57), 12, 256), refused(4, 0));
    assert_eq!(ask(&broad(128), &broad(128), 7, 256), Ok(256));
    assert_eq!(ask(&pond(0, 0), &rinse(0), 2, 256), refused(11, 2));
    assert_eq!(ask(&broad(17), &rinse(0), 0, 256), refused(11, 0));
    assert_eq!(ask(&pond(0, 0), &rinse(0)[..1], 0, 256), refused(11, 3));
    assert_eq!(ask(&chain(20, 1), &chain(20, 1), 11, 256), Ok(40));
    assert_eq!(ask(&chain(20, 1), &chain(20, 1), 12, 256), refused(12, 39));
    assert_eq!(ask(&chain(9, 15), &chain(9, 15), 6, 256), Ok(18));
    assert_eq!(ask(&chain(9, 15), &chain(9, 15), 7, 256), refused(13, 17));
}
