//! Strips for the raster printer (document 02, E8).

use reference::generate::any_table;
use reference::rng::Rng;
use reference::*;

const SEED: u64 = 0x5345_4154_0008;

fn cell(parent: u16, kind: u8, width: u16, depth: u8) -> Cell {
    Cell { parent, kind, width, depth, ..Cell::default() }
}

fn bytes(table: &[Cell], positions: &[i32], row: u32, first: u32, length: usize) -> Vec<u8> {
    let mut bytes = vec![0x5a; length];
    assert_eq!(strip(table, positions, row, first, &mut bytes), Ok(()));
    bytes
}

/// A box of W 5 and D 2, wherever it stands; and one that begins above row 0.
#[test]
fn one_box() {
    let table = [cell(ROOT, 1, 5, 2)];
    for (x, y) in [(0, 0), (100, 0), (-100, 0)] {
        let rows: Vec<u8> = (0..4).map(|row| bytes(&table, &[x, y], row, 0, 1)[0]).collect();
        assert_eq!(rows, [0xfc, 0x84, 0xfc, 0]);
    }
    assert_eq!(bytes(&table, &[0, -1], 0, 0, 1), [0x84]);
    assert_eq!(bytes(&table, &[0, 5], 4, 0, 1), [0]);
}

/// Sheet B of document 01, from several columns.
#[test]
fn sheet_b() {
    let table = [cell(ROOT, 2, 4, 1), cell(0, 1, 3, 1), cell(0, 1, 5, 1)];
    let positions = [0, 0, -4, 2, 0, 2];
    for (row, first, expected) in [
        (0, 0, vec![0x0f, 0x80]),
        (0, 3, vec![0x7c, 0]),
        (0, 4, vec![0xf8]),
        (2, 0, vec![0xff, 0xc0]),
        (2, 9, vec![0x80]),
        (2, 10, vec![0]),
        (2, 0, vec![]),
        (2, u32::MAX, vec![0, 0]),
        (4, 0, vec![0, 0]),
    ] {
        assert_eq!(bytes(&table, &positions, row, first, expected.len()), expected, "row {row}, from {first}");
    }
}

/// Each boundary is printed, through the other box too.
#[test]
fn overlapping() {
    let table = [cell(ROOT, 5, 4, 3), cell(0, 1, 4, 3)];
    let rows: Vec<u8> = (0..5).map(|row| bytes(&table, &[7, 0, 9, 1], row, 0, 1)[0]).collect();
    assert_eq!(rows, [0xf8, 0xbe, 0xaa, 0xfa, 0x3e]);
}

/// Cut at any byte, the two strips join into the whole; refused, the bytes stay.
#[test]
fn cut_and_refused() {
    for number in 0..500 {
        let mut rng = Rng::new(SEED, number);
        let cells = rng.between(1, 12) as usize;
        let table = any_table(&mut rng, cells);
        let positions: Vec<i32> = (0..2 * table.len()).map(|k| rng.between(-40 * (k as i64 % 2 ^ 1), 40) as i32).collect();
        let (row, first) = (rng.index(40) as u32, rng.index(60) as u32);
        let whole = bytes(&table, &positions, row, first, 9);
        for cut in 0..=9 {
            let mut joined = bytes(&table, &positions, row, first, cut);
            joined.extend(bytes(&table, &positions, row, first + 8 * cut as u32, 9 - cut));
            assert_eq!(joined, whole);
        }
        let mut kept = [7; 3];
        assert_eq!(strip(&table, &positions[1..], row, first, &mut kept), Err(Refusal { number: 1, cell: 0 }));
        assert_eq!(kept, [7; 3]);
    }
}
