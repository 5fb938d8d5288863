//! The clean copy (document 02, E4, E7, E13).

use reference::generate::{any_table, file, labels, rearrange};
use reference::rng::Rng;
use reference::*;

const SEED: u64 = 0x5345_4154_0004;

const PRINTED: &[u8; 38] = b"UpARun\xFF\xFF\x02\x04\x01\x02\0\0\0\0\x01\x03\x01\x01\x02\0\0\0\x01\x05\x01\x03\x03\0\x06\0\x03\0\0\0\x53\x54";

/// The label bytes of a file.
fn letters(file: &[u8]) -> &[u8] {
    let trailer = &file[file.len() - 8..];
    &file[..trailer[0] as usize + 256 * trailer[1] as usize]
}

/// The clean copy of a file that Read accepts.
fn cleaned(file: &[u8]) -> Vec<u8> {
    let mut table = [Cell::default(); MAX_CELLS];
    let (n, allowance) = read(file, &mut table).unwrap();
    copied(&table[..n as usize], letters(file), allowance)
}

fn copied(table: &[Cell], letters: &[u8], allowance: u32) -> Vec<u8> {
    let mut out = vec![0xA5; COPY];
    let length = copy(table, letters, allowance, &mut out).unwrap();
    assert!(out[length..].iter().all(|b| *b == 0xA5));
    out.truncate(length);
    out
}

fn said(file: &[u8]) -> Content {
    let mut table = [Cell::default(); MAX_CELLS];
    let (n, allowance) = read(file, &mut table).unwrap();
    content(&table[..n as usize], letters(file), allowance)
}

#[test]
fn the_printed_example_is_its_own() {
    assert_eq!(cleaned(PRINTED), PRINTED);
}

/// An unused byte, a shared label, empty labels first and last.
#[test]
fn labels_back_to_back() {
    let cell = |parent, kind, label_start, label_len| Cell { parent, kind, rank: 0, width: 9, depth: 1, label_len, label_start };
    let t = [cell(ROOT, 2, 3, 0), cell(0, 1, 1, 2), cell(0, 1, 1, 2), cell(0, 5, 0, 0)];
    let clean = copied(&t, b"xUp", 7);
    assert_eq!(letters(&clean), b"UpUp");
    let mut table = [Cell::default(); MAX_CELLS];
    assert_eq!(read(&clean, &mut table), Ok((4, 7)));
    assert_eq!(table[..4].iter().map(|c| c.label_start).collect::<Vec<_>>(), [0, 0, 2, 4]);
}

#[test]
fn the_form() {
    let one = Cell { parent: ROOT, kind: 1, width: 255, depth: 1, ..Cell::default() };
    let form = |c: Cell| Form::of(&copied(&[c], b"", 0)).unwrap();
    assert_eq!(form(one), Form::Old);
    assert_eq!(form(Cell { width: 256, ..one }), Form::Wide);
    assert_eq!(form(Cell { rank: 1, ..one }), Form::Wide);
    // A file of the wide form that does not need it comes out in the old one.
    let wide = file(Form::Wide, b"", &[one], 65_535);
    assert_eq!(cleaned(&wide), file(Form::Old, b"", &[one], 65_535));
}

#[test]
fn refused() {
    let one = Cell { parent: ROOT, kind: 1, width: 9, depth: 1, label_len: 2, label_start: 1, rank: 0 };
    let answer = |t: &[Cell], letters: &[u8], allowance, room| copy(t, letters, allowance, &mut vec![0; room]).map_err(|r| (r.number, r.cell));
    assert_eq!(answer(&[], b"\n", 65_536, COPY - 1), Err((1, 0)));
    assert_eq!(answer(&[], b"\n", 65_536, COPY), Err((4, 0)));
    assert_eq!(answer(&[one; 257], b"\n", 65_536, COPY), Err((4, 0)));
    assert_eq!(answer(&[one], b"abc\n", 65_536, COPY), Err((5, 0)));
    assert_eq!(answer(&[Cell { parent: 0, ..one }], b"ab", 65_536, COPY), Err((6, 0)));
    assert_eq!(answer(&[Cell { kind: 6, ..one }], b"ab", 65_536, COPY), Err((7, 0)));
    assert_eq!(answer(&[Cell { width: 1_024, ..one }], b"ab", 65_536, COPY), Err((8, 0)));
    assert_eq!(answer(&[one], b"ab", 65_536, COPY), Err((9, 0)));
    assert_eq!(answer(&[Cell { width: 3, ..one }], b"abc", 65_536, COPY), Err((10, 0)));
    assert_eq!(answer(&[Cell { kind: 2, ..one }], b"abc", 65_536, COPY), Err((11, 0)));
    assert_eq!(answer(&[one], b"abc", 65_536, COPY), Err((14, 0)));
    assert_eq!(answer(&[one], &[b'a'; 70_000], 65_535, COPY), Ok(2 + 8 + 8));
}

/// Read accepts a copy, with the same content; the same content gives the same copy; a copy is its own.
#[test]
fn copies_of_many() {
    for number in 0..2_000 {
        let mut rng = Rng::new(SEED, number);
        let n = rng.between(1, 40) as usize;
        let mut cells = any_table(&mut rng, n);
        let text = labels(&mut rng, &mut cells);
        let allowance = rng.next() as u16 as u32;
        let clean = copied(&cells, &text, allowance);
        assert_eq!(said(&clean), content(&cells, &text, allowance));
        assert_eq!(cleaned(&clean), clean);
        let mut other = cells.clone();
        let moved = rearrange(&mut rng, &text, &mut other);
        assert_eq!(content(&other, &moved, allowance), content(&cells, &text, allowance));
        assert_eq!(copied(&other, &moved, allowance), clean);
    }
}
