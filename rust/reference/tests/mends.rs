//! Mending (document 02, E11).

use reference::generate::{any_table, cramp, file, fit, labels};
use reference::rng::Rng;
use reference::*;

const SEED: u64 = 0x5345_4154_000B;

fn plan(form: Form, labels: &[u8], cells: &[Cell]) -> Vec<u8> {
    file(form, labels, cells, 3)
}

fn told(file: &[u8]) -> Result<String, (u32, u32)> {
    let (mut out, mut text) = (vec![1; MENDED], vec![2; LINES]);
    match mend(file, &mut out, &mut text) {
        Ok((length, lines)) => {
            assert_eq!(&out[..length], mended(file).0);
            Ok(String::from_utf8(text[..lines].to_vec()).unwrap())
        }
        Err(r) => Err((r.number, r.cell)),
    }
}

const ROOT_CELL: Cell = Cell { parent: ROOT, kind: 2, rank: 0, width: 9, depth: 1, label_len: 3, label_start: 0 };
const STEP: Cell = Cell { parent: 0, kind: 1, rank: 0, width: 9, depth: 1, label_len: 3, label_start: 0 };

#[test]
fn cases() {
    for form in FORMS {
        let with = |c: Cell| plan(form, b"abc", &[ROOT_CELL, c]);
        assert_eq!(told(&with(STEP)), Ok("".into()));
        assert_eq!(told(&with(Cell { width: 4, ..STEP })), Ok("1 4 1 5 1\n".into()));
        assert_eq!(told(&with(Cell { width: 5, ..STEP })), Ok("".into()));
        assert_eq!(told(&with(Cell { depth: 0, ..STEP })), Ok("1 9 0 9 1\n".into()));
        assert_eq!(told(&with(Cell { width: 0, depth: 0, ..STEP })), Ok("1 0 0 5 1\n".into()));
        assert_eq!(told(&with(Cell { depth: 16, ..STEP })), Err((8, 1)));
        assert_eq!(told(&with(Cell { depth: 16, width: 4, ..STEP })), Err((8, 1)));
        assert_eq!(told(&with(Cell { kind: 6, width: 0, ..STEP })), Err((7, 1)));
        assert_eq!(told(&with(Cell { label_len: 41, width: 0, ..STEP })), Err((8, 1)));
        assert_eq!(told(&with(Cell { label_start: 1, width: 0, ..STEP })), Err((9, 1)));
    }
    // A choice has a border of 4.
    let choice = [Cell { kind: 4, width: 6, ..ROOT_CELL }, STEP, Cell { depth: 0, width: 4, ..STEP }];
    assert_eq!(told(&plan(Form::Old, b"abc", &choice)), Ok("0 6 1 7 1\n2 4 0 5 1\n".into()));
}

/// Mended, and then too many rows.
#[test]
fn too_many_rows() {
    let chain: Vec<Cell> = (0..17u16)
        .map(|i| Cell {
            parent: if i == 0 { ROOT } else { i - 1 },
            kind: if i == 16 { 1 } else { 2 },
            rank: 0,
            width: 9,
            depth: if i == 16 { 0 } else { 15 },
            label_len: 0,
            label_start: 0,
        })
        .collect();
    assert_eq!(told(&plan(Form::Old, b"", &chain)), Err((13, 16)));
}

/// An accepted file is its own; only bytes of boxes change; twice is once; a mended file that is accepted alters no cell more than any accepted one must.
#[test]
fn many() {
    let mut accepted = 0;
    for number in 0..4_000 {
        let mut rng = Rng::new(SEED, number);
        let n = rng.between(1, 30) as usize;
        let mut cells = any_table(&mut rng, n);
        let form = rng.pick(&FORMS);
        fit(form, &mut cells);
        let text = labels(&mut rng, &mut cells);
        let whole = plan(form, &text, &cells);
        assert_eq!(mended(&whole), (whole.clone(), vec![]));
        let mut tight = cells.clone();
        cramp(&mut rng, &mut tight);
        let f = plan(form, &text, &tight);
        let (g, all) = mended(&f);
        assert_eq!(mended(&g), (g.clone(), vec![]));
        // The whole plan differs from the cramped one in widths and depths alone, unless a kind or a label was changed too.
        let boxes_only = cells.iter().zip(&tight).all(|(a, b)| Cell { width: b.width, depth: b.depth, ..*a } == *b);
        if boxes_only && told(&f).is_ok() {
            accepted += 1;
            for a in all {
                assert_ne!((cells[a.cell].width, cells[a.cell].depth), a.old);
            }
        }
    }
    assert!(accepted > 1_000);
}
