//! The worked sheets of document 01, its edges, cases that they miss, and sheets with choices (document 02, E6).

use reference::*;

/// D = 1, empty labels; sons or not makes run or step.
fn table(fathers: &[u16], widths: &[u16]) -> Vec<Cell> {
    (0..widths.len())
        .map(|i| Cell {
            parent: if i == 0 { ROOT } else { fathers[i - 1] },
            kind: if fathers.contains(&(i as u16)) { 2 } else { 1 },
            width: widths[i],
            depth: 1,
            ..Cell::default()
        })
        .collect()
}

/// The same with these cells choices.
fn with_choices(choices: &[usize], fathers: &[u16], widths: &[u16]) -> Vec<Cell> {
    let mut t = table(fathers, widths);
    choices.iter().for_each(|&c| t[c].kind = 4);
    t
}

fn laid(t: &[Cell], allowance: u32) -> (Vec<i32>, Measure) {
    let mut positions = vec![7; 2 * t.len()];
    let m = layout(t, allowance, &mut positions, &mut vec![9; SCRATCH]).unwrap();
    assert_eq!(check(t, &positions, allowance), Ok(Verdict::Kept(m)));
    (positions, m)
}

fn xs(p: &[i32]) -> Vec<i32> {
    p.iter().copied().step_by(2).collect()
}

fn with_xs(p: &[i32], x: &[i32]) -> Vec<i32> {
    (0..p.len()).map(|k| if k % 2 == 0 { x[k / 2] } else { p[k] }).collect()
}

fn f() -> Vec<Cell> {
    table(&[0, 1, 1, 1, 4, 4, 5, 0, 8, 9, 10, 10], &[2, 2, 2, 9, 2, 2, 2, 2, 2, 2, 2, 8, 2])
}

#[test]
fn a_to_d() {
    let (p, m) = laid(&table(&[], &[5]), 0);
    assert_eq!((p, m), (vec![0, 0], Measure { width: 5, rows: 2 }));
    let (p, m) = laid(&table(&[0, 0], &[4, 3, 5]), 0);
    assert_eq!((p, m), (vec![0, 0, -4, 2, 0, 2], Measure { width: 9, rows: 4 }));
    let (p, m) = laid(&table(&[0, 0, 0], &[2, 3, 3, 3]), 0);
    assert_eq!((xs(&p), m.width), (vec![0, -4, 0, 4], 11));
    let (p, m) = laid(&table(&[0, 0, 0, 0], &[2, 2, 2, 2, 2]), 0);
    assert_eq!((xs(&p), m.width), (vec![0, -6, -3, 0, 3], 11));
}

#[test]
fn e_under_four_allowances() {
    let e = table(&[0, 0, 2, 2], &[2, 6, 2, 3, 2]);
    let widths: Vec<u32> = [0, 3, 4, 200].iter().map(|&a| laid(&e, a).1.width).collect();
    assert_eq!(widths, [13, 10, 9, 9]);
}

#[test]
fn e_in_frames() {
    let e = table(&[0, 0, 2, 2], &[2, 6, 2, 3, 2]);
    let answer = |squares| frame(&e, squares, &mut vec![9; SCRATCH]);
    let found: Vec<_> = [8, 9, 10, 12, 13, u32::MAX].iter().map(|&s| answer(s).unwrap()).collect();
    assert_eq!(found, [None, Some(4), Some(3), Some(1), Some(0), Some(0)]);
    assert_eq!(answer(0), Err(Refusal { number: 19, cell: 0 }));
}

#[test]
fn f_under_two_allowances() {
    let (p, m) = laid(&f(), 3);
    assert_eq!(xs(&p), [0, -20, -23, -20, -10, -13, -10, -13, 0, 0, 0, -9, 0]);
    assert_eq!(m, Measure { width: 25, rows: 10 });
    assert_eq!(laid(&f(), 0).1.width, 30);
}

#[test]
fn g_to_j() {
    let b = table(&[0, 0], &[4, 3, 5]);
    assert_eq!(check(&b, &[0, 0, -5, 2, 0, 2], 0), Ok(Verdict::Kept(Measure { width: 10, rows: 4 })));
    assert_eq!(check(&b, &[0, 0, -3, 2, 0, 2], 0), Ok(Verdict::Broken { rule: 3, a: 1, b: 2 }));
    let e = table(&[0, 0, 2, 2], &[2, 6, 2, 3, 2]);
    assert_eq!(check(&e, &laid(&e, 4).0, 0), Ok(Verdict::Broken { rule: 5, a: 1, b: 3 }));
    let mut p = laid(&f(), 3).0;
    for c in 1..=7 {
        p[2 * c] += 1;
    }
    assert_eq!(check(&f(), &p, 3), Ok(Verdict::Broken { rule: 4, a: 4, b: 11 }));
}

#[test]
fn marks() {
    let marked = |t: &[Cell], p: &[i32], allowance| mark(t, p, allowance, &mut vec![9; SCRATCH]);
    let b = table(&[0, 0], &[4, 3, 5]);
    let wide = Mark::Wide { measure: Measure { width: 10, rows: 4 }, least: 9 };
    assert_eq!(marked(&b, &[0, 0, -4, 2, 0, 2], 0), Ok(Mark::Full(Measure { width: 9, rows: 4 })));
    assert_eq!(marked(&b, &[0, 0, -5, 2, 0, 2], 0), Ok(wide));
    assert_eq!(marked(&b, &[0, 0, -3, 2, 0, 2], 0), Ok(Mark::Broken { rule: 3, a: 1, b: 2 }));
    let e = table(&[0, 0, 2, 2], &[2, 6, 2, 3, 2]);
    assert_eq!(marked(&e, &laid(&e, 4).0, 0), Ok(Mark::Broken { rule: 5, a: 1, b: 3 }));
    // The sheet for a smaller allowance is kept, and wider than it had to be.
    assert_eq!(marked(&e, &laid(&e, 0).0, 4), Ok(Mark::Wide { measure: Measure { width: 13, rows: 6 }, least: 9 }));
    let mut scratch = vec![9; SCRATCH];
    assert_eq!(mark(&b, &[0; 6], 0, &mut scratch[1..]), Err(Refusal { number: 1, cell: 0 }));
    assert_eq!(mark(&b, &[0; 5], 0, &mut scratch), Err(Refusal { number: 1, cell: 0 }));
    assert_eq!(mark(&b, &[0; 6], 65_536, &mut scratch), Err(Refusal { number: 14, cell: 0 }));
    assert!(scratch.iter().all(|&n| n == 9));
}

#[test]
fn each_half_of_s3_decides() {
    let (p, m) = laid(&table(&[0, 0, 1], &[2, 1, 1, 9]), 200);
    assert_eq!((xs(&p), m.width), (vec![0, -10, 0, -10], 12));
    let (p, m) = laid(&table(&[0, 0, 2, 2], &[2, 1, 1, 9, 1]), 200);
    assert_eq!((xs(&p), m.width), (vec![0, -11, 0, -10, 0], 13));
}

#[test]
fn s3_broken_in_both_halves() {
    let t = table(&[0, 0, 1, 2, 2], &[2, 1, 1, 9, 9, 1]);
    let p = with_xs(&laid(&t, 200).0, &[0, -3, 0, -3, -10, 0]);
    assert_eq!(check(&t, &p, 200), Ok(Verdict::Broken { rule: 3, a: 1, b: 4 }));
}

#[test]
fn choices_hang_from_the_first() {
    let n = with_choices(&[0], &[0, 0], &[4, 3, 5]);
    let (p, m) = laid(&n, 0);
    assert_eq!((xs(&p), m), (vec![0, 0, 4], Measure { width: 9, rows: 4 }));
    let (o, m) = laid(&with_choices(&[1], &[0, 0, 1, 1], &[2, 4, 3, 3, 5]), 0);
    assert_eq!((xs(&o), m), (vec![0, -10, 0, -10, -6], Measure { width: 13, rows: 6 }));
    let (o, m) = laid(&with_choices(&[2], &[0, 0, 2, 2], &[2, 3, 4, 3, 5]), 0);
    assert_eq!((xs(&o), m), (vec![0, -4, 0, 0, 4], Measure { width: 13, rows: 6 }));
    let (q, m) = laid(&with_choices(&[0], &[0, 0, 0, 2, 2, 3, 6, 6], &[4, 9, 2, 2, 3, 2, 2, 7, 2]), 200);
    assert_eq!((xs(&q), m), (vec![0, 0, 10, 19, 6, 10, 19, 11, 19], Measure { width: 21, rows: 8 }));
    // A run's placement under a choice, and a choice's under a run.
    assert_eq!(check(&n, &with_xs(&p, &[0, -4, 0]), 0), Ok(Verdict::Broken { rule: 2, a: 0, b: 1 }));
    let b = table(&[0, 0], &[4, 3, 5]);
    assert_eq!(check(&b, &p, 0), Ok(Verdict::Broken { rule: 2, a: 0, b: 2 }));
}

#[test]
fn the_level_comes_before_the_rows() {
    let mut t = table(&(0..32).collect::<Vec<u16>>(), &[2; 33]);
    t.iter_mut().for_each(|c| c.depth = 15);
    let none = Refusal { number: 12, cell: 32 };
    assert_eq!(check(&t, &[0; 66], 0), Err(none));
    assert_eq!(layout(&t, 0, &mut [0; 66], &mut vec![0; SCRATCH]), Err(none));
}

const FILE: &[u8; 38] = b"UpARun\xFF\xFF\x02\x04\x01\x02\0\0\0\0\x01\x03\x01\x01\x02\0\0\0\x01\x05\x01\x03\x03\0\x06\0\x03\0\0\0ST";

#[test]
fn printed() {
    let text = "sheet 3 0 9 4\n0 0 0 4 1 Up\n1 -4 2 3 1 A\n2 0 2 5 1 Run\n";
    assert_eq!(String::from_utf8(listing(FILE)).unwrap(), text);
    assert_eq!(listing(&FILE[1..]), b"refused 4 0\n");
    assert_eq!(listing(&FILE[..37]), b"refused 3 0\n");
    assert_eq!(listing(b""), b"refused 2 0\n");
}

#[test]
fn listed() {
    let mut out = vec![b'~'; LISTING + 1];
    for short in [0, LISTING - 1] {
        assert_eq!(list(FILE, &mut out[..short]), Err(Refusal { number: 1, cell: 0 }));
    }
    assert!(out.iter().all(|b| *b == b'~'));
    for (file, length) in [(&FILE[..15], 12), (&FILE[..], 54)] {
        assert_eq!(list(file, &mut out[..LISTING]), Ok(length));
        assert_eq!(out[..length], listing(file));
        assert!(out[length..].iter().all(|b| *b == b'~'));
    }
}

#[test]
fn labels_of_the_file() {
    let labels: Vec<&[u8]> = (0..3).map(|c| label(FILE, c)).collect();
    assert_eq!(labels, [&b"Up"[..], b"A", b"Run"]);
    assert_eq!(label_refusal(FILE, 2), Refusal { number: 0, cell: 0 });
    assert_eq!(label(FILE, 3), b"");
    assert_eq!(label_refusal(FILE, 3), Refusal { number: 16, cell: 0 });
}

#[test]
fn connector() {
    let t = table(&[0, 0], &[4, 3, 5]);
    let p = laid(&t, 0).0;
    assert_eq!(ends(&t, &p, 1), Ok(Ends { from: (2, 1), to: (-2, 2) }));
    assert_eq!(ends(&t, &p, 2), Ok(Ends { from: (2, 1), to: (2, 2) }));
    for no_son in [0, 3, 4000] {
        assert_eq!(ends(&t, &p, no_son), Err(Refusal { number: 16, cell: 0 }));
    }
}

/// Document 02, E3: the four widths that it gives, an even one and the greatest.
#[test]
fn half_squares() {
    for (width, half) in [(1, 0), (3, 2), (5, 2), (7, 4), (6, 3), (255, 128)] {
        let t = table(&[0], &[width, width]);
        for x in [10, 11] {
            assert_eq!(ends(&t, &[x, 0, -x, 2], 1), Ok(Ends { from: (x + half, 1), to: (half - x, 2) }));
        }
    }
}

#[test]
fn edges() {
    let mut all = vec![7; 600];
    let scratch = &mut vec![0; SCRATCH];
    // A run of 16 runs, 15 steps under each, but for one with 14: 256 cells.
    let mut fathers: Vec<u16> = vec![0; 16];
    fathers.extend((0..239).map(|i| 1 + i / 15));
    let t = table(&fathers, &[1; 256]);
    assert!(layout(&t, 0, &mut all, scratch).is_ok());
    let longer = table(&[fathers, vec![16]].concat(), &[1; 257]);
    assert_eq!(layout(&longer, 0, &mut all, scratch), Err(Refusal { number: 4, cell: 0 }));
    assert_eq!(layout(&[], 0, &mut all, scratch), Err(Refusal { number: 4, cell: 0 }));
    // Levels 31 and 32.
    let chain = |n: u16| table(&(0..n).collect::<Vec<u16>>(), &vec![1; n as usize + 1]);
    assert!(layout(&chain(31), 0, &mut all, scratch).is_ok());
    assert_eq!(layout(&chain(32), 0, &mut all, scratch), Err(Refusal { number: 12, cell: 32 }));
    // Rows 256 and 257.
    let mut tall = chain(15);
    tall.iter_mut().for_each(|c| c.depth = 15);
    assert_eq!(layout(&tall, 0, &mut all, scratch).unwrap().rows, 256);
    let mut taller = chain(16);
    taller.iter_mut().for_each(|c| c.depth = 15);
    taller[15].depth = 14;
    taller[16].depth = 1;
    assert_eq!(layout(&taller, 0, &mut all, scratch), Err(Refusal { number: 13, cell: 16 }));
    // The allowance, the scratch and the positions.
    let one = table(&[], &[5]);
    assert!(layout(&one, 65_535, &mut all, scratch).is_ok());
    assert_eq!(layout(&one, 65_536, &mut all, scratch), Err(Refusal { number: 14, cell: 0 }));
    assert_eq!(layout(&one, 0, &mut all, &mut scratch[1..]), Err(Refusal { number: 1, cell: 0 }));
    assert_eq!(layout(&one, 0, &mut all[..1], scratch), Err(Refusal { number: 1, cell: 0 }));
    assert_eq!(layout(&longer, 0, &mut all[..1], scratch), Err(Refusal { number: 4, cell: 0 }));
}
