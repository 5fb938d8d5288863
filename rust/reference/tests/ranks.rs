//! A true rank (document 02, E13): brothers by rank, then by file order.

use reference::generate::{allowance, any_table, file};
use reference::rng::Rng;
use reference::*;

const SEED: u64 = 0x5345_4154_000D;

/// D = 1, empty labels; sons or not makes run or step.
fn table(fathers: &[u16], widths: &[u16], ranks: &[u8]) -> Vec<Cell> {
    (0..widths.len())
        .map(|i| Cell {
            parent: if i == 0 { ROOT } else { fathers[i - 1] },
            kind: if fathers.contains(&(i as u16)) { 2 } else { 1 },
            rank: ranks[i],
            width: widths[i],
            depth: 1,
            ..Cell::default()
        })
        .collect()
}

fn xs(t: &[Cell], allowance: u32) -> Vec<i32> {
    let mut p = vec![0; 2 * t.len()];
    let m = layout(t, allowance, &mut p, &mut vec![0; SCRATCH]).unwrap();
    assert_eq!(check(t, &p, allowance), Ok(Verdict::Kept(m)));
    p.into_iter().step_by(2).collect()
}

/// Worked sheet B with its steps in both orders, under a run and under a choice.
#[test]
fn two_brothers() {
    let b = |ranks: [u8; 3]| table(&[0, 0], &[4, 3, 5], &ranks);
    for ranks in [[0, 0, 0], [0, 1, 1], [0, 0, 1], [7, 254, 255], [255, 9, 9]] {
        assert_eq!(xs(&b(ranks), 0), [0, -4, 0]);
    }
    for ranks in [[0, 1, 0], [0, 255, 254], [9, 2, 1]] {
        assert_eq!(xs(&b(ranks), 0), [0, 0, -6]);
    }
    let choice = |ranks: [u8; 3]| {
        let mut t = b(ranks);
        t[0].kind = 4;
        t
    };
    assert_eq!(xs(&choice([0, 0, 0]), 0), [0, 0, 4]);
    assert_eq!(xs(&choice([0, 1, 0]), 0), [0, 6, 0]);
}

/// Rank first, then the file's order: brothers 4, 2, 1, 3 from the left, with 1 the middle one.
#[test]
fn ties() {
    assert_eq!(xs(&table(&[0, 0, 0, 0], &[2, 1, 2, 3, 4], &[0, 5, 3, 5, 2]), 0), [0, 0, -3, 2, -8]);
}

/// The verdict goes by the order of rank, and names cells by their numbers.
#[test]
fn verdict() {
    let t = table(&[0, 0], &[4, 3, 5], &[0, 1, 0]);
    let broken = |rule, a, b| Ok(Verdict::Broken { rule, a, b });
    assert_eq!(check(&t, &[0, 0, 0, 2, -6, 2], 0), Ok(Verdict::Kept(Measure { width: 10, rows: 4 })));
    assert_eq!(check(&t, &[0, 0, 0, 2, -5, 2], 0), broken(3, 2, 1));
    // What the file's order would keep.
    assert_eq!(check(&t, &[0, 0, -4, 2, 0, 2], 0), broken(2, 0, 1));
    // S5 of a pair whose earlier cell has the greater number: E with its sons' order turned.
    let e = table(&[0, 0, 1, 1], &[2, 2, 6, 3, 2], &[0, 1, 0, 0, 0]);
    assert_eq!(xs(&e, 4), [0, 0, -7, -4, 0]);
    assert_eq!(check(&e, &[0, 0, 0, 2, -7, 2, -4, 4, 0, 4], 0), broken(5, 2, 3));
}

/// A table with its brothers' numbers exchanged so that the file's order is the order of rank gives the same sheet.
#[test]
fn as_if_written_in_that_order() {
    for number in 0..2_000 {
        let mut rng = Rng::new(SEED, number);
        let n = rng.between(1, 40) as usize;
        let t = any_table(&mut rng, n);
        let a = allowance(&mut rng);
        // Each cell's sons one after another, by rank: cell k of the new table is `order[k]` of the old one.
        let mut order = vec![0];
        let mut done = 0;
        while done < order.len() {
            let mut sons: Vec<usize> = (1..t.len()).filter(|&c| t[c].parent as usize == order[done]).collect();
            sons.sort_by_key(|&c| t[c].rank);
            order.extend(sons);
            done += 1;
        }
        let place = |old: u16| if old == ROOT { ROOT } else { order.iter().position(|&c| c == old as usize).unwrap() as u16 };
        let written: Vec<Cell> = order.iter().map(|&c| Cell { parent: place(t[c].parent), rank: 0, ..t[c] }).collect();
        let (ranked, plain) = (xs(&t, a), xs(&written, a));
        assert_eq!(order.iter().map(|&c| ranked[c]).collect::<Vec<_>>(), plain, "number {number}");
    }
}

/// The wide form keeps the rank, and the old form has none.
#[test]
fn printed_with_a_rank() {
    let mut t = table(&[0, 0], &[4, 3, 5], &[3, 9, 0]);
    assert_eq!(listing(&file(Form::Wide, b"", &t, 0)), b"sheet 3 0 10 4\n0 0 0 4 1\n1 0 2 3 1\n2 -6 2 5 1\n");
    assert_eq!(listing(&file(Form::Old, b"", &t, 0)), b"sheet 3 0 9 4\n0 0 0 4 1\n1 -4 2 3 1\n2 0 2 5 1\n");
    let mut read_back = [Cell::default(); MAX_CELLS];
    read(&file(Form::Wide, b"", &t, 0), &mut read_back).unwrap();
    assert_eq!(read_back[..3], t);
    read(&file(Form::Old, b"", &t, 0), &mut read_back).unwrap();
    t.iter_mut().for_each(|c| c.rank = 0);
    assert_eq!(read_back[..3], t);
}
