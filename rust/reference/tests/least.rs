//! Our sheet against all others: by search on small plans, by two methods on random ones.

use reference::generate::{allowance, any_table};
use reference::rng::Rng;
use reference::*;

const SEED: u64 = 0x5345_4154_0001;

/// The reaches of top's sub-diagram, left and right.
fn reaches(plan: &Plan, p: &[(i64, i64)], top: usize) -> (i64, i64) {
    let all = plan.sub_diagram(top);
    let least = all.iter().map(|&c| p[c].0).min().unwrap();
    let most = all.iter().map(|&c| p[c].0 + plan.cells[c].width as i64).max().unwrap();
    (p[top].0 - least, most - p[top].0)
}

/// Tries every placement that keeps S1 and S2 with each x at most `window` from the middle of our sheet; the number that is kept.
/// (A cell that its father appoints has its father's x, by S2; all others are free.)
fn search(t: &[Cell], allowance: u32, window: i64) -> usize {
    let plan = Plan::new(t);
    let n = t.len();
    let ours = place(&plan, &distances_by_paths(&plan, allowance as i64));
    let m = measure(&plan, &ours);
    let least: Vec<(i64, i64)> = (0..n).map(|c| reaches(&plan, &ours, c)).collect();
    let appointed = |c: usize| c > 0 && plan.appointed(plan.father[c].unwrap()) == Some(c);
    let free: Vec<usize> = (1..n).filter(|&c| !appointed(c)).collect();
    let middle = (ours.iter().map(|p| p.0).min().unwrap() + ours.iter().map(|p| p.0).max().unwrap()) / 2;
    let (first, last) = (middle - window, middle + window);
    let mut p: Vec<i32> = (0..n).flat_map(|c| [if c == 0 { 0 } else { first as i32 }, plan.row[c] as i32]).collect();
    let mut kept = 0;
    let mut ours_found = false;
    let mut narrowest = u32::MAX;
    loop {
        for c in (1..n).filter(|&c| appointed(c)) {
            p[2 * c] = p[2 * plan.father[c].unwrap()];
        }
        if let Ok(Verdict::Kept(found)) = check(t, &p, allowance) {
            kept += 1;
            let pairs: Vec<(i64, i64)> = (0..n).map(|c| (p[2 * c] as i64, p[2 * c + 1] as i64)).collect();
            ours_found |= pairs == ours;
            assert!(found.width >= m.width && found.rows == m.rows, "{t:?} {allowance} {p:?}");
            narrowest = narrowest.min(found.width);
            for c in 0..n {
                let r = reaches(&plan, &pairs, c);
                assert!(r.0 >= least[c].0 && r.1 >= least[c].1, "{t:?} {allowance} {p:?}");
            }
        }
        // The next placement, as a counter.
        let Some(i) = free.iter().position(|&c| (p[2 * c] as i64) < last) else { break };
        p[2 * free[i]] += 1;
        for &d in &free[..i] {
            p[2 * d] = first as i32;
        }
    }
    assert!(ours_found, "our sheet is outside the window: {t:?} {allowance}");
    // Full marks are for the narrowest of them.
    let drawn: Vec<i32> = ours.iter().flat_map(|&(x, y)| [x as i32, y as i32]).collect();
    assert_eq!(mark(t, &drawn, allowance, &mut vec![9; SCRATCH]), Ok(Mark::Full(Measure { width: narrowest, rows: m.rows })));
    kept
}

/// A kind that suits each cell's number of sons: of two or more, a run or a choice; and a rank, which brothers often share.
fn with_kinds(rng: &mut Rng, fathers: &[usize], widths: &[u16], depths: &[u8]) -> Vec<Cell> {
    (0..widths.len())
        .map(|i| Cell {
            parent: if i == 0 { ROOT } else { fathers[i - 1] as u16 },
            kind: match fathers.iter().filter(|&&f| f == i).count() {
                0 => 1,
                1 => 2,
                _ => rng.pick(&[2, 4]),
            },
            rank: rng.between(0, 2) as u8,
            width: widths[i],
            depth: depths[i],
            ..Cell::default()
        })
        .collect()
}

#[test]
fn nothing_kept_is_narrower() {
    let mut rng = Rng::new(SEED, 0);
    let (mut plans, mut kept) = (0, 0);
    // Every tree of 2 to 6 cells, with random sizes.
    for n in 2..=6usize {
        let trees: usize = (1..n).product();
        for tree in 0..trees {
            let mut rest = tree;
            let fathers: Vec<usize> = (1..n).map(|c| { let f = rest % c; rest /= c; f }).collect();
            let allowances: &[u32] = if n < 6 { &[0, 1, 2, 3, 200] } else { &[0, 2, 200] };
            for &allowance in allowances {
                let widths: Vec<u16> = (0..n).map(|_| rng.between(1, if n < 6 { 3 } else { 2 }) as u16).collect();
                let depths: Vec<u8> = (0..n).map(|_| rng.between(1, 3) as u8).collect();
                kept += search(&with_kinds(&mut rng, &fathers, &widths, &depths), allowance, if n < 6 { 10 } else { 9 });
                plans += 1;
            }
        }
    }
    println!("{plans} plans, {kept} placements kept, none narrower");
}

#[test]
fn two_methods_agree_and_the_rules_are_kept() {
    for number in 0..3_000 {
        let mut rng = Rng::new(SEED, 1 + number);
        let most = if number % 100 == 0 { 256 } else { 40 };
        let n = rng.between(1, most) as usize;
        let t = any_table(&mut rng, n);
        let a = allowance(&mut rng);
        let plan = Plan::new(&t);
        let by_paths = distances_by_paths(&plan, a as i64);
        assert_eq!(by_paths, distances_by_pairs(&plan, a as i64), "number {number}");
        let mut p = vec![0; 2 * t.len()];
        let m = layout(&t, a, &mut p, &mut vec![0; SCRATCH]).unwrap();
        assert_eq!(check(&t, &p, a), Ok(Verdict::Kept(m)), "number {number}");
    }
}
