//! The plain Check, which the engine's speed is measured against: its sweep decides as its search finds, and its verdict is the reference's.

use compare::{plain, records};
use reference::generate as make;
use reference::rng::Rng;
use std::collections::BTreeSet;

const SEED: u64 = 0x5357_4545_5001;

#[test]
fn the_sweep_passes_exactly_where_the_search_finds_nothing() {
    let mut seen = BTreeSet::new();
    for number in 0..16_000 {
        let mut rng = Rng::new(SEED, number);
        let n = rng.between(1, 24) as usize;
        // Half of the plans have stems that hang, which any others hardly ever come near.
        let cells = if rng.once_in(2) { make::facing(&mut rng) } else { make::any_table(&mut rng, n) };
        let allowance = make::allowance(&mut rng);
        let mut p = if rng.once_in(4) { make::foreign(&mut rng, &cells, allowance) } else { make::kept(&mut rng, &cells, allowance) };
        for _ in 0..rng.index(4) {
            p = make::one_off(&mut rng, &cells, &p).0;
        }
        let table = records(&cells);
        let verdict = plain::check(&table, &p, allowance);
        let wanted = reference::check(&cells, &p, allowance);
        match (verdict, wanted) {
            (Ok(bindings::Verdict::Kept(s)), Ok(reference::Verdict::Kept(m))) => assert_eq!((s.width, s.rows), (m.width, m.rows), "number {number}"),
            (Ok(bindings::Verdict::Broken { rule, a, b }), Ok(reference::Verdict::Broken { rule: r, a: c, b: d })) => {
                assert_eq!((rule as u32, a as u32, b as u32), (r, c, d), "number {number}")
            }
            (Err(r), Err(s)) => {
                assert_eq!((r.number as u32, r.cell as u32), (s.number, s.cell), "number {number}");
                continue;
            }
            other => panic!("number {number}: {other:?}"),
        }
        let views = plain::look(&table, &p);
        let views = &views[..table.len()];
        let found = plain::search(views, allowance as i32);
        assert_eq!(plain::decided(views, allowance as i32), found.is_none(), "number {number}: {found:?}");
        seen.insert(match found {
            Some(bindings::Verdict::Broken { rule, .. }) => rule,
            _ => 0,
        });
    }
    assert_eq!(seen, BTreeSet::from([0, 1, 2, 3, 4, 5]), "kept, and each rule broken");
}
