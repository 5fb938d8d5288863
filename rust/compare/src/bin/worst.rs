//! Check against Layout on plans whose stems are long: chains in which the appointed child is a leaf and another child goes deep.
use bindings::{Record, Verdict};
use compare::plain;
use std::hint::black_box;
use std::time::Instant;

fn best(mut f: impl FnMut()) -> f64 {
    (0..400).map(|_| { let t = Instant::now(); (0..20).for_each(|_| f()); t.elapsed().as_nanos() as f64 / 20.0 }).fold(f64::MAX, f64::min)
}

fn main() {
    println!("| chains | levels | D | cells | rows | Layout ns | Check ns | Check/Layout | Rust Check ns |\n|---|---|---|---|---|---|---|---|---|");
    for (chains, levels, depth, allowance) in [(4, 31, 7, 10), (4, 31, 7, 65_535), (8, 15, 15, 10), (12, 10, 15, 10), (1, 31, 7, 10), (16, 7, 15, 10)] {
        let mut t = vec![Record { parent: 65_535, kind: 2, width: 4, depth, ..Record::default() }];
        for _ in 0..chains {
            let mut parent = 0;
            for level in 1..=levels {
                let me = t.len();
                if me >= 254 { break; }
                let last = level == levels;
                t.push(Record { parent, kind: if last { 1 } else { 2 }, width: 4, depth, ..Record::default() });
                if !last {
                    parent = me as u16;
                }
                if level > 1 || last { continue; }
            }
            // the leaves, each after the chain cell of its parent: the second of two, and so the appointed one
        }
        let n = t.len();
        for c in 1..n {
            if t[c].kind == 2 && t.len() < 256 {
                t.push(Record { parent: c as u16, kind: 1, width: 4, depth: 1, ..Record::default() });
            }
        }
        let has = |t: &Vec<Record>, c: usize| t.iter().any(|r| r.parent as usize == c);
        for c in 0..t.len() { if t[c].kind == 2 && !has(&t, c) { t[c].kind = 1; } }
        let (mut scratch, mut p) = (vec![0; 16_384], vec![0; 2 * t.len()]);
        let sheet = match bindings::layout(&t, allowance, &mut scratch, &mut p) { Ok(s) => s, Err(e) => { println!("refused {e:?}"); continue } };
        assert_eq!(bindings::check(&t, &p, allowance), Ok(Verdict::Kept(sheet)));
        let q = p.clone();
        let l = best(|| { let _ = black_box(bindings::layout(black_box(&t), allowance, &mut scratch, &mut p)); });
        let c = best(|| { let _ = black_box(bindings::check(black_box(&t), &q, allowance)); });
        let r = best(|| { let _ = black_box(plain::check(black_box(&t), &q, allowance)); });
        println!("| {chains} | {levels} | {depth} | {} | {} | {l:.0} | {c:.0} | {:.2} | {r:.0} |", t.len(), sheet.rows, c / l);
    }
}
