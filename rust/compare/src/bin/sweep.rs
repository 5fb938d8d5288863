//! Check's time against Layout's, in one run: a sheet that is kept; one that S1 breaks at the root, which costs the questions and the looking; the same in plain Rust; and a kept sheet by the search alone in plain Rust.
//!
//!     sweep [ALLOWANCE]
use bindings::{Record, Verdict};
use compare::plain;
use reference::generate::{labels, table, Shape, Sizes};
use reference::rng::Rng;
use std::hint::black_box;
use std::time::Instant;

const SEED: u64 = 20_261_115;

fn least(calls: &mut [&mut dyn FnMut()]) -> Vec<f64> {
    let mut best = vec![f64::MAX; calls.len()];
    let mut many = vec![0usize; calls.len()];
    for (i, c) in calls.iter_mut().enumerate() {
        let began = Instant::now();
        c();
        many[i] = (200_000 / began.elapsed().as_nanos().max(50)).clamp(4, 2_000) as usize;
    }
    for _ in 0..160 {
        for (i, c) in calls.iter_mut().enumerate() {
            let began = Instant::now();
            for _ in 0..many[i] { c(); }
            best[i] = best[i].min(began.elapsed().as_nanos() as f64 / many[i] as f64);
        }
    }
    best
}

fn main() {
    let allowance: u32 = std::env::args().nth(1).map_or(10, |s| s.parse().unwrap());
    println!("| shape | cells | rows | Layout ns | Check ns | Check, broken at once ns | Rust Check ns | Rust, broken at once ns | Rust, search alone ns | Check/Layout | Check/Rust |\n|---|---|---|---|---|---|---|---|---|---|---|");
    for ranks in [false, true] {
        for shape in [Shape::Bushy, Shape::Chain, Shape::Deep, Shape::Wide] {
            for n in [16, 64, 256] {
                let mut rng = Rng::new(SEED, n as u64);
                let mut cells = table(&mut rng, shape, n, &Sizes { max_width: 30, max_depth: 3 });
                let _ = labels(&mut rng, &mut cells);
                if ranks {
                    cells.iter_mut().for_each(|c| c.rank = rng.next() as u8);
                }
                let records: Vec<Record> = cells.iter().map(|c| Record { parent: c.parent, kind: c.kind, rank: c.rank, width: c.width, depth: c.depth, label_length: c.label_len, label_start: c.label_start }).collect();
                let n = records.len();
                let (mut scratch, mut positions) = (vec![0; 16_384], vec![0; 2 * n]);
                let sheet = bindings::layout(&records, allowance, &mut scratch, &mut positions).expect("a valid plan");
                let kept = positions.clone();
                let mut moved = kept.clone();
                moved[0] = 1;
                for p in [&kept, &moved] {
                    assert_eq!(bindings::check(&records, p, allowance), plain::check(&records, p, allowance));
                }
                assert_eq!(bindings::check(&records, &kept, allowance), Ok(Verdict::Kept(sheet)));
                let t = least(&mut [
                    &mut || { let _ = black_box(bindings::layout(black_box(&records), allowance, &mut scratch, &mut positions)); },
                    &mut || { let _ = black_box(bindings::check(black_box(&records), &kept, allowance)); },
                    &mut || { let _ = black_box(bindings::check(black_box(&records), &moved, allowance)); },
                    &mut || { let _ = black_box(plain::check(black_box(&records), &kept, allowance)); },
                    &mut || { let _ = black_box(plain::check(black_box(&records), &moved, allowance)); },
                    &mut || { let v = plain::look(black_box(&records), &kept); black_box(plain::search(&v[..n], allowance as i32)); },
                ]);
                println!("| {shape:?}{} | {n} | {} | {:.0} | {:.0} | {:.0} | {:.0} | {:.0} | {:.0} | {:.2} | {:.2} |", if ranks { ", ranks" } else { "" }, sheet.rows, t[0], t[1], t[2], t[3], t[4], t[5], t[1] / t[0], t[1] / t[3]);
            }
        }
    }
}
