//! The quick test passes exactly where the search finds nothing, on seeded sheets that are ours, spread out, or disturbed.
use bindings::Record;
use compare::plain;
use reference::generate::{table, Shape, Sizes};
use reference::rng::Rng;

fn main() {
    let (mut kept, mut broken, mut ours) = (0u64, [0u64; 6], 0u64);
    for seed in 0..400_000u64 {
        let mut rng = Rng::new(seed, 77);
        let shape = [Shape::Bushy, Shape::Chain, Shape::Deep, Shape::Wide][(rng.next() % 4) as usize];
        let n = 1 + (rng.next() % 24) as usize;
        let sizes = Sizes { max_width: 1 + (rng.next() % 12) as i64, max_depth: 3 };
        let mut cells = table(&mut rng, shape, n, &sizes);
        if rng.next() % 2 == 0 { cells.iter_mut().for_each(|c| c.rank = (rng.next() % 3) as u8); }
        let records: Vec<Record> = cells.iter().map(|c| Record { parent: c.parent, kind: c.kind, rank: c.rank, width: c.width, depth: c.depth, label_length: 0, label_start: 0 }).collect();
        let n = records.len();
        let allowance = [0, 1, 3, 10, 40, 65_535][(rng.next() % 6) as usize];
        let (mut scratch, mut p) = (vec![0; 16_384], vec![0; 2 * n]);
        if plain::layout(&records, allowance, &mut scratch, &mut p).is_err() { continue; }
        let within = |u: usize, mut a: usize| loop { if a == u { return true; } if a == 0 { return false; } a = records[a].parent as usize; };
        let times = rng.next() % 4;
        for _ in 0..times {
            let c = (rng.next() % n as u64) as usize;
            let d = (rng.next() % 7) as i32 - 3;
            match rng.next() % 8 {
                0 => p[2 * c] += d,
                1 => p[2 * c + 1] += d,
                _ => for a in 0..n { if within(c, a) { p[2 * a] += d; } },
            }
        }
        let v = plain::look(&records, &p);
        let found = plain::search(&v[..n], allowance as i32);
        let q = plain::decided(&v[..n], allowance as i32);
        assert_eq!(q, found.is_none(), "seed {seed}: {found:?}");
        match found { None => { kept += 1; if times > 0 { ours += 1; } }, Some(bindings::Verdict::Broken { rule, .. }) => broken[rule as usize] += 1, _ => () }
    }
    println!("kept {kept} (disturbed ones among them {ours}), broken by rule {broken:?}");
}
