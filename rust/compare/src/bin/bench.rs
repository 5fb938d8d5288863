//! The engine's time for each call against the same algorithm in plain Rust, in one run: the least of
//! many short batches of each, taken in turns, so that a busy machine slows both alike.
//!
//!     bench                          the calls
//!     bench check                    Check alone
//!     bench mark                     Mark alone
//!     bench PLAN PROGRAM...          programs that print a plan's listing, such as `sheet`: microseconds a run

use bindings::{Mark, Record, Sheet, Step, Verdict};
use compare::{plain, records};
use reference::generate::{file, labels, stems, table, Shape, Sizes};
use reference::rng::Rng;
use reference::{Cell, Form, Plan};
use std::fs::File;
use std::hint::black_box;
use std::process::Command;
use std::time::Instant;

const SEED: u64 = 20_261_115;
const BATCHES: usize = 240;
const RUNS: usize = 2_000;
const SHAPES: [Shape; 4] = [Shape::Bushy, Shape::Chain, Shape::Deep, Shape::Wide];
const COUNTS: [usize; 3] = [16, 64, 256];

/// So many calls in one go: the time of one, in nanoseconds.
fn batch(mut call: impl FnMut()) -> impl FnMut(usize) -> f64 {
    move |calls| {
        let began = Instant::now();
        (0..calls).for_each(|_| call());
        began.elapsed().as_nanos() as f64 / calls as f64
    }
}

/// The least time of one call of each, in nanoseconds: batches of each, in turns.
fn least<const N: usize>(mut batches: [&mut dyn FnMut(usize) -> f64; N]) -> [f64; N] {
    let calls = batches.each_mut().map(|b| (400_000.0 / b(1).max(50.0)).clamp(4.0, 4_000.0) as usize);
    let mut best = [f64::MAX; N];
    for _ in 0..BATCHES {
        for k in 0..N {
            best[k] = best[k].min(batches[k](calls[k]));
        }
    }
    best
}

/// The engine's least time and plain Rust's.
fn race(engine: impl FnMut(), rust: impl FnMut()) -> (f64, f64) {
    let [engine, rust] = least([&mut batch(engine), &mut batch(rust)]);
    (engine, rust)
}

/// One run of a program from its start to its end, in microseconds, with its output in a file.
fn run(program: &str, plan: &str, output: &str) -> f64 {
    let (input, output) = (File::open(plan).expect("a plan"), File::create(output).expect("a file to write"));
    let began = Instant::now();
    let status = Command::new(program).stdin(input).stdout(output).status().expect("the program runs");
    assert!(status.success());
    began.elapsed().as_nanos() as f64 / 1_000.0
}

/// The programs in turns: the least time of each, and the one that half of its runs did not pass.
fn programs(plan: &str, programs: &[String]) {
    let output = std::env::temp_dir().join(format!("listing.{}", std::process::id()));
    let output = output.to_str().expect("a path");
    let mut times = vec![Vec::new(); programs.len()];
    for _ in 0..RUNS {
        for (k, program) in programs.iter().enumerate() {
            times[k].push(run(program, plan, output));
        }
    }
    let _ = std::fs::remove_file(output);
    println!("| program | least µs | median µs |\n|---|---|---|");
    for (program, times) in programs.iter().zip(&mut times) {
        times.sort_by(f64::total_cmp);
        println!("| {program} | {:.0} | {:.0} |", times[0], times[RUNS / 2]);
    }
}

fn main() {
    let args: Vec<String> = std::env::args().skip(1).collect();
    match args.split_first() {
        Some((what, [])) if what == "check" => checks(),
        Some((what, [])) if what == "mark" => marks(),
        Some((plan, named)) => programs(plan, named),
        None => {
            calls();
            checks();
            drills();
            steps();
            marks();
        }
    }
}

/// One line of the table.
fn line(call: &str, shape: Shape, cells: usize, sheet: Sheet, (engine, rust): (f64, f64)) {
    println!("| {call} | {shape:?} | {cells} | {} | {engine:.0} | {rust:.0} | {:.2} |", sheet.rows, engine / rust);
}

/// A plan of a shape with at most n cells, the same with ranks, and the label bytes of both.
fn plans(shape: Shape, n: usize) -> (Vec<Cell>, Vec<Cell>, Vec<u8>) {
    let mut rng = Rng::new(SEED, n as u64);
    let mut cells = table(&mut rng, shape, n, &Sizes { max_width: 30, max_depth: 3 });
    let text = labels(&mut rng, &mut cells);
    let ranked = cells.iter().map(|c| Cell { rank: rng.next() as u8, ..*c }).collect();
    (cells, ranked, text)
}

fn calls() {
    println!("| call | shape | cells | rows | engine ns | Rust ns | ratio |\n|---|---|---|---|---|---|---|");
    for shape in SHAPES {
        for n in COUNTS {
            let (cells, ranked, text) = plans(shape, n);
            file_calls(shape, cells.len(), &file(Form::Old, &text, &cells, 10), "");
            table_calls(shape, &records(&cells), "");
            file_calls(shape, ranked.len(), &file(Form::Wide, &text, &ranked, 10), ", wide form");
            table_calls(shape, &records(&ranked), ", ranks");
        }
        wide_strips(shape);
    }
}

/// Layout; Check on its sheet, which is kept, and where the first pair that the search comes to is broken, and the last; these three in Rust; and the ratios.
const CHECKS: &str = "Layout ns | kept ns | first pair ns | last pair ns | Rust, kept ns | Rust, first ns | Rust, last ns | kept/Layout | kept/Rust | first/Rust | last/Rust";
const RULE: &str = "---|---|---|---|---|---|---|---|---|---|---";

fn checks() {
    println!("| Check of | cells | rows | last pair | {CHECKS} |\n|---|---|---|---|{RULE}|");
    let mut all = Vec::new();
    for shape in SHAPES {
        for n in COUNTS {
            let (cells, ranked, _) = plans(shape, n);
            all.push((n, check_line(&format!("{shape:?}"), &cells, 10)));
            all.push((n, check_line(&format!("{shape:?}, ranks"), &ranked, 10)));
        }
    }
    // The sweep's dearest plans. The last has its stems as long as there is room: low boxes above, and under them high ones.
    let uneven = [[1; 18].as_slice(), &[15; 13], &[11]].concat();
    for (name, chains, depths, allowance) in [
        ("1 chain of 31", 1, [7; 32].as_slice(), 10),
        ("4 chains of 31", 4, &[7; 32], 10),
        ("the same at 65,535", 4, &[7; 32], 65_535),
        ("8 chains of 15", 8, &[15; 16], 10),
        ("12 chains of 10", 12, &[15; 11], 10),
        ("16 chains of 7", 16, &[15; 8], 10),
        ("4 chains of 31, uneven", 4, &uneven, 10),
    ] {
        check_line(&format!("stems, {name}"), &stems(chains, depths), allowance);
    }
    println!("| shapes, least to greatest | {CHECKS} |\n|---|{RULE}|");
    for n in COUNTS {
        let of = |k: usize| all.iter().filter(move |row| row.0 == n).map(move |row| row.1[k]);
        let spans = (0..11).map(|k| {
            let digits = if k < 7 { 0 } else { 2 };
            format!("{:.digits$} to {:.digits$}", of(k).fold(f64::MAX, f64::min), of(k).fold(0.0, f64::max))
        });
        println!("| {n} | {} |", spans.collect::<Vec<_>>().join(" | "));
    }
}

/// One line of Check's table.
fn check_line(name: &str, cells: &[Cell], allowance: u32) -> [f64; 11] {
    let records = records(cells);
    let (mut scratch, mut positions) = (vec![0; 16_384], vec![0; 2 * cells.len()]);
    let sheet = bindings::layout(&records, allowance, &mut scratch, &mut positions).expect("a valid plan");
    let kept = positions.clone();
    let first = [[1].as_slice(), &kept[1..]].concat();
    let (last, pair) = broken_last(cells, &records);
    for (placed, allowance, verdict) in [
        (&kept, allowance, Verdict::Kept(sheet)),
        (&first, allowance, Verdict::Broken { rule: 1, a: 0, b: 0 }),
        (&last, 0, Verdict::Broken { rule: pair.0, a: pair.1, b: pair.2 }),
    ] {
        assert_eq!(bindings::check(&records, placed, allowance), Ok(verdict));
        assert_eq!(plain::check(&records, placed, allowance), Ok(verdict));
    }
    let engine = |placed, allowance| { let _ = black_box(bindings::check(black_box(&records), placed, allowance)); };
    let rust = |placed, allowance| { let _ = black_box(plain::check(black_box(&records), placed, allowance)); };
    let times = least([
        &mut batch(|| { let _ = black_box(bindings::layout(black_box(&records), allowance, &mut scratch, &mut positions)); }),
        &mut batch(|| engine(&kept, allowance)),
        &mut batch(|| engine(&first, allowance)),
        &mut batch(|| engine(&last, 0)),
        &mut batch(|| rust(&kept, allowance)),
        &mut batch(|| rust(&first, allowance)),
        &mut batch(|| rust(&last, 0)),
    ]);
    let [layout, ours @ .., r1, r2, r3] = times;
    let ratios = [ours[0] / layout, ours[0] / r1, ours[1] / r2, ours[2] / r3];
    let shown = times.map(|t| format!("{t:.0}")).join(" | ");
    println!("| {name} | {} | {} | S{} {} {} | {shown} | {} |", cells.len(), sheet.rows, pair.0, pair.1, pair.2, ratios.map(|r| format!("{r:.2}")).join(" | "));
    let mut row = [0.0; 11];
    row[..7].copy_from_slice(&times);
    row[7..].copy_from_slice(&ratios);
    row
}

/// Of our sheet at 0 with one branch moved by one, the one that is broken at the last pair: the greatest rule, then a, then b.
fn broken_last(cells: &[Cell], records: &[Record]) -> (Vec<i32>, (u8, u16, u16)) {
    let mut sheet = vec![0; 2 * cells.len()];
    bindings::layout(records, 0, &mut vec![0; 16_384], &mut sheet).expect("a valid plan");
    let plan = Plan::new(cells);
    let moved = (0..cells.len()).flat_map(|top| [(top, -1), (top, 1)]).filter_map(|(top, by)| {
        let mut placed = sheet.clone();
        plan.sub_diagram(top).into_iter().for_each(|c| placed[2 * c] += by);
        match bindings::check(records, &placed, 0) {
            Ok(Verdict::Broken { rule, a, b }) => Some((placed, (rule, a, b))),
            _ => None,
        }
    });
    moved.max_by_key(|(_, pair)| *pair).expect("a branch that may not be moved")
}

/// 4,096 records, each through so many levels: nested repeats over a chain of runs down to one step.
fn drills() {
    println!("| drill | levels | cells | bytes used | engine ns | Rust ns | ratio |\n|---|---|---|---|---|---|---|");
    for levels in [2, 8, 16, 31] {
        let cell = |parent: usize, kind| Record { parent: parent as u16, kind, width: 4, depth: 1, ..Record::default() };
        let mut table = vec![Record { parent: 65_535, ..cell(0, 3) }, cell(0, 3)];
        table.extend((1..levels).map(|c| cell(c, if c + 1 == levels { 1 } else { 2 })));
        let answers: Vec<u8> = [17].into_iter().chain([255; 16]).chain([16]).collect();
        let (mut list, mut other) = (vec![0; 4_096], vec![0; 4_096]);
        let drill = bindings::drill(&table, &answers, &mut list).expect("a drill");
        assert_eq!(Ok(drill), plain::drill(&table, &answers, &mut other));
        assert_eq!((list.clone(), drill.records), (other.clone(), 4_096));
        let (engine, rust) = race(
            || { let _ = black_box(bindings::drill(black_box(&table), &answers, &mut list)); },
            || { let _ = black_box(plain::drill(black_box(&table), &answers, &mut other)); },
        );
        println!("| 4,096 records | {levels} | {} | {} | {engine:.0} | {rust:.0} | {:.2} |", table.len(), drill.used, engine / rust);
    }
}

/// A sheet that is made a cell a step: the mean of a run's steps, and of that the guard's part, which is the looking at the numbers that it looks at.
fn steps() {
    println!("| steps | cells | rows | a step ns | of it the guard ns | Layout ns |\n|---|---|---|---|---|---|");
    for shape in SHAPES {
        for n in COUNTS {
            let records = records(&table(&mut Rng::new(SEED, n as u64), shape, n, &Sizes { max_width: 30, max_depth: 3 }));
            let (mut scratch, mut second, mut positions) = (vec![0; 16_384], vec![0; 1_024], vec![0; 2 * n]);
            let sheet = bindings::layout(&records, 10, &mut scratch, &mut positions).expect("a sheet");
            let looked_at = guarded(&records, &positions, &mut scratch, &mut second);
            let mut run = |steps: usize| {
                bindings::start(&records, 10, &mut scratch, &mut second).expect("a start");
                (0..steps).for_each(|_| { let _ = black_box(bindings::step(&records, 10, &mut scratch, &mut second, &mut positions)); });
            };
            let (whole, guard) = race(|| run(n), || looked_at.iter().for_each(|x| { black_box(x.iter().max()); }));
            let (start, _) = race(|| run(0), || ());
            let (layout, _) = race(|| { let _ = black_box(bindings::layout(&records, 10, &mut scratch, &mut positions)); }, || ());
            println!("| {shape:?} | {n} | {} | {:.0} | {:.0} | {layout:.0} |", sheet.rows, (whole - start) / n as f64, guard / n as f64);
        }
    }
}

/// Drawings of plans of 256 cells marked: one that gets full marks, one that is wide (our sheet at 0, marked at 65,535), one that is broken at the first pair that the search comes to and one at the last.
/// A drawing is marked together with the taking apart of its table; a second of them, and what two hundred take.
fn marks() {
    println!("| marks | cells | rows | full ns | wide ns | first pair ns | last pair ns | drawings a second, the slowest | 200 drawings, ms |\n|---|---|---|---|---|---|---|---|---|");
    for shape in SHAPES {
        let (cells, ..) = plans(shape, 256);
        let records = records(&cells);
        let (mut scratch, mut ours, mut at_0) = (vec![0; 16_384], vec![0; 2 * cells.len()], vec![0; 2 * cells.len()]);
        let sheet = bindings::layout(&records, 65_535, &mut scratch, &mut ours).expect("a valid plan");
        bindings::layout(&records, 0, &mut scratch, &mut at_0).expect("a valid plan");
        let first = [[1].as_slice(), &ours[1..]].concat();
        let (last, _) = broken_last(&cells, &records);
        assert_eq!(bindings::mark(&records, &ours, 65_535, &mut scratch), Ok(Mark::Full(sheet)));
        assert!(matches!(bindings::mark(&records, &at_0, 65_535, &mut scratch), Ok(Mark::Full(_) | Mark::Wide { .. })));
        assert!(matches!(bindings::mark(&records, &first, 65_535, &mut scratch), Ok(Mark::Broken { rule: 1, .. })));
        assert!(matches!(bindings::mark(&records, &last, 0, &mut scratch), Ok(Mark::Broken { .. })));
        let mut one = |drawing: &[i32], allowance| {
            let [ns] = least([&mut batch(|| { let _ = black_box(bindings::mark(black_box(&records), drawing, allowance, &mut scratch)); })]);
            ns
        };
        let times = [one(&ours, 65_535), one(&at_0, 65_535), one(&first, 65_535), one(&last, 0)];
        let slowest = times.iter().fold(0.0, |a: f64, &b| a.max(b));
        println!("| {shape:?} | {} | {} | {} | {:.0} | {:.1} |", cells.len(), sheet.rows, times.map(|t| format!("{t:.0}")).join(" | "), 1e9 / slowest, 200.0 * slowest / 1e6);
    }
}

/// The numbers that each step's guard looks at, of a whole run: the rows that its cell and the cells before it under the same parent fill.
fn guarded(records: &[Record], positions: &[i32], scratch: &mut [u32], second: &mut [u32]) -> Vec<Vec<u32>> {
    let mut written = positions.to_vec();
    bindings::start(records, 10, scratch, second).expect("a start");
    let mut out = Vec::new();
    for _ in 0..records.len() {
        let (before, marks) = (scratch.to_vec(), second.to_vec());
        let Ok(Step::Finished(cell)) = bindings::step(records, 10, scratch, second, &mut written) else { panic!("a step") };
        let c = cell as usize;
        if c > 0 {
            let rows = marks[4 * records[c].parent as usize].max(records[c].depth as u32 + 1 + marks[4 * c]) as usize;
            let first = positions[2 * c + 1] as usize;
            out.push(before[64 * first..64 * (first + rows)].to_vec());
        }
    }
    out
}

fn file_calls(shape: Shape, n: usize, bytes: &[u8], note: &str) {
    let (mut t, mut u) = (vec![Record::default(); 256], vec![Record::default(); 256]);
    assert_eq!(bindings::read(bytes, &mut t), plain::read(bytes, &mut u));
    assert_eq!(t, u);
    let (mut out, mut text) = (vec![0; 17_408], vec![0; 17_408]);
    assert_eq!(bindings::list(bytes, &mut out), plain::list(bytes, &mut text));
    assert_eq!(out, text);
    let sheet = plain::layout(&t[..n], 10, &mut vec![0; 16_384], &mut vec![0; 2 * n]).expect("a valid plan");

    line(&format!("Read{note}"), shape, n, sheet, race(
        || { let _ = black_box(bindings::read(black_box(bytes), &mut t)); },
        || { let _ = black_box(plain::read(black_box(bytes), &mut u)); },
    ));
    line(&format!("List{note}"), shape, n, sheet, race(
        || { let _ = black_box(bindings::list(black_box(bytes), &mut out)); },
        || { let _ = black_box(plain::list(black_box(bytes), &mut text)); },
    ));
}

fn table_calls(shape: Shape, records: &[Record], note: &str) {
    let n = records.len();
    let (mut scratch, mut positions) = (vec![0; 16_384], vec![0; 2 * n]);
    let sheet = bindings::layout(records, 10, &mut scratch, &mut positions).expect("a valid plan");
    let (mut same, mut other) = (positions.clone(), scratch.clone());
    assert_eq!(plain::layout(records, 10, &mut scratch, &mut same), Ok(sheet));
    assert_eq!(same, positions);
    assert_eq!(bindings::ends(records, &positions, n - 1), plain::ends(records, &positions, n - 1));
    assert_eq!(bindings::frame(records, sheet.width, &mut scratch), plain::frame(records, sheet.width, &mut scratch));

    strip_calls(shape, records, &positions, sheet, note);
    line(&format!("Layout{note}"), shape, n, sheet, race(
        || { let _ = black_box(bindings::layout(black_box(records), 10, &mut scratch, &mut positions)); },
        || { let _ = black_box(plain::layout(black_box(records), 10, &mut other, &mut same)); },
    ));
    line(&format!("Ends{note}"), shape, n, sheet, race(
        || { let _ = black_box(bindings::ends(black_box(records), &positions, n - 1)); },
        || { let _ = black_box(plain::ends(black_box(records), &positions, n - 1)); },
    ));
    line(&format!("Frame{note}"), shape, n, sheet, race(
        || { let _ = black_box(bindings::frame(black_box(records), sheet.width, &mut scratch)); },
        || { let _ = black_box(plain::frame(black_box(records), sheet.width, &mut other)); },
    ));
}

/// Strips of a sheet with boxes of up to 1,023.
fn wide_strips(shape: Shape) {
    let cells = table(&mut Rng::new(SEED, 1_023), shape, 256, &Sizes { max_width: 1_023, max_depth: 3 });
    let records = records(&cells);
    let mut positions = vec![0; 2 * records.len()];
    let sheet = bindings::layout(&records, 10, &mut vec![0; 16_384], &mut positions).expect("a valid plan");
    strip_calls(shape, &records, &positions, sheet, ", wide boxes");
}

/// Every row of a sheet, by masks, and with each point set for itself: the time of all rows together.
fn strip_calls(shape: Shape, records: &[Record], positions: &[i32], sheet: Sheet, note: &str) {
    type Strip = fn(&[Record], &[i32], u32, u32, &mut [u8]) -> Result<(), bindings::Refusal>;
    let length = sheet.width as usize / 8 + 1;
    let all = |strip: Strip, bytes: &mut [u8]| {
        for row in 0..sheet.rows {
            let _ = black_box(strip(black_box(records), positions, row, 0, bytes));
        }
    };
    let (mut ours, mut theirs) = (vec![0; length], vec![0; length]);
    for row in 0..sheet.rows {
        assert_eq!(bindings::strip(records, positions, row, 0, &mut ours), Ok(()));
        for other in [plain::strip as Strip, plain::strip_by_points as Strip] {
            assert_eq!(other(records, positions, row, 0, &mut theirs), Ok(()));
            assert_eq!(ours, theirs);
        }
    }
    for (what, other) in [("Strip, all rows", plain::strip as Strip), ("Strip, all rows, against points", plain::strip_by_points as Strip)] {
        let times = race(|| all(bindings::strip, &mut ours), || all(other, &mut theirs));
        line(&format!("{what}{note}"), shape, records.len(), sheet, times);
    }
}
