//! Throws seeded random bytes at the library, or at the program `sheet`, until a time is over. Whatever
//! the bytes, a call gives a whole answer or a refusal, and a refusal leaves every lent buffer as it was.
//! Each buffer is an allocation of its own, of just its length: under valgrind (../run.sh) a read or a
//! write outside of one is seen.
//!
//!     fuzz library SECONDS SEED
//!     fuzz program SECONDS SEED COMMAND...

use bindings::{Mark, Outcome, Record, Verdict};
use compare::{plain, record};
use reference::generate as make;
use reference::rng::Rng;
use reference::FORMS;
use std::io::Write;
use std::process::{exit, Command, Stdio};
use std::time::{Duration, Instant};

const SCRATCH: usize = 16_384;
const LISTING: usize = 17_408;
const COPY: usize = 16_384;
const MENDED: usize = 16_384;
const LINES: usize = 6_144;
const SECOND: usize = 1_024;

fn fault(what: &str, seed: u64, number: u64) -> ! {
    println!("FAULT: seed {seed} input {number}: {what}");
    exit(1);
}

/// A copy in an allocation of just this length.
fn lent<T: Copy>(values: &[T]) -> Box<[T]> {
    values.into()
}

/// Random bytes; or a plan's file of either form, the forms mixed up now and then, a few bytes of it changed or none.
fn some_file(rng: &mut Rng) -> Vec<u8> {
    if rng.once_in(4) {
        return make::noise(rng, 300);
    }
    let n = if rng.once_in(30) { 256 } else { rng.between(1, 40) as usize };
    let mut cells = make::any_table(rng, n);
    let form = rng.pick(&FORMS);
    if !rng.once_in(8) {
        make::fit(form, &mut cells);
    }
    let labels = make::labels(rng, &mut cells);
    let mut file = make::file(form, &labels, &cells, rng.next() as u16);
    if rng.once_in(8) {
        make::mix_up(rng, form, labels.len(), cells.len(), &mut file);
    }
    for _ in 0..rng.index(4) {
        let at = rng.index(file.len());
        file[at] = rng.next() as u8;
    }
    if rng.once_in(10) {
        file.truncate(rng.index(file.len()));
    }
    file
}

/// Records of random bytes; or a plan's, a few fields of it changed or none.
fn some_table(rng: &mut Rng) -> Vec<Record> {
    if rng.once_in(4) {
        return (0..rng.index(300))
            .map(|_| Record {
                parent: rng.next() as u16,
                kind: rng.next() as u8,
                rank: rng.next() as u8,
                width: rng.next() as u16,
                depth: rng.next() as u8,
                label_length: rng.next() as u8,
                label_start: rng.next() as u16,
            })
            .collect();
    }
    let n = if rng.once_in(30) { 256 } else { rng.between(1, 40) as usize };
    let mut cells = make::any_table(rng, n);
    if rng.once_in(3) {
        make::damage_table(rng, &mut cells);
    }
    cells.iter().map(|c| Record { label_length: rng.next() as u8, label_start: rng.next() as u16, ..record(c) }).collect()
}

/// Read and Label.
fn file_calls(rng: &mut Rng) -> Result<(), &'static str> {
    let file = lent(&some_file(rng));
    let pattern = Record { parent: rng.next() as u16, width: rng.next() as u16, ..Record::default() };
    let mut table = lent(&vec![pattern; if rng.once_in(10) { rng.index(256) } else { 256 + rng.index(3) }]);
    let read = bindings::read(&file, &mut table);
    let written = read.map_or(0, |plan| plan.count);
    if table[written..].iter().any(|r| *r != pattern) {
        return Err("Read wrote past the plan's records");
    }
    for cell in [0, rng.index(300), rng.next() as usize] {
        let refused = bindings::label_refusal(&file, cell).number != 0;
        let label = bindings::label(&file, cell);
        if refused && !(label.is_empty() && label.as_ptr() == file.as_ptr()) {
            return Err("Label refuses, and gives a part");
        }
        if written > 0 && refused != (cell >= written) {
            return Err("Label disagrees with Read");
        }
    }
    Ok(())
}

/// List, and Read, which says whether a sheet is listed or a refusal.
fn list_call(rng: &mut Rng) -> Result<(), &'static str> {
    let file = lent(&some_file(rng));
    let fill = rng.next() as u8;
    let mut out = lent(&vec![fill; if rng.once_in(10) { rng.index(LISTING) } else { LISTING + rng.index(3) }]);
    let listed = bindings::list(&file, &mut out);
    let (text, rest) = out.split_at(listed.unwrap_or(0));
    if rest.iter().any(|b| *b != fill) {
        return Err("List wrote past the listing");
    }
    if listed.is_ok() != (out.len() >= LISTING) {
        return Err("List refuses otherwise than by the length of its output");
    }
    let line = match bindings::read(&file, &mut lent(&[Record::default(); 256])) {
        Ok(plan) => format!("sheet {} {} ", plan.count, plan.allowance),
        Err(r) => format!("refused {} {}\n", r.number, r.cell),
    };
    if listed.is_ok() && !(text.starts_with(line.as_bytes()) && text.ends_with(b"\n")) {
        return Err("List disagrees with Read");
    }
    Ok(())
}

/// Layout, Check, Mark, Ends and strokes.
fn table_calls(rng: &mut Rng) -> Result<(), &'static str> {
    let table = lent(&some_table(rng));
    let room = if rng.once_in(10) { rng.index(600) } else { 2 * table.len() + rng.index(3) };
    let before: Vec<i32> = (0..room).map(|_| rng.next() as i32).collect();
    let length = if rng.once_in(10) { rng.index(SCRATCH) } else { SCRATCH + rng.index(3) };
    let fill = rng.next() as u32 | 1;
    let (mut positions, mut scratch) = (lent(&before), lent(&vec![fill; length]));
    let allowance = if rng.once_in(10) { rng.next() as u32 } else { make::allowance(rng) };
    let laid = bindings::layout(&table, allowance, &mut scratch, &mut positions);
    let used = if laid.is_ok() { 2 * table.len() } else { 0 };
    let zeros = if laid.is_ok() { SCRATCH } else { 0 };
    if positions[used..] != before[used..] || scratch[..zeros].iter().any(|n| *n != 0) || scratch[zeros..].iter().any(|n| *n != fill) {
        return Err("Layout left a buffer otherwise than it should");
    }
    let checked = bindings::check(&table, &positions, allowance);
    if laid.is_ok() && checked != laid.map(Verdict::Kept) {
        return Err("Check does not keep Layout's sheet");
    }
    let _ = bindings::check(&table, &lent(&before), allowance);
    mark_calls(rng, &table, &positions, &lent(&before), allowance, laid.ok())?;
    if laid.is_ok() {
        // Beside our sheet, where the search is run.
        let mut moved = lent(&positions);
        moved[rng.index(used)] += rng.pick(&[-1, 1]);
        if bindings::check(&table, &moved, allowance) != plain::check(&table, &moved, allowance) {
            return Err("Check judges a sheet with one number moved otherwise than plain Rust");
        }
    }
    let page = make::page(rng);
    let page = bindings::Page { pitch: page.pitch, margin_x: page.margin_x, margin_y: page.margin_y };
    for s in [rng.index(9), rng.index(3_000), rng.next() as usize] {
        let stroke = bindings::stroke(&table, &positions, page, s);
        let refused = stroke.err().map_or(0, |r| r.number);
        if laid.is_ok() && refused != 17 && stroke.is_ok() != (s < 9 * table.len() - 3) {
            return Err("a stroke disagrees with Layout");
        }
    }
    for cell in [1, rng.index(300), rng.next() as usize] {
        let ends = bindings::ends(&table, &positions, cell);
        if laid.is_ok() && ends.is_ok() != (cell > 0 && cell < table.len()) {
            return Err("Ends disagrees with Layout");
        }
    }
    Ok(())
}

/// Mark, of Layout's positions, which get full marks, and of any: what Check says, and the scratch as Layout leaves it.
fn mark_calls(rng: &mut Rng, table: &[Record], ours: &[i32], any: &[i32], allowance: u32, laid: Option<bindings::Sheet>) -> Result<(), &'static str> {
    for (positions, sheet) in [(ours, laid), (any, None)] {
        let length = if rng.once_in(10) { rng.index(SCRATCH) } else { SCRATCH + rng.index(3) };
        let fill = rng.next() as u32 | 1;
        let mut scratch = lent(&vec![fill; length]);
        let marked = bindings::mark(table, positions, allowance, &mut scratch);
        let zeros = if marked.is_ok() { SCRATCH } else { 0 };
        if scratch[..zeros].iter().any(|n| *n != 0) || scratch[zeros..].iter().any(|n| *n != fill) {
            return Err("Mark left the scratch otherwise than it should");
        }
        if length >= SCRATCH && sheet.is_some_and(|s| marked != Ok(Mark::Full(s))) {
            return Err("Mark does not give full marks to Layout's sheet");
        }
        let told = marked.map(|m| match m {
            Mark::Full(sheet) | Mark::Wide { sheet, .. } => Verdict::Kept(sheet),
            Mark::Broken { rule, a, b } => Verdict::Broken { rule, a, b },
        });
        if length >= SCRATCH && told != bindings::check(table, positions, allowance) {
            return Err("Mark disagrees with Check");
        }
    }
    Ok(())
}

/// Strip, of Layout's positions and of any.
fn strip_calls(rng: &mut Rng) -> Result<(), &'static str> {
    let table = lent(&some_table(rng));
    let far = rng.pick(&[30, 262_143, 262_200]);
    let mut positions: Box<[i32]> = (0..2 * table.len() + rng.index(3)).map(|_| rng.between(-far, far) as i32).collect();
    let laid = bindings::layout(&table, make::allowance(rng), &mut lent(&vec![0; SCRATCH]), &mut positions);
    let fill = rng.next() as u8;
    let mut bytes = lent(&vec![fill; rng.index(40)]);
    let row = if rng.once_in(10) { rng.next() as u32 } else { rng.index(300) as u32 };
    let first = if rng.once_in(4) { rng.next() as u32 } else { rng.index(100) as u32 };
    let done = bindings::strip(&table, &positions, row, first, &mut bytes);
    if done.is_err() && bytes.iter().any(|b| *b != fill) {
        return Err("Strip refuses, and writes");
    }
    match laid {
        Ok(_) if done.is_err() => Err("Strip refuses Layout's sheet"),
        Ok(sheet) if (row >= sheet.rows || first > sheet.width) && bytes.iter().any(|b| *b != 0) => Err("Strip prints outside the sheet"),
        _ => Ok(()),
    }
}

/// Join, and that Layout takes what it writes.
fn join_call(rng: &mut Rng) -> Result<(), &'static str> {
    let (first, second) = (lent(&some_table(rng)), lent(&some_table(rng)));
    let room = if rng.once_in(10) { rng.index(256) } else { 256 + rng.index(9) };
    let fill = bindings::Record { parent: 77, kind: 9, rank: 1, width: 2_000, depth: 99, label_length: 7, label_start: 8 };
    let mut table = lent(&vec![fill; room]);
    let cell = if rng.once_in(10) { rng.next() as usize } else { rng.index(first.len() + 1) };
    let joined = bindings::join(&first, if rng.once_in(5) { &first } else { &second }, cell, &mut table);
    let written = joined.unwrap_or(0);
    if table[written..].iter().any(|r| *r != fill) {
        return Err("Join wrote past the joined records");
    }
    if written == 0 {
        return Ok(());
    }
    let (mut scratch, mut positions) = (lent(&vec![0; SCRATCH]), lent(&vec![0; 2 * written]));
    match bindings::layout(&table[..written], 0, &mut scratch, &mut positions) {
        Ok(_) => Ok(()),
        Err(_) => Err("Layout refuses a joined plan"),
    }
}

/// Frame, and what it says against Layout.
fn frame_calls(rng: &mut Rng) -> Result<(), &'static str> {
    let table = lent(&some_table(rng));
    let length = if rng.once_in(10) { rng.index(SCRATCH) } else { SCRATCH + rng.index(3) };
    let fill = rng.next() as u32 | 1;
    let mut scratch = lent(&vec![fill; length]);
    let most = rng.pick(&[600, 20_000]);
    let squares = if rng.once_in(10) { rng.next() as u32 } else { rng.index(most) as u32 };
    let framed = bindings::frame(&table, squares, &mut scratch);
    let zeros = if framed.is_ok() { SCRATCH } else { 0 };
    if scratch[..zeros].iter().any(|n| *n != 0) || scratch[zeros..].iter().any(|n| *n != fill) {
        return Err("Frame left the scratch otherwise than it should");
    }
    let mut positions = lent(&vec![0; 2 * table.len()]);
    let mut fits = |allowance| bindings::layout(&table, allowance, &mut scratch, &mut positions).map(|s| s.width <= squares);
    match framed {
        Ok(None) if fits(65_535) != Ok(false) => Err("Frame says none, and 65,535 fits"),
        Ok(Some(a)) if fits(a) != Ok(true) => Err("Frame's allowance does not fit"),
        Ok(Some(a)) if a > 0 && fits(a - 1) != Ok(false) => Err("Frame's allowance is not the least"),
        Err(refusal) if refusal.number != 19 && fits(0) != Err(refusal) => Err("Frame refuses otherwise than Layout"),
        _ => Ok(()),
    }
}

/// Copy, of a table and bytes that belong together or do not; what it writes, Read accepts.
fn copy_calls(rng: &mut Rng) -> Result<(), &'static str> {
    let file = some_file(rng);
    let mut table = vec![Record::default(); 256];
    let read = bindings::read(&file, &mut table);
    let end = file.len().saturating_sub(8);
    let begin = if read.is_ok() { file[end] as usize + 256 * file[end + 1] as usize } else { rng.index(file.len() + 1) };
    let letters = lent(&file[..begin]);
    let table = lent(&if let Ok(plan) = read { table[..plan.count].to_vec() } else { some_table(rng) });
    let allowance = read.map_or(rng.next() as u32, |plan| plan.allowance as u32);
    let fill = rng.next() as u8;
    let mut out = lent(&vec![fill; if rng.once_in(10) { rng.index(COPY) } else { COPY + rng.index(3) }]);
    let copied = bindings::copy(&table, &letters, allowance, &mut out);
    let (clean, rest) = out.split_at(copied.unwrap_or(0));
    if rest.iter().any(|b| *b != fill) {
        return Err("Copy wrote past the file");
    }
    if read.is_ok() && copied.is_ok() != (out.len() >= COPY) {
        return Err("Copy refuses what Read accepted");
    }
    if copied.is_ok() && bindings::read(clean, &mut lent(&[Record::default(); 256])).is_err() {
        return Err("Read refuses a clean copy");
    }
    Ok(())
}

/// Mend, and Read, which accepts what is mended and refuses what is not.
fn mend_calls(rng: &mut Rng) -> Result<(), &'static str> {
    let file = lent(&some_file(rng));
    let fill = rng.next() as u8;
    let mut out = lent(&vec![fill; if rng.once_in(10) { rng.index(MENDED) } else { MENDED + rng.index(3) }]);
    let mut text = lent(&vec![fill; if rng.once_in(10) { rng.index(LINES) } else { LINES + rng.index(3) }]);
    let mended = bindings::mend(&file, &mut out, &mut text);
    let (length, lines) = mended.unwrap_or((0, 0));
    if out[length..].iter().chain(&text[lines..]).any(|b| *b != fill) {
        return Err("Mend wrote past the file or the lines");
    }
    let read = |file: &[u8]| bindings::read(file, &mut lent(&[Record::default(); 256]));
    match mended {
        Ok(_) if read(&out[..length]).is_err() => Err("Read refuses a mended file"),
        Ok(_) if read(&file).is_ok() && (out[..length] != file[..] || lines != 0) => Err("Mend altered an accepted file"),
        Err(r) if r.number != 1 && read(&file).is_ok() => Err("Mend refuses an accepted file"),
        _ => Ok(()),
    }
}

/// Drill, and what it says against Layout; a byte more after the last one used changes nothing.
fn drill_calls(rng: &mut Rng) -> Result<(), &'static str> {
    let table = lent(&some_table(rng));
    let length = if rng.once_in(10) { rng.index(4_096) } else { 4_096 + rng.index(3) };
    let fill = rng.next() as u16;
    let mut list = lent(&vec![fill; length]);
    let most = rng.pick(&[3, 30, 4_100]);
    let answers: Vec<u8> = (0..rng.index(most)).map(|_| rng.pick(&[0, 0, 1, 1, 1, 2, 3, 255])).collect();
    let drilled = bindings::drill(&table, &lent(&answers), &mut list);
    let records = drilled.map_or(0, |d| d.records);
    if list[records..].iter().any(|n| *n != fill) || list[..records].iter().any(|n| table[*n as usize].kind != 1) {
        return Err("Drill left the list otherwise than it should");
    }
    match drilled {
        Ok(d) if d.used > answers.len() || d.outcome == Outcome::Spent && d.used != answers.len() => Err("Drill used other bytes"),
        Ok(d) if d.outcome == Outcome::Full && d.records != 4_096 => Err("Drill is full before it is"),
        Ok(d) if d.outcome != Outcome::Spent && bindings::drill(&table, &lent(&answers[..d.used]), &mut list) != drilled => Err("a byte that was not used changes the drill"),
        Err(r) if r.number != 21 && r.number != 1 => {
            let laid = bindings::layout(&table, 0, &mut vec![0; SCRATCH], &mut vec![0; 2 * table.len()]);
            if laid == Err(r) { Ok(()) } else { Err("Drill refuses otherwise than Layout") }
        }
        _ => Ok(()),
    }
}

/// Step and Reach over scratches of noise, or of a sheet that is being made with some numbers altered.
fn step_calls(rng: &mut Rng) -> Result<(), &'static str> {
    let table = lent(&some_table(rng));
    let allowance = if rng.once_in(10) { rng.next() as u32 } else { make::allowance(rng) };
    let length = if rng.once_in(10) { rng.index(SCRATCH) } else { SCRATCH + rng.index(3) };
    let (mut scratch, mut second) = (lent(&vec![0u32; length]), lent(&vec![0u32; SECOND + rng.index(3)]));
    let mut positions = lent(&vec![0i32; 2 * table.len() + rng.index(3)]);
    if bindings::start(&table, allowance, &mut scratch, &mut second).is_ok() {
        for _ in 0..rng.index(table.len() + 1) {
            let _ = bindings::step(&table, allowance, &mut scratch, &mut second, &mut positions);
        }
    }
    let most = rng.pick(&[2u64, 200, 65_536, 262_144, 1 << 32]);
    let altered = rng.pick(&[1, 30, SCRATCH]);
    for _ in 0..altered {
        let (a, b) = (rng.index(scratch.len().max(1)), rng.index(second.len()));
        if let Some(number) = scratch.get_mut(a) {
            *number = (rng.next() % most) as u32;
        }
        second[b] = (rng.next() % most) as u32;
    }
    if let Some(count) = scratch.get_mut(63) {
        *count = rng.index(table.len() + 2) as u32;
    }
    for _ in 0..4 {
        let _ = bindings::reach(&table, allowance, &scratch, &second, rng.index(table.len() + 2));
        let before = (scratch.clone(), second.clone(), positions.clone());
        let stepped = bindings::step(&table, allowance, &mut scratch, &mut second, &mut positions);
        let idle = !matches!(stepped, Ok(bindings::Step::Finished(_)));
        if idle && (&scratch, &second, &positions) != (&before.0, &before.1, &before.2) {
            return Err("Step says done or refuses, and altered a buffer");
        }
    }
    Ok(())
}

/// Report, and what it says against Read and Layout; and that its report pools with itself.
fn report_call(rng: &mut Rng) -> Result<(), &'static str> {
    let file = lent(&some_file(rng));
    let (mut table, mut scratch, mut positions) = (lent(&vec![Record::default(); 256]), lent(&vec![7u32; SCRATCH]), lent(&vec![7i32; 512]));
    let reported = bindings::report(&file, &mut table, &mut scratch, &mut positions);
    let (mut read_table, mut clean, mut laid) = (lent(&vec![Record::default(); 256]), lent(&vec![7u32; SCRATCH]), lent(&vec![7i32; 512]));
    let read = bindings::read(&file, &mut read_table);
    let sheet = read.and_then(|p| bindings::layout(&read_table[..p.count], p.allowance as u32, &mut clean, &mut laid));
    if table[..] != read_table[..] || scratch[..] != clean[..] || positions[..] != laid[..] {
        return Err("Report leaves its buffers otherwise than Read and Layout");
    }
    match (reported, sheet) {
        (Err(a), Err(b)) if a == b => Ok(()),
        (Ok(r), Ok(s)) if r.plans == 1 && r.widths == s.width && r.areas == s.width as u64 * s.rows as u64 && [r.least, r.greatest, r.mean, r.rest] == [s.width, s.width, s.width, 0] => {
            match bindings::pool(r, r) {
                Ok(two) if two.plans == 2 && two.widths == 2 * s.width && two.mean == s.width && two.rest == 0 && two.least == s.width => Ok(()),
                _ => Err("a report does not pool with itself"),
            }
        }
        _ => Err("Report answers otherwise than Read and Layout"),
    }
}

fn library(end: Instant, seed: u64) -> u64 {
    let mut number = 0;
    while Instant::now() < end {
        let mut rng = Rng::new(seed, number);
        let done = match number % 13 {
            0 | 1 => table_calls(&mut rng),
            2 => file_calls(&mut rng),
            3 => list_call(&mut rng),
            4 => copy_calls(&mut rng),
            5 => mend_calls(&mut rng),
            6 => strip_calls(&mut rng),
            7 => join_call(&mut rng),
            8 => step_calls(&mut rng),
            9 => report_call(&mut rng),
            10 => frame_calls(&mut rng),
            _ => drill_calls(&mut rng),
        };
        done.unwrap_or_else(|what| fault(what, seed, number));
        number += 1;
    }
    number
}

fn program(end: Instant, seed: u64, command: &[String]) -> u64 {
    let mut number = 0;
    while Instant::now() < end {
        let file = some_file(&mut Rng::new(seed, number));
        let mut child = Command::new(&command[0])
            .args(&command[1..])
            .stdin(Stdio::piped())
            .stdout(Stdio::piped())
            .spawn()
            .expect("the command runs");
        let mut input = child.stdin.take().unwrap();
        // A program that stops reading early closes its input: what it printed is looked at all the same.
        let _ = input.write_all(&file);
        drop(input);
        let output = child.wait_with_output().expect("the command ends");
        if !output.status.success() {
            fault(&format!("{}: {file:?}", output.status), seed, number);
        }
        if output.stdout != reference::listing(&file) {
            fault(&format!("another listing: {file:?}"), seed, number);
        }
        number += 1;
    }
    number
}

fn main() {
    let args: Vec<String> = std::env::args().skip(1).collect();
    let usage = "fuzz library SECONDS SEED, or fuzz program SECONDS SEED COMMAND...";
    let number = |k: usize| -> u64 { args.get(k).and_then(|a| a.parse().ok()).expect(usage) };
    let (seconds, seed) = (number(1), number(2));
    let end = Instant::now() + Duration::from_secs(seconds);
    let what = args[0].as_str();
    let inputs = match what {
        "library" => library(end, seed),
        "program" => program(end, seed, args.get(3..).filter(|c| !c.is_empty()).expect(usage)),
        _ => panic!("{usage}"),
    };
    println!("{what}: {inputs} inputs in {seconds} s, seed {seed}: no fault");
}
