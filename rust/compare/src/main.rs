//! Compares every call of the compiled engine with the reference on seeded random inputs: the answers,
//! and every lent buffer whole after the call. Each buffer ends, or begins, at a page that may not be
//! touched. Stops at the first difference, with status 1.
//!
//!     compare [INPUTS [SEED [FIRST]]]
//!
//! Input number k depends on the seed and k alone, so a difference is run again by `compare 1 SEED k`.

use bindings::Record;
use compare::guard::Guarded;
use compare::records;
use reference::generate as make;
use reference::making::{self, SECOND};
use reference::rng::Rng;
use reference::{Cell, Form, Refusal, COPY, ANSWERS, FORMS, LINES, LISTING, MAX_CELLS, MAX_COORDINATE, MAX_WIDTH, MENDED, RECORDS, SCRATCH};
use std::collections::BTreeMap;
use std::mem::size_of;
use std::process::exit;
use std::time::Instant;

const SEED: u64 = 20_261_115;
const INPUTS: u64 = 120_000;
const CHOICE: u8 = 4;
/// A sheet this wide is near the widest that there is.
const NEAR_WIDEST: u32 = 240_000;

/// How often each call gave each answer.
type Seen = BTreeMap<(&'static str, String), u64>;

/// Where the buffers that are lent to the engine stand.
struct Rooms {
    file: Guarded,
    table: Guarded,
    positions: Guarded,
    scratch: Guarded,
    out: Guarded,
    lines: Guarded,
    second: Guarded,
    joined: Guarded,
    answers: Guarded,
    list: Guarded,
    making: Guarded,
}

struct Run {
    seed: u64,
    number: u64,
    seen: Seen,
    calls: u64,
    rooms: Rooms,
    /// The figures of the latest plans that were reported.
    season: Vec<reference::Figures>,
}

impl Run {
    fn same<T: PartialEq + std::fmt::Debug>(&self, what: &str, ours: &T, theirs: &T, input: &dyn std::fmt::Debug) {
        if ours != theirs {
            println!("DIFFERENCE: seed {} input {}: {what}", self.seed, self.number);
            println!("  engine    {ours:?}\n  reference {theirs:?}\n  input {input:?}");
            exit(1);
        }
    }

    fn count(&mut self, call: &'static str, answer: String) {
        self.calls += 1;
        *self.seen.entry((call, answer)).or_insert(0) += 1;
    }

    /// What else is to be seen in an answer.
    fn note(&mut self, call: &'static str, what: impl Into<String>) {
        *self.seen.entry((call, what.into())).or_insert(0) += 1;
    }

    /// Widths at the edges of what is allowed, in a table that a call accepts or refuses by question 8.
    fn note_widths<T>(&mut self, call: &'static str, cells: &[Cell], expected: &Result<T, Refusal>) {
        match expected {
            Ok(_) => {
                for width in [255, 256, MAX_WIDTH] {
                    if cells.iter().any(|c| c.width == width) {
                        self.note(call, format!("width {width}"));
                    }
                }
            }
            Err(Refusal { number: 8, cell }) if cells[*cell as usize].width == MAX_WIDTH + 1 => self.note(call, "width 1024"),
            _ => {}
        }
    }

    /// How ranks stand in a plan: whether they change the order of some siblings, turn it round, or are shared.
    fn note_ranks(&mut self, call: &'static str, cells: &[Cell], answer: &str) {
        let (mut moved, mut turned, mut tied) = (false, false, false);
        for family in reference::Plan::new(cells).sons {
            moved |= !family.is_sorted();
            turned |= family.len() > 2 && family.is_sorted_by(|a, b| a > b);
            tied |= !family.is_sorted() && family.windows(2).any(|w| cells[w[0]].rank == cells[w[1]].rank);
        }
        for (what, is) in [("moved", moved), ("turned", turned), ("tied", tied)] {
            if is {
                self.note(call, format!("ranks {what} {answer}"));
            }
        }
    }

    /// Coordinates at the edges of question 15, in positions that a call accepts or refuses by it.
    fn note_coordinates<T>(&mut self, call: &'static str, positions: &[i32], n: usize, expected: &Result<T, Refusal>) {
        let (far, cells) = match expected {
            Ok(_) => (MAX_COORDINATE as i32, 0..n),
            Err(Refusal { number: 15, cell }) => (MAX_COORDINATE as i32 + 1, *cell as usize..*cell as usize + 1),
            _ => return,
        };
        for edge in [far, -far] {
            if positions[2 * cells.start..2 * cells.end].contains(&edge) {
                self.note(call, format!("at {edge}"));
            }
        }
    }

    fn read(&mut self, rng: &mut Rng, file: &[u8]) -> String {
        let room = if rng.once_in(40) { rng.index(MAX_CELLS) } else { MAX_CELLS + rng.index(20) };
        let pattern = Cell {
            parent: rng.next() as u16,
            kind: rng.next() as u8,
            rank: rng.next() as u8,
            width: rng.next() as u16,
            depth: rng.next() as u8,
            label_len: rng.next() as u8,
            label_start: rng.next() as u16,
        };
        let mut theirs = vec![pattern; room];
        let at_end = rng.once_in(2);
        let lent = self.rooms.file.lend(file, at_end);
        let ours = self.rooms.table.lend(&records(&theirs), at_end);
        let got = bindings::read(lent, ours)
            .map(|p| (p.count as u32, p.allowance as u32))
            .map_err(|r| Refusal { number: r.number as u32, cell: r.cell as u32 });
        let (lent, ours) = (lent.to_vec(), ours.to_vec());
        let expected = reference::read(file, &mut theirs);
        self.same("Read's answer", &got, &expected, &file);
        self.same("the table after Read", &ours, &records(&theirs), &file);
        self.same("the file after Read", &lent.as_slice(), &file, &file);
        match expected {
            Ok((n, _)) => {
                self.note_widths("Read", &theirs[..n as usize], &expected);
                self.note_ranks("Read", &theirs[..n as usize], "read");
            }
            Err(Refusal { number: 8, cell }) if is_too_wide(file, cell as usize) => self.note("Read", "width 1024"),
            _ => {}
        }
        let answer = named(&expected.map(|_| ()));
        self.count("Read", of_form(file, &answer));
        answer
    }

    fn labels(&mut self, rng: &mut Rng, file: &[u8]) {
        for cell in [0, rng.index(4), rng.index(300), rng.next() as usize] {
            let expected = reference::label_refusal(file, cell);
            let lent = self.rooms.file.lend(file, rng.once_in(2));
            let got = bindings::label_refusal(lent, cell);
            let part = place_of(bindings::label(lent, cell), lent);
            self.same("Label's refusal", &(got.number as u32, got.cell as u32), &(expected.number, expected.cell), &(cell, file));
            self.same("Label's part of the file", &part, &place_of(reference::label(file, cell), file), &(cell, file));
            let answer = if expected.number == 0 { Ok(()) } else { Err(expected) };
            self.count("Label", of_form(file, &named(&answer)));
        }
    }

    fn list(&mut self, rng: &mut Rng, file: &[u8]) {
        let room = match rng.index(40) {
            0 => rng.pick(&[0, 1, LISTING - 1]),
            1 => rng.index(LISTING),
            2..=20 => LISTING,
            _ => LISTING + 1 + rng.index(100),
        };
        let mut theirs = vec![rng.next() as u8; room];
        let at_end = rng.once_in(2);
        let lent = self.rooms.file.lend(file, at_end);
        let ours = self.rooms.out.lend(&theirs, at_end);
        let got = bindings::list(lent, ours).map_err(|r| Refusal { number: r.number as u32, cell: r.cell as u32 });
        let (lent, ours) = (lent.to_vec(), ours.to_vec());
        let expected = reference::list(file, &mut theirs);
        self.same("List's answer", &got, &expected, &(room, file));
        self.same("the output after List", &ours, &theirs, &(room, file));
        self.same("the file after List", &lent.as_slice(), &file, &file);
        self.count("List", expected.map_or_else(|r| named(&Err(r)), |length| of_form(file, &printed(&theirs[..length]))));
    }

    fn layout(&mut self, rng: &mut Rng, cells: &[Cell], allowance: u32) -> Vec<i32> {
        let room = match rng.index(40) {
            0 => (2 * cells.len()).saturating_sub(1 + rng.index(3)),
            1 => 2 * cells.len(),
            _ => 2 * cells.len() + rng.index(9),
        };
        let scratch = if rng.once_in(60) { SCRATCH - 1 - rng.index(2) } else { SCRATCH + rng.index(3) * rng.index(40) };
        let (x, s) = (rng.next() as i32, rng.next() as u32);
        let (mut theirs, mut their_scratch) = (vec![x; room], vec![s; scratch]);
        let at_end = rng.once_in(2);
        let ours = self.rooms.positions.lend(&theirs, at_end);
        let our_scratch = self.rooms.scratch.lend(&their_scratch, at_end);
        let table = self.rooms.table.lend(&records(cells), at_end);
        let got = bindings::layout(table, allowance, our_scratch, ours)
            .map(|m| reference::Measure { width: m.width, rows: m.rows })
            .map_err(|r| Refusal { number: r.number as u32, cell: r.cell as u32 });
        let (ours, our_scratch, table) = (ours.to_vec(), our_scratch.to_vec(), table.to_vec());
        let expected = reference::layout(cells, allowance, &mut theirs, &mut their_scratch);
        let input = (allowance, room, scratch, cells);
        self.same("Layout's answer", &got, &expected, &input);
        self.same("the positions after Layout", &ours, &theirs, &input);
        self.same("the scratch after Layout", &our_scratch, &their_scratch, &input);
        self.same("the table after Layout", &table, &records(cells), &input);
        if expected.is_ok() && cells.iter().any(|c| c.kind == CHOICE) {
            self.note("Layout", "choice laid");
        }
        if expected.is_ok_and(|m| m.width >= NEAR_WIDEST) {
            self.note("Layout", "near widest");
        }
        if expected.is_ok() {
            self.note_ranks("Layout", cells, "laid");
        }
        self.note_widths("Layout", cells, &expected);
        self.count("Layout", named(&expected.map(|_| ())));
        ours
    }

    fn check(&mut self, rng: &mut Rng, cells: &[Cell], positions: &[i32], allowance: u32) -> Result<reference::Verdict, Refusal> {
        let expected = reference::check(cells, positions, allowance);
        let table = self.rooms.table.lend(&records(cells), rng.once_in(2));
        let lent = self.rooms.positions.lend(positions, rng.once_in(2));
        let got = bindings::check(table, lent, allowance)
            .map(|v| match v {
                bindings::Verdict::Kept(m) => reference::Verdict::Kept(reference::Measure { width: m.width, rows: m.rows }),
                bindings::Verdict::Broken { rule, a, b } => reference::Verdict::Broken { rule: rule as u32, a: a as u32, b: b as u32 },
            })
            .map_err(|r| Refusal { number: r.number as u32, cell: r.cell as u32 });
        let (table, lent) = (table.to_vec(), lent.to_vec());
        self.same("Check's answer", &got, &expected, &(allowance, positions, cells));
        self.same("the buffers after Check", &(lent.as_slice(), table), &(positions, records(cells)), &cells);
        match expected {
            Ok(reference::Verdict::Kept(_)) if cells.iter().any(|c| c.kind == CHOICE) => self.note("Check", "choice kept"),
            Ok(reference::Verdict::Broken { rule: 2, a, .. }) if cells[a as usize].kind == CHOICE => self.note("Check", "choice S2"),
            _ => {}
        }
        self.note_widths("Check", cells, &expected);
        self.note_coordinates("Check", positions, cells.len(), &expected);
        let answer = judged(&expected);
        if expected.is_ok() {
            self.note_ranks("Check", cells, &answer);
        }
        self.count("Check", answer);
        expected
    }

    /// Check one unit beside placements that are kept, ours and another's: each rule that this breaks is broken by one unit.
    fn one_off(&mut self, rng: &mut Rng, cells: &[Cell], ours: &[i32], allowance: u32) {
        let others = make::kept(rng, cells, allowance);
        let kept = self.check(rng, cells, &others, allowance);
        self.same("the verdict on a placement that is kept", &judged(&kept), &"kept".into(), &(allowance, &others, cells));
        let near = [("ours", &ours[..2 * cells.len()]), ("another's", &others)];
        // A large plan's verdict takes the reference long.
        let times = if cells.len() <= 60 { 2 } else { 1 };
        for (whose, near) in near.into_iter().cycle().take(2 * times) {
            let (positions, what, way) = make::one_off(rng, cells, near);
            let verdict = self.check(rng, cells, &positions, allowance);
            let answer = judged(&verdict);
            self.note("One off", format!("{what} {way} {answer}"));
            self.note("One off", format!("{whose} {answer}"));
            if let Ok(reference::Verdict::Broken { rule: 4, a, b }) = verdict {
                // No two boxes meet: what is crossed is a plumb line that hangs below all that is appointed.
                if !reference::boxes_meet(cells, &positions) {
                    reference::crossings(cells, &positions, a as usize, b as usize).into_iter().for_each(|how| self.note("One off", how));
                }
            }
        }
    }

    fn mark(&mut self, rng: &mut Rng, cells: &[Cell], positions: &[i32], allowance: u32) {
        let scratch = if rng.once_in(60) { SCRATCH - 1 - rng.index(2) } else { SCRATCH + rng.index(3) * rng.index(40) };
        let mut theirs = vec![rng.next() as u32; scratch];
        let at_end = rng.once_in(2);
        let ours = self.rooms.scratch.lend(&theirs, at_end);
        let table = self.rooms.table.lend(&records(cells), at_end);
        let lent = self.rooms.positions.lend(positions, at_end);
        let measure = |s: bindings::Sheet| reference::Measure { width: s.width, rows: s.rows };
        let got = bindings::mark(table, lent, allowance, ours)
            .map(|m| match m {
                bindings::Mark::Full(sheet) => reference::Mark::Full(measure(sheet)),
                bindings::Mark::Wide { sheet, least } => reference::Mark::Wide { measure: measure(sheet), least },
                bindings::Mark::Broken { rule, a, b } => reference::Mark::Broken { rule: rule as u32, a: a as u32, b: b as u32 },
            })
            .map_err(|r| Refusal { number: r.number as u32, cell: r.cell as u32 });
        let (ours, table, lent) = (ours.to_vec(), table.to_vec(), lent.to_vec());
        let expected = reference::mark(cells, positions, allowance, &mut theirs);
        let input = (allowance, scratch, positions, cells);
        self.same("Mark's answer", &got, &expected, &input);
        self.same("the scratch after Mark", &ours, &theirs, &input);
        self.same("the buffers after Mark", &(lent.as_slice(), table), &(positions, records(cells)), &input);
        if matches!(expected, Err(Refusal { number: 1, .. })) && scratch >= SCRATCH {
            self.note("Mark", "positions too few");
        }
        if let Ok(reference::Mark::Wide { measure, least }) = expected {
            self.note("Mark", if measure.width - least == 1 { "wide by 1" } else { "wide by more" });
        }
        self.note_widths("Mark", cells, &expected);
        self.note_coordinates("Mark", positions, cells.len(), &expected);
        let answer = match expected {
            Ok(reference::Mark::Full(_)) => "full".into(),
            Ok(reference::Mark::Wide { .. }) => "wide".into(),
            Ok(reference::Mark::Broken { rule, .. }) => format!("broken S{rule}"),
            Err(r) => format!("refused {:2}", r.number),
        };
        if expected.is_ok() {
            self.note_ranks("Mark", cells, &answer);
        }
        self.count("Mark", answer);
    }

    /// Our sheet, any placement, one that is kept and mostly wider, and ours with one unit moved.
    fn marks(&mut self, rng: &mut Rng, cells: &[Cell], ours: &[i32], foreign: &[i32], allowance: u32) {
        self.mark(rng, cells, ours, allowance);
        self.mark(rng, cells, foreign, allowance);
        if reference::check(cells, ours, allowance).is_ok() {
            let wider = make::kept(rng, cells, allowance);
            self.mark(rng, cells, &wider, allowance);
            let (beside, ..) = make::one_off(rng, cells, &ours[..2 * cells.len()]);
            self.mark(rng, cells, &beside, allowance);
        }
    }

    /// A few strokes of a sheet on one page, the last one and the number after it among them, bit by bit.
    fn strokes(&mut self, rng: &mut Rng, cells: &[Cell], positions: &[i32]) {
        let page = make::page(rng);
        let many = (9 * cells.len()).saturating_sub(3);
        let any = rng.index(many + 1);
        for s in [any, rng.index(many + 1), rng.index(6), many.saturating_sub(1 + rng.index(3)), many, rng.next() as usize] {
            let expected = reference::stroke(cells, positions, &page, s);
            let table = self.rooms.table.lend(&records(cells), rng.once_in(2));
            let lent = self.rooms.positions.lend(positions, rng.once_in(2));
            let lent_page = bindings::Page { pitch: page.pitch, margin_x: page.margin_x, margin_y: page.margin_y };
            let got = bindings::stroke(table, lent, lent_page, s)
                .map(|stroke| match stroke {
                    bindings::Stroke::Move(x, y) => reference::Stroke::Move(x, y),
                    bindings::Stroke::Line(x, y) => reference::Stroke::Line(x, y),
                    bindings::Stroke::Lift => reference::Stroke::Lift,
                })
                .map_err(|r| Refusal { number: r.number as u32, cell: r.cell as u32 });
            let (table, lent) = (table.to_vec(), lent.to_vec());
            self.same("a stroke", &got, &expected, &(s, page, positions, cells));
            self.same("the buffers after a stroke", &(lent.as_slice(), table), &(positions, records(cells)), &cells);
            self.note_widths("Stroke", cells, &expected);
            self.note_coordinates("Stroke", positions, cells.len(), &expected);
            self.note_page(&page, &expected);
            let answer = match expected {
                Ok(stroke) => {
                    let place = if s < 6 * cells.len() { "a box" } else { "a connector" };
                    match stroke {
                        reference::Stroke::Move(..) => format!("move of {place}"),
                        reference::Stroke::Line(..) => format!("line of {place}"),
                        reference::Stroke::Lift => format!("lift of {place}"),
                    }
                }
                Err(r) => format!("refused {:2}", r.number),
            };
            self.count("Stroke", answer);
        }
    }

    /// The limits of question 17, and one step beyond each.
    fn note_page(&mut self, page: &reference::Page, expected: &Result<reference::Stroke, Refusal>) {
        let fair = match expected {
            Ok(_) | Err(Refusal { number: 18, .. }) => true,
            Err(Refusal { number: 17, .. }) => false,
            _ => return,
        };
        let up = |x: f64| f64::from_bits(x.to_bits() + 1);
        let down = |x: f64| f64::from_bits(x.to_bits() - 1);
        let pitches = [("0.25", 0.25), ("16", 16.0), ("below 0.25", down(0.25)), ("above 16", up(16.0)), ("infinite", f64::INFINITY)];
        for (name, pitch) in pitches {
            if page.pitch == pitch {
                self.note("Stroke", format!("pitch {name} {}", if fair { "fair" } else { "unfair" }));
            }
        }
        let margins = [("0", 0.0f64), ("-0", -0.0), ("100", 100.0), ("above 100", up(100.0)), ("below -0", -f64::from_bits(1)), ("infinite", f64::INFINITY)];
        for (name, margin) in margins {
            if page.margin_x.to_bits() == margin.to_bits() || page.margin_y.to_bits() == margin.to_bits() {
                self.note("Stroke", format!("margin {name} {}", if fair { "fair" } else { "unfair" }));
            }
        }
        if page.pitch.is_nan() || page.margin_x.is_nan() || page.margin_y.is_nan() {
            self.note("Stroke", format!("NaN {}", if fair { "fair" } else { "unfair" }));
        }
    }

    fn ends(&mut self, rng: &mut Rng, cells: &[Cell], positions: &[i32], cell: usize) {
        let expected = reference::ends(cells, positions, cell);
        let table = self.rooms.table.lend(&records(cells), rng.once_in(2));
        let lent = self.rooms.positions.lend(positions, rng.once_in(2));
        let got = bindings::ends(table, lent, cell)
            .map(|e| reference::Ends { from: e.from, to: e.to })
            .map_err(|r| Refusal { number: r.number as u32, cell: r.cell as u32 });
        let (table, lent) = (table.to_vec(), lent.to_vec());
        self.same("Ends' answer", &got, &expected, &(cell, positions, cells));
        self.same("the buffers after Ends", &(lent.as_slice(), table), &(positions, records(cells)), &cells);
        self.note_widths("Ends", cells, &expected);
        self.note_coordinates("Ends", positions, cells.len(), &expected);
        self.count("Ends", named(&expected.map(|_| ())));
    }

    fn frame(&mut self, rng: &mut Rng, cells: &[Cell]) {
        let squares = some_frame(rng, cells);
        self.frame_of(rng, cells, squares);
    }

    /// Frames at the last allowances: of so many squares that 65,534 fits, 65,535 does, none does.
    fn last_frames(&mut self, rng: &mut Rng) {
        let cells = make::entwined();
        let width = |allowance| reference::layout(&cells, allowance, &mut vec![0; 512], &mut vec![0; SCRATCH]).map_or(0, |m| m.width);
        for squares in [width(65_534), width(65_535), width(65_535) - 1] {
            self.frame_of(rng, &cells, squares);
        }
    }

    fn frame_of(&mut self, rng: &mut Rng, cells: &[Cell], squares: u32) {
        let scratch = if rng.once_in(60) { SCRATCH - 1 - rng.index(2) } else { SCRATCH + rng.index(3) * rng.index(40) };
        let mut theirs = vec![rng.next() as u32; scratch];
        let at_end = rng.once_in(2);
        let ours = self.rooms.scratch.lend(&theirs, at_end);
        let table = self.rooms.table.lend(&records(cells), at_end);
        let got = bindings::frame(table, squares, ours).map_err(|r| Refusal { number: r.number as u32, cell: r.cell as u32 });
        let (ours, table) = (ours.to_vec(), table.to_vec());
        let expected = reference::frame(cells, squares, &mut theirs);
        let input = (squares, scratch, cells);
        self.same("Frame's answer", &got, &expected, &input);
        self.same("the scratch after Frame", &ours, &theirs, &input);
        self.same("the table after Frame", &table, &records(cells), &input);
        if expected.is_ok() {
            self.note_ranks("Frame", cells, "framed");
        }
        self.note_widths("Frame", cells, &expected);
        let answer = match expected {
            Ok(Some(0)) => "0".into(),
            Ok(Some(a @ (65_534 | 65_535))) => a.to_string(),
            Ok(Some(_)) => "more than 0".into(),
            Ok(None) => "none".into(),
            Err(r) => format!("refused {:2}", r.number),
        };
        self.count("Frame", answer);
    }

    /// Copy of a table with its label bytes; the clean copy, where there is one.
    fn copy(&mut self, rng: &mut Rng, cells: &[Cell], letters: &[u8], allowance: u32) -> Option<Vec<u8>> {
        let room = match rng.index(40) {
            0 => rng.pick(&[0, 1, COPY - 1]),
            1 => rng.index(COPY),
            2..=20 => COPY,
            _ => COPY + 1 + rng.index(100),
        };
        let mut theirs = vec![rng.next() as u8; room];
        let at_end = rng.once_in(2);
        let table = self.rooms.table.lend(&records(cells), at_end);
        let lent = self.rooms.file.lend(letters, at_end);
        let ours = self.rooms.out.lend(&theirs, at_end);
        let got = bindings::copy(table, lent, allowance, ours).map_err(|r| Refusal { number: r.number as u32, cell: r.cell as u32 });
        let (table, lent, ours) = (table.to_vec(), lent.to_vec(), ours.to_vec());
        let expected = reference::copy(cells, letters, allowance, &mut theirs);
        let input = (allowance, room, letters, cells);
        self.same("Copy's answer", &got, &expected, &input);
        self.same("the output after Copy", &ours, &theirs, &input);
        self.same("the buffers lent to Copy", &(lent.as_slice(), table), &(letters, records(cells)), &input);
        self.note_widths("Copy", cells, &expected);
        if expected.is_ok() {
            self.note_ranks("Copy", cells, "copied");
            let used: usize = cells.iter().map(|c| c.label_len as usize).sum();
            for (what, is) in [
                ("labels shared", used > letters.len()),
                ("bytes unused", used < letters.len()),
                ("more letters than a file has", letters.len() > COPY),
                ("an empty label last", cells.last().is_some_and(|c| c.label_len == 0)),
            ] {
                if is {
                    self.note("Copy", what);
                }
            }
        }
        let answer = expected.map_or_else(|r| named(&Err(r)), |_| format!("{:?} copied", reference::clean_form(cells)));
        self.count("Copy", answer);
        expected.ok().map(|length| theirs[..length].to_vec())
    }

    /// The clean copy of an accepted file: Read takes it with the same content, it is its own copy, and a file of the same content, arranged otherwise, has the same.
    fn copies(&mut self, rng: &mut Rng, file: &[u8]) {
        let (cells, letters, allowance) = parts_of(file);
        let Some(clean) = self.copy(rng, &cells, letters, allowance) else { return };
        self.read(rng, &clean);
        let (again, text, after) = parts_of(&clean);
        let said = reference::content(&cells, letters, allowance);
        self.same("the content of a copy", &reference::content(&again, text, after), &said, &file);
        if let Some(twice) = self.copy(rng, &again, text, after) {
            self.same("the copy of a copy", &twice, &clean, &file);
            self.note("Copy", "of a copy");
        }
        let mut other = cells.clone();
        let moved = make::rearrange(rng, letters, &mut other);
        let form = if reference::clean_form(&other) == Form::Old { rng.pick(&FORMS) } else { Form::Wide };
        let like = make::file(form, &moved, &other, allowance as u16);
        self.read(rng, &like);
        let (cells, letters, allowance) = parts_of(&like);
        if let Some(same) = self.copy(rng, &cells, letters, allowance) {
            self.same("the copy of a file with the same content", &same, &clean, &(file, like));
            self.note("Copy", "of the same content");
        }
    }

    /// Mend of a file: the mended one and its lines, and that twice is once.
    fn mend(&mut self, rng: &mut Rng, file: &[u8]) {
        let room = |rng: &mut Rng, needed: usize| match rng.index(60) {
            0 => rng.pick(&[0, 1, needed - 1]),
            1 => rng.index(needed),
            2..=30 => needed,
            _ => needed + 1 + rng.index(100),
        };
        let (files, texts) = (room(rng, MENDED), room(rng, LINES));
        let (mut theirs, mut their_lines) = (vec![rng.next() as u8; files], vec![rng.next() as u8; texts]);
        let at_end = rng.once_in(2);
        let lent = self.rooms.file.lend(file, at_end);
        let ours = self.rooms.out.lend(&theirs, at_end);
        let our_lines = self.rooms.lines.lend(&their_lines, at_end);
        let got = bindings::mend(lent, ours, our_lines).map_err(|r| Refusal { number: r.number as u32, cell: r.cell as u32 });
        let (lent, ours, our_lines) = (lent.to_vec(), ours.to_vec(), our_lines.to_vec());
        let expected = reference::mend(file, &mut theirs, &mut their_lines);
        let input = (files, texts, file);
        self.same("Mend's answer", &got, &expected, &input);
        self.same("the output after Mend", &ours, &theirs, &input);
        self.same("the lines after Mend", &our_lines, &their_lines, &input);
        self.same("the file after Mend", &lent.as_slice(), &file, &input);
        let all = reference::mended(file).1;
        let answer = match expected {
            Ok((length, lines)) => {
                let again = reference::mend(&theirs[..length], &mut vec![0; MENDED], &mut vec![0; LINES]);
                self.same("Mend of a mended file", &again, &Ok((length, 0)), &input);
                for a in all {
                    let what = match (a.old.0 != a.new.0, a.old.1 != a.new.1) {
                        (true, true) => "both raised",
                        (true, false) => "width raised",
                        _ => "depth raised",
                    };
                    self.note("Mend", of_form(file, what));
                }
                of_form(file, if lines == 0 { "accepted as it is" } else { "mended" })
            }
            Err(r) => {
                let answer = of_form(file, &named(&Err(r)));
                if !all.is_empty() && r.number != 1 {
                    self.note("Mend", format!("mended, then {answer}"));
                }
                answer
            }
        };
        self.count("Mend", answer);
    }

    /// Strip; a row whole, and the same row cut at each of its bytes.
    fn strip(&mut self, rng: &mut Rng, cells: &[Cell], positions: &[i32]) {
        let (row, first) = (some_row(rng), some_column(rng, cells, positions));
        let length = if rng.once_in(50) { rng.pick(&[0, 100]) } else { rng.index(13) };
        let mut theirs = vec![rng.next() as u8; length];
        let before = theirs.clone();
        let table = self.rooms.table.lend(&records(cells), rng.once_in(2));
        let lent = self.rooms.positions.lend(positions, rng.once_in(2));
        let ours = self.rooms.out.lend(&theirs, rng.once_in(2));
        let refused = |r: bindings::Refusal| Refusal { number: r.number as u32, cell: r.cell as u32 };
        let got = bindings::strip(table, lent, row, first, ours).map_err(refused);
        let mut parts = Vec::new();
        for cut in 0..=length {
            let mut joined = before.clone();
            let (left, right) = joined.split_at_mut(cut);
            let Some(second) = first.checked_add(8 * cut as u32) else { break };
            let halves = [bindings::strip(table, lent, row, first, left), bindings::strip(table, lent, row, second, right)];
            parts.push((halves.map(|h| h.map_err(refused)), joined));
        }
        let (table, lent, ours) = (table.to_vec(), lent.to_vec(), ours.to_vec());
        let expected = reference::strip(cells, positions, row, first, &mut theirs);
        let input = (row, first, length, positions, cells);
        self.same("Strip's answer", &got, &expected, &input);
        self.same("the bytes after Strip", &ours, &theirs, &input);
        self.same("the buffers after Strip", &(lent.as_slice(), table), &(positions, records(cells)), &input);
        for (cut, (halves, joined)) in parts.iter().enumerate() {
            self.same("the answers for a strip cut in two", halves, &[expected, expected], &(cut, input));
            self.same("a strip cut in two", joined, &theirs, &(cut, input));
        }
        self.note_widths("Strip", cells, &expected);
        self.note_coordinates("Strip", positions, cells.len(), &expected);
        if expected.is_ok() {
            self.note_strip(positions, row, first, parts.len() <= length, &theirs);
        }
        self.count("Strip", named(&expected));
    }

    /// What is to be seen in strips.
    fn note_strip(&mut self, positions: &[i32], row: u32, first: u32, past: bool, bytes: &[u8]) {
        let blank = bytes.iter().all(|b| *b == 0);
        let seen = [
            ("no byte", bytes.is_empty()),
            ("blank", blank && !bytes.is_empty()),
            ("whole bytes", bytes.contains(&255)),
            ("points, first column odd", !blank && first % 2 == 1),
            ("points, least x not 0", !blank && positions.iter().step_by(2).min() != Some(&0)),
            ("points below row 255", !blank && row > 255),
            ("past the last column that fits", past),
            ("row of 32 bits", row == u32::MAX),
        ];
        for (what, is) in seen {
            if is {
                self.note("Strip", what);
            }
        }
    }

    fn drill(&mut self, rng: &mut Rng, cells: &[Cell], answers: &[u8]) {
        let room = if rng.once_in(40) { RECORDS - 1 - rng.index(2) } else { RECORDS + rng.index(3) * rng.index(40) };
        let mut theirs = vec![rng.next() as u16; room];
        let at_end = rng.once_in(2);
        let ours = self.rooms.list.lend(&theirs, at_end);
        let lent = self.rooms.answers.lend(answers, at_end);
        let table = self.rooms.table.lend(&records(cells), at_end);
        let got = bindings::drill(table, lent, ours).map_err(|r| Refusal { number: r.number as u32, cell: r.cell as u32 }).map(|d| {
            let outcome = match d.outcome {
                bindings::Outcome::Finished => reference::Outcome::Finished,
                bindings::Outcome::Spent => reference::Outcome::Spent,
                bindings::Outcome::Wrong => reference::Outcome::Wrong,
                bindings::Outcome::Full => reference::Outcome::Full,
            };
            reference::Drill { outcome, used: d.used, records: d.records }
        });
        let (ours, lent, table) = (ours.to_vec(), lent.to_vec(), table.to_vec());
        let input = (answers, room, cells);
        let (expected, met) = reference::drill_met(cells, answers, &mut theirs).map_or_else(|r| (Err(r), Default::default()), |(d, met)| (Ok(d), met));
        self.same("Drill's answer", &got, &expected, &input);
        self.same("the list after Drill", &ours, &theirs, &input);
        self.same("the buffers after Drill", &(lent.as_slice(), table), &(answers, records(cells)), &input);
        met.into_iter().for_each(|what| self.note("Drill", what));
        if let Ok(d) = expected {
            self.note_ranks("Drill", cells, "drilled");
            let edge = [RECORDS - 1, RECORDS].contains(&d.records) && d.outcome == reference::Outcome::Finished;
            if edge {
                self.note("Drill", format!("finished with {}", d.records));
            }
            if answers.len() == ANSWERS {
                self.note("Drill", "4096 answers");
            }
        }
        let answer = match expected {
            Ok(d) => format!("{:?}", d.outcome),
            Err(r) => format!("refused {:2}", r.number),
        };
        self.count("Drill", answer);
    }

    fn report(&mut self, rng: &mut Rng, file: &[u8]) {
        let said = if file.len() < 16 { 9 } else { file[file.len() - 6] as usize };
        let room = if rng.once_in(40) { rng.index(MAX_CELLS) } else { MAX_CELLS + rng.index(20) };
        let scratch = if rng.once_in(60) { SCRATCH - 1 - rng.index(2) } else { SCRATCH + rng.index(3) * rng.index(40) };
        let places = match rng.index(20) {
            0 => (2 * said).saturating_sub(1 + rng.index(3)),
            1..=5 => 2 * said,
            _ => 2 * MAX_CELLS + rng.index(9),
        };
        let pattern = Cell { parent: rng.next() as u16, width: rng.next() as u16, label_start: rng.next() as u16, ..Cell::default() };
        let (x, s) = (rng.next() as i32, rng.next() as u32);
        let (mut table, mut their_scratch, mut theirs) = (vec![pattern; room], vec![s; scratch], vec![x; places]);
        let at_end = rng.once_in(2);
        let lent = self.rooms.file.lend(file, at_end);
        let our_table = self.rooms.table.lend(&records(&table), at_end);
        let our_scratch = self.rooms.scratch.lend(&their_scratch, at_end);
        let ours = self.rooms.positions.lend(&theirs, at_end);
        let got = bindings::report(lent, our_table, our_scratch, ours).map(plain).map_err(|r| Refusal { number: r.number as u32, cell: r.cell as u32 });
        let (lent, our_table, our_scratch, ours) = (lent.to_vec(), our_table.to_vec(), our_scratch.to_vec(), ours.to_vec());
        let expected = reference::report(file, &mut table, &mut their_scratch, &mut theirs);
        let input = (room, scratch, places, file);
        self.same("Report's answer", &got, &expected, &input);
        self.same("the table after Report", &our_table, &records(&table), &input);
        self.same("the scratch after Report", &our_scratch, &their_scratch, &input);
        self.same("the positions after Report", &ours, &theirs, &input);
        self.same("the file after Report", &lent.as_slice(), &file, &file);
        if let Ok(r) = expected {
            self.season.push((r.cells, r.widths, r.areas / r.widths));
            if self.season.len() == 24 {
                self.folders(rng);
                self.season.clear();
            }
        }
        if matches!(expected, Err(Refusal { number: 1, .. })) && room >= MAX_CELLS && scratch >= SCRATCH {
            self.note("Report", "positions too few");
        }
        self.count("Report", of_form(file, &named(&expected.map(|_| ()))));
    }

    /// The latest real plans in three folders, pooled in every order; with the report of no plan as well.
    fn folders(&mut self, rng: &mut Rng) {
        let plans = self.season.clone();
        let (i, j) = (rng.index(plans.len()), rng.index(plans.len()));
        let parts = [&plans[..i.min(j)], &plans[i.min(j)..i.max(j)], &plans[i.max(j)..]].map(|p| engines(&reference::Report::of(p)));
        let all = Ok(reference::Report::of(&plans));
        for [a, b, c] in [[0, 1, 2], [0, 2, 1], [1, 0, 2], [1, 2, 0], [2, 0, 1], [2, 1, 0]] {
            let both = |a, b| bindings::pool(a, b).expect("a pool of real plans");
            let left = bindings::pool(both(parts[a], parts[b]), parts[c]).map(plain);
            let right = bindings::pool(parts[a], both(parts[b], parts[c])).map(plain);
            self.same("a pool of a pool, left", &left, &all, &plans);
            self.same("a pool of a pool, right", &right, &all, &plans);
        }
        let none = bindings::pool(engines(&reference::Report::of(&plans)), bindings::Report::default()).map(plain);
        self.same("a pool with no plan", &none, &all, &plans);
        self.note("Pool", "pools of pools");
    }

    /// Reports that nobody's plans make: at each limit and past it, no plan with a figure that is not 0.
    fn made_up(&mut self, rng: &mut Rng) {
        let (a, b) = (some_report(rng), some_report(rng));
        let expected = reference::pool(a, b);
        for (x, y) in [(a, b), (b, a)] {
            let got = bindings::pool(engines(&x), engines(&y)).map(plain).map_err(|r| Refusal { number: r.number as u32, cell: r.cell as u32 });
            self.same("Pool's answer", &got, &expected, &(x, y));
        }
        for r in [a, b] {
            if let Some(what) = edge(&r) {
                self.note("Pool", format!("{what} {}", if reference::pool(r, reference::Report::default()).is_ok() { "passes" } else { "refused 22" }));
            }
        }
        if [a.plans, b.plans] == [512, 512] && expected.is_ok() {
            self.note("Pool", "512 and 512");
        }
        if [a.plans, b.plans] == [512, 513] && expected.is_err_and(|r| r.number == 4) {
            self.note("Pool", "512 and 513");
        }
        self.count("Pool", named(&expected.map(|_| ())));
    }

    /// A file of either form, valid or damaged, through Read, Label, List, Copy, Mend and Report.
    fn a_file(&mut self, rng: &mut Rng) {
        let form = rng.pick(&FORMS);
        let mut cells = if rng.once_in(10) { make::too_tall(rng) } else { some_table(rng) };
        make::fit(form, &mut cells);
        let labels = make::labels(rng, &mut cells);
        if rng.once_in(3) {
            make::damage_table(rng, &mut cells);
        }
        if rng.once_in(4) {
            self.copy_of_any(rng, &cells, &labels);
        }
        if rng.once_in(4) {
            let mut tight = cells.clone();
            if !tight.is_empty() {
                make::cramp(rng, &mut tight);
            }
            let cramped = make::file(form, &labels, &tight, rng.next() as u16);
            self.mend(rng, &cramped);
        }
        let mut file = make::file(form, &labels, &cells, rng.next() as u16);
        let mut mixed = false;
        match rng.index(13) {
            0..=3 => {}
            4 => file = make::noise(rng, 80),
            5 => {
                // At the edges of the file's length.
                let len = rng.pick(&[15, 16, 17, 18, 16_383, 16_384, 16_385]) as usize;
                let n = 1.max((len.saturating_sub(8) / form.size()).min(rng.between(1, 20) as usize));
                let one = Cell { parent: 65_535, kind: 1, width: 2, depth: 1, ..Cell::default() };
                let many: Vec<Cell> = (0..n).map(|i| if i == 0 { one } else { Cell { parent: 0, ..one } }).collect();
                let room = len.saturating_sub(form.size() * n + 8);
                file = make::file(form, &vec![b'a'; room], &many, 0);
                file.drain(..file.len().saturating_sub(len));
            }
            6 => {
                // Short labels in a wide box, with a byte that is not allowed now and then.
                if !labels.is_empty() {
                    let i = rng.index(labels.len());
                    file[i] = rng.pick(&[31, 32, 126, 127, 0, 255]);
                }
            }
            7 => {
                mixed = true;
                make::mix_up(rng, form, labels.len(), cells.len(), &mut file);
            }
            _ => {
                for _ in 0..rng.between(1, 2) {
                    make::damage_file(rng, &mut file);
                }
            }
        }
        let answer = self.read(rng, &file);
        if mixed {
            self.note("Read", format!("mixed {answer}"));
        }
        self.labels(rng, &file);
        self.list(rng, &file);
        if rng.once_in(4) {
            self.mend(rng, &file);
        }
        if reference::read(&file, &mut [Cell::default(); MAX_CELLS]).is_ok() && rng.once_in(4) {
            self.copies(rng, &file);
        }
        self.report(rng, &file);
        self.made_up(rng);
    }

    /// Copy of a table that may be damaged, with label bytes that may be, under any allowance.
    fn copy_of_any(&mut self, rng: &mut Rng, cells: &[Cell], labels: &[u8]) {
        let (mut cells, mut letters) = (cells.to_vec(), labels.to_vec());
        match rng.index(12) {
            0 if !letters.is_empty() => {
                let i = rng.index(letters.len());
                letters[i] = rng.pick(&[31, 32, 126, 127, 0, 255]);
            }
            1 => letters.resize(rng.pick(&[0, COPY, COPY + 1, 19_000]), b'~'),
            2 => cells.resize(255 + rng.index(4), Cell { parent: 0, kind: 1, width: 1, depth: 1, ..Cell::default() }),
            _ => {}
        }
        let allowance = if rng.once_in(10) { rng.pick(&[65_535, 65_536, 100_000, u32::MAX]) } else { make::allowance(rng) };
        self.copy(rng, &cells, &letters, allowance);
    }

    /// One step, with the scratches as they are: its answer, and the three buffers afterwards.
    fn step(&mut self, table: &[Record], allowance: u32, lent: &mut Lent) -> Result<bindings::Step, Refusal> {
        let table = self.rooms.table.lend(table, lent.at_end);
        let scratch = self.rooms.scratch.lend(&lent.scratch, lent.at_end);
        let second = self.rooms.making.lend(&lent.second, lent.at_end);
        let positions = self.rooms.positions.lend(&lent.positions, lent.at_end);
        let got = bindings::step(table, allowance, scratch, second, positions).map_err(|r| Refusal { number: r.number as u32, cell: r.cell as u32 });
        (lent.scratch, lent.second, lent.positions) = (scratch.to_vec(), second.to_vec(), positions.to_vec());
        got
    }

    /// A reading, which alters nothing.
    fn reach(&mut self, table: &[Record], allowance: u32, lent: &Lent, cell: usize) -> Result<(u32, u32), Refusal> {
        let table = self.rooms.table.lend(table, lent.at_end);
        let scratch = self.rooms.scratch.lend(&lent.scratch, lent.at_end);
        let second = self.rooms.making.lend(&lent.second, lent.at_end);
        let got = bindings::reach(table, allowance, scratch, second, cell)
            .map(|r| (r.left, r.right))
            .map_err(|r| Refusal { number: r.number as u32, cell: r.cell as u32 });
        let (scratch, second) = (scratch.to_vec(), second.to_vec());
        self.same("the scratches after Reach", &(&scratch, &second), &(&lent.scratch, &lent.second), &cell);
        got
    }

    /// A whole run from a start: every step, readings between all of them, a further step.
    fn making(&mut self, rng: &mut Rng, cells: &[Cell], allowance: u32) {
        let table = records(cells);
        let mut lent = Lent::new(rng, cells.len());
        let before = lent.clone();
        let (our_scratch, our_second) = (self.rooms.scratch.lend(&lent.scratch, lent.at_end), self.rooms.making.lend(&lent.second, lent.at_end));
        let began = bindings::start(self.rooms.table.lend(&table, lent.at_end), allowance, our_scratch, our_second)
            .map_err(|r| Refusal { number: r.number as u32, cell: r.cell as u32 });
        (lent.scratch, lent.second) = (our_scratch.to_vec(), our_second.to_vec());
        let asked = making::ask(cells, allowance, lent.scratch.len(), lent.second.len(), usize::MAX);
        let expected = asked.as_ref().map(|_| ()).map_err(|r| *r);
        self.same("Start's answer", &began, &expected, &(allowance, cells));
        let mut cleared = before.clone();
        if expected.is_ok() {
            cleared.scratch[..SCRATCH].fill(0);
            cleared.second[..SECOND].fill(0);
        }
        self.same("the scratches after Start", &(&lent.scratch, &lent.second), &(&cleared.scratch, &cleared.second), &cells);
        self.count("Start", if expected.is_ok() { "begun".into() } else { named(&expected) });
        let plan = match asked {
            Ok(plan) => plan,
            Err(r) => return self.refused_alike(&table, allowance, &mut lent, r, cells),
        };
        let (order, reaches) = (making::order(&plan), making::reaches(&plan, allowance));
        let short = lent.positions.len() < 2 * cells.len();
        for made in 0..=order.len() {
            for cell in [rng.index(cells.len()), rng.index(cells.len() + 2), order[made.min(order.len() - 1)], rng.next() as usize] {
                let got = self.reach(&table, allowance, &lent, cell);
                let wanted = match making::ask_reach(cells, allowance, lent.scratch.len(), lent.second.len(), cell) {
                    Err(r) => Err(r),
                    Ok(_) if order[..made].contains(&cell) => Ok(reaches[cell]),
                    Ok(_) => Err(Refusal { number: 20, cell: cell as u32 }),
                };
                self.same("Reach's answer", &got, &wanted, &(made, cell, allowance, cells));
                self.count("Reach", if wanted.is_ok() { "sides".into() } else { named(&wanted.map(|_| ())) });
            }
            let kept = lent.clone();
            if short || (made + 1 == order.len() && rng.once_in(3)) {
                lent.positions.truncate(2 * cells.len() - 1);
                let few = lent.clone();
                let got = self.step(&table, allowance, &mut lent);
                self.same("Step's answer with few positions", &got, &Err(Refusal { number: 1, cell: 0 }), &(made, cells));
                self.same("the buffers after that", &lent, &few, &(made, cells));
                self.count("Step", "refused  1".into());
                if short {
                    return;
                }
                self.note("Step", "short at the last");
                lent.positions = kept.positions.clone();
            }
            let got = self.step(&table, allowance, &mut lent);
            let wanted = if made < order.len() { bindings::Step::Finished(order[made] as u16) } else { bindings::Step::Done };
            self.same("Step's answer", &got, &Ok(wanted), &(made, allowance, cells));
            let mut positions = kept.positions.clone();
            if made + 1 == order.len() {
                let _ = reference::layout(cells, allowance, &mut positions, &mut vec![0; SCRATCH]);
            }
            self.same("the positions after Step", &lent.positions, &positions, &(made, allowance, cells));
            self.same("the scratches beyond", &(&lent.scratch[SCRATCH..], &lent.second[SECOND..]), &(&before.scratch[SCRATCH..], &before.second[SECOND..]), &made);
            if made == order.len() {
                self.same("the buffers after \"done\"", &lent, &kept, &(made, cells));
            }
            self.count("Step", if made < order.len() { "finished".into() } else { "done".into() });
        }
    }

    /// What refuses a start refuses a step and a reading, and alters nothing.
    fn refused_alike(&mut self, table: &[Record], allowance: u32, lent: &mut Lent, start: Refusal, cells: &[Cell]) {
        let kept = lent.clone();
        let expected = making::ask(cells, allowance, lent.scratch.len(), lent.second.len(), lent.positions.len()).map(|_| ());
        let got = self.step(table, allowance, lent).map(|_| ());
        self.same("Step's refusal", &got, &expected, &(allowance, cells));
        self.same("the buffers after a refused Step", lent, &kept, &cells);
        self.count("Step", named(&expected));
        let got = self.reach(table, allowance, lent, 0).map(|_| ());
        self.same("Reach's refusal", &got, &Err(start), &(allowance, cells));
        self.count("Reach", named(&Err(start)));
    }

    /// Scratches that no start made: the answers are free, but the questions are not, a refusal alters nothing, nor does "done".
    fn tampered(&mut self, rng: &mut Rng, cells: &[Cell], allowance: u32) {
        let table = records(cells);
        let mut lent = Lent::new(rng, cells.len());
        let most = rng.pick(&[2, 200, 65_536, 262_144, 1 << 32]);
        for number in lent.scratch.iter_mut().chain(lent.second.iter_mut()) {
            *number = (rng.next() % most) as u32;
        }
        if lent.scratch.len() > 63 {
            lent.scratch[63] = rng.index(cells.len() + 2) as u32;
        }
        if rng.once_in(2) && lent.scratch.len() > 63 {
            // A sheet that is being made, with one number altered.
            let (mut s, mut m) = (vec![0; lent.scratch.len()], vec![0; lent.second.len()]);
            if bindings::start(&table, allowance, &mut s, &mut m).is_ok() {
                for _ in 0..rng.index(cells.len() + 1) {
                    let _ = bindings::step(&table, allowance, &mut s, &mut m, &mut vec![0; 512]);
                }
                let (a, b) = (rng.index(s.len()), rng.index(m.len()));
                s[a] = lent.scratch[a];
                m[b] = lent.second[b];
                (lent.scratch, lent.second) = (s, m);
            }
        }
        for _ in 0..3 {
            let kept = lent.clone();
            let cell = rng.index(cells.len() + 2);
            let expected = making::ask_reach(cells, allowance, lent.scratch.len(), lent.second.len(), cell).map(|_| ());
            match (self.reach(&table, allowance, &lent, cell), expected) {
                (Ok(_), Ok(())) => self.note("Noise", "noise sides"),
                (Err(r), Ok(())) => {
                    self.same("Reach's refusal on noise", &r, &Refusal { number: 20, cell: cell as u32 }, &cells);
                    self.note("Noise", "noise refused 20");
                }
                (got, wanted) => self.same("Reach's refusal on noise", &got.map(|_| ()), &wanted, &cells),
            }
            let expected = making::ask(cells, allowance, lent.scratch.len(), lent.second.len(), lent.positions.len()).map(|_| ());
            match (self.step(&table, allowance, &mut lent), expected) {
                (Ok(bindings::Step::Finished(_)), Ok(())) => self.note("Noise", "noise finished"),
                (Ok(bindings::Step::Done), Ok(())) => {
                    self.same("the buffers after \"done\" on noise", &lent, &kept, &cells);
                    self.note("Noise", "noise done");
                }
                (got, wanted) => {
                    self.same("Step's refusal on noise", &got.map(|_| ()), &wanted, &cells);
                    self.same("the buffers after a refusal on noise", &lent, &kept, &cells);
                    self.note("Noise", "noise refused");
                }
            }
        }
    }

    /// A table, valid or damaged, through Layout, Check, Ends, Strip, Frame, Drill, the steps of a sheet that is being made, Mark and the rest that take one.
    fn a_table(&mut self, rng: &mut Rng) {
        let widest = rng.once_in(1_000);
        let mut cells = match () {
            _ if widest => make::widest(rng),
            _ if rng.once_in(30) => make::too_tall(rng),
            _ if rng.once_in(12) => make::facing(rng),
            _ => some_table(rng),
        };
        let mut allowance = if widest { 0 } else { make::allowance(rng) };
        let mut valid = reference::layout(&cells, 0, &mut vec![0; 512], &mut vec![0; SCRATCH]).is_ok();
        if !widest && rng.once_in(3) {
            for _ in 0..rng.between(1, 2) {
                if !cells.is_empty() {
                    make::damage_table(rng, &mut cells);
                }
            }
            valid = false;
        }
        if rng.once_in(60) {
            cells.resize(255 + rng.index(4), Cell { parent: 0, kind: 1, width: 1, depth: 1, ..Cell::default() });
            valid = false;
        }
        if rng.once_in(40) {
            allowance = rng.pick(&[65_536, 65_537, 100_000, u32::MAX]);
        }
        let ours = self.layout(rng, &cells, allowance);
        if let Ok(reference::Verdict::Kept(_)) = self.check(rng, &cells, &ours, allowance) {
            self.one_off(rng, &cells, &ours, allowance);
        }
        let foreign = if valid {
            let mut p = make::foreign(rng, &cells, allowance.min(65_535));
            p.extend((0..rng.index(4)).map(|_| 300_000));
            p
        } else {
            let far = rng.pick(&[70_000, 262_144, 300_000]);
            (0..2 * cells.len() + rng.index(3)).map(|_| rng.between(-far, far) as i32).collect()
        };
        let under = if rng.once_in(4) { make::allowance(rng) } else { allowance };
        let _ = self.check(rng, &cells, &foreign, under);
        for cell in [rng.index(cells.len() + 2), rng.index(cells.len() + 1), rng.next() as usize] {
            let positions = if rng.once_in(2) { &ours } else { &foreign };
            self.ends(rng, &cells, positions, cell);
        }
        for _ in 0..2 {
            let positions = if rng.once_in(2) { &ours } else { &foreign };
            self.strokes(rng, &cells, positions);
        }
        // Boxes anywhere, over each other, some of them above row 0.
        let heap: Vec<i32> = (0..2 * cells.len()).map(|k| rng.between(-30 + 26 * (k as i64 % 2), 30) as i32).collect();
        let low: Vec<i32> = (0..2 * cells.len()).map(|k| if k % 2 == 0 { 0 } else { 250 + rng.index(20) as i32 }).collect();
        for positions in [&ours, &foreign, &heap, if rng.once_in(8) { &low } else { &heap }] {
            self.strip(rng, &cells, positions);
        }
        // A large plan's seventeen sheets take the reference long.
        if cells.len() <= 60 || rng.once_in(4) {
            self.frame(rng, &cells);
        }
        let answers = some_answers(rng, &cells);
        self.drill(rng, &cells, &answers);
        if rng.once_in(100) {
            let (plan, answers) = near_full(rng);
            self.drill(rng, &plan, &answers);
        }
        // A step costs the reference nothing, but the copies of both scratches cost time.
        if rng.once_in(40) {
            self.making(rng, &cells, allowance);
            self.tampered(rng, &cells, allowance);
        }
        // A mark is a verdict and, of what is kept, a sheet, which of a large plan take the reference long.
        if rng.once_in(if cells.len() <= 60 { 2 } else { 8 }) {
            self.marks(rng, &cells, &ours, &foreign, allowance);
        }
    }
}

/// The three buffers of a sheet that is being made, and at which end of their pages they stand.
#[derive(Clone, Debug, PartialEq)]
struct Lent {
    scratch: Vec<u32>,
    second: Vec<u32>,
    positions: Vec<i32>,
    at_end: bool,
}

impl Lent {
    fn new(rng: &mut Rng, cells: usize) -> Lent {
        let scratch = if rng.once_in(60) { SCRATCH - 1 - rng.index(2) } else { SCRATCH + rng.index(2) * rng.index(40) };
        let second = if rng.once_in(60) { SECOND - 1 - rng.index(2) } else { SECOND + rng.index(2) * rng.index(40) };
        let room = if rng.once_in(40) { (2 * cells).saturating_sub(1 + rng.index(3)) } else { 2 * cells + rng.index(9) };
        let (s, m, x) = (rng.next() as u32, rng.next() as u32, rng.next() as i32);
        Lent { scratch: vec![s; scratch], second: vec![m; second], positions: vec![x; room], at_end: rng.once_in(2) }
    }
}

/// A row of the sheet, or near it; now and then any, or the last.
fn some_row(rng: &mut Rng) -> u32 {
    match rng.index(20) {
        0 => rng.next() as u32,
        1 => u32::MAX,
        2..=4 => 240 + rng.index(40) as u32,
        5..=9 => rng.index(40) as u32,
        _ => rng.index(8) as u32,
    }
}

/// A first column at the sheet's beginning, at a box's edge, near the last that there is, or any.
fn some_column(rng: &mut Rng, cells: &[Cell], positions: &[i32]) -> u32 {
    let least = positions.iter().take(2 * cells.len()).step_by(2).min().copied().unwrap_or(0) as i64;
    match rng.index(20) {
        0 => rng.next() as u32,
        1 => u32::MAX - rng.index(100) as u32,
        2..=7 => 0,
        8..=13 => rng.index(40) as u32,
        _ => {
            let cell = rng.index(cells.len().max(1));
            let x = positions.get(2 * cell).copied().unwrap_or(0) as i64;
            let edge = if rng.once_in(2) { cells.get(cell).map_or(0, |c| c.width as i64) } else { 0 };
            (x - least + edge + rng.between(-20, 2)).clamp(0, u32::MAX as i64) as u32
        }
    }
}

impl Run {
    /// Two plans, valid or damaged, and a cell: joined, and laid out.
    fn a_join(&mut self, rng: &mut Rng) {
        let (mut first, mut second, cell) = some_pair(rng);
        for c in first.iter_mut().chain(&mut second) {
            (c.label_len, c.label_start) = (rng.next() as u8, rng.next() as u16);
        }
        let shared = rng.once_in(20);
        if shared {
            second = first.clone();
        }
        let room = if rng.once_in(30) { MAX_CELLS - 1 - rng.index(3) } else { MAX_CELLS + rng.index(3) * rng.index(20) };
        let fill = Cell { parent: rng.next() as u16, kind: rng.next() as u8, rank: rng.next() as u8, width: rng.next() as u16, ..Cell::default() };
        let mut theirs = vec![fill; room];
        let at_end = rng.once_in(2);
        let lent = self.rooms.table.lend(&records(&first), at_end);
        let other = self.rooms.second.lend(&records(&second), at_end);
        let ours = self.rooms.joined.lend(&records(&theirs), at_end);
        let got = bindings::join(lent, if shared { lent } else { other }, cell, ours).map_err(|r| Refusal { number: r.number as u32, cell: r.cell as u32 });
        let (lent, other, ours) = (lent.to_vec(), other.to_vec(), ours.to_vec());
        let expected = reference::join(&first, &second, cell, &mut theirs);
        let input = (cell, room, &first, &second);
        self.same("Join's answer", &got, &expected, &input);
        self.same("the table after Join", &ours, &records(&theirs), &input);
        self.same("the tables lent to Join", &(lent, other), &(records(&first), records(&second)), &input);
        if shared {
            self.note("Join", "same memory");
        }
        self.note_join(&first, &second, cell, &expected);
        self.count("Join", joined_name(&first, &second, &expected));
        if expected.is_ok() {
            self.reaches(rng, &theirs[..first.len() + second.len()], &first, &second, cell);
        }
    }

    /// What else is to be seen in a join.
    fn note_join(&mut self, first: &[Cell], second: &[Cell], cell: usize, expected: &Result<usize, Refusal>) {
        match expected {
            Ok(256) if first.len() == 128 => self.note("Join", "128 and 128"),
            Err(Refusal { number: 4, .. }) if (first.len(), second.len()) == (200, 57) => self.note("Join", "200 and 57"),
            Err(Refusal { number: 11, cell: at }) if *at as usize == cell && first[cell].kind == 1 => self.note("Join", "under a step"),
            Err(Refusal { number: 11, cell: at }) if *at as usize == cell && first[cell].kind == 2 => self.note("Join", "under a full run"),
            _ => {}
        }
    }

    /// How far sub-diagrams reach in the sheet of the joined plan, and in their own plan's.
    fn reaches(&mut self, rng: &mut Rng, joined: &[Cell], first: &[Cell], second: &[Cell], cell: usize) {
        let allowance = make::allowance(rng);
        let whole = Reaches::of(joined, allowance).expect("a joined plan has a sheet");
        let family = &whole.plan.sons[cell];
        let place = match family.iter().position(|&c| c == first.len()) {
            Some(0) if family.len() > 1 => "root first",
            Some(i) if i + 1 == family.len() => "root last",
            _ => "root between",
        };
        self.note("Join", place);
        let own = Reaches::of(second, allowance).expect("the second plan of a join has a sheet");
        for b in 0..second.len() {
            self.same("the reach of a sub-diagram of the second", &whole.reach(first.len() + b), &own.reach(b), &(b, joined));
        }
        match Reaches::of(first, allowance) {
            Some(own) => {
                for a in (0..first.len()).filter(|&a| !own.plan.under(a, cell)) {
                    self.same("the reach of a sub-diagram of the first", &whole.reach(a), &own.reach(a), &(a, joined));
                }
            }
            None => self.note("Join", "first without a sheet"),
        }
    }
}

/// The sheet that the engine makes of a plan.
struct Reaches {
    plan: reference::Plan,
    xs: Vec<i32>,
}

impl Reaches {
    fn of(cells: &[Cell], allowance: u32) -> Option<Reaches> {
        let mut positions = vec![0; 2 * cells.len()];
        bindings::layout(&records(cells), allowance, &mut vec![0; SCRATCH], &mut positions).ok()?;
        Some(Reaches { plan: reference::Plan::new(cells), xs: positions.iter().step_by(2).copied().collect() })
    }

    /// To the left and to the right of the top cell's x.
    fn reach(&self, top: usize) -> (i32, i32) {
        let cells = self.plan.sub_diagram(top);
        let least = cells.iter().map(|&c| self.xs[c]).min().expect("a cell");
        let most = cells.iter().map(|&c| self.xs[c] + self.plan.cells[c].width as i32).max().expect("a cell");
        (self.xs[top] - least, most - self.xs[top])
    }
}

/// The answer of a join, with the table that it refuses before it.
fn joined_name(first: &[Cell], second: &[Cell], expected: &Result<usize, Refusal>) -> String {
    match expected {
        Ok(_) => "accepted".into(),
        Err(r) if r.number == 1 || r.number == 16 => format!("refused {:2}", r.number),
        Err(r) if reference::ask_part(first).is_err() => format!("first refused {:2}", r.number),
        Err(r) if reference::ask_part(second).is_err() => format!("second refused {:2}", r.number),
        Err(r) => format!("joined refused {:2}", r.number),
    }
}

/// Two plans and a cell of the first: such as join, most often; full tables, full runs, chains that get too long together.
fn some_pair(rng: &mut Rng) -> (Vec<Cell>, Vec<Cell>, usize) {
    let last_father = |n: usize| (n - 2) / 16;
    match rng.index(300) {
        0 => return (make::broad(128), make::broad(128), last_father(128)),
        1 => return (make::broad(200), make::broad(57), last_father(200)),
        2 => return (make::broad(17), some_table(rng), 0),
        3 => return (make::chain(20, 1), make::chain(20, 1), rng.between(9, 13) as usize),
        4 => return (make::chain(9, 15), make::chain(9, 15), rng.between(3, 7) as usize),
        _ => {}
    }
    let mut first = some_table(rng);
    let mut second = some_table(rng);
    let cell = match rng.index(12) {
        0 => rng.next() as usize,
        1 => rng.index(first.len() + 2),
        _ => {
            let plan = reference::Plan::new(&first);
            let open: Vec<usize> = (0..first.len()).filter(|&c| [2, 4].contains(&first[c].kind) && plan.sons[c].len() < 16 || first[c].kind == 5 && plan.sons[c].is_empty()).collect();
            if open.is_empty() {
                // A run without a son: no sheet of its own.
                first[0].kind = 2;
                0
            } else {
                open[rng.index(open.len())]
            }
        }
    };
    if rng.once_in(6) {
        make::damage_table(rng, &mut first);
    }
    if rng.once_in(6) {
        make::damage_table(rng, &mut second);
    }
    for table in [&mut first, &mut second] {
        if rng.once_in(80) {
            let length = rng.pick(&[0, 257, 300]);
            table.resize(length, Cell { parent: 0, kind: 1, width: 1, depth: 1, ..Cell::default() });
        }
    }
    (first, second, cell)
}

fn plain(r: bindings::Report) -> reference::Report {
    reference::Report {
        plans: r.plans as u64,
        cells: r.cells as u64,
        widths: r.widths as u64,
        areas: r.areas,
        least: r.least as u64,
        greatest: r.greatest as u64,
        mean: r.mean as u64,
        rest: r.rest as u64,
    }
}

fn engines(r: &reference::Report) -> bindings::Report {
    bindings::Report {
        plans: r.plans as u32,
        cells: r.cells as u32,
        widths: r.widths as u32,
        areas: r.areas,
        least: r.least as u32,
        greatest: r.greatest as u32,
        mean: r.mean as u32,
        rest: r.rest as u32,
    }
}

/// A report of some plans at or about its limits; of no plan, now and then with one figure that is not 0.
fn some_report(rng: &mut Rng) -> reference::Report {
    let plans = rng.pick(&[0, 0, 1, 2, 511, 512, 512, 513, 513, 1_023, 1_024, 1_025, u32::MAX as u64]);
    let mut r = reference::Report { plans, ..Default::default() };
    if plans == 0 {
        let one = rng.pick(&[1, u32::MAX as u64]);
        match rng.index(14) {
            0 => r.cells = one,
            1 => r.widths = one,
            2 => r.areas = one,
            3 => r.least = one,
            4 => r.greatest = one,
            5 => r.mean = one,
            6 => r.rest = one,
            _ => {}
        }
        return r;
    }
    let mut near = |most: u64, type_most: u64| match rng.index(24) {
        0 => (most * plans).min(type_most),
        1 => (most * plans).saturating_add(1).min(type_most),
        2 => type_most,
        _ => rng.next() % (most.min(5_000) * plans.min(1_024) + 1),
    };
    r.cells = near(256, u32::MAX as u64);
    r.widths = near(262_143, u32::MAX as u64);
    r.areas = near(67_108_608, u64::MAX);
    for figure in [&mut r.least, &mut r.greatest, &mut r.mean, &mut r.rest] {
        *figure = rng.next() % (1 << 32);
    }
    r
}

/// Which limit a report stands at, or one past it.
fn edge(r: &reference::Report) -> Option<String> {
    if r.plans == 0 {
        let figures = [("cells", r.cells), ("widths", r.widths), ("areas", r.areas), ("least", r.least), ("greatest", r.greatest), ("mean", r.mean), ("rest", r.rest)];
        return figures.iter().find(|f| f.1 != 0).map(|f| format!("no plan, {}", f.0));
    }
    if r.plans > 1_024 {
        return (r.plans == 1_025).then(|| "1025 plans".into());
    }
    for (name, figure, most) in [("cells", r.cells, 256), ("widths", r.widths, 262_143), ("areas", r.areas, 67_108_608)] {
        if figure == most * r.plans {
            return Some(format!("{name} at most"));
        }
        if figure == most * r.plans + 1 {
            return Some(format!("{name} past"));
        }
    }
    None
}

/// A frame about as wide as the plan's sheet for some allowance, or any, or none at all.
fn some_frame(rng: &mut Rng, cells: &[Cell]) -> u32 {
    match rng.index(12) {
        0 => 0,
        1 => u32::MAX,
        2 => {
            let most = rng.pick(&[400, 2_000, 300_000]);
            rng.between(1, most) as u32
        }
        _ => {
            let laid = reference::layout(cells, make::allowance(rng), &mut vec![0; 512], &mut vec![0; SCRATCH]);
            laid.map_or(1, |m| m.width) - rng.pick(&[0, 0, 1]) + rng.pick(&[0, 0, 1])
        }
    }
}

/// Answers that follow the plan for a while, where it is one, with a byte that is none now and then; or any bytes.
fn some_answers(rng: &mut Rng, cells: &[Cell]) -> Vec<u8> {
    let mut answers: Vec<u8> = Vec::new();
    let plan = reference::layout(cells, 0, &mut vec![0; 512], &mut vec![0; SCRATCH]).ok().map(|_| reference::Plan::new(cells));
    // The cells still to do, the next one last.
    let mut to_do: Vec<usize> = if plan.is_some() { vec![0] } else { Vec::new() };
    let most = rng.pick(&[3, 10, 40, 40, 400]) as usize;
    let counts = rng.pick(&[[0u8, 1, 2, 3], [1, 1, 2, 255], [0, 1, 255, 255]]);
    while let (Some(plan), Some(cell)) = (&plan, to_do.pop()) {
        if answers.len() >= most || to_do.len() > 20_000 {
            break;
        }
        let sons: Vec<usize> = plan.sons[cell].iter().rev().copied().collect();
        let byte = match cells[cell].kind {
            1 => continue,
            2 => {
                to_do.extend(&sons);
                continue;
            }
            3 => rng.pick(&counts),
            4 => rng.index(sons.len()) as u8,
            _ => rng.index(2) as u8,
        };
        match cells[cell].kind {
            3 => to_do.extend(std::iter::repeat_n(sons[0], byte as usize)),
            4 => to_do.push(sons[sons.len() - 1 - byte as usize]),
            _ if byte == 1 => to_do.extend(&sons),
            _ => {}
        }
        answers.push(byte);
    }
    if rng.once_in(6) && !answers.is_empty() {
        let i = rng.index(answers.len());
        answers[i] = rng.pick(&[2, 16, 17, 255]);
    }
    match rng.index(20) {
        0 => answers.truncate(rng.index(answers.len() + 1)),
        1..=4 => answers.extend(make::noise(rng, 30)),
        5 => answers.resize(rng.pick(&[ANSWERS as u64 - 1, ANSWERS as u64, ANSWERS as u64 + 1, ANSWERS as u64 + 100]) as usize, rng.pick(&[0, 1])),
        6 => answers = make::noise(rng, 300),
        _ => {}
    }
    answers
}

/// A run of repeats of a step and a wait at its end, and answers that end with 4,095, 4,096 or more records.
fn near_full(rng: &mut Rng) -> (Vec<Cell>, Vec<u8>) {
    let cell = |parent, kind| Cell { parent, kind, width: 4, depth: 1, ..Cell::default() };
    let mut plan = vec![cell(65_535, 2)];
    let mut answers = Vec::new();
    for k in 0..16 {
        let at = plan.len() as u16;
        if k < 15 {
            plan.extend([cell(0, 3), cell(at, 1)]);
            answers.push(255);
        } else {
            plan.extend([cell(0, 2), cell(at, 3), cell(at + 1, 1), cell(at, 3), cell(at + 3, 1), cell(at, 5)]);
            answers.extend([255, rng.pick(&[14, 15, 16, 17, 255]), rng.index(2) as u8]);
        }
    }
    if rng.once_in(4) {
        answers.pop();
    }
    (plan, answers)
}

/// Where a part of a file begins, and its length.
fn place_of(part: &[u8], file: &[u8]) -> (usize, usize) {
    (part.as_ptr() as usize - file.as_ptr() as usize, part.len())
}

/// The answer with the form of the file before it, where question 3 was passed.
fn of_form(file: &[u8], answer: &str) -> String {
    let early = ["refused  1", "refused  2", "refused  3", "prints    2", "prints    3"].contains(&answer);
    match Form::of(file) {
        Some(form) if !early => format!("{form:?} {answer}"),
        _ => answer.into(),
    }
}

/// Whether a record of a wide file has a width one past the greatest.
fn is_too_wide(file: &[u8], cell: usize) -> bool {
    if Form::of(file) != Some(Form::Wide) {
        return false;
    }
    let trailer = &file[file.len() - 8..];
    let begin = trailer[0] as usize + 256 * trailer[1] as usize;
    let record = &file[begin + Form::Wide.size() * cell..];
    record[4] as u16 + 256 * record[5] as u16 == MAX_WIDTH + 1
}

/// The table, the label bytes and the allowance of a file that Read accepts.
fn parts_of(file: &[u8]) -> (Vec<Cell>, &[u8], u32) {
    let mut table = vec![Cell::default(); MAX_CELLS];
    let (n, allowance) = reference::read(file, &mut table).expect("a file that is accepted");
    table.truncate(n as usize);
    let trailer = &file[file.len() - 8..];
    (table, &file[..trailer[0] as usize + 256 * trailer[1] as usize], allowance)
}

fn judged(r: &Result<reference::Verdict, Refusal>) -> String {
    match r {
        Ok(reference::Verdict::Kept(_)) => "kept".into(),
        Ok(reference::Verdict::Broken { rule, .. }) => format!("broken S{rule}"),
        Err(r) => named(&Err(*r)),
    }
}

fn named(r: &Result<(), Refusal>) -> String {
    match r {
        Ok(()) => "accepted".into(),
        Err(r) => format!("refused {:2}", r.number),
    }
}

/// What a listing says: a sheet, or the number of a refusal.
fn printed(listing: &[u8]) -> String {
    let text = String::from_utf8_lossy(listing);
    let mut words = text.split_whitespace();
    match (words.next(), words.next()) {
        (Some("refused"), Some(number)) => format!("prints {number:>4}"),
        _ => "prints sheet".into(),
    }
}

/// Mostly small plans; now and then one of up to 256 cells.
fn some_table(rng: &mut Rng) -> Vec<Cell> {
    let most = match rng.index(400) {
        0 => MAX_CELLS,
        1..=10 => 90,
        11..=120 => 30,
        _ => 12,
    };
    let n = rng.between(1, most as i64) as usize;
    make::any_table(rng, n)
}

/// The answers that each call can give: all must have been seen in a long run.
fn unseen(seen: &Seen) -> Vec<String> {
    let mut all: Vec<(&str, String)> = Vec::new();
    let refusals: [(&str, &[u32]); 19] = [
        ("Read", &[1, 2, 3]),
        ("Label", &[2, 3]),
        ("Layout", &[1, 4, 6, 7, 8, 11, 12, 13, 14]),
        ("Check", &[1, 4, 6, 7, 8, 11, 12, 13, 14, 15]),
        ("Ends", &[1, 4, 6, 7, 8, 11, 12, 13, 15, 16]),
        ("List", &[1]),
        ("Frame", &[1, 4, 6, 7, 8, 11, 12, 13, 19]),
        ("Mark", &[1, 4, 6, 7, 8, 11, 12, 13, 14, 15]),
        ("Copy", &[1, 4, 5, 6, 7, 8, 9, 10, 11, 12, 13, 14]),
        ("Mend", &[1, 2, 3]),
        ("Stroke", &[1, 4, 6, 7, 8, 11, 12, 13, 15, 17, 18]),
        ("Strip", &[1, 4, 6, 7, 8, 11, 12, 13, 15]),
        ("Join", &[1, 16]),
        ("Drill", &[1, 4, 6, 7, 8, 11, 12, 13, 21]),
        ("Start", &[1, 4, 6, 7, 8, 11, 12, 13, 14]),
        ("Step", &[1, 4, 6, 7, 8, 11, 12, 13, 14]),
        ("Reach", &[1, 4, 6, 7, 8, 11, 12, 13, 14, 16, 20]),
        ("Report", &[1, 2, 3]),
        ("Pool", &[4, 22]),
    ];
    for (call, numbers) in refusals {
        all.extend(numbers.iter().map(|n| (call, format!("refused {n:2}"))));
    }
    all.extend(["Layout", "Ends", "Strip", "Pool"].map(|call| (call, "accepted".into())));
    all.extend(["pools of pools", "512 and 512", "512 and 513", "1025 plans refused 22"].map(|a| ("Pool", a.into())));
    for figure in ["cells", "widths", "areas"] {
        all.extend(["at most passes", "past refused 22"].map(|a| ("Pool", format!("{figure} {a}"))));
    }
    for figure in ["cells", "widths", "areas", "least", "greatest", "mean", "rest"] {
        all.push(("Pool", format!("no plan, {figure} refused 22")));
    }
    all.push(("Report", "positions too few".into()));
    all.extend([2, 3].map(|n| ("List", format!("prints {n:>4}"))));
    for form in FORMS {
        all.extend(["Read", "Label", "Report"].map(|call| (call, format!("{form:?} accepted"))));
        all.extend((4..=13).flat_map(|n| ["Read", "Report"].map(|call| (call, format!("{form:?} refused {n:2}")))));
        all.extend((4..=13).chain([16]).map(|n| ("Label", format!("{form:?} refused {n:2}"))));
        all.push(("List", format!("{form:?} prints sheet")));
        all.push(("Copy", format!("{form:?} copied")));
        all.extend(["accepted as it is", "mended", "width raised", "depth raised", "both raised"].map(|a| ("Mend", format!("{form:?} {a}"))));
        // 10 is never left: a label of at most 40 bytes gets the width that it needs, and a longer one is refused by 9.
        all.extend([4, 5, 6, 7, 8, 9, 11, 12, 13].map(|n| ("Mend", format!("{form:?} refused {n:2}"))));
        all.extend([7, 8, 9, 13].map(|n| ("Mend", format!("mended, then {form:?} refused {n:2}"))));
        all.extend((4..=13).map(|n| ("List", format!("{form:?} prints {n:>4}"))));
    }
    all.push(("Check", "kept".into()));
    all.extend((1..=5).map(|s| ("Check", format!("broken S{s}"))));
    all.extend(["full", "wide", "wide by 1", "wide by more", "positions too few"].map(|a| ("Mark", a.into())));
    all.extend((1..=5).map(|s| ("Mark", format!("broken S{s}"))));
    for what in ["cell", "sub-diagram", "later brother"] {
        all.extend(["up", "down"].map(|way| ("One off", format!("{what} {way} broken S1"))));
        for way in ["left", "right"] {
            all.push(("One off", format!("{what} {way} kept")));
            all.extend((2..=5).map(|s| ("One off", format!("{what} {way} broken S{s}"))));
        }
    }
    for whose in ["ours", "another's"] {
        all.push(("One off", format!("{whose} kept")));
        all.extend((1..=5).map(|s| ("One off", format!("{whose} broken S{s}"))));
    }
    all.extend(["a plumb line, a later box", "a box, a later plumb line", "two plumb lines"].map(|how| ("One off", how.into())));
    let strips = ["no byte", "blank", "whole bytes", "points, first column odd", "points, least x not 0", "points below row 255", "past the last column that fits", "row of 32 bits"];
    all.extend(strips.map(|a| ("Strip", a.into())));
    all.extend(["0", "more than 0", "65534", "65535", "none"].map(|a| ("Frame", a.into())));
    all.extend(["Finished", "Spent", "Wrong", "Full", "run", "choice", "choice by rank", "4096 answers"].map(|a| ("Drill", a.into())));
    all.extend([0, 1, 255].map(|n| ("Drill", format!("repeat {n}"))));
    all.extend([0, 1, 255].map(|n| ("Drill", format!("nested repeat {n}"))));
    for byte in 0..=2 {
        all.extend(["with", "without"].map(|son| ("Drill", format!("wait {byte} {son}"))));
    }
    all.extend([4_095, 4_096].map(|n| ("Drill", format!("finished with {n}"))));
    all.extend(["moved", "turned", "tied"].map(|ranks| ("Drill", format!("ranks {ranks} drilled"))));
    all.extend([("Start", "begun"), ("Step", "finished"), ("Step", "done"), ("Step", "short at the last"), ("Reach", "sides")].map(|(c, a)| (c, a.into())));
    all.extend(["noise finished", "noise done", "noise sides", "noise refused 20", "noise refused"].map(|a| ("Noise", a.into())));
    all.extend([("Layout", "choice laid"), ("Check", "choice kept"), ("Check", "choice S2"), ("Layout", "near widest")].map(|(c, a)| (c, a.into())));
    all.extend(["labels shared", "bytes unused", "more letters than a file has", "an empty label last", "of a copy", "of the same content"].map(|a| ("Copy", a.into())));
    for place in ["a box", "a connector"] {
        all.extend(["move", "line", "lift"].map(|a| ("Stroke", format!("{a} of {place}"))));
    }
    all.extend(["pitch 0.25", "pitch 16", "margin 0", "margin -0", "margin 100"].map(|a| ("Stroke", format!("{a} fair"))));
    all.extend(["pitch below 0.25", "pitch above 16", "pitch infinite", "margin above 100", "margin below -0", "margin infinite", "NaN"].map(|a| ("Stroke", format!("{a} unfair"))));
    for call in ["Read", "Layout", "Check", "Ends", "Frame", "Mark", "Copy", "Stroke", "Strip"] {
        all.extend([255, 256, 1_023, 1_024].map(|w| (call, format!("width {w}"))));
    }
    for call in ["Check", "Ends", "Mark", "Stroke", "Strip"] {
        all.extend([262_143, 262_144, -262_143, -262_144].map(|x| (call, format!("at {x}"))));
    }
    for ranks in ["moved", "turned", "tied"] {
        all.extend([("Read", "read"), ("Layout", "laid"), ("Frame", "framed"), ("Copy", "copied")].map(|(c, a)| (c, format!("ranks {ranks} {a}"))));
        all.extend(["kept", "broken S1", "broken S2", "broken S3"].map(|a| ("Check", format!("ranks {ranks} {a}"))));
        all.extend(["full", "wide"].map(|a| ("Mark", format!("ranks {ranks} {a}"))));
    }
    all.extend([4, 5].map(|s| ("Check", format!("ranks moved broken S{s}"))));
    for table in ["first", "second"] {
        all.extend([4, 6, 7, 8].map(|n| ("Join", format!("{table} refused {n:2}"))));
    }
    all.extend([4, 11, 12, 13].map(|n| ("Join", format!("joined refused {n:2}"))));
    let outcomes = ["accepted", "root first", "root between", "root last", "128 and 128", "200 and 57", "under a step", "under a full run", "same memory", "first without a sheet"];
    all.extend(outcomes.map(|a| ("Join", a.into())));
    all.extend(["refused  4", "refused  5", "refused  6", "refused  8", "refused 10"].map(|a| ("Read", format!("mixed {a}"))));
    all.into_iter().filter(|(c, a)| !seen.contains_key(&(*c, a.clone()))).map(|(c, a)| format!("{c} {a}")).collect()
}

fn main() {
    let args: Vec<u64> = std::env::args().skip(1).map(|a| a.parse().expect("a number")).collect();
    let inputs = args.first().copied().unwrap_or(INPUTS);
    let seed = args.get(1).copied().unwrap_or(SEED);
    let first = args.get(2).copied().unwrap_or(0);
    let began = Instant::now();
    let rooms = Rooms {
        file: Guarded::new(20_000),
        table: Guarded::new(400 * size_of::<Record>()),
        positions: Guarded::new(4 * 1_000),
        scratch: Guarded::new(4 * (SCRATCH + 200)),
        out: Guarded::new(LISTING + 200),
        lines: Guarded::new(LINES + 200),
        second: Guarded::new(400 * size_of::<Record>()),
        joined: Guarded::new(400 * size_of::<Record>()),
        answers: Guarded::new(ANSWERS + 200),
        list: Guarded::new(2 * (RECORDS + 200)),
        making: Guarded::new(4 * (SECOND + 200)),
    };
    let mut run = Run { seed, number: 0, seen: Seen::new(), calls: 0, rooms, season: Vec::new() };
    for number in first..first + inputs {
        run.number = number;
        let mut rng = Rng::new(seed, number);
        // The scratch and the records of the three are others each time, the plan is one.
        if number % 4_000 == 0 {
            run.last_frames(&mut rng);
        }
        if number % 2 == 0 {
            run.a_table(&mut rng);
        } else {
            run.a_file(&mut rng);
        }
        run.a_join(&mut rng);
    }
    for ((call, answer), times) in &run.seen {
        println!("{call:7} {answer:28} {times:8}");
    }
    println!("{inputs} inputs, {} calls, seed {seed}, {:.1} s: no difference", run.calls, began.elapsed().as_secs_f64());
    let missing = unseen(&run.seen);
    if inputs >= 20_000 && !missing.is_empty() {
        println!("NOT SEEN: {}", missing.join(", "));
        exit(1);
    }
}
