//! The engine's calls for Rust. Each takes its buffers as slices and passes them on as a pointer and a
//! length, which is all that the library asks: no call asks anything more of its caller. What the library tells is held, field by
//! field, to what include/kuzpalen.h has for that answer: another code, or a number where the header has 0, is a panic.

/// One record of a table; its width is at most 1,023. Siblings are ordered by rank, then by number.
#[repr(C)]
#[derive(Clone, Copy, Debug, Default, PartialEq, Eq)]
pub struct Record {
    pub parent: u16,
    pub kind: u8,
    pub rank: u8,
    pub width: u16,
    pub depth: u8,
    pub label_length: u8,
    pub label_start: u16,
}

/// The number of the first question answered "no", and the lowest cell at fault.
#[derive(Clone, Copy, Debug, PartialEq, Eq)]
pub struct Refusal {
    pub number: u8,
    pub cell: u16,
}

#[derive(Clone, Copy, Debug, PartialEq, Eq)]
pub struct Plan {
    pub count: usize,
    pub allowance: u16,
}

#[derive(Clone, Copy, Debug, PartialEq, Eq)]
pub struct Sheet {
    pub width: u32,
    pub rows: u32,
}

#[derive(Clone, Copy, Debug, PartialEq, Eq)]
pub enum Verdict {
    Kept(Sheet),
    Broken { rule: u8, a: u16, b: u16 },
}

/// The mark of a drawing: full, or wide with the least width that there is, or broken.
#[derive(Clone, Copy, Debug, PartialEq, Eq)]
pub enum Mark {
    Full(Sheet),
    Wide { sheet: Sheet, least: u32 },
    Broken { rule: u8, a: u16, b: u16 },
}

#[derive(Clone, Copy, Debug, PartialEq, Eq)]
pub struct Ends {
    pub from: (i32, i32),
    pub to: (i32, i32),
}

/// Millimetres: the pitch from 0.25 to 16, each margin from 0 to 100.
#[repr(C)]
#[derive(Clone, Copy, Debug, PartialEq)]
pub struct Page {
    pub pitch: f64,
    pub margin_x: f64,
    pub margin_y: f64,
}

#[derive(Clone, Copy, Debug, PartialEq)]
pub enum Stroke {
    Move(f64, f64),
    Line(f64, f64),
    Lift,
}

/// How a drill ends.
#[derive(Clone, Copy, Debug, PartialEq, Eq)]
pub enum Outcome {
    Finished,
    Spent,
    Wrong,
    Full,
}

/// A drill's end, the answer bytes used and the number of records.
#[derive(Clone, Copy, Debug, PartialEq, Eq)]
pub struct Drill {
    pub outcome: Outcome,
    pub used: usize,
    pub records: usize,
}

/// What a step did: the cell that it finished, or nothing, since all are.
#[derive(Clone, Copy, Debug, PartialEq, Eq)]
pub enum Step {
    Finished(u16),
    Done,
}

/// The left and the right reach of a subtree.
#[derive(Clone, Copy, Debug, PartialEq, Eq)]
pub struct Reach {
    pub left: u32,
    pub right: u32,
}

/// The figures of up to 1,024 plans, zeros throughout for none. Beside each field the most that it can be.
#[repr(C)]
#[derive(Clone, Copy, Debug, Default, PartialEq, Eq)]
pub struct Report {
    /// 1,024
    pub plans: u32,
    /// 262,144
    pub cells: u32,
    /// The sum of widths: 268,434,432
    pub widths: u32,
    /// The sum of width times rows: 68,719,214,592
    pub areas: u64,
    /// The least and the greatest width: 262,143
    pub least: u32,
    pub greatest: u32,
    /// The mean width, 262,143, and what is left over, 1,023
    pub mean: u32,
    pub rest: u32,
}

mod raw {
    use super::{Page, Record, Report};

    #[repr(C)]
    #[derive(Debug, Default, PartialEq)]
    pub struct ReadAnswer {
        pub number: u8,
        pub cell: u16,
        pub allowance: u16,
        pub count: usize,
    }

    #[repr(C)]
    #[derive(Debug, Default, PartialEq)]
    pub struct LabelAnswer {
        pub number: u8,
        pub cell: u16,
    }

    #[repr(C)]
    pub struct LabelPart {
        pub start: usize,
        pub end: usize,
    }

    #[repr(C)]
    #[derive(Debug, Default, PartialEq)]
    pub struct LayoutAnswer {
        pub number: u8,
        pub cell: u16,
        pub width: u32,
        pub rows: u32,
    }

    #[repr(C)]
    #[derive(Debug, Default, PartialEq)]
    pub struct CheckAnswer {
        pub number: u8,
        pub cell: u16,
        pub rule: u8,
        pub a: u16,
        pub b: u16,
        pub width: u32,
        pub rows: u32,
    }

    #[repr(C)]
    #[derive(Debug, Default, PartialEq)]
    pub struct EndsAnswer {
        pub number: u8,
        pub cell: u16,
        pub from_x: i32,
        pub from_y: i32,
        pub to_x: i32,
        pub to_y: i32,
    }

    #[repr(C)]
    #[derive(Debug, Default, PartialEq)]
    pub struct ListAnswer {
        pub number: u8,
        pub cell: u16,
        pub length: usize,
    }

    #[repr(C)]
    #[derive(Debug, Default, PartialEq)]
    pub struct FrameAnswer {
        pub number: u8,
        pub cell: u16,
        pub outcome: u8,
        pub allowance: u32,
    }

    #[repr(C)]
    #[derive(Debug, Default, PartialEq)]
    pub struct MarkAnswer {
        pub number: u8,
        pub cell: u16,
        pub outcome: u8,
        pub rule: u8,
        pub a: u16,
        pub b: u16,
        pub width: u32,
        pub least: u32,
        pub rows: u32,
    }

    #[repr(C)]
    #[derive(Debug, Default, PartialEq)]
    pub struct CopyAnswer {
        pub number: u8,
        pub cell: u16,
        pub length: usize,
    }

    #[repr(C)]
    #[derive(Debug, Default, PartialEq)]
    pub struct MendAnswer {
        pub number: u8,
        pub cell: u16,
        pub length: usize,
        pub lines: usize,
    }

    #[repr(C)]
    #[derive(Debug, Default, PartialEq)]
    pub struct StrokeAnswer {
        pub number: u8,
        pub cell: u16,
        pub what: u8,
        pub x: f64,
        pub y: f64,
    }

    #[repr(C)]
    #[derive(Debug, Default, PartialEq)]
    pub struct StripAnswer {
        pub number: u8,
        pub cell: u16,
    }

    #[repr(C)]
    #[derive(Debug, Default, PartialEq)]
    pub struct JoinAnswer {
        pub number: u8,
        pub cell: u16,
        pub count: usize,
    }

    #[repr(C)]
    #[derive(Debug, Default, PartialEq)]
    pub struct DrillAnswer {
        pub number: u8,
        pub cell: u16,
        pub outcome: u8,
        pub used: usize,
        pub records: usize,
    }

    #[repr(C)]
    #[derive(Debug, Default, PartialEq)]
    pub struct StartAnswer {
        pub number: u8,
        pub cell: u16,
    }

    #[repr(C)]
    #[derive(Debug, Default, PartialEq)]
    pub struct StepAnswer {
        pub number: u8,
        pub cell: u16,
        pub outcome: u8,
        pub finished: u16,
    }

    #[repr(C)]
    #[derive(Debug, Default, PartialEq)]
    pub struct ReachAnswer {
        pub number: u8,
        pub cell: u16,
        pub left: u32,
        pub right: u32,
    }

    #[repr(C)]
    #[derive(Debug, Default, PartialEq)]
    pub struct ReportAnswer {
        pub number: u8,
        pub cell: u16,
        pub report: Report,
    }

    extern "C" {
        pub fn kuzpalen_read(file: *const u8, file_len: usize, table: *mut Record, table_len: usize) -> ReadAnswer;
        pub fn kuzpalen_label(file: *const u8, file_len: usize, cell: usize) -> LabelPart;
        pub fn kuzpalen_label_refusal(file: *const u8, file_len: usize, cell: usize) -> LabelAnswer;
        pub fn kuzpalen_layout(
            table: *const Record,
            table_len: usize,
            allowance: u32,
            scratch: *mut u32,
            scratch_len: usize,
            positions: *mut i32,
            positions_len: usize,
        ) -> LayoutAnswer;
        pub fn kuzpalen_check(
            table: *const Record,
            table_len: usize,
            positions: *const i32,
            positions_len: usize,
            allowance: u32,
        ) -> CheckAnswer;
        pub fn kuzpalen_ends(
            table: *const Record,
            table_len: usize,
            positions: *const i32,
            positions_len: usize,
            cell: usize,
        ) -> EndsAnswer;
        pub fn kuzpalen_list(file: *const u8, file_len: usize, out: *mut u8, out_len: usize) -> ListAnswer;
        pub fn kuzpalen_frame(
            table: *const Record,
            table_len: usize,
            squares: u32,
            scratch: *mut u32,
            scratch_len: usize,
        ) -> FrameAnswer;
        pub fn kuzpalen_mark(
            table: *const Record,
            table_len: usize,
            positions: *const i32,
            positions_len: usize,
            allowance: u32,
            scratch: *mut u32,
            scratch_len: usize,
        ) -> MarkAnswer;
        pub fn kuzpalen_copy(
            table: *const Record,
            table_len: usize,
            letters: *const u8,
            letters_len: usize,
            allowance: u32,
            out: *mut u8,
            out_len: usize,
        ) -> CopyAnswer;
        pub fn kuzpalen_mend(
            file: *const u8,
            file_len: usize,
            out: *mut u8,
            out_len: usize,
            text: *mut u8,
            text_len: usize,
        ) -> MendAnswer;
        pub fn kuzpalen_stroke(
            table: *const Record,
            table_len: usize,
            positions: *const i32,
            positions_len: usize,
            page: Page,
            s: usize,
        ) -> StrokeAnswer;
        pub fn kuzpalen_strip(
            table: *const Record,
            table_len: usize,
            positions: *const i32,
            positions_len: usize,
            row: u32,
            first: u32,
            bytes: *mut u8,
            bytes_len: usize,
        ) -> StripAnswer;
        pub fn kuzpalen_join(
            first: *const Record,
            first_len: usize,
            second: *const Record,
            second_len: usize,
            cell: usize,
            table: *mut Record,
            table_len: usize,
        ) -> JoinAnswer;
        pub fn kuzpalen_drill(
            table: *const Record,
            table_len: usize,
            answers: *const u8,
            answers_len: usize,
            list: *mut u16,
            list_len: usize,
        ) -> DrillAnswer;
        pub fn kuzpalen_start(
            table: *const Record,
            table_len: usize,
            allowance: u32,
            scratch: *mut u32,
            scratch_len: usize,
            second: *mut u32,
            second_len: usize,
        ) -> StartAnswer;
        pub fn kuzpalen_step(
            table: *const Record,
            table_len: usize,
            allowance: u32,
            scratch: *mut u32,
            scratch_len: usize,
            second: *mut u32,
            second_len: usize,
            positions: *mut i32,
            positions_len: usize,
        ) -> StepAnswer;
        pub fn kuzpalen_reach(
            table: *const Record,
            table_len: usize,
            allowance: u32,
            scratch: *const u32,
            scratch_len: usize,
            second: *const u32,
            second_len: usize,
            cell: usize,
        ) -> ReachAnswer;
        pub fn kuzpalen_report(
            file: *const u8,
            file_len: usize,
            table: *mut Record,
            table_len: usize,
            scratch: *mut u32,
            scratch_len: usize,
            positions: *mut i32,
            positions_len: usize,
        ) -> ReportAnswer;
        pub fn kuzpalen_pool(a: Report, b: Report) -> ReportAnswer;
    }
}

/// The answer, or the refusal where there is one.
fn unless<T>(number: u8, cell: u16, answer: impl FnOnce() -> T) -> Result<T, Refusal> {
    if number == 0 {
        Ok(answer())
    } else {
        Err(Refusal { number, cell })
    }
}

/// Holds what the library told to what include/kuzpalen.h has for the answer that was made of it: every field that the answer does not set is 0, a refusal's but for number and cell too.
macro_rules! exactly {
    ($told:expr, $answer:expr, $kind:ident, $of:pat => { $($field:ident: $value:expr),* $(,)? }) => {
        let header = match &$answer {
            Ok($of) => raw::$kind { $($field: $value,)* ..raw::$kind::default() },
            Err(e) => raw::$kind { number: e.number, cell: e.cell, ..raw::$kind::default() },
        };
        assert_eq!($told, header, "the library told what include/kuzpalen.h does not have");
    };
}

/// A code that include/kuzpalen.h does not have.
fn unknown(code: u8) -> ! {
    panic!("the library told the code {code}, which include/kuzpalen.h does not have")
}

/// Read: a file of either form into the first records of the table, which needs room for 256.
pub fn read(file: &[u8], table: &mut [Record]) -> Result<Plan, Refusal> {
    // SAFETY: both pointers are good for their lengths, and no byte of the file is in the table.
    let r = unsafe { raw::kuzpalen_read(file.as_ptr(), file.len(), table.as_mut_ptr(), table.len()) };
    let answer = unless(r.number, r.cell, || Plan { count: r.count, allowance: r.allowance });
    exactly!(r, answer, ReadAnswer, p => { allowance: p.allowance, count: p.count });
    answer
}

/// Why Label refuses, or 0 and 0.
pub fn label_refusal(file: &[u8], cell: usize) -> Refusal {
    // SAFETY: the pointer is good for its length.
    let r = unsafe { raw::kuzpalen_label_refusal(file.as_ptr(), file.len(), cell) };
    exactly!(r, unless(r.number, r.cell, || ()), LabelAnswer, () => {});
    Refusal { number: r.number, cell: r.cell }
}

/// Label: a cell's label, as that part of the file's own bytes; refused, the empty part at byte 0.
pub fn label(file: &[u8], cell: usize) -> &[u8] {
    // SAFETY: the pointer is good for its length.
    let part = unsafe { raw::kuzpalen_label(file.as_ptr(), file.len(), cell) };
    &file[part.start..part.end]
}

/// Layout: x then y of each cell into the positions; 16,384 numbers of scratch, which are left zero.
pub fn layout(table: &[Record], allowance: u32, scratch: &mut [u32], positions: &mut [i32]) -> Result<Sheet, Refusal> {
    // SAFETY: the pointers are good for their lengths, and the two that are written share nothing.
    let r = unsafe {
        raw::kuzpalen_layout(
            table.as_ptr(),
            table.len(),
            allowance,
            scratch.as_mut_ptr(),
            scratch.len(),
            positions.as_mut_ptr(),
            positions.len(),
        )
    };
    let answer = unless(r.number, r.cell, || Sheet { width: r.width, rows: r.rows });
    exactly!(r, answer, LayoutAnswer, s => { width: s.width, rows: s.rows });
    answer
}

/// Check: kept, or the lowest rule broken with its two cells.
pub fn check(table: &[Record], positions: &[i32], allowance: u32) -> Result<Verdict, Refusal> {
    // SAFETY: the pointers are good for their lengths.
    let r = unsafe {
        raw::kuzpalen_check(table.as_ptr(), table.len(), positions.as_ptr(), positions.len(), allowance)
    };
    let answer = unless(r.number, r.cell, || match r.rule {
        0 => Verdict::Kept(Sheet { width: r.width, rows: r.rows }),
        1..=5 => Verdict::Broken { rule: r.rule, a: r.a, b: r.b },
        code => unknown(code),
    });
    let (rule, a, b, width, rows) = match answer {
        Ok(Verdict::Kept(s)) => (0, 0, 0, s.width, s.rows),
        Ok(Verdict::Broken { rule, a, b }) => (rule, a, b, 0, 0),
        Err(_) => (0, 0, 0, 0, 0),
    };
    exactly!(r, answer, CheckAnswer, _ => { rule: rule, a: a, b: b, width: width, rows: rows });
    answer
}

/// Ends: of the connector from a cell's parent to the cell.
pub fn ends(table: &[Record], positions: &[i32], cell: usize) -> Result<Ends, Refusal> {
    // SAFETY: the pointers are good for their lengths.
    let r = unsafe { raw::kuzpalen_ends(table.as_ptr(), table.len(), positions.as_ptr(), positions.len(), cell) };
    let answer = unless(r.number, r.cell, || Ends { from: (r.from_x, r.from_y), to: (r.to_x, r.to_y) });
    exactly!(r, answer, EndsAnswer, e => { from_x: e.from.0, from_y: e.from.1, to_x: e.to.0, to_y: e.to.1 });
    answer
}

/// List: the listing of a file into the first bytes of the output, which needs room for 17,408; its length.
pub fn list(file: &[u8], out: &mut [u8]) -> Result<usize, Refusal> {
    // SAFETY: both pointers are good for their lengths, and no byte of the file is in the output.
    let r = unsafe { raw::kuzpalen_list(file.as_ptr(), file.len(), out.as_mut_ptr(), out.len()) };
    let answer = unless(r.number, r.cell, || r.length);
    exactly!(r, answer, ListAnswer, n => { length: *n });
    answer
}

/// Frame's outcomes (include/kuzpalen.h).
const FRAME_ALLOWANCE: u8 = 1;
const FRAME_NONE: u8 = 2;

/// Frame: the least allowance whose sheet is no wider than so many squares, or none; scratch as Layout's.
pub fn frame(table: &[Record], squares: u32, scratch: &mut [u32]) -> Result<Option<u32>, Refusal> {
    // SAFETY: the pointers are good for their lengths, and the one that is written shares nothing.
    let r = unsafe {
        raw::kuzpalen_frame(table.as_ptr(), table.len(), squares, scratch.as_mut_ptr(), scratch.len())
    };
    let answer = unless(r.number, r.cell, || match r.outcome {
        FRAME_ALLOWANCE => Some(r.allowance),
        FRAME_NONE => None,
        code => unknown(code),
    });
    exactly!(r, answer, FrameAnswer, a => { outcome: if a.is_some() { FRAME_ALLOWANCE } else { FRAME_NONE }, allowance: a.unwrap_or(0) });
    answer
}

/// Mark's outcomes (include/kuzpalen.h).
const MARK_FULL: u8 = 1;
const MARK_WIDE: u8 = 2;
const MARK_BROKEN: u8 = 3;

/// Mark: full marks where nothing narrower was possible; scratch as Layout's.
pub fn mark(table: &[Record], positions: &[i32], allowance: u32, scratch: &mut [u32]) -> Result<Mark, Refusal> {
    // SAFETY: the pointers are good for their lengths, and the one that is written shares nothing.
    let r = unsafe {
        raw::kuzpalen_mark(
            table.as_ptr(),
            table.len(),
            positions.as_ptr(),
            positions.len(),
            allowance,
            scratch.as_mut_ptr(),
            scratch.len(),
        )
    };
    let sheet = Sheet { width: r.width, rows: r.rows };
    let answer = unless(r.number, r.cell, || match r.outcome {
        MARK_FULL => Mark::Full(sheet),
        MARK_WIDE => Mark::Wide { sheet, least: r.least },
        MARK_BROKEN => Mark::Broken { rule: r.rule, a: r.a, b: r.b },
        code => unknown(code),
    });
    let header = match answer {
        Ok(Mark::Full(s)) => raw::MarkAnswer { outcome: MARK_FULL, width: s.width, rows: s.rows, ..Default::default() },
        Ok(Mark::Wide { sheet, least }) => {
            raw::MarkAnswer { outcome: MARK_WIDE, width: sheet.width, least, rows: sheet.rows, ..Default::default() }
        }
        Ok(Mark::Broken { rule, a, b }) => raw::MarkAnswer { outcome: MARK_BROKEN, rule, a, b, ..Default::default() },
        Err(_) => raw::MarkAnswer::default(),
    };
    exactly!(r, answer, MarkAnswer, _ => { outcome: header.outcome, rule: header.rule, a: header.a, b: header.b, width: header.width, least: header.least, rows: header.rows });
    answer
}

/// Copy: the clean copy of a plan into the first bytes of the output, which needs room for 16,384; its length.
pub fn copy(table: &[Record], letters: &[u8], allowance: u32, out: &mut [u8]) -> Result<usize, Refusal> {
    // SAFETY: the pointers are good for their lengths, and no byte of the table or the letters is in the output.
    let r = unsafe {
        raw::kuzpalen_copy(
            table.as_ptr(),
            table.len(),
            letters.as_ptr(),
            letters.len(),
            allowance,
            out.as_mut_ptr(),
            out.len(),
        )
    };
    let answer = unless(r.number, r.cell, || r.length);
    exactly!(r, answer, CopyAnswer, n => { length: *n });
    answer
}

/// Mend: the mended file into the first bytes of `out`, which needs room for 16,384, and a line for each altered cell into those of `text`, which needs room for 6,144; both lengths.
pub fn mend(file: &[u8], out: &mut [u8], text: &mut [u8]) -> Result<(usize, usize), Refusal> {
    // SAFETY: the pointers are good for their lengths, and the two that are written share nothing.
    let r = unsafe {
        raw::kuzpalen_mend(file.as_ptr(), file.len(), out.as_mut_ptr(), out.len(), text.as_mut_ptr(), text.len())
    };
    let answer = unless(r.number, r.cell, || (r.length, r.lines));
    exactly!(r, answer, MendAnswer, (length, lines) => { length: *length, lines: *lines });
    answer
}

/// What a stroke is (include/kuzpalen.h).
const STROKE_MOVE: u8 = 1;
const STROKE_LINE: u8 = 2;
const STROKE_LIFT: u8 = 3;

/// Stroke number s, from 0, of a sheet that is drawn on a page.
pub fn stroke(table: &[Record], positions: &[i32], page: Page, s: usize) -> Result<Stroke, Refusal> {
    // SAFETY: the pointers are good for their lengths.
    let r = unsafe { raw::kuzpalen_stroke(table.as_ptr(), table.len(), positions.as_ptr(), positions.len(), page, s) };
    let answer = unless(r.number, r.cell, || match r.what {
        STROKE_MOVE => Stroke::Move(r.x, r.y),
        STROKE_LINE => Stroke::Line(r.x, r.y),
        STROKE_LIFT => Stroke::Lift,
        code => unknown(code),
    });
    let (what, x, y) = match answer {
        Ok(Stroke::Move(x, y)) => (STROKE_MOVE, x, y),
        Ok(Stroke::Line(x, y)) => (STROKE_LINE, x, y),
        Ok(Stroke::Lift) | Err(_) => (STROKE_LIFT, 0.0, 0.0),
    };
    exactly!(r, answer, StrokeAnswer, _ => { what: what, x: x, y: y });
    answer
}

/// Strip: a row from a column on, counted from 0 at the sheet's least x, into the bytes; eight columns a byte, the leftmost in the highest bit.
pub fn strip(table: &[Record], positions: &[i32], row: u32, first: u32, bytes: &mut [u8]) -> Result<(), Refusal> {
    // SAFETY: the pointers are good for their lengths, and the one that is written shares nothing.
    let r = unsafe {
        raw::kuzpalen_strip(
            table.as_ptr(),
            table.len(),
            positions.as_ptr(),
            positions.len(),
            row,
            first,
            bytes.as_mut_ptr(),
            bytes.len(),
        )
    };
    let answer = unless(r.number, r.cell, || ());
    exactly!(r, answer, StripAnswer, () => {});
    answer
}

/// Join: the second plan, hung under a cell of the first, into the first records of the table, which needs room for 256; how many.
pub fn join(first: &[Record], second: &[Record], cell: usize, table: &mut [Record]) -> Result<usize, Refusal> {
    // SAFETY: the pointers are good for their lengths, and the one that is written shares nothing.
    let r = unsafe {
        raw::kuzpalen_join(first.as_ptr(), first.len(), second.as_ptr(), second.len(), cell, table.as_mut_ptr(), table.len())
    };
    let answer = unless(r.number, r.cell, || r.count);
    exactly!(r, answer, JoinAnswer, n => { count: *n });
    answer
}

/// How a drill ends (include/kuzpalen.h).
const OUTCOMES: [(u8, Outcome); 4] = [(1, Outcome::Finished), (2, Outcome::Spent), (3, Outcome::Wrong), (4, Outcome::Full)];

/// Drill: the plan followed with these answers; the recorded steps go to the beginning of the list, which needs room for 4,096.
pub fn drill(table: &[Record], answers: &[u8], list: &mut [u16]) -> Result<Drill, Refusal> {
    // SAFETY: the pointers are good for their lengths, and the one that is written shares nothing.
    let r = unsafe {
        raw::kuzpalen_drill(table.as_ptr(), table.len(), answers.as_ptr(), answers.len(), list.as_mut_ptr(), list.len())
    };
    let answer = unless(r.number, r.cell, || {
        let outcome = OUTCOMES.iter().find(|(code, _)| *code == r.outcome).unwrap_or_else(|| unknown(r.outcome)).1;
        Drill { outcome, used: r.used, records: r.records }
    });
    exactly!(r, answer, DrillAnswer, d => { outcome: OUTCOMES.iter().find(|(_, o)| *o == d.outcome).map_or(0, |(code, _)| *code), used: d.used, records: d.records });
    answer
}

/// Start: a sheet that is made step by step is begun; 16,384 numbers of scratch and 1,024 of a second one are cleared.
pub fn start(table: &[Record], allowance: u32, scratch: &mut [u32], second: &mut [u32]) -> Result<(), Refusal> {
    // SAFETY: the pointers are good for their lengths, and the two that are written share nothing.
    let r = unsafe {
        raw::kuzpalen_start(
            table.as_ptr(),
            table.len(),
            allowance,
            scratch.as_mut_ptr(),
            scratch.len(),
            second.as_mut_ptr(),
            second.len(),
        )
    };
    let answer = unless(r.number, r.cell, || ());
    exactly!(r, answer, StartAnswer, () => {});
    answer
}

/// Step's outcomes (include/kuzpalen.h).
const STEP_FINISHED: u8 = 1;
const STEP_DONE: u8 = 2;

/// Step: one more cell is finished, and with the last x then y of each cell are written into the positions.
pub fn step(
    table: &[Record],
    allowance: u32,
    scratch: &mut [u32],
    second: &mut [u32],
    positions: &mut [i32],
) -> Result<Step, Refusal> {
    // SAFETY: the pointers are good for their lengths, and the three that are written share nothing.
    let r = unsafe {
        raw::kuzpalen_step(
            table.as_ptr(),
            table.len(),
            allowance,
            scratch.as_mut_ptr(),
            scratch.len(),
            second.as_mut_ptr(),
            second.len(),
            positions.as_mut_ptr(),
            positions.len(),
        )
    };
    let answer = unless(r.number, r.cell, || match r.outcome {
        STEP_FINISHED => Step::Finished(r.finished),
        STEP_DONE => Step::Done,
        code => unknown(code),
    });
    let (outcome, finished) = match answer {
        Ok(Step::Finished(c)) => (STEP_FINISHED, c),
        Ok(Step::Done) | Err(_) => (STEP_DONE, 0),
    };
    exactly!(r, answer, StepAnswer, _ => { outcome: outcome, finished: finished });
    answer
}

/// Reach: of the subtree of a cell that is finished.
pub fn reach(table: &[Record], allowance: u32, scratch: &[u32], second: &[u32], cell: usize) -> Result<Reach, Refusal> {
    // SAFETY: the pointers are good for their lengths.
    let r = unsafe {
        raw::kuzpalen_reach(
            table.as_ptr(),
            table.len(),
            allowance,
            scratch.as_ptr(),
            scratch.len(),
            second.as_ptr(),
            second.len(),
            cell,
        )
    };
    let answer = unless(r.number, r.cell, || Reach { left: r.left, right: r.right });
    exactly!(r, answer, ReachAnswer, s => { left: s.left, right: s.right });
    answer
}

/// Report: of one plan file, with its sheet at its own allowance; table as Read's, scratch and positions as Layout's.
pub fn report(file: &[u8], table: &mut [Record], scratch: &mut [u32], positions: &mut [i32]) -> Result<Report, Refusal> {
    // SAFETY: the pointers are good for their lengths, and the three that are written share nothing.
    let r = unsafe {
        raw::kuzpalen_report(
            file.as_ptr(),
            file.len(),
            table.as_mut_ptr(),
            table.len(),
            scratch.as_mut_ptr(),
            scratch.len(),
            positions.as_mut_ptr(),
            positions.len(),
        )
    };
    let answer = unless(r.number, r.cell, || r.report);
    exactly!(r, answer, ReportAnswer, f => { report: *f });
    answer
}

/// Pool: the report of two folders together.
pub fn pool(a: Report, b: Report) -> Result<Report, Refusal> {
    // SAFETY: both go by value.
    let r = unsafe { raw::kuzpalen_pool(a, b) };
    let answer = unless(r.number, r.cell, || r.report);
    exactly!(r, answer, ReportAnswer, f => { report: *f });
    answer
}
