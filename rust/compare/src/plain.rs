//! The engine's own algorithms in straightforward, safe Rust over the records themselves: what its speed
//! is measured against. Layout keeps one contour a level in rows of 64 numbers; Check decides by one pass
//! over the cells and one sweep over the rows, and only where something is broken takes each rule in turn
//! over all pairs of cells, with places in preorder to tell who stands below whom.

use bindings::{Drill, Ends, Outcome, Plan, Record, Refusal, Sheet, Verdict};

pub const CELLS: usize = 256;
const ROW: usize = 64;
const SCRATCH: usize = 16_384;
const LISTING: usize = 17_408;
const FARTHEST: i32 = 262_143;
const WIDEST: u16 = 1_023;

fn refuse<T>(number: u8, cell: usize) -> Result<T, Refusal> {
    Err(Refusal { number, cell: cell as u16 })
}

fn border(kind: u8) -> Option<u16> {
    match kind {
        1 | 2 | 5 => Some(2),
        3 | 4 => Some(4),
        _ => None,
    }
}

fn allows(kind: u8, sons: u16) -> bool {
    match kind {
        1 => sons == 0,
        2 => (1..=16).contains(&sons),
        3 => sons == 1,
        4 => (2..=16).contains(&sons),
        5 => sons <= 1,
        _ => false,
    }
}

/// The number of the child that a parent of this kind with k children hangs from.
fn appointed(kind: u8, k: u16) -> u16 {
    match kind {
        4 => 1,
        _ => (k + 2) / 2,
    }
}

fn ask_record(i: usize, c: &Record) -> Result<(), Refusal> {
    let parent_ok = if i == 0 { c.parent == 65_535 } else { (c.parent as usize) < i };
    if !parent_ok {
        return refuse(6, i);
    }
    if border(c.kind).is_none() {
        return refuse(7, i);
    }
    if !(1..=WIDEST).contains(&c.width) || !(1..=15).contains(&c.depth) {
        return refuse(8, i);
    }
    Ok(())
}

/// Questions 11 to 13; the first row of each cell.
fn ask_tree(table: &[Record]) -> Result<[u16; CELLS], Refusal> {
    let (mut sons, mut level, mut top) = ([0u16; CELLS], [0u16; CELLS], [0u16; CELLS]);
    for (i, c) in table.iter().enumerate().skip(1) {
        let p = c.parent as usize;
        sons[p] += 1;
        level[i] = level[p] + 1;
        top[i] = top[p] + table[p].depth as u16 + 1;
    }
    for (i, c) in table.iter().enumerate() {
        if !allows(c.kind, sons[i]) {
            return refuse(11, i);
        }
    }
    for i in 0..table.len() {
        if level[i] > 31 {
            return refuse(12, i);
        }
    }
    for (i, c) in table.iter().enumerate() {
        if top[i] + c.depth as u16 > 255 {
            return refuse(13, i);
        }
    }
    Ok(top)
}

fn ask_table(table: &[Record], positions: usize) -> Result<[u16; CELLS], Refusal> {
    if table.is_empty() || table.len() > CELLS {
        return refuse(4, 0);
    }
    if positions < 2 * table.len() {
        return refuse(1, 0);
    }
    for (i, c) in table.iter().enumerate() {
        ask_record(i, c)?;
    }
    ask_tree(table)
}

fn ask_allowance(allowance: u32) -> Result<(), Refusal> {
    if allowance > 65_535 {
        return refuse(14, 0);
    }
    Ok(())
}

fn ask_positions(positions: &[i32], n: usize) -> Result<(), Refusal> {
    for c in 0..n {
        for v in [positions[2 * c], positions[2 * c + 1]] {
            if !(-FARTHEST..=FARTHEST).contains(&v) {
                return refuse(15, c);
            }
        }
    }
    Ok(())
}

fn two(file: &[u8], at: usize) -> u16 {
    u16::from_le_bytes([file[at], file[at + 1]])
}

fn old_record(r: &[u8]) -> Record {
    Record { parent: two(r, 0), kind: r[2], rank: 0, width: r[3] as u16, depth: r[4], label_length: r[5], label_start: two(r, 6) }
}

fn wide_record(r: &[u8]) -> Record {
    Record { parent: two(r, 0), kind: r[2], rank: r[7], width: two(r, 4), depth: r[3], label_length: r[6], label_start: two(r, 8) }
}

pub fn read(file: &[u8], table: &mut [Record]) -> Result<Plan, Refusal> {
    if table.len() < CELLS {
        return refuse(1, 0);
    }
    let len = file.len();
    if !(16..=16_384).contains(&len) {
        return refuse(2, 0);
    }
    let wide = match file[len - 2..] {
        [0x53, 0x54] => false,
        [0x53, 0x55] => true,
        _ => return refuse(3, 0),
    };
    let size = if wide { 10 } else { 8 };
    let begin = two(file, len - 8) as usize;
    let n = two(file, len - 6) as usize;
    if n < 1 || n > CELLS || begin + size * n + 8 != len {
        return refuse(4, 0);
    }
    if file[..begin].iter().any(|b| !(32..=126).contains(b)) {
        return refuse(5, 0);
    }
    let mut cells = [Record::default(); CELLS];
    for (cell, r) in cells.iter_mut().zip(file[begin..len - 8].chunks_exact(size)) {
        *cell = if wide { wide_record(r) } else { old_record(r) };
    }
    for (i, c) in cells[..n].iter().enumerate() {
        ask_record(i, c)?;
        if c.label_length > 40 || c.label_start as usize + c.label_length as usize > begin {
            return refuse(9, i);
        }
        if c.width < c.label_length as u16 + border(c.kind).unwrap_or(0) {
            return refuse(10, i);
        }
    }
    ask_tree(&cells[..n])?;
    table[..n].copy_from_slice(&cells[..n]);
    Ok(Plan { count: n, allowance: two(file, len - 4) })
}

/// Puts a cell among its siblings of greater numbers: behind those of a lower rank.
fn insert(table: &[Record], links: &mut [[u16; 4]; CELLS], c: usize) {
    let p = table[c].parent as usize;
    let (mut before, mut next) = (0, links[p][0] as usize);
    while next != 0 && table[next].rank < table[c].rank {
        before = next;
        next = links[next][1] as usize;
    }
    links[c][1] = next as u16;
    if before == 0 {
        links[p][0] = c as u16;
    } else {
        links[before][1] = c as u16;
    }
}

/// First child, next sibling, place among the siblings and appointed place, 0 for none.
fn links(table: &[Record]) -> [[u16; 4]; CELLS] {
    let mut links = [[0u16; 4]; CELLS];
    for c in (1..table.len()).rev() {
        insert(table, &mut links, c);
    }
    for p in 0..table.len() {
        let (mut c, mut place) = (links[p][0] as usize, 0);
        while c != 0 {
            links[c][2] = place;
            place += 1;
            c = links[c][1] as usize;
        }
        links[p][3] = appointed(table[p].kind, place) - 1;
    }
    links
}

fn fill_box(rows: &mut [u32], at: usize, n: usize, w: u32) {
    for j in 0..n {
        rows[ROW * j + at] = 0;
        rows[ROW * j + at + 1] = w;
    }
}

fn column_max(rows: &[u32], at: usize, n: usize) -> u32 {
    (0..n).map(|j| rows[ROW * j + at]).max().unwrap_or(0)
}

/// A cell whose children are all joined: its marks become how far the appointed child stands from the
/// first, left extent and right extent. The height comes back.
fn complete(rows: &mut [u32], marks: &mut [[u32; 4]; CELLS], at: usize, c: usize, d: usize, w: u32) -> usize {
    let height = d + 1 + marks[c][0] as usize;
    let middle = marks[c][3] - marks[c][2];
    fill_box(rows, at, d + 1, w);
    marks[c] = [middle, column_max(rows, at, height), column_max(rows, at + 1, height), 0];
    height
}

fn put_row(rows: &mut [u32], at: usize, j: usize, l: u32, r: u32) {
    rows[ROW * j + at..ROW * j + at + 4].copy_from_slice(&[l, r, 0, 0]);
}

/// Joins the contour of a finished child, at `at + 2`, to that of its earlier siblings, at `at`.
#[allow(clippy::too_many_arguments)]
fn settle(rows: &mut [u32], marks: &mut [[u32; 4]; CELLS], at: usize, f: usize, c: usize, height: usize, place: u16, apt: u16, allowance: u32) {
    let right = marks[c][2];
    if place == 0 {
        for j in 0..height {
            put_row(rows, at, j, rows[ROW * j + at + 2], rows[ROW * j + at + 3]);
        }
        marks[f] = [height as u32, right, 0, 0];
        return;
    }
    let [joined, r, past, from_first] = marks[f];
    let l = marks[c][1];
    let joined = joined as usize;
    let mut g = (r + 1).max(l + 1).max((r + l + 1).saturating_sub(allowance));
    for j in 0..joined.min(height) {
        g = g.max(rows[ROW * j + at + 1].saturating_sub(past) + rows[ROW * j + at + 2] + 1);
    }
    let past = if apt < place {
        for j in 0..height {
            put_row(rows, at, j, rows[ROW * j + at], past + g + rows[ROW * j + at + 3]);
        }
        past + g
    } else {
        for j in 0..joined.max(height) {
            let new = rows[ROW * j + at + 2];
            let l = if j < joined { new.max(rows[ROW * j + at] + g) } else { new };
            put_row(rows, at, j, l, rows[ROW * j + at + 3]);
        }
        0
    };
    marks[c][3] = from_first + g;
    marks[f] = [joined.max(height) as u32, right, past, from_first + g];
}

fn walk(table: &[Record], top: &[u16; CELLS], allowance: u32, rows: &mut [u32]) -> [[u32; 4]; CELLS] {
    let links = links(table);
    let mut marks = [[0u32; 4]; CELLS];
    let mut chain = [0u16; 32];
    let mut open = 1;
    let mut next = links[0][0];
    loop {
        if next != 0 {
            chain[open] = next;
            open += 1;
            next = links[next as usize][0];
            continue;
        }
        let c = chain[open - 1] as usize;
        let (d, w) = (table[c].depth as usize, table[c].width as u32);
        if open == 1 {
            let height = complete(rows, &mut marks, 0, 0, d, w);
            fill_box(rows, 0, height, 0);
            return marks;
        }
        let level = open - 2;
        let f = chain[level] as usize;
        let below = &mut rows[ROW * top[c] as usize..];
        let height = complete(below, &mut marks, 2 * level + 2, c, d, w);
        settle(below, &mut marks, 2 * level, f, c, height, links[c][2], links[f][3], allowance);
        open -= 1;
        next = links[c][1];
    }
}

pub fn layout(table: &[Record], allowance: u32, scratch: &mut [u32], positions: &mut [i32]) -> Result<Sheet, Refusal> {
    if scratch.len() < SCRATCH {
        return refuse(1, 0);
    }
    let top = ask_table(table, positions.len())?;
    ask_allowance(allowance)?;
    scratch[..SCRATCH].fill(0);
    Ok(draw(table, &top, allowance, &mut scratch[..SCRATCH], positions))
}

/// The sheet of a table that no question refuses, in rows that are zero.
fn draw(table: &[Record], top: &[u16; CELLS], allowance: u32, rows: &mut [u32], positions: &mut [i32]) -> Sheet {
    let marks = walk(table, top, allowance, rows);
    let (mut least, mut most, mut last) = (0, 0, 0);
    for (c, cell) in table.iter().enumerate() {
        let x = if c == 0 {
            0
        } else {
            let f = cell.parent as usize;
            positions[2 * f] + marks[c][3] as i32 - marks[f][0] as i32
        };
        positions[2 * c] = x;
        positions[2 * c + 1] = top[c] as i32;
        least = least.min(x);
        most = most.max(x + cell.width as i32);
        last = last.max(top[c] + cell.depth as u16);
    }
    Sheet { width: (most - least) as u32, rows: last as u32 + 1 }
}

/// The width of the sheet for an allowance, in rows that are zero, with no position written.
fn width_at(table: &[Record], top: &[u16; CELLS], allowance: u32, rows: &mut [u32]) -> u32 {
    let marks = walk(table, top, allowance, rows);
    let mut xs = [0i32; CELLS];
    let (mut least, mut most) = (0, 0);
    for (c, cell) in table.iter().enumerate() {
        if c > 0 {
            let f = cell.parent as usize;
            xs[c] = xs[f] + marks[c][3] as i32 - marks[f][0] as i32;
        }
        least = least.min(xs[c]);
        most = most.max(xs[c] + cell.width as i32);
    }
    (most - least) as u32
}

pub fn frame(table: &[Record], squares: u32, scratch: &mut [u32]) -> Result<Option<u32>, Refusal> {
    if scratch.len() < SCRATCH {
        return refuse(1, 0);
    }
    let top = ask_table(table, 2 * table.len())?;
    if squares == 0 {
        return refuse(19, 0);
    }
    let rows = &mut scratch[..SCRATCH];
    rows.fill(0);
    if width_at(table, &top, 65_535, rows) > squares {
        return Ok(None);
    }
    let (mut low, mut size) = (0, 65_536);
    while size > 1 {
        size /= 2;
        if width_at(table, &top, low + size - 1, rows) > squares {
            low += size;
        }
    }
    Ok(Some(low))
}

/// The chain of open cells, each with its next child (0: none) and how often that one is still to be done.
#[derive(Clone, Copy, Default)]
struct Open {
    cell: u16,
    next: u16,
    times: u8,
}

/// What a cell that is no step does when it is opened: its next child and how often; or how the drill ends.
fn opened(links: &[[u16; 4]; CELLS], kind: u8, c: usize, answers: &[u8], used: &mut usize) -> Result<(u16, u8), Outcome> {
    let first = links[c][0];
    if kind == 2 {
        return Ok((first, 1));
    }
    let byte = *answers.get(*used).ok_or(Outcome::Spent)?;
    *used += 1;
    match (kind, byte) {
        (3, 0) | (5, 0) => Ok((0, 0)),
        (3, _) => Ok((first, byte)),
        (4, _) => {
            let mut s = first;
            for _ in 0..byte {
                s = if s == 0 { 0 } else { links[s as usize][1] };
            }
            if s == 0 { Err(Outcome::Wrong) } else { Ok((s, 1)) }
        }
        (_, 1) => Ok((first, 1)),
        _ => Err(Outcome::Wrong),
    }
}

pub fn drill(table: &[Record], answers: &[u8], list: &mut [u16]) -> Result<Drill, Refusal> {
    if list.len() < 4_096 {
        return refuse(1, 0);
    }
    ask_table(table, 2 * table.len())?;
    if answers.len() > 4_096 {
        return refuse(21, 0);
    }
    let links = links(table);
    let mut chain = [Open::default(); 32];
    let (mut count, mut used, mut records, mut next) = (0, 0, 0, 0);
    loop {
        // The cell `next` is opened.
        let kind = table[next].kind;
        let ends = if kind == 1 {
            if records == 4_096 {
                Err(Outcome::Full)
            } else {
                list[records] = next as u16;
                records += 1;
                Ok((0, 0))
            }
        } else {
            opened(&links, kind, next, answers, &mut used)
        };
        match ends {
            Err(outcome) => return Ok(Drill { outcome, used, records }),
            Ok((child, times)) => chain[count] = Open { cell: next as u16, next: child, times },
        }
        count += 1;
        while count > 0 && chain[count - 1].next == 0 {
            count -= 1;
        }
        if count == 0 {
            return Ok(Drill { outcome: Outcome::Finished, used, records });
        }
        let top = &mut chain[count - 1];
        next = top.next as usize;
        if top.times > 1 {
            top.times -= 1;
        } else {
            top.next = if table[top.cell as usize].kind == 2 { links[next][1] } else { 0 };
        }
    }
}

/// A cell as Check sees it.
#[derive(Clone, Copy, Default)]
pub struct View {
    pub parent: u16,
    pub nth: u16,
    pub middle: u16,
    pub x: i32,
    pub right: i32,
    pub y: i32,
    pub due: i32,
    pub base: i32,
    pub bottom: i32,
    /// In preorder: its place, the end of its subtree, and the places from the previous sibling to the next one's end.
    pub first: u16,
    pub end: u16,
    pub from: u16,
    pub to: u16,
}

pub fn look(table: &[Record], positions: &[i32]) -> [View; CELLS] {
    let n = table.len();
    let mut v = [View::default(); CELLS];
    let links = links(table);
    let mut size = [1u16; CELLS];
    for c in 0..n {
        let (x, y) = (positions[2 * c], positions[2 * c + 1]);
        let base = y + table[c].depth as i32;
        v[c] = View { parent: table[c].parent, x, right: x + table[c].width as i32, y, base, bottom: base, ..View::default() };
    }
    for c in (1..n).rev() {
        let f = table[c].parent as usize;
        size[f] += size[c];
        v[f].bottom = v[f].bottom.max(v[c].bottom);
    }
    v[0].end = size[0];
    v[0].to = size[0];
    for f in 0..n {
        let (mut c, mut from, mut first) = (links[f][0] as usize, v[f].first + 1, v[f].first + 1);
        while c != 0 {
            let next = links[c][1] as usize;
            let end = first + size[c];
            let to = if next == 0 { end } else { end + size[next] };
            v[c] = View { due: v[f].base + 1, nth: links[c][2] + 1, first, end, from, to, ..v[c] };
            (from, first) = (first, end);
            c = next;
        }
        v[f].middle = links[f][3] + 1;
    }
    v
}

fn passes(rule: u8, a: usize, b: usize, v: &View, w: &View, allowance: i32) -> bool {
    match rule {
        1 => a != b || (v.y == v.due && (a != 0 || v.x == 0)),
        2 => w.parent as usize != a || w.nth != v.middle || v.x == w.x,
        3 => {
            (v.first < w.from || w.first <= v.first || v.right < w.x) && (w.first < v.end || v.to <= w.first || v.x < w.x)
        }
        4 => {
            w.first < v.end
                || ((w.bottom < v.y || v.base < w.y || v.right < w.x)
                    && (v.bottom <= v.base || w.bottom <= v.base || v.bottom < w.y || v.x < w.x))
        }
        _ => w.first < v.end || v.right + 1 <= w.x + allowance,
    }
}

/// The questions that Check puts.
pub fn ask_all(table: &[Record], positions: &[i32], allowance: u32) -> Result<(), Refusal> {
    ask_table(table, positions.len())?;
    ask_allowance(allowance)?;
    ask_positions(positions, table.len())
}

/// Each rule in turn at each pair in turn.
pub fn search(v: &[View], allowance: i32) -> Option<Verdict> {
    let n = v.len();
    for rule in 1..=5 {
        for a in 0..n {
            for b in 0..n {
                if !passes(rule, a, b, &v[a], &v[b], allowance) {
                    return Some(Verdict::Broken { rule, a: a as u16, b: b as u16 });
                }
            }
        }
    }
    None
}

/// Rows from one to before another, which must be free at x, are taken to before v.
fn fill(rows: &mut [i32; 256], from: i32, to: i32, x: i32, v: i32) -> bool {
    for r in from..to {
        if rows[r as usize] > x {
            return false;
        }
        rows[r as usize] = v;
    }
    true
}

/// All five rules at once: each cell with its parent and with the sibling right before it, and a sweep of the cells in preorder over the rows.
pub fn decided(v: &[View], allowance: i32) -> bool {
    let n = v.len();
    let (mut order, mut high, mut low) = ([0u16; CELLS], [0i32; CELLS], [0i32; CELLS]);
    for (c, w) in v.iter().enumerate() {
        if w.y != w.due || (c == 0 && w.x != 0) {
            return false;
        }
        order[w.first as usize] = c as u16;
        (high[c], low[c]) = (w.right, w.x);
    }
    for c in (1..n).rev() {
        let f = v[c].parent as usize;
        high[f] = high[f].max(high[c]);
        low[f] = low[f].min(low[c]);
    }
    let mut rows = [i32::MIN; 256];
    for c in order[..n].iter().map(|c| *c as usize) {
        let w = &v[c];
        let u = order[w.from as usize] as usize;
        if u != c && (high[u] >= w.x || v[u].x >= low[c] || high[u] + 1 > low[c] + allowance) {
            return false;
        }
        if !fill(&mut rows, w.y, w.base + 1, w.x, w.right + 1) {
            return false;
        }
        if c > 0 {
            let f = &v[w.parent as usize];
            if w.nth == f.middle && (w.x != f.x || !fill(&mut rows, w.bottom + 1, f.bottom + 1, w.x, w.x + 1)) {
                return false;
            }
        }
    }
    true
}

pub fn check(table: &[Record], positions: &[i32], allowance: u32) -> Result<Verdict, Refusal> {
    ask_all(table, positions, allowance)?;
    let v = look(table, positions);
    let v = &v[..table.len()];
    if !decided(v, allowance as i32) {
        if let Some(broken) = search(v, allowance as i32) {
            return Ok(broken);
        }
    }
    let least = v.iter().map(|c| c.x).min().unwrap();
    let most = v.iter().map(|c| c.right).max().unwrap();
    Ok(Verdict::Kept(Sheet { width: (most - least) as u32, rows: (v[0].bottom - v[0].y + 1) as u32 }))
}

/// The nearer whole number, a tie to the even one.
fn half(width: u16) -> i32 {
    let down = width / 2;
    (if width % 2 == 1 && down % 2 == 1 { down + 1 } else { down }) as i32
}

pub fn ends(table: &[Record], positions: &[i32], cell: usize) -> Result<Ends, Refusal> {
    ask_table(table, positions.len())?;
    ask_positions(positions, table.len())?;
    if cell == 0 || cell >= table.len() {
        return refuse(16, 0);
    }
    let p = table[cell].parent as usize;
    Ok(Ends {
        from: (positions[2 * p] + half(table[p].width), positions[2 * p + 1] + table[p].depth as i32),
        to: (positions[2 * cell] + half(table[cell].width), positions[2 * cell + 1]),
    })
}

/// What is printed so far.
struct Text<'a> {
    out: &'a mut [u8],
    at: usize,
}

impl Text<'_> {
    fn put(&mut self, text: &[u8]) {
        self.out[self.at..self.at + text.len()].copy_from_slice(text);
        self.at += text.len();
    }

    fn number(&mut self, n: i32) {
        let mut text = [0; 11];
        let (mut from, mut left) = (text.len(), n.unsigned_abs());
        while from == text.len() || left > 0 {
            from -= 1;
            text[from] = b'0' + (left % 10) as u8;
            left /= 10;
        }
        if n < 0 {
            self.put(b"-");
        }
        self.put(&text[from..]);
    }

    fn fields(&mut self, numbers: &[i32]) {
        for n in numbers {
            self.put(b" ");
            self.number(*n);
        }
    }
}

fn or_at(bytes: &mut [u8], i: usize, mask: u8) {
    if let Some(byte) = bytes.get_mut(i) {
        *byte |= mask;
    }
}

/// One column of a strip.
fn put_one(bytes: &mut [u8], column: i64) {
    if column >= 0 {
        or_at(bytes, column as usize / 8, 128 >> (column % 8));
    }
}

/// The columns of a strip from low to high.
fn put_run(bytes: &mut [u8], low: i64, high: i64) {
    if high < 0 {
        return;
    }
    let (low, high) = (low.max(0) as usize, high as usize);
    let (a, b) = (low / 8, high / 8);
    let (tail, head) = (255 >> (low % 8), 255 << (7 - high % 8));
    if a == b {
        or_at(bytes, a, tail & head);
        return;
    }
    or_at(bytes, a, tail);
    let end = b.min(bytes.len());
    if a + 1 < end {
        bytes[a + 1..end].fill(255);
    }
    or_at(bytes, b, head);
}

fn ask_strip(table: &[Record], positions: &[i32]) -> Result<(), Refusal> {
    ask_table(table, positions.len())?;
    ask_positions(positions, table.len())
}

/// Of each box that meets the row: its left and right end, counted from the first column, and whether the row is one of its edges.
fn meeting<'a>(table: &'a [Record], positions: &'a [i32], row: u32, first: u32) -> impl Iterator<Item = (i64, i64, bool)> + 'a {
    let least = positions[..2 * table.len()].iter().step_by(2).min().copied().unwrap_or(0) as i64;
    let (row, zero) = (row as i64, least + first as i64);
    table.iter().zip(positions.chunks_exact(2)).filter_map(move |(r, p)| {
        let (x, y) = (p[0] as i64 - zero, p[1] as i64);
        let base = y + r.depth as i64;
        (y <= row && row <= base).then(|| (x, x + r.width as i64, row == y || row == base))
    })
}

/// Strip, by masks.
pub fn strip(table: &[Record], positions: &[i32], row: u32, first: u32, bytes: &mut [u8]) -> Result<(), Refusal> {
    ask_strip(table, positions)?;
    bytes.fill(0);
    for (left, right, edge) in meeting(table, positions, row, first) {
        if edge {
            put_run(bytes, left, right);
        } else {
            put_one(bytes, left);
            put_one(bytes, right);
        }
    }
    Ok(())
}

/// The same, with each point set for itself.
pub fn strip_by_points(table: &[Record], positions: &[i32], row: u32, first: u32, bytes: &mut [u8]) -> Result<(), Refusal> {
    ask_strip(table, positions)?;
    bytes.fill(0);
    for (left, right, edge) in meeting(table, positions, row, first) {
        let step = if edge { 1 } else { (right - left) as usize };
        (left..=right).step_by(step).for_each(|column| put_one(bytes, column));
    }
    Ok(())
}

pub fn list(file: &[u8], out: &mut [u8]) -> Result<usize, Refusal> {
    if out.len() < LISTING {
        return refuse(1, 0);
    }
    let mut text = Text { out, at: 0 };
    let mut table = [Record::default(); CELLS];
    let plan = match read(file, &mut table) {
        Ok(plan) => plan,
        Err(r) => {
            text.put(b"refused");
            text.fields(&[r.number as i32, r.cell as i32]);
            text.put(b"\n");
            return Ok(text.at);
        }
    };
    let table = &table[..plan.count];
    let (mut rows, mut positions) = ([0; SCRATCH], [0; 2 * CELLS]);
    let sheet = draw(table, &ask_tree(table)?, plan.allowance as u32, &mut rows, &mut positions);
    text.put(b"sheet");
    text.fields(&[plan.count as i32, plan.allowance as i32, sheet.width as i32, sheet.rows as i32]);
    text.put(b"\n");
    for (c, cell) in table.iter().enumerate() {
        text.number(c as i32);
        text.fields(&[positions[2 * c], positions[2 * c + 1], cell.width as i32, cell.depth as i32]);
        let start = cell.label_start as usize;
        let label = &file[start..start + cell.label_length as usize];
        if !label.is_empty() {
            text.put(b" ");
            text.put(label);
        }
        text.put(b"\n");
    }
    Ok(text.at)
}
