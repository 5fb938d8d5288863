//! Seeded random inputs: valid plans of several shapes, the files that hold them, and damage to both.

use crate::layout::{distances_by_pairs, place};
use crate::plan::{border, Cell, Plan, MAX_CELLS, MAX_WIDTH, ROOT};
use crate::plan_file::{Form, FORMS};
use crate::rng::Rng;
use crate::strokes::Page;

/// The number of sons that a cell may take on while a plan grows.
const MAX_SONS: usize = 16;
const MAX_LEVEL: usize = 31;
const ROWS: usize = 256;

#[derive(Clone, Copy, Debug, PartialEq, Eq)]
pub enum Shape {
    /// Each cell under a random earlier one: brothers' numbers are not in preorder.
    Scattered,
    /// Under one of the last few cells.
    Deep,
    /// Under the previous cell, save now and then.
    Chain,
    /// Under one of the first few cells, up to 16 sons each.
    Wide,
    /// Under a random open cell until it is full: cells of one level stand together.
    Bushy,
    /// Two under each, save now and then: the first goes on down, the second is a leaf. A father that
    /// appoints the leaf has a plumb line that hangs far below it.
    Stems,
}

pub const SHAPES: [Shape; 6] = [Shape::Scattered, Shape::Deep, Shape::Chain, Shape::Wide, Shape::Bushy, Shape::Stems];

/// How the numbers of a plan are drawn.
pub struct Sizes {
    pub max_width: i64,
    pub max_depth: i64,
}

/// A valid table of at most n cells (fewer where the rows or the levels run out), without labels, each of rank 0.
pub fn table(rng: &mut Rng, shape: Shape, n: usize, sizes: &Sizes) -> Vec<Cell> {
    let mut cells = vec![one(rng, ROOT, sizes)];
    let (mut row, mut level, mut sons) = (vec![0], vec![0], vec![0]);
    let mut full = 0;
    while cells.len() < n {
        let f = father(rng, shape, cells.len(), full);
        let y = row[f] + cells[f].depth as usize + 1;
        let mut c = one(rng, f as u16, sizes);
        c.depth = c.depth.min((ROWS - 1).saturating_sub(y) as u8);
        if sons[f] == MAX_SONS || level[f] == MAX_LEVEL || c.depth == 0 {
            // The first cells are full, or the plan is: try elsewhere, and stop after many tries.
            full += 1;
            if full > 4 * n {
                break;
            }
            continue;
        }
        sons[f] += 1;
        row.push(y);
        level.push(level[f] + 1);
        sons.push(0);
        cells.push(c);
    }
    for c in 0..cells.len() {
        cells[c].kind = kind_for(rng, sons[c]);
    }
    cells
}

fn one(rng: &mut Rng, parent: u16, sizes: &Sizes) -> Cell {
    let width = match sizes.max_width {
        1_023 if rng.once_in(8) => rng.pick(&[255, 256, 1_022, 1_023]),
        most => rng.between(1, most),
    };
    Cell {
        parent,
        width: width as u16,
        depth: rng.between(1, sizes.max_depth) as u8,
        ..Cell::default()
    }
}

fn father(rng: &mut Rng, shape: Shape, made: usize, full: usize) -> usize {
    let last = made - 1;
    match shape {
        Shape::Scattered => rng.index(made),
        Shape::Deep => last - rng.index(made.min(3 + full)),
        Shape::Chain if rng.once_in(12) => rng.index(made),
        Shape::Chain => last - (full % made.min(8)),
        Shape::Wide => rng.index(made.min(2 + full)),
        Shape::Bushy => (last / 3 + rng.index(2) + full / 4).min(last),
        Shape::Stems if full > 0 || rng.once_in(12) => rng.index(made),
        Shape::Stems => (last / 2 * 2).saturating_sub(1),
    }
}

/// A kind that may have this number of sons.
fn kind_for(rng: &mut Rng, sons: usize) -> u8 {
    match sons {
        0 => rng.pick(&[1, 1, 5]),
        1 => rng.pick(&[2, 3, 5]),
        _ => rng.pick(&[2, 4]),
    }
}

/// Ranks for a table: none, any, a few that many brothers share, or an order against the file's.
pub fn ranks(rng: &mut Rng, cells: &mut [Cell]) {
    let how = rng.index(6);
    let n = cells.len();
    for (i, c) in cells.iter_mut().enumerate() {
        c.rank = match how {
            0 | 1 => 0,
            2 => rng.next() as u8,
            3 => rng.between(0, 2) as u8,
            // Reversed, brothers of a large plan two by two.
            4 => ((n - 1 - i) * 255 / n.max(255)) as u8,
            _ => rng.pick(&[0, 0, 0, 1, 127, 128, 255]),
        };
    }
}

/// Widths, depths, ranks and shape of a random plan with at most n cells.
pub fn any_table(rng: &mut Rng, n: usize) -> Vec<Cell> {
    let shape = rng.pick(&SHAPES);
    let sizes = Sizes { max_width: rng.pick(&[1, 3, 9, 30, 255, 1_023]), max_depth: rng.pick(&[1, 1, 2, 4, 15]) };
    let mut cells = table(rng, shape, n, &sizes);
    ranks(rng, &mut cells);
    cells
}

pub fn allowance(rng: &mut Rng) -> u32 {
    match rng.index(8) {
        0 | 1 => 0,
        2 => rng.between(1, 4) as u32,
        3 | 4 => rng.between(1, 40) as u32,
        5 => rng.between(1, 65_535) as u32,
        6 => 65_535,
        _ => rng.between(100, 400) as u32,
    }
}

/// Gives labels to a table's cells where their widths leave room; the label bytes.
pub fn labels(rng: &mut Rng, cells: &mut [Cell]) -> Vec<u8> {
    let mut bytes: Vec<u8> = (0..rng.between(0, 60)).map(|_| rng.between(32, 126) as u8).collect();
    for c in cells.iter_mut() {
        let least = border(c.kind).unwrap_or(2) as u16;
        c.width = c.width.max(least);
        let room = (c.width - least).min(40) as i64;
        let len = rng.between(0, room).min(bytes.len() as i64);
        if rng.once_in(2) && bytes.len() < 8_000 {
            // Bytes of its own.
            c.label_start = bytes.len() as u16;
            bytes.extend((0..len).map(|_| rng.between(32, 126) as u8));
        } else {
            c.label_start = rng.between(0, bytes.len() as i64 - len) as u16;
        }
        c.label_len = len as u8;
    }
    bytes
}

/// The same label texts in other label bytes: in any order, shared where one is a part of what is there already, with bytes that no label uses.
pub fn rearrange(rng: &mut Rng, letters: &[u8], cells: &mut [Cell]) -> Vec<u8> {
    let mut bytes: Vec<u8> = (0..rng.index(9)).map(|_| rng.between(32, 126) as u8).collect();
    let mut order: Vec<usize> = (0..cells.len()).collect();
    for i in (1..order.len()).rev() {
        order.swap(i, rng.index(i + 1));
    }
    for i in order {
        let c = &mut cells[i];
        let text = &letters[c.label_start as usize..][..c.label_len as usize];
        let found = if text.is_empty() { Some(rng.index(bytes.len() + 1)) } else { bytes.windows(text.len()).position(|w| w == text) };
        c.label_start = match found {
            Some(at) if rng.once_in(2) || text.is_empty() => at as u16,
            _ => {
                bytes.extend((0..rng.index(3)).map(|_| b'~'));
                bytes.extend(text);
                (bytes.len() - text.len()) as u16
            }
        };
    }
    bytes
}

/// Boxes too narrow for their labels, or of depth 0, here and there; now and then one that mending leaves alone.
pub fn cramp(rng: &mut Rng, cells: &mut [Cell]) {
    let often = rng.pick(&[1, 2, 8]);
    for c in cells.iter_mut() {
        if !rng.once_in(often) {
            continue;
        }
        let room = c.label_len as i64 + border(c.kind).unwrap_or(2) as i64;
        match rng.index(4) {
            0 => c.depth = 0,
            1 => c.width = rng.between(0, room) as u16,
            2 => (c.width, c.depth) = (rng.between(0, room - 1) as u16, 0),
            _ => c.width = rng.pick(&[room - 1, room, room + 1]) as u16,
        }
    }
    if rng.once_in(6) {
        let i = rng.index(cells.len());
        match rng.index(5) {
            0 => cells[i].depth = rng.pick(&[16, 255]),
            1 => cells[i].kind = rng.pick(&[0, 6, 255]),
            2 => cells[i].label_len = rng.pick(&[40, 41, 255]),
            3 => cells[i].depth = 15,
            _ => cells[i].label_start = rng.next() as u16,
        }
    }
}

/// Makes a table such as a form of the file can hold: its widths, and in the old form no ranks.
pub fn fit(form: Form, cells: &mut [Cell]) {
    for c in cells {
        c.width = c.width.min(form.max_width());
        c.rank = if form == Form::Old { 0 } else { c.rank };
    }
}

/// The file of a form that holds a table, whatever its fields are; the old form has a width's low byte and no rank.
pub fn file(form: Form, labels: &[u8], cells: &[Cell], allowance: u16) -> Vec<u8> {
    let mut out = labels.to_vec();
    for c in cells {
        let [low, high] = c.width.to_le_bytes();
        out.extend(c.parent.to_le_bytes());
        match form {
            Form::Old => out.extend([c.kind, low, c.depth, c.label_len]),
            Form::Wide => out.extend([c.kind, c.depth, low, high, c.label_len, c.rank]),
        }
        out.extend(c.label_start.to_le_bytes());
    }
    out.extend((labels.len() as u16).to_le_bytes());
    out.extend((cells.len() as u16).to_le_bytes());
    out.extend(allowance.to_le_bytes());
    out.extend(form.mark());
    out
}

/// A file of random bytes, as often as not with a mark at its end.
pub fn noise(rng: &mut Rng, most: i64) -> Vec<u8> {
    let mut file: Vec<u8> = (0..rng.between(0, most)).map(|_| rng.next() as u8).collect();
    if rng.once_in(2) {
        file.extend(rng.pick(&FORMS).mark());
    }
    file
}

/// The other form's mark on a file that was made with `file`: alone, or with the number of records, the
/// beginning or the length that the other form's records would ask for.
pub fn mix_up(rng: &mut Rng, form: Form, labels: usize, cells: usize, file: &mut Vec<u8>) {
    let other = if form == Form::Old { Form::Wide } else { Form::Old };
    let trailer = file.len() - 8;
    let size = other.size();
    file[trailer + 6..].copy_from_slice(&other.mark());
    match rng.index(4) {
        0 => {}
        1 => file[trailer + 2..trailer + 4].copy_from_slice(&(((trailer - labels) / size) as u16).to_le_bytes()),
        2 => file[trailer..trailer + 2].copy_from_slice(&(trailer.saturating_sub(size * cells) as u16).to_le_bytes()),
        _ => {
            let end = file.split_off(trailer);
            file.resize(labels + size * cells, rng.pick(&[0, 1, 32]));
            file.extend(end);
        }
    }
}

/// One random wrong done to a table. Labels in it may be wrong too, which only a file notices.
pub fn damage_table(rng: &mut Rng, cells: &mut Vec<Cell>) {
    let i = rng.index(cells.len());
    let n = cells.len() as i64;
    match rng.index(13) {
        12 => cells[i].rank = rng.next() as u8,
        0 => cells[i].parent = rng.between(0, 65_535) as u16,
        1 => cells[i].parent = rng.between(i as i64, n) as u16,
        2 => cells[i].parent = rng.between(0, i as i64) as u16,
        3 => cells[i].kind = rng.pick(&[0, 6, 7, 255]),
        4 => cells[i].kind = rng.between(1, 5) as u8,
        5 => cells[i].width = rng.pick(&[0, 256, 1_023, 1_024, 1_024, 65_535]),
        6 => cells[i].depth = rng.pick(&[0, 16, 17, 255]),
        7 => cells[i].depth = 15,
        8 => cells[i].label_len = rng.between(0, 255) as u8,
        9 => cells[i].label_start = rng.between(0, 65_535) as u16,
        10 => cells.truncate(i),
        _ => {
            let c = cells[i];
            cells.push(Cell { parent: i as u16, ..c });
        }
    }
}

/// One random wrong done to a file.
pub fn damage_file(rng: &mut Rng, file: &mut Vec<u8>) {
    if file.is_empty() {
        return;
    }
    let i = rng.index(file.len());
    let len = file.len();
    match rng.index(8) {
        0 => file[i] ^= 1 << rng.index(8),
        1 => file[i] = rng.next() as u8,
        2 => file.truncate(i),
        3 => file.insert(i, rng.between(32, 126) as u8),
        4 => {
            file.remove(i);
        }
        // Near the end, where a byte matters more.
        5 | 6 => {
            let at = len - 1 - rng.index(len.min(24));
            file[at] = if rng.once_in(2) { file[at] ^ (1 << rng.index(8)) } else { rng.next() as u8 };
        }
        _ => file.extend((0..rng.between(1, 20)).map(|_| 0x54)),
    }
}

/// A chain with more levels than are allowed, or with more rows, and a branch here and there.
pub fn too_tall(rng: &mut Rng) -> Vec<Cell> {
    let n = rng.between(17, 60) as usize;
    let depth = rng.pick(&[1, 7, 8, 14, 15]);
    let branches = rng.pick(&[6, 40]);
    let mut cells: Vec<Cell> = (0..n)
        .map(|i| Cell { parent: if i == 0 { ROOT } else { i as u16 - 1 }, width: 2, depth, ..Cell::default() })
        .collect();
    for i in 1..n {
        if rng.once_in(branches) {
            cells[i].parent = rng.index(i) as u16;
        }
        if rng.once_in(4) {
            cells[i].depth = rng.between(1, 15) as u8;
        }
    }
    let sons: Vec<usize> = (0..n).map(|f| cells.iter().filter(|c| c.parent as usize == f).count()).collect();
    for i in 0..n {
        cells[i].kind = kind_for(rng, sons[i]);
    }
    cells
}

/// 256 boxes, nearly all of the greatest width, with as few parents as can be: at allowance 0 the sheet is
/// nearly as wide as a sheet can get, to the right of the root, to its left, or to both sides.
pub fn widest(rng: &mut Rng) -> Vec<Cell> {
    let (left, both) = rng.pick(&[(false, false), (true, false), (false, true)]);
    let mut cells = vec![Cell { parent: ROOT, width: MAX_WIDTH, depth: 1, ..Cell::default() }; MAX_CELLS];
    (1..MAX_CELLS).for_each(|c| cells[c].parent = 0);
    // To the left: the root is a run with the later of two sons over it, and all others are below the earlier.
    let (host, first) = if left { (1, 3) } else { (0, 1) };
    let hosts: Vec<usize> = std::iter::once(host).chain(first..).take(MAX_CELLS).collect();
    (first..MAX_CELLS).for_each(|c| cells[c].parent = hosts[(c - first) / MAX_SONS] as u16);
    for c in 0..MAX_CELLS {
        let sons = cells.iter().filter(|d| d.parent as usize == c).count();
        cells[c].kind = match sons {
            0 => 1,
            1 => 2,
            _ if both || (left && c == 0) => 2,
            _ => 4,
        };
        if rng.once_in(40) {
            cells[c].width = rng.between(1_000, 1_023) as u16;
        }
    }
    ranks(rng, &mut cells);
    cells
}

/// Two branches that could share more than 81,000 columns: the earlier reaches far right near the top, the later far left far below. So every allowance up to
/// the last one makes the sheet narrower by a column.
pub fn entwined() -> Vec<Cell> {
    let mut cells = vec![Cell { parent: ROOT, kind: 2, width: 2, depth: 1, ..Cell::default() }];
    let far = |cells: &mut Vec<Cell>, parent: usize| {
        let top = cells.len();
        cells.push(Cell { parent: parent as u16, kind: 4, width: 4, depth: 1, ..Cell::default() });
        for _ in 0..5 {
            let branch = cells.len();
            cells.push(Cell { parent: top as u16, kind: 4, width: 4, depth: 1, ..Cell::default() });
            cells.extend((0..MAX_SONS).map(|_| Cell { parent: branch as u16, kind: 1, width: MAX_WIDTH, depth: 1, ..Cell::default() }));
        }
    };
    far(&mut cells, 0);
    let later = cells.len();
    cells.push(Cell { parent: 0, kind: 2, width: 2, depth: 15, ..Cell::default() });
    cells.push(Cell { parent: later as u16, kind: 2, width: 2, depth: 1, ..Cell::default() });
    far(&mut cells, later + 1);
    cells.push(Cell { parent: later as u16 + 1, kind: 1, width: 2, depth: 1, ..Cell::default() });
    cells
}

/// Our sheet for a valid table, as numbers: x then y of each cell.
pub fn sheet(cells: &[Cell], allowance: u32) -> Vec<i32> {
    let plan = Plan::new(cells);
    let p = place(&plan, &distances_by_pairs(&plan, allowance as i64));
    p.iter().flat_map(|&(x, y)| [x as i32, y as i32]).collect()
}

/// A placement of a valid table by another: near our sheet, or far from it.
pub fn foreign(rng: &mut Rng, cells: &[Cell], allowance: u32) -> Vec<i32> {
    let plan = Plan::new(cells);
    let n = cells.len();
    // Laid out for a greater allowance it may break S5, and for a smaller one it is kept.
    let under = match rng.index(6) {
        0 => allowance.saturating_sub(rng.between(0, 5) as u32),
        1 => allowance + rng.between(1, 30) as u32,
        _ => allowance,
    };
    let mut distances = distances_by_pairs(&plan, under as i64);
    let mut pairs: Vec<_> = distances.keys().copied().collect();
    pairs.sort();
    if rng.once_in(3) && !pairs.is_empty() {
        // One distance short by one: S3, S4 or S5, whichever asked for it.
        let short = rng.pick(&pairs);
        *distances.get_mut(&short).unwrap() -= 1;
    } else if rng.once_in(2) {
        // Wider, or narrower here and there.
        for pair in pairs {
            if rng.once_in(4) {
                *distances.get_mut(&pair).unwrap() += rng.pick(&[1, 1, 2, 7, 100, -1]);
            }
        }
    }
    let mut p: Vec<i32> = place(&plan, &distances).iter().flat_map(|&(x, y)| [x as i32, y as i32]).collect();
    match rng.index(12) {
        0..=4 => {}
        10 => {
            // All children of a cell aside, so that another than the appointed one may stand under it.
            let families: Vec<usize> = (0..n).filter(|&f| plan.sons[f].len() > 1).collect();
            if !families.is_empty() {
                let f = rng.pick(&families);
                let by = p[2 * f] - p[2 * rng.pick(&plan.sons[f])];
                for c in plan.sub_diagram(f).into_iter().skip(1) {
                    p[2 * c] += by;
                }
            }
        }
        5 => {
            // A sub-diagram aside.
            let (top, by) = (rng.index(n), rng.pick(&[-2, -1, 1, 2, 50]));
            for c in plan.sub_diagram(top) {
                p[2 * c] += by;
            }
        }
        6 | 7 => {
            let k = rng.index(2 * n);
            p[k] += rng.pick(&[-3, -1, 1, 3]);
        }
        8 => {
            let k = rng.index(2 * n);
            p[k] = rng.pick(&[-262_144, -262_143, -65_536, 65_536, 262_143, 262_144, i32::MIN, i32::MAX, 0]);
        }
        9 => {
            let (from, to) = (rng.index(n), rng.index(n));
            p.swap(2 * from, 2 * to);
        }
        _ => {
            let bound = rng.pick(&[2, 20, 65_535, 262_143]);
            for c in 0..n {
                p[2 * c] = rng.between(-bound, bound) as i32;
            }
            if rng.once_in(2) {
                p[0] = 0;
            }
        }
    }
    p
}

/// A placement of a valid table that keeps the rules, mostly not ours: our sheet of wider boxes, for a smaller allowance.
pub fn kept(rng: &mut Rng, cells: &[Cell], allowance: u32) -> Vec<i32> {
    let mut wider = cells.to_vec();
    let often = rng.pick(&[2, 4, 16]);
    for c in &mut wider {
        if rng.once_in(often) {
            c.width = (c.width + rng.between(1, 2) as u16).min(MAX_WIDTH);
        }
    }
    sheet(&wider, allowance.saturating_sub(rng.between(0, 2) as u32))
}

/// The same placement but for one unit: one cell, a sub-diagram or a later brother's has moved. What, and which way.
pub fn one_off(rng: &mut Rng, cells: &[Cell], positions: &[i32]) -> (Vec<i32>, &'static str, &'static str) {
    let plan = Plan::new(cells);
    let all: Vec<usize> = (0..cells.len()).collect();
    let later: Vec<usize> = plan.neighbours().into_iter().map(|(_, l)| l).collect();
    let who = rng.index(3);
    let mut one = |from: &[usize]| {
        // Mostly one that no father appoints, since S2 is broken by any other.
        let free: Vec<usize> = from.iter().copied().filter(|&c| plan.father[c].is_some_and(|f| plan.appointed(f) != Some(c))).collect();
        if free.is_empty() || rng.once_in(4) { rng.pick(from) } else { rng.pick(&free) }
    };
    let (what, top) = match who {
        0 => ("cell", one(&all)),
        1 if !later.is_empty() => ("later brother", one(&later)),
        _ => ("sub-diagram", one(&all)),
    };
    let moved = if what == "cell" { vec![top] } else { plan.sub_diagram(top) };
    // Up or down is S1 always.
    let (way, axis, by) = match rng.index(12) {
        0 => ("up", 1, -1),
        1 => ("down", 1, 1),
        2..=6 => ("left", 0, -1),
        _ => ("right", 0, 1),
    };
    let mut p = positions.to_vec();
    moved.into_iter().for_each(|c| p[2 * c + axis] = p[2 * c + axis].saturating_add(by));
    (p, what, way)
}

/// The next float towards infinity, and towards minus infinity, of a positive one.
fn beside(x: f64) -> [f64; 2] {
    [f64::from_bits(x.to_bits() + 1), f64::from_bits(x.to_bits() - 1)]
}

/// A page: mostly a fair one, often at a limit, or one step beside it; now and then any floats.
pub fn page(rng: &mut Rng) -> Page {
    let pitch = match rng.index(12) {
        0 => 0.25,
        1 => 16.0,
        2 => rng.pick(&[beside(0.25)[0], beside(16.0)[1], 0.1 + 0.2, 0.7, 1.0 / 3.0]),
        3 if rng.once_in(2) => rng.pick(&[beside(0.25)[1], beside(16.0)[0], 0.0, -0.0, -1.0, f64::INFINITY, -f64::INFINITY, f64::NAN]),
        4 if rng.once_in(4) => f64::from_bits(rng.next()),
        _ => 0.25 + (rng.next() >> 11) as f64 / (1u64 << 53) as f64 * 15.75,
    };
    Page { pitch, margin_x: margin(rng), margin_y: margin(rng) }
}

fn margin(rng: &mut Rng) -> f64 {
    match rng.index(12) {
        0 => 0.0,
        1 => -0.0,
        2 => 100.0,
        3 => rng.pick(&[f64::from_bits(1), f64::MIN_POSITIVE, 1e-17, 0.1, beside(100.0)[1]]),
        4 if rng.once_in(3) => rng.pick(&[beside(100.0)[0], -f64::from_bits(1), -1.0, f64::INFINITY, -f64::INFINITY, f64::NAN]),
        5 if rng.once_in(6) => f64::from_bits(rng.next()),
        _ => (rng.next() >> 11) as f64 / (1u64 << 53) as f64 * 100.0,
    }
}

/// A plan of exactly n cells, each father with 16 sons but the last: cell c is under cell (c - 1) / 16.
pub fn broad(n: usize) -> Vec<Cell> {
    let father = |c: usize| (c - 1) / MAX_SONS;
    let kind = |c: usize| if n > 1 && c <= father(n - 1) { 2 } else { 1 };
    (0..n).map(|c| Cell { parent: if c == 0 { ROOT } else { father(c) as u16 }, kind: kind(c), width: 3, depth: 1, ..Cell::default() }).collect()
}

/// A chain of runs of this depth, with a step at its end.
pub fn chain(n: usize, depth: u8) -> Vec<Cell> {
    (0..n)
        .map(|c| Cell { parent: if c == 0 { ROOT } else { c as u16 - 1 }, kind: if c + 1 < n { 2 } else { 1 }, width: 2, depth, ..Cell::default() })
        .collect()
}

/// Two branches that face each other, with widths such that often nothing but a plumb line keeps them apart: of one, a line hangs
/// at its edge below a leaf that is appointed; of the other, a box, mostly with a hanging line of its own, comes near it below the leaf.
pub fn facing(rng: &mut Rng) -> Vec<Cell> {
    // Father, place among two sons, kind, depth; the mirror image has the sons and the kinds the other way round.
    let mut d = || rng.between(1, 3) as u8;
    let (branch, line, leaf) = (d(), d(), d());
    let other = branch + line + leaf + 1 + d();
    let mut rows = vec![
        (ROOT, 0, 2, d()),
        (0, 0, 4, branch),
        (0, 1, 2, other),
        (1, 0, 1, d()),
        (1, 1, 2, line),
        (4, 1, 1, leaf),
        (2, 0, 1, d()),
        (2, 1, 1, d()),
    ];
    chain_down(rng, &mut rows, 4, 0);
    if !rng.once_in(3) {
        rows[6].2 = 4;
        rows.push((6, 0, 1, 1));
        chain_down(rng, &mut rows, 6, 1);
    }
    let (mirrored, most) = (rng.once_in(2), rng.pick(&[2, 9, 30]));
    rows[0].2 = rng.pick(&[2, 4]);
    let two = |c: usize| rows.iter().filter(|r| r.0 as usize == c).count() == 2;
    let turned = |c: usize| mirrored && c > 0 && two(c);
    rows.iter()
        .enumerate()
        .map(|(c, &(parent, place, kind, depth))| Cell {
            parent,
            kind: if turned(c) { 6 - kind } else { kind },
            rank: if mirrored && two(parent as usize) { 1 - place } else { place },
            width: rng.between(1, most) as u16,
            depth,
            ..Cell::default()
        })
        .collect()
}

/// Some runs, each under the one before, and a step at their end.
fn chain_down(rng: &mut Rng, rows: &mut Vec<(u16, u8, u8, u8)>, father: u16, place: u8) {
    let many = rng.between(2, 5) as usize;
    rows.push((father, place, 2, rng.between(1, 4) as u8));
    for _ in 1..many {
        rows.push((rows.len() as u16 - 1, 0, 2, rng.between(1, 4) as u8));
    }
    rows.last_mut().expect("a cell").2 = 1;
}

/// Chains under one root, of runs with the depths after the root's in turn; under each run the chain's next cell and after it a leaf, which is appointed: each run's plumb line hangs down to the chain's end.
pub fn stems(chains: usize, depths: &[u8]) -> Vec<Cell> {
    let (root, below) = depths.split_first().expect("the root's depth");
    let run = |parent: usize, depth: u8| Cell { parent: parent as u16, kind: 2, width: 4, depth, ..Cell::default() };
    let mut cells = vec![Cell { parent: ROOT, ..run(0, *root) }];
    for _ in 0..chains {
        let mut father = 0;
        for depth in below {
            cells.push(run(father, *depth));
            father = cells.len() - 1;
        }
        cells[father].kind = 1;
    }
    let runs: Vec<usize> = (1..cells.len()).filter(|&c| cells[c].kind == 2).collect();
    cells.extend(runs.into_iter().map(|c| Cell { kind: 1, ..run(c, 1) }));
    cells
}
