//! The plan, and the questions put to a table.

/// A father's number that means "none": cell 0's.
pub const ROOT: u16 = 65_535;
pub const MAX_CELLS: usize = 256;
const MAX_LEVEL: usize = 31;
const LAST_ROW: i64 = 255;
const MAX_ALLOWANCE: u32 = 65_535;
/// The greatest width in a table (document 02, E7).
pub const MAX_WIDTH: u16 = 1_023;

/// One record of the lent table, laid out as the engine's.
#[repr(C)]
#[derive(Clone, Copy, Debug, Default, PartialEq, Eq)]
pub struct Cell {
    pub parent: u16,
    pub kind: u8,
    pub rank: u8,
    pub width: u16,
    pub depth: u8,
    pub label_len: u8,
    pub label_start: u16,
}

/// The number of the first question answered "no", and the lowest cell at fault.
#[derive(Clone, Copy, Debug, PartialEq, Eq)]
pub struct Refusal {
    pub number: u32,
    pub cell: u32,
}

pub fn refuse<T>(number: u32, cell: usize) -> Result<T, Refusal> {
    Err(Refusal { number, cell: cell as u32 })
}

/// The border of a kind, or nothing where it is no kind.
pub fn border(kind: u8) -> Option<u32> {
    match kind {
        1 | 2 | 5 => Some(2),
        3 | 4 => Some(4),
        _ => None,
    }
}

fn sons_allowed(kind: u8, sons: usize) -> bool {
    match kind {
        1 => sons == 0,
        2 => (1..=16).contains(&sons),
        3 => sons == 1,
        4 => (2..=16).contains(&sons),
        5 => sons <= 1,
        _ => false,
    }
}

/// A table whose fathers come before their sons, with what follows from it.
pub struct Plan {
    pub cells: Vec<Cell>,
    pub father: Vec<Option<usize>>,
    /// Each cell's sons in their order: by rank, then by file order (document 02, E13).
    pub sons: Vec<Vec<usize>>,
    /// Each cell's own first row, by S1.
    pub row: Vec<i64>,
    pub level: Vec<usize>,
}

impl Plan {
    /// Only for a table that passes question 6.
    pub fn new(table: &[Cell]) -> Plan {
        let n = table.len();
        let mut plan = Plan {
            cells: table.to_vec(),
            father: vec![None; n],
            sons: vec![Vec::new(); n],
            row: vec![0; n],
            level: vec![0; n],
        };
        for c in 1..n {
            let f = table[c].parent as usize;
            plan.father[c] = Some(f);
            plan.sons[f].push(c);
            plan.row[c] = plan.row[f] + table[f].depth as i64 + 1;
            plan.level[c] = plan.level[f] + 1;
        }
        for family in &mut plan.sons {
            family.sort_by_key(|&c| (table[c].rank, c));
        }
        plan
    }

    pub fn len(&self) -> usize {
        self.cells.len()
    }

    pub fn is_empty(&self) -> bool {
        self.cells.is_empty()
    }

    /// Whether c is top or lies below it.
    pub fn under(&self, top: usize, c: usize) -> bool {
        let mut at = c;
        loop {
            if at == top {
                return true;
            }
            match self.father[at] {
                Some(f) => at = f,
                None => return false,
            }
        }
    }

    /// The cells of top's sub-diagram, in file order.
    pub fn sub_diagram(&self, top: usize) -> Vec<usize> {
        (0..self.len()).filter(|&c| self.under(top, c)).collect()
    }

    /// The son whose x the father has, counted from 1: number 1 of a choice (document 02, E6), else
    /// number (k+1)/2 rounded up.
    pub fn appointed(&self, father: usize) -> Option<usize> {
        let sons = &self.sons[father];
        let number = if self.cells[father].kind == 4 { 1 } else { (sons.len() + 1).div_ceil(2) };
        sons.get(number - 1).copied()
    }

    /// All (earlier, later) brothers.
    pub fn brothers(&self) -> Vec<(usize, usize)> {
        let mut all = Vec::new();
        for family in &self.sons {
            for i in 0..family.len() {
                for j in i + 1..family.len() {
                    all.push((family[i], family[j]));
                }
            }
        }
        all
    }

    /// The (earlier, later) brothers that are neighbours.
    pub fn neighbours(&self) -> Vec<(usize, usize)> {
        self.sons.iter().flat_map(|family| family.windows(2).map(|w| (w[0], w[1]))).collect()
    }
}

/// Questions 6 to 8 of record number i, with the greatest width that is allowed where it stands.
pub fn ask_record(i: usize, c: &Cell, max_width: u16) -> Result<(), Refusal> {
    let father_ok = if i == 0 { c.parent == ROOT } else { (c.parent as usize) < i };
    if !father_ok {
        return refuse(6, i);
    }
    if border(c.kind).is_none() {
        return refuse(7, i);
    }
    if !(1..=max_width).contains(&c.width) || !(1..=15).contains(&c.depth) {
        return refuse(8, i);
    }
    Ok(())
}

/// Questions 11 to 13, of a table that passes 6 to 8.
pub fn ask_tree(table: &[Cell]) -> Result<Plan, Refusal> {
    let plan = Plan::new(table);
    let n = plan.len();
    if let Some(c) = (0..n).find(|&c| !sons_allowed(table[c].kind, plan.sons[c].len())) {
        return refuse(11, c);
    }
    if let Some(c) = (0..n).find(|&c| plan.level[c] > MAX_LEVEL) {
        return refuse(12, c);
    }
    if let Some(c) = (0..n).find(|&c| plan.row[c] + table[c].depth as i64 > LAST_ROW) {
        return refuse(13, c);
    }
    Ok(plan)
}

/// Question 4 of a table, 1 of the positions, and 6 to 13.
pub fn ask_table(table: &[Cell], positions: usize) -> Result<Plan, Refusal> {
    if table.is_empty() || table.len() > MAX_CELLS {
        return refuse(4, 0);
    }
    if positions < 2 * table.len() {
        return refuse(1, 0);
    }
    for (i, c) in table.iter().enumerate() {
        ask_record(i, c, MAX_WIDTH)?;
    }
    ask_tree(table)
}

/// Question 14.
pub fn ask_allowance(allowance: u32) -> Result<(), Refusal> {
    if allowance > MAX_ALLOWANCE {
        return refuse(14, 0);
    }
    Ok(())
}
