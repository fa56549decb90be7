//! The sheet of document 01: block and table as runs of 64-bit words, a builder that lays them out, and the
//! refusals 2 to 8. Everything else in the benchmark reads these words or what `decode.rs` makes of them.

pub const MAX_DIMS: usize = 4;
pub const MAX_BOXES: usize = 128;
pub const MAX_RULES: usize = 32;
pub const MAX_ROWS: usize = 32;
pub const MAX_SHAPES: usize = 32;
pub const MAX_CLEARANCE: i64 = 1_000;

pub const APART: i64 = 1;
pub const INSIDE: i64 = 2;

/// Block and table, as they are lent to the kernel.
#[derive(Clone, Debug, PartialEq)]
pub struct Sheet {
    pub block: Vec<i64>,
    pub table: Vec<i64>,
}

/// Words of a box record, a rule record, a row.
pub fn box_len(k: usize) -> usize {
    1 + 2 * k
}

pub fn rule_len(k: usize) -> usize {
    3 + 2 * k
}

pub fn row_len(k: usize) -> usize {
    1 + 2 * k
}

/// Collects boxes, rules and rows and lays them out.
#[derive(Clone)]
pub struct Builder {
    k: usize,
    boxes: Vec<Vec<i64>>,
    rules: Vec<Vec<i64>>,
    rows: Vec<Vec<i64>>,
}

impl Builder {
    pub fn new(k: usize) -> Self {
        Builder { k, boxes: Vec::new(), rules: Vec::new(), rows: Vec::new() }
    }

    /// A box of shape `shape` (from 1).
    pub fn add_box(&mut self, shape: usize, offset: &[i64], size: &[i64]) {
        let mut record = vec![shape as i64];
        record.extend_from_slice(&offset[..self.k]);
        record.extend_from_slice(&size[..self.k]);
        self.boxes.push(record);
    }

    /// The rows of the set `rows` keep the clearance in some dimension of the set `dims`.
    pub fn add_apart(&mut self, dims: i64, rows: i64, clearance: &[i64]) {
        self.add_rule(APART, dims, rows, clearance, &[0; MAX_DIMS]);
    }

    /// The rows of the set `rows` lie in the room.
    pub fn add_inside(&mut self, dims: i64, rows: i64, low: &[i64], high: &[i64]) {
        self.add_rule(INSIDE, dims, rows, low, high);
    }

    /// The low and high words outside `dims` are not read.
    fn add_rule(&mut self, kind: i64, dims: i64, rows: i64, low: &[i64], high: &[i64]) {
        let mut record = vec![kind, dims, rows];
        for d in 0..self.k {
            let named = dims >> d & 1 == 1;
            record.push(if named { low[d] } else { 0 });
            record.push(if named { high[d] } else { 0 });
        }
        self.rules.push(record);
    }

    /// A row with the shape set `set` and the ranges `low` to `high`.
    pub fn add_row(&mut self, set: i64, low: &[i64], high: &[i64]) {
        let mut record = vec![set];
        for d in 0..self.k {
            record.push(low[d]);
            record.push(high[d]);
        }
        self.rows.push(record);
    }

    pub fn boxes_mut(&mut self) -> &mut Vec<Vec<i64>> {
        &mut self.boxes
    }

    pub fn build(&self) -> Sheet {
        let mut block = vec![self.k as i64, self.boxes.len() as i64, self.rules.len() as i64];
        block.extend(self.boxes.iter().flatten());
        block.extend(self.rules.iter().flatten());
        Sheet { block, table: self.rows.concat() }
    }
}

fn within(x: i64, low: i64, high: i64) -> bool {
    low <= x && x <= high
}

/// The first of the refusals 2 to 8 that applies, or 0.
pub fn refusal(block: &[i64], table: &[i64]) -> i64 {
    if block.len() < 3 || !within(block[0], 1, MAX_DIMS as i64) {
        return 2;
    }
    if !within(block[1], 1, MAX_BOXES as i64) || !within(block[2], 0, MAX_RULES as i64) {
        return 3;
    }
    let (k, b, r) = (block[0] as usize, block[1] as usize, block[2] as usize);
    let rules_at = 3 + b * box_len(k);
    if block.len() != rules_at + r * rule_len(k) {
        return 4;
    }
    let n = table.len() / row_len(k);
    if n * row_len(k) != table.len() || !(1..=MAX_ROWS).contains(&n) {
        return 5;
    }
    let mut shapes = 0i64;
    for record in block[3..rules_at].chunks_exact(box_len(k)) {
        let (offsets, sizes) = record[1..].split_at(k);
        if !within(record[0], 1, MAX_SHAPES as i64)
            || !offsets.iter().all(|&t| within(t, -10_000, 10_000))
            || !sizes.iter().all(|&l| within(l, 1, 10_000))
        {
            return 6;
        }
        shapes |= 1 << (record[0] - 1);
    }
    for record in block[rules_at..].chunks_exact(rule_len(k)) {
        if !rule_accepted(k, n, record) {
            return 7;
        }
    }
    for row in table.chunks_exact(row_len(k)) {
        let ranges = row[1..].chunks_exact(2);
        if !within(row[0], 1, (1 << MAX_SHAPES) - 1)
            || row[0] & !shapes != 0
            || !ranges.clone().all(|w| -1_000_000 <= w[0] && w[0] <= w[1] && w[1] <= 1_000_000)
        {
            return 8;
        }
    }
    0
}

fn rule_accepted(k: usize, n: usize, record: &[i64]) -> bool {
    let (kind, dims, rows) = (record[0], record[1], record[2]);
    if !within(kind, APART, INSIDE) || !within(dims, 1, (1 << k) - 1) || !within(rows, 1, (1 << n) - 1) {
        return false;
    }
    record[3..].chunks_exact(2).enumerate().all(|(d, w)| match kind {
        _ if dims >> d & 1 == 0 => w[0] == 0 && w[1] == 0,
        APART => within(w[0], 0, MAX_CLEARANCE) && w[1] == 0,
        _ => -1_000_000 <= w[0] && w[0] <= w[1] && w[1] <= 1_000_000,
    })
}
