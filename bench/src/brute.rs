//! Document 01 by definition, over all points: what the tests hold the fast forms against. It reads the words
//! themselves and shares nothing with the other files but the layout.

use crate::sheet::{box_len, row_len, rule_len, APART, INSIDE, MAX_SHAPES};

/// The first of the refusals 2 to 8 that applies, or 0: document 01's list, line by line.
pub fn refusal(block: &[i64], table: &[i64]) -> i64 {
    let is = |x: i64, low: i64, high: i64| (low..=high).contains(&x);
    if block.len() < 3 || !is(block[0], 1, 4) {
        return 2;
    }
    if !is(block[1], 1, 128) || !is(block[2], 0, 32) {
        return 3;
    }
    let (k, b, r) = (block[0] as usize, block[1] as usize, block[2] as usize);
    if block.len() != 3 + b * (1 + 2 * k) + r * (3 + 2 * k) {
        return 4;
    }
    let Some(n) = (1..=32).find(|n| table.len() == n * (1 + 2 * k)) else { return 5 };
    let boxes: Vec<&[i64]> = block[3..3 + b * (1 + 2 * k)].chunks(1 + 2 * k).collect();
    let rules: Vec<&[i64]> = block[3 + b * (1 + 2 * k)..].chunks(3 + 2 * k).collect();
    for x in &boxes {
        let offsets = (0..k).all(|d| is(x[1 + d], -10_000, 10_000));
        let sizes = (0..k).all(|d| is(x[1 + k + d], 1, 10_000));
        if !(is(x[0], 1, 32) && offsets && sizes) {
            return 6;
        }
    }
    for x in &rules {
        let sets = is(x[1], 1, (1 << k) - 1) && is(x[2], 1, (1 << n) - 1);
        let ends = (0..k).all(|d| {
            let (low, high) = (x[3 + 2 * d], x[4 + 2 * d]);
            if x[1] & (1 << d) == 0 {
                low == 0 && high == 0
            } else if x[0] == 1 {
                is(low, 0, 1_000) && high == 0
            } else {
                is(low, -1_000_000, 1_000_000) && is(high, -1_000_000, 1_000_000) && low <= high
            }
        });
        if !(is(x[0], 1, 2) && sets && ends) {
            return 7;
        }
    }
    for row in table.chunks(1 + 2 * k) {
        let ranges = (0..k).all(|d| {
            let (low, high) = (row[1 + 2 * d], row[2 + 2 * d]);
            is(low, -1_000_000, 1_000_000) && is(high, -1_000_000, 1_000_000) && low <= high
        });
        let set = is(row[0], 1, (1 << 32) - 1)
            && (1..=32).all(|s| row[0] & (1 << (s - 1)) == 0 || boxes.iter().any(|x| x[0] == s));
        if !(set && ranges) {
            return 8;
        }
    }
    0
}

pub struct Brute<'a> {
    block: &'a [i64],
    k: usize,
    boxes: usize,
    rules: usize,
}

pub type Point = [i64; 4];

impl<'a> Brute<'a> {
    /// Of an accepted block.
    pub fn new(block: &'a [i64]) -> Self {
        Brute { block, k: block[0] as usize, boxes: block[1] as usize, rules: block[2] as usize }
    }

    pub fn rows(&self, table: &[i64]) -> usize {
        table.len() / row_len(self.k)
    }

    fn box_at(&self, b: usize) -> usize {
        3 + b * box_len(self.k)
    }

    fn shape(&self, b: usize) -> i64 {
        self.block[self.box_at(b)]
    }

    fn offset(&self, b: usize, d: usize) -> i64 {
        self.block[self.box_at(b) + 1 + d]
    }

    fn size(&self, b: usize, d: usize) -> i64 {
        self.block[self.box_at(b) + 1 + self.k + d]
    }

    fn rule(&self, r: usize) -> &[i64] {
        let at = self.box_at(self.boxes) + r * rule_len(self.k);
        &self.block[at..at + rule_len(self.k)]
    }

    fn set(&self, table: &[i64], i: usize) -> i64 {
        table[(i - 1) * row_len(self.k)]
    }

    fn low(&self, table: &[i64], i: usize, d: usize) -> i64 {
        table[(i - 1) * row_len(self.k) + 1 + 2 * d]
    }

    fn high(&self, table: &[i64], i: usize, d: usize) -> i64 {
        table[(i - 1) * row_len(self.k) + 2 + 2 * d]
    }

    fn room_holds(&self, rule: &[i64], s: usize, p: &Point) -> bool {
        (0..self.boxes).filter(|&b| self.shape(b) == s as i64).all(|b| {
            (0..self.k).filter(|d| rule[1] >> d & 1 == 1).all(|d| {
                let start = p[d] + self.offset(b, d);
                rule[3 + 2 * d] <= start && start + self.size(b, d) <= rule[4 + 2 * d]
            })
        })
    }

    fn pair_forbids(&self, table: &[i64], rule: &[i64], p: &Point, b: usize, j: usize, c: usize) -> bool {
        (0..self.k).filter(|d| rule[1] >> d & 1 == 1).all(|d| {
            let from = self.high(table, j, d) + self.offset(c, d) - self.offset(b, d) - self.size(b, d) + 1;
            let to = self.low(table, j, d) + self.offset(c, d) + self.size(c, d) - self.offset(b, d) - 1;
            let clearance = rule[3 + 2 * d];
            from - clearance <= p[d] && p[d] <= to + clearance
        })
    }

    fn shapes_forbid(&self, table: &[i64], rule: &[i64], s: usize, p: &Point, j: usize, t: usize) -> bool {
        let boxes_of = |x: usize| (0..self.boxes).filter(move |&b| self.shape(b) == x as i64);
        boxes_of(s).any(|b| boxes_of(t).any(|c| self.pair_forbids(table, rule, p, b, j, c)))
    }

    fn forbids(&self, table: &[i64], rule: &[i64], i: usize, s: usize, p: &Point) -> bool {
        (1..=self.rows(table)).any(|j| {
            let mut shapes = (1..=MAX_SHAPES).filter(|t| self.set(table, j) >> (t - 1) & 1 == 1);
            j != i && rule[2] >> (j - 1) & 1 == 1 && shapes.all(|t| self.shapes_forbid(table, rule, s, p, j, t))
        })
    }

    /// Row i with shape s (both from 1) is allowed at p.
    pub fn allowed(&self, table: &[i64], i: usize, s: usize, p: &Point) -> bool {
        (0..self.k).all(|d| self.low(table, i, d) <= p[d] && p[d] <= self.high(table, i, d))
            && (0..self.rules).map(|r| self.rule(r)).filter(|rule| rule[2] >> (i - 1) & 1 == 1).all(|rule| {
                match rule[0] {
                    INSIDE => self.room_holds(rule, s, p),
                    APART => !self.forbids(table, rule, i, s, p),
                    _ => unreachable!(),
                }
            })
    }

    /// The points of row i's ranges, one after the other; 0 past dimension k - 1.
    fn points(&self, table: &[i64], i: usize) -> Vec<Point> {
        let mut points = vec![[0; 4]];
        for d in 0..self.k {
            let mut longer = Vec::new();
            for p in points {
                for x in self.low(table, i, d)..=self.high(table, i, d) {
                    let mut q = p;
                    q[d] = x;
                    longer.push(q);
                }
            }
            points = longer;
        }
        points
    }

    /// Narrows row i and says whether it has a place.
    pub fn narrow(&self, table: &mut [i64], i: usize) -> bool {
        let mut set = 0;
        let mut low = [i64::MAX; 4];
        let mut high = [i64::MIN; 4];
        for p in self.points(table, i) {
            for s in (1..=MAX_SHAPES).filter(|s| self.set(table, i) >> (s - 1) & 1 == 1) {
                if self.allowed(table, i, s, &p) {
                    set |= 1 << (s - 1);
                    for d in 0..self.k {
                        low[d] = low[d].min(p[d]);
                        high[d] = high[d].max(p[d]);
                    }
                }
            }
        }
        if set == 0 {
            return false;
        }
        let at = (i - 1) * row_len(self.k);
        table[at] = set;
        for d in 0..self.k {
            table[at + 1 + 2 * d] = low[d];
            table[at + 2 + 2 * d] = high[d];
        }
        true
    }

    /// Settles the table, its rows taken in the given order: the passes that moved a word, or none where no settled
    /// table exists.
    pub fn settle(&self, table: &mut [i64], order: &[usize]) -> Option<usize> {
        let mut work = table.to_vec();
        for passes in 0.. {
            let before = work.clone();
            for &i in order {
                if !self.narrow(&mut work, i) {
                    return None;
                }
            }
            if work == before {
                table.copy_from_slice(&work);
                return Some(passes);
            }
        }
        unreachable!()
    }

    /// A fixed placement is good, by the catalogue's rule: each row lies in its rooms, and each two boxes of rows to be
    /// kept apart have a named dimension in which one starts at or past the other's end, with the clearance between.
    pub fn good(&self, table: &[i64]) -> bool {
        let has = |i: usize, b: usize| self.set(table, i) >> (self.shape(b) - 1) & 1 == 1;
        let start = |(i, b): (usize, usize), d| self.low(table, i, d) + self.offset(b, d);
        let boxes_of = |i: usize| (0..self.boxes).filter(move |&b| has(i, b)).map(move |b| (i, b));
        (0..self.rules).map(|r| self.rule(r)).all(|rule| {
            let past = |x, y, d| start(x, d) >= start(y, d) + self.size(y.1, d) + rule[3 + 2 * d];
            let apart = |x, y| (0..self.k).any(|d| rule[1] >> d & 1 == 1 && (past(x, y, d) || past(y, x, d)));
            let named = |i: &usize| rule[2] >> (i - 1) & 1 == 1;
            (1..=self.rows(table)).filter(named).all(|i| match rule[0] {
                INSIDE => {
                    self.room_holds(rule, 1 + self.set(table, i).trailing_zeros() as usize, &self.points(table, i)[0])
                }
                _ => (1..i).filter(named).all(|j| boxes_of(i).all(|x| boxes_of(j).all(|y| apart(x, y)))),
            })
        })
    }

    /// The first good placement inside the table in document 02's order (T-06): every one is tried in turn.
    pub fn first_layout(&self, table: &[i64]) -> Option<Vec<i64>> {
        let mut placed = table.to_vec();
        for row in placed.chunks_exact_mut(row_len(self.k)) {
            row[0] &= -row[0];
            row[1..].chunks_exact_mut(2).for_each(|range| range[1] = range[0]);
        }
        while !self.good(&placed) {
            if !self.advance(table, &mut placed) {
                return None;
            }
        }
        Some(placed)
    }

    /// Takes a placement inside the table to the next one; false where it is the last. The last number with a higher
    /// value in the table takes the next, and those behind it their least.
    fn advance(&self, table: &[i64], placed: &mut [i64]) -> bool {
        let rows = table.chunks_exact(row_len(self.k)).zip(placed.chunks_exact_mut(row_len(self.k)));
        for (open, row) in rows.rev() {
            for d in (0..self.k).rev() {
                let (low, high) = (1 + 2 * d, 2 + 2 * d);
                if row[low] < open[high] {
                    row[low] += 1;
                    row[high] += 1;
                    return true;
                }
                (row[low], row[high]) = (open[low], open[low]);
            }
            let higher = open[0] & !(2 * row[0] - 1);
            if higher != 0 {
                row[0] = higher & -higher;
                return true;
            }
            row[0] = open[0] & -open[0];
        }
        false
    }
}

#[cfg(kernel)]
impl Brute<'_> {
    pub fn dims(&self) -> usize {
        self.k
    }

    pub fn has_shape(&self, table: &[i64], i: usize, s: usize) -> bool {
        self.set(table, i) >> (s - 1) & 1 == 1
    }

    /// The lowest shape of row i.
    pub fn some_shape(&self, table: &[i64], i: usize) -> i64 {
        1 + self.set(table, i).trailing_zeros() as i64
    }

    /// The least and the greatest coordinate in dimension d of row i with shape s.
    pub fn extremes(&self, table: &[i64], i: usize, s: usize, d: usize) -> Option<(i64, i64)> {
        let allowed = self.points(table, i).into_iter().filter(|p| self.allowed(table, i, s, p));
        allowed.fold(None, |found, p| match found {
            None => Some((p[d], p[d])),
            Some((low, high)) => Some((p[d].min(low), p[d].max(high))),
        })
    }

    /// A fixed placement inside the table, each row at the lowest shape and a point that `next` picks.
    pub fn placed(&self, table: &[i64], mut next: impl FnMut() -> u64) -> Vec<i64> {
        let mut placed = table.to_vec();
        for i in 1..=self.rows(table) {
            let at = (i - 1) * row_len(self.k);
            placed[at] &= -placed[at];
            for d in 0..self.k {
                let (low, high) = (self.low(table, i, d), self.high(table, i, d));
                let x = low + (next() % (high - low + 1) as u64) as i64;
                (placed[at + 1 + 2 * d], placed[at + 2 + 2 * d]) = (x, x);
            }
        }
        placed
    }

    pub fn is_fixed(&self, table: &[i64]) -> bool {
        (1..=self.rows(table)).all(|i| {
            self.set(table, i).count_ones() == 1 && (0..self.k).all(|d| self.low(table, i, d) == self.high(table, i, d))
        })
    }
}
