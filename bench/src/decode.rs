//! An accepted sheet, decoded once a settle: what every plain form reads. Boxes stand grouped by shape, with
//! their starts and ends; every point has four coordinates, and the dimensions from k on hold 0 everywhere,
//! where every interval holds 0, so loops over the four need no k.

use crate::sheet::{box_len, row_len, rule_len, APART, MAX_DIMS, MAX_ROWS, MAX_SHAPES};

pub type Point = [i64; MAX_DIMS];

/// Past every sum of an accepted sheet's words that is formed here.
pub const FAR: i64 = 8_000_000;

/// The points from `low` to `high`, both included.
#[derive(Clone, Copy, PartialEq)]
pub struct Area {
    pub low: Point,
    pub high: Point,
}

impl Area {
    pub const NONE: Area = Area { low: [FAR; 4], high: [-FAR; 4] };
    pub const ALL: Area = Area { low: [-FAR; 4], high: [FAR; 4] };

    #[inline(always)]
    pub fn is_empty(&self) -> bool {
        (0..4).any(|d| self.low[d] > self.high[d])
    }

    #[inline(always)]
    pub fn holds(&self, p: &Point) -> bool {
        (0..4).all(|d| self.low[d] <= p[d] && p[d] <= self.high[d])
    }

    #[inline(always)]
    pub fn holds_all(&self, other: &Area) -> bool {
        self.holds(&other.low) && self.holds(&other.high)
    }

    /// Whether some point is in both.
    #[inline(always)]
    pub fn meets(&self, other: &Area) -> bool {
        (0..4).all(|d| self.low[d].max(other.low[d]) <= self.high[d].min(other.high[d]))
    }

    /// The points of both.
    #[inline(always)]
    pub fn common(&self, other: &Area) -> Area {
        let mut area = *self;
        for d in 0..4 {
            area.low[d] = area.low[d].max(other.low[d]);
            area.high[d] = area.high[d].min(other.high[d]);
        }
        area
    }

    #[inline(always)]
    pub fn take_in(&mut self, p: &Point) {
        for d in 0..4 {
            self.low[d] = self.low[d].min(p[d]);
            self.high[d] = self.high[d].max(p[d]);
        }
    }
}

/// A box: offset, and offset plus size; or the smallest box around a shape.
#[derive(Clone, Copy)]
pub struct Solid {
    pub start: Point,
    pub end: Point,
}

impl Solid {
    /// What the box covers wherever in its ranges the row is placed, as the rule sees it: from its start at the
    /// highest origin to its end at the lowest, with the rule's slack on either side. There may be nothing in between.
    #[inline(always)]
    pub fn core(&self, row: &Row, rule: &Apart) -> Solid {
        let mut core = *self;
        for d in 0..4 {
            core.start[d] += row.area.high[d] - rule.slack[d];
            core.end[d] += row.area.low[d] + rule.slack[d];
        }
        core
    }

    /// Whether the box, at the origin p, overlaps the core; left at the first dimension that is clear.
    #[inline(always)]
    pub fn hits(&self, p: &Point, core: &Solid) -> bool {
        (0..4).all(|d| core.start[d] < p[d] + self.end[d] && p[d] + self.start[d] < core.end[d])
    }

    /// Whether it does so at some origin in the area.
    #[inline(always)]
    pub fn hits_in(&self, area: &Area, core: &Solid) -> bool {
        (0..4).all(|d| {
            core.start[d] < area.high[d] + self.end[d]
                && area.low[d] + self.start[d] < core.end[d]
                && core.start[d] + 1 < core.end[d] + self.end[d] - self.start[d]
        })
    }

    /// The origins at which it does so.
    #[inline(always)]
    pub fn forbidden(&self, core: &Solid) -> Area {
        let mut area = Area::NONE;
        for d in 0..4 {
            area.low[d] = core.start[d] - self.end[d] + 1;
            area.high[d] = core.end[d] - self.start[d] - 1;
        }
        area
    }
}

/// A kind 1 rule: its rows, and `slack` to widen intervals by: the clearance in a named dimension, `FAR` in the others.
#[derive(Clone, Copy)]
pub struct Apart {
    pub rows: u32,
    pub slack: Point,
}

/// A kind 2 rule: its rows and its room, which is everything in a dimension that it does not name.
#[derive(Clone, Copy)]
pub struct Room {
    pub rows: u32,
    pub area: Area,
}

#[derive(Clone, Copy, PartialEq)]
pub struct Row {
    pub set: u32,
    pub area: Area,
}

impl Row {
    #[inline(always)]
    pub fn has_one_shape(&self) -> bool {
        self.set & (self.set - 1) == 0
    }

    /// Its lowest shape, from 0.
    #[inline(always)]
    pub fn shape(&self) -> usize {
        self.set.trailing_zeros() as usize
    }

    /// Its shapes, from 0.
    #[inline(always)]
    pub fn shapes(&self) -> Shapes {
        Shapes(self.set)
    }
}

/// The shapes that are left of a set.
pub struct Shapes(u32);

impl Iterator for Shapes {
    type Item = usize;

    #[inline(always)]
    fn next(&mut self) -> Option<usize> {
        if self.0 == 0 {
            return None;
        }
        let s = self.0.trailing_zeros() as usize;
        self.0 &= self.0 - 1;
        Some(s)
    }
}

pub type Rows = [Row; MAX_ROWS];

/// Whether a rule is kept that an earlier one covers.
#[derive(Clone, Copy, PartialEq)]
pub enum Copies {
    Kept,
    Dropped,
}

/// The block of an accepted sheet; `first` says where in `boxes` those of a shape begin.
pub struct Decoded {
    pub k: usize,
    pub n: usize,
    boxes: Vec<Solid>,
    first: [u8; MAX_SHAPES + 1],
    pub hulls: [Solid; MAX_SHAPES],
    pub aparts: Vec<Apart>,
    pub rooms: Vec<Room>,
}

impl Decoded {
    /// Of an accepted block.
    pub fn new(block: &[i64], table_len: usize, copies: Copies) -> Self {
        let (k, b) = (block[0] as usize, block[1] as usize);
        let (box_words, rule_words) = block[3..].split_at(b * box_len(k));
        let mut first = [0u8; MAX_SHAPES + 1];
        for record in box_words.chunks_exact(box_len(k)) {
            first[record[0] as usize] += 1;
        }
        for s in 1..=MAX_SHAPES {
            first[s] += first[s - 1];
        }
        let mut next = first;
        let mut boxes = vec![Solid { start: [0; 4], end: [1; 4] }; b];
        let mut hulls = [Solid { start: [0; 4], end: [1; 4] }; MAX_SHAPES];
        for record in box_words.chunks_exact(box_len(k)) {
            let s = record[0] as usize - 1;
            let place = next[s] as usize;
            let solid = &mut boxes[place];
            for d in 0..k {
                solid.start[d] = record[1 + d];
                solid.end[d] = record[1 + d] + record[1 + k + d];
            }
            if place == first[s] as usize {
                hulls[s] = *solid;
            } else {
                for d in 0..k {
                    hulls[s].start[d] = hulls[s].start[d].min(solid.start[d]);
                    hulls[s].end[d] = hulls[s].end[d].max(solid.end[d]);
                }
            }
            next[s] += 1;
        }
        let mut aparts = Vec::with_capacity(rule_words.len() / rule_len(k));
        let mut rooms = Vec::new();
        for record in rule_words.chunks_exact(rule_len(k)) {
            let (dims, rows) = (record[1] as u32, record[2] as u32);
            if record[0] == APART {
                let mut slack = [0; 4];
                for d in 0..k {
                    slack[d] = if dims >> d & 1 == 1 { record[3 + 2 * d] } else { FAR };
                }
                // An earlier rule over these rows that has no less slack anywhere forbids all that this one does.
                let covers = |a: &Apart| rows & !a.rows == 0 && (0..k).all(|d| a.slack[d] >= slack[d]);
                if copies == Copies::Kept || !aparts.iter().any(covers) {
                    aparts.push(Apart { rows, slack });
                }
            } else {
                let mut area = Area::ALL;
                for d in (0..k).filter(|d| dims >> d & 1 == 1) {
                    area.low[d] = record[3 + 2 * d];
                    area.high[d] = record[4 + 2 * d];
                }
                rooms.push(Room { rows, area });
            }
        }
        Decoded { k, n: table_len / row_len(k), boxes, first, hulls, aparts, rooms }
    }

    #[inline(always)]
    pub fn boxes_of(&self, s: usize) -> &[Solid] {
        &self.boxes[self.first[s] as usize..self.first[s + 1] as usize]
    }

    /// What every shape of the row forbids around p to shape s by the rule: the areas of one pair of boxes each, cut to
    /// what they share.
    #[inline(always)]
    pub fn forbidding_row(&self, s: usize, row: &Row, rule: &Apart, p: &Point) -> Option<Area> {
        if row.has_one_shape() {
            return self.forbidding_pair(s, row, row.shape(), rule, p);
        }
        self.forbidding_set(s, row, rule, p)
    }

    #[cold]
    fn forbidding_set(&self, s: usize, row: &Row, rule: &Apart, p: &Point) -> Option<Area> {
        row.shapes().try_fold(Area::ALL, |area, t| Some(area.common(&self.forbidding_pair(s, row, t, rule, p)?)))
    }

    /// What a pair of a box of shape s and a box of the row with shape t forbids around p by the rule. A box of the row
    /// that is clear of the shape's hull is passed over before the shape's boxes.
    #[inline(always)]
    fn forbidding_pair(&self, s: usize, row: &Row, t: usize, rule: &Apart, p: &Point) -> Option<Area> {
        for c in self.boxes_of(t) {
            let core = c.core(row, rule);
            if !self.hulls[s].hits(p, &core) {
                continue;
            }
            if let Some(b) = self.boxes_of(s).iter().find(|b| b.hits(p, &core)) {
                return Some(b.forbidden(&core));
            }
        }
        None
    }

    /// Row i's ranges cut down to the points at which every room rule holds for shape s (both from 0).
    #[inline]
    pub fn cut(&self, i: usize, s: usize, ranges: &Area) -> Area {
        let mut area = *ranges;
        for room in self.rooms.iter().filter(|room| room.rows >> i & 1 == 1) {
            for d in 0..self.k {
                area.low[d] = area.low[d].max(room.area.low[d] - self.hulls[s].start[d]);
                area.high[d] = area.high[d].min(room.area.high[d] - self.hulls[s].end[d]);
            }
        }
        area
    }

    pub fn read_rows(&self, table: &[i64]) -> Rows {
        let mut rows = [Row { set: 1, area: Area { low: [0; 4], high: [0; 4] } }; MAX_ROWS];
        for (row, words) in rows.iter_mut().zip(table.chunks_exact(row_len(self.k))) {
            row.set = words[0] as u32;
            for d in 0..self.k {
                row.area.low[d] = words[1 + 2 * d];
                row.area.high[d] = words[2 + 2 * d];
            }
        }
        rows
    }

    pub fn write_rows(&self, rows: &Rows, table: &mut [i64]) {
        for (row, words) in rows.iter().zip(table.chunks_exact_mut(row_len(self.k))) {
            words[0] = row.set as i64;
            for d in 0..self.k {
                words[1 + 2 * d] = row.area.low[d];
                words[2 + 2 * d] = row.area.high[d];
            }
        }
    }
}
