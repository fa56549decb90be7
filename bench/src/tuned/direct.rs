//! The tuned direct form: every candidate is tested against the rows that a rule names, and where the hulls meet,
//! against its pairs of boxes.

use super::settle::{self, Form};
use crate::decode::{Area, Decoded, Point, Rows};

/// As `zk_settle`.
pub fn settle(block: &[i64], table: &mut [i64]) -> i64 {
    settle::settle::<Direct>(block, table, || ())
}

struct Direct {
    row: usize,
    shape: usize,
}

impl Form for Direct {
    fn new() -> Self {
        Direct { row: 0, shape: 0 }
    }

    fn turn_to(&mut self, _: &Decoded, _: &Rows, i: usize, s: usize, _: &Area) -> bool {
        (self.row, self.shape) = (i, s);
        true
    }

    fn forbidding(&mut self, sheet: &Decoded, rows: &Rows, p: &Point) -> Option<Area> {
        let own_hull = &sheet.hulls[self.shape];
        for rule in sheet.aparts.iter().filter(|rule| rule.rows >> self.row & 1 == 1) {
            let mut others = rule.rows & !(1 << self.row);
            while others != 0 {
                let row = &rows[others.trailing_zeros() as usize];
                others &= others - 1;
                if !own_hull.hits(p, &sheet.hulls[row.shape()].core(row, rule)) {
                    continue;
                }
                if let Some(area) = sheet.forbidding_row(self.shape, row, rule, p) {
                    return Some(area);
                }
            }
        }
        None
    }
}
