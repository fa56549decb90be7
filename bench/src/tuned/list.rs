//! The tuned list form: forbidden areas are listed once for a row and shape, and every sweep of it searches the list.
//! Two grains: for each rule and other row the area that holds all it can forbid, if it meets the cut box; and the
//! areas of pairs of boxes, each listed when the first candidate falls to it. Listing every pair beforehand is
//! slower than the direct form by far where ranges are wide and shapes have many boxes: few of them are ever met.

use super::settle::{self, Form};
use crate::decode::{Area, Decoded, Point, Rows};

/// As `zk_settle`.
pub fn settle(block: &[i64], table: &mut [i64]) -> i64 {
    settle::settle::<List>(block, table, || ())
}

/// How many times a row is narrowed until the table is settled or found to have no layout.
pub fn narrowings(block: &[i64], table: &[i64]) -> usize {
    let mut count = 0;
    settle::settle::<List>(block, &mut table.to_vec(), || count += 1);
    count
}

/// Every point that the row can forbid by the rule lies in the area; `whole` says that it forbids all of it.
struct Reach {
    area: Area,
    rule: u8,
    row: u8,
    whole: bool,
}

struct List {
    shape: usize,
    reaches: Vec<Reach>,
    pairs: Vec<Area>,
}

impl Form for List {
    fn new() -> Self {
        List { shape: 0, reaches: Vec::with_capacity(32), pairs: Vec::with_capacity(32) }
    }

    fn turn_to(&mut self, sheet: &Decoded, rows: &Rows, i: usize, s: usize, cut: &Area) -> bool {
        self.shape = s;
        self.reaches.clear();
        self.pairs.clear();
        let own_hull = &sheet.hulls[s];
        let one_box = sheet.boxes_of(s).len() == 1;
        for (r, rule) in sheet.aparts.iter().enumerate().filter(|(_, rule)| rule.rows >> i & 1 == 1) {
            let mut others = rule.rows & !(1 << i);
            while others != 0 {
                let j = others.trailing_zeros() as usize;
                others &= others - 1;
                // The lowest shape decides in most cases; the others cut its area down.
                let core = sheet.hulls[rows[j].shape()].core(&rows[j], rule);
                if !own_hull.hits_in(cut, &core) {
                    continue;
                }
                let mut area = own_hull.forbidden(&core);
                let mut whole = one_box && sheet.boxes_of(rows[j].shape()).len() == 1;
                if !rows[j].has_one_shape() {
                    for t in rows[j].shapes().skip(1) {
                        area = area.common(&own_hull.forbidden(&sheet.hulls[t].core(&rows[j], rule)));
                        whole &= sheet.boxes_of(t).len() == 1;
                    }
                    if !area.meets(cut) {
                        continue;
                    }
                }
                if whole && area.holds_all(cut) {
                    return false;
                }
                self.reaches.push(Reach { area, rule: r as u8, row: j as u8, whole });
            }
        }
        true
    }

    fn forbidding(&mut self, sheet: &Decoded, rows: &Rows, p: &Point) -> Option<Area> {
        // The last one met first: it is the likeliest, and the fewer areas a sweep meets, the further it jumps.
        if let Some(area) = self.pairs.iter().rev().find(|area| area.holds(p)) {
            return Some(*area);
        }
        for reach in self.reaches.iter().filter(|reach| reach.area.holds(p)) {
            if reach.whole {
                return Some(reach.area);
            }
            let row = &rows[reach.row as usize];
            let rule = &sheet.aparts[reach.rule as usize];
            if let Some(area) = sheet.forbidding_row(self.shape, row, rule, p) {
                self.pairs.push(area);
                return Some(area);
            }
        }
        None
    }
}
