//! Settling as both tuned forms do it: sweeps for the ends of a row, and rows narrowed until nothing moves. What a form
//! adds is how it finds a forbidden area.

use crate::decode::{Area, Copies, Decoded, Point, Row, Rows};
use crate::sheet::refusal;
use crate::sweep;

/// How forbidden areas are found for one row and shape at a time.
pub trait Form {
    fn new() -> Self;

    /// Turns to row i with shape s in its cut box; false where that is forbidden whole.
    fn turn_to(&mut self, sheet: &Decoded, rows: &Rows, i: usize, s: usize, cut: &Area) -> bool;

    /// A forbidden area around p, a point of the cut box.
    fn forbidding(&mut self, sheet: &Decoded, rows: &Rows, p: &Point) -> Option<Area>;
}

/// Settles the table: 0 settled, -1 no layout, otherwise the refusal. The table is written at 0 alone. `narrows` is
/// called before each narrowing of a row.
#[inline(always)]
pub fn settle<F: Form>(block: &[i64], table: &mut [i64], narrows: impl FnMut()) -> i64 {
    let refused = refusal(block, table);
    if refused != 0 {
        return refused;
    }
    let sheet = Decoded::new(block, table.len(), Copies::Dropped);
    let mut settling = Settling { rows: sheet.read_rows(table), sheet: &sheet, form: F::new(), narrows };
    if !settling.run() {
        return -1;
    }
    sheet.write_rows(&settling.rows, table);
    0
}

struct Settling<'a, F, N> {
    sheet: &'a Decoded,
    rows: Rows,
    form: F,
    narrows: N,
}

impl<F: Form, N: FnMut()> Settling<'_, F, N> {
    /// Narrows rows until nothing moves; false where a row has no place. A row stands in `due` while one that can
    /// forbid it something has moved since it was narrowed.
    fn run(&mut self) -> bool {
        let n = self.sheet.n;
        let mut due = u32::MAX >> (32 - n);
        while due != 0 {
            for i in 0..n {
                if due >> i & 1 == 0 {
                    continue;
                }
                due &= !(1 << i);
                (self.narrows)();
                let (set, area) = self.narrow(i);
                if set == 0 {
                    return false;
                }
                let row = &mut self.rows[i];
                if set != row.set || area.low != row.area.low || area.high != row.area.high {
                    *row = Row { set, area };
                    due |= self.touched_by(i, !due);
                }
            }
        }
        true
    }

    /// The rows of the set `among` to which row i can forbid a point of their ranges: all that it forbids, its lowest
    /// shape does.
    fn touched_by(&self, i: usize, among: u32) -> u32 {
        let row = &self.rows[i];
        let hull = &self.sheet.hulls[row.shape()];
        let mut touched = 0;
        for rule in self.sheet.aparts.iter().filter(|rule| rule.rows >> i & 1 == 1) {
            let core = hull.core(row, rule);
            let mut others = rule.rows & among & !touched & !(1 << i);
            while others != 0 {
                let j = others.trailing_zeros() as usize;
                others &= others - 1;
                let other = &self.rows[j];
                if other.shapes().any(|s| self.sheet.hulls[s].hits_in(&other.area, &core)) {
                    touched |= 1 << j;
                }
            }
        }
        touched
    }

    /// The shapes of row i that have an allowed point, and the smallest area around all its allowed points.
    fn narrow(&mut self, i: usize) -> (u32, Area) {
        let row = self.rows[i];
        let mut kept = 0;
        let mut found = Area::NONE;
        let mut left = row.set;
        while left != 0 {
            let s = left.trailing_zeros() as usize;
            left &= left - 1;
            let cut = self.sheet.cut(i, s, &row.area);
            if cut.is_empty() || !self.form.turn_to(self.sheet, &self.rows, i, s, &cut) {
                continue;
            }
            let Some(p) = self.least(0, &cut) else { continue };
            kept |= 1 << s;
            found.take_in(&p);
            // From here on only points outside those found can move an end.
            for d in 0..self.sheet.k {
                if d > 0 && cut.low[d] < found.low[d] {
                    let mut rest = cut;
                    rest.high[d] = rest.high[d].min(found.low[d] - 1);
                    if let Some(p) = self.least(d, &rest) {
                        found.take_in(&p);
                    }
                }
                if cut.high[d] > found.high[d] {
                    let mut rest = cut;
                    rest.low[d] = rest.low[d].max(found.high[d] + 1);
                    if let Some(p) = self.greatest(d, &rest) {
                        found.take_in(&p);
                    }
                }
            }
        }
        (kept, found)
    }

    /// An allowed point of the area with the least coordinate in dimension d, and one with the greatest.
    fn least(&mut self, d: usize, area: &Area) -> Option<Point> {
        sweep::least(self.sheet.k, d, area, |p| self.form.forbidding(self.sheet, &self.rows, p))
    }

    fn greatest(&mut self, d: usize, area: &Area) -> Option<Point> {
        sweep::greatest(self.sheet.k, d, area, |p| self.form.forbidding(self.sheet, &self.rows, p))
    }
}
