//! Document 000's filtering as the document has it: every row is narrowed in turn, again and again until a whole
//! pass moves none (Algorithm 8); for each shape what can forbid the row is set down, and each end of each dimension is
//! swept for (Algorithms 9, 10 and 12, and their mirror 13 and 14). Two forms of what a candidate is tested
//! against: `direct`, every pair of boxes of every rule; `list`, the forbidden regions that meet the cut box, listed
//! once for a row and shape.

use crate::decode::{Apart, Area, Copies, Decoded, Point, Row, Rows, Solid};
use crate::sheet::refusal;
use crate::sweep;

/// As `zk_settle`.
pub fn direct(block: &[i64], table: &mut [i64]) -> i64 {
    settle(block, table, &mut Pairs { row: 0, shape: 0, several: false })
}

pub fn list(block: &[i64], table: &mut [i64]) -> i64 {
    settle(block, table, &mut Regions { single: Vec::with_capacity(64), ..Regions::default() })
}

/// What a candidate is tested against.
trait Tested {
    /// Turns to row i with shape s in its cut box.
    fn turn_to(&mut self, sheet: &Decoded, rows: &Rows, i: usize, s: usize, cut: &Area);

    /// A forbidden region around p, a point of the cut box.
    fn region(&self, sheet: &Decoded, rows: &Rows, p: &Point) -> Option<Area>;
}

/// Calls `found` with each rule that names row i and each other row that it names, with one shape or with several, until it
/// answers.
#[inline(always)]
fn each_row<T>(
    sheet: &Decoded,
    rows: &Rows,
    i: usize,
    several: bool,
    mut found: impl FnMut(&Apart, &Row) -> Option<T>,
) -> Option<T> {
    for rule in sheet.aparts.iter().filter(|rule| rule.rows >> i & 1 == 1) {
        let others = (0..sheet.n).filter(|&j| j != i && rule.rows >> j & 1 == 1);
        for j in others.filter(|&j| rows[j].has_one_shape() != several) {
            let answer = found(rule, &rows[j]);
            if answer.is_some() {
                return answer;
            }
        }
    }
    None
}

/// Calls `found` with each pair of a box of shape s and what a box of the row with shape t covers, as the rule sees it,
/// wherever the row is placed, until it answers.
#[inline(always)]
fn each_pair<T>(
    sheet: &Decoded,
    s: usize,
    rule: &Apart,
    row: &Row,
    t: usize,
    mut found: impl FnMut(&Solid, &Solid) -> Option<T>,
) -> Option<T> {
    for c in sheet.boxes_of(t) {
        let core = c.core(row, rule);
        for b in sheet.boxes_of(s) {
            let answer = found(b, &core);
            if answer.is_some() {
                return answer;
            }
        }
    }
    None
}

fn has_several(sheet: &Decoded, rows: &Rows) -> bool {
    rows[..sheet.n].iter().any(|row| !row.has_one_shape())
}

struct Pairs {
    row: usize,
    shape: usize,
    several: bool,
}

impl Tested for Pairs {
    fn turn_to(&mut self, sheet: &Decoded, rows: &Rows, i: usize, s: usize, _: &Area) {
        (self.row, self.shape, self.several) = (i, s, has_several(sheet, rows));
    }

    #[inline(always)]
    fn region(&self, sheet: &Decoded, rows: &Rows, p: &Point) -> Option<Area> {
        let hit = |b: &Solid, core: &Solid| b.hits(p, core).then(|| b.forbidden(core));
        let found = each_row(sheet, rows, self.row, false, |rule, row| {
            each_pair(sheet, self.shape, rule, row, row.shape(), hit)
        });
        if found.is_some() || !self.several {
            return found;
        }
        self.shared(sheet, rows, p)
    }
}

impl Pairs {
    /// The area around p that a pair of boxes of each shape of some row shares.
    #[inline(never)]
    fn shared(&self, sheet: &Decoded, rows: &Rows, p: &Point) -> Option<Area> {
        let hit = |b: &Solid, core: &Solid| b.hits(p, core).then(|| b.forbidden(core));
        each_row(sheet, rows, self.row, true, |rule, row| {
            row.shapes()
                .try_fold(Area::ALL, |area, t| Some(area.common(&each_pair(sheet, self.shape, rule, row, t, hit)?)))
        })
    }
}

/// The regions of rows with one shape, and those of each shape of the other rows, one run after the other: `runs` says
/// where each run ends, and `groups` how many runs stand before the end of each row's.
#[derive(Default)]
struct Regions {
    single: Vec<Area>,
    several: Vec<Area>,
    runs: Vec<usize>,
    groups: Vec<usize>,
}

impl Tested for Regions {
    fn turn_to(&mut self, sheet: &Decoded, rows: &Rows, i: usize, s: usize, cut: &Area) {
        self.single.clear();
        let regions = &mut self.single;
        each_row(sheet, rows, i, false, |rule, row| {
            put_regions(regions, sheet, s, rule, row, row.shape(), cut);
            None::<()>
        });
        self.groups.clear();
        if has_several(sheet, rows) {
            self.put_several(sheet, rows, i, s, cut);
        }
    }

    #[inline(always)]
    fn region(&self, _: &Decoded, _: &Rows, p: &Point) -> Option<Area> {
        let found = self.single.iter().find(|area| area.holds(p)).copied();
        if found.is_some() || self.groups.is_empty() {
            return found;
        }
        self.shared(p)
    }
}

/// Puts the regions of shape t of the row that meet the cut box.
#[inline(always)]
fn put_regions(regions: &mut Vec<Area>, sheet: &Decoded, s: usize, rule: &Apart, row: &Row, t: usize, cut: &Area) {
    each_pair(sheet, s, rule, row, t, |b, core| {
        let area = b.forbidden(core);
        if area.meets(cut) {
            regions.push(area);
        }
        None::<()>
    });
}

impl Regions {
    #[inline(never)]
    fn put_several(&mut self, sheet: &Decoded, rows: &Rows, i: usize, s: usize, cut: &Area) {
        self.several.clear();
        self.runs.clear();
        each_row(sheet, rows, i, true, |rule, row| {
            self.put_row(sheet, s, rule, row, cut);
            None::<()>
        });
    }

    /// Puts the regions of each shape of the row, unless one of them forbids no point of the cut box.
    fn put_row(&mut self, sheet: &Decoded, s: usize, rule: &Apart, row: &Row, cut: &Area) {
        let (areas, runs) = (self.several.len(), self.runs.len());
        for t in row.shapes() {
            let before = self.several.len();
            put_regions(&mut self.several, sheet, s, rule, row, t, cut);
            if self.several.len() == before {
                self.several.truncate(areas);
                self.runs.truncate(runs);
                return;
            }
            self.runs.push(self.several.len());
        }
        self.groups.push(self.runs.len());
    }

    /// The area around p that a region of each shape of some row shares.
    #[inline(never)]
    fn shared(&self, p: &Point) -> Option<Area> {
        let (mut run, mut at) = (0, 0);
        for &group in &self.groups {
            let mut ends = self.runs[run..group].iter();
            let found = ends.try_fold((Area::ALL, at), |(area, from), &end| {
                let region = self.several[from..end].iter().find(|area| area.holds(p))?;
                Some((area.common(region), end))
            });
            if let Some((area, _)) = found {
                return Some(area);
            }
            (run, at) = (group, self.runs[group - 1]);
        }
        None
    }
}

/// Settles the table: 0 settled, -1 no layout, otherwise the refusal. The table is written at 0 alone.
#[inline(always)]
fn settle<T: Tested>(block: &[i64], table: &mut [i64], tested: &mut T) -> i64 {
    let refused = refusal(block, table);
    if refused != 0 {
        return refused;
    }
    let sheet = Decoded::new(block, table.len(), Copies::Kept);
    let mut rows = sheet.read_rows(table);
    let mut moved = true;
    while moved {
        moved = false;
        for i in 0..sheet.n {
            let row = narrowed(&sheet, &rows, i, tested);
            if row.set == 0 {
                return -1;
            }
            moved |= row != rows[i];
            rows[i] = row;
        }
    }
    sheet.write_rows(&rows, table);
    0
}

/// The shapes of row i that have an allowed point, and the smallest area around all its allowed points.
fn narrowed<T: Tested>(sheet: &Decoded, rows: &Rows, i: usize, tested: &mut T) -> Row {
    let row = rows[i];
    let mut found = Row { set: 0, area: Area::NONE };
    for s in (0..32).filter(|s| row.set >> s & 1 == 1) {
        let mut cut = sheet.cut(i, s, &row.area);
        if cut.is_empty() {
            continue;
        }
        tested.turn_to(sheet, rows, i, s, &cut);
        if pruned(sheet, &mut cut, |p| tested.region(sheet, rows, p)) {
            found.set |= 1 << s;
            found.area.take_in(&cut.low);
            found.area.take_in(&cut.high);
        }
    }
    found
}

/// Both ends of each dimension taken to the points that have no region; false where there is none.
#[inline(always)]
fn pruned(sheet: &Decoded, cut: &mut Area, region: impl Fn(&Point) -> Option<Area>) -> bool {
    for d in 0..sheet.k {
        let Some(low) = sweep::least(sheet.k, d, cut, &region) else { return false };
        cut.low[d] = low[d];
        let Some(high) = sweep::greatest(sheet.k, d, cut, &region) else { return false };
        cut.high[d] = high[d];
    }
    true
}
