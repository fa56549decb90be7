//! Document 000's sweep (Algorithms 10 and 12, and their mirror 13 and 14) over the points of an area: `region` gives a
//! forbidden area around a point, or none.

use crate::decode::{Area, Point};

/// The dimension at position j of the sweep of dimension d.
#[inline(always)]
fn rotated(k: usize, d: usize, j: usize) -> usize {
    if j + d < k {
        j + d
    } else {
        j + d - k
    }
}

/// A point without a region that has the least coordinate in dimension d.
#[inline(always)]
pub fn least(k: usize, d: usize, area: &Area, mut region: impl FnMut(&Point) -> Option<Area>) -> Option<Point> {
    let mut candidate = area.low;
    let mut jump = area.high.map(|x| x + 1);
    'candidates: while let Some(forbidden) = region(&candidate) {
        for e in 0..4 {
            jump[e] = jump[e].min(forbidden.high[e] + 1);
        }
        for j in (0..k).rev() {
            let e = rotated(k, d, j);
            candidate[e] = jump[e];
            jump[e] = area.high[e] + 1;
            if candidate[e] <= area.high[e] {
                continue 'candidates;
            }
            candidate[e] = area.low[e];
        }
        return None;
    }
    Some(candidate)
}

/// The same with the greatest coordinate.
#[inline(always)]
pub fn greatest(k: usize, d: usize, area: &Area, mut region: impl FnMut(&Point) -> Option<Area>) -> Option<Point> {
    let mut candidate = area.high;
    let mut jump = area.low.map(|x| x - 1);
    'candidates: while let Some(forbidden) = region(&candidate) {
        for e in 0..4 {
            jump[e] = jump[e].max(forbidden.low[e] - 1);
        }
        for j in (0..k).rev() {
            let e = rotated(k, d, j);
            candidate[e] = jump[e];
            jump[e] = area.low[e] - 1;
            if candidate[e] >= area.low[e] {
                continue 'candidates;
            }
            candidate[e] = area.high[e];
        }
        return None;
    }
    Some(candidate)
}
