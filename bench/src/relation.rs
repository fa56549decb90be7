//! How two rows of a placement stand to each other (document 02, T-01), in plain Rust, and the kernel beside it.

use crate::calls::{nanoseconds, print_ratios};
use crate::decode::FAR;
use crate::sheet::{box_len, refusal, row_len};
use std::cmp::Ordering::{Equal, Greater, Less};

/// The refusal and 0, or 0 and the relation's number.
pub fn relation(block: &[i64], table: &[i64], row: i64, other: i64, dimension: i64) -> (i64, i64) {
    let refused = refusal(block, table);
    if refused != 0 {
        return (refused, 0);
    }
    let k = block[0] as usize;
    let there = 1..=(table.len() / row_len(k)) as i64;
    if !there.contains(&row) || !there.contains(&other) {
        return (9, 0);
    }
    if !(0..k as i64).contains(&dimension) {
        return (11, 0);
    }
    if !is_fixed(block, table) {
        return (12, 0);
    }
    let extent = |row: i64| extent(block, &table[(row as usize - 1) * row_len(k)..], dimension as usize);
    (0, between(extent(row), extent(other)))
}

/// Whether each row of an accepted sheet has one shape and one point.
pub fn is_fixed(block: &[i64], table: &[i64]) -> bool {
    let mut rows = table.chunks_exact(row_len(block[0] as usize));
    rows.all(|row| row[0].count_ones() == 1 && row[1..].chunks_exact(2).all(|range| range[0] == range[1]))
}

/// From the lowest start to the highest end of the row's boxes.
fn extent(block: &[i64], row: &[i64], d: usize) -> (i64, i64) {
    let (k, boxes) = (block[0] as usize, block[1] as usize);
    let own = block[3..].chunks_exact(box_len(k)).take(boxes).filter(|record| row[0] >> (record[0] - 1) & 1 == 1);
    own.fold((FAR, -FAR), |(low, high), record| {
        let start = row[1 + 2 * d] + record[1 + d];
        (low.min(start), high.max(start + record[1 + k + d]))
    })
}

fn between((o, e): (i64, i64), (o2, e2): (i64, i64)) -> i64 {
    match (e.cmp(&o2), o.cmp(&e2), o.cmp(&o2), e.cmp(&e2)) {
        (Less, ..) => 1,
        (Equal, ..) => 2,
        (_, Greater, ..) => 13,
        (_, Equal, ..) => 12,
        (.., Less, Less) => 3,
        (.., Less, Greater) => 4,
        (.., Equal, Less) => 5,
        (.., Greater, Equal) => 6,
        (.., Equal, Equal) => 7,
        (.., Equal, Greater) => 8,
        (.., Less, Equal) => 9,
        (.., Greater, Less) => 10,
        (.., Greater, Greater) => 11,
    }
}

/// Nanoseconds a call over all pairs of rows and all dimensions of placements: the checks alone, the kernel, plain Rust.
pub fn table() -> std::process::ExitCode {
    use crate::generate::{line_sheet, Line, STYLES};
    use crate::kernel;
    println!("rows dims boxes   checks   kernel    plain  kernel/plain");
    let mut ratios = Vec::new();
    for rows in [2, 8, 32] {
        for dims in [1, 2, 4] {
            for boxes in [1, 16] {
                let line = Line { rows, dims, boxes, wide: false, several: false, copies: 1, aisle: 0 };
                let sheet = line_sheet(&line, STYLES[1], 1);
                let placed = first_placement(&sheet.table, dims);
                let block = &sheet.block[..];
                let all = |call: &dyn Fn(i64, i64, i64) -> i64| for_all(rows as i64, dims as i64, call);
                let checks = || all(&|_, _, _| kernel::refusal(block, &placed));
                let proved = || all(&|i, j, d| kernel::relation(block, &placed, i, j, d).relation);
                let plain = || all(&|i, j, d| relation(block, &placed, i, j, d).1);
                let calls = rows * rows * dims;
                let times = nanoseconds(20_000 / calls + 1, calls, &[&checks, &proved, &plain]);
                ratios.push(times[1] / times[2]);
                let [a, b, c] = [times[0], times[1], times[2]];
                println!("{rows:>4} {dims:>4} {boxes:>5} {a:8.0} {b:8.0} {c:8.0} {:13.2}", b / c);
            }
        }
    }
    println!();
    print_ratios("kernel/plain", &ratios);
    std::process::ExitCode::SUCCESS
}

/// Every row at the low end of its ranges, with the lowest shape of its set.
fn first_placement(table: &[i64], dims: usize) -> Vec<i64> {
    let mut placed = table.to_vec();
    for row in placed.chunks_exact_mut(row_len(dims)) {
        row[0] &= -row[0];
        row[1..].chunks_exact_mut(2).for_each(|range| range[1] = range[0]);
    }
    placed
}

/// A call for every pair of rows and every dimension.
fn for_all(rows: i64, dims: i64, call: &dyn Fn(i64, i64, i64) -> i64) {
    use std::hint::black_box;
    for i in 1..=rows {
        for j in 1..=rows {
            for d in 0..dims {
                black_box(call(black_box(i), black_box(j), black_box(d)));
            }
        }
    }
}
