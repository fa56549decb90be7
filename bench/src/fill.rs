//! The fill of a room (document 02, T-03), in plain Rust, and the kernel beside it.

use crate::calls::{nanoseconds, print_ratios};
use crate::decode::{Copies, Decoded, Point, Rows, Solid};
use crate::generate::Random;
use crate::kernel::{self, Share};
use crate::relation::is_fixed;
use crate::sheet::{box_len, refusal, rule_len, Builder, Sheet, INSIDE, MAX_DIMS};
use std::array::from_fn;
use std::hint::black_box;
use std::ops::Range;
use std::process::ExitCode;

const MOST_CELLS: usize = 4096;

/// The refusal, 0 and 0; or 0, the cells covered and how many thousandths of the room's they are.
pub type Answer = (i64, i64, i64);

/// As the request reads: every pair of boxes of two rows is looked at, and every cell of the room with every box.
pub fn plain(block: &[i64], table: &[i64], rule: i64) -> Answer {
    answer(filled(block, table, rule, is_good, Room::covered))
}

/// With every short cut that is known here: each pair of rows once, hulls first, and boxes marked line by line.
pub fn tuned(block: &[i64], table: &[i64], rule: i64) -> Answer {
    answer(filled(block, table, rule, is_good_by_hulls, Room::marked))
}

fn answer(found: Result<(i64, i64), i64>) -> Answer {
    match found {
        Ok((cells, permille)) => (0, cells, permille),
        Err(refused) => (refused, 0, 0),
    }
}

#[inline(always)]
fn filled(
    block: &[i64],
    table: &[i64],
    rule: i64,
    is_good: impl Fn(&Decoded, &Rows) -> bool,
    covered: impl Fn(&Room, &Decoded, &Rows, usize) -> i64,
) -> Result<(i64, i64), i64> {
    let refused = refusal(block, table);
    if refused != 0 {
        return Err(refused);
    }
    if !is_fixed(block, table) {
        return Err(12);
    }
    let room = Room::of(block, rule).ok_or(13)?;
    let cells = room.cells().ok_or(14)?;
    let sheet = Decoded::new(block, table.len(), Copies::Kept);
    let rows = sheet.read_rows(table);
    if !is_good(&sheet, &rows) {
        return Err(15);
    }
    let c = covered(&room, &sheet, &rows, cells);
    Ok((c, (2000 * c + cells as i64) / (2 * cells as i64)))
}

/// Whether each row lies in its rooms and no box of another row that a rule names with it is in its way, of a fixed placement.
fn is_good(sheet: &Decoded, rows: &Rows) -> bool {
    (0..sheet.n).all(|i| {
        let (s, p) = (rows[i].shape(), &rows[i].area.low);
        let clear = |rule, j: usize| {
            let cores = sheet.boxes_of(rows[j].shape()).iter().map(|c| c.core(&rows[j], rule));
            cores.into_iter().all(|core| sheet.boxes_of(s).iter().all(|b| !b.hits(p, &core)))
        };
        let mut aparts = sheet.aparts.iter().filter(|rule| rule.rows >> i & 1 == 1);
        !sheet.cut(i, s, &rows[i].area).is_empty()
            && aparts.all(|rule| (0..sheet.n).filter(|&j| j != i && rule.rows >> j & 1 == 1).all(|j| clear(rule, j)))
    })
}

/// The same, each row against the rows before it.
fn is_good_by_hulls(sheet: &Decoded, rows: &Rows) -> bool {
    (0..sheet.n).all(|i| {
        let (s, p) = (rows[i].shape(), &rows[i].area.low);
        let clear = |rule, j: usize| {
            let hull = sheet.hulls[rows[j].shape()].core(&rows[j], rule);
            !sheet.hulls[s].hits(p, &hull) || sheet.forbidding_row(s, &rows[j], rule, p).is_none()
        };
        let mut aparts = sheet.aparts.iter().filter(|rule| rule.rows >> i & 1 == 1);
        !sheet.cut(i, s, &rows[i].area).is_empty()
            && aparts.all(|rule| (0..i).filter(|j| rule.rows >> j & 1 == 1).all(|j| clear(rule, j)))
    })
}

/// A room of whole cells. It is one cell wide in the dimensions from k on, where every box is from 0 to 1.
struct Room {
    rows: u32,
    low: Point,
    widths: Numbers,
}

impl Room {
    /// Of the rule at a position, from 1, if it is of kind 2 and names every dimension.
    fn of(block: &[i64], rule: i64) -> Option<Room> {
        let (k, b) = (block[0] as usize, block[1] as usize);
        let place = usize::try_from(rule).ok()?.checked_sub(1)?;
        let record = block[3 + b * box_len(k)..].chunks_exact(rule_len(k)).nth(place)?;
        if record[0] != INSIDE || record[1] != (1 << k) - 1 {
            return None;
        }
        let mut room = Room { rows: record[2] as u32, low: [0; MAX_DIMS], widths: [1; MAX_DIMS] };
        for (d, ends) in record[3..].chunks_exact(2).enumerate() {
            room.low[d] = ends[0];
            room.widths[d] = (ends[1] - ends[0]) as usize;
        }
        Some(room)
    }

    /// From 1 to 4,096, or none. A product that is past that need not be multiplied further, by 0 neither.
    fn cells(&self) -> Option<usize> {
        let product = self.widths.iter().try_fold(1, |n, width| Some(n * width).filter(|&n| n <= MOST_CELLS));
        product.filter(|&n| n > 0)
    }

    /// How many of its cells the boxes of its rows cover: each cell is looked at.
    fn covered(&self, sheet: &Decoded, rows: &Rows, cells: usize) -> i64 {
        let named = || rows[..sheet.n].iter().enumerate().filter(|(i, _)| self.rows >> i & 1 == 1).map(|(_, row)| row);
        let is_covered = |cell: &usize| {
            let place = place_of(&self.widths, *cell);
            let x: Point = from_fn(|d| self.low[d] + place[d] as i64);
            named().any(|row| {
                let holds =
                    |b: &Solid| (0..MAX_DIMS).all(|d| (b.start[d]..b.end[d]).contains(&(x[d] - row.area.low[d])));
                sheet.boxes_of(row.shape()).iter().any(holds)
            })
        };
        (0..cells).filter(is_covered).count() as i64
    }

    /// The same, of a good placement: each box is marked.
    fn marked(&self, sheet: &Decoded, rows: &Rows, cells: usize) -> i64 {
        let mut marks = [false; MOST_CELLS];
        for (_, row) in rows[..sheet.n].iter().enumerate().filter(|(i, _)| self.rows >> i & 1 == 1) {
            for solid in sheet.boxes_of(row.shape()) {
                let within = |corner: &Point| from_fn(|d| (row.area.low[d] + corner[d] - self.low[d]) as usize);
                for_lines(&self.widths, within(&solid.start), within(&solid.end), |line| marks[line].fill(true));
            }
        }
        marks[..cells].iter().map(|&mark| mark as i64).sum()
    }
}

/// One number for each dimension.
type Numbers = [usize; MAX_DIMS];

/// The place of a cell in a grid whose cells are numbered along dimension 0 first.
fn place_of(widths: &Numbers, cell: usize) -> Numbers {
    let mut rest = cell;
    from_fn(|d| {
        let x = rest % widths[d];
        rest /= widths[d];
        x
    })
}

/// The cells of a grid from one corner to another, line by line along dimension 0.
#[inline(always)]
fn for_lines(widths: &Numbers, from: Numbers, to: Numbers, mut found: impl FnMut(Range<usize>)) {
    for w in from[3]..to[3] {
        for z in from[2]..to[2] {
            for y in from[1]..to[1] {
                let line = ((w * widths[2] + z) * widths[1] + y) * widths[0];
                found(line + from[0]..line + to[0]);
            }
        }
    }
}

/// As `plain`.
pub fn kernel_fill(block: &[i64], table: &[i64], rule: i64) -> Answer {
    let Share { finding, cells, permille } = kernel::fill(block, table, rule);
    (finding, cells, permille)
}

/// Nanoseconds a call on a placement: the judging of it alone, the kernel, and the two plain forms.
pub fn table() -> ExitCode {
    println!("cells dims rows boxes  covered    judged    kernel     plain     tuned  kernel/plain  kernel/tuned");
    let (mut to_plain, mut to_tuned) = (Vec::new(), Vec::new());
    for cells in [256, MOST_CELLS] {
        for dims in 1..=MAX_DIMS {
            for (rows, boxes) in [(8, 1), (8, 4), (32, 1), (32, 4)] {
                let Sheet { block, table } = &placement(cells, dims, rows, boxes, 1);
                let found = plain(block, table, ROOM_RULE);
                if found.0 != 0 || [tuned, kernel_fill].iter().any(|fill| fill(block, table, ROOM_RULE) != found) {
                    eprintln!("{cells} {dims} {rows} {boxes}: {found:?} is refused, or not every form's answer");
                    return ExitCode::FAILURE;
                }
                let call =
                    |fill: fn(&[i64], &[i64], i64) -> Answer| _ = black_box(fill(block, black_box(table), ROOM_RULE));
                let judged = || _ = black_box(kernel::check_placement(block, black_box(table)));
                let times = nanoseconds(50, 1, &[&judged, &|| call(kernel_fill), &|| call(plain), &|| call(tuned)]);
                let [a, b, c, d] = [times[0], times[1], times[2], times[3]];
                to_plain.push(b / c);
                to_tuned.push(b / d);
                print!("{cells:>5} {dims:>4} {rows:>4} {boxes:>5} {:>8} ", found.1);
                println!("{a:9.0} {b:9.0} {c:9.0} {d:9.0} {:13.2} {:13.2}", b / c, b / d);
            }
        }
    }
    println!();
    print_ratios("kernel/plain", &to_plain);
    print_ratios("kernel/tuned", &to_tuned);
    ExitCode::SUCCESS
}

/// A box as its offsets and sizes, 0 and 1 in the dimensions from k on.
type Part = (Numbers, Numbers);

/// The position of the room's rule in a placement.
pub const ROOM_RULE: i64 = 2;

/// A good placement of rows that do not overlap, in a room of 2^n cells whose widths are as equal as can be. The hulls of
/// the rows have half of its cells at most; each row is put at the first free place, as a unit where its shape has none.
pub fn placement(cells: usize, dims: usize, rows: usize, boxes: usize, seed: u64) -> Sheet {
    let random = &mut Random::new(seed);
    let bits = cells.ilog2() as usize;
    let widths: Numbers = from_fn(|d| if d < dims { 1 << ((bits + d) / dims) } else { 1 });
    let low: Point = from_fn(|_| random.range(-20, 20));
    let high: Point = from_fn(|d| low[d] + widths[d] as i64);
    let (every_dim, every_row) = ((1 << dims) - 1, (1 << rows) - 1);
    let mut builder = Builder::new(dims);
    builder.add_apart(every_dim, every_row, &[0; MAX_DIMS]);
    builder.add_inside(every_dim, every_row, &low, &high);
    let shapes = shapes(random, &widths, cells / (2 * rows), boxes);
    for (s, parts) in shapes.iter().enumerate() {
        for (offset, size) in parts {
            builder.add_box(s + 1, &offset.map(|x| x as i64), &size.map(|x| x as i64));
        }
    }
    let mut taken = vec![false; cells];
    let unit = shapes.len() - 1;
    for i in 0..rows {
        let placed = [i % unit, unit].into_iter().find_map(|s| Some((s, take_place(&mut taken, &widths, &shapes[s])?)));
        let (s, place) = placed.expect("half of the room is free");
        let origin: Point = from_fn(|d| low[d] + place[d] as i64);
        builder.add_row(1 << s, &origin, &origin);
    }
    builder.build()
}

/// Eight shapes, each in a hull of at most `most` cells; the last is a unit.
fn shapes(random: &mut Random, widths: &Numbers, most: usize, boxes: usize) -> Vec<Vec<Part>> {
    let mut shape = |most: usize| {
        let mut hull: Numbers = [1; MAX_DIMS];
        for _ in 0..8 * most {
            let mut wider = hull;
            wider[random.range(0, MAX_DIMS as i64 - 1) as usize] += 1;
            if wider.iter().product::<usize>() <= most && (0..MAX_DIMS).all(|d| wider[d] <= widths[d]) {
                hull = wider;
            }
        }
        let part = |_| {
            let size: Numbers =
                from_fn(|d| random.range(if boxes == 1 { hull[d] } else { 1 } as i64, hull[d] as i64) as usize);
            (from_fn(|d| random.range(0, (hull[d] - size[d]) as i64) as usize), size)
        };
        (0..boxes).map(part).collect()
    };
    [most, most, most, most, most, most, most, 1].map(|most| shape(most)).to_vec()
}

/// The first place at which the boxes lie in the room and take free cells alone; these are then taken.
fn take_place(taken: &mut [bool], widths: &Numbers, parts: &[Part]) -> Option<Numbers> {
    let ends = |place: &Numbers, (offset, size): &Part| -> (Numbers, Numbers) {
        (from_fn(|d| place[d] + offset[d]), from_fn(|d| place[d] + offset[d] + size[d]))
    };
    let is_free = |place: &Numbers, part: &Part| {
        let (from, to) = ends(place, part);
        let mut free = (0..MAX_DIMS).all(|d| to[d] <= widths[d]);
        if free {
            for_lines(widths, from, to, |line| free &= !taken[line].contains(&true));
        }
        free
    };
    let place = (0..taken.len())
        .map(|cell| place_of(widths, cell))
        .find(|place| parts.iter().all(|part| is_free(place, part)))?;
    for part in parts {
        let (from, to) = ends(&place, part);
        for_lines(widths, from, to, |line| taken[line].fill(true));
    }
    Some(place)
}
