//! Seeded generators of accepted sheets: small ones of every kind for the tests, and the benchmark's, which
//! look like an office's: rows packed in a room, some fixed, some free, and chains of rows that push each
//! other. The same parameters and seed give the same words on every machine.

use crate::sheet::{row_len, Builder, Sheet, MAX_BOXES, MAX_CLEARANCE, MAX_SHAPES};

/// SplitMix64.
pub struct Random(u64);

impl Random {
    pub fn new(seed: u64) -> Self {
        Random(seed)
    }

    pub fn next(&mut self) -> u64 {
        self.0 = self.0.wrapping_add(0x9e37_79b9_7f4a_7c15);
        let mut z = self.0;
        z = (z ^ (z >> 30)).wrapping_mul(0xbf58_476d_1ce4_e5b9);
        z = (z ^ (z >> 27)).wrapping_mul(0x94d0_49bb_1331_11eb);
        z ^ (z >> 31)
    }

    /// From low to high, both included.
    pub fn range(&mut self, low: i64, high: i64) -> i64 {
        low + (self.next() % (high - low + 1) as u64) as i64
    }

    pub fn chance(&mut self, percent: i64) -> bool {
        self.range(1, 100) <= percent
    }

    pub fn shuffle<T>(&mut self, items: &mut [T]) {
        for i in (1..items.len()).rev() {
            items.swap(i, self.range(0, i as i64) as usize);
        }
    }
}

/// A small sheet for the tests: k from 1 to 4, up to six rows of few points, both kinds of rule, overlapping
/// rules, clearances, several shapes and boxes.
pub fn small_sheet(seed: u64) -> Sheet {
    let random = &mut Random::new(seed);
    let k = random.range(1, 4) as usize;
    let n = if random.chance(10) { random.range(1, 2) } else { random.range(3, 6) } as usize;
    let shapes = random.range(1, 4) as usize;
    // Shape numbers are spread over 1 to 32 in some sheets.
    let numbers: Vec<usize> = if random.chance(70) {
        (1..=shapes).collect()
    } else {
        let mut all: Vec<usize> = (1..=MAX_SHAPES).collect();
        random.shuffle(&mut all);
        all[..shapes].to_vec()
    };
    let (span, far) = [(6, 9), (3, 5), (2, 4), (2, 3)][k - 1];
    let largest = random.range(2, 6);
    let mut sheet = Builder::new(k);
    for &s in &numbers {
        for _ in 0..random.range(1, 3) {
            let offset = point(|_| random.range(-1, 1));
            let size = point(|_| random.range(1 + largest / 3, largest));
            sheet.add_box(s, &offset, &size);
        }
    }
    random.shuffle(sheet.boxes_mut());
    let rules = if random.chance(5) { 0 } else { random.range(1, 3) };
    for r in 0..rules {
        let dims = if r == 0 || random.chance(50) { (1 << k) - 1 } else { random.range(1, (1 << k) - 1) };
        let rows = if r == 0 || random.chance(50) { (1 << n) - 1 } else { random.range(1, (1 << n) - 1) };
        let room = r > 0 && random.chance(50);
        for _ in 0..if random.chance(20) { 2 } else { 1 } {
            if room {
                let low = point(|_| random.range(-8, -4));
                let high = point(|_| random.range(5, 12));
                sheet.add_inside(dims, rows, &low, &high);
            } else {
                let clearance = point(|_| match random.range(1, 100) {
                    1 => MAX_CLEARANCE,
                    2..=33 => random.range(1, 3),
                    _ => 0,
                });
                sheet.add_apart(dims, rows, &clearance);
            }
        }
    }
    // In some sheets the rows stand along dimension 0, so that they push each other.
    let corridor = random.chance(60);
    let mut at = -far;
    for _ in 0..n {
        let mut set = 0;
        for _ in 0..if random.chance(60) { 1 } else { 3 } {
            set |= 1 << (numbers[random.range(0, shapes as i64 - 1) as usize] - 1);
        }
        let fixed = random.chance(20);
        at += random.range(1, largest + 1);
        let low = point(|d| match d {
            0 if corridor => at - random.range(0, 1),
            _ if corridor => random.range(0, 1),
            _ => random.range(-far, far),
        });
        let span = if corridor && random.chance(60) { 2 } else { span };
        let high = point(|d| low[d] + if fixed { 0 } else { random.range(0, span) });
        sheet.add_row(set, &low, &high);
    }
    sheet.build()
}

/// A small sheet whose rows are the pieces of a room, in a room that is as large, or a little larger or smaller; in
/// some sheets they may be turned.
pub fn tight_sheet(seed: u64) -> Sheet {
    let random = &mut Random::new(seed);
    let k = random.range(1, 3) as usize;
    let room = point(|_| random.range([5, 3, 2][k - 1], [8, 4, 3][k - 1]));
    let n = random.range(3, 5) as usize;
    let mut pieces = vec![room];
    while pieces.len() < n {
        let i = random.range(0, pieces.len() as i64 - 1) as usize;
        let d = random.range(0, k as i64 - 1) as usize;
        let mut rest = pieces[i];
        if rest[d] > 1 {
            pieces[i][d] = random.range(1, rest[d] - 1);
            rest[d] -= pieces[i][d];
            pieces.push(rest);
        }
    }
    random.shuffle(&mut pieces);
    let turned = k > 1 && random.chance(30);
    let low = point(|_| random.range(-3, 3));
    let high = point(|d| low[d] + room[d] + [-1, 0, 0, 1, 1, 2][random.range(0, 5) as usize]);
    let mut sheet = Builder::new(k);
    sheet.add_apart((1 << k) - 1, (1 << n) - 1, &[0; 4]);
    sheet.add_inside((1 << k) - 1, (1 << n) - 1, &low, &high);
    for (i, piece) in pieces.iter().enumerate() {
        sheet.add_box(2 * i + 1, &[0; 4], piece);
        sheet.add_box(2 * i + 2, &[0; 4], &[piece[1], piece[0], piece[2], 1]);
        let shortest = *piece[..k].iter().min().unwrap();
        let last = point(|d| low[d].max(high[d] - shortest));
        sheet.add_row(if turned { 3 } else { 1 } << (2 * i), &low, &last);
    }
    sheet.build()
}

/// The sheet with values of its rows left out by chance, at the ends, until its table holds at most so many placements.
pub fn cut_down(mut sheet: Sheet, most: i64, random: &mut Random) -> Sheet {
    let (k, words) = (sheet.block[0], row_len(sheet.block[0] as usize));
    let width = |range: &[i64]| range[1] - range[0] + 1;
    let values = |row: &[i64]| row[0].count_ones() as i64 * row[1..].chunks_exact(2).map(width).product::<i64>();
    while sheet.table.chunks_exact(words).map(values).product::<i64>() > most {
        let place = random.range(0, (sheet.table.len() / words) as i64 - 1) as usize;
        let row = &mut sheet.table[place * words..][..words];
        let (column, from_below) = (random.range(0, k) as usize, random.chance(50));
        if column == 0 && row[0].count_ones() > 1 {
            row[0] &= if from_below { row[0] - 1 } else { !(1 << row[0].ilog2()) };
        } else if column > 0 && row[2 * column - 1] < row[2 * column] {
            if from_below {
                row[2 * column - 1] += 1;
            } else {
                row[2 * column] -= 1;
            }
        }
    }
    sheet
}

/// One line of the benchmark's table.
#[derive(Clone, Copy, Debug)]
pub struct Line {
    pub rows: usize,
    pub dims: usize,
    pub boxes: usize,
    pub wide: bool,
    pub several: bool,
    pub copies: usize,
    /// The rows' clearance in dimension 0.
    pub aisle: i64,
}

/// What a sheet of a line is like.
#[derive(Clone, Copy, Debug, PartialEq)]
pub enum Style {
    /// Rows packed in a room, with a room rule.
    Packed,
    /// Rows packed in a room whose walls are only the ranges; boxes of the block in no order.
    Open,
    /// Rows in a corridor, each of which moves or fixes the next, the last row of the table first.
    Chain,
    /// As `Packed` or `Chain`, with a row that in the end has no place.
    Clash,
}

pub const STYLES: [Style; 4] = [Style::Packed, Style::Open, Style::Chain, Style::Clash];

/// The sheet of a line, a style and a seed; accepted whatever they are.
pub fn line_sheet(line: &Line, style: Style, seed: u64) -> Sheet {
    let random = &mut Random::new(seed);
    match style {
        Style::Packed => packed(line, random, true, false),
        Style::Open => packed(line, random, false, false),
        Style::Chain => chain(line, random, false),
        Style::Clash if random.chance(50) => packed(line, random, true, true),
        Style::Clash => chain(line, random, true),
    }
}

type P = [i64; 4];

fn point(mut f: impl FnMut(usize) -> i64) -> P {
    [f(0), f(1), f(2), f(3)]
}

/// A shape's boxes, as offset and size.
type Outline = Vec<(P, P)>;

/// An outline of `boxes` boxes inside `extent`: a body and smaller parts about it. A single box fills the extent.
fn outline(random: &mut Random, k: usize, boxes: usize, extent: &P) -> Outline {
    // The origin of a row need not be a corner of its outline.
    let shift = point(|d| if random.chance(50) { 0 } else { -random.range(0, extent[d] / 2) });
    let mut outline = Vec::new();
    for b in 0..boxes {
        let (low, high) = match b {
            _ if boxes == 1 => (100, 100),
            0 => (60, 80),
            _ => (15, 40),
        };
        let size = point(|d| if d < k { extent[d] * random.range(low, high) / 100 } else { 1 });
        let offset = point(|d| random.range(0, extent[d] - size[d]));
        outline.push((point(|d| offset[d] + shift[d]), size));
    }
    outline
}

fn overlap(k: usize, a: &Outline, p: &P, b: &Outline, q: &P) -> bool {
    (0..k).all(|d| p[d] + start(a, d) < q[d] + end(b, d) && q[d] + start(b, d) < p[d] + end(a, d))
        && a.iter().any(|(t, l)| {
            b.iter().any(|(u, m)| (0..k).all(|d| p[d] + t[d] < q[d] + u[d] + m[d] && q[d] + u[d] < p[d] + t[d] + l[d]))
        })
}

fn shape_count(line: &Line) -> usize {
    (MAX_BOXES / line.boxes).min(MAX_SHAPES).min(line.rows)
}

fn add_rules(sheet: &mut Builder, line: &Line, room: Option<(&P, &P)>) {
    let (dims, rows) = ((1 << line.dims) - 1, (1i64 << line.rows) - 1);
    if let Some((low, high)) = room {
        sheet.add_inside(dims, rows, low, high);
    }
    for _ in 0..line.copies {
        sheet.add_apart(dims, rows, &[line.aisle, 0, 0, 0]);
    }
}

/// Rows at random places of a room that holds them closely; then a part of them is set free, in a small range
/// around its place or in the whole room.
fn packed(line: &Line, random: &mut Random, room: bool, clash: bool) -> Sheet {
    let (n, k) = (line.rows, line.dims);
    let outlines: Vec<Outline> = (0..shape_count(line))
        .map(|_| {
            let extent = point(|_| random.range(300, 1200));
            outline(random, k, line.boxes, &extent)
        })
        .collect();
    let shape_of: Vec<usize> = (0..n).map(|i| i % outlines.len()).collect();
    let (side, places) = pack(random, k, line.aisle, &outlines, &shape_of);

    let mut sheet = Builder::new(k);
    for (s, boxes) in outlines.iter().enumerate() {
        for (offset, size) in boxes {
            sheet.add_box(s + 1, offset, size);
        }
    }
    if !room {
        random.shuffle(sheet.boxes_mut());
    }
    add_rules(&mut sheet, line, room.then_some((&[0; 4], &[side; 4])));
    // Ranges shorter than the bodies, so that a free row too forbids something.
    let play = if line.boxes == 1 { 120 } else { 80 };
    for i in 0..n {
        let (mut set, mut low, mut high) = (1i64 << shape_of[i], places[i], places[i]);
        if clash && i >= n - 2 {
            // The last row stands where the one before it stands.
            sheet.add_row(1 << shape_of[n - 2], &places[n - 2], &places[n - 2]);
            continue;
        }
        let fixed = random.chance(if line.wide { 60 } else { 25 });
        for d in (0..k).filter(|_| !fixed) {
            if !line.wide {
                low[d] -= random.range(0, play);
                high[d] += random.range(0, play);
            } else if room {
                (low[d], high[d]) = (-side, side);
            } else {
                low[d] = -start(&outlines[shape_of[i]], d);
                high[d] = side - end(&outlines[shape_of[i]], d);
            }
        }
        if line.several && (!fixed || random.chance(20)) {
            for _ in 0..random.range(1, 3) {
                set |= 1 << random.range(0, outlines.len() as i64 - 1);
            }
        }
        sheet.add_row(set, &low, &high);
    }
    sheet.build()
}

fn start(outline: &Outline, d: usize) -> i64 {
    outline.iter().map(|(t, _)| t[d]).min().unwrap()
}

fn end(outline: &Outline, d: usize) -> i64 {
    outline.iter().map(|(t, l)| t[d] + l[d]).max().unwrap()
}

/// A room's side, and places of the rows in it that keep the aisle: random ones, in a room that grows until they
/// are found, then moved towards the room's corner until they touch or leave just the aisle.
fn pack(random: &mut Random, k: usize, aisle: i64, outlines: &[Outline], shape_of: &[usize]) -> (i64, Vec<P>) {
    // Two rows keep the aisle exactly when they do not overlap once each is lengthened by it.
    let mut lengthened = outlines.to_vec();
    lengthened.iter_mut().flatten().for_each(|(_, size)| size[0] += aisle);
    let volume = |o: &Outline| (0..k).map(|d| (end(o, d) - start(o, d)) as i128).product::<i128>();
    let needed: i128 = shape_of.iter().map(|&s| volume(&lengthened[s])).sum();
    let mut side = 1300 + aisle;
    while (side as i128).pow(k as u32) * 7 < needed * 10 {
        side += side / 50;
    }
    let mut places: Vec<P> = Vec::new();
    let clear = |places: &[P], i: usize, p: &P| {
        let mut others = (0..places.len()).filter(|&j| j != i);
        others.all(|j| !overlap(k, &lengthened[shape_of[i]], p, &lengthened[shape_of[j]], &places[j]))
    };
    while places.len() < shape_of.len() {
        let i = places.len();
        let own = &outlines[shape_of[i]];
        let mut tries =
            (0..100).map(|_| point(|d| if d < k { random.range(-start(own, d), side - end(own, d)) } else { 0 }));
        if let Some(p) = tries.find(|p| clear(&places, i, p)) {
            places.push(p);
        } else {
            side += side / 20;
            places.clear();
        }
    }
    for _ in 0..2 {
        for i in 0..places.len() {
            for d in 0..k {
                for step in [300, 60, 12, 3, 1] {
                    loop {
                        let mut p = places[i];
                        p[d] -= step;
                        if p[d] + start(&outlines[shape_of[i]], d) < 0 || !clear(&places, i, &p) {
                            break;
                        }
                        places[i] = p;
                    }
                }
            }
        }
    }
    let ends = (0..places.len()).flat_map(|i| (0..k).map(move |d| (i, d)));
    (ends.map(|(i, d)| places[i][d] + end(&outlines[shape_of[i]], d)).max().unwrap(), places)
}

const ACROSS: i64 = 1000;
const POST: i64 = 200;
const PLAY: i64 = 40;

/// Rows in a corridor along dimension 0, in which they have little play to the sides. Fixed posts stand in it too.
///
/// Narrow: each row's range begins before the end of the row in front of it, which pushes it on; the push begins
/// at the posts and the last row of the chain is the first of the table. Wide: posts part the corridor into slots
/// that rise in length, and a row fits its slot and every longer one; the longest is the last of the table, and
/// each row that is fixed leaves one slot less to the others. At a clash the end of the chain has no place.
fn chain(line: &Line, random: &mut Random, clash: bool) -> Sheet {
    let links = (shape_count(line) - 2).min(line.rows / 2);
    let (post, giant) = (links, links + 1);
    // The links rise in length; no corridor holds the giant.
    let length = |s: usize| match s {
        _ if s < links => 400 + 20 * s as i64,
        _ if s == post => POST,
        _ => 10_000,
    };
    // A row's length and the aisle behind it.
    let step = |s: usize| length(s) + line.aisle;
    let mut sheet = Builder::new(line.dims);
    for s in 0..=giant {
        for b in 0..line.boxes as i64 {
            // Slices, cut across the corridor's second dimension.
            let (from, to) = (ACROSS * b / line.boxes as i64, ACROSS * (b + 1) / line.boxes as i64);
            let offset = [0, from, 0, 0];
            let size = [length(s), to - from, ACROSS, ACROSS];
            sheet.add_box(s + 1, &offset, &size);
        }
    }
    let posts = line.rows - links;
    let fixed = |at: i64| (1i64 << post, [at, PLAY / 2, PLAY / 2, PLAY / 2], [at, PLAY / 2, PLAY / 2, PLAY / 2]);
    let free = |set: i64, low: i64, high: i64| (set, [low, -PLAY, -PLAY, -PLAY], [high, 2 * PLAY, 2 * PLAY, 2 * PLAY]);
    let mut at = 0;
    let mut rows = Vec::new();
    if line.wide {
        for s in 0..links {
            rows.push(fixed(at));
            // Slots with and without a little room to spare; at a clash the shortest row's is too short.
            at += step(post) + step(s) + if s == 0 && clash { -1 } else { random.range(0, 5) };
        }
        for _ in links..posts {
            rows.push(fixed(at));
            at += step(post);
        }
        for s in 0..links {
            let longer = line.several && s + 1 < links;
            rows.push(free(1 << s | if longer { 1 << (s + 1) } else { 0 }, 0, at));
        }
    } else {
        for _ in 0..posts {
            rows.push(fixed(at));
            at += step(post);
        }
        for s in 0..links {
            let high = if clash && s + 1 == links { at - 1 } else { at + random.range(0, 150) };
            let other = line.several && random.chance(50);
            rows.push(free(1 << s | if other { 1 << giant } else { 0 }, at - random.range(50, 200), high));
            at += step(s);
        }
        rows.reverse();
    }
    let side = ACROSS + PLAY;
    add_rules(&mut sheet, line, Some((&[0; 4], &[at + 200, side, side, side])));
    for (set, low, high) in rows {
        sheet.add_row(set, &low, &high);
    }
    sheet.build()
}
