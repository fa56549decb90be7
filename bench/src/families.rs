//! The sheets on which the first whole layout is timed: ordinary ones, rows in a room that has space to spare, and hard
//! ones, where rows fill a room or almost, or lack a little. The words are the same on every machine.

use crate::generate::Random;
use crate::sheet::{Builder, Sheet};

pub struct Family {
    pub name: &'static str,
    pub is_hard: bool,
    pub sheets: Vec<Sheet>,
}

pub fn families() -> Vec<Family> {
    let mut families = ordinary();
    families.extend(filled());
    families.extend(equal());
    families.extend(niches());
    families
}

/// Sheets by chance.
fn family(name: &'static str, is_hard: bool, count: u64, sheet: impl Fn(&mut Random) -> Sheet) -> Family {
    Family { name, is_hard, sheets: (0..count).map(|seed| sheet(&mut Random::new(seed))).collect() }
}

fn ordinary() -> Vec<Family> {
    let ordinary = |name, sheet: fn(&mut Random) -> Sheet| family(name, false, 60, sheet);
    vec![
        ordinary("k 2, half filled", |random| filling(random, 2, 50, 0)),
        ordinary("k 2, half filled, clearances", |random| filling(random, 2, 50, 100)),
        ordinary("k 2, half filled, two shapes", |random| turned(random, 50)),
        ordinary("k 2, three fixed pillars", pillars),
        ordinary("k 3, filled to 0.4", |random| filling(random, 3, 40, 0)),
        ordinary("k 4, filled to 0.3", |random| filling(random, 4, 30, 0)),
    ]
}

fn filled() -> Vec<Family> {
    vec![
        family("k 2, filled to 0.75", true, 100, |random| filling(random, 2, 75, 0)),
        family("k 2, filled to 0.85", true, 60, |random| filling(random, 2, 85, 0)),
        family("guillotine", true, 60, |random| guillotine(random, 0)),
        family("guillotine, 50 to spare", true, 60, |random| guillotine(random, 50)),
        family("line of seven, one short", true, 20, line_one_short),
    ]
}

/// Rows that are all alike.
fn equal() -> Vec<Family> {
    let hard = |name, sheet| Family { name, is_hard: true, sheets: vec![sheet] };
    vec![
        hard("5 of 1000 in 2999 x 2999", alike(2, 5, 1000, &[2999, 2999])),
        hard("5 of 1000 in 3000 x 2999", alike(2, 5, 1000, &[3000, 2999])),
        hard("5 of 10000 in 29999 x 29999", alike(2, 5, 10_000, &[29_999, 29_999])),
        hard("7 of 1000 in 3999 x 2999", alike(2, 7, 1000, &[3999, 2999])),
        hard("line, 8 of 1000 in 8000", alike(1, 8, 1000, &[8000])),
        hard("line, 8 of 1000 in 7999", alike(1, 8, 1000, &[7999])),
        hard("k 4, 8 of 10000, no room", alike(4, 8, 10_000, &[])),
    ]
}

/// Rows of which three have to stand in a niche that is one too short, while the others have a hall to themselves.
fn niches() -> Vec<Family> {
    let hard = |name, sheet| Family { name, is_hard: true, sheets: vec![sheet] };
    vec![
        hard("k 2, a niche one short", niche(2, 1000, 20_000)),
        hard("k 3, a niche one short", niche(3, 1000, 20_000)),
        hard("k 1, a niche for small rows", niche(1, 2, 20_000)),
    ]
}

type P = [i64; 4];

/// A shape set, and the low and the high ends of the ranges.
type Row = (i64, P, P);

const FAR: i64 = 1_000_000;

fn open(set: i64) -> Row {
    (set, [-FAR; 4], [FAR; 4])
}

/// Shapes of one box each, a rule that keeps all rows apart, and where there is a room, from 0 on, one for it.
fn sheet(k: usize, sizes: &[P], clearance: i64, room: &[i64], rows: &[Row]) -> Sheet {
    let (every_dim, every_row) = ((1 << k) - 1, (1 << rows.len()) - 1);
    let mut builder = Builder::new(k);
    for (s, size) in sizes.iter().enumerate() {
        builder.add_box(s + 1, &[0; 4], size);
    }
    builder.add_apart(every_dim, every_row, &[clearance; 4]);
    if !room.is_empty() {
        builder.add_inside(every_dim, every_row, &[0; 4], room);
    }
    for (set, low, high) in rows {
        builder.add_row(*set, low, high);
    }
    builder.build()
}

/// Each size is the only shape of one row.
fn own_shapes(sizes: &[P]) -> Vec<Row> {
    (0..sizes.len()).map(|i| open(1 << i)).collect()
}

fn alike(k: usize, rows: usize, size: i64, room: &[i64]) -> Sheet {
    sheet(k, &[[size; 4]], 0, room, &vec![open(1); rows])
}

fn niche(k: usize, size: i64, hall: i64) -> Sheet {
    let (every_dim, in_hall, in_niche) = ((1 << k) - 1, 0b1_1111, 0b1110_0000);
    let mut builder = Builder::new(k);
    builder.add_box(1, &[0; 4], &[size; 4]);
    builder.add_apart(every_dim, in_hall | in_niche, &[0; 4]);
    builder.add_inside(every_dim, in_hall, &[0; 4], &[hall; 4]);
    builder.add_inside(every_dim, in_niche, &[0; 4], &[3 * size - 1, size, size, size]);
    for _ in 0..8 {
        builder.add_row(1, &[-FAR; 4], &[FAR; 4]);
    }
    builder.build()
}

fn eight_sizes(random: &mut Random) -> Vec<P> {
    (0..8).map(|_| [0; 4].map(|_: i64| random.range(300, 1200))).collect()
}

/// The side of the smallest room, as long in every dimension, which holds the longest row and of which all rows, each
/// lengthened by the clearance, fill no more than so many hundredths.
fn side(k: usize, sizes: &[P], clearance: i64, percent: i64) -> i64 {
    let volume = |size: &P| size[..k].iter().map(|x| x + clearance).product::<i64>();
    let filled: i64 = sizes.iter().map(volume).sum();
    let longest = sizes.iter().flat_map(|size| &size[..k]).copied().max().unwrap();
    (longest..).find(|side| side.pow(k as u32) * percent >= filled * 100).unwrap()
}

fn filling(random: &mut Random, k: usize, percent: i64, clearance: i64) -> Sheet {
    let sizes = eight_sizes(random);
    sheet(k, &sizes, clearance, &[side(k, &sizes, clearance, percent); 4], &own_shapes(&sizes))
}

/// Each row as it is or turned by a quarter.
fn turned(random: &mut Random, percent: i64) -> Sheet {
    let sizes = eight_sizes(random);
    let both: Vec<P> = sizes.iter().flat_map(|size| [*size, [size[1], size[0], 0, 0]]).collect();
    let rows: Vec<Row> = (0..8).map(|i| open(3 << (2 * i))).collect();
    sheet(2, &both, 0, &[side(2, &sizes, 0, percent); 4], &rows)
}

/// Five rows between three pillars, each of which is fixed in a third of the room.
fn pillars(random: &mut Random) -> Sheet {
    let mut sizes = vec![[400; 4]; 3];
    sizes.extend((0..5).map(|_| [0; 4].map(|_: i64| random.range(600, 1600))));
    let mut rows = own_shapes(&sizes);
    for (row, third) in rows.iter_mut().zip(0..3) {
        let at = [2000 * third + random.range(0, 1600), random.range(0, 3600), 0, 0];
        (row.1, row.2) = (at, at);
    }
    sheet(2, &sizes, 0, &[6000, 4000], &rows)
}

/// Eight pieces of a room of 4000 x 3000, got by cutting the largest across its length again and again.
fn guillotine(random: &mut Random, spare: i64) -> Sheet {
    let mut pieces = vec![[4000, 3000, 0, 0]];
    while pieces.len() < 8 {
        let largest = (0..pieces.len()).max_by_key(|&i| pieces[i][0] * pieces[i][1]).unwrap();
        let mut piece = pieces.swap_remove(largest);
        let d = (piece[0] <= piece[1]) as usize;
        let cut = random.range(piece[d] / 4, 3 * piece[d] / 4);
        let mut rest = piece;
        (piece[d], rest[d]) = (cut, piece[d] - cut);
        pieces.extend([piece, rest]);
    }
    random.shuffle(&mut pieces);
    sheet(2, &pieces, 0, &[4000 + spare, 3000 + spare], &own_shapes(&pieces))
}

/// Seven rows of different lengths in a room that is one too short.
fn line_one_short(random: &mut Random) -> Sheet {
    let mut lengths: Vec<i64> = (300..=1200).collect();
    random.shuffle(&mut lengths);
    let sizes: Vec<P> = lengths[..7].iter().map(|&length| [length; 4]).collect();
    sheet(1, &sizes, 0, &[lengths[..7].iter().sum::<i64>() - 1], &own_shapes(&sizes))
}
