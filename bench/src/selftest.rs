//! The tests: the fast forms and, where it is linked, the kernel against brute force on small sheets; the refusals
//! on damaged ones; and all of them against each other on sheets of the benchmark's kind.

use crate::brute::{self, Brute};
#[cfg(kernel)]
use crate::fill::{kernel_fill, placement, plain, tuned};
use crate::generate::{cut_down, line_sheet, small_sheet, tight_sheet, Line, Random, STYLES};
use crate::layout::{self, FORMS, MOST_ROWS};
#[cfg(kernel)]
use crate::relation::relation;
use crate::sheet::{refusal, row_len, Sheet, MAX_CLEARANCE, MAX_ROWS};
use crate::SUBJECTS;
use std::process::ExitCode;

#[derive(Default)]
struct Counts {
    sheets: usize,
    settled: [usize; 3],
    no_layout: usize,
    damaged: usize,
    refused: [usize; 9],
    placed: usize,
    unplaced: usize,
    kind: usize,
    #[cfg(kernel)]
    calls: usize,
    #[cfg(kernel)]
    fills: usize,
    differences: usize,
}

impl Counts {
    fn compare<T: PartialEq + std::fmt::Debug>(&mut self, what: &str, sheet: &Sheet, found: T, expected: T) {
        if found != expected {
            self.differences += 1;
            if self.differences <= 10 {
                eprintln!("{what}: found {found:?}, expected {expected:?}, for {sheet:?}");
            }
        }
    }
}

/// Of a sheet whose first layout is looked for by brute force.
const MOST_PLACEMENTS: i64 = 3000;

pub fn run(count: u64) -> ExitCode {
    let counts = &mut Counts::default();
    for seed in 0..count {
        if seed % 1000 == 0 {
            eprint!("\rsheet {seed} of {count}");
        }
        let sheet = small_sheet(seed);
        let random = &mut Random::new(!seed);
        against_brute_force(&sheet, random, counts);
        #[cfg(kernel)]
        {
            kernel_calls(&sheet, random, counts);
            fills(&sheet, random, counts);
        }
        damaged(&sheet, random, counts);
        too_many_rows(&sheet, random, counts);
        for sheet in [sheet, tight_sheet(seed)] {
            first_layout(&cut_down(sheet, MOST_PLACEMENTS, random), counts);
        }
    }
    eprintln!("\rsheets of the benchmark's kind ");
    for seed in 0..count / 20 {
        let random = &mut Random::new(seed);
        let line = Line {
            rows: random.range(4, 12) as usize,
            dims: random.range(2, 4) as usize,
            boxes: random.range(1, 5) as usize,
            wide: random.chance(50),
            several: random.chance(50),
            copies: random.range(1, 3) as usize,
            aisle: if random.chance(50) { random.range(1, MAX_CLEARANCE) } else { 0 },
        };
        let style = STYLES[random.range(0, 3) as usize];
        against_each_other(&line_sheet(&line, style, seed), counts);
    }
    println!("subjects: {}", SUBJECTS.iter().map(|(name, _)| *name).collect::<Vec<_>>().join(", "));
    println!(
        "small sheets against brute force: {} ({} settled as given, {} by one pass over the rows, {} by more, {} no layout)",
        counts.sheets, counts.settled[0], counts.settled[1], counts.settled[2], counts.no_layout
    );
    println!("damaged sheets: {}, by the refusal found (0 to 8): {:?}", counts.damaged, counts.refused);
    println!(
        "first layouts against brute force: {} ({} placed, {} none)",
        counts.placed + counts.unplaced,
        counts.placed,
        counts.unplaced
    );
    println!("sheets of the benchmark's kind, against each other: {}", counts.kind);
    #[cfg(kernel)]
    println!("other calls of the kernel: {}, fills found among them: {}", counts.calls, counts.fills);
    println!("{} differences", counts.differences);
    ExitCode::from((counts.differences > 0) as u8)
}

/// Settling by every subject and by brute force, which takes the rows in an order of its own.
fn against_brute_force(sheet: &Sheet, random: &mut Random, counts: &mut Counts) {
    let brute = Brute::new(&sheet.block);
    let mut order: Vec<usize> = (1..=brute.rows(&sheet.table)).collect();
    random.shuffle(&mut order);
    let mut expected = sheet.table.clone();
    let passes = brute.settle(&mut expected, &order);
    let finding = if passes.is_some() { 0 } else { -1 };
    counts.sheets += 1;
    match passes {
        Some(passes) => counts.settled[passes.min(2)] += 1,
        None => counts.no_layout += 1,
    }
    for (name, settle) in SUBJECTS {
        let mut table = sheet.table.clone();
        let found = settle(&sheet.block, &mut table);
        counts.compare(name, sheet, (found, &table), (finding, &expected));
    }
}

fn against_each_other(sheet: &Sheet, counts: &mut Counts) {
    counts.kind += 1;
    counts.compare("refusal of a sheet made", sheet, refusal(&sheet.block, &sheet.table), 0);
    let mut expected = sheet.table.clone();
    let finding = SUBJECTS[0].1(&sheet.block, &mut expected);
    for (name, settle) in &SUBJECTS[1..] {
        let mut table = sheet.table.clone();
        let found = settle(&sheet.block, &mut table);
        counts.compare(name, sheet, (found, &table), (finding, &expected));
    }
}

/// The first layout by every form and by brute force.
fn first_layout(sheet: &Sheet, counts: &mut Counts) {
    let placed = Brute::new(&sheet.block).first_layout(&sheet.table);
    let finding = if placed.is_some() { 0 } else { layout::NONE };
    counts.placed += placed.is_some() as usize;
    counts.unplaced += placed.is_none() as usize;
    find_layouts(sheet, finding, &placed.unwrap_or_else(|| sheet.table.clone()), counts);
}

fn find_layouts(sheet: &Sheet, finding: i64, expected: &[i64], counts: &mut Counts) {
    for (name, form) in FORMS {
        let mut table = sheet.table.clone();
        let found = form(&sheet.block, &mut table);
        counts.compare(&format!("first layout, {name}"), sheet, (found, &table[..]), (finding, expected));
    }
}

/// A first layout is refused where the sheet's rows come again and again, and for the row alone where one has no shape.
fn too_many_rows(sheet: &Sheet, random: &mut Random, counts: &mut Counts) {
    let words = row_len(sheet.block[0] as usize);
    let rows = random.range(MOST_ROWS as i64 + 1, MAX_ROWS as i64) as usize;
    let table = sheet.table.iter().copied().cycle().take(rows * words).collect();
    let mut many = Sheet { block: sheet.block.clone(), table };
    find_layouts(&many, layout::TOO_MANY_ROWS, &many.table, counts);
    many.table[words * random.range(0, rows as i64 - 1) as usize] = 0;
    find_layouts(&many, 8, &many.table, counts);
}

/// The refusals on a sheet in which something was changed, which may leave it accepted.
fn damaged(sheet: &Sheet, random: &mut Random, counts: &mut Counts) {
    #[rustfmt::skip]
    const ODD: [i64; 24] = [
        0, 1, 2, 3, 4, 5, -1, 31, 32, 33, 128, 129, 1_000, 1_001, 10_000, 10_001, -10_000, -10_001, 1_000_000,
        1_000_001, -1_000_001, 1 << 32, i64::MAX, i64::MIN,
    ];
    let mut bad = sheet.clone();
    for _ in 0..random.range(1, 2) {
        let words = if random.chance(60) { &mut bad.block } else { &mut bad.table };
        let place = random.range(0, words.len().max(1) as i64 - 1) as usize;
        let odd = ODD[random.range(0, ODD.len() as i64 - 1) as usize];
        match random.range(1, 10) {
            1 => words.truncate(place),
            2 => words.push(1),
            3 => words.resize(place + 2 * words.len(), 1),
            4 if words.len() > 2 => words[place.min(2)] = odd,
            _ if !words.is_empty() => words[place] = odd,
            _ => {}
        }
    }
    let expected = brute::refusal(&bad.block, &bad.table);
    counts.damaged += 1;
    counts.refused[expected as usize] += 1;
    counts.compare("refusal", &bad, refusal(&bad.block, &bad.table), expected);
    #[cfg(kernel)]
    {
        counts.compare("zk_refusal", &bad, crate::kernel::refusal(&bad.block, &bad.table), expected);
        counts.compare("zk_fill", &bad, kernel_fill(&bad.block, &bad.table, 1), plain(&bad.block, &bad.table, 1));
    }
    if expected != 0 {
        for (name, settle) in SUBJECTS {
            let mut table = bad.table.clone();
            let found = settle(&bad.block, &mut table);
            counts.compare(name, &bad, (found, &table), (expected, &bad.table));
        }
        find_layouts(&bad, expected, &bad.table, counts);
    }
}

/// The kernel's other functions against brute force, refusals 9 to 12 included; how two rows stand against plain Rust.
#[cfg(kernel)]
fn kernel_calls(sheet: &Sheet, random: &mut Random, counts: &mut Counts) {
    use crate::kernel;
    let brute = Brute::new(&sheet.block);
    let (block, table) = (&sheet.block[..], &sheet.table[..]);
    let (n, k) = (brute.rows(table) as i64, brute.dims() as i64);
    let row = random.range(0, n + 1);
    let shape =
        if random.chance(50) { random.range(-1, 33) } else { brute.some_shape(table, row.clamp(1, n) as usize) };
    let dimension = random.range(-1, k);
    let row_refused = if row < 1 || row > n { 9 } else { 0 };
    let has_shape =
        (1..=32).contains(&shape) && row_refused == 0 && brute.has_shape(table, row as usize, shape as usize);
    let shape_refused = if row_refused != 0 {
        9
    } else if !has_shape {
        10
    } else {
        0
    };
    let dimension_refused = if shape_refused != 0 {
        shape_refused
    } else if dimension < 0 || dimension >= k {
        11
    } else {
        0
    };

    let p = [0; 4].map(|_: i64| random.range(-5, 6));
    let expected = match shape_refused {
        0 if brute.allowed(table, row as usize, shape as usize, &p) => 0,
        0 => -1,
        refused => refused,
    };
    counts.compare("zk_point_allowed", sheet, kernel::point_allowed(block, table, row, shape, &p), expected);

    let (least, greatest) =
        (kernel::least(block, table, row, shape, dimension), kernel::greatest(block, table, row, shape, dimension));
    if dimension_refused != 0 {
        counts.compare("zk_least", sheet, least.finding, dimension_refused);
        counts.compare("zk_greatest", sheet, greatest.finding, dimension_refused);
    } else {
        match brute.extremes(table, row as usize, shape as usize, dimension as usize) {
            None => counts.compare("zk_least, zk_greatest", sheet, (least.finding, greatest.finding), (-1, -1)),
            Some((low, high)) => {
                counts.compare("zk_least", sheet, (least.finding, least.value), (0, low));
                counts.compare("zk_greatest", sheet, (greatest.finding, greatest.value), (0, high));
            }
        }
    }

    let (mut narrowed, mut expected) = (table.to_vec(), table.to_vec());
    let found = kernel::narrow(block, &mut narrowed, row);
    let finding = match row_refused {
        0 if brute.narrow(&mut expected, row as usize) => 0,
        0 => -1,
        refused => refused,
    };
    counts.compare("zk_narrow", sheet, (found, &narrowed), (finding, &expected));

    counts.compare("zk_row_refusal", sheet, kernel::row_refusal(block, table, row), row_refused);
    let span = kernel::row_span(block, table, row);
    let length = 1 + 2 * k;
    if row_refused != 0 {
        counts.compare("zk_row_span", sheet, span.length, 0);
    } else {
        counts.compare("zk_row_span", sheet, (span.start, span.length), ((row - 1) * length, length));
    }

    let placed = if random.chance(90) { brute.placed(table, || random.next()) } else { table.to_vec() };
    let expected = match brute.is_fixed(&placed) {
        false => 12,
        true if brute.good(&placed) => 0,
        true => -1,
    };
    counts.compare("zk_check_placement", sheet, kernel::check_placement(block, &placed), expected);

    let other = random.range(0, n + 1);
    let standing = kernel::relation(block, &placed, row, other, dimension);
    let expected = relation(block, &placed, row, other, dimension);
    counts.compare("zk_relation", sheet, (standing.finding, standing.relation), expected);
    counts.calls += 8;
}

/// The fill of every rule, and of numbers that are none, against plain Rust: of a placement in the sheet and of a good one.
#[cfg(kernel)]
fn fills(sheet: &Sheet, random: &mut Random, counts: &mut Counts) {
    let table = Brute::new(&sheet.block).placed(&sheet.table, || random.next());
    let rows = random.range(1, 8) as usize;
    let cells = 1 << random.range(4, 12);
    let good = placement(cells, random.range(1, 4) as usize, rows, random.range(1, 4) as usize, random.next());
    for Sheet { block, table } in [&Sheet { block: sheet.block.clone(), table }, &good] {
        for rule in -1..=block[2] + 1 {
            let expected = plain(block, table, rule);
            counts.compare("zk_fill", sheet, kernel_fill(block, table, rule), expected);
            counts.compare("tuned fill", sheet, tuned(block, table, rule), expected);
            counts.calls += 1;
            counts.fills += (expected.0 == 0) as usize;
        }
    }
}
