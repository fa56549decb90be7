//! The first whole layout (document 02, T-06) in plain Rust, by the kernel's kind of search: some placement is found,
//! then each number in turn is lowered by halving. And the kernel beside it.

use crate::families::{families, Family};
#[cfg(kernel)]
use crate::kernel;
use crate::sheet::{refusal, row_len, Sheet, MAX_DIMS};
use crate::{geometric_mean, measure, plain, Effort, Ratio, Settle};
use std::process::ExitCode;
use std::time::Duration;

pub const MOST_ROWS: usize = 8;
pub const NONE: i64 = -1;
pub const TOO_MANY_ROWS: i64 = 16;

/// As `zk_first_layout`: the kernel, and the search over plain settling, as document 000 has it and tuned.
pub const FORMS: &[(&str, Settle)] = &[
    #[cfg(kernel)]
    ("kernel", kernel::first_layout),
    ("list", list),
    ("tuned", tuned),
];

fn list(block: &[i64], table: &mut [i64]) -> i64 {
    first_layout(block, table, plain::list)
}

fn tuned(block: &[i64], table: &mut [i64]) -> i64 {
    first_layout(block, table, crate::tuned::list::settle)
}

/// How many times the search settles a table.
fn count_settles(sheet: &Sheet) -> usize {
    let mut count = 0;
    first_layout(&sheet.block, &mut sheet.table.clone(), |block, table| {
        count += 1;
        crate::tuned::list::settle(block, table)
    });
    count
}

/// 0 placed, -1 none, otherwise the refusal. The table is written at 0 alone.
fn first_layout(block: &[i64], table: &mut [i64], settle: impl FnMut(&[i64], &mut [i64]) -> i64) -> i64 {
    let refused = refusal(block, table);
    if refused != 0 {
        return refused;
    }
    let (columns, words) = (block[0] as usize + 1, row_len(block[0] as usize));
    let rows = table.len() / words;
    if rows > MOST_ROWS {
        return TOO_MANY_ROWS;
    }
    let of_row = |row| (0..columns).map(move |column| Number::new(row, row * words, column));
    let numbers: Vec<Number> = (0..rows).flat_map(of_row).collect();
    let mut rest = [0; MOST_WORDS];
    rest[..table.len()].copy_from_slice(table);
    let mut search = Search { block, words: table.len(), numbers: &numbers, failures: [0; MOST_ROWS], settle };
    match search.first(&mut rest) {
        None => NONE,
        Some(best) => {
            table.copy_from_slice(&best[..table.len()]);
            0
        }
    }
}

const MOST_WORDS: usize = MOST_ROWS * (1 + 2 * MAX_DIMS);

/// The words of a table; those past its end are not read.
type Table = [i64; MOST_WORDS];

/// An open shape set counts as wider than any range.
const SET_WIDTH: i64 = 1 << 22;

/// A shape number or a coordinate of a row, and the word that says which values are open for it, or the first of two.
#[derive(Clone, Copy)]
struct Number {
    row: usize,
    word: usize,
    is_shape: bool,
}

impl Number {
    /// Column 0 is the shape number, column d + 1 the coordinate in dimension d.
    fn new(row: usize, first: usize, column: usize) -> Self {
        Number { row, word: first + (2 * column).saturating_sub(1), is_shape: column == 0 }
    }

    /// The least open value.
    fn least(self, table: &Table) -> i64 {
        if self.is_shape {
            table[self.word].trailing_zeros() as i64 + 1
        } else {
            table[self.word]
        }
    }

    /// How far the open values reach past the least; 0 where there is no other.
    fn width(self, table: &Table) -> i64 {
        match self.is_shape {
            true if table[self.word].count_ones() == 1 => 0,
            true => SET_WIDTH,
            false => table[self.word + 1] - table[self.word],
        }
    }

    /// Where its open values are parted, if there are several: the least of a set, the middle of a range.
    fn middle(self, table: &Table) -> i64 {
        let least = self.least(table);
        if self.is_shape {
            least
        } else {
            halfway(least, table[self.word + 1])
        }
    }

    fn keep_upto(self, table: &mut Table, value: i64) {
        if self.is_shape {
            table[self.word] &= (1 << value) - 1;
        } else {
            table[self.word + 1] = table[self.word + 1].min(value);
        }
    }

    fn keep_past(self, table: &mut Table, value: i64) {
        if self.is_shape {
            table[self.word] &= -1 << value;
        } else {
            table[self.word] = table[self.word].max(value + 1);
        }
    }
}

/// From `low` on and below `high`, which is greater.
fn halfway(low: i64, high: i64) -> i64 {
    low + (high - low - 1) / 2
}

/// A search over tables of so many words. `failures` counts for each row how often one of its numbers was parted and
/// settling found no layout in the part.
struct Search<'a, S> {
    block: &'a [i64],
    words: usize,
    numbers: &'a [Number],
    failures: [u32; MOST_ROWS],
    settle: S,
}

impl<S: FnMut(&[i64], &mut [i64]) -> i64> Search<'_, S> {
    /// The first placement inside `rest`, from which none that precedes the best one met is ever cut.
    fn first(&mut self, rest: &mut Table) -> Option<Table> {
        let mut best = *rest;
        if !self.place(&mut best) {
            return None;
        }
        for &number in self.numbers {
            self.lower(rest, &mut best, number);
        }
        Some(best)
    }

    /// Takes the number as low as a placement inside `rest` has it.
    fn lower(&mut self, rest: &mut Table, best: &mut Table, number: Number) {
        while number.least(rest) < number.least(best) {
            // The best lies inside, so that a layout is left.
            self.settles(rest);
            let (low, high) = (number.least(rest), number.least(best));
            if low < high {
                let middle = halfway(low, high);
                let mut probe = *rest;
                number.keep_upto(&mut probe, middle);
                if self.place(&mut probe) {
                    *best = probe;
                } else {
                    number.keep_past(rest, middle);
                }
            }
        }
        number.keep_upto(rest, number.least(best));
    }

    /// Takes the table to some placement inside it; false where there is none.
    fn place(&mut self, table: &mut Table) -> bool {
        let mut fitted = *table;
        if self.first_fit(&mut fitted) {
            *table = fitted;
            return true;
        }
        self.find(table, None)
    }

    /// Takes one open number after the other to its least; false where this leads to no placement.
    fn first_fit(&mut self, table: &mut Table) -> bool {
        while self.settles(table) {
            let Some(open) = self.numbers.iter().find(|number| number.width(table) > 0) else { return true };
            open.keep_upto(table, open.least(table));
        }
        false
    }

    /// As `place`: the widest number is parted, and the upper part is looked at where the lower has no placement. `parted`
    /// is the row of which the table is a part.
    fn find(&mut self, table: &mut Table, mut parted: Option<usize>) -> bool {
        while self.settles(table) {
            let Some(number) = self.widest(table) else { return true };
            let middle = number.middle(table);
            let mut left = *table;
            number.keep_upto(&mut left, middle);
            if self.find(&mut left, Some(number.row)) {
                *table = left;
                return true;
            }
            number.keep_past(table, middle);
            parted = Some(number.row);
        }
        if let Some(row) = parted {
            self.failures[row] = self.failures[row].saturating_add(1);
        }
        false
    }

    /// The widest open number, each counted once more for every failure of its row; the first among equals.
    fn widest(&self, table: &Table) -> Option<Number> {
        let (mut found, mut most) = (None, 0);
        for number in self.numbers {
            let width = number.width(table) * (i64::from(self.failures[number.row]) + 1);
            if most < width {
                (found, most) = (Some(*number), width);
            }
        }
        found
    }

    /// Settles the table; false where it has no layout. Kept out of `find`, so that its frames stay small.
    #[inline(never)]
    fn settles(&mut self, table: &mut Table) -> bool {
        (self.settle)(self.block, &mut table[..self.words]) == 0
    }
}

#[cfg(kernel)]
const RATIOS: &[Ratio] =
    &[Ratio { name: "kernel/list", over: 0, under: 1 }, Ratio { name: "kernel/tuned", over: 0, under: 2 }];
#[cfg(not(kernel))]
const RATIOS: &[Ratio] = &[Ratio { name: "list/tuned", over: 0, under: 1 }];

/// The kernel's bars: microseconds a call, the median of the ordinary sheets; and a ratio over the hard families.
const MOST_MICROSECONDS: f64 = 500.0;
const MOST_RATIO: f64 = 1.5;

const EFFORT: Effort = Effort { batches: 30, batch: Duration::from_micros(200), most: Duration::from_millis(200) };

/// A measured family: how many of its sheets are placed, the settles on each sheet, and for each form the microseconds
/// of a call on each sheet.
struct Measured {
    family: Family,
    placed: usize,
    settles: Vec<f64>,
    times: Vec<Vec<f64>>,
}

impl Measured {
    /// Or on what sheet who differs.
    fn of(family: Family) -> Result<Self, String> {
        let (mut placed, mut settles, mut times) = (0, Vec::new(), vec![Vec::new(); FORMS.len()]);
        for sheet in &family.sheets {
            placed += (agreed(sheet)? == 0) as usize;
            settles.push(count_settles(sheet) as f64);
            for (form, time) in measure(FORMS, sheet, &EFFORT).into_iter().enumerate() {
                times[form].push(time);
            }
        }
        Ok(Measured { family, placed, settles, times })
    }

    /// Of all calls on the family's sheets.
    fn ratio(&self, ratio: &Ratio) -> f64 {
        self.times[ratio.over].iter().sum::<f64>() / self.times[ratio.under].iter().sum::<f64>()
    }

    /// Of the sheet on which it is greatest.
    fn worst_ratio(&self, ratio: &Ratio) -> f64 {
        let pairs = self.times[ratio.over].iter().zip(&self.times[ratio.under]);
        greatest(pairs.map(|(over, under)| over / under))
    }
}

/// What every form finds for the sheet, or who differs from the tuned one, or that the placement is not good.
fn agreed(sheet: &Sheet) -> Result<i64, String> {
    let mut expected = sheet.table.clone();
    let finding = tuned(&sheet.block, &mut expected);
    for (name, form) in FORMS {
        let mut table = sheet.table.clone();
        let found = form(&sheet.block, &mut table);
        if (found, &table) != (finding, &expected) {
            return Err(format!("{name} finds {found}, {table:?}\ntuned finds {finding}, {expected:?}\nfor {sheet:?}"));
        }
    }
    #[cfg(kernel)]
    if finding == 0 && kernel::check_placement(&sheet.block, &expected) != 0 {
        return Err(format!("{expected:?} is not good, for {sheet:?}"));
    }
    Ok(finding)
}

fn greatest(values: impl Iterator<Item = f64>) -> f64 {
    values.fold(0.0, f64::max)
}

fn median<'a>(values: impl IntoIterator<Item = &'a f64>) -> f64 {
    let mut sorted: Vec<f64> = values.into_iter().copied().collect();
    sorted.sort_by(f64::total_cmp);
    sorted[sorted.len() / 2]
}

/// Microseconds a call on the sheets of each family.
pub fn table() -> ExitCode {
    print!("{:31} sheets placed  settles   worst", "family");
    for (name, _) in FORMS {
        print!(" {name:>9} {:>9}", "worst");
    }
    for ratio in RATIOS {
        print!("  {:>12}  worst", ratio.name);
    }
    println!();
    let mut measured = Vec::new();
    for family in families() {
        match Measured::of(family) {
            Ok(m) => {
                print_line(&m);
                measured.push(m);
            }
            Err(message) => {
                eprintln!("{message}");
                return ExitCode::FAILURE;
            }
        }
    }
    summary(&measured);
    ExitCode::SUCCESS
}

fn print_line(m: &Measured) {
    let mark = if m.family.is_hard { '*' } else { ' ' };
    print!("{mark} {:29} {:>6} {:>6}", m.family.name, m.family.sheets.len(), m.placed);
    print!(" {:8.0} {:7.0}", median(&m.settles), greatest(m.settles.iter().copied()));
    for times in &m.times {
        print!(" {:9.1} {:9.1}", median(times), greatest(times.iter().copied()));
    }
    for ratio in RATIOS {
        print!("  {:12.2} {:6.2}", m.ratio(ratio), m.worst_ratio(ratio));
    }
    println!();
}

fn summary(measured: &[Measured]) {
    println!("\nHard families are marked *. Settles, and microseconds a call of each form: the median of the family's");
    println!("sheets, and the worst. Ratios: of all its calls, and of the worst sheet. All agreed word for word.\n");
    let ordinary = measured.iter().filter(|m| !m.family.is_hard).flat_map(|m| &m.times[0]);
    let (name, time) = (FORMS[0].0, median(ordinary));
    println!("{name}, ordinary sheets: median {time:.0} microseconds (the kernel's bar: {MOST_MICROSECONDS})");
    for ratio in RATIOS {
        let ratios = || measured.iter().filter(|m| m.family.is_hard).map(|m| m.ratio(ratio));
        let (mean, worst) = (geometric_mean(ratios()), greatest(ratios()));
        print!("{}, hard families: geometric mean {mean:.2}, worst {worst:.2}", ratio.name);
        println!(" (the kernel's bar: {MOST_RATIO})");
    }
}
