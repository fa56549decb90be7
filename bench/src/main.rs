//! The benchmark: the proved kernel against plain Rust, settling in the direct form and in the list form, as document
//! 000 has them and tuned. It checks on every sheet that all agree word for word and prints one table; times of one
//! run are compared with one another alone. See ../run for how it is built and called.

mod against;
mod brute;
#[cfg(kernel)]
mod calls;
mod decode;
mod families;
#[cfg(kernel)]
mod fill;
mod generate;
#[cfg(kernel)]
mod kernel;
mod layout;
mod plain;
#[cfg(kernel)]
mod relation;
mod selftest;
mod sheet;
mod sweep;
mod tuned;

use generate::{line_sheet, Line, STYLES};
use sheet::Sheet;
use std::hint::black_box;
use std::process::ExitCode;
use std::time::{Duration, Instant};

type Settle = fn(&[i64], &mut [i64]) -> i64;

/// What is compared: the kernel, and four forms of plain Rust.
const SUBJECTS: &[(&str, Settle)] = &[
    #[cfg(kernel)]
    ("kernel", kernel::settle),
    ("direct", plain::direct),
    ("list", plain::list),
    ("tuned-d", tuned::direct::settle),
    ("tuned-l", tuned::list::settle),
];

/// How long is measured: batches for each subject in turn, each of at least this time. Many short batches find the
/// machine's quiet moments better than few long ones. A subject that has used up its time on a sheet rests.
struct Effort {
    batches: usize,
    batch: Duration,
    most: Duration,
}

fn main() -> ExitCode {
    let words: Vec<String> = std::env::args().skip(1).collect();
    let full = Effort { batches: 80, batch: Duration::from_micros(500), most: Duration::from_millis(100) };
    let quick = Effort { batches: 5, batch: Duration::from_micros(200), most: Duration::from_millis(20) };
    match words.iter().map(String::as_str).collect::<Vec<_>>()[..] {
        [] => table(&full, ""),
        ["--quick"] => table(&quick, ""),
        ["--only", start] => table(&full, start),
        ["--quick", "--only", start] => table(&quick, start),
        #[cfg(kernel)]
        ["--relation"] => relation::table(),
        #[cfg(kernel)]
        ["--fill"] => fill::table(),
        ["--layout"] => layout::table(),
        ["--against", this, other] => against::table(this, other),
        ["--selftest"] => selftest::run(40_000),
        ["--selftest", count] => selftest::run(count.parse().expect("a number of sheets")),
        _ => {
            eprintln!(
                "words: [--quick] [--only START], or --relation, or --fill, or --layout, or --against LIBRARY LIBRARY, \
                 or --selftest [COUNT]"
            );
            ExitCode::from(2)
        }
    }
}

/// The line's parameters, as the table's first columns have them.
fn parameters(line: &Line) -> [String; 7] {
    let ranges = if line.wide { "wide" } else { "narrow" };
    let shapes = if line.several { "several" } else { "one" };
    let [rows, dims, boxes, copies] = [line.rows, line.dims, line.boxes, line.copies].map(|x| x.to_string());
    [rows, dims, boxes, ranges.to_string(), shapes.to_string(), copies, line.aisle.to_string()]
}

fn lines() -> Vec<Line> {
    let mut lines = Vec::new();
    for rows in [8, 16, 32] {
        for dims in [2, 3, 4] {
            for boxes in [1, 3, 16] {
                for wide in [false, true] {
                    for several in [false, true] {
                        for copies in [1, 31] {
                            lines.push(Line { rows, dims, boxes, wide, several, copies, aisle: 0 });
                        }
                    }
                }
            }
        }
    }
    let plainest = lines.iter().filter(|line| line.dims == 2 && !line.several && line.copies == 1);
    let with_aisle: Vec<Line> = plainest.map(|line| Line { aisle: 600, ..*line }).collect();
    lines.extend(with_aisle);
    lines
}

/// The four sheets of a line. Its seed leaves the copies out: lines that differ in these alone have the same layout.
fn sheets(line: &Line) -> Vec<Sheet> {
    let seed = ((line.rows * 5 + line.dims) * 17 + line.boxes) * 4 + 2 * line.wide as usize + line.several as usize;
    let first = 8 * seed + 4 * (line.aisle > 0) as usize;
    STYLES.iter().enumerate().map(|(i, &style)| line_sheet(line, style, (first + i) as u64)).collect()
}

/// What every subject finds for the sheet, with the number of narrowings, or who differs from the tuned list form.
fn agreed(sheet: &Sheet) -> Result<(i64, usize), String> {
    let mut expected = sheet.table.clone();
    let finding = tuned::list::settle(&sheet.block, &mut expected);
    for (name, settle) in SUBJECTS {
        let mut table = sheet.table.clone();
        let found = settle(&sheet.block, &mut table);
        if (found, &table) != (finding, &expected) {
            return Err(format!(
                "{name} finds {found}, {table:?}\ntuned-l finds {finding}, {expected:?}\nfor {sheet:?}"
            ));
        }
    }
    Ok((finding, tuned::list::narrowings(&sheet.block, &sheet.table)))
}

/// Microseconds a call, for each subject: the least of the batches, the subjects taking turns.
fn measure(subjects: &[(&str, Settle)], sheet: &Sheet, effort: &Effort) -> Vec<f64> {
    let mut work = sheet.table.clone();
    let mut run = |settle: Settle, times: u32| {
        let begin = Instant::now();
        for _ in 0..times {
            work.copy_from_slice(&sheet.table);
            black_box(settle(black_box(&sheet.block), black_box(&mut work)));
        }
        begin.elapsed()
    };
    let (times, mut used): (Vec<u32>, Vec<Duration>) = subjects
        .iter()
        .map(|(_, settle)| {
            let mut times = 1;
            loop {
                let time = run(*settle, times);
                if time >= effort.batch {
                    return (times, time);
                }
                times *= 2;
            }
        })
        .unzip();
    let mut least: Vec<f64> = used.iter().zip(&times).map(|(time, &n)| time.as_secs_f64() * 1e6 / n as f64).collect();
    for _ in 0..effort.batches {
        for (s, (_, settle)) in subjects.iter().enumerate() {
            if used[s] < effort.most {
                let time = run(*settle, times[s]);
                used[s] += time;
                least[s] = least[s].min(time.as_secs_f64() * 1e6 / times[s] as f64);
            }
        }
    }
    least
}

/// A ratio of two subjects that the table shows.
struct Ratio {
    name: &'static str,
    over: usize,
    under: usize,
}

#[cfg(kernel)]
const RATIOS: &[Ratio] = &[
    Ratio { name: "kernel/direct", over: 0, under: 1 },
    Ratio { name: "kernel/list", over: 0, under: 2 },
    Ratio { name: "kernel/tuned-l", over: 0, under: 4 },
];
#[cfg(not(kernel))]
const RATIOS: &[Ratio] =
    &[Ratio { name: "direct/tuned-d", over: 0, under: 2 }, Ratio { name: "list/tuned-l", over: 1, under: 3 }];

/// A measured line: mean microseconds a settle of each subject, and those of each sheet.
struct Measured {
    line: Line,
    mean: Vec<f64>,
    each: Vec<Vec<f64>>,
}

/// Measures and prints the lines whose parameters, parted by blanks, begin with `start`.
fn table(effort: &Effort, start: &str) -> ExitCode {
    let mut lines = lines();
    lines.retain(|line| parameters(line).join(" ").starts_with(start));
    print!("rows dims boxes ranges shapes  copies aisle  settled narrowings ");
    for (name, _) in SUBJECTS {
        print!(" {name:>9}");
    }
    for ratio in RATIOS {
        print!(" {:>14}  worst", ratio.name);
    }
    println!();
    let mut measured = Vec::new();
    for (number, line) in lines.iter().enumerate() {
        eprint!("\rline {} of {}", number + 1, lines.len());
        let sheets = sheets(line);
        let (mut settled, mut narrowings, mut each) = (0, 0, Vec::new());
        for sheet in &sheets {
            match agreed(sheet) {
                Ok((finding, count)) => {
                    settled += (finding == 0) as usize;
                    narrowings += count;
                }
                Err(message) => {
                    eprintln!("\n{line:?}: {message}");
                    return ExitCode::FAILURE;
                }
            }
            each.push(measure(SUBJECTS, sheet, effort));
        }
        let mean: Vec<f64> =
            (0..SUBJECTS.len()).map(|s| each.iter().map(|times| times[s]).sum::<f64>() / sheets.len() as f64).collect();
        let m = Measured { line: *line, mean, each };
        print_line(&m, settled, sheets.len(), narrowings);
        measured.push(m);
    }
    eprintln!();
    if !measured.is_empty() {
        summary(&measured);
    }
    ExitCode::SUCCESS
}

fn print_line(m: &Measured, settled: usize, of: usize, narrowings: usize) {
    let [rows, dims, boxes, ranges, shapes, copies, aisle] = parameters(&m.line);
    print!("{rows:>4} {dims:>4} {boxes:>5} {ranges:6} {shapes:7} {copies:>6} {aisle:>5}");
    print!("  {:>7} {:10.1} ", format!("{settled}/{of}"), narrowings as f64 / of as f64);
    for time in &m.mean {
        print!(" {time:9.2}");
    }
    for ratio in RATIOS {
        print!(" {:14.2} {:6.2}", m.mean[ratio.over] / m.mean[ratio.under], worst(m, ratio));
    }
    println!();
}

/// The greatest ratio among the line's sheets.
fn worst(m: &Measured, ratio: &Ratio) -> f64 {
    m.each.iter().map(|times| times[ratio.over] / times[ratio.under]).fold(0.0, f64::max)
}

/// The line for which `of` is greatest.
fn greatest(measured: &[Measured], of: impl Fn(&Measured) -> f64) -> &Measured {
    measured.iter().max_by(|a, b| of(a).total_cmp(&of(b))).expect("a line was measured")
}

fn geometric_mean(values: impl Iterator<Item = f64>) -> f64 {
    let (count, sum) = values.fold((0, 0.0), |(count, sum), x| (count + 1, sum + x.ln()));
    (sum / count as f64).exp()
}

fn summary(measured: &[Measured]) {
    println!("\nEach line: four sheets (packed, open, chain, clash); microseconds a settle, the mean of the four;");
    println!("'worst' is the greatest ratio of one of the four. All agreed word for word on every sheet.\n");
    let name = |m: &Measured| parameters(&m.line).join(" ");
    for ratio in RATIOS {
        let of = |m: &Measured| m.mean[ratio.over] / m.mean[ratio.under];
        let line = greatest(measured, of);
        let sheet = greatest(measured, |m| worst(m, ratio));
        println!(
            "{}: geometric mean {:.2}, over the lines with one copy {:.2}; lines above 1.0: {}, above 1.2: {}",
            ratio.name,
            geometric_mean(measured.iter().map(of)),
            geometric_mean(measured.iter().filter(|m| m.line.copies == 1).map(of)),
            measured.iter().filter(|m| of(m) > 1.0).count(),
            measured.iter().filter(|m| of(m) > 1.2).count(),
        );
        println!(
            "  worst line {:.2} ({}), worst sheet {:.2} ({})",
            of(line),
            name(line),
            worst(sheet, ratio),
            name(sheet)
        );
    }
    let slowest = greatest(measured, |m| m.mean[0]);
    println!("{}: slowest line {:.0} microseconds ({})", SUBJECTS[0].0, slowest.mean[0], name(slowest));
    println!("\nGeometric means of microseconds a settle:");
    for (column, name) in ["rows", "dims", "boxes", "ranges", "shapes", "copies", "aisle"].into_iter().enumerate() {
        let value_of = |m: &Measured| parameters(&m.line)[column].clone();
        let mut values: Vec<String> = Vec::new();
        for m in measured {
            if !values.contains(&value_of(m)) {
                values.push(value_of(m));
            }
        }
        for value in values {
            print!("{name:>7} {value:7}");
            for (s, (subject, _)) in SUBJECTS.iter().enumerate() {
                let group = measured.iter().filter(|m| value_of(m) == value);
                print!("  {subject} {:9.2}", geometric_mean(group.map(|m| m.mean[s])));
            }
            println!();
        }
    }
}
