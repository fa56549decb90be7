//! The kernel beside another build of it, line by line. Both are loaded into one process and their batches take turns, so
//! that both see the same moments of the machine: a line's ratio is good to about one per cent, which that of two runs is not.

use crate::generate::Line;
use crate::sheet::Sheet;
use crate::{geometric_mean, lines, parameters, sheets};
use std::ffi::{c_char, c_int, c_void, CString};
use std::hint::black_box;
use std::process::ExitCode;
use std::time::{Duration, Instant};

unsafe extern "C" {
    fn dlopen(name: *const c_char, flags: c_int) -> *mut c_void;
    fn dlsym(library: *mut c_void, name: *const c_char) -> *mut c_void;
}

const RTLD_NOW: c_int = 2;
const ROUNDS: usize = 30;
const BATCH: Duration = Duration::from_micros(60);

type Settle = unsafe extern "C" fn(*const i64, usize, *mut i64, usize) -> i64;

/// `zk_settle` of a shared library made of the kernel's static one.
fn settle_of(path: &str) -> Option<Settle> {
    let path = CString::new(path).ok()?;
    // Sound: both names end with a zero byte, and a kernel's library has `zk_settle` with this signature.
    unsafe {
        let library = dlopen(path.as_ptr(), RTLD_NOW);
        if library.is_null() {
            return None;
        }
        let symbol = dlsym(library, c"zk_settle".as_ptr());
        (!symbol.is_null()).then(|| std::mem::transmute::<*mut c_void, Settle>(symbol))
    }
}

/// The finding, and the table that is left.
fn settled(settle: Settle, sheet: &Sheet) -> (i64, Vec<i64>) {
    let mut table = sheet.table.clone();
    // Sound: the kernel reads and writes within the two lengths.
    let finding = unsafe { settle(sheet.block.as_ptr(), sheet.block.len(), table.as_mut_ptr(), table.len()) };
    (finding, table)
}

/// Nanoseconds a settle in one batch, the copying of the table included.
fn batch(settle: Settle, sheet: &Sheet) -> f64 {
    let mut table = sheet.table.clone();
    let start = Instant::now();
    let mut calls = 0;
    while start.elapsed() < BATCH {
        for _ in 0..4 {
            table.copy_from_slice(&sheet.table);
            // Sound: as above.
            black_box(unsafe { settle(sheet.block.as_ptr(), sheet.block.len(), table.as_mut_ptr(), table.len()) });
        }
        calls += 4;
    }
    start.elapsed().as_nanos() as f64 / f64::from(calls)
}

/// The least batch of both on each sheet of each line, as the mean of a line's sheets.
fn measure(both: [Settle; 2], all: &[(Line, Vec<Sheet>)]) -> Vec<[f64; 2]> {
    let mut least: Vec<Vec<[f64; 2]>> = all.iter().map(|(_, sheets)| vec![[f64::MAX; 2]; sheets.len()]).collect();
    for round in 0..ROUNDS {
        for (i, (_, sheets)) in all.iter().enumerate() {
            for (j, sheet) in sheets.iter().enumerate() {
                for turn in [round % 2, (round + 1) % 2] {
                    least[i][j][turn] = least[i][j][turn].min(batch(both[turn], sheet));
                }
            }
        }
    }
    let mean = |times: &[[f64; 2]], which: usize| times.iter().map(|t| t[which]).sum::<f64>() / times.len() as f64;
    least.iter().map(|times| [mean(times, 0), mean(times, 1)]).collect()
}

/// The table: for each line on which both find the same, microseconds a settle of the other build and of this one.
pub fn table(this: &str, other: &str) -> ExitCode {
    let (Some(this), Some(other)) = (settle_of(this), settle_of(other)) else {
        eprintln!("a library cannot be loaded");
        return ExitCode::from(2);
    };
    let mut all: Vec<(Line, Vec<Sheet>)> = lines().into_iter().map(|line| (line, sheets(&line))).collect();
    let count = all.len();
    all.retain(|(_, sheets)| sheets.iter().all(|sheet| settled(this, sheet) == settled(other, sheet)));
    println!(
        "rows dims boxes ranges shapes copies aisle: microseconds a settle of the other build, of this one, ratio"
    );
    let mut ratios = Vec::new();
    for ((line, _), [before, after]) in all.iter().zip(measure([other, this], &all)) {
        println!("{}: {:.2} {:.2} {:.3}", parameters(line).join(" "), before / 1000.0, after / 1000.0, after / before);
        ratios.push(after / before);
    }
    let above = |limit: f64| ratios.iter().filter(|&&r| r > limit).count();
    let greatest = ratios.iter().copied().fold(0.0, f64::max);
    println!("\n{} lines of {count} on which both find the same", ratios.len());
    println!(
        "geometric mean {:.3}, greatest {greatest:.3}; above 1.00: {}, above 1.03: {}",
        geometric_mean(ratios.iter().copied()),
        above(1.0),
        above(1.03)
    );
    ExitCode::SUCCESS
}
