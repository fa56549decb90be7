//! Calls that take nanoseconds: how they are timed, and the line below their tables.

/// Nanoseconds a call: the least of 40 batches for each subject in turn. A subject makes `calls` calls, a batch is `times` times that.
pub fn nanoseconds(times: usize, calls: usize, subjects: &[&dyn Fn()]) -> Vec<f64> {
    let mut least = vec![f64::MAX; subjects.len()];
    for _ in 0..40 {
        for (subject, least) in subjects.iter().zip(&mut least) {
            let begin = std::time::Instant::now();
            for _ in 0..times {
                subject();
            }
            *least = least.min(begin.elapsed().as_secs_f64() * 1e9 / (times * calls) as f64);
        }
    }
    least
}

/// Of each line's time of the kernel, divided by that of a plain form.
pub fn print_ratios(name: &str, ratios: &[f64]) {
    let worst = ratios.iter().copied().fold(0.0, f64::max);
    let mean = crate::geometric_mean(ratios.iter().copied());
    println!("{name}: geometric mean {mean:.2}, worst line {worst:.2}");
}
