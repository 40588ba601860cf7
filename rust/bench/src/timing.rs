//! Times, and the rows of the tables that show them.
use std::time::{Duration, Instant};

/// How many runs of single calls are timed.
pub const RUNS: usize = 20;

/// The shortest of several runs of each, taken in turn.
pub fn shortest<const N: usize>(runs: usize, mut each: [&mut dyn FnMut(); N]) -> [Duration; N] {
    let mut least = [Duration::MAX; N];
    for _ in 0..runs {
        for (run, least) in each.iter_mut().zip(&mut least) {
            let began = Instant::now();
            run();
            *least = began.elapsed().min(*least);
        }
    }
    least
}

/// A row of the table: the time of the proved code, then each other time with the ratio to it.
pub fn print_row(name: &str, ours: Duration, others: &[Duration]) {
    print!("| {name} | {ours:.2?} |");
    for theirs in others {
        let ratio = ours.as_secs_f64() / theirs.as_secs_f64();
        print!(" {theirs:.2?} | {ratio:.2} |");
    }
    println!();
}
