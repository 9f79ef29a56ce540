//! How a row is counted and timed: one kind of list, by each of some loops.

use crate::loops::Loop;
use std::hint::black_box;
use std::time::Instant;

/// Entries in a list: as many again are in the second list of a count.
const LIST: usize = 1024;

/// What the loops of a row are given; the list is as long as asked for.
pub trait Row {
    fn sets(&self) -> Vec<u64>;
    fn list(&self, length: usize) -> Vec<u64>;
    fn operand(&self) -> u64;
}

/// What callgrind counts, by the function's name: one loop over one list, or one session.
#[inline(never)]
#[no_mangle]
pub fn bench_counted(run: &mut dyn FnMut() -> u64) {
    black_box(run());
}

/// Each row and loop over a list, and over one of twice its length.
pub fn count(rows: &[impl Row], loops: &[Loop]) {
    for row in rows {
        for &run in loops {
            for length in [LIST, 2 * LIST] {
                let (sets, list) = (row.sets(), row.list(length));
                bench_counted(&mut || run(&sets, &list, row.operand()));
            }
        }
    }
}

/// How many counts `count` makes.
pub fn counts(rows: &[impl Row], loops: &[Loop]) -> usize {
    2 * rows.len() * loops.len()
}

/// Instructions an entry, from the counts of a row's loops.
pub fn instructions(totals: &[u64]) -> Vec<f64> {
    totals.chunks(2).map(|two| (two[1] - two[0]) as f64 / LIST as f64).collect()
}

/// Nanoseconds an entry, for each loop: the fastest of several runs, the loops
/// in turn, so that what else the machine does meets all of them. They must
/// agree on the sum. The list is too long for a branch predictor to memorize.
pub fn nanoseconds(row: &impl Row, loops: &[Loop]) -> Result<Vec<f64>, String> {
    let (sets, list) = (row.sets(), row.list(32 * LIST));
    let sums: Vec<u64> = loops.iter().map(|run| run(&sets, &list, row.operand())).collect();
    if sums.iter().any(|&sum| sum != sums[0]) {
        return Err(format!("the loops differ: {sums:?}"));
    }
    let mut best = vec![f64::MAX; loops.len()];
    for _ in 0..60 {
        for (run, best) in loops.iter().zip(&mut best) {
            let start = Instant::now();
            black_box(run(black_box(&sets), black_box(&list), row.operand()));
            *best = best.min(start.elapsed().as_nanos() as f64 / list.len() as f64);
        }
    }
    Ok(best)
}
