//! Sessions a second: the same random sessions through both.

use reference::{generate, session};
use std::hint::black_box;
use std::time::Instant;

/// Microseconds a session, the fastest of several runs.
fn microseconds(inputs: &[Vec<u8>], mut run: impl FnMut(&[u8])) -> f64 {
    let mut best = f64::MAX;
    for _ in 0..10 {
        let start = Instant::now();
        for input in inputs {
            run(black_box(input));
        }
        best = best.min(start.elapsed().as_nanos() as f64 / 1000.0 / inputs.len() as f64);
    }
    best
}

pub fn report() {
    let inputs: Vec<Vec<u8>> = (0..2000).map(|index| generate::session(1, index)).collect();
    let bytes: usize = inputs.iter().map(Vec::len).sum();
    let mut out = vec![0; pmu::ROOM];
    let proved = microseconds(&inputs, |input| {
        black_box(pmu::session(input, &mut out).map(<[u8]>::len).ok());
    });
    let reference = microseconds(&inputs, |input| {
        black_box(session::run(input));
    });
    println!(
        "sessions a second ({} of {} bytes on average): proved {:.0}, reference {:.0} ({:.2} of its time)",
        inputs.len(),
        bytes / inputs.len(),
        1e6 / proved,
        1e6 / reference,
        proved / reference
    );
}
