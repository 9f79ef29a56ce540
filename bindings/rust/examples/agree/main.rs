//! Random sessions made call by call: `agree FIRST COUNT [FILE..]`. The sessions
//! with the numbers from FIRST on, so many, and those in the files that are of the
//! long form, must give the lines of `pmu::session`. Prints what was answered how
//! often, or the smallest session that is wrong. A million takes about half a minute:
//! `cargo run --release --features calls --example agree -- 0 1000000`.

use std::process::ExitCode;
use std::{env, fs, thread};
use tally::Tally;

mod by_calls;
mod command;
#[path = "../../tests/common/fields.rs"]
mod fields;
mod generate;
#[path = "../../tests/common/rng.rs"]
mod rng;
mod shrink;
mod tally;

/// What is wrong with a session made by calls.
fn wrong(session: &[u8], out: &mut [u8], tally: &mut Tally) -> Option<&'static str> {
    let lines = pmu::session(session, out).expect("a buffer of ROOM bytes");
    match by_calls::lines(session, |answer| tally.count(answer)) {
        Ok(text) if text.as_bytes() == lines => None,
        Ok(_) => Some("the lines are others"),
        Err(what) => Some(what),
    }
}

/// The first session that is wrong, and what was answered before it.
fn first_wrong(sessions: impl Iterator<Item = Vec<u8>>) -> (Option<Vec<u8>>, Tally) {
    let (mut out, mut tally) = (vec![0; pmu::ROOM], Tally::default());
    for session in sessions {
        if wrong(&session, &mut out, &mut tally).is_some() {
            return (Some(session), tally);
        }
    }
    (None, tally)
}

/// Prints the smallest session that is wrong, and what is wrong with it.
fn report(session: &[u8]) {
    let any = |bytes: &[u8]| wrong(bytes, &mut vec![0; pmu::ROOM], &mut Tally::default());
    let smallest = shrink::shrink(session, |bytes| any(bytes).is_some());
    for piece in &smallest {
        let bytes: Vec<String> = piece.iter().map(|byte| format!("{byte:02X}")).collect();
        println!("{}", bytes.join(" "));
    }
    println!("{}", any(&smallest.concat()).unwrap_or("-"));
}

/// The sessions in files, those of the long form.
fn stored(files: impl Iterator<Item = String>) -> Vec<Vec<u8>> {
    let read = |name: String| fs::read(&name).unwrap_or_else(|e| panic!("{name}: {e}"));
    files.map(read).filter(|session| session.first() != Some(&0x10)).collect()
}

/// Runs the sessions with these numbers, in two threads, and the stored ones.
fn agree(first: u64, count: u64, stored: Vec<Vec<u8>>) -> ExitCode {
    let end = first.saturating_add(count);
    let half = move |from: u64| (from..end).step_by(2).map(generate::session);
    let files = stored.len();
    let odd = thread::spawn(move || first_wrong(half(first.saturating_add(1))));
    let (here, mut tally) = first_wrong(stored.into_iter().chain(half(first)));
    let (there, other) = odd.join().expect("the other half");
    tally.add(other);
    if let Some(session) = here.or(there) {
        report(&session);
        return ExitCode::FAILURE;
    }
    println!("{count} random sessions and {files} stored ones: {tally}");
    match tally.missing() {
        Some(answer) if count >= 1000 => {
            println!("there was no answer such as `{answer}`");
            ExitCode::FAILURE
        }
        _ => ExitCode::SUCCESS,
    }
}

fn main() -> ExitCode {
    let mut arguments = env::args().skip(1);
    let mut number = || arguments.next().and_then(|a| a.parse::<u64>().ok());
    match (number(), number()) {
        (Some(first), Some(count)) => agree(first, count, stored(arguments)),
        _ => {
            eprintln!("usage: agree FIRST COUNT [FILE..]");
            ExitCode::from(2)
        }
    }
}
