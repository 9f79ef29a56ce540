//! Random sessions through the proved model, by its static library, and
//! through the reference: `compare SEED COUNT`. Each is also converted by both
//! to its other form, which must print the same lines and be converted back
//! (MODEL Z5 to Z7). Prints the seed, and the first session on which the two
//! differ, as bytes in text (docs/SESSIONS.md).

use pmu::NotConverted;
use reference::{convert, generate, notation, session};
use std::process::ExitCode;
use std::thread;

/// The output of the proved model. A buffer that was used before shows a byte
/// that was not written.
fn proved(input: &[u8], out: &mut [u8]) -> String {
    let lines = pmu::session(input, out).expect("a buffer of ROOM bytes");
    String::from_utf8_lossy(lines).to_string()
}

/// The other form of a session by the proved model, or the number of its
/// refusal. The buffer behind it, or all of it, must be as it was.
fn other(input: &[u8]) -> Result<Vec<u8>, u8> {
    let mut out = [0xAA; pmu::CONVERT_ROOM];
    let given = pmu::convert(input, &mut out).map(<[u8]>::to_vec);
    let size = given.as_ref().map_or(0, Vec::len);
    assert!(out[size..].iter().all(|&b| b == 0xAA), "more than the other form was written");
    given.map_err(|refusal| match refusal {
        NotConverted::Refused(number) => number,
        NotConverted::Short => 0,
    })
}

/// What is wrong with the other form of a session that prints these lines.
fn wrong_form(input: &[u8], lines: &str, out: &mut [u8]) -> Option<&'static str> {
    let given = other(input);
    if given != convert::convert(input) {
        return Some("the other form is another");
    }
    let form = given.ok()?;
    if proved(&form, out) != lines || session::run(&form) != lines {
        return Some("the other form prints other lines");
    }
    match other(&form) {
        Ok(back) if input.starts_with(&back) => None,
        _ => Some("there and back is not the session"),
    }
}

/// What was compared, and what was found.
#[derive(Default)]
struct Share {
    /// The first session on which the two differ.
    different: Option<u64>,
    /// Bytes of output.
    bytes: u64,
    /// Sessions that have another form.
    converted: u64,
}

/// A share of the sessions, up to the first on which the two differ.
fn compare(seed: u64, share: impl Iterator<Item = u64>) -> Share {
    let mut out = vec![0; pmu::ROOM];
    let mut found = Share::default();
    for index in share {
        let input = generate::session(seed, index);
        let expected = session::run(&input);
        let same = proved(&input, &mut out) == expected;
        if !same || wrong_form(&input, &expected, &mut out).is_some() {
            found.different = Some(index);
            return found;
        }
        found.bytes += expected.len() as u64;
        found.converted += u64::from(convert::convert(&input).is_ok());
    }
    found
}

/// Prints a session on which the two differ, and the first line that does, or
/// what is wrong with its other form.
fn report(seed: u64, index: u64) {
    let input = generate::session(seed, index);
    let expected = session::run(&input);
    let mut out = vec![0; pmu::ROOM];
    let got = proved(&input, &mut out);
    print!("{}", notation::disassemble(&input));
    let (mut theirs, mut ours) = (expected.lines(), got.lines());
    loop {
        let (a, b) = (theirs.next(), ours.next());
        if a != b {
            println!("reference: {}\nproved:    {}", a.unwrap_or("-"), b.unwrap_or("-"));
            break;
        }
        if a.is_none() {
            println!("{}", wrong_form(&input, &expected, &mut out).unwrap_or("-"));
            break;
        }
    }
    println!("they differ: seed {seed}, session {index}");
}

fn main() -> ExitCode {
    let numbers: Vec<u64> = std::env::args().skip(1).filter_map(|a| a.parse().ok()).collect();
    let (seed, count) = match numbers[..] {
        [seed, count] => (seed, count),
        _ => {
            eprintln!("usage: compare SEED COUNT");
            return ExitCode::FAILURE;
        }
    };
    println!("seed {seed}, {count} sessions");
    let even = thread::spawn(move || compare(seed, (0..count).step_by(2)));
    let odd = compare(seed, (0..count).skip(1).step_by(2));
    let even = even.join().expect("the other half");
    match even.different.into_iter().chain(odd.different).min() {
        Some(index) => {
            report(seed, index);
            ExitCode::FAILURE
        }
        None => {
            println!("no difference in {} bytes of output", even.bytes + odd.bytes);
            println!("and in the other forms of {} sessions", even.converted + odd.converted);
            ExitCode::SUCCESS
        }
    }
}
