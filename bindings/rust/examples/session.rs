//! A session from standard input, its lines to standard output.

use std::io::{self, Read, Write};

fn main() -> io::Result<()> {
    let mut input = Vec::new();
    io::stdin().read_to_end(&mut input)?;
    let mut out = vec![0; pmu::ROOM];
    let lines = pmu::session(&input, &mut out).expect("a buffer of ROOM bytes");
    let mut stdout = io::stdout();
    stdout.write_all(lines)?;
    stdout.flush()
}
