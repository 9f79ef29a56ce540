//! Instructions a command of a session, its line among them, through the static
//! library and by the reference: one row for each kind of command, from the
//! same settings. A step back is counted as a pair, less the command that it
//! takes back; so the list is short there, and full where that command is
//! counted alone. Some rows are of the short form, which has sets of its own.

use crate::counted;
use reference::form::{Form, SHORT_FORM};
use reference::session;
use std::hint::black_box;

/// Commands in a session, or pairs: as many again are in the second session of a count. The commands that the second has more,
/// and both end commands, have positions of three digits.
const COMMANDS: usize = 100;

/// The bytes of one kind of command.
struct Kind {
    name: &'static str,
    /// The form of the session that has the command.
    form: Form,
    bytes: Vec<u8>,
    /// The row whose command is part of this one's, and is taken off.
    less: Option<&'static str>,
}

/// What is set, field and value, before the commands: EL2 with 5 of 6 counters below HPMN, all six enabled, EN 1, the
/// instruction counter, the external registers, and sampling with a long interval.
const SETS: [(u8, u64); 21] = [
    (0x00, 1),
    (0x01, 1),
    (0x03, 1),
    (0x08, 1),
    (0x09, 1),
    (0x10, 1),
    (0x0C, 6),
    (0x27, 5),
    (0x20, 1),
    (0x34, 0x1_0000_003F),
    (0x3D, 1),
    (0x3E, 1),
    (0x38, 1),
    (0x3B, 1),
    (0x80, 1),
    (0x8B, 1_000_000),
    (0x83, 1),
    (0x60, 7),
    (0x61, 7),
    (0x62, 7),
    (0x7F, 7),
];

fn set(field: u8, value: u64) -> Vec<u8> {
    [&[0x01, field][..], &value.to_le_bytes()].concat()
}

fn access(word: u32, operand: u64) -> Vec<u8> {
    [&[0x03][..], &word.to_le_bytes(), &operand.to_le_bytes()].concat()
}

/// All at level 1. Counter 2 is below HPMN and counter 5 is not; PMSWINC is of five counters.
fn rows() -> Vec<Kind> {
    let one = |name, bytes| Kind { name, form: Form::Long, bytes, less: None };
    let short = |name, bytes| Kind { name, form: Form::Short, bytes, less: None };
    let back = |name, mut bytes: Vec<u8>, less| {
        bytes.push(0x07);
        Kind { name, form: Form::Long, bytes, less: Some(less) }
    };
    let write = [&[0x05, 0x00, 0x0C][..], &0x3Fu64.to_le_bytes()].concat();
    vec![
        one("counter read", access(0xD53B_E842, 0)),
        one("counter write", access(0xD51B_E842, 9)),
        one("PMSWINC", access(0xD51B_9C81, 0x1F)),
        one("trapped read", access(0xD53B_E8A2, 0)),
        one("another word", access(0xD53B_9D02, 0)),
        one("PMSICR read", access(0xD538_9942, 0)),
        one("PMSICR write", access(0xD518_9942, 9)),
        one("set", set(0x62, 9)),
        one("level", vec![0x02, 0x01]),
        one("external read", vec![0x04, 0x00, 0x0C]),
        one("external write", write),
        one("tick", vec![0x06, 0x00]),
        one("member", vec![0x08, 0x00]),
        back("level back", vec![0x02, 0x01], "level"),
        back("write back", access(0xD51B_E842, 9), "counter write"),
        back("PMSWINC back", access(0xD51B_9C81, 0x1F), "PMSWINC"),
        short("set, 1 byte", Form::Short.set(0x62, 9)),
        short("set, 4 bytes", Form::Short.set(0x62, 0x900)),
        short("set, 8 bytes", Form::Short.set(0x62, 9 << 32)),
        short("set, too wide", set(0x62, 9)),
        short("read, short", access(0xD53B_E842, 0)),
    ]
}

/// A session with so many of one kind of command, at level 1.
fn whole(kind: &Kind, count: usize) -> Vec<u8> {
    let mut bytes = if kind.form == Form::Short { vec![SHORT_FORM] } else { Vec::new() };
    bytes.extend(SETS.iter().flat_map(|&(field, value)| kind.form.set(field, value)));
    bytes.extend([0x02, 0x01]);
    bytes.extend(kind.bytes.repeat(count));
    bytes.push(0x00);
    bytes
}

/// Each row by the library and by the reference, with so many commands and with twice as many.
pub fn count() {
    let mut out = vec![0; pmu::ROOM];
    for row in rows() {
        let inputs = [COMMANDS, 2 * COMMANDS].map(|length| whole(&row, length));
        for input in &inputs {
            let lines = session::run(input);
            assert_eq!(pmu::session(input, &mut out), Ok(lines.as_bytes()), "{}", row.name);
            let length = |lines: Result<&[u8], _>| lines.map_or(0, |lines| lines.len() as u64);
            counted::bench_counted(&mut || length(pmu::session(black_box(input), &mut out)));
        }
        for input in &inputs {
            counted::bench_counted(&mut || session::run(black_box(input)).len() as u64);
        }
    }
}

pub fn counts() -> usize {
    4 * rows().len()
}

/// Prints what was counted.
pub fn report(totals: &[u64]) -> Result<(), String> {
    println!("a command of a session, proved and by the reference: instructions");
    let mut counted: Vec<(&str, f64, f64)> = Vec::new();
    for (row, totals) in rows().iter().zip(totals.chunks(4)) {
        let mut proved = (totals[1] - totals[0]) as f64 / COMMANDS as f64;
        let mut reference = (totals[3] - totals[2]) as f64 / COMMANDS as f64;
        if let Some(name) = row.less {
            let first = counted.iter().find(|first| first.0 == name);
            let first = first.ok_or_else(|| format!("{}: no row {name}", row.name))?;
            proved -= first.1;
            reference -= first.2;
        }
        println!("{:14} | {proved:5.0} {reference:5.0}", row.name);
        counted.push((row.name, proved, reference));
    }
    Ok(())
}
