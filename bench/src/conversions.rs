//! Instructions that the conversion of a command takes, to either form, through
//! the static library and by the reference.

use crate::counted;
use reference::convert::convert;
use std::hint::black_box;

/// Commands in a session. As many again are in the second session of a count.
const COMMANDS: usize = 100;

/// A command of the long form, and whether it is converted from there or back.
struct Kind {
    name: &'static str,
    bytes: Vec<u8>,
    back: bool,
}

fn rows() -> Vec<Kind> {
    let set = |value: u64| [&[0x01, 0x62][..], &value.to_le_bytes()].concat();
    let access = [&[0x03, 0x42, 0xE8, 0x3B, 0xD5][..], &[0; 8]].concat();
    let one = |name, bytes| Kind { name, bytes, back: false };
    let back = |name, bytes| Kind { name, bytes, back: true };
    vec![
        one("set to 1 byte", set(9)),
        one("set to 8 bytes", set(9 << 32)),
        one("access to short", access.clone()),
        one("tick to short", vec![0x06, 0x00]),
        back("set from 1 byte", set(9)),
        back("access to long", access),
        back("tick to long", vec![0x06, 0x00]),
    ]
}

/// A session with so many of one kind of command, in the form that it is converted from.
fn whole(kind: &Kind, count: usize) -> Vec<u8> {
    let mut bytes = kind.bytes.repeat(count);
    bytes.push(0x00);
    if kind.back {
        bytes = convert(&bytes).expect("it has an end command");
    }
    bytes
}

/// Each row by the library and by the reference, with so many commands and with twice as many.
pub fn count() {
    let mut out = [0; pmu::CONVERT_ROOM];
    for row in rows() {
        let inputs = [COMMANDS, 2 * COMMANDS].map(|length| whole(&row, length));
        for input in &inputs {
            let other = convert(input).expect("it has an end command");
            assert_eq!(pmu::convert(input, &mut out), Ok(&other[..]), "{}", row.name);
            let length = |other: Result<&[u8], _>| other.map_or(0, |other| other.len() as u64);
            counted::bench_counted(&mut || length(pmu::convert(black_box(input), &mut out)));
        }
        for input in &inputs {
            counted::bench_counted(&mut || convert(black_box(input)).map_or(0, |b| b.len() as u64));
        }
    }
}

pub fn counts() -> usize {
    4 * rows().len()
}

/// Prints what was counted.
pub fn report(totals: &[u64]) -> Result<(), String> {
    println!("the conversion of a command, proved and by the reference: instructions");
    for (row, totals) in rows().iter().zip(totals.chunks(4)) {
        let each = |first, second| (totals[second] - totals[first]) as f64 / COMMANDS as f64;
        println!("{:15} | {:5.0} {:5.0}", row.name, each(0, 1), each(2, 3));
    }
    Ok(())
}
