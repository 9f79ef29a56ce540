//! MODEL Z1 to Z8: random sessions in both forms. Their other form, and that every kind of
//! session in the short form is among them.

use super::reading::{is_run, left};
use super::short_convert::check;
use super::*;
use crate::form::{split, Form};
use crate::session::{read, Parsed};

/// MODEL Z4 to Z8. Each refusal is met in each form that has it.
#[test]
fn generated_sessions_in_the_other_form() {
    let mut seen = BTreeMap::new();
    for index in 0..6000 {
        let bytes = generate::session(50, index);
        *seen.entry((split(&bytes).0, check(&bytes))).or_insert(0) += 1;
    }
    assert_eq!(seen.len(), 4 + 6, "{seen:?}");
    assert!(seen.values().all(|&count| count > 20), "{seen:?}");
    let short: u32 =
        seen.iter().filter(|((form, _), _)| *form == Form::Short).map(|(_, n)| n).sum();
    assert!((2200..2600).contains(&short), "{seen:?}");
    assert!(seen[&(Form::Short, None)] > 1000, "{seen:?}");
}

/// What is read of random sessions in the short form that are run, with their bytes.
fn short_sessions(seed: u64, count: u64) -> Vec<(Vec<u8>, Vec<Parsed>)> {
    let list = (0..count).map(|index| generate::session(seed, index));
    let ours = list.filter(|bytes| split(bytes).0 == Form::Short && is_run(bytes));
    ours.map(|bytes| (bytes.clone(), read(Form::Short, &bytes[1..]))).collect()
}

/// Sets of every width, at the values where the next width is due, obeyed and too wide.
#[test]
fn generated_sets_have_every_width() {
    let mut seen = BTreeMap::new();
    for (_, list) in short_sessions(52, 6000) {
        for parsed in list {
            let (command, length, fits) = match parsed {
                Parsed::Command(command, length) => (command, length, true),
                Parsed::TooWide(command, length) => (command, length, false),
                _ => continue,
            };
            if let Command::Set { value, .. } = command {
                *seen.entry((length, fits, None)).or_insert(0) += 1;
                if [0, 0xFF, 0x100, 0xFFFF_FFFF, 0x1_0000_0000, u64::MAX].contains(&value) {
                    *seen.entry((length, fits, Some(value))).or_insert(0) += 1;
                }
            }
        }
    }
    for (length, fits, values) in [
        (3, true, &[0, 0xFF][..]),
        (6, true, &[0x100, 0xFFFF_FFFF]),
        (10, true, &[0x1_0000_0000, u64::MAX]),
        (6, false, &[0, 0xFF]),
        (10, false, &[0, 0xFF, 0x100, 0xFFFF_FFFF]),
    ] {
        for key in values.iter().map(|&value| Some(value)).chain([None]) {
            let count = seen.get(&(length, fits, key)).copied().unwrap_or(0);
            assert!(count > 10, "{length} {fits} {key:X?}: {count}");
        }
    }
}

/// Sessions stop at an unknown byte of each kind and inside a set at each place.
#[test]
fn generated_sessions_stop_at_each_place() {
    let mut unknown = BTreeMap::new();
    let mut cut = BTreeMap::new();
    for (bytes, list) in short_sessions(54, 12_000) {
        let rest = left(&bytes);
        match list.last() {
            Some(Parsed::Unknown) => *unknown.entry(rest[0]).or_insert(0) += 1,
            Some(Parsed::Cut) => {
                let first = rest.first().copied();
                *cut.entry((first, rest.len())).or_insert(0) += 1;
            }
            _ => {}
        }
    }
    for byte in [0x09, 0x10, 0x13, 0xFF] {
        assert!(unknown.get(&byte).map_or(false, |&count| count > 5), "{unknown:?}");
    }
    for (byte, lengths) in [(0x11, 1..=2), (0x12, 1..=5), (0x01, 1..=9)] {
        for length in lengths {
            assert!(cut.contains_key(&(Some(byte), length)), "{byte:02X} {length} {cut:?}");
        }
    }
}

/// How many bytes the long form has. Only sets differ.
fn long_length(list: &[Parsed]) -> usize {
    let length = |parsed: &Parsed| match *parsed {
        Parsed::Command(Command::Set { .. }, _) => 10,
        Parsed::Command(_, length) => length,
        _ => 0,
    };
    list.iter().map(length).sum()
}

/// Sessions are beside the limit, and so are their long forms; the byte in front comes
/// twice, is lost, and stands where it does not belong.
#[test]
fn generated_sessions_are_at_the_limits() {
    let mut lengths = BTreeMap::new();
    let mut starts = BTreeMap::new();
    for index in 0..12_000 {
        let bytes = generate::session(56, index);
        let (form, body) = split(&bytes);
        *lengths.entry((form, body.len())).or_insert(0) += 1;
        *starts.entry((form, body.first().copied())).or_insert(0) += 1;
    }
    for form in [Form::Long, Form::Short] {
        for length in [4095, 4096, 4097] {
            assert!(lengths.get(&(form, length)).map_or(false, |&count| count > 5), "{length}");
        }
    }
    for start in [(Form::Short, 0x10), (Form::Short, 0x01), (Form::Long, 0x11)] {
        let count = starts.get(&(start.0, Some(start.1))).copied().unwrap_or(0);
        assert!(count > 5, "{start:02X?}: {count}");
    }
    let mut long = BTreeMap::new();
    for (_, list) in short_sessions(58, 12_000) {
        let whole = list.iter().all(|parsed| matches!(parsed, Parsed::Command(..)));
        *long.entry((whole, long_length(&list))).or_insert(0) += 1;
    }
    for length in [4095, 4096, 4097] {
        assert!(long.get(&(true, length)).map_or(false, |&count| count > 5), "{length}");
    }
}
