//! MODEL Z1 to Z3 and R19: what the directed sessions reach of the short form: each set command at
//! the values where the next one is due, every number of a field by each, sets that are cut off
//! at each place, what comes after refusal 19, and each length beside the limit.

use super::*;
use crate::form::{split, Form};
use crate::session::{read, Parsed};
use crate::tests::reading::left;

/// What is read of the sessions in the short form that are run, with the answers.
fn ours() -> Vec<Vec<(Parsed, String)>> {
    let mut list = Vec::new();
    for session in all().iter().filter(|session| is_run(&session.bytes)) {
        if let (Form::Short, body) = split(&session.bytes) {
            assert!(session.name.starts_with("short-"), "{}", session.name);
            list.push(read(Form::Short, body).into_iter().zip(answers(session)).collect());
        }
    }
    list
}

/// All sets: the length of the command, its field, its value, and the answer.
fn sets() -> Vec<(usize, u8, u64, String)> {
    let mut list = Vec::new();
    for (parsed, answer) in ours().concat() {
        if let Parsed::Command(command, length) | Parsed::TooWide(command, length) = parsed {
            if let Command::Set { field, value } = command {
                list.push((length, field, value, answer));
            }
        }
    }
    list
}

/// The length of the narrowest set that holds a value.
fn narrowest(value: u64) -> usize {
    match value {
        0..=0xFF => 3,
        0x100..=0xFFFF_FFFF => 6,
        _ => 10,
    }
}

/// Each value by each command that has room for it, to fields of 64 bits and to one of a
/// bit. What is too wide is refused with 19, and nothing else is.
#[test]
fn every_set_is_there() {
    let mut seen = BTreeSet::new();
    for (length, field, value, answer) in sets() {
        assert_eq!(answer == "refused 19", length != narrowest(value), "{length} {value:X}");
        seen.insert((length, field, value, answer));
    }
    for field in [0x60, 0x7E, 0x7F, 0x8C] {
        for value in [0, 0xFF, 0x100, 0xFFFF_FFFF, 0x1_0000_0000, u64::MAX] {
            for length in [3, 6, 10].into_iter().filter(|&length| length >= narrowest(value)) {
                let answer = if length == narrowest(value) { "ok" } else { "refused 19" };
                let one = (length, field, value, answer.to_string());
                assert!(seen.contains(&one), "{one:X?}");
            }
        }
    }
    for (length, answer) in [(3, "ok"), (6, "refused 19"), (10, "refused 19")] {
        for value in [0, 1] {
            assert!(seen.contains(&(length, 0x20, value, answer.to_string())), "{length}");
        }
    }
}

/// Every number by each command: obeyed, or refused with 3, 4 or 19. Both 3 and 4 come by
/// each command, and where they would come there are sets that are refused with 19.
#[test]
fn every_number_is_there() {
    let mut numbers = BTreeSet::new();
    let mut answers = BTreeSet::new();
    for (length, field, value, answer) in sets() {
        numbers.insert((length, field));
        let later = match Machine::default().set(field, value) {
            Answer::Refused(number) => number,
            _ => 0,
        };
        answers.insert((length, answer, later));
    }
    assert_eq!(numbers.len(), 3 * 256);
    for length in [3, 6, 10] {
        for (later, answer) in [(0, "ok"), (3, "refused 3"), (4, "refused 4")] {
            assert!(answers.contains(&(length, answer.to_string(), later)), "{length} {later}");
            let wide = (length, "refused 19".to_string(), later);
            assert_eq!(answers.contains(&wide), length > 3, "{length} {later}");
        }
    }
}

/// Each command is cut off behind each of its bytes.
#[test]
fn sets_are_cut_off_at_each_place() {
    let mut seen = BTreeSet::new();
    for session in all().iter().filter(|session| session.name.starts_with("short-cut-")) {
        let rest = left(&session.bytes);
        if let Some(&first) = rest.first() {
            assert_eq!(answers(session).last().map(String::as_str), Some("refused 2"));
            seen.insert((first, rest.len()));
        }
    }
    for (byte, lengths) in [(0x11, 1..=2), (0x12, 1..=5), (0x01, 1..=9)] {
        for length in lengths {
            assert!(seen.contains(&(byte, length)), "{byte:02X} {length}");
        }
    }
}

/// Every command and every way to stop comes right after refusal 19. A step back there
/// is obeyed, or refused since nothing is listed.
#[test]
fn everything_comes_after_19() {
    let mut seen = BTreeSet::new();
    for list in ours() {
        for two in list.windows(2) {
            if two[0].1 == "refused 19" {
                let name = match two[1].0 {
                    Parsed::Command(Command::Set { .. }, _) => "set",
                    Parsed::Command(Command::Level(_), _) => "level",
                    Parsed::Command(Command::Access { .. }, _) => "access",
                    Parsed::Command(Command::Read { .. }, _) => "external read",
                    Parsed::Command(Command::Write { .. }, _) => "external write",
                    Parsed::Command(Command::Tick { .. }, _) => "tick",
                    Parsed::Command(Command::Back, _) => "step back",
                    Parsed::Command(..) => "end or member",
                    Parsed::TooWide(..) => "too wide",
                    Parsed::Unknown => "unknown",
                    Parsed::Cut => "cut",
                };
                seen.insert((name, kind(&two[1].1)));
            }
        }
    }
    for one in [
        ("set", "ok"),
        ("set", "refused 3"),
        ("set", "refused 4"),
        ("level", "ok"),
        ("access", "value"),
        ("external read", "value"),
        ("external write", "ok"),
        ("tick", "ok"),
        ("step back", "ok"),
        ("step back", "refused 18"),
        ("end or member", "end"),
        ("too wide", "refused 19"),
        ("unknown", "refused 1"),
        ("cut", "refused 2"),
    ] {
        assert!(seen.contains(&(one.0, one.1.to_string())), "{one:?} {seen:?}");
    }
}

/// MODEL Z1 and R6: each length beside the limit in both forms, with the end command as the
/// last byte and before that.
#[test]
fn every_length_is_there() {
    let mut seen = BTreeSet::new();
    for session in all() {
        let (form, body) = split(&session.bytes);
        seen.insert((form, body.len(), left(&session.bytes).is_empty()));
    }
    for length in [LIMIT - 1, LIMIT, LIMIT + 1] {
        for whole in [true, false] {
            assert!(seen.contains(&(Form::Short, length, whole)), "{length} {whole}");
        }
        assert!(length < LIMIT || seen.contains(&(Form::Long, length, true)), "{length}");
    }
}
