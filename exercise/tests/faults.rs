//! Every error and warning: its place, its words and what it proposes.

use exercise::fault::{Error, Fault, Problem, Warning};
use exercise::names::Names;
use exercise::text::Text;
use std::collections::BTreeSet;

/// The texts of faults.txt, and for each of their errors and warnings the line, the column, how many
/// are marked, and the reason.
fn faults() -> Vec<(Vec<u8>, Vec<String>)> {
    let mut list: Vec<(Vec<u8>, Vec<String>)> = Vec::new();
    for line in include_str!("faults.txt").lines().filter(|l| !l.is_empty() && !l.starts_with("# "))
    {
        match (line.strip_prefix("> "), list.last_mut()) {
            (Some(text), _) => list.push((unescaped(text), Vec::new())),
            (None, Some((_, expected))) => expected.push(line.to_string()),
            (None, None) => panic!("no text stands before {line}"),
        }
    }
    list
}

fn unescaped(text: &str) -> Vec<u8> {
    let mut bytes = Vec::new();
    let mut rest = text.bytes();
    while let Some(byte) = rest.next() {
        bytes.push(match (byte, byte == b'\\') {
            (_, true) => match rest.next() {
                Some(b'n') => b'\n',
                Some(b'r') => b'\r',
                Some(b't') => b'\t',
                Some(b'0') => 0,
                Some(b'x') => {
                    let digits: Vec<u8> = rest.by_ref().take(2).collect();
                    let digits = String::from_utf8(digits).expect("digits");
                    u8::from_str_radix(&digits, 16).expect("two digits")
                }
                other => panic!("no such escape: {other:?}"),
            },
            (byte, false) => byte,
        });
    }
    bytes
}

/// 1,365 reads and an end are 4,096 bytes, and a tick before the end is two more.
fn long_text() -> String {
    format!("{}tick\nend\n", "read C00\n".repeat(1365))
}

const LONG: &str = "1366:1+4: warning: this passes 4,096 bytes, and none of the session is run: \
                    the model answers `refused 6`";

/// A fault as it is shown, with the marks counted, and the marks under the place.
fn told(fault: &Fault, number: usize, source: &str) -> String {
    let shown = fault.shown("file", number, source);
    let lines: Vec<&str> = shown.lines().collect();
    let marks = lines[2].trim();
    assert!(lines.len() == 3 && marks.chars().all(|c| c == '^'), "{shown}");
    assert!(lines[0].starts_with(&format!("file:{number}:")), "{shown}");
    let (place, reason) = lines[0]["file:".len()..].split_once(": ").expect("a place");
    format!("{place}+{}: {reason}", marks.len())
}

fn all(text: &Text) -> Vec<String> {
    let of_row = |row| -> Vec<String> {
        let row: &exercise::text::Row = row;
        row.faults.iter().map(|fault| told(fault, row.number, &row.source)).collect()
    };
    text.rows.iter().flat_map(of_row).collect()
}

#[test]
fn every_kind_is_shown_with_its_place() {
    let names = Names::new();
    let mut seen = BTreeSet::new();
    let passed = (long_text().into_bytes(), vec![LONG.to_string()]);
    for (input, expected) in faults().into_iter().chain([passed]) {
        let text = Text::read(&names, &input);
        assert_eq!(
            all(&text),
            expected,
            "{}",
            String::from_utf8_lossy(&input[..input.len().min(80)])
        );
        seen.extend(text.rows.iter().flat_map(|row| &row.faults).map(
            |fault| match &fault.problem {
                Problem::Error(error) => error.kind(),
                Problem::Warning(warning) => warning.kind(),
            },
        ));
    }
    let kinds: BTreeSet<&str> = Error::KINDS.iter().chain(Warning::KINDS).copied().collect();
    assert_eq!(seen, kinds);
}

#[test]
fn the_line_is_shown_with_a_mark() {
    let names = Names::new();
    let text = Text::read(&names, "\tset\tPMUSERENR.ÊM 1 # é\n".as_bytes());
    let row = &text.rows[0];
    let shown = row.faults[0].shown("a.txt", row.number, &row.source);
    let lines = [
        "a.txt:1:6: no field is called `PMUSERENR.ÊM`; did you mean `PMUSERENR.EN`?",
        "            set     PMUSERENR.ÊM 1 # é",
        "                    ^^^^^^^^^^^^",
    ];
    assert_eq!(shown.lines().collect::<Vec<_>>(), lines);
}

/// Nothing that a terminal would take for an order is shown, and of a long line a part.
#[test]
fn control_characters_and_long_lines() {
    let names = Names::new();
    let long = format!("{} sett PMUv3 1 {}\n", " ".repeat(5_000), "1 ".repeat(5_000));
    for input in ["set \x1B[31mPMUv3 1\n\x00\n", &long] {
        let text = Text::read(&names, input.as_bytes());
        let faults = text.rows.iter().flat_map(|row| row.faults.iter().map(move |f| (row, f)));
        for (row, fault) in faults {
            let shown = fault.shown("a.txt", row.number, &row.source);
            for line in shown.lines() {
                assert!(!line.chars().any(char::is_control), "{line:?}");
                assert!(line.chars().count() < 250, "{line}");
            }
            let lines: Vec<&str> = shown.lines().collect();
            let mark = lines[2].find('^').expect("a mark");
            let marked: String = lines[1].chars().skip(mark).take(4).collect();
            assert!(input.contains('\x1B') || marked == "sett", "{marked}");
        }
    }
}
