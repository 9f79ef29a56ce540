//! The tables of the program are those of docs/MODEL.md, row by row.

use exercise::names::Names;
use exercise::tables::answers::{Part, ANSWERS};
use exercise::tables::commands::{COMMANDS, LIMIT, SHORT};
use exercise::tables::fields::FIELDS;
use exercise::tables::refusals::{CAUSES, REFUSALS};
use exercise::tables::registers::{EXTERNALS, REGISTERS};
use exercise::text::Text;
use std::collections::BTreeMap;

fn model() -> String {
    let path = concat!(env!("CARGO_MANIFEST_DIR"), "/../docs/MODEL.md");
    std::fs::read_to_string(path).expect("MODEL.md")
}

/// The rows of MODEL.md whose first cell is a clause that begins with these, as cells behind it.
fn rows(clauses: &[&str]) -> Vec<Vec<String>> {
    let mut rows = Vec::new();
    for line in model().lines().filter(|line| line.starts_with("| ")) {
        let cells: Vec<String> =
            line.trim_matches('|').split('|').map(|cell| cell.trim().replace('`', "")).collect();
        let clause = cells[0].trim_matches('*');
        let letters = clause.trim_end_matches(|c: char| c.is_ascii_digit());
        let numbered = letters != clause;
        if numbered && (clauses.contains(&clause) || clauses.contains(&letters)) {
            rows.push(cells[1..].to_vec());
        }
    }
    rows
}

fn hexadecimal(text: &str) -> u64 {
    u64::from_str_radix(text.trim_start_matches("0x"), 16).expect("hexadecimal")
}

/// The lowest and the highest of a range, in a base.
fn range(cell: &str, radix: u32) -> (u8, u8) {
    let ends: Vec<u8> =
        cell.split('–').map(|end| u8::from_str_radix(end, radix).expect("a number")).collect();
    (ends[0], ends[ends.len() - 1])
}

fn largest(cell: &str) -> u64 {
    match cell {
        "2^64 − 1" => u64::MAX,
        cell if cell.starts_with("0x") => hexadecimal(cell),
        cell => cell.parse().expect("a number"),
    }
}

#[test]
fn fields() {
    let mut model: Vec<(u8, u8, u64, String)> = Vec::new();
    for row in rows(&["F"]) {
        let (first, last) = range(&row[0], 16);
        let name = row[1].replace("0–30", "<m>");
        model.push((first, last - first + 1, largest(&row[2]), name));
        let field = FIELDS.iter().find(|f| f.number == first).expect("the field");
        let rest = row[3].strip_prefix(field.arm).expect(&row[3]);
        // three have no name in Arm's manual
        let named = !field.arm.is_empty() && (rest.is_empty() || rest.starts_with([',', ':', '<']));
        assert!(named || [0x0B, 0x83, 0x8B].contains(&first), "{}", row[3]);
    }
    model.sort();
    let ours: Vec<(u8, u8, u64, String)> =
        FIELDS.iter().map(|f| (f.number, f.count, f.largest, f.model.to_string())).collect();
    assert_eq!(ours, model);
    let masks: Vec<u8> = FIELDS.iter().filter(|f| f.mask).map(|f| f.number).collect();
    assert_eq!(masks, [0x32, 0x34, 0x37]);
}

#[test]
fn registers() {
    let mut model: Vec<(String, [(u8, u8); 5])> = Vec::new();
    for row in rows(&["W"]) {
        let name = row[5].split(',').next().expect("a name").to_string();
        model.push((name, [0, 1, 2, 3, 4].map(|at| range(&row[at], 10))));
    }
    let ours: Vec<(String, [(u8, u8); 5])> = REGISTERS
        .iter()
        .map(|r| {
            let (p, q) = (r.place, r.place.plus(r.count - 1));
            let parts = [(p.op0, q.op0), (p.op1, q.op1), (p.crn, q.crn), (p.crm, q.crm)];
            (r.name.to_string(), [parts[0], parts[1], parts[2], parts[3], (p.op2, q.op2)])
        })
        .collect();
    assert_eq!(ours, model);
}

#[test]
fn external_registers() {
    let text = model();
    let rows: Vec<&str> = text
        .lines()
        .skip_while(|line| !line.starts_with("| offset, in hexadecimal |"))
        .skip(2)
        .take_while(|line| line.starts_with("| "))
        .collect();
    let ours: Vec<String> =
        EXTERNALS.iter().map(|e| format!("| {:X} | {} |", e.offset, e.name)).collect();
    assert_eq!(ours, rows);
}

/// The sizes of operands, in brackets.
fn sizes(cell: &str) -> Vec<usize> {
    let size = |part: &str| part.split(' ').next().and_then(|size| size.parse().ok());
    cell.split('(').skip(1).filter_map(size).collect()
}

#[test]
fn commands() {
    let mut model: Vec<(u8, String, Vec<usize>, bool)> = Vec::new();
    for (clause, short) in [("S1", false), ("Z2", true)] {
        for row in rows(&[clause]) {
            model.push((hexadecimal(&row[0]) as u8, row[1].clone(), sizes(&row[2]), short));
        }
    }
    let mut ours: Vec<(u8, String, Vec<usize>, bool)> = COMMANDS
        .iter()
        .map(|c| {
            let sizes = c.operands.iter().map(|operand| operand.size()).collect();
            (c.byte, c.model.to_string(), sizes, c.short)
        })
        .collect();
    model.sort();
    ours.sort();
    assert_eq!(ours, model);
    assert_eq!((SHORT, LIMIT), (0x10, 4096));
}

#[test]
fn those_of_one_name_are_in_the_order_of_their_sizes() {
    for pair in COMMANDS.windows(2).filter(|pair| pair[0].name == pair[1].name) {
        assert!(pair[0].size() < pair[1].size());
    }
}

/// MODEL L1: an answer's words, and how many digits those have that are not decimal.
#[test]
fn answers() {
    let mut model: BTreeMap<String, Vec<Option<usize>>> = BTreeMap::new();
    for row in rows(&["L1"]) {
        let mut words = row[1].split(':').next().unwrap_or("").split(' ');
        let word = words.next().unwrap_or("").to_string();
        let parts = words.map(|part| Some(part.len()).filter(|length| *length > 1)).collect();
        let longest = model.entry(word).or_insert_with(Vec::new);
        *longest = std::mem::take(longest).max(parts);
    }
    let part = |part: &Part| part.digits();
    let ours: BTreeMap<String, Vec<Option<usize>>> =
        ANSWERS.iter().map(|a| (a.word.to_string(), a.parts.iter().map(part).collect())).collect();
    assert_eq!(ours, model);
}

/// What is said to be done can be done: each command between backticks is one.
#[test]
fn remedies_are_commands() {
    let names = Names::new();
    let said = REFUSALS.iter().map(|r| r.remedy).chain(CAUSES.iter().map(|c| c.opened));
    let mut commands = 0;
    for remedy in said {
        for command in remedy.split('`').skip(1).step_by(2).filter(|c| c.starts_with("set ")) {
            let text = Text::read(&names, format!("{command}\nend\n").as_bytes());
            let faults: Vec<_> = text.rows.iter().flat_map(|row| &row.faults).collect();
            assert!(faults.is_empty(), "{command}: {faults:?}");
            commands += 1;
        }
    }
    assert!(commands >= 15, "only {commands}");
}

/// The number of the field that a text sets by a name, if it is one's.
fn set(names: &Names, name: &str) -> Option<u8> {
    let text = Text::read(names, format!("set {name} 1\nend\n").as_bytes());
    (!text.has_errors()).then(|| text.bytes[1])
}

/// Every name of every field: Arm's and MODEL's, in any case, with each choice of the parts that may
/// be left out, and its number.
#[test]
fn names_of_fields() {
    let names = Names::new();
    let mut ambiguous = Vec::new();
    for field in FIELDS {
        for m in 0..field.count {
            let number = field.number + m;
            let of_row = [field.arm, field.model].map(|n| n.replace("<m>", &m.to_string()));
            let mut all: Vec<String> = of_row.into_iter().filter(|n| !n.is_empty()).collect();
            for part in ["FEAT_", "_EL0", "_EL1", "_EL2", "_EL3"] {
                let without: Vec<String> =
                    all.iter().map(|name| name.replacen(part, "", 1)).collect();
                all.extend(without);
            }
            all.extend([format!("{number:02X}"), format!("0x{number:X}")]);
            for name in all {
                for name in [name.to_lowercase(), name.to_uppercase(), name] {
                    match set(&names, &name) {
                        Some(found) => assert_eq!(found, number, "{name}"),
                        None => ambiguous.push(name),
                    }
                }
            }
        }
    }
    ambiguous.retain(|name| name.to_uppercase() != "MDCR.TPM");
    assert_eq!(ambiguous, Vec::<String>::new());
}

#[test]
fn refusals() {
    let model: Vec<u8> = rows(&["R"]).iter().map(|row| row[0].parse().expect("a number")).collect();
    let ours: Vec<u8> = REFUSALS.iter().map(|r| r.number).collect();
    assert_eq!(ours, model);
}

#[test]
fn causes() {
    let mut model: Vec<(u8, String)> = Vec::new();
    for row in rows(&["D"]) {
        let number = row[0].parse().expect("a number");
        if model.last().map_or(true, |(last, _)| *last != number) {
            model.push((number, row[1].clone()));
        }
    }
    assert_eq!(CAUSES.len(), model.len());
    for (cause, (number, control)) in CAUSES.iter().zip(&model) {
        assert_eq!(cause.number, *number);
        // the fine-grained bits are several
        assert!(cause.number == 2 || cause.control == control, "{control}");
    }
}
