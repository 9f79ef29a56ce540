//! The tables as `exercise fields` and its like print them, within 80 columns.

use crate::names::printed as name_of;
use crate::number::printed;
use crate::tables::commands::{COMMANDS, LINES};
use crate::tables::fields::{Field, FIELDS};
use crate::tables::refusals::{CAUSES, REFUSALS};
use crate::tables::registers::{Register, EXTERNALS, REGISTERS};

/// Rows under a heading, their columns as wide as the widest.
fn table(heading: &[&str], rows: Vec<Vec<String>>) -> String {
    let heading: Vec<String> = heading.iter().map(|cell| cell.to_string()).collect();
    let rows: Vec<Vec<String>> = std::iter::once(heading).chain(rows).collect();
    let columns = rows.iter().map(Vec::len).max().unwrap_or(0);
    let cells = |at: usize| rows.iter().filter_map(move |row| row.get(at));
    let width = |at: usize| cells(at).map(|cell| cell.chars().count()).max().unwrap_or(0);
    let widths: Vec<usize> = (0..columns).map(width).collect();
    let line = |row: &Vec<String>| {
        let padded = row.iter().zip(&widths).map(|(cell, width)| format!("{cell:<width$}"));
        format!("{}\n", padded.collect::<Vec<_>>().join("  ").trim_end())
    };
    rows.iter().map(line).collect()
}

fn row(cells: &[&str]) -> Vec<String> {
    cells.iter().map(|cell| cell.to_string()).collect()
}

/// Fields by number, with the name that a text is printed with and another that it may have.
pub fn fields() -> String {
    let line = |f: &Field| {
        let last = f.number + f.count - 1;
        let number = match f.count {
            1 => format!("{:02X}", f.number),
            _ => format!("{:02X}-{last:02X}", f.number),
        };
        let name = name_of(f);
        // the full name of Arm's is not another
        let function = if f.arm.contains('(') { f.arm } else { "" };
        let other = [f.model, function].into_iter().find(|o| !o.is_empty() && *o != name);
        row(&[&number, &name, &printed(f.largest), other.unwrap_or("")])
    };
    let note = "Arm's names may have FEAT_ and _EL0 to _EL3 too. <m> is a counter, 0 to 30.\n";
    format!("{}{note}", table(&["no", "field", "largest", "or"], FIELDS.iter().map(line).collect()))
}

/// A number, or the first and the last of several.
fn range(first: u8, last: u8) -> String {
    match first == last {
        true => first.to_string(),
        false => format!("{first}-{last}"),
    }
}

/// Registers with the parts of their words, and those that are reached from outside.
pub fn registers() -> String {
    let line = |r: &Register| {
        let (p, q) = (r.place, r.place.plus(r.count - 1));
        let op2 = if p.crm == q.crm { range(p.op2, q.op2) } else { range(0, 7) };
        let parts =
            [range(p.op0, p.op0), range(p.op1, p.op1), range(p.crn, p.crn), range(p.crm, q.crm)];
        row(&[&r.name.to_lowercase(), &parts[0], &parts[1], &parts[2], &parts[3], &op2, r.is])
    };
    let heading = ["by mrs and msr", "op0", "op1", "CRn", "CRm", "op2", "is"];
    let by_word = table(&heading, REGISTERS.iter().map(line).collect());
    let others = EXTERNALS.iter().map(|e| row(&[e.name, &format!("{:X}", e.offset), e.is]));
    format!("{by_word}\n{}", table(&["by read and write", "offset", "is"], others.collect()))
}

/// Commands as they are written.
pub fn commands() -> String {
    let mut rows: Vec<Vec<String>> = Vec::new();
    for command in COMMANDS.iter().filter(|c| !c.short) {
        let byte = format!("{:02X}", command.byte);
        rows.extend(command.usage.iter().map(|(usage, does)| row(&[usage, &byte, does])));
    }
    rows.extend(LINES.iter().map(|(usage, byte, does)| row(&[usage, byte, does])));
    table(&["command", "byte", "does"], rows)
}

pub fn refusals() -> String {
    let lines = REFUSALS.iter().flat_map(|r| {
        [row(&[&r.number.to_string(), r.means]), row(&["", &format!("- {}", r.remedy)])]
    });
    table(&["no", "what it means, and what to do"], lines.collect())
}

pub fn causes() -> String {
    let lines = CAUSES.iter().map(|c| row(&[&c.number.to_string(), c.control, c.opened]));
    table(&["no", "control", "to open it"], lines.collect())
}
