//! Warnings: what the model will refuse of a text without errors, and what it will not read. What
//! the text expects itself is no warning.

use crate::expected::Expected;
use crate::fault::{Fault, Problem, Span, Warning};
use crate::line::{Cursor, Token};
use crate::names::Names;
use crate::notation::is_notation;
use crate::number::{mask, printed};
use crate::session::{is_long, operands, shortest, Piece};
use crate::tables::commands::{command as known, Command, Operand, BYTES_WORD};
use crate::tables::fields::{field, Unheld};
use crate::tables::registers::EXTERNALS;
use crate::text::{Fate, Row, Text};
use std::ops::Range;

/// Of a command: what is refused whatever the machine is like.
pub fn command(names: &Names, bytes: &[u8], cursor: &Cursor, short: bool) -> Option<Fault> {
    let tokens = &cursor.tokens;
    let command = known(bytes[0], short).filter(|c| c.size() == bytes.len())?;
    if tokens[0].is(BYTES_WORD) {
        return None;
    }
    let values = operands(command, bytes);
    if shortest(command.name, &values, short).map_or(false, |s| s.byte != command.byte) {
        return Some(Fault::warning(Warning::Wide {}, tokens[0].span));
    }
    // the first is enough: the model tests no further
    (0..values.len()).find_map(|index| {
        let warning = of_operand(names, command, &values, index)?;
        Some(Fault::warning(warning, place(tokens, command, index)))
    })
}

fn of_operand(names: &Names, command: &Command, values: &[u64], index: usize) -> Option<Warning> {
    let value = values[index];
    match command.operands[index] {
        Operand::Field if field(value as u8).is_none() => {
            Some(Warning::Unknown { number: value as u8 })
        }
        Operand::Value(_) if command.operands[0] == Operand::Field => {
            let row = field(values[0] as u8)?;
            let field = names.of_field(values[0] as u8)?.to_string();
            let number = |n: u64| if row.mask { mask(n) } else { printed(n) };
            row.refuses(value).map(|reason| match reason {
                Unheld::Above => {
                    Warning::Above { value: number(value), field, largest: number(row.largest) }
                }
                Unheld::NoBit(bit) => Warning::NoBit { field, bit },
            })
        }
        Operand::Level if value > 3 => Some(Warning::Level { level: value }),
        Operand::Prohibited if value > 1 => Some(Warning::Flag { flag: value }),
        Operand::Offset if EXTERNALS.iter().all(|e| u64::from(e.offset) != value) => {
            Some(Warning::Offset { offset: value })
        }
        _ => None,
    }
}

/// Where an operand stands. By name the last is the last word, and the first stands before it and
/// before `=`; in bytes it is the words that its bytes are of.
fn place(tokens: &[Token], command: &Command, index: usize) -> Span {
    let words = match is_notation(&tokens[0]) {
        true => words_of_bytes(tokens, command, index),
        false if index + 1 == command.operands.len() => tokens.len() - 1..tokens.len(),
        false => 1..tokens.len() - 1 - usize::from(tokens[tokens.len() - 2].is("=")),
    };
    Span { start: tokens[words.start].span.start, end: tokens[words.end - 1].span.end }
}

fn words_of_bytes(tokens: &[Token], command: &Command, index: usize) -> Range<usize> {
    let first = 1 + command.operands[..index].iter().map(|operand| operand.size()).sum::<usize>();
    let behind = first + command.operands[index].size();
    let mut at = 0;
    let mut words = tokens.len()..0;
    for (number, token) in tokens.iter().enumerate() {
        let size = if token.text.len() == 2 { 1 } else { 8 };
        if at < behind && at + size > first {
            words = words.start.min(number)..number + 1;
        }
        at += size;
    }
    words
}

/// Of the whole session. Warnings that the text expects, or that are of what is not read, are taken
/// away.
pub fn whole(text: &mut Text) {
    let (pieces, bytes) = (&text.pieces, &text.bytes);
    for row in &mut text.rows {
        let read = matches!(&row.fate, Fate::Commands(range) if pieces[range.start].start == row.bytes.start);
        if !read {
            row.faults.clear();
        }
        if !is_long(bytes) && is_inside(row, pieces) {
            row.faults.push(Fault::warning(Warning::Inside {}, row.code));
        }
    }
    let behind = text.rows.iter().position(|row| row.fate == Fate::NotRead);
    let (passing, closing) = (text.passing(), Some(text.closing).filter(|_| text.ends_early()));
    warn(text, behind, Warning::NotRead {});
    warn(text, passing, Warning::Long {});
    warn(text, closing, Warning::NoEnd {});
    for Row { faults, expected, .. } in &mut text.rows {
        faults.retain(|fault| !is_expected(&fault.problem, expected));
    }
}

fn warn(text: &mut Text, at: Option<usize>, warning: Warning) {
    if let Some(at) = at {
        let row = &mut text.rows[at];
        row.faults.push(Fault::warning(warning, row.code));
    }
}

/// The line begins inside a command.
fn is_inside(row: &Row, pieces: &[Piece]) -> bool {
    let before = pieces.partition_point(|piece| piece.start < row.bytes.start);
    !row.bytes.is_empty() && before > 0 && row.bytes.start < pieces[before - 1].end
}

/// A warning of what the text says itself: this answer, or that none is given. An offset of no
/// register answers `other`, or a state refusal before.
fn is_expected(problem: &Problem, expected: &[Expected]) -> bool {
    let says = |warning: &Warning, e: &Expected| match (warning, warning.answer()) {
        (Warning::Offset { .. }, _) => e.is("other") || e.text().starts_with("refused"),
        (_, Some(answer)) => e.is(answer),
        (_, None) => e.is_nothing(),
    };
    match problem {
        Problem::Error(_) => false,
        Problem::Warning(warning) => expected.iter().any(|e| says(warning, e)),
    }
}
