//! The bytes of a session as the model reads them: where each command begins, and its operands.

use crate::number::largest;
use crate::tables::commands::{command, Command, COMMANDS, END, LIMIT, SHORT};

/// What a piece of a session is.
#[derive(Clone, Copy)]
pub enum Kind {
    Command(&'static Command),
    /// MODEL R1: no command begins with its first byte.
    Unknown,
    /// MODEL R2: the bytes end inside a command, or where one should begin.
    Cut,
}

/// A command of a session, or where the reading stops.
#[derive(Clone, Copy)]
pub struct Piece {
    pub start: usize,
    pub end: usize,
    pub kind: Kind,
}

impl Piece {
    pub fn is_end(&self) -> bool {
        matches!(self.kind, Kind::Command(c) if c.byte == END)
    }
}

/// MODEL Z1: whether a session is in the short form.
pub fn is_short(bytes: &[u8]) -> bool {
    bytes.first() == Some(&SHORT)
}

/// MODEL R6 and Z1: how many bytes a session may have, the one before a short one too.
pub fn limit(bytes: &[u8]) -> usize {
    LIMIT + usize::from(is_short(bytes))
}

/// MODEL R6: whether a session is too long to be run.
pub fn is_long(bytes: &[u8]) -> bool {
    bytes.len() > limit(bytes)
}

/// MODEL S4: a piece for each line that is printed, if the session is not too long.
pub fn pieces(bytes: &[u8]) -> Vec<Piece> {
    let short = is_short(bytes);
    let mut list = Vec::new();
    let mut start = usize::from(short);
    loop {
        let rest = &bytes[start..];
        let (kind, size) = match rest.first().map(|&byte| command(byte, short)) {
            None => (Kind::Cut, 0),
            Some(None) => (Kind::Unknown, 1),
            Some(Some(found)) if found.size() > rest.len() => (Kind::Cut, rest.len()),
            Some(Some(found)) => (Kind::Command(found), found.size()),
        };
        let piece = Piece { start, end: start + size, kind };
        list.push(piece);
        if piece.is_end() || !matches!(kind, Kind::Command(_)) {
            return list;
        }
        start = piece.end;
    }
}

/// The operands of a whole command, MODEL S7.
pub fn operands(command: &Command, bytes: &[u8]) -> Vec<u64> {
    let mut at = 1;
    let mut list = Vec::new();
    for operand in command.operands {
        let part = &bytes[at..at + operand.size()];
        list.push(part.iter().rev().fold(0, |sum, &byte| sum << 8 | u64::from(byte)));
        at += operand.size();
    }
    list
}

/// A command with its operands as bytes, MODEL S7.
pub fn bytes_of(command: &Command, operands: &[u64]) -> Vec<u8> {
    let mut bytes = vec![command.byte];
    for (operand, value) in command.operands.iter().zip(operands) {
        bytes.extend(&value.to_le_bytes()[..operand.size()]);
    }
    bytes
}

/// MODEL Z3: the shortest command of a name that holds these operands.
pub fn shortest(name: &str, operands: &[u64], short: bool) -> Option<&'static Command> {
    let holds = |c: &Command| c.operands.iter().zip(operands).all(|(o, v)| *v <= largest(o.size()));
    COMMANDS.iter().find(|c| c.name == name && c.is_in(short) && holds(c))
}

/// MODEL Z4: the short form of a long session that comes to its end, however long it is. The proved
/// conversion asks for one that can be run.
pub fn shortened(bytes: &[u8]) -> Option<Vec<u8>> {
    let pieces = pieces(bytes);
    let mut short = vec![SHORT];
    for piece in &pieces {
        match piece.kind {
            Kind::Command(command) => {
                let values = operands(command, &bytes[piece.start..piece.end]);
                short.extend(bytes_of(shortest(command.name, &values, true)?, &values));
            }
            Kind::Unknown | Kind::Cut => return None,
        }
    }
    Some(short)
}
