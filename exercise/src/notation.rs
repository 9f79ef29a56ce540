//! Bytes in a text: two hexadecimal digits each, and `v:` with a number for 8 of them.

use crate::fault::{Error, Fault, Span};
use crate::line::{Cursor, Token};
use crate::number::printed;
use crate::tables::commands::{command, Command, Operand, SHORT};

/// Whether a line is in bytes: it begins with a digit, or with a byte.
pub fn is_notation(first: &Token) -> bool {
    first.text.starts_with(|c: char| c.is_ascii_digit()) || byte(first).is_some()
}

fn byte(token: &Token) -> Option<u8> {
    let two = token.text.len() == 2 && token.text.chars().all(|c| c.is_ascii_hexdigit());
    two.then(|| u8::from_str_radix(token.text, 16).ok()).flatten()
}

/// The bytes of one word.
fn bytes_of(token: &Token) -> Result<Vec<u8>, Fault> {
    let value = token.text.strip_prefix("v:").or_else(|| token.text.strip_prefix("V:"));
    match (value, byte(token)) {
        (Some(""), _) => Err(Fault::error(Error::Missing { what: "the value" }, token.span)),
        (Some(text), _) => {
            let value = Token { text, span: token.span }.number("the value", 8)?;
            Ok(value.to_le_bytes().to_vec())
        }
        (None, Some(byte)) => Ok(vec![byte]),
        (None, None) => {
            Err(Fault::error(Error::NoByte { word: token.text.to_string() }, token.span))
        }
    }
}

/// All words as bytes, whatever they are.
pub fn parse_any(cursor: &mut Cursor) -> Result<Vec<u8>, Fault> {
    if cursor.rest().is_empty() {
        return Err(Fault::error(Error::NoBytes {}, cursor.behind()));
    }
    let mut bytes = Vec::new();
    while cursor.peek().is_some() {
        bytes.extend(bytes_of(&cursor.take("a byte")?)?);
    }
    Ok(bytes)
}

/// All words as the bytes of one whole command.
pub fn parse(cursor: &mut Cursor, short: bool) -> Result<Vec<u8>, Fault> {
    let first = cursor.take("a byte")?;
    let mut bytes = bytes_of(&first)?;
    let found = command(bytes[0], short).ok_or_else(|| no_command(&first, bytes[0]))?;
    let (name, wants) = (found.name, found.size());
    while let Some(next) = cursor.peek() {
        let more = bytes_of(&next)?;
        if bytes.len() + more.len() > wants {
            let span = Span { start: next.span.start, end: cursor.behind().end };
            return Err(Fault::error(Error::TooMany { name, wants }, span));
        }
        bytes.extend(more);
        cursor.several(1);
    }
    if bytes.len() < wants {
        let has = bytes.len();
        return Err(Fault::error(Error::TooFew { name, wants, has }, cursor.behind()));
    }
    Ok(bytes)
}

fn no_command(first: &Token, byte: u8) -> Fault {
    let error = match byte {
        SHORT => Error::NotFirst {},
        byte if command(byte, true).is_some() => Error::ShortOnly { byte },
        byte => Error::UnknownByte { byte },
    };
    Fault::error(error, first.span)
}

/// A command in bytes, its values of 8 bytes as numbers.
pub fn text(command: &Command, operands: &[u64]) -> String {
    let mut text = format!("{:02X}", command.byte);
    for (operand, value) in command.operands.iter().zip(operands) {
        match operand {
            Operand::Value(8) => text.push_str(&format!(" v:{}", printed(*value))),
            operand => {
                let bytes = &value.to_le_bytes()[..operand.size()];
                bytes.iter().for_each(|byte| text.push_str(&format!(" {byte:02X}")));
            }
        }
    }
    text
}
