//! A command by its name, and the name of a command: `set PMUSERENR.EN 1`.

use crate::fault::{Error, Fault, Span};
use crate::instruction;
use crate::line::{Cursor, Token};
use crate::names::{Found, Names};
use crate::near::meant_of;
use crate::number::{digits, fixed, hexadecimal, largest, mask, printed};
use crate::session::{bytes_of, shortest};
use crate::tables::commands::{
    Command, Operand, ACCESS, BYTES_WORD, COMMANDS, MRS, MSR, SHORT_WORD,
};
use crate::tables::fields::field as field_row;

/// The word that says that a tick is not counted.
const PROHIBITED: &str = "prohibited";

/// The bytes of a command. What follows it is an error.
pub fn parse(names: &Names, cursor: &mut Cursor, short: bool) -> Result<Vec<u8>, Fault> {
    let (name, operands) = match cursor.peek() {
        Some(first) if instruction::is_mnemonic(&first) => {
            (ACCESS, access(instruction::parse(names, cursor)?))
        }
        _ => by_name(names, cursor)?,
    };
    cursor.done()?;
    let command =
        shortest(name, &operands, short).expect("the widest of a name holds any operands");
    Ok(bytes_of(command, &operands))
}

fn access((word, operand): (u32, u64)) -> Vec<u64> {
    vec![u64::from(word), operand]
}

fn by_name(names: &Names, cursor: &mut Cursor) -> Result<(&'static str, Vec<u64>), Fault> {
    let word = cursor.take("the command")?;
    // of those with one name the last holds the largest operands
    let command = COMMANDS.iter().rev().find(|c| word.is(c.name)).ok_or_else(|| unknown(&word))?;
    if command.operands.first() == Some(&Operand::Word) {
        return Ok((command.name, access(instruction::parse_word(cursor)?)));
    }
    let operand = |o: &Operand| operand(names, cursor, *o);
    Ok((command.name, command.operands.iter().map(operand).collect::<Result<_, Fault>>()?))
}

fn unknown(word: &Token) -> Fault {
    let mut known: Vec<&str> = COMMANDS.iter().map(|c| c.name).collect();
    known.extend([MRS, MSR, SHORT_WORD, BYTES_WORD]);
    let error = Error::NoCommand { word: word.text.to_string() };
    Fault::error(error, word.span).with(meant_of(word.text, &known))
}

fn operand(names: &Names, cursor: &mut Cursor, operand: Operand) -> Result<u64, Fault> {
    let size = operand.size();
    match operand {
        Operand::Level => level(&cursor.take("the level")?, size),
        Operand::Draw => cursor.take("the draw")?.number("the draw", size),
        Operand::Value(_) => {
            cursor.passes("=");
            cursor.take("the value")?.number("the value", size)
        }
        Operand::Prohibited => prohibited(cursor),
        Operand::Offset => offset(names, cursor),
        Operand::Field => field(names, cursor).map(u64::from),
        Operand::Word => unreachable!("a word is read as an instruction"),
    }
}

/// A level is a number, or `EL0` and its like.
fn level(token: &Token, size: usize) -> Result<u64, Fault> {
    let found = (0..=3).find(|level| token.is(&format!("EL{level}")));
    found.map_or_else(|| token.number("the level", size), Ok)
}

fn prohibited(cursor: &mut Cursor) -> Result<u64, Fault> {
    if cursor.passes(PROHIBITED) {
        return Ok(1);
    }
    let hint = cursor.peek().map_or(String::new(), |next| meant_of(next.text, &[PROHIBITED]));
    cursor.done().map(|()| 0).map_err(|fault| fault.with(hint))
}

/// An offset is hexadecimal, with 0x or without it, or the name of the register there.
fn offset(names: &Names, cursor: &mut Cursor) -> Result<u64, Fault> {
    let token = cursor.take("the offset")?;
    let largest = largest(Operand::Offset.size());
    let word = token.text.to_string();
    let error = match digits(hexadecimal(token.text).unwrap_or(token.text), 16) {
        Some(Some(offset)) if offset <= largest => return Ok(offset),
        Some(_) => {
            Error::TooLarge { what: "the offset", most: format!("{largest:X}, in hexadecimal") }
        }
        None => match names.external(token.text) {
            Found::One(offset) => return Ok(u64::from(offset)),
            _ => Error::NoOffset { word },
        },
    };
    Err(Fault::error(error, token.span).with(names.external_hint(token.text)))
}

/// A field by as many words as are its name, else by its number.
fn field(names: &Names, cursor: &mut Cursor) -> Result<u8, Fault> {
    let words = cursor.rest().iter().take(names.words).take_while(|token| !token.is("=")).count();
    for count in (1..=words).rev() {
        let tokens = &cursor.rest()[..count];
        let word = tokens.iter().map(|token| token.text).collect::<Vec<_>>().join(" ");
        match names.field(&word) {
            Found::One(number) => {
                cursor.several(count);
                return Ok(number);
            }
            Found::Many(several) => {
                let names = several.join("` and `");
                return Err(Fault::error(
                    Error::ManyFields { word, names },
                    cursor.several(count).span,
                ));
            }
            Found::None => {}
        }
    }
    let token = cursor.take("the field")?;
    if token.is("=") {
        return Err(Fault::error(Error::Missing { what: "the field" }, token.span));
    }
    let is_number = token.text.starts_with(|c: char| c.is_ascii_digit());
    match fixed(token.text, 2) {
        Some(number) => Ok(number as u8),
        None if is_number => {
            Err(Fault::error(Error::FieldNumber { word: token.text.to_string() }, token.span))
        }
        None => Err(no_field(names, token, cursor)),
    }
}

/// The words up to the first number are the name that is none, or as many of them as are like one.
fn no_field(names: &Names, first: Token, cursor: &mut Cursor) -> Fault {
    let is_number = |t: &Token| t.is("=") || t.text.starts_with(|c: char| c.is_ascii_digit());
    let more = cursor.rest().iter().take(names.words).take_while(|token| !is_number(token));
    let words: Vec<Token> = std::iter::once(first).chain(more.copied()).collect();
    let name = |count: usize| words[..count].iter().map(|t| t.text).collect::<Vec<_>>().join(" ");
    let like = |count: &usize| !names.field_hint(&name(*count)).is_empty();
    let count = (1..=words.len()).rev().find(like).unwrap_or(words.len());
    let (word, span) =
        (name(count), Span { start: first.span.start, end: words[count - 1].span.end });
    let hint = names.field_hint(&word);
    Fault::error(Error::NoField { word }, span).with(hint)
}

/// A command as a text has it by name. Nothing where it has no such text: another flag than 0 or
/// 1, or more bytes than it needs.
pub fn text(names: &Names, command: &Command, operands: &[u64], short: bool) -> Option<String> {
    if shortest(command.name, operands, short)?.byte != command.byte {
        return None;
    }
    if let ([Operand::Word, ..], [word, operand]) = (command.operands, operands) {
        return Some(instruction::text(names, *word as u32, *operand));
    }
    let mut text = command.name.to_string();
    for (operand, &value) in command.operands.iter().zip(operands) {
        let word = match operand {
            Operand::Prohibited if value == 0 => continue,
            Operand::Prohibited if value == 1 => PROHIBITED.to_string(),
            Operand::Prohibited => return None,
            Operand::Field => {
                names.of_field(value as u8).map_or(format!("0x{value:02X}"), String::from)
            }
            Operand::Offset => format!("{value:03X}"),
            Operand::Value(_) if is_mask(operands[0], command) => mask(value),
            _ => printed(value),
        };
        text.push_str(&format!(" {word}"));
    }
    Some(text)
}

/// Whether the value of a command is one of bits: all but those of fields that are none.
fn is_mask(first: u64, command: &Command) -> bool {
    command.operands[0] != Operand::Field || field_row(first as u8).map_or(false, |f| f.mask)
}
