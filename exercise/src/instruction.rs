//! MODEL W1 to W6, W8 and W12: instructions as a text has them, and their words.

use crate::fault::{Error, Fault};
use crate::line::{Cursor, Token};
use crate::names::{Found, Names};
use crate::number::{fixed, mask};
use crate::tables::commands::{ACCESS, MRS, MSR};
use crate::tables::registers::Place;

/// A word that moves a system register.
struct Move {
    read: bool,
    place: Place,
    rt: u8,
}

/// MODEL W1: what the bits that every such word has are.
const FIXED: u32 = 0x354 << 22 | 1 << 20;
const FIXED_BITS: u32 = 0x3FF << 22 | 1 << 20;

impl Move {
    fn word(&self) -> u32 {
        let p = self.place;
        let parts =
            [(p.op0 - 2, 19), (p.op1, 16), (p.crn, 12), (p.crm, 8), (p.op2, 5), (self.rt, 0)];
        let placed = parts.iter().fold(0, |sum, &(part, low)| sum | u32::from(part) << low);
        FIXED | u32::from(self.read) << 21 | placed
    }

    fn new(word: u32) -> Option<Move> {
        if word & FIXED_BITS != FIXED {
            return None;
        }
        let part = |low: u32, bits: u32| (word >> low & ((1 << bits) - 1)) as u8;
        let (op0, op1) = (2 + part(19, 1), part(16, 3));
        let place = Place { op0, op1, crn: part(12, 4), crm: part(8, 4), op2: part(5, 3) };
        Some(Move { read: part(21, 1) == 1, place, rt: part(0, 5) })
    }
}

/// XZR, with which MSR writes 0.
const XZR: u8 = 31;

fn xt(rt: u8) -> String {
    match rt {
        XZR => "xzr".to_string(),
        rt => format!("x{rt}"),
    }
}

/// Whether a word begins an instruction.
pub fn is_mnemonic(token: &Token) -> bool {
    token.is(MRS) || token.is(MSR)
}

/// `mrs Xt, REGISTER`, `msr REGISTER, Xt = VALUE`: the word and the operand.
pub fn parse(names: &Names, cursor: &mut Cursor) -> Result<(u32, u64), Fault> {
    let read = cursor.take("the instruction")?.is(MRS);
    swapped(names, cursor, read)?;
    let (place, rt) = if read {
        let rt = register_xt(cursor)?;
        comma(cursor)?;
        (register(names, cursor)?, rt)
    } else {
        let place = register(names, cursor)?;
        comma(cursor)?;
        (place, register_xt(cursor)?)
    };
    let needed = !read && rt != XZR;
    Ok((Move { read, place, rt }.word(), operand(cursor, needed)?))
}

/// Whether Xt and the register stand in each other's place.
fn swapped(names: &Names, cursor: &mut Cursor, read: bool) -> Result<(), Fault> {
    let (first, second) = match cursor.rest() {
        [first, comma, second, ..] if comma.is(",") => (*first, *second),
        _ => return Ok(()),
    };
    let (xt, register, right) = match read {
        true => (second, first, "mrs x0, REGISTER"),
        false => (first, second, "msr REGISTER, x0 = VALUE"),
    };
    let is_register = matches!(names.register(register.text), Found::One(_));
    match number_of_xt(&xt).is_some() && is_register {
        true => Err(Fault::error(Error::Order { right }, cursor.several(3).span)),
        false => Ok(()),
    }
}

/// `access WORD = VALUE`, any word.
pub fn parse_word(cursor: &mut Cursor) -> Result<(u32, u64), Fault> {
    let token = cursor.take("the word")?;
    match fixed(token.text, 8) {
        Some(word) => Ok((word as u32, operand(cursor, false)?)),
        None => Err(Fault::error(Error::NoWord { word: token.text.to_string() }, token.span)),
    }
}

/// `= VALUE`: what Xt holds, 0 where it may be left out.
fn operand(cursor: &mut Cursor, needed: bool) -> Result<u64, Fault> {
    if cursor.passes("=") {
        return cursor.take("the value")?.number("the value", 8);
    }
    match cursor.peek() {
        Some(next) if next.is(",") || next.number("", 8).is_ok() => {
            Err(Fault::error(Error::NoEquals {}, next.span))
        }
        None if needed => Err(Fault::error(Error::NoValue {}, cursor.behind())),
        _ => Ok(0),
    }
}

fn comma(cursor: &mut Cursor) -> Result<(), Fault> {
    match cursor.peek() {
        Some(next) if !next.is(",") => Err(Fault::error(Error::NoComma {}, next.span)),
        _ => cursor.take("a comma and what follows it").map(|_| ()),
    }
}

fn number_of_xt(token: &Token) -> Option<u8> {
    if token.is(&xt(XZR)) {
        return Some(XZR);
    }
    let number: u8 = token.text.strip_prefix(['x', 'X'])?.parse().ok()?;
    // leading zeros and signs are not taken, nor is x31
    token.is(&xt(number)).then_some(number)
}

fn register_xt(cursor: &mut Cursor) -> Result<u8, Fault> {
    let token = cursor.take("the register Xt")?;
    let error = || Fault::error(Error::NoXt { word: token.text.to_string() }, token.span);
    number_of_xt(&token).ok_or_else(error)
}

fn register(names: &Names, cursor: &mut Cursor) -> Result<Place, Fault> {
    let token = cursor.take("the register")?;
    match names.register(token.text) {
        Found::One(place) => Ok(place),
        _ => {
            let error = Error::NoRegister { word: token.text.to_string() };
            Err(Fault::error(error, token.span).with(names.register_hint(token.text)))
        }
    }
}

/// An access as a text has it. What `= VALUE` says is left out where it may be and is 0.
pub fn text(names: &Names, word: u32, operand: u64) -> String {
    let value = |shown: bool| if shown { format!(" = {}", mask(operand)) } else { String::new() };
    match Move::new(word) {
        None => format!("{ACCESS} {word:08X}{}", value(operand != 0)),
        Some(Move { read: true, place, rt }) => {
            format!("{MRS} {}, {}{}", xt(rt), names.of_register(place), value(operand != 0))
        }
        Some(Move { read: false, place, rt }) => {
            let shown = rt != XZR || operand != 0;
            format!("{MSR} {}, {}{}", names.of_register(place), xt(rt), value(shown))
        }
    }
}
