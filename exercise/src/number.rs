//! Numbers in a text: decimal, or 0x and hexadecimal.

use crate::fault::Error;

/// The largest number of so many bytes.
pub fn largest(size: usize) -> u64 {
    match size {
        8 => u64::MAX,
        size => (1 << (8 * size)) - 1,
    }
}

/// Digits alone: no sign, not empty. Where they are too large for 64 bits, nothing inside.
pub fn digits(text: &str, radix: u32) -> Option<Option<u64>> {
    if text.is_empty() || !text.chars().all(|c| c.is_digit(radix)) {
        return None;
    }
    Some(u64::from_str_radix(text, radix).ok())
}

/// What stands behind 0x.
pub fn hexadecimal(text: &str) -> Option<&str> {
    text.strip_prefix("0x").or_else(|| text.strip_prefix("0X"))
}

/// A hexadecimal number of so many digits: all of them, or 0x and as many as it needs.
pub fn fixed(text: &str, count: usize) -> Option<u64> {
    let number = match hexadecimal(text) {
        Some(rest) => digits(rest, 16)??,
        None => digits(text, 16).filter(|_| text.len() == count)??,
    };
    (format!("{number:X}").len() <= count).then_some(number)
}

/// A number that so many bytes hold. `what` is what it is the number of.
pub fn number(text: &str, what: &'static str, size: usize) -> Result<u64, Error> {
    let found = match hexadecimal(text) {
        Some(rest) => digits(rest, 16),
        None => digits(text, 10),
    };
    let largest = largest(size);
    match found {
        None => Err(Error::NoNumber { word: text.to_string() }),
        Some(Some(number)) if number <= largest => Ok(number),
        Some(_) => Err(Error::TooLarge { what, most: largest.to_string() }),
    }
}

/// A number as a text has it: decimal, and large ones with 0x.
pub fn printed(number: u64) -> String {
    match number {
        0..=9999 => number.to_string(),
        _ => format!("0x{number:X}"),
    }
}

/// A number whose bits are looked at.
pub fn mask(number: u64) -> String {
    match number {
        0..=9 => number.to_string(),
        _ => format!("0x{number:X}"),
    }
}
