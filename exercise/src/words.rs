//! An answer in words.

use crate::tables::answers::{answer, Part};
use crate::tables::refusals::{cause, refusal};

/// `trap 2 623AF851 4` is `trap to EL2, syndrome 623AF851, cause 4: MDCR_EL2.HPMN`.
pub fn words(text: &str) -> String {
    let mut list = text.split(' ');
    let row = match answer(list.next().unwrap_or("")) {
        Some(row) if !row.parts.is_empty() => row,
        Some(row) => return row.means.to_string(),
        None => return text.to_string(),
    };
    let parts: Vec<(Part, &str)> = row.parts.iter().copied().zip(list).collect();
    match parts[..] {
        [(Part::Value, value), (Part::Xt, "31")] => format!("xzr = {}", both(value)),
        [(Part::Value, value), (Part::Xt, xt)] => format!("x{xt} = {}", both(value)),
        [(Part::Value, value)] => format!("value {}", both(value)),
        _ => format!("{}{}", row.means, parts.iter().map(part).collect::<Vec<_>>().join(",")),
    }
}

/// What to do about a refusal.
pub fn remedy(text: &str) -> &'static str {
    let number = text.split(' ').nth(1).and_then(|number| number.parse().ok());
    number.and_then(refusal).map_or("", |refusal| refusal.remedy)
}

fn part(&(part, text): &(Part, &str)) -> String {
    let number = text.parse().unwrap_or(0);
    match part {
        Part::Target => format!(" to EL{text}"),
        Part::Syndrome => format!(" syndrome {text}"),
        Part::Cause => format!(" cause {text}: {}", cause(number).map_or("", |c| c.control)),
        Part::Refusal => format!(" {text}: {}", refusal(number).map_or("", |r| r.means)),
        Part::Value | Part::Xt => format!(" {text}"),
    }
}

/// Hexadecimal digits as a number in both ways, where they differ.
fn both(digits: &str) -> String {
    match u64::from_str_radix(digits, 16) {
        Ok(number @ 0..=9) => number.to_string(),
        Ok(number) => format!("0x{number:X} ({number})"),
        Err(_) => digits.to_string(),
    }
}
