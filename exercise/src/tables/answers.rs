//! The answers of a session's lines, word by word, table L of docs/MODEL.md. A later one is a row
//! here, and its words are kinds of `Part`.

use super::refusals::{cause, refusal};

/// A word behind the first of an answer.
#[derive(Clone, Copy, Debug, PartialEq, Eq)]
pub enum Part {
    /// The level that takes a trap.
    Target,
    /// A syndrome, 8 digits.
    Syndrome,
    /// The number of a cause.
    Cause,
    /// What was read, 16 digits.
    Value,
    /// The number of Xt. It is missing for a read from outside.
    Xt,
    /// The number of a refusal.
    Refusal,
}

impl Part {
    /// How many hexadecimal digits it has, where it is not decimal.
    pub fn digits(self) -> Option<usize> {
        match self {
            Part::Syndrome => Some(8),
            Part::Value => Some(16),
            _ => None,
        }
    }

    /// Whether a decimal one can be that number.
    pub fn holds(self, number: u64) -> bool {
        match self {
            Part::Target => (1..=3).contains(&number),
            Part::Cause => cause(number).is_some(),
            Part::Xt => number <= 31,
            Part::Refusal => refusal(number).is_some(),
            Part::Syndrome | Part::Value => true,
        }
    }

    /// What it is called.
    pub fn name(self) -> &'static str {
        match self {
            Part::Target => "the level that takes the trap, 1 to 3",
            Part::Syndrome => "the syndrome, 8 digits or 0x and a number",
            Part::Cause => "the number of the cause (`exercise causes`)",
            Part::Value => "the value, 16 digits or 0x and a number",
            Part::Xt => "the number of the register Xt, 0 to 31",
            Part::Refusal => "the number of the refusal (`exercise refusals`)",
        }
    }
}

pub struct Answer {
    pub word: &'static str,
    pub parts: &'static [Part],
    pub means: &'static str,
}

const fn row(word: &'static str, parts: &'static [Part], means: &'static str) -> Answer {
    Answer { word, parts, means }
}

pub const ANSWERS: &[Answer] = &[
    row("ok", &[], "ok"),
    row("sampled", &[], "sampled: the member is selected"),
    row("end", &[], "end"),
    row("undef", &[], "undefined"),
    row("other", &[], "other: no register of the model"),
    row("error", &[], "error: the access from outside fails"),
    row("trap", &[Part::Target, Part::Syndrome, Part::Cause], "trap"),
    row("value", &[Part::Value, Part::Xt], "value"),
    row("refused", &[Part::Refusal], "refused"),
];

/// The answer that a word begins.
pub fn answer(word: &str) -> Option<&'static Answer> {
    ANSWERS.iter().find(|a| a.word == word)
}
