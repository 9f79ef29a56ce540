//! The answer that a text expects: `#> trap 2 623AF851 4`. What it leaves out at its end is not
//! compared.

use crate::fault::{Error, Fault, Span};
use crate::line::{Cursor, Token};
use crate::near::meant_of;
use crate::number::{digits, fixed};
use crate::tables::answers::{answer, Part, ANSWERS};

/// That no answer is given.
const NOTHING: &str = "nothing";

#[derive(Clone, Debug, PartialEq, Eq)]
pub struct Expected {
    /// In the words of a session's line.
    words: Vec<String>,
    /// The line of the text that it stands on, from 1, and where.
    pub number: usize,
    pub span: Span,
}

impl Expected {
    pub fn is_nothing(&self) -> bool {
        self.words == [NOTHING]
    }

    /// Whether an answer is the expected one.
    pub fn is(&self, answer: &str) -> bool {
        let words: Vec<&str> = answer.split(' ').collect();
        words.len() >= self.words.len() && self.words.iter().zip(words).all(|(a, b)| a == b)
    }

    pub fn text(&self) -> String {
        self.words.join(" ")
    }

    /// The words behind `#>`.
    pub fn parse(cursor: &mut Cursor, number: usize) -> Result<Expected, Fault> {
        let words = parse_words(cursor)?;
        Ok(Expected { words, number, span: cursor.whole() })
    }
}

fn parse_words(cursor: &mut Cursor) -> Result<Vec<String>, Fault> {
    let first = cursor.take("the answer that is expected")?;
    let word = first.text.to_lowercase();
    if word == NOTHING {
        let alone = cursor.done().map_err(|fault| Fault::error(Error::Nothing {}, fault.span));
        return alone.map(|()| vec![word]);
    }
    let row = answer(&word).ok_or_else(|| unknown(&first))?;
    let mut words = vec![word];
    for &part in row.parts {
        match cursor.peek() {
            None => break,
            Some(token) => words.push(part_of(part, &token)?),
        }
        cursor.several(1);
    }
    let word = row.word;
    cursor.done().map_err(|fault| Fault::error(Error::ManyParts { word }, fault.span))?;
    Ok(words)
}

fn unknown(word: &Token) -> Fault {
    let mut known: Vec<&str> = ANSWERS.iter().map(|a| a.word).collect();
    known.push(NOTHING);
    let hint = match meant_of(word.text, &known) {
        none if none.is_empty() => format!("there are {}", known.join(", ")),
        hint => hint,
    };
    Fault::error(Error::NoAnswer { word: word.text.to_string() }, word.span).with(hint)
}

/// One word of an answer as a session prints it.
fn part_of(part: Part, token: &Token) -> Result<String, Fault> {
    let text = match part.digits() {
        Some(count) => fixed(token.text, count).map(|number| format!("{number:0count$X}")),
        None => {
            let number = digits(token.text, 10).flatten().filter(|n| part.holds(*n));
            number.map(|number| number.to_string())
        }
    };
    text.ok_or_else(|| Fault::error(Error::NoPart { what: part.name() }, token.span))
}
