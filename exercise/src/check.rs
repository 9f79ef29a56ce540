//! What `exercise check` does: the answers of a run beside those that the text expects.

use crate::expected::Expected;
use crate::fault::cut;
use crate::run::Run;
use crate::show::ENDS;
use crate::tables::commands::END;
use crate::text::{Fate, Row, Text};
use crate::words::words;

/// An answer that is not the expected one.
pub struct Difference {
    number: usize,
    line: String,
    expected: String,
    answered: String,
}

impl Difference {
    pub fn shown(&self, file: &str) -> String {
        let Difference { number, line, expected, answered } = self;
        format!("{file}:{number}: {line}\n    expected: {expected}\n    answered: {answered}\n")
    }
}

/// How many answers are as expected, and those that are not.
pub fn check(text: &Text, run: &Run) -> (usize, Vec<Difference>) {
    let mut same = 0;
    let mut different = Vec::new();
    for (index, row) in text.rows.iter().enumerate() {
        let behind = run.behind.iter().filter(|_| index == text.closing);
        let own = run.answers[index].len();
        let answers: Vec<&String> = run.answers[index].iter().chain(behind).collect();
        let wanted = wanted(text, row);
        for at in 0..answers.len().max(wanted.len()) {
            let (expected, answer) = (wanted.get(at), answers.get(at));
            if matches!((expected, answer), (Some(expected), Some(answer)) if expected.is(answer)) {
                same += 1;
                continue;
            }
            let is_behind = at >= own && answer.is_some();
            let line = if is_behind { ENDS.to_string() } else { cut(row.shown.trim()) };
            let expected = expected.map_or("nothing".to_string(), Wanted::text);
            let answered = answer.map_or("nothing".to_string(), |answer| said(answer));
            different.push(Difference { number: row.number, line, expected, answered });
        }
    }
    (same, different)
}

/// What a line expects.
enum Wanted<'a> {
    Said(&'a Expected),
    /// Nothing is said: `ok`, or `end` for the end command.
    Usual(&'static str),
}

impl Wanted<'_> {
    fn is(&self, answer: &str) -> bool {
        match self {
            Wanted::Said(expected) => expected.is(answer),
            Wanted::Usual(usual) => *usual == answer,
        }
    }

    fn text(&self) -> String {
        match self {
            Wanted::Said(expected) => expected.text(),
            Wanted::Usual(usual) => format!("{usual} (there is no #>)"),
        }
    }
}

fn wanted<'a>(text: &Text, row: &'a Row) -> Vec<Wanted<'a>> {
    if !row.expected.is_empty() {
        return row.expected.iter().filter(|e| !e.is_nothing()).map(Wanted::Said).collect();
    }
    let usual = |at: usize| Wanted::Usual(if text.bytes[at] == END { "end" } else { "ok" });
    match &row.fate {
        Fate::Silent | Fate::NotRun => Vec::new(),
        Fate::Commands(pieces) => {
            text.pieces[pieces.clone()].iter().map(|p| usual(p.start)).collect()
        }
        Fate::Inside | Fate::NotRead => vec![usual(row.bytes.start)],
    }
}

/// An answer as a line has it, and in words where these say more.
fn said(answer: &str) -> String {
    let words = words(answer);
    match answer.contains(' ') {
        true if words.starts_with(answer) => words,
        true => format!("{answer} ({words})"),
        false => answer.to_string(),
    }
}
