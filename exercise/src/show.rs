//! What `exercise run` shows: each line of the text with its answer, beside it or below.

use crate::fault::plain;
use crate::run::Run;
use crate::text::{Fate, Row, Text};
use crate::words::words;

/// How wide it may be.
#[derive(Clone, Copy, Debug, PartialEq, Eq)]
pub enum Width {
    /// Answers beside the lines, however wide.
    Wide,
    /// Answers below the lines.
    Narrow,
    /// So many columns: beside where there is room.
    Columns(usize),
}

/// What is left for an answer in columns, at least.
const ROOM: usize = 35;

/// What a line has in columns, at least.
const LEAST: usize = 20;

/// Longer lines do not move the answers of the others.
const LONG: usize = 60;

/// What stands before an answer.
const MARK: &str = "-> ";

struct Layout {
    /// Where the text of a line begins, behind its number.
    left: usize,
    /// Where answers stand beside it.
    beside: usize,
    /// All columns.
    columns: usize,
    below: bool,
}

/// What stands for the end of a text that has no end command.
pub const ENDS: &str = "(the text ends)";

/// The text with the answers in words.
pub fn show(text: &Text, run: &Run, width: Width) -> String {
    let rows: Vec<(String, Vec<String>)> =
        text.rows.iter().map(|row| (shown(row), said(row, run))).collect();
    let answered = rows.iter().filter(|(_, said)| !said.is_empty());
    let longest = answered.map(|(line, _)| line.chars().count()).max().unwrap_or(0);
    let left = 2 + rows.len().to_string().len().max(2);
    let layout = Layout::new(left, longest, width);
    let mut out = String::new();
    for (index, (line, said)) in rows.iter().enumerate() {
        layout.row(&mut out, &(index + 1).to_string(), line, said);
    }
    if let Some(answer) = &run.behind {
        layout.row(&mut out, "", ENDS, &[words(answer)]);
    }
    out
}

/// A line without the answer that it expects.
fn shown(row: &Row) -> String {
    plain(&row.shown)
}

/// The answers of a line in words, or why it has none.
fn said(row: &Row, run: &Run) -> Vec<String> {
    match row.fate {
        Fate::Inside => vec!["(taken by the command before)".to_string()],
        Fate::NotRead => vec!["(not read)".to_string()],
        _ => run.answers[row.number - 1].iter().map(|answer| words(answer)).collect(),
    }
}

impl Layout {
    fn new(left: usize, longest: usize, width: Width) -> Layout {
        let (columns, below) = match width {
            Width::Wide => (usize::MAX, false),
            Width::Narrow => (usize::MAX, true),
            Width::Columns(columns) => {
                (columns.max(left + LEAST), columns < left + LEAST + 2 + ROOM)
            }
        };
        let most = columns.saturating_sub(left + 2 + ROOM).clamp(LEAST, LONG);
        Layout { left, beside: left + longest.min(most) + 2, columns, below }
    }

    /// A line by its number, and its answers behind or below it.
    fn row(&self, out: &mut String, number: &str, line: &str, said: &[String]) {
        let mut lines = wrap(line, self.columns - self.left);
        for (index, line) in lines.iter_mut().enumerate() {
            let number = if index == 0 { number } else { "" };
            *line = format!("{number:>width$}  {line}", width = self.left - 2);
        }
        let used = lines[lines.len() - 1].chars().count();
        let single = lines.len() == 1 && !self.below;
        let longest =
            MARK.len() + said.iter().map(|answer| answer.chars().count()).max().unwrap_or(0);
        let (column, mut behind) = match single {
            true if used + 2 <= self.beside => (self.beside, true),
            true if used + 2 + longest <= self.columns => (used + 2, true),
            _ => (self.left + 2, false),
        };
        for answer in said {
            for (index, piece) in
                wrap(answer, self.columns - column - MARK.len()).iter().enumerate()
            {
                if !std::mem::take(&mut behind) {
                    lines.push(String::new());
                }
                let last = lines.len() - 1;
                let spaces = " ".repeat(column - lines[last].chars().count());
                let mark = if index == 0 { MARK } else { "   " };
                lines[last].push_str(&format!("{spaces}{mark}{piece}"));
            }
        }
        lines.iter().for_each(|line| out.push_str(&format!("{}\n", line.trim_end())));
    }
}

/// A text in pieces of so many characters at most, broken at spaces where there are any.
fn wrap(text: &str, width: usize) -> Vec<String> {
    let text: Vec<char> = text.chars().collect();
    let mut pieces = Vec::new();
    let mut at = 0;
    while text.len() - at > width {
        let part = &text[at..=at + width];
        let first = part.iter().position(|c| *c != ' ').unwrap_or(0);
        let end = part.iter().rposition(|c| *c == ' ').filter(|end| *end > first).unwrap_or(width);
        pieces.push(part[..end].iter().collect::<String>().trim_end().to_string());
        at += end;
        at += text[at..].iter().take_while(|c| **c == ' ').count();
    }
    pieces.push(text[at..].iter().collect());
    pieces
}
