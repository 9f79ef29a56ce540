//! A session run by the proved model, and which line of its text each answer is for.

use crate::session::is_long;
use crate::text::{Fate, Text};

pub struct Run {
    /// The session's lines, as the model prints them.
    pub lines: String,
    /// The answers of each line of the text, as a session's line has them behind the position: one
    /// for a command, none for a comment.
    pub answers: Vec<Vec<String>>,
    /// The answer at the end of the bytes, where the end command is missing.
    pub behind: Option<String>,
}

/// The lines that the proved model prints for a session.
pub fn lines(bytes: &[u8]) -> String {
    let mut out = vec![0; pmu::ROOM];
    let lines = pmu::session(bytes, &mut out).expect("a buffer of ROOM bytes");
    String::from_utf8_lossy(lines).to_string()
}

/// Runs a text that has no errors.
pub fn run(text: &Text) -> Run {
    let lines = lines(&text.bytes);
    let answer = |line: &str| line.split_once(' ').map_or("", |(_, answer)| answer).to_string();
    let mut answers: Vec<String> = lines.lines().map(answer).collect();
    let mut run = Run { lines, answers: vec![Vec::new(); text.rows.len()], behind: None };
    if is_long(&text.bytes) {
        let passing = text.passing().expect("a line passes the limit");
        run.answers[passing] = answers;
        return run;
    }
    assert_eq!(text.pieces.len(), answers.len(), "the model reads the commands that are read here");
    run.behind = text.ends_early().then(|| answers.pop()).flatten();
    for (row, given) in text.rows.iter().zip(&mut run.answers) {
        if let Fate::Commands(pieces) = &row.fate {
            *given = answers[pieces.clone()].to_vec();
        }
    }
    run
}
