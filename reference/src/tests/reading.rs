//! What tests read of a session, in either form: its commands and their answers.

use crate::form::split;
use crate::session::{read, run, Command, Parsed, LIMIT};

/// MODEL R6 and Z1: the session is not too long.
pub(crate) fn is_run(bytes: &[u8]) -> bool {
    split(bytes).1.len() <= LIMIT
}

/// The answers of a session, without their positions.
pub(crate) fn answers(bytes: &[u8]) -> Vec<String> {
    let answer = |line: &str| line.split_once(' ').expect("position").1.to_string();
    run(bytes).lines().map(answer).collect()
}

/// What is read of a session that is not too long.
fn all_read(bytes: &[u8]) -> Vec<Parsed> {
    let (form, body) = split(bytes);
    if is_run(bytes) {
        read(form, body)
    } else {
        Vec::new()
    }
}

/// What is left of a session where its reading ends: behind the end command, or from the
/// byte on that is unknown, or from the command on that is cut off.
pub(crate) fn left(bytes: &[u8]) -> &[u8] {
    let (form, body) = split(bytes);
    let length = |parsed: Parsed| match parsed {
        Parsed::Command(_, length) | Parsed::TooWide(_, length) => length,
        Parsed::Unknown | Parsed::Cut => 0,
    };
    &body[read(form, body).into_iter().map(length).sum()..]
}

/// A command that is obeyed. A set that is too wide is not.
fn obeyed(parsed: Parsed) -> Option<Command> {
    match parsed {
        Parsed::Command(command, _) => Some(command),
        _ => None,
    }
}

/// The commands that a session obeys, the end among them.
pub(crate) fn commands(bytes: &[u8]) -> Vec<Command> {
    all_read(bytes).into_iter().filter_map(obeyed).collect()
}

/// These commands with their answers.
pub(crate) fn answered(bytes: &[u8]) -> Vec<(Command, String)> {
    let both = all_read(bytes).into_iter().zip(answers(bytes));
    both.filter_map(|(parsed, answer)| Some((obeyed(parsed)?, answer))).collect()
}
