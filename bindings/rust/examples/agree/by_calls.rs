//! A session made call by call, on a machine that lists and on one that does
//! not, side by side.

use crate::command::Command;
use pmu::{Answer, Machine, Recorded, WORDS};
use std::collections::VecDeque;
use std::fmt::Write;

/// Both machines, and the words that steps back must bring (H1 to H6 of
/// docs/MODEL.md).
struct Pair {
    plain: Machine,
    recorded: Recorded,
    earlier: VecDeque<[u64; WORDS]>,
}

/// The answer of the machine that lists. The end command has none of its own.
pub fn recorded(machine: &mut Recorded, command: Command) -> Answer {
    match command {
        Command::End => Answer::Ok,
        Command::Set { field, value } => machine.set(field, value),
        Command::Level(level) => machine.level(level),
        Command::Access { word, operand } => machine.access(word, operand),
        Command::Read(offset) => machine.external_read(offset),
        Command::Write { offset, value } => machine.external_write(offset, value),
        Command::Tick(prohibited) => machine.tick(prohibited),
        Command::Back => machine.back(),
        Command::Member(draw) => machine.sample(draw),
    }
}

/// The answer of the machine that does not; a step back it can't make.
fn plain(machine: &mut Machine, command: Command) -> Option<Answer> {
    Some(match command {
        Command::End | Command::Back => return None,
        Command::Set { field, value } => machine.set(field, value),
        Command::Level(level) => machine.level(level),
        Command::Access { word, operand } => machine.access(word, operand),
        Command::Read(offset) => machine.external_read(offset),
        Command::Write { offset, value } => machine.external_write(offset, value),
        Command::Tick(prohibited) => machine.tick(prohibited),
        Command::Member(draw) => machine.sample(draw),
    })
}

impl Pair {
    /// Makes a command on both machines: its answer, or what is wrong.
    fn obey(&mut self, command: Command) -> Result<Answer, &'static str> {
        let before = *self.recorded.machine().words();
        let answer = recorded(&mut self.recorded, command);
        if let Command::Back = command {
            return self.went_back(before, answer);
        }
        if plain(&mut self.plain, command) != Some(answer) {
            return Err("the call that lists answers otherwise");
        }
        let after = *self.recorded.machine().words();
        if *self.plain.words() != after {
            return Err("the call that lists leaves other words");
        }
        match (command, answer) {
            (Command::Read(_), _) | (_, Answer::Refused(_)) if before != after => {
                return Err("a read or a refused call changes words");
            }
            (Command::Read(_), _) | (_, Answer::Refused(_)) => {}
            (Command::Set { .. }, _) => self.earlier.clear(),
            _ => self.earlier.push_back(before),
        }
        if self.earlier.len() > 64 {
            self.earlier.pop_front();
        }
        self.counted(answer)
    }

    /// After a step back from these words, with this answer. The other machine is
    /// then given its words.
    fn went_back(&mut self, from: [u64; WORDS], answer: Answer) -> Result<Answer, &'static str> {
        let expected = match self.earlier.pop_back() {
            Some(words) => (words, Answer::Ok),
            None => (from, Answer::Refused(18)),
        };
        if expected != (*self.recorded.machine().words(), answer) {
            return Err("a step back does not bring back what was");
        }
        self.plain = self.recorded.machine().clone();
        self.counted(answer)
    }

    /// The list has as many as it must.
    fn counted(&self, answer: Answer) -> Result<Answer, &'static str> {
        match self.recorded.listed() == self.earlier.len() {
            true => Ok(answer),
            false => Err("the list has another length"),
        }
    }
}

/// The lines of a session of the long form, made by calls, or what is wrong.
/// Every answer is shown to `seen`.
pub fn lines(session: &[u8], mut seen: impl FnMut(Answer)) -> Result<String, &'static str> {
    if session.len() > 4096 {
        return Ok("0 refused 6\n".to_string());
    }
    let plain = Machine::fresh();
    let mut pair = Pair { recorded: Recorded::new(plain.clone()), plain, earlier: VecDeque::new() };
    let (mut text, mut at) = (String::new(), 0);
    for position in 1.. {
        match Command::read(&session[at..]) {
            Ok((Command::End, _)) => {
                writeln!(text, "{position} end").expect("a string");
                break;
            }
            Ok((command, size)) => {
                let answer = pair.obey(command)?;
                seen(answer);
                writeln!(text, "{position} {answer}").expect("a string");
                at += size;
            }
            Err(number) => {
                writeln!(text, "{position} refused {number}").expect("a string");
                break;
            }
        }
    }
    Ok(text)
}
