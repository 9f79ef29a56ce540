//! MODEL S1 to S6, Z1 to Z3, L1 to L3 and H: sessions, a row of bytes in, lines out. A
//! session always starts from the fresh machine and with no step to take back.

use crate::back::Earlier;
use crate::form::{split, Form};
use crate::model::{Answer, Machine};

/// A session of more bytes is not run. MODEL Z1: the byte in front of a short form is
/// not counted.
pub const LIMIT: usize = 4096;

/// One command with its operands. A member is one of the sample population
/// (MODEL J5).
#[derive(Clone, Copy, Debug, PartialEq, Eq)]
pub enum Command {
    End,
    Set { field: u8, value: u64 },
    Level(u8),
    Access { word: u32, operand: u64 },
    Read { offset: u16 },
    Write { offset: u16, value: u64 },
    Tick { prohibited: u8 },
    Back,
    Member { draw: u8 },
}

/// What stands at the start of a row of bytes.
#[derive(Clone, Copy, Debug, PartialEq, Eq)]
pub enum Parsed {
    /// A command and its length.
    Command(Command, usize),
    /// MODEL R19: a set that is wider than its value needs, and its length.
    TooWide(Command, usize),
    /// The command byte is unknown.
    Unknown,
    /// The bytes end inside a command, or there are none.
    Cut,
}

/// The length of a command by its first byte.
fn length(form: Form, first: u8) -> Option<usize> {
    if let Some(width) = form.width(first) {
        return Some(1 + 1 + width);
    }
    match first {
        0x00 => Some(1),
        0x02 => Some(1 + 1),
        0x03 => Some(1 + 4 + 8),
        0x04 => Some(1 + 2),
        0x05 => Some(1 + 2 + 8),
        0x06 => Some(1 + 1),
        0x07 => Some(1),
        0x08 => Some(1 + 1),
        _ => None,
    }
}

/// A little-endian number of up to 8 bytes.
fn little(bytes: &[u8]) -> u64 {
    bytes.iter().rev().fold(0, |sum, &b| sum << 8 | b as u64)
}

/// Reads one command. MODEL V1 and Z3: 1 is tested first, then 2, then 19.
pub fn parse(form: Form, bytes: &[u8]) -> Parsed {
    let first = match bytes.first() {
        Some(&first) => first,
        None => return Parsed::Cut,
    };
    let length = match length(form, first) {
        Some(length) => length,
        None => return Parsed::Unknown,
    };
    if bytes.len() < length {
        return Parsed::Cut;
    }
    let b = &bytes[1..length];
    let command = match first {
        0x00 => Command::End,
        0x02 => Command::Level(b[0]),
        0x03 => Command::Access { word: little(&b[..4]) as u32, operand: little(&b[4..]) },
        0x04 => Command::Read { offset: little(b) as u16 },
        0x05 => Command::Write { offset: little(&b[..2]) as u16, value: little(&b[2..]) },
        0x06 => Command::Tick { prohibited: b[0] },
        0x07 => Command::Back,
        0x08 => Command::Member { draw: b[0] },
        _ => Command::Set { field: b[0], value: little(&b[1..]) },
    };
    match command {
        Command::Set { value, .. } if first != form.narrowest(value) => {
            Parsed::TooWide(command, length)
        }
        _ => Parsed::Command(command, length),
    }
}

/// MODEL V2 and Z3: all that is read of a session, without the byte in front of a short
/// form. The last one is the end command, or where 1 or 2 stops the reading.
pub fn read(form: Form, bytes: &[u8]) -> Vec<Parsed> {
    let mut list = Vec::new();
    let mut rest = bytes;
    loop {
        let parsed = parse(form, rest);
        list.push(parsed);
        match parsed {
            Parsed::Command(Command::End, _) | Parsed::Unknown | Parsed::Cut => return list,
            Parsed::Command(_, length) | Parsed::TooWide(_, length) => rest = &rest[length..],
        }
    }
}

/// Obeys a command that is neither the end nor a step back.
fn go_on(machine: &mut Machine, command: Command) -> Answer {
    match command {
        Command::End | Command::Back => Answer::Ok,
        Command::Set { field, value } => machine.set(field, value),
        Command::Level(level) => machine.set_level(level),
        Command::Access { word, operand } => machine.access(word, operand),
        Command::Read { offset } => machine.external_read(offset),
        Command::Write { offset, value } => machine.external_write(offset, value),
        Command::Tick { prohibited } => machine.tick(prohibited),
        Command::Member { draw } => machine.member(draw),
    }
}

/// MODEL H1 and H6: takes the latest listed step back, whatever the record is like. The
/// step is gone then, and this is none that could be taken back itself.
fn go_back(machine: &mut Machine, earlier: &mut Earlier) -> Answer {
    match earlier.take() {
        Some(before) => {
            *machine = before;
            Answer::Ok
        }
        None => Answer::Refused(18),
    }
}

/// Obeys a command that is not the end, and keeps the list of what can be taken
/// back. Whatever is refused leaves the list alone, and so do external reads.
pub fn obey(machine: &mut Machine, earlier: &mut Earlier, command: Command) -> Answer {
    if command == Command::Back {
        return go_back(machine, earlier);
    }
    let before = machine.clone();
    let answer = go_on(machine, command);
    if let Answer::Refused(_) = answer {
        return answer;
    }
    match command {
        Command::Set { .. } => earlier.clear(),
        Command::Level(_)
        | Command::Access { .. }
        | Command::Write { .. }
        | Command::Tick { .. }
        | Command::Member { .. } => earlier.list(before),
        Command::End | Command::Read { .. } | Command::Back => {}
    }
    answer
}

/// The words of an answer, as they stand behind the position.
pub fn words(answer: Answer) -> String {
    match answer {
        Answer::Ok => "ok".to_string(),
        Answer::Undefined => "undef".to_string(),
        Answer::Other => "other".to_string(),
        Answer::Error => "error".to_string(),
        Answer::Sampled => "sampled".to_string(),
        Answer::Trap { target, syndrome, cause } => {
            format!("trap {target} {syndrome:08X} {}", cause.number())
        }
        Answer::Moved { value, rt } => format!("value {value:016X} {rt}"),
        Answer::Value(value) => format!("value {value:016X}"),
        Answer::Refused(number) => format!("refused {number}"),
    }
}

/// Runs a session and gives its whole output.
pub fn run(bytes: &[u8]) -> String {
    let (form, body) = split(bytes);
    if body.len() > LIMIT {
        return "0 refused 6\n".to_string();
    }
    let mut machine = Machine::default();
    let mut earlier = Earlier::default();
    let mut output = String::new();
    for (index, parsed) in read(form, body).into_iter().enumerate() {
        let text = match parsed {
            Parsed::Unknown => words(Answer::Refused(1)),
            Parsed::Cut => words(Answer::Refused(2)),
            Parsed::TooWide(..) => words(Answer::Refused(19)),
            Parsed::Command(Command::End, _) => "end".to_string(),
            Parsed::Command(command, _) => words(obey(&mut machine, &mut earlier, command)),
        };
        output.push_str(&format!("{} {text}\n", index + 1));
    }
    output
}
