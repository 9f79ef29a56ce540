//! Random sessions of the long form, most of whose commands have a part in what
//! follows. A machine goes along, only to steer: it takes part in no expectation.

use crate::by_calls;
use crate::command::Command;
use crate::rng::Rng;
use pmu::{Answer, Machine, Recorded};

mod operands;
mod start;

/// A session in the making.
struct Writer {
    rng: Rng,
    recorded: Recorded,
    bytes: Vec<u8>,
    /// How often, in a hundred, a bit that traps is set at the start.
    trapping: u64,
}

/// The session with this number.
pub fn session(number: u64) -> Vec<u8> {
    let mut rng = Rng::new(number);
    let trapping = rng.pick(&[0, 10, 10, 30]);
    let recorded = Recorded::new(Machine::fresh());
    let mut writer = Writer { rng, recorded, bytes: Vec::new(), trapping };
    if writer.rng.chance(97) {
        writer.start();
    }
    for _ in 0..writer.rng.below(50) {
        writer.step();
    }
    writer.finish();
    if writer.bytes.first() == Some(&0x10) {
        writer.bytes[0] = 0x00;
    }
    writer.bytes
}

// Single commands, and what they lead to.
impl Writer {
    fn command(&mut self, command: Command) {
        self.bytes.extend(command.bytes());
        by_calls::recorded(&mut self.recorded, command);
    }

    fn set(&mut self, field: u8, value: u64) {
        self.command(Command::Set { field, value });
    }

    fn word(&self, number: usize) -> u64 {
        self.recorded.machine().words()[number]
    }

    /// The state refusal that a call would get.
    fn refusal(&self) -> Option<u8> {
        match self.recorded.machine().clone().tick(0) {
            Answer::Refused(number) => Some(number),
            _ => None,
        }
    }

    /// Makes the record consistent (R11 to R17 of docs/MODEL.md).
    fn mend(&mut self) {
        for _ in 0..6 {
            match self.refusal() {
                Some(11 | 16) => self.command(Command::Level(0)),
                Some(12) => self.set(0x10, 0),
                Some(13) => self.set(0x27, self.word(0x0C)),
                Some(14) => self.set(0x06, 1),
                Some(15) => self.set(0x01, 1),
                Some(17) if self.word(0x00) == 0 => self.set(0x00, 1),
                Some(_) => self.set(0x01, 1),
                None => return,
            }
        }
    }
}

// The middle of a session.
impl Writer {
    /// One command, or a few that belong together. An inconsistent record is soon
    /// mended.
    fn step(&mut self) {
        match self.rng.below(100) {
            0..=3 => self.spoil(),
            4..=13 => self.some_set(),
            14..=17 => self.run_and_back(),
            18..=22 => self.command(Command::Back),
            23..=29 => {
                let offset = self.offset();
                self.command(Command::Read(offset));
            }
            _ => self.listed(),
        }
        if self.refusal().is_some() && self.rng.chance(50) {
            self.mend();
        }
    }

    /// A command of those that are listed.
    fn listed(&mut self) {
        let command = match self.rng.below(100) {
            0..=14 => Command::Level(self.rng.pick(&[0, 0, 0, 1, 1, 1, 2, 2, 3, 3, 4, 0xFF])),
            15..=64 => {
                let word = self.access_word();
                Command::Access { word, operand: self.operand() }
            }
            65..=78 => Command::Write { offset: self.offset(), value: self.operand() },
            79..=88 => Command::Tick(self.rng.pick(&[0, 0, 0, 0, 1, 1, 2, 0x80])),
            _ => Command::Member(self.draw()),
        };
        self.command(command);
    }

    /// Listed commands, also more than the list has room for, and steps back, also
    /// more than there were.
    fn run_and_back(&mut self) {
        let any = 1 + self.rng.below(90);
        let count = self.rng.pick(&[1, 2, 3, 5, 8, 12, 63, 64, 65, any]);
        for _ in 0..count {
            self.listed();
        }
        let back = self.rng.below(count + 3);
        for _ in 0..back {
            self.command(Command::Back);
        }
    }

    /// A set, mostly of a value that its field can hold.
    fn some_set(&mut self) {
        let field = match self.rng.below(8) {
            0 => self.rng.below(256) as u8,
            1 => 0x60 + self.rng.below(0x20) as u8,
            2 => 0x80 + self.rng.below(0x0E) as u8,
            _ => self.rng.below(0x3F) as u8,
        };
        let value = self.value_for(field);
        self.set(field, value);
    }

    /// A command that is refused, or one that makes the record inconsistent.
    fn spoil(&mut self) {
        match self.rng.below(8) {
            0 => self.command(Command::Level(3)),
            1 => self.command(Command::Level(2)),
            2 => self.set(0x10, 1),
            3 => self.set(0x27, 31),
            4 => self.set(0x27, 0),
            5 => self.set(0x01, 0),
            6 => self.set(0x25, 1),
            _ => self.set(0x00, 0),
        }
    }
}

// The end of a session.
impl Writer {
    /// Mostly all that can be read is read. Then the end command, bytes behind it,
    /// one that is no command, half a command, or so many that it is too long.
    fn finish(&mut self) {
        if self.rng.chance(60) {
            self.read_all();
        }
        match self.rng.below(40) {
            0 => self.bytes.push(self.rng.pick(&[0x09, 0x10, 0x11, 0xFF])),
            1 => {
                let kept = self.bytes.len() as u64 - self.rng.below(8).min(self.bytes.len() as u64);
                self.bytes.truncate(kept as usize);
            }
            2 => {
                let length = self.rng.pick(&[4095, 4096, 4097]);
                let byte = self.rng.pick(&[0x00, 0x00, 0x00, 0x07]);
                self.bytes.resize(length.max(self.bytes.len()), byte);
            }
            3 => self.bytes.extend([0x00, 0x13]),
            _ => self.command(Command::End),
        }
    }
}
