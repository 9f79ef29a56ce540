//! The start of a session, which makes a plausible record, and its end, which
//! reads all of it that can be read.

use super::operands::{counter_word, INSTRUCTION_COUNTER, PMSICR};
use super::Writer;
use crate::command::Command;

/// One-bit fields, by how often, in a hundred, they start as 1.
const BITS: [(u64, &[u8]); 7] = [
    (95, &[0x00, 0x38, 0x3B, 0x3D, 0x3E]),
    (80, &[0x80]),
    (70, &[0x01, 0x03, 0x09, 0x10, 0x29, 0x2B, 0x2F, 0x30]),
    (60, &[0x02, 0x04, 0x08, 0x20, 0x23, 0x2A, 0x33, 0x81, 0x85]),
    (45, &[0x05, 0x06, 0x07, 0x0A, 0x0B, 0x21, 0x22, 0x24, 0x31, 0x35, 0x36, 0x84]),
    (25, &[0x11, 0x12]),
    (5, &[0x39, 0x3A, 0x3C]),
];

/// One-bit fields that stop accesses.
const STOPPING: [u8; 9] = [0x25, 0x26, 0x28, 0x2C, 0x2D, 0x2E, 0x86, 0x89, 0x8A];

/// Fields that must be 1, and those that must be 0, for level 1 to read everything.
const OPEN: [u8; 7] = [0x00, 0x03, 0x08, 0x38, 0x3B, 0x80, 0x81];
const CLOSED: [u8; 6] = [0x09, 0x0A, 0x10, 0x25, 0x39, 0x3A];

impl Writer {
    pub(super) fn start(&mut self) {
        for (percent, fields) in BITS.into_iter().chain([(self.trapping, &STOPPING[..])]) {
            for &field in fields {
                if self.rng.chance(percent) {
                    self.set(field, 1);
                }
            }
        }
        let n = self.rng.pick(&[0, 1, 2, 4, 6, 6, 8, 16, 30, 31, 31]);
        self.set(0x0C, n);
        let hpmn = self.rng.below(n + 1);
        self.set(0x27, hpmn);
        self.values();
        let level = self.rng.below(4) as u8;
        self.command(Command::Level(level));
        if self.rng.chance(95) {
            self.mend();
        }
    }

    /// Fields of several bits; profiling last, since that begins the sampling.
    fn values(&mut self) {
        for field in [0x32, 0x34, 0x37, 0x7F, 0x82, 0x87, 0x88, 0x8B, 0x8C, 0x8D, 0x83] {
            if self.rng.chance(75) {
                let value = self.value_for(field);
                self.set(field, value);
            }
        }
        for _ in 0..self.rng.below(12) {
            let field = self.rng.pick(&[0x40, 0x60]) + self.counter() as u8 % 31;
            let value = self.value_for(field);
            self.set(field, value);
        }
    }

    /// Reads the counters, PMSICR and the word at 0x838, the enables and the
    /// overflow flags.
    pub(super) fn read_all(&mut self) {
        for field in OPEN {
            self.set(field, 1);
        }
        for field in CLOSED {
            self.set(field, 0);
        }
        self.set(0x0C, 31);
        self.command(Command::Level(1));
        self.mend();
        for m in 0..31 {
            self.command(Command::Access { word: counter_word(true, m, m), operand: 0 });
        }
        for register in [INSTRUCTION_COUNTER, PMSICR] {
            self.command(Command::Access { word: register | 1 << 21, operand: 0 });
        }
        self.command(Command::Read(0xC00));
        self.command(Command::Read(0xCC0));
        for (field, value) in [(0x09, 1), (0x10, 1), (0x27, 31), (0x84, 1), (0x85, 1)] {
            self.set(field, value);
        }
        for field in [0x04, 0x86] {
            self.set(field, 0);
        }
        self.command(Command::Access { word: PMSICR | 1 << 21, operand: 0 });
    }
}
