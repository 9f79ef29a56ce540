//! MODEL Z1 to Z5: random sessions in the short form. Sets by each of its commands, now
//! and then wider than they need be; sets that are cut off; and bytes of one form in a
//! session of the other.

use super::*;
use crate::form::{set_by, split};
use crate::session::{read, Parsed};

// Sets.
impl Writer {
    /// A set, mostly by the command that its form asks for. One that is too wide is
    /// refused, so that the machine does not obey it.
    pub(super) fn set(&mut self, field: u8, value: u64) {
        if self.rng.chance(self.wide) && self.set_too_wide(field, value) {
            return;
        }
        let bytes = self.form.set(field, value);
        self.saved += 10 - bytes.len();
        self.bytes.extend(bytes);
        self.obey(Command::Set { field, value });
    }

    /// A set command of the form that is wider than a value needs, if there is one.
    fn wider(&mut self, value: u64) -> Option<u8> {
        let all = self.form.sets();
        let narrowest = all.iter().position(|(byte, _)| *byte == self.form.narrowest(value))?;
        let wider = &all[narrowest + 1..];
        if wider.is_empty() {
            return None;
        }
        Some(self.rng.pick(wider).0)
    }

    /// A set that is too wide. There is none for some values, and none in the long form.
    fn set_too_wide(&mut self, field: u8, value: u64) -> bool {
        let wider = self.wider(value);
        if let Some(byte) = wider {
            self.bytes.extend(set_by(byte, field, value));
        }
        wider.is_some()
    }

    /// A field and a value, whether they go together or not, with the values beside
    /// which a set gets wider.
    fn some_field(&mut self) -> (u8, u64) {
        let field = if self.rng.chance(50) {
            0x60 + self.rng.below(32) as u8
        } else {
            self.rng.below(0x90) as u8
        };
        let operand = self.operand();
        let value = self.rng.pick(&[0, 1, 2, 0xFE, 0xFF, 0x100, 0xFFFF, 0xFFFF_FFFF, operand]);
        (field, value)
    }

    /// A set that is too wide, of any field.
    pub(super) fn wide_set(&mut self) {
        let (field, value) = self.some_field();
        self.set_too_wide(field, value);
    }

    /// The first bytes of a set, too wide or not.
    pub(super) fn cut_set(&mut self) {
        let (field, value) = self.some_field();
        let byte = match self.wider(value) {
            Some(byte) if self.rng.chance(50) => byte,
            _ => self.form.narrowest(value),
        };
        let bytes = set_by(byte, field, value);
        let count = 1 + self.rng.below(bytes.len() as u64 - 1) as usize;
        self.bytes.extend(&bytes[..count]);
    }
}

// Lengths and single bytes.
impl Writer {
    /// MODEL Z1: how many bytes count for refusal 6.
    pub(super) fn counted(&self) -> usize {
        split(&self.bytes).1.len()
    }

    /// A byte that is no command in this form.
    pub(super) fn no_command(&mut self) -> u8 {
        let byte = self.rng.pick(&[0x09, 0x0A, 0x10, 0x10, 0x11, 0x12, 0x13, 0x87, 0x91, 0xFF]);
        if self.form.width(byte).is_some() {
            return 0x13;
        }
        byte
    }

    /// Bytes of which most are commands.
    pub(super) fn low_noise(&mut self, count: usize) {
        for _ in 0..count {
            let byte = self.rng.below(0x14) as u8;
            self.bytes.push(byte);
        }
    }
}

// Bytes in the wrong place.
impl Writer {
    /// Where commands begin, and the place behind the last one.
    fn places(&self) -> Vec<usize> {
        let (form, body) = split(&self.bytes);
        let mut at = self.bytes.len() - body.len();
        let mut list = vec![at];
        for parsed in read(form, body) {
            if let Parsed::Command(_, length) | Parsed::TooWide(_, length) = parsed {
                at += length;
                list.push(at);
            }
        }
        list
    }

    /// What belongs into the other form, or nowhere, in front of a command or of the
    /// whole session; or the byte in front is lost.
    pub(super) fn misplace(&mut self) {
        if self.form == Form::Short && self.rng.chance(10) {
            self.bytes.remove(0);
            return;
        }
        let places = self.places();
        let place = if self.rng.chance(30) { 0 } else { self.rng.pick(&places) };
        let (field, value) = self.some_field();
        let bytes = match self.rng.below(8) {
            0..=2 => vec![SHORT_FORM],
            3 => vec![self.no_command()],
            4 => set_by(0x11, field, value),
            5 => set_by(0x12, field, value),
            6 => set_by(0x01, field, value),
            _ => Form::Short.set(field, value),
        };
        self.bytes.splice(place..place, bytes);
    }
}
