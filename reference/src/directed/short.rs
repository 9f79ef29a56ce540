//! MODEL Z2, Z3 and R19: the sets of the short form. Each of the three commands with the values
//! at which the next one is due, every field, and refusal 19 before 3 and 4.

use super::fields::*;
use super::script::{Change, Script, PMCNTENSET, PMSICR_READ};
use super::Session;
use crate::form::Form;
use crate::generate::{counter_word, word};

/// At level 3 everything that is read shows.
pub const GIVEN: [Change; 11] = [
    (PMUV3, 1),
    (P5, 1),
    (ICNTR, 1),
    (EXT64, 1),
    (HAVE_EL3, 1),
    (N, 31),
    (POWERED, 1),
    (ALLOWED, 1),
    (SPE, 1),
    (ERND, 1),
    (LEVEL, 3),
];

/// Where a wider set is due, and values beside that.
const VALUES: [u64; 14] = [
    0,
    1,
    0xFE,
    0xFF,
    0x100,
    0x101,
    0xFFFF,
    0x1_0000,
    0xFFFF_FFFE,
    0xFFFF_FFFF,
    0x1_0000_0000,
    0x1_0000_0001,
    0x1_FFFF_FFFF,
    u64::MAX,
];

/// The set commands of the short form that have room for a value.
fn holding(value: u64) -> impl Iterator<Item = u8> {
    let room = move |&&(_, width): &&(u8, usize)| width == 8 || value >> (8 * width) == 0;
    Form::Short.sets().iter().filter(room).map(|&(byte, _)| byte)
}

/// Fields of 64 bits, and what reads them.
fn wide_fields() -> [(u8, u32); 4] {
    [
        (COUNTER, counter_word(true, 0, 2)),
        (COUNTER + 30, counter_word(true, 30, 3)),
        (INSTRUCTIONS, word(true, 9, 4, 0, 4)),
        (PMSICR, PMSICR_READ),
    ]
}

/// Every value that one command has room for, to fields that hold it. Where it is
/// refused the field has what it had.
fn values_session(byte: u8) -> Vec<u8> {
    let mut script = Script::short(&GIVEN);
    for (field, read) in wide_fields() {
        for value in VALUES.into_iter().filter(|&value| holding(value).any(|one| one == byte)) {
            script.set(field, 0x5A);
            script.set_by(byte, field, value);
            script.access(read, 0);
        }
    }
    script.finish()
}

/// Every value by every command that has room for it, to the enables, which do not
/// hold the last value.
fn enables_session() -> Vec<u8> {
    let mut script = Script::short(&GIVEN);
    for value in VALUES {
        for byte in holding(value) {
            script.set(ENABLES, 0x2);
            script.set_by(byte, ENABLES, value);
            script.external_read(PMCNTENSET);
        }
    }
    script.finish()
}

/// Bits that let level 0 read a counter: to 1 and to 0 by each command, and also where
/// they are so already.
fn bits_session() -> Vec<u8> {
    let mut script = Script::short(&GIVEN);
    script.level(0);
    for field in [EN, ER] {
        for byte in [0x11, 0x12, 0x01] {
            for (before, value) in [(0, 1), (1, 0), (0, 0), (1, 1)] {
                script.set(field, before);
                script.set_by(byte, field, value);
                script.access(counter_word(true, 0, 2), 0);
            }
        }
        script.set(field, 0);
    }
    script.finish()
}

/// All numbers of fields.
fn fields() -> impl Iterator<Item = u8> {
    (0x00..=0x0C).chain(0x10..=0x12).chain(0x20..=0x3E).chain(0x40..=0x5E).chain(0x60..=0x8D)
}

/// All numbers that are no field's.
fn no_fields() -> impl Iterator<Item = u8> {
    (0x0D..=0x0F).chain(0x13..=0x1F).chain([0x3F, 0x5F]).chain(0x8E..=0xFF)
}

/// Every field as 1, which all of them hold, and every other number.
fn every_field_session() -> Vec<u8> {
    let mut script = Script::short(&[]);
    for field in fields() {
        script.set(field, 1);
    }
    for field in no_fields() {
        script.set_refused(field, 1);
    }
    script.finish_all()
}

/// Every number there is, by one command. None is stored that would keep the counters
/// from being read.
fn every_number_session(byte: u8, value: u64) -> Vec<u8> {
    let mut script = Script::short(&[]);
    for field in 0..=0xFF {
        script.set_by(byte, field, value);
    }
    script.finish_all()
}

/// Refusal 19 comes before 3: every command and value, to some numbers that are no
/// field's.
fn before_3_session() -> Vec<u8> {
    let mut script = Script::short(&GIVEN);
    for field in [0x0D, 0x1F, 0x3F, 0x5F, 0x8E, 0xFF] {
        for value in VALUES {
            for byte in holding(value) {
                script.set_by(byte, field, value);
            }
        }
    }
    script.tick(0);
    script.finish()
}

/// Values that their field does not hold.
const ABOVE: [Change; 26] = [
    (PMUV3, 2),
    (PMUV3, 0x101),
    (EN, 2),
    (EN, 0xFF),
    (EN, 0x100),
    (EN, 0xFFFF_FFFF),
    (EN, 0x1_0000_0000),
    (EN, 0x1_0000_0001),
    (N, 32),
    (N, 0xFF),
    (N, 0x11F),
    (N, 0x1_0000_001F),
    (HPMN, 32),
    (HPMN, 0x100),
    (PMUACR_P, ALL_P + 1),
    (PMUACR_P, 0xFFFF_FFFF),
    (PMUACR_P, 0x1_0000_0000),
    (ENABLES, ALL_ENABLES + 1),
    (ENABLES, u64::MAX),
    (PMOVS, 1 << 31),
    (PMOVS, 0xFFFF_FFFF),
    (PMOVS, ALL_PMOVS + 1),
    (EVENT, 0x1_0000),
    (EVENT + 30, 0x1_0000_FFFF),
    (NSPB, 4),
    (RELOAD, 0x1_0000_0000),
];

/// Refusal 19 comes before 4, by every command that has room for the value.
fn before_4_session() -> Vec<u8> {
    let mut script = Script::short(&GIVEN);
    script.put(&[(ENABLES, 0x2), (PMOVS, 0x4), (PMUACR_P, 0x8)]);
    for (field, value) in ABOVE {
        for byte in holding(value) {
            script.set_by(byte, field, value);
        }
    }
    script.tick(0);
    script.finish()
}

pub fn sessions() -> Vec<Session> {
    let mut list = Vec::new();
    for byte in [0x11, 0x12, 0x01] {
        list.push(Session::new(format!("short-set-{byte:02x}-values"), values_session(byte)));
    }
    for (byte, value) in [(0x11, 0xFF), (0x12, 1), (0x01, 1)] {
        let name = format!("short-set-{byte:02x}-every-number");
        list.push(Session::new(name, every_number_session(byte, value)));
    }
    list.push(Session::new("short-set-enables", enables_session()));
    list.push(Session::new("short-set-bits", bits_session()));
    list.push(Session::new("short-set-every-field", every_field_session()));
    list.push(Session::new("short-refusal-19-before-3", before_3_session()));
    list.push(Session::new("short-refusal-19-before-4", before_4_session()));
    list
}
