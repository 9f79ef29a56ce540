//! MODEL Z1, Z2, R1 and R2: the bytes of sessions in the short form. The byte 10 in front and
//! elsewhere, the bytes 11 and 12 in both forms, unknown ones, sets that are cut off, and every
//! other command.

use super::fields::*;
use super::script::{Change, Script, PMCNTENSET, PMOVSCLR, PMOVSSET};
use super::script::{PMSICR_READ, PMSICR_WRITE, PMSWINC};
use super::short::GIVEN;
use super::Session;
use crate::form::{set_by, SHORT_FORM};
use crate::generate::{counter_word, word};

/// Sessions of a few bytes in the short form, by what follows the first.
const SHORT: [(&str, &[u8]); 10] = [
    ("front-byte-alone", &[]),
    ("front-byte-and-end", &[0x00]),
    ("front-byte-twice", &[0x10]),
    ("front-byte-twice-and-end", &[0x10, 0x00]),
    ("front-byte-after-a-tick", &[0x06, 0x00, 0x10, 0x06, 0x00, 0x00]),
    ("front-byte-after-a-set", &[0x11, 0x00, 0x01, 0x10, 0x11, 0x00, 0x00, 0x00]),
    ("after-the-end", &[0x06, 0x00, 0x00, 0x10, 0x11, 0x00, 0x01, 0x12, 0x00]),
    ("too-wide-and-end", &[0x12, 0x00, 0x01, 0x00, 0x00, 0x00, 0x00]),
    ("too-wide-and-unknown", &[0x12, 0x00, 0x01, 0x00, 0x00, 0x00, 0x10, 0x00]),
    ("11-has-one-byte", &[0x11, 0x0C, 0x02, 0x02, 0x01, 0x06, 0x00, 0x00]),
];

/// Sessions of a few bytes in the long form.
const LONG: [(&str, &[u8]); 6] = [
    ("byte-11-first", &[0x11, 0x00, 0x01, 0x00]),
    ("byte-12-first", &[0x12, 0x00, 0x01, 0x00, 0x00, 0x00, 0x00]),
    ("byte-11-inside", &[0x06, 0x00, 0x11, 0x00, 0x01, 0x06, 0x00, 0x00]),
    ("byte-12-inside", &[0x06, 0x00, 0x12, 0x00, 0x01, 0x00, 0x00, 0x00, 0x06, 0x00, 0x00]),
    ("byte-10-inside", &[0x02, 0x01, 0x10, 0x11, 0x00, 0x01, 0x00]),
    ("byte-10-after-the-end", &[0x06, 0x00, 0x00, 0x10]),
];

/// Command bytes that are unknown in the short form too: those beside its own, and
/// some that differ from these in a high bit.
const UNKNOWN: [u8; 6] = [0x09, 0x13, 0x19, 0x51, 0x92, 0xFF];

/// MODEL R1: reading ends at the byte.
fn unknown_session(byte: u8) -> Vec<u8> {
    let mut script = Script::short(&GIVEN[..2]);
    script.tick(0);
    script.plain(&[byte]);
    script.set(PMUV3, 0);
    script.end()
}

/// A set that is cut off: its name, its command byte, field and value. Whole, one would
/// be obeyed, and the others are too wide, of a number that is no field's and of a value
/// that is above the largest.
const CUTS: [(&str, u8, u8, u64); 3] = [
    ("11", 0x11, COUNTER, 0xFF),
    ("12-too-wide", 0x12, 0xFF, 0xFF),
    ("01-too-wide", 0x01, PMUV3, 0xFFFF_FFFF),
];

/// MODEL R2 and R19: the session ends after each number of bytes of a set. The last number
/// is the whole set. Only then can it be too wide.
fn cut_sessions() -> Vec<Session> {
    let mut list = Vec::new();
    for (name, byte, field, value) in CUTS {
        let set = set_by(byte, field, value);
        for count in 1..=set.len() {
            let mut script = Script::short(&GIVEN[..2]);
            script.plain(&set[..count]);
            list.push(Session::new(format!("short-cut-{name}-{count:02}-bytes"), script.cut()));
        }
    }
    list
}

/// Every command but the sets: obeyed, refused, and stopped.
fn every_command_session() -> Vec<u8> {
    let mut script = Script::short(&GIVEN);
    script.put(&[(ENABLES, ALL_ENABLES), (PMCR_E, 1), (COUNTER, 0xFFFF_FFFF), (TPM_EL3, 1)]);
    script.put(&[(RELOAD, 2), (PROFILING, 1), (PMSICR, 1)]);
    script.access(PMSWINC, 3);
    script.external_read(PMOVSCLR);
    script.external_write(PMOVSCLR, 1);
    script.external_write(PMOVSSET, 0x8);
    script.external_read(PMOVSSET);
    script.external_write(PMCNTENSET, 0x10);
    script.external_read(0xC04);
    script.external_write(0xC04, 1);
    script.tick(0);
    script.tick(1);
    script.tick(2);
    script.member(0);
    script.member(1);
    script.access(counter_word(false, 2, 1), 0x1234);
    script.access(PMSICR_WRITE, 0x99);
    script.access(word(true, 9, 12, 4, 1), 0);
    script.access(0, 0);
    for level in [1, 0, 2, 4] {
        script.level_refused(level);
        script.access(counter_word(true, 0, 2), 0);
        script.access(PMSICR_READ, 0);
    }
    script.back(6);
    script.external_read(PMCNTENSET);
    script.back(20);
    script.finish()
}

/// MODEL S8: the worked session.
const WORKED: [Change; 4] = [(PMUV3, 1), (N, 2), (COUNTER + 1, 42), (LEVEL, 1)];

fn worked(mut script: Script) -> Vec<u8> {
    script.access(0xD53B_E822, 0);
    script.access(0xD53B_E842, 0);
    script.end()
}

/// The bytes 10, 11 and 12 in operands are no commands.
fn operands_session() -> Vec<u8> {
    let mut script = Script::short(&GIVEN);
    for byte in [0x10, 0x11, 0x12] {
        let value = u64::from_le_bytes([byte; 8]);
        script.set(COUNTER + 1, byte as u64);
        script.set(COUNTER + 2, value & 0xFFFF_FFFF);
        script.set(COUNTER + 3, value);
        script.set_refused(byte, byte as u64);
        script.set_refused(byte, value);
        script.tick(byte);
        script.member(byte);
        script.level_refused(byte);
        script.external_read(value as u16);
        script.external_write(value as u16, value);
        script.external_write(PMOVSSET, value);
        script.access(value as u32, value);
        script.external_read(PMOVSSET);
        script.back(2);
        script.external_read(PMOVSSET);
        for m in 1..=3 {
            script.access(counter_word(true, m, byte as u32), 0);
        }
    }
    script.finish()
}

pub fn sessions() -> Vec<Session> {
    let mut list = Vec::new();
    for (name, rest) in SHORT {
        list.push(Session::new(format!("short-{name}"), [&[SHORT_FORM], rest].concat()));
    }
    for (name, bytes) in LONG {
        list.push(Session::new(format!("short-long-form-{name}"), bytes.to_vec()));
    }
    for byte in UNKNOWN {
        list.push(Session::new(format!("short-refusal-1-byte-{byte:02x}"), unknown_session(byte)));
    }
    list.extend(cut_sessions());
    list.push(Session::new("short-every-command", every_command_session()));
    list.push(Session::new("short-worked", worked(Script::short(&WORKED))));
    let wide = [vec![SHORT_FORM], worked(Script::new(&WORKED))].concat();
    list.push(Session::new("short-worked-too-wide", wide));
    let lost = worked(Script::short(&WORKED))[1..].to_vec();
    list.push(Session::new("short-worked-without-front-byte", lost));
    list.push(Session::new("short-bytes-of-operands", operands_session()));
    list
}
