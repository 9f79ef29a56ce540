//! MODEL R1 to R6, V1 and V2: refused because of a session's bytes. Of R4 only
//! the flag of a tick; values above their field's largest are in values.rs.

use super::fields::*;
use super::script::{Change, Script, PMCNTENSET};
use super::Session;
use crate::generate::counter_word;
use crate::session::LIMIT;

/// Enough to see what commands do.
const GIVEN: [Change; 8] = [
    (PMUV3, 1),
    (ICNTR, 1),
    (EXT64, 1),
    (N, 2),
    (POWERED, 1),
    (ALLOWED, 1),
    (ENABLES, ENABLE_F0),
    (LEVEL, 1),
];

/// Command bytes that are unknown: all beside the known ones, the bits alone,
/// and some that differ from a known one in high bits.
const UNKNOWN: [u8; 16] = [
    0x09, 0x0B, 0x0E, 0x0F, 0x10, 0x11, 0x12, 0x1F, 0x20, 0x30, 0x40, 0x7F, 0x80, 0x81, 0xF0, 0xFF,
];

/// MODEL R1: reading ends at an unknown command byte, whatever follows it.
fn unknown_sessions() -> Vec<Session> {
    let session = |byte: u8| {
        let mut script = Script::new(&GIVEN[..2]);
        script.tick(0);
        script.plain(&[byte]);
        script.tick(0);
        Session::new(format!("refusal-1-byte-{byte:02x}"), script.end())
    };
    let mut list: Vec<Session> = UNKNOWN.iter().map(|&byte| session(byte)).collect();
    list.push(Session::new("refusal-1-first-byte", vec![0x09]));
    list.push(Session::new("refusal-1-before-2", vec![0x02, 0x00, 0xFF]));
    list
}

/// A command with operands, and after how many of its bytes the session ends.
/// The operands are ones that would be refused or would be seen, if missing
/// bytes were made up.
type Cut = (&'static str, fn(&mut Script), &'static [usize]);

const CUTS: [Cut; 8] = [
    ("set", |s| s.set(COUNTER, u64::MAX), &[1, 2, 3, 4, 5, 6, 7, 8, 9, 10]),
    ("set-unused-field", |s| s.set_refused(0xFF, u64::MAX), &[2, 9]),
    ("level", |s| s.level(1), &[1, 2]),
    (
        "access",
        |s| s.access(counter_word(true, 0, 1), u64::MAX),
        &[1, 2, 3, 4, 5, 6, 7, 8, 9, 10, 11, 12, 13],
    ),
    ("external-read", |s| s.external_read(PMCNTENSET), &[1, 2, 3]),
    (
        "external-write",
        |s| s.external_write(PMCNTENSET, u64::MAX),
        &[1, 2, 3, 4, 5, 6, 7, 8, 9, 10, 11],
    ),
    ("tick", |s| s.tick(1), &[1, 2]),
    ("tick-flag", |s| s.tick(0xFF), &[2]),
];

/// MODEL R2: the session ends after each number of bytes of each command, the
/// last number being the whole command, where only the end command is missing.
fn cut_sessions() -> Vec<Session> {
    let mut list = Vec::new();
    for (name, command, counts) in CUTS {
        for &count in counts {
            let mut script = Script::new(&GIVEN[..4]);
            let start = script.len();
            command(&mut script);
            let mut bytes = script.cut();
            bytes.truncate(start + count);
            list.push(Session::new(format!("refusal-2-{name}-{count:02}-bytes"), bytes));
        }
    }
    list
}

/// MODEL R3: every number that is no field's, with a value that any field holds
/// or with one that none of a few bits does. Reading goes on.
fn unused_session(value: u64) -> Vec<u8> {
    let mut script = Script::new(&GIVEN);
    let unused =
        (0x0D..=0x0F).chain(0x13..=0x1F).chain(0x3F..=0x3F).chain(0x5F..=0x5F).chain(0x8E..=0xFF);
    for field in unused {
        script.set_refused(field, value);
    }
    script.tick(0);
    script.finish_all()
}

/// MODEL R4 and R5: the flag of a tick, before the record is tested, and levels
/// above 3. The level stays and reading goes on.
fn flag_and_level_session() -> Vec<u8> {
    let mut script = Script::new(&GIVEN);
    script.put(&[(HAVE_EL2, 1), (HAVE_EL3, 1), (EL2_ENABLED, 1), (HPMN, 1), (TPM_EL2, 1)]);
    script.put(&[(ENPM2, 1), (PMUACR_F0, 1)]);
    for level in 0..=3 {
        script.level(level);
        for refused in [4, 5, 6, 7, 8, 0x10, 0x7F, 0x80, 0x81, 0x83, 0xFC, 0xFF] {
            script.level_refused(refused);
        }
        script.access(counter_word(true, 0, level as u32), 0);
        for flag in [0, 1, 2, 3, 4, 0x10, 0x80, 0x81, 0xFF] {
            script.tick(flag);
        }
        script.with(&[(HAVE_EL2, 0)], |s| {
            s.tick(2);
            s.level_refused(4);
            s.tick(0);
        });
    }
    script.finish()
}

/// MODEL V2: each refusal after which reading goes on, between commands that
/// count.
fn reading_goes_on_session() -> Vec<u8> {
    let mut script = Script::new(&GIVEN);
    script.tick(0);
    script.set_refused(0x0D, 0);
    script.tick(0);
    script.set_refused(N, 32);
    script.tick(0);
    script.level_refused(4);
    script.tick(0);
    script.tick(2);
    script.tick(0);
    script.finish()
}

/// Whole commands up to a length, most of them external writes that the last
/// read shows; without the end command.
fn long(length: usize) -> Script {
    let mut script = Script::new(&GIVEN);
    script.set(N, 31);
    let mut bit = 0;
    while script.len() + 30 < length {
        script.external_write(PMCNTENSET, 1 << bit);
        bit = (bit + 1) % 32;
    }
    script.external_read(PMCNTENSET);
    if (length - script.len()) % 2 == 1 {
        script.external_read(PMCNTENSET);
    }
    while script.len() < length {
        script.tick(0);
    }
    script
}

/// MODEL R6: 4,096 bytes are run, 4,097 are not, wherever the end command
/// stands.
fn length_sessions() -> Vec<Session> {
    let ended = |length: usize| long(length - 1).end();
    let cut = || {
        let mut script = long(LIMIT - 1);
        script.plain(&[0x06]);
        script.cut()
    };
    let after = || {
        let mut bytes = Script::new(&GIVEN[..2]).end();
        bytes.resize(LIMIT, 0x09);
        bytes
    };
    vec![
        Session::new("refusal-6-4096-bytes", ended(LIMIT)),
        Session::new("refusal-6-4096-bytes-cut-tick", cut()),
        Session::new("refusal-6-4096-bytes-unknown-after-end", after()),
        Session::new("refusal-6-4097-bytes", ended(LIMIT + 1)),
        Session::new("refusal-6-before-1", vec![0xFF; LIMIT + 1]),
    ]
}

pub fn sessions() -> Vec<Session> {
    let mut list = unknown_sessions();
    list.extend(cut_sessions());
    list.push(Session::new("refusal-3-every-unused-field-0", unused_session(0)));
    list.push(Session::new("refusal-3-every-unused-field-largest", unused_session(u64::MAX)));
    list.push(Session::new("refusal-4-flag-refusal-5-level", flag_and_level_session()));
    list.push(Session::new("refusal-3-4-5-reading-goes-on", reading_goes_on_session()));
    list.extend(length_sessions());
    list
}
