//! MODEL R1 to R4 and R10 to R17: what is refused. Refusals 1 and 2 beside
//! command 08, 3 beside fields 80 to 8D, 4 for each of these, and those of the
//! state for members and for PMSICR.

use super::fields::*;
use super::sampling::counters;
use super::script::{Change, Kind, Script, PMSICR_READ, PMSICR_WRITE};
use super::state;
use super::Session;
use crate::session::LIMIT;

/// Profiling at level 1, where every field from 80 to 8D matters to some access
/// or member.
const GIVEN: [Change; 13] = [
    (FGT, 1),
    (HAVE_EL2, 1),
    (HAVE_EL3, 1),
    (N, 2),
    (EL2_ENABLED, 1),
    (HPMN, 1),
    (FGTEN, 1),
    (SPE, 1),
    (ERND, 1),
    (PROFILING, 1),
    (NSPB, 1),
    (RELOAD, 4),
    (LEVEL, 1),
];

/// Some bytes that differ from 08 in one bit and are no command.
const UNKNOWN: [u8; 3] = [0x0A, 0x18, 0x88];

/// Refusal 1: reading ends at the byte, whatever follows it.
fn unknown_session(byte: u8) -> Vec<u8> {
    let mut script = Script::new(&[(SPE, 1), (PROFILING, 1), (PMSICR, 1)]);
    script.member(0);
    script.plain(&[byte]);
    script.member(0);
    script.end()
}

/// Refusal 2: the draw is missing, or only the end command is; in a record that a
/// member would be refused in, too.
fn cut_session(given: &[Change], count: usize) -> Vec<u8> {
    let mut script = Script::new(&[(SPE, 1), (PROFILING, 1), (PMSICR, 2)]);
    script.put(given);
    script.member(0);
    let start = script.len();
    script.member(0);
    let mut bytes = script.cut();
    bytes.truncate(start + count);
    bytes
}

/// Draws that look like commands, the end among them.
fn draws_are_no_commands_session() -> Vec<u8> {
    let mut script = Script::new(&[(HAVE_EL3, 1), (LEVEL, 3), (SPE, 1), (PROFILING, 1)]);
    script.put(&[(RELOAD, 2), (PMSICR, 1)]);
    for draw in 0..=9 {
        script.member(draw);
    }
    script.finish_sampling()
}

/// Members up to a length, without the end command.
fn long(length: usize) -> Script {
    let mut script = Script::new(&[(HAVE_EL3, 1), (LEVEL, 3), (SPE, 1), (PROFILING, 1)]);
    script.put(&[(RELOAD, 1000), (PMSICR, 1000)]);
    while script.len() + 20 < length {
        script.member(0);
    }
    script.access(PMSICR_READ, 0);
    if (length - script.len()) % 2 == 1 {
        script.external_read(0);
    }
    while script.len() < length {
        script.member(0);
    }
    script
}

/// A session of exactly the limit that ends inside a member.
fn long_cut_session() -> Vec<u8> {
    let mut script = long(LIMIT - 1);
    script.plain(&[0x08]);
    script.cut()
}

/// Refusal 3: the numbers beside those from 80 to 8D, with 0 and with a value
/// that is above the largest of most fields. 7F is a field and takes both.
fn unused_session() -> Vec<u8> {
    let mut script = Script::new(&GIVEN);
    script.set(PMSICR, counters(3, 3));
    for value in [0, 1, u64::MAX] {
        for field in [0x3F, 0x5F, 0x8E, 0x8F, 0x90, 0xC0, 0xFF] {
            script.set_refused(field, value);
        }
        script.set(INSTRUCTIONS, value);
        script.member(1);
        script.probe(Kind::SicrRead, 0);
    }
    script.finish()
}

/// What shows the value of any field of one bit: an access in each direction
/// and a member, from the same register each time.
fn witness(script: &mut Script) {
    script.set(PMSICR, counters(2, 1));
    script.access(PMSICR_READ, 0);
    script.member(9);
    script.look(PMSICR_READ);
    script.access(PMSICR_WRITE, counters(4, 4));
    script.look(PMSICR_READ);
}

/// Refusal 4 for fields of one bit: 0 and 1 are taken, other values change
/// nothing.
fn bits_session(fields: &[(u8, &[Change])]) -> Vec<u8> {
    let mut script = Script::new(&GIVEN);
    for &(field, given) in fields {
        script.with(given, |s| {
            s.with(&[(field, 0)], |s| {
                for refused in [3, 0x101, u64::MAX] {
                    s.set_refused(field, refused);
                }
                witness(s);
                s.set(field, 1);
                for refused in [2, 0x100, 1 << 32, 1 << 63] {
                    s.set_refused(field, refused);
                }
                witness(s);
            });
        });
    }
    script.finish_sampling()
}

/// The fields of one bit, and what else is given so that they matter.
const BITS: [(u8, &[Change]); 10] = [
    (SPE, &[]),
    (ERND, &[]),
    (RND, &[]),
    (PROFILING, &[]),
    (NV, &[(NV2, 1)]),
    (NV2, &[(NV, 1)]),
    (TPMS, &[]),
    (NS, &[]),
    (FGT_PMSICR_READ, &[]),
    (FGT_PMSICR_WRITE, &[]),
];

/// Refusal 4 for NSPB, largest 3: each value with each NS.
fn nspb_session() -> Vec<u8> {
    let mut script = Script::new(&GIVEN);
    for nspb in [3, 0, 1, 2] {
        script.set(NSPB, nspb);
        for refused in [4, 5, 7, 0xFF, 0x100, 0x103, 1 << 32, u64::MAX] {
            script.set_refused(NSPB, refused);
        }
        for ns in [0, 1] {
            script.set(NS, ns);
            script.probe(Kind::SicrRead, 0);
        }
    }
    script.finish_sampling()
}

/// Refusal 4 for the reload field, largest 0xFFFFFFFF: a member shows it.
fn reload_session() -> Vec<u8> {
    let mut script = Script::new(&GIVEN);
    for reload in [ALL_COUNT, 0, 1, 0x7FFF_FFFF, 0x8000_0000, ALL_COUNT - 1] {
        script.set(RELOAD, reload);
        for refused in [ALL_COUNT + 1, ALL_COUNT + 2, 1 << 63, u64::MAX] {
            script.set_refused(RELOAD, refused);
        }
        script.set(PMSICR, 1);
        script.member(0);
        script.probe(Kind::SicrRead, 0);
    }
    script.finish_sampling()
}

/// The register and the word take every value, the largest too; nothing is
/// refused.
fn any_value_session() -> Vec<u8> {
    let mut script = Script::new(&GIVEN);
    script.set(NV, 1);
    for value in [u64::MAX, 0, 1, ALL_COUNT, ALL_COUNT + 1, 1 << 63, 0x0123_4567_89AB_CDEF] {
        script.put(&[(PMSICR, value), (NV_WORD, !value)]);
        for nv2 in [0, 1] {
            script.set(NV2, nv2);
            script.probe(Kind::SicrRead, 0);
        }
    }
    script.finish_sampling()
}

/// Everything of MODEL N1 to N7 and J1 to J9 once, at the level that is set:
/// members, with profiling and without it, accesses, a start of profiling, and
/// values that are refused.
fn battery(script: &mut Script) {
    script.access(PMSICR_READ, 0);
    script.access(PMSICR_WRITE, counters(5, 5));
    script.member(3);
    script.set_refused(PROFILING, 2);
    script.put(&[(PROFILING, 0), (PMSICR, 0)]);
    script.member(1);
    script.set(PROFILING, 1);
    script.set_refused(NSPB, 4);
    script.set_refused(0x8E, 0);
    script.member(0);
}

/// What the refusals of the state start from.
const SAMPLED: [Change; 6] =
    [(SPE, 1), (ERND, 1), (PROFILING, 1), (NSPB, 1), (RELOAD, 1), (PMSICR, 0x0100_0000_0000_0001)];

/// Some refusals of the state, each with its neighbours.
fn rows_session(rows: &[state::Row]) -> Vec<u8> {
    let mut script = Script::new(&state::GIVEN);
    script.put(&SAMPLED);
    for (_, applies, neighbours) in rows {
        script.with(applies, |script| {
            battery(script);
            for neighbour in neighbours.iter() {
                script.with(neighbour, battery);
            }
        });
        battery(&mut script);
    }
    script.finish()
}

/// The same, where no member counts.
const NOT_SAMPLED: [Change; 2] = [(PROFILING, 1), (PMSICR, 0x0100_0000_0000_0001)];

/// Refusals of the state together, for one command.
fn together(name: &str, given: &[Change], command: fn(&mut Script)) -> Session {
    Session::new(name, state::subsets_session(given, command))
}

pub fn sessions() -> Vec<Session> {
    let refused = [(LEVEL, 3)];
    let named = |&byte: &u8| {
        Session::new(format!("sampling-refusal-1-byte-{byte:02x}"), unknown_session(byte))
    };
    let mut list: Vec<Session> = UNKNOWN.iter().map(named).collect();
    list.extend([
        Session::new("sampling-refusal-2-1-byte", cut_session(&[], 1)),
        Session::new("sampling-refusal-2-2-bytes", cut_session(&[], 2)),
        Session::new("sampling-refusal-2-before-11", cut_session(&refused, 1)),
        Session::new("sampling-draws-are-no-commands", draws_are_no_commands_session()),
        Session::new("sampling-4096-bytes", long(LIMIT - 1).end()),
        Session::new("sampling-4096-bytes-cut", long_cut_session()),
        Session::new("sampling-refusal-3-neighbours", unused_session()),
        Session::new("sampling-refusals-11", rows_session(&state::ROWS[..2])),
        Session::new("sampling-refusals-12-to-14", rows_session(&state::ROWS[2..5])),
        Session::new("sampling-refusals-15", rows_session(&state::ROWS[5..8])),
        Session::new("sampling-refusals-16-17", rows_session(&state::ROWS[8..])),
        Session::new("sampling-fields-80-to-83", bits_session(&BITS[..4])),
        Session::new("pmsicr-fields-84-to-8a", bits_session(&BITS[4..])),
        Session::new("pmsicr-field-88", nspb_session()),
        Session::new("sampling-field-8b", reload_session()),
        Session::new("pmsicr-fields-8c-8d", any_value_session()),
        together("pmsicr-refusals-together-read", &SAMPLED, |s| s.access(PMSICR_READ, 0)),
        together("pmsicr-refusals-together-write", &SAMPLED, |s| s.access(PMSICR_WRITE, 6)),
        together("sampling-refusals-together", &SAMPLED, |s| s.member(2)),
        together("sampling-refusals-together-no-spe", &NOT_SAMPLED, |s| s.member(2)),
    ]);
    list
}
