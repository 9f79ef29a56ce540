//! MODEL H1, H6, R1, R2 and R6: the byte 07 in a session. First, last and alone, with no
//! operand and as an operand, beside unknown bytes and cut commands, and in
//! sessions of the greatest length.

use super::fields::*;
use super::script::{Script, PMOVSSET};
use super::Session;
use crate::session::LIMIT;

/// Short sessions, byte by byte.
const SHORT: [(&str, &[u8]); 16] = [
    ("first", &[0x07, 0x00]),
    ("alone", &[0x07]),
    ("twice-alone", &[0x07, 0x07]),
    ("last-without-end", &[0x02, 0x01, 0x07]),
    ("refused-last-without-end", &[0x02, 0x01, 0x07, 0x07]),
    ("before-the-end", &[0x02, 0x01, 0x07, 0x00]),
    ("refused-before-the-end", &[0x06, 0x00, 0x07, 0x07, 0x00]),
    ("after-the-end", &[0x02, 0x01, 0x00, 0x07, 0x07]),
    ("before-a-cut-level", &[0x02, 0x01, 0x07, 0x02]),
    ("in-a-cut-access", &[0x02, 0x01, 0x03, 0x07, 0x07]),
    ("in-a-cut-set", &[0x06, 0x00, 0x01, 0x07, 0x07, 0x07, 0x00]),
    ("after-a-refused-level", &[0x02, 0x04, 0x07, 0x02, 0x01, 0x02, 0x07, 0x07, 0x07, 0x00]),
    ("after-a-refused-tick", &[0x06, 0x02, 0x07, 0x06, 0x00, 0x06, 0x07, 0x07, 0x07, 0x00]),
    ("after-members", &[0x08, 0x07, 0x08, 0x00, 0x07, 0x07, 0x07, 0x00]),
    ("no-operand", &[0x02, 0x01, 0x07, 0x06, 0x00, 0x07, 0x08, 0x07, 0x07, 0x02, 0x02, 0x07, 0x00]),
    ("refused-goes-on", &[0x07, 0x06, 0x00, 0x07, 0x07, 0x02, 0x03, 0x07, 0x07, 0x07, 0x00]),
];

/// Bytes that differ from 07 in one bit and are no command.
const UNKNOWN: [u8; 5] = [0x0F, 0x17, 0x27, 0x47, 0x87];

/// Refusal 1: reading ends at the byte, behind a step back that is not refused.
fn unknown_session(byte: u8) -> Vec<u8> {
    let mut script = Script::new(&[]);
    script.tick(0);
    script.tick(0);
    script.back(1);
    script.plain(&[byte]);
    script.back(1);
    script.end()
}

/// The byte 07 in operands of every command is no step back.
fn operands_session() -> Vec<u8> {
    let sevens = 0x0707_0707_0707_0707;
    let mut script = Script::new(&[(PMUV3, 1), (ICNTR, 1), (EXT64, 1), (N, 31), (POWERED, 1)]);
    script.put(&[(ALLOWED, 1), (EXT32, 1), (ENABLES, ENABLE_F0), (COUNTER + 7, 0x0707)]);
    script.set_refused(EXT32, sevens);
    script.tick(0);
    script.level_refused(7);
    script.tick(7);
    script.member(7);
    script.access(0x0707_0707, sevens);
    script.external_read(0x0707);
    script.external_write(0x0707, sevens);
    script.external_write(PMOVSSET, sevens);
    script.external_read(PMOVSSET);
    for _ in 0..6 {
        script.back(1);
        script.external_read(PMOVSSET);
    }
    script.finish()
}

/// As many bytes as a session may have: first some bytes, then steps back, then
/// the last bytes.
fn long(first: &[u8], last: &[u8]) -> Vec<u8> {
    let mut bytes = first.to_vec();
    bytes.resize(LIMIT - last.len(), 0x07);
    bytes.extend(last);
    bytes
}

/// A step and its step back, as often as the length has room for, and the end.
fn seesaw(step: &[u8]) -> Vec<u8> {
    let pair = [step, &[0x07]].concat();
    let mut bytes = pair.repeat((LIMIT - 1) / pair.len());
    bytes.resize(LIMIT - 1, 0x07);
    bytes.push(0x00);
    bytes
}

/// 4,096 bytes are run, each of them a command or most of them.
fn long_sessions() -> Vec<Session> {
    let levels = [0x02, 0x03].repeat(65);
    vec![
        Session::new("back-4096-bytes", long(&[], &[])),
        Session::new("back-4096-bytes-after-65-levels", long(&levels, &[0x00])),
        Session::new("back-4096-bytes-ticks-in-turn", seesaw(&[0x06, 0x00])),
        Session::new("refusal-6-4097-steps-back", vec![0x07; LIMIT + 1]),
    ]
}

pub fn sessions() -> Vec<Session> {
    let short =
        |(name, bytes): &(&str, &[u8])| Session::new(format!("back-{name}"), bytes.to_vec());
    let unknown =
        |&byte: &u8| Session::new(format!("back-refusal-1-byte-{byte:02x}"), unknown_session(byte));
    let mut list: Vec<Session> = SHORT.iter().map(short).collect();
    list.extend(UNKNOWN.iter().map(unknown));
    list.push(Session::new("back-not-in-operands", operands_session()));
    list.extend(long_sessions());
    list
}
