//! MODEL Z1, Z5 and R6: long sessions in the short form. The byte in front is not counted, so
//! that they have up to 4,097 bytes; and sessions whose long form has as many as are allowed,
//! or one more.

use super::fields::*;
use super::script::{Script, PMCNTENSET};
use super::short::GIVEN;
use super::Session;
use crate::form::SHORT_FORM;
use crate::generate::counter_word;
use crate::session::LIMIT;

/// The command with a number: sets of each width, and an external write. The last read
/// shows them.
fn command(script: &mut Script, number: u64) {
    let counter = COUNTER + (number % 31) as u8;
    match number % 5 {
        0 => script.set(counter, number % 0x100),
        1 => script.set(counter, 0x100 + number),
        2 => script.set(counter, 0x1_0000_0000 + number),
        3 => script.external_write(PMCNTENSET, 1 << (number % 32)),
        _ => script.set(EVENT + (number % 31) as u8, 1),
    }
}

/// Reads at the end.
fn read(script: &mut Script) {
    script.external_read(PMCNTENSET);
    for m in [0, 1, 2, 29, 30] {
        script.access(counter_word(true, m, m), 0);
    }
}

/// Whole commands behind the byte in front, so many bytes; without the end command.
fn long(length: usize) -> Script {
    let mut script = Script::short(&GIVEN);
    let counted = |script: &Script| script.len() - 1;
    let mut number = 0;
    while counted(&script) + 90 < length {
        command(&mut script, number);
        number += 1;
    }
    read(&mut script);
    if (length - counted(&script)) % 2 == 1 {
        script.external_read(PMCNTENSET);
    }
    while counted(&script) < length {
        script.tick(0);
    }
    script
}

/// So many bytes behind the one in front, the end command first or last.
fn length_sessions() -> Vec<Session> {
    let early = |length: usize| {
        let mut bytes = Script::short(&GIVEN[..2]).end();
        bytes.resize(1 + length, SHORT_FORM);
        bytes
    };
    let mut list = Vec::new();
    for length in [LIMIT - 1, LIMIT, LIMIT + 1] {
        let start = if length > LIMIT { "short-refusal-6" } else { "short" };
        list.push(Session::new(format!("{start}-{length}-bytes"), long(length - 1).end()));
        list.push(Session::new(format!("{start}-{length}-bytes-early-end"), early(length)));
    }
    list
}

/// So many bytes behind the one in front: one piece over and over, then zeros where it
/// does not fit once more.
fn alike(length: usize, piece: &[u8]) -> Vec<u8> {
    let mut bytes = vec![SHORT_FORM];
    bytes.extend(piece.repeat(length / piece.len()));
    bytes.resize(1 + length, 0x00);
    bytes
}

/// One set over and over is 1,365 commands, which the long form has no room for.
fn alike_sessions() -> Vec<Session> {
    let wide = [0x12, N, 6, 0, 0, 0];
    vec![
        Session::new("short-4096-bytes-of-sets", alike(LIMIT, &[0x11, N, 31])),
        Session::new("short-4096-bytes-of-refusal-19", alike(LIMIT, &wide)),
        Session::new("short-4096-bytes-of-10", alike(LIMIT, &[SHORT_FORM])),
        Session::new("short-refusal-6-before-1", alike(LIMIT + 1, &[0xFF])),
    ]
}

/// The end command is missing, or a set is cut off by the limit.
fn cut_sessions() -> Vec<Session> {
    let cut = |set: &[u8], count: usize| {
        let mut script = long(LIMIT - count);
        script.plain(&set[..count]);
        script.cut()
    };
    vec![
        Session::new("short-4096-bytes-without-end", long(LIMIT).cut()),
        Session::new("short-4096-bytes-cut-11", cut(&[0x11, N, 31], 2)),
        Session::new("short-4096-bytes-cut-12", cut(&[0x12, N, 6, 0, 0, 0], 5)),
    ]
}

/// MODEL Z5: the same commands in both forms, until the long one has so many bytes with
/// its end.
pub fn both_forms(length: usize) -> (Vec<u8>, Vec<u8>) {
    let (mut long, mut short) = (Script::new(&GIVEN), Script::short(&GIVEN));
    let mut number = 0;
    while long.len() + 90 < length {
        command(&mut long, number);
        command(&mut short, number);
        number += 1;
    }
    read(&mut long);
    read(&mut short);
    while long.len() + 1 < length {
        long.back(1);
        short.back(1);
    }
    (long.end(), short.end())
}

pub fn sessions() -> Vec<Session> {
    let mut list = length_sessions();
    list.extend(alike_sessions());
    list.extend(cut_sessions());
    for length in [LIMIT, LIMIT + 1] {
        let name = format!("short-long-form-has-{length}-bytes");
        list.push(Session::new(name, both_forms(length).1));
    }
    list.push(Session::new("short-refusal-6-4098-bytes-in-long-form", both_forms(LIMIT + 2).0));
    list
}
