//! MODEL H4 to H6: steps back among commands that are no steps. External reads, what is
//! refused, sets that empty the list and refused ones that do not, and records
//! that are not consistent.

use super::back::start;
use super::fields::*;
use super::script::{Change, Script, PMCNTENSET, PMOVSCLR, PMOVSSET, PMSWINC};
use super::state;
use super::Session;
use crate::generate::counter_word;

/// External reads are no steps: between steps, between steps back, more of them
/// than are kept, refused ones, and where nothing is listed.
fn external_reads_session() -> Vec<u8> {
    let mut script = start(&[]);
    let read = |s: &mut Script| {
        for offset in [PMCNTENSET, PMOVSCLR, PMOVSSET, 0xC04] {
            s.external_read(offset);
        }
    };
    read(&mut script);
    script.back(1);
    for bit in 0..6 {
        script.external_write(PMOVSSET, 1 << bit);
        read(&mut script);
    }
    for _ in 0..20 {
        read(&mut script);
    }
    for _ in 0..7 {
        script.back(1);
        read(&mut script);
    }
    script.finish()
}

/// What is refused by its bytes is no step, and a set among it empties nothing.
const REFUSED: [fn(&mut Script); 9] = [
    |s| s.level_refused(4),
    |s| s.level_refused(0xFF),
    |s| s.tick(2),
    |s| s.tick(0xFF),
    |s| s.set_refused(0x0D, 0),
    |s| s.set_refused(0xFF, u64::MAX),
    |s| s.set_refused(N, 32),
    |s| s.set_refused(PMOVS, 1 << 31),
    |s| s.set_refused(PROFILING, 2),
];

/// Each of these before, between and behind steps, and then many of all.
fn refused_session() -> Vec<u8> {
    let mut script = start(&[]);
    for refused in REFUSED {
        refused(&mut script);
        script.back(1);
        script.tick(0);
        refused(&mut script);
        script.external_write(PMOVSSET, 1);
        refused(&mut script);
        script.back(1);
        script.external_read(PMOVSSET);
        refused(&mut script);
        script.back(2);
    }
    for _ in 0..70 {
        script.tick(0);
    }
    for index in 0..70 {
        REFUSED[index % REFUSED.len()](&mut script);
    }
    script.back(65);
    script.finish()
}

/// Every command that tests the record, external reads too.
fn tested(script: &mut Script) {
    script.access(counter_word(false, 3, 1), 9);
    script.access(PMSWINC, 1);
    script.access(0, 0);
    script.external_read(PMOVSCLR);
    script.external_write(PMOVSSET, u64::MAX);
    script.tick(0);
    script.tick(1);
    script.member(0);
}

/// A level that the machine can't be at: the level command is a step, and what is
/// refused there is none. The step back tests nothing.
fn bad_level_session(given: &[Change], level: u8) -> Vec<u8> {
    let mut script = start(given);
    script.tick(0);
    script.level(level);
    tested(&mut script);
    script.level(level);
    tested(&mut script);
    script.back(1);
    tested(&mut script);
    script.back(1);
    tested(&mut script);
    script.back(9);
    script.finish()
}

/// Records that a set has made inconsistent: nothing is listed then, and that is
/// what a step back is refused for. Levels are listed and taken back there.
fn state_session(rows: &[state::Row]) -> Vec<u8> {
    let mut script = Script::new(&state::GIVEN);
    for (_, applies, _) in rows {
        script.level(0);
        script.with(applies, |s| {
            s.set(SDD, 0);
            s.back(1);
            for level in [1, 0, 3, 2, 0] {
                s.level(level);
                s.tick(0);
            }
            for _ in 0..5 {
                s.back(1);
                s.external_read(PMCNTENSET);
            }
            tested(s);
            s.back(9);
        });
    }
    script.finish()
}

/// Sets of all sorts between steps: afterwards there is nothing to take back but
/// what comes later.
fn sets_session(sets: &[Change]) -> Vec<u8> {
    let mut script = start(&[(LEVEL, 1)]);
    for &(field, value) in sets {
        script.tick(0);
        script.external_write(PMOVSSET, 3);
        script.set(field, value);
        script.back(1);
        script.external_write(PMOVSCLR, 1);
        script.tick(0);
        script.back(1);
        script.external_read(PMOVSSET);
        script.back(2);
    }
    script.finish()
}

/// The first value is the one that is there.
const SETS: [Change; 14] = [
    (EL3_PRIORITY, 0),
    (EL3_PRIORITY, 1),
    (PMUV3, 1),
    (N, 7),
    (PMUACR_P, 3),
    (ENABLES, ALL_ENABLES),
    (PMOVS, 0x30),
    (EVENT, 1),
    (COUNTER + 3, 77),
    (INSTRUCTIONS, 1),
    (PROFILING, 1),
    (RELOAD, 3),
    (PMSICR, 2),
    (NV_WORD, 1),
];

/// A full list, and a set over it; and one behind some steps back.
fn set_over_full_session() -> Vec<u8> {
    let mut script = start(&[]);
    for backs in [0, 10, 64] {
        for _ in 0..70 {
            script.tick(0);
        }
        script.back(backs);
        script.set(EL3_PRIORITY, 0);
        script.back(1);
        script.tick(0);
        script.back(2);
    }
    script.finish()
}

pub fn sessions() -> Vec<Session> {
    let no_el2: [Change; 1] = [(EL2_ENABLED, 0)];
    vec![
        Session::new("back-among-external-reads", external_reads_session()),
        Session::new("back-among-refusals", refused_session()),
        Session::new("back-at-level-3-without-el3", bad_level_session(&[(HAVE_EL3, 0)], 3)),
        Session::new("back-at-level-2-without-el2", bad_level_session(&no_el2, 2)),
        Session::new("back-at-level-1-with-tge", bad_level_session(&[(TGE, 1)], 1)),
        Session::new("back-in-states-11-to-14", state_session(&state::ROWS[..5])),
        Session::new("back-in-states-15-to-17", state_session(&state::ROWS[5..])),
        Session::new("back-among-sets", sets_session(&SETS)),
        Session::new("back-after-a-set-over-64-steps", set_over_full_session()),
    ]
}
