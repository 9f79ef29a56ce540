//! MODEL R11 to R17 and V3: each of these refusals with its conditions flipped
//! one at a time, and several together, for every command that tests the record
//! and for set and level, which do not.

use super::fields::*;
use super::script::{Change, Kind, Script, Switch, PMCNTENSET, PMOVSCLR, PMOVSSET};
use super::Session;
use crate::generate::{counter_word, word};

/// Consistent at each level, all features; ticks count.
pub(super) const GIVEN: [Change; 23] = [
    (PMUV3, 1),
    (P5, 1),
    (P9, 1),
    (ICNTR, 1),
    (FGT, 1),
    (EXT64, 1),
    (HAVE_EL2, 1),
    (HAVE_EL3, 1),
    (N, 6),
    (EL2_ENABLED, 1),
    (EN, 1),
    (HPMN, 4),
    (ENPM2, 1),
    (PMUACR_F0, 1),
    (PMUACR_P, ALL_P),
    (ENABLES, ENABLE_F0),
    (POWERED, 1),
    (ALLOWED, 1),
    (COUNTER, 0x10),
    (COUNTER + 3, 0x13),
    (COUNTER + 5, 0x15),
    (COUNTER + 30, 0x1E),
    (INSTRUCTIONS, 0x7777),
];

/// Counters 0 and 3 are on, ticks count as before. The other enables are 0, so
/// that an external write shows.
const RUNNING: [Change; 3] = [(ENABLES, ENABLE_F0 | 9), (PMCR_E, 1), (HPME, 1)];

/// What makes a refusal apply, and what is changed from there, one at a time.
pub(super) type Row = (&'static str, &'static [Change], &'static [&'static [Change]]);

pub(super) const ROWS: [Row; 12] = [
    (
        "refusal-11-level-3",
        &[(LEVEL, 3), (HAVE_EL3, 0)],
        &[&[(HAVE_EL3, 1)], &[(LEVEL, 2)], &[(LEVEL, 1)], &[(LEVEL, 0)], &[(EL2_ENABLED, 0)]],
    ),
    (
        "refusal-11-level-2",
        &[(LEVEL, 2), (EL2_ENABLED, 0)],
        &[&[(EL2_ENABLED, 1)], &[(LEVEL, 3)], &[(LEVEL, 1)], &[(LEVEL, 0)], &[(HAVE_EL2, 0)]],
    ),
    (
        "refusal-12",
        &[(EL2_ENABLED, 1), (HAVE_EL2, 0)],
        &[&[(EL2_ENABLED, 0)], &[(HAVE_EL2, 1)], &[(LEVEL, 1)], &[(LEVEL, 2)], &[(LEVEL, 3)]],
    ),
    (
        "refusal-13",
        &[(HPMN, 7)],
        &[
            &[(HPMN, 6)],
            &[(HPMN, 5)],
            &[(N, 7)],
            &[(N, 8)],
            &[(EL2_ENABLED, 0)],
            &[(EL2_ENABLED, 0), (HAVE_EL2, 0)],
            &[(HPMN0, 1)],
        ],
    ),
    (
        "refusal-14",
        &[(HPMN, 0)],
        &[
            &[(HPMN, 1)],
            &[(HPMN0, 1)],
            &[(EL2_ENABLED, 0)],
            &[(EL2_ENABLED, 0), (HAVE_EL2, 0)],
            &[(N, 0)],
            &[(N, 0), (HPMN0, 1)],
        ],
    ),
    (
        "refusal-15-counter-0",
        &[(P9, 0), (P5, 0), (COUNTER, 1 << 32)],
        &[&[(P5, 1)], &[(COUNTER, 0xFFFF_FFFF)], &[(COUNTER, u64::MAX)], &[(N, 4)]],
    ),
    (
        "refusal-15-counter-30",
        &[(P9, 0), (P5, 0), (COUNTER + 30, 1 << 32)],
        &[&[(P5, 1)], &[(COUNTER + 30, 0xFFFF_FFFF)], &[(COUNTER + 30, 1 << 63)], &[(N, 31)]],
    ),
    (
        "refusal-15-not-pmicntr",
        &[(P9, 0), (P5, 0), (INSTRUCTIONS, 1 << 32)],
        &[&[(INSTRUCTIONS, u64::MAX)], &[(COUNTER + 29, 1 << 32)]],
    ),
    (
        "refusal-16",
        &[(LEVEL, 1), (TGE, 1)],
        &[
            &[(LEVEL, 0)],
            &[(LEVEL, 2)],
            &[(LEVEL, 3)],
            &[(EL2_ENABLED, 0)],
            &[(TGE, 0)],
            &[(TGE, 0), (E2H, 1)],
            &[(E2H, 1)],
        ],
    ),
    (
        "refusal-17-no-pmuv3",
        &[(PMUV3, 0)],
        &[
            &[(PMUV3, 1)],
            &[(P9, 0), (ICNTR, 0)],
            &[(P9, 0), (P5, 0)],
            &[(P9, 0), (P5, 0), (ICNTR, 0)],
            &[(P5, 0), (ICNTR, 0)],
        ],
    ),
    (
        "refusal-17-p9-without-p5",
        &[(P5, 0)],
        &[&[(P5, 1)], &[(P9, 0)], &[(ICNTR, 0)], &[(ICNTR, 0), (P9, 0)]],
    ),
    ("refusal-none", &[], &[&[(LEVEL, 1)], &[(LEVEL, 2)], &[(LEVEL, 3)]]),
];

/// Every kind of command once, at the level that is set.
fn battery(script: &mut Script) {
    script.access(counter_word(true, 0, 2), 0);
    script.access(counter_word(false, 0, 1), 0x99);
    script.access(word(false, 9, 12, 4, 1), 1 << 3);
    script.access(word(true, 9, 12, 4, 2), 0);
    script.access(word(true, 9, 4, 0, 2), 0);
    script.access(word(false, 9, 4, 0, 1), 0x8888);
    script.access(0, 0);
    script.external_read(PMCNTENSET);
    script.external_write(PMCNTENSET, 2);
    script.external_read(PMOVSCLR);
    script.external_write(PMOVSSET, 2);
    script.external_read(PMCNTENSET + 4);
    script.external_write(0, 4);
    script.tick(0);
    script.tick(1);
    script.tick(2);
    script.set_refused(0x0D, 0);
    script.set_refused(UEN, 2);
    script.level_refused(4);
}

/// One refusal, for every command, with its neighbours.
fn row_session(row: &Row) -> Vec<u8> {
    let (_, applies, neighbours) = row;
    let mut script = Script::new(&GIVEN);
    script.put(&RUNNING);
    script.with(applies, |script| {
        battery(script);
        for neighbour in neighbours.iter() {
            script.with(neighbour, battery);
        }
    });
    battery(&mut script);
    script.finish()
}

/// MODEL R13 and R14: HPMN beside N, with the largest N too.
fn hpmn_session(have_el2: u64) -> Vec<u8> {
    let mut script = Script::new(&GIVEN);
    script.put(&[(LEVEL, 1), (EL2_ENABLED, 0), (HAVE_EL2, have_el2)]);
    for hpmn0 in [0, 1] {
        script.set(HPMN0, hpmn0);
        for n in [0u64, 1, 2, 15, 16, 30, 31] {
            script.set(N, n);
            for hpmn in [0, n.saturating_sub(1), n, n + 1, 31] {
                if hpmn <= 31 {
                    script.set(HPMN, hpmn);
                    script.access(counter_word(true, 0, 2), 0);
                }
            }
        }
    }
    script.finish()
}

/// MODEL R15: each counter, those from N up too: 2^32 and the value before it.
fn wide_counters_session() -> Vec<u8> {
    let mut script = Script::new(&GIVEN);
    script.put(&[(P9, 0), (P5, 0), (N, 4)]);
    for m in 0..31 {
        script.set(COUNTER + m, 1 << 32);
        script.access(counter_word(true, 1, 2), 0);
        script.set(COUNTER + m, 0xFFFF_FFFF);
        script.access(counter_word(true, 1, 2), 0);
    }
    script.finish_all()
}

/// MODEL R17: all subsets of its four features, at each level.
fn features_session() -> Vec<u8> {
    let switches: [Switch; 4] = [(PMUV3, 1, 0), (P5, 1, 0), (P9, 1, 0), (ICNTR, 1, 0)];
    let mut script = Script::new(&GIVEN);
    for level in 0..=3 {
        script.level(level);
        script.subsets(&switches, |s| {
            s.access(counter_word(true, 3, 2), 0);
            s.external_read(PMCNTENSET);
            s.tick(0);
        });
    }
    script.finish()
}

/// An external write, then a read.
fn both_directions(script: &mut Script, offset: u16) {
    script.external_write(offset, 0x4000_0001);
    script.external_read(offset);
}

/// The commands that test the record, one for each session of pairs, and what
/// is set so that they have an effect.
const COMMANDS: [(&str, &[Change], fn(&mut Script)); 11] = [
    ("counter-read", &[], |s| s.probe(Kind::CounterRead, 3)),
    ("counter-write", &[], |s| s.access(counter_word(false, 3, 1), 0x99)),
    ("pmswinc", &RUNNING, |s| s.access(word(false, 9, 12, 4, 1), 9)),
    ("pmicntr-read", &[], |s| s.probe(Kind::IcntrRead, 0)),
    ("pmicntr-write", &[], |s| s.access(word(false, 9, 4, 0, 1), 0x8888)),
    ("other-word", &[], |s| s.access(0xD53B_E082, 0)),
    ("external-read", &[], |s| s.external_read(PMCNTENSET)),
    ("external-write", &[], |s| s.external_write(PMCNTENSET, 1 << 31)),
    ("pmovsclr", &[], |s| both_directions(s, PMOVSCLR)),
    ("pmovsset", &[], |s| both_directions(s, PMOVSSET)),
    ("tick", &[], |s| s.tick(0)),
];

/// MODEL V3: refusals together, so that the lowest number shows. R11, R12, R13,
/// R15, R16 and R17 in all subsets that can be; then R14 in place of R12 and
/// R13; then level 2.
pub(super) fn subsets_session(given: &[Change], command: fn(&mut Script)) -> Vec<u8> {
    let wide = (COUNTER + 30, 1 << 32);
    let mut script = Script::new(&GIVEN);
    script.put(given);
    script.put(&[wide, (P9, 0), (HAVE_EL3, 0), (HPMN, 5)]);
    let shared: [Switch; 4] = [(LEVEL, 1, 3), (P5, 1, 0), (TGE, 0, 1), (PMUV3, 1, 0)];
    let mut first = shared.to_vec();
    first.extend([(HAVE_EL2, 1, 0), (N, 6, 4)]);
    script.subsets(&first, command);
    script.put(&[(HAVE_EL2, 1), (N, 6), (HPMN, 0)]);
    let mut second = shared.to_vec();
    second.push((HPMN0, 1, 0));
    script.subsets(&second, command);
    script.put(&[(LEVEL, 2), (HPMN, 5), (TGE, 0)]);
    script.subsets(&[(EL2_ENABLED, 1, 0), (N, 6, 4), (P5, 1, 0), (PMUV3, 1, 0)], command);
    script.finish()
}

pub fn sessions() -> Vec<Session> {
    let mut list: Vec<Session> =
        ROWS.iter().map(|row| Session::new(row.0, row_session(row))).collect();
    list.push(Session::new("refusal-13-14-hpmn-n", hpmn_session(1)));
    list.push(Session::new("refusal-13-14-hpmn-n-no-el2", hpmn_session(0)));
    list.push(Session::new("refusal-15-each-counter", wide_counters_session()));
    list.push(Session::new("refusal-17-subsets", features_session()));
    for (name, given, command) in COMMANDS {
        let bytes = subsets_session(given, command);
        list.push(Session::new(format!("refusals-together-{name}"), bytes));
    }
    list
}
