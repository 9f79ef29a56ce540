//! MODEL P1 to P11 and Q1 to Q4: the worked examples and the wrong readings,
//! each as a session. Q5 is in sampling_start.rs. Q1 has that of P9. P10 is done with counter 5.

use super::fields::*;
use super::script::{Change, Kind, Script, PMCNTENSET, RUNNING};
use super::Session;
use crate::generate::{counter_word, word};

/// MODEL P0: what P1 to P11 start from.
const GIVEN: [Change; 12] = [
    (PMUV3, 1),
    (P5, 1),
    (P9, 1),
    (FGT, 1),
    (EXT64, 1),
    (HAVE_EL2, 1),
    (N, 6),
    (EL2_ENABLED, 1),
    (EN, 1),
    (HPMN, 4),
    (POWERED, 1),
    (ALLOWED, 1),
];

/// One thing that a row does.
#[derive(Clone, Copy)]
enum Step {
    Put(Change),
    Access(u32, u64),
    Write(u64),
    Read,
}

use Step::{Access, Put, Read, Write};

const SWINC: u32 = 0xD51B_9C81;
const READ_0: u32 = 0xD53B_E802;
const READ_3: u32 = 0xD53B_E862;
const READ_4: u32 = 0xD53B_E882;
const READ_5: u32 = 0xD53B_E8A2;
const READ_6: u32 = 0xD53B_E8C2;
const WRITE_3: u32 = 0xD51B_E862;
const LEVEL_0: Step = Put((LEVEL, 0));
const LEVEL_1: Step = Put((LEVEL, 1));
const LEVEL_2: Step = Put((LEVEL, 2));
const ALL_ENABLED: Step = Put((ENABLES, ALL_P));
const E_1: Step = Put((PMCR_E, 1));
const HPME_1: Step = Put((HPME, 1));

const ROWS: [(&str, &[Step]); 11] = [
    ("worked-p01", &[LEVEL_1, Access(READ_4, 0)]),
    (
        "worked-p02",
        &[Put((COUNTER + 5, 77)), LEVEL_1, Access(READ_5, 0), LEVEL_2, Access(READ_5, 0)],
    ),
    ("worked-p03", &[LEVEL_2, Access(READ_6, 0)]),
    (
        "worked-p04",
        &[Put((COUNTER + 3, 33)), Put((UEN, 1)), LEVEL_0, Access(READ_3, 0), Access(WRITE_3, 5)],
    ),
    (
        "worked-p05",
        &[
            Put((COUNTER + 3, 33)),
            Put((UEN, 1)),
            Put((ER, 1)),
            Put((PMUACR_P, 8)),
            Access(WRITE_3, 5),
            Access(READ_3, 0),
        ],
    ),
    (
        "worked-p06",
        &[
            ALL_ENABLED,
            E_1,
            HPME_1,
            LEVEL_1,
            Access(SWINC, 0x18),
            LEVEL_2,
            Access(READ_3, 0),
            Access(READ_4, 0),
            Access(SWINC, 0x18),
            Access(READ_3, 0),
            Access(READ_4, 0),
        ],
    ),
    (
        "worked-p07",
        &[
            ALL_ENABLED,
            E_1,
            HPME_1,
            Put((COUNTER, 0xFFFF_FFFF)),
            LEVEL_1,
            Access(SWINC, 1),
            Access(READ_0, 0),
            Put((COUNTER, 0xFFFF_FFFF)),
            Put((P9, 0)),
            Put((P5, 0)),
            Access(SWINC, 1),
            Access(READ_0, 0),
        ],
    ),
    ("worked-p08", &[LEVEL_0, Put((EN, 0)), Access(SWINC, 0), Put((TGE, 1)), Access(SWINC, 0)]),
    (
        "worked-p09",
        &[
            ALL_ENABLED,
            E_1,
            HPME_1,
            LEVEL_0,
            Put((UEN, 1)),
            Put((SW, 1)),
            Put((EN, 0)),
            Access(SWINC, 8),
        ],
    ),
    (
        "worked-p10",
        &[LEVEL_1, Put((HPMN, 6)), Access(READ_5, 0), Put((HPMN, 7)), Access(READ_5, 0)],
    ),
    (
        "worked-p11",
        &[
            Write(0x1_FFFF_FFFF),
            Read,
            Put((ICNTR, 1)),
            Write(0x1_FFFF_FFFF),
            Read,
            Put((ENABLES, 0)),
            Write(0x1_FFFF_FFFF),
            Read,
        ],
    ),
];

/// A row of the table.
fn row_session(steps: &[Step]) -> Vec<u8> {
    let mut script = Script::new(&GIVEN);
    for &step in steps {
        match step {
            Put((field, value)) => script.set(field, value),
            Access(word, operand) => script.access(word, operand),
            Write(value) => script.external_write(PMCNTENSET, value),
            Read => script.external_read(PMCNTENSET),
        }
    }
    script.finish()
}

/// MODEL Q2: T5 comes before T6, and PMSWINC is not trapped for a bit at or
/// above HPMN: the bit is ignored.
fn order_session() -> Vec<u8> {
    let mut script = Script::new(&GIVEN);
    script.put(&RUNNING);
    script.put(&[(HAVE_EL3, 1), (TPM_EL3, 1)]);
    for level in [0, 1, 2] {
        script.level(level);
        for m in [3, 4] {
            script.probe(Kind::CounterRead, m);
            script.probe(Kind::CounterWrite, m);
            script.probe(Kind::Swinc, m);
        }
        script.with(&[(TPM_EL3, 0)], |s| {
            s.access(word(false, 9, 12, 4, 1), 0x7FFF_FFF0);
            s.access(word(false, 9, 12, 4, 1), 0x7FFF_FFFF);
        });
    }
    script.finish_all()
}

/// MODEL Q3: while EL2 is not enabled, T5 does not look at HPMN, and PMSWINC
/// ignores no bit because of it. Counters on both sides of it are on.
fn not_enabled_session() -> Vec<u8> {
    let mut script = Script::new(&GIVEN);
    script.put(&RUNNING);
    script.put(&[(EL2_ENABLED, 0)]);
    for have_el2 in [1, 0] {
        script.set(HAVE_EL2, have_el2);
        for level in [0, 1] {
            script.level(level);
            for m in [3, 4, 5, 6] {
                script.probe(Kind::CounterRead, m);
                script.probe(Kind::CounterWrite, m);
                script.probe(Kind::Swinc, m);
            }
        }
    }
    script.finish_all()
}

/// MODEL Q4: no bit of PMUACR binds level 1, and none of PMUSERENR.
fn level_1_session() -> Vec<u8> {
    let mut script = Script::new(&GIVEN);
    script.put(&RUNNING);
    script.put(&[(UEN, 1), (ER, 1), (IR, 1), (ICNTR, 1), (COUNTER + 3, 0x13)]);
    for level in [1, 2, 0] {
        script.level(level);
        for kind in
            [Kind::CounterRead, Kind::CounterWrite, Kind::Swinc, Kind::IcntrRead, Kind::IcntrWrite]
        {
            script.probe(kind, 3);
        }
    }
    script.access(counter_word(true, 3, 2), 0);
    script.finish()
}

pub fn sessions() -> Vec<Session> {
    let mut list: Vec<Session> =
        ROWS.iter().map(|(name, steps)| Session::new(*name, row_session(steps))).collect();
    list.push(Session::new("reading-hpmn-before-rule-6", order_session()));
    list.push(Session::new("reading-hpmn-el2-not-enabled", not_enabled_session()));
    list.push(Session::new("reading-pmuacr-level-1", level_1_session()));
    list
}
