//! MODEL H1 and H2: back over steps that later ones build on, one by one. What is among
//! the steps and is none has a file of its own, back_among.rs.

use super::back::{see, start, ICNTR_WRITE};
use super::fields::*;
use super::script::{Change, Script, PMCNTENSET, PMOVSCLR, PMOVSSET};
use super::script::{PMSICR_READ, PMSICR_WRITE, PMSWINC};
use super::Session;
use crate::generate::counter_word;

/// A step.
type Step = fn(&mut Script);

/// A name, what is given besides, and steps of which later ones change what
/// earlier ones did, or what they depended on.
type Row = (&'static str, &'static [Change], &'static [Step]);

/// Counters 0, 3, 4 and 5 next to a carry.
const CARRIES: [Change; 4] = [
    (COUNTER, 0xFFFF_FFFE),
    (COUNTER + 3, 0xFFFF_FFFF),
    (COUNTER + 4, 0xFFFF_FFFF),
    (COUNTER + 5, 0xFFFF_FFFF),
];

const SWINC: Step = |s| s.access(PMSWINC, 0x3F);

const ROWS: [Row; 11] = [
    (
        "swinc-before-lower-level",
        &[(LEVEL, 2)],
        &[SWINC, |s| s.level(1), SWINC, |s| s.level(0), SWINC],
    ),
    ("swinc-before-higher-level", &[], &[SWINC, |s| s.level(1), SWINC, |s| s.level(3), SWINC]),
    (
        "swinc-before-enables",
        &[(LEVEL, 3), (ENABLES, ENABLE_F0 | 1)],
        &[SWINC, |s| s.external_write(PMCNTENSET, 0x38), SWINC],
    ),
    (
        "swinc-before-pmovsclr",
        &[(LEVEL, 3)],
        &[SWINC, |s| s.external_write(PMOVSCLR, 0x18), SWINC, |s| s.external_write(PMOVSCLR, 1)],
    ),
    (
        "pmovsset-before-swinc",
        &[(LEVEL, 3)],
        &[|s| s.external_write(PMOVSSET, 0x08), SWINC, |s| s.external_write(PMOVSSET, 0x3F)],
    ),
    (
        "counter-written-and-counted",
        &[(LEVEL, 3)],
        &[
            |s| s.access(counter_word(false, 0, 1), u64::MAX),
            SWINC,
            |s| s.access(counter_word(false, 0, 1), 5),
            |s| s.access(counter_word(false, 0, 1), 6),
            SWINC,
        ],
    ),
    (
        "pmicntr-written-and-counted",
        &[(LEVEL, 1)],
        &[
            |s| s.access(ICNTR_WRITE, u64::MAX),
            |s| s.tick(0),
            |s| s.tick(0),
            |s| s.access(ICNTR_WRITE, 9),
            |s| s.tick(1),
            |s| s.tick(0),
        ],
    ),
    (
        "enables-before-ticks",
        &[(ENABLES, 0), (INSTRUCTIONS, u64::MAX)],
        &[|s| s.tick(0), |s| s.external_write(PMCNTENSET, ENABLE_F0), |s| s.tick(0)],
    ),
    (
        "pmsicr-written-and-counted",
        &[(PROFILING, 1), (ERND, 1), (RND, 1), (RELOAD, 2), (LEVEL, 2)],
        &[
            |s| s.access(PMSICR_WRITE, 0x0100_0000_0000_0001),
            |s| s.member(3),
            |s| s.member(4),
            |s| s.access(PMSICR_WRITE, 0x0200_0000_0000_0001),
            |s| s.member(0),
            |s| s.member(1),
        ],
    ),
    (
        "word-and-register",
        &[(ERND, 1), (LEVEL, 1)],
        &[
            |s| s.access(PMSICR_WRITE, 0x0111_1111),
            |s| s.level(2),
            |s| s.access(PMSICR_WRITE, 0x0222_2222),
            |s| s.level(1),
            |s| s.access(PMSICR_WRITE, 0x0333_3333),
        ],
    ),
    (
        "each-kind-once",
        &[(PROFILING, 1), (LEVEL, 1)],
        &[
            |s| s.access(counter_word(false, 3, 1), 0xFFFF_FFFF),
            SWINC,
            |s| s.external_write(PMOVSCLR, 0x3F),
            |s| s.tick(0),
            |s| s.member(0),
            |s| s.level(0),
            |s| s.access(PMSICR_READ, 0),
        ],
    ),
];

/// All steps, each one looked at, then back one by one, each one looked at, and
/// once more than there are. In the middle of the way back one step again.
fn row_session(given: &[Change], steps: &[Step]) -> Vec<u8> {
    let mut script = start(&CARRIES);
    script.put(given);
    script.set(EL3_PRIORITY, 0);
    for step in steps {
        step(&mut script);
        see(&mut script);
    }
    for (index, step) in steps.iter().enumerate().rev() {
        script.back(1);
        see(&mut script);
        if index == steps.len() / 2 {
            step(&mut script);
            see(&mut script);
            script.back(1);
        }
    }
    script.back(1);
    script.finish()
}

pub fn sessions() -> Vec<Session> {
    let session = |(name, given, steps): &Row| {
        Session::new(format!("back-mixed-{name}"), row_session(given, steps))
    };
    ROWS.iter().map(session).collect()
}
