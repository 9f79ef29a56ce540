//! MODEL H1 and H2: one step, and back over it. Accesses that are stopped, that answer
//! in one word, that are ignored, that read, and that write; and level
//! commands. Steps that count are in back_counts.rs.

use super::fields::*;
use super::script::{Change, Script, PMCNTENSET, PMOVSCLR, PMSICR_READ, PMSICR_WRITE, PMSWINC};
use super::Session;
use crate::generate::{counter_word, word};

/// Consistent at each level, nothing is stopped at level 3; every kind of step can
/// change something. Level 1 has the word in place of PMSICR.
pub(super) const GIVEN: [Change; 30] = [
    (PMUV3, 1),
    (P5, 1),
    (P9, 1),
    (ICNTR, 1),
    (EXT64, 1),
    (HAVE_EL2, 1),
    (HAVE_EL3, 1),
    (N, 6),
    (EL2_ENABLED, 1),
    (HPMN, 4),
    (EN, 1),
    (ENPM2, 1),
    (PMUACR_P, ALL_P),
    (PMUACR_F0, 1),
    (ENABLES, ENABLE_F0 | 0x1F),
    (PMCR_E, 1),
    (HPME, 1),
    (POWERED, 1),
    (ALLOWED, 1),
    (COUNTER, 0x10),
    (COUNTER + 3, 0x13),
    (COUNTER + 4, 0x14),
    (INSTRUCTIONS, 0x7777),
    (SPE, 1),
    (NSPB, 1),
    (NV, 1),
    (NV2, 1),
    (RELOAD, 5),
    (PMSICR, 0x0300_0000_0000_0004),
    (NV_WORD, 0x0838_0838_0838_0838),
];

/// The record as given besides, and nothing listed: a set comes last, behind any
/// level command.
pub(super) fn start(given: &[Change]) -> Script {
    let mut script = Script::new(&GIVEN);
    script.put(given);
    script.set(EL3_PRIORITY, 0);
    script
}

/// MSR and MRS of PMICNTR.
pub(super) const ICNTR_WRITE: u32 = 0xD51B_9401;
pub(super) const ICNTR_READ: u32 = 0xD53B_9402;

/// Reads what a step can have changed, and takes the reading back, so that the
/// list is as it was if it had room for it. External reads need not be.
pub(super) fn see(script: &mut Script) {
    script.external_read(PMCNTENSET);
    script.external_read(PMOVSCLR);
    script.level(3);
    for m in [0, 3, 4, 5] {
        script.access(counter_word(true, m, 2), 0);
    }
    script.access(ICNTR_READ, 0);
    script.access(PMSICR_READ, 0);
    script.level(1);
    script.access(PMSICR_READ, 0);
    script.back(9);
}

/// A name, what is given besides, and one listed step.
pub(super) type Row = (&'static str, &'static [Change], fn(&mut Script));

/// A tick and the step; then the step is taken back, then the tick, and then there
/// is nothing more. The step again gives the same again.
pub(super) fn over(rows: &[Row]) -> Vec<Session> {
    let session = |(name, given, step): &Row| {
        let mut script = start(given);
        see(&mut script);
        script.tick(0);
        step(&mut script);
        see(&mut script);
        for _ in 0..2 {
            script.back(1);
            see(&mut script);
        }
        script.back(1);
        step(&mut script);
        see(&mut script);
        script.back(2);
        let bytes = if given.contains(&(N, 31)) { script.finish_all() } else { script.finish() };
        Session::new(format!("back-over-{name}"), bytes)
    };
    rows.iter().map(session).collect()
}

/// Steps after which the record is as before. They are taken back like others.
const IDLE: [Row; 26] = [
    ("trap-1", &[(EN, 0), (LEVEL, 0)], |s| s.access(counter_word(false, 3, 1), 9)),
    ("trap-1-of-pmswinc", &[(EN, 0), (LEVEL, 0)], |s| s.access(PMSWINC, 9)),
    ("trap-2", &[(LEVEL, 1)], |s| s.access(counter_word(false, 4, 1), 9)),
    ("trap-3", &[(TPM_EL3, 1), (LEVEL, 2)], |s| s.access(PMSWINC, 1)),
    ("trap-fine-grained", &[(FGT, 1), (FGTEN, 1), (FGT_COUNTER_WRITE, 1), (LEVEL, 1)], |s| {
        s.access(counter_word(false, 3, 1), 9)
    }),
    ("trap-fine-grained-of-pmswinc", &[(FGT, 1), (FGTEN, 1), (FGT_SWINC, 1), (LEVEL, 0)], |s| {
        s.access(PMSWINC, 9)
    }),
    ("trap-tpm-of-pmswinc", &[(TPM_EL2, 1), (LEVEL, 1)], |s| s.access(PMSWINC, 9)),
    ("trap-of-pmicntr", &[(ENPM2, 0), (LEVEL, 0)], |s| s.access(ICNTR_WRITE, 9)),
    ("trap-of-pmicntr-read", &[(FGT2, 1), (FGTEN2, 0), (LEVEL, 1)], |s| s.access(ICNTR_READ, 0)),
    (
        "trap-fine-grained-of-pmicntr",
        &[(FGT2, 1), (FGTEN2, 1), (NPMICNTR_READ, 1), (LEVEL, 1)],
        |s| s.access(ICNTR_WRITE, 9),
    ),
    ("trap-of-pmsicr", &[(TPMS, 1), (LEVEL, 1)], |s| s.access(PMSICR_WRITE, 9)),
    ("trap-nspb", &[(NSPB, 0), (LEVEL, 2)], |s| s.access(PMSICR_WRITE, 9)),
    ("undef-counter", &[(LEVEL, 3)], |s| s.access(counter_word(false, 6, 1), 9)),
    ("undef-pmswinc", &[(LEVEL, 3)], |s| s.access(word(true, 9, 12, 4, 2), 1)),
    ("undef-pmsicr", &[(LEVEL, 0)], |s| s.access(PMSICR_WRITE, 9)),
    ("other-word", &[(LEVEL, 1)], |s| s.access(0, 0)),
    ("other-word-beside-pmswinc", &[(LEVEL, 3)], |s| s.access(PMSWINC ^ 0x20, 0x1F)),
    ("ignored-p-bit", &[(UEN, 1), (PMUACR_P, ALL_P - 8), (LEVEL, 0)], |s| {
        s.access(counter_word(false, 3, 1), 9)
    }),
    ("ignored-er", &[(UEN, 1), (ER, 1), (LEVEL, 0)], |s| s.access(counter_word(false, 3, 1), 9)),
    ("ignored-f0", &[(PMUACR_F0, 0), (LEVEL, 0)], |s| s.access(ICNTR_WRITE, 9)),
    ("ignored-ir", &[(IR, 1), (LEVEL, 0)], |s| s.access(ICNTR_WRITE, 9)),
    ("read-counter", &[(LEVEL, 1)], |s| s.access(counter_word(true, 3, 2), 0)),
    ("read-counter-as-zero", &[(UEN, 1), (PMUACR_P, 0), (LEVEL, 0)], |s| {
        s.access(counter_word(true, 3, 2), u64::MAX)
    }),
    ("read-pmicntr", &[(LEVEL, 0)], |s| s.access(ICNTR_READ, u64::MAX)),
    ("read-pmsicr", &[(ERND, 1), (LEVEL, 2)], |s| s.access(PMSICR_READ, u64::MAX)),
    ("read-word", &[(LEVEL, 1)], |s| s.access(PMSICR_READ, u64::MAX)),
];

/// No p5: event counters have 32 bits.
pub(super) const NARROW: [Change; 2] = [(P9, 0), (P5, 0)];

/// Writes. A set has stored reserved bits, which MSR makes 0 and a step back does
/// not; the end of a session reads bits 63:56.
const WRITES: [Row; 13] = [
    ("write-counter", &[(COUNTER + 3, 0x0123_4567_89AB_CDEF), (LEVEL, 1)], |s| {
        s.access(counter_word(false, 3, 1), u64::MAX)
    }),
    ("write-counter-narrow", &[NARROW[0], NARROW[1], (COUNTER + 3, 0xFEDC_BA98)], |s| {
        s.access(counter_word(false, 3, 1), 0x1234_5678_9ABC_DEF0)
    }),
    ("write-counter-at-level-0", &[(UEN, 1), (PMUACR_P, 8)], |s| {
        s.access(counter_word(false, 3, 1), 1 << 32)
    }),
    ("write-counter-from-hpmn", &[(COUNTER + 5, u64::MAX), (LEVEL, 2)], |s| {
        s.access(counter_word(false, 5, 1), 0)
    }),
    ("write-counter-xzr", &[(LEVEL, 1)], |s| s.access(counter_word(false, 0, 31), u64::MAX)),
    ("write-counter-same", &[(LEVEL, 1)], |s| s.access(counter_word(false, 3, 1), 0x13)),
    ("write-pmicntr", &[(INSTRUCTIONS, u64::MAX - 7), (LEVEL, 1)], |s| {
        s.access(ICNTR_WRITE, 0x1234_5678_9ABC_DEF0)
    }),
    ("write-pmicntr-at-level-0", &[(LEVEL, 0)], |s| s.access(ICNTR_WRITE, u64::MAX)),
    ("write-pmsicr", &[(ERND, 1), (PMSICR, u64::MAX), (LEVEL, 3)], |s| {
        s.access(PMSICR_WRITE, 0x0123_4567_89AB_CDEF)
    }),
    ("write-pmsicr-without-ernd", &[(PMSICR, u64::MAX), (LEVEL, 2)], |s| {
        s.access(PMSICR_WRITE, 0x0123_4567_89AB_CDEF)
    }),
    ("write-pmsicr-at-level-1", &[(ERND, 1), (NV, 0), (LEVEL, 1)], |s| {
        s.access(PMSICR_WRITE, 0x0101_0101_0101_0101)
    }),
    ("write-word", &[(ERND, 1), (LEVEL, 1)], |s| s.access(PMSICR_WRITE, u64::MAX)),
    ("write-word-xzr", &[(NV_WORD, u64::MAX), (LEVEL, 1)], |s| {
        s.access(PMSICR_WRITE | 31, u64::MAX)
    }),
];

/// What level it is, by two answers that are taken back: level 0 has no PMSICR,
/// level 1 the word, and level 2 is stopped at a counter.
fn tell_level(script: &mut Script) {
    script.access(PMSICR_READ, 0);
    script.access(counter_word(true, 5, 2), 0);
    script.back(2);
}

/// From each level to each, the same too, and back.
fn levels_session() -> Vec<u8> {
    let mut script = start(&[(TPM_EL3, 1)]);
    for from in 0..=3 {
        for to in 0..=3 {
            script.level(from);
            script.set(EL3_PRIORITY, 0);
            script.level(to);
            tell_level(&mut script);
            script.back(1);
            tell_level(&mut script);
            script.back(1);
        }
    }
    script.finish()
}

/// Many levels, and then back over them one by one.
fn level_walk_session() -> Vec<u8> {
    let mut script = start(&[(TPM_EL3, 1)]);
    for level in [3, 1, 2, 0, 1, 1, 3, 2, 2, 1, 0, 0, 3] {
        script.level(level);
        tell_level(&mut script);
    }
    for _ in 0..14 {
        script.back(1);
        tell_level(&mut script);
    }
    script.finish()
}

/// Traps that TGE sends to EL2. Level 1 is refused then, so that what is seen in
/// between is seen from outside.
fn tge_session() -> Vec<u8> {
    let mut script = start(&[(EN, 0), (TGE, 1), (LEVEL, 0)]);
    script.external_write(PMCNTENSET, 0x20);
    script.access(counter_word(false, 3, 1), 9);
    script.access(PMSWINC, 9);
    for _ in 0..4 {
        script.external_read(PMCNTENSET);
        script.back(1);
    }
    script.finish()
}

pub fn sessions() -> Vec<Session> {
    let mut list = over(&IDLE);
    list.extend(over(&WRITES));
    list.push(Session::new("back-over-trap-1-to-el2", tge_session()));
    list.push(Session::new("back-over-each-level", levels_session()));
    list.push(Session::new("back-over-a-walk-of-levels", level_walk_session()));
    list
}
