//! MODEL H1 and H2: back over one step that counts or moves flags: PMSWINC, external
//! writes, ticks and members of the sample population; and over those of these
//! that change nothing.

use super::back::{over, Row, NARROW};
use super::fields::*;
use super::script::{PMCNTENSET, PMOVSCLR, PMOVSSET, PMSWINC};
use super::Session;

/// The low 32 bits all ones.
const LOW: u64 = 0xFFFF_FFFF;

/// PMSWINC of several counters, most of them next to a carry.
const SWINC: [Row; 18] = [
    ("swinc-one", &[(LEVEL, 1)], |s| s.access(PMSWINC, 1)),
    ("swinc-several", &[(LEVEL, 2)], |s| s.access(PMSWINC, 0x3F)),
    (
        "swinc-narrow",
        &[
            NARROW[0],
            NARROW[1],
            (COUNTER, LOW),
            (COUNTER + 3, LOW),
            (COUNTER + 4, LOW - 1),
            (LEVEL, 3),
        ],
        |s| s.access(PMSWINC, u64::MAX),
    ),
    (
        "swinc-carry-32",
        &[(COUNTER, LOW), (COUNTER + 3, 1 << 32 | LOW), (COUNTER + 4, u64::MAX), (LEVEL, 3)],
        |s| s.access(PMSWINC, 0x19),
    ),
    (
        "swinc-carry-64",
        &[
            (LP, 1),
            (HLP, 1),
            (COUNTER, u64::MAX),
            (COUNTER + 3, LOW),
            (COUNTER + 4, u64::MAX),
            (LEVEL, 3),
        ],
        |s| s.access(PMSWINC, 0x19),
    ),
    ("swinc-lp-alone", &[(LP, 1), (COUNTER + 3, LOW), (COUNTER + 4, LOW), (LEVEL, 2)], |s| {
        s.access(PMSWINC, 0x18)
    }),
    ("swinc-hlp-alone", &[(HLP, 1), (COUNTER + 3, LOW), (COUNTER + 4, LOW), (LEVEL, 2)], |s| {
        s.access(PMSWINC, 0x18)
    }),
    (
        "swinc-all-flags-set",
        &[(PMOVS, ALL_PMOVS), (COUNTER, LOW), (COUNTER + 3, LOW), (COUNTER + 4, LOW), (LEVEL, 3)],
        |s| s.access(PMSWINC, 0x19),
    ),
    (
        "swinc-some-flags-set",
        &[(PMOVS, 0x29), (COUNTER, LOW), (COUNTER + 3, 0), (COUNTER + 4, LOW), (LEVEL, 3)],
        |s| s.access(PMSWINC, 0x19),
    ),
    (
        "swinc-other-events",
        &[(EVENT, 1), (EVENT + 3, 0xFFFF), (COUNTER, LOW), (COUNTER + 4, LOW), (LEVEL, 3)],
        |s| s.access(PMSWINC, 0x19),
    ),
    (
        "swinc-counters-off",
        &[
            (ENABLES, ENABLE_F0 | 8),
            (COUNTER, LOW),
            (COUNTER + 3, LOW),
            (COUNTER + 4, LOW),
            (LEVEL, 3),
        ],
        |s| s.access(PMSWINC, 0x19),
    ),
    ("swinc-e-off", &[(PMCR_E, 0), (COUNTER, LOW), (COUNTER + 4, LOW), (LEVEL, 3)], |s| {
        s.access(PMSWINC, 0x19)
    }),
    ("swinc-hpme-off", &[(HPME, 0), (COUNTER, LOW), (COUNTER + 4, LOW), (LEVEL, 3)], |s| {
        s.access(PMSWINC, 0x19)
    }),
    ("swinc-below-hpmn", &[(COUNTER + 3, LOW), (COUNTER + 4, LOW), (LEVEL, 1)], |s| {
        s.access(PMSWINC, 0x3F)
    }),
    ("swinc-p-bits", &[(UEN, 1), (PMUACR_P, 8), (COUNTER, LOW), (COUNTER + 3, LOW)], |s| {
        s.access(PMSWINC, 0x1F)
    }),
    ("swinc-from-hpmn", &[(COUNTER + 4, LOW), (LEVEL, 1)], |s| s.access(PMSWINC, 0x30)),
    ("swinc-high-bits", &[(LEVEL, 3)], |s| s.access(PMSWINC, 0xFFFF_FFFF_8000_0000)),
    ("swinc-xzr", &[(LEVEL, 3)], |s| s.access(PMSWINC | 31, 0x1F)),
];

/// PMSWINC of all 31 counters, some of them at a carry.
const ALL: [Row; 1] = [(
    "swinc-every-counter",
    &[
        (N, 31),
        (HPMN, 16),
        (ENABLES, ALL_ENABLES),
        (COUNTER, LOW),
        (COUNTER + 1, LOW),
        (COUNTER + 5, u64::MAX),
        (COUNTER + 15, LOW),
        (COUNTER + 16, LOW),
        (COUNTER + 29, LOW),
        (COUNTER + 30, u64::MAX),
        (LEVEL, 2),
    ],
    |s| s.access(PMSWINC, u64::MAX),
)];

/// External writes. Bits that had their value already keep it when the write is
/// taken back, and so do bits of counters that there are not.
const EXTERNAL: [Row; 22] = [
    ("enables-new", &[(ENABLES, ENABLE_F0)], |s| s.external_write(PMCNTENSET, 0x3F)),
    ("enables-in-part", &[(ENABLES, ENABLE_F0 | 5)], |s| s.external_write(PMCNTENSET, 0xF)),
    ("enables-all", &[(ENABLES, ENABLE_F0 | 5)], |s| s.external_write(PMCNTENSET, u64::MAX)),
    ("enables-none", &[], |s| s.external_write(PMCNTENSET, 0)),
    ("enables-hidden", &[(ENABLES, ENABLE_F0 | 0x5555_5540)], |s| {
        s.external_write(PMCNTENSET, u64::MAX)
    }),
    ("enables-0-and-32", &[(ENABLES, 0)], |s| s.external_write(PMCNTENSET, ENABLE_F0 | 1)),
    ("pmovsclr-in-part", &[(PMOVS, 0x3F)], |s| s.external_write(PMOVSCLR, 0x15)),
    ("pmovsclr-clear-already", &[(PMOVS, 0x2A)], |s| s.external_write(PMOVSCLR, 0x1F)),
    ("pmovsclr-hidden", &[(PMOVS, ALL_PMOVS)], |s| s.external_write(PMOVSCLR, u64::MAX)),
    ("pmovsclr-none", &[(PMOVS, ALL_PMOVS)], |s| s.external_write(PMOVSCLR, 0)),
    ("pmovsset-new", &[], |s| s.external_write(PMOVSSET, PMOVS_F0 | 0x15)),
    ("pmovsset-in-part", &[(PMOVS, 0x2A)], |s| s.external_write(PMOVSSET, 0x1F)),
    ("pmovsset-set-already", &[(PMOVS, 0x2A)], |s| s.external_write(PMOVSSET, 0x0A)),
    ("pmovsset-hidden", &[(PMOVS, 0x2AAA_AA80)], |s| s.external_write(PMOVSSET, u64::MAX)),
    ("external-locked", &[(SOFTWARE_LOCK, 1)], |s| s.external_write(PMCNTENSET, u64::MAX)),
    ("external-locked-flags", &[(SOFTWARE_LOCK, 1), (PMOVS, 7)], |s| {
        s.external_write(PMOVSCLR, u64::MAX)
    }),
    ("external-absent", &[(EXT64, 0)], |s| s.external_write(PMCNTENSET, u64::MAX)),
    ("external-error", &[(OS_LOCK, 1)], |s| s.external_write(PMCNTENSET, u64::MAX)),
    ("external-error-flags", &[(POWERED, 0)], |s| s.external_write(PMOVSSET, u64::MAX)),
    ("external-error-clear", &[(ALLOWED, 0), (PMOVS, 7)], |s| s.external_write(PMOVSCLR, 7)),
    ("external-other", &[], |s| s.external_write(0xC04, u64::MAX)),
    ("external-other-in-error", &[(DOUBLE_LOCK, 1)], |s| s.external_write(0xC81, u64::MAX)),
];

/// Ticks, behind the tick that every session of this form has.
const TICKS: [Row; 7] = [
    ("tick", &[], |s| s.tick(0)),
    ("tick-wraps", &[(INSTRUCTIONS, u64::MAX - 1)], |s| s.tick(0)),
    ("tick-after-the-wrap", &[(INSTRUCTIONS, u64::MAX)], |s| s.tick(0)),
    ("tick-wraps-flag-set", &[(INSTRUCTIONS, u64::MAX - 1), (PMOVS, ALL_PMOVS)], |s| s.tick(0)),
    ("tick-prohibited", &[(INSTRUCTIONS, u64::MAX - 1)], |s| s.tick(1)),
    ("tick-not-enabled", &[(ENABLES, 0x1F), (INSTRUCTIONS, u64::MAX)], |s| s.tick(0)),
    ("tick-without-icntr", &[(ICNTR, 0), (INSTRUCTIONS, u64::MAX)], |s| s.tick(0)),
];

/// Members, with profiling and two counters where nothing else is said. Profiling
/// starts before the register is set, so that it is not reloaded.
const MEMBERS: [Row; 14] = [
    ("member-counts", &[(PROFILING, 1), (ERND, 1)], |s| s.member(9)),
    ("member-counts-largest", &[(PROFILING, 1), (PMSICR, ALL_COUNT)], |s| s.member(9)),
    ("member-selected", &[(PROFILING, 1), (PMSICR, 1)], |s| s.member(9)),
    ("member-selected-reload-0", &[(PROFILING, 1), (RELOAD, 0), (PMSICR, 1)], |s| s.member(9)),
    ("member-selected-by-secondary", &[(PROFILING, 1), (ERND, 1), (PMSICR, 1 << 56 | 4)], |s| {
        s.member(9)
    }),
    ("member-draws", &[(PROFILING, 1), (ERND, 1), (RND, 1), (PMSICR, 1)], |s| s.member(255)),
    ("member-draws-0", &[(PROFILING, 1), (ERND, 1), (RND, 1), (PMSICR, 1)], |s| s.member(0)),
    (
        "member-draws-over-secondary",
        &[(PROFILING, 1), (ERND, 1), (RND, 1), (PMSICR, 0x0900_0000_0000_0001)],
        |s| s.member(7),
    ),
    (
        "member-ends-both",
        &[(PROFILING, 1), (ERND, 1), (RND, 1), (PMSICR, 0x0100_0000_0000_0001)],
        |s| s.member(7),
    ),
    ("member-secondary-alone", &[(PROFILING, 1), (ERND, 1), (PMSICR, 2 << 56)], |s| s.member(7)),
    ("member-reserved-bits", &[(PROFILING, 1), (PMSICR, 0x01FF_FFFF_0000_0001)], |s| s.member(7)),
    ("member-zero", &[(PROFILING, 1), (PMSICR, 0)], |s| s.member(7)),
    ("member-profiling-off", &[(ERND, 1), (PMSICR, 0x0100_0000_0000_0001)], |s| s.member(7)),
    ("member-without-spe", &[(PROFILING, 1), (PMSICR, 1), (SPE, 0)], |s| s.member(7)),
];

pub fn sessions() -> Vec<Session> {
    let tables: [&[Row]; 5] = [&SWINC, &ALL, &EXTERNAL, &TICKS, &MEMBERS];
    tables.into_iter().flat_map(over).collect()
}
