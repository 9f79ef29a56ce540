//! Every field of the record by what it changes: its largest value and values
//! beside it, and that a refused value (MODEL R4) changes nothing.

use super::fields::*;
use super::script::{Change, Kind, Script, PMCNTENSET, PMOVSCLR, PMSWINC, RUNNING};
use super::Session;
use crate::generate::{counter_word, word};

/// Consistent, at level 1, and no rule applies to counter 3.
const GIVEN: [Change; 22] = [
    (PMUV3, 1),
    (P5, 1),
    (P9, 1),
    (ICNTR, 1),
    (FGT, 1),
    (FGT2, 1),
    (EXT64, 1),
    (HAVE_EL2, 1),
    (HAVE_EL3, 1),
    (N, 6),
    (EL2_ENABLED, 1),
    (EN, 1),
    (HPMN, 4),
    (ENPM2, 1),
    (FGTEN, 1),
    (FGTEN2, 1),
    (NPMICNTR_READ, 1),
    (NPMICNTR_WRITE, 1),
    (POWERED, 1),
    (ALLOWED, 1),
    (COUNTER + 3, 0x1_0000_0033),
    (INSTRUCTIONS, 0x77),
];

/// A command whose answer shows the value of a field.
#[derive(Clone, Copy)]
enum Witness {
    Access(Kind),
    /// A counter write of more than 32 bits, then a read.
    Wide,
    /// An external write of all bits, then a read; the enables start as 0.
    External,
    /// An increment that carries out of 32 bits, then a read of the flags.
    Carry,
}

use Witness::{Access, Carry, External, Wide};

/// A field of one bit, what else is set so that it matters, and what shows it.
type Row = (u8, &'static [Change], Witness);

const READ: Witness = Access(Kind::CounterRead);
const WRITE: Witness = Access(Kind::CounterWrite);
const SWINC: Witness = Access(Kind::Swinc);
const IREAD: Witness = Access(Kind::IcntrRead);
const IWRITE: Witness = Access(Kind::IcntrWrite);

/// Counter 3 can count, as far as its own enable bit goes.
const ENABLED: Change = (ENABLES, 1 << 3);

const FEATURES: [Row; 15] = [
    (PMUV3, &[(P5, 0), (P9, 0), (ICNTR, 0), (COUNTER + 3, 0x33)], READ),
    (P5, &[(P9, 0), (COUNTER + 3, 0x33)], Wide),
    (P9, &[(LEVEL, 0), (UEN, 1)], READ),
    (ICNTR, &[], IREAD),
    (FGT, &[(FGT_COUNTER_READ, 1)], READ),
    (FGT2, &[(NPMICNTR_READ, 0)], IREAD),
    (HPMN0, &[(HPMN, 0), (LEVEL, 2)], READ),
    (EXT32, &[(EXT64, 0)], External),
    (EXT64, &[], External),
    (HAVE_EL2, &[], READ),
    (HAVE_EL3, &[(TPM_EL3, 1)], READ),
    (EL3_PRIORITY, &[(HALTED, 1), (SDD, 1), (TPM_EL3, 1), (EN, 0), (LEVEL, 0)], READ),
    (EL2_ENABLED, &[(TPM_EL2, 1)], READ),
    (HALTED, &[(SDD, 1), (TPM_EL3, 1)], READ),
    (SDD, &[(HALTED, 1), (TPM_EL3, 1)], READ),
];

const CONTROLS: [Row; 18] = [
    (EN, &[(LEVEL, 0)], WRITE),
    (SW, &[(LEVEL, 0), (EN, 0), ENABLED, (PMCR_E, 1)], SWINC),
    (ER, &[(LEVEL, 0), (EN, 0)], READ),
    (UEN, &[(LEVEL, 0)], READ),
    (E2H, &[(LEVEL, 0), (TGE, 1), (FGT_COUNTER_READ, 1)], READ),
    (TGE, &[(LEVEL, 0), (EN, 0)], READ),
    (TPM_EL2, &[], READ),
    (TPM_EL3, &[], READ),
    (ENPM2, &[], IREAD),
    (FGTEN, &[(FGT_COUNTER_READ, 1)], READ),
    (FGTEN2, &[], IREAD),
    (FGT_COUNTER_READ, &[], READ),
    (FGT_COUNTER_WRITE, &[], WRITE),
    (FGT_SWINC, &[ENABLED, (PMCR_E, 1)], SWINC),
    (NPMICNTR_READ, &[], IREAD),
    (NPMICNTR_WRITE, &[], IWRITE),
    (IR, &[(LEVEL, 0), (PMUACR_F0, 1)], IWRITE),
    (PMUACR_F0, &[(LEVEL, 0)], IREAD),
];

const LOCKS: [Row; 5] = [
    (POWERED, &[], External),
    (DOUBLE_LOCK, &[], External),
    (OS_LOCK, &[], External),
    (ALLOWED, &[], External),
    (SOFTWARE_LOCK, &[], External),
];

/// Counter 3 is below HPMN, or at it.
const LONG: [Row; 2] = [
    (LP, &[ENABLED, (PMCR_E, 1)], Carry),
    (HLP, &[(HPMN, 3), (LEVEL, 2), ENABLED, (HPME, 1)], Carry),
];

/// Likewise. The bit of the other range is 1 and makes up for nothing.
const RANGES: [Row; 2] = [
    (PMCR_E, &[ENABLED, (HPME, 1)], SWINC),
    (HPME, &[(HPMN, 3), (LEVEL, 2), ENABLED, (PMCR_E, 1)], SWINC),
];

/// What shows the value of a field.
fn show(script: &mut Script, witness: Witness) {
    match witness {
        Access(kind) => script.probe(kind, 3),
        Wide => {
            script.access(counter_word(false, 3, 1), 0x2_0000_0044);
            script.access(counter_word(true, 3, 2), 0);
            script.set(COUNTER + 3, 0x33);
        }
        External => {
            script.external_write(PMCNTENSET, u64::MAX);
            script.external_read(PMCNTENSET);
            script.set(ENABLES, 0);
        }
        Carry => {
            script.put(&[(COUNTER + 3, 0xFFFF_FFFF), (PMOVS, 0)]);
            script.access(PMSWINC, 1 << 3);
            script.external_read(PMOVSCLR);
        }
    }
}

/// Fields of one bit: 0 and 1 are taken, other values change nothing.
fn bits_session(rows: &[Row]) -> Vec<u8> {
    let mut script = Script::new(&GIVEN);
    script.level(1);
    for &(field, given, witness) in rows {
        script.with(given, |s| {
            s.with(&[(field, 0)], |s| {
                show(s, witness);
                for refused in [3, 0x101, u64::MAX] {
                    s.set_refused(field, refused);
                }
                show(s, witness);
                s.set(field, 1);
                show(s, witness);
                for refused in [2, 0x100, 1 << 32, 1 << 63] {
                    s.set_refused(field, refused);
                }
                show(s, witness);
            });
        });
    }
    script.finish()
}

/// N and HPMN, largest 31: the external mask and T5 show them.
fn counts_session() -> Vec<u8> {
    let mut script = Script::new(&GIVEN);
    script.put(&[(LEVEL, 1), (ENABLES, ALL_ENABLES)]);
    let beside = [32, 33, 63, 64, 0xFF, 0x100, 0x11F, 1 << 32, u64::MAX];
    for n in [31, 6, 30, 5] {
        script.set(N, n);
        for refused in beside {
            script.set_refused(N, refused);
        }
        script.external_read(PMCNTENSET);
    }
    script.set(N, 31);
    for hpmn in [31, 1, 30, 16] {
        script.set(HPMN, hpmn);
        for refused in beside {
            script.set_refused(HPMN, refused);
        }
        for m in [0, 1, 15, 16, 29, 30] {
            script.probe(Kind::CounterRead, m);
        }
    }
    script.finish()
}

/// PMUACR_P and the enables: their largest values and the bits above.
fn masks_session() -> Vec<u8> {
    let mut script = Script::new(&GIVEN);
    script.put(&[(N, 31), (HPMN, 31), (UEN, 1), (COUNTER, 0x10), (COUNTER + 30, 0x3E)]);
    for p in [ALL_P, 0, 1, 1 << 30, ALL_P - 1] {
        script.set(PMUACR_P, p);
        for refused in [ALL_P + 1, 0xFFFF_FFFF, 1 << 32, (1 << 32) + 1, u64::MAX] {
            script.set_refused(PMUACR_P, refused);
        }
        script.probe(Kind::CounterRead, 0);
        script.probe(Kind::CounterRead, 30);
    }
    for enables in [ALL_ENABLES, 0, 1, ENABLE_F0, 1 << 31, ALL_ENABLES - 1] {
        script.set(ENABLES, enables);
        for refused in [ALL_ENABLES + 1, (1 << 33) + 1, 1 << 63, u64::MAX] {
            script.set_refused(ENABLES, refused);
        }
        script.external_read(PMCNTENSET);
    }
    script.finish()
}

/// The overflow flags: values that they take, and values with bit 31, below the
/// largest and above it, or with higher bits.
fn flags_session() -> Vec<u8> {
    let mut script = Script::new(&GIVEN);
    script.set(N, 31);
    let taken = [ALL_PMOVS, 0, 1, 1 << 30, ALL_P, PMOVS_F0, PMOVS_F0 + 1, ALL_PMOVS - 1];
    let with_bit_31 = [1 << 31, (1 << 31) + 1, 0xFFFF_FFFF, ALL_PMOVS + 1, 0x1_FFFF_FFFF];
    let above = [1 << 33, (1 << 33) + 1, 1 << 63, u64::MAX - (1 << 31), u64::MAX];
    for flags in taken {
        script.set(PMOVS, flags);
        for refused in with_bit_31.iter().chain(&above) {
            script.set_refused(PMOVS, *refused);
        }
        script.external_read(PMOVSCLR);
    }
    for bit in 0..64 {
        script.set(PMOVS, 0);
        if ALL_PMOVS >> bit & 1 == 1 {
            script.set(PMOVS, 1 << bit);
        } else {
            script.set_refused(PMOVS, 1 << bit);
        }
        script.external_read(PMOVSCLR);
    }
    script.finish()
}

/// Event numbers of all counters: 0x10000 would be 0 if it were cut off.
fn events_session() -> Vec<u8> {
    let mut script = Script::new(&GIVEN);
    script.put(&[(N, 31), (HPMN, 31), (LEVEL, 1)]);
    script.put(&RUNNING);
    for m in 0..31 {
        script.set(EVENT + m, 0xFFFF);
        script.set_refused(EVENT + m, 0x1_0000);
    }
    script.access(word(false, 9, 12, 4, 1), u64::MAX);
    for m in 0..31 {
        script.set(EVENT + m, 0);
        script.set_refused(EVENT + m, 0x1_0001);
        script.access(word(false, 9, 12, 4, 1), 1 << m);
    }
    script.finish_all()
}

/// Counters hold any value of 64 bits; each bit of a value stays where it is.
fn counters_session() -> Vec<u8> {
    let mut script = Script::new(&GIVEN);
    for m in 0..=31u8 {
        script.set(COUNTER + m, 0x0101_0101_0101_0101u64.wrapping_mul(m as u64 * 9));
    }
    script.show(0..=30);
    for m in 0..=31u8 {
        script.set(COUNTER + m, u64::MAX);
    }
    script.show(0..=30);
    for bit in 0..64 {
        script.set(COUNTER + 7, 1 << bit);
        script.access(counter_word(true, 7, 7), 0);
    }
    script.end()
}

pub fn sessions() -> Vec<Session> {
    let controls = CONTROLS.split_at(9);
    vec![
        Session::new("fields-features", bits_session(&FEATURES[..9])),
        Session::new("fields-levels-and-conditions", bits_session(&FEATURES[9..])),
        Session::new("fields-controls-20-to-29", bits_session(controls.0)),
        Session::new("fields-controls-2a-to-33", bits_session(controls.1)),
        Session::new("fields-external", bits_session(&LOCKS)),
        Session::new("fields-lp-hlp", bits_session(&LONG)),
        Session::new("fields-e-hpme", bits_session(&RANGES)),
        Session::new("fields-n-hpmn", counts_session()),
        Session::new("fields-pmuacr-enables", masks_session()),
        Session::new("fields-overflow-flags", flags_session()),
        Session::new("fields-event-numbers", events_session()),
        Session::new("fields-counters", counters_session()),
    ]
}
