//! Every field of one bit flipped alone, beside accesses, external accesses and
//! ticks that pass or are ignored: what a field changes, and that it changes
//! nothing else.

use super::fields::*;
use super::script::{Change, Kind, Script, PMCNTENSET, PMOVSCLR, PMSWINC, RUNNING};
use super::Session;

/// Consistent, and every command passes at levels 0 and 1.
const GIVEN: [Change; 26] = [
    (PMUV3, 1),
    (P5, 1),
    (P9, 1),
    (ICNTR, 1),
    (FGT, 1),
    (FGT2, 1),
    (EXT64, 1),
    (HAVE_EL2, 1),
    (HAVE_EL3, 1),
    (N, 6),
    (EL2_ENABLED, 1),
    (EN, 1),
    (UEN, 1),
    (HPMN, 4),
    (ENPM2, 1),
    (FGTEN, 1),
    (FGTEN2, 1),
    (NPMICNTR_READ, 1),
    (NPMICNTR_WRITE, 1),
    (PMUACR_P, 1 << 3),
    (PMUACR_F0, 1),
    (ENABLES, ENABLE_F0),
    (POWERED, 1),
    (ALLOWED, 1),
    (COUNTER + 3, 0x13),
    (INSTRUCTIONS, 0x77),
];

/// The fields of one bit, without those of sampling.
pub(super) fn bits() -> impl Iterator<Item = u8> {
    (PMUV3..=EL3_PRIORITY)
        .chain(EL2_ENABLED..=SDD)
        .chain(EN..=TPM_EL2)
        .chain(TPM_EL3..=IR)
        .chain([PMUACR_F0, LP, HLP])
        .chain(POWERED..=SOFTWARE_LOCK)
        .chain([PMCR_E, HPME])
}

/// What else is given, and the accesses that are tried. In all but the first
/// ten rows the counter is denied or the write ignored (MODEL G4 to G6 and G9).
type Row = (&'static str, &'static [Change], &'static [Kind]);

const ROWS: [Row; 15] = [
    ("counter-read-level-0", &[(LEVEL, 0)], &[Kind::CounterRead]),
    ("counter-read-level-1", &[(LEVEL, 1)], &[Kind::CounterRead]),
    ("counter-write-level-0", &[(LEVEL, 0)], &[Kind::CounterWrite]),
    ("counter-write-level-1", &[(LEVEL, 1)], &[Kind::CounterWrite]),
    ("pmswinc-level-0", &[(LEVEL, 0)], &[Kind::Swinc]),
    ("pmswinc-level-1", &[(LEVEL, 1)], &[Kind::Swinc]),
    ("pmicntr-read-level-0", &[(LEVEL, 0)], &[Kind::IcntrRead]),
    ("pmicntr-read-level-1", &[(LEVEL, 1)], &[Kind::IcntrRead]),
    ("pmicntr-write-level-0", &[(LEVEL, 0)], &[Kind::IcntrWrite]),
    ("pmicntr-write-level-1", &[(LEVEL, 1)], &[Kind::IcntrWrite]),
    ("pmuacr-counter", &[(PMUACR_P, 0)], &[Kind::CounterRead, Kind::CounterWrite]),
    ("er-counter-write", &[(ER, 1)], &[Kind::CounterWrite]),
    ("pmuacr-pmswinc", &[(PMUACR_P, 0)], &[Kind::Swinc]),
    ("f0-pmicntr", &[(PMUACR_F0, 0)], &[Kind::IcntrRead, Kind::IcntrWrite]),
    ("ir-pmicntr-write", &[(IR, 1)], &[Kind::IcntrWrite]),
];

/// The accesses of a row, under each flipped field. For increments all counters
/// are on, else E and HPME are flipped to 1.
fn access_session(row: &Row) -> Vec<u8> {
    let (_, given, kinds) = row;
    let mut script = Script::new(&GIVEN);
    if kinds.contains(&Kind::Swinc) {
        script.put(&RUNNING);
    }
    script.put(given);
    for field in bits() {
        script.with_flipped(field, |s| {
            for &kind in kinds.iter() {
                s.probe(kind, 3);
            }
        });
    }
    script.finish()
}

/// A tick, an external read and an external write of a bit of its own, with the
/// software lock or without it.
fn external_session(software_lock: u64) -> Vec<u8> {
    let mut script = Script::new(&GIVEN);
    script.put(&[(N, 31), (LEVEL, 1), (SOFTWARE_LOCK, software_lock)]);
    for (index, field) in bits().enumerate() {
        script.with_flipped(field, |s| {
            s.tick(0);
            s.external_write(PMCNTENSET, 1 << (index % 32));
            s.external_read(PMCNTENSET);
        });
        script.probe(Kind::IcntrRead, 0);
        if index % 32 == 31 {
            script.external_read(PMCNTENSET);
            script.set(ENABLES, ENABLE_F0);
        }
    }
    script.finish()
}

/// Increments that carry out of 32 bits, below HPMN and at it, a tick that wraps,
/// and a read of the flags. P9 is 0, so that P5 can be flipped.
fn overflow_session(level: u8) -> Vec<u8> {
    let mut script = Script::new(&GIVEN);
    script.put(&RUNNING);
    script.put(&[(ENABLES, ALL_ENABLES), (P9, 0), (LEVEL, level as u64)]);
    for field in bits() {
        script.put(&[(COUNTER + 3, 0xFFFF_FFFF), (COUNTER + 4, 0xFFFF_FFFF)]);
        script.put(&[(INSTRUCTIONS, u64::MAX), (PMOVS, 0)]);
        script.with_flipped(field, |s| {
            s.access(PMSWINC, 3 << 3);
            s.tick(0);
            s.external_read(PMOVSCLR);
        });
    }
    script.finish()
}

pub fn sessions() -> Vec<Session> {
    let named = |row: &Row| Session::new(format!("each-field-{}", row.0), access_session(row));
    let mut list: Vec<Session> = ROWS.iter().map(named).collect();
    list.push(Session::new("each-field-tick-external", external_session(0)));
    list.push(Session::new("each-field-software-lock", external_session(1)));
    for level in [0, 3] {
        let name = format!("each-field-overflow-level-{level}");
        list.push(Session::new(name, overflow_session(level)));
    }
    list
}
