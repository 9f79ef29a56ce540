//! MODEL E1 to E8, K1 and K2: the external PMCNTENSET_EL0 and ticks. Locks, the
//! bits that exist, other offsets, and when an instruction is counted. The other
//! external registers are in pmovs.rs.

use super::fields::*;
use super::script::{Change, Script, Switch, PMCNTENSET, PMOVSCLR, PMOVSSET};
use super::Session;
use crate::generate::word;

/// Both interfaces absent, all counters, nothing locked.
const GIVEN: [Change; 4] = [(PMUV3, 1), (N, 31), (POWERED, 1), (ALLOWED, 1)];

/// Each subset of the locks; every write tries a bit of its own, so that the
/// last read tells which were let through.
fn locks_session(interface: &[Change]) -> Vec<u8> {
    let switches: [Switch; 5] = [
        (SOFTWARE_LOCK, 0, 1),
        (DOUBLE_LOCK, 0, 1),
        (POWERED, 1, 0),
        (OS_LOCK, 0, 1),
        (ALLOWED, 1, 0),
    ];
    let mut script = Script::new(&GIVEN);
    script.put(interface);
    let mut bit = 0;
    script.subsets(&switches, |s| {
        s.external_read(PMCNTENSET);
        s.external_write(PMCNTENSET, 1 << bit);
        bit += 1;
    });
    script.put(&[(SOFTWARE_LOCK, 0)]);
    script.finish()
}

/// The bits that exist under each subset of EXT32, EXT64, p9 and ICNTR: read
/// with all enables set, and written where none was.
fn width_session(n: u64) -> Vec<u8> {
    let switches: [Switch; 4] = [(ICNTR, 0, 1), (P9, 0, 1), (EXT32, 0, 1), (EXT64, 0, 1)];
    let mut script = Script::new(&GIVEN);
    script.put(&[(P5, 1), (N, n)]);
    script.subsets(&switches, |s| {
        s.set(ENABLES, ALL_ENABLES);
        s.external_read(PMCNTENSET);
        s.set(ENABLES, 0);
        s.external_write(PMCNTENSET, u64::MAX);
        s.external_read(PMCNTENSET);
        // What was stored beyond the bits that are shown.
        s.with(&[(ICNTR, 1), (N, 31), (EXT64, 1)], |s| s.external_read(PMCNTENSET));
    });
    script.finish()
}

/// Every N: what a read shows.
fn read_each_n_session() -> Vec<u8> {
    let mut script = Script::new(&GIVEN);
    script.put(&[(EXT32, 1), (ENABLES, ALL_ENABLES)]);
    for icntr in [0, 1] {
        script.set(ICNTR, icntr);
        for n in 0..=31 {
            script.set(N, n);
            script.external_read(PMCNTENSET);
        }
    }
    script.finish()
}

/// Every N: what a write stores.
fn write_each_n_session() -> Vec<u8> {
    let mut script = Script::new(&GIVEN);
    script.put(&[(EXT32, 1)]);
    for n in 0..=31 {
        script.put(&[(N, n), (ENABLES, 0)]);
        script.external_write(PMCNTENSET, u64::MAX);
        script.with(&[(N, 31)], |s| s.external_read(PMCNTENSET));
    }
    script.finish()
}

/// Each bit of the value sets its own enable; no 0 clears one, and enables
/// that are not shown stay.
fn each_bit_session() -> Vec<u8> {
    let mut script = Script::new(&GIVEN);
    script.put(&[(EXT64, 1), (ICNTR, 1)]);
    for bit in 0..64 {
        script.external_write(PMCNTENSET, 1 << bit);
        script.external_read(PMCNTENSET);
        if bit % 2 == 0 {
            script.external_write(PMCNTENSET, 0);
        }
        if bit == 20 {
            script.set(ENABLES, 0);
        }
    }
    script.put(&[(ENABLES, 0x1_5555_5555), (N, 6), (ICNTR, 0)]);
    script.external_write(PMCNTENSET, 0x2A);
    script.external_read(PMCNTENSET);
    script.finish()
}

/// Other offsets answer ahead of locks and of a missing register, and behind
/// the state.
fn offsets_session() -> Vec<u8> {
    let mut script = Script::new(&GIVEN);
    let cases: [&[Change]; 4] =
        [&[(EXT64, 1)], &[], &[(EXT32, 1), (DOUBLE_LOCK, 1)], &[(EXT64, 1), (EL2_ENABLED, 1)]];
    let beside = (0..16).map(|bit| PMCNTENSET ^ 1 << bit).filter(|&offset| offset != PMOVSCLR);
    let offsets: Vec<u16> = beside.chain([PMCNTENSET, 0xBFF, 0, 0xFFFF, 0x000C]).collect();
    for case in cases {
        script.with(case, |s| {
            for &offset in &offsets {
                s.external_write(offset, 1 << (offset % 31));
                s.external_read(offset);
            }
        });
    }
    script.finish()
}

/// The level and the traps do not matter to external accesses and ticks.
fn levels_session() -> Vec<u8> {
    let mut script = Script::new(&GIVEN);
    script.put(&[(EXT64, 1), (ICNTR, 1), (HAVE_EL2, 1), (HAVE_EL3, 1), (EL2_ENABLED, 1)]);
    script.put(&[(HPMN, 1), (TPM_EL2, 1), (TPM_EL3, 1), (FGT2, 1), (HALTED, 1), (SDD, 1)]);
    for level in 0..=3 {
        script.level(level);
        script.external_write(PMCNTENSET, 3 << (8 * level));
        script.external_read(PMCNTENSET);
        script.external_write(PMOVSSET, 3 << (8 * level));
        script.external_write(PMOVSCLR, 1 << (8 * level));
        script.external_read(PMOVSCLR);
        script.tick(0);
        script.with(&[(ENABLES, ENABLE_F0)], |s| s.tick(0));
    }
    script.finish()
}

/// All subsets of a tick's conditions.
fn tick_session(level: u8) -> Vec<u8> {
    let given = [(HAVE_EL2, 1), (HAVE_EL3, 1), (EL2_ENABLED, 1), (HPMN, 1), (ENPM2, 1)];
    let mut script = Script::new(&GIVEN);
    script.put(&given);
    script.put(&[(PMUACR_F0, 1), (LEVEL, level as u64)]);
    let enables = [0, ENABLE_F0, ENABLE_F0 - 1, ALL_ENABLES, 1 << 31, 1];
    for icntr in [1, 0, 1] {
        script.set(ICNTR, icntr);
        for value in enables {
            script.set(ENABLES, value);
            for flag in [0, 1, 0] {
                script.tick(flag);
                script.access(word(true, 9, 4, 0, 2), 0);
            }
        }
    }
    script.finish()
}

/// PMICNTR has 64 bits with or without p5, for ticks and for writes.
fn wrap_session() -> Vec<u8> {
    let mut script = Script::new(&GIVEN);
    script.put(&[(ICNTR, 1), (ENABLES, ENABLE_F0), (LEVEL, 1)]);
    for p5 in [0, 1] {
        script.set(P5, p5);
        for value in [0, 0x7FFF_FFFF, 0xFFFF_FFFE, 1 << 63, u64::MAX - 1] {
            script.set(INSTRUCTIONS, value);
            for _ in 0..3 {
                script.tick(0);
                script.access(word(true, 9, 4, 0, 2), 0);
            }
            script.access(word(false, 9, 4, 0, 1), value);
            script.access(word(true, 9, 4, 0, 2), 0);
        }
    }
    script.finish_all()
}

pub fn sessions() -> Vec<Session> {
    let interfaces: [(&str, &[Change]); 4] = [
        ("absent", &[]),
        ("ext32", &[(EXT32, 1)]),
        ("ext64", &[(EXT64, 1)]),
        ("both", &[(EXT32, 1), (EXT64, 1)]),
    ];
    let mut list = Vec::new();
    for (name, interface) in interfaces {
        list.push(Session::new(format!("external-locks-{name}"), locks_session(interface)));
    }
    for n in [0, 6, 30, 31] {
        list.push(Session::new(format!("external-width-n-{n}"), width_session(n)));
    }
    for level in 0..=3 {
        list.push(Session::new(format!("tick-conditions-level-{level}"), tick_session(level)));
    }
    list.push(Session::new("external-read-each-n", read_each_n_session()));
    list.push(Session::new("external-write-each-n", write_each_n_session()));
    list.push(Session::new("external-each-bit", each_bit_session()));
    list.push(Session::new("external-offsets", offsets_session()));
    list.push(Session::new("external-levels", levels_session()));
    list.push(Session::new("tick-wrap", wrap_session()));
    list
}
