//! MODEL E1 to E6 and E10 to E12: PMOVSCLR_EL0 and PMOVSSET_EL0. Both read the
//! overflow flags, one clears and the other sets those that are written as 1.
//! Locks, the bits that exist, and the offsets beside them.

use super::fields::*;
use super::script::{Change, Script, Switch, PMCNTENSET, PMOVSCLR, PMOVSSET};
use super::Session;

/// Both interfaces absent, all counters, nothing locked.
const GIVEN: [Change; 5] = [(PMUV3, 1), (ICNTR, 1), (N, 31), (POWERED, 1), (ALLOWED, 1)];

/// Nothing locked, so that the flags can be read.
const UNLOCKED: [Change; 5] =
    [(EXT64, 1), (DOUBLE_LOCK, 0), (POWERED, 1), (OS_LOCK, 0), (ALLOWED, 1)];

/// All flags that there are, hidden or not.
fn look(script: &mut Script) {
    script.with(&[(ICNTR, 1), (N, 31), (EXT64, 1)], |s| s.external_read(PMOVSSET));
}

/// Each subset of the locks; every write sets a flag of its own, and then
/// clears one, so that a read afterwards tells which were let through.
fn locks_session(interface: &[Change]) -> Vec<u8> {
    let switches: [Switch; 5] = [
        (SOFTWARE_LOCK, 0, 1),
        (DOUBLE_LOCK, 0, 1),
        (POWERED, 1, 0),
        (OS_LOCK, 0, 1),
        (ALLOWED, 1, 0),
    ];
    let mut script = Script::new(&GIVEN);
    script.put(interface);
    for (offset, flags) in [(PMOVSSET, 0), (PMOVSCLR, ALL_PMOVS)] {
        script.set(PMOVS, flags);
        let mut bit = 0;
        script.subsets(&switches, |s| {
            s.external_read(offset);
            s.external_write(offset, 1 << bit);
            bit += if bit == 30 { 2 } else { 1 };
        });
        script.with(&UNLOCKED, |s| s.external_read(PMOVSCLR));
    }
    script.finish()
}

/// The bits that exist under each subset of EXT32, EXT64, p9 and ICNTR: read
/// with all flags set, all of them cleared, and all set.
fn width_session(n: u64) -> Vec<u8> {
    let switches: [Switch; 4] = [(ICNTR, 0, 1), (P9, 0, 1), (EXT32, 0, 1), (EXT64, 0, 1)];
    let mut script = Script::new(&GIVEN);
    script.put(&[(P5, 1), (N, n)]);
    script.subsets(&switches, |s| {
        s.set(PMOVS, ALL_PMOVS);
        s.external_read(PMOVSCLR);
        s.external_read(PMOVSSET);
        s.external_write(PMOVSCLR, u64::MAX);
        look(s);
        s.set(PMOVS, 0);
        s.external_write(PMOVSSET, u64::MAX);
        look(s);
    });
    script.finish()
}

/// Every N: what reads show.
fn read_each_n_session() -> Vec<u8> {
    let mut script = Script::new(&GIVEN);
    script.put(&[(EXT32, 1), (PMOVS, ALL_PMOVS)]);
    for icntr in [0, 1] {
        script.set(ICNTR, icntr);
        for n in 0..=31 {
            script.set(N, n);
            script.external_read(PMOVSCLR);
            script.external_read(PMOVSSET);
        }
    }
    script.finish()
}

/// Every N: what writes clear and set.
fn write_each_n_session() -> Vec<u8> {
    let mut script = Script::new(&GIVEN);
    script.set(EXT32, 1);
    for n in 0..=31 {
        for (offset, flags) in [(PMOVSCLR, ALL_PMOVS), (PMOVSSET, 0)] {
            script.put(&[(N, n), (PMOVS, flags)]);
            script.external_write(offset, u64::MAX);
            script.set(N, 31);
            script.external_read(offset);
        }
    }
    script.finish()
}

/// Each bit of the value sets its own flag, and then each one clears it; no 0
/// clears or sets one.
fn each_bit_session() -> Vec<u8> {
    let mut script = Script::new(&GIVEN);
    script.set(EXT64, 1);
    for (offset, other) in [(PMOVSSET, PMOVSCLR), (PMOVSCLR, PMOVSSET)] {
        for bit in 0..64 {
            script.external_write(offset, 1 << bit);
            script.external_read(other);
            if bit % 16 == 7 {
                script.external_write(other, 0);
                script.external_read(offset);
            }
        }
    }
    script.finish()
}

/// Flags and enables are apart: writes at the three offsets in turn, each one
/// read after each.
fn apart_session() -> Vec<u8> {
    let values = [0x1_0F0F_0F0F, 0x1_3333_3333, 0xFFFF_FFFF, 0, 1 << 31, 1 << 32, 0x5A5A, u64::MAX];
    let mut script = Script::new(&GIVEN);
    script.put(&[(EXT64, 1), (ENABLES, 0x1_0000_00F0), (PMOVS, 0x5555_0000)]);
    for (index, value) in values.into_iter().enumerate() {
        for step in 0..3 {
            let offset = [PMCNTENSET, PMOVSCLR, PMOVSSET][(index + step) % 3];
            script.external_write(offset, value);
            for offset in [PMCNTENSET, PMOVSCLR, PMOVSSET] {
                script.external_read(offset);
            }
        }
        script.put(&[(ENABLES, 1 << index), (PMOVS, 0x5555_3333 >> index)]);
    }
    script.finish()
}

/// Other offsets answer ahead of locks and of a missing register, and behind
/// the state; the two registers among them do not.
fn offsets_session(known: u16) -> Vec<u8> {
    let mut script = Script::new(&GIVEN);
    script.put(&[(PMOVS, 0x1_5555_5555), (ENABLES, 0x3333_3333)]);
    let cases: [&[Change]; 4] =
        [&[(EXT64, 1)], &[], &[(EXT32, 1), (DOUBLE_LOCK, 1)], &[(EXT64, 1), (EL2_ENABLED, 1)]];
    let ours = [PMCNTENSET, PMOVSCLR, PMOVSSET];
    let beside = (0..16).map(|bit| known ^ 1 << bit).filter(|offset| !ours.contains(offset));
    let swapped = known.swap_bytes();
    let offsets: Vec<u16> = beside.chain([known, known - 1, swapped, known + 3]).collect();
    for case in cases {
        script.with(case, |s| {
            for &offset in &offsets {
                s.external_write(offset, 7 << (offset % 29));
                s.external_read(offset);
            }
        });
    }
    script.finish()
}

pub fn sessions() -> Vec<Session> {
    let interfaces: [(&str, &[Change]); 4] = [
        ("absent", &[]),
        ("ext32", &[(EXT32, 1)]),
        ("ext64", &[(EXT64, 1)]),
        ("both", &[(EXT32, 1), (EXT64, 1)]),
    ];
    let mut list = Vec::new();
    for (name, interface) in interfaces {
        list.push(Session::new(format!("pmovs-locks-{name}"), locks_session(interface)));
    }
    for n in [0, 1, 6, 31] {
        list.push(Session::new(format!("pmovs-width-n-{n}"), width_session(n)));
    }
    list.push(Session::new("pmovs-read-each-n", read_each_n_session()));
    list.push(Session::new("pmovs-write-each-n", write_each_n_session()));
    list.push(Session::new("pmovs-each-bit", each_bit_session()));
    list.push(Session::new("pmovs-and-enables-apart", apart_session()));
    list.push(Session::new("pmovsclr-offsets", offsets_session(PMOVSCLR)));
    list.push(Session::new("pmovsset-offsets", offsets_session(PMOVSSET)));
    list
}
