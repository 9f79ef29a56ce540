//! MODEL G12 to G14 and K1: counters that are on and counters that are off. A
//! software increment needs the enable bit of the counter, and the bit of its
//! range: PMCR_EL0.E, or MDCR_EL2.HPME from HPMN up where EL2 is implemented.
//! Each of them missing alone and together, what says which bit it is, and what
//! goes on without them: ticks, reads and writes, and the flags that there are.

use super::fields::*;
use super::script::{Change, Kind, Script, Switch, PMCNTENSET, PMOVSCLR, PMSWINC, RUNNING};
use super::Session;
use crate::generate::counter_word;

/// The enables and flags can be read, and PMICNTR at each level.
const GIVEN: [Change; 6] =
    [(ICNTR, 1), (EXT64, 1), (POWERED, 1), (ALLOWED, 1), (ENPM2, 1), (PMUACR_F0, 1)];

/// The settings of E and HPME.
const E_HPME: [[Change; 2]; 4] = [
    [(PMCR_E, 0), (HPME, 0)],
    [(PMCR_E, 1), (HPME, 0)],
    [(PMCR_E, 1), (HPME, 1)],
    [(PMCR_E, 0), (HPME, 1)],
];

/// EL2 enabled, implemented but not enabled, and missing, and the levels that
/// there are.
type El2 = (&'static str, &'static [Change], &'static [u8]);

const EL2: [El2; 3] = [
    ("el2-enabled", &[], &[0, 1, 2, 3]),
    ("el2-not-enabled", &[(EL2_ENABLED, 0)], &[0, 1, 3]),
    ("no-el2", &[(EL2_ENABLED, 0), (HAVE_EL2, 0)], &[0, 1, 3]),
];

/// Counters 3 and 4, of which in most sessions HPMN divides one from the other.
const BOTH: u64 = 3 << 3;

/// Reads counters at level 3, where nothing stops it.
fn read(script: &mut Script, counters: &[u32]) {
    script.with(&[(LEVEL, 3)], |s| {
        for &m in counters {
            s.access(counter_word(true, m, m), 0);
        }
    });
}

/// Increments counters 3 and 4 under some changes, then reads them.
fn try_both(script: &mut Script, changes: &[Change]) {
    script.with(changes, |s| s.access(PMSWINC, BOTH));
    read(script, &[3, 4]);
}

/// Counters 3 and 4 with their enable bits, E and HPME, in all subsets; the
/// other enables 0, or all of them 1 and these two 0.
fn e_hpme_session(el2: &[Change], level: u8) -> Vec<u8> {
    let mut script = Script::counters(&GIVEN);
    script.put(el2);
    script.level(level);
    for enables in [0, 1 << 3, 1 << 4, BOTH, ALL_ENABLES - BOTH] {
        script.set(ENABLES, enables);
        for settings in E_HPME {
            script.put(&settings);
            try_both(&mut script, &[]);
        }
    }
    script.finish()
}

/// Each enable bit alone, or each one missing: it is that of its own counter.
/// Bits 31 and 32 are no event counter's. Some count more often than others, so
/// that the sums tell them apart.
fn each_enable_session(alone: bool) -> Vec<u8> {
    let mut script = Script::counters(&GIVEN);
    script.put(&[(N, 31), (HPMN, 16), (PMCR_E, 1), (HPME, 1), (LEVEL, 3)]);
    for bit in 0..=32 {
        let one = 1 << bit;
        script.set(ENABLES, if alone { one } else { ALL_ENABLES - one });
        for _ in 0..=bit % 7 {
            script.access(PMSWINC, u64::MAX);
        }
    }
    script.finish_all()
}

/// Counters on both sides of every HPMN, one of E and HPME being 1.
fn each_hpmn_session(el2: &[Change], level: u8, settings: &[Change]) -> Vec<u8> {
    let mut script = Script::counters(&GIVEN);
    script.put(&[(HPMN0, 1), (N, 31), (ENABLES, ALL_P), (LEVEL, level as u64)]);
    script.put(el2);
    script.put(settings);
    for hpmn in 0..=31u32 {
        let (below, at) = (hpmn.saturating_sub(1), hpmn.min(30));
        script.set(HPMN, hpmn as u64);
        script.access(PMSWINC, 1 << below | 1 << at);
        read(&mut script, &[below, at]);
    }
    script.finish_all()
}

/// N and HPMN: the second range is empty, has one counter, or is all of them.
const BORDERS: [(u64, u64); 8] =
    [(6, 6), (6, 5), (6, 0), (31, 31), (31, 30), (31, 0), (1, 1), (0, 0)];

/// All bits at once with each of them, and each setting of E and HPME. The
/// counters from N up are read too.
fn borders_session(el2: &[Change], level: u8) -> Vec<u8> {
    let mut script = Script::counters(&GIVEN);
    script.put(&[(HPMN0, 1), (ENABLES, ALL_P), (LEVEL, level as u64)]);
    script.put(el2);
    for (n, hpmn) in BORDERS {
        script.set(HPMN, hpmn);
        for settings in E_HPME {
            script.put(&settings);
            script.set(N, n);
            script.access(PMSWINC, u64::MAX);
            script.set(N, 31);
            read(&mut script, &[0, 5, 30]);
        }
    }
    script.finish_all()
}

/// What is changed while PMCNTENSET is written, and the value. Afterwards N is
/// 6, HPMN 4, and all is unlocked again.
const WRITES: [(&[Change], u64); 16] = [
    (&[], 0),
    (&[], 1),
    (&[], 1 << 3),
    (&[], 1 << 4),
    (&[], BOTH),
    (&[], u64::MAX),
    (&[], !0x3F),
    (&[(N, 4)], u64::MAX),
    (&[(EXT64, 0), (EXT32, 1)], BOTH),
    (&[(EXT64, 0)], u64::MAX),
    (&[(SOFTWARE_LOCK, 1)], u64::MAX),
    (&[(DOUBLE_LOCK, 1)], u64::MAX),
    (&[(OS_LOCK, 1)], u64::MAX),
    (&[(POWERED, 0)], u64::MAX),
    (&[(ALLOWED, 0)], u64::MAX),
    (&[(HPMN, 7)], u64::MAX),
];

/// Counters are enabled from outside, or the write is stopped. Increments of
/// all 31 follow.
fn external_session() -> Vec<u8> {
    let mut script = Script::counters(&GIVEN);
    script.put(&[(PMCR_E, 1), (HPME, 1), (LEVEL, 3)]);
    for (case, value) in WRITES {
        script.set(ENABLES, 0);
        script.with(case, |s| s.external_write(PMCNTENSET, value));
        script.with(&[(N, 31)], |s| {
            s.access(PMSWINC, u64::MAX);
            read(s, &[0, 3, 4, 5, 30]);
        });
    }
    script.finish_all()
}

/// Each bit written at C00 switches one more counter on.
fn external_each_bit_session() -> Vec<u8> {
    let mut script = Script::counters(&GIVEN);
    script.put(&[(N, 31), (HPMN, 16), (PMCR_E, 1), (HPME, 1), (LEVEL, 3)]);
    for bit in 0..=33 {
        script.external_write(PMCNTENSET, 1 << bit);
        script.access(PMSWINC, u64::MAX);
    }
    script.finish_all()
}

/// What switches counter 3 off, or counter 4, or both, and what leaves them on.
const OFF: [&[Change]; 8] = [
    &[],
    &[(ENABLES, ALL_P - (1 << 3))],
    &[(ENABLES, ALL_P - (1 << 4))],
    &[(PMCR_E, 0)],
    &[(HPME, 0)],
    &[(PMCR_E, 0), (HPME, 0)],
    &[(HPMN, 3), (PMCR_E, 0)],
    &[(HPMN, 5), (HPME, 0)],
];

/// Counters before a carry that are off keep their value and get no flag, with
/// each setting of LP and HLP; they keep a flag that they have.
fn carry_session(p5: u64, value: u64, flags: u64) -> Vec<u8> {
    let mut script = Script::counters(&GIVEN);
    script.put(&RUNNING);
    script.put(&[(P9, 0), (P5, p5), (LEVEL, 3)]);
    for (lp, hlp) in [(0, 0), (1, 0), (1, 1), (0, 1)] {
        script.put(&[(LP, lp), (HLP, hlp)]);
        for off in OFF {
            script.put(&[(COUNTER + 3, value), (COUNTER + 4, value), (PMOVS, flags)]);
            script.with(off, |s| s.access(PMSWINC, BOTH));
            script.external_read(PMOVSCLR);
            script.access(counter_word(true, 3, 3), 0);
            script.access(counter_word(true, 4, 4), 0);
        }
    }
    script.finish()
}

/// All counters before a carry, HPMN being 16: enables, E and HPME, and the
/// flags tell which of them moved.
const SEVERAL: [(u64, [Change; 2]); 8] = [
    (0x3333_3333, E_HPME[1]),
    (0x3333_3333, E_HPME[3]),
    (0x5555_5555, E_HPME[2]),
    (0x2AAA_AAAA, E_HPME[2]),
    (ALL_P, E_HPME[1]),
    (ALL_P, E_HPME[3]),
    (0x7FFF_0000, E_HPME[1]),
    (0x0000_FFFF, E_HPME[3]),
];

fn several_session() -> Vec<u8> {
    let mut script = Script::counters(&GIVEN);
    script.put(&[(N, 31), (HPMN, 16), (LEVEL, 3)]);
    for (enables, settings) in SEVERAL {
        for m in 0..31 {
            script.set(COUNTER + m, 0xFFFF_FFFF);
        }
        script.put(&[(ENABLES, enables), (PMOVS, 0)]);
        script.put(&settings);
        script.access(PMSWINC, u64::MAX);
        script.external_read(PMOVSCLR);
    }
    script.finish_all()
}

/// A tick asks for enable bit 32 alone, and the event counters' enables stop
/// nothing of it. It wraps, and its flag is set.
fn tick_session() -> Vec<u8> {
    let mut script = Script::counters(&GIVEN);
    for (_, el2, levels) in EL2 {
        script.put(el2);
        script.level(levels[1]);
        for settings in E_HPME {
            script.put(&settings);
            for enables in [0, ENABLE_F0, ENABLE_F0 - 1, ALL_ENABLES] {
                script.put(&[(ENABLES, enables), (INSTRUCTIONS, u64::MAX), (PMOVS, 0)]);
                for prohibited in [1, 0, 0] {
                    script.tick(prohibited);
                }
                script.external_read(PMOVSCLR);
                script.probe(Kind::IcntrRead, 0);
            }
        }
    }
    script.finish()
}

/// MRS and MSR reach counters that are off as well as those that are on.
fn moves_session(levels: [u8; 2]) -> Vec<u8> {
    let switches: [Switch; 3] = [(ENABLES, 0, ALL_ENABLES), (PMCR_E, 0, 1), (HPME, 0, 1)];
    let mut script = Script::counters(&GIVEN);
    script.put(&[(COUNTER + 3, 0x13), (COUNTER + 4, 0x14), (INSTRUCTIONS, 0x77)]);
    for level in levels {
        script.level(level);
        script.subsets(&switches, |s| {
            for m in [3, 4] {
                s.probe(Kind::CounterRead, m);
                s.probe(Kind::CounterWrite, m);
            }
            s.probe(Kind::IcntrRead, 0);
            s.probe(Kind::IcntrWrite, 0);
        });
    }
    script.finish()
}

/// What an increment of counter 3 or 4 needs: one of it missing, or two, and
/// what beside it does not matter. UEN is 1 and every P bit too.
const MISSING: [&[Change]; 30] = [
    &[],
    &[(ENABLES, ALL_P - (1 << 3))],
    &[(ENABLES, ALL_P - (1 << 4))],
    &[(PMCR_E, 0)],
    &[(HPME, 0)],
    &[(EVENT + 3, 1)],
    &[(EVENT + 4, 1)],
    &[(N, 4)],
    &[(HPMN, 3)],
    &[(HPMN, 3), (PMCR_E, 0)],
    &[(HPMN, 3), (HPME, 0)],
    &[(HPMN, 5)],
    &[(HPMN, 5), (PMCR_E, 0)],
    &[(HPMN, 5), (HPME, 0)],
    &[(EL2_ENABLED, 0)],
    &[(EL2_ENABLED, 0), (PMCR_E, 0)],
    &[(EL2_ENABLED, 0), (HPME, 0)],
    &[(EL2_ENABLED, 0), (HAVE_EL2, 0), (PMCR_E, 0)],
    &[(EL2_ENABLED, 0), (HAVE_EL2, 0), (HPME, 0)],
    &[(PMUACR_P, ALL_P - (1 << 3))],
    &[(PMUACR_P, 0), (SW, 1)],
    &[(PMUACR_P, 0), (UEN, 0)],
    &[(PMUACR_P, 0), (P9, 0)],
    &[(EN, 0)],
    &[(EN, 0), (SW, 1)],
    &[(TPM_EL2, 1)],
    &[(TPM_EL3, 1)],
    &[(PMCR_E, 0), (EVENT + 4, 1)],
    &[(HPME, 0), (EVENT + 3, 1)],
    &[(ENABLES, 0), (SW, 1)],
];

fn missing_session(level: u8) -> Vec<u8> {
    let mut script = Script::counters(&GIVEN);
    script.put(&RUNNING);
    script.put(&[(UEN, 1), (PMUACR_P, ALL_P), (LEVEL, level as u64)]);
    for case in MISSING {
        try_both(&mut script, case);
    }
    script.finish()
}

/// All subsets of what counter m needs: its enable bit, its event number, the
/// bit of its range and the other, the side of HPMN. At level 0 its P bit.
fn subsets_session(m: u8, given: &[Change]) -> Vec<u8> {
    let all_but = ALL_P - (1 << m);
    let switches: [Switch; 6] = [
        (ENABLES, ALL_P, all_but),
        (PMCR_E, 1, 0),
        (HPME, 1, 0),
        (EVENT + m, 0, 1),
        (HPMN, 4, if m == 3 { 3 } else { 5 }),
        (PMUACR_P, ALL_P, all_but),
    ];
    let mut script = Script::counters(&GIVEN);
    script.set(UEN, 1);
    script.put(given);
    let count = if given.contains(&(LEVEL, 0)) { 6 } else { 5 };
    script.subsets(&switches[..count], |s| s.probe(Kind::Swinc, m));
    script.finish()
}

const SUBSETS: [(&str, u8, &[Change]); 6] = [
    ("counter-3-level-0", 3, &[(LEVEL, 0)]),
    ("counter-3-level-2", 3, &[(LEVEL, 2)]),
    ("counter-4-level-2", 4, &[(LEVEL, 2)]),
    ("counter-4-level-3", 4, &[(LEVEL, 3)]),
    ("counter-4-level-0-el2-not-enabled", 4, &[(EL2_ENABLED, 0), (LEVEL, 0)]),
    ("counter-4-level-1-no-el2", 4, &[(EL2_ENABLED, 0), (HAVE_EL2, 0), (LEVEL, 1)]),
];

/// One thing changed after the other, with increments between. Counters go from
/// one range to the other, and EL2 goes away and comes back.
const STEPS: [Change; 28] = [
    (PMCR_E, 1),
    (ENABLES, 1 << 3),
    (HPME, 1),
    (ENABLES, BOTH),
    (PMCR_E, 0),
    (HPMN, 3),
    (HPME, 0),
    (PMCR_E, 1),
    (HPMN, 5),
    (EL2_ENABLED, 0),
    (HPMN, 4),
    (HAVE_EL2, 0),
    (HPMN, 0),
    (HPME, 1),
    (PMCR_E, 0),
    (HAVE_EL2, 1),
    (HPMN0, 1),
    (EL2_ENABLED, 1),
    (LEVEL, 1),
    (LEVEL, 2),
    (ENABLES, ALL_ENABLES - ALL_P),
    (ENABLES, ALL_ENABLES),
    (HPMN, 6),
    (PMCR_E, 1),
    (EVENT + 4, 1),
    (EVENT + 4, 0),
    (N, 4),
    (HPMN, 4),
];

fn switching_session() -> Vec<u8> {
    let mut script = Script::counters(&GIVEN);
    script.level(3);
    for (field, value) in STEPS {
        script.set(field, value);
        try_both(&mut script, &[]);
    }
    script.finish()
}

/// Set commands for E and HPME and the numbers beside them, and whether they
/// are taken.
const SETS: [(u8, u64, bool); 23] = [
    (PMCR_E, 0, true),
    (PMCR_E, 2, false),
    (PMCR_E, 1, true),
    (PMCR_E, 2, false),
    (PMCR_E, 0x100, false),
    (HPME, 0, true),
    (HPME, 2, false),
    (HPME, 1, true),
    (HPME, 2, false),
    (HPME, 1 << 32, false),
    (PMCR_E, 0, true),
    (HPME + 1, 0, false),
    (HPME + 1, 1, false),
    (HPME + 1, 2, false),
    (PMCR_E, 1, true),
    (HPME, 0, true),
    (HPME + 1, 1, false),
    (HPME + 1, u64::MAX, false),
    (SOFTWARE_LOCK, 1, true),
    (SOFTWARE_LOCK, 2, false),
    (SOFTWARE_LOCK, 0, true),
    (HPME, 1, true),
    (HPME, u64::MAX, false),
];

fn sets_session() -> Vec<u8> {
    let mut script = Script::counters(&GIVEN);
    script.put(&[(ENABLES, BOTH), (LEVEL, 3)]);
    for (field, value, taken) in SETS {
        if taken {
            script.set(field, value);
        } else {
            script.set_refused(field, value);
        }
        try_both(&mut script, &[]);
    }
    script.finish()
}

pub fn sessions() -> Vec<Session> {
    let mut list = Vec::new();
    for (name, el2, levels) in EL2 {
        for &level in levels {
            let name = format!("running-e-hpme-{name}-level-{level}");
            list.push(Session::new(name, e_hpme_session(el2, level)));
        }
        // Level 2, and 1 where there is none.
        let level = levels[levels.len() - 2];
        for (bit, settings) in [("e", E_HPME[1]), ("hpme", E_HPME[3])] {
            let bytes = each_hpmn_session(el2, level, &settings);
            list.push(Session::new(format!("running-each-hpmn-{bit}-{name}"), bytes));
        }
        let bytes = borders_session(el2, level);
        list.push(Session::new(format!("running-empty-range-{name}"), bytes));
    }
    for level in 0..=3 {
        let name = format!("running-one-missing-level-{level}");
        list.push(Session::new(name, missing_session(level)));
    }
    for (name, m, given) in SUBSETS {
        list.push(Session::new(format!("running-subsets-{name}"), subsets_session(m, given)));
    }
    let narrow = 0xFFFF_FFFF;
    list.extend([
        Session::new("running-each-enable-alone", each_enable_session(true)),
        Session::new("running-each-enable-missing", each_enable_session(false)),
        Session::new("running-external-enables", external_session()),
        Session::new("running-external-each-bit", external_each_bit_session()),
        Session::new("running-carry-32-without-p5", carry_session(0, narrow, 0)),
        Session::new("running-carry-32", carry_session(1, narrow, 0)),
        Session::new("running-carry-64", carry_session(1, u64::MAX, 0)),
        Session::new("running-carry-flags-stay", carry_session(1, narrow, BOTH | 1)),
        Session::new("running-several-counters", several_session()),
        Session::new("running-ticks", tick_session()),
        Session::new("running-moves-levels-0-1", moves_session([0, 1])),
        Session::new("running-moves-levels-2-3", moves_session([2, 3])),
        Session::new("running-switching", switching_session()),
        Session::new("running-set-3d-3e-3f", sets_session()),
    ]);
    list
}
