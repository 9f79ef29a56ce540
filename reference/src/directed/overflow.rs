//! MODEL G11 to G13 and K3: overflow flags by counting. Which carry sets which
//! flag, with LP, HLP and p5 on each side of HPMN; what does not count and sets
//! none; ticks. The flags are read at PMOVSCLR, whose own rules are in pmovs.rs.

use super::fields::*;
use super::script::{Change, Script, PMOVSCLR, PMSWINC, RUNNING};
use super::Session;
use crate::generate::{counter_word, word};

/// The flags can be read, and level 3 increments counters on both sides of
/// HPMN.
const GIVEN: [Change; 5] = [(ICNTR, 1), (EXT64, 1), (POWERED, 1), (ALLOWED, 1), (LEVEL, 3)];

/// The same with all event counters on.
fn running() -> Script {
    let mut script = Script::counters(&GIVEN);
    script.put(&RUNNING);
    script
}

/// The settings of LP and HLP.
const LONG: [[Change; 2]; 4] =
    [[(LP, 0), (HLP, 0)], [(LP, 1), (HLP, 0)], [(LP, 1), (HLP, 1)], [(LP, 0), (HLP, 1)]];

/// One more is a carry out of 32 bits.
const NARROW: u64 = 0xFFFF_FFFF;

/// Values beside a carry out of 32 bits.
const NARROW_VALUES: [u64; 6] = [0, 0x7FFF_FFFF, 0xFFFE_FFFF, 0xFFFF_0000, NARROW - 1, NARROW];

/// Values beside a carry out of 32 bits, of 64, or of the upper half alone.
const WIDE_VALUES: [u64; 10] = [
    NARROW - 1,
    NARROW,
    0x1_0000_0000,
    0x1_FFFF_FFFF,
    0x7FFF_FFFF_FFFF_FFFF,
    0xFFFF_FFFE_FFFF_FFFF,
    0xFFFF_FFFF_0000_0000,
    0xFFFF_FFFF_7FFF_FFFF,
    u64::MAX - 1,
    u64::MAX,
];

/// Counters 3 and 4, the last below HPMN and the first at it, from each value
/// and with each setting of LP and HLP.
fn carry_session(p5: u64, values: &[u64]) -> Vec<u8> {
    let mut script = running();
    script.put(&[(P9, 0), (P5, p5)]);
    for long in LONG {
        script.put(&long);
        for &value in values {
            script.put(&[(COUNTER + 3, value), (COUNTER + 4, value), (PMOVS, 0)]);
            script.access(PMSWINC, 3 << 3);
            script.external_read(PMOVSCLR);
            script.access(counter_word(true, 3, 3), 0);
            script.access(counter_word(true, 4, 4), 0);
        }
    }
    script.finish()
}

/// A flag stays until it is cleared, and a later carry sets it anew, while the
/// counter goes on in 64 bits.
fn stays_session() -> Vec<u8> {
    let mut script = running();
    for lp in [0, 1] {
        script.set(LP, lp);
        for start in [NARROW - 1, 0x1_FFFF_FFFE, u64::MAX - 1] {
            script.set(COUNTER, start);
            for _ in 0..4 {
                script.access(PMSWINC, 1);
                script.access(counter_word(true, 0, 0), 0);
                script.external_read(PMOVSCLR);
            }
            for clear in [0, !1, 1] {
                script.external_write(PMOVSCLR, clear);
                script.external_read(PMOVSCLR);
            }
        }
    }
    for carries in [1, 3, 2, 7] {
        script.put(&[(COUNTER, u64::MAX), (COUNTER + 1, u64::MAX), (COUNTER + 2, u64::MAX)]);
        script.access(PMSWINC, carries);
        script.external_read(PMOVSCLR);
        script.external_write(PMOVSCLR, 1);
    }
    script.finish()
}

/// Every counter has a flag of its own: at 32 bits without p5 and with it, and
/// at 64.
fn each_counter_session() -> Vec<u8> {
    let mut script = running();
    script.put(&[(P9, 0), (P5, 0), (N, 31), (HPMN, 16)]);
    let widths = [(0, 0, NARROW), (1, 0, 0x5_FFFF_FFFF), (1, 1, u64::MAX)];
    for (p5, long, value) in widths {
        script.put(&[(P5, p5), (LP, long), (HLP, long), (PMOVS, 0)]);
        for m in 0..31 {
            script.set(COUNTER + m, value);
            script.access(PMSWINC, 1 << m);
            script.external_read(PMOVSCLR);
        }
    }
    script.finish_all()
}

/// All counters in one write: a third of them before a carry out of 32 bits, a
/// third before one out of both, a third before none. Every other operand bit
/// first, then the rest, then all again.
fn several_session() -> Vec<u8> {
    let mut script = running();
    script.put(&[(N, 31), (HPMN, 16)]);
    let values = [NARROW, u64::MAX, 0x1F];
    for long in LONG {
        script.put(&long);
        for m in 0..31u8 {
            script.set(COUNTER + m, values[m as usize % 3]);
        }
        script.set(PMOVS, 0);
        for operand in [0x5555_5555_5555_5555, 0xAAAA_AAAA_AAAA_AAAA, u64::MAX] {
            script.access(PMSWINC, operand);
            script.external_read(PMOVSCLR);
        }
    }
    script.finish_all()
}

/// Counters on both sides of every HPMN, each time with no flag set before.
fn each_hpmn_session(given: &[Change]) -> Vec<u8> {
    let mut script = running();
    script.put(&[(HPMN0, 1), (N, 31)]);
    script.put(given);
    for hpmn in 0..=31u8 {
        script.set(HPMN, hpmn as u64);
        let mut operand = 0;
        for m in [hpmn.saturating_sub(1), hpmn.min(30)] {
            script.set(COUNTER + m, NARROW);
            operand |= 1 << m;
        }
        script.access(PMSWINC, operand);
        script.external_read(PMOVSCLR);
        script.external_write(PMOVSCLR, u64::MAX);
    }
    script.finish_all()
}

/// EL2 enabled, implemented but not enabled, and missing, and the levels that
/// there are: HLP needs EL2 implemented, a bit is ignored with EL2 enabled.
const EL2: [(&[Change], &[u8]); 3] = [
    (&[], &[0, 1, 2, 3]),
    (&[(EL2_ENABLED, 0)], &[0, 1, 3]),
    (&[(EL2_ENABLED, 0), (HAVE_EL2, 0)], &[0, 1, 3]),
];

/// Counters 3 to 5, HPMN being 4, with each setting of LP and HLP.
fn el2_session() -> Vec<u8> {
    let mut script = running();
    for (changes, levels) in EL2 {
        script.put(changes);
        for &level in levels {
            script.level(level);
            for long in LONG {
                script.put(&long);
                script.put(&[(COUNTER + 3, NARROW), (COUNTER + 4, NARROW), (COUNTER + 5, NARROW)]);
                script.set(PMOVS, 0);
                script.access(PMSWINC, u64::MAX);
                script.external_read(PMOVSCLR);
            }
        }
    }
    script.finish()
}

/// A counter with another event number does not move and gets no flag; it
/// keeps one that it has.
fn event_session() -> Vec<u8> {
    let mut script = running();
    for event in [1, 2, 0x11, 0x100, 0x8000, 0xFFFF, 0] {
        for flags in [0, 4] {
            script.put(&[(EVENT + 2, event), (PMOVS, flags)]);
            script.put(&[(COUNTER + 1, NARROW), (COUNTER + 2, NARROW)]);
            script.access(PMSWINC, 6);
            script.external_read(PMOVSCLR);
            script.access(counter_word(true, 2, 2), 0);
        }
    }
    script.put(&[(N, 31), (PMOVS, 0)]);
    for m in 0..31u8 {
        script.put(&[(COUNTER + m, NARROW), (EVENT + m, (m % 2) as u64)]);
    }
    script.access(PMSWINC, u64::MAX);
    script.finish_all()
}

/// What makes some of the operand bits 0 to 6 be ignored, and what beside it
/// does not.
const IGNORED: [&[Change]; 14] = [
    &[],
    &[(N, 4)],
    &[(N, 31)],
    &[(N, 0), (HPMN, 0), (HPMN0, 1)],
    &[(LEVEL, 2)],
    &[(LEVEL, 1)],
    &[(LEVEL, 0)],
    &[(LEVEL, 1), (HPMN, 2)],
    &[(LEVEL, 1), (EL2_ENABLED, 0)],
    &[(LEVEL, 0), (PMUACR_P, 5)],
    &[(LEVEL, 0), (PMUACR_P, 5), (UEN, 1)],
    &[(LEVEL, 0), (PMUACR_P, 5), (UEN, 1), (SW, 1)],
    &[(LEVEL, 0), (PMUACR_P, 5), (UEN, 1), (P9, 0)],
    &[(LEVEL, 1), (PMUACR_P, 5), (UEN, 1)],
];

/// Counters 0 to 6 all before a carry. The flags are read with N 31, so that
/// none is hidden.
fn ignored_session() -> Vec<u8> {
    let mut script = running();
    for case in IGNORED {
        script.set(PMOVS, 0);
        for m in 0..=6 {
            script.set(COUNTER + m, NARROW);
        }
        script.with(case, |s| s.access(PMSWINC, u64::MAX));
        script.with(&[(N, 31)], |s| s.external_read(PMOVSCLR));
    }
    script.put(&[(N, 31), (PMOVS, 0)]);
    for m in [0, 1, 30] {
        script.set(COUNTER + m, NARROW);
    }
    for (rt, operand) in [(31, u64::MAX), (1, 0), (1, !ALL_P), (1, 1 << 31), (1, 1 << 32)] {
        script.access(word(false, 9, 12, 4, rt), operand);
        script.external_read(PMOVSCLR);
    }
    script.finish()
}

/// Accesses that do not get as far as counting, and a word of another register.
const STOPPED: [(&[Change], u32); 10] = [
    (&[(LEVEL, 0), (EN, 0)], PMSWINC),
    (&[(LEVEL, 1), (FGT_SWINC, 1), (FGTEN, 1)], PMSWINC),
    (&[(LEVEL, 1), (TPM_EL2, 1)], PMSWINC),
    (&[(LEVEL, 2), (TPM_EL3, 1)], PMSWINC),
    (&[(LEVEL, 2), (TPM_EL3, 1), (HALTED, 1), (SDD, 1)], PMSWINC),
    (&[(P9, 0), (P5, 0), (ICNTR, 0), (PMUV3, 0)], PMSWINC),
    (&[], PMSWINC | 1 << 21),
    (&[], PMSWINC ^ 1 << 5),
    (&[(HAVE_EL3, 0)], PMSWINC),
    (&[(HPMN, 7)], PMSWINC),
];

/// None of them sets a flag; a tick does where it counts.
fn stopped_session() -> Vec<u8> {
    let mut script = running();
    script.put(&[(ENABLES, ALL_ENABLES), (COUNTER, NARROW), (COUNTER + 3, NARROW)]);
    for (case, stopped) in STOPPED {
        script.put(&[(PMOVS, 0), (INSTRUCTIONS, u64::MAX)]);
        script.with(case, |s| {
            s.access(stopped, 9);
            s.external_read(PMOVSCLR);
            s.tick(0);
        });
        script.external_read(PMOVSCLR);
    }
    script.access(PMSWINC, 9);
    script.finish()
}

/// Moves to a counter and set commands go past a carry in both directions and
/// leave the flags alone.
fn moves_session() -> Vec<u8> {
    let mut script = Script::counters(&GIVEN);
    script.set(N, 31);
    for flags in [0, ALL_PMOVS] {
        script.set(PMOVS, flags);
        for p5 in [1, 0] {
            script.put(&[(COUNTER, 0), (P9, 0), (P5, p5)]);
            for value in [u64::MAX, 0, NARROW, 0x1_0000_0000, 0] {
                script.access(counter_word(false, 0, 1), value);
                script.access(word(false, 9, 4, 0, 1), value);
                script.external_read(PMOVSCLR);
            }
            for value in [NARROW, 0, NARROW] {
                script.put(&[(COUNTER, value), (INSTRUCTIONS, value << 32 | value)]);
                script.external_read(PMOVSCLR);
            }
        }
    }
    script.finish()
}

/// The conditions of a tick, one of them changed at a time, and the flag that
/// prohibits it.
const TICKS: [(&[Change], u8); 16] = [
    (&[], 0),
    (&[], 1),
    (&[], 2),
    (&[(ENABLES, 0)], 0),
    (&[(ENABLES, ENABLE_F0 - 1)], 0),
    (&[(ENABLES, ALL_ENABLES)], 0),
    (&[(ENABLES, ALL_ENABLES)], 1),
    (&[(ICNTR, 0)], 0),
    (&[(ICNTR, 0)], 1),
    (&[(P9, 0), (P5, 0)], 0),
    (&[(EVENT, 1), (N, 0), (HPMN, 0), (HPMN0, 1)], 0),
    (&[(EL2_ENABLED, 0), (HAVE_EL2, 0)], 0),
    (&[(EXT64, 0), (DOUBLE_LOCK, 1), (SOFTWARE_LOCK, 1)], 0),
    (&[(LEVEL, 2)], 0),
    (&[(LEVEL, 1), (TPM_EL2, 1)], 0),
    (&[(LEVEL, 0), (EN, 0)], 0),
];

/// A tick of the last value, where it counts and where it does not; it leaves
/// the other flags.
fn tick_session() -> Vec<u8> {
    let mut script = Script::counters(&GIVEN);
    script.set(ENABLES, ENABLE_F0);
    for (case, prohibited) in TICKS {
        script.put(&[(INSTRUCTIONS, u64::MAX), (PMOVS, 0x21)]);
        script.with(case, |s| s.tick(prohibited));
        script.external_read(PMOVSCLR);
        script.access(word(true, 9, 4, 0, 2), 0);
    }
    script.finish()
}

/// The instruction counter overflows at 64 bits alone, whatever LP, HLP and p5
/// say, and its flag stays.
fn tick_values_session() -> Vec<u8> {
    let values = [0, NARROW, 0x1_FFFF_FFFF, 0x7FFF_FFFF_FFFF_FFFF, u64::MAX - 1, u64::MAX, 5];
    let mut script = Script::counters(&GIVEN);
    script.put(&[(ENABLES, ENABLE_F0), (P9, 0)]);
    for (p5, long) in [(1, LONG[0]), (1, LONG[2]), (0, LONG[0]), (0, LONG[2])] {
        script.put(&[(P5, p5), (PMOVS, 0)]);
        script.put(&long);
        for value in values {
            script.set(INSTRUCTIONS, value);
            for _ in 0..2 {
                script.tick(0);
                script.access(word(true, 9, 4, 0, 2), 0);
                script.external_read(PMOVSCLR);
            }
        }
    }
    script.finish()
}

pub fn sessions() -> Vec<Session> {
    let missing = [(EL2_ENABLED, 0), (HAVE_EL2, 0), (HLP, 1)];
    vec![
        Session::new("overflow-carry-32-without-p5", carry_session(0, &NARROW_VALUES)),
        Session::new("overflow-carry-32-and-64", carry_session(1, &WIDE_VALUES)),
        Session::new("overflow-flag-stays", stays_session()),
        Session::new("overflow-each-counter", each_counter_session()),
        Session::new("overflow-several-counters", several_session()),
        Session::new("overflow-each-hpmn-hlp", each_hpmn_session(&[(HLP, 1)])),
        Session::new("overflow-each-hpmn-lp", each_hpmn_session(&[(LP, 1), (EL2_ENABLED, 0)])),
        Session::new("overflow-each-hpmn-no-el2", each_hpmn_session(&missing)),
        Session::new("overflow-lp-hlp-el2", el2_session()),
        Session::new("overflow-event-numbers", event_session()),
        Session::new("overflow-ignored-bits", ignored_session()),
        Session::new("overflow-stopped-accesses", stopped_session()),
        Session::new("overflow-moves", moves_session()),
        Session::new("overflow-tick-conditions", tick_session()),
        Session::new("overflow-tick-values", tick_values_session()),
    ]
}
