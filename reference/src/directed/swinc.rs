//! MODEL G8 to G10: granted writes of PMSWINC. Each operand bit, which bits are
//! ignored, event numbers, and wrapping. All counters are on: what switches them
//! off is in running.rs.

use super::fields::*;
use super::script::{Change, Kind, Script, Switch, RUNNING};
use super::Session;
use crate::generate::{counter_word, word};

/// MSR PMSWINC_EL0, X1.
fn increment(script: &mut Script, operand: u64) {
    script.access(word(false, 9, 12, 4, 1), operand);
}

/// Each of the 64 operand bits; bits from 31 up are ignored.
fn each_bit_session(level: u8) -> Vec<u8> {
    let mut script = Script::counters(&RUNNING);
    script.put(&[(N, 31), (HPMN, 31), (LEVEL, level as u64)]);
    for bit in 0..64 {
        increment(&mut script, 1 << bit);
        script.look(counter_word(true, bit % 31, 2));
    }
    increment(&mut script, 0);
    increment(&mut script, u64::MAX);
    script.finish_all()
}

/// All bits at once with HPMN 4 and N 6, at one level, HPMN and EL2 flipped.
fn limits_session(level: u8) -> Vec<u8> {
    let mut script = Script::counters(&RUNNING);
    script.level(level);
    let cases: [&[Change]; 8] = [
        &[],
        &[(HPMN, 5)],
        &[(HPMN, 3)],
        &[(HPMN, 6)],
        &[(N, 5)],
        &[(HPMN, 0), (HPMN0, 1)],
        &[(EL2_ENABLED, 0)],
        &[(EL2_ENABLED, 0), (HAVE_EL2, 0)],
    ];
    for case in cases {
        script.with(case, |s| increment(s, u64::MAX));
        script.with(&[(LEVEL, 3)], |s| {
            for m in 0..6 {
                s.access(counter_word(true, m, m), 0);
            }
        });
    }
    script.finish_all()
}

/// Every HPMN and N: the bits just below and at each, from level 1.
fn borders_session(field: u8) -> Vec<u8> {
    let mut script = Script::counters(&RUNNING);
    script.put(&[(HPMN0, 1), (HPMN, 31), (N, 31), (LEVEL, 1)]);
    if field == N {
        script.put(&[(EL2_ENABLED, 0), (HAVE_EL2, 0)]);
    }
    for value in 0..=31u64 {
        script.set(field, value);
        increment(&mut script, 1 << value | 1 << value.saturating_sub(1));
        increment(&mut script, 1 << 30);
    }
    script.finish_all()
}

/// All subsets of p9, UEN, SW, P3 and ER at one level: PMUACR holds increments
/// back at level 0 while SW is 0.
fn pmuacr_session(level: u8) -> Vec<u8> {
    let switches: [Switch; 5] =
        [(PMUACR_P, ALL_P - (1 << 3), 1 << 3), (UEN, 0, 1), (SW, 0, 1), (P9, 0, 1), (ER, 0, 1)];
    let mut script = Script::counters(&RUNNING);
    script.level(level);
    script.subsets(&switches, |s| s.probe(Kind::Swinc, 3));
    script.finish()
}

/// EN 0 with SW 1, and both 0, under PMUACR.
fn en_session() -> Vec<u8> {
    let switches: [Switch; 5] =
        [(PMUACR_P, 0, ALL_P), (UEN, 0, 1), (SW, 0, 1), (EN, 0, 1), (P9, 0, 1)];
    let mut script = Script::counters(&RUNNING);
    script.subsets(&switches, |s| s.probe(Kind::Swinc, 3));
    script.finish()
}

/// Each P bit binds its own counter: all bits are written under one P.
fn each_p_session() -> Vec<u8> {
    let mut script = Script::counters(&RUNNING);
    script.put(&[(N, 31), (HPMN, 31), (UEN, 1)]);
    for m in 0..31 {
        script.set(COUNTER + m, 0x1000 * m as u64);
    }
    for m in 0..31 {
        script.set(PMUACR_P, 1 << m);
        for _ in 0..=m % 4 {
            increment(&mut script, u64::MAX);
        }
    }
    script.finish_all()
}

/// Event numbers with one bit set: none of them counts.
fn event_bits_session() -> Vec<u8> {
    let mut script = Script::counters(&RUNNING);
    script.level(1);
    for bit in 0..16 {
        script.set(EVENT + 2, 1 << bit);
        increment(&mut script, 0xF);
        script.look(counter_word(true, 2, 2));
    }
    script.set(EVENT + 2, 0);
    increment(&mut script, 0xF);
    script.finish()
}

/// Each event number stops its own counter: counters whose number has a bit
/// set, for each of the five bits.
fn event_counters_session() -> Vec<u8> {
    let mut script = Script::counters(&RUNNING);
    script.put(&[(N, 31), (HPMN, 31), (LEVEL, 1)]);
    for bit in 0..5 {
        for m in 0..31u8 {
            if m >> bit & 1 == 1 {
                script.set(EVENT + m, 1);
            }
        }
        for _ in 0..1 << bit {
            increment(&mut script, u64::MAX);
        }
        for m in 0..31u8 {
            if m >> bit & 1 == 1 {
                script.set(EVENT + m, 0);
            }
        }
    }
    script.finish_all()
}

/// Counters at the borders, incremented four times: with p5 they wrap at 2^64,
/// without it at 2^32.
fn wrap_session(p5: u64) -> Vec<u8> {
    let top = if p5 == 1 { u64::MAX } else { 0xFFFF_FFFF };
    let mut script = Script::counters(&RUNNING);
    script.put(&[(P9, 0), (P5, p5), (N, 31), (HPMN, 31)]);
    let values = [top - 1, top, 0xFFFF_FFFE, 0xFFFF_FFFF, 0x7FFF_FFFF, 0, top / 2, 0xFFFF];
    for (m, value) in [0, 1, 2, 3, 4, 5, 29, 30].iter().zip(values) {
        script.set(COUNTER + m, value);
    }
    for level in [1, 0, 2, 3] {
        script.level(level);
        increment(&mut script, 0x6000_003F);
        for m in [0, 1, 2, 3, 4, 5, 29, 30] {
            script.access(counter_word(true, m, m), 0);
        }
    }
    script.finish_all()
}

pub fn sessions() -> Vec<Session> {
    let mut list = Vec::new();
    for level in 0..=3 {
        let pairs = [
            ("pmswinc-each-bit", each_bit_session(level)),
            ("pmswinc-hpmn-n", limits_session(level)),
            ("pmuacr-pmswinc", pmuacr_session(level)),
        ];
        for (name, bytes) in pairs {
            list.push(Session::new(format!("{name}-level-{level}"), bytes));
        }
    }
    list.push(Session::new("pmswinc-each-hpmn", borders_session(HPMN)));
    list.push(Session::new("pmswinc-each-n", borders_session(N)));
    list.push(Session::new("pmuacr-pmswinc-en-sw", en_session()));
    list.push(Session::new("pmuacr-pmswinc-each-counter", each_p_session()));
    list.push(Session::new("pmswinc-event-bits", event_bits_session()));
    list.push(Session::new("pmswinc-event-each-counter", event_counters_session()));
    list.push(Session::new("pmswinc-wrap-32", wrap_session(0)));
    list.push(Session::new("pmswinc-wrap-64", wrap_session(1)));
    list
}
