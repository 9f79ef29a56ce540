//! MODEL W1 to W9 and U1 to U5: the words of the registers with op1 3, those
//! beside them, Rt, the accesses that are undefined at once, and the syndrome.

use super::fields::*;
use super::script::{Change, Script, RUNNING};
use super::Session;
use crate::generate::{counter_word, with_op1, word};

/// All 31 counters, all registers present, no rule applies at level 1.
const GIVEN: [Change; 8] = [
    (PMUV3, 1),
    (P5, 1),
    (ICNTR, 1),
    (HAVE_EL2, 1),
    (EL2_ENABLED, 1),
    (N, 31),
    (HPMN, 31),
    (LEVEL, 1),
];

/// Makes every word of the registers with op1 3 trap to EL2 where it does not read
/// as undefined.
const TRAPPED: Change = (TPM_EL2, 1);

/// A session with a different value in each counter.
fn script() -> Script {
    let mut script = Script::new(&GIVEN);
    for m in 0..=31 {
        script.set(COUNTER + m, 0x100 + m as u64);
    }
    script
}

/// One word of each register and direction, and what is set so that those
/// beside it have an effect.
const WORDS: [(&str, u32, &[Change]); 6] = [
    ("counter-0-read", 0xD53B_E802, &[]),
    ("counter-30-write", 0xD51B_EBC1, &[]),
    ("pmswinc-read", 0xD53B_9C82, &RUNNING),
    ("pmswinc-write", 0xD51B_9C81, &RUNNING),
    ("pmicntr-read", 0xD53B_9402, &[]),
    ("pmicntr-write", 0xD51B_9401, &[]),
];

/// Every word that differs in one bit.
fn neighbours_session(word: u32, given: &[Change]) -> Vec<u8> {
    let mut script = script();
    script.put(given);
    script.access(word, 0x5500);
    for bit in 0..32 {
        script.access(word ^ 1 << bit, 0x5501 + bit);
    }
    script.finish_all()
}

/// Every CRm and op2 with an op1 and a CRn; trapped, so that the syndrome shows
/// too.
fn crn_session(read: bool, op1: u32, crn: u32) -> Vec<u8> {
    let mut script = Script::new(&GIVEN);
    script.put(&RUNNING);
    script.put(&[TRAPPED]);
    for crm in 0..16 {
        for op2 in 0..8 {
            script.access(with_op1(word(read, crn, crm, op2, crm + op2), op1), 1);
        }
    }
    script.finish()
}

/// Every CRn, op1 and op0 with the CRm and op2 of each register.
fn prefix_session(read: bool) -> Vec<u8> {
    let mut script = Script::new(&GIVEN);
    script.put(&RUNNING);
    script.put(&[TRAPPED]);
    for (crn, crm, op2) in [(14, 8, 0), (14, 11, 7), (9, 12, 4), (9, 4, 0)] {
        for other in 0..16 {
            script.access(word(read, other, crm, op2, 5), 1);
        }
        let ours = word(read, crn, crm, op2, 5);
        for op1 in 0..8 {
            script.access(with_op1(ours, op1), 1);
        }
        script.access(ours & !(1 << 19), 1);
    }
    script.finish()
}

/// A different operand of the write for each word: which counter it reaches.
fn counters_session() -> Vec<u8> {
    let mut script = script();
    for m in 0..32 {
        script.access(counter_word(false, m, m % 31), 0x5500 + m as u64);
    }
    for m in 0..32 {
        script.access(counter_word(true, m, 31 - m), u64::MAX);
    }
    script.finish_all()
}

/// Each Rt: a read names it and does not look at the operand; with Rt 31 a
/// write's operand is 0.
fn rt_session(read: bool) -> Vec<u8> {
    let mut script = script();
    for rt in 0..32 {
        for ours in [counter_word(read, 7, rt), word(read, 9, 4, 0, rt)] {
            script.access(ours, 0x6600 + rt as u64);
            if !read {
                script.access(ours & !31 | 1 << 21, 0);
            }
        }
    }
    script.finish_all()
}

/// The same for PMSWINC: with Rt 31 no bit is set.
fn swinc_rt_session() -> Vec<u8> {
    let mut script = script();
    script.put(&RUNNING);
    for rt in 0..32 {
        script.access(word(false, 9, 12, 4, rt), 1 << (rt % 31));
    }
    script.access(word(false, 9, 12, 4, 31), u64::MAX);
    script.finish_all()
}

/// The syndrome for each Rt and each counter.
fn syndrome_session(read: bool) -> Vec<u8> {
    let mut script = Script::new(&GIVEN);
    script.put(&[TRAPPED]);
    for number in 0..32 {
        script.access(counter_word(read, number, 0), 0);
        script.access(counter_word(read, 21, number), 0);
        script.access(word(read, 9, 4, 0, number), 0);
        script.access(word(read, 9, 12, 4, number), 0);
    }
    script.finish()
}

/// MODEL U1 to U5: undefined at once, ahead of every rule. At each level, with
/// the condition flipped, while T2, T4 and T6 all apply or none does. Counters
/// are on, so that an increment would show.
fn undefined_session() -> Vec<u8> {
    let mut script = Script::new(&GIVEN);
    script.put(&RUNNING);
    script.put(&[(HAVE_EL3, 1), (HPMN, 2), (N, 4)]);
    let stopped = [(EN, 1), (ENPM2, 1), (TPM_EL2, 0), (TPM_EL3, 0)];
    for changes in [stopped, [(EN, 0), (ENPM2, 0), (TPM_EL2, 1), (TPM_EL3, 1)]] {
        script.put(&changes);
        for level in 0..=3 {
            script.level(level);
            undefined_cases(&mut script);
        }
    }
    script.finish()
}

/// The accesses that are undefined at once and those beside them.
fn undefined_cases(script: &mut Script) {
    for m in [1, 2, 3, 4, 5, 30, 31] {
        script.access(counter_word(true, m, 2), 0);
    }
    script.access(counter_word(false, 3, 1), 1);
    script.access(counter_word(false, 4, 1), 1);
    script.access(word(true, 9, 12, 4, 2), 0);
    script.with(&[(ICNTR, 0)], |s| {
        s.access(word(true, 9, 4, 0, 2), 0);
        s.access(word(false, 9, 4, 0, 1), 1);
        s.with(&[(P5, 0), (PMUV3, 0)], |s| {
            s.access(counter_word(true, 1, 2), 0);
            s.access(counter_word(false, 1, 1), 1);
            s.access(word(false, 9, 12, 4, 1), 1);
            s.access(word(true, 9, 4, 0, 2), 0);
            s.access(0xD53B_E002, 0);
        });
    });
}

/// MODEL U2: m >= N for each N, at level 1 with EL2 not enabled.
fn n_session(fgt: u64) -> Vec<u8> {
    let mut script = script();
    script.put(&[(EL2_ENABLED, 0), (HPMN0, 1), (HPMN, 0), (FGT, fgt)]);
    for n in 0..=31u32 {
        script.set(N, n as u64);
        for m in [n.saturating_sub(1), n, 31] {
            script.access(counter_word(true, m, 2), 0);
        }
        script.access(counter_word(false, n, 1), 0x7700);
    }
    script.finish_all()
}

pub fn sessions() -> Vec<Session> {
    let mut list = Vec::new();
    for (name, word, given) in WORDS {
        let bytes = neighbours_session(word, given);
        list.push(Session::new(format!("words-beside-{name}"), bytes));
    }
    for (direction, read) in [("read", true), ("write", false)] {
        for crn in [9, 14] {
            let bytes = crn_session(read, 3, crn);
            list.push(Session::new(format!("words-crn-{crn}-{direction}"), bytes));
            let bytes = crn_session(read, 0, crn);
            list.push(Session::new(format!("words-op1-0-crn-{crn}-{direction}"), bytes));
        }
        list.push(Session::new(format!("words-op0-op1-crn-{direction}"), prefix_session(read)));
        list.push(Session::new(format!("words-rt-{direction}"), rt_session(read)));
        list.push(Session::new(format!("syndrome-{direction}"), syndrome_session(read)));
    }
    list.push(Session::new("words-each-counter", counters_session()));
    list.push(Session::new("words-rt-pmswinc", swinc_rt_session()));
    list.push(Session::new("undefined-at-once", undefined_session()));
    list.push(Session::new("undefined-each-n", n_session(1)));
    list.push(Session::new("undefined-each-n-no-fgt", n_session(0)));
    list
}
