//! MODEL G1 to G5 and T5: granted accesses to PMEVCNTR. PMUACR, UEN and ER at
//! each level, the width of a write, and T5 for every counter.

use super::fields::*;
use super::script::{Change, Kind, Script, Switch};
use super::Session;
use crate::generate::counter_word;

/// Consistent, and no rule applies to counters 0 to 3.
const GIVEN: [Change; 3] = [
    (COUNTER, 0x10),
    (COUNTER + 2, 0x12),
    (COUNTER + 3, 0x13),
];

/// P of counter 3 alone, and of all but it.
const P3: u64 = 1 << 3;
const NOT_P3: u64 = ALL_P - P3;

/// All subsets of p9, UEN, ER, P3 and SW, for a read and a write.
fn pmuacr_session(level: u8, read_only: bool) -> Vec<u8> {
    let switches: [Switch; 5] =
        [(PMUACR_P, NOT_P3, P3), (UEN, 0, 1), (ER, 0, 1), (P9, 0, 1), (SW, 0, 1)];
    let mut script = Script::counters(&GIVEN);
    script.level(level);
    script.subsets(&switches, |s| {
        s.probe(Kind::CounterRead, 3);
        if !read_only {
            s.probe(Kind::CounterWrite, 3);
        }
    });
    script.finish()
}

/// EN 0 with ER 1 lets level 0 read; PMUACR binds it still.
fn en_session() -> Vec<u8> {
    let switches: [Switch; 5] =
        [(PMUACR_P, 0, ALL_P), (UEN, 0, 1), (ER, 0, 1), (EN, 0, 1), (P9, 0, 1)];
    let mut script = Script::counters(&GIVEN);
    script.subsets(&switches, |s| {
        s.probe(Kind::CounterRead, 3);
        s.probe(Kind::CounterWrite, 3);
    });
    script.finish()
}

/// Each P bit binds its own counter.
fn each_p_session(read: bool) -> Vec<u8> {
    let mut script = Script::counters(&GIVEN);
    script.put(&[(N, 31), (HPMN, 31), (UEN, 1)]);
    for m in 0..31 {
        script.set(COUNTER + m, 0x100 + m as u64);
    }
    for m in 0..31u32 {
        script.set(PMUACR_P, 1 << m);
        let next = (m + 1) % 31;
        if read {
            script.access(counter_word(true, m, 2), 0);
            script.access(counter_word(true, next, 2), 0);
        } else {
            script.access(counter_word(false, next, 2), 0x9999);
            script.access(counter_word(false, m, 2), 0x200 + m as u64);
        }
    }
    script.finish_all()
}

/// Operands at the borders of 32 and 64 bits.
const BORDERS: [u64; 12] = [
    0,
    1,
    0x7FFF_FFFF,
    0x8000_0000,
    0xFFFF_FFFF,
    0x1_0000_0000,
    0x1_0000_0001,
    0x1_FFFF_FFFF,
    0x8000_0000_0000_0000,
    0xFFFF_FFFF_0000_0000,
    0xFFFF_FFFF_FFFF_FFFE,
    0xFFFF_FFFF_FFFF_FFFF,
];

/// MODEL G1 and G2: a write stores 32 bits, with p5 all 64, at each level.
fn width_session(p5: u64) -> Vec<u8> {
    let mut script = Script::counters(&GIVEN);
    script.put(&[(P9, 0), (P5, p5)]);
    for level in 0..=3 {
        script.level(level);
        for value in BORDERS {
            script.access(counter_word(false, 2, 1), value);
            script.access(counter_word(true, 2, 2), value);
        }
    }
    script.finish()
}

/// MODEL T5: every counter and some HPMN, at levels 0 to 2.
fn hpmn_session(hpmn: u64, n: u64) -> Vec<u8> {
    let mut script = Script::counters(&GIVEN);
    script.put(&[(HPMN0, 1), (N, n), (HPMN, hpmn)]);
    for m in 0..31 {
        script.set(COUNTER + m, 0x100 + m as u64);
    }
    for level in [0, 1, 2] {
        script.level(level);
        for m in 0..32 {
            script.access(counter_word(true, m, 2), 0);
            script.access(counter_word(false, m, 1), 0x300 + m as u64 + 64 * level as u64);
        }
    }
    script.finish_all()
}

pub fn sessions() -> Vec<Session> {
    let mut list = Vec::new();
    for level in 0..=3 {
        let bytes = pmuacr_session(level, level == 3);
        list.push(Session::new(format!("pmuacr-counter-level-{level}"), bytes));
    }
    list.push(Session::new("pmuacr-counter-en-er", en_session()));
    list.push(Session::new("pmuacr-each-counter-read", each_p_session(true)));
    list.push(Session::new("pmuacr-each-counter-write", each_p_session(false)));
    list.push(Session::new("width-counter-write-32", width_session(0)));
    list.push(Session::new("width-counter-write-64", width_session(1)));
    for (hpmn, n) in [(5, 6), (30, 31)] {
        let name = format!("hpmn-{hpmn}-n-{n}-each-counter");
        list.push(Session::new(name, hpmn_session(hpmn, n)));
    }
    list
}
