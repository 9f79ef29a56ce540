//! MODEL J3, G15 and G16: what PMSICR and the word at 0x838 hold. Bits 55:32 of
//! the register are reserved, and 63:56 while ERnd is 0: a set stores them, MSR
//! makes them 0, and they read as 0. The word has no reserved bits; it stands
//! in for the register at level 1 with EL2 enabled, NV 1 and NV2 1.

use super::fields::*;
use super::script::{Change, Kind, Script, Switch, PMSICR_READ, PMSICR_WRITE};
use super::Session;

/// No check stops an access at levels 1 to 3.
const GIVEN: [Change; 8] = [
    (HAVE_EL2, 1),
    (HAVE_EL3, 1),
    (N, 2),
    (EL2_ENABLED, 1),
    (HPMN, 1),
    (SPE, 1),
    (NSPB, 1),
    (LEVEL, 1),
];

/// How a value gets into the register.
type Store = fn(&mut Script, u64);

fn by_set(script: &mut Script, value: u64) {
    script.set(PMSICR, value);
}

fn by_msr(script: &mut Script, value: u64) {
    script.access(PMSICR_WRITE, value);
}

/// Each bit alone, read under the ERnd with which it was stored and then under
/// the other one, with which the next bit is stored.
fn each_bit_session(store: Store, ernd: u64) -> Vec<u8> {
    let mut script = Script::new(&GIVEN);
    script.put(&[(PMSICR, u64::MAX), (ERND, ernd)]);
    for bit in 0..64 {
        store(&mut script, 1 << bit);
        script.access(PMSICR_READ, 0);
        script.set(ERND, 1 - (ernd ^ bit & 1));
        script.access(PMSICR_READ, 0);
    }
    script.finish_sampling()
}

/// Values that mix the parts of the register.
const PATTERNS: [u64; 8] = [
    u64::MAX,
    0xFF00_0000_0000_0000,
    0x00FF_FFFF_0000_0000,
    0x0000_0000_FFFF_FFFF,
    0xFFFF_FFFF_0000_0000,
    0x8080_0001_8000_0001,
    0x0100_0000_0000_0001,
    0,
];

/// Patterns stored and read under each ERnd, over a register that holds all
/// ones or none.
fn patterns_session(store: Store) -> Vec<u8> {
    let mut script = Script::new(&GIVEN);
    for (before, ernd) in [(u64::MAX, 0), (u64::MAX, 1), (0, 0), (0, 1)] {
        for value in PATTERNS {
            script.put(&[(PMSICR, before), (ERND, ernd)]);
            store(&mut script, value);
            for ernd in [0, 1] {
                script.set(ERND, ernd);
                script.access(PMSICR_READ, u64::MAX);
            }
        }
    }
    script.finish_sampling()
}

/// The levels are alike: a write at each, reads at all of them.
fn levels_session() -> Vec<u8> {
    let mut script = Script::new(&GIVEN);
    for ernd in [0, 1] {
        script.set(ERND, ernd);
        for level in 0..=3 {
            script.set(PMSICR, u64::MAX);
            script.level(level);
            script.access(PMSICR_WRITE, 0x3300_4400_5500_6600 + level as u64);
            for level in 0..=3 {
                script.level(level);
                script.access(PMSICR_READ, 0);
            }
        }
    }
    script.finish_sampling()
}

/// Each bit of the word alone, by a set or by MSR, under both ERnd. The
/// register is read now and then.
fn word_bits_session(by_set: bool) -> Vec<u8> {
    let mut script = Script::new(&GIVEN);
    script.put(&[(NV, 1), (NV2, 1), (PMSICR, 0x1100_0000_2222_2222)]);
    for bit in 0..64 {
        script.set(ERND, bit >> 1 & 1);
        if by_set {
            script.set(NV_WORD, 1 << bit);
        } else {
            script.access(PMSICR_WRITE, 1 << bit);
        }
        script.access(PMSICR_READ, 0);
        if bit % 16 == 7 {
            script.look(PMSICR_READ);
        }
    }
    script.finish_sampling()
}

/// Reads the word itself, whatever is switched.
fn look_at_word(script: &mut Script) {
    script.with(&[(EL2_ENABLED, 1), (NV, 1), (NV2, 1), (LEVEL, 1)], |s| s.access(PMSICR_READ, 0));
}

/// NV, NV2, EL2 enabled, ERnd and EL3 in all subsets at level 1: which of the
/// two is read.
fn read_session() -> Vec<u8> {
    let switches: [Switch; 5] =
        [(NV, 0, 1), (NV2, 0, 1), (EL2_ENABLED, 1, 0), (ERND, 0, 1), (HAVE_EL3, 1, 0)];
    let mut script = Script::new(&GIVEN);
    script.put(&[(PMSICR, 0x1122_3344_5566_7788), (NV_WORD, u64::MAX)]);
    script.subsets(&switches, |s| s.probe(Kind::SicrRead, 0));
    script.finish_sampling()
}

/// The same for one kind of machine: which of the two is written, both being read
/// each time.
fn write_session(have_el3: u64) -> Vec<u8> {
    let switches: [Switch; 4] = [(NV, 0, 1), (NV2, 0, 1), (EL2_ENABLED, 1, 0), (ERND, 0, 1)];
    let mut script = Script::new(&GIVEN);
    script.put(&[(HAVE_EL3, have_el3), (PMSICR, u64::MAX), (NV_WORD, 0x1122_3344_5566_7788)]);
    script.subsets(&switches, |s| {
        s.probe(Kind::SicrWrite, 0);
        look_at_word(s);
    });
    script.finish_sampling()
}

/// NV and NV2 at the levels where they do not matter.
fn other_levels_session() -> Vec<u8> {
    let switches: [Switch; 3] = [(NV, 0, 1), (NV2, 0, 1), (EL2_ENABLED, 1, 0)];
    let mut script = Script::new(&GIVEN);
    script.put(&[(ERND, 1), (PMSICR, 0x1122_3344_5566_7788), (NV_WORD, u64::MAX)]);
    for level in [0, 2, 3] {
        script.level(level);
        script.subsets(&switches, |s| {
            s.probe(Kind::SicrRead, 0);
            s.probe(Kind::SicrWrite, 0);
        });
        look_at_word(&mut script);
    }
    script.finish_sampling()
}

/// Register and word are apart: writes, sets and Rt 31 in turn, both read each
/// time.
fn apart_session() -> Vec<u8> {
    let mut script = Script::new(&GIVEN);
    script.put(&[(ERND, 1), (NV2, 1)]);
    for (index, value) in PATTERNS.into_iter().enumerate() {
        let nv = index as u64 & 1;
        script.set(NV, nv);
        script.access(PMSICR_WRITE, value);
        script.look(PMSICR_READ);
        look_at_word(&mut script);
        script.put(&[(PMSICR, !value), (NV_WORD, value.rotate_left(20))]);
        script.set(NV, 1 - nv);
        script.access(PMSICR_WRITE | 31, value);
        script.look(PMSICR_READ);
        look_at_word(&mut script);
    }
    script.finish_sampling()
}

pub fn sessions() -> Vec<Session> {
    let stores: [(&str, Store); 2] = [("set", by_set), ("msr", by_msr)];
    let mut list = Vec::new();
    for (name, store) in stores {
        for ernd in [0, 1] {
            let bytes = each_bit_session(store, ernd);
            list.push(Session::new(format!("pmsicr-reserved-each-bit-{name}-ernd-{ernd}"), bytes));
        }
        let bytes = patterns_session(store);
        list.push(Session::new(format!("pmsicr-reserved-patterns-{name}"), bytes));
        let bytes = word_bits_session(name == "set");
        list.push(Session::new(format!("pmsicr-word-each-bit-{name}"), bytes));
    }
    list.push(Session::new("pmsicr-reserved-each-level", levels_session()));
    for (have_el3, state) in [(1, "el3"), (0, "no-el3")] {
        list.push(Session::new(format!("pmsicr-word-write-{state}"), write_session(have_el3)));
    }
    list.push(Session::new("pmsicr-word-read", read_session()));
    list.push(Session::new("pmsicr-word-other-levels", other_levels_session()));
    list.push(Session::new("pmsicr-word-and-register-apart", apart_session()));
    list
}
