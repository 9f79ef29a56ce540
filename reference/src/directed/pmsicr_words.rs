//! MODEL W12: the words of PMSICR and those beside them, Rt, and the syndrome.

use super::fields::*;
use super::script::{Change, Script, PMSICR_READ, PMSICR_WRITE};
use super::Session;
use crate::generate::{counter_word, with_op1, word};

/// No check stops an access at level 1; with REDIRECTED the word at 0x838 is
/// meant.
const GIVEN: [Change; 11] = [
    (HAVE_EL2, 1),
    (HAVE_EL3, 1),
    (N, 2),
    (EL2_ENABLED, 1),
    (HPMN, 1),
    (SPE, 1),
    (ERND, 1),
    (NSPB, 1),
    (PMSICR, 0x5A00_0000_1234_5678),
    (NV_WORD, 0x0838_0838_0838_0838),
    (LEVEL, 1),
];

const REDIRECTED: [Change; 2] = [(NV, 1), (NV2, 1)];

/// The word of PMSICR with an Rt.
fn pmsicr(read: bool, rt: u32) -> u32 {
    with_op1(word(read, 9, 9, 2, rt), 0)
}

/// Every word that differs in one bit, with operands that tell which one was
/// obeyed.
fn neighbours_session(word: u32) -> Vec<u8> {
    let mut script = Script::new(&GIVEN);
    script.access(word, 0x5500);
    for bit in 0..32 {
        script.access(word ^ 1 << bit, 0x5501 + bit);
    }
    script.finish_sampling()
}

/// Every op1, CRn, CRm and op2 beside those of PMSICR, and op0 2. TPMS traps it,
/// and MDCR_EL2.TPM the other registers, which need their own op1.
fn places_session(read: bool) -> Vec<u8> {
    let mut script = Script::new(&GIVEN);
    script.put(&[(PMUV3, 1), (ICNTR, 1), (TPMS, 1), (TPM_EL2, 1)]);
    let ours = pmsicr(read, 5);
    for op1 in 0..8 {
        script.access(with_op1(ours, op1), 1);
    }
    for other in 0..16 {
        script.access(with_op1(word(read, other, 9, 2, 5), 0), 1);
        script.access(with_op1(word(read, 9, other, 2, 5), 0), 1);
    }
    for op2 in 0..8 {
        script.access(with_op1(word(read, 9, 9, op2, 5), 0), 1);
    }
    script.access(ours & !(1 << 19), 1);
    for other in [counter_word(read, 1, 5), word(read, 9, 12, 4, 5), word(read, 9, 4, 0, 5)] {
        script.access(other, 1);
        script.access(with_op1(other, 0), 1);
    }
    script.finish_sampling()
}

/// Each Rt, for the register and for the word at 0x838: a read names it and does
/// not look at the operand; with Rt 31 a write's operand is 0.
fn rt_session(read: bool) -> Vec<u8> {
    let mut script = Script::new(&GIVEN);
    for given in [&[], &REDIRECTED[..]] {
        script.with(given, |s| {
            for rt in 0..32 {
                s.access(pmsicr(read, rt), 0x6600_0000_0000_6600 + rt as u64);
                if !read {
                    s.access(PMSICR_READ, 0);
                }
            }
        });
    }
    script.finish_sampling()
}

/// The syndrome for each Rt in both directions: a trap to EL2, and one to EL3.
fn syndrome_session() -> Vec<u8> {
    let mut script = Script::new(&GIVEN);
    for closed in [(TPMS, 1), (NSPB, 3)] {
        script.with(&[closed], |s| {
            for rt in 0..32 {
                s.access(pmsicr(true, rt), 0);
                s.access(pmsicr(false, rt), 0);
            }
        });
    }
    script.finish_sampling()
}

pub fn sessions() -> Vec<Session> {
    vec![
        Session::new("pmsicr-words-beside-read", neighbours_session(PMSICR_READ)),
        Session::new("pmsicr-words-beside-write", neighbours_session(PMSICR_WRITE)),
        Session::new("pmsicr-words-places-read", places_session(true)),
        Session::new("pmsicr-words-places-write", places_session(false)),
        Session::new("pmsicr-rt-read", rt_session(true)),
        Session::new("pmsicr-rt-write", rt_session(false)),
        Session::new("pmsicr-syndrome", syndrome_session()),
    ]
}
