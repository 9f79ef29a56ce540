//! MODEL J4: profiling that starts. A set that turns it on puts the reload value
//! into the primary counter, where there is SPE and the register is zero,
//! reserved bits aside; no other command does.

use super::fields::*;
use super::sampling::counters;
use super::script::{Change, Script, PMSICR_READ, PMSICR_WRITE};
use super::Session;

/// Not yet profiling, at level 3, where the register is read.
const GIVEN: [Change; 4] = [(HAVE_EL3, 1), (SPE, 1), (RELOAD, 7), (LEVEL, 3)];

/// Profiling stops, a register, profiling starts.
fn start(script: &mut Script, register: u64) {
    script.put(&[(PROFILING, 0), (PMSICR, register), (PROFILING, 1)]);
}

/// Registers that are zero, zero but for reserved bits, and not zero.
const REGISTERS: [u64; 12] = [
    0,
    1,
    0x8000_0000,
    0x1_0000_0000,
    0x0080_0000_0000_0000,
    0x00FF_FFFF_0000_0000,
    0x0100_0000_0000_0000,
    0xFF00_0000_0000_0000,
    0xFFFF_FFFF_0000_0000,
    0x00FF_FFFF_0000_0001,
    0xFF00_0000_0000_0001,
    u64::MAX,
];

/// Each register under one ERnd, read with ERnd 1 too, and a member after that.
fn registers_session(ernd: u64) -> Vec<u8> {
    let mut script = Script::new(&GIVEN);
    script.set(RND, 1);
    for reload in [0, 3, ALL_COUNT] {
        script.set(RELOAD, reload);
        for register in REGISTERS {
            script.set(ERND, ernd);
            start(&mut script, register);
            script.access(PMSICR_READ, 0);
            script.member(2);
            script.set(ERND, 1);
            script.access(PMSICR_READ, 0);
        }
    }
    script.finish_sampling()
}

/// Each bit of the register alone.
fn each_bit_session(ernd: u64) -> Vec<u8> {
    let mut script = Script::new(&GIVEN);
    script.set(ERND, ernd);
    for bit in 0..64 {
        start(&mut script, 1 << bit);
        script.access(PMSICR_READ, 0);
    }
    script.finish_sampling()
}

/// Each value over each, with SPE and without it, and values that are refused.
/// The register is zero before each, or not, and read with SPE.
fn transitions_session(given: &[Change]) -> Vec<u8> {
    let mut script = Script::new(&GIVEN);
    script.put(given);
    for (spe, register) in [(1, 0), (0, 0), (1, 2), (0, 2)] {
        for (from, to) in [(0, 0), (0, 1), (1, 1), (1, 0), (0, 2), (1, 2), (0, u64::MAX), (1, 3)] {
            script.put(&[(SPE, spe), (PROFILING, from), (PMSICR, register)]);
            if to <= 1 {
                script.set(PROFILING, to);
            } else {
                script.set_refused(PROFILING, to);
            }
            script.set(SPE, 1);
            script.access(PMSICR_READ, 0);
            script.member(1);
            script.access(PMSICR_READ, 0);
        }
    }
    script.finish_sampling()
}

/// What is no start: SPE that comes while profiling is 1, a level, a register
/// or a reload field that changes, MSR of zero. Then one that is.
fn no_start_session() -> Vec<u8> {
    let mut script = Script::new(&GIVEN);
    script.put(&[(SPE, 0), (PROFILING, 1), (SPE, 1)]);
    let look = |s: &mut Script| {
        s.access(PMSICR_READ, 0);
        s.member(0);
        s.access(PMSICR_READ, 0);
    };
    look(&mut script);
    let changes: [&[Change]; 8] = [
        &[(PROFILING, 1)],
        &[(LEVEL, 0), (LEVEL, 3)],
        &[(LEVEL, 1), (LEVEL, 3)],
        &[(ERND, 1)],
        &[(RND, 1)],
        &[(RELOAD, 5)],
        &[(PMSICR, 3), (PMSICR, 0)],
        &[(SPE, 0), (SPE, 1)],
    ];
    for change in changes {
        script.put(change);
        look(&mut script);
    }
    script.access(PMSICR_WRITE, 0);
    look(&mut script);
    script.put(&[(PROFILING, 0), (PROFILING, 1)]);
    look(&mut script);
    script.finish_sampling()
}

/// A set does not test the record: profiling starts in one that is refused.
fn state_session() -> Vec<u8> {
    let broken: [&[Change]; 8] = [
        &[(HAVE_EL3, 0)],
        &[(LEVEL, 2)],
        &[(EL2_ENABLED, 1)],
        &[(HAVE_EL2, 1), (HPMN, 3)],
        &[(HAVE_EL2, 1)],
        &[(COUNTER + 30, 1 << 32)],
        &[(HAVE_EL2, 1), (EL2_ENABLED, 1), (HPMN0, 1), (TGE, 1), (LEVEL, 1)],
        &[(ICNTR, 1)],
    ];
    let mut script = Script::new(&GIVEN);
    for (index, changes) in broken.into_iter().enumerate() {
        script.put(&[(PROFILING, 0), (PMSICR, 0), (RELOAD, 0x20 + index as u64)]);
        script.with(changes, |s| {
            s.access(PMSICR_READ, 0);
            s.set(PROFILING, 1);
            s.member(0);
        });
        script.access(PMSICR_READ, 0);
    }
    script.finish_sampling()
}

/// At each level, and with everything closed that stops an access to the
/// register.
fn levels_session() -> Vec<u8> {
    let mut script = Script::counters(&GIVEN);
    script.put(&[(TPMS, 1), (FGT_PMSICR_READ, 1), (NV, 1), (NV2, 1), (HALTED, 1), (SDD, 1)]);
    for level in 0..=3 {
        script.level(level);
        for register in [0, 1 << 40, 2] {
            start(&mut script, register);
            script.look(PMSICR_READ);
        }
    }
    script.finish_sampling()
}

/// A whole lesson: MSR of zero, profiling starts, members up to a sample,
/// profiling stops; from there it starts again with what is left in the
/// register.
fn lesson_session(given: &[Change]) -> Vec<u8> {
    let mut script = Script::new(&GIVEN);
    script.put(given);
    script.put(&[(RELOAD, 3), (PMSICR, counters(9, 9))]);
    for reload in [3, 2] {
        script.access(PMSICR_WRITE, 0);
        script.set(RELOAD, reload);
        for members in [2, 4, 5] {
            script.set(PROFILING, 1);
            for draw in 0..members {
                script.member(draw);
                script.access(PMSICR_READ, 0);
            }
            script.set(PROFILING, 0);
            script.member(0);
            script.access(PMSICR_READ, 0);
        }
    }
    script.finish_sampling()
}

/// A reload of 0: profiling starts and nothing is ever counted, until it starts
/// again with another one.
fn reload_0_session() -> Vec<u8> {
    let mut script = Script::new(&GIVEN);
    for reload in [0, 1, 0, ALL_COUNT] {
        script.set(RELOAD, reload);
        start(&mut script, 0);
        for _ in 0..3 {
            script.access(PMSICR_READ, 0);
            script.member(0);
        }
    }
    script.finish_sampling()
}

pub fn sessions() -> Vec<Session> {
    let mut list = Vec::new();
    for ernd in [0, 1] {
        let bytes = registers_session(ernd);
        list.push(Session::new(format!("sampling-start-registers-ernd-{ernd}"), bytes));
        let bytes = each_bit_session(ernd);
        list.push(Session::new(format!("sampling-start-each-bit-ernd-{ernd}"), bytes));
    }
    let random = [(ERND, 1), (RND, 1)];
    list.extend([
        Session::new("sampling-start-transitions", transitions_session(&[])),
        Session::new("sampling-start-transitions-random", transitions_session(&random)),
        Session::new("sampling-start-by-nothing-else", no_start_session()),
        Session::new("sampling-start-in-a-refused-record", state_session()),
        Session::new("sampling-start-each-level", levels_session()),
        Session::new("sampling-start-lesson", lesson_session(&[])),
        Session::new("sampling-start-lesson-random", lesson_session(&random)),
        Session::new("sampling-start-reload-0", reload_0_session()),
    ]);
    list
}
