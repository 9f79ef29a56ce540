//! MODEL Z3, V3 and H5: what refusal 19 leaves alone: the reading, the record, its tests, and the
//! list of steps back. A set of the short form that is obeyed empties the list.

use super::fields::*;
use super::script::{Change, Script, PMCNTENSET, PMSICR_READ};
use super::short::GIVEN;
use super::Session;
use crate::generate::counter_word;

/// A set by its command byte.
type Set = (u8, u8, u64);

/// Sets that are too wide, of fields that would show it. The last two are no field's or
/// above the largest.
const TOO_WIDE: [Set; 8] = [
    (0x12, ENABLES, 0xFF),
    (0x01, ENABLES, 0xFF),
    (0x01, ENABLES, 0xFFFF),
    (0x12, COUNTER, 0),
    (0x01, INSTRUCTIONS, 0xFFFF_FFFF),
    (0x01, PMUV3, 0),
    (0x12, 0xFF, 1),
    (0x01, N, 32),
];

/// Sets that are obeyed. Those of a row that stands twice change nothing.
const OBEYED: [Set; 7] = [
    (0x11, EN, 1),
    (0x11, EN, 1),
    (0x12, COUNTER, 0x100),
    (0x12, COUNTER, 0x100),
    (0x01, COUNTER, 0x1_0000_0000),
    (0x01, COUNTER, 0x1_0000_0000),
    (0x11, COUNTER, 0),
];

/// Ticks count, so that the instruction counter shows how many are left.
fn start() -> Script {
    let mut script = Script::short(&GIVEN);
    script.put(&[(ENABLES, ENABLE_F0), (COUNTER, 0x77)]);
    script
}

/// Each refusal after which reading goes on, between ticks.
fn goes_on_session() -> Vec<u8> {
    let mut script = start();
    for (byte, field, value) in TOO_WIDE {
        script.tick(0);
        script.set_by(byte, field, value);
    }
    script.set_by(0x11, 0xFF, 1);
    script.tick(0);
    script.set_by(0x11, N, 32);
    script.tick(0);
    script.level_refused(4);
    script.tick(2);
    script.back(1);
    script.tick(0);
    script.finish()
}

/// Steps with such sets among them, and as many steps back and one more. The enables
/// are read in between.
fn list_session(steps: usize) -> Vec<u8> {
    let mut script = start();
    for number in 0..steps {
        script.external_write(PMCNTENSET, 1 << (number % 31));
        let (byte, field, value) = TOO_WIDE[number % TOO_WIDE.len()];
        script.set_by(byte, field, value);
    }
    for number in 0..=steps {
        let (byte, field, value) = TOO_WIDE[number % TOO_WIDE.len()];
        script.set_by(byte, field, value);
        script.back(1);
        script.external_read(PMCNTENSET);
    }
    script.finish()
}

/// A set that is obeyed empties the list, and one that is refused does not: behind
/// two ticks, by each command.
fn clears_session() -> Vec<u8> {
    let mut script = start();
    for (byte, field, value) in TOO_WIDE.into_iter().chain(OBEYED) {
        script.tick(0);
        script.tick(0);
        script.set_by(byte, field, value);
        script.back(3);
    }
    for (field, value) in [(0xFF, 1), (EN, 2), (EN, 0x100), (ENABLES, 1 << 33)] {
        script.tick(0);
        script.tick(0);
        script.set_refused(field, value);
        script.back(3);
    }
    script.finish()
}

/// Records that are not consistent, by each of the refusals 11 to 17 in turn.
const BROKEN: [&[Change]; 7] = [
    &[(HAVE_EL3, 0)],
    &[(EL2_ENABLED, 1)],
    &[(HAVE_EL2, 1), (N, 3), (HPMN, 4)],
    &[(HAVE_EL2, 1)],
    &[(P5, 0), (COUNTER + 30, 0x1_0000_0000)],
    &[(HAVE_EL2, 1), (HPMN, 1), (EL2_ENABLED, 1), (TGE, 1), (LEVEL, 1)],
    &[(PMUV3, 0)],
];

/// Each state refusal by sets of the short form. A set does not test the record, be
/// it too wide or not.
fn state_session() -> Vec<u8> {
    let mut script = start();
    for broken in BROKEN {
        script.with(broken, |s| {
            s.tick(0);
            for (byte, field, value) in TOO_WIDE {
                s.set_by(byte, field, value);
            }
            s.set(EVENT, 0x100);
            s.access(counter_word(true, 0, 2), 0);
            s.external_read(PMCNTENSET);
            s.member(0);
        });
        script.tick(0);
    }
    script.finish()
}

/// MODEL J4: a start of profiling that is refused does not reload the register.
fn profiling_session() -> Vec<u8> {
    let mut script = start();
    script.set(RELOAD, 0x1_0005);
    for byte in [0x12, 0x01, 0x11] {
        script.set_by(byte, PROFILING, 1);
        script.access(PMSICR_READ, 0);
        script.member(0);
        script.access(PMSICR_READ, 0);
    }
    script.finish()
}

pub fn sessions() -> Vec<Session> {
    vec![
        Session::new("short-refusal-19-goes-on", goes_on_session()),
        Session::new("short-refusal-19-empty-list", list_session(0)),
        Session::new("short-refusal-19-leaves-the-list", list_session(12)),
        Session::new("short-refusal-19-full-list", list_session(64)),
        Session::new("short-set-clears-the-list", clears_session()),
        Session::new("short-refusal-19-state", state_session()),
        Session::new("short-refusal-19-profiling", profiling_session()),
    ]
}
