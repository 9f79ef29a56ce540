//! MODEL J5 to J9: members of the sample population, command 08. Small values
//! of both counters with each setting of ERnd and RND, runs of members, every
//! draw, the reserved bits, what switches members off, and what they leave
//! alone.

use super::fields::*;
use super::flips;
use super::pmsicr::bits;
use super::script::{Change, Kind, Script, Switch};
use super::script::{PMCNTENSET, PMSICR_READ, PMSICR_WRITE, PMSWINC};
use super::Session;

/// Profiling, at level 3, where the register is read and written.
const GIVEN: [Change; 4] = [(HAVE_EL3, 1), (SPE, 1), (PROFILING, 1), (LEVEL, 3)];

/// The register with its two counters.
pub fn counters(secondary: u64, primary: u64) -> u64 {
    secondary << 56 | primary
}

/// A member, and the register after it.
fn sample(script: &mut Script, draw: u8) {
    script.member(draw);
    script.access(PMSICR_READ, 0);
}

/// Every small value of both counters and the largest, with some draws: two
/// members each, so that what the first one left is counted too.
fn table_session(ernd: u64, rnd: u64, reloads: [u64; 2]) -> Vec<u8> {
    let mut script = Script::new(&GIVEN);
    script.put(&[(ERND, ernd), (RND, rnd)]);
    for reload in reloads {
        script.set(RELOAD, reload);
        for secondary in [0, 1, 2, 255] {
            for primary in [0, 1, 2, ALL_COUNT] {
                for draw in [0, 1, 255] {
                    script.set(PMSICR, counters(secondary, primary));
                    sample(&mut script, draw);
                    sample(&mut script, 1);
                }
            }
        }
    }
    script.finish_sampling()
}

/// What a run of members starts from, and the draws, which come again and again.
type Run = (&'static str, &'static [Change], &'static [u8]);

const RANDOM: [Change; 2] = [(ERND, 1), (RND, 1)];

const RUNS: [Run; 12] = [
    ("primary-reload-3", &[(RELOAD, 3), (PMSICR, 2)], &[0, 1, 2]),
    ("primary-reload-1", &[(RELOAD, 1), (PMSICR, 4)], &[5]),
    ("primary-reload-0", &[(PMSICR, 3)], &[1]),
    ("primary-reload-largest", &[(RELOAD, ALL_COUNT), (PMSICR, 2)], &[0]),
    ("rnd-without-ernd", &[(RND, 1), (RELOAD, 2), (PMSICR, 3)], &[0, 3, 7]),
    ("ernd-without-rnd", &[(ERND, 1), (RELOAD, 2), (PMSICR, 0x0600_0000_0000_0003)], &[0, 3, 7]),
    ("secondary-alone", &[(ERND, 1), (RND, 1), (RELOAD, 3), (PMSICR, 6 << 56)], &[2]),
    ("draws-below-reload", &[(ERND, 1), (RND, 1), (RELOAD, 5), (PMSICR, 2)], &[2, 0, 4, 1]),
    ("draws-like-reload", &[(ERND, 1), (RND, 1), (RELOAD, 3), (PMSICR, 1)], &[3]),
    ("draws-above-reload", &[(ERND, 1), (RND, 1), (RELOAD, 2), (PMSICR, 2)], &[9, 7, 1, 0, 3]),
    ("draws-largest", &[(ERND, 1), (RND, 1), (RELOAD, 4), (PMSICR, 1)], &[255]),
    ("draws-of-zero", &[(ERND, 1), (RND, 1), (RELOAD, 3), (PMSICR, 3)], &[0]),
];

/// A run of members, the register read after each.
fn run_session(run: &Run) -> Vec<u8> {
    let (_, given, draws) = run;
    let mut script = Script::new(&GIVEN);
    script.put(given);
    for index in 0..40 {
        sample(&mut script, draws[index % draws.len()]);
    }
    script.finish_sampling()
}

/// Every draw of a half: the primary counter is always 1, so that each of them
/// becomes the secondary counter, over one that is 0 or not.
fn draws_session(draws: std::ops::RangeInclusive<u8>) -> Vec<u8> {
    let mut script = Script::new(&GIVEN);
    script.put(&RANDOM);
    script.put(&[(RELOAD, 1), (PMSICR, 1)]);
    for draw in draws {
        sample(&mut script, draw);
    }
    script.finish_sampling()
}

/// SPE, profiling, ERnd and RND in all subsets, with counters about to reach 0.
/// The register is looked at with SPE.
fn switches_session() -> Vec<u8> {
    let switches: [Switch; 4] = [(SPE, 1, 0), (PROFILING, 1, 0), (ERND, 0, 1), (RND, 0, 1)];
    let mut script = Script::new(&GIVEN);
    script.set(RELOAD, 6);
    script.subsets(&switches, |s| {
        for (secondary, primary) in [(1, 1), (0, 1), (1, 0), (2, 2)] {
            s.set(PMSICR, counters(secondary, primary));
            s.member(4);
            s.with(&[(SPE, 1)], |s| s.access(PMSICR_READ, 0));
        }
    });
    script.finish_sampling()
}

/// Every field of one bit flipped alone beside a member: SPE, profiling, ERnd
/// and RND matter, and what makes the record inconsistent.
fn each_field_session(given: &[Change], register: u64, draw: u8) -> Vec<u8> {
    let mut script = Script::counters(&GIVEN);
    script.put(&[(LEVEL, 1), (NSPB, 1), (RELOAD, 5), (NV_WORD, 0x0101_0101_0101_0101)]);
    script.put(given);
    for field in flips::bits().chain(bits()) {
        script.set(PMSICR, register);
        script.with_flipped(field, |s| {
            s.member(draw);
            s.look(PMSICR_READ);
        });
    }
    script.finish_sampling()
}

/// Members at each level, with everything closed that stops accesses there:
/// neither the level nor a control matters to a member, and the word is not
/// counted in.
fn levels_session(el2_enabled: u64) -> Vec<u8> {
    let mut script = Script::counters(&GIVEN);
    script.put(&RANDOM);
    script.put(&[(EL2_ENABLED, el2_enabled), (NV, 1), (NV2, 1), (RELOAD, 2)]);
    script.put(&[(TPMS, 1), (FGT_PMSICR_READ, 1), (FGT_PMSICR_WRITE, 1), (HALTED, 1), (SDD, 1)]);
    script.set(NV_WORD, 0x0100_0000_0000_0001);
    for level in 0..=3 {
        script.level(level);
        for (secondary, primary) in [(1, 1), (0, 1), (1, 0), (2, 2), (0, 0)] {
            script.set(PMSICR, counters(secondary, primary));
            for draw in [3, 0] {
                script.member(draw);
                script.look(PMSICR_READ);
            }
        }
    }
    script.finish()
}

/// Registers with reserved bits. They don't count and stay as they are: bits
/// 63:56 are read with ERnd 1 afterwards.
fn reserved_session(ernd: u64) -> Vec<u8> {
    let mut script = Script::new(&GIVEN);
    script.set(RELOAD, 2);
    for upper in [0x0000_0001, 0x00FF_FFFF, 0x0080_0000, 0x0100_0000, 0x01FF_FFFF, 0xFFFF_FFFF] {
        for (rnd, primary) in [(0, 0), (0, 1), (0, 2), (1, 0), (1, 1), (1, 2)] {
            script.put(&[(RND, rnd), (ERND, ernd), (PMSICR, upper << 32 | primary)]);
            sample(&mut script, 5);
            sample(&mut script, 0);
            script.with(&[(ERND, 1)], |s| s.access(PMSICR_READ, 0));
        }
    }
    script.finish_sampling()
}

/// ERnd switched between members: the secondary counter stands still while its
/// bits are reserved, then goes on.
fn ernd_switched_session() -> Vec<u8> {
    let mut script = Script::new(&GIVEN);
    script.put(&[(RND, 1), (RELOAD, 3), (PMSICR, counters(7, 2))]);
    for step in 0..40 {
        script.set(ERND, [1, 1, 0, 0, 0, 1, 0][step % 7]);
        sample(&mut script, 4);
    }
    script.finish_sampling()
}

/// Profiling switched off and on between members: a register that is not zero
/// keeps its value meanwhile.
fn profiling_switched_session() -> Vec<u8> {
    let mut script = Script::new(&GIVEN);
    script.put(&RANDOM);
    script.put(&[(RELOAD, 3), (PMSICR, counters(0, 2))]);
    for step in 0..40 {
        script.set(PROFILING, [1, 0, 0, 1, 1][step % 5]);
        sample(&mut script, [2, 0, 1][step % 3]);
    }
    script.finish_sampling()
}

/// The register saved and put back by MRS and MSR while members come, at levels
/// 1 to 3: MSR replaces both counters, Rt 31 stops them, and the word is no
/// counter.
fn msr_session() -> Vec<u8> {
    let mut script = Script::counters(&GIVEN);
    script.put(&RANDOM);
    script.put(&[(NSPB, 1), (NV, 1), (RELOAD, 4)]);
    for (level, nv2) in [(1, 0), (2, 0), (3, 0), (1, 1)] {
        script.put(&[(LEVEL, level), (NV2, nv2)]);
        for value in [counters(0, 2), counters(2, 5), counters(1, 1), u64::MAX] {
            script.access(PMSICR_WRITE, value);
            sample(&mut script, 3);
            sample(&mut script, 0);
        }
        script.access(PMSICR_WRITE | 31, u64::MAX);
        sample(&mut script, 0);
        script.look(PMSICR_READ);
    }
    script.finish_sampling()
}

/// The reload field changed between members: it is asked when the primary counter
/// reaches 0.
fn reload_session() -> Vec<u8> {
    let mut script = Script::new(&GIVEN);
    for reload in [1, 2, ALL_COUNT, 0, 0x8000_0000, 3] {
        script.put(&[(RELOAD, 9), (PMSICR, 2)]);
        sample(&mut script, 0);
        script.set(RELOAD, reload);
        sample(&mut script, 0);
        script.set(RELOAD, 1);
        sample(&mut script, 0);
        sample(&mut script, 0);
    }
    script.finish_sampling()
}

/// Ticks and members are apart, and so are PMSWINC and external writes.
fn apart_session() -> Vec<u8> {
    let mut script = Script::counters(&GIVEN);
    script.put(&[(ICNTR, 1), (ENABLES, ALL_ENABLES), (PMCR_E, 1), (HPME, 1)]);
    script.put(&[(EXT64, 1), (POWERED, 1), (ALLOWED, 1), (INSTRUCTIONS, u64::MAX - 2)]);
    script.put(&[(RELOAD, 3), (PMSICR, 2)]);
    for _ in 0..8 {
        script.tick(0);
        script.access(PMSICR_READ, 0);
        script.access(PMSWINC, 1 << 3);
        script.external_write(PMCNTENSET, 1);
        sample(&mut script, 1);
        script.probe(Kind::IcntrRead, 0);
    }
    script.finish()
}

pub fn sessions() -> Vec<Session> {
    let mut list = Vec::new();
    for (ernd, rnd) in [(0, 0), (0, 1), (1, 0), (1, 1)] {
        for (name, reloads) in [("0-1", [0, 1]), ("3-largest", [3, ALL_COUNT])] {
            let bytes = table_session(ernd, rnd, reloads);
            list.push(Session::new(format!("sampling-ernd-{ernd}-rnd-{rnd}-reload-{name}"), bytes));
        }
    }
    for run in &RUNS {
        list.push(Session::new(format!("sampling-run-{}", run.0), run_session(run)));
    }
    let each_field = |given: &[Change], register| each_field_session(given, register, 7);
    list.extend([
        Session::new("sampling-draws-0-to-127", draws_session(0..=127)),
        Session::new("sampling-draws-128-to-255", draws_session(128..=255)),
        Session::new("sampling-reserved-ernd-0", reserved_session(0)),
        Session::new("sampling-reserved-ernd-1", reserved_session(1)),
        Session::new("sampling-switches", switches_session()),
        Session::new("sampling-each-field-random", each_field(&RANDOM, counters(2, 1))),
        Session::new("sampling-each-field-selected", each_field(&[(ERND, 1)], counters(1, 2))),
        Session::new("sampling-each-level", levels_session(1)),
        Session::new("sampling-each-level-el2-not-enabled", levels_session(0)),
        Session::new("sampling-ernd-switched", ernd_switched_session()),
        Session::new("sampling-profiling-switched", profiling_switched_session()),
        Session::new("sampling-msr-between", msr_session()),
        Session::new("sampling-reload-changed", reload_session()),
        Session::new("sampling-and-ticks-apart", apart_session()),
    ]);
    list
}
