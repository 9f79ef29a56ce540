//! MODEL H3 and H7: how many steps can be taken back. Up to 64 steps and as many back, more
//! steps than are kept and more steps back than there are steps, runs of both in
//! turn, and long runs of one kind of step.

use super::back::{start, ICNTR_WRITE};
use super::fields::*;
use super::script::{Change, Script, PMCNTENSET, PMOVSCLR, PMOVSSET, PMSICR_WRITE, PMSWINC};
use super::Session;
use crate::generate::counter_word;

/// All counters, two of them about to carry, and members that are selected.
const WALK: [Change; 9] = [
    (N, 31),
    (ENABLES, 0x1),
    (COUNTER, 0xFFFF_FFF8),
    (COUNTER + 1, u64::MAX - 3),
    (ERND, 1),
    (RND, 1),
    (RELOAD, 2),
    (PMSICR, 2),
    (PROFILING, 1),
];

/// The step with a number: every kind of them in turn, each time with other
/// operands. None is refused.
fn walk(script: &mut Script, number: u64) {
    let turn = number / 10;
    match number % 10 {
        0 => script.external_write(PMCNTENSET, ENABLE_F0 | 2 << (turn % 30)),
        1 => script.access(PMSWINC, u64::MAX >> turn),
        2 => script.tick((number % 20 == 12) as u8),
        3 => script.level((turn * 3 % 4) as u8),
        4 => script.access(counter_word(false, number as u32 % 7, 1), 0x1000 + number),
        5 => script.member(number as u8 % 3),
        6 => script.external_write(PMOVSSET, 0x1_0000_0011 << (turn % 28)),
        7 => script.access(ICNTR_WRITE, u64::MAX - number % 4),
        8 => script.external_write(PMOVSCLR, 3 << (turn % 8)),
        _ => script.access(PMSICR_WRITE, number << 56 | (number % 4)),
    }
}

/// What external reads show, which are not listed.
fn peek(script: &mut Script) {
    script.external_read(PMCNTENSET);
    script.external_read(PMOVSSET);
}

/// Runs of steps and of steps back in turn. The steps go on where they were, so
/// that no run repeats those that were taken back. In between external reads.
fn runs_session(runs: &[(u64, usize)]) -> Vec<u8> {
    let mut script = start(&WALK);
    let mut number = 0;
    peek(&mut script);
    for &(steps, backs) in runs {
        for _ in 0..steps {
            walk(&mut script, number);
            number += 1;
        }
        peek(&mut script);
        for done in 1..=backs {
            script.back(1);
            if done % 9 == 0 || done + 2 > backs {
                peek(&mut script);
            }
        }
    }
    script.finish_all()
}

/// Steps, and steps back after them.
const DEPTHS: [(u64, usize); 15] = [
    (1, 1),
    (1, 2),
    (10, 9),
    (63, 63),
    (63, 64),
    (64, 1),
    (64, 63),
    (64, 64),
    (64, 65),
    (65, 1),
    (65, 64),
    (65, 65),
    (66, 65),
    (128, 65),
    (200, 70),
];

/// A name, and runs of steps and of steps back.
type Runs = (&'static str, &'static [(u64, usize)]);

const RUNS: [Runs; 9] = [
    ("full-one-back-one-on", &[(65, 1), (1, 65)]),
    ("full-twice", &[(64, 64), (64, 64), (1, 2)]),
    ("full-half-back-and-full", &[(64, 32), (32, 65)]),
    ("over-full-half-back-and-over", &[(100, 30), (50, 65)]),
    ("over-full-again-and-again", &[(70, 3), (5, 4), (66, 60), (10, 15)]),
    ("part-of-it", &[(40, 10), (40, 40), (70, 20), (30, 66)]),
    ("small", &[(3, 1), (2, 3), (4, 2), (1, 1), (1, 5), (2, 1), (1, 2), (0, 1)]),
    ("refused-in-between", &[(2, 4), (1, 3), (0, 2), (3, 3), (1, 1), (0, 1)]),
    ("after-64-exactly", &[(64, 0), (1, 1), (1, 1), (2, 2), (1, 64)]),
];

/// One on and one back, over and over; then two on and one back, until more was
/// listed than is kept.
fn seesaw_sessions() -> Vec<Session> {
    let mut ones = vec![(1, 1); 70];
    ones.push((1, 2));
    let mut twos = vec![(2, 1); 70];
    twos.push((0, 65));
    vec![
        Session::new("back-runs-one-on-one-back", runs_session(&ones)),
        Session::new("back-runs-two-on-one-back", runs_session(&twos)),
    ]
}

/// A kind of step, done 65 times: its name, and the step with a number.
type Repeated = (&'static str, fn(&mut Script, u64));

const REPEATED: [Repeated; 15] = [
    ("ticks", |s, _| s.tick(0)),
    ("prohibited-ticks", |s, k| s.tick((k > 0) as u8)),
    ("members", |s, k| s.member(k as u8 % 5)),
    ("levels", |s, k| s.level(1 + (k % 3) as u8)),
    ("same-levels", |s, _| s.level(2)),
    ("pmswinc", |s, k| s.access(PMSWINC, 3 + k)),
    ("counter-writes", |s, k| s.access(counter_word(false, 3, 1), 100 + k)),
    ("pmicntr-writes", |s, k| s.access(ICNTR_WRITE, u64::MAX - k)),
    ("pmsicr-writes", |s, k| s.access(PMSICR_WRITE, 100 + k)),
    ("enables-writes", |s, k| s.external_write(PMCNTENSET, 1 << (k % 33))),
    ("flags-writes", |s, k| s.external_write([PMOVSSET, PMOVSCLR][k as usize % 2], 7 << (k / 4))),
    ("reads", |s, k| s.access(counter_word(true, k as u32 % 31, 2), 0)),
    ("undefined", |s, k| s.access(counter_word(true, 31, k as u32 % 32), k)),
    ("other-words", |s, k| s.access(k as u32, k)),
    ("other-offsets", |s, k| s.external_write(k as u16, k)),
];

/// MSR of a counter, and then 64 of a kind or 63. Behind as many steps back the
/// counter has the first value or the second: the oldest of 65 is out of reach.
fn repeated_session(step: fn(&mut Script, u64), count: u64) -> Vec<u8> {
    let mut script = start(&WALK);
    script.level(3);
    script.set(ENABLES, ALL_ENABLES);
    script.access(counter_word(false, 5, 1), 0x5555);
    for number in 0..count {
        step(&mut script, number);
    }
    peek(&mut script);
    script.back(65);
    peek(&mut script);
    script.finish_all()
}

/// A trap each time, from level 1 and at level 2.
fn traps_session(count: u64) -> Vec<u8> {
    let mut script = start(&WALK);
    script.put(&[(TPM_EL2, 1), (TPM_EL3, 1), (LEVEL, 1), (EL3_PRIORITY, 0)]);
    script.tick(0);
    for number in 0..count {
        if number == count / 2 {
            script.level(2);
        } else {
            script.access(counter_word(number % 2 == 0, number as u32 % 31, 1), number);
        }
    }
    script.back(65);
    script.finish_all()
}

pub fn sessions() -> Vec<Session> {
    let mut list = Vec::new();
    for (steps, backs) in DEPTHS {
        let name = format!("back-{backs}-of-{steps}");
        list.push(Session::new(name, runs_session(&[(steps, backs)])));
    }
    for (name, runs) in RUNS {
        list.push(Session::new(format!("back-runs-{name}"), runs_session(runs)));
    }
    list.extend(seesaw_sessions());
    for (name, step) in REPEATED {
        for count in [63, 64] {
            let bytes = repeated_session(step, count);
            list.push(Session::new(format!("back-over-{count}-{name}"), bytes));
        }
    }
    for count in [63, 64] {
        list.push(Session::new(format!("back-over-{count}-traps"), traps_session(count)));
    }
    list
}
