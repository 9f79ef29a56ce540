//! The loops that make calls. Each makes a machine by sets (field and value in
//! turn), makes a call for each entry of a list (what the call takes in bits
//! 31:0, the level, which is put before it, in the bits above) and sums up the
//! answers. The library works on words that the loop owns, the reference on a
//! record behind `&mut`; either without an undo list or with one.

use crate::loops::{worth, Loop};
use reference::back::Earlier;
use reference::model::Machine;
use reference::session::{self, Command};
use std::hint::black_box;

/// Without a list and with one, then both by the reference.
pub type Loops = [Option<Loop>; 4];

type Words = [u64; 143];
type List = [u64; 194];

/// An answer in numbers (MODEL X15).
#[repr(C)]
struct Reply {
    kind: u32,
    _detail: u16,
    cause: u16,
    value: u64,
}

// What bindings/pmu_calls.h declares.
extern "C" {
    fn pmu_access(m: &mut Words, word: u32, operand: u64) -> Reply;
    fn pmu_access_listed(m: &mut Words, list: &mut List, word: u32, operand: u64) -> Reply;
    fn pmu_set(m: &mut Words, field: u8, value: u64) -> Reply;
    fn pmu_set_listed(m: &mut Words, list: &mut List, field: u8, value: u64) -> Reply;
    fn pmu_level(m: &mut Words, level: u8) -> Reply;
    fn pmu_level_listed(m: &mut Words, list: &mut List, level: u8) -> Reply;
    fn pmu_external_read(m: &mut Words, offset: u16) -> Reply;
    fn pmu_external_write(m: &mut Words, offset: u16, value: u64) -> Reply;
    fn pmu_external_write_listed(m: &mut Words, list: &mut List, offset: u16, value: u64) -> Reply;
    fn pmu_tick(m: &mut Words, prohibited: u8) -> Reply;
    fn pmu_tick_listed(m: &mut Words, list: &mut List, prohibited: u8) -> Reply;
    fn pmu_sample(m: &mut Words, draw: u8) -> Reply;
    fn pmu_sample_listed(m: &mut Words, list: &mut List, draw: u8) -> Reply;
    fn pmu_back(m: &mut Words, list: &mut List) -> Reply;
}

/// What a reply adds to the sum: as much as the reference's answer does.
fn value(reply: Reply) -> u64 {
    reply.value + reply.cause as u64 + (reply.kind == 1) as u64
}

/// Calls of the library.
fn calls(sets: &[u64], list: &[u64], mut call: impl FnMut(&mut Words, &mut List, u32) -> u64) -> u64 {
    let (mut m, mut earlier) = ([0; 143], [0; 194]);
    for set in sets.chunks(2) {
        unsafe { pmu_set(&mut m, set[0] as u8, set[1]) };
    }
    let mut sum = 0u64;
    for &entry in list {
        m[0x8E] = entry >> 32;
        sum = sum.wrapping_add(call(&mut m, &mut earlier, entry as u32));
    }
    sum
}

/// Calls of the reference, on a record of which nothing is known.
fn steps(sets: &[u64], list: &[u64], mut step: impl FnMut(&mut Machine, &mut Earlier, u32) -> u64) -> u64 {
    let (mut machine, mut earlier) = (Machine::default(), Earlier::default());
    for set in sets.chunks(2) {
        machine.set(set[0] as u8, set[1]);
    }
    let mut sum = 0u64;
    for &entry in list {
        let machine = black_box(&mut machine);
        machine.el = (entry >> 32) as u8;
        sum = sum.wrapping_add(step(machine, &mut earlier, entry as u32));
    }
    sum
}

/// What its sessions do with a command, and list.
fn obeyed(machine: &mut Machine, earlier: &mut Earlier, command: Command) -> u64 {
    worth(session::obey(machine, earlier, command))
}

pub const ACCESS: Loops = [
    Some(|sets, list, x| calls(sets, list, |m, _, word| value(unsafe { pmu_access(m, word, x) }))),
    Some(|sets, list, x| calls(sets, list, |m, l, word| value(unsafe { pmu_access_listed(m, l, word, x) }))),
    Some(|sets, list, x| steps(sets, list, |m, _, word| worth(m.access(word, x)))),
    Some(|sets, list, x| steps(sets, list, |m, l, word| obeyed(m, l, Command::Access { word, operand: x }))),
];

pub const SET: Loops = [
    Some(|sets, list, x| calls(sets, list, |m, _, f| value(unsafe { pmu_set(m, f as u8, x) }))),
    Some(|sets, list, x| calls(sets, list, |m, l, f| value(unsafe { pmu_set_listed(m, l, f as u8, x) }))),
    Some(|sets, list, x| steps(sets, list, |m, _, f| worth(m.set(f as u8, x)))),
    Some(|sets, list, x| steps(sets, list, |m, l, f| obeyed(m, l, Command::Set { field: f as u8, value: x }))),
];

pub const LEVEL: Loops = [
    Some(|sets, list, _| calls(sets, list, |m, _, level| value(unsafe { pmu_level(m, level as u8) }))),
    Some(|sets, list, _| calls(sets, list, |m, l, level| value(unsafe { pmu_level_listed(m, l, level as u8) }))),
    Some(|sets, list, _| steps(sets, list, |m, _, level| worth(m.set_level(level as u8)))),
    Some(|sets, list, _| steps(sets, list, |m, l, level| obeyed(m, l, Command::Level(level as u8)))),
];

/// It is not listed.
pub const EXTERNAL_READ: Loops = [
    Some(|sets, list, _| calls(sets, list, |m, _, at| value(unsafe { pmu_external_read(m, at as u16) }))),
    None,
    Some(|sets, list, _| steps(sets, list, |m, _, at| worth(m.external_read(at as u16)))),
    None,
];

pub const EXTERNAL_WRITE: Loops = [
    Some(|sets, list, x| calls(sets, list, |m, _, at| value(unsafe { pmu_external_write(m, at as u16, x) }))),
    Some(|sets, list, x| calls(sets, list, |m, l, at| value(unsafe { pmu_external_write_listed(m, l, at as u16, x) }))),
    Some(|sets, list, x| steps(sets, list, |m, _, at| worth(m.external_write(at as u16, x)))),
    Some(|sets, list, x| steps(sets, list, |m, l, at| obeyed(m, l, Command::Write { offset: at as u16, value: x }))),
];

pub const TICK: Loops = [
    Some(|sets, list, _| calls(sets, list, |m, _, off| value(unsafe { pmu_tick(m, off as u8) }))),
    Some(|sets, list, _| calls(sets, list, |m, l, off| value(unsafe { pmu_tick_listed(m, l, off as u8) }))),
    Some(|sets, list, _| steps(sets, list, |m, _, off| worth(m.tick(off as u8)))),
    Some(|sets, list, _| steps(sets, list, |m, l, off| obeyed(m, l, Command::Tick { prohibited: off as u8 }))),
];

pub const SAMPLE: Loops = [
    Some(|sets, list, _| calls(sets, list, |m, _, draw| value(unsafe { pmu_sample(m, draw as u8) }))),
    Some(|sets, list, _| calls(sets, list, |m, l, draw| value(unsafe { pmu_sample_listed(m, l, draw as u8) }))),
    Some(|sets, list, _| steps(sets, list, |m, _, draw| worth(m.member(draw as u8)))),
    Some(|sets, list, _| steps(sets, list, |m, l, draw| obeyed(m, l, Command::Member { draw: draw as u8 }))),
];

/// A level and the step back over it.
pub const LEVEL_BACK: Loops = [
    None,
    Some(|sets, list, _| {
        calls(sets, list, |m, l, level| unsafe { value(pmu_level_listed(m, l, level as u8)) + value(pmu_back(m, l)) })
    }),
    None,
    Some(|sets, list, _| {
        steps(sets, list, |m, l, level| obeyed(m, l, Command::Level(level as u8)) + obeyed(m, l, Command::Back))
    }),
];

/// An access, which is a write, and the step back over it.
pub const ACCESS_BACK: Loops = [
    None,
    Some(|sets, list, x| {
        calls(sets, list, |m, l, word| unsafe { value(pmu_access_listed(m, l, word, x)) + value(pmu_back(m, l)) })
    }),
    None,
    Some(|sets, list, x| {
        steps(sets, list, |m, l, word| obeyed(m, l, Command::Access { word, operand: x }) + obeyed(m, l, Command::Back))
    }),
];
