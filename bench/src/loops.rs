//! The loops that are measured. Of accesses four: the proved by-value step,
//! the proved step with the counters of a local record lent, the proved step
//! with the record behind a reference, and the reference. Each makes a record
//! by sets (field in bits 39:32, value in bits 31:0), runs a list of accesses
//! on it (word in bits 31:0, level in bits 33:32) and sums up the answers. Of
//! registers two, proved and the reference: each finds the registers of a list
//! of words and sums them up. Sets and list come at run time, so that no
//! compiler knows them.

use reference::model::{Answer, Machine, Move, Register};

/// Sets, a list of accesses or words, and every access's operand.
pub type Loop = fn(&[u64], &[u64], u64) -> u64;

pub const ACCESSES: [Loop; 4] = [by_value, in_parts, in_place, reference];

/// Loops over the words of a list; they look at neither sets nor operand.
pub const REGISTERS: [Loop; 2] = [register, reference_register];

extern "C" {
    fn measure_by_value(sets: *const u64, count: usize, list: *const u64, length: usize, operand: u64) -> u64;
    fn measure_in_parts(sets: *const u64, count: usize, list: *const u64, length: usize, operand: u64) -> u64;
    fn measure_in_place(sets: *const u64, count: usize, list: *const u64, length: usize, operand: u64) -> u64;
    fn measure_register(list: *const u64, length: usize) -> u64;
}

fn by_value(sets: &[u64], list: &[u64], operand: u64) -> u64 {
    unsafe { measure_by_value(sets.as_ptr(), sets.len(), list.as_ptr(), list.len(), operand) }
}

fn in_parts(sets: &[u64], list: &[u64], operand: u64) -> u64 {
    unsafe { measure_in_parts(sets.as_ptr(), sets.len(), list.as_ptr(), list.len(), operand) }
}

fn in_place(sets: &[u64], list: &[u64], operand: u64) -> u64 {
    unsafe { measure_in_place(sets.as_ptr(), sets.len(), list.as_ptr(), list.len(), operand) }
}

fn register(_: &[u64], list: &[u64], _: u64) -> u64 {
    unsafe { measure_register(list.as_ptr(), list.len()) }
}

fn reference_register(_: &[u64], list: &[u64], _: u64) -> u64 {
    let mut sum = 0u64;
    for &entry in list {
        let register = Move::decode(entry as u32).and_then(|instruction| instruction.register());
        sum = sum.wrapping_add(match register {
            Some(Register::Pmevcntr(m)) => m as u64,
            Some(Register::Pmswinc) => 32,
            Some(Register::Pmicntr) => 33,
            Some(Register::Pmsicr) => 35,
            None => 34,
        });
    }
    sum
}

/// What an answer adds to the sum.
pub fn worth(answer: Answer) -> u64 {
    match answer {
        Answer::Ok => 1,
        Answer::Trap { syndrome, cause, .. } => syndrome as u64 + cause.number() as u64,
        Answer::Moved { value, .. } | Answer::Value(value) => value,
        _ => 0,
    }
}

fn reference(sets: &[u64], list: &[u64], operand: u64) -> u64 {
    let mut machine = Machine::default();
    for &set in sets {
        machine.set((set >> 32) as u8, set & 0xFFFF_FFFF);
    }
    let mut sum = 0u64;
    for &entry in list {
        machine.el = (entry >> 32) as u8 % 4;
        sum = sum.wrapping_add(worth(machine.access(entry as u32, operand)));
    }
    sum
}
