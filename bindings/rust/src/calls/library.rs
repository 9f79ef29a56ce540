//! The exports of libpmu_access.a, which has the two accesses, and of libpmu_calls.a,
//! which has the others, as `crates/pmu_access/src` and `crates/pmu_calls/src` have
//! them. References to arrays say all that the proofs ask of pointers: to as many
//! words, and two that do not overlap.

use super::machine::WORDS;
use super::recorded::LIST;

/// An answer in numbers (MODEL X15). What it has not is 0.
#[repr(C)]
#[derive(Clone, Copy, Debug)]
pub(super) struct Reply {
    pub(super) kind: u32,
    pub(super) detail: u16,
    pub(super) cause: u16,
    pub(super) value: u64,
}

type Words = [u64; WORDS];
type List = [u64; LIST];

// The calls that list nothing.
extern "C" {
    pub(super) fn pmu_fresh(m: &mut Words);
    pub(super) fn pmu_set(m: &mut Words, field: u8, value: u64) -> Reply;
    pub(super) fn pmu_level(m: &mut Words, level: u8) -> Reply;
    pub(super) fn pmu_access(m: &mut Words, word: u32, operand: u64) -> Reply;
    pub(super) fn pmu_external_read(m: &mut Words, offset: u16) -> Reply;
    pub(super) fn pmu_external_write(m: &mut Words, offset: u16, value: u64) -> Reply;
    pub(super) fn pmu_tick(m: &mut Words, prohibited: u8) -> Reply;
    pub(super) fn pmu_sample(m: &mut Words, draw: u8) -> Reply;
}

// Those that list what they did, and the step back.
extern "C" {
    pub(super) fn pmu_set_listed(m: &mut Words, list: &mut List, field: u8, value: u64) -> Reply;
    pub(super) fn pmu_level_listed(m: &mut Words, list: &mut List, level: u8) -> Reply;
    pub(super) fn pmu_access_listed(
        m: &mut Words,
        list: &mut List,
        word: u32,
        operand: u64,
    ) -> Reply;
    pub(super) fn pmu_external_write_listed(
        m: &mut Words,
        list: &mut List,
        offset: u16,
        value: u64,
    ) -> Reply;
    pub(super) fn pmu_tick_listed(m: &mut Words, list: &mut List, prohibited: u8) -> Reply;
    pub(super) fn pmu_sample_listed(m: &mut Words, list: &mut List, draw: u8) -> Reply;
    pub(super) fn pmu_back(m: &mut Words, list: &mut List) -> Reply;
}
