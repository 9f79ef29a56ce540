//! Calls with random operands, made on a machine that lists and on one that does
//! not; what may change is looked at.

use crate::rng::Rng;
use pmu::{Answer, Machine, Recorded, LEVEL};

#[derive(Clone, Copy, Debug)]
pub enum Call {
    Set(u8, u64),
    Level(u8),
    Access(u32, u64),
    Read(u16),
    Write(u16, u64),
    Tick(u8),
    Sample(u8),
}

/// MSR of event counters 0 and 3, PMSWINC_EL0, PMICNTR_EL0 and PMSICR_EL1, and a
/// word that is none of the model's.
const WORDS: [u32; 6] =
    [0xD51B_E800, 0xD51B_E860, 0xD51B_9C80, 0xD51B_9400, 0xD518_9940, 0xD51B_9C00];

impl Call {
    /// The calls that test the record, each once.
    pub fn testing(rng: &mut Rng) -> [Call; 5] {
        let word = rng.pick(&WORDS) | (rng.below(2) as u32) << 21 | rng.below(32) as u32;
        let offset = rng.pick(&[0xC00, 0xC80, 0xCC0, 0xC04]);
        let value = rng.next() >> rng.below(64);
        [
            Call::Access(word, value),
            Call::Read(offset),
            Call::Write(offset, value),
            Call::Tick(rng.below(2) as u8),
            Call::Sample(rng.below(256) as u8),
        ]
    }

    /// Any call, mostly one that tests the record.
    pub fn any(rng: &mut Rng) -> Call {
        match rng.below(20) {
            0 => Call::Set(rng.below(256) as u8, rng.next() >> rng.below(64)),
            1 => Call::Level(rng.below(5) as u8),
            2 => Call::Tick(rng.below(256) as u8),
            3 => Call::Access(rng.next() as u32, rng.next()),
            _ => {
                let list = Call::testing(rng);
                rng.pick(&list)
            }
        }
    }

    fn plain(self, m: &mut Machine) -> Answer {
        match self {
            Call::Set(field, value) => m.set(field, value),
            Call::Level(level) => m.level(level),
            Call::Access(word, operand) => m.access(word, operand),
            Call::Read(offset) => m.external_read(offset),
            Call::Write(offset, value) => m.external_write(offset, value),
            Call::Tick(prohibited) => m.tick(prohibited),
            Call::Sample(draw) => m.sample(draw),
        }
    }

    fn recorded(self, m: &mut Recorded) -> Answer {
        match self {
            Call::Set(field, value) => m.set(field, value),
            Call::Level(level) => m.level(level),
            Call::Access(word, operand) => m.access(word, operand),
            Call::Read(offset) => m.external_read(offset),
            Call::Write(offset, value) => m.external_write(offset, value),
            Call::Tick(prohibited) => m.tick(prohibited),
            Call::Sample(draw) => m.sample(draw),
        }
    }

    /// Whether the call may change a word. A set that turns profiling on may change
    /// PMSICR_EL1 too.
    fn may_change(self, number: usize) -> bool {
        match self {
            Call::Set(field, _) => number == field as usize || (field, number) == (0x83, 0x8C),
            Call::Level(_) => number == LEVEL,
            Call::Access(..) => matches!(number, 0x37 | 0x60..=0x7F | 0x8C | 0x8D),
            Call::Read(_) => false,
            Call::Write(..) => matches!(number, 0x34 | 0x37),
            Call::Tick(_) => matches!(number, 0x37 | 0x7F),
            Call::Sample(_) => number == 0x8C,
        }
    }
}

/// How many are listed after a call with this answer, where so many were (H2 to H5
/// of docs/MODEL.md).
fn listed_after(call: Call, answer: Answer, before: usize) -> usize {
    match (call, answer) {
        (_, Answer::Refused(_)) | (Call::Read(_), _) => before,
        (Call::Set(..), _) => 0,
        _ => (before + 1).min(64),
    }
}

/// The answer to a call, which is that of the call that does not list, with the
/// same words after it. No word changes that may not, and none of a refused call.
pub fn both(recorded: &mut Recorded, call: Call) -> Answer {
    let before = recorded.clone();
    let mut plain = before.machine().clone();
    let answer = call.recorded(recorded);
    assert_eq!(call.plain(&mut plain), answer, "{call:?}");
    assert_eq!(&plain, recorded.machine(), "{call:?}");
    assert_eq!(recorded.listed(), listed_after(call, answer, before.listed()), "{call:?}");
    if let Answer::Refused(_) = answer {
        assert_eq!(
            (recorded.machine(), recorded.list()),
            (before.machine(), before.list()),
            "{call:?}"
        );
    }
    let words = before.machine().words().iter().zip(recorded.machine().words());
    for (number, (was, is)) in words.enumerate() {
        assert!(was == is || call.may_change(number), "{call:?}: word {number:X}");
    }
    answer
}
