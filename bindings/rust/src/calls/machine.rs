//! A machine: the words of a record, and the calls that list nothing.

use super::answer::Answer;
use super::library;

/// The words of a machine.
pub const WORDS: usize = 143;

/// The word that is the exception level.
pub const LEVEL: usize = 0x8E;

/// A machine record (section F of docs/MODEL.md) in words (MODEL X13). Word f is
/// the field with number f, from 00 to 8D, and word [`LEVEL`] the exception level. A
/// number between that is no field's has a word too, at which no call looks, and
/// which none but `reset` changes.
///
/// The words may hold anything (MODEL X14): accesses, external reads and writes,
/// ticks and samples are refused with 10 where one exceeds its field's largest
/// value, and with 11 to 17 where the record is not consistent; sets and levels test
/// no word. A refused call changes no word.
///
/// ```
/// use pmu::{Answer, Machine};
///
/// let mut machine = Machine::fresh();
/// machine.set(0x00, 1); // PMUv3 is there
/// machine.set(0x0C, 2); // PMCR_EL0.N: two event counters
/// machine.set(0x61, 42); // PMEVCNTR1_EL0
/// machine.level(1);
/// assert_eq!(machine.access(0xD53B_E822, 0), Answer::Mrs { value: 42, rt: 2 });
/// ```
#[derive(Clone, Debug, PartialEq, Eq, Hash)]
pub struct Machine {
    words: [u64; WORDS],
}

// The words.
impl Machine {
    /// The fresh record: every word is 0.
    pub fn fresh() -> Machine {
        Machine::from_words([0; WORDS])
    }

    /// The machine with these words, whatever they hold.
    pub fn from_words(words: [u64; WORDS]) -> Machine {
        Machine { words }
    }

    pub fn words(&self) -> &[u64; WORDS] {
        &self.words
    }

    pub fn words_mut(&mut self) -> &mut [u64; WORDS] {
        &mut self.words
    }
}

impl Default for Machine {
    fn default() -> Machine {
        Machine::fresh()
    }
}

// The commands of a session (section S).
impl Machine {
    /// Makes it the fresh record again: every word is 0.
    pub fn reset(&mut self) {
        unsafe { library::pmu_fresh(&mut self.words) }
    }

    /// Stores a value to a field. Refused with 3 where the number is no field's,
    /// with 4 where the value exceeds the field's largest.
    pub fn set(&mut self, field: u8, value: u64) -> Answer {
        Answer::of(unsafe { library::pmu_set(&mut self.words, field, value) })
    }

    /// Puts the exception level. Refused with 5 above 3.
    pub fn level(&mut self, level: u8) -> Answer {
        Answer::of(unsafe { library::pmu_level(&mut self.words, level) })
    }

    /// The access with an instruction word and an operand, which is what MSR
    /// writes.
    pub fn access(&mut self, word: u32, operand: u64) -> Answer {
        Answer::of(unsafe { library::pmu_access(&mut self.words, word, operand) })
    }

    /// The external read at an offset, which changes no word.
    pub fn external_read(&mut self, offset: u16) -> Answer {
        Answer::of(unsafe { library::pmu_external_read(&mut self.words, offset) })
    }

    /// The external write of a value at an offset.
    pub fn external_write(&mut self, offset: u16, value: u64) -> Answer {
        Answer::of(unsafe { library::pmu_external_write(&mut self.words, offset, value) })
    }

    /// One executed instruction; 1 says that counting is prohibited. Refused with
    /// 4 above 1.
    pub fn tick(&mut self, prohibited: u8) -> Answer {
        Answer::of(unsafe { library::pmu_tick(&mut self.words, prohibited) })
    }

    /// A member of the sample population, with a draw.
    pub fn sample(&mut self, draw: u8) -> Answer {
        Answer::of(unsafe { library::pmu_sample(&mut self.words, draw) })
    }
}
