//! A machine with its undo list: the calls that list what they did, and the
//! step back.

use super::answer::Answer;
use super::library;
use super::machine::{Machine, WORDS};

/// The words of an undo list.
pub const LIST: usize = 194;

/// A machine whose calls are listed as those of a session are, so that they can
/// be taken back (MODEL X16): all but sets, each of which clears the list, external
/// reads, and what is refused. At most 64 are listed.
///
/// ```
/// use pmu::{Answer, Machine, Recorded};
///
/// let mut recorded = Recorded::new(Machine::fresh());
/// recorded.level(1);
/// assert_eq!(recorded.back(), Answer::Ok);
/// assert_eq!(recorded.machine(), &Machine::fresh());
/// assert_eq!(recorded.back(), Answer::Refused(18));
/// ```
#[derive(Clone, Debug)]
pub struct Recorded {
    machine: Machine,
    list: [u64; LIST],
}

// Machine and list.
impl Recorded {
    /// The machine, with nothing listed.
    pub fn new(machine: Machine) -> Recorded {
        Recorded::from_parts(machine, [0; LIST])
    }

    /// The machine with a list that was kept, whatever its words hold.
    pub fn from_parts(machine: Machine, list: [u64; LIST]) -> Recorded {
        Recorded { machine, list }
    }

    pub fn machine(&self) -> &Machine {
        &self.machine
    }

    /// The machine, without the list.
    pub fn into_machine(self) -> Machine {
        self.machine
    }

    /// The words of the list.
    pub fn list(&self) -> &[u64; LIST] {
        &self.list
    }

    /// How many calls are listed, which is how many steps back there are.
    pub fn listed(&self) -> usize {
        self.list[0].min(64) as usize
    }

    fn words(&mut self) -> (&mut [u64; WORDS], &mut [u64; LIST]) {
        (self.machine.words_mut(), &mut self.list)
    }
}

// The commands of a session, as those of a machine.
impl Recorded {
    pub fn set(&mut self, field: u8, value: u64) -> Answer {
        let (m, list) = self.words();
        Answer::of(unsafe { library::pmu_set_listed(m, list, field, value) })
    }

    pub fn level(&mut self, level: u8) -> Answer {
        let (m, list) = self.words();
        Answer::of(unsafe { library::pmu_level_listed(m, list, level) })
    }

    pub fn access(&mut self, word: u32, operand: u64) -> Answer {
        let (m, list) = self.words();
        Answer::of(unsafe { library::pmu_access_listed(m, list, word, operand) })
    }

    pub fn external_read(&mut self, offset: u16) -> Answer {
        self.machine.external_read(offset)
    }

    pub fn external_write(&mut self, offset: u16, value: u64) -> Answer {
        let (m, list) = self.words();
        Answer::of(unsafe { library::pmu_external_write_listed(m, list, offset, value) })
    }

    pub fn tick(&mut self, prohibited: u8) -> Answer {
        let (m, list) = self.words();
        Answer::of(unsafe { library::pmu_tick_listed(m, list, prohibited) })
    }

    pub fn sample(&mut self, draw: u8) -> Answer {
        let (m, list) = self.words();
        Answer::of(unsafe { library::pmu_sample_listed(m, list, draw) })
    }

    /// The step back: takes the latest listed call back. Refused with 18 where
    /// none is listed. Of the level's word it puts back the lowest 8 bits, which is
    /// all of it unless it was above 255.
    pub fn back(&mut self) -> Answer {
        let (m, list) = self.words();
        Answer::of(unsafe { library::pmu_back(m, list) })
    }
}
