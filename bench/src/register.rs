//! Instructions and nanoseconds for finding the register of a word, and nothing
//! else of an access: one row for each kind of word, and one for all kinds in
//! no order that a processor could foresee.

use crate::counted::{self, Row};
use crate::loops::REGISTERS;
use reference::generate::Rng;

/// A kind of word: one word, or several, of which each entry takes one.
struct Kind {
    name: &'static str,
    words: &'static [u32],
}

impl Row for Kind {
    fn sets(&self) -> Vec<u64> {
        Vec::new()
    }

    /// One of the words each time, and with another Rt.
    fn list(&self, length: usize) -> Vec<u64> {
        let mut random = Rng::new(14, 0);
        let one = |i| self.words[random.below(self.words.len() as u64) as usize] as u64 + i % 31;
        (0..length as u64).map(one).collect()
    }

    fn operand(&self) -> u64 {
        0
    }
}

const COUNTER: u32 = 0xD53B_E840;
const PMSWINC: u32 = 0xD51B_9C80;
const PMICNTR: u32 = 0xD53B_9400;
const PMSICR: u32 = 0xD538_9940;
/// Another register with CRn 9, PMCCNTR_EL0.
const PMCCNTR: u32 = 0xD53B_9D00;
/// No move of a system register: ADD.
const ADD: u32 = 0x8B00_0000;

fn rows() -> Vec<Kind> {
    vec![
        Kind { name: "counter", words: &[COUNTER] },
        Kind { name: "PMSWINC", words: &[PMSWINC] },
        Kind { name: "PMICNTR", words: &[PMICNTR] },
        Kind { name: "PMSICR", words: &[PMSICR] },
        Kind { name: "other, CRn 9", words: &[PMCCNTR] },
        Kind { name: "no move", words: &[ADD] },
        Kind { name: "mixed", words: &[COUNTER, PMSWINC, PMICNTR, PMCCNTR, ADD] },
    ]
}

pub fn count() {
    counted::count(&rows(), &REGISTERS);
}

pub fn counts() -> usize {
    counted::counts(&rows(), &REGISTERS)
}

/// Times each row and prints it beside what was counted.
pub fn report(totals: &[u64]) -> Result<(), String> {
    println!("the register of a word, proved and by the reference: instructions; nanoseconds; time by the reference's");
    for (row, totals) in rows().iter().zip(totals.chunks(2 * REGISTERS.len())) {
        let counted = counted::instructions(totals);
        let timed = counted::nanoseconds(row, &REGISTERS).map_err(|e| format!("{}: {e}", row.name))?;
        print!("{:13} | {:4.1} {:4.1}", row.name, counted[0], counted[1]);
        println!(" | {:4.2} {:4.2} | {:.2}", timed[0], timed[1], timed[0] / timed[1]);
    }
    Ok(())
}
