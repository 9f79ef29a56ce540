//! Instructions and nanoseconds an access: one row for each kind of access, at
//! level 1 and 0, with and without p5.

use crate::counted::{self, Row};
use crate::loops::ACCESSES;

/// One kind of access, at a level, with or without p5.
struct Kind {
    name: &'static str,
    word: u32,
    operand: u64,
    level: u64,
    p5: u64,
}

impl Row for Kind {
    /// EL2 with 4 of 6 counters below HPMN, EN 1, all six enabled with E and
    /// HPME 1, SPE, and p5 or not.
    fn sets(&self) -> Vec<u64> {
        let features = [(0x00, 1), (0x01, self.p5), (0x0C, 6), (0x09, 1), (0x10, 1), (0x27, 4), (0x20, 1)];
        let enables = [(0x34, 0x3F), (0x3D, 1), (0x3E, 1)];
        let sampling = [(0x80, 1), (0x8C, 5)];
        features.iter().chain(&enables).chain(&sampling).map(|(field, value)| field << 32 | value).collect()
    }

    /// The access again and again, with another Rt each time.
    fn list(&self, length: usize) -> Vec<u64> {
        (0..length as u64).map(|i| self.level << 32 | (self.word as u64 + i % 31)).collect()
    }

    fn operand(&self) -> u64 {
        self.operand
    }
}

/// Counter 2 is below HPMN, and counter 5 is not, so that its read is trapped.
/// PMSICR is undefined at level 0.
fn rows() -> Vec<Kind> {
    let kinds = [
        ("counter read", 0xD53B_E840, 0),
        ("counter write", 0xD51B_E840, 77),
        ("PMSWINC", 0xD51B_9C80, 0x5),
        ("trapped read", 0xD53B_E8A0, 0),
        ("PMSICR read", 0xD538_9940, 0),
    ];
    let mut rows = Vec::new();
    for (name, word, operand) in kinds {
        for level in [1, 0] {
            for p5 in [1, 0] {
                rows.push(Kind { name, word, operand, level, p5 });
            }
        }
    }
    rows
}

pub fn count() {
    counted::count(&rows(), &ACCESSES);
}

pub fn counts() -> usize {
    counted::counts(&rows(), &ACCESSES)
}

/// Times each row and prints it beside what was counted.
pub fn report(totals: &[u64]) -> Result<(), String> {
    println!("an access, by value, lent, in place, and by the reference: instructions; nanoseconds; time by the reference's");
    for (row, totals) in rows().iter().zip(totals.chunks(2 * ACCESSES.len())) {
        let counted = counted::instructions(totals);
        let timed = counted::nanoseconds(row, &ACCESSES).map_err(|e| format!("{}: {e}", row.name))?;
        print!("{:13} EL{} {}", row.name, row.level, if row.p5 == 1 { "p5   " } else { "no p5" });
        print!(" | {:4.0} {:4.0} {:4.0} {:4.0}", counted[0], counted[1], counted[2], counted[3]);
        print!(" | {:5.1} {:5.1} {:5.1} {:5.1}", timed[0], timed[1], timed[2], timed[3]);
        println!(" | {:.2} {:.2} {:.2}", timed[0] / timed[3], timed[1] / timed[3], timed[2] / timed[3]);
    }
    Ok(())
}
