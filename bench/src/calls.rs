//! Instructions and nanoseconds a call on a machine in words, without and with an
//! undo list, and by the reference: one row for each kind of call, all at level 1,
//! with and without p5 where the call tests the record. After 64 calls the list
//! is full. A step back is measured with the call that it takes back, as a pair,
//! less that call; so the list is short there.

use crate::counted::{self, Row};
use crate::loops::Loop;
use loops::Loops;

mod loops;

/// One kind of call, with or without p5.
#[derive(Clone, Copy)]
struct Kind {
    name: &'static str,
    /// Fields and values beside those that all rows have.
    more: &'static [[u64; 2]],
    /// What the call takes: an instruction word, to which a Rt is added, or else the field, offset or number.
    first: u32,
    /// What it takes beside that.
    operand: u64,
    loops: Loops,
    /// The row whose call is part of this one's, and is taken off.
    less: Option<&'static str>,
    p5: u64,
}

impl Row for Kind {
    /// EL2 with 4 of 6 counters below HPMN, EN 1, all six enabled with E and HPME 1, SPE, and p5 or not. Counter 2 holds 7 and
    /// PMSICR 5.
    fn sets(&self) -> Vec<u64> {
        let features = [[0x00, 1], [0x01, self.p5], [0x0C, 6], [0x09, 1], [0x10, 1], [0x27, 4], [0x20, 1]];
        let enables = [[0x34, 0x3F], [0x3D, 1], [0x3E, 1]];
        let sampling = [[0x80, 1]];
        let values = [[0x62, 7], [0x8C, 5]];
        [&features[..], &enables, &sampling, &values, self.more].concat().concat()
    }

    /// The call again and again; an access with another Rt each time.
    fn list(&self, length: usize) -> Vec<u64> {
        let words = if self.first >> 24 == 0xD5 { 31 } else { 1 };
        (0..length as u64).map(|i| 1 << 32 | (self.first as u64 + i % words)).collect()
    }

    fn operand(&self) -> u64 {
        self.operand
    }
}

impl Kind {
    /// The loops that there are.
    fn present(&self) -> Vec<Loop> {
        self.loops.iter().flatten().copied().collect()
    }

    /// The figures of these, and none for the others.
    fn spread(&self, figures: Vec<f64>) -> Figures {
        let mut figures = figures.into_iter();
        self.loops.map(|one| one.and_then(|_| figures.next()))
    }
}

/// Without a list and with one, then both by the reference.
type Figures = [Option<f64>; 4];

/// So that there are five counters below HPMN.
const FIVE: &[[u64; 2]] = &[[0x27, 5]];
/// The external registers can be reached.
const EXTERNAL: &[[u64; 2]] = &[[0x08, 1], [0x38, 1], [0x3B, 1]];
/// The instruction counter is there, and on.
const COUNTING: &[[u64; 2]] = &[[0x03, 1], [0x34, 0x1_0000_003F]];
/// Profiling is on, and the interval so long that no member ends it.
const PROFILING: &[[u64; 2]] = &[[0x8C, 1_000_000], [0x83, 1]];

/// Counter 2 is below HPMN and counter 5 is not. The word that is none of the model's is PMCCNTR's.
fn rows() -> Vec<Kind> {
    let one = |name, loops, more, first, operand| Kind { name, more, first, operand, loops, less: None, p5: 1 };
    let access = |name, more, word, operand| one(name, loops::ACCESS, more, word, operand);
    let back = |name, less, loops, more, first, operand| Kind { less: Some(less), ..one(name, loops, more, first, operand) };
    let testing = [
        access("counter read", &[], 0xD53B_E840, 0),
        access("counter write", &[], 0xD51B_E840, 77),
        access("PMSWINC of three counters", &[], 0xD51B_9C80, 0x7),
        access("PMSWINC of five counters", FIVE, 0xD51B_9C80, 0x1F),
        access("trapped read", &[], 0xD53B_E8A0, 0),
        access("another word", &[], 0xD53B_9D00, 0),
        access("PMSICR read", &[], 0xD538_9940, 0),
        one("external read", loops::EXTERNAL_READ, EXTERNAL, 0xC00, 0),
        one("external write", loops::EXTERNAL_WRITE, EXTERNAL, 0xC00, 0x3F),
        one("tick", loops::TICK, COUNTING, 0, 0),
        one("sample", loops::SAMPLE, PROFILING, 0, 0),
    ];
    let others = [
        one("set", loops::SET, &[], 0x62, 9),
        one("level", loops::LEVEL, &[], 1, 0),
        back("back over a level", "level", loops::LEVEL_BACK, &[], 1, 0),
        back("back over a counter write", "counter write", loops::ACCESS_BACK, &[], 0xD51B_E840, 77),
        back("back over PMSWINC of five", "PMSWINC of five counters", loops::ACCESS_BACK, FIVE, 0xD51B_9C80, 0x1F),
    ];
    testing.into_iter().flat_map(|row| [row, Kind { p5: 0, ..row }]).chain(others).collect()
}

pub fn count() {
    for row in rows() {
        counted::count(&[row], &row.present());
    }
}

pub fn counts() -> usize {
    rows().iter().map(|row| counted::counts(&[*row], &row.present())).sum()
}

/// Times each row and prints it beside what was counted.
pub fn report(mut totals: &[u64]) -> Result<(), String> {
    println!("a call, without and with an undo list, and by the reference: instructions; nanoseconds; time by the reference's");
    println!("{HEAD}");
    let mut done: Vec<(Kind, [Figures; 2])> = Vec::new();
    for row in rows() {
        let (own, rest) = totals.split_at(counted::counts(&[row], &row.present()));
        totals = rest;
        let timed = counted::nanoseconds(&row, &row.present()).map_err(|e| format!("{}: {e}", row.name))?;
        let mut figures = [counted::instructions(own), timed].map(|list| row.spread(list));
        if let Some(name) = row.less {
            let first = done.iter().find(|(first, _)| first.name == name && first.p5 == row.p5);
            let (_, first) = first.ok_or_else(|| format!("{}: no row {name}", row.name))?;
            figures = [0, 1].map(|k| less(figures[k], first[k]));
        }
        print_row(&row, figures);
        done.push((row, figures));
    }
    Ok(())
}

/// The figures less others, where there are both.
fn less(figures: Figures, others: Figures) -> Figures {
    [0, 1, 2, 3].map(|k| Some(figures[k]? - others[k]?))
}

const HEAD: &str = "\
| call | p5 | instructions: plain | listed | ref | ref listed | ns: plain | listed | ref | ref listed \
| plain by ref | listed by ref | listed by ref listed |
|---|---|---|---|---|---|---|---|---|---|---|---|---|";

fn print_row(row: &Kind, [counted, timed]: [Figures; 2]) {
    let by = |one: usize, other: usize| Some(timed[one]? / timed[other]?);
    print!("| {} | {} |", row.name, if row.p5 == 1 { "yes" } else { "no" });
    let cell = |figure: Option<f64>, digits| figure.map_or(String::new(), |figure| format!(" {figure:.digits$}"));
    counted.iter().for_each(|&figure| print!("{} |", cell(figure, 0)));
    timed.iter().for_each(|&figure| print!("{} |", cell(figure, 1)));
    println!("{} |{} |{} |", cell(by(0, 2), 2), cell(by(1, 2), 2), cell(by(1, 3), 2));
}
