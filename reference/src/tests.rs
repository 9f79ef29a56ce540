//! Tests: the worked session (MODEL S8), the worked examples (MODEL P1 to P11)
//! through sessions, the limit, the round trip of the notation,
//! the orders of traps written a second time as the tables that they are (MODEL
//! T1 to T6 and I1 to I6) with the causes of traps, the overflow flags against
//! sums of 128 bits, and the counters that are off. Causes have a file of their
//! own, and so have accesses to PMSICR, the members of the sample population
//! (MODEL J5 to J9), steps back (MODEL H1 to H7), and the short form (MODEL Z1 to Z8).

mod back;
mod back_sessions;
mod causes;
mod pmsicr;
pub(crate) mod reading;
mod sampling;
mod short;
mod short_convert;
mod short_sessions;

use crate::back::Earlier;
use crate::generate::{self, Rng};
use crate::model::{Answer, Machine, Move, Register};
use crate::notation::{assemble, disassemble};
use crate::session::{obey, run, Command};
use reading::{answered, commands};
use std::collections::{BTreeMap, BTreeSet};

/// Runs a session given in the notation.
fn run_text(text: &str) -> String {
    run(&assemble(text).expect("notation"))
}

/// MODEL P0: what the worked examples start from.
const GIVEN: &str = "01 00 v:1 01 01 v:1 01 02 v:1 01 04 v:1 01 08 v:1 01 09 v:1
    01 10 v:1 01 38 v:1 01 3B v:1 01 0C v:6 01 27 v:4 01 20 v:1 ";

/// Every event counter on: the enables, E and HPME.
const ON: &str = "01 34 v:0x7FFFFFFF 01 3D v:1 01 3E v:1 ";

/// Runs commands after the given start; the answers without `ok` and `end`.
fn answers_of(text: &str) -> Vec<String> {
    let output = run_text(&format!("{GIVEN}{text} 00"));
    let mut answers = Vec::new();
    for (index, line) in output.lines().enumerate() {
        let (position, answer) = line.split_once(' ').expect("position");
        assert_eq!(position, (index + 1).to_string());
        if answer != "ok" && answer != "end" {
            answers.push(answer.to_string());
        }
    }
    answers
}

#[test]
fn worked_session() {
    let text = "01 00 v:1\n01 0C v:2\n01 61 v:42\n02 01\n\
                03 22 E8 3B D5 v:0\n03 42 E8 3B D5 v:0\n00\n";
    let expected = "1 ok\n2 ok\n3 ok\n4 ok\n5 value 000000000000002A 2\n6 undef\n7 end\n";
    assert_eq!(run_text(text), expected);
}

#[test]
fn p01() {
    assert_eq!(answers_of("02 01 03 82 E8 3B D5 v:0"), ["trap 2 6238F851 4"]);
}

#[test]
fn p02() {
    let text = "01 65 v:77 02 01 03 A2 E8 3B D5 v:0 02 02 03 A2 E8 3B D5 v:0";
    assert_eq!(answers_of(text), ["trap 2 623AF851 4", "value 000000000000004D 2"]);
}

#[test]
fn p03() {
    assert_eq!(answers_of("02 02 03 C2 E8 3B D5 v:0"), ["undef"]);
}

#[test]
fn p04() {
    let text = "01 63 v:33 01 23 v:1 03 62 E8 3B D5 v:0 03 62 E8 1B D5 v:5
                02 01 03 62 E8 3B D5 v:0";
    assert_eq!(answers_of(text), ["value 0000000000000000 2", "value 0000000000000021 2"]);
}

#[test]
fn p05() {
    let text = "01 63 v:33 01 23 v:1 01 22 v:1 01 32 v:8 03 62 E8 1B D5 v:5
                03 62 E8 3B D5 v:0";
    assert_eq!(answers_of(text), ["value 0000000000000021 2"]);
}

#[test]
fn p06() {
    let reads = "02 02 03 62 E8 3B D5 v:0 03 82 E8 3B D5 v:0";
    let swinc = "03 81 9C 1B D5 v:24";
    assert_eq!(
        answers_of(&format!("{ON} 02 01 {swinc} {reads}")),
        ["value 0000000000000001 2", "value 0000000000000000 2"]
    );
    assert_eq!(
        answers_of(&format!("{ON} 02 02 {swinc} {reads}")),
        ["value 0000000000000001 2", "value 0000000000000001 2"]
    );
}

#[test]
fn p07() {
    let text = &format!("{ON} 01 60 v:4294967295 02 01 03 81 9C 1B D5 v:1 03 02 E8 3B D5 v:0");
    assert_eq!(answers_of(text), ["value 0000000100000000 2"]);
    assert_eq!(answers_of(&format!("01 01 v:0 01 02 v:0 {text}")), ["value 0000000000000000 2"]);
}

#[test]
fn p08() {
    let text = "01 20 v:0 03 81 9C 1B D5 v:0 01 25 v:1 03 81 9C 1B D5 v:0";
    assert_eq!(answers_of(text), ["trap 1 6238E438 1", "trap 2 6238E438 1"]);
}

#[test]
fn p09() {
    let text = "01 23 v:1 01 21 v:1 01 20 v:0 03 81 9C 1B D5 v:8 02 02 03 62 E8 3B D5 v:0";
    assert_eq!(answers_of(&format!("{ON} {text}")), ["value 0000000000000001 2"]);
}

/// MODEL P10: counter 5 stands in the place of counter 4.
#[test]
fn p10() {
    let read = "02 01 03 A2 E8 3B D5 v:0";
    assert_eq!(answers_of(&format!("01 27 v:6 {read}")), ["value 0000000000000000 2"]);
    assert_eq!(answers_of(&format!("01 27 v:7 {read}")), ["refused 13"]);
}

#[test]
fn p11() {
    let text = "05 00 0C v:0x1FFFFFFFF 04 00 0C";
    assert_eq!(answers_of(text), ["value 000000008000003F"]);
    assert_eq!(answers_of(&format!("01 03 v:1 {text}")), ["value 000000018000003F"]);
}

#[test]
fn limit_of_4096_bytes() {
    assert_eq!(run(&[]), "1 refused 2\n");
    assert_eq!(run(&[0; 4096]), "1 end\n");
    assert_eq!(run(&[0; 4097]), "0 refused 6\n");
    let mut ticks = [6u8, 0].repeat(2047);
    ticks.extend([2, 0]);
    let output = run(&ticks);
    assert_eq!(ticks.len(), 4096);
    assert!(output.ends_with("\n2048 ok\n2049 refused 2\n"));
}

#[test]
fn notation_round_trip() {
    let mut rng = Rng::new(1, 2);
    for index in 0..4000u64 {
        let count = rng.below(80) as usize;
        let bytes = [9, 0x14, 256][rng.below(3) as usize];
        let random: Vec<u8> = (0..count).map(|_| rng.below(bytes) as u8).collect();
        let short = [&[0x10], &random[..]].concat();
        for bytes in [random, short, generate::session(3, index)] {
            assert_eq!(assemble(&disassemble(&bytes)), Ok(bytes));
        }
    }
}

#[test]
fn notation_errors() {
    assert_eq!(assemble("# 1\n\n 0a FF # x\nv:0x102"), Ok(vec![10, 255, 2, 1, 0, 0, 0, 0, 0, 0]));
    assert_eq!(assemble("\u{feff}02 01\r\n\t00"), Ok(vec![2, 1, 0]));
    for bad in ["1", "123", "G0", "+1", "v:", "v:-1", "v:+1", "v:0x", "v:18446744073709551616"] {
        assert!(assemble(bad).is_err(), "{bad}");
    }
}

#[test]
fn every_field_has_a_name() {
    for field in 0..=0xFF {
        let text = disassemble(&[1, field, 0, 0, 0, 0, 0, 0, 0, 0]);
        let unknown = text.contains("no such field");
        assert_eq!(unknown, Machine::largest(field).is_none(), "{text}");
    }
}

/// A consistent machine with random fields.
fn random_machine(rng: &mut Rng) -> Machine {
    loop {
        let mut machine = Machine::default();
        for field in 0..=0x8D {
            if let Some(largest) = Machine::largest(field) {
                let value = match field {
                    0x00 => 1,
                    0x37 => rng.next() & largest,
                    0x40..=0x7E => rng.below(2),
                    _ if largest == u64::MAX => rng.next(),
                    _ => rng.below(largest + 1),
                };
                machine.set(field, value);
            }
        }
        machine.set_level(rng.below(4) as u8);
        if machine.state_refusal().is_none() {
            return machine;
        }
    }
}

/// What becomes of an access before it is made: 0 passes, 1 to 3 is the target of
/// a trap, 9 is undefined; and the number of the trap's cause, 0 without a trap.
type Outcome = (u8, u8);

const PASSES: Outcome = (0, 0);
const UNDEFINED: Outcome = (9, 0);

/// The first row of an order of traps that applies.
fn first(list: &[(bool, Outcome)]) -> Outcome {
    list.iter().find(|(applies, _)| *applies).map_or(PASSES, |(_, outcome)| *outcome)
}

/// A stop at EL3 for a cause.
fn stop(r: &Machine, cause: u8) -> Outcome {
    if r.halted && r.sdd {
        UNDEFINED
    } else {
        (3, cause)
    }
}

/// MODEL U2, U4 and T1 to T6: PMEVCNTR (with m) and PMSWINC (without), as a list.
fn rules(r: &Machine, m: Option<u8>, read: bool) -> Outcome {
    let low = r.el2_enabled && r.el <= 1;
    let disabled = match (m, read) {
        (Some(_), true) => !(r.en || r.er),
        (Some(_), false) => !r.en,
        (None, _) => !(r.en || r.sw),
    };
    let bit = match (m, read) {
        (Some(_), true) => r.hdfgrtr_pmevcntrn,
        (Some(_), false) => r.hdfgwtr_pmevcntrn,
        (None, _) => r.hdfgwtr_pmswinc,
    };
    let fine = low && r.fgt && (!r.have_el3 || r.fgten) && !(r.el == 0 && r.e2h && r.tge);
    let el3 = r.have_el3 && r.el <= 2;
    let all = r.halted && r.sdd && r.el3_trap_priority && r.mdcr_el3_tpm;
    first(&[
        (m.map_or(false, |m| m >= r.n) || m.is_none() && read, UNDEFINED),
        (el3 && all, UNDEFINED),
        (r.el == 0 && disabled, if r.el2_enabled && r.tge { (2, 1) } else { (1, 1) }),
        (fine && bit, (2, 2)),
        (low && r.mdcr_el2_tpm, (2, 3)),
        (low && m.map_or(false, |m| m >= r.hpmn), (2, 4)),
        (el3 && r.mdcr_el3_tpm, stop(r, 5)),
    ])
}

/// MODEL U5 and I1 to I6: the same for PMICNTR.
fn pmicntr_rules(r: &Machine, read: bool) -> Outcome {
    let low = r.el2_enabled && r.el <= 1;
    let fine = low && r.fgt2 && !(r.el == 0 && r.e2h && r.tge);
    let bit = if read { r.hdfgrtr2_npmicntr } else { r.hdfgwtr2_npmicntr };
    let el3 = r.have_el3 && r.el <= 2;
    let all = r.halted && r.sdd && r.el3_trap_priority && (!r.enpm2 || r.mdcr_el3_tpm);
    first(&[
        (!r.icntr, UNDEFINED),
        (el3 && all, UNDEFINED),
        (fine && r.have_el3 && !r.fgten2, (2, 7)),
        (fine && !bit, (2, 2)),
        (low && r.mdcr_el2_tpm, (2, 3)),
        (el3 && !r.enpm2, stop(r, 6)),
        (el3 && r.mdcr_el3_tpm, stop(r, 5)),
    ])
}

/// What an answer is in the numbers of the rules.
fn outcome(answer: Answer) -> Outcome {
    match answer {
        Answer::Ok | Answer::Moved { .. } => PASSES,
        Answer::Trap { target, cause, .. } => (target, cause.number()),
        Answer::Undefined => UNDEFINED,
        _ => panic!("{answer:?}"),
    }
}

#[test]
fn pages_agree_with_the_rules() {
    let mut rng = Rng::new(5, 6);
    let mut seen = BTreeMap::new();
    for _ in 0..200_000 {
        let machine = random_machine(&mut rng);
        let m = rng.below(32) as u8;
        let read = rng.chance(50);
        let direction = if read { 0x0020_0000 } else { 0 };
        let (name, word, expected) = match rng.below(3) {
            0 => {
                let place = ((m as u32 / 8) << 8) | ((m as u32 % 8) << 5);
                ("PMEVCNTR", 0xD51B_E800 | place, rules(&machine, Some(m), read))
            }
            1 => ("PMSWINC", 0xD51B_9C80, rules(&machine, None, read)),
            _ => ("PMICNTR", 0xD51B_9400, pmicntr_rules(&machine, read)),
        };
        let got = outcome(machine.clone().access(word | direction, 1));
        assert_eq!(got, expected, "{word:08X} read {read} {machine:?}");
        *seen.entry((name, got)).or_insert(0) += 1;
    }
    let mut wanted = BTreeSet::new();
    for (name, traps) in [
        ("PMEVCNTR", &[(1, 1), (2, 1), (2, 2), (2, 3), (2, 4), (3, 5)][..]),
        ("PMSWINC", &[(1, 1), (2, 1), (2, 2), (2, 3), (3, 5)]),
        ("PMICNTR", &[(2, 7), (2, 2), (2, 3), (3, 6), (3, 5)]),
    ] {
        wanted.extend(traps.iter().chain(&[PASSES, UNDEFINED]).map(|&some| (name, some)));
    }
    assert_eq!(seen.keys().copied().collect::<BTreeSet<_>>(), wanted);
    assert!(seen.values().all(|&count| count > 300), "{seen:?}");
}

#[test]
fn generated_sessions_repeat() {
    for index in 0..50 {
        assert_eq!(generate::session(9, index), generate::session(9, index));
    }
    assert_ne!(generate::session(9, 0), generate::session(10, 0));
}

/// No command leads out of the ranges that MODEL R10 tests.
#[test]
fn generated_sessions_stay_in_range() {
    for index in 0..3000 {
        let output = run(&generate::session(11, index));
        assert!(!output.contains("refused 10"), "session {index}");
    }
}

/// Counters 3 and 4 have a value and are incremented at level 2, HPMN being 4:
/// the flags, and the value of counter 3.
fn carried(value: u64, more: &str) -> [String; 2] {
    let text = format!("{ON} 01 63 v:{value} 01 64 v:{value} {more} 02 02 03 81 9C 1B D5 v:24");
    let mut answers = answers_of(&format!("{text} 04 80 0C 03 62 E8 3B D5 v:0")).into_iter();
    let mut next = || answers.next().expect("answer");
    [next(), next()]
}

#[test]
fn carries_out_of_32_or_64_bits() {
    let (low, all) = (0xFFFF_FFFF, u64::MAX);
    let (lp, hlp, both) = ("01 35 v:1", "01 36 v:1", "01 35 v:1 01 36 v:1");
    let narrow = "01 01 v:0 01 02 v:0";
    let narrow_long = &format!("{narrow} {both}");
    let rows: [(u64, &str, u64, u64); 16] = [
        (low - 1, "", 0, low),
        (low, "", 0x18, 0x1_0000_0000),
        (low, lp, 0x10, 0x1_0000_0000),
        (low, hlp, 0x08, 0x1_0000_0000),
        (low, both, 0, 0x1_0000_0000),
        (0x1_FFFF_FFFF, "", 0x18, 0x2_0000_0000),
        (0x1_FFFF_FFFF, both, 0, 0x2_0000_0000),
        (0xFFFF_FFFF_0000_0000, "", 0, 0xFFFF_FFFF_0000_0001),
        (all - 1, both, 0, all),
        (all, "", 0x18, 0),
        (all, lp, 0x18, 0),
        (all, hlp, 0x18, 0),
        (all, both, 0x18, 0),
        (low - 1, narrow, 0, low),
        (low, narrow, 0x18, 0),
        (low, narrow_long, 0x18, 0),
    ];
    for (value, more, flags, sum) in rows {
        let expected = [format!("value {flags:016X}"), format!("value {sum:016X} 2")];
        assert_eq!(carried(value, more), expected, "{value:X} {more}");
    }
}

/// HLP needs EL2 implemented; enabled or not, it does not matter.
#[test]
fn hpmn_divides_where_el2_is_implemented() {
    let start = &format!("{ON} 01 63 v:0xFFFFFFFF 01 64 v:0xFFFFFFFF 01 36 v:1 01 10 v:0 02 01");
    let end = "03 81 9C 1B D5 v:24 04 80 0C";
    assert_eq!(answers_of(&format!("{start} {end}")), ["value 0000000000000008"]);
    assert_eq!(answers_of(&format!("{start} 01 09 v:0 {end}")), ["value 0000000000000018"]);
    assert_eq!(answers_of(&format!("{start} 01 27 v:5 {end}")), ["value 0000000000000018"]);
    assert_eq!(answers_of(&format!("{start} 01 27 v:3 {end}")), ["value 0000000000000000"]);
}

/// A counter that does not move gets no flag, and no flag goes away.
#[test]
fn only_increments_set_flags() {
    let start = &format!("{ON} 01 63 v:0xFFFFFFFF 01 64 v:0xFFFFFFFF 01 37 v:1");
    let end = "03 81 9C 1B D5 v:0xFFFFFFFFFFFFFFFF 04 80 0C";
    let rows = [
        ("02 02", "value 0000000000000019"),
        ("02 01", "value 0000000000000009"),
        ("02 02 01 43 v:1", "value 0000000000000011"),
        ("02 02 01 34 v:0x10", "value 0000000000000011"),
        ("02 02 01 34 v:0", "value 0000000000000001"),
        ("02 02 01 3D v:0", "value 0000000000000011"),
        ("02 02 01 3E v:0", "value 0000000000000009"),
        ("02 02 01 3D v:0 01 3E v:0", "value 0000000000000001"),
        ("02 02 01 37 v:0x18 01 34 v:0", "value 0000000000000018"),
        ("02 02 01 0C v:4 01 27 v:4", "value 0000000000000009"),
        ("02 00 01 23 v:1", "value 0000000000000001"),
        ("02 00 01 23 v:1 01 21 v:1", "value 0000000000000009"),
        ("02 02 01 63 v:0 03 81 E8 1B D5 v:0", "value 0000000000000001"),
    ];
    for (more, flags) in rows {
        assert_eq!(answers_of(&format!("{start} {more} {end}")), [flags], "{more}");
    }
}

#[test]
fn ticks_set_bit_32() {
    let start = "01 03 v:1 01 34 v:0x100000000 01 35 v:0";
    let rows = [
        ("01 7F v:0xFFFFFFFFFFFFFFFF 06 00", "value 0000000100000000"),
        ("01 7F v:0xFFFFFFFFFFFFFFFF 06 01", "value 0000000000000000"),
        ("01 7F v:0xFFFFFFFFFFFFFFFE 06 00", "value 0000000000000000"),
        ("01 7F v:0xFFFFFFFFFFFFFFFE 06 00 06 00 06 00", "value 0000000100000000"),
        ("01 7F v:0xFFFFFFFF 06 00", "value 0000000000000000"),
        ("01 7F v:0xFFFFFFFFFFFFFFFF 01 34 v:0xFFFFFFFF 06 00", "value 0000000000000000"),
        ("01 7F v:0xFFFFFFFFFFFFFFFF 01 03 v:0 06 00 01 03 v:1", "value 0000000000000000"),
    ];
    for (more, flags) in rows {
        assert_eq!(answers_of(&format!("{start} {more} 04 C0 0C")), [flags], "{more}");
    }
}

#[test]
fn overflow_flags_have_no_bit_31() {
    let mut machine = Machine::default();
    for (value, taken) in [
        (0x1_7FFF_FFFF, true),
        (0, true),
        (0x7FFF_FFFF, true),
        (1 << 32, true),
        (1 << 31, false),
        (0xFFFF_FFFF, false),
        (0x1_8000_0000, false),
        (0x1_FFFF_FFFF, false),
        (1 << 33, false),
        (u64::MAX, false),
    ] {
        let before = machine.pmovs;
        let expected = if taken { Answer::Ok } else { Answer::Refused(4) };
        assert_eq!(machine.set(0x37, value), expected, "{value:X}");
        assert_eq!(machine.pmovs, if taken { value } else { before });
    }
    let text = "01 03 v:1 05 C0 0C v:0xFFFFFFFFFFFFFFFF 04 80 0C 05 80 0C v:0x180000001 04 C0 0C";
    assert_eq!(answers_of(text), ["value 000000010000003F", "value 000000000000003E"]);
}

/// Machines that no command makes.
#[test]
fn out_of_range() {
    let changes: [(&str, fn(&mut Machine)); 11] = [
        ("level", |r| r.el = 4),
        ("N", |r| r.n = 32),
        ("HPMN", |r| r.hpmn = 32),
        ("PMUACR", |r| r.pmuacr_p = 1 << 31),
        ("enables", |r| r.pmcnten = 1 << 33),
        ("flags above", |r| r.pmovs = 1 << 33),
        ("flags with bit 31", |r| r.pmovs = 1 << 31),
        ("flags with bits 31 and 32", |r| r.pmovs = 3 << 31),
        ("NSPB", |r| r.nspb = 4),
        ("NSPB with high bits", |r| r.nspb = 0x81),
        ("another refusal", |r| (r.pmovs, r.el2_enabled) = (1 << 31, true)),
    ];
    for (name, change) in changes {
        let mut machine = Machine::default();
        change(&mut machine);
        let before = machine.clone();
        assert_eq!(machine.state_refusal(), Some(10), "{name}");
        assert_eq!(machine.access(0, 0), Answer::Refused(10), "{name}");
        assert_eq!(machine.external_read(0xC80), Answer::Refused(10), "{name}");
        assert_eq!(machine.external_write(0xC80, u64::MAX), Answer::Refused(10), "{name}");
        assert_eq!(machine.tick(0), Answer::Refused(10), "{name}");
        assert_eq!(machine.member(0), Answer::Refused(10), "{name}");
        assert_eq!(machine, before, "{name}");
    }
    let mut machine = Machine { pmovs: 0x1_7FFF_FFFF, nspb: 3, ..Machine::default() };
    assert_eq!(machine.tick(0), Answer::Ok);
}

/// Whether counters 3 and 4 go up by one PMSWINC, HPMN being 4 if not changed.
fn go_up(text: &str) -> [bool; 2] {
    let end = "03 81 9C 1B D5 v:24 03 62 E8 3B D5 v:0 03 82 E8 3B D5 v:0";
    let answers = answers_of(&format!("{text} {end}"));
    assert_eq!(answers.len(), 2, "{text}");
    [0, 1].map(|index| match answers[index].as_str() {
        "value 0000000000000000 2" => false,
        "value 0000000000000001 2" => true,
        other => panic!("{text}: {other}"),
    })
}

#[test]
fn counters_that_are_off_stay_still() {
    let rows = [
        ("", [false, false]),
        ("01 3D v:1 01 3E v:1", [false, false]),
        ("01 34 v:24", [false, false]),
        ("01 34 v:24 01 3D v:1 01 3E v:1", [true, true]),
        ("01 34 v:8 01 3D v:1 01 3E v:1", [true, false]),
        ("01 34 v:16 01 3D v:1 01 3E v:1", [false, true]),
        ("01 34 v:0x1FFFFFFE7 01 3D v:1 01 3E v:1", [false, false]),
        ("01 34 v:24 01 3D v:1", [true, false]),
        ("01 34 v:24 01 3E v:1", [false, true]),
        ("01 34 v:24 01 3D v:1 01 3E v:1 01 44 v:1", [true, false]),
        ("01 34 v:24 01 3D v:1 01 27 v:3", [false, false]),
        ("01 34 v:24 01 3E v:1 01 27 v:3", [true, true]),
        ("01 34 v:24 01 3D v:1 01 27 v:5", [true, true]),
        ("01 34 v:24 01 3E v:1 01 27 v:5", [false, false]),
        // No counter in the second range, and all of them.
        ("01 34 v:24 01 3D v:1 01 27 v:6", [true, true]),
        ("01 34 v:24 01 3E v:1 01 27 v:6", [false, false]),
        ("01 34 v:24 01 3D v:1 01 27 v:0 01 06 v:1", [false, false]),
        ("01 34 v:24 01 3E v:1 01 27 v:0 01 06 v:1", [true, true]),
    ];
    for (more, expected) in rows {
        assert_eq!(go_up(&format!("02 02 {more}")), expected, "{more}");
        assert_eq!(go_up(&format!("01 0A v:1 02 03 {more}")), expected, "{more}");
    }
}

/// EL2 enabled or not, HPME is asked where it is implemented.
#[test]
fn hpme_needs_el2_implemented() {
    let rows = [
        ("01 3D v:1", [true, false], [true, true]),
        ("01 3E v:1", [false, true], [false, false]),
        ("01 3D v:1 01 3E v:1", [true, true], [true, true]),
        ("01 3E v:1 01 27 v:1", [true, true], [false, false]),
        ("01 3D v:1 01 27 v:1", [false, false], [true, true]),
    ];
    for (more, implemented, missing) in rows {
        for level in ["02 00", "02 01"] {
            let text = format!("01 34 v:24 01 10 v:0 {more} {level}");
            assert_eq!(go_up(&text), implemented, "{text}");
            assert_eq!(go_up(&format!("{text} 01 09 v:0")), missing, "{text}");
        }
    }
}

#[test]
fn every_counter_has_its_enable_bit() {
    let set = [(0x00, 1), (0x09, 1), (0x0A, 1), (0x0C, 31), (0x27, 16), (0x3D, 1), (0x3E, 1)];
    for bit in 0..33 {
        let mut machine = Machine::default();
        for (field, value) in set {
            machine.set(field, value);
        }
        machine.set_level(3);
        machine.set(0x34, 1 << bit);
        assert_eq!(machine.access(0xD51B_9C81, u64::MAX), Answer::Ok);
        for m in 0..31 {
            assert_eq!(machine.pmevcntr[m], (m == bit) as u64, "{bit} {m}");
        }
    }
}

#[test]
fn counters_are_enabled_from_outside() {
    let start = "02 02 01 3D v:1 01 3E v:1";
    assert_eq!(go_up(&format!("{start} 05 00 0C v:8")), [true, false]);
    assert_eq!(go_up(&format!("{start} 05 00 0C v:8 05 00 0C v:16")), [true, true]);
    assert_eq!(go_up(&format!("{start} 01 3C v:1 05 00 0C v:24")), [false, false]);
    assert_eq!(go_up(&format!("{start} 01 0C v:4 05 00 0C v:24 01 0C v:6")), [true, false]);
}

/// MRS and MSR do not ask whether a counter is on, and ticks have an enable bit
/// of their own.
#[test]
fn only_increments_ask_for_e_and_hpme() {
    for settings in ["", "01 3D v:1", "01 3E v:1", "01 3D v:1 01 3E v:1"] {
        let moves = "02 02 03 61 E8 1B D5 v:5 03 81 E8 1B D5 v:6
                     03 62 E8 3B D5 v:0 03 82 E8 3B D5 v:0";
        let expected = ["value 0000000000000005 2", "value 0000000000000006 2"];
        assert_eq!(answers_of(&format!("{settings} {moves}")), expected);
        let ticks = "01 03 v:1 01 34 v:0x100000000 01 7F v:0xFFFFFFFFFFFFFFFF 06 00 06 00 02 02
                     03 02 94 3B D5 v:0 04 80 0C";
        let expected = ["value 0000000000000001 2", "value 0000000100000000"];
        assert_eq!(answers_of(&format!("{settings} {ticks}")), expected);
    }
}

#[test]
fn e_and_hpme_are_bits() {
    let mut machine = Machine::default();
    for (field, value, e, hpme) in [
        (0x3D, 1, true, false),
        (0x3E, 1, true, true),
        (0x3D, 0, false, true),
        (0x3D, 1, true, true),
        (0x3E, 0, true, false),
    ] {
        assert_eq!(machine.set(field, value), Answer::Ok);
        for refused in [2, 3, 0x100, 1 << 32, u64::MAX] {
            assert_eq!(machine.set(0x3D, refused), Answer::Refused(4));
            assert_eq!(machine.set(0x3E, refused), Answer::Refused(4));
        }
        assert_eq!(machine.set(0x3F, value), Answer::Refused(3));
        assert_eq!(machine, Machine { pmcr_e: e, hpme, ..Machine::default() });
    }
}

/// A value that is often next to a carry.
fn near_carry(rng: &mut Rng, p5: bool) -> u64 {
    let any = rng.next();
    let value = match rng.below(5) {
        0 => any | 0xFFFF_FFFF,
        1 => u64::MAX,
        2 => 0xFFFF_FFFF,
        3 => any & !1 | 0xFFFF_FFFE,
        _ => any,
    };
    if p5 {
        value
    } else {
        value & 0xFFFF_FFFF
    }
}

/// A counter after one more, and whether its flag is set by that.
fn one_more(r: &Machine, m: u8) -> (u64, bool) {
    let long = if m >= r.hpmn && r.have_el2 { r.hlp } else { r.lp };
    let sum = r.pmevcntr[m as usize] as u128 + 1;
    let width = if r.pmuv3p5 { 64 } else { 32 };
    let overflow = if long { width } else { 32 };
    ((sum % (1 << width)) as u64, sum % (1 << overflow) == 0)
}

/// PMSWINC at every level, against sums that do not wrap.
#[test]
fn increments_agree_with_sums() {
    let mut rng = Rng::new(12, 13);
    let mut seen = [0u32; 2];
    for _ in 0..100_000 {
        let mut machine = random_machine(&mut rng);
        for m in 0..31 {
            machine.pmevcntr[m] = near_carry(&mut rng, machine.pmuv3p5);
        }
        let operand = rng.next();
        let mut expected = machine.clone();
        for m in 0..31u8 {
            let r = &machine;
            let held = r.pmuv3p9 && r.uen && !r.sw && r.pmuacr_p >> m & 1 == 0;
            let on = if m < r.hpmn || !r.have_el2 { r.pmcr_e } else { r.hpme };
            let ignored = m >= r.n
                || r.el <= 1 && r.el2_enabled && m >= r.hpmn
                || r.el == 0 && held
                || r.event[m as usize] != 0
                || !on
                || r.pmcnten & 1 << m == 0;
            if rules(r, None, false) == PASSES && operand >> m & 1 == 1 && !ignored {
                let (value, flag) = one_more(r, m);
                expected.pmevcntr[m as usize] = value;
                expected.pmovs |= (flag as u64) << m;
                seen[flag as usize] += 1;
            }
        }
        machine.access(0xD51B_9C80, operand);
        assert_eq!(machine, expected);
    }
    assert!(seen[0] > 10_000 && seen[1] > 10_000, "{seen:?}");
}

/// The external registers, bit by bit.
#[test]
fn external_registers_agree_bit_by_bit() {
    let mut rng = Rng::new(14, 15);
    let mut seen = [0u32; 3];
    for _ in 0..50_000 {
        let mut machine = random_machine(&mut rng);
        let offset = [0xC00, 0xC80, 0xCC0][rng.below(3) as usize];
        let value = rng.next();
        let mut expected = machine.clone();
        let r = &machine;
        let present = r.ext32 || r.ext64;
        let open = r.core_powered && r.external_allowed && !r.double_lock && !r.os_lock;
        let mut shown = 0;
        for bit in 0..64 {
            let event = bit < 31 && bit < r.n;
            let there = event || bit == 32 && r.icntr || bit == 31 && offset == 0xC00;
            let flags = if offset == 0xC00 { r.pmcnten } else { r.pmovs };
            if there && present {
                shown |= flags & 1 << bit;
                let one = value & 1 << bit;
                match offset {
                    _ if !open || r.software_lock => {}
                    0xC00 => expected.pmcnten |= one,
                    0xC80 => expected.pmovs &= !one,
                    _ => expected.pmovs |= one,
                }
            }
        }
        let (read, written, kind) = match (present, open) {
            (true, false) => (Answer::Error, Answer::Error, 0),
            (true, true) => (Answer::Value(shown), Answer::Ok, 1),
            (false, _) => (Answer::Value(0), Answer::Ok, 2),
        };
        assert_eq!(machine.external_read(offset), read, "{machine:?}");
        assert_eq!(machine.external_write(offset, value), written, "{machine:?}");
        assert_eq!(machine, expected, "{offset:X} {value:X}");
        seen[kind] += 1;
    }
    assert!(seen.iter().all(|&count| count > 1000), "{seen:?}");
}
