//! MODEL D0 to D13: the causes of traps. Under every setting of the controls
//! that an order of traps looks at, the first control that is closed is named,
//! and to open it alone is enough to be rid of the cause; the line ends with
//! its number; and random sessions meet each of them.

use super::*;

/// A cause and the ways to open its control, each of them enough alone: the value
/// of a field under which the control stops no access of this register and
/// direction, whatever the rest of the record is.
type Control = (u8, &'static [(u8, u64)]);

/// An access, all the controls that can stop it in the order in which the page
/// asks for them, and the fields of one bit that this order looks at.
type Ordered = (u32, &'static [Control], &'static [u8]);

// What is open. 1: EN 1 lets all three accesses through; ER 1 does so for the read
// of a counter and SW 1 for PMSWINC. 2: the bit of the register and direction, 0
// for PMEVCNTR and PMSWINC, but 1 for PMICNTR, whose bits say "not". 3 and 5: TPM
// 0. 4: HPMN above the number of the counter, which is 3: the next one, or N,
// which is 6. 6: EnPM2 1. 7: FGTEn2 1.
const ORDERED: [Ordered; 5] = [
    (
        0xD53B_E862,
        &[
            (1, &[(0x20, 1), (0x22, 1)]),
            (2, &[(0x2C, 0)]),
            (3, &[(0x26, 0)]),
            (4, &[(0x27, 4), (0x27, 6)]),
            (5, &[(0x28, 0)]),
        ],
        &COUNTER_BITS,
    ),
    (
        0xD51B_E862,
        &[
            (1, &[(0x20, 1)]),
            (2, &[(0x2D, 0)]),
            (3, &[(0x26, 0)]),
            (4, &[(0x27, 4), (0x27, 6)]),
            (5, &[(0x28, 0)]),
        ],
        &COUNTER_BITS,
    ),
    (
        0xD51B_9C81,
        &[(1, &[(0x20, 1), (0x21, 1)]), (2, &[(0x2E, 0)]), (3, &[(0x26, 0)]), (5, &[(0x28, 0)])],
        &COUNTER_BITS,
    ),
    (
        0xD53B_9402,
        &[
            (7, &[(0x2B, 1)]),
            (2, &[(0x2F, 1)]),
            (3, &[(0x26, 0)]),
            (6, &[(0x29, 1)]),
            (5, &[(0x28, 0)]),
        ],
        &PMICNTR_BITS,
    ),
    (
        0xD51B_9401,
        &[
            (7, &[(0x2B, 1)]),
            (2, &[(0x30, 1)]),
            (3, &[(0x26, 0)]),
            (6, &[(0x29, 1)]),
            (5, &[(0x28, 0)]),
        ],
        &PMICNTR_BITS,
    ),
];

/// FGT, EL3 and its trap priority, EL2 enabled, Halted, SDD, EN, SW, ER, E2H,
/// TGE, both TPM, FGTEn and the fine-grained bits of PMEVCNTR and PMSWINC.
const COUNTER_BITS: [u8; 17] = [
    0x04, 0x0A, 0x0B, 0x10, 0x11, 0x12, 0x20, 0x21, 0x22, 0x24, 0x25, 0x26, 0x28, 0x2A, 0x2C, 0x2D,
    0x2E,
];

/// FGT2, EL3 and its trap priority, EL2 enabled, Halted, SDD, E2H, TGE, both TPM,
/// EnPM2, FGTEn2 and the bits of nPMICNTR.
const PMICNTR_BITS: [u8; 14] =
    [0x05, 0x0A, 0x0B, 0x10, 0x11, 0x12, 0x24, 0x25, 0x26, 0x28, 0x29, 0x2B, 0x2F, 0x30];

/// The same record with one field changed.
fn with(machine: &Machine, field: u8, value: u64) -> Machine {
    let mut changed = machine.clone();
    changed.set(field, value);
    changed
}

/// The causes whose control would stop the access, were it alone: with those of
/// all other causes open the access does not pass. In the order of the controls.
fn alone(machine: &Machine, word: u32, controls: &[Control]) -> Vec<u8> {
    let mut list = Vec::new();
    for &(cause, _) in controls {
        let mut changed = machine.clone();
        for &(_, ways) in controls.iter().filter(|(other, _)| *other != cause) {
            let (field, value) = ways[0];
            changed.set(field, value);
        }
        let got = outcome(changed.access(word, 0));
        assert!([0, cause].contains(&got.1), "{word:08X} {cause} {changed:?}");
        if got != PASSES {
            list.push(cause);
        }
    }
    list
}

/// Which answer the first of the controls that would stop an access leads to, and
/// in Debug state those of EL3 ahead of it.
fn expected(r: &Machine, stopping: &[u8]) -> Outcome {
    let el3 = |cause: u8| cause == 5 || cause == 6;
    let debug = r.halted && r.sdd;
    match stopping.first() {
        None => PASSES,
        _ if debug && r.el3_trap_priority && stopping.iter().any(|&cause| el3(cause)) => UNDEFINED,
        Some(&cause) if el3(cause) => stop(r, cause),
        Some(1) if !(r.el2_enabled && r.tge) => (1, 1),
        Some(&cause) => (2, cause),
    }
}

/// One access: the first control that would stop it is named. Where it traps,
/// each way to open this control is enough to be rid of the cause, and to open
/// any other one changes nothing.
fn check_cause(machine: &Machine, word: u32, controls: &[Control]) -> Outcome {
    let got = outcome(machine.clone().access(word, 0));
    let stopping = alone(machine, word, controls);
    assert_eq!(got, expected(machine, &stopping), "{word:08X} {stopping:?} {machine:?}");
    if got.1 == 0 {
        return got;
    }
    for &(cause, ways) in controls {
        for &(field, value) in ways {
            let opened = outcome(with(machine, field, value).access(word, 0));
            let wrong = if cause == got.1 { opened.1 == cause } else { opened != got };
            assert!(!wrong, "{word:08X} {got:?} {opened:?} {field:02X} {machine:?}");
        }
    }
    got
}

/// Six counters, HPMN 3 or 4, and a random value in the fields of one bit that an
/// order of traps does not look at; EL2 can be missing where it is not enabled.
fn setting(rng: &mut Rng, bits: &[u8], number: u32) -> Machine {
    let mut machine = Machine::default();
    let mut random = rng.next();
    for field in (0x00..=0x3E).chain(0x80..=0x8A) {
        if Machine::largest(field) == Some(1) && field != 0x02 {
            machine.set(field, random & 1);
            random >>= 1;
        }
    }
    for (field, value) in [(0x00, 1), (0x03, 1), (0x0C, 6)] {
        machine.set(field, value);
    }
    for (index, &field) in bits.iter().enumerate() {
        machine.set(field, (number >> index & 1) as u64);
    }
    machine.set(0x27, 3 + (number >> bits.len() & 1) as u64);
    machine.have_el2 |= machine.el2_enabled;
    machine
}

/// Every setting of the bits that the orders of traps look at, HPMN at the
/// counter or above it, at every level that the record can have.
#[test]
fn the_cause_is_the_first_control_that_is_closed() {
    let mut rng = Rng::new(16, 17);
    let mut seen = BTreeSet::new();
    for bits in [&COUNTER_BITS[..], &PMICNTR_BITS] {
        for number in 0..2 << bits.len() {
            let mut machine = setting(&mut rng, bits, number);
            for level in 0..=3 {
                machine.set_level(level);
                if machine.state_refusal().is_some() {
                    continue;
                }
                for (word, controls, _) in ORDERED.iter().filter(|row| row.2 == bits) {
                    let (target, cause) = check_cause(&machine, *word, controls);
                    if cause != 0 {
                        seen.insert((*word, cause, level, target));
                    }
                }
            }
        }
    }
    let mut wanted = BTreeSet::new();
    for (word, controls, _) in ORDERED {
        for &(cause, _) in controls {
            let places: &[(u8, u8)] = match cause {
                1 => &[(0, 1), (0, 2)],
                5 | 6 => &[(0, 3), (1, 3), (2, 3)],
                _ => &[(0, 2), (1, 2)],
            };
            wanted.extend(places.iter().map(|&(level, target)| (word, cause, level, target)));
        }
    }
    assert_eq!(seen, wanted);
}

/// The bits of PMUSERENR that open nothing: UEN and IR never do, ER not for a
/// write, SW not for a counter.
#[test]
fn other_bits_of_pmuserenr_leave_the_cause() {
    let rows: [(&str, &[&str]); 3] = [
        ("03 62 E8 3B D5 v:0", &["01 21 v:1", "01 23 v:1", "01 31 v:1"]),
        ("03 62 E8 1B D5 v:0", &["01 21 v:1", "01 22 v:1", "01 23 v:1", "01 31 v:1"]),
        ("03 81 9C 1B D5 v:0", &["01 22 v:1", "01 23 v:1", "01 31 v:1"]),
    ];
    for (access, bits) in rows {
        for text in bits.iter().map(|bit| bit.to_string()).chain([bits.join(" ")]) {
            let answers = answers_of(&format!("01 20 v:0 01 32 v:0x7FFFFFFF {text} {access}"));
            assert_eq!(answers.len(), 1, "{text}");
            assert!(answers[0].starts_with("trap 1 62"), "{text}: {}", answers[0]);
            assert!(answers[0].ends_with(" 1"), "{text}: {}", answers[0]);
        }
    }
}

/// A line ends with the cause, in decimal, behind the syndrome: a page that is
/// stopped by everything at once, its controls opened in the order of the causes.
#[test]
fn causes_are_printed() {
    let closed = "01 0A v:1 01 03 v:1 01 05 v:1 01 20 v:0 01 26 v:1 01 27 v:1 01 28 v:1 01 2A v:1
                01 2C v:1";
    let read = "03 62 E8 3B D5 v:0";
    let open = ["01 20 v:1", "01 2C v:0", "01 26 v:0", "01 27 v:4", "01 28 v:0"];
    let text = format!("{closed} {read} {} {read}", open.join(&format!(" {read} ")));
    let expected = [
        "trap 1 6236F851 1",
        "trap 2 6236F851 2",
        "trap 2 6236F851 3",
        "trap 2 6236F851 4",
        "trap 3 6236F851 5",
        "value 0000000000000000 2",
    ];
    assert_eq!(answers_of(&text), expected);
    let read = "03 02 94 3B D5 v:0";
    let open = ["01 2B v:1", "01 2F v:1", "01 26 v:0", "01 29 v:1", "01 28 v:0"];
    let text = format!("{closed} {read} {} {read}", open.join(&format!(" {read} ")));
    let expected = [
        "trap 2 6230E449 7",
        "trap 2 6230E449 2",
        "trap 2 6230E449 3",
        "trap 3 6230E449 6",
        "trap 3 6230E449 5",
        "value 0000000000000000 2",
    ];
    assert_eq!(answers_of(&text), expected);
}

/// The traps of a session: the register, whether it is read, level and cause.
fn traps(bytes: &[u8]) -> BTreeSet<(&'static str, bool, u8, u8)> {
    let mut machine = Machine::default();
    let mut earlier = Earlier::default();
    let mut list = BTreeSet::new();
    for command in commands(bytes) {
        let level = machine.el;
        let answer = obey(&mut machine, &mut earlier, command);
        if let (Command::Access { word, .. }, Answer::Trap { cause, .. }) = (command, answer) {
            let found = Move::decode(word).expect("move");
            let name = match found.register() {
                Some(Register::Pmevcntr(_)) => "PMEVCNTR",
                Some(Register::Pmswinc) => "PMSWINC",
                Some(Register::Pmsicr) => "PMSICR",
                _ => "PMICNTR",
            };
            list.insert((name, found.read, level, cause.number()));
        }
    }
    list
}

/// One random session in a hundred or more has each cause for each register,
/// direction and level.
#[test]
fn generated_sessions_meet_every_cause() {
    let mut seen = BTreeMap::new();
    for index in 0..3000 {
        for trap in traps(&generate::session(18, index)) {
            *seen.entry(trap).or_insert(0) += 1;
        }
    }
    assert_eq!(seen.len(), 10 + 10 + 8 + 12 + 12 + 4 + 4, "{seen:?}");
    assert!(seen.values().all(|&count| count > 30), "{seen:?}");
}
