//! MODEL N1 to N7, G15 and G16: accesses to PMSICR. The order of the page
//! written a second time as a list, under every setting of what it looks at;
//! what a permitted access reads and stores, reserved bits and the word at
//! 0x838; the words; and that level 0 can neither tell nor change the register
//! and the word.

use super::*;

const READ: u32 = 0xD538_9942;
const WRITE: u32 = 0xD518_9941;

/// Bits 63:56 and 31:0, and the latter alone.
const WITH_ERND: u64 = 0xFF00_0000_FFFF_FFFF;
const WITHOUT_ERND: u64 = 0x0000_0000_FFFF_FFFF;

/// MODEL N1 to N5: the order of Arm's page, FEAT_RME being missing, and what
/// goes ahead of it.
fn order(r: &Machine, read: bool) -> Outcome {
    let low = r.el == 1 && r.el2_enabled;
    let bit = if read { r.hdfgrtr_pmsicr } else { r.hdfgwtr_pmsicr };
    let open = r.nspb == if r.ns { 3 } else { 1 };
    let el3 = r.have_el3 && r.el <= 2 && !open;
    first(&[
        (!r.spe, UNDEFINED),
        (r.el == 0, UNDEFINED),
        (el3 && r.halted && r.sdd && r.el3_trap_priority, UNDEFINED),
        (low && r.fgt && (!r.have_el3 || r.fgten) && bit, (2, 2)),
        (low && r.tpms, (2, 8)),
        (el3, stop(r, 9)),
    ])
}

/// The fields of one bit that the access looks at; NSPB comes on top.
const BITS: [u8; 15] =
    [0x04, 0x0A, 0x0B, 0x10, 0x11, 0x12, 0x2A, 0x80, 0x81, 0x84, 0x85, 0x86, 0x87, 0x89, 0x8A];

/// A setting of these bits and of NSPB, with random values in the rest.
fn setting(rng: &mut Rng, number: u32) -> Machine {
    let mut machine = Machine::default();
    let mut random = rng.next();
    for field in (0x00..=0x3E).chain(0x80..=0x8A) {
        if Machine::largest(field) == Some(1) && field != 0x02 {
            machine.set(field, random & 1);
            random >>= 1;
        }
    }
    for (index, &field) in BITS.iter().enumerate() {
        machine.set(field, (number >> index & 1) as u64);
    }
    machine.nspb = (number >> BITS.len() & 3) as u8;
    (machine.pmuv3, machine.n, machine.hpmn) = (true, 2, 1);
    machine.have_el2 |= machine.el2_enabled;
    (machine.pmsicr, machine.nvmem_838) = (rng.next(), rng.next());
    machine
}

/// One access: what becomes of it, what it reads or stores, and that it changes
/// nothing else.
fn check(machine: &Machine, read: bool, operand: u64) -> Outcome {
    let mut after = machine.clone();
    let answer = after.access(if read { READ } else { WRITE }, operand);
    let got = outcome(answer);
    assert_eq!(got, order(machine, read), "read {read} {machine:?}");
    let bits = if machine.ernd { WITH_ERND } else { WITHOUT_ERND };
    let word = machine.el == 1 && machine.el2_enabled && machine.nv && machine.nv2;
    let mut expected = machine.clone();
    if got == PASSES && read {
        let value = if word { machine.nvmem_838 } else { machine.pmsicr & bits };
        assert_eq!(answer, Answer::Moved { value, rt: 2 }, "{machine:?}");
    } else if got == PASSES && word {
        expected.nvmem_838 = operand;
    } else if got == PASSES {
        expected.pmsicr = operand & bits;
    }
    assert_eq!(after, expected, "read {read}");
    got
}

/// Every setting at every level that the record can have.
#[test]
fn pmsicr_follows_the_page() {
    let mut rng = Rng::new(20, 21);
    let mut seen = BTreeMap::new();
    for number in 0..4 << BITS.len() {
        let mut machine = setting(&mut rng, number);
        for level in 0..=3 {
            machine.set_level(level);
            if machine.state_refusal().is_none() {
                for read in [true, false] {
                    let got = check(&machine, read, rng.next());
                    *seen.entry((read, level, got)).or_insert(0) += 1;
                }
            }
        }
    }
    let mut wanted = BTreeSet::new();
    for read in [true, false] {
        wanted.insert((read, 0, UNDEFINED));
        let traps: [&[Outcome]; 3] = [&[(2, 2), (2, 8), (3, 9)], &[(3, 9)], &[]];
        for (level, traps) in (1..=3).zip(traps) {
            let all = traps.iter().chain(&[PASSES, UNDEFINED]);
            wanted.extend(all.map(|&some| (read, level, some)));
        }
    }
    assert_eq!(seen.keys().copied().collect::<BTreeSet<_>>(), wanted);
    assert!(seen.values().all(|&count| count > 300), "{seen:?}");
}

/// The lines: everything closed at level 1, opened in the order of the page;
/// level 2, level 0, and without SPE.
#[test]
fn pmsicr_causes_are_printed() {
    let closed = "01 0A v:1 01 2A v:1 01 80 v:1 01 81 v:1 01 86 v:1 01 88 v:2 01 89 v:1
                  01 8C v:0x1200000000000034 02 01";
    let read = "03 42 99 38 D5 v:0";
    let open = ["01 89 v:0", "01 86 v:0", "01 88 v:1"];
    let text = format!("{closed} {read} {} {read}", open.join(&format!(" {read} ")));
    let expected =
        ["trap 2 62342453 2", "trap 2 62342453 8", "trap 3 62342453 9", "value 1200000000000034 2"];
    assert_eq!(answers_of(&text), expected);
    let write = "03 5F 99 18 D5 v:0";
    let rows = [
        (format!("{closed} 01 8A v:1 {write}"), "trap 2 623427F2 2"),
        (format!("{closed} {write}"), "trap 2 623427F2 8"),
        (format!("{closed} 02 02 {write}"), "trap 3 623427F2 9"),
        (format!("{closed} 02 02 01 11 v:1 01 12 v:1 {write}"), "undef"),
        (format!("{closed} 01 88 v:1 02 00 {read}"), "undef"),
        (format!("{closed} 01 80 v:0 02 03 {read}"), "undef"),
        (format!("{closed} 02 03 {read}"), "value 1200000000000034 2"),
    ];
    for (text, expected) in rows {
        assert_eq!(answers_of(&text), [expected], "{text}");
    }
}

/// One word alone for each direction and Rt, whatever its op1 and the rest.
#[test]
fn pmsicr_has_one_word() {
    let mut found = BTreeSet::new();
    for low in 0..1u32 << 20 {
        for high in [0xD500_0000, 0xD510_0000, 0xD520_0000, 0xD530_0000] {
            let word = high | low;
            if Move::decode(word).map_or(false, |m| m.register() == Some(Register::Pmsicr)) {
                found.insert(word);
            }
        }
    }
    let wanted = (0..32).flat_map(|rt| [READ & !31 | rt, WRITE & !31 | rt]);
    assert_eq!(found, wanted.collect());
}

/// What is stored and read under each ERnd, by set and by MSR.
#[test]
fn reserved_bits_of_pmsicr() {
    let all = 0xFFFF_FFFF_FFFF_FFFF;
    let store = "01 8C v:0xFFFFFFFFFFFFFFFF";
    let write = "03 41 99 18 D5 v:0xFFFFFFFFFFFFFFFF";
    let (off, on) = ("01 81 v:0", "01 81 v:1");
    let rows = [
        (format!("{off} {store} {off}"), all & WITHOUT_ERND),
        (format!("{off} {store} {on}"), all & WITH_ERND),
        (format!("{on} {store} {off}"), all & WITHOUT_ERND),
        (format!("{on} {store} {on}"), all & WITH_ERND),
        (format!("{off} {write} {off}"), all & WITHOUT_ERND),
        (format!("{off} {write} {on}"), all & WITHOUT_ERND),
        (format!("{on} {write} {off}"), all & WITHOUT_ERND),
        (format!("{on} {write} {on}"), all & WITH_ERND),
        (format!("{on} {store} {off} {write} {on}"), all & WITHOUT_ERND),
        (format!("{off} {store} 03 5F 99 18 D5 v:7 {on}"), 0),
    ];
    for (text, value) in rows {
        let expected = [format!("value {value:016X} 2")];
        let text = format!("01 80 v:1 02 02 {text} 03 42 99 38 D5 v:0");
        assert_eq!(answers_of(&text), expected, "{text}");
    }
    let mut machine = Machine { spe: true, pmsicr: u64::MAX, ..Machine::default() };
    machine.set_level(1);
    assert_eq!(machine.access(WRITE, u64::MAX), Answer::Ok);
    assert_eq!(machine.pmsicr, WITHOUT_ERND);
}

/// The word at 0x838 takes and shows all bits, whatever ERnd is, and only at
/// level 1 with EL2 enabled and both NV and NV2.
#[test]
fn word_in_place_of_pmsicr() {
    let start = "01 80 v:1 01 8C v:0x55 01 8D v:0xFFEEDDCCBBAA9988 02 01";
    let read = "03 42 99 38 D5 v:0";
    let write = "03 41 99 18 D5 v:0x8877665544332211";
    let (word, register) = ("FFEEDDCCBBAA9988", "0000000000000055");
    let rows = [
        ("01 84 v:1 01 85 v:1", word),
        ("01 84 v:1 01 85 v:1 01 81 v:1", word),
        ("01 84 v:1", register),
        ("01 85 v:1", register),
        ("01 84 v:1 01 85 v:1 01 10 v:0", register),
        ("01 84 v:1 01 85 v:1 02 02", register),
        ("01 84 v:1 01 85 v:1 01 0A v:1 02 03", register),
    ];
    for (more, value) in rows {
        let stored = if value == word { "8877665544332211" } else { "0000000044332211" };
        let text = format!("{start} {more} {read} {write} 01 81 v:0 {read}");
        let expected = [format!("value {value} 2"), format!("value {stored} 2")];
        assert_eq!(answers_of(&text), expected, "{more}");
    }
}

/// Two machines that differ in the register and in the word alone: no access at
/// level 0 tells them apart or changes either.
#[test]
fn level_0_cannot_tell() {
    let mut rng = Rng::new(22, 23);
    for _ in 0..100_000 {
        let mut machine = random_machine(&mut rng);
        machine.set_level(0);
        machine.spe |= rng.chance(80);
        let mut other = machine.clone();
        (other.pmsicr, other.nvmem_838) = (rng.next(), rng.next());
        let ours = [READ, WRITE, 0xD51B_9C81, 0xD53B_9402, 0xD51B_9401, 0xD53B_E802, 0xD51B_E801];
        let any = rng.next() as u32;
        let word = if rng.chance(80) { ours[rng.below(7) as usize] } else { any };
        let operand = rng.next();
        let (held, others) = ((machine.pmsicr, machine.nvmem_838), (other.pmsicr, other.nvmem_838));
        assert_eq!(machine.access(word, operand), other.access(word, operand), "{word:08X}");
        assert_eq!((machine.pmsicr, machine.nvmem_838), held);
        assert_eq!((other.pmsicr, other.nvmem_838), others);
        (other.pmsicr, other.nvmem_838) = held;
        assert_eq!(machine, other);
    }
}

/// The orders of the other registers do not look at any field from 80 to 8D.
#[test]
fn other_registers_do_not_ask() {
    let mut rng = Rng::new(24, 25);
    for _ in 0..50_000 {
        let machine = random_machine(&mut rng);
        let mut changed = machine.clone();
        for field in 0x80..=0x8D {
            let largest = Machine::largest(field).expect("field");
            let value = if largest == u64::MAX { rng.next() } else { rng.below(largest + 1) };
            changed.set(field, value);
        }
        let words = [0xD53B_9402, 0xD51B_9401, 0xD51B_9C81, 0xD53B_E802, 0xD51B_E801, 0xD53B_9942];
        let word = words[rng.below(6) as usize];
        let operand = rng.next();
        let answers = (machine.clone().access(word, operand), changed.access(word, operand));
        assert_eq!(answers.0, answers.1, "{word:08X} {machine:?}");
        assert_eq!(machine.clone().tick(0), changed.tick(0));
        assert_eq!(machine.external_read(0xC00), changed.external_read(0xC00));
    }
}

/// Random sessions read and write the register and the word, at every level
/// that may.
#[test]
fn generated_sessions_reach_pmsicr() {
    let mut seen = BTreeMap::new();
    for index in 0..3000 {
        let mut machine = Machine::default();
        let mut earlier = Earlier::default();
        for command in commands(&generate::session(26, index)) {
            let before = machine.clone();
            let answer = obey(&mut machine, &mut earlier, command);
            if let Command::Access { word, .. } = command {
                let passes = matches!(answer, Answer::Ok | Answer::Moved { .. });
                if word & !(1 << 21 | 31) == WRITE & !31 && passes {
                    let nv = (before.el2_enabled, before.nv, before.nv2);
                    *seen.entry((word >> 21 & 1, before.el, nv)).or_insert(0) += 1;
                }
            }
        }
    }
    // Level 2 is there with EL2 enabled alone.
    assert_eq!(seen.len(), 2 * (8 + 4 + 8), "{seen:?}");
    assert!(seen.values().all(|&count| count > 30), "{seen:?}");
}
