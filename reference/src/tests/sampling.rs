//! MODEL J4 to J9: members of the sample population and the start of profiling.
//! Rows of single members; random registers against the counters as plain
//! numbers; the set of the profiling field; what is refused; and that random
//! sessions sample.

use super::reading::is_run;
use super::*;

/// A machine that profiles, at level 3, where the register can be read.
const PROFILING: &str = "01 0A v:1 01 80 v:1 01 83 v:1 02 03 ";

/// Runs commands after that start: all answers but those of set and level.
fn lines(text: &str) -> Vec<String> {
    let bytes = assemble(&format!("{PROFILING}{text} 00")).expect("notation");
    let shows = |command: Command| {
        !matches!(command, Command::Set { .. } | Command::Level(_) | Command::End)
    };
    let list = answered(&bytes).into_iter().filter(|(command, _)| shows(*command));
    list.map(|(_, answer)| answer).collect()
}

/// One member: ERnd, RND, register, reload, draw; then whether it is selected,
/// and the register with ERnd 1.
type Row = (u8, u8, u64, u64, u8, bool, u64);

const ROWS: [Row; 27] = [
    // Nothing to count.
    (0, 0, 0, 5, 0, false, 0),
    (1, 1, 0, 5, 0, false, 0),
    // The primary counter alone.
    (0, 0, 3, 5, 0, false, 2),
    (0, 0, 1, 5, 9, true, 5),
    (0, 0, 1, 0, 9, true, 0),
    (0, 0, 1, 1, 9, true, 1),
    (0, 0, 1, 0xFFFF_FFFF, 9, true, 0xFFFF_FFFF),
    (0, 0, 0xFFFF_FFFF, 5, 0, false, 0xFFFF_FFFE),
    // RND needs ERnd, and ERnd RND.
    (0, 1, 1, 5, 9, true, 5),
    (1, 0, 1, 5, 9, true, 5),
    (1, 1, 1, 5, 9, false, 0x0900_0000_0000_0005),
    (1, 1, 1, 5, 255, false, 0xFF00_0000_0000_0005),
    (1, 1, 1, 5, 0, true, 5),
    (1, 1, 1, 0, 1, false, 0x0100_0000_0000_0000),
    // The secondary counter alone.
    (1, 0, 0x0200_0000_0000_0000, 5, 0, false, 0x0100_0000_0000_0000),
    (1, 0, 0x0100_0000_0000_0000, 5, 0, true, 0),
    (1, 1, 0x0100_0000_0000_0000, 5, 7, true, 0),
    // Both, the primary one with more left or less.
    (1, 1, 0x0300_0000_0000_0003, 5, 0, false, 0x0200_0000_0000_0002),
    (1, 1, 0x0100_0000_0000_0002, 5, 7, true, 1),
    (1, 0, 0x0200_0000_0000_0001, 5, 7, true, 0x0100_0000_0000_0005),
    // Both reach 0, or a draw comes over a secondary counter that is not 0.
    (1, 0, 0x0100_0000_0000_0001, 5, 7, true, 5),
    (1, 1, 0x0100_0000_0000_0001, 5, 7, true, 0x0700_0000_0000_0005),
    (1, 1, 0x0100_0000_0000_0001, 5, 0, true, 5),
    (1, 1, 0x0900_0000_0000_0001, 5, 7, false, 0x0700_0000_0000_0005),
    (1, 1, 0x0900_0000_0000_0001, 5, 0, true, 5),
    // Reserved bits do not count; those above stay.
    (0, 1, 0x01FF_FFFF_0000_0000, 5, 0, false, 0x0100_0000_0000_0000),
    (0, 1, 0x01FF_FFFF_0000_0001, 5, 7, true, 0x0100_0000_0000_0005),
];

#[test]
fn one_member() {
    for (ernd, rnd, register, reload, draw, selected, after) in ROWS {
        let text = format!(
            "01 81 v:{ernd} 01 82 v:{rnd} 01 8B v:{reload} 01 8C v:{register} 08 {draw:02X}
             01 81 v:1 03 42 99 38 D5 v:0"
        );
        let answer = if selected { "sampled" } else { "ok" };
        let expected = [answer.to_string(), format!("value {after:016X} 2")];
        assert_eq!(lines(&text), expected, "{text}");
    }
}

/// With profiling off or without SPE nothing changes, and the record is tested.
#[test]
fn members_that_change_nothing() {
    let start = "01 81 v:1 01 8C v:0x100000000000001 01 8B v:5";
    let read = "01 80 v:1 03 42 99 38 D5 v:0";
    for more in ["01 83 v:0", "01 80 v:0", "01 80 v:0 01 83 v:0"] {
        let expected = ["ok", "value 0100000000000001 2"];
        assert_eq!(lines(&format!("{start} {more} 08 00 {read}")), expected, "{more}");
    }
    let broken = [
        ("01 0A v:0", "01 0A v:1", 11),
        ("01 10 v:1", "01 10 v:0", 12),
        ("01 09 v:1 01 27 v:1", "01 09 v:0", 13),
        ("01 09 v:1", "01 09 v:0", 14),
        ("01 7E v:0x100000000", "01 7E v:0", 15),
        ("01 09 v:1 01 06 v:1 01 10 v:1 01 25 v:1 02 01", "01 25 v:0 02 03", 16),
        ("01 01 v:1", "01 01 v:0", 17),
    ];
    for (broken, mended, number) in broken {
        let expected = [format!("refused {number}"), "value 0100000000000001 2".to_string()];
        assert_eq!(lines(&format!("{start} {broken} 08 00 {mended} {read}")), expected);
    }
}

/// Members against the two counters as plain numbers. Whatever else is in the
/// record stays, and does not matter.
#[test]
fn members_agree_with_numbers() {
    let mut rng = Rng::new(30, 31);
    let mut seen = BTreeMap::new();
    for _ in 0..100_000 {
        let mut machine = random_machine(&mut rng);
        machine.spe |= rng.chance(80);
        machine.profiling |= rng.chance(80);
        let (secondary, primary) = (rng.below(4) % 3, rng.below(4) % 3);
        machine.pmsicr = secondary << 56 | (rng.next() & 0xFF_FFFF) << 32 | primary;
        let draw = rng.below(3) as u8;
        let counted = machine.spe && machine.profiling;
        let random = machine.rnd && machine.ernd;
        let ends = counted && primary == 1;
        let last = counted && machine.ernd && secondary == 1;
        let mut left = [secondary, primary];
        if counted {
            left = [secondary.saturating_sub(machine.ernd as u64), primary.saturating_sub(1)];
        }
        if ends {
            left[1] = machine.reload as u64;
        }
        if ends && random {
            left[0] = draw as u64;
        }
        let mut expected = machine.clone();
        expected.pmsicr = left[0] << 56 | machine.pmsicr & 0x00FF_FFFF_0000_0000 | left[1];
        let selected = last || ends && (!random || draw == 0);
        let answer = if selected { Answer::Sampled } else { Answer::Ok };
        let before = machine.clone();
        assert_eq!(machine.member(draw), answer, "{draw} {before:?}");
        assert_eq!(machine, expected, "{draw} {before:?}");
        *seen.entry((counted, random, last, ends, selected)).or_insert(0) += 1;
    }
    assert!(seen.len() >= 10 && seen.values().all(|&count| count > 300), "{seen:?}");
}

/// An interval after the other: each fourth member, without ERnd; with it each
/// draw members later.
#[test]
fn intervals() {
    let sampled = |text: &str| -> Vec<usize> {
        let list = lines(text).into_iter().enumerate();
        list.filter(|(_, line)| line == "sampled").map(|(index, _)| index + 1).collect()
    };
    let start = "01 83 v:0 01 8B v:4 01 83 v:1 ";
    assert_eq!(sampled(&format!("{start}{}", "08 02 ".repeat(13))), [4, 8, 12]);
    let random = "01 81 v:1 01 82 v:1 ";
    assert_eq!(sampled(&format!("{random}{start}{}", "08 02 ".repeat(13))), [6, 10]);
    assert_eq!(sampled(&format!("{random}{start}{}", "08 00 ".repeat(13))), [4, 8, 12]);
    assert_eq!(sampled(&format!("{random}{start}{}", "08 04 ".repeat(13))), [8, 12]);
    assert_eq!(sampled(&format!("{random}{start}{}", "08 05 ".repeat(13))), []);
}

/// The set of the profiling field: what comes before it, with the reload field
/// 7, and the register with ERnd 1.
#[test]
fn profiling_starts() {
    let rows: [(&str, u64); 18] = [
        ("01 83 v:0 01 83 v:1", 7),
        ("01 83 v:0 01 83 v:0", 0),
        ("01 83 v:1", 0),
        ("01 83 v:1 01 83 v:0", 0),
        ("01 83 v:0 01 83 v:2", 0),
        ("01 83 v:0 01 80 v:0 01 83 v:1", 0),
        ("01 83 v:0 01 80 v:0 01 83 v:1 01 80 v:1 01 83 v:1", 0),
        ("01 83 v:0 01 80 v:0 01 83 v:1 01 83 v:0 01 80 v:1 01 83 v:1", 7),
        ("01 83 v:0 01 8C v:1 01 83 v:1", 1),
        ("01 83 v:0 01 8C v:0x80000000 01 83 v:1", 0x8000_0000),
        ("01 83 v:0 01 8C v:0x00FFFFFF00000000 01 83 v:1", 7),
        ("01 83 v:0 01 8C v:0x0300000000000000 01 83 v:1", 0x0300_0000_0000_0007),
        ("01 81 v:1 01 83 v:0 01 8C v:0x0300000000000000 01 83 v:1", 0x0300_0000_0000_0000),
        ("01 81 v:1 01 83 v:0 01 8C v:0x00FFFFFF00000000 01 83 v:1", 7),
        ("01 83 v:0 01 0A v:0 01 83 v:1 01 0A v:1", 7),
        ("01 83 v:0 02 00 01 83 v:1 02 03", 7),
        ("01 83 v:0 01 8B v:0 01 83 v:1", 0),
        ("01 83 v:0 01 83 v:1 01 8B v:9", 7),
    ];
    for (text, register) in rows {
        let text = format!("01 8B v:7 {text} 01 80 v:1 01 81 v:1 03 42 99 38 D5 v:0");
        assert_eq!(lines(&text), [format!("value {register:016X} 2")], "{text}");
    }
}

/// A reload leaves the reserved bits that a set has stored.
#[test]
fn a_reload_is_of_the_primary_counter_alone() {
    let upper = 0xABCD_EF01_0000_0000;
    let mut machine = Machine { spe: true, reload: 3, pmsicr: upper, ..Machine::default() };
    assert_eq!(machine.set(0x83, 1), Answer::Ok);
    assert_eq!(machine.pmsicr, upper | 3);
    for (answer, primary) in [(Answer::Ok, 2), (Answer::Ok, 1), (Answer::Sampled, 3)] {
        assert_eq!(machine.member(0), answer);
        assert_eq!(machine.pmsicr, upper | primary);
    }
}

/// Fields 80 to 8D, their largest values, and the numbers beside them.
#[test]
fn fields_of_sampling() {
    let any = u64::MAX;
    let largest = [1, 1, 1, 1, 1, 1, 1, 1, 3, 1, 1, 0xFFFF_FFFF, any, any];
    for (field, largest) in (0x80..=0x8D).zip(largest) {
        let mut machine = Machine::default();
        assert_eq!(Machine::largest(field), Some(largest), "{field:02X}");
        assert_eq!(machine.set(field, largest), Answer::Ok, "{field:02X}");
        let before = machine.clone();
        assert_ne!(before, Machine::default(), "{field:02X}");
        if largest < any {
            for refused in [largest + 1, largest + 2, 1 << 32, any] {
                assert_eq!(machine.set(field, refused), Answer::Refused(4), "{field:02X}");
            }
        }
        assert_eq!(machine, before);
        assert_eq!(machine.set(field, 0), Answer::Ok);
        assert_eq!(machine, Machine::default(), "{field:02X}");
    }
    for field in [0x3F, 0x5F, 0x8E, 0x8F, 0x90, 0xFF] {
        assert_eq!(Machine::default().set(field, 0), Answer::Refused(3), "{field:02X}");
        assert_eq!(Machine::default().set(field, any), Answer::Refused(3), "{field:02X}");
    }
    let set = |field, value| {
        let mut machine = Machine::default();
        machine.set(field, value);
        machine
    };
    let fresh = Machine::default;
    assert_eq!(set(0x84, 1), Machine { nv: true, ..fresh() });
    assert_eq!(set(0x85, 1), Machine { nv2: true, ..fresh() });
    assert_eq!(set(0x88, 2), Machine { nspb: 2, ..fresh() });
    assert_eq!(set(0x8B, 9), Machine { reload: 9, ..fresh() });
    assert_eq!(set(0x8C, any), Machine { pmsicr: any, ..fresh() });
    assert_eq!(set(0x8D, any), Machine { nvmem_838: any, ..fresh() });
}

/// Command 08 in bytes: its draw, its end, and the notation.
#[test]
fn members_in_sessions() {
    assert_eq!(run(&[8, 0, 0]), "1 ok\n2 end\n");
    assert_eq!(run(&[8, 255, 8, 0]), "1 ok\n2 ok\n3 refused 2\n");
    assert_eq!(run(&[8]), "1 refused 2\n");
    assert_eq!(run(&[9, 0]), "1 refused 1\n");
    assert_eq!(run(&[2, 3, 8]), "1 ok\n2 refused 2\n");
    assert_eq!(run(&[2, 3, 8, 0]), "1 ok\n2 refused 11\n3 refused 2\n");
    assert_eq!(disassemble(&[8, 9, 8]), "08 09  # member, draw 9\n08  # cut off\n");
    let words = "03 42 99 38 D5 v:0 03 5F 99 18 D5 v:1 03 42 99 3B D5 v:0";
    let expected = "03 42 99 38 D5 v:0  # access D5389942, MRS X2, PMSICR_EL1
03 5F 99 18 D5 v:1  # access D518995F, MSR PMSICR_EL1, XZR
03 42 99 3B D5 v:0  # access D53B9942
";
    assert_eq!(disassemble(&assemble(words).expect("notation")), expected);
}

/// What a member meets: ERnd, RND, each counter 0, 1 or more, and whether the
/// draw is 0.
type Met = (bool, bool, u64, u64, bool);

/// The members of a session that count.
fn met(bytes: &[u8]) -> Vec<Met> {
    let mut machine = Machine::default();
    let mut earlier = Earlier::default();
    let mut list = Vec::new();
    for command in commands(bytes) {
        let r = machine.clone();
        let refused = matches!(obey(&mut machine, &mut earlier, command), Answer::Refused(_));
        if let Command::Member { draw } = command {
            if r.spe && r.profiling && !refused {
                let (secondary, primary) = (r.pmsicr >> 56, r.pmsicr & 0xFFFF_FFFF);
                list.push((r.ernd, r.rnd, secondary.min(2), primary.min(2), draw == 0));
            }
        }
    }
    list
}

/// Random sessions have members in every situation, and profiling that starts.
#[test]
fn generated_sessions_sample() {
    let mut seen = BTreeMap::new();
    let mut lines = BTreeMap::new();
    for index in 0..3000 {
        let bytes = generate::session(32, index);
        for situation in met(&bytes) {
            *seen.entry(situation).or_insert(0) += 1;
        }
        if is_run(&bytes) {
            let found = run(&bytes).contains(" sampled\n");
            *lines.entry(found).or_insert(0) += 1;
        }
    }
    assert_eq!(seen.len(), 2 * 2 * 3 * 3 * 2, "{seen:?}");
    assert!(seen.values().all(|&count| count > 10), "{seen:?}");
    assert!(lines[&true] > 1000 && lines[&false] > 300, "{lines:?}");
}

/// Random sessions start profiling over each kind of register, with SPE or
/// without it.
#[test]
fn generated_sessions_start_profiling() {
    let mut seen = BTreeMap::new();
    for index in 0..3000 {
        let mut machine = Machine::default();
        let mut earlier = Earlier::default();
        for command in commands(&generate::session(34, index)) {
            let r = machine.clone();
            obey(&mut machine, &mut earlier, command);
            if let Command::Set { field: 0x83, value: 1 } = command {
                let parts = [r.pmsicr >> 56, r.pmsicr >> 32 & 0xFF_FFFF, r.pmsicr & 0xFFFF_FFFF];
                let ones = parts.map(|part| part != 0);
                *seen.entry((r.profiling, r.spe, r.ernd, ones)).or_insert(0) += 1;
            }
        }
    }
    let starts = seen.iter().filter(|((profiling, _, _, _), _)| !profiling);
    let counts: Vec<u32> = starts.map(|(_, &count)| count).collect();
    assert_eq!(counts.len(), 2 * 2 * 8, "{seen:?}");
    assert!(counts.iter().all(|&count| count > 10), "{seen:?}");
}
