//! What the directed sessions reach: every answer, every refusal that a session
//! can reach, every target and every cause of a trap, every register in both
//! directions, every overflow flag, every way to switch a counter off. What is
//! of PMSICR alone has a file of its own, and so have steps back and the short form.

mod back;
mod sampling;
mod short;

use super::fields::{ALL_PMOVS, LEVEL, PMOVS};
use super::script::{PMCNTENSET, PMOVSCLR, PMOVSSET};
use super::{all, Session};
use crate::back::Earlier;
use crate::model::{Answer, Machine, Move, Register};
use crate::session::{obey, words, Command, LIMIT};
use crate::tests::reading::{self, is_run};
use std::collections::BTreeSet;

/// The answers of a session, without their positions.
fn answers(session: &Session) -> Vec<String> {
    reading::answers(&session.bytes)
}

/// The commands that a session obeys. There is none if it is too long.
fn commands(session: &Session) -> Vec<Command> {
    reading::commands(&session.bytes)
}

/// The commands that all sessions obey, with their answers.
fn all_answered() -> Vec<(Command, String)> {
    all().iter().flat_map(|session| reading::answered(&session.bytes)).collect()
}

/// The register and direction of an access.
fn target(command: Command) -> Option<(&'static str, bool)> {
    let word = match command {
        Command::Access { word, .. } => word,
        _ => return None,
    };
    let found = Move::decode(word)?;
    let name = match found.register()? {
        Register::Pmevcntr(_) => "PMEVCNTR",
        Register::Pmswinc => "PMSWINC",
        Register::Pmicntr => "PMICNTR",
        Register::Pmsicr => "PMSICR",
    };
    Some((name, found.read))
}

/// An answer without what differs from case to case: traps keep the level,
/// refusals the number.
fn kind(answer: &str) -> String {
    let mut words = answer.split(' ');
    let first = words.next().unwrap_or("");
    match (first, words.next()) {
        ("trap", Some(level)) | ("refused", Some(level)) => format!("{first} {level}"),
        _ => first.to_string(),
    }
}

#[test]
fn names_are_plain_and_different() {
    let list = all();
    let names: BTreeSet<&str> = list.iter().map(|session| session.name.as_str()).collect();
    assert_eq!(names.len(), list.len());
    for session in &list {
        let plain = |c: char| c.is_ascii_lowercase() || c.is_ascii_digit() || c == '-';
        assert!(session.name.chars().all(plain), "{}", session.name);
        assert!(session.name.len() + ".bin".len() <= 60, "{}", session.name);
        assert!(session.bytes.len() <= LIMIT + 2, "{}", session.name);
        let run = is_run(&session.bytes);
        assert!(run || session.name.contains("refusal-6-"), "{}", session.name);
    }
}

/// The sessions are stored beside the examples, under the names of both.
#[test]
fn no_name_is_that_of_an_example() {
    let beside = concat!(env!("CARGO_MANIFEST_DIR"), "/../examples");
    let directory = std::env::var("REFERENCE_EXAMPLES").unwrap_or(beside.to_string());
    for directory in [directory.clone(), format!("{directory}/limits")] {
        for entry in std::fs::read_dir(&directory).expect("examples") {
            let path = entry.expect("entry").path();
            let taken = |session: &Session| path.file_stem() == Some(session.name.as_ref());
            assert!(!all().iter().any(taken), "{}", path.display());
        }
    }
}

#[test]
fn every_answer_is_reached() {
    let seen: BTreeSet<String> =
        all().iter().flat_map(answers).map(|answer| kind(&answer)).collect();
    let mut wanted: BTreeSet<String> =
        ["ok", "end", "undef", "other", "error", "value", "sampled"].map(str::to_string).into();
    wanted.extend((1..=3).map(|level| format!("trap {level}")));
    wanted.extend((1..=6).chain(11..=19).map(|number| format!("refused {number}")));
    assert_eq!(seen, wanted);
}

/// The answers that an access to a register in one direction can have.
fn wanted(name: &str, read: bool) -> BTreeSet<String> {
    let passed = if read { "value" } else { "ok" };
    let mut list: Vec<String> = (11..=17).map(|number| format!("refused {number}")).collect();
    list.push("undef".to_string());
    if (name, read) != ("PMSWINC", true) {
        list.extend([passed.to_string(), "trap 2".to_string(), "trap 3".to_string()]);
        if name != "PMICNTR" && name != "PMSICR" {
            list.push("trap 1".to_string());
        }
    }
    list.into_iter().collect()
}

#[test]
fn every_register_and_direction_gets_each_answer() {
    let list = all_answered();
    for name in ["PMEVCNTR", "PMSWINC", "PMICNTR", "PMSICR"] {
        for read in [true, false] {
            let mut seen = BTreeSet::new();
            for (command, answer) in &list {
                if target(*command) == Some((name, read)) {
                    seen.insert(kind(answer));
                }
            }
            assert_eq!(seen, wanted(name, read), "{name} read {read}");
        }
    }
}

/// The causes that stop accesses to a register in one direction, in their order.
const CAUSES: [(&str, bool, &[u8]); 7] = [
    ("PMEVCNTR", true, &[1, 2, 3, 4, 5]),
    ("PMEVCNTR", false, &[1, 2, 3, 4, 5]),
    ("PMSWINC", false, &[1, 2, 3, 5]),
    ("PMICNTR", true, &[7, 2, 3, 6, 5]),
    ("PMICNTR", false, &[7, 2, 3, 6, 5]),
    ("PMSICR", true, &[2, 8, 9]),
    ("PMSICR", false, &[2, 8, 9]),
];

/// The levels at which a cause is named for a register, from the lowest to the
/// highest.
fn named_at(name: &str, cause: u8) -> std::ops::RangeInclusive<u8> {
    match cause {
        9 => 1..=2,
        _ if name == "PMSICR" => 1..=1,
        1 => 0..=0,
        2 | 3 | 4 | 7 => 0..=1,
        _ => 0..=2,
    }
}

/// The target and the cause that a trap's answer shows, and nothing for another
/// answer. Behind the target there are 8 digits, behind them the cause alone.
fn shown_trap(answer: &str) -> Option<(u8, u8)> {
    let words: Vec<&str> = answer.split(' ').collect();
    if words[0] != "trap" {
        return None;
    }
    assert_eq!((words.len(), words[2].len()), (4, 8), "{answer}");
    let number = |word: &str| word.parse::<u8>().expect("number");
    assert_eq!(words[3], number(words[3]).to_string(), "{answer}");
    Some((number(words[1]), number(words[3])))
}

/// An access to one of the registers: which one, whether it is a read, the level,
/// and the answer that is shown.
type Shown = (&'static str, bool, u8, String);

/// The accesses to the registers that a session makes.
fn accesses(session: &Session) -> Vec<Shown> {
    let mut machine = Machine::default();
    let mut earlier = Earlier::default();
    let mut list = Vec::new();
    for command in commands(session) {
        let level = machine.el;
        let answer = words(obey(&mut machine, &mut earlier, command));
        if let Some((name, read)) = target(command) {
            list.push((name, read, level, answer));
        }
    }
    list
}

/// Each cause is shown for every register, direction, level and target where it
/// can be: by the sessions on causes, and no session shows one elsewhere.
#[test]
fn every_cause_is_shown_where_it_can_be() {
    let mut wanted = BTreeSet::new();
    for (name, read, causes) in CAUSES {
        for &cause in causes {
            let targets: &[u8] = match cause {
                1 => &[1, 2],
                5 | 6 | 9 => &[3],
                _ => &[2],
            };
            for level in named_at(name, cause) {
                wanted.extend(targets.iter().map(|&to| (name, read, cause, level, to)));
            }
        }
    }
    let mut seen = [BTreeSet::new(), BTreeSet::new()];
    for session in &all() {
        for (name, read, level, answer) in accesses(session) {
            if let Some((to, cause)) = shown_trap(&answer) {
                let index = is_called(session, "cause-") as usize;
                seen[index].insert((name, read, cause, level, to));
            }
        }
    }
    assert_eq!(seen[1], wanted);
    assert!(seen[0].is_subset(&wanted), "{:?}", seen[0].difference(&wanted));
}

/// The name of a session starts so; PMSICR's stands in front of that.
fn is_called(session: &Session, start: &str) -> bool {
    session.name.strip_prefix("pmsicr-").unwrap_or(&session.name).starts_with(start)
}

/// The accesses that a session tries, in order: those of the first one's
/// register and direction at its level. The last one of a session on PMSICR
/// reads the word at 0x838 and is none of them.
fn tried_by(session: &Session) -> Vec<Shown> {
    let mut list = accesses(session);
    if session.name.starts_with("pmsicr-") {
        list.pop();
    }
    let (name, read, level, _) = list[0];
    list.retain(|one| (one.0, one.1, one.2) == (name, read, level));
    list
}

/// The sessions of a name's start with the accesses that they try.
fn tried(start: &str) -> Vec<Vec<Shown>> {
    all().iter().filter(|session| is_called(session, start)).map(tried_by).collect()
}

/// Each two causes that can meet: the earlier one is shown, when it is opened the
/// later one, and then the access passes. PMUSERENR's traps with both targets.
#[test]
fn every_two_causes_meet() {
    let mut wanted = BTreeSet::new();
    for (name, read, causes) in CAUSES {
        for level in 0..=2 {
            let there = causes.iter().filter(|&&cause| named_at(name, cause).contains(&level));
            let there: Vec<u8> = there.copied().collect();
            for (index, &first) in there.iter().enumerate() {
                for &second in &there[index + 1..] {
                    wanted.extend([(name, read, level, first, second, false)]);
                    if level == 0 && first == 1 {
                        wanted.extend([(name, read, level, first, second, true)]);
                    }
                }
            }
        }
    }
    let mut seen = BTreeSet::new();
    for list in tried("cause-pairs-") {
        for three in list.chunks(3) {
            let [first, second, third] = [0, 1, 2].map(|index| &three[index]);
            let (name, read, level, _) = *first;
            let traps = (shown_trap(&first.3), shown_trap(&second.3));
            let ((to, first), (_, second)) = match traps {
                (Some(first), Some(second)) => (first, second),
                _ => panic!("{three:?}"),
            };
            assert_eq!(kind(&third.3), if read { "value" } else { "ok" }, "{three:?}");
            seen.insert((name, read, level, first, second, first == 1 && to == 2));
        }
    }
    assert_eq!(seen, wanted);
}

/// All controls at once: the causes come in their order, each of them when those
/// before it are open. No cause is left out, and no control stops level 3.
#[test]
fn all_causes_come_in_order() {
    let mut seen = 0;
    for list in tried("cause-all-") {
        let (name, read, level, _) = list[0];
        let found = CAUSES.iter().find(|row| (row.0, row.1) == (name, read));
        let causes = found.expect("causes").2;
        let there = causes.iter().copied().filter(|&cause| named_at(name, cause).contains(&level));
        let mut shown: Vec<u8> = list[..=causes.len()]
            .iter()
            .filter_map(|(_, _, _, answer)| shown_trap(answer))
            .map(|(_, cause)| cause)
            .collect();
        shown.dedup();
        assert_eq!(shown, there.collect::<Vec<u8>>(), "{name} read {read} level {level}");
        let last = &list[causes.len()].3;
        let passed = if read { "value" } else { "ok" };
        assert_eq!(kind(last), if (name, level) == ("PMSICR", 0) { "undef" } else { passed });
        seen += 1;
    }
    assert_eq!(seen, 28);
}

/// A stop at EL3 that is undefined shows that one word, at each level, whether a
/// control that is asked for earlier would stop the access or not.
#[test]
fn undefined_stops_show_no_cause() {
    let mut wanted = BTreeSet::new();
    for (name, read, causes) in CAUSES {
        for level in 0..=2 {
            let there = causes.iter().filter(|&&cause| named_at(name, cause).contains(&level));
            for &cause in there {
                wanted.extend([(name, read, level, cause), (name, read, level, 0)]);
            }
        }
    }
    let mut seen = BTreeSet::new();
    for (name, read, level, answer) in tried("cause-undef-").concat() {
        match shown_trap(&answer) {
            Some((_, cause)) => seen.insert((name, read, level, cause)),
            None => {
                assert_eq!(answer, "undef");
                seen.insert((name, read, level, 0))
            }
        };
    }
    assert_eq!(seen, wanted);
}

/// Every event counter is stopped by HPMN at both levels, in both directions.
#[test]
fn hpmn_is_the_cause_at_every_counter() {
    let mut seen = BTreeSet::new();
    for session in all().iter().filter(|session| session.name.starts_with("cause-hpmn-")) {
        let mut machine = Machine::default();
        let mut earlier = Earlier::default();
        for command in commands(session) {
            let level = machine.el;
            let answer = words(obey(&mut machine, &mut earlier, command));
            let word = match command {
                Command::Access { word, .. } => word,
                _ => continue,
            };
            let found = Move::decode(word).expect("move");
            let trap = shown_trap(&answer);
            if let (Some(Register::Pmevcntr(m)), Some(trap)) = (found.register(), trap) {
                assert_eq!((trap, machine.hpmn), ((2, 4), m));
                seen.insert((found.read, level, m));
            }
        }
    }
    assert_eq!(seen.len(), 2 * 2 * 31);
}

#[test]
fn every_command_that_tests_the_record_is_refused_by_each_number() {
    let mut seen = BTreeSet::new();
    for (command, answer) in all_answered() {
        let command = match command {
            Command::Access { .. } => "access",
            Command::Read { .. } => "external read",
            Command::Write { .. } => "external write",
            Command::Tick { .. } => "tick",
            Command::Member { .. } => "member",
            _ => continue,
        };
        seen.insert((command, kind(&answer)));
    }
    for command in ["access", "external read", "external write", "tick", "member"] {
        for number in 11..=17 {
            assert!(seen.contains(&(command, format!("refused {number}"))), "{command} {number}");
        }
    }
}

#[test]
fn every_external_register_gets_each_answer() {
    for offset in [PMCNTENSET, PMOVSCLR, PMOVSSET] {
        let mut seen = [BTreeSet::new(), BTreeSet::new()];
        for (command, answer) in all_answered() {
            match command {
                Command::Read { offset: o } if o == offset => seen[0].insert(kind(&answer)),
                Command::Write { offset: o, .. } if o == offset => seen[1].insert(kind(&answer)),
                _ => false,
            };
        }
        for (seen, passed) in seen.into_iter().zip(["value", "ok"]) {
            let mut wanted = BTreeSet::from([passed.to_string(), "error".to_string()]);
            wanted.extend((11..=17).map(|number| format!("refused {number}")));
            assert_eq!(seen, wanted, "{offset:X}");
        }
    }
}

/// Both registers show each flag set and each one clear, and never bit 31.
#[test]
fn every_flag_is_shown() {
    for offset in [PMOVSCLR, PMOVSSET] {
        let (mut set, mut clear) = (0, 0);
        for (command, answer) in all_answered() {
            let digits = answer.strip_prefix("value ");
            if let (Command::Read { offset: o }, Some(digits)) = (command, digits) {
                if o == offset {
                    let value = u64::from_str_radix(digits, 16).expect("digits");
                    set |= value;
                    clear |= !value;
                }
            }
        }
        assert_eq!((set, clear), (ALL_PMOVS, u64::MAX), "{offset:X}");
    }
}

/// Increments that set a flag and increments that do not: below HPMN and from it
/// up, with p5 and without it, the long bit 0 and 1.
#[test]
fn every_carry_is_there() {
    let mut seen = BTreeSet::new();
    for session in &all() {
        let mut machine = Machine::default();
        let mut earlier = Earlier::default();
        for command in commands(session) {
            let before = machine.clone();
            obey(&mut machine, &mut earlier, command);
            if target(command) == Some(("PMSWINC", false)) {
                for m in (0..31).filter(|&m| machine.pmevcntr[m] != before.pmevcntr[m]) {
                    let high = before.have_el2 && m >= before.hpmn as usize;
                    let long = if high { before.hlp } else { before.lp };
                    let flag = (machine.pmovs & !before.pmovs) >> m & 1;
                    seen.insert((high, before.pmuv3p5, long, flag));
                }
            }
        }
    }
    assert_eq!(seen.len(), 16, "{seen:?}");
}

/// Operand bits of PMSWINC that nothing but the switches can hold back: EL2
/// missing, implemented and enabled, the counter below HPMN and from it up, each
/// with every setting of its enable bit, E and HPME.
#[test]
fn every_switch_is_there() {
    let mut seen = BTreeSet::new();
    for session in &all() {
        let mut machine = Machine::default();
        let mut earlier = Earlier::default();
        for command in commands(session) {
            let before = machine.clone();
            let answer = obey(&mut machine, &mut earlier, command);
            let operand = match command {
                Command::Access { word, operand } if word & 31 != 31 => operand,
                _ => continue,
            };
            if target(command) != Some(("PMSWINC", false)) || answer != Answer::Ok {
                continue;
            }
            let bits = (0..before.n).filter(|&m| operand >> m & 1 == 1);
            for m in bits.filter(|&m| before.event[m as usize] == 0) {
                let high = m >= before.hpmn;
                if before.el == 0 && before.uen || before.el < 2 && before.el2_enabled && high {
                    continue;
                }
                let moved = machine.pmevcntr[m as usize] != before.pmevcntr[m as usize];
                let switches = (before.pmcnten >> m & 1 == 1, before.pmcr_e, before.hpme);
                seen.insert((before.have_el2, before.el2_enabled, high, switches, moved));
            }
        }
    }
    assert_eq!(seen.len(), 48, "{seen:?}");
    for (have_el2, _, high, (enabled, e, hpme), moved) in seen {
        let range = if have_el2 && high { hpme } else { e };
        assert_eq!(moved, enabled && range);
    }
}

#[test]
fn every_field_is_set_and_exceeded() {
    let mut taken = BTreeSet::new();
    let mut exceeded = BTreeSet::new();
    let mut unknown = BTreeSet::new();
    let mut refused_flags = BTreeSet::new();
    for (command, answer) in all_answered() {
        if let Command::Set { field, value } = command {
            if field == PMOVS && answer == "refused 4" {
                refused_flags.insert(value);
            }
            match answer.as_str() {
                "ok" if Machine::largest(field) == Some(value) => taken.insert(field),
                "ok" => false,
                "refused 4" => exceeded.insert(field),
                _ => unknown.insert(field),
            };
        }
    }
    assert!(Machine::largest(LEVEL).is_none());
    for field in 0..=0xFF {
        match Machine::largest(field) {
            Some(largest) => {
                assert!(taken.contains(&field), "{field:02X}");
                assert!(largest == u64::MAX || exceeded.contains(&field), "{field:02X}");
            }
            None => assert!(unknown.contains(&field), "{field:02X}"),
        }
    }
    for value in [1 << 31, ALL_PMOVS + 1, 1 << 33, u64::MAX] {
        assert!(refused_flags.contains(&value), "{value:X}");
    }
}
