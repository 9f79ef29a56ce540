//! MODEL H1 to H7: what the directed sessions reach of steps back: each kind of step is
//! taken back where it changed something and where it did not, from every
//! number of listed steps, in every state, and the refusal by each way to an
//! empty list.

use super::*;

/// The sessions on steps back that are run.
fn ours() -> Vec<Session> {
    let ours = |session: &Session| session.name.starts_with("back-");
    all().into_iter().filter(ours).collect()
}

/// One step back: the record before it and the answer, how many steps were
/// listed, and the step that it takes back.
struct Back {
    machine: Machine,
    answer: Answer,
    listed: usize,
    step: Option<Step>,
}

/// A listed step: the command and what it answered, and the record before it and
/// behind it.
#[derive(Clone)]
struct Step {
    command: Command,
    answer: Answer,
    before: Machine,
    behind: Machine,
}

/// The steps back of a session. The steps are kept here by a list of their own.
fn backs(session: &Session) -> Vec<Back> {
    let mut machine = Machine::default();
    let mut earlier = Earlier::default();
    let mut steps: Vec<Step> = Vec::new();
    let mut list = Vec::new();
    for command in commands(session) {
        let before = machine.clone();
        let listed = earlier.len();
        let answer = obey(&mut machine, &mut earlier, command);
        let refused = matches!(answer, Answer::Refused(_));
        match command {
            Command::Back => {
                let step = if refused { None } else { steps.pop() };
                list.push(Back { machine: before, answer, listed, step });
            }
            Command::Set { .. } | Command::Read { .. } | Command::End => {}
            _ if refused => {}
            _ => steps.push(Step { command, answer, before, behind: machine.clone() }),
        }
    }
    list
}

fn all_backs() -> Vec<Back> {
    ours().iter().flat_map(backs).collect()
}

/// What a step is: its register or offset or kind.
fn name_of(command: Command) -> String {
    match command {
        Command::Access { .. } => match target(command) {
            Some((name, true)) => format!("read {name}"),
            Some((name, false)) => format!("write {name}"),
            None => "no register".to_string(),
        },
        Command::Write { offset, .. } => match offset {
            PMCNTENSET | PMOVSCLR | PMOVSSET => format!("{offset:X}"),
            _ => "no offset".to_string(),
        },
        Command::Tick { .. } => "tick".to_string(),
        Command::Member { .. } => "member".to_string(),
        Command::Level(level) => format!("level {level}"),
        other => panic!("{other:?}"),
    }
}

/// A step back gives the record before the step, and only a record behind it.
#[test]
fn each_step_back_is_over_its_step() {
    for session in ours() {
        for back in backs(&session) {
            if let Some(step) = back.step {
                assert_eq!(back.answer, Answer::Ok);
                assert_eq!(back.machine, step.behind, "{}", session.name);
            }
        }
    }
}

/// What is taken back: the step, its answer, and whether the record had changed.
const TAKEN: [(&str, &str, &[bool]); 37] = [
    ("write PMEVCNTR", "ok", &[true, false]),
    ("write PMEVCNTR", "trap 1", &[false]),
    ("write PMEVCNTR", "trap 2", &[false]),
    ("write PMEVCNTR", "undef", &[false]),
    ("read PMEVCNTR", "value", &[false]),
    ("read PMEVCNTR", "trap 2", &[false]),
    ("read PMEVCNTR", "trap 3", &[false]),
    ("read PMEVCNTR", "undef", &[false]),
    ("write PMSWINC", "ok", &[true, false]),
    ("write PMSWINC", "trap 1", &[false]),
    ("write PMSWINC", "trap 2", &[false]),
    ("write PMSWINC", "trap 3", &[false]),
    ("read PMSWINC", "undef", &[false]),
    ("write PMICNTR", "ok", &[true, false]),
    ("write PMICNTR", "trap 3", &[false]),
    ("read PMICNTR", "value", &[false]),
    ("read PMICNTR", "trap 2", &[false]),
    ("write PMSICR", "ok", &[true]),
    ("write PMSICR", "trap 2", &[false]),
    ("write PMSICR", "trap 3", &[false]),
    ("write PMSICR", "undef", &[false]),
    ("read PMSICR", "value", &[false]),
    ("no register", "other", &[false]),
    ("C00", "ok", &[true, false]),
    ("C00", "error", &[false]),
    ("C80", "ok", &[true, false]),
    ("C80", "error", &[false]),
    ("CC0", "ok", &[true, false]),
    ("CC0", "error", &[false]),
    ("no offset", "other", &[false]),
    ("tick", "ok", &[true, false]),
    ("member", "ok", &[true, false]),
    ("member", "sampled", &[true]),
    ("level 0", "ok", &[true, false]),
    ("level 1", "ok", &[true, false]),
    ("level 2", "ok", &[true, false]),
    ("level 3", "ok", &[true, false]),
];

#[test]
fn every_kind_of_step_is_taken_back() {
    let mut seen = BTreeSet::new();
    for step in all_backs().into_iter().filter_map(|back| back.step) {
        let changed = step.before != step.behind;
        seen.insert((name_of(step.command), kind(&words(step.answer)), changed));
    }
    for (name, answer, changes) in TAKEN {
        for &changed in changes {
            let one = (name.to_string(), answer.to_string(), changed);
            assert!(seen.contains(&one), "{one:?}");
        }
    }
}

/// MODEL D1 to D9: a trap of each cause, and of PMUSERENR_EL0 to both of its targets.
#[test]
fn traps_of_every_cause_are_taken_back() {
    let mut seen = BTreeSet::new();
    for step in all_backs().into_iter().filter_map(|back| back.step) {
        if let Answer::Trap { target, cause, .. } = step.answer {
            seen.insert((cause.number(), target));
        }
    }
    for one in [(1, 1), (1, 2), (2, 2), (3, 2), (4, 2), (5, 3), (6, 3), (7, 2), (8, 2), (9, 3)] {
        assert!(seen.contains(&one), "{one:?}");
    }
}

/// A part of the record as a number, and its name.
type Part = (&'static str, fn(&Machine) -> u64);

/// Each part of the record that a step can change comes back.
#[test]
fn every_part_of_the_record_comes_back() {
    let parts: [Part; 8] = [
        ("level", |r| r.el as u64),
        ("counters", |r| r.pmevcntr.iter().fold(0, |sum, c| sum ^ c)),
        ("instruction counter", |r| r.pmicntr),
        ("enables", |r| r.pmcnten),
        ("flags of event counters", |r| r.pmovs & 0x7FFF_FFFF),
        ("flag of the instruction counter", |r| r.pmovs >> 32),
        ("PMSICR", |r| r.pmsicr),
        ("word", |r| r.nvmem_838),
    ];
    let steps: Vec<Step> = all_backs().into_iter().filter_map(|back| back.step).collect();
    for (name, part) in parts {
        let changed = steps.iter().filter(|step| part(&step.before) != part(&step.behind));
        assert!(changed.count() >= 10, "{name}");
    }
    let reserved = |r: &Machine| r.pmsicr >> 32 & 0xFF_FFFF;
    let lost = steps.iter().filter(|step| reserved(&step.before) != reserved(&step.behind));
    assert!(lost.count() >= 2);
}

/// From every number of listed steps, and in every state, also where the list is
/// empty.
#[test]
fn steps_back_come_in_every_state() {
    let mut numbers = BTreeSet::new();
    let mut states = BTreeSet::new();
    for back in all_backs() {
        numbers.insert(back.listed);
        assert_eq!(back.answer == Answer::Refused(18), back.listed == 0);
        states.insert((back.machine.state_refusal(), back.listed == 0));
    }
    assert_eq!(numbers.into_iter().collect::<Vec<usize>>(), (0..=64).collect::<Vec<usize>>());
    for state in [None].into_iter().chain((11..=17).map(Some)) {
        for empty in [false, true] {
            assert!(states.contains(&(state, empty)), "{state:?} {empty}");
        }
    }
}

/// The ways to an empty list: nothing was listed yet, all was taken back, a set,
/// and a set that changes nothing.
#[test]
fn every_way_to_an_empty_list_is_there() {
    let mut seen = BTreeSet::new();
    for session in ours() {
        let mut machine = Machine::default();
        let mut earlier = Earlier::default();
        let mut why = "nothing listed";
        for command in commands(&session) {
            let before = (machine.clone(), earlier.len());
            let answer = obey(&mut machine, &mut earlier, command);
            match command {
                Command::Back if answer == Answer::Ok => why = "all taken back",
                Command::Back => {
                    seen.insert(why);
                }
                Command::Set { .. } if answer == Answer::Ok && before.1 > 0 => {
                    why = if before.0 == machine { "idle set" } else { "set" }
                }
                _ => {}
            }
        }
    }
    assert_eq!(seen.len(), 4, "{seen:?}");
}
