//! MODEL H1 to H7: steps back. Which commands are listed; as many steps back as steps,
//! from random records; the 65th step; and records that are not consistent.
//! Whole sessions have a file of their own.

use super::*;
use crate::back::DEPTH;

/// The answers to commands behind a start.
fn answers_behind(start: &str, text: &str) -> Vec<String> {
    let before = run_text(start).lines().count() - 1;
    let output = run_text(&format!("{start} {text} 00"));
    let answer = |line: &str| line.split_once(' ').expect("position").1.to_string();
    output.lines().skip(before).map(answer).collect()
}

/// Obeys a command by the machine's own calls, as if nothing could be taken back.
pub(super) fn directly(machine: &mut Machine, command: Command) -> Answer {
    match command {
        Command::Set { field, value } => machine.set(field, value),
        Command::Level(level) => machine.set_level(level),
        Command::Access { word, operand } => machine.access(word, operand),
        Command::Read { offset } => machine.external_read(offset),
        Command::Write { offset, value } => machine.external_write(offset, value),
        Command::Tick { prohibited } => machine.tick(prohibited),
        Command::Member { draw } => machine.member(draw),
        Command::End | Command::Back => panic!("{command:?}"),
    }
}

/// A record after some commands.
pub(super) fn after(start: &Machine, commands: &[Command]) -> Machine {
    let mut machine = start.clone();
    for &command in commands {
        directly(&mut machine, command);
    }
    machine
}

pub(super) fn is_refused(answer: Answer) -> bool {
    matches!(answer, Answer::Refused(_))
}

#[test]
fn steps_back_in_sessions() {
    assert_eq!(run(&[7]), "1 refused 18\n2 refused 2\n");
    assert_eq!(run(&[7, 0]), "1 refused 18\n2 end\n");
    assert_eq!(run(&[2, 1, 7]), "1 ok\n2 ok\n3 refused 2\n");
    assert_eq!(run(&[2, 1, 7, 7, 0]), "1 ok\n2 ok\n3 refused 18\n4 end\n");
    assert_eq!(run(&[7, 9, 7]), "1 refused 18\n2 refused 1\n");
    assert_eq!(
        run(&[2, 7, 6, 7, 8, 7, 7, 7]),
        "1 refused 5\n2 refused 4\n3 ok\n4 ok\n5 refused 18\n6 refused 2\n"
    );
    assert!(run(&[7; 4096]).ends_with("\n4096 refused 18\n4097 refused 2\n"));
    assert_eq!(run(&[7; 4097]), "0 refused 6\n");
    assert_eq!(disassemble(&[7, 7, 0]), "07  # step back\n07  # step back\n00  # end\n");
}

/// A start at level 0 in which a member is selected, and commands that are listed
/// there, whatever they answer.
const LISTED: [&str; 23] = [
    "06 00",
    "06 01",
    "08 00",
    "08 FF",
    "02 00",
    "02 01",
    "02 02",
    "02 03",
    "03 02 E8 3B D5 v:0",
    "03 01 E8 1B D5 v:5",
    "03 82 E8 3B D5 v:0",
    "03 C2 E8 3B D5 v:0",
    "03 42 99 38 D5 v:0",
    "03 02 94 3B D5 v:0",
    "03 81 9C 1B D5 v:0",
    "03 81 9C 1B D5 v:0xFFFFFFFFFFFFFFFF",
    "03 00 00 00 00 v:0",
    "05 00 0C v:0",
    "05 00 0C v:0x1FFFFFFFF",
    "05 80 0C v:1",
    "05 C0 0C v:1",
    "05 04 0C v:1",
    "05 FF FF v:0",
];

/// Commands that leave the list alone: external reads, and what is refused.
const LEFT_ALONE: [&str; 12] = [
    "04 00 0C",
    "04 80 0C",
    "04 C0 0C",
    "04 04 0C",
    "02 04",
    "02 FF",
    "06 02",
    "06 FF",
    "01 0D v:0",
    "01 FF v:1",
    "01 00 v:2",
    "01 37 v:0x80000000",
];

/// Sets that are not refused; the first one changes nothing.
const EMPTYING: [&str; 6] =
    ["01 00 v:1", "01 00 v:0", "01 63 v:1", "01 37 v:0", "01 83 v:1", "01 8D v:1"];

/// Two ticks and a command, then four steps back: how many of these are not
/// refused. Those that are come last.
fn taken_back(command: &str) -> usize {
    let start = &format!("{GIVEN} {ON} 01 80 v:1 01 8C v:1 01 83 v:1");
    let count = answers_behind(start, command).len() - 1;
    let all = answers_behind(start, &format!("06 00 06 00 {command} 07 07 07 07"));
    let backs = &all[2 + count..all.len() - 1];
    let taken = backs.iter().filter(|answer| *answer == "ok").count();
    for (index, answer) in backs.iter().enumerate() {
        assert_eq!(answer, if index < taken { "ok" } else { "refused 18" }, "{command}");
    }
    taken
}

#[test]
fn what_is_listed() {
    for command in LISTED {
        assert_eq!(taken_back(command), 3, "{command}");
    }
    for command in LEFT_ALONE {
        assert_eq!(taken_back(command), 2, "{command}");
    }
    for command in EMPTYING {
        assert_eq!(taken_back(command), 0, "{command}");
    }
    // An error, where writes are locked, and where there is no register.
    for given in ["01 3A v:1", "01 3C v:1", "01 08 v:0"] {
        assert_eq!(taken_back(&format!("{given} 05 00 0C v:1")), 1, "{given}");
        assert_eq!(taken_back(&format!("{given} 04 00 0C")), 0, "{given}");
    }
    // At a level that the machine can't be at, the level alone is listed.
    let refused = ["06 00", "08 00", "03 00 00 00 00 v:0", "04 00 0C", "05 00 0C v:1"];
    for command in refused {
        assert_eq!(taken_back(&format!("02 03 {command}")), 3, "{command}");
    }
    // A step back is not listed.
    assert_eq!(taken_back("07"), 1);
    assert_eq!(taken_back("07 06 00"), 2);
    assert_eq!(taken_back("07 07 07 02 01"), 1);
}

/// A step that is listed if it is not refused. Its operands can be anything.
fn some_step(rng: &mut Rng) -> Command {
    let operand = rng.next();
    let m = rng.below(32) as u32;
    let write = |word: u32| Command::Access { word, operand };
    match rng.below(12) {
        0 => Command::Tick { prohibited: rng.below(2) as u8 },
        1 => Command::Member { draw: rng.below(3) as u8 },
        2 | 3 => Command::Level(rng.below(4) as u8),
        4 | 5 => {
            let offset = [0xC00, 0xC80, 0xCC0, 0xC04][rng.below(4) as usize];
            Command::Write { offset, value: operand }
        }
        6 | 7 => write(0xD51B_9C81),
        8 => write(0xD51B_E801 | (m / 8) << 8 | (m % 8) << 5),
        9 => write(0xD51B_9401),
        10 => write(0xD518_9941),
        _ => write([0xD53B_E802, 0xD538_9942, 0xD53B_9402, 0xD53B_9C82, 0][m as usize % 5]),
    }
}

/// A consistent record with counters and flags that a step can make run over.
fn some_start(rng: &mut Rng) -> Machine {
    let mut machine = random_machine(rng);
    for m in 0..31 {
        machine.pmevcntr[m] = near_carry(rng, machine.pmuv3p5);
    }
    if rng.chance(50) {
        machine.pmicntr = u64::MAX - rng.below(3);
        machine.pmsicr = rng.below(3) << 56 | rng.below(3);
    }
    machine
}

/// So many listed steps from a record, and the list then.
fn walk(rng: &mut Rng, start: &Machine, count: usize) -> (Machine, Earlier, Vec<Command>) {
    let (mut machine, mut earlier, mut steps) = (start.clone(), Earlier::default(), Vec::new());
    while steps.len() < count {
        let command = some_step(rng);
        if !is_refused(obey(&mut machine, &mut earlier, command)) {
            steps.push(command);
        }
    }
    (machine, earlier, steps)
}

/// The promise of document 02: up to 64 steps, as many back, and all is as it was.
/// On the way there the record is that after the steps that are left.
#[test]
fn as_many_back_as_steps() {
    let mut rng = Rng::new(40, 41);
    let mut changed = 0;
    for round in 0..2000 {
        let count = if round % 4 == 0 { DEPTH } else { rng.below(DEPTH as u64 + 1) as usize };
        let start = some_start(&mut rng);
        let (mut machine, mut earlier, steps) = walk(&mut rng, &start, count);
        changed += (machine != start) as u32;
        for left in (0..count).rev() {
            assert_eq!(obey(&mut machine, &mut earlier, Command::Back), Answer::Ok);
            if rng.chance(10) {
                assert_eq!(machine, after(&start, &steps[..left]), "{steps:?}");
            }
        }
        assert_eq!(machine, start, "{steps:?}");
        assert_eq!(obey(&mut machine, &mut earlier, Command::Back), Answer::Refused(18));
        assert_eq!((machine, earlier), (start, Earlier::default()));
    }
    assert!(changed > 1000, "{changed}");
}

/// Of more than 64 steps the latest 64 are taken back.
#[test]
fn older_steps_drop_off() {
    let mut rng = Rng::new(42, 43);
    for count in [65, 65, 65, 66, 100, 127, 128, 129, 200] {
        for _ in 0..20 {
            let start = some_start(&mut rng);
            let (mut machine, mut earlier, steps) = walk(&mut rng, &start, count);
            for left in (count - 64..count).rev() {
                assert_eq!(obey(&mut machine, &mut earlier, Command::Back), Answer::Ok);
                assert_eq!(machine, after(&start, &steps[..left]), "{steps:?}");
            }
            let oldest = machine.clone();
            assert_eq!(obey(&mut machine, &mut earlier, Command::Back), Answer::Refused(18));
            assert_eq!(machine, oldest);
        }
    }
}

/// Each number of steps up to 64 counts, by ticks: the counter says how many.
#[test]
fn ticks_are_taken_back_one_by_one() {
    let start = "01 00 v:1 01 03 v:1 01 34 v:0x100000000 02 01 01 7F v:0";
    let read = "03 02 94 3B D5 v:0";
    for steps in [0, 1, 2, 31, 63, 64, 65, 66, 70, 130] {
        for backs in [0, 1, 2, 32, 63, 64, 65, 66] {
            let text = format!("{}{}{read}", "06 00 ".repeat(steps), "07 ".repeat(backs));
            let answers = answers_behind(start, &text);
            let taken = backs.min(steps).min(64);
            let refused = answers.iter().filter(|answer| *answer == "refused 18").count();
            assert_eq!(refused, backs - taken, "{steps} {backs}");
            let value = format!("value {:016X} 2", steps - taken);
            assert_eq!(answers[steps + backs], value, "{steps} {backs}");
        }
    }
}

/// No record is tested, not even one that only a direct caller makes.
#[test]
fn the_record_is_not_tested() {
    let broken: [fn(&mut Machine); 9] = [
        |r| r.el = 4,
        |r| r.pmovs = 1 << 31,
        |r| r.el = 3,
        |r| r.el2_enabled = true,
        |r| (r.have_el2, r.hpmn) = (true, 1),
        |r| r.have_el2 = true,
        |r| r.pmevcntr[30] = 1 << 32,
        |r| (r.have_el2, r.hpmn0, r.el2_enabled, r.tge, r.el) = (true, true, true, true, 1),
        |r| r.pmuv3p5 = true,
    ];
    for (index, spoil) in broken.into_iter().enumerate() {
        let mut machine = Machine::default();
        let mut earlier = Earlier::default();
        spoil(&mut machine);
        let bad = machine.clone();
        let number = [10, 10, 11, 12, 13, 14, 15, 16, 17][index];
        assert_eq!(machine.state_refusal(), Some(number));
        assert_eq!(obey(&mut machine, &mut earlier, Command::Back), Answer::Refused(18));
        let tick = Command::Tick { prohibited: 0 };
        assert_eq!(obey(&mut machine, &mut earlier, tick), Answer::Refused(number));
        assert_eq!((&machine, &earlier), (&bad, &Earlier::default()));
        for level in [2, 0, 3] {
            assert_eq!(obey(&mut machine, &mut earlier, Command::Level(level)), Answer::Ok);
        }
        for _ in 0..3 {
            assert_eq!(obey(&mut machine, &mut earlier, Command::Back), Answer::Ok);
        }
        assert_eq!((machine, earlier), (bad, Earlier::default()));
    }
}
