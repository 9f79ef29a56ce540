//! The model call by call: what its answers are and how they are written, and
//! what is listed and taken back.

use pmu::{Answer, Machine, Recorded, LEVEL, LIST, WORDS};

/// MRS to X2 of event counters 0 and 4.
const READ_0: u32 = 0xD53B_E802;
const READ_4: u32 = 0xD53B_E882;
/// MSR of event counter 0 from X1.
const WRITE_0: u32 = 0xD51B_E801;

/// PMUv3 with six event counters, of which HPMN leaves four to level 1.
fn machine() -> Machine {
    let mut machine = Machine::fresh();
    for (field, value) in [(0x00, 1), (0x09, 1), (0x10, 1), (0x0C, 6), (0x27, 4), (0x60, 42)] {
        assert_eq!(machine.set(field, value), Answer::Ok);
    }
    machine
}

#[test]
fn the_fresh_record_is_zeros() {
    let mut used = Machine::from_words([u64::MAX; WORDS]);
    used.reset();
    assert_eq!(used, Machine::fresh());
    assert_eq!(Machine::default().words(), &[0; WORDS]);
}

#[test]
fn words_are_those_of_the_fields() {
    let mut machine = machine();
    assert_eq!(machine.level(2), Answer::Ok);
    assert_eq!((machine.words()[0x27], machine.words()[LEVEL]), (4, 2));
    machine.words_mut()[0x64] = 7;
    assert_eq!(machine.access(READ_4, 0), Answer::Mrs { value: 7, rt: 2 });
}

#[test]
fn a_trap_has_a_level_a_syndrome_and_a_cause() {
    let mut machine = machine();
    machine.level(1);
    let trap = machine.access(READ_4, 0);
    assert_eq!(trap, Answer::Trap { level: 2, syndrome: 0x6238_F851, cause: 4 });
}

#[test]
fn what_is_refused() {
    let mut machine = machine();
    let before = machine.clone();
    assert_eq!(machine.set(0x0D, 0), Answer::Refused(3));
    assert_eq!(machine.set(0x0C, 32), Answer::Refused(4));
    assert_eq!(machine.tick(2), Answer::Refused(4));
    assert_eq!(machine.level(4), Answer::Refused(5));
    assert_eq!(machine, before);
    machine.set(0x27, 7);
    assert_eq!(machine.tick(0), Answer::Refused(13));
    machine.words_mut()[0x20] = 2;
    assert_eq!(machine.tick(0), Answer::Refused(10));
}

#[test]
fn texts_of_answers() {
    let texts = [
        (Answer::Ok, "ok"),
        (Answer::Sampled, "sampled"),
        (Answer::Undef, "undef"),
        (Answer::Other, "other"),
        (Answer::Error, "error"),
        (Answer::Trap { level: 1, syndrome: 0x1F, cause: 9 }, "trap 1 0000001F 9"),
        (Answer::Value(0x1_8000_003F), "value 000000018000003F"),
        (Answer::Mrs { value: 42, rt: 31 }, "value 000000000000002A 31"),
        (Answer::Refused(18), "refused 18"),
    ];
    for (answer, text) in texts {
        assert_eq!(answer.to_string(), text);
    }
}

#[test]
fn steps_back() {
    let mut recorded = Recorded::new(machine());
    recorded.level(1);
    assert_eq!(recorded.access(WRITE_0, 7), Answer::Ok);
    assert_eq!(recorded.external_read(0xC00), Answer::Value(0));
    assert_eq!(recorded.level(4), Answer::Refused(5));
    assert_eq!(recorded.access(READ_0, 0), Answer::Mrs { value: 7, rt: 2 });
    assert_eq!(recorded.listed(), 3);
    assert_eq!((recorded.back(), recorded.back()), (Answer::Ok, Answer::Ok));
    assert_eq!(recorded.machine().words()[0x60], 42);
    assert_eq!((recorded.back(), recorded.back()), (Answer::Ok, Answer::Refused(18)));
    assert_eq!(recorded.into_machine(), machine());
}

#[test]
fn a_set_clears_the_list_unless_refused() {
    let mut recorded = Recorded::new(machine());
    recorded.tick(0);
    assert_eq!((recorded.set(0x0C, 32), recorded.listed()), (Answer::Refused(4), 1));
    assert_eq!((recorded.set(0x0C, 6), recorded.listed()), (Answer::Ok, 0));
}

#[test]
fn a_list_of_64() {
    let mut recorded = Recorded::new(machine());
    for level in [1, 2].repeat(40) {
        recorded.level(level);
    }
    assert_eq!(recorded.listed(), 64);
    for _ in 0..64 {
        assert_eq!(recorded.back(), Answer::Ok);
    }
    assert_eq!(recorded.machine().words()[LEVEL], 2);
    assert_eq!(recorded.back(), Answer::Refused(18));
}

#[test]
fn machine_and_list_can_be_kept() {
    let mut recorded = Recorded::new(machine());
    recorded.level(1);
    let (words, list): ([u64; WORDS], [u64; LIST]) =
        (*recorded.machine().words(), *recorded.list());
    let mut again = Recorded::from_parts(Machine::from_words(words), list);
    assert_eq!((again.machine(), again.list()), (recorded.machine(), recorded.list()));
    assert_eq!(again.back(), Answer::Ok);
    assert_eq!(again.machine(), &machine());
}
