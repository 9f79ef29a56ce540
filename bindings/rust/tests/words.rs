//! Calls on words that hold anything: every call answers, changes no other words
//! than it may, and none where it is refused; a word above its field's largest is
//! refused with 10.

use pmu::{Answer, Machine, Recorded, LEVEL, LIST, WORDS};

#[path = "common/calls.rs"]
mod calls;
#[path = "common/fields.rs"]
mod fields;
#[path = "common/rng.rs"]
mod rng;

use calls::{both, Call};
use fields::largest;
use rng::Rng;

type Words = [u64; WORDS];

/// Whether a word that is a field can hold a value. The overflow flags have no
/// bit 31.
fn holds(number: usize, value: u64) -> bool {
    largest(number).map_or(true, |most| value <= most) && (number != 0x37 || value >> 31 & 1 == 0)
}

/// Any bits in every word, those of no field too.
fn any_words(rng: &mut Rng) -> Words {
    [0; WORDS].map(|_| rng.next())
}

/// A value that a field can hold; any where there is no field.
fn any_value(rng: &mut Rng, number: usize) -> u64 {
    match largest(number) {
        None | Some(u64::MAX) => rng.next(),
        Some(0x1_7FFF_FFFF) => rng.next() & 0x1_7FFF_FFFF,
        Some(most) => rng.below(most + 1),
    }
}

/// Words of which each is one that its field can hold. Some are consistent.
fn words_in_range(rng: &mut Rng) -> Words {
    let mut words = [0; WORDS];
    for (number, word) in words.iter_mut().enumerate() {
        *word = any_value(rng, number);
    }
    if rng.chance(70) {
        for (number, value) in [(0x00, 1), (0x01, 1), (0x06, 1), (0x09, 1), (0x10, 1), (0x25, 0)] {
            words[number] = value;
        }
        words[0x27] = rng.below(words[0x0C] + 1);
        words[LEVEL] = rng.below(3);
    }
    words
}

fn in_range(words: &Words) -> bool {
    words.iter().enumerate().all(|(number, &word)| holds(number, word))
}

/// Values that a field can't hold: those just above, single bits, and any.
fn too_large(rng: &mut Rng, number: usize) -> Vec<u64> {
    let bits = (0..64).map(|k| 1 << k).chain([u64::MAX, u64::MAX - 1]);
    let above = largest(number).into_iter().flat_map(|most| [most.wrapping_add(1), most | 1 << 32]);
    let list = bits.chain(above).chain([0xFFFF_FFFF, 1 << 31 | 1, rng.next()]);
    list.filter(|&value| !holds(number, value)).collect()
}

#[test]
fn set_knows_the_fields() {
    let mut rng = Rng::new(1);
    for number in 0..=0xFF_u8 {
        let place = number as usize;
        let most = largest(place).filter(|_| place != LEVEL);
        let mut machine = Machine::from_words(any_words(&mut rng));
        let before = machine.clone();
        for value in too_large(&mut rng, place) {
            let refused = Answer::Refused(if most.is_none() { 3 } else { 4 });
            assert_eq!(machine.set(number, value), refused, "{number:X} {value:X}");
        }
        assert_eq!(machine, before);
        match most {
            None => assert_eq!(machine.set(number, 0), Answer::Refused(3), "{number:X}"),
            Some(most) => {
                assert_eq!(machine.set(number, most), Answer::Ok, "{number:X}");
                assert_eq!(machine.words()[place], most, "{number:X}");
            }
        }
    }
}

/// In a record that is otherwise fresh, and in those that are otherwise in range.
#[test]
fn one_word_too_large() {
    let mut rng = Rng::new(2);
    for number in 0..WORDS {
        for value in too_large(&mut rng, number) {
            for fresh in [true, false] {
                let mut words = if fresh { [0; WORDS] } else { words_in_range(&mut rng) };
                words[number] = value;
                for call in Call::testing(&mut rng) {
                    let mut recorded = Recorded::new(Machine::from_words(words));
                    let answer = both(&mut recorded, call);
                    assert_eq!(answer, Answer::Refused(10), "{number:X} {value:X} {call:?}");
                }
            }
        }
    }
}

#[test]
fn words_of_random_bits() {
    let mut rng = Rng::new(3);
    for round in 0..4_000 {
        let mut words = any_words(&mut rng);
        if round % 2 == 0 {
            words = words_in_range(&mut rng);
            let number = rng.below(WORDS as u64) as usize;
            words[number] = rng.next() >> rng.below(64);
        }
        let list = [0; LIST].map(|_| rng.next());
        let mut recorded = Recorded::from_parts(Machine::from_words(words), list);
        for _ in 0..8 {
            let call = Call::any(&mut rng);
            let above = !in_range(recorded.machine().words());
            let answer = both(&mut recorded, call);
            match call {
                Call::Set(..) | Call::Level(_) => {}
                Call::Tick(2..=0xFF) => assert_eq!(answer, Answer::Refused(4)),
                _ => assert_eq!(answer == Answer::Refused(10), above, "{call:?}"),
            }
        }
    }
}

/// They stay in range, and no answer is refusal 10; of causes and refusals there
/// are no others than those of docs/MODEL.md.
#[test]
fn words_that_stay_in_range() {
    let mut rng = Rng::new(4);
    for _ in 0..4_000 {
        let mut recorded = Recorded::new(Machine::from_words(words_in_range(&mut rng)));
        for _ in 0..10 {
            let call = Call::any(&mut rng);
            let before = recorded.machine().clone();
            let answer = both(&mut recorded, call);
            assert!(in_range(recorded.machine().words()), "{call:?}");
            match answer {
                Answer::Refused(number) => assert!(matches!(number, 3 | 4 | 5 | 11..=17)),
                Answer::Trap { cause, .. } => assert!(matches!(cause, 1..=9)),
                _ => {}
            }
            let listed = !matches!(call, Call::Set(..) | Call::Read(_));
            if listed && !matches!(answer, Answer::Refused(_)) && rng.chance(50) {
                assert_eq!(recorded.back(), Answer::Ok);
                assert_eq!(recorded.machine(), &before, "{call:?}");
            }
        }
    }
}

/// The words that a step back may change.
fn may_go_back(number: usize) -> bool {
    matches!(number, 0x34 | 0x37 | 0x60..=0x7F | 0x8C..=0x8E)
}

/// There are as many steps back as the list says, whatever it holds.
#[test]
fn lists_of_random_bits() {
    let mut rng = Rng::new(5);
    for round in 0..400 {
        let mut list = [0; LIST].map(|_| rng.next());
        list[0] = if round % 4 == 0 { rng.next() } else { rng.below(70) };
        let start = any_words(&mut rng);
        let mut recorded = Recorded::from_parts(Machine::from_words(start), list);
        for left in (0..list[0].min(64) as usize).rev() {
            assert_eq!(recorded.back(), Answer::Ok);
            assert_eq!(recorded.listed(), left);
        }
        let before = recorded.clone();
        assert_eq!(recorded.back(), Answer::Refused(18));
        assert_eq!((recorded.machine(), recorded.list()), (before.machine(), before.list()));
        for (number, word) in recorded.machine().words().iter().enumerate() {
            assert!(may_go_back(number) || *word == start[number], "{number:X}");
        }
    }
}

/// A level command is listed whatever the words hold. All come back, but of a level
/// above 255 the lowest 8 bits.
#[test]
fn a_level_taken_back() {
    let mut rng = Rng::new(6);
    for _ in 0..1_000 {
        let mut words = any_words(&mut rng);
        let list = [0; LIST].map(|_| rng.next());
        let mut recorded = Recorded::from_parts(Machine::from_words(words), list);
        assert_eq!(recorded.level(3), Answer::Ok);
        assert_eq!(recorded.back(), Answer::Ok);
        words[LEVEL] %= 0x100;
        assert_eq!(recorded.machine().words(), &words);
    }
}
