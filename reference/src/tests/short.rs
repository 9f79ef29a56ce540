//! MODEL Z1 to Z3: sessions in the short form. The first byte, the limit, which bytes are
//! commands, the width of a set, and what refusal 19 leaves alone.

use super::*;
use crate::form::{set_by, Form};

/// The three sets of the short form: the command byte and how many bytes the value has.
const SETS: [(u8, usize); 3] = [(0x11, 1), (0x12, 4), (0x01, 8)];

/// How many bytes the value of a set must have.
fn needed(value: u64) -> usize {
    let bytes = value.to_le_bytes();
    let used = (0..8).rev().find(|&index| bytes[index] != 0).map_or(0, |index| index + 1);
    [1, 4, 8].into_iter().find(|&width| used <= width).expect("width")
}

/// MODEL Z1.
#[test]
fn the_first_byte_says_the_form() {
    assert_eq!(run(&[]), "1 refused 2\n");
    assert_eq!(run(&[0x10]), "1 refused 2\n");
    assert_eq!(run(&[0x10, 0]), "1 end\n");
    assert_eq!(run(&[0x10, 0x10]), "1 refused 1\n");
    assert_eq!(run(&[0x10, 0x10, 0]), "1 refused 1\n");
    assert_eq!(run(&[0x10, 2, 1, 0x10, 0]), "1 ok\n2 refused 1\n");
    assert_eq!(run(&[2, 1, 0x10, 0]), "1 ok\n2 refused 1\n");
    assert_eq!(run(&[0, 0x10]), "1 end\n");
    assert_eq!(run(&[0x10, 0, 0x10]), "1 end\n");
    assert_eq!(run(&[0x10, 2]), "1 refused 2\n");
}

/// MODEL Z1: the first byte does not count.
#[test]
fn the_limit_is_behind_the_first_byte() {
    let short = |length: usize, byte: u8| [vec![0x10], vec![byte; length]].concat();
    for length in [1, 4095, 4096] {
        assert_eq!(run(&short(length, 0)), "1 end\n", "{length}");
        assert_eq!(run(&vec![0; length]), "1 end\n", "{length}");
        assert_eq!(run(&short(length, 0x10)), "1 refused 1\n", "{length}");
    }
    for length in [4097, 4098, 5000] {
        assert_eq!(run(&short(length, 0)), "0 refused 6\n", "{length}");
        assert_eq!(run(&vec![0; length]), "0 refused 6\n", "{length}");
        assert_eq!(run(&short(length, 0x10)), "0 refused 6\n", "{length}");
    }
    let sets = [vec![0x10], [0x11, 0x20, 1].repeat(1365)].concat();
    assert!(run(&[&sets[..], &[7]].concat()).ends_with("\n1366 refused 18\n1367 refused 2\n"));
    assert!(run(&[&sets[..], &[0]].concat()).ends_with("\n1365 ok\n1366 end\n"));
    assert_eq!(run(&[&sets[..], &[7, 0]].concat()), "0 refused 6\n");
}

/// MODEL Z2: 11 and 12 are commands in the short form alone, and 10 in none.
#[test]
fn which_bytes_are_commands() {
    for byte in 0..=0xFF {
        let unknown = !(byte <= 8 || byte == 0x11 || byte == 0x12);
        let line = run(&[0x10, byte]);
        assert_eq!(line == "1 refused 1\n", unknown, "{byte:02X}");
        assert_eq!(run(&[0x10, 2, 0, byte]).ends_with("\n2 refused 1\n"), unknown, "{byte:02X}");
        let unknown = byte > 8;
        assert_eq!(run(&[2, 0, byte]).ends_with("\n2 refused 1\n"), unknown, "{byte:02X}");
        assert_eq!(run(&[byte]) == "1 refused 1\n", unknown && byte != 0x10, "{byte:02X}");
    }
    assert_eq!(run(&[0x11, 0, 1, 0]), "1 refused 1\n");
    assert_eq!(run(&[0x12, 0, 1, 0, 0, 0, 0]), "1 refused 1\n");
}

/// MODEL Z2: what is no set is the same in both forms.
#[test]
fn other_commands_are_the_same() {
    let texts = [
        "02 01 02 04 06 00 06 02 08 00 07 07 04 00 0C 05 00 0C v:1 03 22 E8 3B D5 v:0 00",
        "02 03 06 00 07 06 00 07 07 00",
        "03 81 9C 1B D5 v:1 05 C0 0C v:1 04 C0",
        "06 01 08 07 09",
    ];
    for text in texts {
        assert_eq!(run_text(&format!("10 {text}")), run_text(text));
    }
}

#[test]
fn worked_session_in_the_short_form() {
    let text = "10 11 00 01 11 0C 02 11 61 2A 02 01 03 22 E8 3B D5 v:0 03 42 E8 3B D5 v:0 00";
    let expected = "1 ok\n2 ok\n3 ok\n4 ok\n5 value 000000000000002A 2\n6 undef\n7 end\n";
    assert_eq!(run_text(text), expected);
}

/// A session at level 1 that sets counter 1 to 5 and then by another set, and reads it.
fn counter_after(set: &[u8]) -> (String, String) {
    let start = assemble("10 11 00 01 11 01 01 11 0C 02 02 01 11 61 05").expect("notation");
    let end = assemble("03 22 E8 3B D5 v:0 00").expect("notation");
    let output = run(&[&start, set, &end].concat());
    let lines: Vec<&str> = output.lines().collect();
    let answer = |index: usize| lines[index].split_once(' ').expect("position").1.to_string();
    assert_eq!((lines.len(), answer(7)), (8, "end".to_string()));
    (answer(5), answer(6))
}

/// MODEL Z3 and R19: the narrowest set is obeyed, and no other.
#[test]
fn only_the_narrowest_set_is_obeyed() {
    let mut values = vec![0, u64::MAX, 5];
    for bit in 0..64 {
        let power = 1u64 << bit;
        values.extend([power - 1, power, power + 1, !power]);
    }
    let mut seen = BTreeMap::new();
    for value in values {
        for (byte, width) in SETS.into_iter().filter(|&(_, width)| width >= needed(value)) {
            let mut set = vec![byte, 0x61];
            set.extend(&value.to_le_bytes()[..width]);
            let fits = width == needed(value);
            let expected = if fits { ("ok", value) } else { ("refused 19", 5) };
            let (answer, read) = counter_after(&set);
            assert_eq!(answer, expected.0, "{byte:02X} {value:X}");
            assert_eq!(read, format!("value {:016X} 2", expected.1), "{byte:02X} {value:X}");
            assert_eq!(set, set_by(byte, 0x61, value));
            assert_eq!(Form::Short.set(0x61, value) == set, fits);
            *seen.entry((byte, fits)).or_insert(0) += 1;
        }
    }
    assert_eq!(seen.len(), 5, "{seen:?}");
}

/// In the long form every value has 8 bytes, and none is too wide.
#[test]
fn the_long_form_has_one_set() {
    for value in [0, 1, 0xFF, 0x100, 0xFFFF_FFFF, 0x1_0000_0000, u64::MAX] {
        let text =
            format!("01 00 v:1 01 01 v:1 01 0C v:2 02 01 01 61 v:{value} 03 22 E8 3B D5 v:0 00");
        let lines = format!("\n5 ok\n6 value {value:016X} 2\n7 end\n");
        assert!(run_text(&text).ends_with(&lines), "{value:X}");
        assert_eq!(Form::Long.set(0x61, value), set_by(0x01, 0x61, value));
    }
}

/// MODEL V1 and Z3: 19 is tested after 2.
#[test]
fn a_cut_set_is_refused_with_2() {
    for (byte, width) in SETS {
        for (field, value) in [(0x20, 1), (0x20, 0), (0x60, 0xFFFF_FFFF), (0xFF, 0), (0x0C, 0x1FF)]
        {
            let set = set_by(byte, field, value);
            assert_eq!(set.len(), 2 + width);
            for count in 0..set.len() {
                let bytes = [&[0x10], &set[..count]].concat();
                assert_eq!(run(&bytes), "1 refused 2\n", "{bytes:02X?}");
            }
        }
    }
    assert_eq!(run_text("10 12 20 01 00 00 00"), "1 refused 19\n2 refused 2\n");
    assert_eq!(run_text("10 01 20 v:1"), "1 refused 19\n2 refused 2\n");
    assert_eq!(run_text("10 11 20 01"), "1 ok\n2 refused 2\n");
}

/// MODEL V1 and Z3: 19 is tested before 3 and 4, for every number of a field.
#[test]
fn refusal_19_comes_before_3_and_4() {
    for field in 0..=0xFF {
        for value in [0, 1, 2, 0xFF, 0x100, 0x1_FFFF, 0xFFFF_FFFF, 0x1_0000_0000, u64::MAX] {
            let direct = match Machine::default().set(field, value) {
                Answer::Refused(number) => format!("1 refused {number}\n"),
                _ => "1 ok\n".to_string(),
            };
            for (byte, width) in SETS.into_iter().filter(|&(_, width)| width >= needed(value)) {
                let bytes = [vec![0x10], set_by(byte, field, value), vec![0]].concat();
                let first = if width == needed(value) { &direct } else { "1 refused 19\n" };
                assert_eq!(run(&bytes), format!("{first}2 end\n"), "{field:02X} {value:X}");
            }
        }
    }
}

/// MODEL V2 and Z3: reading goes on after 19, wherever it comes.
#[test]
fn reading_goes_on_after_19() {
    let wide = ["12 20 01 00 00 00", "01 20 v:1", "01 60 v:256", "12 FF 00 00 00 00", "01 0C v:32"];
    for set in wide {
        let text =
            format!("10 {set} 06 00 {set} {set} 06 02 02 04 {set} 11 FF 00 11 0C 20 {set} 00");
        let lines = "1 refused 19\n2 ok\n3 refused 19\n4 refused 19\n5 refused 4\n6 refused 5\n\
                     7 refused 19\n8 refused 3\n9 refused 4\n10 refused 19\n11 end\n";
        assert_eq!(run_text(&text), lines, "{set}");
        assert_eq!(run_text(&format!("10 {set} 10")), "1 refused 19\n2 refused 1\n");
    }
}

/// MODEL Z3 and V3: a set that is too wide tests no record, like any other set.
#[test]
fn refusal_19_tests_no_record() {
    let text = "10 02 03 06 00 12 0A 01 00 00 00 06 00 11 0A 01 06 00 00";
    let lines = "1 ok\n2 refused 11\n3 refused 19\n4 refused 11\n5 ok\n6 ok\n7 end\n";
    assert_eq!(run_text(text), lines);
}

/// MODEL Z3 and H5: 19 leaves the list of steps back, and a set that is obeyed clears it.
#[test]
fn refusal_19_leaves_the_list() {
    let backs = |set: &str| {
        let output = run_text(&format!("10 06 00 06 00 {set} 07 07 07 00"));
        let lines: Vec<&str> = output.lines().collect();
        let answer = |line: &str| line.split_once(' ').expect("position").1 == "ok";
        lines[3..6].iter().filter(|line| answer(line)).count()
    };
    for left in ["12 20 01 00 00 00", "01 20 v:1", "01 60 v:256", "11 20 02", "11 FF 00"] {
        assert_eq!(backs(left), 2, "{left}");
    }
    for clears in ["11 20 01", "11 20 00", "12 60 00 01 00 00", "01 60 v:0x100000000"] {
        assert_eq!(backs(clears), 0, "{clears}");
    }
    assert_eq!(run_text("10 12 20 01 00 00 00 07 00"), "1 refused 19\n2 refused 18\n3 end\n");
    let full = format!("{}12 20 01 00 00 00 ", "06 00 ".repeat(64));
    let output = run_text(&format!("10 {full}{}00", "07 ".repeat(65)));
    assert_eq!(output.matches(" refused 18\n").count(), 1);
    assert!(output.ends_with("\n129 ok\n130 refused 18\n131 end\n"));
}

#[test]
fn short_sessions_in_the_notation() {
    let text = "10  # short form
11 20 01  # set PMUSERENR.EN
12 60 00 01 00 00  # set counter 0
01 60 v:4294967296  # set counter 0
12 20 01 00 00 00  # set PMUSERENR.EN, too wide
01 34 v:255  # set counter enables, too wide
12 FF 01 00 00 00  # set FF, no such field, too wide
02 01  # level 1
00  # end
11 20  # after the end
";
    assert_eq!(disassemble(&assemble(text).expect("notation")), text);
    for text in [
        "",
        "10  # short form\n",
        "10  # short form\n10  # no command\n",
        "10  # short form\n12 60 00 00  # cut off\n",
        "10  # short form\n13  # no command\n11 20 01  # not read\n",
        "11  # no command\n20 01  # not read\n",
        "06 00  # tick\n10  # no command\n00  # not read\n",
        "00  # end\n10  # after the end\n",
    ] {
        assert_eq!(disassemble(&assemble(text).expect("notation")), text);
    }
}
