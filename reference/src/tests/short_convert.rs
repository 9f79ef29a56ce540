//! MODEL Z4 to Z8: the other form of a session. Rows of both forms, every refusal with its order
//! and its border, and all of Z4 to Z8 for each directed session and each example.

use super::reading::{answers, commands};
use super::*;
use crate::convert::convert;
use crate::directed;
use crate::form::{set_by, split, Form};
use crate::notation::code;

/// A command in a form, by the notation and not by the bytes that were read.
fn encoded(form: Form, command: Command) -> Vec<u8> {
    match (form, command) {
        (Form::Short, Command::Set { field, value }) => match value {
            0..=0xFF => set_by(0x11, field, value),
            0x100..=0xFFFF_FFFF => set_by(0x12, field, value),
            _ => set_by(0x01, field, value),
        },
        _ => assemble(&code(command)).expect("notation"),
    }
}

/// MODEL Z4: the commands of a session, in a form.
fn in_form(form: Form, bytes: &[u8]) -> Vec<u8> {
    let front = if form == Form::Short { vec![0x10] } else { Vec::new() };
    let list = commands(bytes).into_iter().map(|command| encoded(form, command));
    list.fold(front, |sum, command| [sum, command].concat())
}

/// MODEL Z5: how the converter refuses a session, by the lines that the session prints.
fn refusal(bytes: &[u8]) -> Option<u8> {
    let number = |answer: &String| match answer.as_str() {
        "refused 6" => Some(6),
        "refused 1" => Some(1),
        "refused 2" => Some(2),
        "refused 19" => Some(19),
        _ => None,
    };
    let met = answers(bytes).iter().find_map(number);
    let long = || in_form(Form::Long, bytes).len();
    met.or_else(|| if long() > 4096 { Some(20) } else { None })
}

/// Converts a session and looks at all of Z4 to Z8. The answer is the refusal, if there
/// is one.
pub(super) fn check(bytes: &[u8]) -> Option<u8> {
    let text = || disassemble(bytes);
    let (form, expected) = (split(bytes).0, refusal(bytes));
    let other = match convert(bytes) {
        Ok(other) => other,
        Err(number) => {
            assert_eq!(Some(number), expected, "{}", text());
            return Some(number);
        }
    };
    assert_eq!(expected, None, "{}", text());
    let turned = if form == Form::Long { Form::Short } else { Form::Long };
    assert_eq!(split(&other).0, turned);
    assert_eq!(other, in_form(turned, bytes), "Z4 {}", text());
    assert_eq!(run(&other), run(bytes), "Z6 {}", text());
    let whole = in_form(form, bytes);
    assert_eq!(convert(&other), Ok(whole.clone()), "Z7 {}", text());
    assert!(bytes.starts_with(&whole), "Z7 {}", text());
    let (short, long) = if turned == Form::Short { (other, whole) } else { (whole, other) };
    assert!(short.len() <= long.len() + 1, "Z8 {}", text());
    assert!(long.len() <= 4096 && short.len() <= 4097);
    None
}

/// MODEL Z4: both forms of a session.
const ROWS: [(&str, &str); 9] = [
    ("00", "10 00"),
    ("07 00", "10 07 00"),
    ("01 20 v:1 00", "10 11 20 01 00"),
    ("01 60 v:0 01 60 v:255 01 60 v:256 00", "10 11 60 00 11 60 FF 12 60 00 01 00 00 00"),
    ("01 7F v:0xFFFFFFFF 01 7F v:0x100000000 00", "10 12 7F FF FF FF FF 01 7F v:0x100000000 00"),
    // Refused with 3, 4 and 5, and by the state.
    ("01 FF v:1 01 20 v:2 02 04 06 02 07 00", "10 11 FF 01 11 20 02 02 04 06 02 07 00"),
    ("01 FF v:0x12345 01 20 v:0x100000001 00", "10 12 FF 45 23 01 00 01 20 v:0x100000001 00"),
    ("02 03 06 00 08 00 07 06 00 00", "10 02 03 06 00 08 00 07 06 00 00"),
    (
        "02 01 03 22 E8 3B D5 v:1 04 00 0C 05 00 0C v:1 06 01 08 09 07 00",
        "10 02 01 03 22 E8 3B D5 v:1 04 00 0C 05 00 0C v:1 06 01 08 09 07 00",
    ),
];

#[test]
fn rows_of_both_forms() {
    for (long, short) in ROWS {
        let both = [long, short].map(|text| assemble(text).expect("notation"));
        let [long, short] = &both;
        assert_eq!(convert(long).as_ref(), Ok(short));
        assert_eq!(convert(short).as_ref(), Ok(long));
        // What follows the end is dropped.
        for tail in [&[0x00][..], &[0x10], &[0xFF, 0xFF], &[0x01], &[0x12, 0x20, 1, 0, 0, 0]] {
            assert_eq!(convert(&[long, tail].concat()).as_ref(), Ok(short));
            assert_eq!(convert(&[short, tail].concat()).as_ref(), Ok(long));
        }
        assert_eq!(check(long).or_else(|| check(short)), None);
    }
}

/// MODEL Z5: what is refused, and by which number where there is more than one.
const REFUSED: [(&str, u8); 26] = [
    ("", 2),
    ("10", 2),
    ("10 10", 1),
    ("10 10 00", 1),
    ("09", 1),
    ("11 20 01 00", 1),
    ("12 20 01 00 00 00 00", 1),
    ("02 01 10 00", 1),
    ("10 02 01 10 00", 1),
    ("10 13 00", 1),
    ("01 20 v:1", 2),
    ("01 20 01", 2),
    ("10 11 20 01", 2),
    ("10 11 20", 2),
    ("10 12 20 01 00 00", 2),
    ("10 01 20 01", 2),
    ("10 12 20 01 00 00 00 00", 19),
    ("10 01 20 v:1 00", 19),
    ("10 01 60 v:0xFFFFFFFF 00", 19),
    // The first one counts.
    ("10 12 20 01 00 00 00 10 00", 19),
    ("10 12 20 01 00 00 00 11", 19),
    ("10 10 12 20 01 00 00 00 00", 1),
    ("10 11 12 20 01 00 00 00 00 00", 2),
    // 19 comes before 3 and 4, which do not count.
    ("10 12 FF 01 00 00 00 00", 19),
    ("10 11 FF 01 11 20 02 02 04 12 20 02 00 00 00 00", 19),
    ("10 11 FF 01 11 20 02 02 04 FF", 1),
];

#[test]
fn what_is_refused() {
    for (text, number) in REFUSED {
        let bytes = assemble(text).expect("notation");
        assert_eq!(convert(&bytes), Err(number), "{text}");
        assert_eq!(check(&bytes), Some(number), "{text}");
    }
}

/// MODEL Z5: 6 comes before all, even where the end command is early.
#[test]
fn refusal_6_comes_first() {
    let wide = [vec![0x12, 0x20, 1, 0, 0, 0], vec![0; 4091]].concat();
    let sets = [[0x11, 0x20, 1].repeat(1365), vec![7, 0]].concat();
    for body in [vec![0; 4097], vec![0xFF; 4097], vec![7; 4097], wide, sets] {
        assert_eq!(body.len(), 4097);
        let short = [&[0x10], &body[..]].concat();
        assert_eq!((convert(&body), convert(&short)), (Err(6), Err(6)));
        assert_eq!((check(&body), check(&short)), (Some(6), Some(6)));
    }
    let end = [vec![0x10], vec![0; 4096]].concat();
    assert_eq!(convert(&end), Ok(vec![0]));
    assert_eq!(convert(&end[1..]), Ok(vec![0x10, 0]));
    assert_eq!(convert(&[0x10; 4097]), Err(1));
    assert_eq!(convert(&[0x10; 4098]), Err(6));
}

/// MODEL Z5: the long form has 4,096 bytes at most, and refusal 20 comes last.
#[test]
fn refusal_20_comes_last() {
    let narrow: [&[u8]; 2] = [&[0x11, 0x20, 1], &[0x12, 0x60, 0, 1, 0, 0]];
    let sets = |count: usize| {
        let pieces = (0..count).map(|index| narrow[index % 2]);
        pieces.fold(vec![0x10], |sum, piece| [&sum, piece].concat())
    };
    // 400 sets and ticks and steps back: 4,000 bytes and as many more as are asked for.
    for length in 4080..=4110 {
        let ticks = [0x06, 0x00].repeat((length - 4001) / 2);
        let backs = vec![0x07; (length - 4001) % 2];
        let bytes = [sets(400), ticks, backs, vec![0]].concat();
        assert_eq!(in_form(Form::Long, &bytes).len(), length);
        let expected = if length <= 4096 { None } else { Some(20) };
        assert_eq!(check(&bytes), expected, "{length}");
        assert_eq!(convert(&bytes).is_ok(), length <= 4096, "{length}");
        // Bytes behind the end play no part.
        assert_eq!(check(&[bytes, vec![0x07; 500]].concat()), expected, "{length}");
    }
    for (last, number) in [
        (&[0x00][..], 20),
        (&[], 2),
        (&[0x11, 0x20], 2),
        (&[0x10, 0x00], 1),
        (&[0x12, 0x20, 1, 0, 0, 0, 0], 19),
    ] {
        assert_eq!(convert(&[&sets(500), last].concat()), Err(number), "{last:02X?}");
    }
    let most = [vec![0x10], [0x11, 0x20, 1].repeat(1365), vec![0]].concat();
    assert_eq!((most.len(), in_form(Form::Long, &most).len()), (4097, 13_651));
    assert_eq!(check(&most), Some(20));
    // No set saves anything here: both forms have the same bytes behind the first.
    let wide = Command::Set { field: 0x60, value: u64::MAX };
    let full = [encoded(Form::Long, wide).repeat(409), vec![0x07; 5], vec![0]].concat();
    assert_eq!((full.len(), check(&full)), (4096, None));
    assert_eq!(convert(&full), Ok([vec![0x10], full.clone()].concat()));
}

/// MODEL Z4 to Z8 for every directed session. Each refusal is met by those in the short
/// form, and by those in the long form but for 19 and 20.
#[test]
fn directed_sessions_in_the_other_form() {
    let mut seen = BTreeMap::new();
    for session in directed::all() {
        let key = (split(&session.bytes).0, check(&session.bytes));
        *seen.entry(key).or_insert(0) += 1;
    }
    let long = [None, Some(1), Some(2), Some(6)].map(|number| (Form::Long, number));
    let short = [None, Some(1), Some(2), Some(6), Some(19), Some(20)];
    let mut wanted: BTreeSet<(Form, Option<u8>)> = long.into_iter().collect();
    wanted.extend(short.map(|number| (Form::Short, number)));
    assert_eq!(seen.keys().copied().collect::<BTreeSet<_>>(), wanted, "{seen:?}");
}

/// The directed sessions at the border: their names say how long the long form is.
#[test]
fn directed_sessions_at_the_border() {
    let mut seen = 0;
    for session in directed::all() {
        if let Some(rest) = session.name.strip_prefix("short-long-form-has-") {
            let length = rest.strip_suffix("-bytes").and_then(|digits| digits.parse().ok());
            assert_eq!(Some(in_form(Form::Long, &session.bytes).len()), length);
            assert_eq!(convert(&session.bytes).is_ok(), length <= Some(4096));
            seen += 1;
        }
    }
    assert_eq!(seen, 2);
}
