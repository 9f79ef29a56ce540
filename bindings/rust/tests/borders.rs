//! The declarations agree with the library, at the borders of both slices.

use pmu::{convert, convert_room, room, session, NotConverted, Short, CONVERT_ROOM, ROOM};

/// The lines of a session.
fn lines(input: &[u8]) -> String {
    let mut out = vec![0xAA; ROOM];
    let text = session(input, &mut out).expect("room").to_vec();
    assert!(out[text.len()..].iter().all(|&b| b == 0xAA), "more than the output was written");
    String::from_utf8(text).expect("ASCII")
}

#[test]
fn the_constants_are_the_library_s() {
    assert_eq!(room(), ROOM);
    assert_eq!(convert_room(), CONVERT_ROOM);
}

#[test]
fn a_short_buffer_is_left_alone() {
    let mut out = vec![0xAA; ROOM - 1];
    assert_eq!(session(&[0], &mut out), Err(Short));
    assert_eq!(session(&[0], &mut []), Err(Short));
    assert!(out.iter().all(|&b| b == 0xAA));
}

/// A short session of so many end commands.
fn short_zeros(count: usize) -> Vec<u8> {
    [vec![0x10], vec![0; count]].concat()
}

#[test]
fn no_bytes_and_too_many() {
    assert_eq!(lines(&[]), "1 refused 2\n");
    assert_eq!(lines(&[0; 4096]), "1 end\n");
    assert_eq!(lines(&[0; 4097]), "0 refused 6\n");
    assert_eq!(lines(&vec![0; 1 << 20]), "0 refused 6\n");
    assert_eq!(lines(&[0x10]), "1 refused 2\n");
    assert_eq!(lines(&short_zeros(4096)), "1 end\n");
    assert_eq!(lines(&short_zeros(4097)), "0 refused 6\n");
}

/// Steps back with nothing listed: each byte is a command, and most lines have 16 bytes.
#[test]
fn the_longest_output() {
    let text = lines(&[7; 4096]);
    assert_eq!(text.len(), 64_444);
    assert!(text.ends_with("\n4096 refused 18\n4097 refused 2\n"));
}

/// A set command.
fn set(field: u8, value: u64) -> Vec<u8> {
    [&[1, field][..], &value.to_le_bytes()[..]].concat()
}

#[test]
fn a_trap_names_its_cause() {
    let mut input = [set(0x00, 1), set(0x09, 1), set(0x10, 1), set(0x0C, 6), set(0x27, 4)].concat();
    input.extend([2, 1, 3, 0x82, 0xE8, 0x3B, 0xD5, 0, 0, 0, 0, 0, 0, 0, 0, 0]);
    assert!(lines(&input).ends_with("\n7 trap 2 6238F851 4\n8 end\n"));
}

#[test]
fn a_member_is_sampled() {
    let mut input = [set(0x80, 1), set(0x8B, 2), set(0x83, 1)].concat();
    input.extend([8, 0, 8, 0, 8, 0, 0]);
    assert!(lines(&input).ends_with("\n4 ok\n5 sampled\n6 ok\n7 end\n"));
}

#[test]
fn a_step_is_taken_back() {
    let mut input = [set(0x00, 1), set(0x0C, 1), set(0x60, 42)].concat();
    let read = [3, 0x02, 0xE8, 0x3B, 0xD5, 0, 0, 0, 0, 0, 0, 0, 0];
    input.extend([2, 1, 3, 0x01, 0xE8, 0x1B, 0xD5, 7, 0, 0, 0, 0, 0, 0, 0, 7]);
    input.extend(read);
    input.extend([7, 7, 7, 0]);
    assert!(lines(&input)
        .ends_with("6 ok\n7 value 000000000000002A 2\n8 ok\n9 ok\n10 refused 18\n11 end\n"));
}

/// The other form of a session, or the number of the refusal.
fn other(input: &[u8]) -> Result<Vec<u8>, NotConverted> {
    let mut out = vec![0xAA; CONVERT_ROOM];
    let given = convert(input, &mut out).map(<[u8]>::to_vec);
    let size = given.as_ref().map_or(0, Vec::len);
    assert!(out[size..].iter().all(|&b| b == 0xAA), "more than the session was written");
    given
}

#[test]
fn there_and_back() {
    let long = [set(0x00, 1), set(0x60, 0x100), set(0x61, 1 << 32), vec![0]].concat();
    let short =
        [0x10, 0x11, 0x00, 1, 0x12, 0x60, 0, 1, 0, 0, 0x01, 0x61, 0, 0, 0, 0, 1, 0, 0, 0, 0];
    assert_eq!(other(&long).as_deref(), Ok(&short[..]));
    assert_eq!(other(&short), Ok(long.clone()));
    assert_eq!(lines(&short), lines(&long));
    assert_eq!(other(&[long.clone(), vec![0x13; 9]].concat()).as_deref(), Ok(&short[..]));
}

#[test]
fn what_is_not_converted() {
    let refused = |number| Err(NotConverted::Refused(number));
    assert_eq!(other(&[]), refused(2));
    assert_eq!(other(&[0x11, 0, 0, 0]), refused(1));
    assert_eq!(other(&[0x10, 0x12, 0, 1, 0, 0, 0, 0]), refused(19));
    assert_eq!(other(&[0; 4097]), refused(6));
    assert_eq!(other(&short_zeros(4097)), refused(6));
    let many = [vec![0x10], [0x11, 0, 0].repeat(410), vec![0]].concat();
    assert_eq!(other(&many), refused(20));
    let mut out = vec![0xAA; CONVERT_ROOM - 1];
    assert_eq!(convert(&[0], &mut out), Err(NotConverted::Short));
    assert_eq!(convert(&[0; 4097], &mut []), Err(NotConverted::Short));
    assert!(out.iter().all(|&b| b == 0xAA));
}

#[test]
fn the_longest_sessions() {
    let long = [set(0x61, u64::MAX).repeat(409), vec![0x06, 0, 0x06, 0, 0x07, 0]].concat();
    assert_eq!(long.len(), 4096);
    let short = other(&long).expect("it has an end command");
    assert_eq!(short.len(), 4097);
    assert_eq!(other(&short), Ok(long));
}
