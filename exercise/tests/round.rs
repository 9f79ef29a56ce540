//! Bytes to text to bytes is the identity, and both programs read document 01's notation alike.

use exercise::names::Names;
use exercise::print;
use exercise::run::run;
use exercise::session::{is_long, is_short, shortened};
use exercise::text::Text;
use reference::{directed, generate, notation, session};

const SEED: u64 = 18;
const COUNT: u64 = 100_000;

fn bytes(names: &Names, text: &str) -> Vec<u8> {
    let read = Text::read(names, text.as_bytes());
    let faults: Vec<_> = read.rows.iter().flat_map(|row| &row.faults).collect();
    assert!(!read.has_errors(), "{faults:?}\n{text}");
    read.bytes
}

/// The same text as others may write it.
fn otherwise(text: &str) -> String {
    let code = |line: &str| line.split('#').next().unwrap_or("").trim().to_uppercase();
    let lines: Vec<String> = text.lines().map(|line| code(line).replace(' ', "\t  ")).collect();
    format!("\u{feff}  {}\r\n# an end\r\n", lines.join("\r\n "))
}

fn there_and_back(names: &Names, session: &[u8]) {
    let text = print::text(names, session);
    assert_eq!(bytes(names, &text), session, "{text}");
}

fn there_and_back_otherwise(names: &Names, session: &[u8]) {
    let text = otherwise(&print::text(names, session));
    assert_eq!(bytes(names, &text), session, "{text}");
}

/// Where the reading comes to an end and nothing is behind it, the reference's notation of the
/// session has one whole command to a line.
fn notation_alike(names: &Names, session: &[u8]) -> bool {
    let text = notation::disassemble(session);
    let parts = ["# cut off", "# no command", "# not read", "# after the end"];
    if parts.iter().any(|part| text.contains(part)) {
        assert!(
            Text::read(names, text.as_bytes()).has_errors() || text.contains("# after the end")
        );
        return false;
    }
    assert_eq!(bytes(names, &text), session, "{text}");
    assert_eq!(notation::assemble(&text).as_deref(), Ok(session), "{text}");
    true
}

/// Every answer of the model has its line of the text.
fn answers_have_lines(names: &Names, session: &[u8]) {
    let text = Text::read(names, print::text(names, session).as_bytes());
    let run = run(&text);
    let given = run.answers.iter().map(Vec::len).sum::<usize>() + usize::from(run.behind.is_some());
    assert_eq!(given, run.lines.lines().count());
    assert_eq!(run.lines, session::run(session));
    let most = run.answers.iter().map(Vec::len).max();
    assert!(is_long(session) || most.map_or(true, |most| most <= 1));
}

/// A share of the random sessions; how many of them have one whole command to a line.
fn random_share(share: impl Iterator<Item = u64>) -> u64 {
    let names = Names::new();
    let mut alike = 0;
    for index in share {
        let session = generate::session(SEED, index);
        there_and_back(&names, &session);
        alike += u64::from(notation_alike(&names, &session));
        if index % 10 < 2 {
            there_and_back_otherwise(&names, &session);
            answers_have_lines(&names, &session);
        }
    }
    alike
}

#[test]
fn random_sessions() {
    let even = std::thread::spawn(|| random_share((0..COUNT).step_by(2)));
    let odd = random_share((1..COUNT).step_by(2));
    let alike = odd + even.join().expect("the other half");
    assert!(alike > COUNT / 2, "only {alike} in the notation");
}

#[test]
fn directed_sessions() {
    let names = Names::new();
    for session in directed::all() {
        there_and_back(&names, &session.bytes);
        there_and_back_otherwise(&names, &session.bytes);
        notation_alike(&names, &session.bytes);
        answers_have_lines(&names, &session.bytes);
    }
}

/// A word, an operand, a field, a level: whatever the bytes, they have a text.
#[test]
fn any_bytes() {
    let names = Names::new();
    let mut random = generate::Rng::new(SEED, 0);
    for _ in 0..20_000 {
        let mut session: Vec<u8> = (0..random.below(60)).map(|_| random.next() as u8).collect();
        if random.chance(50) {
            session.iter_mut().for_each(|byte| *byte %= 0x13);
        }
        there_and_back(&names, &session);
        there_and_back_otherwise(&names, &session);
        answers_have_lines(&names, &session);
    }
}

/// Words that move system registers, by a stride that meets all parts, and words like them.
#[test]
fn any_word() {
    let names = Names::new();
    for low in (0..1u32 << 22).step_by(7) {
        for high in [0x354, 0x355] {
            let mut session = vec![3];
            session.extend((high << 22 | low).to_le_bytes());
            session.extend(9u64.to_le_bytes());
            there_and_back(&names, &session);
        }
    }
}

/// MODEL Z4: the short form that is made here is that of the proved conversion.
#[test]
fn shortened_is_converted() {
    let mut room = vec![0; pmu::CONVERT_ROOM];
    let mut compared = 0;
    for index in 0..5_000 {
        let bytes = generate::session(SEED, index);
        if is_short(&bytes) {
            continue;
        }
        if let Ok(short) = pmu::convert(&bytes, &mut room) {
            assert_eq!(shortened(&bytes).as_deref(), Some(short));
            compared += 1;
        } else {
            assert!(is_long(&bytes) || shortened(&bytes).is_none());
        }
    }
    assert!(compared > 1_000, "only {compared} sessions");
}
