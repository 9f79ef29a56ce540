//! The examples: as their `#>` say, by the model and by the reference, and shown within the columns
//! that there are.

use exercise::check::check;
use exercise::names::Names;
use exercise::run::run;
use exercise::show::{show, Width};
use exercise::text::Text;
use reference::{convert, notation, session};

fn examples() -> Vec<(String, Vec<u8>)> {
    let mut list = Vec::new();
    for folder in ["/../examples", "/../examples/limits"] {
        let folder = format!("{}{folder}", env!("CARGO_MANIFEST_DIR"));
        for entry in std::fs::read_dir(folder).expect("examples") {
            let path = entry.expect("an entry").path();
            if path.extension().map_or(false, |e| e == "txt") {
                let text = std::fs::read(&path).expect("a text");
                list.push((path.display().to_string(), text));
            }
        }
    }
    assert!(list.len() >= 50, "only {} examples", list.len());
    list
}

#[test]
fn answers_are_as_expected() {
    let names = Names::new();
    for (name, input) in examples() {
        let text = Text::read(&names, &input);
        let faults: Vec<_> = text.rows.iter().flat_map(|row| &row.faults).collect();
        assert!(faults.is_empty(), "{name}: {faults:?}");
        let run = run(&text);
        assert_eq!(run.lines, session::run(&text.bytes), "{name}");
        let (same, different) = check(&text, &run);
        let said: String = different.iter().map(|d| d.shown(&name)).collect();
        assert!(different.is_empty(), "{said}");
        assert!(same > 0, "{name}");
    }
}

/// In document 01's notation both programs read the same bytes, where each line is a command.
#[test]
fn the_notation_is_read_alike() {
    let names = Names::new();
    let mut alike = 0;
    for (name, input) in examples() {
        let bytes = Text::read(&names, &input).bytes;
        let text = notation::disassemble(&bytes);
        assert_eq!(notation::assemble(&text).as_ref(), Ok(&bytes), "{name}");
        let read = Text::read(&names, text.as_bytes());
        if !read.has_errors() {
            assert_eq!(read.bytes, bytes, "{name}");
            alike += 1;
        }
    }
    assert!(alike >= 40, "only {alike} examples");
}

/// MODEL Z5 to Z7: the other form of each, by the model and by the reference.
#[test]
fn other_forms() {
    let names = Names::new();
    let other = |bytes: &[u8]| {
        let mut room = vec![0; pmu::CONVERT_ROOM];
        pmu::convert(bytes, &mut room).map(<[u8]>::to_vec).ok()
    };
    let mut converted = 0;
    for (name, input) in examples() {
        let text = Text::read(&names, &input);
        let form = other(&text.bytes);
        assert_eq!(form, convert::convert(&text.bytes).ok(), "{name}");
        if let Some(form) = form {
            assert_eq!(session::run(&form), run(&text).lines, "{name}");
            assert!(text.bytes.starts_with(&other(&form).expect("there and back")), "{name}");
            converted += 1;
        }
    }
    assert!(converted >= 40, "only {converted} examples");
}

#[test]
fn nothing_is_wider_than_the_terminal() {
    let names = Names::new();
    for (name, input) in examples() {
        let text = Text::read(&names, &input);
        let run = run(&text);
        for columns in [26, 30, 40, 58, 59, 60, 61, 62, 80, 100, 132] {
            let shown = show(&text, &run, Width::Columns(columns));
            let longest = shown.lines().map(|line| line.chars().count()).max().unwrap_or(0);
            assert!(longest <= columns, "{name}: {longest} of {columns} columns");
            assert!(shown.lines().all(|line| line == line.trim_end()), "{name}");
        }
    }
}

/// However narrow, it is shown, in as few columns as there can be.
#[test]
fn any_width() {
    let names = Names::new();
    for input in ["end", "tick # a", "tick\nend\nend\nbytes 01", "bytes 02 01 02 01\nend", ""] {
        let text = Text::read(&names, input.as_bytes());
        let run = run(&text);
        for columns in (0..70).chain([usize::MAX]) {
            let shown = show(&text, &run, Width::Columns(columns));
            assert!(shown.lines().all(|line| line.chars().count() <= columns.max(24)), "{shown}");
        }
    }
}

/// Wide: a line for each of the text, and one where it has no end. Narrow: answers below.
#[test]
fn wide_and_narrow() {
    let names = Names::new();
    let input = b"set PMUv3 1  # there\n\nset PMCR.N 1\nmrs x30, pmevcntr0_el0  #> trap 1\n";
    let text = Text::read(&names, input);
    let wide = [
        " 1  set PMUv3 1  # there    -> ok",
        " 2",
        " 3  set PMCR.N 1            -> ok",
        " 4  mrs x30, pmevcntr0_el0  -> trap to EL1, syndrome 6230FBD1, cause 1: PMUSERENR_EL0",
        "    (the text ends)         -> refused 2: the bytes end inside a command, or without an end",
    ];
    let narrow = [
        " 1  set PMUv3 1  # there",
        "      -> ok",
        " 2",
        " 3  set PMCR.N 1",
        "      -> ok",
        " 4  mrs x30, pmevcntr0_el0",
        "      -> trap to EL1, syndrome 6230FBD1, cause 1: PMUSERENR_EL0",
        "    (the text ends)",
        "      -> refused 2: the bytes end inside a command, or without an end",
    ];
    let shown =
        |width| show(&text, &run(&text), width).lines().map(String::from).collect::<Vec<_>>();
    assert_eq!(shown(Width::Wide), wide);
    assert_eq!(shown(Width::Narrow), narrow);
}

/// Lines that have no answer of their own.
#[test]
fn lines_without_an_answer() {
    let names = Names::new();
    let text = Text::read(&names, b"bytes 02\nbytes 01\nbytes 06 00 00\ntick\n");
    let wide = [
        " 1  bytes 02        -> ok",
        " 2  bytes 01        -> (taken by the command before)",
        " 3  bytes 06 00 00  -> ok",
        "                    -> end",
        " 4  tick            -> (not read)",
    ];
    let shown = show(&text, &run(&text), Width::Wide);
    assert_eq!(shown.lines().collect::<Vec<_>>(), wide);
}

/// A remark behind `#>` stays, a long line has its answers behind it, and XZR is no number.
#[test]
fn remarks_and_long_lines() {
    let names = Names::new();
    let comment = "x".repeat(60);
    let input =
        format!("bytes 06 00 06 00 # {comment} #> ok # why #> ok\nlevel 1\nmrs xzr, pmicntr_el0\n");
    let text = Text::read(&names, format!("set PMUv3 1\nset ICNTR = 1\n{input}end\n").as_bytes());
    let indent = " ".repeat(4 + 20 + 60 + 1 + 5 + 2);
    let wide = [
        " 1  set PMUv3 1                                                   -> ok".to_string(),
        " 2  set ICNTR = 1                                                 -> ok".to_string(),
        format!(" 3  bytes 06 00 06 00 # {comment} # why  -> ok"),
        format!("{indent}-> ok"),
        " 4  level 1                                                       -> ok".to_string(),
        " 5  mrs xzr, pmicntr_el0                                          -> xzr = 0".to_string(),
        " 6  end                                                           -> end".to_string(),
    ];
    let shown = show(&text, &run(&text), Width::Wide);
    assert_eq!(shown.lines().collect::<Vec<_>>(), wide);
}
