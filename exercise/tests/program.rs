//! The program as it is called: what it prints, where, and its exit status.

use std::io::Write;
use std::process::{Command, Output, Stdio};

/// The program with these arguments and this standard input.
fn exercise(arguments: &[&str], input: &[u8]) -> Output {
    let mut child = Command::new(env!("CARGO_BIN_EXE_exercise"))
        .args(arguments)
        .stdin(Stdio::piped())
        .stdout(Stdio::piped())
        .stderr(Stdio::piped())
        .spawn()
        .expect("the program");
    // a call that is wrong reads nothing
    let _ = child.stdin.take().expect("standard input").write_all(input);
    child.wait_with_output().expect("its output")
}

fn said(bytes: &[u8]) -> String {
    String::from_utf8_lossy(bytes).to_string()
}

/// Standard output, standard error and the exit status.
fn all(arguments: &[&str], input: &str) -> (String, String, i32) {
    let output = exercise(arguments, input.as_bytes());
    (said(&output.stdout), said(&output.stderr), output.status.code().unwrap_or(-1))
}

const WORKED: &str = "set PMUv3 1\nset PMCR.N 2\nset PMEVCNTR1 42\nlevel 1\n\
    mrs x2, pmevcntr1_el0 #> value 000000000000002A 2\nmrs x2, pmevcntr2_el0 #> undef\nend\n";

const LINES: &str = "1 ok\n2 ok\n3 ok\n4 ok\n5 value 000000000000002A 2\n6 undef\n7 end\n";

#[test]
fn run_prints_lines() {
    assert_eq!(all(&["run", "--lines", "-"], WORKED), (LINES.to_string(), String::new(), 0));
    let (out, error, status) = all(&["run", "-"], WORKED);
    assert_eq!((error.as_str(), status), ("", 0));
    assert!(out.contains("\n 5  mrs x2, pmevcntr1_el0  -> x2 = 0x2A (42)\n"), "{out}");
    assert!(out.contains("\n 6  mrs x2, pmevcntr2_el0  -> undefined\n"), "{out}");
    let (narrow, _, _) = all(&["run", "--narrow", "-"], WORKED);
    assert!(narrow.contains("\n 6  mrs x2, pmevcntr2_el0\n      -> undefined\n"), "{narrow}");
    let (columns, _, _) = all(&["run", "--width", "40", "-"], WORKED);
    assert!(columns.lines().all(|line| line.chars().count() <= 40), "{columns}");
}

#[test]
fn check_compares() {
    let (out, error, status) = all(&["check", "-"], WORKED);
    assert_eq!(
        (out.as_str(), error.as_str(), status),
        ("standard input: 7 answers as expected\n", "", 0)
    );
    let wrong = WORKED.replace("2A 2", "2B 2").replace("#> undef", "");
    let (out, error, status) = all(&["check", "-"], &wrong);
    let shown = "\
standard input:5: mrs x2, pmevcntr1_el0
    expected: value 000000000000002B 2
    answered: value 000000000000002A 2 (x2 = 0x2A (42))
standard input:6: mrs x2, pmevcntr2_el0
    expected: ok (there is no #>)
    answered: undef
standard input: 5 answers as expected, 2 not
";
    assert_eq!((out.as_str(), error.as_str(), status), (shown, "", 1));
    // an end that is not read, and one that is missing
    let (out, _, status) = all(&["check", "-"], "tick\nend\nend\n");
    let shown = "\
standard input:3: end
    expected: end (there is no #>)
    answered: nothing
standard input: 2 answers as expected, 1 not
";
    assert_eq!((out.as_str(), status), (shown, 1));
    let (out, _, status) = all(&["check", "-"], "tick\n");
    let shown = "\
standard input:1: (the text ends)
    expected: nothing
    answered: refused 2: the bytes end inside a command, or without an end
standard input: 1 answer as expected, 1 not
";
    assert_eq!((out.as_str(), status), (shown, 1));
}

/// What an expected answer leaves out is not compared, and 0x is as good as all digits.
#[test]
fn an_answer_may_be_shorter() {
    let head = "set PMUv3 1\nset PMCR.N 1\nmrs x2, pmevcntr0_el0 #> ";
    for (expected, status) in [
        ("trap", 0),
        ("trap 1", 0),
        ("TRAP 1 6230f851", 0),
        ("trap 1 0x6230F851 1", 0),
        ("trap 2", 1),
        ("trap 1 6230F850", 1),
        ("trap 1 6230F851 2", 1),
        ("undef", 1),
        ("nothing", 1),
    ] {
        assert_eq!(
            all(&["check", "-"], &format!("{head}{expected}\nend\n")).2,
            status,
            "{expected}"
        );
    }
    // nor may it be longer
    assert_eq!(all(&["check", "-"], "read C00 #> value 0x0\nend\n").2, 0);
    assert_eq!(all(&["check", "-"], "read C00 #> value 0x0 2\nend\n").2, 1);
    // below its line too
    assert_eq!(all(&["check", "-"], "mrs x2, pmicntr_el0\n  #> undef\nend\n").2, 0);
    assert_eq!(all(&["check", "-"], "tick #> ok\n#> refused 2\n").2, 0);
    assert_eq!(all(&["check", "-"], "bytes 02 01 00 #> ok #> end\n").2, 0);
}

/// All files are checked, also behind one with errors.
#[test]
fn check_goes_on() {
    let (out, error, status) = all(&["check", "missing.txt", "-"], WORKED);
    assert_eq!(out, "standard input: 7 answers as expected\n");
    assert!(error.starts_with("missing.txt: "), "{error}");
    assert_eq!(status, 1);
}

#[test]
fn errors_run_nothing() {
    for call in [&["run", "-"][..], &["run", "--lines", "-"], &["check", "-"], &["bytes", "-"]] {
        let (out, error, status) = all(call, "set PMUv3 1\nset PMCR.N\nlevl 1\nend\n");
        let shown = "\
standard input:2:11: the value is missing
    set PMCR.N
              ^
standard input:3:1: no command is called `levl`; did you mean `level`?
    levl 1
    ^^^^
standard input: 2 errors; nothing was run
";
        assert_eq!((out.as_str(), error.as_str(), status), ("", shown, 1), "{call:?}");
    }
}

#[test]
fn warnings_do_not_stop() {
    let (out, error, status) = all(&["run", "--lines", "-"], "set PMCR.N 99\nend\n");
    assert_eq!((out.as_str(), status), ("1 refused 4\n2 end\n", 0));
    assert!(error.starts_with("standard input:1:12: warning: 99 is above"), "{error}");
    let long = format!("{}end\n", "read C00\n".repeat(1366));
    let (out, error, status) = all(&["run", "--lines", "-"], &long);
    assert_eq!((out.as_str(), status), ("0 refused 6\n", 0));
    assert!(error.starts_with("standard input:1366:1: warning: this passes 4,096"), "{error}");
    let (out, _, _) = all(&["run", "-"], &long);
    assert!(out.contains("\n1366  read C00  -> refused 6: the session is too long"), "{out}");
}

#[test]
fn bytes_and_text() {
    let long = exercise(&["bytes", "-"], WORKED.as_bytes()).stdout;
    assert_eq!(long[..10], [1, 0, 1, 0, 0, 0, 0, 0, 0, 0]);
    let short = exercise(&["bytes", "--short", "-"], WORKED.as_bytes()).stdout;
    assert_eq!(short[..7], [0x10, 0x11, 0, 1, 0x11, 0x0C, 2]);
    let text = exercise(&["text", "-"], &long).stdout;
    let plain: Vec<&str> = WORKED.lines().map(|l| l.split(" #>").next().unwrap_or("")).collect();
    assert_eq!(said(&text).lines().collect::<Vec<_>>(), plain);
    let short_text = exercise(&["text", "-"], &short).stdout;
    assert_eq!(said(&short_text), format!("short\n{}", said(&text)));
    // each form from the text of either
    for (option, expected) in [("--short", &short), ("--long", &long)] {
        for text in [&text, &short_text] {
            assert_eq!(exercise(&["bytes", option, "-"], text).stdout, **expected);
        }
    }
    let (out, error, status) = all(&["bytes", "--short", "-"], "tick\nbytes 09\n");
    let refused = "standard input: there is no other form: \
        refused 1: no such command; nothing behind it was read; \
        has the command before it all its bytes? 11 and 12 want `short` first\n";
    assert_eq!((out.as_str(), error.as_str(), status), ("", refused, 1));
}

#[test]
fn tables_and_help() {
    for (call, part) in [
        ("fields", "\n20     PMUSERENR.EN             1                   EN\n"),
        ("registers", "\npmevcntr<m>_el0  3    3    14   8-11  0-7  event counter m"),
        ("registers", "\nPMOVSCLR_EL0       C80     overflow flags; write clears\n"),
        ("commands", "\nmsr REGISTER, Xt = VALUE  03    writes one"),
        ("refusals", "\n13  EL2 is implemented, and HPMN is above N\n    - lower MDCR_EL2.HPMN"),
        ("causes", "\n3   MDCR_EL2.TPM        `set MDCR_EL2.TPM 0`\n"),
        ("--help", "\nexercise bytes [--short | --long] FILE\n"),
    ] {
        let (out, error, status) = all(&[call], "");
        assert!(out.contains(part), "{out}");
        assert_eq!((error.as_str(), status), ("", 0));
        assert!(out.lines().all(|line| line.chars().count() <= 80), "{out}");
    }
}

#[test]
fn wrong_calls() {
    for call in [
        &[][..],
        &["walk"],
        &["run"],
        &["run", "a", "b"],
        &["run", "--quick", "a"],
        &["run", "--width", "a", "b"],
        &["run", "--width"],
        &["run", "--wide", "--narrow", "a"],
        &["check"],
        &["check", "--all", "-"],
        &["bytes"],
        &["text"],
        &["fields", "a"],
    ] {
        let (out, error, status) = all(call, "");
        assert_eq!((out.as_str(), status), ("", 2), "{call:?}");
        assert!(error.ends_with("; see exercise --help\n"), "{error}");
    }
}

/// Options may stand behind the file, and help may be asked for anywhere.
#[test]
fn options_anywhere() {
    assert_eq!(all(&["run", "-", "--lines"], WORKED), (LINES.to_string(), String::new(), 0));
    let short = exercise(&["bytes", "-", "--short"], WORKED.as_bytes()).stdout;
    assert_eq!(short.first(), Some(&0x10));
    let help = all(&["--help"], "");
    assert_eq!(all(&["run", "--help"], ""), help);
    assert_eq!(all(&["help"], ""), help);
}

/// A text that is too long in the long form alone has a short form.
#[test]
fn a_long_text_is_shortened() {
    let text = format!("{}end\n", "set PMUv3 1\n".repeat(500));
    let short = exercise(&["bytes", "--short", "-"], text.as_bytes());
    assert_eq!((short.stdout.len(), short.status.code()), (1 + 3 * 500 + 1, Some(0)));
    let twice = format!("{}end\n", "set PMUv3 1\n".repeat(1500));
    let (out, error, status) = all(&["bytes", "--short", "-"], &twice);
    assert_eq!((out.as_str(), status), ("", 1));
    assert!(error.contains("there is no other form: refused 6"), "{error}");
}

/// MODEL Z1 and R6: the limit does not count the byte of the short form.
#[test]
fn the_limit_of_the_short_form() {
    let full = format!("short\n{}back\nend\n", "tick\n".repeat(2047));
    let (out, error, status) = all(&["run", "--lines", "-"], &full);
    assert!(out.ends_with("\n2049 end\n"), "{error}");
    assert_eq!((error.as_str(), status), ("", 0));
    let long = format!("short\n{}end\n", "tick\n".repeat(2048));
    let (out, error, status) = all(&["run", "--lines", "-"], &long);
    assert_eq!((out.as_str(), status), ("0 refused 6\n", 0));
    assert!(error.starts_with("standard input:2050:1: warning: this passes 4,096"), "{error}");
}

/// Every command has a name in the text of its bytes, but those that no name has.
#[test]
fn text_names_commands() {
    let text = "\
set PMUACR.P 0x7FFFFFFF
set PMEVTYPER30.evtCount 0xFFFF
set EL2 implemented 1
set NVMem[0x838] 9999
set 0xF0 1
level 3
mrs x30, pmevcntr31_el0
mrs xzr, pmicntr_el0
msr pmswinc_el0, x1 = 0x18
msr pmsicr_el1, xzr
mrs x0, s2_3_c9_c12_4
access D503201F = 5
read C80
write CC0 0x1F
tick
tick prohibited
06 02
back
sample 255
end
bytes 02 01  # not read
";
    let bytes = exercise(&["bytes", "-"], text.as_bytes()).stdout;
    assert_eq!(said(&exercise(&["text", "-"], &bytes).stdout), text);
}

/// Lines and names that are longer than anybody writes.
#[test]
fn long_lines() {
    let comment = format!("end # {}\n", "x".repeat(70_000));
    let bytes = format!("bytes{}\nend\n", " 07".repeat(4_000));
    let many = format!("set {} 1\nend{}\n", "a ".repeat(20_000), " #> ok".repeat(20_000));
    for (text, expected) in [(comment, 0), (bytes, 0), (many, 1)] {
        for call in [&["run", "-"][..], &["run", "--width", "80", "-"], &["run", "--narrow", "-"]] {
            let (_, _, status) = all(call, &text);
            assert_eq!(status, expected, "{call:?}");
        }
    }
}

/// A file's name may be any bytes.
#[test]
fn names_of_files() {
    use std::os::unix::ffi::OsStrExt;
    let name = std::ffi::OsStr::from_bytes(b"\xFF.txt");
    let output = Command::new(env!("CARGO_BIN_EXE_exercise")).arg("run").arg(name).output();
    let output = output.expect("the program");
    assert_eq!(output.status.code(), Some(1));
    assert!(said(&output.stderr).contains(".txt: "), "{}", said(&output.stderr));
}

#[test]
fn lost_input_and_output() {
    for call in [&["run", "missing.txt"][..], &["text", "missing.bin"], &["run", "."]] {
        let (out, error, status) = all(call, "");
        assert_eq!((out.as_str(), status), ("", 1), "{call:?}");
        assert!(error.starts_with(&format!("{}: ", call[1])), "{error}");
    }
    let full = std::fs::OpenOptions::new().write(true).open("/dev/full").expect("a full device");
    let lost = Command::new(env!("CARGO_BIN_EXE_exercise")).arg("fields").stdout(full).output();
    let lost = lost.expect("the program");
    assert_eq!(lost.status.code(), Some(1));
    assert!(said(&lost.stderr).starts_with("standard output: "));
}
