//! The program `exercise`.

use exercise::check::check;
use exercise::names::Names;
use exercise::run::run;
use exercise::session::{is_long, is_short, shortened};
use exercise::show::{show, Width};
use exercise::terminal;
use exercise::text::Text;
use exercise::words::{remedy, words};
use exercise::{listing, print};
use std::ffi::{OsStr, OsString};
use std::fs;
use std::io::{self, ErrorKind, Read, Write};
use std::process::ExitCode;

const HELP: &str = "\
Exercises for the model of the performance counter registers, as text.

exercise run [--wide | --narrow | --width N | --lines] FILE
                        run it: each line with its answer in words, beside it or
                        below; --lines: exactly the session's lines
exercise check FILE..   run them, and compare with the answers that #> expects
exercise bytes [--short | --long] FILE
                        the session's bytes, as it is written or in that form
exercise text FILE      the text of a session's bytes
exercise commands       how commands are written
exercise fields         the fields that `set` names
exercise registers      the registers of `mrs`, `msr`, `read` and `write`
exercise refusals       what `refused` and its numbers mean
exercise causes         what the last number of a trap means

FILE is - for standard input. A text has a command to a line, and # before a
comment:

    set PMUv3 1
    set PMCR.N 2
    set PMEVCNTR1 42            # its number, 61, will do for the name
    level 1
    mrs x2, pmevcntr1_el0       #> value 0x2A 2
    msr pmswinc_el0, x1 = 0x18
    end

Numbers are decimal or begin with 0x; those of fields, words and offsets are
hexadecimal. Case does not matter. What follows #> is the answer that is
expected, `ok` where there is none; what it leaves out at its end is not
compared.

The exit status is 0 where all went well; 1 where a text has errors, an answer
is not the expected one, a session has no other form, or a file can't be read
or written; 2 where the call was wrong.
";

/// Why the program ends with another status than 0. What is to be said stands inside.
enum Stop {
    Failed(String),
    Usage(String),
}

fn usage<T>(said: impl Into<String>) -> Result<T, Stop> {
    Err(Stop::Usage(said.into()))
}

fn main() -> ExitCode {
    let arguments: Vec<OsString> = std::env::args_os().skip(1).collect();
    let (said, status) = match call(&arguments) {
        Ok(()) => return ExitCode::SUCCESS,
        Err(Stop::Failed(said)) => (said, 1),
        Err(Stop::Usage(said)) => (format!("exercise: {said}; see exercise --help\n"), 2),
    };
    complain(&said);
    ExitCode::from(status)
}

/// Says something on standard error. Where that is lost too, the status is all that can be said.
fn complain(said: &str) {
    let _ = io::stderr().write_all(said.as_bytes());
}

fn call(arguments: &[OsString]) -> Result<(), Stop> {
    let (first, rest) = match arguments.split_first() {
        Some((first, rest)) => (first.to_string_lossy(), rest),
        None => return usage("say what is to be done"),
    };
    if first == "help" || arguments.iter().any(|a| a == "--help" || a == "-h") {
        return output(HELP.as_bytes());
    }
    let names = Names::new();
    let table = match first.as_ref() {
        "run" => return run_file(&names, rest),
        "check" => return check_files(&names, rest),
        "bytes" => return bytes(&names, rest),
        "text" => return text(&names, rest),
        "fields" => listing::fields(),
        "registers" => listing::registers(),
        "commands" => listing::commands(),
        "refusals" => listing::refusals(),
        "causes" => listing::causes(),
        other => return usage(format!("no such call: {other}")),
    };
    match rest {
        [] => output(table.as_bytes()),
        _ => usage(format!("{first} takes nothing more")),
    }
}

/// The options of a call, each with its number where it has one, and its files.
type Parts<'a> = (Vec<(&'static str, usize)>, Vec<&'a OsStr>);

fn parts<'a>(arguments: &'a [OsString], known: &[&'static str]) -> Result<Parts<'a>, Stop> {
    let (mut options, mut files) = (Vec::new(), Vec::new());
    let mut rest = arguments.iter();
    while let Some(argument) = rest.next() {
        let word = argument.to_string_lossy();
        match known.iter().find(|option| **option == word) {
            Some(option) if *option == "--width" => {
                let number = rest.next().and_then(|number| number.to_str()?.parse().ok());
                match number {
                    Some(number) => options.push((*option, number)),
                    None => return usage("--width wants a number of columns"),
                }
            }
            Some(option) => options.push((*option, 0)),
            None if word.starts_with('-') && word != "-" => {
                return usage(format!("no such option here: {word}"));
            }
            None => files.push(argument.as_os_str()),
        }
    }
    match options.len() {
        0 | 1 => Ok((options, files)),
        _ => usage("one option is enough"),
    }
}

/// The only file of a call.
fn one<'a>(files: &[&'a OsStr]) -> Result<&'a OsStr, Stop> {
    match files {
        [file] => Ok(file),
        [] => usage("the FILE is missing"),
        _ => usage("one FILE is enough"),
    }
}

/// The bytes of a file, or of standard input.
fn input(file: &OsStr) -> Result<Vec<u8>, Stop> {
    let mut bytes = Vec::new();
    let read = match file == "-" {
        true => io::stdin().read_to_end(&mut bytes).map(|_| bytes),
        false => fs::read(file),
    };
    read.map_err(|error| Stop::Failed(format!("{}: {error}\n", title(file))))
}

fn title(file: &OsStr) -> String {
    match file == "-" {
        true => "standard input".to_string(),
        false => file.to_string_lossy().to_string(),
    }
}

/// Writes to standard output. Where nobody reads it, there is nobody to tell.
fn output(bytes: &[u8]) -> Result<(), Stop> {
    let mut stdout = io::stdout();
    let written = stdout.write_all(bytes).and_then(|()| stdout.flush());
    written.map_err(|error| match error.kind() {
        ErrorKind::BrokenPipe => Stop::Failed(String::new()),
        _ => Stop::Failed(format!("standard output: {error}\n")),
    })
}

/// A text without errors. Warnings are said on standard error.
fn read(names: &Names, file: &OsStr) -> Result<Text, Stop> {
    let text = Text::read(names, &input(file)?);
    warn(&text, file)?;
    Ok(text)
}

/// Says what is wrong with a text, and stops where it has errors.
fn warn(text: &Text, file: &OsStr) -> Result<(), Stop> {
    let title = title(file);
    let mut said = String::new();
    let mut errors = 0;
    for row in &text.rows {
        for fault in &row.faults {
            said.push_str(&fault.shown(&title, row.number, &row.source));
            errors += usize::from(fault.is_error());
        }
    }
    let count = match errors {
        0 => {
            complain(&said);
            return Ok(());
        }
        1 => "1 error".to_string(),
        _ => format!("{errors} errors"),
    };
    Err(Stop::Failed(format!("{said}{title}: {count}; nothing was run\n")))
}

fn run_file(names: &Names, arguments: &[OsString]) -> Result<(), Stop> {
    let (options, files) = parts(arguments, &["--lines", "--wide", "--narrow", "--width"])?;
    let text = read(names, one(&files)?)?;
    let run = run(&text);
    let width = match options.first() {
        Some(("--lines", _)) => return output(run.lines.as_bytes()),
        Some(("--wide", _)) => Width::Wide,
        Some(("--narrow", _)) => Width::Narrow,
        Some((_, columns)) => Width::Columns(*columns),
        None => terminal::columns().map_or(Width::Wide, Width::Columns),
    };
    output(show(&text, &run, width).as_bytes())
}

fn check_files(names: &Names, arguments: &[OsString]) -> Result<(), Stop> {
    let (_, files) = parts(arguments, &[])?;
    if files.is_empty() {
        return usage("the FILE is missing");
    }
    let mut failed = false;
    for file in files {
        let text = match read(names, file) {
            Ok(text) => text,
            Err(Stop::Failed(said)) => {
                complain(&said);
                failed = true;
                continue;
            }
            Err(stop) => return Err(stop),
        };
        let (same, different) = check(&text, &run(&text));
        let shown: String = different.iter().map(|d| d.shown(&title(file))).collect();
        let answers = if same == 1 { "answer" } else { "answers" };
        let not =
            if different.is_empty() { String::new() } else { format!(", {} not", different.len()) };
        failed |= !different.is_empty();
        output(format!("{shown}{}: {same} {answers} as expected{not}\n", title(file)).as_bytes())?;
    }
    match failed {
        true => Err(Stop::Failed(String::new())),
        false => Ok(()),
    }
}

fn bytes(names: &Names, arguments: &[OsString]) -> Result<(), Stop> {
    let (options, files) = parts(arguments, &["--short", "--long"])?;
    let file = one(&files)?;
    if terminal::is_terminal() {
        return usage("bytes are for a file or a pipe");
    }
    let wanted = options.first().map(|(option, _)| *option == "--short");
    let text = Text::read(names, &input(file)?);
    let short = shortened(&text.bytes).filter(|short| !text.has_errors() && !is_long(short));
    if wanted == Some(true) && !is_short(&text.bytes) && is_long(&text.bytes) {
        // too long in the long form alone, of which there is then no warning
        if let Some(short) = short {
            return output(&short);
        }
    }
    warn(&text, file)?;
    match wanted.filter(|short| *short != is_short(&text.bytes)) {
        None => output(&text.bytes),
        Some(_) => output(&other_form(&text.bytes, &title(file))?),
    }
}

/// The other form, by the proved conversion.
fn other_form(bytes: &[u8], title: &str) -> Result<Vec<u8>, Stop> {
    let mut room = vec![0; pmu::CONVERT_ROOM];
    match pmu::convert(bytes, &mut room) {
        Ok(other) => Ok(other.to_vec()),
        Err(pmu::NotConverted::Short) => unreachable!("a buffer of CONVERT_ROOM bytes"),
        Err(pmu::NotConverted::Refused(number)) => {
            let refusal = format!("refused {number}");
            let (means, remedy) = (words(&refusal), remedy(&refusal));
            Err(Stop::Failed(format!("{title}: there is no other form: {means}; {remedy}\n")))
        }
    }
}

fn text(names: &Names, arguments: &[OsString]) -> Result<(), Stop> {
    let (_, files) = parts(arguments, &[])?;
    output(print::text(names, &input(one(&files)?)?).as_bytes())
}
