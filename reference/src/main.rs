//! A reference program for the model of docs/MODEL.md. It runs sessions, turns them
//! into their other form, turns bytes in text (docs/SESSIONS.md) into bytes and back,
//! makes pseudo-random and directed sessions, and prints hashes of their outputs.

use reference::{convert, directed, generate, notation, session};
use std::fs;
use std::io::{self, Read, Write};
use std::path::{Path, PathBuf};
use std::process::ExitCode;

const USAGE: &str = "usage:
  reference run [FILE]                 run a session, print its output
  reference convert [FILE]             a session to its other form
  reference assemble [FILE]            notation to bytes
  reference disassemble [FILE]         bytes to notation
  reference generate SEED COUNT DIR    write DIR/NNNNNN.bin
  reference directed DIR               write DIR/NAME.bin, the directed sessions
  reference check DIR                  print a hash of each session's output";

fn main() -> ExitCode {
    let list: Vec<String> = std::env::args().skip(1).collect();
    let arguments: Vec<&str> = list.iter().map(String::as_str).collect();
    let done = match arguments[..] {
        ["run"] => run(None),
        ["run", file] => run(Some(file)),
        ["convert"] => convert(None),
        ["convert", file] => convert(Some(file)),
        ["assemble"] => assemble(None),
        ["assemble", file] => assemble(Some(file)),
        ["disassemble"] => disassemble(None),
        ["disassemble", file] => disassemble(Some(file)),
        ["generate", seed, count, directory] => generate(seed, count, directory),
        ["directed", directory] => directed(directory),
        ["check", directory] => check(directory),
        _ => Err(USAGE.to_string()),
    };
    match done {
        Ok(()) => ExitCode::SUCCESS,
        Err(message) => {
            eprintln!("{message}");
            ExitCode::FAILURE
        }
    }
}

/// All bytes of a file, or of standard input.
fn input(file: Option<&str>) -> Result<Vec<u8>, String> {
    let mut bytes = Vec::new();
    match file {
        Some(name) => bytes = fs::read(name).map_err(|e| format!("{name}: {e}"))?,
        None => {
            io::stdin().read_to_end(&mut bytes).map_err(|e| format!("standard input: {e}"))?;
        }
    }
    Ok(bytes)
}

/// Writes to standard output.
fn output(bytes: &[u8]) -> Result<(), String> {
    let mut stdout = io::stdout();
    let written = stdout.write_all(bytes).and_then(|()| stdout.flush());
    written.map_err(|e| format!("standard output: {e}"))
}

fn run(file: Option<&str>) -> Result<(), String> {
    output(session::run(&input(file)?).as_bytes())
}

/// MODEL Z5: where it is refused, nothing is written but the number, to standard error.
fn convert(file: Option<&str>) -> Result<(), String> {
    match convert::convert(&input(file)?) {
        Ok(other) => output(&other),
        Err(number) => Err(format!("refused {number}")),
    }
}

fn assemble(file: Option<&str>) -> Result<(), String> {
    let bytes = input(file)?;
    let text = String::from_utf8_lossy(&bytes);
    output(&notation::assemble(&text)?)
}

fn disassemble(file: Option<&str>) -> Result<(), String> {
    output(notation::disassemble(&input(file)?).as_bytes())
}

fn generate(seed: &str, count: &str, directory: &str) -> Result<(), String> {
    let seed: u64 = seed.parse().map_err(|_| "SEED is not a number".to_string())?;
    let count: u64 = count.parse().map_err(|_| "COUNT is not a number".to_string())?;
    fs::create_dir_all(directory).map_err(|e| format!("{directory}: {e}"))?;
    for index in 0..count {
        let path = Path::new(directory).join(format!("{index:06}.bin"));
        let bytes = generate::session(seed, index);
        fs::write(&path, bytes).map_err(|e| format!("{}: {e}", path.display()))?;
    }
    Ok(())
}

fn directed(directory: &str) -> Result<(), String> {
    fs::create_dir_all(directory).map_err(|e| format!("{directory}: {e}"))?;
    for session in directed::all() {
        let path = Path::new(directory).join(format!("{}.bin", session.name));
        fs::write(&path, session.bytes).map_err(|e| format!("{}: {e}", path.display()))?;
    }
    Ok(())
}

/// FNV-1a, 64 bits.
fn hash(bytes: &[u8]) -> u64 {
    let step = |h: u64, &b: &u8| (h ^ b as u64).wrapping_mul(0x0000_0100_0000_01B3);
    bytes.iter().fold(0xCBF2_9CE4_8422_2325, step)
}

/// The files of a directory by name.
fn files(directory: &str) -> Result<Vec<PathBuf>, String> {
    let mut list = Vec::new();
    for entry in fs::read_dir(directory).map_err(|e| format!("{directory}: {e}"))? {
        let path = entry.map_err(|e| format!("{directory}: {e}"))?.path();
        if path.is_file() {
            list.push(path);
        }
    }
    list.sort();
    Ok(list)
}

fn check(directory: &str) -> Result<(), String> {
    let mut text = String::new();
    for path in files(directory)? {
        let bytes = fs::read(&path).map_err(|e| format!("{}: {e}", path.display()))?;
        let name = path.file_name().unwrap_or_default().to_string_lossy().to_string();
        text.push_str(&format!("{:016X} {name}\n", hash(session::run(&bytes).as_bytes())));
    }
    output(text.as_bytes())
}
