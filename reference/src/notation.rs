//! Sessions as bytes in text (docs/SESSIONS.md): hexadecimal, and `v:n` for a value
//! of 8 bytes, little-endian, n decimal or 0x and hexadecimal. `#` starts a
//! comment. Assembling what was disassembled gives the same bytes.

use crate::form::{split, Form, SHORT_FORM};
use crate::model::{Move, Register};
use crate::session::{read, Command, Parsed};

/// Text to bytes.
pub fn assemble(text: &str) -> Result<Vec<u8>, String> {
    let mut bytes = Vec::new();
    let text = text.strip_prefix('\u{feff}').unwrap_or(text);
    for (index, line) in text.lines().enumerate() {
        let code = line.split('#').next().unwrap_or("");
        for token in code.split_whitespace() {
            match number(token) {
                Some(some) => bytes.extend(some),
                None => return Err(format!("line {}: cannot read {token:?}", index + 1)),
            }
        }
    }
    Ok(bytes)
}

/// The bytes of one word of the notation.
fn number(token: &str) -> Option<Vec<u8>> {
    if let Some(value) = token.strip_prefix("v:") {
        let value = match value.strip_prefix("0x") {
            Some(digits) => digits_only(digits, 16)?,
            None => digits_only(value, 10)?,
        };
        return Some(value.to_le_bytes().to_vec());
    }
    if token.len() != 2 {
        return None;
    }
    Some(vec![digits_only(token, 16)? as u8])
}

/// A number of digits alone: no sign, not empty, at most 64 bits.
fn digits_only(text: &str, radix: u32) -> Option<u64> {
    if !text.chars().all(|c| c.is_digit(radix)) {
        return None;
    }
    u64::from_str_radix(text, radix).ok()
}

/// Bytes to text, one command a line.
pub fn disassemble(bytes: &[u8]) -> String {
    let mut text = String::new();
    let (form, mut rest) = split(bytes);
    if form == Form::Short {
        plain(&mut text, &[SHORT_FORM], "short form");
    }
    for parsed in read(form, rest) {
        match parsed {
            Parsed::Command(command, length) => {
                line(&mut text, &rest[..length], command, "");
                rest = &rest[length..];
            }
            Parsed::TooWide(command, length) => {
                line(&mut text, &rest[..length], command, ", too wide");
                rest = &rest[length..];
            }
            Parsed::Unknown => {
                plain(&mut text, &rest[..1], "no command");
                plain(&mut text, &rest[1..], "not read");
                return text;
            }
            Parsed::Cut => {
                plain(&mut text, rest, "cut off");
                return text;
            }
        }
    }
    plain(&mut text, rest, "after the end");
    text
}

/// A command by its bytes. MODEL Z2: a set of the short form with a value of 1 or 4
/// bytes has no other notation than these.
fn line(text: &mut String, bytes: &[u8], command: Command, remark: &str) {
    let code = match bytes[0] {
        0x11 | 0x12 => hexadecimal(bytes),
        _ => code(command),
    };
    text.push_str(&format!("{code}  # {}{remark}\n", comment(command)));
}

/// Bytes that are no command, up to 16 a line.
fn plain(text: &mut String, bytes: &[u8], comment: &str) {
    for row in bytes.chunks(16) {
        text.push_str(&format!("{}  # {comment}\n", hexadecimal(row)));
    }
}

/// Bytes as two digits each.
fn hexadecimal(bytes: &[u8]) -> String {
    let list: Vec<String> = bytes.iter().map(|b| format!("{b:02X}")).collect();
    list.join(" ")
}

/// A command in the notation.
pub fn code(command: Command) -> String {
    match command {
        Command::End => "00".to_string(),
        Command::Set { field, value } => format!("01 {field:02X} v:{value}"),
        Command::Level(level) => format!("02 {level:02X}"),
        Command::Access { word, operand } => {
            format!("03 {} v:{operand}", hexadecimal(&word.to_le_bytes()))
        }
        Command::Read { offset } => format!("04 {}", hexadecimal(&offset.to_le_bytes())),
        Command::Write { offset, value } => {
            format!("05 {} v:{value}", hexadecimal(&offset.to_le_bytes()))
        }
        Command::Tick { prohibited } => format!("06 {prohibited:02X}"),
        Command::Back => "07".to_string(),
        Command::Member { draw } => format!("08 {draw:02X}"),
    }
}

/// What a command is.
fn comment(command: Command) -> String {
    match command {
        Command::End => "end".to_string(),
        Command::Set { field, .. } => format!("set {}", field_name(field)),
        Command::Level(level) => format!("level {level}"),
        Command::Access { word, .. } => format!("access {word:08X}{}", instruction(word)),
        Command::Read { offset } => format!("external read at {offset:03X}"),
        Command::Write { offset, .. } => format!("external write at {offset:03X}"),
        Command::Tick { prohibited: 0 } => "tick".to_string(),
        Command::Tick { prohibited: 1 } => "tick, prohibited".to_string(),
        Command::Tick { .. } => "tick, no such flag".to_string(),
        Command::Back => "step back".to_string(),
        Command::Member { draw } => format!("member, draw {draw}"),
    }
}

/// The instruction, where the word is one of ours.
fn instruction(word: u32) -> String {
    let found = match Move::decode(word) {
        Some(found) => found,
        None => return String::new(),
    };
    let name = match found.register() {
        Some(Register::Pmevcntr(m)) => format!("PMEVCNTR{m}_EL0"),
        Some(Register::Pmswinc) => "PMSWINC_EL0".to_string(),
        Some(Register::Pmicntr) => "PMICNTR_EL0".to_string(),
        Some(Register::Pmsicr) => "PMSICR_EL1".to_string(),
        None => return String::new(),
    };
    let xt = if found.rt == 31 { "XZR".to_string() } else { format!("X{}", found.rt) };
    if found.read {
        format!(", MRS {xt}, {name}")
    } else {
        format!(", MSR {name}, {xt}")
    }
}

/// The name of a field for people.
fn field_name(field: u8) -> String {
    match field {
        0x40..=0x5E => format!("event number of counter {}", field - 0x40),
        0x60..=0x7E => format!("counter {}", field - 0x60),
        _ => match NAMES.iter().find(|(number, _)| *number == field) {
            Some((_, name)) => name.to_string(),
            None => format!("{field:02X}, no such field"),
        },
    }
}

/// Names of the fields outside the two rows of counters.
const NAMES: [(u8, &str); 62] = [
    (0x00, "PMUv3"),
    (0x01, "PMUv3p5"),
    (0x02, "PMUv3p9"),
    (0x03, "PMUv3_ICNTR"),
    (0x04, "FGT"),
    (0x05, "FGT2"),
    (0x06, "HPMN0"),
    (0x07, "EXT32"),
    (0x08, "EXT64"),
    (0x09, "EL2 implemented"),
    (0x0A, "EL3 implemented"),
    (0x0B, "EL3 trap priority"),
    (0x0C, "N"),
    (0x10, "EL2 enabled"),
    (0x11, "Halted"),
    (0x12, "SDD"),
    (0x20, "PMUSERENR.EN"),
    (0x21, "PMUSERENR.SW"),
    (0x22, "PMUSERENR.ER"),
    (0x23, "PMUSERENR.UEN"),
    (0x24, "HCR.E2H"),
    (0x25, "HCR.TGE"),
    (0x26, "MDCR_EL2.TPM"),
    (0x27, "MDCR_EL2.HPMN"),
    (0x28, "MDCR_EL3.TPM"),
    (0x29, "MDCR_EL3.EnPM2"),
    (0x2A, "SCR.FGTEn"),
    (0x2B, "SCR.FGTEn2"),
    (0x2C, "fine-grained read of PMEVCNTRn"),
    (0x2D, "fine-grained write of PMEVCNTRn"),
    (0x2E, "fine-grained write of PMSWINC"),
    (0x2F, "fine-grained read of nPMICNTR"),
    (0x30, "fine-grained write of nPMICNTR"),
    (0x31, "PMUSERENR.IR"),
    (0x32, "PMUACR.P"),
    (0x33, "PMUACR.F0"),
    (0x34, "counter enables"),
    (0x35, "PMCR.LP"),
    (0x36, "MDCR_EL2.HLP"),
    (0x37, "overflow flags"),
    (0x38, "core powered"),
    (0x39, "double lock"),
    (0x3A, "OS lock"),
    (0x3B, "external access allowed"),
    (0x3C, "software lock"),
    (0x3D, "PMCR.E"),
    (0x3E, "MDCR_EL2.HPME"),
    (0x7F, "instruction counter"),
    (0x80, "SPE"),
    (0x81, "PMSIDR.ERnd"),
    (0x82, "PMSIRR.RND"),
    (0x83, "profiling"),
    (0x84, "HCR.NV"),
    (0x85, "HCR.NV2"),
    (0x86, "MDCR_EL2.TPMS"),
    (0x87, "SCR.NS"),
    (0x88, "MDCR_EL3.NSPB"),
    (0x89, "fine-grained read of PMSICR"),
    (0x8A, "fine-grained write of PMSICR"),
    (0x8B, "reload of the primary counter"),
    (0x8C, "PMSICR"),
    (0x8D, "word at 838"),
];
