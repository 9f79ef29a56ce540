//! The commands of a session in the long form, and their bytes (section S of
//! docs/MODEL.md).

#[derive(Clone, Copy, Debug)]
pub enum Command {
    End,
    Set { field: u8, value: u64 },
    Level(u8),
    Access { word: u32, operand: u64 },
    Read(u16),
    Write { offset: u16, value: u64 },
    Tick(u8),
    Back,
    Member(u8),
}

use Command::*;

impl Command {
    pub fn bytes(self) -> Vec<u8> {
        match self {
            End => vec![0x00],
            Set { field, value } => [&[0x01, field][..], &value.to_le_bytes()].concat(),
            Level(level) => vec![0x02, level],
            Access { word, operand } => {
                [&[0x03][..], &word.to_le_bytes(), &operand.to_le_bytes()].concat()
            }
            Read(offset) => [&[0x04][..], &offset.to_le_bytes()].concat(),
            Write { offset, value } => {
                [&[0x05][..], &offset.to_le_bytes(), &value.to_le_bytes()].concat()
            }
            Tick(prohibited) => vec![0x06, prohibited],
            Back => vec![0x07],
            Member(draw) => vec![0x08, draw],
        }
    }

    /// The command at the front of these bytes and how many of them it has, or the
    /// number of the refusal (R1, R2).
    pub fn read(bytes: &[u8]) -> Result<(Command, usize), u8> {
        let (&byte, operands) = bytes.split_first().ok_or(2)?;
        let size = *[0, 9, 1, 12, 2, 10, 1, 0, 1].get(byte as usize).ok_or(1)?;
        let o = operands.get(..size).ok_or(2)?;
        let command = match byte {
            0x00 => End,
            0x01 => Set { field: o[0], value: number(&o[1..]) },
            0x02 => Level(o[0]),
            0x03 => Access { word: number(&o[..4]) as u32, operand: number(&o[4..]) },
            0x04 => Read(number(o) as u16),
            0x05 => Write { offset: number(&o[..2]) as u16, value: number(&o[2..]) },
            0x06 => Tick(o[0]),
            0x07 => Back,
            _ => Member(o[0]),
        };
        Ok((command, 1 + size))
    }
}

/// A number, its lowest byte first.
fn number(bytes: &[u8]) -> u64 {
    bytes.iter().rev().fold(0, |sum, &byte| sum << 8 | u64::from(byte))
}
