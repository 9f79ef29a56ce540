//! The commands by byte and by name, tables S and Z of docs/MODEL.md, and what else may begin a line
//! of text. A later command is a row here, and its operands are kinds of `Operand`.

/// What an operand says, and so how it is written in a text.
#[derive(Clone, Copy, Debug, PartialEq, Eq)]
pub enum Operand {
    /// A field by its name or number.
    Field,
    /// A number of so many bytes.
    Value(usize),
    /// A level.
    Level,
    /// An instruction word. A command with one is written as an instruction.
    Word,
    /// An offset in hexadecimal, or the register that is there.
    Offset,
    /// 1 where counting is prohibited, which is then said by that word.
    Prohibited,
    /// A draw.
    Draw,
}

impl Operand {
    pub fn size(self) -> usize {
        match self {
            Operand::Field | Operand::Level | Operand::Prohibited | Operand::Draw => 1,
            Operand::Offset => 2,
            Operand::Word => 4,
            Operand::Value(size) => size,
        }
    }
}

pub struct Command {
    pub byte: u8,
    /// In docs/MODEL.md.
    pub model: &'static str,
    /// In a text. An access is written by its instruction as well.
    pub name: &'static str,
    pub operands: &'static [Operand],
    /// Whether it is in the short form alone.
    pub short: bool,
    /// How it is written, and what it does then.
    pub usage: &'static [(&'static str, &'static str)],
}

use Operand::{Draw, Field, Level, Offset, Prohibited, Value, Word};

const SET: &[(&str, &str)] = &[("set FIELD VALUE", "puts a value into a field of the machine")];

/// Those of one name stand in the order of their sizes.
pub const COMMANDS: &[Command] = &[
    Command {
        byte: 0x11,
        model: "set",
        name: "set",
        operands: &[Field, Value(1)],
        short: true,
        usage: SET,
    },
    Command {
        byte: 0x12,
        model: "set",
        name: "set",
        operands: &[Field, Value(4)],
        short: true,
        usage: SET,
    },
    Command {
        byte: 0x01,
        model: "set",
        name: "set",
        operands: &[Field, Value(8)],
        short: false,
        usage: SET,
    },
    Command {
        byte: 0x02,
        model: "level",
        name: "level",
        operands: &[Level],
        short: false,
        usage: &[("level NUMBER", "goes to EL0, which is the page, EL1, EL2 or EL3")],
    },
    Command {
        byte: 0x03,
        model: "access",
        name: ACCESS,
        operands: &[Word, Value(8)],
        short: false,
        usage: &[
            ("mrs Xt, REGISTER", "reads a register"),
            ("msr REGISTER, Xt = VALUE", "writes one; Xt holds VALUE, and xzr needs none"),
            ("access WORD = VALUE", "executes any word"),
        ],
    },
    Command {
        byte: 0x04,
        model: "external read",
        name: "read",
        operands: &[Offset],
        short: false,
        usage: &[("read OFFSET", "reads a register from outside")],
    },
    Command {
        byte: 0x05,
        model: "external write",
        name: "write",
        operands: &[Offset, Value(8)],
        short: false,
        usage: &[("write OFFSET VALUE", "writes a register from outside")],
    },
    Command {
        byte: 0x06,
        model: "tick",
        name: "tick",
        operands: &[Prohibited],
        short: false,
        usage: &[
            ("tick", "an instruction, which PMICNTR counts"),
            ("tick prohibited", "an instruction that is not counted"),
        ],
    },
    Command {
        byte: 0x07,
        model: "step back",
        name: "back",
        operands: &[],
        short: false,
        usage: &[("back", "takes the latest step back")],
    },
    Command {
        byte: 0x08,
        model: "member",
        name: "sample",
        operands: &[Draw],
        short: false,
        usage: &[("sample DRAW", "a member of the sample population, for PMSICR")],
    },
    Command {
        byte: 0x00,
        model: "end",
        name: "end",
        operands: &[],
        short: false,
        usage: &[("end", "ends the session")],
    },
];

/// Lines that are no command by name: how they are written, the byte, and what they are for.
pub const LINES: &[(&str, &str, &str)] = &[
    ("short", "10", "the short form; stands before all commands"),
    ("bytes 01 0C v:2", "", "any bytes, as they are"),
    ("01 0C v:2", "", "one whole command in bytes; v: is 8 bytes"),
];

/// The words that begin such lines, and instructions.
pub const SHORT_WORD: &str = "short";
pub const BYTES_WORD: &str = "bytes";
pub const ACCESS: &str = "access";
pub const MRS: &str = "mrs";
pub const MSR: &str = "msr";

/// The byte of the end command.
pub const END: u8 = 0x00;

/// MODEL Z1: a session that begins with this byte is in the short form.
pub const SHORT: u8 = 0x10;

/// MODEL R6: a session of more bytes is not run. The byte before a short one does not count.
pub const LIMIT: usize = 4096;

impl Command {
    /// How many bytes it has.
    pub fn size(&self) -> usize {
        1 + self.operands.iter().map(|operand| operand.size()).sum::<usize>()
    }

    /// Whether a session of that form can have it.
    pub fn is_in(&self, short: bool) -> bool {
        short || !self.short
    }
}

/// The command that a byte begins.
pub fn command(byte: u8, short: bool) -> Option<&'static Command> {
    COMMANDS.iter().find(|c| c.byte == byte && c.is_in(short))
}
