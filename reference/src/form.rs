//! MODEL Z1 to Z3: the two forms of a session. They differ in their sets alone. In the long
//! form a value has 8 bytes. In the short form it has 1, 4 or 8, the fewest that hold it.

/// MODEL Z1: a session that starts with this byte is in the short form. Elsewhere
/// it is no command.
pub const SHORT_FORM: u8 = 0x10;

/// MODEL Z1: the form of a session.
#[derive(Clone, Copy, Debug, PartialEq, Eq, PartialOrd, Ord)]
pub enum Form {
    Long,
    Short,
}

/// MODEL Z1: the form of a session, and its bytes without the one that says so.
pub fn split(bytes: &[u8]) -> (Form, &[u8]) {
    match bytes.split_first() {
        Some((&SHORT_FORM, rest)) => (Form::Short, rest),
        _ => (Form::Long, bytes),
    }
}

impl Form {
    /// MODEL S1 and Z2: the set commands: their byte, and how many bytes the value
    /// has. The narrowest comes first.
    pub fn sets(self) -> &'static [(u8, usize)] {
        match self {
            Form::Long => &[(0x01, 8)],
            Form::Short => &[(0x11, 1), (0x12, 4), (0x01, 8)],
        }
    }

    /// How many bytes the value has behind a command byte, if that is a set.
    pub fn width(self, byte: u8) -> Option<usize> {
        self.sets().iter().find(|(set, _)| *set == byte).map(|(_, width)| *width)
    }

    /// MODEL Z3: the command byte of the narrowest set that holds a value.
    pub fn narrowest(self, value: u64) -> u8 {
        let holds = |width: usize| width == 8 || value < 1 << (8 * width);
        self.sets().iter().find(|(_, width)| holds(*width)).map_or(0x01, |(set, _)| *set)
    }

    /// A set in this form.
    pub fn set(self, field: u8, value: u64) -> Vec<u8> {
        set_by(self.narrowest(value), field, value)
    }
}

/// MODEL Z2 and S7: a set by its command byte. Of the value it has as many bytes as
/// there is room for, the lowest first.
pub fn set_by(byte: u8, field: u8, value: u64) -> Vec<u8> {
    let width = Form::Short.width(byte).unwrap_or(8);
    let mut bytes = vec![byte, field];
    bytes.extend(&value.to_le_bytes()[..width]);
    bytes
}
