//! What a call answers, and its text.

use super::library::Reply;
use std::fmt;

/// What a call answers (section L of docs/MODEL.md). Its text is what stands
/// behind the position in a session's line.
#[derive(Clone, Copy, Debug, PartialEq, Eq, Hash)]
pub enum Answer {
    /// Done, or ignored.
    Ok,
    /// A member of the sample population that is selected.
    Sampled,
    /// The access is undefined.
    Undef,
    /// No word or offset of the model's.
    Other,
    /// An external access that gets an error.
    Error,
    /// A trap: the level that takes it, 1 to 3, its syndrome, and the number of
    /// the control that stops the access (section D).
    Trap { level: u8, syndrome: u32, cause: u8 },
    /// What an external read reads.
    Value(u64),
    /// What MRS reads, and the number of its register Xt.
    Mrs { value: u64, rt: u8 },
    /// The number of the refusal (section R): nothing was done.
    Refused(u8),
}

impl Answer {
    /// The answer that a reply of the library stands for. There are no replies
    /// but these; a library that gives another is not the one declared here.
    pub(super) fn of(reply: Reply) -> Answer {
        match (reply.kind, reply.detail, reply.cause, reply.value) {
            (1, 0, 0, 0) => Answer::Ok,
            (2, 0, 0, 0) => Answer::Sampled,
            (4, 0, 0, 0) => Answer::Undef,
            (5, 0, 0, 0) => Answer::Other,
            (6, 0, 0, 0) => Answer::Error,
            (7, level @ 1..=3, cause @ 1..=0xFF, syndrome @ 0..=0xFFFF_FFFF) => {
                Answer::Trap { level: level as u8, syndrome: syndrome as u32, cause: cause as u8 }
            }
            (8, 0, 0, value) => Answer::Value(value),
            (9, rt @ 0..=31, 0, value) => Answer::Mrs { value, rt: rt as u8 },
            (10, number @ 1..=0xFF, 0, 0) => Answer::Refused(number as u8),
            _ => panic!("no call answers {reply:?}"),
        }
    }
}

impl fmt::Display for Answer {
    fn fmt(&self, f: &mut fmt::Formatter<'_>) -> fmt::Result {
        match *self {
            Answer::Ok => f.write_str("ok"),
            Answer::Sampled => f.write_str("sampled"),
            Answer::Undef => f.write_str("undef"),
            Answer::Other => f.write_str("other"),
            Answer::Error => f.write_str("error"),
            Answer::Trap { level, syndrome, cause } => {
                write!(f, "trap {level} {syndrome:08X} {cause}")
            }
            Answer::Value(value) => write!(f, "value {value:016X}"),
            Answer::Mrs { value, rt } => write!(f, "value {value:016X} {rt}"),
            Answer::Refused(number) => write!(f, "refused {number}"),
        }
    }
}
