//! What is wrong with a text, or likely to be: every error and warning in words, and how it is shown
//! at its place.

use std::fmt;

/// Where in a line something stands, in bytes of the line.
#[derive(Clone, Copy, Debug, PartialEq, Eq)]
pub struct Span {
    pub start: usize,
    pub end: usize,
}

/// Kinds of problems, a row each: its name, what it holds, and its words.
macro_rules! problems {
    ($(#[$about:meta])* $name:ident: $($kind:ident { $($part:ident: $type:ty),* } => $words:literal,)*) => {
        $(#[$about])*
        #[derive(Clone, Debug, PartialEq, Eq)]
        pub enum $name {
            $($kind { $($part: $type),* },)*
        }

        impl $name {
            pub const KINDS: &'static [&'static str] = &[$(stringify!($kind)),*];

            pub fn kind(&self) -> &'static str {
                match self {
                    $($name::$kind { .. } => stringify!($kind),)*
                }
            }
        }

        impl fmt::Display for $name {
            fn fmt(&self, f: &mut fmt::Formatter) -> fmt::Result {
                match self {
                    $($name::$kind { $($part),* } => write!(f, $words),)*
                }
            }
        }
    };
}

problems! {
    /// What can't be a session's text. Nothing is run then.
    Error:
    NotUtf8 {} => "this is not text in UTF-8: save it so (a session's bytes are for `exercise text`)",
    Utf16 {} => "the text is in UTF-16: save it as UTF-8",
    Control {} => "a control character (a session's bytes are for `exercise text`)",
    NoCommand { word: String } => "no command is called `{word}`",
    NoField { word: String } => "no field is called `{word}`",
    ManyFields { word: String, names: String } => "`{word}` is more than one field: `{names}`",
    FieldNumber { word: String } => "`{word}`: the number of a field has two hexadecimal digits",
    NoRegister { word: String } => "the model has no register `{word}`",
    NoOffset { word: String } => "`{word}` is neither an offset, in hexadecimal, nor a register there",
    NoXt { word: String } => "`{word}` is none of x0 to x30 and xzr",
    NoWord { word: String } => "`{word}`: a word has eight hexadecimal digits",
    Order { right: &'static str } => "the other way round: `{right}`",
    NoNumber { word: String } => "`{word}` is no number, decimal or with 0x",
    TooLarge { what: &'static str, most: String } => "{what} is too large: a session has room for up to {most}",
    Missing { what: &'static str } => "{what} is missing",
    NoComma {} => "a comma is missing before this",
    NoEquals {} => "`=` is missing before this",
    NoValue {} => "what does it hold? Write `= VALUE` behind it",
    Surplus { word: String } => "`{word}` is too much: the command ends before it",
    NoByte { word: String } => "`{word}`: a byte has two hexadecimal digits, and 8 bytes are `v:` and a number",
    NoBytes {} => "there is no byte behind `bytes`",
    UnknownByte { byte: u8 } => "no command begins with {byte:02X}",
    ShortOnly { byte: u8 } => "{byte:02X} is of the short form alone: begin the text with `short`",
    TooFew { name: &'static str, wants: usize, has: usize } =>
        "`{name}` has {wants} bytes, and here the line ends after {has} (write `bytes` before them if it is meant)",
    TooMany { name: &'static str, wants: usize } => "too much: `{name}` has {wants} bytes",
    NotFirst {} => "this stands before every command, or not at all",
    NoAnswer { word: String } => "no answer begins with `{word}`",
    NoPart { what: &'static str } => "here stands {what}",
    ManyParts { word: &'static str } => "too much for the answer `{word}`",
    Nothing {} => "`nothing` stands alone",
    Unasked {} => "an answer is expected here, and no command stands before it",
    ManyAnswers { line: usize } => "line {line} does not give so many answers",
}

problems! {
    /// What the model will refuse, or not read.
    Warning:
    Above { value: String, field: String, largest: String } =>
        "{value} is above the largest value of {field}, {largest}",
    NoBit { field: String, bit: u32 } => "{field} has no bit {bit}",
    Unknown { number: u8 } => "{number:02X} is no field's number",
    Level { level: u64 } => "level {level} is above 3",
    Flag { flag: u64 } => "the flag of a tick is {flag}, and not 0 or 1",
    Wide {} => "fewer bytes hold the value",
    Offset { offset: u64 } => "no register has the offset {offset:X}, in hexadecimal",
    Inside {} => "the command before takes these bytes for its own",
    NotRead {} => "nothing is read from here on",
    Long {} => "this passes 4,096 bytes, and none of the session is run",
    NoEnd {} => "there is no `end`",
}

impl Warning {
    /// What the model will answer, if it is of an answer.
    pub fn answer(&self) -> Option<&'static str> {
        match self {
            Warning::NoEnd {} => Some("refused 2"),
            Warning::Unknown { .. } => Some("refused 3"),
            Warning::Above { .. } | Warning::NoBit { .. } | Warning::Flag { .. } => {
                Some("refused 4")
            }
            Warning::Level { .. } => Some("refused 5"),
            Warning::Long {} => Some("refused 6"),
            Warning::Wide {} => Some("refused 19"),
            // unless a state refusal comes before
            Warning::Offset { .. } => None,
            Warning::Inside {} | Warning::NotRead {} => None,
        }
    }
}

#[derive(Clone, Debug, PartialEq, Eq)]
pub enum Problem {
    Error(Error),
    Warning(Warning),
}

/// A problem at its place.
#[derive(Clone, Debug, PartialEq, Eq)]
pub struct Fault {
    pub problem: Problem,
    /// What may have been meant, or nothing.
    pub hint: String,
    pub span: Span,
}

impl Fault {
    pub fn error(error: Error, span: Span) -> Fault {
        Fault { problem: Problem::Error(error), hint: String::new(), span }
    }

    pub fn warning(warning: Warning, span: Span) -> Fault {
        Fault { problem: Problem::Warning(warning), hint: String::new(), span }
    }

    pub fn with(self, hint: String) -> Fault {
        Fault { hint, ..self }
    }

    pub fn is_error(&self) -> bool {
        matches!(self.problem, Problem::Error(_))
    }

    /// The reason in words, with what may have been meant.
    fn reason(&self) -> String {
        let mut reason = match &self.problem {
            Problem::Error(error) => error.to_string(),
            Problem::Warning(warning) => format!("warning: {warning}"),
        };
        if let Problem::Warning(warning) = &self.problem {
            reason +=
                &warning.answer().map_or(String::new(), |a| format!(": the model answers `{a}`"));
        }
        match self.hint.as_str() {
            "" => reason,
            hint => format!("{reason}; {hint}"),
        }
    }

    /// The place, the reason, the line, and a mark under what is meant. Of a long line the part
    /// around it is shown.
    pub fn shown(&self, file: &str, number: usize, line: &str) -> String {
        let Span { start, end } = self.span;
        let column = 1 + line[..start].chars().count();
        let left = match line.len() > LONG {
            true => {
                line[..start].char_indices().rev().take(LONG / 2).last().map_or(start, |(at, _)| at)
            }
            false => 0,
        };
        let before = plain(&line[left..start]).chars().count();
        let marked = cut(&line[left..end]).chars().count();
        let marks = "^".repeat(marked.saturating_sub(before).max(1));
        let (part, reason) = (cut(&line[left..]), cut(&self.reason()));
        format!(
            "{file}:{number}:{column}: {reason}\n    {part}\n    {}{marks}\n",
            " ".repeat(before)
        )
    }
}

/// So many characters of a line are shown.
const LONG: usize = 200;

/// A line as a terminal can show it; of a long one the beginning.
pub fn cut(line: &str) -> String {
    match line.char_indices().nth(LONG) {
        Some((end, _)) => format!("{}..", plain(&line[..end])),
        None => plain(line),
    }
}

/// A line as a terminal can show it: tabs up to the next column of 8, no other control characters.
pub fn plain(line: &str) -> String {
    let mut shown = String::new();
    let mut column = 0;
    for c in line.chars() {
        let spaces = if c == '\t' { 8 - column % 8 } else { 0 };
        match c {
            '\t' => shown.push_str(&" ".repeat(spaces)),
            c if c.is_control() => shown.push('\u{fffd}'),
            c => shown.push(c),
        }
        column += spaces.max(1);
    }
    shown
}
