//! A whole text: its lines, the bytes of the session that they are, and all that is wrong.

use crate::caution;
use crate::expected::Expected;
use crate::fault::{Error, Fault, Span};
use crate::line::{Cursor, Line};
use crate::named;
use crate::names::Names;
use crate::notation;
use crate::session::{is_long, is_short, limit, pieces, Kind, Piece};
use crate::tables::commands::{BYTES_WORD, SHORT, SHORT_WORD};
use std::ops::Range;

/// What becomes of a line.
#[derive(Clone, Debug, PartialEq, Eq)]
pub enum Fate {
    /// It is no command: a comment, or the form of the session.
    Silent,
    /// Commands begin in it: these pieces of the session.
    Commands(Range<usize>),
    /// Its bytes are taken by the command before.
    Inside,
    /// The reading has stopped before it.
    NotRead,
    /// MODEL R6: the session is too long, and none of it is run.
    NotRun,
}

/// A line of the text.
pub struct Row {
    /// Counted from 1.
    pub number: usize,
    pub source: String,
    /// The line without the answers that it expects.
    pub shown: String,
    /// Where its command stands.
    pub code: Span,
    /// What it is of the session: nothing for a comment.
    pub bytes: Range<usize>,
    pub expected: Vec<Expected>,
    pub faults: Vec<Fault>,
    pub fate: Fate,
    kind: RowKind,
}

/// What a line is, read alone.
#[derive(Clone, Copy, PartialEq, Eq)]
enum RowKind {
    Comment,
    /// The byte of the short form.
    Form,
    Command,
    /// Any bytes.
    Bytes,
    /// There is an error in it.
    Broken,
}

/// A text that was read.
#[derive(Default)]
pub struct Text {
    pub rows: Vec<Row>,
    pub bytes: Vec<u8>,
    /// The commands of the session, where the text has no errors.
    pub pieces: Vec<Piece>,
    /// The last line that has a command, whole or not.
    last: Option<usize>,
    /// Whether the first such line is an error, so that nobody knows the form.
    formless: bool,
    /// The line behind which the bytes end.
    pub closing: usize,
}

impl Text {
    /// Every line of the text is read, whatever is wrong with others.
    pub fn read(names: &Names, input: &[u8]) -> Text {
        let mut text = Text::default();
        if input.starts_with(b"\xFF\xFE") || input.starts_with(b"\xFE\xFF") {
            text.rows.push(Row::new(1, String::from_utf8_lossy(&input[..2]).to_string(), 0));
            text.rows[0].fault_at(Error::Utf16 {}, 0);
            return text;
        }
        let input = input.strip_prefix(b"\xEF\xBB\xBF").unwrap_or(input);
        let body = input.strip_suffix(b"\n").unwrap_or(input);
        for line in body.split(|&b| b == b'\n') {
            text.line(names, line.strip_suffix(b"\r").unwrap_or(line));
        }
        text.settle();
        if text.has_errors() {
            // of a session that nobody knows nothing can be foreseen
            text.rows.iter_mut().for_each(|row| row.faults.retain(Fault::is_error));
        } else {
            caution::whole(&mut text);
        }
        text
    }

    pub fn has_errors(&self) -> bool {
        self.rows.iter().flat_map(|row| &row.faults).any(Fault::is_error)
    }

    fn line(&mut self, names: &Names, line: &[u8]) {
        let source = String::from_utf8_lossy(line).to_string();
        let mut row = Row::new(self.rows.len() + 1, source, self.bytes.len());
        let control = |c: char| c.is_control() && c != '\t';
        let bad = match std::str::from_utf8(line) {
            Err(error) => Some((Error::NotUtf8 {}, error.valid_up_to())),
            Ok(good) => good.find(control).map(|at| (Error::Control {}, at)),
        };
        match bad {
            Some((error, at)) => {
                row.fault_at(error, at);
                self.met(&mut row, RowKind::Broken);
            }
            None => self.parts(names, &mut row),
        }
        row.bytes.end = self.bytes.len();
        self.rows.push(row);
    }

    /// A line that has a command, whole or not.
    fn met(&mut self, row: &mut Row, kind: RowKind) {
        self.formless |= self.last.is_none() && kind == RowKind::Broken;
        self.last = Some(self.rows.len());
        row.kind = kind;
    }

    fn parts(&mut self, names: &Names, row: &mut Row) {
        let source = row.source.clone();
        let line = Line::new(&source);
        row.shown = line.without_expected();
        let mut cursor = line.words(line.code);
        row.code = cursor.whole();
        if !cursor.rest().is_empty() {
            let kind = match self.command(names, &mut cursor) {
                Ok((kind, bytes)) => {
                    row.faults.extend(caution::command(
                        names,
                        &bytes,
                        &cursor,
                        self.has_narrow_sets(),
                    ));
                    self.bytes.extend(bytes);
                    kind
                }
                Err(fault) => {
                    row.faults.push(with_comment(fault, line.code, &source));
                    RowKind::Broken
                }
            };
            self.met(row, kind);
        }
        for span in &line.expected {
            match Expected::parse(&mut line.words(*span), row.number) {
                Ok(expected) if row.kind == RowKind::Comment => self.asked(row).push(expected),
                Ok(expected) => row.expected.push(expected),
                Err(fault) => row.faults.push(fault),
            }
        }
    }

    /// What the command before expects, for a `#>` on a line of its own.
    fn asked<'a>(&'a mut self, row: &'a mut Row) -> &'a mut Vec<Expected> {
        let before = self.last.and_then(|last| self.rows.get_mut(last));
        &mut before.unwrap_or(row).expected
    }

    /// Whether narrow sets are commands: in the short form, or while nobody knows the form.
    fn has_narrow_sets(&self) -> bool {
        self.formless || is_short(&self.bytes)
    }

    fn command(&self, names: &Names, cursor: &mut Cursor) -> Result<(RowKind, Vec<u8>), Fault> {
        let first = cursor.take("the command")?;
        let begins = self.last.is_none();
        if first.is(SHORT_WORD) || (first.text == format!("{SHORT:02X}") && begins) {
            cursor.done()?;
            let not_first = Fault::error(Error::NotFirst {}, first.span);
            return begins.then(|| (RowKind::Form, vec![SHORT])).ok_or(not_first);
        }
        if first.is(BYTES_WORD) {
            return Ok((RowKind::Bytes, notation::parse_any(cursor)?));
        }
        cursor.again();
        let narrow = self.has_narrow_sets();
        let bytes = match notation::is_notation(&first) {
            true => notation::parse(cursor, narrow)?,
            false => named::parse(names, cursor, narrow)?,
        };
        Ok((RowKind::Command, bytes))
    }

    /// What becomes of each line, and whether it can give as many answers as it expects.
    fn settle(&mut self) {
        let speaks = |row: &Row| row.kind != RowKind::Comment || !row.expected.is_empty();
        self.closing = self.rows.iter().rposition(speaks).unwrap_or(0);
        self.pieces = pieces(&self.bytes);
        let fates: Vec<Fate> = self.rows.iter().map(|row| self.fate(row)).collect();
        self.rows.iter_mut().zip(fates).for_each(|(row, fate)| row.fate = fate);
        let broken = self.has_errors();
        let early = broken || self.ends_early();
        let mut faults = Vec::new();
        for (index, row) in self.rows.iter().enumerate() {
            let behind = usize::from(early && index == self.closing);
            let alone = self.last.is_none() || row.kind != RowKind::Comment;
            faults.extend(row.unasked(row.answers(broken) + behind, alone));
        }
        for (number, fault) in faults {
            self.rows[number - 1].faults.push(fault);
        }
    }

    fn fate(&self, row: &Row) -> Fate {
        let before = |at: usize| self.pieces.partition_point(|piece| piece.start < at);
        let (first, last) = (before(row.bytes.start), before(row.bytes.end));
        let end = self.pieces.last().map_or(0, |piece| piece.end);
        match row.bytes.start {
            _ if row.bytes.is_empty() => Fate::Silent,
            _ if is_long(&self.bytes) => Fate::NotRun,
            0 if row.bytes.end == 1 && is_short(&self.bytes) => Fate::Silent,
            _ if first < last => Fate::Commands(first..last),
            start if start < end => Fate::Inside,
            _ => Fate::NotRead,
        }
    }

    /// MODEL R6: the line that passes the limit, where the session does.
    pub fn passing(&self) -> Option<usize> {
        self.rows.iter().position(|row| row.bytes.end > limit(&self.bytes))
    }

    /// Whether the bytes end where a command should begin: an answer that no line is for.
    pub fn ends_early(&self) -> bool {
        let cut = |piece: &Piece| matches!(piece.kind, Kind::Cut) && piece.start == piece.end;
        self.pieces.last().map_or(false, cut) && !is_long(&self.bytes)
    }
}

impl Row {
    fn new(number: usize, source: String, at: usize) -> Row {
        Row {
            number,
            shown: source.clone(),
            source,
            code: Span { start: 0, end: 0 },
            bytes: at..at,
            expected: Vec::new(),
            faults: Vec::new(),
            fate: Fate::Silent,
            kind: RowKind::Comment,
        }
    }

    /// How many answers it can expect, where that is known.
    fn answers(&self, broken: bool) -> usize {
        match (self.kind, &self.fate) {
            (RowKind::Comment | RowKind::Form, _) => 0,
            (RowKind::Command, _) => 1,
            (RowKind::Bytes, Fate::Commands(pieces)) if !broken => pieces.len(),
            // as many as it has bytes, where they are not read
            (RowKind::Bytes, _) => self.bytes.len(),
            (RowKind::Broken, _) => usize::MAX - 1,
        }
    }

    /// An error of one character of the line.
    fn fault_at(&mut self, error: Error, start: usize) {
        let length = self.source[start..].chars().next().map_or(0, char::len_utf8);
        self.faults.push(Fault::error(error, Span { start, end: start + length }));
    }

    /// Expected answers that can't be given, each with the number of its line. Only a text without
    /// commands may expect one where no command is.
    fn unasked(&self, answers: usize, asked: bool) -> Vec<(usize, Fault)> {
        let fault = |e: &Expected, error: Error| (e.number, Fault::error(error, e.span));
        if !asked {
            return self.expected.iter().map(|e| fault(e, Error::Unasked {})).collect();
        }
        let (nothing, said): (Vec<&Expected>, Vec<&Expected>) =
            self.expected.iter().partition(|expected| expected.is_nothing());
        let alone = self.expected.len() < 2;
        let beside = nothing.into_iter().filter(|_| !alone).map(|e| fault(e, Error::Nothing {}));
        let more = said.into_iter().skip(answers);
        beside.chain(more.map(|e| fault(e, Error::ManyAnswers { line: self.number }))).collect()
    }
}

/// Where something is missing and a number stands behind `#`, the comment may have been none.
fn with_comment(fault: Fault, code: Span, source: &str) -> Fault {
    let number = source[code.end..]
        .strip_prefix('#')
        .unwrap_or("")
        .starts_with(|c: char| c.is_ascii_digit());
    match number && fault.span.start == fault.span.end {
        true => fault.with("`#` begins a comment".to_string()),
        false => fault,
    }
}
