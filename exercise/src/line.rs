//! One line of a text, taken apart: the words of its command, and the answers that it expects.

use crate::fault::{Error, Fault, Span};
use crate::number::number;

/// A word of a line, or one of the marks `,` and `=`.
#[derive(Clone, Copy, Debug, PartialEq, Eq)]
pub struct Token<'a> {
    pub text: &'a str,
    pub span: Span,
}

impl Token<'_> {
    pub fn is(&self, word: &str) -> bool {
        self.text.eq_ignore_ascii_case(word)
    }

    /// A number that so many bytes hold.
    pub fn number(&self, what: &'static str, size: usize) -> Result<u64, Fault> {
        number(self.text, what, size).map_err(|error| Fault::error(error, self.span))
    }
}

/// A line: what stands before the first `#`, and what stands behind each `#>`.
pub struct Line<'a> {
    pub code: Span,
    pub expected: Vec<Span>,
    text: &'a str,
}

impl<'a> Line<'a> {
    pub fn new(text: &'a str) -> Line<'a> {
        let code = text.find('#').unwrap_or(text.len());
        let mut line = Line { code: Span { start: 0, end: code }, expected: vec![], text };
        let mut at = code;
        while let Some(mark) = text[at..].find("#>") {
            let start = at + mark + 2;
            let end = text[start..].find('#').map_or(text.len(), |next| start + next);
            line.expected.push(Span { start, end });
            at = end;
        }
        line
    }

    /// The line without the answers that it expects.
    pub fn without_expected(&self) -> String {
        let starts = std::iter::once(0).chain(self.expected.iter().map(|span| span.end));
        let ends = self.expected.iter().map(|span| span.start - 2).chain([self.text.len()]);
        let parts: Vec<&str> =
            starts.zip(ends).map(|(start, end)| &self.text[start..end]).collect();
        parts.concat().trim_end().to_string()
    }

    /// The words of a part of the line.
    pub fn words(&self, part: Span) -> Cursor<'a> {
        let mut tokens = Vec::new();
        let mut start = None;
        let text = self.text;
        let mut close = |start: &mut Option<usize>, end: usize| {
            if let Some(start) = start.take() {
                tokens.push(Token { text: &text[start..end], span: Span { start, end } });
            }
        };
        for (at, c) in text[part.start..part.end].char_indices() {
            let at = part.start + at;
            if c.is_whitespace() || c == ',' || c == '=' {
                close(&mut start, at);
                start = if c.is_whitespace() { None } else { Some(at) };
                close(&mut start, at + c.len_utf8());
            } else if start.is_none() {
                start = Some(at);
            }
        }
        close(&mut start, part.end);
        let end = tokens.last().map_or(part.start, |last| last.span.end);
        Cursor { tokens, text, at: 0, end }
    }
}

/// Words, and how many of them are read.
pub struct Cursor<'a> {
    pub tokens: Vec<Token<'a>>,
    text: &'a str,
    at: usize,
    end: usize,
}

impl<'a> Cursor<'a> {
    pub fn rest(&self) -> &[Token<'a>] {
        &self.tokens[self.at..]
    }

    pub fn peek(&self) -> Option<Token<'a>> {
        self.rest().first().copied()
    }

    /// The place behind the last word.
    pub fn behind(&self) -> Span {
        Span { start: self.end, end: self.end }
    }

    /// All words, from the first to the last.
    pub fn whole(&self) -> Span {
        Span {
            start: self.tokens.first().map_or(self.end, |first| first.span.start),
            end: self.end,
        }
    }

    /// The next word, which must be there.
    pub fn take(&mut self, what: &'static str) -> Result<Token<'a>, Fault> {
        let next = self.peek();
        self.at += usize::from(next.is_some());
        next.ok_or_else(|| Fault::error(Error::Missing { what }, self.behind()))
    }

    /// Back to the first word.
    pub fn again(&mut self) {
        self.at = 0;
    }

    /// So many words at once, with what stands between them.
    pub fn several(&mut self, count: usize) -> Token<'a> {
        let tokens = &self.rest()[..count];
        let span = Span { start: tokens[0].span.start, end: tokens[count - 1].span.end };
        self.at += count;
        Token { text: &self.text[span.start..span.end], span }
    }

    /// Passes over a word, if it is the next one.
    pub fn passes(&mut self, word: &str) -> bool {
        let there = self.peek().map_or(false, |next| next.is(word));
        self.at += usize::from(there);
        there
    }

    /// Nothing may stand behind what is read.
    pub fn done(&self) -> Result<(), Fault> {
        match self.peek() {
            None => Ok(()),
            Some(next) => {
                let span = Span { start: next.span.start, end: self.end };
                let word = self.text[span.start..span.end].to_string();
                Err(Fault::error(Error::Surplus { word }, span))
            }
        }
    }
}
