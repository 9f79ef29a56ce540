//! The text of a session's bytes. Read again, it is the same bytes.

use crate::named;
use crate::names::Names;
use crate::notation;
use crate::session::{is_short, operands, pieces, Kind};
use crate::tables::commands::{BYTES_WORD, SHORT_WORD};

/// A line for each command, by its name where it has one.
pub fn text(names: &Names, bytes: &[u8]) -> String {
    let short = is_short(bytes);
    let mut text = if short { format!("{SHORT_WORD}\n") } else { String::new() };
    let mut at = usize::from(short);
    for piece in pieces(bytes) {
        let part = &bytes[piece.start..piece.end];
        match piece.kind {
            Kind::Command(command) => {
                let values = operands(command, part);
                let named = named::text(names, command, &values, short);
                text.push_str(&named.unwrap_or_else(|| notation::text(command, &values)));
                text.push('\n');
            }
            Kind::Unknown => {
                plain(&mut text, part, "no command begins so, and nothing behind it is read")
            }
            Kind::Cut if part.is_empty() => text.push_str("# there is no end\n"),
            Kind::Cut => plain(&mut text, part, "cut off"),
        }
        at = piece.end;
    }
    plain(&mut text, &bytes[at..], "not read");
    text
}

/// Bytes that are no command, 16 a line.
fn plain(text: &mut String, bytes: &[u8], remark: &str) {
    for row in bytes.chunks(16) {
        let list: Vec<String> = row.iter().map(|byte| format!("{byte:02X}")).collect();
        text.push_str(&format!("{BYTES_WORD} {}  # {remark}\n", list.join(" ")));
    }
}
