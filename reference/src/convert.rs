//! MODEL Z4 and Z5: the other form of a session. It has the same commands in the same
//! order, up to the end command. What stands behind that is dropped.

use crate::form::{split, Form, SHORT_FORM};
use crate::session::{read, Command, Parsed, LIMIT};

/// The other form of a session, or the number of the refusal: 6, then the first 1, 2
/// or 19 on the way to the end command, then 20.
pub fn convert(bytes: &[u8]) -> Result<Vec<u8>, u8> {
    let (form, body) = split(bytes);
    if body.len() > LIMIT {
        return Err(6);
    }
    match form {
        Form::Long => {
            let mut short = vec![SHORT_FORM];
            short.extend(commands(form, Form::Short, body)?);
            Ok(short)
        }
        Form::Short => {
            let long = commands(form, Form::Long, body)?;
            if long.len() > LIMIT {
                return Err(20);
            }
            Ok(long)
        }
    }
}

/// All commands up to the end, written in another form. Only sets change.
fn commands(from: Form, to: Form, body: &[u8]) -> Result<Vec<u8>, u8> {
    let mut written = Vec::new();
    let mut at = 0;
    for parsed in read(from, body) {
        let (command, length) = match parsed {
            Parsed::Command(command, length) => (command, length),
            Parsed::Unknown => return Err(1),
            Parsed::Cut => return Err(2),
            Parsed::TooWide(..) => return Err(19),
        };
        match command {
            Command::Set { field, value } => written.extend(to.set(field, value)),
            _ => written.extend(&body[at..at + length]),
        }
        at += length;
    }
    Ok(written)
}
