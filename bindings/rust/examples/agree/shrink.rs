//! The smallest session that still shows what a session shows.

use crate::command::Command;

/// The commands of a session, each as its bytes, and what is behind the last.
pub fn pieces(session: &[u8]) -> Vec<Vec<u8>> {
    let (mut list, mut rest) = (Vec::new(), session);
    while let Ok((_, size)) = Command::read(rest) {
        list.push(rest[..size].to_vec());
        rest = &rest[size..];
    }
    list.push(rest.to_vec());
    list
}

/// Leaves commands out, one at a time, as long as the session is wrong.
pub fn shrink(session: &[u8], wrong: impl Fn(&[u8]) -> bool) -> Vec<Vec<u8>> {
    let mut list = pieces(session);
    loop {
        let before = list.len();
        for i in (0..list.len()).rev() {
            let mut fewer = list.clone();
            fewer.remove(i);
            if wrong(&fewer.concat()) {
                list = fewer;
            }
        }
        if list.len() == before {
            return list;
        }
    }
}
