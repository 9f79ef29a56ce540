//! Whether standard output is a terminal, and how wide. The standard library of Rust 1.63 does not
//! say, so the C library is asked.

use std::os::raw::{c_int, c_ulong, c_ushort};

/// `struct winsize` of Linux.
#[repr(C)]
#[derive(Default)]
struct Size {
    rows: c_ushort,
    columns: c_ushort,
    width: c_ushort,
    height: c_ushort,
}

/// TIOCGWINSZ of Linux on x86-64.
const GET_SIZE: c_ulong = 0x5413;
const STANDARD_OUTPUT: c_int = 1;

extern "C" {
    fn isatty(file: c_int) -> c_int;
    fn ioctl(file: c_int, request: c_ulong, ...) -> c_int;
}

pub fn is_terminal() -> bool {
    // SAFETY: it takes any number.
    unsafe { isatty(STANDARD_OUTPUT) == 1 }
}

/// The columns of the terminal, if standard output is one that tells.
pub fn columns() -> Option<usize> {
    let mut size = Size::default();
    // SAFETY: with this request it writes a `struct winsize` to the pointer, or nothing.
    let said = unsafe { ioctl(STANDARD_OUTPUT, GET_SIZE, &mut size as *mut Size) };
    (said == 0 && size.columns > 0).then_some(usize::from(size.columns))
}
