//! The session function. It asks nothing of the bytes of a session, and a slice
//! is all that the proofs ask of a pointer: to as many bytes as it says, and the
//! one that is written to apart from the other.

extern "C" {
    fn pmu_room() -> usize;
    fn pmu_session(input: *const u8, input_len: usize, out: *mut u8, out_len: usize) -> usize;
}

/// The bytes that a buffer must have for any session's output.
pub const ROOM: usize = 65_600;

/// The buffer has fewer than [`ROOM`] bytes, and was left alone.
#[derive(Clone, Copy, Debug, PartialEq, Eq)]
pub struct Short;

/// What the library says that a buffer must have: [`ROOM`].
pub fn room() -> usize {
    unsafe { pmu_room() }
}

/// Runs a session's bytes from the fresh record. Its lines are the front of
/// the buffer, and what is returned.
pub fn session<'a>(input: &[u8], out: &'a mut [u8]) -> Result<&'a [u8], Short> {
    let n = unsafe { pmu_session(input.as_ptr(), input.len(), out.as_mut_ptr(), out.len()) };
    match n {
        0 => Err(Short),
        _ => Ok(&out[..n]),
    }
}
