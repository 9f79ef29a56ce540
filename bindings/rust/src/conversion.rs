//! The conversion of a session to its other form. Of bytes and slices it asks
//! what the session function does.

/// What the library says of a conversion.
#[repr(C)]
struct Conversion {
    bytes: usize,
    refusal: usize,
}

extern "C" {
    fn pmu_convert_room() -> usize;
    fn pmu_convert(input: *const u8, input_len: usize, out: *mut u8, out_len: usize) -> Conversion;
}

/// The bytes that a buffer must have for any session, in either form.
pub const CONVERT_ROOM: usize = 4_097;

/// What the library says that a buffer for a session must have: [`CONVERT_ROOM`].
pub fn convert_room() -> usize {
    unsafe { pmu_convert_room() }
}

/// Why a session was not converted. The buffer was left alone.
#[derive(Clone, Copy, Debug, PartialEq, Eq)]
pub enum NotConverted {
    /// The buffer has fewer than [`CONVERT_ROOM`] bytes.
    Short,
    /// The number of the refusal: 6, 1, 2, 19 or 20.
    Refused(u8),
}

/// The other form of a session, through its end command: the short
/// form of a long one, the long form of a short one. It is the front of the
/// buffer, and what is returned.
pub fn convert<'a>(input: &[u8], out: &'a mut [u8]) -> Result<&'a [u8], NotConverted> {
    let said = unsafe { pmu_convert(input.as_ptr(), input.len(), out.as_mut_ptr(), out.len()) };
    match (said.bytes, said.refusal) {
        (0, 0) => Err(NotConverted::Short),
        (0, number) => Err(NotConverted::Refused(number as u8)),
        (n, _) => Ok(&out[..n]),
    }
}
