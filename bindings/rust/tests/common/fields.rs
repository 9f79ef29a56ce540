//! The fields of the machine record and what they can hold (section F of
//! docs/MODEL.md).

use pmu::LEVEL;

/// The largest value of a word, or none where its number is no field's. The level
/// counts as a field here. The overflow flags, 37, have no bit 31 either.
pub fn largest(number: usize) -> Option<u64> {
    Some(match number {
        0x0C | 0x27 => 31,
        0x00..=0x0B | 0x10..=0x12 | 0x20..=0x26 | 0x28..=0x31 | 0x33 => 1,
        0x35 | 0x36 | 0x38..=0x3E | 0x80..=0x87 | 0x89 | 0x8A => 1,
        0x32 => 0x7FFF_FFFF,
        0x34 => 0x1_FFFF_FFFF,
        0x37 => 0x1_7FFF_FFFF,
        0x40..=0x5E => 0xFFFF,
        0x60..=0x7F | 0x8C | 0x8D => u64::MAX,
        0x88 | LEVEL => 3,
        0x8B => 0xFFFF_FFFF,
        _ => return None,
    })
}
