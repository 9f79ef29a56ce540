//! Words, offsets and values that commands take.

use super::Writer;
use crate::fields::largest;

/// MSR of PMSWINC_EL0, PMICNTR_EL0 and PMSICR_EL1 from X0 (W5, W6 and W12 of
/// docs/MODEL.md).
pub(super) const SOFTWARE_INCREMENT: u32 = 0xD51B_9C80;
pub(super) const INSTRUCTION_COUNTER: u32 = 0xD51B_9400;
pub(super) const PMSICR: u32 = 0xD518_9940;

/// MRS or MSR of an event counter (W4). There is a word for 31 too.
pub(super) fn counter_word(read: bool, m: u32, rt: u32) -> u32 {
    0xD51B_E800 | u32::from(read) << 21 | m << 5 | rt
}

impl Writer {
    /// An event counter, often beside N or HPMN; 31, too, which is none.
    pub(super) fn counter(&mut self) -> u32 {
        let beside = self.rng.pick(&[0, 1]);
        let m = match self.rng.below(8) {
            0 => self.word(0x0C).wrapping_sub(beside),
            1 => self.word(0x27).wrapping_sub(beside),
            2 => self.rng.below(32),
            _ => self.rng.below(self.word(0x0C).max(1)),
        };
        m as u32 % 32
    }

    /// The word of an access: the model's registers, and now and then another.
    pub(super) fn access_word(&mut self) -> u32 {
        let rt = self.rng.below(32) as u32;
        let direction = (self.rng.below(2) as u32) << 21;
        match self.rng.below(100) {
            0..=44 => counter_word(direction != 0, self.counter(), rt),
            45..=69 => SOFTWARE_INCREMENT | rt | if rt == 5 { direction } else { 0 },
            70..=81 => INSTRUCTION_COUNTER | direction | rt,
            82..=93 => PMSICR | direction | rt,
            94..=97 => {
                let other = self.rng.pick(&[SOFTWARE_INCREMENT, INSTRUCTION_COUNTER, PMSICR]);
                let word = self.rng.pick(&[counter_word(true, 3, rt), other | direction]);
                word ^ 1 << self.rng.below(32)
            }
            _ => self.rng.next() as u32,
        }
    }

    pub(super) fn offset(&mut self) -> u16 {
        let any = self.rng.next() as u16;
        let near = 0xC00 + self.rng.below(0x100) as u16;
        self.rng.pick(&[0xC00, 0xC00, 0xC00, 0xC80, 0xC80, 0xCC0, 0xCC0, near, 0xC04, any])
    }

    /// A value of 64 bits, often beside a border or with few bits.
    pub(super) fn operand(&mut self) -> u64 {
        let small = self.rng.below(256);
        let any = self.rng.next();
        match self.rng.below(12) {
            0 => small,
            1 | 2 => 1 << (small % 34),
            3 => 0xFFFF_FFFF - small % 3,
            4 => u64::MAX - small % 3,
            5 => 1 << (small % 64),
            6 => any & 0xFFFF_FFFF,
            7 => small << 32 | 0xFFFF_FFFF,
            8 => any << 56 | small,
            9 => 0x1_FFFF_FFFF,
            10 => 0x7FFF_FFFF,
            _ => any,
        }
    }

    /// A draw of a member (J5).
    pub(super) fn draw(&mut self) -> u8 {
        let any = self.rng.below(256) as u8;
        self.rng.pick(&[0, 0, 1, 1, 2, any])
    }

    /// A value for a field: mostly one that it can hold and that leaves a record
    /// consistent, now and then one that is too large.
    pub(super) fn value_for(&mut self, field: u8) -> u64 {
        let most = largest(field.into()).unwrap_or(1);
        let operand = self.operand();
        if self.rng.chance(4) {
            return self.rng.pick(&[most.wrapping_add(1), operand, u64::MAX, 1 << 31]);
        }
        match field {
            0x40..=0x5E => self.rng.pick(&[0, 0, 0, 0, 1, 0xFFFF]),
            0x60..=0x7E if self.word(0x01) == 0 => operand & 0xFFFF_FFFF,
            0x34 => self.rng.pick(&[most, most, 0x7FFF_FFFF, operand & most]),
            0x37 => operand & most,
            0x8B | 0x8C => self.rng.pick(&[0, 1, 2, 3, operand & most]),
            0x83 => self.rng.pick(&[0, 1, 1, 1]),
            _ if most == u64::MAX => operand,
            _ => self.rng.below(most + 1),
        }
    }
}
