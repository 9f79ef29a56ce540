//! MODEL H1 to H7: random steps back. Behind a few steps, in runs, and more of them than
//! there are steps; and sessions in which sets come to an end, so that more
//! steps are listed than are kept.

use super::*;
use crate::back::DEPTH;

/// A session without sets stops so many bytes before the limit, which is room for
/// its end.
const ROOM: usize = 1100;

// Commands.
impl Writer {
    /// So many steps back.
    pub(super) fn back(&mut self, count: usize) {
        for _ in 0..count {
            self.bytes.push(0x07);
            self.obey(Command::Back);
        }
    }

    /// How many steps are taken back: few, some of those listed, all, or more.
    fn how_many(&mut self) -> usize {
        let listed = self.earlier.len() as u64;
        let count = match self.rng.below(12) {
            0..=4 => 1,
            5 | 6 => 2 + self.rng.below(3),
            7 | 8 => self.rng.below(listed + 1),
            9 => listed,
            10 => listed + 1,
            _ => listed + self.rng.below(4),
        };
        count as usize
    }

    /// A run of steps back, mostly with a look at something behind it.
    pub(super) fn some_back(&mut self) {
        let count = self.how_many();
        self.back(count);
        if self.rng.chance(60) {
            self.look();
        }
    }

    /// One thing that a step can have changed, read at the level that is. The
    /// look is sometimes taken back.
    fn look(&mut self) {
        let rt = self.rng.below(31) as u32;
        match self.rng.below(8) {
            0 => self.read(0xC00),
            1 | 2 => {
                let offset = self.flags_offset();
                self.read(offset);
            }
            3 => self.access(word(true, 9, 4, 0, rt), 0),
            4 => self.access(pmsicr_word(true, rt), 0),
            _ => {
                let m = self.counter();
                self.access(counter_word(true, m, rt), 0);
            }
        }
        if self.rng.chance(25) {
            self.back(1);
        }
    }
}

// Steps without a set among them.
impl Writer {
    /// A command that lists a step if it is not refused, or one that leaves the
    /// list alone. Most have few bytes.
    fn listed(&mut self) {
        match self.rng.below(100) {
            0..=24 => self.some_tick(),
            25..=44 => self.some_member(),
            45..=62 => self.some_level(),
            63..=76 => self.some_access(),
            77..=80 => {
                let read = self.rng.chance(30);
                self.some_pmsicr(read, 1);
            }
            81..=90 => self.some_write(),
            91..=96 => self.some_read(),
            _ => self.refused_set(),
        }
        if self.machine.state_refusal().is_some() && self.rng.chance(40) {
            self.leave_level();
        }
    }

    /// Away from a level that the machine can't be at, if that is what is wrong:
    /// by a step back or by another level.
    fn leave_level(&mut self) {
        if self.rng.chance(50) {
            self.back(1);
        } else {
            self.change_level();
        }
    }

    /// A set of no field, or of a value that its field does not hold, or one that is
    /// too wide.
    fn refused_set(&mut self) {
        if self.wide > 0 && self.rng.chance(50) {
            return self.wide_set();
        }
        let any = self.rng.next();
        let (field, value) = self.rng.pick(&[
            (0x0D, 0),
            (0x3F, 1),
            (0xFF, any),
            (0x0C, 32),
            (0x34, 1 << 33),
            (0x37, 1 << 31),
            (0x40, 1 << 16),
            (0x83, 2),
            (0x88, 4),
            (0x8B, any | 1 << 32),
        ]);
        self.set(field, value);
    }

    /// Some steps, then back over some of them, all, or one more than there are;
    /// and sometimes the same over again.
    pub(super) fn take_back(&mut self) {
        for _ in 0..1 + self.rng.below(2) {
            let steps = self.rng.pick(&[1, 1, 2, 3, 4, 6]);
            for _ in 0..steps {
                self.listed();
            }
            match self.rng.below(5) {
                0 => self.back(1),
                1 | 2 => self.back(steps),
                3 => self.back(steps + 1),
                _ => self.some_back(),
            }
            if self.rng.chance(50) {
                self.look();
            }
        }
    }

    /// Nothing but steps and steps back: so many steps in a row that the oldest
    /// are lost, then a run of steps back, and on from there.
    pub(super) fn without_sets(&mut self) {
        let seldom = self.rng.pick(&[0, 0, 2, 8, 20]);
        for _ in 0..1 + self.rng.below(4) {
            let steps = self.rng.pick(&[5, 20, 63, 64, 65, 80, 120, 160]);
            for _ in 0..steps {
                if self.counted() + ROOM > LIMIT {
                    break;
                }
                self.listed();
                if self.rng.chance(seldom) {
                    self.some_back();
                }
            }
            let all = DEPTH + self.rng.below(3) as usize;
            let some = self.how_many();
            let count = self.rng.pick(&[0, some, some, all, all]);
            self.back(count);
            self.look();
        }
    }
}
