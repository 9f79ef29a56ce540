//! MODEL J5, G15 and N1 to N6: random members of the sample population,
//! accesses to PMSICR and to the word at 0x838, and the fields of both. Values
//! are small, so that counters reach 0.

use super::*;

/// The fields of one bit that stop nothing, without NS, and how often, in a
/// hundred, they start as 1.
const SWITCHES: [(u8, u64); 6] =
    [(0x80, 85), (0x81, 65), (0x82, 60), (0x83, 70), (0x84, 55), (0x85, 55)];

/// Those that stop accesses.
const CLOSED: [u8; 3] = [0x86, 0x89, 0x8A];

/// The word of MRS or MSR of PMSICR.
pub fn pmsicr_word(read: bool, rt: u32) -> u32 {
    with_op1(word(read, 9, 9, 2, rt), 0)
}

// Values.
impl Writer {
    /// An NSPB that mostly lets accesses pass with this NS.
    fn nspb(&mut self, ns: u64) -> u64 {
        if self.rng.chance(70) {
            ns << 1 | 1
        } else {
            self.rng.below(4)
        }
    }

    /// What the primary counter is reloaded from.
    fn reload(&mut self) -> u64 {
        let any = self.rng.next() >> 32;
        self.rng.pick(&[0, 1, 1, 1, 2, 2, 2, 3, 3, 3, 5, 0xFFFF_FFFF, any])
    }

    /// Both counters of the register, mostly about to reach 0, and reserved bits
    /// now and then.
    fn pmsicr_value(&mut self) -> u64 {
        let any = self.rng.next();
        let secondary = self.rng.pick(&[0, 0, 0, 1, 1, 1, 2, 3, 255, any >> 56]);
        let primary = self.rng.pick(&[0, 0, 1, 1, 1, 2, 2, 3, 0xFFFF_FFFF, any & 0xFFFF_FFFF]);
        secondary << 56 | primary | self.reserved()
    }

    /// Reserved bits 55:32, mostly none.
    fn reserved(&mut self) -> u64 {
        let all = 0x00FF_FFFF_0000_0000;
        let any = self.rng.next() & all;
        self.rng.pick(&[0, 0, 0, 0, 1 << 32, 1 << 55, all, any])
    }

    fn draw(&mut self) -> u8 {
        let any = self.rng.next() as u8;
        self.rng.pick(&[0, 0, 1, 1, 2, 3, 255, any])
    }

    /// A value for a field from 80 to 8D that it can hold.
    pub(super) fn sampling_value(&mut self, field: u8) -> u64 {
        match field {
            0x80 => self.rng.chance(85) as u64,
            0x83 => self.rng.chance(60) as u64,
            0x86 | 0x89 | 0x8A => self.rng.chance(25) as u64,
            0x88 => self.nspb(self.machine.ns as u64),
            0x8B => self.reload(),
            0x8C => self.pmsicr_value(),
            0x8D => self.operand(),
            _ => self.rng.below(2),
        }
    }
}

// The start and the end of a session.
impl Writer {
    /// All fields in any order, so that profiling starts over a register and
    /// with a reload field that are there already, or not. A 0 is seldom
    /// written out.
    pub(super) fn sampling_settings(&mut self) {
        let ns = self.rng.below(2);
        let mut list = vec![(0x87, ns), (0x88, self.nspb(ns))];
        for (field, percent) in SWITCHES {
            list.push((field, self.rng.chance(percent) as u64));
        }
        for field in CLOSED {
            list.push((field, self.rng.chance(self.trapping) as u64));
        }
        for field in 0x8B..=0x8D {
            list.push((field, self.sampling_value(field)));
        }
        while !list.is_empty() {
            let (field, value) = list.swap_remove(self.rng.below(list.len() as u64) as usize);
            if value != 0 || self.rng.chance(10) {
                self.set(field, value);
            }
        }
    }

    /// Reads the register, bits 63:56 too, and the word, after the rest was
    /// opened: level 1, EL2 not enabled, HPMN as N.
    pub(super) fn dump_sampling(&mut self) {
        let nspb = (self.machine.ns as u64) << 1 | 1;
        self.set(0x80, 1);
        self.set(0x88, nspb);
        self.access(pmsicr_word(true, 29), 0);
        if !self.machine.ernd {
            self.set(0x81, 1);
            self.access(pmsicr_word(true, 28), 0);
        }
        let open = [(0x09, 1), (0x10, 1), (0x25, 0), (0x84, 1), (0x85, 1), (0x86, 0), (0x89, 0)];
        for (field, value) in open {
            self.set(field, value);
        }
        self.access(pmsicr_word(true, 27), 0);
    }
}

// Commands.
impl Writer {
    fn member(&mut self, draw: u8) {
        self.bytes.extend([0x08, draw]);
        self.obey(Command::Member { draw });
    }

    pub(super) fn some_member(&mut self) {
        let draw = self.draw();
        self.member(draw);
    }

    /// An access to PMSICR.
    fn move_pmsicr(&mut self, read: bool, rt: u32, operand: u64) {
        self.access(pmsicr_word(read, rt), operand);
    }

    /// An access to PMSICR at the level that is, whether it passes or not.
    pub(super) fn some_pmsicr(&mut self, read: bool, rt: u32) {
        let operand = if self.rng.chance(75) { self.pmsicr_value() } else { self.operand() };
        self.move_pmsicr(read, rt, operand);
    }

    /// The register is read, mostly from a level at which that passes, and mostly
    /// the level is put back.
    fn see_pmsicr(&mut self) {
        let before = self.machine.el;
        if self.rng.chance(85) {
            let passes = |&level: &u8| {
                let mut trial = self.machine.clone();
                trial.set_level(level);
                matches!(trial.access(pmsicr_word(true, 0), 0), Answer::Moved { .. })
            };
            let found = [3, 2, 1].iter().copied().find(passes);
            if let Some(level) = found.filter(|&level| level != before) {
                self.level(level);
            }
        }
        let rt = self.rng.below(31) as u32;
        self.move_pmsicr(true, rt, 0);
        if before != self.machine.el && self.rng.chance(80) {
            self.level(before);
        }
    }

    /// Some members, the register read after some of them.
    fn members(&mut self) {
        for _ in 0..1 + self.rng.below(6) {
            self.some_member();
            if self.rng.chance(35) {
                self.see_pmsicr();
            }
        }
    }
}

// A few commands with one purpose.
impl Writer {
    /// Members, mostly with SPE and profiling, and with counters that are about
    /// to reach 0 more often than not.
    pub(super) fn sample(&mut self) {
        for (field, on) in [(0x80, self.machine.spe), (0x83, self.machine.profiling)] {
            if !on && self.rng.chance(80) {
                self.set(field, 1);
            }
        }
        for field in [0x81, 0x82] {
            if self.rng.chance(25) {
                let value = self.rng.below(2);
                self.set(field, value);
            }
        }
        for (field, percent) in [(0x8B, 40), (0x8C, 60)] {
            if self.rng.chance(percent) {
                let value = self.sampling_value(field);
                self.set(field, value);
            }
        }
        self.members();
    }

    /// Profiling starts, mostly over a register that is zero or has reserved bits
    /// alone. SPE is now and then missing, or comes too late.
    pub(super) fn start_profiling(&mut self) {
        if self.machine.profiling && self.rng.chance(85) {
            self.set(0x83, 0);
        }
        if self.rng.chance(75) {
            let upper = if self.rng.chance(30) { 0xFF << 56 } else { 0 };
            let other = self.pmsicr_value();
            let reserved = self.reserved() | upper;
            let register = self.rng.pick(&[0, 0, reserved, reserved, other]);
            self.set(0x8C, register);
        }
        if self.machine.reload == 0 || self.rng.chance(30) {
            let reload = self.reload();
            self.set(0x8B, reload);
        }
        let spe = self.rng.chance(85);
        if spe != self.machine.spe {
            self.set(0x80, spe as u64);
        }
        self.set(0x83, 1);
        if !spe && self.rng.chance(80) {
            self.set(0x80, 1);
        }
        self.see_pmsicr();
        if self.rng.chance(60) {
            self.members();
        }
    }

    /// MSR and MRS from level 1, 2 or 3, the switches of the word changed now and
    /// then, and the register looked at.
    pub(super) fn reach_pmsicr(&mut self) {
        let level = self.rng.pick(&[1, 1, 1, 2, 3]);
        self.level_or_0(level);
        for field in [0x81, 0x84, 0x85, 0x87, 0x88] {
            if self.rng.chance(30) {
                let value = self.sampling_value(field);
                self.set(field, value);
            }
        }
        if !self.machine.spe && self.rng.chance(80) {
            self.set(0x80, 1);
        }
        for _ in 0..1 + self.rng.below(3) {
            let rt = if self.rng.chance(10) { 31 } else { self.rng.below(31) as u32 };
            let read = self.rng.chance(45);
            self.some_pmsicr(read, rt);
        }
        if self.rng.chance(50) {
            self.see_pmsicr();
        }
    }
}
