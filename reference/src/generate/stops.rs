//! MODEL D0 and D10: random accesses that are stopped, and by what: some of
//! their controls are closed and then opened again, mostly the one that stops
//! the access.

use super::*;

/// A field that can stop an access: the value with which it does not, then one
/// with which it does.
type Control = (u8, u64, u64);

// Accesses that are stopped, and by what.
impl Writer {
    /// An access while some of its controls are closed, and again as they are
    /// opened one by one: mostly that which stops it now, else any.
    pub(super) fn stop_access(&mut self) {
        let before = self.machine.clone();
        self.make_stoppable();
        let (word, levels, controls) = self.stoppable();
        let level = self.rng.pick(&levels);
        self.level_or_0(level);
        for &(field, open, closed) in &controls {
            match self.rng.below(10) {
                0..=4 => self.set(field, closed),
                5..=8 => self.set(field, open),
                _ => {}
            }
        }
        let operand = if self.rng.chance(50) { self.operand() } else { self.mask() };
        for _ in 0..=self.rng.below(4) {
            self.access(word, operand);
            let any = self.rng.pick(&controls);
            let named = controls.iter().find(|control| self.stops(word, **control));
            let (field, open, _) = *named.filter(|_| self.rng.chance(85)).unwrap_or(&any);
            self.set(field, open);
        }
        self.access(word, operand);
        if self.rng.chance(85) {
            self.put_back(&before);
        }
    }

    /// Opening this control alone changes what becomes of an access.
    fn stops(&self, word: u32, (field, open, _): Control) -> bool {
        let mut opened = self.machine.clone();
        opened.set(field, open);
        opened.access(word, 0) != self.machine.clone().access(word, 0)
    }

    /// Sees to it that most controls are asked for: a consistent record, EL2, EL3
    /// and the fine-grained traps. Sometimes one of these stays away.
    fn make_stoppable(&mut self) {
        for _ in 0..3 {
            if self.machine.state_refusal().is_some() {
                self.mend();
            }
        }
        if !self.machine.el2_enabled && self.rng.chance(85) {
            let hpmn = self.hpmn(self.machine.n as u64);
            self.set(0x27, hpmn);
            self.set(0x09, 1);
            self.set(0x10, 1);
        }
        let m = &self.machine;
        let list = [
            (m.have_el3, 0x0A),
            (m.fgt, 0x04),
            (m.fgten, 0x2A),
            (m.fgt2, 0x05),
            (m.icntr || !m.pmuv3, 0x03),
            (m.spe, 0x80),
        ];
        for (there, field) in list {
            if !there && self.rng.chance(75) {
                self.set(field, 1);
            }
        }
        if self.rng.chance(25) {
            let tge = self.rng.below(2);
            self.set(0x25, tge);
        }
        if self.machine.halted && self.rng.chance(50) {
            self.set(0x11, 0);
        }
    }

    /// What make_stoppable changes, but for HPMN: fields and their values.
    fn stage(machine: &Machine) -> [(u8, bool); 10] {
        [
            (0x10, machine.el2_enabled),
            (0x09, machine.have_el2),
            (0x0A, machine.have_el3),
            (0x04, machine.fgt),
            (0x2A, machine.fgten),
            (0x05, machine.fgt2),
            (0x03, machine.icntr),
            (0x80, machine.spe),
            (0x25, machine.tge),
            (0x11, machine.halted),
        ]
    }

    /// Takes most of these changes back, so that sessions stay different.
    fn put_back(&mut self, before: &Machine) {
        let now = Writer::stage(&self.machine);
        for ((field, was), (_, is)) in Writer::stage(before).into_iter().zip(now) {
            let needed = field == 0x09 && self.machine.el2_enabled;
            if was != is && !needed && self.rng.chance(90) {
                self.set(field, was as u64);
            }
        }
        if matches!(self.machine.state_refusal(), Some(11) | Some(16)) {
            self.level(0);
        }
    }

    /// An access, the levels that it is made at, and its controls.
    fn stoppable(&mut self) -> (u32, [u8; 5], Vec<Control>) {
        let rt = self.rng.below(32) as u32;
        let read = self.rng.chance(50);
        let levels = [0, 0, 1, 1, 2];
        let (tpm_el2, tpm_el3) = ((0x26, 0, 1), (0x28, 0, 1));
        match self.rng.below(13) {
            0..=3 => {
                let (m, hpmn) = self.counter_and_hpmn();
                let bit = if read { 0x2C } else { 0x2D };
                let controls = vec![(0x20, 1, 0), (bit, 0, 1), tpm_el2, hpmn, tpm_el3];
                (counter_word(read, m, rt), levels, controls)
            }
            4 | 5 => {
                let controls = vec![(0x20, 1, 0), (0x21, 1, 0), (0x2E, 0, 1), tpm_el2, tpm_el3];
                (word(false, 9, 12, 4, rt), levels, controls)
            }
            6..=9 => {
                let bit = if read { 0x2F } else { 0x30 };
                let controls = vec![(0x2B, 1, 0), (bit, 1, 0), tpm_el2, (0x29, 1, 0), tpm_el3];
                (word(read, 9, 4, 0, rt), levels, controls)
            }
            _ => (pmsicr_word(read, rt), [0, 1, 1, 1, 2], self.pmsicr_controls(read)),
        }
    }

    /// The controls of PMSICR. NSPB 1 is open where NS is 0, and 3 where it is
    /// 1; NS can stand in for NSPB.
    fn pmsicr_controls(&mut self, read: bool) -> Vec<Control> {
        let bit = if read { 0x89 } else { 0x8A };
        let ns = self.machine.ns as u64;
        let open = ns << 1 | 1;
        let closed = self.rng.below(3);
        let closed = if closed < open { closed } else { closed + 1 };
        let nspb = if self.rng.chance(80) || self.machine.nspb as u64 != open {
            (0x88, open, closed)
        } else {
            (0x87, ns, 1 - ns)
        };
        vec![(bit, 0, 1), (0x86, 0, 1), nspb]
    }

    /// A counter below N, if there is one, and HPMN as its control.
    fn counter_and_hpmn(&mut self) -> (u32, Control) {
        let n = self.machine.n as u64;
        if n == 0 {
            return (0, (0x27, 0, 0));
        }
        let m = self.counter() as u64 % n;
        let open = m + 1 + self.rng.below(n - m);
        let least = if self.machine.hpmn0 { 0 } else { 1 };
        let closed = self.rng.below(m + 1).max(least);
        (m as u32, (0x27, open, closed))
    }
}
