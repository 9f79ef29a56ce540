//! MODEL J1 to J9, N1 to N7, U6, U7, G15 and G16: PMSICR_EL1, the sampling
//! interval counter register. Who may move it, the word at 0x838 that stands in
//! for it, the bits of it that are reserved, the members of the sample population
//! that it counts, and the reload when profiling starts.
//!
//! Where the papers leave a choice: whatever looks at the register, the test
//! for zero too, sees its reserved bits as 0; whatever changes a counter leaves
//! all other bits as they are, the reserved ones that a set has made 1 too; and
//! a draw replaces the secondary counter whether that is 0 by then or not.

use super::{Answer, Cause, Flow, Machine, Permitted, Trap, Undefined, EL2};

/// ECOUNT, the secondary counter, is from this bit up: 8 bits.
const ECOUNT_LOW: u32 = 56;
/// The bits of ECOUNT. They are reserved while ERnd is 0.
const ECOUNT: u64 = 0xFF << ECOUNT_LOW;
/// The bits of COUNT, the primary counter. Those between the two are reserved.
const COUNT: u64 = 0xFFFF_FFFF;

// Fields 80 to 8D.
impl Machine {
    /// The largest value of a field from 80 to 8D.
    pub(super) fn largest_of_sampling(field: u8) -> u64 {
        match field {
            0x88 => 3,
            0x8B => 0xFFFF_FFFF,
            0x8C | 0x8D => u64::MAX,
            _ => 1,
        }
    }

    /// Puts a field from 80 to 8D, whose value is not above its largest. The
    /// register takes its reserved bits as they are given.
    pub(super) fn set_sampling(&mut self, field: u8, value: u64) {
        match field {
            0x83 => self.set_profiling(value == 1),
            0x88 => self.nspb = value as u8,
            0x8B => self.reload = value as u32,
            0x8C => self.pmsicr = value,
            0x8D => self.nvmem_838 = value,
            _ => self.set_sampling_bit(field, value == 1),
        }
    }

    /// The fields of one bit, without profiling.
    fn set_sampling_bit(&mut self, field: u8, value: bool) {
        match field {
            0x80 => self.spe = value,
            0x81 => self.ernd = value,
            0x82 => self.rnd = value,
            0x84 => self.nv = value,
            0x85 => self.nv2 = value,
            0x86 => self.tpms = value,
            0x87 => self.ns = value,
            0x89 => self.hdfgrtr_pmsicr = value,
            0x8A => self.hdfgwtr_pmsicr = value,
            _ => unreachable!("no field of one bit"),
        }
    }

    /// Profiling that starts, where there is any, reloads the primary counter
    /// of a register that is zero. Only a set of this field can start it: a
    /// change of SPE or of the level does not.
    fn set_profiling(&mut self, on: bool) {
        if self.spe && !self.profiling && on && self.shown_pmsicr() == 0 {
            self.put_primary(self.reload);
        }
        self.profiling = on;
    }
}

// The parts of the register.
impl Machine {
    /// The bits that are not reserved.
    fn pmsicr_bits(&self) -> u64 {
        if self.ernd {
            ECOUNT | COUNT
        } else {
            COUNT
        }
    }

    /// The register as everything but a set sees it: reserved bits are 0.
    fn shown_pmsicr(&self) -> u64 {
        self.pmsicr & self.pmsicr_bits()
    }

    /// The secondary counter, 0 where it is reserved.
    fn secondary(&self) -> u8 {
        (self.shown_pmsicr() >> ECOUNT_LOW) as u8
    }

    /// The primary counter.
    fn primary(&self) -> u32 {
        self.shown_pmsicr() as u32
    }

    /// Puts the secondary counter. No other bit changes.
    fn put_secondary(&mut self, value: u8) {
        self.pmsicr = self.pmsicr & !ECOUNT | (value as u64) << ECOUNT_LOW;
    }

    /// Puts the primary counter. No other bit changes.
    fn put_primary(&mut self, value: u32) {
        self.pmsicr = self.pmsicr & !COUNT | value as u64;
    }
}

// MRS and MSR.
impl Machine {
    /// NSPB keeps the access away: its bit 0 is clear, or its bit 1 is not NS.
    /// There is no FEAT_RME.
    fn nspb_stops(&self) -> bool {
        let owned = self.nspb & 1 == 1;
        let non_secure = self.nspb & 2 == 2;
        !owned || non_secure != self.ns
    }

    fn pmsicr_at_el1(&self, fine_grained: bool) -> Flow {
        if self.el3_priority() && self.nspb_stops() {
            Undefined
        } else if self.el2_enabled && self.fgt_in_use() && fine_grained {
            Trap(EL2, Cause::FineGrained)
        } else if self.el2_enabled && self.tpms {
            Trap(EL2, Cause::Tpms)
        } else if self.have_el3 && self.nspb_stops() {
            self.stop_at_el3(Cause::Nspb)
        } else {
            Permitted
        }
    }

    fn pmsicr_at_el2(&self) -> Flow {
        if self.el3_priority() && self.nspb_stops() {
            Undefined
        } else if self.have_el3 && self.nspb_stops() {
            self.stop_at_el3(Cause::Nspb)
        } else {
            Permitted
        }
    }

    /// MRS and MSR: there is no register without FEAT_SPE, and never one at EL0.
    pub(super) fn pmsicr_flow(&self, read: bool) -> Flow {
        if !self.spe {
            return Undefined;
        }
        let fine_grained = if read { self.hdfgrtr_pmsicr } else { self.hdfgwtr_pmsicr };
        match self.el {
            0 => Undefined,
            1 => self.pmsicr_at_el1(fine_grained),
            2 => self.pmsicr_at_el2(),
            _ => Permitted,
        }
    }

    /// At EL1 alone, with EL2 enabled: NV and NV2 both set mean the word at 0x838.
    fn pmsicr_redirected(&self) -> bool {
        self.el == 1 && self.el2_enabled && self.nv2 && self.nv
    }

    /// A permitted read. The word has no reserved bits.
    pub(super) fn read_pmsicr(&self) -> u64 {
        if self.pmsicr_redirected() {
            self.nvmem_838
        } else {
            self.shown_pmsicr()
        }
    }

    /// A permitted write. It makes the reserved bits of the register 0.
    pub(super) fn write_pmsicr(&mut self, operand: u64) {
        if self.pmsicr_redirected() {
            self.nvmem_838 = operand;
        } else {
            self.pmsicr = operand & self.pmsicr_bits();
        }
    }
}

// Members of the sample population.
impl Machine {
    /// The member command. Each draw is one of those that can be.
    pub fn member(&mut self, draw: u8) -> Answer {
        if let Some(number) = self.state_refusal() {
            return Answer::Refused(number);
        }
        if self.spe && self.profiling && self.count_member(draw) {
            Answer::Sampled
        } else {
            Answer::Ok
        }
    }

    /// Both counters count the member, the secondary one first; whether the
    /// member is selected by either.
    fn count_member(&mut self, draw: u8) -> bool {
        let by_secondary = self.count_secondary();
        let by_primary = self.count_primary(draw);
        by_secondary || by_primary
    }

    /// One less in a secondary counter that is not 0: the last one selects.
    fn count_secondary(&mut self) -> bool {
        match self.secondary() {
            0 => false,
            some => {
                self.put_secondary(some - 1);
                some == 1
            }
        }
    }

    /// One less in a primary counter that is not 0.
    fn count_primary(&mut self, draw: u8) -> bool {
        match self.primary() {
            0 => false,
            1 => self.end_interval(draw),
            some => {
                self.put_primary(some - 1);
                false
            }
        }
    }

    /// The primary counter has reached 0 and is reloaded. This member is taken; but
    /// with RND and ERnd it is one that comes so many later as the draw says, with
    /// a draw of 0 this one again.
    fn end_interval(&mut self, draw: u8) -> bool {
        self.put_primary(self.reload);
        if self.rnd && self.ernd {
            self.put_secondary(draw);
            draw == 0
        } else {
            true
        }
    }
}
