//! The machine record and what it answers, shaped after the pseudocode of the
//! five register pages of Arm's. Each page has one function per exception
//! level; the machine is passed by reference. The external overflow registers
//! have no page: they follow that of PMCNTENSET_EL0. PMSICR_EL1 and what counts
//! in it have a file of their own.

mod sampling;

/// Everything a command can answer, except the end of a session.
#[derive(Clone, Copy, Debug, PartialEq, Eq)]
pub enum Answer {
    Ok,
    Undefined,
    Other,
    Error,
    /// MODEL J9: the member of the sample population is selected.
    Sampled,
    /// Target exception level, syndrome, and the control that stopped the access.
    Trap { target: u8, syndrome: u32, cause: Cause },
    /// What MRS puts into register Xt.
    Moved { value: u64, rt: u8 },
    /// What an external read shows.
    Value(u64),
    Refused(u8),
}

/// MODEL D0: the control behind a trap, the one that the branch of the pseudocode
/// tests last. What only switches that branch on or off (E2H, TGE, FGTEn, whether
/// EL2 is enabled or EL3 implemented) is never a cause. An access that is
/// undefined has none, even where a bit of MDCR_EL3 made it so.
#[derive(Clone, Copy, Debug, PartialEq, Eq)]
pub enum Cause {
    /// PMUSERENR_EL0 does not let EL0 use the register, wherever the trap goes.
    Pmuserenr,
    /// The bit of the register and direction in HDFGRTR_EL2, HDFGWTR_EL2 or,
    /// for PMICNTR_EL0, in HDFGRTR2_EL2, HDFGWTR2_EL2. PMSICR_EL1 has bits of
    /// its own.
    FineGrained,
    /// MDCR_EL2.TPM is 1.
    MdcrEl2Tpm,
    /// MDCR_EL2.HPMN is not above the number of the counter.
    Hpmn,
    /// MDCR_EL3.TPM is 1.
    MdcrEl3Tpm,
    /// MDCR_EL3.EnPM2 is 0.
    Enpm2,
    /// SCR_EL3.FGTEn2 is 0.
    Fgten2,
    /// MODEL D8: MDCR_EL2.TPMS is 1.
    Tpms,
    /// MODEL D9: MDCR_EL3.NSPB does not give the buffer to the state that
    /// SCR_EL3.NS names, or its lowest bit is 0.
    Nspb,
}

impl Cause {
    /// MODEL D1 to D9: the number that document 02 gives it.
    pub fn number(self) -> u8 {
        match self {
            Cause::Pmuserenr => 1,
            Cause::FineGrained => 2,
            Cause::MdcrEl2Tpm => 3,
            Cause::Hpmn => 4,
            Cause::MdcrEl3Tpm => 5,
            Cause::Enpm2 => 6,
            Cause::Fgten2 => 7,
            Cause::Tpms => 8,
            Cause::Nspb => 9,
        }
    }
}

/// Where the pseudocode of a page leads before the access itself.
#[derive(Clone, Copy, Debug, PartialEq, Eq)]
enum Flow {
    Permitted,
    Undefined,
    /// The target level, and what the branch tested.
    Trap(u8, Cause),
}

use Flow::{Permitted, Trap, Undefined};

const EL1: u8 = 1;
const EL2: u8 = 2;
const EL3: u8 = 3;

const BIT_C: u64 = 1 << 31;
const BIT_F0: u64 = 1 << 32;

/// Every overflow flag: those of 31 event counters and that of PMICNTR_EL0.
/// Bit 31 would be PMCCNTR_EL0's, of which there is no model.
const PMOVS_BITS: u64 = BIT_F0 | 0x7FFF_FFFF;

/// MODEL F1 to F24: the machine record. A fresh one is all zero.
#[derive(Clone, Debug, Default, PartialEq, Eq)]
pub struct Machine {
    /// PSTATE.EL
    pub el: u8,
    // Features.
    pub pmuv3: bool,
    pub pmuv3p5: bool,
    pub pmuv3p9: bool,
    pub icntr: bool,
    pub fgt: bool,
    pub fgt2: bool,
    pub hpmn0: bool,
    pub ext32: bool,
    pub ext64: bool,
    pub have_el2: bool,
    pub have_el3: bool,
    pub el3_trap_priority: bool,
    /// PMCR_EL0.N, NUM_PMU_COUNTERS on the pages.
    pub n: u8,
    // Conditions.
    pub el2_enabled: bool,
    pub halted: bool,
    pub sdd: bool,
    // PMUSERENR_EL0.
    pub en: bool,
    pub sw: bool,
    pub er: bool,
    pub uen: bool,
    pub ir: bool,
    // HCR_EL2.
    pub e2h: bool,
    pub tge: bool,
    // MDCR_EL2 and MDCR_EL3.
    pub mdcr_el2_tpm: bool,
    pub hpmn: u8,
    pub mdcr_el3_tpm: bool,
    pub enpm2: bool,
    // SCR_EL3.
    pub fgten: bool,
    pub fgten2: bool,
    // Fine-grained traps: HDFGRTR(2)_EL2 read, HDFGWTR(2)_EL2 write.
    pub hdfgrtr_pmevcntrn: bool,
    pub hdfgwtr_pmevcntrn: bool,
    pub hdfgwtr_pmswinc: bool,
    pub hdfgrtr2_npmicntr: bool,
    pub hdfgwtr2_npmicntr: bool,
    // PMUACR_EL1 and the counter enables.
    pub pmuacr_p: u32,
    pub pmuacr_f0: bool,
    pub pmcnten: u64,
    // Overflow: PMCR_EL0.LP, MDCR_EL2.HLP, and the flags of PMOVSCLR_EL0 and
    // PMOVSSET_EL0.
    pub lp: bool,
    pub hlp: bool,
    pub pmovs: u64,
    // What lets the counters of a range run: PMCR_EL0.E, MDCR_EL2.HPME.
    pub pmcr_e: bool,
    pub hpme: bool,
    // External interface.
    pub core_powered: bool,
    pub double_lock: bool,
    pub os_lock: bool,
    pub external_allowed: bool,
    pub software_lock: bool,
    // Event numbers, event counters, instruction counter.
    pub event: [u16; 31],
    pub pmevcntr: [u64; 31],
    pub pmicntr: u64,
    // MODEL F2 and F23: FEAT_SPE, PMSIDR_EL1.ERnd, PMSIRR_EL1.RND, and profiling enabled.
    pub spe: bool,
    pub ernd: bool,
    pub rnd: bool,
    pub profiling: bool,
    // HCR_EL2.NV and NV2, MDCR_EL2.TPMS, SCR_EL3.NS and MDCR_EL3.NSPB, two bits.
    pub nv: bool,
    pub nv2: bool,
    pub tpms: bool,
    pub ns: bool,
    pub nspb: u8,
    // The bits of PMSICR_EL1 in HDFGRTR_EL2 and HDFGWTR_EL2.
    pub hdfgrtr_pmsicr: bool,
    pub hdfgwtr_pmsicr: bool,
    /// What the primary counter is reloaded from.
    pub reload: u32,
    /// PMSICR_EL1 with its reserved bits, which only a set can make 1.
    pub pmsicr: u64,
    /// NVMem[0x838]
    pub nvmem_838: u64,
}

/// A system register move, as its instruction word gives it.
#[derive(Clone, Copy, Debug, PartialEq, Eq)]
pub struct Move {
    pub read: bool,
    pub op0: u32,
    pub op1: u32,
    pub crn: u32,
    pub crm: u32,
    pub op2: u32,
    pub rt: u32,
}

/// The registers that are modelled.
#[derive(Clone, Copy, Debug, PartialEq, Eq)]
pub enum Register {
    Pmevcntr(u8),
    Pmswinc,
    Pmicntr,
    Pmsicr,
}

/// Bits `high` to `low` of a word.
fn bits(word: u32, high: u32, low: u32) -> u32 {
    (word >> low) & ((1 << (high - low + 1)) - 1)
}

impl Move {
    /// MRS or MSR (register), or nothing.
    pub fn decode(word: u32) -> Option<Move> {
        if bits(word, 31, 22) != 0x354 || bits(word, 20, 20) != 1 {
            return None;
        }
        Some(Move {
            read: bits(word, 21, 21) == 1,
            op0: bits(word, 19, 19) + 2,
            op1: bits(word, 18, 16),
            crn: bits(word, 15, 12),
            crm: bits(word, 11, 8),
            op2: bits(word, 7, 5),
            rt: bits(word, 4, 0),
        })
    }

    /// The register that is moved, if it is one of ours.
    pub fn register(&self) -> Option<Register> {
        match (self.op0, self.op1, self.crn, self.crm, self.op2) {
            (3, 3, 14, 8..=11, op2) => {
                Some(Register::Pmevcntr((8 * (self.crm % 4) + op2) as u8))
            }
            (3, 3, 9, 12, 4) => Some(Register::Pmswinc),
            (3, 3, 9, 4, 0) => Some(Register::Pmicntr),
            (3, 0, 9, 9, 2) => Some(Register::Pmsicr),
            _ => None,
        }
    }

    /// ESR_ELx for exception class 0x18, a trapped MSR or MRS.
    fn syndrome(&self) -> u32 {
        0x18 << 26
            | 1 << 25
            | self.op0 << 20
            | self.op2 << 17
            | self.op1 << 14
            | self.crn << 10
            | self.rt << 5
            | self.crm << 1
            | self.read as u32
    }
}

// Setting fields.
impl Machine {
    /// The largest value of a field, or nothing where there is no such field.
    pub fn largest(field: u8) -> Option<u64> {
        match field {
            0x0C | 0x27 => Some(31),
            0x32 => Some(0x7FFF_FFFF),
            0x34 => Some(0x1_FFFF_FFFF),
            0x37 => Some(0x1_7FFF_FFFF),
            0x00..=0x0B | 0x10..=0x12 | 0x20..=0x36 | 0x38..=0x3E => Some(1),
            0x40..=0x5E => Some(0xFFFF),
            0x60..=0x7F => Some(u64::MAX),
            0x80..=0x8D => Some(Machine::largest_of_sampling(field)),
            _ => None,
        }
    }

    /// A value below the largest that its field cannot hold all the same: the
    /// overflow flags have a gap at bit 31.
    fn in_gap(field: u8, value: u64) -> bool {
        field == 0x37 && value & BIT_C != 0
    }

    /// The set command. The state is not tested.
    pub fn set(&mut self, field: u8, value: u64) -> Answer {
        let largest = match Machine::largest(field) {
            Some(largest) => largest,
            None => return Answer::Refused(3),
        };
        if value > largest || Machine::in_gap(field, value) {
            return Answer::Refused(4);
        }
        match field {
            0x0C => self.n = value as u8,
            0x27 => self.hpmn = value as u8,
            0x32 => self.pmuacr_p = value as u32,
            0x34 => self.pmcnten = value,
            0x37 => self.pmovs = value,
            0x40..=0x5E => self.event[field as usize - 0x40] = value as u16,
            0x60..=0x7E => self.pmevcntr[field as usize - 0x60] = value,
            0x7F => self.pmicntr = value,
            0x80..=0x8D => self.set_sampling(field, value),
            _ => self.set_bit(field, value == 1),
        }
        Answer::Ok
    }

    /// The level command. The state is not tested.
    pub fn set_level(&mut self, level: u8) -> Answer {
        if level > 3 {
            return Answer::Refused(5);
        }
        self.el = level;
        Answer::Ok
    }

    /// Puts a field of one bit.
    fn set_bit(&mut self, field: u8, value: bool) {
        let place = match field {
            0x00..=0x12 => self.feature(field),
            0x20..=0x36 | 0x3D | 0x3E => self.control(field),
            _ => self.external(field),
        };
        if let Some(place) = place {
            *place = value;
        }
    }

    /// Features and conditions.
    fn feature(&mut self, field: u8) -> Option<&mut bool> {
        Some(match field {
            0x00 => &mut self.pmuv3,
            0x01 => &mut self.pmuv3p5,
            0x02 => &mut self.pmuv3p9,
            0x03 => &mut self.icntr,
            0x04 => &mut self.fgt,
            0x05 => &mut self.fgt2,
            0x06 => &mut self.hpmn0,
            0x07 => &mut self.ext32,
            0x08 => &mut self.ext64,
            0x09 => &mut self.have_el2,
            0x0A => &mut self.have_el3,
            0x0B => &mut self.el3_trap_priority,
            0x10 => &mut self.el2_enabled,
            0x11 => &mut self.halted,
            0x12 => &mut self.sdd,
            _ => return None,
        })
    }

    /// Control bits of the system registers.
    fn control(&mut self, field: u8) -> Option<&mut bool> {
        Some(match field {
            0x20 => &mut self.en,
            0x21 => &mut self.sw,
            0x22 => &mut self.er,
            0x23 => &mut self.uen,
            0x24 => &mut self.e2h,
            0x25 => &mut self.tge,
            0x26 => &mut self.mdcr_el2_tpm,
            0x28 => &mut self.mdcr_el3_tpm,
            0x29 => &mut self.enpm2,
            0x2A => &mut self.fgten,
            0x2B => &mut self.fgten2,
            0x2C => &mut self.hdfgrtr_pmevcntrn,
            0x2D => &mut self.hdfgwtr_pmevcntrn,
            0x2E => &mut self.hdfgwtr_pmswinc,
            0x2F => &mut self.hdfgrtr2_npmicntr,
            0x30 => &mut self.hdfgwtr2_npmicntr,
            0x31 => &mut self.ir,
            0x33 => &mut self.pmuacr_f0,
            0x35 => &mut self.lp,
            0x36 => &mut self.hlp,
            0x3D => &mut self.pmcr_e,
            0x3E => &mut self.hpme,
            _ => return None,
        })
    }

    /// Conditions of the external interface.
    fn external(&mut self, field: u8) -> Option<&mut bool> {
        Some(match field {
            0x38 => &mut self.core_powered,
            0x39 => &mut self.double_lock,
            0x3A => &mut self.os_lock,
            0x3B => &mut self.external_allowed,
            0x3C => &mut self.software_lock,
            _ => return None,
        })
    }
}

// The state tests.
impl Machine {
    /// MODEL R10: the level or a field is out of its range. Only a machine that
    /// was put together field by field can be like that: set, set_level and the
    /// other commands stay in range.
    fn out_of_range(&self) -> bool {
        let numbers = self.el > 3 || self.n > 31 || self.hpmn > 31;
        let masks = self.pmuacr_p > 0x7FFF_FFFF || self.pmcnten > 0x1_FFFF_FFFF;
        numbers || masks || self.pmovs & !PMOVS_BITS != 0 || self.nspb > 3
    }

    /// MODEL V3: the lowest number of R10 to R17 that applies.
    pub fn state_refusal(&self) -> Option<u8> {
        let wide = self.pmevcntr.iter().any(|&c| c >> 32 != 0);
        let needs_pmuv3 = self.pmuv3p5 || self.pmuv3p9 || self.icntr;
        if self.out_of_range() {
            Some(10)
        } else if self.el == 3 && !self.have_el3 || self.el == 2 && !self.el2_enabled {
            Some(11)
        } else if self.el2_enabled && !self.have_el2 {
            Some(12)
        } else if self.have_el2 && self.hpmn > self.n {
            Some(13)
        } else if self.have_el2 && self.hpmn == 0 && !self.hpmn0 {
            Some(14)
        } else if !self.pmuv3p5 && wide {
            Some(15)
        } else if self.el == 1 && self.el2_enabled && self.tge {
            Some(16)
        } else if needs_pmuv3 && !self.pmuv3 || self.pmuv3p9 && !self.pmuv3p5 {
            Some(17)
        } else {
            None
        }
    }
}

// Conditions that several pages share.
impl Machine {
    /// Halted() && HaveEL(EL3) && EDSCR.SDD == '1' && "EL3 trap priority".
    fn el3_priority(&self) -> bool {
        self.halted && self.have_el3 && self.sdd && self.el3_trap_priority
    }

    /// A trap to EL3, undefined in Debug state with SDD.
    fn stop_at_el3(&self, cause: Cause) -> Flow {
        if self.halted && self.sdd {
            Undefined
        } else {
            Trap(EL3, cause)
        }
    }

    /// The trap of an access that PMUSERENR_EL0 disables at EL0.
    fn disabled_trap(&self) -> Flow {
        let target = if self.el2_enabled && self.tge { EL2 } else { EL1 };
        Trap(target, Cause::Pmuserenr)
    }

    /// HCR_EL2.<E2H,TGE> == '11'
    fn e2h_tge(&self) -> bool {
        self.e2h && self.tge
    }

    /// IsFeatureImplemented(FEAT_FGT) && (!HaveEL(EL3) || SCR_EL3.FGTEn == '1')
    fn fgt_in_use(&self) -> bool {
        self.fgt && (!self.have_el3 || self.fgten)
    }
}

// Arm's page of PMSWINC_EL0: MODEL U3, U4, T1 to T10 and G8 to G14.
impl Machine {
    fn pmswinc_at_el0(&self) -> Flow {
        if self.el3_priority() && self.mdcr_el3_tpm {
            Undefined
        } else if !self.sw && !self.en {
            self.disabled_trap()
        } else if self.el2_enabled && !self.e2h_tge() && self.fgt_in_use() && self.hdfgwtr_pmswinc {
            Trap(EL2, Cause::FineGrained)
        } else if self.el2_enabled && self.mdcr_el2_tpm {
            Trap(EL2, Cause::MdcrEl2Tpm)
        } else if self.have_el3 && self.mdcr_el3_tpm {
            self.stop_at_el3(Cause::MdcrEl3Tpm)
        } else {
            Permitted
        }
    }

    fn pmswinc_at_el1(&self) -> Flow {
        if self.el3_priority() && self.mdcr_el3_tpm {
            Undefined
        } else if self.el2_enabled && self.fgt_in_use() && self.hdfgwtr_pmswinc {
            Trap(EL2, Cause::FineGrained)
        } else if self.el2_enabled && self.mdcr_el2_tpm {
            Trap(EL2, Cause::MdcrEl2Tpm)
        } else if self.have_el3 && self.mdcr_el3_tpm {
            self.stop_at_el3(Cause::MdcrEl3Tpm)
        } else {
            Permitted
        }
    }

    /// EL2 is alike on the pages of PMSWINC_EL0 and PMEVCNTR<m>_EL0.
    fn pmu_at_el2(&self) -> Flow {
        if self.el3_priority() && self.mdcr_el3_tpm {
            Undefined
        } else if self.have_el3 && self.mdcr_el3_tpm {
            self.stop_at_el3(Cause::MdcrEl3Tpm)
        } else {
            Permitted
        }
    }

    /// MSR PMSWINC_EL0, <Xt>; there is no MRS.
    fn pmswinc_flow(&self, read: bool) -> Flow {
        if !self.pmuv3 || read {
            return Undefined;
        }
        match self.el {
            0 => self.pmswinc_at_el0(),
            1 => self.pmswinc_at_el1(),
            2 => self.pmu_at_el2(),
            _ => Permitted,
        }
    }

    /// P<m> ignores writes.
    fn pmswinc_ignores(&self, m: u8) -> bool {
        let p = self.pmuacr_p >> m & 1 == 1;
        let by_pmuacr = self.pmuv3p9 && self.el == 0 && self.uen && !self.sw && !p;
        let by_hpmn = self.el2_enabled && m >= self.hpmn && (self.el == 0 || self.el == 1);
        by_pmuacr || by_hpmn || m >= self.n
    }

    /// A permitted write.
    fn write_pmswinc(&mut self, operand: u64) {
        for m in 0..31u8 {
            let i = m as usize;
            let counts = self.event[i] == 0 && self.runs(m);
            if operand >> m & 1 == 1 && counts && !self.pmswinc_ignores(m) {
                if self.overflows(m) {
                    self.pmovs |= 1 << m;
                }
                self.pmevcntr[i] = self.wrapped(self.pmevcntr[i].wrapping_add(1));
            }
        }
    }

    /// MODEL G12: HPMN divides the counters wherever EL2 is implemented,
    /// enabled or not. Those from it up are the second range, which MDCR_EL2
    /// has bits for.
    fn second_range(&self, m: u8) -> bool {
        self.have_el2 && m >= self.hpmn
    }

    /// MODEL G14: the counter is on: its own enable bit, and that of its range. A
    /// counter that is off keeps its value and its overflow flag.
    fn runs(&self, m: u8) -> bool {
        let range = if self.second_range(m) { self.hpme } else { self.pmcr_e };
        range && self.pmcnten >> m & 1 == 1
    }

    /// The bit that makes a counter overflow as a long one.
    fn long(&self, m: u8) -> bool {
        if self.second_range(m) {
            self.hlp
        } else {
            self.lp
        }
    }

    /// One more is a carry out of the bits at which a counter overflows. These
    /// are the low 32, also of a counter of 64 bits that is not a long one.
    fn overflows(&self, m: u8) -> bool {
        let bits = if self.pmuv3p5 && self.long(m) { u64::MAX } else { 0xFFFF_FFFF };
        self.pmevcntr[m as usize] & bits == bits
    }

    /// An event counter has 64 bits with FEAT_PMUv3p5, else 32.
    fn wrapped(&self, value: u64) -> u64 {
        if self.pmuv3p5 {
            value
        } else {
            value & 0xFFFF_FFFF
        }
    }
}

// Arm's page of PMEVCNTR<m>_EL0: MODEL U1, U2, T1 to T10 and G1 to G5.
impl Machine {
    fn mrs_pmevcntr_at_el0(&self, m: u8) -> Flow {
        if self.el3_priority() && self.mdcr_el3_tpm {
            Undefined
        } else if !self.er && !self.en {
            self.disabled_trap()
        } else if self.el2_enabled && !self.e2h_tge() && self.fgt_in_use() && self.hdfgrtr_pmevcntrn
        {
            Trap(EL2, Cause::FineGrained)
        } else {
            self.pmevcntr_after_fgt(m)
        }
    }

    fn msr_pmevcntr_at_el0(&self, m: u8) -> Flow {
        if self.el3_priority() && self.mdcr_el3_tpm {
            Undefined
        } else if !self.en {
            self.disabled_trap()
        } else if self.el2_enabled && !self.e2h_tge() && self.fgt_in_use() && self.hdfgwtr_pmevcntrn
        {
            Trap(EL2, Cause::FineGrained)
        } else {
            self.pmevcntr_after_fgt(m)
        }
    }

    fn pmevcntr_at_el1(&self, m: u8, read: bool) -> Flow {
        let fine_grained = if read { self.hdfgrtr_pmevcntrn } else { self.hdfgwtr_pmevcntrn };
        if self.el3_priority() && self.mdcr_el3_tpm {
            Undefined
        } else if self.el2_enabled && self.fgt_in_use() && fine_grained {
            Trap(EL2, Cause::FineGrained)
        } else {
            self.pmevcntr_after_fgt(m)
        }
    }

    /// MODEL T4 to T6: the common rest at EL0 and EL1. Where FGT is missing,
    /// the page leaves open what becomes of a counter that is implemented but
    /// not accessible; T5 traps it.
    fn pmevcntr_after_fgt(&self, m: u8) -> Flow {
        if self.el2_enabled && self.mdcr_el2_tpm {
            Trap(EL2, Cause::MdcrEl2Tpm)
        } else if self.el2_enabled && m >= self.hpmn {
            Trap(EL2, Cause::Hpmn)
        } else if self.have_el3 && self.mdcr_el3_tpm {
            self.stop_at_el3(Cause::MdcrEl3Tpm)
        } else {
            Permitted
        }
    }

    /// MRS and MSR. MODEL U2: m >= N is undefined, also where FGT is missing
    /// and the page leaves a choice.
    fn pmevcntr_flow(&self, m: u8, read: bool) -> Flow {
        if !self.pmuv3 || m >= self.n {
            return Undefined;
        }
        match (self.el, read) {
            (0, true) => self.mrs_pmevcntr_at_el0(m),
            (0, false) => self.msr_pmevcntr_at_el0(m),
            (1, _) => self.pmevcntr_at_el1(m, read),
            (2, _) => self.pmu_at_el2(),
            _ => Permitted,
        }
    }

    /// Reads as zero and ignores writes.
    fn pmevcntr_hidden(&self, m: u8) -> bool {
        let p = self.pmuacr_p >> m & 1 == 1;
        self.pmuv3p9 && self.el == 0 && self.uen && !p
    }

    /// A permitted read.
    fn read_pmevcntr(&self, m: u8) -> u64 {
        if self.pmevcntr_hidden(m) {
            0
        } else {
            self.pmevcntr[m as usize]
        }
    }

    /// A permitted write.
    fn write_pmevcntr(&mut self, m: u8, operand: u64) {
        let read_only = self.pmuv3p9 && self.el == 0 && self.uen && self.er;
        if !self.pmevcntr_hidden(m) && !read_only {
            self.pmevcntr[m as usize] = self.wrapped(operand);
        }
    }
}

// Arm's page of PMICNTR_EL0: MODEL U5, I1 to I8, T9, T10 and G6.
impl Machine {
    fn pmicntr_at_el0(&self, npmicntr: bool) -> Flow {
        if self.el3_priority() && !self.enpm2 {
            Undefined
        } else if self.el3_priority() && self.mdcr_el3_tpm {
            Undefined
        } else if self.el2_enabled && !self.e2h_tge() && self.fgt2 && self.have_el3 && !self.fgten2
        {
            Trap(EL2, Cause::Fgten2)
        } else if self.el2_enabled && !self.e2h_tge() && self.fgt2 && !npmicntr {
            Trap(EL2, Cause::FineGrained)
        } else if self.el2_enabled && self.mdcr_el2_tpm {
            Trap(EL2, Cause::MdcrEl2Tpm)
        } else {
            self.pmicntr_el3_traps()
        }
    }

    fn pmicntr_at_el1(&self, npmicntr: bool) -> Flow {
        if self.el3_priority() && !self.enpm2 {
            Undefined
        } else if self.el3_priority() && self.mdcr_el3_tpm {
            Undefined
        } else if self.el2_enabled && self.fgt2 && self.have_el3 && !self.fgten2 {
            Trap(EL2, Cause::Fgten2)
        } else if self.el2_enabled && self.fgt2 && !npmicntr {
            Trap(EL2, Cause::FineGrained)
        } else if self.el2_enabled && self.mdcr_el2_tpm {
            Trap(EL2, Cause::MdcrEl2Tpm)
        } else {
            self.pmicntr_el3_traps()
        }
    }

    fn pmicntr_at_el2(&self) -> Flow {
        if self.el3_priority() && !self.enpm2 {
            Undefined
        } else if self.el3_priority() && self.mdcr_el3_tpm {
            Undefined
        } else {
            self.pmicntr_el3_traps()
        }
    }

    /// The last rules at EL0 to EL2.
    fn pmicntr_el3_traps(&self) -> Flow {
        if self.have_el3 && !self.enpm2 {
            self.stop_at_el3(Cause::Enpm2)
        } else if self.have_el3 && self.mdcr_el3_tpm {
            self.stop_at_el3(Cause::MdcrEl3Tpm)
        } else {
            Permitted
        }
    }

    /// MRS and MSR.
    fn pmicntr_flow(&self, read: bool) -> Flow {
        if !self.icntr {
            return Undefined;
        }
        let npmicntr = if read { self.hdfgrtr2_npmicntr } else { self.hdfgwtr2_npmicntr };
        match self.el {
            0 => self.pmicntr_at_el0(npmicntr),
            1 => self.pmicntr_at_el1(npmicntr),
            2 => self.pmicntr_at_el2(),
            _ => Permitted,
        }
    }

    /// A permitted read.
    fn read_pmicntr(&self) -> u64 {
        if self.el == 0 && !self.pmuacr_f0 {
            0
        } else {
            self.pmicntr
        }
    }

    /// A permitted write.
    fn write_pmicntr(&mut self, operand: u64) {
        if self.el == 0 && (!self.pmuacr_f0 || self.ir) {
            return;
        }
        self.pmicntr = operand;
    }
}

// Accesses by instruction word.
impl Machine {
    /// The access command: state tests, decoding, traps, then the access.
    pub fn access(&mut self, word: u32, operand: u64) -> Answer {
        if let Some(number) = self.state_refusal() {
            return Answer::Refused(number);
        }
        let instruction = match Move::decode(word) {
            Some(instruction) => instruction,
            None => return Answer::Other,
        };
        let register = match instruction.register() {
            Some(register) => register,
            None => return Answer::Other,
        };
        let flow = match register {
            Register::Pmevcntr(m) => self.pmevcntr_flow(m, instruction.read),
            Register::Pmswinc => self.pmswinc_flow(instruction.read),
            Register::Pmicntr => self.pmicntr_flow(instruction.read),
            Register::Pmsicr => self.pmsicr_flow(instruction.read),
        };
        match flow {
            Undefined => Answer::Undefined,
            Trap(target, cause) => Answer::Trap { target, syndrome: instruction.syndrome(), cause },
            Permitted if instruction.read => {
                Answer::Moved { value: self.read(register), rt: instruction.rt as u8 }
            }
            Permitted => {
                let xt = if instruction.rt == 31 { 0 } else { operand };
                self.write(register, xt);
                Answer::Ok
            }
        }
    }

    fn read(&self, register: Register) -> u64 {
        match register {
            Register::Pmevcntr(m) => self.read_pmevcntr(m),
            Register::Pmicntr => self.read_pmicntr(),
            Register::Pmsicr => self.read_pmsicr(),
            Register::Pmswinc => unreachable!("MRS of PMSWINC is undefined"),
        }
    }

    fn write(&mut self, register: Register, xt: u64) {
        match register {
            Register::Pmevcntr(m) => self.write_pmevcntr(m, xt),
            Register::Pmicntr => self.write_pmicntr(xt),
            Register::Pmsicr => self.write_pmsicr(xt),
            Register::Pmswinc => self.write_pmswinc(xt),
        }
    }
}

/// The external registers that are modelled.
#[derive(Clone, Copy, Debug, PartialEq, Eq)]
enum External {
    Pmcntenset,
    Pmovsclr,
    Pmovsset,
}

impl External {
    /// The register at an offset, if it is one of ours.
    fn at(offset: u16) -> Option<External> {
        match offset {
            0xC00 => Some(External::Pmcntenset),
            0xC80 => Some(External::Pmovsclr),
            0xCC0 => Some(External::Pmovsset),
            _ => None,
        }
    }
}

// Arm's page of the external PMCNTENSET_EL0: MODEL E1 to E12. PMOVSCLR_EL0 and
// PMOVSSET_EL0 are reached like it.
impl Machine {
    /// Tests that external reads and writes share, up to which register it is;
    /// an answer ends the access.
    fn external_register(&self, offset: u16) -> Result<External, Answer> {
        match self.state_refusal() {
            Some(number) => Err(Answer::Refused(number)),
            None => External::at(offset).ok_or(Answer::Other),
        }
    }

    /// The registers are there with either external interface.
    fn external_present(&self) -> bool {
        self.ext32 || self.ext64
    }

    /// The access gets an error response.
    fn external_error(&self) -> bool {
        self.double_lock || !self.core_powered || self.os_lock || !self.external_allowed
    }

    /// The bits that exist: P<m> for m < N and F0 with ICNTR; of the enables C
    /// too. F0 implies the 64-bit form, so the width of the register cuts
    /// nothing more off.
    fn external_bits(&self, register: External) -> u64 {
        let events = (1u64 << self.n) - 1;
        let f0 = if self.icntr { BIT_F0 } else { 0 };
        match register {
            External::Pmcntenset => events | BIT_C | f0,
            External::Pmovsclr | External::Pmovsset => events | f0,
        }
    }

    /// What a register shows, were all of its bits there.
    fn external_value(&self, register: External) -> u64 {
        match register {
            External::Pmcntenset => self.pmcnten,
            External::Pmovsclr | External::Pmovsset => self.pmovs,
        }
    }

    /// A write of ones that nothing holds back: two registers set, one clears.
    fn external_store(&mut self, register: External, ones: u64) {
        match register {
            External::Pmcntenset => self.pmcnten |= ones,
            External::Pmovsclr => self.pmovs &= !ones,
            External::Pmovsset => self.pmovs |= ones,
        }
    }

    /// The external read command.
    pub fn external_read(&self, offset: u16) -> Answer {
        let register = match self.external_register(offset) {
            Ok(register) => register,
            Err(answer) => return answer,
        };
        if !self.external_present() {
            Answer::Value(0)
        } else if self.external_error() {
            Answer::Error
        } else {
            Answer::Value(self.external_value(register) & self.external_bits(register))
        }
    }

    /// The external write command. Zeros change nothing.
    pub fn external_write(&mut self, offset: u16, value: u64) -> Answer {
        let register = match self.external_register(offset) {
            Ok(register) => register,
            Err(answer) => return answer,
        };
        if !self.external_present() {
            Answer::Ok
        } else if self.external_error() {
            Answer::Error
        } else {
            if !self.software_lock {
                self.external_store(register, value & self.external_bits(register));
            }
            Answer::Ok
        }
    }
}

// Ticks: MODEL K1 to K3.
impl Machine {
    /// The tick command: one executed instruction.
    pub fn tick(&mut self, prohibited: u8) -> Answer {
        if prohibited > 1 {
            return Answer::Refused(4);
        }
        if let Some(number) = self.state_refusal() {
            return Answer::Refused(number);
        }
        if self.icntr && self.pmcnten & BIT_F0 != 0 && prohibited == 0 {
            self.pmicntr = self.pmicntr.wrapping_add(1);
            if self.pmicntr == 0 {
                self.pmovs |= BIT_F0;
            }
        }
        Answer::Ok
    }
}
