//! The fields of the machine record, table F of docs/MODEL.md. A later field is a row here.

/// A field, or as many with consecutive numbers: `<m>` in a name stands for 0 and up.
pub struct Field {
    pub number: u8,
    pub count: u8,
    /// In Arm's manual: a feature, a bit of a register, or a function of the pseudocode.
    pub arm: &'static str,
    /// In docs/MODEL.md.
    pub model: &'static str,
    pub largest: u64,
    /// Whether it has a bit for each counter: it is printed so, and a bit that its largest value
    /// does not have is none of its bits.
    pub mask: bool,
}

/// Why a field can't hold a value.
#[derive(Debug, PartialEq, Eq)]
pub enum Unheld {
    Above,
    /// The highest bit that it has not.
    NoBit(u32),
}

impl Field {
    /// MODEL R4: whether it can't hold a value, and why.
    pub fn refuses(&self, value: u64) -> Option<Unheld> {
        let others = value & !self.largest;
        if value > self.largest {
            return Some(Unheld::Above);
        }
        (self.mask && others != 0).then(|| Unheld::NoBit(63 - others.leading_zeros()))
    }
}

const fn bit(number: u8, arm: &'static str, model: &'static str) -> Field {
    wide(number, arm, model, 1)
}

const fn wide(number: u8, arm: &'static str, model: &'static str, largest: u64) -> Field {
    Field { number, count: 1, arm, model, largest, mask: false }
}

const fn mask(number: u8, arm: &'static str, model: &'static str, largest: u64) -> Field {
    Field { number, count: 1, arm, model, largest, mask: true }
}

const fn many(number: u8, arm: &'static str, model: &'static str, largest: u64) -> Field {
    Field { number, count: 31, arm, model, largest, mask: false }
}

pub const FIELDS: &[Field] = &[
    bit(0x00, "FEAT_PMUv3", "PMUv3"),
    bit(0x01, "FEAT_PMUv3p5", "p5"),
    bit(0x02, "FEAT_PMUv3p9", "p9"),
    bit(0x03, "FEAT_PMUv3_ICNTR", "ICNTR"),
    bit(0x04, "FEAT_FGT", "FGT"),
    bit(0x05, "FEAT_FGT2", "FGT2"),
    bit(0x06, "FEAT_HPMN0", "HPMN0"),
    bit(0x07, "FEAT_PMUv3_EXT32", "EXT32"),
    bit(0x08, "FEAT_PMUv3_EXT64", "EXT64"),
    bit(0x09, "HaveEL(EL2)", "EL2 implemented"),
    bit(0x0A, "HaveEL(EL3)", "EL3 implemented"),
    bit(0x0B, "", "EL3 trap priority"),
    wide(0x0C, "PMCR_EL0.N", "N", 31),
    bit(0x10, "EL2Enabled()", "EL2 enabled"),
    bit(0x11, "Halted()", "Halted"),
    bit(0x12, "EDSCR.SDD", "SDD"),
    bit(0x20, "PMUSERENR_EL0.EN", "EN"),
    bit(0x21, "PMUSERENR_EL0.SW", "SW"),
    bit(0x22, "PMUSERENR_EL0.ER", "ER"),
    bit(0x23, "PMUSERENR_EL0.UEN", "UEN"),
    bit(0x24, "HCR_EL2.E2H", "E2H"),
    bit(0x25, "HCR_EL2.TGE", "TGE"),
    bit(0x26, "MDCR_EL2.TPM", "TPM of EL2"),
    wide(0x27, "MDCR_EL2.HPMN", "HPMN", 31),
    bit(0x28, "MDCR_EL3.TPM", "TPM of EL3"),
    bit(0x29, "MDCR_EL3.EnPM2", "EnPM2"),
    bit(0x2A, "SCR_EL3.FGTEn", "FGTEn"),
    bit(0x2B, "SCR_EL3.FGTEn2", "FGTEn2"),
    bit(0x2C, "HDFGRTR_EL2.PMEVCNTRn_EL0", "read of PMEVCNTRn"),
    bit(0x2D, "HDFGWTR_EL2.PMEVCNTRn_EL0", "write of PMEVCNTRn"),
    bit(0x2E, "HDFGWTR_EL2.PMSWINC_EL0", "write of PMSWINC"),
    bit(0x2F, "HDFGRTR2_EL2.nPMICNTR_EL0", "read of nPMICNTR"),
    bit(0x30, "HDFGWTR2_EL2.nPMICNTR_EL0", "write of nPMICNTR"),
    bit(0x31, "PMUSERENR_EL0.IR", "IR"),
    mask(0x32, "PMUACR_EL1.P", "P", 0x7FFF_FFFF),
    bit(0x33, "PMUACR_EL1.F0", "F0"),
    mask(0x34, "PMCNTENSET_EL0", "counter enables", 0x1_FFFF_FFFF),
    bit(0x35, "PMCR_EL0.LP", "LP"),
    bit(0x36, "MDCR_EL2.HLP", "HLP"),
    mask(0x37, "PMOVSSET_EL0", "overflow flags", 0x1_7FFF_FFFF),
    bit(0x38, "IsCorePowered()", "core powered"),
    bit(0x39, "DoubleLockStatus()", "double lock"),
    bit(0x3A, "OSLockStatus()", "OS lock"),
    bit(0x3B, "AllowExternalPMUAccess()", "external access allowed"),
    bit(0x3C, "SoftwareLockStatus()", "software lock"),
    bit(0x3D, "PMCR_EL0.E", "E"),
    bit(0x3E, "MDCR_EL2.HPME", "HPME"),
    many(0x40, "PMEVTYPER<m>_EL0.evtCount", "event number of counter <m>", 0xFFFF),
    many(0x60, "PMEVCNTR<m>_EL0", "event counter <m>", u64::MAX),
    wide(0x7F, "PMICNTR_EL0", "instruction counter", u64::MAX),
    bit(0x80, "FEAT_SPE", "SPE"),
    bit(0x81, "PMSIDR_EL1.ERnd", "ERnd"),
    bit(0x82, "PMSIRR_EL1.RND", "RND"),
    bit(0x83, "", "profiling"),
    bit(0x84, "HCR_EL2.NV", "NV"),
    bit(0x85, "HCR_EL2.NV2", "NV2"),
    bit(0x86, "MDCR_EL2.TPMS", "TPMS"),
    bit(0x87, "SCR_EL3.NS", "NS"),
    wide(0x88, "MDCR_EL3.NSPB", "NSPB", 3),
    bit(0x89, "HDFGRTR_EL2.PMSICR_EL1", "read of PMSICR"),
    bit(0x8A, "HDFGWTR_EL2.PMSICR_EL1", "write of PMSICR"),
    wide(0x8B, "", "reload value", 0xFFFF_FFFF),
    wide(0x8C, "PMSICR_EL1", "PMSICR", u64::MAX),
    wide(0x8D, "NVMem[0x838]", "the word at 0x838", u64::MAX),
];

/// The field with a number.
pub fn field(number: u8) -> Option<&'static Field> {
    FIELDS.iter().find(|f| f.number <= number && number - f.number < f.count)
}
