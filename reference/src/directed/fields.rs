//! MODEL F2 to F16 and F21 to F24: the field numbers, under Arm's names.

pub const PMUV3: u8 = 0x00;
pub const P5: u8 = 0x01;
pub const P9: u8 = 0x02;
pub const ICNTR: u8 = 0x03;
pub const FGT: u8 = 0x04;
pub const FGT2: u8 = 0x05;
pub const HPMN0: u8 = 0x06;
pub const EXT32: u8 = 0x07;
pub const EXT64: u8 = 0x08;
pub const HAVE_EL2: u8 = 0x09;
pub const HAVE_EL3: u8 = 0x0A;
pub const EL3_PRIORITY: u8 = 0x0B;
pub const N: u8 = 0x0C;

pub const EL2_ENABLED: u8 = 0x10;
pub const HALTED: u8 = 0x11;
pub const SDD: u8 = 0x12;

// PMUSERENR_EL0.
pub const EN: u8 = 0x20;
pub const SW: u8 = 0x21;
pub const ER: u8 = 0x22;
pub const UEN: u8 = 0x23;
pub const IR: u8 = 0x31;

// HCR_EL2, MDCR_EL2, MDCR_EL3, SCR_EL3.
pub const E2H: u8 = 0x24;
pub const TGE: u8 = 0x25;
pub const TPM_EL2: u8 = 0x26;
pub const HPMN: u8 = 0x27;
pub const TPM_EL3: u8 = 0x28;
pub const ENPM2: u8 = 0x29;
pub const FGTEN: u8 = 0x2A;
pub const FGTEN2: u8 = 0x2B;

// Fine-grained trap bits.
pub const FGT_COUNTER_READ: u8 = 0x2C;
pub const FGT_COUNTER_WRITE: u8 = 0x2D;
pub const FGT_SWINC: u8 = 0x2E;
pub const NPMICNTR_READ: u8 = 0x2F;
pub const NPMICNTR_WRITE: u8 = 0x30;

// PMUACR_EL1 and the counter enables.
pub const PMUACR_P: u8 = 0x32;
pub const PMUACR_F0: u8 = 0x33;
pub const ENABLES: u8 = 0x34;

// PMCR_EL0.LP, MDCR_EL2.HLP and the overflow flags.
pub const LP: u8 = 0x35;
pub const HLP: u8 = 0x36;
pub const PMOVS: u8 = 0x37;

// PMCR_EL0.E and MDCR_EL2.HPME.
pub const PMCR_E: u8 = 0x3D;
pub const HPME: u8 = 0x3E;

// The external interface.
pub const POWERED: u8 = 0x38;
pub const DOUBLE_LOCK: u8 = 0x39;
pub const OS_LOCK: u8 = 0x3A;
pub const ALLOWED: u8 = 0x3B;
pub const SOFTWARE_LOCK: u8 = 0x3C;

/// Event number of counter 0; the others follow.
pub const EVENT: u8 = 0x40;
/// Event counter 0; the others follow.
pub const COUNTER: u8 = 0x60;
/// PMICNTR, the instruction counter.
pub const INSTRUCTIONS: u8 = 0x7F;

// MODEL F2 and F23: FEAT_SPE, PMSIDR_EL1.ERnd, PMSIRR_EL1.RND, and profiling enabled.
pub const SPE: u8 = 0x80;
pub const ERND: u8 = 0x81;
pub const RND: u8 = 0x82;
pub const PROFILING: u8 = 0x83;

// HCR_EL2, MDCR_EL2, SCR_EL3, MDCR_EL3.
pub const NV: u8 = 0x84;
pub const NV2: u8 = 0x85;
pub const TPMS: u8 = 0x86;
pub const NS: u8 = 0x87;
/// Two bits: 1 is open to NS 0 and 3 to NS 1.
pub const NSPB: u8 = 0x88;

// Fine-grained trap bits of PMSICR_EL1.
pub const FGT_PMSICR_READ: u8 = 0x89;
pub const FGT_PMSICR_WRITE: u8 = 0x8A;

/// What the primary counter is reloaded from.
pub const RELOAD: u8 = 0x8B;
/// PMSICR_EL1.
pub const PMSICR: u8 = 0x8C;
/// The word at 0x838.
pub const NV_WORD: u8 = 0x8D;

/// The largest value of RELOAD, and of the primary counter.
pub const ALL_COUNT: u64 = 0xFFFF_FFFF;

/// No field: stands for the exception level in tables of changes, so that the
/// level can be one of the conditions of a rule. MODEL F19: no field has it.
pub const LEVEL: u8 = 0xFE;

/// The bit of the counter enables that is PMICNTR's.
pub const ENABLE_F0: u64 = 1 << 32;
/// The bit of the overflow flags that is PMICNTR's.
pub const PMOVS_F0: u64 = 1 << 32;
/// The largest value of PMUACR_P, all counters.
pub const ALL_P: u64 = 0x7FFF_FFFF;
/// The largest value of ENABLES.
pub const ALL_ENABLES: u64 = 0x1_FFFF_FFFF;
/// The largest value of PMOVS: bit 31 is no flag.
pub const ALL_PMOVS: u64 = 0x1_7FFF_FFFF;
