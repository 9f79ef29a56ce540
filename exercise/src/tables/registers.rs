//! The registers that MRS and MSR name, table W of docs/MODEL.md, and those with an offset, which
//! are reached from outside, table E. A later register is a row here.

/// A register, or as many with consecutive numbers: `<m>` in a name stands for 0 and up, and the
/// place that CRm and op2 spell goes up with it.
pub struct Register {
    pub name: &'static str,
    pub count: u8,
    pub place: Place,
    pub is: &'static str,
}

/// Where a word has its register: the parts of W3.
#[derive(Clone, Copy, Debug, PartialEq, Eq)]
pub struct Place {
    pub op0: u8,
    pub op1: u8,
    pub crn: u8,
    pub crm: u8,
    pub op2: u8,
}

const fn place(op0: u8, op1: u8, crn: u8, crm: u8, op2: u8) -> Place {
    Place { op0, op1, crn, crm, op2 }
}

pub const REGISTERS: &[Register] = &[
    Register {
        name: "PMEVCNTR<m>_EL0",
        count: 32,
        place: place(3, 3, 14, 8, 0),
        is: "event counter m, 0 to 30",
    },
    Register {
        name: "PMSWINC_EL0",
        count: 1,
        place: place(3, 3, 9, 12, 4),
        is: "adds 1 to its counters; msr alone",
    },
    Register {
        name: "PMICNTR_EL0",
        count: 1,
        place: place(3, 3, 9, 4, 0),
        is: "the instruction counter",
    },
    Register {
        name: "PMSICR_EL1",
        count: 1,
        place: place(3, 0, 9, 9, 2),
        is: "the sampling interval counter",
    },
];

/// A register that is reached from outside, by its offset.
pub struct External {
    pub offset: u16,
    pub name: &'static str,
    pub is: &'static str,
}

pub const EXTERNALS: &[External] = &[
    External { offset: 0xC00, name: "PMCNTENSET_EL0", is: "counter enables; write sets" },
    External { offset: 0xC80, name: "PMOVSCLR_EL0", is: "overflow flags; write clears" },
    External { offset: 0xCC0, name: "PMOVSSET_EL0", is: "overflow flags; write sets" },
];
