//! The refusals and the causes of traps, tables R and D of docs/MODEL.md. A later one is a row here.

pub struct Refusal {
    pub number: u8,
    pub means: &'static str,
    pub remedy: &'static str,
}

const fn row(number: u8, means: &'static str, remedy: &'static str) -> Refusal {
    Refusal { number, means, remedy }
}

pub const REFUSALS: &[Refusal] = &[
    row(
        1,
        "no such command; nothing behind it was read",
        "has the command before it all its bytes? 11 and 12 want `short` first",
    ),
    row(2, "the bytes end inside a command, or without an end", "write `end`"),
    row(3, "no such field", "take one of `exercise fields`"),
    row(
        4,
        "the value is above its field's largest, or a tick's flag above 1",
        "see `exercise fields`; overflow flags have no bit 31",
    ),
    row(5, "no such level", "0 to 3"),
    row(
        6,
        "the session is too long, over 4,096 bytes",
        "leave out sets to 0, as all is 0 at first; begin with `short`; split it",
    ),
    row(
        10,
        "a value in the record is above its largest",
        "not from a session: mend the program that made the record",
    ),
    row(
        11,
        "level 3 without EL3, or 2 while EL2 is not enabled",
        "`set EL3 implemented 1`; `set EL2 implemented 1`, `set EL2 enabled 1`",
    ),
    row(12, "EL2 is enabled and not implemented", "`set EL2 implemented 1`"),
    row(13, "EL2 is implemented, and HPMN is above N", "lower MDCR_EL2.HPMN or raise PMCR.N"),
    row(
        14,
        "EL2 is implemented, and HPMN is 0 without HPMN0",
        "`set MDCR_EL2.HPMN 1` or more, or `set HPMN0 1`",
    ),
    row(
        15,
        "a counter holds more than 32 bits, and p5 is missing",
        "`set PMUv3p5 1`, or set the counter to a smaller value",
    ),
    row(
        16,
        "level 1 while EL2 is enabled and TGE is 1: there is no EL1 then",
        "go to level 0 or 2, or `set HCR.TGE 0`",
    ),
    row(
        17,
        "p9 without p5; or one of p5, p9, ICNTR and no PMUv3",
        "`set PMUv3 1`, and for p9 also `set PMUv3p5 1`",
    ),
    row(
        18,
        "a step back, and no step is listed",
        "step back less: the latest 64 steps since the last obeyed set are listed",
    ),
    row(
        19,
        "in the short form, a set with more bytes than its value needs",
        "write it by name, which takes as few as there can be",
    ),
    row(
        20,
        "a conversion: the long form would be over 4,096 bytes",
        "not from a session: leave it short, or split it",
    ),
];

pub struct Cause {
    pub number: u8,
    pub control: &'static str,
    pub opened: &'static str,
}

const fn by(number: u8, control: &'static str, opened: &'static str) -> Cause {
    Cause { number, control, opened }
}

pub const CAUSES: &[Cause] = &[
    by(1, "PMUSERENR_EL0", "`set PMUSERENR.EN 1`; ER will do for mrs, SW for PMSWINC"),
    by(2, "a fine-grained bit", "HDFGRTR (mrs) or HDFGWTR (msr): to 0, but nPMICNTR to 1"),
    by(3, "MDCR_EL2.TPM", "`set MDCR_EL2.TPM 0`"),
    by(4, "MDCR_EL2.HPMN", "MDCR_EL2.HPMN above the counter's number, at most N"),
    by(5, "MDCR_EL3.TPM", "`set MDCR_EL3.TPM 0`"),
    by(6, "MDCR_EL3.EnPM2", "`set MDCR_EL3.EnPM2 1`"),
    by(7, "SCR_EL3.FGTEn2", "`set SCR.FGTEn2 1`"),
    by(8, "MDCR_EL2.TPMS", "`set MDCR_EL2.TPMS 0`"),
    by(9, "MDCR_EL3.NSPB", "`set MDCR_EL3.NSPB 1` while NS is 0; 3 while it is 1"),
];

/// What a refusal means.
pub fn refusal(number: u64) -> Option<&'static Refusal> {
    REFUSALS.iter().find(|r| u64::from(r.number) == number)
}

/// What a cause names.
pub fn cause(number: u64) -> Option<&'static Cause> {
    CAUSES.iter().find(|c| u64::from(c.number) == number)
}
