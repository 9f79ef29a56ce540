//! Writes one directed session, command by command. It keeps the values that
//! it has set, so that a change can be taken back, and knows no rule of
//! docs/MODEL.md.

use super::fields::*;
use crate::form::{set_by, Form, SHORT_FORM};
use crate::generate::{counter_word, word};

/// A field, or LEVEL, and the value it is given.
pub type Change = (u8, u64);

/// A field with the two values between which a table of subsets switches it.
pub type Switch = (u8, u64, u64);

/// Offset of the external PMCNTENSET_EL0.
pub const PMCNTENSET: u16 = 0xC00;
/// Offset of the external PMOVSCLR_EL0.
pub const PMOVSCLR: u16 = 0xC80;
/// Offset of the external PMOVSSET_EL0.
pub const PMOVSSET: u16 = 0xCC0;

/// MSR PMSWINC_EL0, X1.
pub const PMSWINC: u32 = 0xD51B_9C81;

/// MRS X2, PMSICR_EL1.
pub const PMSICR_READ: u32 = 0xD538_9942;
/// MSR PMSICR_EL1, X1.
pub const PMSICR_WRITE: u32 = 0xD518_9941;

/// The accesses that have rules: MODEL T1 to T6, I1 to I6 and N1 to N4.
#[derive(Clone, Copy, PartialEq, Eq)]
pub enum Kind {
    CounterRead,
    CounterWrite,
    Swinc,
    IcntrRead,
    IcntrWrite,
    SicrRead,
    SicrWrite,
}

impl Kind {
    /// MODEL N1 to N4: the names of sessions on PMSICR start with it, so that
    /// the kind need not say it again.
    pub fn is_pmsicr(self) -> bool {
        self == Kind::SicrRead || self == Kind::SicrWrite
    }

    pub fn name(self) -> &'static str {
        match self {
            Kind::CounterRead => "counter-read",
            Kind::CounterWrite => "counter-write",
            Kind::Swinc => "pmswinc",
            Kind::IcntrRead => "pmicntr-read",
            Kind::IcntrWrite => "pmicntr-write",
            Kind::SicrRead => "read",
            Kind::SicrWrite => "write",
        }
    }
}

/// The states in which all subsets of the rules are tried at a level: running,
/// and in Debug state, where a stop at EL3 is undefined (with SDD). At level 3
/// no rule applies, so one is enough.
pub fn debug_states(level: u8) -> &'static [(u64, &'static str)] {
    let states = &[(1, "halted"), (0, "running")];
    if level == 3 {
        &states[..1]
    } else {
        states
    }
}

/// What sessions on counters start from: 4 of 6 counters below HPMN, EL2
/// enabled, EL3 there, EN 1.
const COUNTERS: [Change; 10] = [
    (PMUV3, 1),
    (P5, 1),
    (P9, 1),
    (FGT, 1),
    (HAVE_EL2, 1),
    (HAVE_EL3, 1),
    (N, 6),
    (EL2_ENABLED, 1),
    (EN, 1),
    (HPMN, 4),
];

/// All event counters on, in both ranges, for sessions in which they move. The
/// enables of bits 31 and 32 are 0.
pub const RUNNING: [Change; 3] = [(ENABLES, ALL_P), (PMCR_E, 1), (HPME, 1)];

/// A session in the making.
pub struct Script {
    form: Form,
    bytes: Vec<u8>,
    values: [u64; 256],
    /// Operand of the last write, another one each time.
    serial: u64,
    /// Some command can have changed the overflow flags.
    flags: bool,
    /// Some field from 80 to 8D was set: PMSICR and the word at 0x838 can have
    /// changed.
    sampling: bool,
}

// Single commands.
impl Script {
    /// A session in a form, with its first bytes.
    fn in_form(form: Form, bytes: Vec<u8>, given: &[Change]) -> Script {
        let mut script =
            Script { form, bytes, values: [0; 256], serial: 0x1000, flags: false, sampling: false };
        script.put(given);
        script
    }

    /// A session that starts by setting the record as given.
    pub fn new(given: &[Change]) -> Script {
        Script::in_form(Form::Long, Vec::new(), given)
    }

    /// MODEL Z1: the same in the short form.
    pub fn short(given: &[Change]) -> Script {
        Script::in_form(Form::Short, vec![SHORT_FORM], given)
    }

    /// A session on counters, the record as given besides.
    pub fn counters(given: &[Change]) -> Script {
        let mut script = Script::new(&COUNTERS);
        script.put(given);
        script
    }

    /// The number of bytes so far.
    pub fn len(&self) -> usize {
        self.bytes.len()
    }

    /// A set or level command that is not refused.
    pub fn set(&mut self, field: u8, value: u64) {
        self.values[field as usize] = value;
        self.sampling |= (SPE..=NV_WORD).contains(&field);
        if field == LEVEL {
            self.bytes.extend([0x02, value as u8]);
        } else {
            self.set_refused(field, value);
        }
    }

    /// A set command that is refused.
    pub fn set_refused(&mut self, field: u8, value: u64) {
        self.flags |= field == PMOVS;
        self.bytes.extend(self.form.set(field, value));
    }

    /// MODEL Z2: a set command by its byte, whether it is refused or not. The script
    /// does not follow it.
    pub fn set_by(&mut self, byte: u8, field: u8, value: u64) {
        self.flags |= field == PMOVS;
        self.sampling |= (SPE..=NV_WORD).contains(&field);
        self.bytes.extend(set_by(byte, field, value));
    }

    /// A level command that is not refused.
    pub fn level(&mut self, level: u8) {
        self.set(LEVEL, level as u64);
    }

    /// A level command that is refused.
    pub fn level_refused(&mut self, level: u8) {
        self.bytes.extend([0x02, level]);
    }

    pub fn access(&mut self, word: u32, operand: u64) {
        self.flags |= word & !31 == PMSWINC & !31;
        self.bytes.push(0x03);
        self.bytes.extend(word.to_le_bytes());
        self.bytes.extend(operand.to_le_bytes());
    }

    pub fn external_read(&mut self, offset: u16) {
        self.bytes.push(0x04);
        self.bytes.extend(offset.to_le_bytes());
    }

    pub fn external_write(&mut self, offset: u16, value: u64) {
        self.flags |= offset == PMOVSCLR || offset == PMOVSSET;
        self.bytes.push(0x05);
        self.bytes.extend(offset.to_le_bytes());
        self.bytes.extend(value.to_le_bytes());
    }

    pub fn tick(&mut self, prohibited: u8) {
        self.flags = true;
        self.bytes.extend([0x06, prohibited]);
    }

    /// A member of the sample population.
    pub fn member(&mut self, draw: u8) {
        self.bytes.extend([0x08, draw]);
    }

    /// MODEL H1: so many steps back. The script does not follow them: the level
    /// counts as unknown until it is put again, which show and the ends of
    /// sessions do.
    pub fn back(&mut self, count: usize) {
        self.values[LEVEL as usize] = u64::MAX;
        self.bytes.resize(self.bytes.len() + count, 0x07);
    }

    /// Bytes that are no command.
    pub fn plain(&mut self, bytes: &[u8]) {
        self.bytes.extend(bytes);
    }
}

// Changes and what is tried under them.
impl Script {
    /// Sets all of a list.
    pub fn put(&mut self, changes: &[Change]) {
        for &(field, value) in changes {
            self.set(field, value);
        }
    }

    /// Sets a list, does something, and sets back what was there before.
    pub fn with(&mut self, changes: &[Change], body: impl FnOnce(&mut Script)) {
        let before: Vec<Change> =
            changes.iter().map(|&(field, _)| (field, self.values[field as usize])).collect();
        self.put(changes);
        body(self);
        self.put(&before);
    }

    /// Does something while a field of one bit has its other value.
    pub fn with_flipped(&mut self, field: u8, body: impl FnOnce(&mut Script)) {
        let value = self.values[field as usize];
        self.with(&[(field, 1 - value)], body);
    }

    /// Does something under every subset of the switches, one switch at a time
    /// (a Gray code). The first subset is the empty one.
    pub fn subsets(&mut self, switches: &[Switch], mut body: impl FnMut(&mut Script)) {
        for &(field, off, _) in switches {
            self.set(field, off);
        }
        body(self);
        for step in 1..1u32 << switches.len() {
            let (field, off, on) = switches[step.trailing_zeros() as usize];
            let value = if self.values[field as usize] == off { on } else { off };
            self.set(field, value);
            body(self);
        }
    }

    /// An access of a kind, to counter m where it has one. A write is followed
    /// by a read of what it may have changed.
    pub fn probe(&mut self, kind: Kind, m: u8) {
        self.serial += 1;
        let m = m as u32;
        match kind {
            Kind::CounterRead => self.access(counter_word(true, m, 2), 0),
            Kind::CounterWrite => {
                self.access(counter_word(false, m, 1), self.serial);
                self.look(counter_word(true, m, 2));
            }
            Kind::Swinc => {
                self.access(PMSWINC, 1 << m);
                self.look(counter_word(true, m, 2));
            }
            Kind::IcntrRead => self.access(word(true, 9, 4, 0, 2), 0),
            Kind::IcntrWrite => {
                self.access(word(false, 9, 4, 0, 1), self.serial);
                self.look(word(true, 9, 4, 0, 2));
            }
            Kind::SicrRead => self.access(PMSICR_READ, 0),
            Kind::SicrWrite => {
                self.access(PMSICR_WRITE, self.serial.wrapping_mul(0x0100_0001_0000_0001));
                self.look(PMSICR_READ);
            }
        }
    }

    /// A read from the level at which no rule stops it, if the record is
    /// consistent.
    pub fn look(&mut self, word: u32) {
        let level = match (self.values[HAVE_EL3 as usize], self.values[EL2_ENABLED as usize]) {
            (1, _) => 3,
            (_, 1) => 2,
            _ => 1,
        };
        self.with(&[(LEVEL, level)], |s| s.access(word, 0));
    }
}

/// Fields and values under which level 3 reads every counter and the external
/// registers show all enables and flags.
const OPEN: [Change; 13] = [
    (PMUV3, 1),
    (P5, 1),
    (ICNTR, 1),
    (HPMN0, 1),
    (EXT64, 1),
    (HAVE_EL3, 1),
    (EL2_ENABLED, 0),
    (N, 31),
    (POWERED, 1),
    (DOUBLE_LOCK, 0),
    (OS_LOCK, 0),
    (ALLOWED, 1),
    (LEVEL, 3),
];

/// MODEL N1 to N5 and G15: fields and values under which level 3 reads PMSICR,
/// and level 1 the word at 0x838 in its place.
const OPEN_SAMPLING: [Change; 16] = [
    (PMUV3, 1),
    (P5, 1),
    (HPMN0, 1),
    (HPMN, 0),
    (HAVE_EL2, 1),
    (HAVE_EL3, 1),
    (EL2_ENABLED, 1),
    (TGE, 0),
    (SPE, 1),
    (NV, 1),
    (NV2, 1),
    (TPMS, 0),
    (FGT_PMSICR_READ, 0),
    (NS, 0),
    (NSPB, 1),
    (LEVEL, 3),
];

// Ends of sessions.
impl Script {
    /// Sets what a list has otherwise than the record.
    fn open(&mut self, changes: &[Change]) {
        for &(field, value) in changes {
            if self.values[field as usize] != value {
                self.set(field, value);
            }
        }
    }

    /// The end command alone.
    pub fn end(mut self) -> Vec<u8> {
        self.bytes.push(0x00);
        self.bytes
    }

    /// No end command.
    pub fn cut(self) -> Vec<u8> {
        self.bytes
    }

    /// Reads some counters, PMICNTR and the enables, and the overflow flags if
    /// they can have changed.
    pub fn show(&mut self, counters: impl Iterator<Item = u32>) {
        self.open(&OPEN);
        for m in counters {
            self.access(counter_word(true, m, m), 0);
        }
        self.access(word(true, 9, 4, 0, 30), 0);
        self.external_read(PMCNTENSET);
        if self.flags {
            self.external_read(PMOVSCLR);
        }
        if self.sampling {
            self.show_sampling();
        }
    }

    /// MODEL J3: reads PMSICR, then with ERnd 1 if it was 0, so that bits 63:56
    /// show too, and then the word at 0x838.
    pub fn show_sampling(&mut self) {
        self.open(&OPEN_SAMPLING);
        self.access(PMSICR_READ, 0);
        if self.values[ERND as usize] == 0 {
            self.set(ERND, 1);
            self.access(PMSICR_READ, 0);
        }
        self.level(1);
        self.access(PMSICR_READ, 0);
    }

    /// Reads PMSICR and the word at 0x838, then ends.
    pub fn finish_sampling(mut self) -> Vec<u8> {
        self.show_sampling();
        self.end()
    }

    /// Reads the counters that most sessions use, then ends.
    pub fn finish(mut self) -> Vec<u8> {
        self.show((0..=6).chain([30]));
        self.end()
    }

    /// Reads all counters, then ends.
    pub fn finish_all(mut self) -> Vec<u8> {
        self.show(0..=30);
        self.end()
    }
}
