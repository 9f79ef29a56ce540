//! Pseudo-random sessions that stay consistent most of the time. A machine of
//! the model goes along, only to steer: it takes part in no expectation.

use crate::back::Earlier;
use crate::form::{Form, SHORT_FORM};
use crate::model::{Answer, Machine};
use crate::session::{self, Command, LIMIT};

mod back;
mod sampling;
mod short;
mod stops;

use sampling::pmsicr_word;

/// splitmix64.
pub struct Rng(u64);

impl Rng {
    /// A generator of its own for each seed and session.
    pub fn new(seed: u64, index: u64) -> Rng {
        let mut outer = Rng(seed);
        let mixed = outer.next() ^ index.wrapping_mul(0xD6E8_FEB8_6659_FD93);
        let mut inner = Rng(mixed);
        Rng(inner.next())
    }

    pub fn next(&mut self) -> u64 {
        self.0 = self.0.wrapping_add(0x9E37_79B9_7F4A_7C15);
        let mut z = self.0;
        z = (z ^ z >> 30).wrapping_mul(0xBF58_476D_1CE4_E5B9);
        z = (z ^ z >> 27).wrapping_mul(0x94D0_49BB_1331_11EB);
        z ^ z >> 31
    }

    /// 0 to n - 1.
    pub fn below(&mut self, n: u64) -> u64 {
        self.next() % n
    }

    /// True in so many cases of a hundred.
    pub fn chance(&mut self, percent: u64) -> bool {
        self.below(100) < percent
    }

    fn pick<T: Copy>(&mut self, list: &[T]) -> T {
        list[self.below(list.len() as u64) as usize]
    }
}

/// A session in the making.
struct Writer {
    rng: Rng,
    form: Form,
    /// How often, in a hundred, a set of the short form is too wide.
    wide: u64,
    /// How many bytes the sets would have more in the long form.
    saved: usize,
    bytes: Vec<u8>,
    machine: Machine,
    /// What the machine can be taken back to.
    earlier: Earlier,
    /// How often, in a hundred, a bit that traps is set.
    trapping: u64,
}

/// One bit fields and how often, in a hundred, they start as 1.
const FEATURES: [(u8, u64); 12] = [
    (0x00, 97),
    (0x01, 65),
    (0x02, 70),
    (0x03, 55),
    (0x04, 60),
    (0x05, 50),
    (0x06, 40),
    (0x07, 45),
    (0x08, 55),
    (0x09, 75),
    (0x0A, 55),
    (0x0B, 50),
];

/// Fields that let accesses pass, and how often they start as 1.
const PASSING: [(u8, u64); 16] = [
    (0x20, 65),
    (0x21, 45),
    (0x22, 45),
    (0x23, 55),
    (0x24, 40),
    (0x29, 75),
    (0x2A, 60),
    (0x2B, 75),
    (0x2F, 75),
    (0x30, 75),
    (0x31, 40),
    (0x33, 60),
    (0x38, 85),
    (0x3B, 85),
    (0x11, 25),
    (0x12, 35),
];

/// LP and HLP, the bits that make counters overflow as long ones, and how often
/// they start as 1.
const LONG: [(u8, u64); 2] = [(0x35, 45), (0x36, 45)];

/// E and HPME, the bits that let the counters of a range run, and how often they
/// start as 1.
const RANGES: [(u8, u64); 2] = [(0x3D, 94), (0x3E, 94)];

/// Fields that stop accesses.
const STOPPING: [u8; 9] = [0x25, 0x26, 0x28, 0x2C, 0x2D, 0x2E, 0x39, 0x3A, 0x3C];

// Single commands. The machine obeys each that can change it.
impl Writer {
    fn obey(&mut self, command: Command) {
        session::obey(&mut self.machine, &mut self.earlier, command);
    }

    fn level(&mut self, level: u8) {
        self.bytes.extend([0x02, level]);
        self.obey(Command::Level(level));
    }

    fn access(&mut self, word: u32, operand: u64) {
        self.bytes.push(0x03);
        self.bytes.extend(word.to_le_bytes());
        self.bytes.extend(operand.to_le_bytes());
        self.obey(Command::Access { word, operand });
    }

    fn read(&mut self, offset: u16) {
        self.bytes.push(0x04);
        self.bytes.extend(offset.to_le_bytes());
    }

    fn write(&mut self, offset: u16, value: u64) {
        self.bytes.push(0x05);
        self.bytes.extend(offset.to_le_bytes());
        self.bytes.extend(value.to_le_bytes());
        self.obey(Command::Write { offset, value });
    }

    fn tick(&mut self, flag: u8) {
        self.bytes.extend([0x06, flag]);
        self.obey(Command::Tick { prohibited: flag });
    }

    /// Sets a bit; a 0 is written out only now and then while still fresh.
    fn start_bit(&mut self, field: u8, percent: u64) {
        let value = self.rng.chance(percent);
        if value || self.rng.chance(10) {
            self.set(field, value as u64);
        }
    }
}

// The start of a session.
impl Writer {
    /// Features that agree with each other.
    fn features(&mut self) {
        for (field, percent) in FEATURES {
            let m = &self.machine;
            let allowed = match field {
                0x01 | 0x03 => m.pmuv3,
                0x02 => m.pmuv3p5,
                _ => true,
            };
            self.start_bit(field, if allowed { percent } else { 0 });
        }
        let n = self.rng.pick(&[0, 1, 2, 3, 4, 6, 6, 8, 15, 16, 24, 30, 31, 31]);
        self.set(0x0C, n);
        if self.machine.have_el2 {
            self.start_bit(0x10, 75);
        }
        let hpmn = self.hpmn(n);
        self.set(0x27, hpmn);
    }

    /// A HPMN that goes with N; with N 0 it needs HPMN0.
    fn hpmn(&mut self, n: u64) -> u64 {
        if n == 0 && self.machine.have_el2 && !self.machine.hpmn0 {
            self.set(0x06, 1);
        }
        let least = if self.machine.hpmn0 || n == 0 { 0 } else { 1 };
        match self.rng.below(4) {
            0 => n,
            1 => least,
            _ => least + self.rng.below(n - least + 1),
        }
    }

    /// Control bits, PMUACR, enables and the level.
    fn settings(&mut self) {
        for (field, percent) in PASSING {
            self.start_bit(field, percent);
        }
        for (field, percent) in LONG.into_iter().chain(RANGES) {
            self.start_bit(field, percent);
        }
        for field in STOPPING {
            self.start_bit(field, self.trapping);
        }
        let p = self.rng.next() & self.rng.pick(&[0, 0x7FFF_FFFF, 0x7FFF_FFFF]);
        self.set(0x32, p);
        if self.rng.chance(95) {
            let enables = self.enables();
            self.set(0x34, enables);
        }
        if self.rng.chance(40) {
            let flags = self.flags();
            self.set(0x37, flags);
        }
        self.change_level();
    }

    /// MODEL T1 to T6, I1 to I6 and N1 to N4: Debug state with EL3 in the way,
    /// the first and the last against those between.
    fn debug_state(&mut self) {
        for field in [0x0A, 0x0B, 0x11, 0x12, 0x28] {
            self.start_bit(field, 85);
        }
        for field in [0x26, 0x2A, 0x2B, 0x2C, 0x2E, 0x29, 0x86] {
            self.start_bit(field, 50);
        }
        let nspb = self.rng.below(4);
        self.set(0x88, nspb);
    }

    /// Event numbers and counters.
    fn counters(&mut self) {
        for m in 0..31 {
            if self.rng.chance(25) {
                let event = self.rng.pick(&[0, 1, 8, 0x11, 0xFF, 0x100, 0xFFFF]);
                self.set(0x40 + m, event);
            }
            if self.rng.chance(50) {
                let value = self.counter_value();
                self.set(0x60 + m, value);
            }
        }
        let value = self.rng.pick(&[0, 7, u64::MAX, u64::MAX - 1, 0xFFFF_FFFF, 1 << 63]);
        self.set(0x7F, value);
    }

    /// A value that event counters of this machine can hold.
    fn counter_value(&mut self) -> u64 {
        let value = self.operand();
        if self.machine.pmuv3p5 {
            value
        } else {
            value & 0xFFFF_FFFF
        }
    }

    /// Overflow flags that the record can hold, more often few than many.
    fn flags(&mut self) -> u64 {
        let any = self.rng.next() & 0x1_7FFF_FFFF;
        match self.rng.below(4) {
            0 => any,
            1 => 0x1_7FFF_FFFF,
            2 => 0,
            _ => any & self.rng.next() & self.rng.next(),
        }
    }

    /// Counter enables: mostly those of all event counters or of all but one,
    /// which is often beside N or HPMN. Bits 31 and 32 are as it happens.
    fn enables(&mut self) -> u64 {
        let any = self.rng.next() & 0x1_FFFF_FFFF;
        let one = 1 << self.counter();
        match self.rng.below(12) {
            0 => any,
            1 => any & 0x1_8000_0000 | one,
            2 => any & 0x1_8000_0000,
            3..=6 => (any | 0x7FFF_FFFF) & !one,
            _ => any | 0x7FFF_FFFF,
        }
    }

    /// A value of 64 bits, often beside a border.
    fn operand(&mut self) -> u64 {
        let small = self.rng.below(256);
        let any = self.rng.next();
        match self.rng.below(12) {
            0 => small,
            1 => self.rng.pick(&[0xFF, 0x100, 0xFFFF_FFFF, 0x1_0000_0000]),
            2 => u64::MAX,
            3 => 0xFFFF_FFFF - small % 3,
            4 => u64::MAX - small % 3,
            5 => 1u64 << (small % 64),
            6 => any & 0xFFFF_FFFF,
            7 => 0x1_0000_0000 + small % 3,
            8 => small << 32 | 0xFFFF_FFFF,
            9 => any | 0xFFFF_FFFF,
            10 => 0xFFFF_FFFF,
            _ => any,
        }
    }
}

// Commands in the middle of a session.
impl Writer {
    /// One command, or a few that make a counter run over, or switch it off, or
    /// that stop an access, or that sample, or steps and steps back.
    fn step(&mut self) {
        match self.rng.below(100) {
            0..=7 => self.run_over(),
            8..=12 => self.switch_off(),
            13..=16 => self.stop_access(),
            17..=20 => self.sample(),
            21..=22 => self.start_profiling(),
            23..=24 => self.reach_pmsicr(),
            25..=29 => self.take_back(),
            30..=33 => self.some_back(),
            _ => self.command(),
        }
    }

    /// One command of any kind; an inconsistent machine is soon mended.
    fn command(&mut self) {
        if self.machine.state_refusal().is_some() && self.rng.chance(35) {
            self.mend();
            return;
        }
        match self.rng.below(105) {
            0..=15 => self.some_set(),
            16..=27 => self.some_level(),
            28..=72 => self.some_access(),
            73..=80 => self.some_read(),
            81..=87 => self.some_write(),
            88..=94 => self.some_tick(),
            95..=99 => self.some_member(),
            _ => {
                let count = 1 + self.rng.below(3) as usize;
                self.back(count);
            }
        }
    }

    fn some_tick(&mut self) {
        let flag = self.rng.pick(&[0, 0, 0, 0, 1, 1, 2, 0xFF]);
        self.tick(flag);
    }

    /// A set command, sometimes one that is refused or makes a bad record.
    fn some_set(&mut self) {
        let value = self.rng.next();
        match self.rng.below(20) {
            0 => {
                let field =
                    self.rng.pick(&[0x0D, 0x0F, 0x13, 0x1F, 0x3F, 0x5F, 0x8E, 0x8F, 0xB7, 0xFF]);
                self.set(field, value & 1);
            }
            1 => {
                let field = self.rng.below(256) as u8;
                self.set(field, value);
            }
            2 => {
                let field = self.rng.pick(&[
                    0x00, 0x0C, 0x10, 0x20, 0x27, 0x32, 0x34, 0x35, 0x36, 0x3C, 0x3D, 0x3E, 0x40,
                    0x5E, 0x80, 0x83, 0x88, 0x8A, 0x8B,
                ]);
                let largest = Machine::largest(field).unwrap_or(0);
                self.set(field, largest + 1);
            }
            3 => self.spoil(),
            4 => self.refused_flags(),
            _ => self.good_set(),
        }
    }

    /// Overflow flags that are refused: bit 31 alone or among others, and bits
    /// above 32. A few of them are not.
    fn refused_flags(&mut self) {
        let any = self.rng.next();
        let flags = self.rng.pick(&[
            1 << 31,
            0xFFFF_FFFF,
            0x1_8000_0000,
            0x1_FFFF_FFFF,
            0x1_7FFF_FFFF,
            1 << 33,
            u64::MAX,
            any & 0x1_FFFF_FFFF,
            any,
        ]);
        self.set(0x37, flags);
    }

    /// A set command that leaves a consistent record consistent.
    fn good_set(&mut self) {
        let field = match self.rng.below(13) {
            0 => 0x60 + self.rng.below(32) as u8,
            1 => 0x40 + self.rng.below(31) as u8,
            2 => self.rng.pick(&[0x32, 0x34, 0x0C, 0x27]),
            3 => self.rng.below(0x0C) as u8,
            4 => self.rng.pick(&STOPPING),
            5 => 0x10 + self.rng.below(3) as u8,
            6 => self.rng.pick(&[0x35, 0x36, 0x37]),
            7 => self.rng.pick(&[0x34, 0x3D, 0x3E]),
            8..=10 => 0x80 + self.rng.below(14) as u8,
            _ => self.rng.pick(&PASSING).0,
        };
        let value = match field {
            0x60..=0x7E => self.counter_value(),
            0x7F => self.operand(),
            0x40..=0x5E => self.rng.pick(&[0, 0, 0, 1, 0xFFFF]),
            0x32 => self.rng.next() & 0x7FFF_FFFF,
            0x34 => self.enables(),
            0x3D | 0x3E => self.rng.chance(70) as u64,
            0x37 => self.flags(),
            0x0C | 0x27 => self.rng.below(32),
            0x80..=0x8D => self.sampling_value(field),
            _ => self.rng.below(2),
        };
        let mut trial = self.machine.clone();
        trial.set(field, value);
        if trial.state_refusal().is_none() || self.machine.state_refusal().is_some() {
            self.set(field, value);
        } else {
            self.tick(0);
        }
    }

    /// A level command, sometimes one that is refused or makes a bad record.
    fn some_level(&mut self) {
        match self.rng.below(14) {
            0 => {
                let level = self.rng.pick(&[4, 5, 0x80, 0xFF]);
                self.level(level);
            }
            1 => {
                let level = self.rng.below(4) as u8;
                self.level(level);
            }
            _ => self.change_level(),
        }
    }

    /// A level that the machine can be at, if another.
    fn change_level(&mut self) {
        let level = self.rng.below(4) as u8;
        self.level_or_0(level);
    }

    /// A level, or 0 where the machine can't be at it.
    fn level_or_0(&mut self, level: u8) {
        let mut trial = self.machine.clone();
        trial.set_level(level);
        if !matches!(trial.state_refusal(), Some(11) | Some(16)) {
            self.level(level);
        } else {
            self.level(0);
        }
    }

    /// One inconsistency on purpose.
    fn spoil(&mut self) {
        match self.rng.below(9) {
            0 => self.level(3),
            1 => self.level(2),
            2 => self.set(0x10, 1),
            3 => self.set(0x27, 31),
            4 => self.set(0x27, 0),
            5 => {
                let field = 0x60 + self.rng.below(31) as u8;
                self.set(field, 1 << 32);
            }
            6 => {
                self.set(0x25, 1);
                self.level(1);
            }
            7 => {
                let field = self.rng.pick(&[0, 1]);
                self.set(field, 0);
            }
            _ => {
                let field = self.rng.pick(&[1, 2, 3]);
                self.set(field, 1);
            }
        }
    }

    /// Mends the lowest inconsistency.
    fn mend(&mut self) {
        let n = self.machine.n as u64;
        let other = self.rng.chance(50);
        match self.machine.state_refusal() {
            Some(11) => self.level(0),
            Some(12) => self.set(0x10, 0),
            Some(13) => self.set(0x27, n),
            Some(14) if n > 0 && other => self.set(0x27, 1),
            Some(14) => self.set(0x06, 1),
            Some(15) => self.set(0x01, 1),
            Some(16) if other => self.level(0),
            Some(16) => self.set(0x25, 0),
            Some(_) if !self.machine.pmuv3 => self.set(0x00, 1),
            Some(_) => self.set(0x01, 1),
            None => {}
        }
    }
}

/// The word of MRS or MSR with op0 3 and op1 3.
pub fn word(read: bool, crn: u32, crm: u32, op2: u32, rt: u32) -> u32 {
    let base = if read { 0xD53B_0000 } else { 0xD51B_0000 };
    base | crn << 12 | crm << 8 | op2 << 5 | rt
}

/// The same word with another op1.
pub fn with_op1(word: u32, op1: u32) -> u32 {
    word & !(7 << 16) | op1 << 16
}

/// The word of a counter access.
pub fn counter_word(read: bool, m: u32, rt: u32) -> u32 {
    word(read, 14, 8 + m / 8, m % 8, rt)
}

// Accesses.
impl Writer {
    fn some_access(&mut self) {
        let operand = self.operand();
        let rt = if self.rng.chance(12) { 31 } else { self.rng.below(31) as u32 };
        let read = self.rng.chance(55);
        let chosen = match self.rng.below(22) {
            0..=8 => counter_word(read, self.counter(), rt),
            9..=13 => {
                let mask = self.mask();
                let read = self.rng.chance(4);
                self.access(word(read, 9, 12, 4, rt), mask);
                return;
            }
            14..=17 => word(read, 9, 4, 0, rt),
            18 => self.neighbour(rt),
            19 | 20 => {
                self.some_pmsicr(read, rt);
                return;
            }
            _ => self.rng.next() as u32,
        };
        self.access(chosen, operand);
    }

    /// A counter number, often beside N or HPMN.
    fn counter(&mut self) -> u32 {
        let near = self.rng.below(3) as u32;
        let middle = match self.rng.below(3) {
            0 => self.machine.n as u32,
            1 => self.machine.hpmn as u32,
            _ => return self.rng.below(32) as u32,
        };
        (middle + near).saturating_sub(1).min(31)
    }

    /// An operand for PMSWINC.
    fn mask(&mut self) -> u64 {
        let any = self.rng.next();
        match self.rng.below(6) {
            0 => u64::MAX,
            1 => 0x7FFF_FFFF,
            2 => 1 << self.counter(),
            3 => any & 0xFFFF_FFFF_0000_0000 | 1 << self.rng.below(31),
            4 => any & self.rng.next(),
            _ => any,
        }
    }

    /// A word with CRn 9 or 14, any CRm and op2, and every other time any op1.
    fn beside(&mut self, read: bool, rt: u32) -> u32 {
        let crn = self.rng.pick(&[9, 14]);
        let chosen = word(read, crn, self.rng.below(16) as u32, self.rng.below(8) as u32, rt);
        if self.rng.chance(50) {
            return chosen;
        }
        with_op1(chosen, self.rng.below(8) as u32)
    }

    /// A word that differs a little from one of ours, PMSICR's with any op1 among
    /// them, or has CRn 9 or 14.
    fn neighbour(&mut self, rt: u32) -> u32 {
        let read = self.rng.chance(50);
        match self.rng.below(20) {
            0..=8 => return self.beside(read, rt),
            9..=11 => return with_op1(pmsicr_word(read, rt), self.rng.below(8) as u32),
            _ => {}
        }
        let m = self.rng.below(32) as u32;
        let ours = match self.rng.below(4) {
            0 => counter_word(read, m, rt),
            1 => word(false, 9, 12, 4, rt),
            2 => pmsicr_word(read, rt),
            _ => word(read, 9, 4, 0, rt),
        };
        ours ^ 1 << self.rng.below(32)
    }

    /// An offset, mostly of the enables or of the flags.
    fn offset(&mut self) -> u16 {
        let any = self.rng.next() as u16;
        match self.rng.below(20) {
            0..=8 => 0xC00,
            9..=12 => 0xC80,
            13..=16 => 0xCC0,
            17 => self.rng.pick(&[0xC84, 0xC81, 0xC7F, 0x800C, 0x1C80, 0xCC4, 0xCC1, 0xC40]),
            _ => self.rng.pick(&[0xC04, 0xBFF, 0xC01, 0x000, 0x00C, 0x1C00, 0xC20, any]),
        }
    }

    /// The offset of PMOVSCLR_EL0 or PMOVSSET_EL0.
    fn flags_offset(&mut self) -> u16 {
        self.rng.pick(&[0xC80, 0xCC0])
    }

    fn some_read(&mut self) {
        let offset = self.offset();
        self.read(offset);
    }

    fn some_write(&mut self) {
        let offset = self.offset();
        let value = if self.rng.chance(50) { self.operand() } else { self.bits() };
        self.write(offset, value);
    }

    /// A value for an external register: bits beside N, 31, 32, all, or some.
    fn bits(&mut self) -> u64 {
        let any = self.rng.next();
        match self.rng.below(8) {
            0 => u64::MAX,
            1 => 1 << 31,
            2 => 1 << 32,
            3 => 0x1_7FFF_FFFF,
            4 => any & 0x1_FFFF_FFFF,
            5 => 3 << self.machine.n >> 1,
            _ => 1 << self.counter(),
        }
    }
}

// Counters that run over.
impl Writer {
    /// Brings counters next to a carry, counts, and looks at the flags, which
    /// are now and then cleared or set before they are looked at again.
    fn run_over(&mut self) {
        if self.rng.chance(40) {
            self.divide();
        }
        if self.rng.chance(30) {
            let flags = self.flags();
            self.set(0x37, flags);
        }
        if self.rng.chance(25) {
            self.wrap_ticks();
        } else {
            self.carry_events();
        }
        if self.rng.chance(25) {
            self.unlock();
        }
        let offset = self.flags_offset();
        self.read(offset);
        if self.rng.chance(30) {
            let (offset, value) = (self.flags_offset(), self.bits());
            self.write(offset, value);
            let offset = self.flags_offset();
            self.read(offset);
        }
    }

    /// Changes one of the things that say where a counter overflows: LP, HLP,
    /// HPMN, and whether EL2 is implemented; and whether EL2 is enabled.
    fn divide(&mut self) {
        let n = self.machine.n as u64;
        match self.rng.below(6) {
            0 | 1 => {
                let (field, value) = (self.rng.pick(&LONG).0, self.rng.below(2));
                self.set(field, value);
            }
            2 | 3 => {
                let hpmn = self.hpmn(n);
                self.set(0x27, hpmn);
            }
            4 => {
                if self.machine.el == 2 {
                    self.level(0);
                }
                self.set(0x10, 0);
                if self.rng.chance(30) {
                    self.set(0x09, 0);
                }
            }
            _ if self.machine.have_el2 => self.set(0x10, 1),
            _ => {
                let hpmn = self.hpmn(n);
                self.set(0x27, hpmn);
                self.set(0x09, 1);
            }
        }
    }

    /// Some counters next to a carry, mostly on and their event numbers 0, then
    /// one PMSWINC or two.
    fn carry_events(&mut self) {
        let mut operand = if self.rng.chance(20) { self.mask() } else { 0 };
        for _ in 0..1 + self.rng.below(3) {
            let m = self.counter().min(30) as u8;
            operand |= 1 << m;
            let value = self.carry_value();
            self.set(0x60 + m, value);
            if self.rng.chance(70) {
                self.switch_on(m);
            }
        }
        let rt = if self.rng.chance(3) { 31 } else { self.rng.below(31) as u32 };
        for _ in 0..1 + self.rng.below(2) {
            self.access(word(false, 9, 12, 4, rt), operand);
        }
    }

    /// A value of an event counter that one or two increments carry over.
    fn carry_value(&mut self) -> u64 {
        let before = self.rng.pick(&[0, 0, 0, 1, 2]);
        if !self.machine.pmuv3p5 {
            return 0xFFFF_FFFF - before;
        }
        let upper = match self.rng.below(5) {
            0 => 0,
            1 => 1 + self.rng.below(3),
            2 => self.rng.next() >> 32,
            3 => 0xFFFF_FFFE,
            _ => 0xFFFF_FFFF,
        };
        (upper << 32 | 0xFFFF_FFFF) - before
    }

    /// The instruction counter next to a carry, mostly enabled, and ticks. E and
    /// HPME, which ticks do not ask for, are now and then 0 meanwhile.
    fn wrap_ticks(&mut self) {
        let before = self.rng.below(2);
        let value = if self.rng.chance(85) { u64::MAX } else { self.operand() | 0xFFFF_FFFF };
        self.set(0x7F, value - before);
        if self.machine.pmcnten >> 32 == 0 && self.rng.chance(80) {
            let enables = self.machine.pmcnten | 1 << 32;
            self.set(0x34, enables);
        }
        let off = self.rng.chance(25);
        if off {
            self.set(0x3D, 0);
            self.set(0x3E, 0);
        }
        for _ in 0..=before {
            let flag = self.rng.pick(&[0, 0, 0, 0, 0, 0, 0, 1, 2]);
            self.tick(flag);
        }
        if off {
            self.set(0x3D, 1);
            self.set(0x3E, 1);
        }
    }

    /// Mends one thing or two that keep an external read from showing bits.
    fn unlock(&mut self) {
        let m = &self.machine;
        let present = m.ext32 || m.ext64;
        let list = [
            (!present, 0x08, 1),
            (!m.core_powered, 0x38, 1),
            (m.double_lock, 0x39, 0),
            (m.os_lock, 0x3A, 0),
            (!m.external_allowed, 0x3B, 1),
        ];
        let wrong = list.iter().filter(|(wrong, _, _)| *wrong);
        let mend: Vec<(u8, u64)> = wrong.map(|&(_, field, value)| (field, value)).collect();
        for &(field, value) in mend.iter().take(2) {
            self.set(field, value);
        }
    }
}

// Counters that are on and off.
impl Writer {
    /// Sets what a counter lacks to count software increments: the event number,
    /// its enable bit, now and then from outside, and the bits of both ranges.
    fn switch_on(&mut self, m: u8) {
        if self.machine.event[m as usize] != 0 {
            self.set(0x40 + m, 0);
        }
        let enables = self.machine.pmcnten;
        if enables >> m & 1 == 0 && self.rng.chance(15) {
            self.write(0xC00, 1 << m);
        } else if enables >> m & 1 == 0 {
            self.set(0x34, enables | 1 << m);
        }
        if !self.machine.pmcr_e {
            self.set(0x3D, 1);
        }
        if !self.machine.hpme {
            self.set(0x3E, 1);
        }
    }

    /// HPMN just below a counter, at it or just above, as far as N lets it.
    fn hpmn_beside(&mut self, m: u8) {
        let least = if self.machine.hpmn0 { 0 } else { 1 };
        let near = (m as u64 + self.rng.below(3)).saturating_sub(1);
        self.set(0x27, near.max(least).min(self.machine.n as u64));
    }

    /// A counter that is on, mostly but for one thing, PMSWINC, and a read of it.
    /// The thing is mostly set back, and now and then PMSWINC comes again.
    fn switch_off(&mut self) {
        let n = self.machine.n;
        let m = self.counter().min(30) as u8;
        let m = if n > 0 && self.rng.chance(85) { m % n } else { m };
        self.switch_on(m);
        let enables = self.machine.pmcnten;
        let (field, off, on) = match self.rng.below(10) {
            0..=2 => (0x34, enables & !(1 << m), enables),
            3 | 4 => (0x3D, 0, 1),
            5..=7 => (0x3E, 0, 1),
            8 => (0x40 + m, 1, 0),
            _ => (0x3D, 1, 1),
        };
        self.set(field, off);
        match self.rng.below(10) {
            0 | 1 => self.divide(),
            2 | 3 => self.hpmn_beside(m),
            _ => {}
        }
        let mask = self.mask();
        let operand = self.rng.pick(&[1 << m, 7 << m >> 1, mask | 1 << m]);
        self.access(word(false, 9, 12, 4, 1), operand);
        self.access(counter_word(true, m as u32, 2), 0);
        if self.rng.chance(80) {
            self.set(field, on);
        }
        if self.rng.chance(30) {
            self.access(word(false, 9, 12, 4, 1), operand);
        }
    }
}

// The end of a session.
impl Writer {
    /// Opens everything, then reads each counter, the enables and the flags, and
    /// mostly PMSICR and the word at 0x838.
    fn dump(&mut self) {
        const OPEN: [(u8, u64); 15] = [
            (0x10, 0), (0x00, 1), (0x01, 1), (0x03, 1), (0x06, 1),
            (0x0C, 31), (0x08, 1), (0x11, 0), (0x28, 0), (0x29, 1),
            (0x38, 1), (0x39, 0), (0x3A, 0), (0x3B, 1), (0x27, 31),
        ];
        for (field, value) in OPEN {
            self.set(field, value);
        }
        self.level(1);
        for m in 0..31 {
            self.access(counter_word(true, m, m), 0);
        }
        self.access(word(true, 9, 4, 0, 30), 0);
        self.read(0xC00);
        let offset = self.flags_offset();
        self.read(offset);
        if self.rng.chance(75) {
            self.dump_sampling();
        }
    }

    /// Mostly the end command alone.
    fn ending(&mut self) {
        match self.rng.below(100) {
            0..=68 => self.bytes.push(0x00),
            69..=76 => {
                self.bytes.push(0x00);
                let count = 1 + self.rng.below(20) as usize;
                self.noise(count);
            }
            77..=82 => {
                let first = self.no_command();
                self.bytes.push(first);
                self.noise(5);
            }
            83..=90 if self.rng.chance(40) => self.cut_set(),
            83..=90 => {
                let cut = 1 + self.rng.below(13) as usize;
                self.bytes.truncate(self.bytes.len().saturating_sub(cut));
            }
            91..=93 => {}
            94..=96 => {
                self.bytes.push(0x00);
                self.fill();
            }
            _ => self.overrun(),
        }
    }

    fn noise(&mut self, count: usize) {
        for _ in 0..count {
            let byte = self.rng.next() as u8;
            self.bytes.push(byte);
        }
    }

    /// Bytes after the end, up to the limit or just over it.
    fn fill(&mut self) {
        let size = LIMIT + self.rng.pick(&[0, 0, 1, 1, 100]) - self.rng.below(2) as usize;
        self.noise(size.saturating_sub(self.counted()));
    }

    /// Commands up to the limit or over it, the end included. MODEL Z5: in the short form
    /// it is mostly that of the long form.
    fn overrun(&mut self) {
        let size = LIMIT - 1 + self.rng.below(3) as usize;
        let long = self.rng.chance(70);
        let now = |writer: &Writer| writer.counted() + if long { writer.saved } else { 0 };
        while now(self) + 16 < size {
            self.command();
        }
        while now(self) + 1 < size {
            self.tick(0);
        }
        self.bytes.push(0x00);
    }
}

impl Writer {
    /// A session without a byte but for the one in front of a short form.
    fn new(seed: u64, index: u64) -> Writer {
        let mut rng = Rng::new(seed, index);
        let trapping = rng.pick(&[3, 10, 10, 25]);
        let short = rng.chance(40);
        let (form, bytes) =
            if short { (Form::Short, vec![SHORT_FORM]) } else { (Form::Long, Vec::new()) };
        let wide = if short { rng.pick(&[0, 0, 0, 0, 0, 0, 2, 10]) } else { 0 };
        Writer {
            rng,
            form,
            wide,
            saved: 0,
            bytes,
            machine: Machine::default(),
            earlier: Earlier::default(),
            trapping,
        }
    }
}

/// One session, always the same for the same numbers.
pub fn session(seed: u64, index: u64) -> Vec<u8> {
    let mut writer = Writer::new(seed, index);
    if writer.rng.chance(3) {
        let count = writer.rng.below(30) as usize;
        if writer.rng.chance(50) {
            writer.noise(count);
        } else {
            writer.low_noise(count);
        }
        return writer.bytes;
    }
    writer.features();
    writer.settings();
    writer.sampling_settings();
    if writer.rng.chance(15) {
        writer.debug_state();
    }
    writer.counters();
    if writer.rng.chance(12) {
        writer.spoil();
    }
    if writer.rng.chance(20) {
        writer.without_sets();
    } else {
        let count = writer.rng.pick(&[3, 10, 30, 50, 80, 95]);
        for _ in 0..count {
            writer.step();
        }
    }
    if writer.rng.chance(65) {
        writer.dump();
    }
    writer.ending();
    if writer.rng.chance(5) {
        writer.misplace();
    }
    writer.bytes
}
