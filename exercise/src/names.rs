//! Fields and registers by the names that a text may have for them. Case does not matter, and
//! `FEAT_` and each `_EL0` to `_EL3` may be left out where that leaves one of them.

use crate::near::{meant, near};
use crate::tables::fields::{field, Field, FIELDS};
use crate::tables::registers::{Place, EXTERNALS, REGISTERS};
use std::collections::HashMap;

/// What a name was found to be.
pub enum Found<T> {
    One(T),
    /// These full names are left where more than one is.
    Many(Vec<String>),
    None,
}

/// Names of one kind, in capitals: whole, and with parts left out.
struct Index<T> {
    whole: HashMap<String, T>,
    parts: HashMap<String, Vec<(String, T)>>,
    list: Vec<(String, T)>,
}

impl<T: Copy + PartialEq> Index<T> {
    fn new(names: impl Iterator<Item = (String, T)>) -> Index<T> {
        let mut index = Index { whole: HashMap::new(), parts: HashMap::new(), list: Vec::new() };
        for (name, thing) in names.filter(|(name, _)| !name.is_empty()) {
            for shorter in shorter(&name) {
                let same = index.parts.entry(shorter.to_ascii_uppercase()).or_default();
                if !same.iter().any(|(_, other)| *other == thing) {
                    same.push((name.clone(), thing));
                }
                index.list.push((shorter, thing));
            }
            index.whole.insert(name.to_ascii_uppercase(), thing);
        }
        index
    }

    fn find(&self, name: &str) -> Found<T> {
        let name = name.to_ascii_uppercase();
        if let Some(thing) = self.whole.get(&name) {
            return Found::One(*thing);
        }
        match self.parts.get(&name).map(Vec::as_slice) {
            None => Found::None,
            Some([(_, thing)]) => Found::One(*thing),
            Some(several) => Found::Many(several.iter().map(|(name, _)| name.clone()).collect()),
        }
    }

    /// Whether a name is a counter's but for its number.
    fn is_counter(&self, name: &str) -> bool {
        let digit = |c: char| c.is_ascii_digit();
        let start = name.find(digit).unwrap_or(name.len());
        let end = name[start..].find(|c| !digit(c)).map_or(name.len(), |rest| start + rest);
        let numbered = |m: u8| self.find(&format!("{}{m}{}", &name[..start], &name[end..]));
        let there =
            name[start..end].parse::<u8>().map_or(false, |m| matches!(numbered(m), Found::One(_)));
        !there && matches!((numbered(0), numbered(1)), (Found::One(_), Found::One(_)))
    }

    fn near(&self, name: &str) -> Vec<T> {
        near(name, self.list.iter().map(|(name, thing)| (name.as_str(), *thing)))
    }
}

/// A name with each choice of the parts that may be left out, the shortest first.
fn shorter(name: &str) -> Vec<String> {
    let parts = ["FEAT_", "_EL0", "_EL1", "_EL2", "_EL3"];
    let part = parts.iter().filter_map(|part| Some((name.find(part)?, part.len()))).min();
    match part {
        None => vec![name.to_string()],
        Some((at, length)) => {
            let rest = shorter(&name[at + length..]);
            let with = |front: &str| rest.iter().map(|r| format!("{front}{r}")).collect::<Vec<_>>();
            [with(&name[..at]), with(&name[..at + length])].concat()
        }
    }
}

/// The name that a row is printed with: Arm's, or MODEL's where Arm's is a function or there is
/// none. Parts are left out unless there is another register whose name is then the same, as
/// MDCR_EL2 and MDCR_EL3.
pub fn printed(field: &Field) -> String {
    if field.arm.is_empty() || field.arm.contains('(') {
        return field.model.to_string();
    }
    let register = |f: &Field| f.arm.split('.').next().unwrap_or("");
    let mine = register(field);
    let same = |f: &Field| register(f) != mine && shorter(register(f))[0] == shorter(mine)[0];
    match FIELDS.iter().any(same) {
        true => field.arm.to_string(),
        false => shorter(field.arm)[0].clone(),
    }
}

/// A name of a row for its number m.
fn numbered(name: &str, m: u8) -> String {
    name.replace("<m>", &m.to_string())
}

pub struct Names {
    fields: Index<u8>,
    registers: Index<Place>,
    externals: Index<u16>,
    /// The name that each field is printed with.
    printed: HashMap<u8, String>,
    /// How many words a field's name has at most.
    pub words: usize,
}

/// What is said of the number of a counter that there is not.
const COUNTERS: &str = "counters have the numbers 0 to 30";

impl Names {
    pub fn new() -> Names {
        let fields = FIELDS.iter().flat_map(|f| {
            let names = move |m| [f.arm, f.model].map(|name| (numbered(name, m), f.number + m));
            (0..f.count).flat_map(names)
        });
        let registers = REGISTERS
            .iter()
            .flat_map(|r| (0..r.count).map(move |m| (numbered(r.name, m), r.place.plus(m))));
        let externals = EXTERNALS.iter().map(|e| (e.name.to_string(), e.offset));
        let printed = FIELDS.iter().flat_map(|f| {
            let name = printed(f);
            (0..f.count).map(move |m| (f.number + m, numbered(&name, m)))
        });
        Names {
            fields: Index::new(fields),
            registers: Index::new(registers),
            externals: Index::new(externals),
            printed: printed.collect(),
            words: FIELDS.iter().map(|f| f.model.split(' ').count()).max().unwrap_or(1),
        }
    }

    pub fn field(&self, name: &str) -> Found<u8> {
        self.fields.find(name)
    }

    pub fn register(&self, name: &str) -> Found<Place> {
        match Place::by_parts(name) {
            Some(place) => Found::One(place),
            None => self.registers.find(name),
        }
    }

    pub fn external(&self, name: &str) -> Found<u16> {
        self.externals.find(name)
    }

    /// What may have been meant by a name that is no field's: `PMUACR.P3` is a bit of one.
    pub fn field_hint(&self, name: &str) -> String {
        let front = name.trim_end_matches(|c: char| c.is_ascii_digit());
        let bit = name[front.len()..].parse::<u32>().ok().filter(|bit| *bit < 64);
        if let (Found::One(number), Some(bit)) = (self.fields.find(front), bit) {
            if field(number).map_or(false, |f| f.mask && f.largest >> bit & 1 == 1) {
                return format!(
                    "bit {bit} of `{}` is 0x{:X}",
                    self.of_field(number).unwrap_or(""),
                    1u64 << bit
                );
            }
        }
        if self.fields.is_counter(name) || self.fields.is_counter(&format!("{name} 999")) {
            return COUNTERS.to_string();
        }
        let names = self.fields.near(name);
        meant(&names.iter().filter_map(|f| self.of_field(*f)).map(String::from).collect::<Vec<_>>())
    }

    /// The same of registers; some are only reached from outside.
    pub fn register_hint(&self, name: &str) -> String {
        if self.registers.is_counter(name) {
            return COUNTERS.to_string();
        }
        if let Found::One(offset) = self.externals.find(name) {
            return format!("it is reached from outside alone, at {offset:X}");
        }
        let names = self.registers.near(name);
        meant(&names.iter().map(|place| self.of_register(*place)).collect::<Vec<_>>())
    }

    pub fn external_hint(&self, name: &str) -> String {
        let near = self.externals.near(name);
        let names = EXTERNALS.iter().filter(|e| near.contains(&e.offset));
        meant(&names.map(|e| e.name.to_string()).collect::<Vec<_>>())
    }

    pub fn of_field(&self, number: u8) -> Option<&str> {
        self.printed.get(&number).map(String::as_str)
    }

    /// The name of a register, or its parts where it is none of the model's.
    pub fn of_register(&self, place: Place) -> String {
        for r in REGISTERS {
            if let Some(m) = (0..r.count).find(|&m| r.place.plus(m) == place) {
                return numbered(r.name, m).to_ascii_lowercase();
            }
        }
        place.parts()
    }
}

impl Default for Names {
    fn default() -> Names {
        Names::new()
    }
}

impl Place {
    /// MODEL W4: the place m further on, by CRm and op2.
    pub fn plus(self, m: u8) -> Place {
        let at = self.crm * 8 + self.op2 + m;
        Place { crm: at / 8, op2: at % 8, ..self }
    }

    /// Arm's name for any register by the parts of its words: `S3_3_C9_C12_4`.
    fn parts(self) -> String {
        format!("s{}_{}_c{}_c{}_{}", self.op0, self.op1, self.crn, self.crm, self.op2)
    }

    fn by_parts(name: &str) -> Option<Place> {
        let name = name.to_ascii_lowercase();
        let mut parts = name.strip_prefix('s')?.split('_');
        let mut part = |mark: &str| parts.next()?.strip_prefix(mark)?.parse::<u8>().ok();
        let (op0, op1) = (part("")?, part("")?);
        let place = Place { op0, op1, crn: part("c")?, crm: part("c")?, op2: part("")? };
        // a name with leading zeros or signs, more parts or larger numbers is none
        let held = (2..=3).contains(&op0) && op1 < 8 && place.crn < 16 && place.crm < 16;
        (held && place.op2 < 8 && place.parts() == name).then_some(place)
    }
}
