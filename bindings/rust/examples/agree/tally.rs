//! What was answered how often.

use pmu::Answer;
use std::collections::BTreeMap;
use std::fmt;

/// How often there was an answer, by its kind, with the cause of a trap or the
/// number of a refusal.
#[derive(Default)]
pub struct Tally(BTreeMap<(&'static str, u8), u64>);

fn kind(answer: Answer) -> (&'static str, u8) {
    match answer {
        Answer::Ok => ("ok", 0),
        Answer::Sampled => ("sampled", 0),
        Answer::Undef => ("undef", 0),
        Answer::Other => ("other", 0),
        Answer::Error => ("error", 0),
        Answer::Trap { cause, .. } => ("trap", cause),
        Answer::Value(_) => ("value read from outside", 0),
        Answer::Mrs { .. } => ("value", 0),
        Answer::Refused(number) => ("refused", number),
    }
}

/// The answers that many random sessions must have: of each kind one, with every
/// cause, and every refusal that a command of a session can get by itself.
fn expected() -> impl Iterator<Item = Answer> {
    let plain = [Answer::Ok, Answer::Sampled, Answer::Undef, Answer::Other, Answer::Error];
    let values = [Answer::Value(0), Answer::Mrs { value: 0, rt: 0 }];
    let traps = (1..=9).map(|cause| Answer::Trap { level: 1, syndrome: 0, cause });
    let refusals = (3..=5).chain(11..=18).map(Answer::Refused);
    plain.into_iter().chain(values).chain(traps).chain(refusals)
}

impl Tally {
    pub fn count(&mut self, answer: Answer) {
        *self.0.entry(kind(answer)).or_default() += 1;
    }

    /// Both together.
    pub fn add(&mut self, other: Tally) {
        for (kind, count) in other.0 {
            *self.0.entry(kind).or_default() += count;
        }
    }

    /// The first of the expected answers that never came.
    pub fn missing(&self) -> Option<Answer> {
        expected().find(|&answer| !self.0.contains_key(&kind(answer)))
    }
}

impl fmt::Display for Tally {
    fn fmt(&self, f: &mut fmt::Formatter<'_>) -> fmt::Result {
        for (k, ((name, number), count)) in self.0.iter().enumerate() {
            let comma = if k == 0 { "" } else { ", " };
            match number {
                0 => write!(f, "{comma}{name}: {count}")?,
                _ => write!(f, "{comma}{name} {number}: {count}")?,
            }
        }
        Ok(())
    }
}
