//! The model call by call (MODEL X13 to X16): machines, what is listed of them, and
//! answers.

mod answer;
mod library;
mod machine;
mod recorded;

pub use answer::Answer;
pub use machine::{Machine, LEVEL, WORDS};
pub use recorded::{Recorded, LIST};
