//! Exercises as text, for the proved model: a command to a line, by name or in bytes. This
//! translates and shows; the model that runs is the proved one, by its static library.

mod caution;
pub mod check;
mod expected;
pub mod fault;
mod instruction;
mod line;
pub mod listing;
mod named;
pub mod names;
mod near;
mod notation;
mod number;
pub mod print;
pub mod run;
pub mod session;
pub mod show;
pub mod tables;
pub mod terminal;
pub mod text;
pub mod words;
