//! The names and numbers that a text is translated by, a row each: fields, registers, commands,
//! answers, refusals and causes. docs/MODEL.md has them too, and the tests compare.

pub mod answers;
pub mod commands;
pub mod fields;
pub mod refusals;
pub mod registers;
