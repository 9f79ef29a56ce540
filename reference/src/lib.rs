//! The model of docs/MODEL.md a second time. It was written from the papers
//! behind that page, documents 01 and 02, and from Arm's register pages,
//! without sight of the Rattle code or its definitions: a library, so that a comparison can
//! run it beside another program, and the program `reference` over it.

pub mod back;
pub mod convert;
pub mod directed;
pub mod form;
pub mod generate;
pub mod model;
pub mod notation;
pub mod session;
#[cfg(test)]
mod tests;
