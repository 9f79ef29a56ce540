//! The proved model, for Rust: whole sessions and their conversion and, with the
//! feature `calls`, the model call by call. `crates/pmu/src`, `crates/pmu_access/src`
//! and `crates/pmu_calls/src` have what is proved of the functions; nothing checks
//! the declarations here against them but the tests.

#[cfg(feature = "calls")]
mod calls;
mod conversion;
mod session;

#[cfg(feature = "calls")]
pub use calls::{Answer, Machine, Recorded, LEVEL, LIST, WORDS};
pub use conversion::{convert, convert_room, NotConverted, CONVERT_ROOM};
pub use session::{room, session, Short, ROOM};
