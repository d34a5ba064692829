//! A model of the small transactional volume.
//!
//! - [`volume`]: the calls, on the lent bytes themselves.
//! - [`content`]: the decided content and the counts of the maps, read from
//!   the bytes by its own code.
//! - [`book`]: the plain book, which sees arguments and answers only.
//! - [`call`]: one call and one answer as values.
//! - [`reply`]: sessions and answers as the C library has them.
//! - [`script`]: scripts of calls, read, printed and run.
//! - [`small`]: every sound volume of one small shape.
//! - [`wrong_lines`]: lines that no script may have.
//!
//! The other modules serve the test driver `soak`.
//!
//! A *client* is what the listing calls a kiln, and a *budget* is the
//! allowance of stores that a call is given.

pub mod book;
pub mod call;
#[cfg(feature = "capi")]
pub mod capi;
pub mod check;
pub mod content;
pub mod engine;
pub mod expected;
pub mod generate;
pub mod looks;
pub mod posix;
pub mod random;
pub mod readers;
pub mod reply;
pub mod script;
pub mod shrink;
pub mod small;
pub mod spares;
pub mod volume;
pub mod wrong_lines;
