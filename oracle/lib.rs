//! The crate root over the source's own modules: what `numeric` takes from its crate, and the oracle.

mod job;
mod limits;
pub mod numeric;
mod range;
mod value;

pub use limits::{Limits, Resource, Statistics, Stop};
pub use range::Range;
pub use value::Widening;

/// Answers jobs. Its method `answer` stands in driver.rs, which is a private module of `numeric`;
/// a method can be called from here all the same.
pub struct Oracle;
