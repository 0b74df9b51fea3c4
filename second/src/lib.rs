//! The independent second program. It says document 01 once more, in its own
//! way, so that an error of the first program is not made here too. Everything
//! is plain safe code over vectors; only `caller/` knows the C interface.

pub mod calls;
pub mod listing;
pub mod locks;
pub mod machine;
pub mod preempt;
pub mod races;
pub mod table;
pub mod thresholds;

pub mod arguments;
pub mod random;
pub mod tally;

#[cfg(test)]
mod tests;
