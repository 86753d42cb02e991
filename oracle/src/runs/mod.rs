//! "The two runs of demand 3", executed: an original beside what rewriting leaves of it, compared step by step.
//!
//! [`run`] is the one machine, [`trial`] the random worlds, movers and first contents, [`together`] the comparison.
//! [`batch`] takes any party's rewriting through the generator's dominated files. [`wrong`] and [`spoil`] show that
//! wrong rewriting is seen: a run of this command that could not tell is itself a failure.

pub mod batch;
mod machine;
pub mod rewritten;
pub mod run;
pub mod spoil;
pub mod together;
pub mod tree;
pub mod trial;
pub mod wrong;

pub use batch::{Tally, batch};
