//! Document 01 decided plainly: one file a section, in its order and with its names.
//!
//! Written from document 01 alone, to be read beside it. Nothing here is taken from the Rust module, and nothing is made
//! fast at the cost of being plain.

pub mod function;
pub mod liveness;
pub mod process;
pub mod refusal;
pub mod rewriting;
pub mod service;
pub mod slots;
pub mod value_set;
pub mod write;

pub use refusal::{Accepted, accept};
pub use service::{Decision, program};
