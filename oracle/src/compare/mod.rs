//! One party held against another: the module against the decision, and any party's services against the decision's.

mod against_module;
mod batch;
mod refusals;
mod shrink;
mod whole_answers;

pub use against_module::{Met, against_module};
pub use batch::{Compare, Tally, batch, services_batch};
pub use refusals::{Refusals, refusals_batch};
pub use shrink::shrink;
pub use whole_answers::{every_length, whole_answers};
