//! The oracle: what each service of the spill pass must answer on any file.
//!
//! Two parties that share no code beyond reading and writing records. [`source`] runs the Rust module, unchanged, over a
//! stand-in for the tables that it leans on. [`decision`] is document 01 written out plainly, refusals and whole
//! answers. [`compare`] holds one against the other on the files of [`generate`]; [`fixed`] keeps some hundreds of
//! answers as text. [`runs`] executes a file beside what rewriting leaves of it.

pub mod compare;
pub mod decision;
pub mod fixed;
pub mod generate;
pub mod guarded;
#[cfg(feature = "library")]
pub mod library;
pub mod program;
pub mod record;
pub mod runs;
pub mod services;
pub mod sheets;
pub mod source;

// The source module takes its hash tables from the root of its crate.
#[cfg(source_module)]
pub(crate) use source::witness::{HashMap, HashSet};
