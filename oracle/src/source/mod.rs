//! The Rust module itself, unchanged, run on the records of one file.
//!
//! The module takes everything but its own algorithm from a stand-in: entities and tables ([`ir`], [`tables`]), the
//! function ([`function`]), its layout ([`layout`]) and the cursor that edits it ([`cursor`]). What the module keeps to
//! itself is handed over by its tables when they are cleared ([`witness`]).

mod answer;
#[cfg(source_module)]
mod cursor;
#[cfg(source_module)]
mod encode;
#[cfg(source_module)]
mod frontend;
#[cfg(source_module)]
mod function;
#[cfg(source_module)]
mod ir;
#[cfg(source_module)]
mod layout;
#[cfg(source_module)]
mod load;
#[cfg(source_module)]
mod run;
#[cfg(source_module)]
mod tables;
#[cfg(source_module)]
pub(crate) mod witness;

pub use answer::{Analysis, Outcome, Rewriting};
#[cfg(source_module)]
pub use run::Module;

/// Whether the module was there when this crate was built.
pub const PRESENT: bool = cfg!(source_module);

/// Whether the module's tables hand over what they held. Without it, its runs can be timed and not compared.
pub const WITNESSED: bool = cfg!(feature = "witness");

/// What is said where the module was not there.
pub const SKIPPED: &str = "comparison with the source module skipped: safepoints.rs was not there at build time";

/// Nothing to run.
#[cfg(not(source_module))]
#[derive(Default)]
pub struct Module;

#[cfg(not(source_module))]
impl Module {
    pub fn run(&mut self, _records: &[crate::record::Record], _pointer_size: u32) -> Outcome {
        Outcome::Absent
    }

    pub fn time(&mut self, _records: &[crate::record::Record], _pointer_size: u32) -> Option<std::time::Duration> {
        None
    }
}
