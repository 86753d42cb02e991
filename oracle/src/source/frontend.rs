//! The module's parent: every name that it takes from there, and the module.

use super::cursor::{CursorPosition, FuncCursor};
use super::function::{Dfs, Function};
use super::ir::{self, Inst, Value};
use super::tables::{EntitySet, SecondaryMap, SmallVec};
// Stands before the standard library's own in the module.
use super::witness::Vec;

/// Trace output is left out; its arguments are still checked.
mod log {
    macro_rules! trace {
        ($($argument:tt)+) => {
            if false {
                let _ = format_args!($($argument)+);
            }
        };
    }
    pub(super) use trace;
}

include!(concat!(env!("OUT_DIR"), "/source_module.rs"));

/// The module's spiller, which only its parent may name.
#[derive(Default)]
pub struct Spiller(safepoints::SafepointSpiller);

impl Spiller {
    pub fn run(&mut self, func: &mut Function, pointer_size: u32) {
        let marked = func.marked.clone();
        self.0.run(func, &marked, ir::Type(pointer_size));
    }

    /// Lets the tables hand over what they held.
    pub fn clear(&mut self) {
        self.0.clear();
    }
}
