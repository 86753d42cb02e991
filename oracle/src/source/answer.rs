//! What the module says of one file, in numbers of that file.

use crate::record::Record;
use std::collections::BTreeMap;

/// What its liveness analysis held at the end.
#[derive(Clone, Debug, Default, PartialEq, Eq)]
pub struct Analysis {
    /// The block of each post-order index.
    pub post_order: Vec<u32>,
    /// Ascending values, by post-order index.
    pub live_in: Vec<Vec<u32>>,
    pub live_out: Vec<Vec<u32>>,
    /// By instruction number.
    pub lists: BTreeMap<u32, Vec<u32>>,
    /// The blocks visited, in order.
    pub visited: Vec<u32>,
    pub pushes: u64,
}

/// What its spiller made of the function.
#[derive(Clone, Debug, Default, PartialEq, Eq)]
pub struct Rewriting {
    /// In the order of document 01's output. A landing's cold word is the module's own.
    pub records: Vec<Record>,
    pub slots: u64,
    pub landings: u64,
}

#[derive(Clone, Debug, PartialEq, Eq)]
pub enum Outcome {
    Done(Analysis, Rewriting),
    /// The module panicked, with these words. The analysis is what it held by then.
    Panicked(String, Analysis),
    /// The module was not there at build time.
    Absent,
}
