//! A party's refusals 2 to 8 against the decision's.

use super::batch::small_file;
use crate::decision::accept;
use crate::generate::{Family, file};
use std::collections::BTreeMap;
use std::fmt::{self, Display};

/// What a batch of files showed: how many of each family were refused by which number, and the differences.
#[derive(Default)]
pub struct Refusals {
    pub counts: BTreeMap<(Family, u32), u64>,
    pub differences: Vec<String>,
}

impl Display for Refusals {
    fn fmt(&self, out: &mut fmt::Formatter<'_>) -> fmt::Result {
        for ((family, refusal), count) in &self.counts {
            let said = if *refusal == 0 { "accepted".to_string() } else { format!("refused {refusal}") };
            writeln!(out, "{:12} {count:>8} {said}", format!("{family:?}"))?;
        }
        Ok(())
    }
}

/// Compares what a party says of a file, as a refusal's number or 0, on the first `files` files of the seed.
pub fn refusals_batch(check: impl Fn(&[u8]) -> u32, seed: u64, files: u64) -> Refusals {
    let mut met = Refusals::default();
    let decided = |file: &[u8]| accept(file).err().unwrap_or(0);
    for number in 0..files {
        let generated = file(seed, number);
        let (said, decision) = (check(&generated.bytes), decided(&generated.bytes));
        *met.counts.entry((generated.family, decision)).or_default() += 1;
        if said != decision {
            let small = small_file(&generated.bytes, met.differences.len(), |file| check(file) != decided(file));
            met.differences.push(format!("file {number}: decided {decision}, said {said}{small}"));
        }
    }
    met
}
