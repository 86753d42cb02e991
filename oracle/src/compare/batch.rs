//! Many files at once, and what was met among them.

use super::against_module::{Met, against_module};
use super::shrink::shrink;
use crate::decision::Decision;
use crate::generate::{Family, Random, file};
use crate::record::{records, text};
use crate::services::Services;
use crate::source::Module;
use std::collections::BTreeMap;
use std::fmt::{self, Display};

/// How many differences are told with a small file: finding one takes thousands of runs.
const SHRUNK: usize = 3;

/// Counts of one family.
#[derive(Default)]
struct Row {
    files: u64,
    /// By refusal number.
    refused: [u64; 12],
    unchanged: u64,
    rewritten: u64,
    with_landings: u64,
    panicked: u64,
    cold_words: u64,
    skipped: u64,
}

#[derive(Default)]
pub struct Tally {
    rows: BTreeMap<Family, Row>,
    /// The first few with the smallest file found, in document 01's notation.
    pub differences: Vec<String>,
}

impl Tally {
    pub fn accepted(&self) -> u64 {
        self.rows.values().map(|row| row.unchanged + row.rewritten + row.skipped).sum()
    }

    fn count(&mut self, family: Family, met: Met) {
        let row = self.rows.entry(family).or_default();
        match met {
            Met::Refused(refusal) => row.refused[refusal as usize] += 1,
            Met::Panicked(refusal) => {
                row.refused[refusal as usize] += 1;
                row.panicked += 1;
            }
            Met::Unchanged => row.unchanged += 1,
            Met::Rewritten { landings, cold_words } => {
                row.rewritten += 1;
                row.with_landings += u64::from(landings > 0);
                row.cold_words += cold_words;
            }
            Met::Skipped => row.skipped += 1,
        }
    }
}

impl Display for Tally {
    fn fmt(&self, out: &mut fmt::Formatter<'_>) -> fmt::Result {
        writeln!(
            out,
            "{:12} {:>8} {:>9} {:>9} {:>9} {:>9} {:>10} {:>8}   refused",
            "family", "files", "rewritten", "landings", "unchanged", "panicked", "cold words", "skipped"
        )?;
        for (family, row) in &self.rows {
            let refused = row.refused.iter().enumerate().filter(|(_, files)| **files > 0);
            let refused: Vec<_> = refused.map(|(refusal, files)| format!("{refusal}: {files}")).collect();
            writeln!(
                out,
                "{:12} {:>8} {:>9} {:>9} {:>9} {:>9} {:>10} {:>8}   {}",
                format!("{family:?}"),
                row.files,
                row.rewritten,
                row.with_landings,
                row.unchanged,
                row.panicked,
                row.cold_words,
                row.skipped,
                refused.join(", ")
            )?;
        }
        Ok(())
    }
}

/// Compares the module with the decision on the first `files` files of the seed.
pub fn batch(seed: u64, files: u64) -> Tally {
    let mut tally = Tally::default();
    let (mut decision, mut module) = (Decision::default(), Module::default());
    for number in 0..files {
        let generated = file(seed, number);
        let pointer_size = if number % 2 == 0 { 8 } else { 4 };
        tally.rows.entry(generated.family).or_default().files += 1;
        match against_module(&mut decision, &mut module, &generated.bytes, pointer_size) {
            Ok(met) => tally.count(generated.family, met),
            Err(difference) => {
                let differs = |file: &[u8]| against_module(&mut decision, &mut module, file, pointer_size).is_err();
                let small = small_file(&generated.bytes, tally.differences.len(), differs);
                tally.differences.push(format!("file {number}, pointer size {pointer_size}: {difference}{small}"));
            }
        }
    }
    tally
}

/// The smallest file found that still differs, in document 01's notation; nothing where enough were told.
pub(super) fn small_file(file: &[u8], told: usize, differs: impl FnMut(&[u8]) -> bool) -> String {
    if told < SHRUNK { format!("\n  {}", text(&records(&shrink(file, differs)))) } else { String::new() }
}

/// A comparison of one file: `whole_answers` or `every_length`.
pub type Compare = fn(&mut dyn Services, &mut Decision, &[u8], &mut Random) -> Result<(), String>;

/// Compares any party's services with the decision's on the first `files` files of the seed; gives the differences, the
/// first few with the smallest file found.
pub fn services_batch(compare: Compare, party: &mut dyn Services, seed: u64, files: u64) -> Vec<String> {
    let mut decision = Decision::default();
    let mut differences = Vec::new();
    for number in 0..files {
        let generated = file(seed, number);
        let mut differs = |file: &[u8]| compare(party, &mut decision, file, &mut Random::new(!seed, number));
        if let Err(difference) = differs(&generated.bytes) {
            let small = small_file(&generated.bytes, differences.len(), |file| differs(file).is_err());
            differences.push(format!("file {number}, {:?}: {difference}{small}", generated.family));
        }
    }
    differences
}
