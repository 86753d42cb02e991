//! Many dominated files, each run beside what a party's rewriting leaves of it, and beside spoilt copies of that.

use super::rewritten::{final_records, runs_alike, trials};
use super::spoil::Spoil;
use super::tree::{Function, read};
use crate::compare::shrink;
use crate::decision::rewriting::spills_a_size_without_slots;
use crate::decision::{Accepted, accept};
use crate::generate::dominance::dominated;
use crate::generate::{Random, file};
use crate::record::{Record, kind, records, text};
use crate::services::{RewriteAnswer, Services};
use std::collections::BTreeMap;
use std::fmt::{self, Display};

/// How many of the first differences are shown with the smallest file that was found for them.
const SHRUNK: usize = 5;

/// A loop counts as passed several times when one block was entered so often in a run.
const SEVERAL: u32 = 4;

#[derive(Default)]
pub struct Tally {
    pub tried: u64,
    pub refused: u64,
    pub undominated: u64,
    pub files: u64,
    unchanged: u64,
    landings: u64,
    shared_slots: u64,
    loops: u64,
    runs: u64,
    steps: u64,
    round_loops: u64,
    /// How many files were spoilt so, and how many of them were seen to differ.
    spoilt: BTreeMap<Spoil, (u64, u64)>,
    /// The first few with the smallest file found, in document 01's notation.
    pub differences: Vec<String>,
}

impl Tally {
    fn count_file(&mut self, accepted: &Accepted, answer: &RewriteAnswer, output: &[Record]) {
        let count = |kind: u32| output.iter().filter(|record| record[0] == kind).count();
        self.unchanged += u64::from(answer.unchanged);
        self.landings += u64::from(answer.landings > 0);
        // A value that has a slot is stored where it is defined, once.
        self.shared_slots += u64::from(count(kind::STORE) > count(kind::SLOT));
        self.loops += u64::from(has_loop(accepted));
    }

    /// A manner of spoiling that was seen in fewer than half of the files that were spoilt so, or tried in none. Some
    /// are never seen: what is spoilt may stand where no run comes, or two slots may hold one word.
    pub fn too_weak(&self) -> Option<Spoil> {
        let weak = |&(made, seen): &(u64, u64)| made == 0 || 2 * seen < made;
        Spoil::ALL.into_iter().find(|spoil| self.spoilt.get(spoil).is_none_or(weak))
    }
}

impl Display for Tally {
    fn fmt(&self, out: &mut fmt::Formatter<'_>) -> fmt::Result {
        writeln!(
            out,
            "{} files tried: {} refused, {} undominated, {} run",
            self.tried, self.refused, self.undominated, self.files
        )?;
        writeln!(
            out,
            "of these {} unchanged, {} rewritten; {} with landings, {} with shared slots, {} with loops",
            self.unchanged,
            self.files - self.unchanged,
            self.landings,
            self.shared_slots,
            self.loops
        )?;
        writeln!(
            out,
            "{} pairs of runs, {} steps compared; {} pairs entered one block {SEVERAL} times or more",
            self.runs, self.steps, self.round_loops
        )?;
        for (spoil, (made, seen)) in &self.spoilt {
            writeln!(out, "{:20} {made:>8} files spoilt, {seen:>8} seen to differ", format!("{spoil:?}"))?;
        }
        Ok(())
    }
}

/// Whether an edge between reachable blocks leads back: to a block whose edges were not done yet.
fn has_loop(accepted: &Accepted) -> bool {
    let walk = &accepted.liveness.walk;
    let index = |block: u32| walk.index[block as usize];
    let back = |from: u32| accepted.function.blocks[from as usize].edges().any(|edge| index(edge.block) >= index(from));
    walk.order.iter().any(|&block| back(block))
}

/// Runs the first `files` files of the seed that are accepted and dominated beside what the party leaves of them.
pub fn batch(party: &mut dyn Services, seed: u64, files: u64) -> Tally {
    let mut tally = Tally::default();
    while tally.files < files {
        let number = tally.tried;
        tally.tried += 1;
        let generated = file(seed, number).bytes;
        match accept(&generated) {
            Err(_) => tally.refused += 1,
            Ok(accepted) if spills_a_size_without_slots(&accepted) => tally.refused += 1,
            Ok(accepted) if !dominated(&accepted.function) => tally.undominated += 1,
            Ok(accepted) => {
                tally.files += 1;
                let mut one = One { party, seed, number };
                if let Err(difference) = one.file(&generated, &accepted, &mut tally) {
                    let small = one.small_file(&generated, tally.differences.len());
                    tally.differences.push(format!("file {number}: {difference}\n  {small}"));
                }
            }
        }
    }
    tally
}

/// One file of the batch.
struct One<'a> {
    party: &'a mut dyn Services,
    seed: u64,
    number: u64,
}

impl One<'_> {
    /// Both pointer sizes, and spoilt copies of the first one's output.
    fn file(&mut self, file: &[u8], accepted: &Accepted, tally: &mut Tally) -> Result<(), String> {
        let original = read(&records(file))?;
        for pointer_size in [8, 4] {
            let told = |fault| format!("pointer size {pointer_size}: {fault}");
            let (answer, output) = final_records(self.party, file, pointer_size).map_err(told)?;
            let walked = runs_alike(&original, &output, trials(self.seed, self.number)).map_err(told)?;
            tally.runs += walked.len() as u64;
            tally.steps += walked.iter().map(|walked| walked.steps).sum::<u64>();
            tally.round_loops += walked.iter().filter(|walked| walked.entered >= SEVERAL).count() as u64;
            if pointer_size == 8 {
                tally.count_file(accepted, &answer, &output);
                self.spoilt(&original, &output, tally);
            }
        }
        Ok(())
    }

    fn spoilt(&self, original: &Function, output: &[Record], tally: &mut Tally) {
        let mut random = Random::new(!self.seed, self.number);
        for spoil in Spoil::ALL {
            if let Some(spoilt) = spoil.apply(output, &mut random) {
                let seen = runs_alike(original, &spoilt, trials(self.seed, self.number)).is_err();
                let (made, caught) = tally.spoilt.entry(spoil).or_default();
                *made += 1;
                *caught += u64::from(seen);
            }
        }
    }

    /// The smallest file found that still differs, in document 01's notation; the file itself where enough were told.
    fn small_file(&mut self, file: &[u8], told: usize) -> String {
        let differs = |file: &[u8]| {
            let fits = |accepted: &Accepted| !spills_a_size_without_slots(accepted) && dominated(&accepted.function);
            let accepted = accept(file).ok().filter(fits);
            accepted.is_some_and(|accepted| self.file(file, &accepted, &mut Tally::default()).is_err())
        };
        let small = if told < SHRUNK { shrink(file, differs) } else { file.to_vec() };
        text(&records(&small))
    }
}
