//! The two runs side by side, and where they part.

use super::run::{Run, Seen};
use super::tree::Function;
use super::trial::{Trial, Which};
use std::fmt::{self, Display};

/// How far two runs went together.
#[derive(Clone, Copy, Debug, Default)]
pub struct Walked {
    pub steps: u64,
    /// How often the block that was entered most was entered.
    pub entered: u32,
}

/// The first step that is not seen to be the same; none where a run had ended.
#[derive(Debug)]
pub struct Parted {
    pub step: u64,
    pub original: Option<Seen>,
    pub rewritten: Option<Seen>,
}

impl Display for Parted {
    fn fmt(&self, out: &mut fmt::Formatter<'_>) -> fmt::Result {
        let shown = |seen: &Option<Seen>| seen.as_ref().map_or("has ended".to_string(), |seen| format!("{seen:?}"));
        write!(out, "step {}: the original {}", self.step, shown(&self.original))?;
        write!(out, ", the rewritten {}", shown(&self.rewritten))
    }
}

/// The first `steps` steps of both runs, compared in full.
pub fn together(original: &Function, rewritten: &Function, trial: Trial, steps: u64) -> Result<Walked, Box<Parted>> {
    trial.setting(Which::Original, |first| {
        trial.setting(Which::Rewritten, |second| {
            compare(Run::original(original, first), Run::rewritten(rewritten, second), original.instructions(), steps)
        })
    })
}

fn compare(mut original: Run, mut rewritten: Run, instructions: usize, steps: u64) -> Result<Walked, Box<Parted>> {
    let mut entries = vec![0; instructions];
    for step in 0..steps {
        let (left, right) = (original.next(), rewritten.next());
        if left != right {
            return Err(Box::new(Parted { step, original: left, rewritten: right }));
        }
        let Some(seen) = left else { return Ok(walked(step, &entries)) };
        // A block is told by its first instruction.
        entries[seen.instruction as usize] += u32::from(seen.arrived.is_some());
    }
    Ok(walked(steps, &entries))
}

fn walked(steps: u64, entries: &[u32]) -> Walked {
    Walked { steps, entered: entries.iter().copied().max().unwrap_or(0) }
}
