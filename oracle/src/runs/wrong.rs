//! Wrong outputs that are known, and a file with an undominated use: their runs must be seen to differ.
//!
//! The files and outputs are those of `crates/simulation/specs/Sharpness.antt`. An original and its outputs have the same
//! tags, so that nothing but words can differ.

use super::rewritten::{enough_steps, final_records};
use super::run::Run;
use super::together::{Parted, together};
use super::tree::{Function, read};
use super::trial::{Manner, Trial, Which};
use crate::decision::function;
use crate::generate::dominance::dominated;
use crate::record::{Record, bytes, kind, parse};
use crate::services::Services;
use crate::sheets::{P1_OUTPUT, SHEETS};

/// How many seeds are tried, in each manner, for a world and a mover that show a difference.
const SEEDS: u64 = 64;

pub const P1: &str = SHEETS[0].file;

pub const P5: &str = "1 4 1 0; 1 4 1 0; 2 0 0 0; 4 0 7 0; 5 0 0 0; 4 2 8 0; 7 1 0 0; 2 0 1 0; 4 0 9 0; 6 0 0 0; \
    4 1 8 0; 4 0 7 0; 5 1 0 0; 4 2 8 0; 7 1 0 0; 7 2 0 0; 2 0 2 0; 4 1 8 0; 4 2 9 0; 6 1 0 0";

const P5_ONE_SLOT: &str = "1 4 1 0; 1 4 1 0; 1 8 0 0; 1 4 0 0; 1 8 0 0; 1 8 0 0; 1 4 0 0; 1 8 0 0; 10 4 2 0; \
    2 0 0 0; 4 0 7 0; 5 0 0 0; 12 7 0 0; 13 0 7 0; 4 2 8 0; 7 1 0 0; 2 0 1 0; 12 5 0 0; 14 6 5 4; 4 0 9 0; 6 6 0 0; \
    4 1 8 0; 11 0 4 0; 4 0 7 0; 5 1 0 0; 12 4 0 0; 13 1 4 0; 4 2 8 0; 7 1 0 0; 7 2 0 0; 2 0 2 0; 4 1 8 0; 11 0 4 0; \
    12 2 0 0; 14 3 2 4; 4 2 9 0; 6 3 0 0";

pub const P6: &str = "1 4 1 0; 1 4 0 0; 1 4 1 0; 2 0 0 0; 4 0 7 0; 5 0 0 0; 4 3 8 0; 7 1 0 0; 8 1 0 0; 8 0 0 0; \
    7 2 0 0; 2 0 1 0; 3 1 0 0; 3 2 0 0; 4 2 9 0; 2 0 2 0; 4 2 9 0";

const P6_EARLY: &str = "1 4 1 0; 1 4 0 0; 1 4 1 0; 1 8 0 0; 1 4 0 0; 1 8 0 0; 10 4 2 0; 2 0 0 0; 4 0 7 0; 5 0 0 0; \
    12 5 0 0; 13 0 5 0; 12 3 0 0; 14 4 3 4; 4 3 8 0; 7 1 0 0; 8 1 0 0; 8 0 4 0; 7 2 0 0; 11 0 4 0; 2 0 1 0; 3 1 0 0; \
    3 2 0 0; 4 2 9 0; 2 0 2 0; 4 2 9 0";

/// Block 1 passes v1, which only block 2 behind it defines.
pub const UNDOMINATED: &str = "1 4 1 0; 1 4 1 0; 1 4 1 0; 2 0 0 0; 4 2 0 0; 7 1 0 0; 2 0 1 0; 4 0 0 0; 5 0 0 0; \
    4 1 0 0; 4 0 0 0; 6 0 0 0; 4 2 0 0; 7 2 0 0; 7 3 0 0; 8 0 1 0; 2 0 2 0; 4 0 0 0; 5 1 0 0; 4 2 0 0; 7 1 0 0; \
    2 0 3 0; 3 2 0 0; 4 2 0 0; 6 2 0 0";

/// The instructions of that file along blocks 0, 1, 2, 1, 3. On this path it reads only defined words.
const UNDOMINATED_PATH: [u32; 12] = [0, 1, 2, 3, 4, 5, 6, 1, 2, 3, 4, 7];

pub struct Wrong {
    pub name: &'static str,
    pub original: &'static str,
    output: &'static str,
    /// The kind of record that is left out of the output, where one is.
    without: Option<u32>,
}

impl Wrong {
    pub fn output(&self) -> Vec<Record> {
        parse(self.output).into_iter().filter(|record| Some(record[0]) != self.without).collect()
    }
}

pub const WRONG: [Wrong; 5] = [
    Wrong { name: "P5 with v1 in v0's slot", original: P5, output: P5_ONE_SLOT, without: None },
    Wrong {
        name: "P1 with the entry left out of the map",
        original: P1,
        output: P1_OUTPUT,
        without: Some(kind::MAP_ENTRY),
    },
    Wrong { name: "P1 with its store left out", original: P1, output: P1_OUTPUT, without: Some(kind::STORE) },
    Wrong { name: "P6 with the edge argument reloaded early", original: P6, output: P6_EARLY, without: None },
    // The list is then empty, and the file comes back unchanged.
    Wrong { name: "P6 with the list recorded before edge arguments", original: P6, output: P6, without: None },
];

/// The trials of the search.
fn trials() -> impl Iterator<Item = Trial> {
    (0..SEEDS).flat_map(|seed| Manner::ALL.into_iter().map(move |manner| Trial { seed, manner }))
}

/// Each wrong output must be seen to differ in some trial of the search, and what the party leaves of the same file in
/// none. Gives a line for each, which says how many trials saw it and where the first one did.
pub fn wrong_outputs_are_seen(party: &mut dyn Services) -> Result<Vec<String>, String> {
    WRONG.iter().map(|wrong| seen(party, wrong)).collect()
}

fn seen(party: &mut dyn Services, wrong: &Wrong) -> Result<String, String> {
    let original = read(&parse(wrong.original))?;
    let right = read(&final_records(party, &bytes(&parse(wrong.original)), 8)?.1)?;
    let output = read(&wrong.output())?;
    let steps = enough_steps(&original);
    let differs = |output, trial| together(&original, output, trial, steps).err();
    if let Some(parted) = trials().find_map(|trial| differs(&right, trial)) {
        return Err(format!("what the party leaves of the original differs: {parted}\n  {}", wrong.original));
    }
    told(wrong.name, trials().map(|trial| differs(&output, trial)).collect())
}

/// Says in how many trials the runs parted, where there is one.
fn told(name: &str, parted: Vec<Option<Box<Parted>>>) -> Result<String, String> {
    let trials = parted.len();
    let seen: Vec<_> = parted.into_iter().flatten().collect();
    let first = seen.first().ok_or_else(|| format!("{name}: none of {trials} trials saw a difference"))?;
    Ok(format!("{name}: seen in {} of {trials} trials, first at step {}", seen.len(), first.step))
}

/// The undominated file must be told undominated, and its runs along [`UNDOMINATED_PATH`] must differ in some trial,
/// though what the original's words hold at first is not seen on it.
pub fn domination_is_needed(party: &mut dyn Services) -> Result<String, String> {
    let records = parse(UNDOMINATED);
    if function::read(&records).is_none_or(|function| dominated(&function)) {
        return Err("the undominated file is told dominated".to_string());
    }
    let original = read(&records)?;
    let rewritten = read(&final_records(party, &bytes(&records), 8)?.1)?;
    let parted = along_path(&original, &rewritten)?;
    told("the undominated file along blocks 0, 1, 2, 1, 3", parted)
}

/// Where the runs part in each trial that goes along the path.
fn along_path(original: &Function, rewritten: &Function) -> Result<Vec<Option<Box<Parted>>>, String> {
    let steps = UNDOMINATED_PATH.len();
    let mut parted = Vec::new();
    for trial in trials() {
        let run =
            |which| trial.setting(which, |setting| Run::original(original, setting).take(steps).collect::<Vec<_>>());
        let (seen, with_other_first_words) = (run(Which::Original), run(Which::Rewritten));
        if !seen.iter().map(|seen| seen.instruction).eq(UNDOMINATED_PATH) {
            continue;
        }
        if seen != with_other_first_words {
            return Err(format!("{trial:?} reads a word that nobody set"));
        }
        parted.push(together(original, rewritten, trial, steps as u64).err());
    }
    Ok(parted)
}
