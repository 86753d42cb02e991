//! The fixed list: some hundreds of small files with their whole answers, as text that a small program can replay.

mod head;
mod many;
mod refused;
mod replay;
mod rules;
mod write;

pub use replay::{Replayed, replay, replay_program, replay_refusals};
pub use write::write;

use crate::generate::{Family, Random, file_of};
use crate::record::{RECORD_BYTES, bytes, parse};
use crate::sheets::SHEETS;

/// A file of the list and a word on why it is there.
pub struct Case {
    pub note: String,
    pub file: Vec<u8>,
}

/// The seed of the generated part.
pub const SEED: u64 = 20;

/// How many files of each family, and the most records that one of them has.
const GENERATED: [(Family, u64); 3] = [(Family::Dominated, 90), (Family::Undominated, 50), (Family::Damaged, 80)];
const MOST_RECORDS: usize = 44;

/// Every case, in the order of the list.
pub fn cases() -> Vec<Case> {
    let mut cases = Vec::new();
    for sheet in &SHEETS {
        cases.push(case(&format!("{}: {}", sheet.name, sheet.says), sheet.file));
    }
    for (note, file) in rules::RULES.iter().chain(rules::UNDOMINATED) {
        cases.push(case(note, file));
    }
    for (note, file) in refused::ORDER.iter().chain(refused::WORDS).chain(refused::REFUSED).chain(refused::BOTH) {
        cases.push(case(note, file));
    }
    cases.extend(many::cut());
    cases.extend(many::at_largest_counts());
    for (family, count) in GENERATED {
        cases.extend(generated(family, count));
    }
    cases
}

fn case(note: &str, file: &str) -> Case {
    Case { note: note.to_string(), file: bytes(&parse(file)) }
}

/// The first files of the family that are small enough.
fn generated(family: Family, count: u64) -> impl Iterator<Item = Case> {
    let made = (0..).map(move |number| {
        let file = file_of(family, &mut Random::new(SEED, number));
        Case { note: format!("{family:?}, made from number {number}"), file }
    });
    made.filter(|case| case.file.len() <= MOST_RECORDS * RECORD_BYTES).take(count as usize)
}
