//! What a party's rewriting leaves of a file, and whether it runs as the file does.

use super::together::{Walked, together};
use super::tree::{Function, read};
use super::trial::{Manner, Trial, hash};
use crate::decision::service::PROGRAM_OUTPUT;
use crate::record::{RECORD_BYTES, Record, records};
use crate::services::{RewriteAnswer, Services};

/// Rewriting's answer and the final records, of a file that is not refused.
pub fn final_records(
    party: &mut dyn Services,
    file: &[u8],
    pointer_size: u32,
) -> Result<(RewriteAnswer, Vec<Record>), String> {
    let mut output = vec![0xA5; PROGRAM_OUTPUT];
    let mut answer = party.rewrite(file, pointer_size, &mut output);
    if answer.refusal == 11 {
        let length = usize::try_from(answer.records).map_err(|_| format!("{answer:?}"))? * RECORD_BYTES;
        output = vec![0xA5; length];
        answer = party.rewrite(file, pointer_size, &mut output);
    }
    if answer.refusal != 0 {
        return Err(format!("refused {}", answer.refusal));
    }
    let part = party.final_records(&answer, file, &output);
    Ok((answer, records(part.bytes(file, &output))))
}

/// The manners of a file's trials. Those that see the most come twice.
const MANNERS: [Manner; 6] =
    [Manner::Plain, Manner::Lingering, Manner::SomeStay, Manner::FewWords, Manner::Plain, Manner::Lingering];

/// The trials of a file, with seeds that are this file's own.
pub fn trials(seed: u64, number: u64) -> impl Iterator<Item = Trial> {
    let trial = move |(place, manner)| Trial { seed: hash(seed, [number, place as u64]), manner };
    MANNERS.into_iter().enumerate().map(trial)
}

/// Enough steps to pass through the file's loops several times; a run of a file without loops ends before.
pub fn enough_steps(original: &Function) -> u64 {
    100 + 6 * original.instructions() as u64
}

/// Runs a file beside final records in each trial: how far each pair of runs went, or the first difference in words.
pub fn runs_alike(
    original: &Function,
    final_records: &[Record],
    trials: impl Iterator<Item = Trial>,
) -> Result<Vec<Walked>, String> {
    let rewritten = read(final_records).map_err(|fault| format!("the final records cannot be run: {fault}"))?;
    let steps = enough_steps(original);
    let run = |trial| together(original, &rewritten, trial, steps).map_err(|parted| format!("{trial:?}, {parted}"));
    trials.map(run).collect()
}
