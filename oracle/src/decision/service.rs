//! The four services and the program: refusals 1, 9, 10 and 11, and every lent buffer to its end.

use super::refusal::{Accepted, accept};
use super::rewriting::{rewrite, spills_a_size_without_slots};
use super::value_set::{ROW_WORDS, ValueSet};
use super::write::write;
use crate::record::{RECORD_BYTES, Record, bytes, largest};
use crate::services::{Buffer, ListAnswer, LivenessAnswer, Part, RewriteAnswer, Services};

/// What a live table needs.
pub const TABLE_WORDS: usize = largest::BLOCKS * ROW_WORDS;

/// The program's bounds, in bytes.
pub const PROGRAM_INPUT: usize = 32_768;
pub const PROGRAM_OUTPUT: usize = 65_536;

/// Document 01's answers. It remembers the last file, since callers ask one file several things.
#[derive(Default)]
pub struct Decision {
    last: Option<(Vec<u8>, Result<Accepted, u32>)>,
}

impl Decision {
    pub fn accept(&mut self, file: &[u8]) -> &Result<Accepted, u32> {
        if self.last.as_ref().is_none_or(|(last, _)| last != file) {
            self.last = Some((file.to_vec(), accept(file)));
        }
        &self.last.as_ref().expect("it was set above").1
    }

    /// Rewriting's answer for an output that is long enough, and its records; none where it is refused or unchanged.
    pub fn rewritten(&mut self, file: &[u8], pointer_size: u32) -> (RewriteAnswer, Vec<Record>) {
        let refused = |refusal| (RewriteAnswer { refusal, ..RewriteAnswer::default() }, Vec::new());
        if pointer_size != 4 && pointer_size != 8 {
            return refused(1);
        }
        let accepted = match self.accept(file) {
            Ok(accepted) => accepted,
            Err(refusal) => return refused(*refusal),
        };
        if spills_a_size_without_slots(accepted) {
            return refused(9);
        }
        let liveness = &accepted.liveness;
        let (visits, pushes) = (liveness.visits(), liveness.pushes);
        if liveness.spilled.is_empty() {
            let records = accepted.records as u64;
            let answer = RewriteAnswer { records, visits, pushes, unchanged: true, ..RewriteAnswer::default() };
            return (answer, Vec::new());
        }
        let rewritten = rewrite(accepted, pointer_size);
        let output = write(&accepted.function, &rewritten);
        let answer = RewriteAnswer {
            refusal: 0,
            records: output.len() as u64,
            slots: rewritten.slots.len() as u64,
            landings: rewritten.landings,
            visits,
            pushes,
            unchanged: false,
        };
        (answer, output)
    }
}

/// Writes the front of a lent buffer and 0 behind it.
fn fill<T: Copy + Default>(buffer: &mut [T], front: &[T]) {
    buffer.fill(T::default());
    buffer[..front.len()].copy_from_slice(front);
}

fn table(rows: &[ValueSet]) -> Vec<u64> {
    rows.iter().flat_map(|set| *set.row()).collect()
}

impl Services for Decision {
    fn liveness(&mut self, file: &[u8], live_in: &mut [u64], live_out: &mut [u64]) -> LivenessAnswer {
        fill(live_in, &[]);
        fill(live_out, &[]);
        let accepted = match self.accept(file) {
            Ok(accepted) => accepted,
            Err(refusal) => return LivenessAnswer { refusal: *refusal, ..LivenessAnswer::default() },
        };
        if live_in.len() < TABLE_WORDS || live_out.len() < TABLE_WORDS {
            return LivenessAnswer { refusal: 11, ..LivenessAnswer::default() };
        }
        let liveness = &accepted.liveness;
        fill(live_in, &table(&liveness.sets.live_in));
        fill(live_out, &table(&liveness.sets.live_out));
        LivenessAnswer { refusal: 0, visits: liveness.visits(), pushes: liveness.pushes }
    }

    fn list(&mut self, file: &[u8], instruction: u32, list: &mut [u32]) -> ListAnswer {
        fill(list, &[]);
        let accepted = match self.accept(file) {
            Ok(accepted) => accepted,
            Err(refusal) => return ListAnswer { refusal: *refusal, count: 0 },
        };
        let Some(Some(values)) = accepted.liveness.lists.get(instruction as usize) else {
            return ListAnswer { refusal: 10, count: 0 };
        };
        let count = values.len() as u64;
        if list.len() < values.len() {
            return ListAnswer { refusal: 11, count };
        }
        fill(list, values);
        ListAnswer { refusal: 0, count }
    }

    fn rewrite(&mut self, file: &[u8], pointer_size: u32, output: &mut [u8]) -> RewriteAnswer {
        fill(output, &[]);
        let (answer, records) = self.rewritten(file, pointer_size);
        if output.len() < records.len() * RECORD_BYTES {
            return RewriteAnswer { refusal: 11, records: answer.records, ..RewriteAnswer::default() };
        }
        fill(output, &bytes(&records));
        answer
    }

    fn final_records(&mut self, answer: &RewriteAnswer, input: &[u8], output: &[u8]) -> Part {
        let (of, buffer) = if answer.unchanged { (Buffer::Input, input) } else { (Buffer::Output, output) };
        match answer.records.checked_mul(RECORD_BYTES as u64) {
            Some(length) if answer.refusal == 0 && 0 < length && length <= buffer.len() as u64 => Part { of, length },
            _ => Part::EMPTY,
        }
    }
}

/// What the program writes when it has read `input`.
pub fn program(input: &[u8]) -> Vec<u8> {
    if input.len() > PROGRAM_INPUT {
        return b"refused 3\n".to_vec();
    }
    let mut decision = Decision::default();
    let mut output = vec![0; PROGRAM_OUTPUT];
    let answer = decision.rewrite(input, 8, &mut output);
    if answer.refusal != 0 {
        return format!("refused {}\n", answer.refusal).into_bytes();
    }
    decision.final_records(&answer, input, &output).bytes(input, &output).to_vec()
}
