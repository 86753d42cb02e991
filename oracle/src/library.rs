//! The library written in Rattle, through its Rust bindings. Only with the feature `library`.

use crate::generate::Random;
use crate::services::{Buffer, ListAnswer, LivenessAnswer, Part, RewriteAnswer, Services};
use threshskiff::{Refusal, RewritingAnswer, raw};

/// The number of the lowest refusal of 2 to 8 that applies to a file, 0 where none does.
pub fn check(file: &[u8]) -> u32 {
    number(threshskiff::check(file))
}

fn number(refusal: Option<Refusal>) -> u32 {
    refusal.map_or(0, Refusal::number)
}

/// The services as the library gives them.
pub struct Library;

impl Services for Library {
    fn liveness(&mut self, file: &[u8], live_in: &mut [u64], live_out: &mut [u64]) -> LivenessAnswer {
        let answer = threshskiff::liveness(file, live_in, live_out);
        LivenessAnswer { refusal: number(answer.refusal), visits: answer.visits.into(), pushes: answer.pushes.into() }
    }

    fn list(&mut self, file: &[u8], instruction: u32, list: &mut [u32]) -> ListAnswer {
        let answer = threshskiff::list(file, instruction, list);
        ListAnswer { refusal: number(answer.refusal), count: answer.count.into() }
    }

    fn rewrite(&mut self, file: &[u8], pointer_size: u32, output: &mut [u8]) -> RewriteAnswer {
        let answer = threshskiff::rewrite(file, pointer_size, output);
        RewriteAnswer {
            refusal: number(answer.refusal),
            records: answer.records.into(),
            slots: answer.slots.into(),
            landings: answer.landings.into(),
            visits: answer.visits.into(),
            pushes: answer.pushes.into(),
            unchanged: answer.unchanged,
        }
    }

    fn final_records(&mut self, answer: &RewriteAnswer, input: &[u8], output: &[u8]) -> Part {
        let answer = RewritingAnswer {
            refusal: Refusal::numbered(answer.refusal),
            records: narrow(answer.records),
            slots: narrow(answer.slots),
            landings: narrow(answer.landings),
            visits: narrow(answer.visits),
            pushes: narrow(answer.pushes),
            unchanged: answer.unchanged,
        };
        let part = threshskiff::final_part(&answer, input, output);
        assert_eq!(part.offset, 0, "the final records stand at the front of their buffer");
        let of = match part.of {
            threshskiff::Buffer::Input => Buffer::Input,
            threshskiff::Buffer::Output => Buffer::Output,
        };
        if part.length == 0 { Part::EMPTY } else { Part { of, length: part.length as u64 } }
    }
}

/// An answer of the library counts in 32 bits; a count of records beyond them is longer than any buffer here, as the largest
/// of them is.
fn narrow(count: u64) -> u32 {
    u32::try_from(count).unwrap_or(u32::MAX)
}

/// The final part of numbers that no answer has, asked `times` times: any refusal but 0 refuses, and any `unchanged` but 0 chooses
/// the input.
pub fn any_numbers(seed: u64, times: u64) -> Result<(), String> {
    for number in 0..times {
        let random = &mut Random::new(seed, number);
        let lengths = [0, 1, 15, 16, 17, 32, 48];
        let (input, output) = (vec![1; random.pick(&lengths)], vec![2; random.pick(&lengths)]);
        let (refusal, unchanged) = (random.pick(&[0, 0, 0, 12, 256, 1 << 31]), random.pick(&[0, 1, 2, 256, u32::MAX]));
        let records = random.pick(&[0, 1, 1, 2, 3, 1 << 28, u32::MAX]);
        let answer = raw::Rewriting { refusal, records, unchanged, slots: 5, landings: 6, visits: 7, pushes: 8 };
        // SAFETY: the addresses and lengths are those of slices, which are read for the call alone.
        let said =
            unsafe { raw::threshskiff_final(answer, input.as_ptr(), input.len(), output.as_ptr(), output.len()) };
        let chosen = if unchanged == 0 { output.len() } else { input.len() };
        let whole = records as usize * threshskiff::RECORD_BYTES;
        let length = if refusal == 0 && whole <= chosen { whole } else { 0 };
        let decided = raw::Final { of_output: (unchanged == 0).into(), offset: 0, length };
        if said != decided {
            return Err(format!("final part of {answer:?}: decided {decided:?}, said {said:?}"));
        }
    }
    Ok(())
}
