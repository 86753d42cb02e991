//! Any party's four services against the decision's, on one file: answers and every lent buffer to its end.

use crate::decision::Decision;
use crate::decision::service::TABLE_WORDS;
use crate::generate::Random;
use crate::record::RECORD_BYTES;
use crate::services::{RewriteAnswer, Services};
use std::fmt::Debug;

/// What differs, in words. Lent lengths lie around each boundary, buffers hold garbage before the call, and a few places
/// behind each must stay as they are.
pub fn whole_answers(
    subject: &mut dyn Services,
    decision: &mut Decision,
    file: &[u8],
    random: &mut Random,
) -> Result<(), String> {
    live_answers(subject, decision, file, random)?;
    let other = random.pick(&[0, 1, 16, 64, u32::MAX]);
    for pointer_size in [8, 4, other] {
        rewrite(subject, decision, file, pointer_size, random)?;
    }
    invented_answer(subject, decision, random)
}

/// The same with every pair of table lengths and more lists and invented answers: some seventy calls a file.
pub fn every_length(
    subject: &mut dyn Services,
    decision: &mut Decision,
    file: &[u8],
    random: &mut Random,
) -> Result<(), String> {
    let tables = around(TABLE_WORDS, random);
    for live_in in tables {
        for live_out in tables {
            liveness(subject, decision, file, live_in, live_out)?;
        }
    }
    let instructions = (file.len() / RECORD_BYTES) as u32;
    let any = [0, 1, 2, random.below(8), random.below(instructions + 1), u32::MAX];
    for instruction in any {
        list(subject, decision, file, instruction, random)?;
    }
    let other = random.pick(&[0, 1, 2, 5, 16, 64, u32::MAX]);
    for pointer_size in [8, 4, other] {
        rewrite(subject, decision, file, pointer_size, random)?;
    }
    (0..8).try_for_each(|_| invented_answer(subject, decision, random))
}

/// The two services of liveness.
fn live_answers(
    subject: &mut dyn Services,
    decision: &mut Decision,
    file: &[u8],
    random: &mut Random,
) -> Result<(), String> {
    let lengths = [TABLE_WORDS, TABLE_WORDS, TABLE_WORDS + 9, TABLE_WORDS - 1, 0];
    liveness(subject, decision, file, TABLE_WORDS, TABLE_WORDS)?;
    liveness(subject, decision, file, random.pick(&lengths), random.pick(&lengths))?;
    let instructions = file.len() / RECORD_BYTES + 1;
    let any = [random.below(instructions as u32), random.below(8), random.below(3), u32::MAX];
    for instruction in any {
        list(subject, decision, file, instruction, random)?;
    }
    Ok(())
}

/// The lengths around a boundary: none, one short, exact, longer.
fn around(exact: usize, random: &mut Random) -> [usize; 4] {
    [0, exact.saturating_sub(1), exact, exact + random.within(1, 70) as usize]
}

fn same<T: PartialEq + Debug>(what: &str, decided: T, subject: T) -> Result<(), String> {
    if decided == subject { Ok(()) } else { Err(format!("{what}: decided {decided:?}, subject {subject:?}")) }
}

/// A buffer full of garbage, and a few places behind the lent part that must stay as they are.
struct Lent<T> {
    places: Vec<T>,
    length: usize,
    garbage: T,
}

impl<T: Copy + PartialEq + Debug> Lent<T> {
    fn new(length: usize, garbage: T) -> Lent<T> {
        Lent { places: vec![garbage; length + 16], length, garbage }
    }

    fn part(&mut self) -> &mut [T] {
        &mut self.places[..self.length]
    }

    /// The lent part must hold what was decided, and nothing may be written behind it.
    fn must_hold(&self, what: &str, decided: &[T]) -> Result<(), String> {
        same_buffer(what, decided, &self.places[..self.length])?;
        let behind = &self.places[self.length..];
        if behind.iter().all(|place| *place == self.garbage) { Ok(()) } else { Err(format!("{what}: written behind")) }
    }
}

/// Says where two buffers differ, since a whole one is too long to print.
fn same_buffer<T: PartialEq + Debug>(what: &str, decided: &[T], subject: &[T]) -> Result<(), String> {
    match (0..decided.len()).find(|&at| decided[at] != subject[at]) {
        None => Ok(()),
        Some(at) => Err(format!("{what} at {at}: decided {:?}, subject {:?}", decided[at], subject[at])),
    }
}

fn liveness(
    subject: &mut dyn Services,
    decision: &mut Decision,
    file: &[u8],
    live_in: usize,
    live_out: usize,
) -> Result<(), String> {
    let mut decided = (vec![u64::MAX; live_in], vec![u64::MAX; live_out]);
    let (mut asked_in, mut asked_out) = (Lent::new(live_in, 0xA5A5_A5A5), Lent::new(live_out, 0x5A5A_5A5A));
    let what = format!("liveness, {live_in} and {live_out} words lent");
    let answer = decision.liveness(file, &mut decided.0, &mut decided.1);
    same(&what, answer, subject.liveness(file, asked_in.part(), asked_out.part()))?;
    asked_in.must_hold(&format!("{what}, live-in"), &decided.0)?;
    asked_out.must_hold(&format!("{what}, live-out"), &decided.1)
}

fn list(
    subject: &mut dyn Services,
    decision: &mut Decision,
    file: &[u8],
    instruction: u32,
    random: &mut Random,
) -> Result<(), String> {
    let exact = decision.list(file, instruction, &mut []).count as usize;
    for lent in around(exact, random) {
        let (mut decided, mut asked) = (vec![u32::MAX; lent], Lent::new(lent, 0xA5A5));
        let what = format!("list of {instruction}, {lent} words lent");
        let answer = decision.list(file, instruction, &mut decided);
        same(&what, answer, subject.list(file, instruction, asked.part()))?;
        asked.must_hold(&what, &decided)?;
    }
    Ok(())
}

fn rewrite(
    subject: &mut dyn Services,
    decision: &mut Decision,
    file: &[u8],
    pointer_size: u32,
    random: &mut Random,
) -> Result<(), String> {
    let exact = decision.rewrite(file, pointer_size, &mut []).records as usize * RECORD_BYTES;
    for lent in around(exact, random) {
        let (mut decided, mut asked) = (vec![0xFF; lent], Lent::new(lent, 0xA5));
        let what = format!("rewriting with pointer size {pointer_size}, {lent} bytes lent");
        let answer = decision.rewrite(file, pointer_size, &mut decided);
        same(&what, answer, subject.rewrite(file, pointer_size, asked.part()))?;
        asked.must_hold(&what, &decided)?;
        let part = decision.final_records(&answer, file, &decided);
        same(&format!("final records after {what}"), part, subject.final_records(&answer, file, asked.part()))?;
    }
    Ok(())
}

/// The final records of an answer that no call gave.
fn invented_answer(subject: &mut dyn Services, decision: &mut Decision, random: &mut Random) -> Result<(), String> {
    let lengths = [0, 15, 16, 17, 31, 32, 48];
    let (input, output) = (vec![1; random.pick(&lengths)], vec![2; random.pick(&lengths)]);
    let answer = RewriteAnswer {
        refusal: random.pick(&[0, 0, 0, 4, 11]),
        records: random.pick(&[
            0,
            1,
            1,
            2,
            2,
            3,
            1 << 28,
            u64::from(u32::MAX),
            1 << 60,
            (1 << 60) + 1,
            (1 << 60) + 2,
            u64::MAX,
        ]),
        unchanged: random.chance(50),
        ..RewriteAnswer::default()
    };
    let decided = decision.final_records(&answer, &input, &output);
    let what = format!("final records of {answer:?}, {} and {} bytes", input.len(), output.len());
    same(&what, decided, subject.final_records(&answer, &input, &output))
}
