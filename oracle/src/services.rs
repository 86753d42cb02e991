//! The four services as a caller sees them, whoever answers.
//!
//! The plain decision is one implementor. A binding of the library written in Rattle can be another: then
//! [`crate::compare::whole_answers`] and [`crate::fixed::replay`] hold it against the decision.

/// Refusal 0 means accepted, in every answer.
#[derive(Clone, Copy, Debug, Default, PartialEq, Eq)]
pub struct LivenessAnswer {
    pub refusal: u32,
    pub visits: u64,
    pub pushes: u64,
}

#[derive(Clone, Copy, Debug, Default, PartialEq, Eq)]
pub struct ListAnswer {
    pub refusal: u32,
    pub count: u64,
}

#[derive(Clone, Copy, Debug, Default, PartialEq, Eq)]
pub struct RewriteAnswer {
    pub refusal: u32,
    pub records: u64,
    pub slots: u64,
    pub landings: u64,
    pub visits: u64,
    pub pushes: u64,
    pub unchanged: bool,
}

#[derive(Clone, Copy, Debug, PartialEq, Eq)]
pub enum Buffer {
    Input,
    Output,
}

/// The final records as the first `length` bytes of one of the two buffers. An empty part is one of the input.
#[derive(Clone, Copy, Debug, PartialEq, Eq)]
pub struct Part {
    pub of: Buffer,
    pub length: u64,
}

impl Part {
    pub const EMPTY: Part = Part { of: Buffer::Input, length: 0 };

    /// The part itself, cut out of the buffer that it names.
    pub fn bytes<'a>(&self, input: &'a [u8], output: &'a [u8]) -> &'a [u8] {
        let buffer = match self.of {
            Buffer::Input => input,
            Buffer::Output => output,
        };
        &buffer[..usize::try_from(self.length).expect("a part is no longer than its buffer")]
    }
}

/// Each lent buffer may hold anything before a call; the answer fixes all of it afterwards.
pub trait Services {
    fn liveness(&mut self, file: &[u8], live_in: &mut [u64], live_out: &mut [u64]) -> LivenessAnswer;
    fn list(&mut self, file: &[u8], instruction: u32, list: &mut [u32]) -> ListAnswer;
    fn rewrite(&mut self, file: &[u8], pointer_size: u32, output: &mut [u8]) -> RewriteAnswer;
    fn final_records(&mut self, answer: &RewriteAnswer, input: &[u8], output: &[u8]) -> Part;
}
