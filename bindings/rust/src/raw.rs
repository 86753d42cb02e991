//! The static library's functions and answers as they are in C: `include/threshskiff.h` has the promise of each. A slice is
//! passed as its address and its length in elements.
//!
//! A caller owes what a Rust slice keeps by itself: an address is neither null nor misaligned, also where the length is 0;
//! the memory behind it is set, lives through the call, and is written by nobody else meanwhile; what is lent to be written
//! overlaps no other buffer of the call. Whatever the bytes and numbers are, each function is proved to end inside its buffers.

/// What liveness answers. Refusal 0 is none, in every answer.
#[repr(C)]
#[derive(Clone, Copy, Debug, Default, PartialEq, Eq)]
pub struct Liveness {
    pub refusal: u32,
    pub visits: u32,
    pub pushes: u32,
}

/// What the list of one safepoint answers.
#[repr(C)]
#[derive(Clone, Copy, Debug, Default, PartialEq, Eq)]
pub struct List {
    pub refusal: u32,
    pub count: u32,
}

/// What rewriting answers; `unchanged` is 1 or 0.
#[repr(C)]
#[derive(Clone, Copy, Debug, Default, PartialEq, Eq)]
pub struct Rewriting {
    pub refusal: u32,
    pub records: u32,
    pub slots: u32,
    pub landings: u32,
    pub visits: u32,
    pub pushes: u32,
    pub unchanged: u32,
}

/// Where the final records are: so many bytes from `offset` of the output, where `of_output` is 1, or of the input, where it
/// is 0.
#[repr(C)]
#[derive(Clone, Copy, Debug, Default, PartialEq, Eq)]
pub struct Final {
    pub of_output: u32,
    pub offset: usize,
    pub length: usize,
}

unsafe extern "C" {
    pub fn threshskiff_check(file: *const u8, file_length: usize) -> u32;

    pub fn threshskiff_liveness(
        file: *const u8,
        file_length: usize,
        live_in: *mut u64,
        live_in_words: usize,
        live_out: *mut u64,
        live_out_words: usize,
    ) -> Liveness;

    pub fn threshskiff_list(
        file: *const u8,
        file_length: usize,
        instruction: u32,
        numbers: *mut u32,
        numbers_length: usize,
    ) -> List;

    pub fn threshskiff_rewrite(
        file: *const u8,
        file_length: usize,
        pointer_size: u32,
        output: *mut u8,
        output_length: usize,
    ) -> Rewriting;

    pub fn threshskiff_final(
        answer: Rewriting,
        input: *const u8,
        input_length: usize,
        output: *const u8,
        output_length: usize,
    ) -> Final;
}
