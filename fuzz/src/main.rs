//! What the fuzzer calls with each input: a file, which all services are asked about through the C boundary.
//!
//! Every answer and every lent buffer is held against the oracle's decision, with lent lengths around each boundary and garbage in
//! the buffers before the call. A difference ends the run, and the fuzzer keeps the input.

#![no_main]

use oracle::compare::whole_answers;
use oracle::decision::Decision;
use oracle::generate::Random;
use oracle::library::{Library, check};

#[unsafe(no_mangle)]
pub extern "C" fn LLVMFuzzerTestOneInput(input: *const u8, length: usize) -> i32 {
    // SAFETY: the fuzzer hands over its own bytes, which live through the call; of none it may hand over no address.
    let file = if length == 0 { &[] } else { unsafe { std::slice::from_raw_parts(input, length) } };
    let mut decision = Decision::default();
    let refusal = decision.accept(file).as_ref().err().copied().unwrap_or(0);
    assert_eq!(check(file), refusal, "the refusal of the file");
    // The lengths that are lent and the instructions that are asked about follow from the file, so that an input can be tried again.
    let seed = file
        .iter()
        .fold(0xcbf2_9ce4_8422_2325, |sum: u64, &byte| (sum ^ u64::from(byte)).wrapping_mul(0x100_0000_01b3));
    if let Err(difference) = whole_answers(&mut Library, &mut decision, file, &mut Random::new(seed, 0)) {
        panic!("{difference}");
    }
    0
}
