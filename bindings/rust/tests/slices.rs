//! The safe functions on the rules' first sheet: empty slices, exact and short ones, and the final records as a slice.

use oracle::generate::{Family, Random, file_of};
use std::thread;
use threshskiff::{
    Buffer, FinalPart, RECORD_BYTES, Refusal, RewritingAnswer, TABLE_WORDS, check, final_part, final_records, list,
    liveness, rewrite,
};

/// A function that defines v0, makes a call that may collect, and returns v0.
const RELOAD: &[u8] = include_bytes!("../../../samples/reload.bin");

#[test]
fn the_answers_of_a_file_that_is_rewritten() {
    assert_eq!(check(RELOAD), None);
    let (mut live_in, mut live_out) = ([u64::MAX; TABLE_WORDS], [u64::MAX; TABLE_WORDS]);
    let answer = liveness(RELOAD, &mut live_in, &mut live_out);
    assert_eq!((answer.refusal, answer.visits, answer.pushes), (None, 1, 1));
    assert!(live_in.iter().chain(&live_out).all(|&word| word == 0));
    let mut numbers = [7; 3];
    let answer = list(RELOAD, 1, &mut numbers);
    assert_eq!((answer.refusal, answer.count, numbers), (None, 1, [0; 3]));
    let mut output = [255; 17 * RECORD_BYTES];
    let answer = rewrite(RELOAD, 8, &mut output);
    assert_eq!((answer.refusal, answer.records, answer.slots, answer.unchanged), (None, 16, 1, false));
    assert_eq!(final_records(&answer, RELOAD, &output), &output[..16 * RECORD_BYTES]);
    assert!(output[16 * RECORD_BYTES..].iter().all(|&byte| byte == 0));
}

#[test]
fn empty_slices_are_lent() {
    assert_eq!(check(&[]), Some(Refusal::Malformed));
    assert_eq!(liveness(RELOAD, &mut [], &mut []).refusal, Some(Refusal::TooShort));
    let answer = list(RELOAD, 1, &mut []);
    assert_eq!((answer.refusal, answer.count), (Some(Refusal::TooShort), 1));
    let answer = rewrite(RELOAD, 8, &mut []);
    assert_eq!((answer.refusal, answer.records), (Some(Refusal::TooShort), 16));
    assert_eq!(final_records(&answer, RELOAD, &[]), &[]);
    assert_eq!(rewrite(&[], 8, &mut []).refusal, Some(Refusal::Malformed));
    assert_eq!(list(&[], 0, &mut []).refusal, Some(Refusal::Malformed));
}

#[test]
fn an_unchanged_answer_is_a_part_of_the_input() {
    // one block whose only instruction is a terminator
    let file: Vec<u8> = [2, 0, 0, 0, 4, 2, 0, 0].iter().flat_map(|word: &u32| word.to_le_bytes()).collect();
    let answer = rewrite(&file, 4, &mut []);
    assert_eq!((answer.refusal, answer.records, answer.unchanged), (None, 2, true));
    assert_eq!(final_part(&answer, &file, &[]), FinalPart { of: Buffer::Input, offset: 0, length: file.len() });
    assert_eq!(final_records(&answer, &file, &[]), file);
}

#[test]
fn every_refusal_has_its_number() {
    assert_eq!(rewrite(RELOAD, 5, &mut []).refusal, Some(Refusal::PointerSize));
    assert_eq!(check(&RELOAD[1..]), Some(Refusal::Length));
    assert_eq!(list(RELOAD, 9, &mut []).refusal, Some(Refusal::NoSafepoint));
    assert_eq!([Refusal::PointerSize, Refusal::Unsound, Refusal::TooShort].map(Refusal::number), [1, 7, 11]);
}

#[test]
fn the_final_records_of_an_answer_that_no_call_gave() {
    let mut answer = RewritingAnswer {
        refusal: None,
        records: u32::MAX,
        slots: 0,
        landings: 0,
        visits: 0,
        pushes: 0,
        unchanged: false,
    };
    assert_eq!(final_records(&answer, RELOAD, RELOAD), &[]);
    answer.records = 2;
    assert_eq!(final_records(&answer, &[], RELOAD), &RELOAD[..32]);
    answer.refusal = Some(Refusal::TooShort);
    assert_eq!(final_part(&answer, RELOAD, RELOAD).length, 0);
}

/// The header promises that so much is enough.
const STACK_BYTES: usize = 256 * 1024;

#[test]
fn calls_need_little_stack() {
    let files = [Family::Limit, Family::Huge, Family::Wide].map(|family| {
        let mut random = Random::new(1, family as u64);
        (0..40).map(|_| file_of(family, &mut random)).max_by_key(Vec::len).unwrap()
    });
    let ask = move || {
        let (mut live_in, mut live_out) = (vec![0; TABLE_WORDS], vec![0; TABLE_WORDS]);
        for file in &files {
            assert_eq!(liveness(file, &mut live_in, &mut live_out).refusal, check(file));
            list(file, 0, &mut []);
            let needed = rewrite(file, 8, &mut []).records as usize * RECORD_BYTES;
            rewrite(file, 8, &mut vec![0; needed]);
        }
    };
    thread::Builder::new().stack_size(STACK_BYTES).spawn(ask).unwrap().join().unwrap();
}
