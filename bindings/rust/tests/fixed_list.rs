//! The fixed list, replayed through the bindings by the oracle's reader of it.

use oracle::fixed::{replay, replay_refusals};
use oracle::library::{Library, check};

const LIST: &str = include_str!("../../../oracle/fixed/answers.txt");

#[test]
fn every_answer_and_buffer_is_the_listed_one() {
    let replayed = replay(LIST, &mut Library).unwrap();
    let asked = [replayed.files, replayed.liveness, replayed.lists, replayed.rewritings, replayed.final_records];
    assert!(asked.iter().all(|&count| count > 300), "{replayed:?}");
}

#[test]
fn every_refusal_is_the_listed_one() {
    let (refused, let_pass) = replay_refusals(LIST, check).unwrap();
    assert!(refused > 300 && let_pass > 300, "{refused} refused, {let_pass} not");
}
