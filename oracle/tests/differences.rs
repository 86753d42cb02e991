//! Each input of docs/DIFFERENCES.md does what that page says, and stands there.

use oracle::compare::{Met, against_module};
use oracle::decision::{Decision, accept};
use oracle::record::{Record, bytes, kind, parse};
use oracle::source::{self, Module, Outcome};

const PAGE: &str = include_str!("../../docs/DIFFERENCES.md");

/// The records of an input that the page shows on a line of its own.
fn shown(text: &str) -> Vec<Record> {
    assert!(PAGE.lines().any(|line| line.trim() == text), "the page does not show {text}");
    parse(text)
}

/// How the two meet on the file; without the module there is nothing to see.
fn met(file: &[Record]) -> Option<Met> {
    let met = against_module(&mut Decision::default(), &mut Module::default(), &bytes(file), 8).unwrap();
    source::PRESENT.then_some(met)
}

fn output(file: &[Record]) -> Vec<Record> {
    Decision::default().rewritten(&bytes(file), 8).1
}

#[test]
fn the_cold_word_of_a_landing() {
    for text in [
        "1 4 1 0; 2 0 0 0; 4 3 0 0; 7 1 0 0; 8 0 0 0; 2 1 1 0; 3 0 0 0; 4 2 0 0",
        "1 4 1 0; 1 4 0 0; 2 0 0 0; 3 0 0 0; 4 3 0 0; 7 1 0 0; 8 0 0 0; 2 1 1 0; 3 1 0 0; 4 2 0 0",
    ] {
        let file = shown(text);
        assert!(output(&file).contains(&[kind::BLOCK, 0, 2, 0]));
        assert!(met(&file).is_none_or(|met| met == Met::Rewritten { landings: 1, cold_words: 1 }));
        if let Outcome::Done(_, rewriting) = Module::default().run(&file, 8) {
            assert!(rewriting.records.contains(&[kind::BLOCK, 1, 2, 0]));
        }
    }
}

#[test]
fn panics_that_are_refusals() {
    let context = shown("1 4 1 0; 2 0 0 0; 3 0 0 0; 4 3 0 0; 9 0 0 0");
    assert_eq!(accept(&bytes(&context)).err(), Some(8));
    assert!(met(&context).is_none_or(|met| met == Met::Panicked(8)));
    let size = shown("1 3 1 0; 2 0 0 0; 3 0 0 0; 4 1 0 0; 4 2 0 0; 6 0 0 0");
    assert_eq!(Decision::default().rewritten(&bytes(&size), 8).0.refusal, 9);
    assert!(met(&size).is_none_or(|met| met == Met::Panicked(9)));
}

#[test]
fn limits() {
    assert!(PAGE.contains("2 0 n 0; 4 2 0 0"));
    let file: Vec<Record> = (0..65).flat_map(|block| parse(&format!("2 0 {block} 0; 4 2 0 0"))).collect();
    assert_eq!(accept(&bytes(&file)).err(), Some(3));
    assert!(accept(&bytes(&file[..128])).is_ok());
    if let Outcome::Done(_, rewriting) = Module::default().run(&file, 8) {
        assert_eq!(rewriting.records, file);
    }
}

#[test]
fn sizes_and_pointer_sizes() {
    let file = shown("1 3 0 0; 2 0 0 0; 3 0 0 0; 4 2 0 0");
    assert!(met(&file).is_none_or(|met| met == Met::Unchanged));
    let file = shown("2 0 0 0; 4 2 0 0");
    assert_eq!(Decision::default().rewritten(&bytes(&file), 2).0.refusal, 1);
    if let Outcome::Done(_, rewriting) = Module::default().run(&file, 2) {
        assert_eq!(rewriting.records, file);
    }
}

#[test]
fn undominated_uses() {
    let twice =
        shown("1 4 1 0; 1 4 1 0; 2 0 0 0; 3 0 0 0; 4 1 0 0; 4 0 0 0; 6 1 0 0; 6 0 0 0; 5 1 0 0; 4 2 0 0; 6 1 0 0");
    assert!(output(&twice).windows(2).any(|pair| pair == [[kind::MAP_ENTRY, 0, 4, 0]; 2]));
    let no_store = shown("1 4 1 0; 2 0 0 0; 4 1 0 0; 4 0 0 0; 6 0 0 0; 5 0 0 0; 4 2 0 0");
    let made = output(&no_store);
    assert!(!made.is_empty() && made.iter().all(|record| record[0] != kind::STORE));
    for file in [twice, no_store] {
        assert!(met(&file).is_none_or(|met| met == Met::Rewritten { landings: 0, cold_words: 0 }));
    }
}

#[test]
fn a_store_and_a_load() {
    let made = output(&shown("1 4 1 0; 2 0 0 0; 3 0 0 0; 4 1 0 0; 4 2 0 0; 6 0 0 0"));
    assert!([kind::STORE, kind::LOAD].iter().all(|&kind| made.iter().any(|record| record[0] == kind)));
}

/// The live-in and live-out of each block, as the decision has them; the module is seen to agree.
fn live(file: &[Record]) -> Vec<(Vec<u32>, Vec<u32>)> {
    assert!(source::PRESENT == met(file).is_some());
    let sets = accept(&bytes(file)).unwrap().liveness.sets;
    sets.live_in.iter().zip(&sets.live_out).map(|(ins, outs)| (ins.iter().collect(), outs.iter().collect())).collect()
}

#[test]
fn the_displayed_equations() {
    let one = shown("1 4 1 0; 2 0 0 0; 4 0 0 0; 6 0 0 0; 5 0 0 0; 4 2 0 0");
    assert_eq!(live(&one), [(vec![0], vec![])]);
    let two = shown("1 4 1 0; 2 0 0 0; 3 0 0 0; 4 2 0 0; 7 1 0 0; 2 0 1 0; 4 2 0 0; 6 0 0 0");
    assert_eq!(live(&two), [(vec![], vec![0]), (vec![0], vec![])]);
}

#[test]
fn a_loop_free_graph_in_more_than_one_pass() {
    let file = shown(
        "1 4 1 0; 2 0 0 0; 3 0 0 0; 4 2 0 0; 7 1 0 0; 7 2 0 0; 2 0 1 0; 4 2 0 0; 6 0 0 0; 2 0 2 0; 4 2 0 0; 6 0 0 0",
    );
    assert_eq!(accept(&bytes(&file)).unwrap().liveness.visited, [1, 0, 2, 0]);
    assert!(met(&file).is_none_or(|met| met == Met::Unchanged));
}
