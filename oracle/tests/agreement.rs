//! The module and the decision agree on generated files, and the files are of every sort.

use oracle::compare::{Met, against_module, batch};
use oracle::decision::{Decision, accept};
use oracle::generate::{Family, Random, dominance::dominated, file, file_of, limits};
use oracle::record::{bytes, parse, records};
use oracle::sheets::{SHEETS, decided, from_module};
use oracle::source::{self, Module};
use std::collections::BTreeSet;

#[test]
fn no_difference_on_generated_files() {
    let tally = batch(3, 6000);
    assert!(tally.differences.is_empty(), "{}", tally.differences.join("\n"));
    assert!(tally.accepted() > 2500);
}

#[test]
fn sheets_hold_for_both() {
    for sheet in &SHEETS {
        let file = parse(sheet.file);
        assert!((sheet.holds)(&decided(&file)), "{} decided", sheet.name);
        assert!(from_module(&file).is_none_or(|facts| (sheet.holds)(&facts)), "{} by the module", sheet.name);
    }
}

#[test]
fn every_refusal_of_a_file_is_generated() {
    let mut met = BTreeSet::new();
    let mut decision = Decision::default();
    for number in 0..6000 {
        met.insert(decision.rewritten(&file(3, number).bytes, 8).0.refusal);
    }
    assert_eq!(met, BTreeSet::from([0, 2, 3, 4, 5, 6, 7, 8, 9]));
}

#[test]
fn a_file_can_be_made_again_by_itself() {
    for number in [0, 17, 4321] {
        assert_eq!(file(9, number).bytes, file(9, number).bytes);
    }
    assert_ne!(file(9, 1).bytes, file(10, 1).bytes);
}

/// How many of some files of the family are accepted, and how many of those are dominated.
fn accepted_and_dominated(family: Family) -> (usize, usize) {
    let files = (0..600).map(|number| file_of(family, &mut Random::new(5, number)));
    let accepted: Vec<_> = files.filter_map(|file| accept(&file).ok()).collect();
    (accepted.len(), accepted.iter().filter(|accepted| dominated(&accepted.function)).count())
}

#[test]
fn the_dominated_family_is_dominated_and_the_other_mostly_not() {
    let (accepted, kept) = accepted_and_dominated(Family::Dominated);
    assert!(accepted > 500 && kept == accepted, "{kept} of {accepted}");
    let (accepted, kept) = accepted_and_dominated(Family::Undominated);
    assert!(accepted > 500 && kept < accepted / 3, "{kept} of {accepted}");
}

#[test]
fn files_at_a_largest_count_are_accepted_and_one_above_are_not() {
    type Maker = fn(usize, &mut Random) -> Vec<oracle::record::Record>;
    let makers: [(usize, Maker); 5] = [
        (512, limits::values),
        (64, limits::blocks),
        (1024, limits::instructions),
        (256, limits::edges),
        (2048, limits::total),
    ];
    for (largest, maker) in makers {
        for number in 0..20 {
            let random = &mut Random::new(11, number);
            assert!(accept(&bytes(&maker(largest, random))).is_ok(), "{largest}");
            assert_eq!(accept(&bytes(&maker(largest + 1, random))).err(), Some(3), "{largest}");
        }
    }
}

#[test]
fn the_largest_output_is_compared() {
    let file = bytes(&limits::largest_output());
    let mut decision = Decision::default();
    assert_eq!(decision.rewritten(&file, 8).0.records, 353_619);
    let met = against_module(&mut decision, &mut Module::default(), &file, 8);
    let expected = if source::PRESENT { Met::Rewritten { landings: 0, cold_words: 0 } } else { Met::Skipped };
    assert_eq!(met, Ok(expected));
}

#[test]
fn the_module_can_be_timed() {
    let p1 = parse(SHEETS[0].file);
    assert_eq!(Module::default().time(&p1, 8).is_some(), source::PRESENT);
    assert_eq!(records(&bytes(&p1)), p1);
}
