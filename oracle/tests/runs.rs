//! The machine of the two runs on P1, P5 and P6, worked by hand; and that wrong parties and undominated files are seen.

use oracle::decision::Decision;
use oracle::decision::function;
use oracle::generate::dominance::dominated;
use oracle::record::{Record, bytes, kind, parse, records};
use oracle::runs::run::{Asking, Run, Seen, Setting, World};
use oracle::runs::tree::{Function, read};
use oracle::runs::wrong::{P1, P5, P6, UNDOMINATED, WRONG, domination_is_needed, wrong_outputs_are_seen};
use oracle::runs::{batch, rewritten::final_records};
use oracle::services::{ListAnswer, LivenessAnswer, Part, RewriteAnswer, Services};
use oracle::sheets::P1_OUTPUT;

/// Each word tells its step, instruction and place. At the steps given the second edge is taken, otherwise the first.
struct Telling(&'static [u64]);

impl Telling {
    fn word(at: &Asking, place: u64) -> u64 {
        1000 * (at.step + 1) + 10 * u64::from(at.instruction) + place
    }
}

impl World for Telling {
    fn entry(&self, parameter: u64) -> u64 {
        10 + parameter
    }
    fn result(&self, at: &Asking, position: u64) -> u64 {
        Telling::word(at, position)
    }
    fn edge(&self, at: &Asking) -> u64 {
        u64::from(self.0.contains(&at.step))
    }
    fn returned(&self, at: &Asking, index: u32) -> u64 {
        Telling::word(at, 100 + u64::from(index))
    }
    fn exception(&self, at: &Asking, index: u32) -> u64 {
        Telling::word(at, 200 + u64::from(index))
    }
}

const MILLION: u64 = 1_000_000;

/// Every word moves, at each safepoint to another place.
fn mover(safepoint_step: u64, word: u64) -> u64 {
    word + MILLION * (safepoint_step + 1)
}

fn unset(number: u64) -> u64 {
    600 + number
}

fn setting<'a>(world: &'a Telling, first: &'a dyn Fn(u64) -> u64) -> Setting<'a> {
    Setting { world, mover: &mover, first_words: first, first_slots: first }
}

fn tree(records: &[Record]) -> Function {
    read(records).expect("the tests' files can be read")
}

fn original(file: &str, second: &'static [u64]) -> Vec<Seen> {
    Run::original(&tree(&parse(file)), setting(&Telling(second), &unset)).take(100).collect()
}

fn rewritten(records: &[Record], second: &'static [u64]) -> Vec<Seen> {
    Run::rewritten(&tree(records), setting(&Telling(second), &unset)).take(100).collect()
}

/// What the decision leaves of a file.
fn ours(file: &str) -> Vec<Record> {
    final_records(&mut Decision::default(), &bytes(&parse(file)), 8).expect("it is accepted").1
}

/// A step that enters no block, has no arguments and takes no edge.
fn step(instruction: u32, flags: u32, tag: u32) -> Seen {
    Seen { arrived: None, instruction, flags, tag, arguments: Vec::new(), edge: None }
}

fn without(records: &str, kind: u32) -> Vec<Record> {
    parse(records).into_iter().filter(|record| record[0] != kind).collect()
}

#[test]
fn p1_reads_the_moved_word() {
    // v0 is 1000 and moves at the safepoint.
    let wanted = [
        Seen { arrived: Some(vec![]), ..step(0, 0, 7) },
        step(1, 1, 8),
        Seen { arguments: vec![1000 + MILLION], ..step(2, 2, 9) },
    ];
    assert_eq!(original(P1, &[]), wanted);
    assert_eq!(rewritten(&parse(P1_OUTPUT), &[]), wanted);
    assert_eq!(ours(P1), parse(P1_OUTPUT));
}

#[test]
fn p1_spoilt_reads_other_words() {
    let read = |records: &[Record]| rewritten(records, &[])[2].arguments.clone();
    assert_eq!(read(&without(P1_OUTPUT, kind::MAP_ENTRY)), [1000]);
    // What slot 0 held at first moves.
    assert_eq!(read(&without(P1_OUTPUT, kind::STORE)), [600 + MILLION]);
    // The addresses are what v3 and v1 held at first: 603 is stored to, 601 loaded from.
    assert_eq!(read(&without(P1_OUTPUT, kind::SLOT_ADDRESS)), [1201]);
    // A slot that is listed twice moves once.
    let mut twice = parse(P1_OUTPUT);
    twice.insert(11, [kind::MAP_ENTRY, 0, 4, 0]);
    assert_eq!(read(&twice), [1000 + MILLION]);
}

#[test]
fn p1_without_addresses_is_seen_only_by_what_nobody_set() {
    let unaddressed = tree(&without(P1_OUTPUT, kind::SLOT_ADDRESS));
    let seen: Vec<Seen> = Run::rewritten(&unaddressed, setting(&Telling(&[]), &|_| 0)).collect();
    assert_eq!(seen, original(P1, &[]));
}

#[test]
fn p5_keeps_v0_round_its_loop() {
    // Three turns of the loop of block 1, then block 2. v0 is 1000 and moves at steps 3, 7, 11; v1 is set anew in each
    // turn, the last time at step 12, and moves at step 14.
    let turn = |step_before: Seen, v0: u64, edge: usize| {
        let last = Seen { edge: Some(edge), ..step(5, 2, 8) };
        [
            step_before,
            Seen { arrived: Some(vec![]), arguments: vec![v0], ..step(2, 0, 9) },
            step(3, 1, 8),
            step(4, 0, 7),
            last,
        ]
    };
    let seen = original(P5, &[13]);
    assert_eq!(seen.len(), 16);
    assert_eq!(seen[0], Seen { arrived: Some(vec![]), ..step(0, 0, 7) });
    assert_eq!(seen[1..6], turn(Seen { edge: Some(0), ..step(1, 2, 8) }, 1000, 0));
    assert_eq!(seen[5..10], turn(seen[5].clone(), 1000 + MILLION, 0));
    assert_eq!(seen[9..14], turn(seen[9].clone(), 1000 + 3 * MILLION, 1));
    assert_eq!(seen[14], Seen { arrived: Some(vec![]), ..step(6, 1, 8) });
    assert_eq!(seen[15], Seen { arguments: vec![13_040 + 4 * MILLION], ..step(7, 2, 9) });
    assert_eq!(rewritten(&ours(P5), &[13]), seen);
}

#[test]
fn p5_with_one_slot_reads_v1_for_v0() {
    let wrong = rewritten(&WRONG[0].output(), &[13]);
    assert_eq!(wrong[..6], original(P5, &[13])[..6]);
    // v1 was set at step 4 by instruction 4.
    assert_eq!(wrong[6].arguments, [5040]);
}

#[test]
fn p6_passes_the_moved_word_through_its_landing() {
    let before = [Seen { arrived: Some(vec![]), ..step(0, 0, 7) }];
    let along = |edge: usize| Seen { edge: Some(edge), ..step(1, 3, 8) };
    let returned = 2000 + 10 + 100;
    let first = Seen { arrived: Some(vec![returned, 1000 + MILLION]), ..step(2, 2, 9) };
    let second = Seen { arrived: Some(vec![]), ..step(3, 2, 9) };
    assert_eq!(original(P6, &[]), [&before[..], &[along(0), first]].concat());
    assert_eq!(original(P6, &[1]), [&before[..], &[along(1), second]].concat());
    assert_eq!(rewritten(&ours(P6), &[]), original(P6, &[]));
    assert_eq!(rewritten(&ours(P6), &[1]), original(P6, &[1]));
    // Reloaded early, or not listed at all, v0 arrives as it was before the move.
    for wrong in &WRONG[3..] {
        assert_eq!(rewritten(&wrong.output(), &[])[2].arrived, Some(vec![returned, 1000]), "{}", wrong.name);
    }
}

#[test]
fn a_safepoint_sets_its_results_after_the_move() {
    // v0 is entered, a safepoint takes it as its argument and sets v1, which then moves at the second safepoint alone.
    let file = "1 4 1 0; 1 4 1 0; 2 0 0 0; 3 0 0 0; 4 1 0 0; 6 0 0 0; 5 1 0 0; 4 1 0 0; 4 2 0 0; 6 0 0 0; 6 1 0 0";
    let seen = original(file, &[]);
    assert_eq!(seen[0], Seen { arrived: Some(vec![10]), arguments: vec![10], ..step(0, 1, 0) });
    assert_eq!(seen[2].arguments, [10 + 3 * MILLION, 1000 + 2 * MILLION]);
    assert_eq!(rewritten(&ours(file), &[]), seen);
}

#[test]
fn known_wrong_outputs_are_seen() {
    assert_eq!(wrong_outputs_are_seen(&mut Decision::default()).expect("each is seen").len(), 5);
}

#[test]
fn domination_is_told_and_needed() {
    let told = |file: &str| dominated(&function::read(&parse(file)).expect("it is in order"));
    assert_eq!([P1, P5, P6, UNDOMINATED].map(told), [true, true, true, false]);
    // An instruction that uses its own result, and a terminator that passes what was just defined.
    assert!(!told("1 4 1 0; 2 0 0 0; 4 0 0 0; 6 0 0 0; 5 0 0 0; 4 2 0 0"));
    assert!(told("1 4 1 0; 1 4 1 0; 2 0 0 0; 4 0 0 0; 5 0 0 0; 4 2 0 0; 7 1 0 0; 8 0 0 0; 2 0 1 0; 3 1 0 0; 4 2 0 0"));
    domination_is_needed(&mut Decision::default()).expect("the runs differ");
}

#[test]
fn generated_files_run_alike() {
    let tally = batch(&mut Decision::default(), 5, 400);
    assert!(tally.differences.is_empty(), "{}", tally.differences.join("\n"));
    assert_eq!(tally.too_weak(), None);
}

/// The decision with one thing changed in what it leaves.
struct Wrongly(Decision, fn(Vec<Record>) -> Vec<Record>);

impl Services for Wrongly {
    fn liveness(&mut self, file: &[u8], live_in: &mut [u64], live_out: &mut [u64]) -> LivenessAnswer {
        self.0.liveness(file, live_in, live_out)
    }
    fn list(&mut self, file: &[u8], instruction: u32, list: &mut [u32]) -> ListAnswer {
        self.0.list(file, instruction, list)
    }

    fn rewrite(&mut self, file: &[u8], pointer_size: u32, output: &mut [u8]) -> RewriteAnswer {
        let mut answer = self.0.rewrite(file, pointer_size, output);
        if answer.refusal == 0 && !answer.unchanged {
            let wrong = bytes(&self.1(records(&output[..16 * answer.records as usize])));
            output.fill(0);
            output[..wrong.len()].copy_from_slice(&wrong);
            answer.records = wrong.len() as u64 / 16;
        }
        answer
    }
    fn final_records(&mut self, answer: &RewriteAnswer, input: &[u8], output: &[u8]) -> Part {
        self.0.final_records(answer, input, output)
    }
}

#[test]
fn a_party_that_rewrites_wrongly_is_seen_with_a_small_file() {
    let last_entry_left_out = |mut records: Vec<Record>| {
        if let Some(place) = records.iter().rposition(|record| record[0] == kind::MAP_ENTRY) {
            records.remove(place);
        }
        records
    };
    let mut party = Wrongly(Decision::default(), last_entry_left_out);
    let tally = batch(&mut party, 5, 40);
    assert!(tally.differences.len() > 10);
    let small = tally.differences[0].lines().last().expect("it is shown with a file");
    assert!(parse(small).len() <= 10, "{small}");
    assert!(wrong_outputs_are_seen(&mut party).is_err());
}

#[test]
fn records_that_cannot_be_run_are_seen() {
    let fault = |file: &str| read(&parse(file)).err().expect("it cannot be read");
    assert_eq!(fault("2 0 0 0; 4 2 0 0; 6 1 0 0"), "value 1 of 0");
    assert_eq!(fault("1 8 0 0; 2 0 0 0; 12 0 3 0; 4 2 0 0"), "slot 3 of 0");
    assert_eq!(fault("2 0 0 0; 4 2 0 0; 7 1 0 0"), "block 1 of 1");
    assert_eq!(fault("2 0 0 0; 4 2 0 0; 2 0 2 0; 4 2 0 0"), "no block of 2 has number 1");
    assert_eq!(fault("2 0 0 0; 4 2 0 0; 5 0 0 0; 6 0 0 0"), "record 3 is out of order");
}
