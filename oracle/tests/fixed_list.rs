//! The fixed list as committed: the same bytes when made again, true when replayed, and its notes mean what they say.

use oracle::compare::against_module;
use oracle::decision::{Decision, program};
use oracle::fixed::{cases, replay, replay_program, write};
use oracle::services::{ListAnswer, LivenessAnswer, Part, RewriteAnswer, Services};
use oracle::source::Module;

const LIST: &str = include_str!("../fixed/answers.txt");

#[test]
fn made_again_it_is_the_same_bytes() {
    assert!(write() == LIST);
    assert!(LIST.len() < 1_500_000);
}

#[test]
fn replayed_it_is_true() {
    let replayed = replay(LIST, &mut Decision::default()).unwrap();
    assert_eq!(replayed.files, cases().len() as u64);
    assert!(replayed.files >= 300);
}

#[test]
fn the_programs_lines_are_true_and_are_looked_at() {
    assert_eq!(replay_program(LIST, |file| Ok(program(file))), Ok(cases().len() as u64));
    let longer = |file: &[u8]| Ok([program(file), vec![0]].concat());
    assert!(replay_program(LIST, longer).is_err());
    let blanks =
        |file: &[u8]| Ok(String::from_utf8_lossy(&program(file)).replace("refused ", "refused  ").into_bytes());
    assert!(replay_program(LIST, blanks).is_err());
    let half = &LIST[..LIST[..LIST.len() / 2].rfind('\n').unwrap()];
    assert!(replay_program(half, |file| Ok(program(file))).is_err());
}

#[test]
fn the_module_agrees_on_every_file() {
    let (mut decision, mut module) = (Decision::default(), Module::default());
    for case in cases() {
        for pointer_size in [4, 8] {
            let met = against_module(&mut decision, &mut module, &case.file, pointer_size);
            assert!(met.is_ok(), "{}: {met:?}", case.note);
        }
    }
}

/// The refusal that a note promises: `n: ..`, `n first, then m`, `accepted: ..`, `undominated: ..`.
fn promised(note: &str) -> Option<u32> {
    if note.starts_with("accepted:") || note.starts_with("undominated:") {
        return Some(0);
    }
    let number = |text: &str| text.split(|letter: char| !letter.is_ascii_digit()).next()?.parse().ok();
    match note.split_once(" first, then ") {
        Some((_, then)) => number(then),
        None => note.split_once(':').and_then(|(before, _)| before.parse().ok()),
    }
}

#[test]
fn notes_mean_what_they_say() {
    let mut decision = Decision::default();
    let mut told = [0; 12];
    for case in cases() {
        let refusal = decision.rewritten(&case.file, 8).0.refusal;
        told[refusal as usize] += 1;
        if let Some(promised) = promised(&case.note) {
            assert_eq!(refusal, promised, "{}", case.note);
        }
    }
    assert!((2..=9).all(|refusal| told[refusal] >= 5), "{told:?}");
}

/// Answers as the decision does, but for one thing.
struct FirstFault(Decision);

impl Services for FirstFault {
    fn liveness(&mut self, file: &[u8], live_in: &mut [u64], live_out: &mut [u64]) -> LivenessAnswer {
        self.0.liveness(file, live_in, live_out)
    }

    fn list(&mut self, file: &[u8], instruction: u32, list: &mut [u32]) -> ListAnswer {
        self.0.list(file, instruction, list)
    }

    fn rewrite(&mut self, file: &[u8], pointer_size: u32, output: &mut [u8]) -> RewriteAnswer {
        let answer = self.0.rewrite(file, pointer_size, output);
        RewriteAnswer { landings: answer.landings.min(1), ..answer }
    }

    fn final_records(&mut self, answer: &RewriteAnswer, input: &[u8], output: &[u8]) -> Part {
        self.0.final_records(answer, input, output)
    }
}

#[test]
fn a_wrong_count_ends_the_replay() {
    let ended = replay(LIST, &mut FirstFault(Decision::default()));
    assert!(ended.is_err_and(|words| words.contains("rewriting")));
}
