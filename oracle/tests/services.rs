//! The decision's services to the last word of each buffer, the program, and parties that answer wrongly.

use oracle::compare::{services_batch, whole_answers};
use oracle::decision::{Decision, program};
use oracle::generate::{Random, limits};
use oracle::record::{bytes, parse};
use oracle::services::{Buffer, ListAnswer, LivenessAnswer, Part, RewriteAnswer, Services};
use oracle::sheets::SHEETS;

fn p1() -> Vec<u8> {
    bytes(&parse(SHEETS[0].file))
}

#[test]
fn liveness_fills_both_tables() {
    let file = bytes(&parse("1 4 1 0; 2 0 0 0; 3 0 0 0; 4 2 0 0; 7 1 0 0; 2 0 1 0; 4 2 0 0; 6 0 0 0"));
    let (mut live_in, mut live_out) = (vec![7; 520], vec![7; 512]);
    let answer = Decision::default().liveness(&file, &mut live_in, &mut live_out);
    assert_eq!(answer, LivenessAnswer { refusal: 0, visits: 2, pushes: 3 });
    assert!(live_in.iter().enumerate().all(|(at, &word)| word == u64::from(at == 8)));
    assert!(live_out.iter().enumerate().all(|(at, &word)| word == u64::from(at == 0)));
}

#[test]
fn one_short_table_zeroes_both() {
    for (long, short) in [(512, 511), (511, 512), (600, 0)] {
        let (mut live_in, mut live_out) = (vec![7; long], vec![7; short]);
        let answer = Decision::default().liveness(&p1(), &mut live_in, &mut live_out);
        assert_eq!(answer, LivenessAnswer { refusal: 11, visits: 0, pushes: 0 });
        assert!(live_in.iter().chain(&live_out).all(|&word| word == 0));
    }
}

#[test]
fn a_list_tells_the_length_it_needs() {
    let mut decision = Decision::default();
    assert_eq!(decision.list(&p1(), 1, &mut []), ListAnswer { refusal: 11, count: 1 });
    let mut list = [7; 3];
    assert_eq!(decision.list(&p1(), 1, &mut list), ListAnswer { refusal: 0, count: 1 });
    assert_eq!(list, [0; 3]);
    for instruction in [0, 2, 3, u32::MAX] {
        assert_eq!(decision.list(&p1(), instruction, &mut list), ListAnswer { refusal: 10, count: 0 });
    }
}

#[test]
fn rewriting_refuses_in_order() {
    let mut decision = Decision::default();
    let mut refusal = |file: &[u8], pointer_size, lent: usize| {
        let mut output = vec![9; lent];
        let answer = decision.rewrite(file, pointer_size, &mut output);
        assert!(answer.refusal == 0 || output.iter().all(|&byte| byte == 0));
        answer
    };
    assert_eq!(refusal(&[1], 5, 0), RewriteAnswer { refusal: 1, ..RewriteAnswer::default() });
    assert_eq!(refusal(&[1], 4, 0), RewriteAnswer { refusal: 2, ..RewriteAnswer::default() });
    assert_eq!(refusal(&p1(), 8, 255), RewriteAnswer { refusal: 11, records: 16, ..RewriteAnswer::default() });
    assert_eq!(refusal(&p1(), 8, 256).refusal, 0);
}

#[test]
fn the_program_keeps_its_bounds() {
    assert_eq!(program(&[]), b"refused 4\n");
    assert_eq!(program(&[0; 32_769]), b"refused 3\n");
    assert_eq!(program(&[0; 32_767]), b"refused 2\n");
    assert_eq!(program(&[0; 32_768]), b"refused 4\n");
    assert_eq!(program(&p1()).len(), 256);
    let unchanged = bytes(&parse("2 0 0 0; 4 2 0 0"));
    assert_eq!(program(&unchanged), unchanged);
    for number in 0..20 {
        let output_of = |count| bytes(&limits::output_of(count, &mut Random::new(2, number)));
        assert_eq!(program(&output_of(4096)).len(), 65_536);
        assert_eq!(program(&output_of(4097)), b"refused 11\n");
    }
}

#[test]
fn final_records_never_wrap() {
    let mut decision = Decision::default();
    let mut part = |records, unchanged| {
        let answer = RewriteAnswer { records, unchanged, ..RewriteAnswer::default() };
        decision.final_records(&answer, &[1; 32], &[2; 16])
    };
    assert_eq!(part(2, true), Part { of: Buffer::Input, length: 32 });
    assert_eq!(part(1, false), Part { of: Buffer::Output, length: 16 });
    assert_eq!(part(2, false), Part::EMPTY);
    assert_eq!(part((1 << 60) + 1, true), Part::EMPTY);
    assert_eq!(part(1, false).bytes(&[1; 32], &[2; 16]), [2; 16]);
}

/// A decision spoilt in one place.
struct Impostor {
    decision: Decision,
    fault: Fault,
}

#[derive(Clone, Copy, PartialEq, Debug)]
enum Fault {
    None,
    RefuseEverything,
    AlwaysUnchanged,
    WriteNothing,
    InventVisits,
    LeaveTheRest,
    ListNothing,
    WrapFinalRecords,
}

impl Services for Impostor {
    fn liveness(&mut self, file: &[u8], live_in: &mut [u64], live_out: &mut [u64]) -> LivenessAnswer {
        let mut answer = self.decision.liveness(file, live_in, live_out);
        if self.fault == Fault::InventVisits && answer.refusal == 0 {
            answer.visits = answer.pushes;
        }
        answer
    }

    fn list(&mut self, file: &[u8], instruction: u32, list: &mut [u32]) -> ListAnswer {
        let answer = self.decision.list(file, instruction, list);
        if self.fault == Fault::ListNothing {
            list.fill(0);
        }
        answer
    }

    fn rewrite(&mut self, file: &[u8], pointer_size: u32, output: &mut [u8]) -> RewriteAnswer {
        let rest = output.to_vec();
        let mut answer = self.decision.rewrite(file, pointer_size, output);
        match self.fault {
            Fault::RefuseEverything => answer = RewriteAnswer { refusal: 4, ..RewriteAnswer::default() },
            Fault::AlwaysUnchanged => answer.unchanged = answer.refusal == 0,
            Fault::WriteNothing => output.fill(0),
            Fault::LeaveTheRest => {
                let written = output.len().min(answer.records as usize * 16);
                output[written..].copy_from_slice(&rest[written..]);
            }
            _ => {}
        }
        answer
    }

    fn final_records(&mut self, answer: &RewriteAnswer, input: &[u8], output: &[u8]) -> Part {
        let mut answer = *answer;
        if self.fault == Fault::WrapFinalRecords {
            answer.records %= 1 << 60;
        }
        self.decision.final_records(&answer, input, output)
    }
}

#[test]
fn impostors_are_found() {
    let found = |fault, files| {
        services_batch(whole_answers, &mut Impostor { decision: Decision::default(), fault }, 4, files).len()
    };
    assert_eq!(found(Fault::None, 1500), 0);
    for fault in [
        Fault::RefuseEverything,
        Fault::AlwaysUnchanged,
        Fault::WriteNothing,
        Fault::InventVisits,
        Fault::LeaveTheRest,
        Fault::ListNothing,
        Fault::WrapFinalRecords,
    ] {
        assert!(found(fault, 150) > 0, "{fault:?}");
    }
}
