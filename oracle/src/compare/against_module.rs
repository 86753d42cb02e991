//! The module's answer against the decision's, on one file.

use crate::decision::process::bound;
use crate::decision::value_set::ValueSet;
use crate::decision::{Accepted, Decision};
use crate::record::{Record, kind, records};
use crate::services::RewriteAnswer;
use crate::source::{Analysis, Module, Outcome, Rewriting};

/// How the two met without a difference.
#[derive(Clone, Copy, Debug, PartialEq, Eq)]
pub enum Met {
    /// Refusals 2 to 7 apply: the module has no such file. Without the module, 8 and 9 too.
    Refused(u32),
    /// Refusal 8 or 9 applies, and the module panicked for that reason. With 9 its liveness was compared.
    Panicked(u32),
    Unchanged,
    Rewritten {
        landings: u64,
        /// Landings whose cold word is 1 in the module and 0 in document 01: the listed difference.
        cold_words: u64,
    },
    /// Accepted, but the module was not there at build time.
    Skipped,
}

/// The words by which the module's panics are told apart.
const CONTEXT_PANIC: &str = "exception-table context";
const SIZE_PANIC: &str = "cannot create a `SlotSize`";

/// What differs, in words, or how the two met.
pub fn against_module(
    decision: &mut Decision,
    module: &mut Module,
    file: &[u8],
    pointer_size: u32,
) -> Result<Met, String> {
    let (answer, output) = decision.rewritten(file, pointer_size);
    let accepted = decision.accept(file);
    if let Err(refusal @ 2..8) = *accepted {
        return Ok(Met::Refused(refusal));
    }
    let input = records(file);
    let outcome = module.run(&input, pointer_size);
    match (accepted, outcome) {
        (_, Outcome::Absent) if answer.refusal != 0 => Ok(Met::Refused(answer.refusal)),
        (_, Outcome::Absent) => Ok(Met::Skipped),
        (Err(8), Outcome::Panicked(words, _)) if words.starts_with(CONTEXT_PANIC) => Ok(Met::Panicked(8)),
        (Err(refusal), outcome) => Err(format!("refusal {refusal}, but the module: {outcome:?}")),
        (Ok(accepted), Outcome::Panicked(words, analysis)) => {
            same_liveness(accepted, &analysis)?;
            let known = answer.refusal == 9 && words.starts_with(SIZE_PANIC);
            if known { Ok(Met::Panicked(9)) } else { Err(format!("{answer:?}, but the module panicked: {words}")) }
        }
        (Ok(accepted), Outcome::Done(analysis, rewriting)) => {
            same_liveness(accepted, &analysis)?;
            same("visits of rewriting", answer.visits, analysis.visited.len() as u64)?;
            same("pushes of rewriting", answer.pushes, analysis.pushes)?;
            same_rewriting(&input, accepted.function.blocks.len(), &answer, &output, rewriting)
        }
    }
}

fn same<T: PartialEq + std::fmt::Debug>(what: &str, decided: T, module: T) -> Result<(), String> {
    if decided == module { Ok(()) } else { Err(format!("{what}: decided {decided:?}, module {module:?}")) }
}

fn same_liveness(accepted: &Accepted, analysis: &Analysis) -> Result<(), String> {
    let liveness = &accepted.liveness;
    let order = &liveness.walk.order;
    let by_index = |sets: &[ValueSet]| -> Vec<Vec<u32>> {
        order.iter().map(|&block| sets[block as usize].iter().collect()).collect()
    };
    same("post-order", order, &analysis.post_order)?;
    same("live-in", by_index(&liveness.sets.live_in), analysis.live_in.clone())?;
    same("live-out", by_index(&liveness.sets.live_out), analysis.live_out.clone())?;
    same("visits", &liveness.visited, &analysis.visited)?;
    same("pushes", liveness.pushes, analysis.pushes)?;
    let lists = liveness.lists.iter().enumerate();
    let lists = lists.filter_map(|(number, list)| Some((number as u32, list.clone()?))).collect();
    same("lists", lists, analysis.lists.clone())?;
    let bound = bound(&accepted.function, &liveness.walk);
    if liveness.visits().max(liveness.pushes) > bound {
        return Err(format!("{} visits, {} pushes: above {bound}", liveness.visits(), liveness.pushes));
    }
    Ok(())
}

fn same_rewriting(
    input: &[Record],
    blocks: usize,
    answer: &RewriteAnswer,
    output: &[Record],
    mut module: Rewriting,
) -> Result<Met, String> {
    same("refusal", 0, answer.refusal)?;
    same("slots", answer.slots, module.slots)?;
    same("landings", answer.landings, module.landings)?;
    let cold_words = clear_landings(&mut module.records, blocks)?;
    let expected = if answer.unchanged { input } else { output };
    same("records", answer.records, module.records.len() as u64)?;
    if let Some(at) = (0..expected.len()).find(|&at| expected[at] != module.records[at]) {
        return Err(format!("record {at}: decided {:?}, module {:?}", expected[at], module.records[at]));
    }
    Ok(if answer.unchanged { Met::Unchanged } else { Met::Rewritten { landings: answer.landings, cold_words } })
}

/// Puts document 01's 0 into the cold word of each landing, having seen that the module's word was its target's.
fn clear_landings(output: &mut [Record], blocks: usize) -> Result<u64, String> {
    let mut cold = vec![0; blocks];
    let own = output.iter().filter(|record| record[0] == kind::BLOCK && (record[2] as usize) < blocks);
    own.for_each(|record| cold[record[2] as usize] = record[1]);
    let mut differing = 0;
    for at in 0..output.len() {
        if output[at][0] != kind::BLOCK || (output[at][2] as usize) < blocks {
            continue;
        }
        let jump = output[at..].iter().position(|record| record[0] == kind::JUMP).ok_or("a landing without a jump")?;
        let target = output[at + jump + 1][1];
        same("cold word of a landing and of its target", cold[target as usize], output[at][1])?;
        differing += u64::from(output[at][1]);
        output[at][1] = 0;
    }
    Ok(differing)
}
