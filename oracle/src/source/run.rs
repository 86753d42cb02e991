//! Runs the module on one file and gathers what it made and what its tables held.

use super::answer::{Analysis, Outcome, Rewriting};
use super::encode::encode;
use super::frontend::Spiller;
use super::ir::Value;
use super::load::load;
use super::witness::{self, HashSet, Seen};
use crate::record::Record;
use std::any::Any;
use std::cell::Cell;
use std::panic::{AssertUnwindSafe, catch_unwind, set_hook, take_hook};
use std::sync::Once;
use std::time::{Duration, Instant};

/// One spiller, used for many files as its own documentation allows.
#[derive(Default)]
pub struct Module {
    spiller: Spiller,
}

impl Module {
    /// The records must be those of a file to which refusals 2 to 7 do not apply.
    pub fn run(&mut self, records: &[Record], pointer_size: u32) -> Outcome {
        let mut func = load(records);
        witness::take();
        let ran = quietly(|| self.spiller.run(&mut func, pointer_size));
        self.spiller.clear();
        let analysis = analysis(witness::take());
        match ran {
            Ok(()) => {
                let landings = (func.dfg.num_blocks() - func.own_blocks) as u64;
                let slots = func.stack_slots.len() as u64;
                Outcome::Done(analysis, Rewriting { records: encode(&func), slots, landings })
            }
            Err(words) => Outcome::Panicked(words, analysis),
        }
    }

    /// The time of the module's own run alone: reading the records and writing them are not counted.
    pub fn time(&mut self, records: &[Record], pointer_size: u32) -> Option<Duration> {
        let mut func = load(records);
        let start = Instant::now();
        self.spiller.run(&mut func, pointer_size);
        Some(start.elapsed())
    }
}

fn analysis(seen: Seen) -> Analysis {
    let post_order: Vec<u32> = seen.post_order.iter().map(|block| block.0).collect();
    let mut tables = seen.live_tables.into_iter().rev();
    // Cleared last, after live-in.
    let live_out = tables.next().unwrap_or_default();
    let live_in = tables.next().unwrap_or_default();
    let lists = seen.lists.into_iter().map(|(inst, list)| (inst.0, numbers(&list))).collect();
    Analysis {
        live_in: live_in.iter().map(ascending).collect(),
        live_out: live_out.iter().map(ascending).collect(),
        lists,
        visited: seen.visited.iter().map(|&index| post_order[index as usize]).collect(),
        pushes: seen.pushes,
        post_order,
    }
}

fn numbers(values: &[Value]) -> Vec<u32> {
    values.iter().map(|value| value.0).collect()
}

fn ascending(set: &HashSet<Value>) -> Vec<u32> {
    let mut values: Vec<u32> = set.iter().map(|value| value.0).collect();
    values.sort_unstable();
    values
}

thread_local! {
    static QUIET: Cell<bool> = const { Cell::new(false) };
}

/// Runs what may panic, and gives the panic's words without printing them.
fn quietly(run: impl FnOnce()) -> Result<(), String> {
    static HOOK: Once = Once::new();
    HOOK.call_once(|| {
        let usual = take_hook();
        set_hook(Box::new(move |panic| {
            if !QUIET.get() {
                usual(panic);
            }
        }));
    });
    QUIET.set(true);
    let ran = catch_unwind(AssertUnwindSafe(run));
    QUIET.set(false);
    ran.map_err(|payload| words(&*payload))
}

fn words(payload: &(dyn Any + Send)) -> String {
    let text = payload.downcast_ref::<String>().cloned();
    text.or_else(|| payload.downcast_ref::<&str>().map(|text| text.to_string())).unwrap_or_default()
}
