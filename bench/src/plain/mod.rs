//! The pass as one would write it in Rust for speed: records decoded once, tables in vectors, live sets as rows of bits.
//!
//! It answers what document 01 says, refusals and all, so that both sides do the same work; nothing of it is proved. The
//! benchmark compares its answers with the library's before it times either.

mod accept;
mod liveness;
mod plan;
mod row;
mod write;

use accept::Function;
use liveness::Live;
use oracle::services::{LivenessAnswer, RewriteAnswer};
use row::WORDS;
use std::hint::black_box;

/// Whether sets are counted where the library counts them: at each visit, and for the count of map entries.
#[derive(Clone, Copy, PartialEq, Eq)]
pub enum Counting {
    Not,
    BitByBit,
}

/// Both live tables, with zeros behind them.
pub fn liveness(file: &[u8], live_in: &mut [u64], live_out: &mut [u64], counting: Counting) -> LivenessAnswer {
    let enough = live_in.len() >= 64 * WORDS && live_out.len() >= 64 * WORDS;
    let found = Function::accept(file).and_then(|function| {
        if enough { Ok((Live::solve(&function, counting), function.blocks.len())) } else { Err(11) }
    });
    match found {
        Err(refusal) => {
            live_in.fill(0);
            live_out.fill(0);
            LivenessAnswer { refusal, ..LivenessAnswer::default() }
        }
        Ok((live, blocks)) => {
            fill(live_in, &live.ins, blocks);
            fill(live_out, &live.outs, blocks);
            LivenessAnswer { refusal: 0, visits: live.visits, pushes: live.pushes }
        }
    }
}

fn fill(table: &mut [u64], rows: &[row::Row], blocks: usize) {
    for (words, row) in table.chunks_exact_mut(WORDS).zip(rows) {
        words.copy_from_slice(&row.0);
    }
    table[blocks * WORDS..].fill(0);
}

/// What is done with the bytes of the output that no record is written to.
#[derive(Clone, Copy, PartialEq, Eq)]
pub enum Rest {
    Cleared,
    Left,
}

/// The rewritten records at the front of the output.
pub fn rewrite(file: &[u8], pointer_size: u32, output: &mut [u8], rest: Rest, counting: Counting) -> RewriteAnswer {
    let answer = rewritten(file, pointer_size, output, counting);
    if rest == Rest::Cleared {
        let written = if answer.refusal == 0 && !answer.unchanged { answer.records as usize * 16 } else { 0 };
        output[written..].fill(0);
    }
    answer
}

fn rewritten(file: &[u8], pointer_size: u32, output: &mut [u8], counting: Counting) -> RewriteAnswer {
    let refused = |refusal| RewriteAnswer { refusal, ..RewriteAnswer::default() };
    if pointer_size != 4 && pointer_size != 8 {
        return refused(1);
    }
    let function = match Function::accept(file) {
        Ok(function) => function,
        Err(refusal) => return refused(refusal),
    };
    let live = Live::solve(&function, counting);
    let lists = live.lists(&function);
    if lists.spilled.iter().any(|value| !matches!(function.sizes[value], 1 | 2 | 4 | 8 | 16)) {
        return refused(9);
    }
    let (visits, pushes) = (live.visits, live.pushes);
    if lists.spilled.is_empty() {
        let records = function.records.len() as u64;
        return RewriteAnswer { records, visits, pushes, unchanged: true, ..RewriteAnswer::default() };
    }
    if counting == Counting::BitByBit {
        let listed = lists.rows.iter().filter(|row| !row.is_empty());
        black_box(lists.spilled.counted() + listed.map(row::Row::counted).sum::<usize>());
    }
    let plan = plan::plan(&function, &live, &lists, pointer_size);
    if output.len() / 16 < plan.records {
        return RewriteAnswer { refusal: 11, records: plan.records as u64, ..RewriteAnswer::default() };
    }
    write::write(file, &function, &lists, &plan, output);
    RewriteAnswer {
        refusal: 0,
        records: plan.records as u64,
        slots: plan.slot_sizes.len() as u64,
        landings: plan.landings as u64,
        visits,
        pushes,
        unchanged: false,
    }
}
