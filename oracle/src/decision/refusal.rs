//! "Why a call says no": refusals 2 to 8, each over the whole file, lowest first.
//!
//! Refusals 1, 9, 10 and 11 depend on what a service is asked or lent and stand with the services.

use super::function::{Block, Edge, EdgeArgument, Function, Instruction, read};
use super::liveness::{Liveness, Walk, analyse, walk};
use crate::record::{RECORD_BYTES, Record, kind, largest, records};

/// A file that refusals 2 to 8 let through, and what liveness says of it.
#[derive(Clone, Debug)]
pub struct Accepted {
    pub function: Function,
    pub liveness: Liveness,
    pub records: usize,
}

/// The file's tree and liveness, or the lowest of refusals 2 to 8 that applies.
pub fn accept(file: &[u8]) -> Result<Accepted, u32> {
    if !file.len().is_multiple_of(RECORD_BYTES) {
        return Err(2);
    }
    let records = records(file);
    if above_a_largest_count(&records) {
        return Err(3);
    }
    let function = read(&records).ok_or(4u32)?;
    if names_what_is_not_there(&function) {
        return Err(5);
    }
    if !defines_each_value_once(&function) {
        return Err(6);
    }
    if !function.blocks.iter().all(|block| block_is_sound(&function, block)) {
        return Err(7);
    }
    let walk = walk(&function);
    if passes_a_marked_context(&function, &walk) {
        return Err(8);
    }
    let liveness = analyse(&function, walk);
    Ok(Accepted { function, liveness, records: records.len() })
}

/// Refusal 3. Records count by their first word, wherever they stand.
fn above_a_largest_count(records: &[Record]) -> bool {
    let count = |kind| records.iter().filter(|record| record[0] == kind).count();
    records.len() > largest::RECORDS
        || count(kind::VALUE) > largest::VALUES
        || count(kind::BLOCK) > largest::BLOCKS
        || count(kind::INSTRUCTION) > largest::INSTRUCTIONS
        || count(kind::EDGE) > largest::EDGES
}

fn instructions(function: &Function) -> impl Iterator<Item = &Instruction> {
    function.blocks.iter().flat_map(|block| &block.instructions)
}

/// Every place that defines a value: parameters and results, reachable or not.
fn definitions(function: &Function) -> impl Iterator<Item = u32> + '_ {
    let parameters = function.blocks.iter().flat_map(|block| &block.parameters);
    let results = instructions(function).flat_map(|instruction| &instruction.results);
    parameters.chain(results).copied()
}

/// Refusal 5.
fn names_what_is_not_there(function: &Function) -> bool {
    let value_is_there = |value: u32| (value as usize) < function.values.len();
    let block_is_there = |block: u32| (block as usize) < function.blocks.len();
    let edge_is_there = |edge: &Edge| block_is_there(edge.block) && edge.values().all(value_is_there);
    let all_there = |instruction: &Instruction| {
        let read = instruction.arguments.iter().chain(&instruction.contexts);
        read.copied().all(value_is_there) && instruction.edges.iter().all(edge_is_there)
    };
    !(definitions(function).all(value_is_there) && instructions(function).all(all_there))
}

/// The opposite of refusal 6.
fn defines_each_value_once(function: &Function) -> bool {
    let mut defined = vec![0; function.values.len()];
    definitions(function).for_each(|value| defined[value as usize] += 1);
    defined.iter().all(|&times| times == 1)
}

/// The opposite of refusal 7, for one block.
fn block_is_sound(function: &Function, block: &Block) -> bool {
    let last = block.instructions.len() - 1;
    block.instructions.iter().enumerate().all(|(position, instruction)| {
        instruction.is_terminator() == (position == last)
            && instruction_is_sound(instruction)
            && instruction.edges.iter().all(|edge| edge_is_sound(function, edge))
    })
}

fn instruction_is_sound(instruction: &Instruction) -> bool {
    let returns_words = |edge: &Edge| edge.arguments.iter().any(|argument| !matches!(argument, EdgeArgument::Value(_)));
    let leaves = !instruction.edges.is_empty() || !instruction.contexts.is_empty();
    let needs_both_flags = !instruction.contexts.is_empty() || instruction.edges.iter().any(returns_words);
    (!instruction.is_terminator() || instruction.results.is_empty())
        && (instruction.is_terminator() || !leaves)
        && (instruction.flags == 3 || !needs_both_flags)
}

fn edge_is_sound(function: &Function, edge: &Edge) -> bool {
    let size = |value: u32| function.values[value as usize].size;
    let parameters = &function.blocks[edge.block as usize].parameters;
    let sizes_agree = edge.arguments.iter().zip(parameters).all(|(argument, &parameter)| match *argument {
        EdgeArgument::Value(value) => size(value) == size(parameter),
        EdgeArgument::Returned(_) | EdgeArgument::Exception(_) => true,
    });
    edge.block != 0 && edge.arguments.len() == parameters.len() && sizes_agree
}

/// Refusal 8.
fn passes_a_marked_context(function: &Function, walk: &Walk) -> bool {
    let reachable = walk.order.iter().map(|&block| &function.blocks[block as usize]);
    let mut contexts = reachable.flat_map(|block| &block.instructions).flat_map(|instruction| &instruction.contexts);
    contexts.any(|&value| function.values[value as usize].marked)
}
