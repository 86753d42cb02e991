//! The output as records, in the order of "The function file".

use super::function::{Edge, EdgeArgument, Function, Instruction};
use super::rewriting::{Item, OutputBlock, Rewritten};
use crate::record::{Record, edge_argument, kind};

pub fn write(function: &Function, rewritten: &Rewritten) -> Vec<Record> {
    let mut records = Vec::new();
    records.extend(function.values.iter().map(|value| [kind::VALUE, value.size, u32::from(value.marked), 0]));
    records.extend(rewritten.new_values.iter().map(|&size| [kind::VALUE, size, 0, 0]));
    records.extend(rewritten.slots.iter().map(|size| [kind::SLOT, size.bytes(), size.log2(), 0]));
    rewritten.blocks.iter().for_each(|block| write_block(block, &mut records));
    records
}

fn write_block(block: &OutputBlock, records: &mut Vec<Record>) {
    records.push([kind::BLOCK, block.cold, block.number, 0]);
    records.extend(block.parameters.iter().map(|&value| [kind::PARAMETER, value, 0, 0]));
    for item in &block.items {
        match *item {
            Item::Instruction { ref instruction, ref map } => {
                write_instruction(instruction, records);
                records.extend(map.iter().map(|entry| [kind::MAP_ENTRY, entry.slot, entry.size, 0]));
            }
            Item::SlotAddress { result, slot } => records.push([kind::SLOT_ADDRESS, result, slot, 0]),
            Item::Store { value, address } => records.push([kind::STORE, value, address, 0]),
            Item::Load { result, address, size } => records.push([kind::LOAD, result, address, size]),
            Item::Jump { ref edge } => {
                records.push([kind::JUMP, 0, 0, 0]);
                write_edge(edge, records);
            }
        }
    }
}

fn write_instruction(instruction: &Instruction, records: &mut Vec<Record>) {
    records.push([kind::INSTRUCTION, instruction.flags, instruction.tag, 0]);
    records.extend(instruction.arguments.iter().map(|&value| [kind::ARGUMENT, value, 0, 0]));
    records.extend(instruction.results.iter().map(|&value| [kind::RESULT, value, 0, 0]));
    instruction.edges.iter().for_each(|edge| write_edge(edge, records));
    records.extend(instruction.contexts.iter().map(|&value| [kind::CONTEXT, value, 0, 0]));
}

fn write_edge(edge: &Edge, records: &mut Vec<Record>) {
    records.push([kind::EDGE, edge.block, 0, 0]);
    records.extend(edge.arguments.iter().map(|argument| match *argument {
        EdgeArgument::Value(value) => [kind::EDGE_ARGUMENT, edge_argument::VALUE, value, 0],
        EdgeArgument::Returned(index) => [kind::EDGE_ARGUMENT, edge_argument::RETURNED, index, 0],
        EdgeArgument::Exception(index) => [kind::EDGE_ARGUMENT, edge_argument::EXCEPTION, index, 0],
    }));
}
