//! From the function that the module has rewritten to records, in the order of document 01's output.

use super::function::{Function, InstructionData, Operation};
use super::ir::{BlockArg, BlockCall, Inst, Value};
use crate::record::{Record, edge_argument, kind};

pub fn encode(func: &Function) -> Vec<Record> {
    let mut records = Vec::new();
    for (number, ty) in func.dfg.values.iter().enumerate() {
        let marked = func.marked.contains(Value(number as u32));
        records.push([kind::VALUE, ty.bytes(), u32::from(marked), 0]);
    }
    for slot in &func.stack_slots {
        records.push([kind::SLOT, slot.size, u32::from(slot.align_shift), 0]);
    }
    for &block in &func.layout.blocks {
        records.push([kind::BLOCK, u32::from(func.layout.is_cold(block)), block.0, 0]);
        records.extend(func.dfg.block_params(block).iter().map(|value| [kind::PARAMETER, value.0, 0, 0]));
        func.layout.block_insts(block).for_each(|inst| encode_inst(func, inst, &mut records));
    }
    records
}

fn encode_inst(func: &Function, inst: Inst, records: &mut Vec<Record>) {
    let data = &func.dfg.insts[inst];
    match data.operation {
        Operation::Own { flags, tag } => {
            records.push([kind::INSTRUCTION, flags, tag, 0]);
            encode_operands(func, data, records);
        }
        Operation::StackAddr(slot) => records.push([kind::SLOT_ADDRESS, data.results[0].0, slot.0, 0]),
        Operation::Store => records.push([kind::STORE, data.args[0].0, data.args[1].0, 0]),
        Operation::Load => {
            let result = data.results[0];
            records.push([kind::LOAD, result.0, data.args[0].0, func.dfg.value_type(result).bytes()]);
        }
        Operation::Jump => {
            records.push([kind::JUMP, 0, 0, 0]);
            encode_operands(func, data, records);
        }
    }
}

fn encode_operands(func: &Function, data: &InstructionData, records: &mut Vec<Record>) {
    records.extend(data.args.iter().map(|value| [kind::ARGUMENT, value.0, 0, 0]));
    records.extend(data.results.iter().map(|value| [kind::RESULT, value.0, 0, 0]));
    data.edges.iter().for_each(|edge| encode_edge(func, edge, records));
    if let Some(table) = data.exception_table {
        let contexts = &func.dfg.exception_tables[table].0;
        records.extend(contexts.iter().map(|value| [kind::CONTEXT, value.0, 0, 0]));
    }
    records.extend(data.stack_map.iter().map(|entry| [kind::MAP_ENTRY, entry.slot.0, entry.ty.bytes(), entry.offset]));
}

fn encode_edge(func: &Function, edge: &BlockCall, records: &mut Vec<Record>) {
    records.push([kind::EDGE, edge.block(&func.dfg.value_lists).0, 0, 0]);
    records.extend(edge.args(&func.dfg.value_lists).map(|arg| match arg {
        BlockArg::Value(value) => [kind::EDGE_ARGUMENT, edge_argument::VALUE, value.0, 0],
        BlockArg::TryCallRet(index) => [kind::EDGE_ARGUMENT, edge_argument::RETURNED, index, 0],
        BlockArg::TryCallExn(index) => [kind::EDGE_ARGUMENT, edge_argument::EXCEPTION, index, 0],
    }));
}
