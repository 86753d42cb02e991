//! From the records of an accepted file to the stand-in's function.

use super::function::{Function, InstructionData, Operation};
use super::ir::{Block, BlockArg, BlockCall, ExceptionTable, ExceptionTableData, Inst, Type, Value};
use crate::record::{Record, edge_argument, kind};

/// Reads records one by one; what each belongs to stands last before it.
///
/// # Panics
///
/// On records that document 01 refuses.
pub fn load(records: &[Record]) -> Function {
    let mut func = Function::default();
    for (at, &[kind, second, third, _]) in records.iter().enumerate() {
        match kind {
            kind::VALUE => {
                let value = func.dfg.make_value(Type(second));
                if third == 1 {
                    func.marked.insert(value);
                }
            }
            kind::BLOCK => {
                let block = func.dfg.make_block();
                func.layout.append_block(block);
                if second == 1 {
                    func.layout.set_cold(block);
                }
            }
            kind::PARAMETER => func.dfg.blocks.last_mut().expect("a block came before").push(Value(second)),
            kind::INSTRUCTION => append(&mut func, Operation::Own { flags: second, tag: third }),
            kind::RESULT => last(&mut func).results.push(Value(second)),
            kind::ARGUMENT => last(&mut func).args.push(Value(second)),
            kind::EDGE => append_edge(&mut func, Block(second), &records[at + 1..]),
            kind::EDGE_ARGUMENT => {}
            kind::CONTEXT => append_context(&mut func, Value(second)),
            _ => panic!("kind {kind} in an accepted file"),
        }
    }
    func.own_blocks = func.dfg.num_blocks();
    func
}

fn last(func: &mut Function) -> &mut InstructionData {
    func.dfg.insts.last_mut().expect("an instruction came before")
}

fn append(func: &mut Function, operation: Operation) {
    let data = InstructionData {
        operation,
        args: Vec::new(),
        results: Vec::new(),
        edges: Vec::new(),
        exception_table: None,
        stack_map: Vec::new(),
    };
    let inst: Inst = func.dfg.make_inst(data);
    let block = Block(func.dfg.num_blocks() as u32 - 1);
    func.layout.append_inst(inst, block);
}

fn append_edge(func: &mut Function, target: Block, behind: &[Record]) {
    let arguments = behind.iter().take_while(|record| record[0] == kind::EDGE_ARGUMENT);
    let arguments = arguments.map(|&[_, which, word, _]| match which {
        edge_argument::VALUE => BlockArg::Value(Value(word)),
        edge_argument::RETURNED => BlockArg::TryCallRet(word),
        edge_argument::EXCEPTION => BlockArg::TryCallExn(word),
        _ => panic!("edge argument {which} in an accepted file"),
    });
    let edge = BlockCall::new(target, arguments, &mut func.dfg.value_lists);
    last(func).edges.push(edge);
}

fn append_context(func: &mut Function, context: Value) {
    let tables = func.dfg.exception_tables.len() as u32;
    let table = *last(func).exception_table.get_or_insert(ExceptionTable(tables));
    if table.0 == tables {
        func.dfg.exception_tables.push(ExceptionTableData::default());
    }
    func.dfg.exception_tables[table].0.push(context);
}
