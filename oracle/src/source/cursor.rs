//! The stand-in's cursor: where the module's new instructions go.

use super::function::{Function, InstructionData, Operation};
use super::ir::{Block, BlockArg, BlockCall, Inst, MemFlagsData, StackSlot, Type, Value};

#[derive(Clone, Copy)]
pub enum CursorPosition {
    Nowhere,
    /// New instructions go before this one.
    At(Inst),
    /// Before the first instruction of the block; nothing is inserted from here.
    Before(Block),
    /// New instructions go to the end of the block.
    After(Block),
}

pub struct FuncCursor<'f> {
    pub func: &'f mut Function,
    position: CursorPosition,
}

impl<'f> FuncCursor<'f> {
    pub fn new(func: &'f mut Function) -> Self {
        FuncCursor { func, position: CursorPosition::Nowhere }
    }

    pub fn at_position(self, position: CursorPosition) -> Self {
        FuncCursor { position, ..self }
    }

    pub fn at_inst(self, inst: Inst) -> Self {
        self.at_position(CursorPosition::At(inst))
    }

    pub fn at_bottom(self, block: Block) -> Self {
        self.at_position(CursorPosition::After(block))
    }

    pub fn after_inst(self, inst: Inst) -> Self {
        let position = match self.func.layout.next_inst(inst) {
            Some(next) => CursorPosition::At(next),
            None => CursorPosition::After(self.func.layout.inst_block(inst).expect("the instruction is laid")),
        };
        self.at_position(position)
    }

    /// From before a block to its first instruction, the only step that is asked for.
    pub fn next_inst(&mut self) -> Option<Inst> {
        let CursorPosition::Before(block) = self.position else { panic!("the cursor stands before a block") };
        let first = self.func.layout.first_inst(block);
        self.position = first.map_or(CursorPosition::After(block), CursorPosition::At);
        first
    }

    pub fn ins(&mut self) -> Inserter<'_, 'f> {
        Inserter { cursor: self }
    }

    fn insert(&mut self, operation: Operation, args: Vec<Value>, edges: Vec<BlockCall>) -> Inst {
        let data =
            InstructionData { operation, args, results: Vec::new(), edges, exception_table: None, stack_map: vec![] };
        let inst = self.func.dfg.make_inst(data);
        match self.position {
            CursorPosition::At(behind) => self.func.layout.insert_inst(inst, behind),
            CursorPosition::After(block) => self.func.layout.append_inst(inst, block),
            CursorPosition::Nowhere | CursorPosition::Before(_) => panic!("nothing can be inserted here"),
        }
        inst
    }

    fn insert_with_result(&mut self, operation: Operation, args: Vec<Value>, ty: Type) -> Value {
        let inst = self.insert(operation, args, Vec::new());
        let result = self.func.dfg.make_value(ty);
        self.func.dfg.insts[inst].results.push(result);
        result
    }
}

/// Makes one instruction where the cursor stands. Offsets are 0 in the module and not kept.
pub struct Inserter<'c, 'f> {
    cursor: &'c mut FuncCursor<'f>,
}

impl Inserter<'_, '_> {
    pub fn stack_addr(self, ty: Type, slot: StackSlot, _offset: i32) -> Value {
        self.cursor.insert_with_result(Operation::StackAddr(slot), Vec::new(), ty)
    }

    pub fn store(self, _flags: MemFlagsData, value: Value, address: Value, _offset: i32) -> Inst {
        self.cursor.insert(Operation::Store, vec![value, address], Vec::new())
    }

    pub fn load(self, ty: Type, _flags: MemFlagsData, address: Value, _offset: i32) -> Value {
        self.cursor.insert_with_result(Operation::Load, vec![address], ty)
    }

    pub fn jump(self, target: Block, args: &[BlockArg]) -> Inst {
        let edge = BlockCall::new(target, args.iter().copied(), &mut self.cursor.func.dfg.value_lists);
        self.cursor.insert(Operation::Jump, Vec::new(), vec![edge])
    }
}
