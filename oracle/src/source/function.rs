//! The stand-in's function: values, instructions and edges, and the walk over its blocks.
//!
//! Here stand the choices that document 01 makes for the crate: edges in file order with repeats, arguments before value
//! edge arguments, contexts among neither, new values and blocks numbered as they are made.

use super::ir::{
    AliasRegionSet, Block, BlockArg, BlockCall, ExceptionTable, ExceptionTableData, Inst, JumpTables, Opcode,
    StackSlot, StackSlotData, Type, UserStackMapEntry, Value, ValueListPool,
};
use super::layout::Layout;
use super::tables::{Entity, EntitySet};
use std::fmt::{self, Display};
use std::ops::{Deref, DerefMut, Index, IndexMut};

/// What an instruction does, as far as records tell it apart.
pub enum Operation {
    /// An instruction of the file.
    Own {
        flags: u32,
        tag: u32,
    },
    StackAddr(StackSlot),
    Store,
    Load,
    Jump,
}

pub struct InstructionData {
    pub operation: Operation,
    pub args: Vec<Value>,
    pub results: Vec<Value>,
    pub edges: Vec<BlockCall>,
    pub exception_table: Option<ExceptionTable>,
    pub stack_map: Vec<UserStackMapEntry>,
}

impl InstructionData {
    pub fn opcode(&self) -> Opcode {
        Opcode { safepoint: matches!(self.operation, Operation::Own { flags, .. } if flags & 1 == 1) }
    }

    pub fn branch_destination(&self, _: &JumpTables, _: &ExceptionTables) -> &[BlockCall] {
        &self.edges
    }

    pub fn branch_destination_mut(&mut self, _: &mut JumpTables, _: &mut ExceptionTables) -> &mut [BlockCall] {
        &mut self.edges
    }

    pub fn exception_table(&self) -> Option<ExceptionTable> {
        self.exception_table
    }
}

/// A list indexed by the entity that its places stand for.
pub struct PrimaryList<T>(Vec<T>);

pub type Insts = PrimaryList<InstructionData>;
pub type ExceptionTables = PrimaryList<ExceptionTableData>;

impl<T> Default for PrimaryList<T> {
    fn default() -> Self {
        PrimaryList(Vec::new())
    }
}

impl<T> Deref for PrimaryList<T> {
    type Target = Vec<T>;

    fn deref(&self) -> &Vec<T> {
        &self.0
    }
}

impl<T> DerefMut for PrimaryList<T> {
    fn deref_mut(&mut self) -> &mut Vec<T> {
        &mut self.0
    }
}

impl<K: Entity, T> Index<K> for PrimaryList<T> {
    type Output = T;

    fn index(&self, key: K) -> &T {
        &self.0[key.number()]
    }
}

impl<K: Entity, T> IndexMut<K> for PrimaryList<T> {
    fn index_mut(&mut self, key: K) -> &mut T {
        &mut self.0[key.number()]
    }
}

pub struct ValueDef(Inst);

impl ValueDef {
    pub fn unwrap_inst(self) -> Inst {
        self.0
    }
}

#[derive(Default)]
pub struct DataFlowGraph {
    pub insts: Insts,
    pub jump_tables: JumpTables,
    pub exception_tables: ExceptionTables,
    pub value_lists: ValueListPool,
    pub alias_regions: AliasRegionSet,
    /// The type of each value.
    pub values: Vec<Type>,
    /// The parameters of each block.
    pub blocks: Vec<Vec<Value>>,
}

impl DataFlowGraph {
    pub fn num_blocks(&self) -> usize {
        self.blocks.len()
    }

    pub fn make_block(&mut self) -> Block {
        self.blocks.push(Vec::new());
        Block(self.blocks.len() as u32 - 1)
    }

    pub fn make_value(&mut self, ty: Type) -> Value {
        self.values.push(ty);
        Value(self.values.len() as u32 - 1)
    }

    pub fn make_inst(&mut self, data: InstructionData) -> Inst {
        self.insts.push(data);
        Inst(self.insts.len() as u32 - 1)
    }

    pub fn block_params(&self, block: Block) -> &[Value] {
        &self.blocks[block.number()]
    }

    pub fn append_block_param(&mut self, block: Block, ty: Type) -> Value {
        let value = self.make_value(ty);
        self.blocks[block.number()].push(value);
        value
    }

    pub fn value_type(&self, value: Value) -> Type {
        self.values[value.number()]
    }

    /// Alias records are left out of document 01, so no value is one.
    pub fn value_is_alias(&self, _value: Value) -> bool {
        false
    }

    pub fn resolve_aliases(&self, value: Value) -> Value {
        value
    }

    /// Asked for trace output only.
    pub fn value_def(&self, value: Value) -> ValueDef {
        let defines = |data: &InstructionData| data.results.contains(&value);
        ValueDef(Inst(self.insts.iter().position(defines).expect("an instruction defines it") as u32))
    }

    pub fn inst_args(&self, inst: Inst) -> &[Value] {
        &self.insts[inst].args
    }

    pub fn inst_results(&self, inst: Inst) -> &[Value] {
        &self.insts[inst].results
    }

    /// Arguments, then value edge arguments. Contexts are not among them.
    pub fn inst_values(&self, inst: Inst) -> impl Iterator<Item = Value> + '_ {
        let data = &self.insts[inst];
        let passed = data.edges.iter().flat_map(|edge| edge.args(&self.value_lists));
        data.args.iter().copied().chain(passed.filter_map(|arg| arg.as_value()))
    }

    /// Takes as many values as [`Self::inst_values`] gives, in its order.
    pub fn overwrite_inst_values(&mut self, inst: Inst, mut values: impl Iterator<Item = Value>) {
        let data = &mut self.insts.0[inst.number()];
        for arg in &mut data.args {
            *arg = values.next().expect("a value for each argument");
        }
        for edge in &data.edges {
            for arg in edge.args_mut(&mut self.value_lists) {
                if let BlockArg::Value(value) = arg {
                    *value = values.next().expect("a value for each value edge argument");
                }
            }
        }
        debug_assert!(values.next().is_none());
    }

    pub fn append_user_stack_map_entry(&mut self, inst: Inst, entry: UserStackMapEntry) {
        self.insts[inst].stack_map.push(entry);
    }

    pub fn display_inst(&self, inst: Inst) -> Displayed {
        Displayed(inst.0)
    }
}

/// What trace output would print; it is left out.
pub struct Displayed(u32);

impl Display for Displayed {
    fn fmt(&self, formatter: &mut fmt::Formatter<'_>) -> fmt::Result {
        write!(formatter, "{}", self.0)
    }
}

#[derive(Default)]
pub struct Function {
    pub dfg: DataFlowGraph,
    pub layout: Layout,
    pub stack_slots: Vec<StackSlotData>,
    /// How many blocks the file itself has.
    pub own_blocks: usize,
    pub marked: EntitySet<Value>,
}

impl Function {
    /// The targets of the block's edges, in file order, with repeats.
    pub fn block_successors(&self, block: Block) -> impl Iterator<Item = Block> + '_ {
        let edges = self.layout.block_insts(block).flat_map(|inst| &self.dfg.insts[inst].edges);
        edges.map(|edge| edge.block(&self.dfg.value_lists))
    }

    pub fn create_sized_stack_slot(&mut self, data: StackSlotData) -> StackSlot {
        self.stack_slots.push(data);
        StackSlot(self.stack_slots.len() as u32 - 1)
    }

    pub fn display(&self) -> Displayed {
        Displayed(self.own_blocks as u32)
    }
}

/// The walk over blocks. Its order is document 01's: edges in file order, entered blocks skipped.
#[derive(Default)]
pub struct Dfs {
    /// Blocks entered and not done, each with how many of its edges are.
    stack: Vec<(Block, usize)>,
    entered: EntitySet<Block>,
}

impl Dfs {
    pub fn clear(&mut self) {
        self.stack.clear();
        self.entered.clear();
    }

    pub fn post_order_iter<'a>(&'a mut self, func: &'a Function) -> impl Iterator<Item = Block> + 'a {
        self.enter(Block(0));
        std::iter::from_fn(move || self.next_done(func))
    }

    fn enter(&mut self, block: Block) {
        self.entered.insert(block);
        self.stack.push((block, 0));
    }

    fn next_done(&mut self, func: &Function) -> Option<Block> {
        loop {
            let (block, done) = self.stack.last_mut()?;
            // Only the last instruction of an accepted block has edges.
            let last = func.layout.last_inst(*block).expect("a block has an instruction");
            match func.dfg.insts[last].edges.get(*done) {
                Some(edge) => {
                    *done += 1;
                    let target = edge.block(&func.dfg.value_lists);
                    if !self.entered.contains(target) {
                        self.enter(target);
                    }
                }
                None => return self.stack.pop().map(|(block, _)| block),
            }
        }
    }
}
