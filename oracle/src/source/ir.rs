//! Stand-ins for the entities, types and small structs of the code generator's representation.
//!
//! A type is its size in bytes, any size: document 01's values have sizes and no other type.

use super::tables::Entity;

macro_rules! entity {
    ($($name:ident)*) => {$(
        #[derive(Clone, Copy, Debug, PartialEq, Eq, PartialOrd, Ord, Hash)]
        pub struct $name(pub u32);

        impl Entity for $name {
            fn number(self) -> usize {
                self.0 as usize
            }
        }
    )*};
}

entity!(Value Block Inst StackSlot ExceptionTable);

#[derive(Clone, Copy, Debug, PartialEq, Eq)]
pub struct Type(pub u32);

impl Type {
    pub fn bytes(self) -> u32 {
        self.0
    }
}

#[derive(Clone, Copy, Debug, PartialEq, Eq)]
pub enum BlockArg {
    Value(Value),
    TryCallRet(u32),
    TryCallExn(u32),
}

impl BlockArg {
    pub fn as_value(&self) -> Option<Value> {
        match *self {
            BlockArg::Value(value) => Some(value),
            BlockArg::TryCallRet(_) | BlockArg::TryCallExn(_) => None,
        }
    }
}

/// The arguments of all edges. An edge keeps the place of its own.
#[derive(Default)]
pub struct ValueListPool(pub Vec<BlockArg>);

#[derive(Clone, Copy)]
pub struct BlockCall {
    block: Block,
    first: usize,
    end: usize,
}

impl BlockCall {
    pub fn new(block: Block, args: impl IntoIterator<Item = BlockArg>, pool: &mut ValueListPool) -> BlockCall {
        let first = pool.0.len();
        pool.0.extend(args);
        BlockCall { block, first, end: pool.0.len() }
    }

    pub fn block(&self, _pool: &ValueListPool) -> Block {
        self.block
    }

    pub fn args<'a>(&self, pool: &'a ValueListPool) -> impl Iterator<Item = BlockArg> + use<'a> {
        pool.0[self.first..self.end].iter().copied()
    }

    pub fn args_mut<'a>(&self, pool: &'a mut ValueListPool) -> &'a mut [BlockArg] {
        &mut pool.0[self.first..self.end]
    }
}

/// An instruction keeps its edges itself, in file order, so there is nothing in a jump table.
#[derive(Default)]
pub struct JumpTables;

/// The contexts of one instruction.
#[derive(Default)]
pub struct ExceptionTableData(pub Vec<Value>);

pub enum ExceptionTableItem {
    Context(Value),
    /// What the crate's other items would be. Edges stand with the instruction, so none is made.
    #[allow(dead_code)]
    Default(BlockCall),
}

impl ExceptionTableData {
    pub fn items(&self) -> impl Iterator<Item = ExceptionTableItem> + '_ {
        self.0.iter().map(|&context| ExceptionTableItem::Context(context))
    }
}

#[derive(Clone, Copy)]
pub struct Opcode {
    pub safepoint: bool,
}

impl Opcode {
    pub fn is_safepoint(self) -> bool {
        self.safepoint
    }
}

pub enum StackSlotKind {
    ExplicitSlot,
}

pub struct StackSlotData {
    pub size: u32,
    pub align_shift: u8,
}

impl StackSlotData {
    pub fn new(_kind: StackSlotKind, size: u32, align_shift: u8) -> StackSlotData {
        StackSlotData { size, align_shift }
    }
}

#[derive(Clone, Copy)]
pub struct UserStackMapEntry {
    pub ty: Type,
    pub slot: StackSlot,
    pub offset: u32,
}

/// Memory flags are left out of document 01: they are taken and dropped.
#[derive(Clone, Copy)]
pub struct MemFlagsData;

impl MemFlagsData {
    pub fn trusted() -> MemFlagsData {
        MemFlagsData
    }

    pub fn set_notrap(&mut self) {}

    pub fn set_alias_region(&mut self, _region: Option<AliasRegion>) {}
}

/// Alias regions are left out of document 01: no callback is given, so none is made.
pub struct AliasRegion;

#[derive(Default)]
pub struct AliasRegionSet;
