//! A file in either form as a tree that can be run: an input, or the final records that rewriting leaves.

use crate::decision::function::{Edge, EdgeArgument, Instruction, Rest, Value};
use crate::decision::rewriting::{Item, MapEntry, OutputBlock};
use crate::record::{Record, kind};

/// An input has no slots, and instructions without maps for items.
pub struct Function {
    pub values: Vec<Value>,
    /// Their sizes.
    pub slots: Vec<u32>,
    /// In layout order.
    pub blocks: Vec<OutputBlock>,
    /// Where the block of each number stands.
    places: Vec<usize>,
}

impl Function {
    /// The block of a number that the file has.
    pub fn block(&self, number: u32) -> &OutputBlock {
        &self.blocks[self.places[number as usize]]
    }

    pub fn instructions(&self) -> usize {
        let items = self.blocks.iter().flat_map(|block| &block.items);
        items.filter(|item| matches!(item, Item::Instruction { .. })).count()
    }
}

/// The tree, or why there is none: records out of order, block numbers that are not those of so many blocks, or a value,
/// block or slot that is not in the file. A rewriting that leaves such records is wrong before they are run.
pub fn read(records: &[Record]) -> Result<Function, String> {
    let mut rest = Rest::new(records);
    let value = |[_, size, marked, _]: Record| Value { size, marked: marked == 1 };
    let values = rest.all(kind::VALUE).into_iter().map(value).collect();
    let slots = rest.second_words(kind::SLOT);
    let blocks: Vec<_> = std::iter::from_fn(|| block(&mut rest)).collect();
    if !rest.records.is_empty() {
        return Err(format!("record {} is out of order", records.len() - rest.records.len()));
    }
    let places = places(&blocks)?;
    let function = Function { values, slots, blocks, places };
    names_what_is_there(&function)?;
    Ok(function)
}

fn block(rest: &mut Rest) -> Option<OutputBlock> {
    let [_, cold, number, _] = rest.next(kind::BLOCK)?;
    let parameters = rest.second_words(kind::PARAMETER);
    let items = std::iter::from_fn(|| item(rest)).collect();
    Some(OutputBlock { number, cold, parameters, items })
}

fn item(rest: &mut Rest) -> Option<Item> {
    if let Some(instruction) = rest.instruction() {
        let entry = |[_, slot, size, _]: Record| MapEntry { slot, size };
        let map = rest.all(kind::MAP_ENTRY).into_iter().map(entry).collect();
        return Some(Item::Instruction { instruction, map });
    }
    if let Some([_, result, slot, _]) = rest.next(kind::SLOT_ADDRESS) {
        return Some(Item::SlotAddress { result, slot });
    }
    if let Some([_, value, address, _]) = rest.next(kind::STORE) {
        return Some(Item::Store { value, address });
    }
    if let Some([_, result, address, size]) = rest.next(kind::LOAD) {
        return Some(Item::Load { result, address, size });
    }
    rest.next(kind::JUMP)?;
    // Without an edge behind it a jump leads to block 0, where no edge leads.
    let edge = rest.edge().unwrap_or(Edge { block: 0, arguments: Vec::new() });
    Some(Item::Jump { edge })
}

fn places(blocks: &[OutputBlock]) -> Result<Vec<usize>, String> {
    let place = |number: usize| {
        let place = blocks.iter().position(|block| block.number as usize == number);
        place.ok_or_else(|| format!("no block of {} has number {number}", blocks.len()))
    };
    (0..blocks.len().max(1)).map(place).collect()
}

fn names_what_is_there(function: &Function) -> Result<(), String> {
    let mut named = Named::default();
    for block in &function.blocks {
        named.values.extend(&block.parameters);
        block.items.iter().for_each(|item| named.item(item));
    }
    let below =
        |what: &str, numbers: &[u32], count: usize| match numbers.iter().find(|&&number| number as usize >= count) {
            Some(number) => Err(format!("{what} {number} of {count}")),
            None => Ok(()),
        };
    below("value", &named.values, function.values.len())?;
    below("slot", &named.slots, function.slots.len())?;
    below("block", &named.blocks, function.blocks.len())
}

/// The numbers that a file's blocks name.
#[derive(Default)]
struct Named {
    values: Vec<u32>,
    slots: Vec<u32>,
    blocks: Vec<u32>,
}

impl Named {
    fn item(&mut self, item: &Item) {
        match item {
            Item::Instruction { instruction, map } => {
                self.instruction(instruction);
                self.slots.extend(map.iter().map(|entry| entry.slot));
            }
            Item::SlotAddress { result, slot } => {
                self.values.push(*result);
                self.slots.push(*slot);
            }
            Item::Store { value, address } => self.values.extend([value, address]),
            Item::Load { result, address, .. } => self.values.extend([result, address]),
            Item::Jump { edge } => self.edge(edge),
        }
    }

    fn instruction(&mut self, instruction: &Instruction) {
        self.values.extend(&instruction.arguments);
        self.values.extend(&instruction.results);
        self.values.extend(&instruction.contexts);
        instruction.edges.iter().for_each(|edge| self.edge(edge));
    }

    fn edge(&mut self, edge: &Edge) {
        self.blocks.push(edge.block);
        self.values.extend(edge.values());
    }
}

/// The words that an edge passes: values by their words, returned and exception words by index.
pub fn passed(edge: &Edge, words: &[u64], returned: impl Fn(u32) -> u64, exception: impl Fn(u32) -> u64) -> Vec<u64> {
    let word = |argument: &EdgeArgument| match *argument {
        EdgeArgument::Value(value) => words[value as usize],
        EdgeArgument::Returned(index) => returned(index),
        EdgeArgument::Exception(index) => exception(index),
    };
    edge.arguments.iter().map(word).collect()
}
