//! "Slots and rewriting": the three rules, block by block.

use super::function::{Edge, EdgeArgument, Instruction};
use super::liveness::Liveness;
use super::refusal::Accepted;
use super::slots::{SlotSize, StackSlots};

/// What stands in a block of the output behind its parameters.
pub enum Item {
    Instruction { instruction: Instruction, map: Vec<MapEntry> },
    SlotAddress { result: u32, slot: u32 },
    Store { value: u32, address: u32 },
    Load { result: u32, address: u32, size: u32 },
    Jump { edge: Edge },
}

pub struct MapEntry {
    pub slot: u32,
    pub size: u32,
}

pub struct OutputBlock {
    pub number: u32,
    pub cold: u32,
    pub parameters: Vec<u32>,
    pub items: Vec<Item>,
}

/// The rewritten function: what the output's records say, in layout order.
pub struct Rewritten {
    /// The sizes of the values made, which follow the input's.
    pub new_values: Vec<u32>,
    pub slots: Vec<SlotSize>,
    pub blocks: Vec<OutputBlock>,
    pub landings: u64,
}

/// Whether refusal 9 applies.
pub fn spills_a_size_without_slots(accepted: &Accepted) -> bool {
    let size = |value: u32| accepted.function.values[value as usize].size;
    accepted.liveness.spilled.iter().any(|value| SlotSize::new(size(value)).is_none())
}

/// Rewrites a file to which refusal 9 does not apply.
pub fn rewrite(accepted: &Accepted, pointer_size: u32) -> Rewritten {
    let function = &accepted.function;
    let mut spiller = SafepointSpiller {
        accepted,
        pointer_size,
        slots: StackSlots::new(function.values.len()),
        new_values: Vec::new(),
        blocks: function.blocks.len() as u32,
    };
    let mut rewritten: Vec<Option<Vec<OutputBlock>>> = function.blocks.iter().map(|_| None).collect();
    for &block in &accepted.liveness.walk.order {
        rewritten[block as usize] = Some(spiller.block(block));
    }
    let layout = rewritten.into_iter().enumerate();
    let blocks: Vec<_> = layout.flat_map(|(block, made)| made.unwrap_or_else(|| vec![spiller.copied(block)])).collect();
    Rewritten {
        new_values: spiller.new_values,
        slots: spiller.slots.made,
        landings: (blocks.len() - function.blocks.len()) as u64,
        blocks,
    }
}

struct SafepointSpiller<'a> {
    accepted: &'a Accepted,
    pointer_size: u32,
    slots: StackSlots,
    new_values: Vec<u32>,
    /// How many blocks there are by now.
    blocks: u32,
}

impl SafepointSpiller<'_> {
    fn liveness(&self) -> &Liveness {
        &self.accepted.liveness
    }

    fn size(&self, value: u32) -> u32 {
        self.accepted.function.values[value as usize].size
    }

    fn is_spilled(&self, value: u32) -> bool {
        self.liveness().spilled.contains(value)
    }

    fn new_value(&mut self, size: u32) -> u32 {
        self.new_values.push(size);
        (self.accepted.function.values.len() + self.new_values.len()) as u32 - 1
    }

    fn slot_of(&mut self, value: u32) -> u32 {
        let size = SlotSize::new(self.size(value)).expect("refusal 9 came first");
        self.slots.give(value, size)
    }

    /// An unreachable block as it came.
    fn copied(&self, block: usize) -> OutputBlock {
        let input = &self.accepted.function.blocks[block];
        let copy = |instruction: &Instruction| Item::Instruction { instruction: instruction.clone(), map: Vec::new() };
        OutputBlock {
            number: block as u32,
            cold: input.cold,
            parameters: input.parameters.clone(),
            items: input.instructions.iter().map(copy).collect(),
        }
    }

    /// The block and its landings, in the order in which they are laid.
    fn block(&mut self, block: u32) -> Vec<OutputBlock> {
        let input = &self.accepted.function.blocks[block as usize];
        let live_out = self.liveness().sets.live_out[block as usize];
        for value in live_out.iter().filter(|&value| self.accepted.liveness.spilled.contains(value)) {
            self.slot_of(value);
        }
        let mut landings = Vec::new();
        let mut last_first = Vec::new();
        for instruction in input.instructions.iter().rev() {
            last_first.push(self.instruction(instruction, &mut landings));
        }
        let mut items = self.stores(&input.parameters);
        items.extend(last_first.into_iter().rev().flatten());
        let parameters = input.parameters.clone();
        let mut laid = vec![OutputBlock { number: block, cold: input.cold, parameters, items }];
        laid.append(&mut landings);
        laid
    }

    /// An instruction with what is put before and after it, by the three rules in their order.
    fn instruction(&mut self, input: &Instruction, landings: &mut Vec<OutputBlock>) -> Vec<Item> {
        let stores = self.stores(&input.results);
        let mut instruction = input.clone();
        let mut map = Vec::new();
        if input.is_safepoint() {
            map = self.map(input.number);
            for edge in &mut instruction.edges {
                if edge.values().any(|value| self.is_spilled(value)) {
                    landings.push(self.landing(edge));
                }
            }
        }
        let mut items = self.reload_uses(&mut instruction);
        items.push(Item::Instruction { instruction, map });
        items.extend(stores);
        items
    }

    /// Rule 1, for results as for parameters.
    fn stores(&mut self, defined: &[u32]) -> Vec<Item> {
        let mut items = Vec::new();
        for &value in defined {
            if let Some(slot) = self.slots.get(value) {
                let address = self.new_value(self.pointer_size);
                items.push(Item::SlotAddress { result: address, slot });
                items.push(Item::Store { value, address });
                self.slots.free(slot);
            }
        }
        items
    }

    /// Rule 2, the map of a reachable safepoint.
    fn map(&mut self, instruction: u32) -> Vec<MapEntry> {
        let list = self.liveness().lists[instruction as usize].clone().expect("a reachable safepoint has a list");
        list.into_iter().map(|value| MapEntry { slot: self.slot_of(value), size: self.size(value) }).collect()
    }

    /// Rule 2, the landing of an edge, which afterwards leads to it.
    fn landing(&mut self, edge: &mut Edge) -> OutputBlock {
        let number = self.blocks;
        self.blocks += 1;
        let target = edge.block;
        let mut landing = OutputBlock { number, cold: 0, parameters: Vec::new(), items: Vec::new() };
        let mut kept = Vec::new();
        let mut passed = Vec::new();
        for (position, &argument) in edge.arguments.iter().enumerate() {
            let value = match argument {
                EdgeArgument::Value(value) => self.reload(value, &mut landing.items),
                EdgeArgument::Returned(_) | EdgeArgument::Exception(_) => {
                    let parameter = self.accepted.function.blocks[target as usize].parameters[position];
                    let word = self.new_value(self.size(parameter));
                    landing.parameters.push(word);
                    kept.push(argument);
                    word
                }
            };
            passed.push(EdgeArgument::Value(value));
        }
        landing.items.push(Item::Jump { edge: Edge { block: target, arguments: passed } });
        *edge = Edge { block: number, arguments: kept };
        landing
    }

    /// Rule 3: arguments, then value edge arguments.
    fn reload_uses(&mut self, instruction: &mut Instruction) -> Vec<Item> {
        let mut items = Vec::new();
        for value in &mut instruction.arguments {
            *value = self.reload(*value, &mut items);
        }
        for argument in instruction.edges.iter_mut().flat_map(|edge| &mut edge.arguments) {
            if let EdgeArgument::Value(value) = argument {
                *value = self.reload(*value, &mut items);
            }
        }
        items
    }

    /// The value that a use reads from now on: a spilled one is loaded from its slot, for this use alone.
    fn reload(&mut self, value: u32, items: &mut Vec<Item>) -> u32 {
        if !self.is_spilled(value) {
            return value;
        }
        let slot = self.slot_of(value);
        let address = self.new_value(self.pointer_size);
        let size = self.size(value);
        let result = self.new_value(size);
        items.push(Item::SlotAddress { result: address, slot });
        items.push(Item::Load { result, address, size });
        result
    }
}
