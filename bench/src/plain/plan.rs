//! Slots, and the numbers of new values and landings, one number a record: document 01's three rules.

use super::accept::{Function, Instruction};
use super::liveness::{Lists, Live};
use super::row::Row;
use oracle::record::kind;

pub struct Plan {
    /// The slot of each value plus 1, 0 for none.
    pub slots: Vec<u32>,
    pub slot_sizes: Vec<u32>,
    /// For each record its first new value, or an edge's landing; 0 for none.
    pub numbers: Vec<u32>,
    pub new_sizes: Vec<u32>,
    pub landings: usize,
    /// How many records the rewritten function has.
    pub records: usize,
}

struct Planner<'a> {
    function: &'a Function,
    lists: &'a Lists,
    pointer_size: u32,
    free: [Vec<u32>; 5],
    plan: Plan,
}

pub fn plan(function: &Function, live: &Live, lists: &Lists, pointer_size: u32) -> Plan {
    let records = function.records.len();
    let plan = Plan {
        slots: vec![0; function.sizes.len()],
        slot_sizes: Vec::new(),
        numbers: vec![0; records],
        new_sizes: Vec::with_capacity(records),
        landings: 0,
        records,
    };
    let mut planner = Planner { function, lists, pointer_size, free: Default::default(), plan };
    for &block in &function.order {
        planner.block(block, &live.outs[block]);
    }
    planner.plan.records += planner.plan.slot_sizes.len();
    planner.plan
}

impl Planner<'_> {
    fn block(&mut self, number: usize, live_out: &Row) {
        for value in live_out.intersection(&self.lists.spilled).iter() {
            self.give_slot(value);
        }
        let block = &self.function.blocks[number];
        for number in block.instructions.clone().rev() {
            self.instruction(number);
        }
        for place in block.at + 1..block.end {
            if self.function.records[place][0] != kind::PARAMETER {
                break;
            }
            self.definition(place);
        }
    }

    fn instruction(&mut self, number: usize) {
        let instruction = self.function.instructions[number];
        for place in instruction.behind_arguments..instruction.end {
            if self.function.records[place][0] != kind::RESULT {
                break;
            }
            self.definition(place);
        }
        if instruction.is_safepoint() {
            let lists = self.lists;
            for value in lists.rows[number].iter() {
                self.give_slot(value);
                self.plan.records += 1;
            }
            self.landings(instruction);
        }
        let end = if instruction.flags == 3 { instruction.behind_arguments } else { instruction.end };
        for place in instruction.at + 1..end {
            match self.function.records[place] {
                [kind::ARGUMENT, value, ..] | [kind::EDGE_ARGUMENT, 0, value, _] => self.reload(place, value as usize),
                _ => {}
            }
        }
    }

    fn landings(&mut self, instruction: Instruction) {
        for place in instruction.behind_arguments..instruction.end {
            let [kind::EDGE, target, ..] = self.function.records[place] else { continue };
            let arguments = self.function.arguments(place);
            let spilled = |record: &[u32; 4]| record[1] == 0 && self.lists.spilled.has(record[2] as usize);
            if !self.function.records[arguments.clone()].iter().any(spilled) {
                continue;
            }
            self.plan.numbers[place] = (self.function.blocks.len() + self.plan.landings) as u32;
            self.plan.landings += 1;
            self.plan.records += 3;
            let first_parameter = self.function.blocks[target as usize].at + 1;
            for (nth, argument) in arguments.enumerate() {
                match self.function.records[argument] {
                    [_, 0, value, _] => self.reload(argument, value as usize),
                    _ => {
                        let parameter = self.function.records[first_parameter + nth][1];
                        self.plan.numbers[argument] = self.new_value(self.function.sizes[parameter as usize]);
                        self.plan.records += 3;
                    }
                }
            }
        }
    }

    /// A slot's address and a load, where the value is spilled.
    fn reload(&mut self, place: usize, value: usize) {
        if self.lists.spilled.has(value) {
            self.give_slot(value);
            self.plan.numbers[place] = self.new_value(self.pointer_size);
            self.new_value(self.function.sizes[value]);
            self.plan.records += 4;
        }
    }

    /// A slot's address and a store, where the value has a slot, which is free from here on.
    fn definition(&mut self, place: usize) {
        let value = self.function.records[place][1] as usize;
        let slot = self.plan.slots[value];
        if slot != 0 {
            self.plan.numbers[place] = self.new_value(self.pointer_size);
            self.free[self.class(value)].push(slot);
            self.plan.records += 3;
        }
    }

    fn give_slot(&mut self, value: usize) {
        if self.plan.slots[value] == 0 {
            self.plan.slots[value] = self.free[self.class(value)].pop().unwrap_or_else(|| {
                self.plan.slot_sizes.push(self.function.sizes[value]);
                self.plan.slot_sizes.len() as u32
            });
        }
    }

    fn class(&self, value: usize) -> usize {
        self.function.sizes[value].trailing_zeros() as usize
    }

    fn new_value(&mut self, size: u32) -> u32 {
        self.plan.new_sizes.push(size);
        (self.function.sizes.len() + self.plan.new_sizes.len() - 1) as u32
    }
}
