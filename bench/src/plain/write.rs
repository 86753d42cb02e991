//! The rewritten records, in layout order.

use super::accept::{Block, Function, Instruction};
use super::liveness::Lists;
use super::plan::Plan;
use oracle::record::{Record, kind};

struct Writer<'a> {
    file: &'a [u8],
    function: &'a Function,
    lists: &'a Lists,
    plan: &'a Plan,
    output: &'a mut [u8],
    at: usize,
}

/// The output has room for all records of the plan.
pub fn write(file: &[u8], function: &Function, lists: &Lists, plan: &Plan, output: &mut [u8]) {
    let mut writer = Writer { file, function, lists, plan, output, at: 0 };
    writer.copy(0, function.sizes.len());
    for &size in &plan.new_sizes {
        writer.put([kind::VALUE, size, 0, 0]);
    }
    for &size in &plan.slot_sizes {
        writer.put([kind::SLOT, size, size.trailing_zeros(), 0]);
    }
    for (number, block) in function.blocks.iter().enumerate() {
        match function.index[number] {
            None => writer.copy(block.at, block.end),
            Some(_) => writer.block(block),
        }
    }
}

impl Writer<'_> {
    fn put(&mut self, record: Record) {
        let place = &mut self.output[self.at..self.at + 16];
        for (bytes, word) in place.chunks_exact_mut(4).zip(record) {
            bytes.copy_from_slice(&word.to_le_bytes());
        }
        self.at += 16;
    }

    fn copy(&mut self, from: usize, to: usize) {
        let length = (to - from) * 16;
        self.output[self.at..self.at + length].copy_from_slice(&self.file[from * 16..to * 16]);
        self.at += length;
    }

    fn block(&mut self, block: &Block) {
        let first = self.function.instructions[block.instructions.start].at;
        self.copy(block.at, first);
        self.stores(block.at + 1, first);
        for number in block.instructions.clone() {
            self.instruction(number);
        }
        let last = self.function.instructions[block.instructions.end - 1];
        if last.flags == 3 {
            self.landings(last);
        }
    }

    fn slot(&self, value: u32) -> u32 {
        self.plan.slots[value as usize] - 1
    }

    fn stores(&mut self, from: usize, to: usize) {
        for place in from..to {
            let number = self.plan.numbers[place];
            let [kind, value, ..] = self.function.records[place];
            if number != 0 && (kind == kind::PARAMETER || kind == kind::RESULT) {
                self.put([kind::SLOT_ADDRESS, number, self.slot(value), 0]);
                self.put([kind::STORE, value, number, 0]);
            }
        }
    }

    fn load(&mut self, place: usize, value: u32) {
        let number = self.plan.numbers[place];
        if number != 0 {
            self.put([kind::SLOT_ADDRESS, number, self.slot(value), 0]);
            self.put([kind::LOAD, number + 1, number, self.function.sizes[value as usize]]);
        }
    }

    fn loaded(&self, place: usize, value: u32) -> u32 {
        match self.plan.numbers[place] {
            0 => value,
            number => number + 1,
        }
    }

    fn instruction(&mut self, number: usize) {
        let instruction = self.function.instructions[number];
        let reloaded = if instruction.flags == 3 { instruction.behind_arguments } else { instruction.end };
        for place in instruction.at + 1..reloaded {
            match self.function.records[place] {
                [kind::ARGUMENT, value, ..] | [kind::EDGE_ARGUMENT, 0, value, _] => self.load(place, value),
                _ => {}
            }
        }
        let mut landing = 0;
        for place in instruction.at..instruction.end {
            match self.function.records[place] {
                [kind::ARGUMENT, value, ..] => self.put([kind::ARGUMENT, self.loaded(place, value), 0, 0]),
                [kind::EDGE, target, ..] => {
                    landing = self.plan.numbers[place];
                    self.put([kind::EDGE, if landing == 0 { target } else { landing }, 0, 0]);
                }
                [kind::EDGE_ARGUMENT, 0, value, _] => {
                    if landing == 0 {
                        self.put([kind::EDGE_ARGUMENT, 0, self.loaded(place, value), 0]);
                    }
                }
                record => self.put(record),
            }
        }
        if instruction.is_safepoint() {
            let lists = self.lists;
            for value in lists.rows[number].iter() {
                let size = self.function.sizes[value];
                self.put([kind::MAP_ENTRY, self.slot(value as u32), size, 0]);
            }
        }
        self.stores(instruction.behind_arguments, instruction.end);
    }

    fn landings(&mut self, instruction: Instruction) {
        for place in instruction.behind_arguments..instruction.end {
            let [kind::EDGE, target, ..] = self.function.records[place] else { continue };
            let landing = self.plan.numbers[place];
            if landing == 0 {
                continue;
            }
            let arguments = self.function.arguments(place);
            self.put([kind::BLOCK, 0, landing, 0]);
            for argument in arguments.clone() {
                if self.function.records[argument][1] != 0 {
                    self.put([kind::PARAMETER, self.plan.numbers[argument], 0, 0]);
                }
            }
            for argument in arguments.clone() {
                if let [_, 0, value, _] = self.function.records[argument] {
                    self.load(argument, value);
                }
            }
            self.put([kind::JUMP, 0, 0, 0]);
            self.put([kind::EDGE, target, 0, 0]);
            for argument in arguments {
                let passed = match self.function.records[argument] {
                    [_, 0, value, _] => self.loaded(argument, value),
                    _ => self.plan.numbers[argument],
                };
                self.put([kind::EDGE_ARGUMENT, 0, passed, 0]);
            }
        }
    }
}
