//! A function while it is being made up: values in order of making, edges as chosen. Written as records at the end.

use super::random::Random;
use crate::record::{Record, edge_argument, kind};

#[derive(Default)]
pub struct Draft {
    /// Size and mark.
    pub values: Vec<(u32, bool)>,
    pub blocks: Vec<DraftBlock>,
}

#[derive(Default)]
pub struct DraftBlock {
    pub cold: bool,
    pub parameters: Vec<usize>,
    pub instructions: Vec<DraftInstruction>,
    /// The targets of the last instruction's edges, while their arguments are not yet chosen.
    pub targets: Vec<usize>,
}

#[derive(Default)]
pub struct DraftInstruction {
    pub flags: u32,
    pub tag: u32,
    pub arguments: Vec<usize>,
    pub results: Vec<usize>,
    pub edges: Vec<(usize, Vec<Passed>)>,
    pub contexts: Vec<usize>,
}

#[derive(Clone, Copy)]
pub enum Passed {
    Value(usize),
    /// Returned or exception word, and its index.
    Word(u32, u32),
}

impl Draft {
    pub fn define(&mut self, size: u32, marked: bool) -> usize {
        self.values.push((size, marked));
        self.values.len() - 1
    }

    /// The records. Where `shuffled`, a value's number says nothing about where it is defined.
    pub fn records(&self, shuffled: bool, random: &mut Random) -> Vec<Record> {
        let mut number: Vec<u32> = (0..self.values.len() as u32).collect();
        if shuffled {
            random.shuffle(&mut number);
        }
        let mut records: Vec<Record> = vec![[0; 4]; self.values.len()];
        for (made, &(size, marked)) in self.values.iter().enumerate() {
            records[number[made] as usize] = [kind::VALUE, size, u32::from(marked), 0];
        }
        for (position, block) in self.blocks.iter().enumerate() {
            records.push([kind::BLOCK, u32::from(block.cold), position as u32, 0]);
            records.extend(block.parameters.iter().map(|&value| [kind::PARAMETER, number[value], 0, 0]));
            block.instructions.iter().for_each(|instruction| instruction.write(&number, &mut records));
        }
        records
    }
}

impl DraftInstruction {
    fn write(&self, number: &[u32], records: &mut Vec<Record>) {
        records.push([kind::INSTRUCTION, self.flags, self.tag, 0]);
        records.extend(self.arguments.iter().map(|&value| [kind::ARGUMENT, number[value], 0, 0]));
        records.extend(self.results.iter().map(|&value| [kind::RESULT, number[value], 0, 0]));
        for (target, passed) in &self.edges {
            records.push([kind::EDGE, *target as u32, 0, 0]);
            records.extend(passed.iter().map(|passed| match *passed {
                Passed::Value(value) => [kind::EDGE_ARGUMENT, edge_argument::VALUE, number[value], 0],
                Passed::Word(which, index) => [kind::EDGE_ARGUMENT, which, index, 0],
            }));
        }
        records.extend(self.contexts.iter().map(|&value| [kind::CONTEXT, number[value], 0, 0]));
    }
}
