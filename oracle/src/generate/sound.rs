//! Sound files: those that refusals 2 to 7 let through, and mostly 8 and 9 too.

use super::draft::{Draft, DraftBlock, DraftInstruction, Passed};
use super::graph::{dominators, edges};
use super::random::Random;
use crate::record::{Record, edge_argument, largest};

/// What a file is to be like.
pub struct Plan {
    pub blocks: usize,
    /// Whether each reachable use is dominated by its definition.
    pub dominated: bool,
    /// The most instructions in a block before the last, and of parameters, results and arguments a place.
    pub instructions: u32,
    pub parameters: u32,
    pub results: u32,
    pub arguments: u32,
    /// Of 100.
    pub marked: u32,
    pub safepoints: u32,
    pub cold: u32,
    /// Of 100: a marked value of a size that no slot has, a marked context in a reachable block.
    pub odd: u32,
    pub marked_contexts: u32,
    /// The sizes of marked values, but for odd ones: few, so that slots are shared.
    pub sizes: Vec<u32>,
}

impl Plan {
    pub fn small(random: &mut Random, dominated: bool) -> Plan {
        let blocks = if random.chance(20) { 1 } else { random.within(2, 8) as usize };
        Plan::of(blocks, random.within(1, 6), random, dominated)
    }

    pub fn wide(random: &mut Random, dominated: bool) -> Plan {
        let blocks = random.within(9, largest::BLOCKS as u32);
        Plan::of(blocks as usize, random.within(1, 1 + 96 / blocks), random, dominated)
    }

    fn of(blocks: usize, instructions: u32, random: &mut Random, dominated: bool) -> Plan {
        let mut sizes = vec![1, 2, 4, 8, 16];
        random.shuffle(&mut sizes);
        sizes.truncate(random.pick(&[1, 1, 2, 2, 3, 5]));
        Plan {
            blocks,
            dominated,
            instructions,
            parameters: random.below(4),
            results: random.within(1, 3),
            arguments: random.within(1, 4),
            marked: random.pick(&[50, 70, 85, 100]),
            safepoints: random.pick(&[0, 20, 40, 60, 100]),
            cold: random.pick(&[0, 30, 60]),
            odd: random.pick(&[0, 0, 0, 0, 4]),
            marked_contexts: random.pick(&[0, 0, 0, 30]),
            sizes,
        }
    }
}

pub fn sound(plan: &Plan, random: &mut Random) -> Vec<Record> {
    let targets = edges(plan.blocks, largest::EDGES, random);
    let mut maker = Maker { plan, dominators: dominators(&targets), draft: Draft::default() };
    maker.draft.blocks = targets.into_iter().map(|targets| DraftBlock { targets, ..DraftBlock::default() }).collect();
    for block in 0..plan.blocks {
        maker.definitions(block, random);
    }
    for block in 0..plan.blocks {
        maker.uses(block, random);
        maker.last_instruction(block, random);
    }
    let shuffled = random.chance(70);
    maker.draft.records(shuffled, random)
}

struct Maker<'a> {
    plan: &'a Plan,
    dominators: Vec<u64>,
    draft: Draft,
}

impl Maker<'_> {
    fn define(&mut self, random: &mut Random) -> usize {
        let marked = random.chance(self.plan.marked);
        let odd = if marked { random.chance(self.plan.odd) } else { random.chance(30) };
        let near = random.pick(&[3, 5, 7, 12, 15, 17, 32, 33, 63, 64]);
        let odd_size = if random.chance(50) { near } else { random.within(1, 64) };
        let size = if odd { odd_size } else { random.pick(&self.plan.sizes) };
        self.draft.define(size, marked)
    }

    /// Everything that the block defines, so that uses of any block can be chosen afterwards.
    fn definitions(&mut self, block: usize, random: &mut Random) {
        self.draft.blocks[block].cold = random.chance(self.plan.cold);
        for _ in 0..random.below(self.plan.parameters + 1) {
            let value = self.define(random);
            self.draft.blocks[block].parameters.push(value);
        }
        for _ in 0..random.below(self.plan.instructions + 1) {
            let flags = u32::from(random.chance(self.plan.safepoints));
            let results = (0..random.below(self.plan.results + 1)).map(|_| self.define(random)).collect();
            let instruction = DraftInstruction { flags, tag: tag(random), results, ..DraftInstruction::default() };
            self.draft.blocks[block].instructions.push(instruction);
        }
    }

    /// The values that may be used in the block before instruction `position`.
    fn visible(&self, block: usize, position: usize) -> Vec<usize> {
        let own = &self.draft.blocks[block];
        let before = own.instructions[..position].iter().flat_map(|instruction| &instruction.results);
        let above = (0..self.plan.blocks).filter(|&other| other != block && self.dominators[block] >> other & 1 == 1);
        let above = above.map(|other| &self.draft.blocks[other]).flat_map(|other| {
            other.parameters.iter().chain(other.instructions.iter().flat_map(|instruction| &instruction.results))
        });
        above.chain(&own.parameters).chain(before).copied().collect()
    }

    /// A value to use, mostly of those visible lately.
    fn choose(&self, block: usize, visible: &[usize], random: &mut Random) -> Option<usize> {
        let anywhere = self.dominators[block] == 0 || !self.plan.dominated && random.chance(45);
        if anywhere && !self.draft.values.is_empty() {
            return Some(random.below(self.draft.values.len() as u32) as usize);
        }
        let lately = &visible[visible.len().saturating_sub(6)..];
        match lately {
            [] => None,
            _ => Some(if random.chance(55) { random.pick(lately) } else { random.pick(visible) }),
        }
    }

    fn uses(&mut self, block: usize, random: &mut Random) {
        for position in 0..self.draft.blocks[block].instructions.len() {
            let visible = self.visible(block, position);
            let arguments = self.arguments(block, &visible, random);
            self.draft.blocks[block].instructions[position].arguments = arguments;
        }
    }

    fn arguments(&self, block: usize, visible: &[usize], random: &mut Random) -> Vec<usize> {
        let count = random.below(self.plan.arguments + 1);
        let mut arguments: Vec<usize> = (0..count).filter_map(|_| self.choose(block, visible, random)).collect();
        if random.chance(10) && !arguments.is_empty() {
            arguments.push(arguments[0]);
        }
        arguments
    }

    fn last_instruction(&mut self, block: usize, random: &mut Random) {
        let flags = if random.chance(50) { 3 } else { 2 };
        let mut edges = Vec::new();
        for target in std::mem::take(&mut self.draft.blocks[block].targets) {
            edges.push((target, self.passed(block, target, flags, random)));
        }
        let visible = self.visible(block, self.draft.blocks[block].instructions.len());
        let arguments = self.arguments(block, &visible, random);
        let contexts =
            if flags == 3 && random.chance(25) { self.contexts(block, &visible, random) } else { Vec::new() };
        let last =
            DraftInstruction { flags, tag: tag(random), arguments, edges, contexts, ..DraftInstruction::default() };
        self.draft.blocks[block].instructions.push(last);
    }

    /// An argument for each parameter of the target; where nothing of its size is at hand, the block defines it.
    fn passed(&mut self, block: usize, target: usize, flags: u32, random: &mut Random) -> Vec<Passed> {
        let mut passed = Vec::new();
        for parameter in self.draft.blocks[target].parameters.clone() {
            let size = self.draft.values[parameter].0;
            if flags == 3 && random.chance(30) {
                let which = random.pick(&[edge_argument::RETURNED, edge_argument::EXCEPTION]);
                passed.push(Passed::Word(which, tag(random)));
                continue;
            }
            let visible = self.visible(block, self.draft.blocks[block].instructions.len());
            let fits = |value: &usize| self.draft.values[*value].0 == size;
            let visible: Vec<usize> = visible.into_iter().filter(fits).collect();
            let chosen = self.choose(block, &visible, random).filter(fits);
            let value = chosen.unwrap_or_else(|| self.define_for_edge(block, size, random));
            passed.push(Passed::Value(value));
        }
        passed
    }

    fn define_for_edge(&mut self, block: usize, size: u32, random: &mut Random) -> usize {
        let has_slots = matches!(size, 1 | 2 | 4 | 8 | 16);
        let marked = has_slots && random.chance(self.plan.marked);
        let value = self.draft.define(size, marked);
        let flags = u32::from(random.chance(self.plan.safepoints));
        let results = vec![value];
        let instruction = DraftInstruction { flags, tag: tag(random), results, ..DraftInstruction::default() };
        self.draft.blocks[block].instructions.push(instruction);
        value
    }

    fn contexts(&self, block: usize, visible: &[usize], random: &mut Random) -> Vec<usize> {
        let any = self.dominators[block] == 0 || random.chance(self.plan.marked_contexts);
        let chosen = (0..random.within(1, 2)).filter_map(|_| self.choose(block, visible, random));
        chosen.filter(|&value| any || !self.draft.values[value].1).collect()
    }
}

/// Any word may be a tag or an index; most are small so that a file is easy to read.
fn tag(random: &mut Random) -> u32 {
    if random.chance(90) { random.below(20) } else { random.pick(&[u32::MAX, 0x8000_0000, 65_535, 65_536, 255, 256]) }
}
