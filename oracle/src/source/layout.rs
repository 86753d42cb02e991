//! The stand-in's layout: the order of blocks, the order of instructions in each, which blocks are cold.

use super::ir::{Block, Inst};
use super::tables::{Entity, SecondaryMap};

#[derive(Clone, Copy)]
struct Ends {
    first: Option<Inst>,
    last: Option<Inst>,
    cold: bool,
}

#[derive(Clone, Copy)]
struct Place {
    block: Option<Block>,
    previous: Option<Inst>,
    next: Option<Inst>,
}

pub struct Layout {
    pub blocks: Vec<Block>,
    ends: SecondaryMap<Block, Ends>,
    places: SecondaryMap<Inst, Place>,
}

impl Default for Layout {
    fn default() -> Self {
        Layout {
            blocks: Vec::new(),
            ends: SecondaryMap::with_default(Ends { first: None, last: None, cold: false }),
            places: SecondaryMap::with_default(Place { block: None, previous: None, next: None }),
        }
    }
}

impl Layout {
    pub fn append_block(&mut self, block: Block) {
        self.blocks.push(block);
    }

    pub fn insert_block_after(&mut self, block: Block, after: Block) {
        let at = self.blocks.iter().position(|&laid| laid == after).expect("the block before is laid");
        self.blocks.insert(at + 1, block);
    }

    pub fn is_cold(&self, block: Block) -> bool {
        self.ends[block].cold
    }

    pub fn set_cold(&mut self, block: Block) {
        self.ends[block].cold = true;
    }

    pub fn first_inst(&self, block: Block) -> Option<Inst> {
        self.ends[block].first
    }

    pub fn last_inst(&self, block: Block) -> Option<Inst> {
        self.ends[block].last
    }

    pub fn next_inst(&self, inst: Inst) -> Option<Inst> {
        self.places[inst].next
    }

    pub fn prev_inst(&self, inst: Inst) -> Option<Inst> {
        self.places[inst].previous
    }

    pub fn inst_block(&self, inst: Inst) -> Option<Block> {
        self.places[inst].block
    }

    pub fn block_insts(&self, block: Block) -> impl Iterator<Item = Inst> + '_ {
        std::iter::successors(self.first_inst(block), |&inst| self.next_inst(inst))
    }

    pub fn append_inst(&mut self, inst: Inst, block: Block) {
        let previous = self.ends[block].last;
        self.link(inst, block, previous, None);
    }

    pub fn insert_inst(&mut self, inst: Inst, before: Inst) {
        let Place { block, previous, .. } = self.places[before];
        self.link(inst, block.expect("the instruction behind is laid"), previous, Some(before));
    }

    fn link(&mut self, inst: Inst, block: Block, previous: Option<Inst>, next: Option<Inst>) {
        debug_assert!(self.inst_block(inst).is_none(), "{} is laid already", inst.number());
        self.places[inst] = Place { block: Some(block), previous, next };
        match previous {
            Some(previous) => self.places[previous].next = Some(inst),
            None => self.ends[block].first = Some(inst),
        }
        match next {
            Some(next) => self.places[next].previous = Some(inst),
            None => self.ends[block].last = Some(inst),
        }
    }
}
