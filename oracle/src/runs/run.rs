//! One run of a file, step by step: what "The two runs of demand 3" says a step is, and what is seen of it.
//!
//! The same machine runs the original and the rewritten. It follows `crates/rules/specs/TwoRuns.antt` name by name, with
//! 64 bits for a word.

use super::machine::{Content, Machine};
use super::tree::{Function, passed};
use crate::decision::function::{Edge, Instruction};
use crate::decision::rewriting::{Item, MapEntry};

/// A step as the world sees it: no slots, no added values, no addresses, no contexts.
pub struct Asking<'a> {
    pub step: u64,
    pub instruction: u32,
    pub arguments: &'a [u64],
}

/// What is outside. Entry words go by parameter, results by position, returned and exception words by index.
pub trait World {
    fn entry(&self, parameter: u64) -> u64;
    fn result(&self, at: &Asking, position: u64) -> u64;
    /// Any number: the edge taken is what it leaves when divided by how many there are.
    fn edge(&self, at: &Asking) -> u64;
    fn returned(&self, at: &Asking, index: u32) -> u64;
    fn exception(&self, at: &Asking, index: u32) -> u64;
}

/// Where the k-th safepoint step, counted from 0, moves a word.
pub type Mover<'a> = &'a dyn Fn(u64, u64) -> u64;

/// What a run depends on besides its file.
#[derive(Clone, Copy)]
pub struct Setting<'a> {
    pub world: &'a dyn World,
    pub mover: Mover<'a>,
    pub first_words: Content<'a>,
    pub first_slots: Content<'a>,
}

/// What is compared of a step.
#[derive(Clone, Debug, PartialEq, Eq)]
pub struct Seen {
    /// The words that arrived at parameters, where a block was entered since the step before.
    pub arrived: Option<Vec<u64>>,
    pub instruction: u32,
    pub flags: u32,
    pub tag: u32,
    pub arguments: Vec<u64>,
    /// Which of its edges is taken, where it has any.
    pub edge: Option<usize>,
}

/// A run, as the steps that are yet to come.
pub struct Run<'a> {
    function: &'a Function,
    setting: Setting<'a>,
    /// The values that move at safepoints.
    moving: Vec<u32>,
    machine: Machine<'a>,
    /// What stands in the block behind the last step.
    items: &'a [Item],
    step: u64,
    safepoint_step: u64,
}

/// What a run meets next: a step, an edge that is no step, or its end.
enum Next<'a> {
    Meets(&'a Instruction, &'a [MapEntry]),
    Along(&'a Edge),
    Ends,
}

impl<'a> Run<'a> {
    /// All marked values defined so far move.
    pub fn original(function: &'a Function, setting: Setting<'a>) -> Run<'a> {
        let values = function.values.iter().enumerate();
        let moving = values.filter(|(_, value)| value.marked).map(|(number, _)| number as u32).collect();
        Run::new(function, setting, moving)
    }

    /// Each listed slot moves once, and nothing else.
    pub fn rewritten(function: &'a Function, setting: Setting<'a>) -> Run<'a> {
        Run::new(function, setting, Vec::new())
    }

    fn new(function: &'a Function, setting: Setting<'a>, moving: Vec<u32>) -> Run<'a> {
        let (values, slots) = (function.values.len(), function.slots.len());
        let machine = Machine::new(values, slots, setting.first_words, setting.first_slots);
        let mut run = Run { function, setting, moving, machine, items: &[], step: 0, safepoint_step: 0 };
        let parameters = function.block(0).parameters.len() as u64;
        let entry: Vec<u64> = (0..parameters).map(|parameter| setting.world.entry(parameter)).collect();
        run.enter(0, &entry);
        run
    }

    /// A block is entered with words, which arrive at its parameters.
    fn enter(&mut self, block: u32, words: &[u64]) {
        let block = self.function.block(block);
        for (position, &parameter) in block.parameters.iter().enumerate() {
            self.machine.define(parameter, words.get(position).copied().unwrap_or(0));
        }
        self.machine.arrived = Some(self.machine.read(&block.parameters));
        self.items = &block.items;
    }

    /// Added instructions are no steps: they are done on the way to what comes next.
    fn meet(&mut self) -> Next<'a> {
        while let Some((item, behind)) = self.items.split_first() {
            self.items = behind;
            let words = &self.machine.words;
            match item {
                Item::Instruction { instruction, map } => return Next::Meets(instruction, map),
                Item::SlotAddress { result, slot } => self.machine.define(*result, (*slot).into()),
                Item::Store { value, address } => self.machine.store(words[*address as usize], words[*value as usize]),
                Item::Load { result, address, .. } => {
                    let word = self.machine.load(words[*address as usize]);
                    self.machine.define(*result, word);
                }
                Item::Jump { edge } => return Next::Along(edge),
            }
        }
        Next::Ends
    }

    /// The next step. More edges that are no steps than there are blocks never lead to one.
    fn follow(&mut self) -> Option<(&'a Instruction, &'a [MapEntry])> {
        for _ in 0..self.function.blocks.len() + 2 {
            match self.meet() {
                Next::Meets(instruction, map) => return Some((instruction, map)),
                Next::Along(edge) => {
                    let words = passed(edge, &self.machine.words, |_| 0, |_| 0);
                    self.enter(edge.block, &words);
                }
                Next::Ends => return None,
            }
        }
        self.items = &[];
        None
    }

    /// Arguments are read; references move; results are set; edge arguments are read.
    fn take_step(&mut self, instruction: &'a Instruction, map: &[MapEntry]) -> Seen {
        let arguments = self.machine.read(&instruction.arguments);
        let arrived = self.machine.arrived.take();
        if instruction.is_safepoint() {
            let (mover, at) = (self.setting.mover, self.safepoint_step);
            self.machine.move_references(&self.moving, map, |word| mover(at, word));
            self.safepoint_step += 1;
        }
        let at = Asking { step: self.step, instruction: instruction.number, arguments: &arguments };
        for (position, &result) in instruction.results.iter().enumerate() {
            self.machine.define(result, self.setting.world.result(&at, position as u64));
        }
        let edge = self.leave(instruction, &at);
        self.step += 1;
        let Instruction { number, flags, tag, .. } = *instruction;
        Seen { arrived, instruction: number, flags, tag, arguments, edge }
    }

    /// Along the edge that the world chooses, where there are any; a terminator without one ends the run.
    fn leave(&mut self, instruction: &'a Instruction, at: &Asking) -> Option<usize> {
        if instruction.edges.is_empty() {
            if instruction.is_terminator() {
                self.items = &[];
            }
            return None;
        }
        let world = self.setting.world;
        let taken = (world.edge(at) % instruction.edges.len() as u64) as usize;
        let edge = &instruction.edges[taken];
        let words =
            passed(edge, &self.machine.words, |index| world.returned(at, index), |index| world.exception(at, index));
        self.enter(edge.block, &words);
        Some(taken)
    }
}

impl Iterator for Run<'_> {
    type Item = Seen;

    fn next(&mut self) -> Option<Seen> {
        let (instruction, map) = self.follow()?;
        Some(self.take_step(instruction, map))
    }
}
