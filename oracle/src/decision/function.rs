//! "The function file": what a file says, as a tree, and whether its order and words are those of the table.

use crate::record::{Record, edge_argument, flag, kind};

#[derive(Clone, Debug)]
pub struct Function {
    pub values: Vec<Value>,
    pub blocks: Vec<Block>,
}

#[derive(Clone, Copy, Debug)]
pub struct Value {
    pub size: u32,
    pub marked: bool,
}

#[derive(Clone, Debug)]
pub struct Block {
    pub cold: u32,
    pub parameters: Vec<u32>,
    pub instructions: Vec<Instruction>,
}

#[derive(Clone, Debug)]
pub struct Instruction {
    pub number: u32,
    pub flags: u32,
    pub tag: u32,
    pub arguments: Vec<u32>,
    pub results: Vec<u32>,
    pub edges: Vec<Edge>,
    pub contexts: Vec<u32>,
}

#[derive(Clone, Debug)]
pub struct Edge {
    pub block: u32,
    pub arguments: Vec<EdgeArgument>,
}

#[derive(Clone, Copy, Debug, PartialEq, Eq)]
pub enum EdgeArgument {
    Value(u32),
    Returned(u32),
    Exception(u32),
}

impl Instruction {
    pub fn is_safepoint(&self) -> bool {
        self.flags & flag::SAFEPOINT != 0
    }

    pub fn is_terminator(&self) -> bool {
        self.flags & flag::TERMINATOR != 0
    }
}

impl Block {
    /// The edges out of the block, in file order, with repeats.
    pub fn edges(&self) -> impl Iterator<Item = &Edge> {
        self.instructions.iter().flat_map(|instruction| &instruction.edges)
    }
}

impl Edge {
    /// The values among the edge's arguments, in order, with repeats.
    pub fn values(&self) -> impl Iterator<Item = u32> + '_ {
        self.arguments.iter().filter_map(|argument| match *argument {
            EdgeArgument::Value(value) => Some(value),
            EdgeArgument::Returned(_) | EdgeArgument::Exception(_) => None,
        })
    }
}

/// The tree of a file whose order and words are those of the table; none where refusal 4 applies.
pub fn read(records: &[Record]) -> Option<Function> {
    let mut rest = Rest::new(records);
    let values = rest.all(kind::VALUE).into_iter().map(|[_, size, marked, _]| Value { size, marked: marked == 1 });
    let values = values.collect();
    let mut blocks = Vec::new();
    while !rest.records.is_empty() {
        blocks.push(rest.block(blocks.len())?);
    }
    let sound = !blocks.is_empty() && records.iter().all(words_in_table);
    sound.then_some(Function { values, blocks })
}

/// Whether the words behind the kind are among those that the table allows.
fn words_in_table(record: &Record) -> bool {
    let [kind, second, third, fourth] = *record;
    let allowed = match kind {
        kind::VALUE => (1..=64).contains(&second) && third <= 1,
        kind::BLOCK => second <= 1,
        kind::PARAMETER | kind::RESULT | kind::ARGUMENT | kind::CONTEXT | kind::EDGE => third == 0,
        kind::INSTRUCTION => second <= 3,
        kind::EDGE_ARGUMENT => second <= 2,
        _ => false,
    };
    allowed && fourth == 0
}

/// The records not yet read, and how many instructions were. The reader of final records goes on from here too.
pub(crate) struct Rest<'a> {
    pub(crate) records: &'a [Record],
    instructions: u32,
}

impl<'a> Rest<'a> {
    pub(crate) fn new(records: &'a [Record]) -> Rest<'a> {
        Rest { records, instructions: 0 }
    }

    pub(crate) fn next(&mut self, kind: u32) -> Option<Record> {
        let (first, rest) = self.records.split_first()?;
        if first[0] != kind {
            return None;
        }
        self.records = rest;
        Some(*first)
    }

    /// As many records of the kind as follow one another here.
    pub(crate) fn all(&mut self, kind: u32) -> Vec<Record> {
        std::iter::from_fn(|| self.next(kind)).collect()
    }

    pub(crate) fn second_words(&mut self, kind: u32) -> Vec<u32> {
        self.all(kind).into_iter().map(|record| record[1]).collect()
    }

    fn block(&mut self, position: usize) -> Option<Block> {
        let [_, cold, number, _] = self.next(kind::BLOCK)?;
        let parameters = self.second_words(kind::PARAMETER);
        let instructions: Vec<_> = std::iter::from_fn(|| self.instruction()).collect();
        let sound = number as usize == position && !instructions.is_empty();
        sound.then_some(Block { cold, parameters, instructions })
    }

    pub(crate) fn instruction(&mut self) -> Option<Instruction> {
        let [_, flags, tag, _] = self.next(kind::INSTRUCTION)?;
        let number = self.instructions;
        self.instructions += 1;
        Some(Instruction {
            number,
            flags,
            tag,
            arguments: self.second_words(kind::ARGUMENT),
            results: self.second_words(kind::RESULT),
            edges: std::iter::from_fn(|| self.edge()).collect(),
            contexts: self.second_words(kind::CONTEXT),
        })
    }

    pub(crate) fn edge(&mut self) -> Option<Edge> {
        let [_, block, ..] = self.next(kind::EDGE)?;
        let arguments = self.all(kind::EDGE_ARGUMENT).into_iter().map(|record| match record[1] {
            edge_argument::RETURNED => EdgeArgument::Returned(record[2]),
            edge_argument::EXCEPTION => EdgeArgument::Exception(record[2]),
            // Any other word than VALUE is refused with the words, before the tree is asked for anything.
            _ => EdgeArgument::Value(record[2]),
        });
        Some(Edge { block, arguments: arguments.collect() })
    }
}
