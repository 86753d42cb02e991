//! Refusals 2 to 8, and the tables that the rest of the pass reads: made in one pass over the records where that can be.

use super::row::Row;
use oracle::record::{Record, flag, kind, largest, records};

/// One instruction by the places of its records: itself, the first behind its arguments, the first behind it.
#[derive(Clone, Copy)]
pub struct Instruction {
    pub at: usize,
    pub behind_arguments: usize,
    pub end: usize,
    pub flags: u32,
}

impl Instruction {
    pub fn is_safepoint(&self) -> bool {
        self.flags & flag::SAFEPOINT != 0
    }

    pub fn is_terminator(&self) -> bool {
        self.flags & flag::TERMINATOR != 0
    }
}

/// One block by the places of its records, and by the numbers of its instructions and edges.
pub struct Block {
    pub at: usize,
    pub end: usize,
    pub instructions: std::ops::Range<usize>,
    pub edges: std::ops::Range<usize>,
}

/// An edge by the place of its record, and its target.
#[derive(Clone, Copy)]
pub struct Edge {
    pub at: usize,
    pub target: usize,
}

pub struct Function {
    pub records: Vec<Record>,
    pub sizes: Vec<u32>,
    pub marked: Row,
    pub blocks: Vec<Block>,
    pub instructions: Vec<Instruction>,
    pub edges: Vec<Edge>,
    /// Reachable blocks in post-order, and each block's index there.
    pub order: Vec<usize>,
    pub index: Vec<Option<usize>>,
}

/// Bit `next` of entry `kind` is set where a record of kind `next` may follow one of kind `kind`; 0 is the file's start.
const FOLLOWERS: [u16; 10] = [
    0b110,
    0b110,
    0b1_1000,
    0b1_1000,
    0b10_1111_0100,
    0b10_1011_0100,
    0b10_1111_0100,
    0b11_1001_0100,
    0b11_1001_0100,
    0b10_0001_0100,
];

impl Function {
    /// The function of a file, or the lowest refusal of 2 to 8 that applies.
    pub fn accept(file: &[u8]) -> Result<Function, u32> {
        if file.len() % 16 != 0 {
            return Err(2);
        }
        if file.len() / 16 > largest::RECORDS {
            return Err(3);
        }
        let records = records(file);
        let mut counts = [0; 16];
        for record in &records {
            if record[0] < 16 {
                counts[record[0] as usize] += 1;
            }
        }
        let most = [(1, largest::VALUES), (2, largest::BLOCKS), (4, largest::INSTRUCTIONS), (7, largest::EDGES)];
        if most.iter().any(|&(kind, most)| counts[kind] > most) {
            return Err(3);
        }
        let mut function = Function::in_order(records)?;
        function.check_numbers()?;
        function.check_sound()?;
        function.walk();
        function.check_contexts()?;
        Ok(function)
    }

    /// Refusal 4, with the tables of values, blocks, instructions and edges.
    fn in_order(records: Vec<Record>) -> Result<Function, u32> {
        let end = records.len();
        let (mut sizes, mut marked) = (Vec::new(), Row::default());
        let (mut blocks, mut instructions, mut edges) = (Vec::<Block>::new(), Vec::<Instruction>::new(), Vec::new());
        let mut before = 0;
        for (at, &[kind, first, second, third]) in records.iter().enumerate() {
            if kind > 9 || FOLLOWERS[before as usize] >> kind & 1 == 0 || third != 0 {
                return Err(4);
            }
            before = kind;
            let fine = match kind {
                kind::VALUE => {
                    if second == 1 {
                        marked.insert(sizes.len());
                    }
                    sizes.push(first);
                    (1..=64).contains(&first) && second <= 1
                }
                kind::BLOCK => {
                    close(&mut blocks, &mut instructions, edges.len(), at);
                    let (from, first_edge) = (instructions.len(), edges.len());
                    blocks.push(Block { at, end, instructions: from..from, edges: first_edge..first_edge });
                    first <= 1 && second as usize == blocks.len() - 1
                }
                kind::INSTRUCTION => {
                    if blocks.last().is_some_and(|block| block.instructions.start < instructions.len()) {
                        instructions.last_mut().expect("the block has one").end = at;
                    }
                    instructions.push(Instruction { at, behind_arguments: at + 1, end, flags: first });
                    first <= 3
                }
                kind::ARGUMENT => {
                    instructions.last_mut().expect("it follows one").behind_arguments = at + 1;
                    second == 0
                }
                kind::EDGE => {
                    edges.push(Edge { at, target: first as usize });
                    second == 0
                }
                kind::EDGE_ARGUMENT => first <= 2,
                _ => second == 0,
            };
            if !fine {
                return Err(4);
            }
        }
        if before < kind::INSTRUCTION {
            return Err(4);
        }
        close(&mut blocks, &mut instructions, edges.len(), end);
        Ok(Function { records, sizes, marked, blocks, instructions, edges, order: Vec::new(), index: Vec::new() })
    }

    /// Refusals 5 and 6.
    fn check_numbers(&self) -> Result<(), u32> {
        let (values, blocks) = (self.sizes.len(), self.blocks.len());
        let mut definitions = vec![0u32; values];
        for &[kind, first, second, _] in &self.records {
            let (number, bound) = match kind {
                kind::PARAMETER | kind::RESULT | kind::ARGUMENT | kind::CONTEXT => (first as usize, values),
                kind::EDGE => (first as usize, blocks),
                kind::EDGE_ARGUMENT if first == 0 => (second as usize, values),
                _ => continue,
            };
            if number >= bound {
                return Err(5);
            }
            if kind == kind::PARAMETER || kind == kind::RESULT {
                definitions[number] += 1;
            }
        }
        if definitions.iter().any(|&count| count != 1) { Err(6) } else { Ok(()) }
    }

    /// Refusal 7.
    fn check_sound(&self) -> Result<(), u32> {
        for block in &self.blocks {
            for number in block.instructions.clone() {
                let instruction = self.instructions[number];
                if instruction.is_terminator() != (number + 1 == block.instructions.end) {
                    return Err(7);
                }
                for record in &self.records[instruction.behind_arguments..instruction.end] {
                    let fine = match record[0] {
                        kind::RESULT => !instruction.is_terminator(),
                        kind::EDGE => instruction.is_terminator() && record[1] != 0,
                        kind::EDGE_ARGUMENT => record[1] == 0 || instruction.flags == 3,
                        kind::CONTEXT => instruction.flags == 3,
                        _ => true,
                    };
                    if !fine {
                        return Err(7);
                    }
                }
            }
        }
        if self.edges.iter().all(|&edge| self.fits(edge)) { Ok(()) } else { Err(7) }
    }

    fn fits(&self, edge: Edge) -> bool {
        let mut parameter = self.blocks[edge.target].at + 1;
        for argument in self.arguments(edge.at) {
            let [kind, number, ..] = self.records[parameter];
            let [_, passes, value, _] = self.records[argument];
            if kind != kind::PARAMETER || passes == 0 && self.sizes[value as usize] != self.sizes[number as usize] {
                return false;
            }
            parameter += 1;
        }
        self.records[parameter][0] != kind::PARAMETER
    }

    /// The places of the arguments of the edge at a place.
    pub fn arguments(&self, at: usize) -> std::ops::Range<usize> {
        let behind = &self.records[at + 1..];
        let count = behind.iter().take_while(|record| record[0] == kind::EDGE_ARGUMENT).count();
        at + 1..at + 1 + count
    }

    fn walk(&mut self) {
        let mut entered = 1u64;
        let mut stack = vec![(0, self.blocks[0].edges.start)];
        self.index = vec![None; self.blocks.len()];
        while let Some(top) = stack.last_mut() {
            let block = top.0;
            if top.1 < self.blocks[block].edges.end {
                let target = self.edges[top.1].target;
                top.1 += 1;
                if entered >> target & 1 == 0 {
                    entered |= 1 << target;
                    stack.push((target, self.blocks[target].edges.start));
                }
            } else {
                self.index[block] = Some(self.order.len());
                self.order.push(block);
                stack.pop();
            }
        }
    }

    /// Refusal 8.
    fn check_contexts(&self) -> Result<(), u32> {
        for &block in &self.order {
            let Block { at, end, .. } = self.blocks[block];
            let marked = |record: &Record| record[0] == kind::CONTEXT && self.marked.has(record[1] as usize);
            if self.records[at..end].iter().any(marked) {
                return Err(8);
            }
        }
        Ok(())
    }
}

/// The last block and its last instruction end here.
fn close(blocks: &mut [Block], instructions: &mut [Instruction], edges: usize, at: usize) {
    if let Some(block) = blocks.last_mut() {
        block.end = at;
        block.instructions.end = instructions.len();
        block.edges.end = edges;
        if let Some(instruction) = instructions.last_mut() {
            instruction.end = at;
        }
    }
}
