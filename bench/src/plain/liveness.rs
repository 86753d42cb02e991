//! The process over rows of bits, and from its answer the list of each safepoint.

use super::Counting;
use super::accept::{Block, Function};
use super::row::{Row, WORDS};
use oracle::record::kind;

pub struct Live {
    pub ins: Vec<Row>,
    pub outs: Vec<Row>,
    pub visits: u64,
    pub pushes: u64,
}

/// A row for each instruction, empty where it is no reachable safepoint, and all of them joined.
pub struct Lists {
    pub rows: Vec<Row>,
    pub spilled: Row,
}

impl Live {
    pub fn solve(function: &Function, counting: Counting) -> Live {
        let blocks = function.blocks.len();
        let mut predecessors = vec![Vec::new(); blocks];
        for (index, &block) in function.order.iter().enumerate() {
            for edge in &function.edges[function.blocks[block].edges.clone()] {
                predecessors[edge.target].push(index);
            }
        }
        let (uses, kills) = block_sets(function);
        let (mut ins, mut outs) = (vec![Row::default(); blocks], vec![Row::default(); blocks]);
        let mut pending: Vec<usize> = (0..function.order.len()).rev().collect();
        let mut is_pending = vec![true; function.order.len()];
        let (mut visits, mut pushes) = (0, function.order.len() as u64);
        while let Some(index) = pending.pop() {
            if !std::mem::take(&mut is_pending[index]) {
                continue;
            }
            visits += 1;
            let block = function.order[index];
            for edge in &function.edges[function.blocks[block].edges.clone()] {
                outs[block].join(&ins[edge.target]);
            }
            let mut grown = ins[block];
            for word in 0..WORDS {
                grown.0[word] |= uses[block].0[word] | outs[block].0[word] & !kills[block].0[word];
            }
            let grew = match counting {
                Counting::Not => grown != ins[block],
                Counting::BitByBit => grown.counted() > ins[block].counted(),
            };
            if grew {
                ins[block] = grown;
                for &predecessor in &predecessors[block] {
                    is_pending[predecessor] = true;
                    pending.push(predecessor);
                    pushes += 1;
                }
            }
        }
        Live { ins, outs, visits, pushes }
    }

    pub fn lists(&self, function: &Function) -> Lists {
        let mut rows = vec![Row::default(); function.instructions.len()];
        let mut spilled = Row::default();
        for &block in &function.order {
            let mut live = self.outs[block];
            for number in function.blocks[block].instructions.clone().rev() {
                let instruction = function.instructions[number];
                for record in &function.records[instruction.behind_arguments..instruction.end] {
                    match *record {
                        [kind::RESULT, value, ..] => live.remove(value as usize),
                        [kind::EDGE_ARGUMENT, 0, value, _] if function.marked.has(value as usize) => {
                            live.insert(value as usize)
                        }
                        _ => {}
                    }
                }
                if instruction.is_safepoint() {
                    rows[number] = live;
                    spilled.join(&live);
                }
                for record in &function.records[instruction.at + 1..instruction.behind_arguments] {
                    if function.marked.has(record[1] as usize) {
                        live.insert(record[1] as usize);
                    }
                }
            }
        }
        Lists { rows, spilled }
    }
}

/// What each reachable block uses before it defines it, and what it defines.
fn block_sets(function: &Function) -> (Vec<Row>, Vec<Row>) {
    let blocks = function.blocks.len();
    let (mut uses, mut kills) = (vec![Row::default(); blocks], vec![Row::default(); blocks]);
    for &block in &function.order {
        let Block { at, end, .. } = function.blocks[block];
        let (uses, kills) = (&mut uses[block], &mut kills[block]);
        for record in function.records[at..end].iter().rev() {
            match *record {
                [kind::PARAMETER | kind::RESULT, value, ..] => {
                    uses.remove(value as usize);
                    kills.insert(value as usize);
                }
                [kind::ARGUMENT, value, ..] | [kind::EDGE_ARGUMENT, 0, value, _]
                    if function.marked.has(value as usize) =>
                {
                    uses.insert(value as usize)
                }
                _ => {}
            }
        }
    }
    (uses, kills)
}
