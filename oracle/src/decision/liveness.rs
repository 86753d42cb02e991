//! "Liveness": the walk, the way through a block, the least solution and the lists.

use super::function::Function;
use super::process::process;
use super::value_set::ValueSet;

/// The reachable blocks.
#[derive(Clone, Debug)]
pub struct Walk {
    /// The block of each post-order index.
    pub order: Vec<u32>,
    /// The post-order index of each block; none where it is unreachable.
    pub index: Vec<Option<u32>>,
}

/// From block 0, entering edges in file order, skipping blocks already entered.
pub fn walk(function: &Function) -> Walk {
    let mut entered = vec![false; function.blocks.len()];
    let mut order = Vec::new();
    enter(function, 0, &mut entered, &mut order);
    let mut index = vec![None; function.blocks.len()];
    for (at, &block) in order.iter().enumerate() {
        index[block as usize] = Some(at as u32);
    }
    Walk { order, index }
}

fn enter(function: &Function, block: u32, entered: &mut [bool], order: &mut Vec<u32>) {
    entered[block as usize] = true;
    for edge in function.blocks[block as usize].edges() {
        if !entered[edge.block as usize] {
            enter(function, edge.block, entered, order);
        }
    }
    order.push(block);
}

/// What is live at the start of the block when `live_out` is live at its end. `record` is given each safepoint's number
/// and what is live across it.
pub fn through(
    function: &Function,
    block: u32,
    live_out: &ValueSet,
    mut record: impl FnMut(u32, &ValueSet),
) -> ValueSet {
    let block = &function.blocks[block as usize];
    let marked = |value: &u32| function.values[*value as usize].marked;
    let mut live = *live_out;
    for instruction in block.instructions.iter().rev() {
        let passed = instruction.edges.iter().flat_map(|edge| edge.values());
        passed.filter(marked).for_each(|value| live.insert(value));
        instruction.results.iter().for_each(|&value| live.remove(value));
        if instruction.is_safepoint() {
            record(instruction.number, &live);
        }
        instruction.arguments.iter().copied().filter(marked).for_each(|value| live.insert(value));
    }
    block.parameters.iter().for_each(|&value| live.remove(value));
    live
}

/// The union of the successors' live-in.
pub fn live_out_of(function: &Function, block: u32, live_in: &[ValueSet]) -> ValueSet {
    let mut live_out = ValueSet::default();
    for edge in function.blocks[block as usize].edges() {
        live_out.add(&live_in[edge.block as usize]);
    }
    live_out
}

/// The two live sets of each block, by block number.
#[derive(Clone, Debug, PartialEq, Eq)]
pub struct LiveSets {
    pub live_in: Vec<ValueSet>,
    pub live_out: Vec<ValueSet>,
}

/// The least solution, by going round the reachable blocks until nothing grows. It starts from empty sets and adds only
/// what the rule forces, so every solution contains it.
pub fn least_solution(function: &Function, walk: &Walk) -> LiveSets {
    let empty = vec![ValueSet::default(); function.blocks.len()];
    let mut sets = LiveSets { live_in: empty.clone(), live_out: empty };
    loop {
        let before = sets.clone();
        for &block in &walk.order {
            let live_out = live_out_of(function, block, &sets.live_in);
            sets.live_in[block as usize] = through(function, block, &live_out, |_, _| {});
            sets.live_out[block as usize] = live_out;
        }
        if sets == before {
            return sets;
        }
    }
}

/// What liveness says of a function.
#[derive(Clone, Debug)]
pub struct Liveness {
    pub walk: Walk,
    pub sets: LiveSets,
    /// The list of each reachable safepoint by instruction number; none for any other instruction.
    pub lists: Vec<Option<Vec<u32>>>,
    /// The values on any list.
    pub spilled: ValueSet,
    /// The blocks visited, in order. How many there are is the answer's count of visits.
    pub visited: Vec<u32>,
    pub pushes: u64,
}

impl Liveness {
    pub fn visits(&self) -> u64 {
        self.visited.len() as u64
    }
}

/// # Panics
///
/// Where the process does not end in the least solution: then this file does not say what document 01 says.
pub fn analyse(function: &Function, walk: Walk) -> Liveness {
    let sets = least_solution(function, &walk);
    let process = process(function, &walk);
    assert!(process.sets == sets, "the process must end in the least solution");
    let count = function.blocks.iter().map(|block| block.instructions.len()).sum();
    let mut lists = vec![None; count];
    let mut spilled = ValueSet::default();
    for &block in &walk.order {
        through(function, block, &sets.live_out[block as usize], |instruction, live| {
            lists[instruction as usize] = Some(live.iter().collect());
            spilled.add(live);
        });
    }
    Liveness { walk, sets, lists, spilled, visited: process.visited, pushes: process.pushes }
}
