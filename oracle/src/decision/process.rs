//! "Visits": the process that the two counts belong to, with its stack and what is pending.

use super::function::Function;
use super::liveness::{LiveSets, Walk, live_out_of, through};
use super::value_set::ValueSet;

/// Post-order indices; an index may stand on the stack more than once.
struct Worklist {
    stack: Vec<u32>,
    /// Whether the block of this index was pushed since its last counted pop.
    pending: Vec<bool>,
    pushes: u64,
}

impl Worklist {
    fn push(&mut self, index: u32) {
        self.stack.push(index);
        self.pending[index as usize] = true;
        self.pushes += 1;
    }

    /// The next counted pop; none once the stack is empty.
    fn pop(&mut self) -> Option<u32> {
        loop {
            let index = self.stack.pop()?;
            if std::mem::take(&mut self.pending[index as usize]) {
                return Some(index);
            }
        }
    }
}

pub struct Processed {
    pub sets: LiveSets,
    pub visited: Vec<u32>,
    pub pushes: u64,
}

/// Runs the process to its end.
pub fn process(function: &Function, walk: &Walk) -> Processed {
    let empty = vec![ValueSet::default(); function.blocks.len()];
    let mut sets = LiveSets { live_in: empty.clone(), live_out: empty };
    let mut worklist = Worklist { stack: Vec::new(), pending: vec![false; walk.order.len()], pushes: 0 };
    (0..walk.order.len() as u32).rev().for_each(|index| worklist.push(index));
    let mut visited = Vec::new();
    while let Some(index) = worklist.pop() {
        let block = walk.order[index as usize];
        visited.push(block);
        if visit(function, block, &mut sets) {
            predecessors(function, walk, block).for_each(|index| worklist.push(index));
        }
    }
    Processed { sets, visited, pushes: worklist.pushes }
}

/// Adds what the rule gives now, and says whether live-in grew.
fn visit(function: &Function, block: u32, sets: &mut LiveSets) -> bool {
    let at = block as usize;
    let given = live_out_of(function, block, &sets.live_in);
    sets.live_out[at].add(&given);
    let before = sets.live_in[at];
    let given = through(function, block, &sets.live_out[at], |_, _| {});
    sets.live_in[at].add(&given);
    sets.live_in[at] != before
}

/// The indices of the reachable predecessors, ascending, once an edge.
fn predecessors<'a>(function: &'a Function, walk: &'a Walk, block: u32) -> impl Iterator<Item = u32> + 'a {
    walk.order.iter().enumerate().flat_map(move |(index, &from)| {
        let edges = function.blocks[from as usize].edges().filter(move |edge| edge.block == block);
        edges.map(move |_| index as u32)
    })
}

/// The bound that document 01 states for visits and for pushes.
pub fn bound(function: &Function, walk: &Walk) -> u64 {
    let marked = function.values.iter().filter(|value| value.marked).count();
    let edges: usize = walk.order.iter().map(|&block| function.blocks[block as usize].edges().count()).sum();
    (walk.order.len() + marked * edges) as u64
}
