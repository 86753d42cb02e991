//! Whether a file's reachable uses are dominated by their definitions, told by paths and without the generator's help.

use crate::decision::function::{Block, Function};

/// Whether no path from block 0 reaches a use of a value without passing its definition. An edge argument is used after
/// its instruction, a context before it.
pub fn dominated(function: &Function) -> bool {
    (0..function.values.len() as u32).all(|value| {
        // Blocks that some path enters with the value not set.
        let mut unset = vec![false; function.blocks.len()];
        let mut to_enter = vec![0];
        while let Some(at) = to_enter.pop() {
            if std::mem::replace(&mut unset[at as usize], true) {
                continue;
            }
            match passes_unset(&function.blocks[at as usize], value) {
                Passage::Read => return false,
                Passage::Set => {}
                Passage::Through => to_enter.extend(function.blocks[at as usize].edges().map(|edge| edge.block)),
            }
        }
        true
    })
}

/// What happens first to a value that is not set where the block is entered.
enum Passage {
    Read,
    Set,
    Through,
}

fn passes_unset(block: &Block, value: u32) -> Passage {
    if block.parameters.contains(&value) {
        return Passage::Set;
    }
    for instruction in &block.instructions {
        if instruction.arguments.contains(&value) || instruction.contexts.contains(&value) {
            return Passage::Read;
        }
        if instruction.results.contains(&value) {
            return Passage::Set;
        }
        if instruction.edges.iter().any(|edge| edge.values().any(|passed| passed == value)) {
            return Passage::Read;
        }
    }
    Passage::Through
}
