//! Graphs of blocks: which edges leave each, and which blocks dominate which.

use super::random::Random;

/// The targets of each block's edges, in order, never block 0.
pub fn edges(blocks: usize, most: usize, random: &mut Random) -> Vec<Vec<usize>> {
    let mut targets: Vec<Vec<usize>> = vec![Vec::new(); blocks];
    if blocks == 1 {
        return targets;
    }
    let style = random.below(5);
    for (block, out) in targets.iter_mut().enumerate() {
        match style {
            0 => anywhere(blocks, out, random),
            1 => ladder(block, blocks, out, random),
            2 => forward(block, blocks, out, random),
            3 => two_entries(block, blocks, out, random),
            _ => chain(block, blocks, out, random),
        }
        if !out.is_empty() && random.chance(12) {
            let twice = random.pick(out);
            out.insert(random.below(out.len() as u32 + 1) as usize, twice);
        }
    }
    let mut left = most;
    for out in &mut targets {
        out.truncate(left);
        left -= out.len();
    }
    targets
}

fn other(blocks: usize, random: &mut Random) -> usize {
    random.within(1, blocks as u32 - 1) as usize
}

fn anywhere(blocks: usize, out: &mut Vec<usize>, random: &mut Random) {
    for _ in 0..random.below(4) {
        out.push(other(blocks, random));
    }
}

/// Each block leads on, and some back to themselves or a few blocks up.
fn ladder(block: usize, blocks: usize, out: &mut Vec<usize>, random: &mut Random) {
    if block + 1 < blocks {
        out.push(block + 1);
    }
    if block > 0 && random.chance(40) {
        out.push(block);
    }
    if block > 1 && random.chance(35) {
        out.push(block - random.below(block.min(4) as u32) as usize);
    }
    random.shuffle(out);
}

/// No loops.
fn forward(block: usize, blocks: usize, out: &mut Vec<usize>, random: &mut Random) {
    if block + 1 < blocks {
        for _ in 0..random.within(1, 3) {
            out.push(random.within(block as u32 + 1, blocks as u32 - 1) as usize);
        }
    }
}

/// Pairs of blocks that lead to each other and are both entered from above: loops without a single head.
fn two_entries(block: usize, blocks: usize, out: &mut Vec<usize>, random: &mut Random) {
    let twin = if block % 2 == 1 { block + 1 } else { block.max(1) - 1 };
    if block == 0 || random.chance(60) {
        out.extend([block + 1, block + 2].into_iter().filter(|&target| target < blocks));
    }
    if block > 0 && 0 < twin && twin < blocks {
        out.push(twin);
    }
    random.shuffle(out);
}

/// Mostly one edge to the next block, now and then any edge: leaves blocks unreachable.
fn chain(block: usize, blocks: usize, out: &mut Vec<usize>, random: &mut Random) {
    if block + 1 < blocks && random.chance(85) {
        out.push(block + 1);
    }
    if random.chance(25) {
        out.push(other(blocks, random));
    }
}

/// For each block the blocks that every path from block 0 to it passes, itself among them, a bit each; 0 where no path
/// leads to it.
pub fn dominators(targets: &[Vec<usize>]) -> Vec<u64> {
    let mut dominators = vec![0u64; targets.len()];
    dominators[0] = 1;
    loop {
        let mut grown = dominators.clone();
        let mut met: Vec<Option<u64>> = vec![None; targets.len()];
        for (from, out) in targets.iter().enumerate().filter(|&(from, _)| dominators[from] != 0) {
            for &target in out {
                met[target] = Some(met[target].map_or(dominators[from], |so_far| so_far & dominators[from]));
            }
        }
        for (block, met) in met.iter().enumerate().skip(1) {
            grown[block] = met.map_or(0, |met| met | 1 << block);
        }
        if grown == dominators {
            return dominators;
        }
        dominators = grown;
    }
}
