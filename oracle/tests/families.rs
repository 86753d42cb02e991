//! The generator's sound families have everything that the rules speak of.

use oracle::decision::Accepted;
use oracle::decision::accept;
use oracle::decision::function::{Block, EdgeArgument, Instruction};
use oracle::generate::{Family, Random, file_of};
use std::collections::{BTreeMap, BTreeSet};

fn accepted(family: Family) -> Vec<Accepted> {
    let files = (0..1500).map(|number| file_of(family, &mut Random::new(8, number)));
    files.filter_map(|file| accept(&file).ok()).collect()
}

/// The blocks that a walk from block 0 reaches when one block is shut.
fn reached_without(blocks: &[Block], shut: u32) -> BTreeSet<u32> {
    let mut reached = BTreeSet::new();
    let mut to_enter = vec![0];
    while let Some(block) = to_enter.pop() {
        if block != shut && reached.insert(block) {
            to_enter.extend(blocks[block as usize].edges().map(|edge| edge.block));
        }
    }
    reached
}

/// Whether some edge closes a loop, and whether some edge closes one whose head can be gone round.
fn loops(accepted: &Accepted) -> (bool, bool) {
    let blocks = &accepted.function.blocks;
    let walk = &accepted.liveness.walk;
    let (mut closes, mut irreducible) = (false, false);
    for &from in &walk.order {
        for edge in blocks[from as usize].edges() {
            let back = walk.index[edge.block as usize] >= walk.index[from as usize];
            closes |= back;
            irreducible |= back && reached_without(blocks, edge.block).contains(&from);
        }
    }
    (closes, irreducible)
}

fn tell(told: &mut BTreeMap<&'static str, usize>, what: &'static str, holds: bool) {
    *told.entry(what).or_default() += usize::from(holds);
}

fn tell_instruction(
    told: &mut BTreeMap<&'static str, usize>,
    instruction: &Instruction,
    spilled: impl Fn(u32) -> bool,
) {
    let passed = |wanted: fn(&EdgeArgument) -> bool| {
        instruction.edges.iter().any(|edge| edge.values().any(&spilled) && edge.arguments.iter().any(wanted))
    };
    let landing = instruction.flags == 3;
    let targets: BTreeSet<u32> = instruction.edges.iter().map(|edge| edge.block).collect();
    let twice = instruction
        .arguments
        .iter()
        .any(|value| spilled(*value) && instruction.arguments.iter().filter(|other| *other == value).count() > 1);
    tell(told, "flags 0", instruction.flags == 0);
    tell(told, "flags 1", instruction.flags == 1);
    tell(told, "flags 2", instruction.flags == 2);
    tell(told, "flags 3", instruction.flags == 3);
    tell(told, "landing with a returned word", landing && passed(|passed| matches!(passed, EdgeArgument::Returned(_))));
    tell(
        told,
        "landing with an exception word",
        landing && passed(|passed| matches!(passed, EdgeArgument::Exception(_))),
    );
    tell(told, "flags 2 passes a spilled value", instruction.flags == 2 && passed(|_| true));
    tell(told, "two edges to one target", targets.len() < instruction.edges.len());
    tell(told, "context", !instruction.contexts.is_empty());
    tell(told, "a spilled argument twice", twice);
    tell(told, "two spilled results", instruction.results.iter().filter(|value| spilled(**value)).count() > 1);
}

#[test]
fn everything_is_generated() {
    for family in [Family::Dominated, Family::Wide, Family::Undominated] {
        let mut told = BTreeMap::new();
        let (mut sizes, mut spilled_sizes) = (BTreeSet::new(), BTreeSet::new());
        for accepted in accepted(family) {
            let (function, liveness) = (&accepted.function, &accepted.liveness);
            sizes.extend(function.values.iter().map(|value| value.size));
            spilled_sizes.extend(liveness.spilled.iter().map(|value| function.values[value as usize].size));
            let (closes, irreducible) = loops(&accepted);
            tell(&mut told, "loop", closes);
            tell(&mut told, "irreducible", irreducible);
            tell(&mut told, "unreachable block", liveness.walk.order.len() < function.blocks.len());
            tell(&mut told, "cold block", function.blocks.iter().any(|block| block.cold == 1));
            tell(&mut told, "visited again", liveness.visits() > liveness.walk.order.len() as u64);
            for &block in &liveness.walk.order {
                let block = &function.blocks[block as usize];
                let spilled = |value| liveness.spilled.contains(value);
                tell(&mut told, "spilled parameter", block.parameters.iter().any(|value| spilled(*value)));
                block.instructions.iter().for_each(|instruction| tell_instruction(&mut told, instruction, spilled));
            }
        }
        assert_eq!(sizes.len(), 64, "{family:?}");
        assert!([1, 2, 4, 8, 16].iter().all(|size| spilled_sizes.contains(size)), "{family:?}: {spilled_sizes:?}");
        assert!(told.values().all(|&times| times >= 20), "{family:?}: {told:?}");
    }
}
