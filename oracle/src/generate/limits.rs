//! Files at a largest count and one above it, and files whose output is huge.

use super::random::Random;
use crate::record::{Record, bytes, kind, largest};

/// A sound file but for one count, which is at its largest or one above; now and then spoilt besides.
pub fn limit(random: &mut Random) -> Vec<u8> {
    let above = random.below(2) as usize;
    let list = match random.below(6) {
        0 => values(largest::VALUES + above, random),
        1 => blocks(largest::BLOCKS + above, random),
        2 => instructions(largest::INSTRUCTIONS + above, random),
        3 => edges(largest::EDGES + above, random),
        4 => total(largest::RECORDS + above, random),
        _ => output_of(4096 + above, random),
    };
    if random.chance(15) { super::damaged(&list, random) } else { bytes(&list) }
}

fn value(random: &mut Random) -> Record {
    [kind::VALUE, random.pick(&[1, 2, 4, 8, 16]), u32::from(random.chance(60)), 0]
}

/// One instruction defines many values, safepoints and uses follow.
pub fn values(count: usize, random: &mut Random) -> Vec<Record> {
    let mut list: Vec<Record> = (0..count).map(|_| value(random)).collect();
    list.push([kind::BLOCK, 0, 0, 0]);
    for first in (0..count).step_by(64) {
        list.push([kind::INSTRUCTION, u32::from(random.chance(50)), 1, 0]);
        list.extend((first..count.min(first + 64)).map(|value| [kind::RESULT, value as u32, 0, 0]));
    }
    for _ in 0..random.below(40) {
        list.push([kind::INSTRUCTION, 1, 2, 0]);
        list.push([kind::ARGUMENT, random.below(count as u32), 0, 0]);
    }
    list.push([kind::INSTRUCTION, 2, 3, 0]);
    list.push([kind::ARGUMENT, count as u32 - 1, 0, 0]);
    list
}

/// Each block leads to the next and some to another; one marked value is defined first and used in every block.
pub fn blocks(count: usize, random: &mut Random) -> Vec<Record> {
    let mut list: Vec<Record> = vec![[kind::VALUE, 8, 1, 0]];
    for block in 0..count as u32 {
        list.push([kind::BLOCK, random.below(2), block, 0]);
        if block == 0 {
            list.push([kind::PARAMETER, 0, 0, 0]);
        }
        list.extend([[kind::INSTRUCTION, random.below(2), block, 0], [kind::ARGUMENT, 0, 0, 0]]);
        list.push([kind::INSTRUCTION, 2 + random.below(2), block, 0]);
        if block + 1 < count as u32 {
            list.push([kind::EDGE, block + 1, 0, 0]);
        }
        if random.chance(40) {
            list.push([kind::EDGE, random.within(1, count as u32 - 1), 0, 0]);
        }
    }
    list
}

/// One block; as many records besides as there is room for.
pub fn instructions(count: usize, random: &mut Random) -> Vec<Record> {
    let mut list: Vec<Record> = vec![[kind::VALUE, 4, 1, 0], [kind::VALUE, 16, 1, 0], [kind::BLOCK, 0, 0, 0]];
    list.extend([[kind::PARAMETER, 1, 0, 0], [kind::PARAMETER, 0, 0, 0]]);
    for _ in 1..count {
        list.push([kind::INSTRUCTION, random.below(2), 5, 0]);
        if random.chance(30) {
            list.push([kind::ARGUMENT, random.below(2), 0, 0]);
        }
    }
    list.push([kind::INSTRUCTION, 2, 6, 0]);
    list
}

/// Many edges to a few blocks that take a parameter, so that a block has many landings.
pub fn edges(count: usize, random: &mut Random) -> Vec<Record> {
    let targets = random.within(1, 6);
    let mut list: Vec<Record> = vec![[kind::VALUE, 8, 1, 0]; targets as usize + 1];
    list.extend([[kind::BLOCK, 0, 0, 0], [kind::PARAMETER, 0, 0, 0]]);
    list.push([kind::INSTRUCTION, 2 + random.below(2), 0, 0]);
    let safepoint = list[list.len() - 1][1] == 3;
    for _ in 0..count {
        list.push([kind::EDGE, random.within(1, targets), 0, 0]);
        let word = if safepoint { random.below(3) } else { 0 };
        list.push([kind::EDGE_ARGUMENT, word, 0, 0]);
    }
    for block in 1..=targets {
        list.extend([[kind::BLOCK, 1, block, 0], [kind::PARAMETER, block, 0, 0], [kind::INSTRUCTION, 1, 1, 0]]);
        list.extend([[kind::INSTRUCTION, 2, 2, 0], [kind::ARGUMENT, block, 0, 0]]);
    }
    list
}

/// A sound file of this many records: one block, arguments filling it up.
pub fn total(count: usize, random: &mut Random) -> Vec<Record> {
    let mut list: Vec<Record> = vec![[kind::VALUE, 2, 1, 0], [kind::BLOCK, 0, 0, 0], [kind::PARAMETER, 0, 0, 0]];
    list.push([kind::INSTRUCTION, random.below(2), 0, 0]);
    list.push([kind::INSTRUCTION, 1, 0, 0]);
    list.push([kind::INSTRUCTION, 2, 0, 0]);
    list.resize(count, [kind::ARGUMENT, 0, 0, 0]);
    list
}

/// `values` marked values, all live across each of `safepoints` safepoints, and `plain` instructions besides.
fn crossing(values: usize, safepoints: usize, plain: usize, size: u32) -> Vec<Record> {
    let mut list: Vec<Record> = vec![[kind::VALUE, size, 1, 0]; values];
    list.push([kind::BLOCK, 0, 0, 0]);
    list.extend((0..values).map(|value| [kind::PARAMETER, value as u32, 0, 0]));
    list.extend(vec![[kind::INSTRUCTION, 0, 7, 0]; plain]);
    list.extend(vec![[kind::INSTRUCTION, 1, 8, 0]; safepoints]);
    list.push([kind::INSTRUCTION, 2, 9, 0]);
    list.extend((0..values).map(|value| [kind::ARGUMENT, value as u32, 0, 0]));
    list
}

/// A map entry for each value at each safepoint.
pub fn huge(random: &mut Random) -> Vec<Record> {
    if random.chance(3) {
        return largest_output();
    }
    let values = random.within(20, 200) as usize;
    let safepoints = random.within(10, 300) as usize;
    crossing(values, safepoints, 0, random.pick(&[1, 2, 4, 8, 16]))
}

/// 1,023 safepoints that each list 341 values: 353,619 records.
pub fn largest_output() -> Vec<Record> {
    crossing(341, 1023, 0, 8)
}

/// A file whose output has exactly this many records, some thousands.
pub fn output_of(count: usize, random: &mut Random) -> Vec<Record> {
    let values = random.within(10, 40) as usize;
    // A value makes its own record, parameter and use, a slot, a store (3 records) and a load (4).
    let left = count - 2 - values * (3 + 1 + 3 + 4);
    // A safepoint makes its record and an entry a value; plain instructions make up the rest.
    crossing(values, left / (1 + values), left % (1 + values), 4)
}
