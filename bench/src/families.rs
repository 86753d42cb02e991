//! Three families of files, each of about as many records as are asked for: straight code, a ladder of loops, landings.

use oracle::record::{Record, bytes, kind, largest};

pub type Family = fn(usize) -> Vec<u8>;

pub const FAMILIES: [(&str, Family); 3] = [("straight", straight), ("ladder", ladder), ("landings", landings)];

/// A small generator of numbers, the same in every run.
struct Numbers(u64);

impl Numbers {
    fn below(&mut self, bound: u32) -> u32 {
        self.0 ^= self.0 << 13;
        self.0 ^= self.0 >> 7;
        self.0 ^= self.0 << 17;
        (self.0 >> 33) as u32 % bound
    }
}

fn file(sizes: &[u32], marked: impl Fn(u32) -> bool, body: &[Record]) -> Vec<u8> {
    let mut records: Vec<Record> =
        (0u32..).zip(sizes).map(|(value, &size)| [kind::VALUE, size, marked(value).into(), 0]).collect();
    records.extend(body);
    assert!(records.len() <= largest::RECORDS && sizes.len() <= largest::VALUES);
    bytes(&records)
}

/// One block. Every other instruction defines a value; of those between, every other one is a safepoint.
pub fn straight(records: usize) -> Vec<u8> {
    let values = (records.saturating_sub(2) / 7).max(1) as u32;
    let mut numbers = Numbers(77);
    let mut body = vec![[kind::BLOCK, 0, 0, 0]];
    for value in 0..values {
        let recent = |numbers: &mut Numbers, value: u32| value - 1 - numbers.below(value.min(12));
        body.push([kind::INSTRUCTION, 0, value, 0]);
        if value > 0 {
            body.push([kind::ARGUMENT, recent(&mut numbers, value), 0, 0]);
            body.push([kind::ARGUMENT, recent(&mut numbers, value), 0, 0]);
        }
        body.push([kind::RESULT, value, 0, 0]);
        body.push([kind::INSTRUCTION, value % 2, value, 0]);
        body.push([kind::ARGUMENT, recent(&mut numbers, value + 1), 0, 0]);
    }
    body.push([kind::INSTRUCTION, 2, 9, 0]);
    let sizes: Vec<u32> = (0..values).map(|value| [4, 8, 8, 16][value as usize % 4]).collect();
    file(&sizes, |value| value % 2 == 0, &body)
}

/// Up to 60 blocks: each leads on to the next and back to itself, every fourth three blocks further back.
pub fn ladder(records: usize) -> Vec<u8> {
    let blocks = (records / 34).clamp(1, 60) as u32;
    let each = (records / blocks as usize).saturating_sub(4).div_ceil(4).clamp(1, 7) as u32;
    let mut numbers = Numbers(99);
    let mut body = Vec::new();
    for block in 0..blocks {
        body.push([kind::BLOCK, 0, block, 0]);
        for nth in 0..each {
            let value = block * each + nth;
            body.push([kind::INSTRUCTION, (nth % 3 == 1).into(), nth, 0]);
            if value > 0 {
                body.push([kind::ARGUMENT, numbers.below(value), 0, 0]);
            }
            body.push([kind::RESULT, value, 0, 0]);
        }
        body.push([kind::INSTRUCTION, 2, 5, 0]);
        body.push([kind::ARGUMENT, numbers.below((block + 1) * each), 0, 0]);
        let on = (block + 1 < blocks).then_some(block + 1);
        let back = (block > 0).then_some(block);
        let far = (block > 0 && block % 4 == 0).then(|| block - 3);
        body.extend([on, back, far].into_iter().flatten().map(|target| [kind::EDGE, target, 0, 0]));
    }
    let sizes: Vec<u32> = (0..blocks * each).map(|value| [4, 8][value as usize % 2]).collect();
    file(&sizes, |value| value % 3 != 0, &body)
}

/// Up to 62 blocks: all but the last end in a safepoint with two edges that pass values, a returned and an exception word.
pub fn landings(records: usize) -> Vec<u8> {
    let blocks = (records / 33).clamp(2, 62) as u32;
    let mut numbers = Numbers(5);
    let mut body = Vec::new();
    for block in 0..blocks {
        let first = block * 6;
        body.push([kind::BLOCK, 0, block, 0]);
        if block > 0 {
            body.extend((0..4).map(|nth| [kind::PARAMETER, first + nth, 0, 0]));
        } else {
            body.push([kind::INSTRUCTION, 0, 1, 0]);
            body.extend((0..4).map(|nth| [kind::RESULT, first + nth, 0, 0]));
        }
        for (flags, used, defined) in [(1, first, first + 4), (0, first + 4, first + 5)] {
            body.push([kind::INSTRUCTION, flags, 2, 0]);
            body.push([kind::ARGUMENT, used, 0, 0]);
            body.push([kind::RESULT, defined, 0, 0]);
        }
        if block + 1 == blocks {
            body.push([kind::INSTRUCTION, 2, 9, 0]);
            break;
        }
        body.push([kind::INSTRUCTION, 3, 4, 0]);
        body.push([kind::ARGUMENT, first + 1, 0, 0]);
        for target in [block + 1, 1 + numbers.below(blocks - 1)] {
            body.push([kind::EDGE, target, 0, 0]);
            let passed = [[1, 0], [0, first + 2], [0, first + 4], [2, 1]];
            body.extend(passed.map(|[kind, word]| [kind::EDGE_ARGUMENT, kind, word, 0]));
        }
    }
    let sizes = vec![8; blocks as usize * 6];
    file(&sizes, |value| value % 6 < 5, &body)
}
