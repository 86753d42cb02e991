//! Spoilt copies of sound files.

use super::random::Random;
use crate::record::{RECORD_BYTES, Record, bytes, kind, records};

/// One to three faults.
pub fn damaged(sound: &[Record], random: &mut Random) -> Vec<u8> {
    let mut file = bytes(sound);
    for _ in 0..random.pick(&[1, 1, 1, 2, 3]) {
        file = spoil(file, random);
    }
    file
}

fn spoil(mut file: Vec<u8>, random: &mut Random) -> Vec<u8> {
    let whole = file.len() / RECORD_BYTES;
    if whole == 0 {
        return vec![1; random.below(40) as usize];
    }
    match random.below(20) {
        0..2 => {
            let at = random.below(file.len() as u32) as usize;
            file[at] ^= 1 << random.below(8);
            file
        }
        2..5 => {
            set_word(&mut file, random);
            file
        }
        5 => {
            let length = match random.below(3) {
                0 => random.below(file.len() as u32) as usize,
                1 => random.below(whole as u32) as usize * RECORD_BYTES,
                _ => file.len() + random.within(1, 33) as usize,
            };
            file.resize(length, 0);
            file
        }
        kind => {
            let tail = file.split_off(whole * RECORD_BYTES);
            let list = records(&file);
            let list = if kind < 14 { rename(list, random) } else { move_records(list, random) };
            [bytes(&list), tail].concat()
        }
    }
}

/// Gives a record another number that its place allows, or nearly does: a value, a block, flags, a size or a mark.
fn rename(mut list: Vec<Record>, random: &mut Random) -> Vec<Record> {
    let count = |kind: u32| list.iter().filter(|record| record[0] == kind).count() as u32;
    let (values, blocks) = (count(kind::VALUE), count(kind::BLOCK));
    let one = random.below(list.len() as u32) as usize;
    let record = &mut list[one];
    match record[0] {
        kind::VALUE if random.chance(50) => record[1] = random.within(1, 20),
        kind::VALUE => record[2] ^= 1,
        kind::BLOCK => record[1] ^= 1,
        kind::INSTRUCTION => record[1] = random.below(4),
        kind::EDGE => record[1] = random.below(blocks + 1),
        kind::EDGE_ARGUMENT if random.chance(50) => record[1] = random.below(3),
        kind::EDGE_ARGUMENT => record[2] = random.below(values + 1),
        _ => record[1] = random.below(values + 1),
    }
    list
}

/// Puts a number near some boundary into a word, or a word of another record.
fn set_word(file: &mut [u8], random: &mut Random) {
    let list = records(file);
    let count = |kind: u32| list.iter().filter(|record| record[0] == kind).count() as u32;
    let at = random.below(list.len() as u32 * 4) as usize;
    let old = list[at / 4][at % 4];
    let near =
        [0, 1, 2, 3, 4, 5, 7, 8, 9, 10, 11, 15, 16, 17, 32, 63, 64, 65, 255, 256, 511, 512, 513, 65_536, u32::MAX];
    let new = match random.below(4) {
        0 => random.pick(&near),
        1 => old ^ 1,
        2 => random.pick(&[
            count(1),
            count(1).wrapping_sub(1),
            count(2),
            count(2).wrapping_sub(1),
            count(4),
            old.wrapping_add(1),
        ]),
        _ => random.pick(&list)[at % 4],
    };
    file[4 * at..4 * at + 4].copy_from_slice(&new.to_le_bytes());
}

/// Drops, doubles, swaps or moves records.
fn move_records(mut list: Vec<Record>, random: &mut Random) -> Vec<Record> {
    let one = random.below(list.len() as u32) as usize;
    let other = random.below(list.len() as u32) as usize;
    match random.below(5) {
        0 => {
            list.remove(one);
        }
        1 => list.insert(one, list[one]),
        2 => list.swap(one, other),
        3 => {
            let next = (one + 1).min(list.len() - 1);
            list.swap(one, next);
        }
        _ => {
            let record = list.remove(one);
            list.insert(other.min(list.len()), record);
        }
    }
    list
}
