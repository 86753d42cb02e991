//! Cases that are made and not written out: cut files, files at the largest counts and one above.

use super::Case;
use crate::record::{Record, bytes, kind, largest, parse};
use crate::sheets::SHEETS;

/// Refusal 2, also where a lower or higher fault is there besides.
pub fn cut() -> Vec<Case> {
    let sheet = bytes(&parse(SHEETS[0].file));
    let mut cases: Vec<Case> = [1, 4, 12, 15, 17, 31, 33, 97, 111]
        .map(|length| Case { note: format!("2: {length} bytes of P1"), file: sheet[..length].to_vec() })
        .into();
    let longer = [&sheet[..], &[255]].concat();
    cases.push(Case { note: "2: P1 and a byte".to_string(), file: longer });
    cases.push(Case { note: "2, and an unknown kind besides".to_string(), file: vec![77; 20] });
    let mut many = bytes(&vec![[kind::BLOCK, 0, 0, 0]; largest::BLOCKS + 1]);
    many.push(0);
    cases.push(Case { note: "2, and 65 blocks besides".to_string(), file: many });
    cases
}

fn case(note: &str, records: &[Record]) -> Case {
    Case { note: note.to_string(), file: bytes(records) }
}

/// Refusal 3 and its neighbours. Every count but the last is of sound files.
pub fn at_largest_counts() -> Vec<Case> {
    vec![
        case("512 values", &values(largest::VALUES)),
        case("3: 513 values", &values(largest::VALUES + 1)),
        case("64 blocks, of which one is reachable", &blocks(largest::BLOCKS)),
        case("3: 65 blocks", &blocks(largest::BLOCKS + 1)),
        case("1,024 instructions", &instructions(largest::INSTRUCTIONS)),
        case("3: 1,025 instructions", &instructions(largest::INSTRUCTIONS + 1)),
        case("256 edges", &edges(largest::EDGES)),
        case("3: 257 edges", &edges(largest::EDGES + 1)),
        case("2,048 records", &total(largest::RECORDS)),
        case("3: 2,049 records", &total(largest::RECORDS + 1)),
        case("rows of three words: values 63, 64, 127, 128 across a safepoint", &rows()),
        case("3: 513 values and nothing else", &vec![[kind::VALUE, 4, 0, 0]; 513]),
        case("4: 512 values and nothing else", &vec![[kind::VALUE, 4, 0, 0]; 512]),
        case("3: 65 blocks whose numbers are wrong besides", &vec![[kind::BLOCK, 0, 0, 0]; 65]),
        case("3: 257 edges, out of place besides", &vec![[kind::EDGE, 0, 0, 0]; 257]),
        case("3: 2,049 records of an unknown kind", &vec![[99, 0, 0, 0]; 2049]),
        case("4: 2,048 records of an unknown kind", &vec![[99, 0, 0, 0]; 2048]),
        case("4: 1,024 instructions without a block", &vec![[kind::INSTRUCTION, 0, 0, 0]; 1024]),
    ]
}

fn values(count: usize) -> Vec<Record> {
    let mut list: Vec<Record> = vec![[kind::VALUE, 4, 1, 0]; count];
    list.push([kind::BLOCK, 0, 0, 0]);
    list.extend((0..count).map(|value| [kind::PARAMETER, value as u32, 0, 0]));
    list.extend([[kind::INSTRUCTION, 3, 0, 0], [kind::ARGUMENT, count as u32 - 1, 0, 0]]);
    list
}

fn blocks(count: usize) -> Vec<Record> {
    (0..count).flat_map(|block| [[kind::BLOCK, 0, block as u32, 0], [kind::INSTRUCTION, 2, 0, 0]]).collect()
}

fn instructions(count: usize) -> Vec<Record> {
    let mut list: Vec<Record> = vec![[kind::BLOCK, 0, 0, 0]];
    list.extend(vec![[kind::INSTRUCTION, 1, 0, 0]; count - 1]);
    list.push([kind::INSTRUCTION, 2, 0, 0]);
    list
}

fn edges(count: usize) -> Vec<Record> {
    let mut list: Vec<Record> = vec![[kind::BLOCK, 0, 0, 0], [kind::INSTRUCTION, 3, 0, 0]];
    list.extend(vec![[kind::EDGE, 1, 0, 0]; count]);
    list.extend([[kind::BLOCK, 0, 1, 0], [kind::INSTRUCTION, 2, 0, 0]]);
    list
}

fn total(count: usize) -> Vec<Record> {
    let mut list = parse("1 4 0 0; 2 0 0 0; 3 0 0 0; 4 1 0 0; 4 2 0 0");
    list.resize(count, [kind::ARGUMENT, 0, 0, 0]);
    list
}

fn rows() -> Vec<Record> {
    let mut list: Vec<Record> = vec![[kind::VALUE, 4, 1, 0]; 130];
    list.push([kind::BLOCK, 0, 0, 0]);
    list.extend((0..130).map(|value| [kind::PARAMETER, value, 0, 0]));
    list.extend(parse("4 2 0 0; 7 1 0 0; 2 0 1 0; 4 1 0 0; 4 2 0 0; 6 128 0 0; 6 63 0 0; 6 127 0 0; 6 64 0 0"));
    list
}
